"""Randomised comparison of a library with the second implementation.

    python3 compare.py LIBRARY [--cases K] [--seed S] [--jobs J]
    python3 compare.py LIBRARY --one SCHEME INDEX
    python3 compare.py LIBRARY --broken

LIBRARY is a shared library with the calls of daybook.h.  Every call is made
on arrays that lie between guard bytes; its answer, every array and every
guard byte are compared with what daybook.py and record.py say.

A case is given by seed, layout and index.  The first indices of a layout
are the cases run once, the K random ones follow.
"""

import argparse
import multiprocessing
import os
import random
import sys
import time
from collections import Counter

from cases import CHOICES, KINDS, ONCE
from guarded import ANSWERS, FORMS, LABELS, Arena, Case, Different, load


STAND_IN = "stand-in"


def run_case(calls, arena, seed, scheme, index, counts, break_at=None,
             breaker=None, verbose=False):
    """(kind, number of calls, difference or None) of a case."""
    rng = random.Random(f"{seed}/{scheme}/{index}")
    kind = ONCE[index] if index < len(ONCE) else rng.choice(CHOICES)
    case = Case(calls, arena, scheme, rng, counts, break_at, breaker, verbose)
    difference = None
    try:
        kind(case)
    except Different as found:
        difference = str(found)
    return kind.__name__, case.made, difference


def report(seed, scheme, index, kind, text):
    return (f"seed {seed} scheme {scheme} index {index} kind {kind}\n"
            f"    {text}")


def run_one(calls, arena, seed, scheme, index, counts, broken, result,
            verbose=False):
    """Run a case, in broken mode a second time with a corrupted answer."""
    kind, made, difference = run_case(calls, arena, seed, scheme, index,
                                      counts, verbose=verbose)
    counts["kind", kind, scheme] += 1
    result["cases"] += 1
    if difference:
        result["different"] += 1
        result["texts"].append(report(seed, scheme, index, kind, difference))
    elif broken:
        breaker = random.Random(f"{seed}/{scheme}/{index}/broken")
        _, _, found = run_case(calls, arena, seed, scheme, index, Counter(),
                               breaker.randrange(made), breaker, verbose)
        if found is None:
            result["missed"] += 1
            result["texts"].append(report(seed, scheme, index, kind,
                                          "a corrupted answer was missed"))


def new_result():
    return {"cases": 0, "different": 0, "missed": 0, "texts": []}


def tasks(options):
    """Ranges of cases: (scheme, first, past the last), the long ones first."""
    out = [(scheme, k, k + 1) for k in range(len(ONCE))
           for scheme in (1, 2, 3) if not options.without_once]
    first, last = len(ONCE), len(ONCE) + options.cases
    out += [(scheme, k, min(k + 250, last)) for k in range(first, last, 250)
            for scheme in (1, 2, 3)]
    return out


def work(number, pipe, options, following, current):
    """One process: takes tasks until none is left."""
    calls, arena = calls_of(options), Arena()
    counts, result = Counter(), new_result()
    todo = tasks(options)
    while True:
        with following.get_lock():
            k = following.value
            following.value += 1
        if k >= len(todo):
            break
        scheme, first, last = todo[k]
        for index in range(first, last):
            current[2 * number], current[2 * number + 1] = scheme, index
            run_one(calls, arena, options.seed, scheme, index, counts,
                    options.broken, result)
    pipe.send((counts, result))
    pipe.close()


def run_all(options):
    """All cases by several processes: (counts, result)."""
    following = multiprocessing.Value("l", 0)
    current = multiprocessing.Array("l", 2 * options.jobs, lock=False)
    running = []
    for number in range(options.jobs):
        here, there = multiprocessing.Pipe(duplex=False)
        process = multiprocessing.Process(
            target=work, args=(number, there, options, following, current))
        process.start()
        there.close()
        running.append((process, here))
    counts, result = Counter(), new_result()
    for number, (process, pipe) in enumerate(running):
        try:
            found, part = pipe.recv()
            counts += found
            for key in result:
                result[key] += part[key]
        except EOFError:
            process.join()
            scheme, index = current[2 * number:2 * number + 2]
            result["cases"] += 1
            result["different"] += 1
            result["texts"].append(
                f"seed {options.seed} scheme {scheme} index {index}: the "
                f"process ended with status {process.exitcode}")
        process.join()
    return counts, result


def calls_of(options):
    if options.library == STAND_IN:
        import stand_in
        return stand_in.calls()
    return load(options.library)


def print_summary(counts):
    print("cases of each kind, for schemes 1, 2, 3:")
    for kind in [*ONCE, *(kind for kind, _ in KINDS)]:
        numbers = [counts["kind", kind.__name__, s] for s in (1, 2, 3)]
        print(f"  {kind.__name__:17}" + "".join(f"{k:9}" for k in numbers))
    print("calls by answer:")
    for name in FORMS:
        seen = {answer: counts["answer", name, answer]
                for answer in ANSWERS[name]}
        print(f"  {name:14}" + " ".join(f"{answer}:{number}" for answer,
                                        number in seen.items()))
    print("of these, where 65,536 days are closed:")
    for name in ("add", "close"):
        print(f"  {name:14}" + " ".join(
            f"{answer}:{counts['full', name, answer]}"
            for answer in ANSWERS[name]))
    print("null pointers: " + " ".join(
        f"{key[1]}:{number}" for key, number in sorted(
            (key, number) for key, number in counts.items()
            if key[0] == "null")))


def unseen(counts):
    """Answers and null pointers that no call had."""
    out = [f"{name} {answer}" for name in FORMS for answer in ANSWERS[name]
           if not counts["answer", name, answer]]
    out += [f"{name} {answer} where 65,536 days are closed"
            for name in ("add", "close") for answer in ANSWERS[name]
            if not counts["full", name, answer]]
    out += [f"null {name}.{label}" for name, form in FORMS.items()
            for letter, label in zip(form, LABELS[name])
            if letter in "bw" and not counts["null", name + "." + label]]
    return out


def parse(arguments):
    parser = argparse.ArgumentParser(description=__doc__.splitlines()[0])
    parser.add_argument("library", help="path of the shared library, or "
                        f"{STAND_IN} for the one in stand_in.py")
    parser.add_argument("--cases", type=int, help="random cases a layout "
                        "(100000; 5000 with --broken)")
    parser.add_argument("--seed", type=int, default=1)
    parser.add_argument("--jobs", type=int, default=2)
    parser.add_argument("--one", type=int, nargs=2,
                        metavar=("SCHEME", "INDEX"), help="run one case and "
                        "print its calls")
    parser.add_argument("--without-once", action="store_true", help="leave "
                        "out the cases run once a layout")
    parser.add_argument("--broken", action="store_true", help="corrupt one "
                        "answer a case; each must be found")
    options = parser.parse_args(arguments)
    if options.library != STAND_IN:
        options.library = os.path.abspath(options.library)
        if not os.path.isfile(options.library):
            parser.error("no such library: " + options.library)
    if options.cases is None:
        options.cases = 5000 if options.broken else 100000
    return options


def main(arguments=None):
    options = parse(arguments)
    began = time.monotonic()
    print(f"seed {options.seed}", flush=True)
    if options.one:
        counts, result = Counter(), new_result()
        run_one(calls_of(options), Arena(), options.seed, *options.one,
                counts, options.broken, result, verbose=True)
    else:
        counts, result = run_all(options)
        print_summary(counts)
        for text in unseen(counts):
            print("never seen: " + text)
    for text in result["texts"][:50]:
        print(text)
    print(f"{time.monotonic() - began:.0f} seconds")
    cases, different = result["cases"], result["different"]
    if different:
        print(f"compare: DIFFERENT ({different} of {cases} cases)")
    elif options.broken:
        print(f"compare: {cases - result['missed']} of {cases} corrupted "
              f"answers found")
    else:
        print(f"compare: {cases} cases, all equal")
    return 1 if different or result["missed"] else 0


if __name__ == "__main__":
    sys.exit(main())
