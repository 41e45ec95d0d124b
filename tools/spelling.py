#!/usr/bin/env python3
"""Brings the names of definitions, fields and lemmas of specs/ and proofs/ to today's spelling, once, after port.py.

usage: tools/spelling.py [--map FILE]      in the repository; with FILE the map is read from it, or written to it if absent

Words are in snake case; a dash stays only between two names of definitions, as in length-keep. Types and facts keep
their capitals, the names of functions, exports, strings and generated names stay.
"""
import glob
import json
import os
import re
import sys

# names that would fall together with another name, a field or a variable beside them
OWN = {
    "lastGood": "last_good_day",
    "last-good": "last_good",
    "book-written": "book_is_written",
    "days-found": "search_days_found",
    "found-days": "found_days_are",
    "stored-once": "black_stored_once",
    "tree-days": "days_of_tree",
    "recordBytes": "bytes_of_record",
    "all_apart": "all_apart_lem",
    "one_bit": "one_bit_lem",
    "last_line": "last_line_lem",
    "record_of": "record_of_lem",
}

# names of lists that lemmas are about
STD = set("length take drop set append map get_or sum concat".split())
TOKEN = re.compile(r"[^\s(){}\[\];,.:→×⊎∧∨λ≡=|`]+")
DECLARED = re.compile(r"^(\s*)((?:pub |abbrev |unfoldable |data |record )*)([^\s:(){};,λ→=|.]+) :(?: |$)")


def files(pattern):
    return sorted(f for f in glob.glob(pattern, recursive=True) if "/out/" not in f)


def declared():
    specs, lemmas = [], []
    for f in files("crates/*/specs/*.antt") + files("crates/*/proofs/*.antt") + files("crates/*/proofs/*/Proof.antt"):
        for line in open(f):
            if line.startswith(("use ", "--")):
                continue
            m = DECLARED.match(line)
            if not m or m.group(3)[0].isupper() or m.group(3) == "_":
                continue
            n = m.group(3)
            if "/Proof.antt" in f:
                if n.endswith("-spec"):
                    lemmas.append(n)
            elif "/specs/" in f:
                specs.append(n)
            else:
                lemmas.append(n)
    return list(dict.fromkeys(specs)), list(dict.fromkeys(lemmas))


def snake(word):
    if word[:1].isupper():
        return word
    return re.sub(r"(?<=[a-z0-9])([A-Z]+)", lambda m: "_" + m.group(1).lower(), word)


def new_names():
    specs, lemmas = declared()
    words = {snake(n) for n in specs + lemmas if "-" not in n}
    long = {w for w in words if "_" in w}
    found = {n: to for n, to in OWN.items()}
    for n in specs + lemmas:
        parts = [snake(p) for p in n.strip("◌").split("-")]
        pair = len(parts) > 1 and all(p in long or p in STD for p in parts) and any(p in long for p in parts)
        to = ("-" if pair else "_").join(parts)
        if "-" in n and to in words:
            to += "_lem"
        if n.startswith("◌"):
            to = "◌" + to + "◌"
        to = OWN.get(n, to)
        if to != n:
            found[n] = to
            if n.startswith("◌"):
                found[n.strip("◌")] = to.strip("◌")
    return found


def turned(text, names):
    return TOKEN.sub(lambda m: names.get(m.group(0), m.group(0)), text)


def main(argv):
    if argv[:1] == ["--map"] and os.path.exists(argv[1]):
        names = json.load(open(argv[1]))
    else:
        names = new_names()
        if argv[:1] == ["--map"]:
            json.dump(names, open(argv[1], "w"), ensure_ascii=False, indent=0)
    n = 0
    for f in files("crates/**/*.antt") + files("crates/*/src/*.rt"):
        old = open(f).read()
        new = turned(old, names)
        if new != old:
            open(f, "w").write(new)
            n += 1
    print(f"{len(names)} names, {n} files")


if __name__ == "__main__":
    main(sys.argv[1:])
