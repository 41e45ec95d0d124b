"""The refusals of sealing and of checking: cases and expected output.

Usage: check_refusals.py [stdin]

A line is the numbers handed to both calls, then for each call its name, the
number of its answer (0 for done), and for each buffer that it may write the
place from which on the buffer is as it was: book for seal, work and outcomes
for check.  A refusal leaves each from place 0 on.

The numbers are scheme, N, F, D, the count of ends lent, an index and the
end put there, the lengths of ledger, book, work and outcomes; seal has no
use for the last two.  The ends are 4, 8, 12 and so on; the ledger's bytes
are 98, those of the other buffers 170.  Every cause stands alone and with
each other one.  With `stdin` a line has the numbers only: what
crates/test_checking reads.
"""

import sys

import daybook

# scheme, N, F, D, ends, index, end there, ledger, book, work, outcomes
PLAIN = (2, 4, 2, 16, 16, 0, 4, 64, 512, 512, 16)
FIELDS = ("scheme", "n", "f", "d", "count", "index", "end", "size", "book",
          "work", "places")


def case(**given):
    return tuple(given.get(name, value) for name, value in zip(FIELDS, PLAIN))


# buffers just long enough, and longer
DONE = [
    case(),
    case(scheme=1, book=128, places=4),
    case(scheme=3, f=1, book=1024, places=32),
    case(count=20, size=80, book=1100, work=600, places=40),
    case(scheme=3, f=1, count=20, size=80, book=1100, work=600, places=40),
    case(scheme=1, n=1, f=1, d=1, count=1, size=4, book=32, work=32,
         places=1),
    case(scheme=2, n=1, f=1, d=1, count=1, size=4, book=64, work=32,
         places=2),
    case(scheme=3, n=1, f=1, d=1, count=1, size=4, book=32, work=32,
         places=1),
    case(scheme=3, n=1, f=1, d=3, count=3, size=12, book=160, work=96,
         places=5),
    case(scheme=1, n=16, f=1, book=32, places=1),
]

# 1; 2; 3
SETUP = [
    case(scheme=0), case(scheme=4), case(scheme=4294967295),
    case(n=0), case(n=3), case(n=512), case(n=2147483648),
    case(f=0), case(f=65), case(f=4294967295),
    case(scheme=3, f=2, book=1024, places=32),
]

# 7: out of range, and no multiple of F N
DAYS = [
    case(d=0), case(d=65537), case(d=65544), case(d=4294967295),
    case(d=4294967288), case(d=12), case(d=15), case(d=17),
    case(f=3, d=65536), case(scheme=3, f=1, d=14, book=1024, places=32),
]

# 9; ends past D are not read
FEW = [
    case(count=15), case(count=0), case(d=65536), case(f=1, d=4, count=3),
    case(count=17, index=16, end=0),
    case(count=17, index=16, end=4294967295),
    case(count=20, index=17, end=3),
]

# 10, beside the ends that are just good
ENDS = [
    case(size=63), case(size=0), case(size=65),
    case(index=15, end=65, size=65), case(index=15, end=65, size=64),
    case(index=15, end=60), case(index=15, end=59), case(index=15, end=0),
    case(index=0, end=0), case(index=0, end=8), case(index=0, end=9),
    case(index=5, end=20), case(index=5, end=19), case(index=5, end=28),
    case(index=5, end=29), case(index=15, end=4294967295),
    case(index=0, end=16777217),
]

# the book: 8 for seal, 11 for check
BOOK = [
    case(book=511), case(book=0), case(scheme=1, book=127, places=4),
    case(scheme=3, f=1, book=1023, places=32),
    case(scheme=3, n=1, f=1, d=3, count=3, size=12, book=159, work=96,
         places=5),
]

# 8 for check
ROOM = [
    case(work=511), case(work=0), case(places=15), case(places=0),
    case(scheme=1, book=128, places=3),
    case(scheme=3, f=1, book=1024, places=31),
    case(scheme=3, f=1, book=1024, work=511, places=32),
]

# one cause of each number, for check 1 2 3 7 9 10 11 8 8, for seal
# 1 2 3 7 9 10 8, with each other one
CAUSES = [
    dict(scheme=4), dict(n=3), dict(f=65), dict(d=13), dict(count=11),
    dict(index=5, end=19), dict(book=383), dict(work=383), dict(places=11),
]
PAIRS = [case(**first, **second) for k, first in enumerate(CAUSES)
         for second in CAUSES[k + 1:]]

ALL = [case(scheme=0, n=0, f=0, d=0, count=0, size=0, book=0, work=0,
            places=0)]
CASES = DONE + SETUP + DAYS + FEW + ENDS + BOOK + ROOM + PAIRS + ALL


def kept(buffer):
    """The first place from which on all bytes are 170."""
    return len(bytes(buffer).rstrip(b"\xaa"))


def ends_of(count, index, end):
    ends = [4 * (k + 1) for k in range(20)]
    ends[index] = end
    return ends[:count]


def line(*given):
    scheme, n, f, d, count, index, end, size, room, length, places = given
    ends = ends_of(count, index, end)
    book = bytearray(b"\xaa" * room)
    work = bytearray(b"\xaa" * length)
    outcomes = bytearray(b"\xaa" * places)
    checked = daybook.check(scheme, n, f, d, b"b" * size, ends, book, work,
                            outcomes)
    sealed = daybook.seal(scheme, n, f, d, b"b" * size, ends, book)
    return "%s: seal %d %d check %d %d %d" % (
        ",".join(map(str, given)), sealed, kept(book), checked, kept(work),
        kept(outcomes))


def lines():
    return [line(*given) for given in CASES]


if __name__ == "__main__":
    given = sys.argv[1:] == ["stdin"]
    for text in lines():
        print(text.split(":")[0] if given else text)
