"""Expected output: books of days whose lengths meet the block bounds.

N is 4, F 1, D 16.  Prints for schemes 1, 2, 3 in turn, a line each: the
number of values and the SHA-256 of the book.  A book does not depend on how
its days are cut into pieces.
"""

import hashlib

import daybook
from pattern import day_bytes

N = 4
LENGTHS = [0, 54, 55, 56, 62, 63, 64, 65, 118, 119, 120, 126, 127, 128, 1, 2]


def days():
    return [day_bytes(g, length) for g, length in enumerate(LENGTHS, 1)]


def lines():
    out = []
    for scheme in (1, 2, 3):
        book = daybook.book(scheme, N, days())
        out.append(str(daybook.values(scheme, N, len(LENGTHS))))
        out.append(hashlib.sha256(book).hexdigest())
    return out


if __name__ == "__main__":
    print("\n".join(lines()))
