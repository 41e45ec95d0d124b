"""Expected output: the book of a thousand days.

Usage: thousand.py SCHEME

N is 8; F is 25 under schemes 1 and 2, and 1 under scheme 3.  Day g has
(7 g) mod 131 bytes.  Prints, a line each: the number of values, the SHA-256
of the book, its first, middle (index values // 2, from 0) and last value.
"""

import hashlib
import sys

import daybook
from pattern import day_bytes

N = 8
DAYS = 1000


def days():
    return [day_bytes(g, (g * 7) % 131) for g in range(1, DAYS + 1)]


def interval_count(scheme):
    return 1 if scheme == 3 else 25


def lines(scheme):
    book = daybook.book(scheme, N, days())
    count = daybook.values(scheme, N, DAYS)
    out = [str(count), hashlib.sha256(book).hexdigest()]
    for k in (0, count // 2, count - 1):
        out.append(book[32 * k:32 * k + 32].hex())
    return out


if __name__ == "__main__":
    if len(sys.argv) != 2 or sys.argv[1] not in ("1", "2", "3"):
        sys.exit("usage: thousand.py SCHEME (1, 2 or 3)")
    print("\n".join(lines(int(sys.argv[1]))))
