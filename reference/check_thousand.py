"""Expected output: checking a thousand days.

N, F and the days are those of thousand.py.  For schemes 1, 2, 3 in turn the
days are sealed, then checked unaltered and with the lowest bit altered in
the first byte of day 1, the first of day 500 and the last of day 1000.  A
line is the scheme, the day altered or 0, the number of the answer, the
number of failing values and the SHA-256 of the outcome bytes; for the
sealing it is the scheme, "sealed", the number and the SHA-256 of the book.
"""

import hashlib

import daybook
import thousand


def ends_of(days):
    out, at = [], 0
    for day in days:
        at += len(day)
        out.append(at)
    return out


def lines():
    days = thousand.days()
    ends = ends_of(days)
    out = []
    for scheme in (1, 2, 3):
        f = thousand.interval_count(scheme)
        count = daybook.values(scheme, thousand.N, thousand.DAYS)
        book = bytearray(32 * count)
        number = daybook.seal(scheme, thousand.N, f, thousand.DAYS,
                              b"".join(days), ends, book)
        out.append("%d sealed %d %s" % (scheme, number,
                                        hashlib.sha256(book).hexdigest()))
        for day, index in ((0, 0), (1, 0), (500, 0), (1000, -1)):
            altered = [bytearray(day_bytes) for day_bytes in days]
            if day:
                altered[day - 1][index] ^= 1
            work = bytearray(32 * thousand.DAYS)
            outcomes = bytearray(count)
            number = daybook.check(scheme, thousand.N, f, thousand.DAYS,
                                   b"".join(altered), ends, book, work,
                                   outcomes)
            out.append("%d %d %d %d %s" % (
                scheme, day, number, outcomes.count(0),
                hashlib.sha256(outcomes).hexdigest()))
    return out


if __name__ == "__main__":
    print("\n".join(lines()))
