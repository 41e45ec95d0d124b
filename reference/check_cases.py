"""Expected output: altered ledgers and books, sealed and checked.

N is 4, F 1, D 16.  For schemes 1, 2, 3 in turn the ledger is sealed, then
checked as it is, altered, and against altered books.  A line is the scheme,
the case, the number of the answer (0 for done), the outcomes as digits and
the SHA-256 of the day digests; for the sealing it is the scheme, "sealed",
the number and the SHA-256 of the book.  To alter a byte is to alter its
lowest bit.  The ledger has 120 zero bytes after its last day.
"""

import hashlib

import daybook
from pattern import day_bytes

N, F, D = 4, 1, 16
LENGTHS = [1, 54, 55, 56, 62, 63, 64, 65, 0, 118, 119, 120, 126, 127, 128, 2]
SIZE = 1280


def layout_days(numbered):
    """(ledger, ends) of the days, given as (day, length)."""
    days = [day_bytes(g, length) for g, length in numbered]
    ends, at = [], 0
    for day in days:
        at += len(day)
        ends.append(at)
    return bytearray(b"".join(days).ljust(SIZE, b"\0")), ends


def plain():
    return list(enumerate(LENGTHS, 1))


def byte_altered(day, index):
    """One byte of a day altered; the index counts from 0, or back from -1."""
    ledger, ends = layout_days(plain())
    start = ends[day - 2] if day > 1 else 0
    ledger[start + index if index >= 0 else ends[day - 1] + index] ^= 1
    return ledger, ends


def byte_after_altered():
    ledger, ends = layout_days(plain())
    ledger[ends[-1]] ^= 1
    return ledger, ends


def end_moved(day, by):
    ledger, ends = layout_days(plain())
    ends[day - 1] += by
    return ledger, ends


def resized(day, length):
    numbered = plain()
    numbered[day - 1] = (day, length)
    return layout_days(numbered)


def exchanged(a, b):
    numbered = plain()
    numbered[a - 1], numbered[b - 1] = numbered[b - 1], numbered[a - 1]
    return layout_days(numbered)


def ledgers():
    return [
        ("unaltered", layout_days(plain())),
        ("first-day", byte_altered(1, 0)),
        ("middle-day", byte_altered(8, 45)),
        ("last-day", byte_altered(16, -1)),
        ("after-last-day", byte_after_altered()),
        ("day-7-shorter-day-8-longer", end_moved(7, -1)),
        ("day-7-longer-day-8-shorter", end_moved(7, 1)),
        ("day-7-empty", end_moved(7, -LENGTHS[6])),
        ("last-day-longer", end_moved(16, 1)),
        ("last-day-empty", end_moved(16, -LENGTHS[15])),
        ("day-1-emptied", resized(1, 0)),
        ("day-9-filled", resized(9, 1)),
        ("day-10-shorter", resized(10, LENGTHS[9] - 1)),
        ("days-2-3-exchanged", exchanged(2, 3)),
        ("days-1-16-exchanged", exchanged(1, 16)),
    ]


def books(book):
    def altered(value, byte):
        out = bytearray(book)
        out[32 * value + byte] ^= 1
        return out

    count = len(book) // 32
    return [
        ("first-byte-of-book", altered(0, 0)),
        ("byte-32-of-book", altered(0, 31)),
        ("byte-33-of-book", altered(1, 0)),
        ("middle-value", altered(count // 2, 16)),
        ("last-byte-of-book", altered(count - 1, 31)),
        ("zeros", bytes(len(book))),
    ]


def line(scheme, name, ledger, ends, book):
    work = bytearray(32 * D)
    outcomes = bytearray(daybook.values(scheme, N, D))
    number = daybook.check(scheme, N, F, D, ledger, ends, book, work, outcomes)
    return "%d %s %d %s %s" % (scheme, name, number,
                               "".join(str(o) for o in outcomes),
                               hashlib.sha256(work).hexdigest())


def lines():
    out = []
    for scheme in (1, 2, 3):
        ledger, ends = layout_days(plain())
        book = bytearray(32 * daybook.values(scheme, N, D))
        number = daybook.seal(scheme, N, F, D, ledger, ends, book)
        assert book == daybook.book(
            scheme, N, [day_bytes(g, length) for g, length in plain()])
        out.append("%d sealed %d %s" % (scheme, number,
                                        hashlib.sha256(book).hexdigest()))
        for name, (altered, altered_ends) in ledgers():
            out.append(line(scheme, name, altered, altered_ends, book))
        for name, altered in books(book):
            out.append(line(scheme, name, ledger, ends, altered))
    return out


if __name__ == "__main__":
    print("\n".join(lines()))
