"""Expected output: the close of day 65,536, and what comes next.

For schemes 1, 2, 3, in each N 1, 8, 256 (F 1), and in each the seasons 0,
65,534 and 65,535: a record of that season with 65,535 days closed, an empty
open day, 18 running values (black is value 0, slot s is value s + 1) and a
start, value 18; word j of value k, big-endian, is 1000 k + j.  Adds the bytes
61 62 63 hex and closes, with room for 18 values.

Prints for each, a line each: the number of values of the close (or "NO,"
and its refusal) and, if it is not refused, the SHA-256 of what was written;
the answer of one more add of the same bytes; of one more close what is said
of the first.
"""

import hashlib

import daybook

PIECE = bytes([0x61, 0x62, 0x63])
ROOM = 32 * (1 + daybook.SLOTS)
SEASONS = 0, 65_534, 65_535


def record(scheme, n, season=0):
    *running, first = [
        b"".join((1000 * k + j).to_bytes(4, "big") for j in range(8))
        for k in range(2 + daybook.SLOTS)]
    return daybook.made_up(scheme, n, 1, 65_535, running, first,
                           season=season)


def close_lines(rec):
    """(lines, record) of a close."""
    part = bytearray(ROOM)
    refusal, rec, count = daybook.close(rec, part)
    if refusal:
        return [f"NO,{refusal}"], rec
    return [str(count), hashlib.sha256(part[:32 * count]).hexdigest()], rec


def lines():
    out = []
    for scheme in (1, 2, 3):
        for n in (1, 8, 256):
            for season in SEASONS:
                refusal, rec = daybook.add(record(scheme, n, season), PIECE)
                assert refusal == 0
                last, rec = close_lines(rec)
                refusal, rec = daybook.add(rec, PIECE)
                following, rec = close_lines(rec)
                out += [*last, str(refusal), *following]
    return out


if __name__ == "__main__":
    print("\n".join(lines()))
