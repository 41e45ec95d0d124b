"""Expected output: each call for C, its arguments by position.

Scheme 2, N 8, F 3.  A record is opened, nine days of 130 bytes are added and
closed, and its values are counted.  Then a ledger of the first 24 days of
thousand.py, with zeros behind up to 1,400 bytes: its values are counted, a
season of days of 130 bytes, 30 lengths lent, is sized, the chain at position 7
is found and the position of c(3) of the last tile, the ledger is sealed,
checked with the lowest bit altered in the first byte of day 10, and read with
P 0, which is D - F*N, with P 16, and with P 12, which is refused, and its
outcomes are searched with limit 7, which is refused too.  Then a table of
scheme 3, N 2, F 1, D 6, with the days 2 and 6 changed and four outcomes of 170
behind, is searched with limit 5.  The sets of 2 offsets in a tile of 4 days
are counted, and those of 4 in a tile of 2, which is refused.  Last the
version.

A line is the call, what it returned and what it wrote: of a record the lowest
bytes of its six numbers, the season last, and at open its start, the blocks of
an add, of a close the number of values, the blocks and the first 32 bytes of a
part of 200, the three sizes, the four numbers of a chain, a position, of a
book of 500 bytes and of a work buffer of 800 the first 32, all 20 outcomes,
the five numbers and all 30 places of a list, the three numbers of a search and
all places of its list, 30 and 9, the two counts.  A byte not written is 170
(aa), a number 99, one of the five 98, of blocks 97, a size 96, one of the four
95, one of the three 94, a count 93.
"""

import daybook
import record
import thousand
from pattern import day_bytes

SETTINGS = 2, 8, 3
DAYS = 24


def line(name, returned, *written):
    """Bytes as hexadecimal digits, numbers as decimals."""
    return " ".join([name, str(returned), *(
        x.hex() if isinstance(x, (bytes, bytearray)) else str(x)
        for x in written)])


def numbers_of(data):
    """The lowest bytes of the record's numbers."""
    return bytes(x % 256 for x in record.fields(data))


def record_lines():
    refusal, data = record.open_service(*SETTINGS)
    out = [line("open", refusal, numbers_of(data),
                data[record.START:record.SEASON])]
    for g in range(1, 10):
        blocks = record.add_blocks(data, day_bytes(g, 130))
        refusal, data = record.add(data, day_bytes(g, 130))
        out.append(line("add", refusal, numbers_of(data), blocks))
        blocks = record.close_blocks(data)
        refusal, data, values = record.close(data, 200)
        part = b"".join(values) + bytes([170]) * 200
        out.append(line("close", refusal, len(values), blocks, part[:32]))
    return out + [line("record_values", *record.record_values(data))]


def ledger_lines():
    ledger = bytearray(b"".join(thousand.days()[:DAYS]).ljust(1400, b"\0"))
    ends = [0]
    for day in thousand.days()[:DAYS]:
        ends.append(ends[-1] + len(day))
    settings = *SETTINGS, DAYS
    out = [line("values", *daybook.number_of_values(*settings)),
           line("forecast", *daybook.forecast(*settings, [130] * 30)),
           line("chain_at", *daybook.chain_at(*settings, 7)),
           line("position_of",
                *daybook.position_of(*settings, (2, 3, 17, 23)))]
    book = bytearray([170]) * 500
    refusal = daybook.seal(*settings, ledger, ends[1:], book)
    out.append(line("seal", refusal, book[:32]))
    ledger[ends[9]] ^= 1
    work, outcomes = bytearray([170]) * 800, bytearray([170]) * 20
    refusal = daybook.check(*settings, ledger, ends[1:], book, work, outcomes)
    out.append(line("check", refusal, work[:32], outcomes))
    return [*out, *(read_line(settings, passed, outcomes)
                    for passed in (0, 16, 12)),
            search_line(settings, outcomes, 7, 30)]


def read_line(settings, passed, outcomes):
    places, numbers = [99] * 30, [98] * 5
    found = daybook.read(*settings, passed, outcomes, places)
    if not found.refusal:
        numbers = [found.listed, found.first, found.low, found.high,
                   found.last_good]
    return line("read", found.refusal, *numbers, *places)


def search_line(settings, outcomes, limit, count):
    places, progress = [99] * count, [94] * 3
    refusal, *found = daybook.search(*settings, outcomes, limit, places)
    return line("search", refusal, *(progress if refusal else found), *places)


def tree_line():
    changed = 0b100010          # days 2 and 6
    table = [int(mask & changed == 0) for mask in daybook.masks(3, 2, 6)]
    return search_line((3, 2, 1, 6), table + [170] * 4, 5, 9)


def counts_line(n, k):
    refusal, *found = daybook.tile_counts(n, k)
    return line("tile_counts", refusal, *([93] * 2 if refusal else found))


def lines():
    return [*record_lines(), *ledger_lines(), tree_line(),
            counts_line(4, 2), counts_line(2, 4),
            line("version", daybook.VERSION)]


if __name__ == "__main__":
    print("\n".join(lines()))
