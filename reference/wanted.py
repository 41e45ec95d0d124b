"""What the calls of daybook.h must give, by daybook.py and record.py.

WANT has a function for each call.  It takes the call's arguments, arrays as
bytes or as lists of words, and gives the answer and the arguments with the
arrays as they are afterwards.
"""

from functools import lru_cache

import daybook
import record

SUBSETS = 10                # up to this D, reading tries every set of days


def front(written, old):
    """An array after its front was written."""
    return written + old[len(written):]


def want_open(scheme, n, f, old):
    refusal, new = record.open_service(scheme, n, f)
    return refusal, (scheme, n, f, new)


def want_add(old, piece, blocks):
    refusal, new = record.add(old, piece)
    if refusal:
        return refusal, (old, piece, blocks)
    return 0, (new, piece, (record.add_blocks(old, piece),))


def want_close(old, part, values, blocks):
    refusal, new, written = record.close(old, len(part))
    if refusal:
        return refusal, (old, part, values, blocks)
    return 0, (new, front(b"".join(written), part), (len(written),),
               (record.close_blocks(old),))


def want_seal(scheme, n, f, d, ledger, ends, book):
    same = scheme, n, f, d, ledger, ends
    refusal = daybook.seal_refusal(*same, len(book))
    if refusal:
        return refusal, (*same, book)
    digests = day_digests(d, ledger, ends)
    return 0, (*same, front(b"".join(values_of(scheme, n, digests)), book))


def want_check(scheme, n, f, d, ledger, ends, book, work, outcomes):
    same = scheme, n, f, d, ledger, ends, book
    refusal = daybook.check_refusal(*same, work, outcomes)
    if refusal:
        return refusal, (*same, work, outcomes)
    digests = day_digests(d, ledger, ends)
    table = bytes(book[32 * k:32 * k + 32] == v
                  for k, v in enumerate(values_of(scheme, n, digests)))
    return 0, (*same, front(b"".join(digests), work), front(table, outcomes))


def want_read(scheme, n, f, d, passed, outcomes, places, numbers):
    same = scheme, n, f, d, passed, outcomes
    after = list(places)
    result = daybook.read(*same, after, lister)
    if result.refusal:
        return result.refusal, (*same, places, numbers)
    return 0, (*same, after, (result.listed, result.first, result.low,
                              result.high, result.last_good))


def want_search(scheme, n, f, d, outcomes, limit, places, progress):
    same = scheme, n, f, d, outcomes, limit
    after = list(places)
    refusal, *found = daybook.search(*same, after, lister)
    if refusal:
        return refusal, (*same, places, progress)
    return 0, (*same, after, found)


def want_values(scheme, n, f, d, values):
    refusal, count = daybook.number_of_values(scheme, n, f, d)
    return refusal, (scheme, n, f, d, values if refusal else (count,))


def want_record_values(old, values):
    refusal, count = record.record_values(old)
    return refusal, (old, values if refusal else (count,))


def want_forecast(scheme, n, f, d, lengths, sizes):
    refusal, *found = daybook.forecast(scheme, n, f, d, lengths)
    return refusal, (scheme, n, f, d, lengths, sizes if refusal else found)


def want_chain_at(scheme, n, f, d, position, chain):
    refusal, *four = daybook.chain_at(scheme, n, f, d, position)
    return refusal, (scheme, n, f, d, position, chain if refusal else four)


def want_position_of(scheme, n, f, d, chain, position):
    refusal, place = daybook.position_of(scheme, n, f, d, chain)
    return refusal, (scheme, n, f, d, chain, position if refusal else (place,))


def want_tile_counts(n, k, counts):
    refusal, *found = daybook.tile_counts(n, k)
    return refusal, (n, k, counts if refusal else found)


def want_version():
    return daybook.VERSION, ()


WANT = {"open": want_open, "add": want_add, "close": want_close,
        "seal": want_seal, "check": want_check, "read": want_read,
        "search": want_search, "values": want_values,
        "record_values": want_record_values,
        "forecast": want_forecast, "chain_at": want_chain_at,
        "position_of": want_position_of, "tile_counts": want_tile_counts,
        "version": want_version}


def day_digests(d, ledger, ends):
    return [daybook.digest(day)
            for day in daybook.ledger_days(d, ledger, ends)]


@lru_cache(maxsize=512)
def chains_of(scheme, n, d):
    return daybook.chains(scheme, n, d)


@lru_cache(maxsize=512)
def masks_of(scheme, n, d):
    return daybook.masks(scheme, n, d)


@lru_cache(maxsize=None)
def tables_of(scheme, n, d):
    """Every table that a set of days gives, with the days of all such sets."""
    unions = {}
    for chosen in range(1 << d):
        table = table_of(scheme, n, d, chosen)
        unions[table] = unions.get(table, 0) | chosen
    return {table: daybook.unmask(union) for table, union in unions.items()}


def table_of(scheme, n, d, chosen):
    """The table that the set of days, a mask, gives."""
    return bytes(m & chosen == 0 for m in masks_of(scheme, n, d))


def values_of(scheme, n, digests):
    """The values of a book: by definition if it is short."""
    d = len(digests)
    if d > 16:
        return daybook._seal_digests(scheme, n, digests)
    out = []
    for chain in chains_of(scheme, n, d):
        v = daybook.start(scheme, n)
        for day in chain:
            v = daybook.link(v, digests[day - 1])
        out.append(v)
    return out


def lister(scheme, n, d, table):
    """The days that reading lists."""
    if d <= SUBSETS:
        return tables_of(scheme, n, d).get(bytes(table))
    if d <= daybook.MASKS_LIMIT:
        return daybook.list_by_masks(masks_of(scheme, n, d), d, table)
    return daybook.list_by_counts(scheme, n, d, table)


def count_of_chains(scheme, n, d):
    """The number of values of d days, whatever d, counted level by level."""
    blacks = d // n
    if scheme == 1:
        return blacks
    if scheme == 2:
        return blacks * (2 + daybook.lg(n))
    levels = range(daybook.lg(d) + 1)
    once = sum(1 for level in levels if 2 ** level % n == 0)
    return sum(d // 2 ** level for level in levels) + blacks - once
