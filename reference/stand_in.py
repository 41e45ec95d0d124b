"""A library of the interface of daybook.h, made of daybook.py and record.py.

It takes the place of a shared library, to test compare.py itself.
"""

import ctypes
from array import array

import daybook
import record


def get(address, length):
    return ctypes.string_at(address, length) if length else b""


def put(address, data):
    if data:
        ctypes.memmove(address, bytes(data), len(data))


def get_words(address, count):
    return array("I", get(address, 4 * count)).tolist()


def put_words(address, numbers):
    put(address, array("I", numbers).tobytes())


def open_service(scheme, n, f, address):
    refusal, new = record.open_service(scheme, n, f)
    put(address, new)
    return refusal


def add(address, piece, length, blocks):
    old, data = get(address, record.SIZE), get(piece, length)
    refusal, new = record.add(old, data)
    put(address, new)
    if refusal == 0:
        put_words(blocks, [record.add_blocks(old, data)])
    return refusal


def close(address, part, length, count, blocks):
    old = get(address, record.SIZE)
    refusal, new, values = record.close(old, length)
    if refusal == 0:
        put(address, new)
        put(part, b"".join(values))
        put_words(count, [len(values)])
        put_words(blocks, [record.close_blocks(old)])
    return refusal


def seal(scheme, n, f, d, ledger, ledger_length, ends, count, book, length):
    after = bytearray(get(book, length))
    refusal = daybook.seal(scheme, n, f, d, get(ledger, ledger_length),
                           get_words(ends, count), after)
    put(book, after)
    return refusal


def check(scheme, n, f, d, ledger, ledger_length, ends, count, book,
          book_length, work, work_length, outcomes, length):
    digests = bytearray(get(work, work_length))
    table = bytearray(get(outcomes, length))
    refusal = daybook.check(scheme, n, f, d, get(ledger, ledger_length),
                            get_words(ends, count), get(book, book_length),
                            digests, table)
    put(work, digests)
    put(outcomes, table)
    return refusal


def read(scheme, n, f, d, passed, outcomes, count, places, length, numbers):
    after = get_words(places, length)
    result = daybook.read(scheme, n, f, d, passed, get(outcomes, count),
                          after)
    if result.refusal == 0:
        put_words(places, after)
        put_words(numbers, [result.listed, result.first, result.low,
                            result.high, result.last_good])
    return result.refusal


def search(scheme, n, f, d, outcomes, length, limit, places, count, progress):
    after = get_words(places, count)
    refusal, *found = daybook.search(scheme, n, f, d, get(outcomes, length),
                                     limit, after)
    if refusal == 0:
        put_words(places, after)
        put_words(progress, found)
    return refusal


def values(scheme, n, f, d, address):
    refusal, count = daybook.number_of_values(scheme, n, f, d)
    if refusal == 0:
        put_words(address, [count])
    return refusal


def record_values(address, count):
    refusal, number = record.record_values(get(address, record.SIZE))
    if refusal == 0:
        put_words(count, [number])
    return refusal


def forecast(scheme, n, f, d, lengths, count, sizes):
    refusal, *found = daybook.forecast(scheme, n, f, d,
                                       get_words(lengths, count))
    if refusal == 0:
        put(sizes, array("Q", found).tobytes())
    return refusal


def chain_at(scheme, n, f, d, position, chain):
    refusal, *four = daybook.chain_at(scheme, n, f, d, position)
    if refusal == 0:
        put_words(chain, four)
    return refusal


def position_of(scheme, n, f, d, chain, position):
    refusal, place = daybook.position_of(scheme, n, f, d, get_words(chain, 4))
    if refusal == 0:
        put_words(position, [place])
    return refusal


def tile_counts(n, k, counts):
    refusal, *found = daybook.tile_counts(n, k)
    if refusal == 0:
        put_words(counts, found)
    return refusal


def version():
    return daybook.VERSION


def calls():
    """The calls, by name."""
    return {"open": open_service, "add": add, "close": close, "seal": seal,
            "check": check, "read": read, "search": search, "values": values,
            "record_values": record_values, "forecast": forecast,
            "chain_at": chain_at, "position_of": position_of,
            "tile_counts": tile_counts, "version": version}
