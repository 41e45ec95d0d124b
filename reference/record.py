"""The service over the 728 bytes of a record.

The record's numbers are 32 bits, little-endian: scheme, N, F, days closed,
bytes in the open day, 8 words of the open day's hash, 8 words of the black
chain, 17 times 8 words of tile or tree chains; then the 64 bytes of the open
day's block; then 8 words of the start; then the season.  Every 728 bytes are
a record.

The open day's hash is SHA-256 of byte 00 and the day's bytes, stopped after
the last full block.  hashlib cannot go on from such a state, so the
compression of FIPS 180-4 is written out here.  The start and the links of the
chains hash whole messages and are those of daybook.py.
"""

import struct
from functools import lru_cache
from math import isqrt

import daybook

SIZE = 728
WORDS = 20                  # offset of the hash words
CHAINS = 52                 # offset of black, the slots follow
BLOCK = 628                 # offset of the block
START = 692                 # offset of the start
SEASON = 724                # offset of the season
MASK = 0xFFFFFFFF

_LITTLE = struct.Struct("<8I")
_BIG = struct.Struct(">8I")


# -------------------------------------------------------------------- SHA-256

def _primes(count):
    found = []
    number = 2
    while len(found) < count:
        if all(number % p for p in found):
            found.append(number)
        number += 1
    return found


def _cube_root(x):
    """The whole part of the cube root."""
    low, high = 0, 1 << (x.bit_length() // 3 + 1)
    while high - low > 1:
        middle = (low + high) // 2
        if middle ** 3 <= x:
            low = middle
        else:
            high = middle
    return low


# The first 32 bits of the fractions of square and cube roots of primes.
FIRST = tuple(isqrt(p << 64) & MASK for p in _primes(8))
ROUND = tuple(_cube_root(p << 96) & MASK for p in _primes(64))


def compress(words, block):
    """The hash words after one more block of 64 bytes."""
    w = list(struct.unpack(">16I", block))
    for t in range(16, 64):
        x, y = w[t - 15], w[t - 2]
        xx, yy = x << 32 | x, y << 32 | y       # shifts of these rotate
        w.append(w[t - 16] + ((xx >> 7 ^ xx >> 18 ^ x >> 3) & MASK)
                 + w[t - 7] + ((yy >> 17 ^ yy >> 19 ^ y >> 10) & MASK) & MASK)
    a, b, c, d, e, f, g, h = words
    for k, word in zip(ROUND, w):
        aa, ee = a << 32 | a, e << 32 | e
        t1 = (h + ((ee >> 6 ^ ee >> 11 ^ ee >> 25) & MASK)
              + (g ^ e & (f ^ g)) + k + word)
        t2 = ((aa >> 2 ^ aa >> 13 ^ aa >> 22) & MASK) + (a & b | c & (a | b))
        h, g, f, e = g, f, e, d + t1 & MASK
        d, c, b, a = c, b, a, t1 + t2 & MASK
    return tuple(old + new & MASK
                 for old, new in zip(words, (a, b, c, d, e, f, g, h)))


def absorb(words, data):
    """(words, rest): all full blocks compressed, rest is below 64 bytes."""
    full = len(data) // 64 * 64
    for k in range(0, full, 64):
        words = compress(words, data[k:k + 64])
    return words, data[full:]


def finish(words, rest, length):
    """The digest, of length bytes in all; rest follows the last full block."""
    padded = rest + b"\x80" + bytes((55 - len(rest)) % 64)
    words, _ = absorb(words, padded + struct.pack(">Q", 8 * length))
    return _BIG.pack(*words)


def sha256(data):
    """SHA-256 by the functions above."""
    words, rest = absorb(FIRST, data)
    return finish(words, rest, len(data))


# --------------------------------------------------------------------- fields

def swap(value):
    """32 bytes with the bytes of each word in the other order."""
    return _LITTLE.pack(*_BIG.unpack(value))


def fields(record):
    """scheme, N, F, days closed, bytes in the open day, season."""
    return (*struct.unpack_from("<5I", record),
            *struct.unpack_from("<I", record, SEASON))


def words_of(record):
    """The words of the open day's hash."""
    return _LITTLE.unpack_from(record, WORDS)


def running_of(record):
    """Black and the 17 slots, as values of 32 bytes."""
    return [swap(record[k:k + 32]) for k in range(CHAINS, BLOCK, 32)]


def start_of(record):
    """The record's start, as a value of 32 bytes."""
    return swap(record[START:SEASON])


def pack(numbers, words, running, rest, first):
    """A record of these six numbers, as fields gives them.

    The block is rest and then zeros, first is the start.
    """
    *five, season = numbers
    return b"".join([struct.pack("<5I", *five), _LITTLE.pack(*words),
                     *map(swap, running), rest, bytes(64 - len(rest)),
                     swap(first), struct.pack("<I", season)])


def digest_of(record):
    """The open day's digest, from hash words, block and bytes."""
    length = fields(record)[4] + 1
    return finish(words_of(record), record[BLOCK:BLOCK + length % 64], length)


# -------------------------------------------------------------------- service

def refusal_of(record):
    """Refusals 6 and 5, which add and close have in common."""
    scheme, n, f, days, count, season = fields(record)
    if (daybook.settings_refusal(scheme, n, f)
            or days > daybook.DAYS_LIMIT or count > daybook.DAY_LIMIT
            or season > daybook.LAST_SEASON):
        return 6
    if days < daybook.DAYS_LIMIT:
        return 0
    if count:
        return 6
    return 5 if season == daybook.LAST_SEASON else 0


def fresh(scheme, n, f, season, first):
    """The record with which a season begins; first is its start."""
    return pack((scheme, n, f, 0, 0, season), FIRST, [first] * 18, b"\0",
                first)


def open_service(scheme, n, f):
    """(refusal, record)."""
    refusal = daybook.settings_refusal(scheme, n, f)
    if refusal:
        return refusal, bytes(SIZE)
    return 0, fresh(scheme, n, f, 0, daybook.start(scheme, n))


def present(record):
    """The record that a call goes on from, where neither 6 nor 5 is due.

    Of a full season it is the next one's, of whose words and block bytes none
    is the full season's but for the start.
    """
    scheme, n, f, days, _, season = fields(record)
    if days < daybook.DAYS_LIMIT:
        return record
    return fresh(scheme, n, f, season + 1, start_of(record))


def add(old, piece):
    """(refusal, record) after a piece of the open day."""
    refusal = refusal_of(old)
    if refusal:
        return refusal, old
    record = present(old)
    scheme, n, f, days, count, _ = fields(record)
    if count + len(piece) > daybook.DAY_LIMIT:
        return 4, old
    fill = (count + 1) % 64
    words, rest = absorb(words_of(record), record[BLOCK:BLOCK + fill] + piece)
    return 0, b"".join([
        struct.pack("<5I", scheme, n, f, days, count + len(piece)),
        _LITTLE.pack(*words), record[CHAINS:BLOCK],
        rest, bytes(64 - len(rest)), record[START:]])


def add_blocks(record, piece):
    """The blocks that an accepted add compresses: those that absorb takes."""
    return (_fill(present(record)) + len(piece)) // 64


def close_blocks(record):
    """The blocks that an accepted close compresses: see finish and link."""
    record = present(record)
    scheme, n, _, days, _, _ = fields(record)
    fill = _fill(record)
    ending = fill + 1 + (55 - fill) % 64 + 8
    return ending // 64 + 2 * (1 + len(linked(scheme, n, days + 1)))


def _fill(record):
    """The bytes since the last full block."""
    return (fields(record)[4] + 1) % 64


def record_values(record):
    """(refusal, number of values of its season's days closed)."""
    if refusal_of(record) == 6:
        return 6, 0
    scheme, n, _, days, _, _ = fields(record)
    return 0, daybook.values_closed(scheme, n, days)


def linked(scheme, n, g):
    """The slots linked at the close of day g."""
    if scheme == 1:
        return []
    if scheme == 3:
        return list(range(17))
    offset = (g - 1) % n
    return [0] + [i for i in range(1, daybook.lg(n) + 1)
                  if offset // (n // 2 ** i) % 2 == 0]


def stored(scheme, n, g):
    """(slots, black): what the close of day g stores, the slots first."""
    at_interval = g % n == 0
    if scheme == 3:
        slots = [level for level in range(17) if g % 2 ** level == 0]
        return slots, at_interval and 2 ** slots[-1] != g
    slots = range(daybook.lg(n) + 1) if scheme == 2 and at_interval else []
    return list(slots), at_interval


def close(old, room):
    """(refusal, record, values) after the close, lent room bytes."""
    refusal = refusal_of(old)
    if refusal:
        return refusal, old, []
    record = present(old)
    scheme, n, f, days, _, season = fields(record)
    g = days + 1
    slots, with_black = stored(scheme, n, g)
    if room < 32 * (len(slots) + with_black):
        return 8, old, []
    h = digest_of(record)
    black, *chains = running_of(record)
    black = daybook.link(black, h)
    for k in linked(scheme, n, g):
        chains[k] = daybook.link(chains[k], h)
    values = [chains[k] for k in slots] + [black] * with_black
    first = start_of(record)
    for k in slots:
        chains[k] = first
    return 0, pack((scheme, n, f, g, 0, season), FIRST, [black] + chains,
                   b"\0", first), values


# ------------------------------------------------------ records of daybook.py

@lru_cache(maxsize=4096)
def words_after(data):
    """The hash words after whole blocks."""
    if not data:
        return FIRST
    return compress(words_after(data[:-64]), data[-64:])


def from_daybook(record):
    """The bytes of a record of daybook.py."""
    if record == daybook.Record():
        return bytes(SIZE)
    data = b"\0" + record.open_day
    full = len(data) // 64 * 64
    return pack((record.scheme, record.n, record.f, record.days,
                 record.open_bytes, record.season),
                words_after(data[:full]), record.running, data[full:],
                record.start)
