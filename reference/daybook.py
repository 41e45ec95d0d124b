"""Settlement day books: sealing, checking, reading.

Reference implementation of the request (01), "Settlement day books:
sealing, checking, reading", and of later requests (02).  Written for
clearness, not for speed: the layouts, the book and the reading follow the
requests' definitions.

Days count from 1.  Refusals are the request's numbers, 0 stands for none.
"""

import hashlib
import re
from array import array
from dataclasses import dataclass, replace
from functools import lru_cache
from itertools import accumulate, combinations, islice

DAY_LIMIT = 16_777_216      # bytes in a day
DAYS_LIMIT = 65_536         # days in a season, and so in a book
LAST_SEASON = 65_535        # seasons count from 0
SLOTS = 17                  # running tile or tree chains in a record
SUBSETS_LIMIT = 12          # up to this D, reading tries every set of days
MASKS_LIMIT = 512           # up to this D, it has the chains as masks
TILE_LIMIT = 64             # days of a tile whose sets are counted
SET_LIMIT = 3               # offsets in such a set
VERSION = 900               # 10000 major + 100 minor + patch: 0.9.0

BLACK, TILE, TREE = "black", "tile", "tree"


def lg(x):
    """Base-2 logarithm rounded down, x >= 1."""
    return x.bit_length() - 1


# ---------------------------------------------------------------- hash, link

def start(scheme, n):
    """What every chain of a book starts with: F has no part in it."""
    return hashlib.sha256(bytes([2, scheme, lg(n)])).digest()


def digest(day_bytes):
    """The digest of a day."""
    return hashlib.sha256(b"\x00" + bytes(day_bytes)).digest()


def link(v, h):
    """Chain value v extended by the day digest h."""
    return hashlib.sha256(b"\x01" + v + h).digest()


# ------------------------------------------------------------------- layouts

def _closing(scheme, n, g):
    """As closing, with a range in place of a list for unbroken chains."""
    black = range(1, g + 1)
    if scheme == 1:
        return [black] if g % n == 0 else []
    if scheme == 2:
        if g % n != 0:
            return []
        tile = range(g - n + 1, g + 1)
        out = [tile]
        for i in range(1, lg(n) + 1):
            weight = n // 2 ** i
            out.append([day for day in tile if ((day - 1) % n) & weight == 0])
        out.append(black)
        return out
    if scheme == 3:
        out = []
        level = 0
        while g % 2 ** level == 0:
            out.append(range(g - 2 ** level + 1, g + 1))
            level += 1
        if g % n == 0 and out[-1] != black:
            out.append(black)
        return out
    raise ValueError("scheme")


def closing(scheme, n, g):
    """The chains that close at day g, in order, each as its covered days."""
    return [list(chain) for chain in _closing(scheme, n, g)]


def chains(scheme, n, d):
    """The chains of a book of d days, in book order."""
    return [chain for g in range(1, d + 1) for chain in closing(scheme, n, g)]


def values(scheme, n, d):
    """Number of values for d days, by the request's formula."""
    if scheme == 1:
        return d // n
    if scheme == 2:
        return (d // n) * (2 + lg(n))
    if scheme == 3:
        return 2 * d - bin(d).count("1") + d // n - (1 + lg(d // n))
    raise ValueError("scheme")


def names(scheme, n, g):
    """The chains that close at day g, in order, as (kind, index, day).

    The index is i for tile chain c(i), the level for a tree chain and 0 for
    black.  A black chain that the tree stores once bears its tree name.
    """
    if scheme == 1:
        return [(BLACK, 0, g)] if g % n == 0 else []
    if scheme == 2:
        if g % n != 0:
            return []
        return [(TILE, i, g) for i in range(lg(n) + 1)] + [(BLACK, 0, g)]
    if scheme == 3:
        top = lg(g & -g)
        out = [(TREE, level, g) for level in range(top + 1)]
        if g % n == 0 and 2 ** top != g:
            out.append((BLACK, 0, g))
        return out
    raise ValueError("scheme")


@lru_cache(maxsize=None)
def _counts(scheme, n):
    """The values closed by the end of each day, from day 0 on."""
    return array("I", accumulate(
        (len(names(scheme, n, g)) for g in range(1, DAYS_LIMIT + 1)),
        initial=0))


def values_closed(scheme, n, days):
    """Number of values that close at the days 1 to days, counted."""
    return _counts(scheme, n)[days]


def covers(n, name, day):
    """Whether the named chain covers the day."""
    kind, index, g = name
    if kind == BLACK:
        return 1 <= day <= g
    if kind == TREE:
        return g - 2 ** index < day <= g
    if not g - n < day <= g:
        return False
    return index == 0 or ((day - 1) % n) // (n // 2 ** index) % 2 == 0


# ---------------------------------------------------------------------- book

def value(scheme, n, chain, days):
    """The value of a chain, hashed from its first day.

    days[0] holds the bytes of day 1.
    """
    v = start(scheme, n)
    for day in chain:
        v = link(v, digest(days[day - 1]))
    return v


def book(scheme, n, days):
    """The book of the days, by definition: every chain hashed in full."""
    return b"".join(value(scheme, n, chain, days)
                    for chain in chains(scheme, n, len(days)))


def _seal_digests(scheme, n, digests, first=None):
    """The values of the book over the given day digests, incrementally.

    Its chains start with first, or as those of the layout if it is None.
    """
    first = start(scheme, n) if first is None else first
    levels = range(lg(len(digests)) + 1) if digests else ()
    black = first
    running = {}
    out = []
    for g, h in enumerate(digests, 1):
        black = link(black, h)
        if scheme == 2:
            for i in range(lg(n) + 1):
                if covers(n, (TILE, i, g + (-g) % n), g):
                    running[i] = link(running.get(i, first), h)
        elif scheme == 3:
            for level in levels:        # no higher chain closes
                running[level] = link(running.get(level, first), h)
        for kind, index, _ in names(scheme, n, g):
            if kind == BLACK:
                out.append(black)
            else:
                out.append(running.pop(index))
    return out


def seal_book(scheme, n, days):
    """The same book as book(), each day linked once to each running chain."""
    return b"".join(_seal_digests(scheme, n, [digest(day) for day in days]))


# ------------------------------------------------------------------ refusals

def settings_refusal(scheme, n, f):
    """Refusals 1, 2, 3."""
    if scheme not in (1, 2, 3):
        return 1
    if not 1 <= n <= 256 or n & (n - 1) != 0:
        return 2
    if not 1 <= f <= (1 if scheme == 3 else 64):
        return 3
    return 0


def days_refusal(n, f, d):
    """Refusal 7, for allowed n and f."""
    return 0 if 1 <= d <= DAYS_LIMIT and d % (f * n) == 0 else 7


def largest_days(n, f):
    """The largest D that is allowed, for allowed n and f."""
    return DAYS_LIMIT - DAYS_LIMIT % (f * n)


def days_call_refusal(scheme, n, f, d):
    """Refusals 1 2 3 7, with which every call for D days begins."""
    return settings_refusal(scheme, n, f) or days_refusal(n, f, d)


def passed_refusal(scheme, n, f, d, passed):
    """Refusals 1 2 3 7 19, with which reading begins."""
    refusal = days_call_refusal(scheme, n, f, d)
    if refusal == 0 and (passed >= d or passed % n != 0):
        refusal = 19
    return refusal


def validation_before(n, f, d):
    """The validation before the one at day d, for allowed n, f and d."""
    return d - f * n


def ledger_refusal(d, ledger, ends):
    """Refusals 9 and 10."""
    if len(ends) < d:
        return 9
    before = 0
    for end in ends[:d]:
        if end < before or end > len(ledger) or end - before > DAY_LIMIT:
            return 10
        before = end
    return 0


def ledger_days(d, ledger, ends):
    """The bytes of days 1 to d."""
    starts = [0] + list(ends[:d - 1])
    return [bytes(ledger[a:b]) for a, b in zip(starts, ends[:d])]


def number_of_values(scheme, n, f, d):
    """(refusal, number of values): refusals 1 2 3 7."""
    refusal = days_call_refusal(scheme, n, f, d)
    return (refusal, 0) if refusal else (0, values(scheme, n, d))


# -------------------------------------------------------------------- sizing

def message_blocks(length):
    """SHA-256 blocks of a message: it, the byte 80, zeros, its length."""
    padded = length + 1 + 8
    return (padded + -padded % 64) // 64


LINK_BLOCKS = message_blocks(1 + 32 + 32)


def links(scheme, n, g):
    """How many running chains day g is linked to, black among them."""
    if scheme == 1:
        return 1
    if scheme == 2:
        end = g + (-g) % n
        return 1 + sum(covers(n, (TILE, i, end), g)
                       for i in range(lg(n) + 1))
    return 1 + SLOTS


def day_blocks(scheme, n, g, b):
    """The blocks of day g, of b bytes, by the request."""
    return (b + 9) // 64 + 1 + 2 * links(scheme, n, g)


def forecast_blocks(scheme, n, lengths):
    """The blocks of sealing days of these lengths."""
    return sum(day_blocks(scheme, n, g, b) for g, b in enumerate(lengths, 1))


def forecast(scheme, n, f, d, lengths):
    """(refusal, values, bytes, blocks): refusals 1 2 3 7 16 17."""
    refusal = days_call_refusal(scheme, n, f, d)
    if refusal == 0 and len(lengths) < d:
        refusal = 16
    if refusal == 0 and any(b > DAY_LIMIT for b in lengths[:d]):
        refusal = 17
    if refusal:
        return refusal, 0, 0, 0
    count = values(scheme, n, d)
    return 0, count, 32 * count, forecast_blocks(scheme, n, lengths[:d])


# ----------------------------------------------------------------- positions

KIND_NUMBERS = {BLACK: 1, TILE: 2, TREE: 3}


@lru_cache(maxsize=32)
def fours(scheme, n, d):
    """The chains of a book of d days, in book order, each by four numbers.

    These are its kind, its index or level, and the first and the last of the
    days that it covers.
    """
    out = []
    for g in range(1, d + 1):
        for name, covered in zip(names(scheme, n, g), _closing(scheme, n, g)):
            kind, index, _ = name
            out.append((KIND_NUMBERS[kind], index, covered[0], covered[-1]))
    return out


@lru_cache(maxsize=32)
def places(scheme, n, d):
    """The place of each chain of the book, by its four numbers."""
    return {four: place for place, four in enumerate(fours(scheme, n, d))}


def chain_at(scheme, n, f, d, position):
    """(refusal, kind, index, first, last): refusals 1 2 3 7 18."""
    refusal = days_call_refusal(scheme, n, f, d)
    if refusal == 0 and position >= values(scheme, n, d):
        refusal = 18
    if refusal:
        return refusal, 0, 0, 0, 0
    return 0, *fours(scheme, n, d)[position]


def position_of(scheme, n, f, d, chain):
    """(refusal, position) of the chain with these four: 1 2 3 7 18."""
    refusal = days_call_refusal(scheme, n, f, d)
    if refusal == 0 and tuple(chain) not in places(scheme, n, d):
        refusal = 18
    if refusal:
        return refusal, 0
    return 0, places(scheme, n, d)[tuple(chain)]


# ------------------------------------------------------------------- service

@dataclass(frozen=True)
class Record:
    """The service's record.

    running holds 18 values of 32 bytes: black, then 17 slots.  Under scheme
    2, slot i is tile chain c(i); under scheme 3, slot L is the tree chain of
    level L; slots without a chain are carried along unchanged.  open_day
    holds the bytes of the open day in place of a hasher's state, so a record
    that is not refused has open_bytes == len(open_day).  start is what a slot
    starts again with, in a record made up by hand any 32 bytes.  days are
    those of the season alone.
    """
    scheme: int = 0
    n: int = 0
    f: int = 0
    days: int = 0
    open_bytes: int = 0
    running: tuple = (bytes(32),) * (1 + SLOTS)
    open_day: bytes = b""
    start: bytes = bytes(32)
    season: int = 0


def made_up(scheme, n, f, days, running, first, open_day=b"", season=0):
    """A record with any days closed, running values, start and season."""
    running = tuple(bytes(v) for v in running)
    assert len(running) == 1 + SLOTS
    assert all(len(v) == 32 for v in (*running, first))
    return Record(scheme, n, f, days, len(open_day), running, bytes(open_day),
                  bytes(first), season)


def record_refusal(record):
    """Refusal 6."""
    if (settings_refusal(record.scheme, record.n, record.f) != 0
            or record.days > DAYS_LIMIT or record.open_bytes > DAY_LIMIT
            or record.season > LAST_SEASON
            or (record.days == DAYS_LIMIT and record.open_bytes > 0)):
        return 6
    return 0


def fresh(scheme, n, f, first, season):
    """The record of a season with no day closed and an empty open day."""
    return Record(scheme, n, f, running=(first,) * (1 + SLOTS), start=first,
                  season=season)


def open_service(scheme, n, f):
    """(refusal, record); a refused open gives a record of zeros."""
    refusal = settings_refusal(scheme, n, f)
    if refusal:
        return refusal, Record()
    return 0, fresh(scheme, n, f, start(scheme, n), 0)


def made_on(record):
    """The record that an add or a close is tested and made on.

    Where the season is full and not the last, it is that of the next one,
    with the start of the record handed in.
    """
    if record.days == DAYS_LIMIT and record.season < LAST_SEASON:
        return fresh(record.scheme, record.n, record.f, record.start,
                     record.season + 1)
    return record


def add(record, piece):
    """(refusal, record) after a piece of the open day."""
    if record_refusal(record):
        return 6, record
    now = made_on(record)
    if now.days == DAYS_LIMIT:
        return 5, record
    if now.open_bytes + len(piece) > DAY_LIMIT:
        return 4, record
    return 0, replace(now, open_bytes=now.open_bytes + len(piece),
                      open_day=now.open_day + bytes(piece))


def add_blocks(record, piece):
    """The blocks that an accepted add of the piece fills."""
    hashed = 1 + made_on(record).open_bytes     # byte 00 is in front
    return (hashed + len(piece)) // 64 - hashed // 64


def close_blocks(record):
    """The blocks that an accepted close compresses."""
    now = made_on(record)
    hashed = 1 + now.open_bytes
    return (message_blocks(hashed) - hashed // 64 + LINK_BLOCKS
            * links(now.scheme, now.n, now.days + 1))


def close(record, part):
    """(refusal, record, number of values) after the end of the open day.

    The values go to the front of part, a bytearray or a view of one.
    """
    if record_refusal(record):
        return 6, record, 0
    now = made_on(record)
    if now.days == DAYS_LIMIT:
        return 5, record, 0
    scheme, n, g = now.scheme, now.n, now.days + 1
    ended = names(scheme, n, g)
    if len(part) < 32 * len(ended):
        return 8, record, 0
    h = digest(now.open_day)
    black, slots = now.running[0], list(now.running[1:])
    black = link(black, h)
    if scheme == 2:
        slots[0] = link(slots[0], h)
        for i in range(1, lg(n) + 1):
            if ((g - 1) % n) & (n >> i) == 0:
                slots[i] = link(slots[i], h)
    elif scheme == 3:
        slots = [link(v, h) for v in slots]
    for position, (kind, index, _) in enumerate(ended):
        if kind == BLACK:
            v = black
        else:
            v = slots[index]
            slots[index] = now.start
        part[32 * position:32 * position + 32] = v
    return 0, replace(now, days=g, open_bytes=0,
                      running=(black, *slots), open_day=b""), len(ended)


def record_values(record):
    """(refusal, number of values of its season's days closed): refusal 6."""
    if record_refusal(record):
        return 6, 0
    return 0, values_closed(record.scheme, record.n, record.days)


class Diary:
    """The plain account of a list of calls, fed with arguments only.

    seasons has the entries of each season so far, season the number of the
    present one.  A diary that starts late, in another season than 0 or with
    entries in it, is for made-up records.
    """

    def __init__(self, scheme, n, f, season=0, entries=()):
        self.scheme, self.n, self.f = scheme, n, f
        self.season = season
        self.seasons = {season: list(entries)}
        self.open_day = b""

    @property
    def entries(self):
        """The entries of the present season."""
        return self.seasons[self.season]

    def due(self):
        """(season, its entries, its open day) that a call is made on."""
        entries = self.seasons[self.season]
        if len(entries) == DAYS_LIMIT and self.season < LAST_SEASON:
            return self.season + 1, [], b""
        return self.season, entries, self.open_day

    def add(self, piece):
        """The refusal of an add."""
        season, entries, day = self.due()
        if len(entries) == DAYS_LIMIT:
            return 5
        if len(day) + len(piece) > DAY_LIMIT:
            return 4
        self._take(season, entries, day + bytes(piece))
        return 0

    def close(self, part_length):
        """The refusal of a close that is lent part_length bytes."""
        season, entries, day = self.due()
        if len(entries) == DAYS_LIMIT:
            return 5
        closed = _closing(self.scheme, self.n, len(entries) + 1)
        if part_length < 32 * len(closed):
            return 8
        entries.append(day)
        self._take(season, entries, b"")
        return 0

    def _take(self, season, entries, day):
        self.season, self.open_day = season, day
        self.seasons[season] = entries


def seal_refusal(scheme, n, f, d, ledger, ends, room):
    """Refusals 1 2 3 7 9 10 8 of a seal that is lent room bytes."""
    refusal = (days_call_refusal(scheme, n, f, d)
               or ledger_refusal(d, ledger, ends))
    if refusal:
        return refusal
    return 8 if room < 32 * values(scheme, n, d) else 0


def seal(scheme, n, f, d, ledger, ends, book):
    """The refusal (1 2 3 7 9 10 8) of sealing d days of a ledger.

    Opens the service, then adds and closes each day; the values go to the
    front of book, a bytearray.
    """
    refusal = seal_refusal(scheme, n, f, d, ledger, ends, len(book))
    if refusal:
        return refusal
    _, record = open_service(scheme, n, f)
    written = 0
    for day in ledger_days(d, ledger, ends):
        refusal, record = add(record, day)
        assert refusal == 0
        refusal, record, count = close(record, memoryview(book)[32 * written:])
        assert refusal == 0
        written += count
    assert written == values(scheme, n, d)
    return 0


# ------------------------------------------------------------------ checking

def check_refusal(scheme, n, f, d, ledger, ends, book, work, outcomes):
    """Refusals 1 2 3 7 9 10 11 8."""
    refusal = (days_call_refusal(scheme, n, f, d)
               or ledger_refusal(d, ledger, ends))
    if refusal:
        return refusal
    count = values(scheme, n, d)
    if len(book) < 32 * count:
        return 11
    return 8 if len(work) < 32 * d or len(outcomes) < count else 0


def check(scheme, n, f, d, ledger, ends, book, work, outcomes):
    """The refusal (1 2 3 7 9 10 11 8) of checking a ledger against a book.

    Fills the fronts of work (day digests) and outcomes (1 pass, 0 fail).
    """
    refusal = check_refusal(scheme, n, f, d, ledger, ends, book, work,
                            outcomes)
    if refusal:
        return refusal
    digests = [digest(day) for day in ledger_days(d, ledger, ends)]
    work[:32 * d] = b"".join(digests)
    for k, v in enumerate(_seal_digests(scheme, n, digests)):
        outcomes[k] = 1 if bytes(book[32 * k:32 * k + 32]) == v else 0
    return 0


# ------------------------------------------------------------------- reading

def mask(chain):
    """The days of a chain as a number: day d has weight 2^(d-1)."""
    if isinstance(chain, range):
        return (1 << chain.stop - 1) - (1 << chain.start - 1)
    return sum(1 << day - 1 for day in chain)


def masks(scheme, n, d):
    """The chains of a book of d days, in book order, as masks."""
    return [mask(chain) for g in range(1, d + 1)
            for chain in _closing(scheme, n, g)]


def gives(chain_masks, chosen, table):
    """Whether the set of days gives the table: 0 exactly where covered."""
    return all((outcome == 0) == (m & chosen != 0)
               for m, outcome in zip(chain_masks, table))


def unmask(chosen):
    """The days of a mask, ascending."""
    return [k + 1 for k, bit in enumerate(reversed(bin(chosen)[2:]))
            if bit == "1"]


def list_by_subsets(scheme, n, d, table):
    """Days of at least one set that gives the table; None if no set does."""
    chain_masks = masks(scheme, n, d)
    giving = [s for s in range(1 << d) if gives(chain_masks, s, table)]
    if not giving:
        return None
    union = 0
    for s in giving:
        union |= s
    return unmask(union)


def list_by_candidates(scheme, n, d, table):
    """As list_by_subsets, by the largest candidate set.

    A set that gives the table has no day of a passing chain, so it lies
    within the days covered by no passing chain; if any set gives the table,
    that largest one does too.
    """
    return list_by_masks(masks(scheme, n, d), d, table)


def list_by_masks(chain_masks, d, table):
    """As list_by_candidates, for chains given as masks."""
    candidates = (1 << d) - 1
    for m, outcome in zip(chain_masks, table):
        if outcome == 1:
            candidates &= ~m
    if not gives(chain_masks, candidates, table):
        return None
    return unmask(candidates)


def list_by_counts(scheme, n, d, table):
    """As list_by_candidates, without masks, for large d."""
    rises = [0] * (d + 2)       # by how much more passing chains cover a day
    failing = []
    position = 0
    for g in range(1, d + 1):
        for chain in _closing(scheme, n, g):
            if table[position] == 0:
                failing.append(chain)
            elif isinstance(chain, range):
                rises[chain.start] += 1
                rises[chain.stop] -= 1
            else:
                for day in chain:
                    rises[day] += 1
                    rises[day + 1] -= 1
            position += 1
    passed = list(accumulate(rises))
    listed = [day for day in range(1, d + 1) if passed[day] == 0]
    before = [0, *accumulate(int(passed[day] == 0) for day in range(1, d + 1))]
    for chain in failing:
        if isinstance(chain, range):
            found = before[chain.stop - 1] > before[chain.start - 1]
        else:
            found = any(passed[day] == 0 for day in chain)
        if not found:
            return None
    return listed


def list_of(scheme, n, d, table):
    """The days to be listed, by the definition where d is small."""
    if d <= SUBSETS_LIMIT:
        return list_by_subsets(scheme, n, d, table)
    if d <= MASKS_LIMIT:
        return list_by_candidates(scheme, n, d, table)
    return list_by_counts(scheme, n, d, table)


def last_good_day(scheme, n, d, table):
    """The last day whose black value passes, else 0.

    Where black closes it is the last value of its day, also when the tree
    has it stored once.
    """
    good = 0
    position = 0
    for g in range(1, d + 1):
        position += len(names(scheme, n, g))
        if g % n == 0 and table[position - 1] == 1:
            good = g
    return good


@dataclass(frozen=True)
class Reading:
    """Reading's answer: kind is "clean", "changed" or "refused"."""
    kind: str
    refusal: int = 0
    listed: int = 0
    first: int = 0
    low: int = 0
    high: int = 0
    last_good: int = 0


def tested_table(scheme, n, d, outcomes, places, lister):
    """(refusal, table, days to be listed): refusals 8 12 13 14."""
    count = values(scheme, n, d)
    table = list(outcomes[:count])
    if places < d:
        return 8, None, None
    if len(outcomes) < count:
        return 12, None, None
    if any(outcome not in (0, 1) for outcome in table):
        return 13, None, None
    listed = lister(scheme, n, d, table)
    return (14, None, None) if listed is None else (0, table, listed)


def read(scheme, n, f, d, passed, outcomes, list_buffer, lister=list_of):
    """Reading; days go to list_buffer's front.

    Refusals 1 2 3 7 19 8 12 13 14.  passed is the last day at which a check
    really passed, 0 if there was none.
    """
    refusal = passed_refusal(scheme, n, f, d, passed)
    if refusal:
        return Reading("refused", refusal)
    refusal, table, listed = tested_table(scheme, n, d, outcomes,
                                          len(list_buffer), lister)
    if refusal:
        return Reading("refused", refusal)
    if not listed:
        return Reading("clean", last_good=d)
    for k, day in enumerate(listed):
        list_buffer[k] = day
    return Reading("changed", 0, len(listed), listed[0],
                   max(passed, listed[0] - 1), d,
                   last_good_day(scheme, n, d, table))


# ------------------------------------------------------------------- search

def maximal_chains(d):
    """The tree's chains over days of 1 to d that lie in no other of them.

    From left to right, each as its first and last day: one for each one bit
    of d, the greatest weight first.
    """
    out = []
    for level in range(lg(d), -1, -1):
        if d >> level & 1:
            last = d // 2 ** level * 2 ** level
            out.append((last - 2 ** level + 1, last))
    return out


def halves(chain):
    """The left and the right half of a chain of two days or more."""
    first, last = chain
    middle = (first + last) // 2
    return [(first, middle), (middle + 1, last)]


def walk_of(chain, fails):
    """The chains looked at when a chain is dealt with, in order."""
    yield chain
    if fails(chain) and chain[0] < chain[1]:
        for half in halves(chain):
            yield from walk_of(half, fails)


def tree_outcomes(n, d, table):
    """Whether the tree's chain from a first to a last day fails."""
    where = places(3, n, d)

    def fails(chain):
        first, last = chain
        level = lg(last - first + 1)
        return table[where[KIND_NUMBERS[TREE], level, first, last]] == 0
    return fails


def searched(d, fails, limit):
    """(looked, found, undecided): chains, days, days, each as a list."""
    largest = maximal_chains(d)
    walk = (chain for whole in largest for chain in walk_of(whole, fails))
    looked = list(islice(walk, limit))
    failing = [chain for chain in looked if fails(chain)]
    found = [first for first, last in failing if first == last]
    due = largest + [half for chain in failing if chain[0] < chain[1]
                     for half in halves(chain)]
    seen = set(looked)
    undecided = [day for first, last in due if (first, last) not in seen
                 for day in range(first, last + 1)]
    return looked, found, undecided


def search(scheme, n, f, d, outcomes, limit, list_buffer, lister=list_of):
    """(refusal, looked, found, undecided); days go to list_buffer's front.

    Refusals 1 2 3 7 8 12 13 14 20.
    """
    refusal = days_call_refusal(scheme, n, f, d)
    if refusal:
        return refusal, 0, 0, 0
    refusal, table, _ = tested_table(scheme, n, d, outcomes, len(list_buffer),
                                     lister)
    if refusal == 0 and scheme != 3:
        refusal = 20
    if refusal:
        return refusal, 0, 0, 0
    looked, found, undecided = searched(d, tree_outcomes(n, d, table), limit)
    for k, day in enumerate(found):
        list_buffer[k] = day
    return 0, len(looked), len(found), len(undecided)


# ------------------------------------------------------- how vague a tile is

def tile_refusal(n, k):
    """Refusals 2 21."""
    if settings_refusal(2, n, 1) == 2:
        return 2
    return 0 if n <= TILE_LIMIT and 1 <= k <= SET_LIMIT else 21


@lru_cache(maxsize=None)
def read_tile(n, table):
    """Reading's answer to a table of one tile of n days; F 1 and D = N."""
    return read(2, n, 1, n, 0, table, [0] * n)


@lru_cache(maxsize=None)
def count_sets(n, k):
    """(sets, listed) of a tile of n days: every set of k offsets is read.

    Sets that give the same table share its reading.
    """
    chain_masks = masks(2, n, n)
    sets = listed = 0
    for offsets in combinations(range(n), k):
        chosen = mask([offset + 1 for offset in offsets])
        result = read_tile(n, tuple(int(m & chosen == 0)
                                    for m in chain_masks))
        assert result.kind == "changed"
        sets += 1
        listed += result.listed
    return sets, listed


def tile_counts(n, k):
    """(refusal, sets, listed): refusals 2 21."""
    refusal = tile_refusal(n, k)
    return (refusal, 0, 0) if refusal else (0, *count_sets(n, k))


def ambiguity_lines():
    """What the program ambiguity_lines prints: N ascending, then k."""
    out = ""
    for n in (1, 2, 4, 8, 16, 32, 64):
        for k in (1, 2, 3):
            _, sets, listed = tile_counts(n, k)
            out += f"{n},{k},{sets},{listed}\n"
    return out


# ------------------------------------------------------------------- program

_NUMBER = rb"(0|[1-9][0-9]{0,4})"
_FORM = re.compile(_NUMBER + b"," + _NUMBER + b"," + _NUMBER + b"," + _NUMBER
                   + b"(?:," + _NUMBER + rb")?\n([0-9]*)\n")


def readtable(text):
    """What the program readtable prints for the given standard input."""
    def no(refusal):
        return b"NO,%d\n" % refusal

    form = _FORM.fullmatch(text)
    if form is None or len(text) > 1024:
        return no(15)
    scheme, n, f, d = (int(field) for field in form.groups()[:4])
    if d > 256:
        return no(15)
    refusal = days_call_refusal(scheme, n, f, d)
    if refusal:
        return no(refusal)
    fifth = form.group(5)
    passed = validation_before(n, f, d) if fifth is None else int(fifth)
    refusal = passed_refusal(scheme, n, f, d, passed)
    if refusal:
        return no(refusal)
    outcomes = [digit - ord("0") for digit in form.group(6)]
    if len(outcomes) > values(scheme, n, d):
        return no(15)
    listed = [0] * d
    result = read(scheme, n, f, d, passed, outcomes, listed)
    if result.kind == "refused":
        return no(result.refusal)
    out = b"REF,%d,%d,%d,%d,%d,%d\n" % (
        scheme, result.listed, result.first, result.low, result.high,
        result.last_good)
    for day in listed[:result.listed]:
        out += b"DAY,%d\n" % day
    return out


if __name__ == "__main__":
    import sys
    sys.stdout.buffer.write(readtable(sys.stdin.buffer.read()))
