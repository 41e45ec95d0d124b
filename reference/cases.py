"""The cases of compare.py: random ones and those run once a layout.

Each case is a function of a guarded.Case, which has the layout, the random
numbers and the means to make a call and compare it.
"""

import hashlib
import struct
from array import array
from dataclasses import replace
from itertools import accumulate
from math import comb

import daybook
import record
from wanted import count_of_chains, table_of, values_of, want_add, want_close

LIMIT = daybook.DAY_LIMIT
DAYS = daybook.DAYS_LIMIT
LAST = daybook.LAST_SEASON
TOP = 2 ** 32 - 1


# ----------------------------------------------------------- random arguments

LENGTHS = [0, 0, 0, 0, 1, 1, 2, 3, 4, 5, 7, 8, 12, 20, 31, 32, 33, 53, 54, 55,
           56, 57, 61, 62, 63, 64, 65, 117, 118, 119, 120, 121, 126, 127, 128]


def day_length(rng):
    return rng.choice(LENGTHS) if rng.random() < 0.98 else rng.randrange(900)


def most_days(rng):
    """A bound for D: mostly small."""
    x = rng.random()
    for bound, share in ((16, 0.86), (64, 0.97), (256, 0.997), (1024, 0.9998)):
        if x < share:
            return bound
    return 8192


def layout(scheme, rng, most=None):
    """Allowed N, F and D, with D up to about most."""
    most = most or most_days(rng)
    n = 1 << rng.randrange(min(8, daybook.lg(most)) + 1)
    top = min(64, most // n)
    f = 1 if scheme == 3 or rng.random() < 0.4 else rng.randint(1, top)
    return n, f, f * n * rng.randint(1, most // (f * n))


def passed_day(rng, n, f, d):
    """A day at which a check may have passed: a multiple of N below D."""
    return rng.choice((0, daybook.validation_before(n, f, d), d - n,
                       n * rng.randrange(d // n)))


def bad_passed(rng, n, d):
    """One that is mostly not let pass: D or above, or no multiple of N."""
    return rng.choice((d, d, d + n, d + 1, d - 1, 2 * d, rng.randrange(d),
                       n * rng.randrange(d // n) + n // 2, DAYS, DAYS + n,
                       TOP, TOP - TOP % n, rng.getrandbits(32)))


def any_passed(rng, n, f, d):
    """Mostly one that is let pass."""
    if rng.random() < 0.9:
        return passed_day(rng, n, f, d)
    return bad_passed(rng, n, d)


def random_words(rng, count):
    return array("I", rng.randbytes(4 * count)).tolist()


def room(rng, need, short=0.04):
    """A length for a buffer: as needed, longer or too short."""
    x = rng.random()
    if x < short and need:
        return need - 1 if rng.random() < 0.5 else rng.randrange(need)
    return need if x < 0.6 else need + rng.randint(1, 70)


def join_days(days):
    """(ledger, ends) of a list of days."""
    ends, total = [], 0
    for day in days:
        total += len(day)
        ends.append(total)
    return b"".join(days), ends


def with_rest(rng, ledger, ends):
    """The same days, sometimes with more bytes and ends after them."""
    if rng.random() < 0.3:
        ledger += rng.randbytes(rng.randint(1, 40))
    if rng.random() < 0.3:
        ends = ends + random_words(rng, rng.randint(1, 4))
    return ledger, ends


def flip_bits(rng, data, count):
    """The bytes with some of them altered."""
    data = bytearray(data)
    for _ in range(count if data else 0):
        data[rng.randrange(len(data))] ^= rng.randint(1, 255)
    return bytes(data)


# ----------------------------------------------------------------- round trip

def alter_days(rng, days):
    """The list of days, altered up to three times."""
    days = list(days)
    for _ in range(rng.choice((0, 1, 1, 1, 2, 3))):
        g = rng.randrange(len(days))
        other = rng.randrange(len(days))
        way = rng.randrange(5)
        if way == 0:
            days[g] = flip_bits(rng, days[g], 1)
        elif way == 1:
            days[g], days[other] = days[other], days[g]
        elif way == 2:                  # the end of day g moves on
            k = min(rng.randint(1, 3), len(days[g]))
            if g + 1 < len(days) and k:
                days[g], days[g + 1] = days[g][:-k], days[g][-k:] \
                    + days[g + 1]
        elif way == 3:
            days[g] += rng.randbytes(rng.randint(1, 70))
        else:
            days[g] = days[g][:rng.randint(0, len(days[g]))]
    return days


def alter_book(rng, book):
    """The book, mostly as it is."""
    way = rng.randrange(8)
    if way == 0:
        return flip_bits(rng, book, rng.randint(1, 3))
    if way == 1:
        k = 32 * rng.randrange(len(book) // 32)
        return book[:k] + rng.choice((bytes(32), book[:32])) + book[k + 32:]
    if way == 2:
        k = 32 * rng.randrange(len(book) // 32)
        return book[:k] + book[k + 32:] + book[k:k + 32]
    return book


def spoil_ends(rng, ends, ledger):
    """Ends of which one may be wrong."""
    ends = list(ends)
    g = rng.randrange(len(ends))
    ends[g] = rng.choice((0, TOP, len(ledger) + 1, len(ledger), ends[g] + 1,
                          max(0, ends[g] - 1), ends[g]))
    return ends


def seal_check_read(case, n, f, d, days, altered):
    """Seal days, check the altered ones, read the outcomes."""
    rng, scheme = case.rng, case.scheme
    count = daybook.values(scheme, n, d)
    ledger, ends = with_rest(rng, *join_days(days))
    if rng.random() < 0.02:
        ends = spoil_ends(rng, ends, ledger)
    start = rng.randbytes(room(rng, 32 * count))
    answer, after = case.call("seal", scheme, n, f, d, ledger, ends, start)
    if answer:
        return
    sealed = daybook.ledger_days(d, ledger, ends)
    book = after[-1][:32 * count]
    kept = alter_book(rng, book) if rng.random() < 0.4 else book
    spoilt = kept != book
    if rng.random() < 0.05:
        kept = kept[:room(rng, len(kept), 0.5)]
    elif rng.random() < 0.3:
        kept += rng.randbytes(rng.randint(1, 40))
    ledger, ends = with_rest(rng, *join_days(altered))
    if rng.random() < 0.03:
        ends = spoil_ends(rng, ends, ledger)
    answer, after = case.call(
        "check", scheme, n, f, d, ledger, ends, kept,
        rng.randbytes(room(rng, 32 * d, 0.02)),
        rng.randbytes(room(rng, count, 0.02)))
    if answer:
        return
    found = daybook.ledger_days(d, ledger, ends)
    places = random_words(rng, room(rng, d, 0.02))
    passed = passed_day(rng, n, f, d)
    answer, after = case.call("read", scheme, n, f, d, passed, after[-1],
                              places, random_words(rng, 5))
    if answer == 0 and not spoilt:
        listed = set(after[-2][:after[-1][0]])
        changed = {g for g in range(1, d + 1) if sealed[g - 1] != found[g - 1]}
        case.claim(changed <= listed, "a changed day is not listed")
        case.claim(bool(changed) == bool(listed), "clean is wrongly said")
    elif answer == 14:
        case.claim(spoilt, "a true book's table is refused")


def round_trip(case):
    rng = case.rng
    n, f, d = layout(case.scheme, rng)
    days = [rng.randbytes(day_length(rng)) for _ in range(d)]
    altered = alter_days(rng, days)
    seal_check_read(case, n, f, d, days, altered)


# ------------------------------------------- books under another scheme or N

SIZES = (1, 2, 4, 8, 16, 32, 64, 128, 256)
OLDER = bytes(32)           # what the chains of older books start with


def check_other(case, settings, days, book, due):
    """Check any book: every value must have the outcome due.

    The values that it lacks are zeros, and then random bytes.
    """
    rng, scheme, n, _, d = case.rng, *settings
    ledger, ends = join_days(days)
    count = daybook.values(scheme, n, d)
    lacking = max(0, 32 * count - len(book))
    rests = (bytes(lacking), rng.randbytes(lacking)) if lacking else (b"",)
    for rest in rests:
        answer, after = case.call("check", *settings, ledger, ends,
                                  book + rest, rng.randbytes(32 * d),
                                  rng.randbytes(count))
        case.claim(answer == 0, "check is refused")
        case.claim(set(after[-1]) == {due}, "a value passes in a book of "
                   "another layout, or fails in its own")


def moved(rng, book):
    """The values of a book, mostly at other places."""
    values = [book[k:k + 32] for k in range(0, len(book), 32)]
    way = rng.randrange(4)
    if way == 0:
        rng.shuffle(values)
    elif way == 1:
        k = rng.randrange(len(values))
        values = values[k:] + values[:k]
    elif way == 2:
        values = [rng.choice(values)] * rng.randint(1, 40)
    return b"".join(values)


def other_layout(case):
    """A book checked under another scheme or N, an older one under its own.
    """
    rng, scheme = case.rng, case.scheme
    n, f, d = layout(scheme, rng)
    other, m, length, first = scheme, n, d, OLDER
    if rng.random() < 0.6:
        first = None
        while (other, m) == (scheme, n):
            other = rng.choice((1, 2, 3))
            m, _, length = layout(other, rng)
    days = [rng.randbytes(day_length(rng)) for _ in range(max(d, length))]
    digests = [daybook.digest(day) for day in days[:length]]
    book = b"".join(daybook._seal_digests(other, m, digests, first))
    found = alter_days(rng, days) if rng.random() < 0.3 else days
    for handed in (book, moved(rng, book)):
        check_other(case, (scheme, n, f, d), found[:d], handed, 0)


# -------------------------------------------------------------------- reading

def random_set(rng, d):
    """A set of days, as a mask: few days, many or none."""
    if rng.random() < 0.2:
        return rng.getrandbits(d)
    chosen = 0
    for _ in range(rng.randint(0, 4)):
        chosen |= 1 << rng.randrange(d)
    return chosen


def read_table(case):
    rng, scheme = case.rng, case.scheme
    n, f, d = layout(scheme, rng, min(most_days(rng), 1024))
    count = daybook.values(scheme, n, d)
    table = table_of(scheme, n, d, random_set(rng, d))
    if rng.random() < 0.05:
        table = bytes(rng.getrandbits(1) for _ in range(count))
    table = bytearray(table)
    if rng.random() < 0.45:
        for _ in range(rng.choice((1, 1, 1, 2, 3))):
            table[rng.randrange(count)] ^= 1
    if rng.random() < 0.08:
        table[rng.randrange(count)] = rng.choice((2, 3, 128, 254, 255))
    if rng.random() < 0.08:
        table = table[:room(rng, count, 1)]
    elif rng.random() < 0.3:
        table += rng.randbytes(rng.randint(1, 20))
    places = random_words(rng, room(rng, d))
    case.call("read", scheme, n, f, d, any_passed(rng, n, f, d), bytes(table),
              places, random_words(rng, 5))


def skipped(case):
    """A table read with each P: low alone goes with it, and 19 is said."""
    rng, scheme = case.rng, case.scheme
    n, f, d = layout(scheme, rng, rng.choice((8, 16, 64)))
    table = table_of(scheme, n, d, random_set(rng, d))
    places = random_words(rng, room(rng, d, 0))

    def read(passed, places=places, settings=(scheme, n, f, d)):
        return case.call("read", *settings, passed, table, places,
                         random_words(rng, 5))

    answer, base = read(0)
    case.claim(answer == 0, "P 0 is refused")
    for passed in range(0, d, n):
        answer, after = read(passed)
        numbers = list(base[-1])
        numbers[2] = max(numbers[2], passed) if numbers[0] else 0
        case.claim(answer == 0 and list(after[-2]) == list(base[-2])
                   and list(after[-1]) == numbers, "more than low differs")
    before = daybook.validation_before(n, f, d)
    answer, after = read(before)
    case.claim(answer == 0, "D - F*N is refused")
    between = [p for p in range(d) if p % n]
    for passed in (d, d + n, TOP, *rng.sample(between, min(4, len(between)))):
        case.claim(read(passed)[0] == 19, "19 is not said")
        case.claim(read(passed, places=[])[0] == 19, "19 is after 8")
        bad = bad_settings(rng, scheme, n, f, d)
        read(passed, settings=bad)
    case.claim(read(before, places=places[:d - 1])[0] == 8, "8 is not said")


# ------------------------------------------------------------------- searches

def search(case, settings, table, limit, places=None):
    """A search, in a list of D places if none is given."""
    if places is None:
        places = random_words(case.rng, settings[3])
    return case.call("search", *settings, bytes(table), limit, places,
                     random_words(case.rng, 3))


def searched(case, n, d, chosen, limits):
    """A table of the tree searched with these limits, against what is said
    of every search; chosen is the set of changed days, a mask."""
    settings = 3, n, 1, d
    table = table_of(3, n, d, chosen)
    days = daybook.unmask(chosen) if chosen else []
    fails = daybook.tree_outcomes(n, d, table)
    whole = len(daybook.searched(d, fails, TOP)[0])
    case.claim(whole <= bin(d).count("1") + 2 * len(days) * daybook.lg(d),
               "the walk is longer than its bound")
    for limit in limits(whole):
        answer, after = search(case, settings, table, limit)
        looked, found, undecided = after[-1]
        case.claim(answer == 0 and looked == min(limit, whole),
                   "not as many looks as the limit says")
        case.claim(found <= len(days) <= found + undecided,
                   "the number of changed days is not within its bounds")
        case.claim(list(after[-2][:found]) == [
            day for day in days if day <= d - undecided],
            "the undecided days are not the last ones")
        case.claim((undecided == 0) == (limit >= whole),
                   "a search is not finished where it ends")


def spoilt_table(rng, table):
    """The table with an outcome altered, out of range or missing."""
    table = bytearray(table)
    way = rng.randrange(4)
    if way == 0:
        table[rng.randrange(len(table))] ^= 1
    elif way == 1:
        table[rng.randrange(len(table))] = rng.choice((2, 3, 128, 255))
    elif way == 2:
        return bytes(table[:rng.randrange(len(table))])
    return bytes(table) + rng.randbytes(rng.randint(0, 9))


def searches(case):
    """Searches with several limits, of tables of all schemes, refused ones."""
    rng, scheme = case.rng, case.scheme
    n, f, d = layout(scheme, rng, rng.choice((8, 16, 64, 256)))
    settings = scheme, n, f, d
    chosen = random_set(rng, d)
    table = table_of(scheme, n, d, chosen)
    if scheme == 3:
        searched(case, n, d, chosen, lambda whole: (
            0, 1, whole - 1, whole, whole + 1, rng.randrange(whole + 1), TOP))
    else:
        case.claim(search(case, settings, table, 9)[0] == 20,
                   "20 is not said")
    limit = rng.choice((0, 1, rng.randrange(2 * d), 2 * d, TOP))
    places = random_words(rng, room(rng, d, 0.2))
    search(case, settings, spoilt_table(rng, table), limit, places)
    search(case, settings, spoilt_table(rng, table), limit)
    search(case, bad_settings(rng, *settings), table, limit, places)
    case.claim(search(case, settings, b"", limit, places[:d - 1])[0] == 8,
               "8 is after 12")


# ------------------------------------------------------------------- refusals

BAD_SCHEMES = (0, 4, 5, 7, 255, 256, 257, 258, 259, 65537, 2 ** 31 + 1, TOP)
BAD_SIZES = (0, 3, 5, 6, 7, 12, 100, 255, 257, 384, 512, 1024, 65536, 65537,
             2 ** 24, 2 ** 31, 2 ** 31 + 1, TOP)
BAD_INTERVALS = (0, 2, 64, 65, 66, 100, 128, 256, 257, 65536, 65537, 2 ** 31,
                 TOP)


def bad_days(rng, n, f, d):
    """A D that is mostly not allowed."""
    step = f * n
    return rng.choice((0, 1, d + 1, d - 1, d + step // 2, DAYS, DAYS + 1,
                       DAYS + step, 2 * DAYS, TOP, 2 ** 32 - step, 2 ** 31,
                       2 ** 16 // step * step, rng.getrandbits(32),
                       rng.getrandbits(17)))


def bad_settings(rng, scheme, n, f, d):
    """Settings and D with up to three faults."""
    first = n, f, d
    for _ in range(rng.choice((1, 1, 2, 3))):
        way = rng.randrange(5)
        if way == 0:
            scheme = rng.choice(BAD_SCHEMES)
        elif way == 1:
            n = rng.choice(BAD_SIZES)
        elif way == 2:
            f = rng.choice(BAD_INTERVALS)
        else:
            d = bad_days(rng, *first) & TOP
    return scheme, n, f, d


def bad_length(rng, need):
    return max(0, need - rng.choice((0, 0, 1, 1, 2, need)))


def refused(case):
    """Calls on arguments with several faults at once."""
    rng = case.rng
    n, f, d = layout(case.scheme, rng, 16)
    count = daybook.values(case.scheme, n, d)
    settings = case.scheme, n, f, d
    if rng.random() < 0.6:
        settings = bad_settings(rng, *settings)
    days = [rng.randbytes(rng.randrange(4)) for _ in range(d)]
    ledger, ends = join_days(days)
    if rng.random() < 0.4:
        ends = spoil_ends(rng, ends, ledger)
    if rng.random() < 0.2:
        ledger = ledger[:rng.randint(0, len(ledger))]
    if rng.random() < 0.3:
        ends = ends[:bad_length(rng, d)]
    name = rng.choice(("open", "values", "seal", "check", "check", "read",
                       "read", "search"))
    if name == "open":
        arguments = *settings[:3], rng.randbytes(record.SIZE)
    elif name == "values":
        arguments = *settings, random_words(rng, 1)
    elif name == "seal":
        arguments = (*settings, ledger, ends,
                     rng.randbytes(bad_length(rng, 32 * count)))
    elif name == "check":
        arguments = (*settings, ledger, ends,
                     rng.randbytes(bad_length(rng, 32 * count)),
                     rng.randbytes(bad_length(rng, 32 * d)),
                     rng.randbytes(bad_length(rng, count)))
    else:
        table = bytearray(b"\1" * bad_length(rng, count))
        if table and rng.random() < 0.6:
            table[rng.randrange(len(table))] = rng.choice((0, 0, 2, 255))
        passed = rng.choice((0, passed_day(rng, n, f, d),
                             bad_passed(rng, n, d)))
        places = random_words(rng, bad_length(rng, d))
        arguments = (*settings, passed, bytes(table), places,
                     random_words(rng, 5))
        if name == "search":
            arguments = (*settings, bytes(table), rng.choice((0, 1, TOP)),
                         places, random_words(rng, 3))
    case.call(name, *arguments)


# ------------------------------------------------------------------ histories

class ByRecord:
    """What add and close must give, by record.py."""

    def __init__(self, first):
        pass

    def add(self, old, piece, blocks):
        return want_add(old, piece, blocks)

    def close(self, old, part, values, blocks):
        return want_close(old, part, values, blocks)


class ByDaybook:
    """What add and close must give, by daybook.py from its record first."""

    def __init__(self, first):
        self.record = first

    def add(self, old, piece, blocks):
        before = self.record
        refusal, self.record = daybook.add(before, piece)
        return refusal, (record.from_daybook(self.record), piece, blocks
                         if refusal else (daybook.add_blocks(before, piece),))

    def close(self, old, part, values, blocks):
        before, after = self.record, bytearray(part)
        refusal, self.record, count = daybook.close(before, after)
        numbers = (values, blocks) if refusal \
            else ((count,), (daybook.close_blocks(before),))
        return refusal, (record.from_daybook(self.record), bytes(after),
                         *numbers)


class Season:
    """What the calls of one season gave; days of it are before the first."""

    def __init__(self, days=0):
        self.days = days
        self.book = []
        self.blocks = 0         # of its calls so far
        self.taken = []         # of its calls up to each accepted close


class History:
    """A list of calls from an accepted open on, with diary and books.

    With late, a season and days closed in it, it goes on from a made-up
    record instead: any running values, and days of which nothing is known.
    """

    def __init__(self, case, n, f, service, late=None):
        self.case = case
        self.settings = case.scheme, n, f
        _, first = daybook.open_service(*self.settings)
        season, days = late or (0, 0)
        if late:
            first = replace(first, season=season, days=days, running=tuple(
                case.rng.randbytes(32) for _ in first.running))
            self.record = record.from_daybook(first)
        else:
            answer, after = case.call("open", *self.settings,
                                      case.rng.randbytes(record.SIZE))
            case.claim(answer == 0, "open is refused")
            self.record = after[-1]
        self.service = service(first)
        self.diary = daybook.Diary(*self.settings, season, [b""] * days)
        self.seasons = {season: Season(days)}

    def present(self):
        """The season of the record."""
        number = record.fields(self.record)[5]
        self.case.claim(number == self.diary.season,
                        "the seasons of record and diary differ")
        return self.seasons.setdefault(number, Season())

    def add(self, piece):
        blocks = random_words(self.case.rng, 1)
        answer, after = self.case.call(
            "add", self.record, piece, blocks,
            want=self.service.add(self.record, piece, blocks))
        self.record = after[0]
        self.case.claim(answer == self.diary.add(piece),
                        "add and diary differ")
        if answer == 0:
            self.present().blocks += after[2][0]
        return answer

    def need(self):
        """The bytes that the next close writes."""
        scheme, n, _ = self.settings
        _, entries, _ = self.diary.due()
        return 32 * len(daybook.names(scheme, n, len(entries) + 1))

    def close(self, part):
        values, blocks = random_words(self.case.rng, 2)
        lent = [values], [blocks]
        answer, after = self.case.call(
            "close", self.record, part, *lent,
            want=self.service.close(self.record, part, *lent))
        self.record = after[0]
        self.case.claim(answer == self.diary.close(len(part)),
                        "close and diary differ")
        if answer == 0:
            season = self.present()
            season.book.append(after[1][:32 * after[2][0]])
            season.blocks += after[3][0]
            season.taken.append(season.blocks)
        return answer

    def count(self):
        """The record's values are those of its season's book so far."""
        scheme, n, _ = self.settings
        season = self.present()
        before = daybook.values_closed(scheme, n, season.days)
        answer, after = self.case.call("record_values", self.record,
                                       random_words(self.case.rng, 1))
        self.case.claim(answer == 0 and 32 * (after[1][0] - before)
                        == sum(map(len, season.book)),
                        "the values of the record are not those written")

    def compare_seasons(self):
        """Each season by itself: its book, its blocks against forecasts."""
        self.case.claim(self.seasons.keys() == self.diary.seasons.keys(),
                        "not the seasons of the diary")
        for number in self.seasons:
            self.compare_blocks(number)
            if not self.seasons[number].days:
                self.compare_book(number)
                self.compare_forecast(number)

    def compare_book(self, number):
        """The book of a season is that of the diary's entries of it."""
        scheme, n, _ = self.settings
        days = self.diary.seasons[number]
        make = daybook.book if len(days) <= 40 else daybook.seal_book
        self.case.claim(b"".join(self.seasons[number].book)
                        == make(scheme, n, days),
                        "the book is not that of the diary's entries")

    def compare_blocks(self, number):
        """The blocks of a season up to each close are those of its days."""
        scheme, n, _ = self.settings
        season, entries = self.seasons[number], self.diary.seasons[number]
        due = accumulate(
            daybook.day_blocks(scheme, n, g, len(entries[g - 1]))
            for g in range(season.days + 1, len(entries) + 1))
        self.case.claim(season.taken == list(due),
                        "the blocks taken are not those of the days")

    def compare_forecast(self, number):
        """The forecast says what the calls of a season took."""
        scheme, n, f = self.settings
        rng, taken = self.case.rng, self.seasons[number].taken
        lengths = [len(day) for day in self.diary.seasons[number]]
        allowed = range(f * n, len(lengths) + 1, f * n)
        for d in {*rng.sample(allowed, min(2, len(allowed))), *allowed[-1:]}:
            rest = random_words(rng, rng.randrange(3))
            answer, after = self.case.call(
                "forecast", scheme, n, f, d, lengths[:d] + rest,
                random_words(rng, 3))
            self.case.claim(answer == 0 and after[-1][2] == taken[d - 1],
                            "forecast is not what the calls took")


def late_in_a_season(rng):
    """(season, days closed), with a turn or the very end a few closes on."""
    season = rng.choice((0, 0, 1, LAST - 2, LAST - 1, LAST - 1, LAST,
                         rng.randrange(LAST)))
    return season, DAYS - rng.choice((0, 0, 1, 1, 2, 3, 5))


def history(case):
    """A list of calls from an open on, or from late in a season."""
    rng = case.rng
    n = 1 << (rng.randrange(5) if rng.random() < 0.9 else rng.randrange(9))
    f = 1 if case.scheme == 3 else rng.randint(1, 64)
    service = ByRecord if rng.random() < 0.4 else ByDaybook
    late = late_in_a_season(rng) if rng.random() < 0.4 else None
    n = 1 if late and rng.random() < 0.3 else n
    calls = History(case, n, f, service, late)
    calls.count()
    closing = rng.choice((0.3, 0.5, 0.8))
    for _ in range(rng.choice((4, 8, 16, 16, 30))):
        if rng.random() < closing:
            part = rng.randbytes(room(rng, calls.need(), 0.15))
            calls.close(part)
        else:
            calls.add(rng.randbytes(day_length(rng)))
    calls.count()
    calls.compare_seasons()


# ------------------------------------------------------------ made-up records

def start_in(rng, scheme, n):
    """A start in a made-up record: any, zeros, right or another layout's."""
    if rng.random() < 0.5 or daybook.settings_refusal(scheme, n, 1):
        return rng.randbytes(32)
    others = rng.choice((1, 2, 3)), rng.choice(SIZES)
    return rng.choice((OLDER, OLDER, daybook.start(scheme, n),
                       daybook.start(*others)))


def any_season(rng):
    """A season in a made-up record: mostly allowed, often near the last."""
    if rng.random() < 0.1:
        return rng.choice((LAST + 1, LAST + 1, LAST + 1, LAST + 2,
                           2 * LAST + 1, TOP, rng.getrandbits(32)))
    return rng.choice((0, 0, 1, LAST - 2, LAST - 1, LAST - 1, LAST, LAST,
                       rng.randrange(LAST)))


def made_up(scheme, rng):
    """A record with fields that are allowed or just not.

    In a third of them the season is full or nearly so.
    """
    data = rng.randbytes(record.SIZE)
    x = rng.random()
    if x < 0.03:
        return data
    n, f, d = layout(scheme, rng, 256)
    days = rng.choice((0, d - 1, d, n - 1, rng.randrange(DAYS),
                       rng.randrange(DAYS), DAYS - 1, DAYS - 2, DAYS // 2 - 1,
                       (1 << rng.randint(0, 16)) - 1))
    count = rng.choice((0, 1, 54, 55, 61, 62, 63, 64, 126, 127,
                        rng.randrange(300), rng.randrange(LIMIT), LIMIT - 1,
                        LIMIT - 64, LIMIT))
    if x < 0.2:
        scheme, n, f, _ = bad_settings(rng, scheme, n, f, d)
    if x > 0.8:
        days = rng.choice((DAYS, DAYS + 1, days, TOP, days))
    if x > 0.9:
        count = rng.choice((LIMIT - 1, LIMIT, LIMIT + 1, TOP))
    if 0.15 < x < 0.5:
        days = rng.choice((DAYS - 1, DAYS, DAYS, DAYS))
        count = count if rng.random() < 0.2 else 0
        n = 1 if x > 0.2 and rng.random() < 0.4 else n
    return record_of(rng, scheme, n, f, days, count, any_season(rng),
                     start_in(rng, scheme, n))


def record_of(rng, scheme, n, f, days, count=0, season=0, first=None):
    """A record with these numbers and random words and block bytes.

    Its start is first, or random too.
    """
    return b"".join([struct.pack("<5I", scheme, n, f, days, count),
                     rng.randbytes(record.START - record.WORDS),
                     record.swap(first or rng.randbytes(32)),
                     struct.pack("<I", season)])


def made_up_calls(case):
    """Adds and closes; at a full season a few adds are too long."""
    rng = case.rng
    current = made_up(case.scheme, rng)
    for _ in range(rng.choice((1, 1, 2, 3))):
        scheme, n, _, days, *_ = record.fields(current)
        if rng.random() < 0.5:
            piece = rng.randbytes(rng.choice((0, 1, 2, 63, 64, 65)) if
                                  rng.random() < 0.5 else day_length(rng))
            if days == DAYS and rng.random() < 0.02:
                piece = bytes(LIMIT + 1)
            _, after = case.call("add", current, piece, random_words(rng, 1))
        else:
            need = 32
            if record.refusal_of(current) == 0:
                day = 1 if days == DAYS else days + 1
                need = 32 * len(daybook.names(scheme, n, day))
            part = rng.randbytes(rng.choice((need, max(need - 1, 0), 0))
                                 if rng.random() < 0.2
                                 else room(rng, need, 0.1))
            _, after = case.call("close", current, part, random_words(rng, 1),
                                 random_words(rng, 1))
        current = after[0]


# -------------------------------------------------------------- null pointers

def empty_arrays(case):
    """Calls on arrays without elements, given as null pointers."""
    rng, scheme = case.rng, case.scheme
    n, f, d = layout(scheme, rng, 16)
    count = daybook.values(scheme, n, d)

    def some(data):
        return data if rng.random() < 0.7 else data[:0]

    name = rng.choice(("add", "close", "seal", "check", "read", "search",
                       "forecast"))
    if name == "add":
        case.call("add", made_up(scheme, rng), b"", random_words(rng, 1),
                  nulls=True)
    elif name == "close":
        case.call("close", made_up(scheme, rng), b"", random_words(rng, 1),
                  random_words(rng, 1), nulls=True)
    elif name == "forecast":
        case.call("forecast", scheme, n, f, d, [], random_words(rng, 3),
                  nulls=True)
    elif name == "seal":
        case.call("seal", scheme, n, f, d, b"", some([0] * d),
                  some(rng.randbytes(32 * count)), nulls=True)
    elif name == "check":
        book = b"".join(values_of(scheme, n, [daybook.digest(b"")] * d))
        case.call("check", scheme, n, f, d, b"", some([0] * d), some(book),
                  some(rng.randbytes(32 * d)), some(rng.randbytes(count)),
                  nulls=True)
    elif name == "search":
        case.call("search", scheme, n, f, d, some(b"\1" * count), d,
                  some(random_words(rng, d)), random_words(rng, 3),
                  nulls=True)
    else:
        case.call("read", scheme, n, f, d, passed_day(rng, n, f, d),
                  some(b"\1" * count), some(random_words(rng, d)),
                  random_words(rng, 5), nulls=True)


# ----------------------------------------------------------- number of values

def number_of_values(case):
    rng, scheme = case.rng, case.scheme
    for _ in range(4):
        n, f, d = layout(scheme, rng, rng.choice((16, 1024, DAYS)))
        answer, after = case.call("values", scheme, n, f, d,
                                  random_words(rng, 1))
        case.claim(answer == 0 and
                   after[-1][0] == count_of_chains(scheme, n, d),
                   "values is not the number of chains")
    settings = bad_settings(rng, scheme, n, f, d)
    case.call("values", *settings, random_words(rng, 1))


# --------------------------------------------------------------------- sizing

def sizes(case):
    """Forecasts: days of all lengths, some over the limit, some lacking."""
    rng, scheme = case.rng, case.scheme
    n, f, d = layout(scheme, rng)
    settings = scheme, n, f, d
    good = [rng.choice((day_length(rng), day_length(rng),
                        rng.randrange(LIMIT + 1), LIMIT)) for _ in range(d)]
    long = list(good)
    long[rng.randrange(d)] = rng.choice((LIMIT + 1, TOP))
    few = rng.choice((good, long))[:rng.randrange(d)]
    if few and rng.random() < 0.5:
        few[rng.randrange(len(few))] = rng.choice((LIMIT + 1, TOP))
    behind = random_words(rng, rng.randint(1, 3))
    for lengths in (good, good + behind, long, long + behind, few):
        case.call("forecast", *settings, lengths, random_words(rng, 3))
    case.call("forecast", *bad_settings(rng, *settings), good + behind,
              random_words(rng, 3))


def count_record(case, data):
    """The values of a record: by wanted.py, and by levels if accepted."""
    answer, after = case.call("record_values", data,
                              random_words(case.rng, 1))
    scheme, n, _, days, *_ = record.fields(data)
    case.claim(answer == 6 or
               after[1][0] == count_of_chains(scheme, n, days),
               "the values of a record are not the number of chains")
    return answer


def values_of_record(case):
    """Records made up, fresh and of a refused open; the version."""
    rng, scheme = case.rng, case.scheme
    for _ in range(4):
        count_record(case, made_up(scheme, rng))
    n, f, d = layout(scheme, rng, 16)
    for settings in ((scheme, n, f), bad_settings(rng, scheme, n, f, d)[:3],
                     (scheme, n, rng.choice(BAD_INTERVALS))):
        answer, after = case.call("open", *settings,
                                  rng.randbytes(record.SIZE))
        case.claim(count_record(case, after[-1]) == (6 if answer else 0),
                   "the values of a record that was opened")
    case.call("version")


# ------------------------------------------------------------------ positions

NUMBERS = (0, 1, 2, 3, 4, 7, 8, 9, 15, 16, 17, 31, 32, 33, 255, 256, 257,
           DAYS - 1, DAYS, DAYS + 1, 2 ** 31 - 1, 2 ** 31, TOP - 1, TOP)


def chain_at(case, settings, position):
    """The four numbers at a position, from which it must come back."""
    rng = case.rng
    answer, after = case.call("chain_at", *settings, position,
                              random_words(rng, 4))
    if answer:
        return None
    four = list(after[-1])
    answer, back = case.call("position_of", *settings, four,
                             random_words(rng, 1))
    case.claim(answer == 0 and back[-1][0] == position,
               "the position does not come back")
    return four


def position_of(case, settings, four):
    """The position of four numbers, at which they must stand."""
    rng, four = case.rng, [x & TOP for x in four]
    answer, after = case.call("position_of", *settings, four,
                              random_words(rng, 1))
    if answer == 0:
        answer, back = case.call("chain_at", *settings, after[-1][0],
                                 random_words(rng, 4))
        case.claim(answer == 0 and list(back[-1]) == four,
                   "the chain does not come back")


def one_wrong(rng, four):
    """The four, with one of them near, at an edge or anything."""
    for k, x in enumerate(four):
        for other in (x - 1, x + 1, rng.choice(NUMBERS), rng.getrandbits(32)):
            yield [*four[:k], other, *four[k + 1:]]


def by_rule(rng, n, d):
    """Chains as the rules would name them, of any kind and at any day."""
    g = rng.choice((rng.randint(1, d + n), n * rng.randint(1, d // n + 1),
                    1 << rng.randrange(17)))
    i = rng.choice((rng.randrange(daybook.lg(n) + 2), rng.randrange(18)))
    yield 1, 0, 1, g
    yield 1, i, 1, g
    yield 2, 0, g - n + 1, g
    yield 2, i, g - n + 1, g - n // 2 ** i
    yield 2, i, g - n + 1, g
    yield 3, i, g - 2 ** i + 1, g
    yield 3, daybook.lg(g & -g), g - (g & -g) + 1, g


def positions(case):
    """From positions to chains and back: in the book, beyond it, misnamed."""
    rng, scheme = case.rng, case.scheme
    n, f, d = layout(scheme, rng)
    settings = scheme, n, f, d
    count = daybook.values(scheme, n, d)
    for position in (0, rng.randrange(count), rng.randrange(count),
                     count - 1, count, count + rng.randint(1, 40),
                     rng.choice(NUMBERS), rng.getrandbits(32), TOP):
        chain_at(case, settings, position)
    four = daybook.fours(scheme, n, d)[rng.randrange(count)]
    for wrong in (*one_wrong(rng, four), *by_rule(rng, n, d)):
        position_of(case, settings, wrong)
    for kind in (0, 4, TOP):
        position_of(case, settings, (kind, *four[1:]))
    for position in (rng.randrange(count), count, TOP):
        bad = bad_settings(rng, *settings)
        chain_at(case, bad, position)
        position_of(case, bad, rng.choice((four, random_words(rng, 4))))


# -------------------------------------------------------- how vague a tile is

TILE_SIZES = (1, 2, 4, 8, 16, 32, 64)
FAR = (5, 6, 63, 64, 254, 255, 256, 257, 258, 259, 512, 65535, 65536, 65537,
       65538, 65539, 2 ** 31, 2 ** 31 + 1, 2 ** 31 + 3, TOP - 1, TOP)


def tile_counts(case, n, k):
    """The counts of a tile, against what is said of all sets together."""
    answer, after = case.call("tile_counts", n, k, random_words(case.rng, 2))
    if n in TILE_SIZES and k in (1, 2, 3):
        sets, listed = after[-1]
        case.claim(answer == 0 and sets == comb(n, k), "the number of sets")
        case.claim(k * sets <= listed <= n * sets,
                   "not between the days of the sets and whole tiles")
        case.claim(k > 1 or listed == 3 ** daybook.lg(n),
                   "k 1 is not 3 to the power lg N")
    else:
        known = n in (*TILE_SIZES, 128, 256)
        case.claim(answer == (21 if known else 2), "2 or 21 is not said")


def tiles(case):
    """Sets of up to three offsets and refused ones, of all kinds of N."""
    rng = case.rng
    high = [1 << weight for weight in (8, 16, 24, 31)]
    for n in (rng.choice(TILE_SIZES), rng.choice((32, 64, 128, 256))):
        for k in (0, 1, 2, 3, 4, rng.choice(FAR), rng.getrandbits(32),
                  *(x + rng.randint(1, 3) for x in high)):
            tile_counts(case, n, k)
    for n in (rng.choice(BAD_SIZES), rng.randrange(300), rng.getrandbits(32),
              *(x + rng.choice(TILE_SIZES) for x in high)):
        tile_counts(case, n, rng.choice((0, 1, 2, 3, 4, rng.choice(FAR))))


# ----------------------------------------------------- cases run once a layout

def whole_book(case):
    """65,536 short days: seal, check, read."""
    rng, scheme = case.rng, case.scheme
    n = 1 << rng.randrange(9)
    f = 1 if scheme == 3 else 1 << rng.randrange(7)
    days = [rng.randbytes(rng.randrange(4)) for _ in range(DAYS)]
    altered = list(days)
    for _ in range(3):
        altered[rng.randrange(DAYS)] += b"\0"
    count = daybook.values(scheme, n, DAYS)
    ledger, ends = join_days(days)
    answer, after = case.call("seal", scheme, n, f, DAYS, ledger, ends,
                              rng.randbytes(32 * count + 9))
    book = after[-1][:32 * count]
    case.claim(answer == 0, "seal is refused")
    for checked, bad in ((days, False), (altered, True)):
        ledger, ends = join_days(checked)
        answer, after = case.call(
            "check", scheme, n, f, DAYS, ledger, ends, book,
            rng.randbytes(32 * DAYS + 5), rng.randbytes(count + 5))
        case.claim(answer == 0, "check is refused")
        answer, after = case.call("read", scheme, n, f, DAYS,
                                  passed_day(rng, n, f, DAYS), after[-1],
                                  random_words(rng, DAYS + 5),
                                  random_words(rng, 5))
        listed = set(after[-2][:after[-1][0]])
        changed = {g for g in range(1, DAYS + 1)
                   if days[g - 1] != checked[g - 1]}
        case.claim(answer == 0 and changed <= listed
                   and bool(listed) == bad, "the list is not as due")


def whole_seasons(case):
    """65,536 days through add and close, as many again, and one more."""
    n, f = {1: (1, 3), 2: (256, 63), 3: (8, 1)}[case.scheme]
    run_seasons(case, n, f)
    if case.scheme != 3:
        m, v = {1: (256, 63), 2: (1, 3)}[case.scheme]
        days = [case.rng.randbytes(case.rng.randrange(4))
                for _ in range(DAYS)]
        check_season(case, m, v, days, daybook.seal_book(case.scheme, m, days))


def run_seasons(case, n, f):
    """Two seasons and a day of a third from an open on, then each by itself.

    One turn is made by an add of length 0, the other by a close.
    """
    calls = History(case, n, f, ByDaybook)
    for number in (0, 1):
        before = fill_season(calls)
        if number == 0:
            end_of_all(calls, before)
        turn(calls, (case.scheme + number) % 2 == 0)
    case.claim([len(days) for days in calls.diary.seasons.values()]
               == [DAYS, DAYS, 1], "not all days are closed")
    calls.count()
    calls.compare_seasons()
    for number in (0, 1):
        check_season(case, n, f, calls.diary.seasons[number],
                     b"".join(calls.seasons[number].book), number == 0)


def fill_season(calls):
    """Close all days of the season; gives the record before the last."""
    rng, entries = calls.case.rng, calls.diary.entries
    while len(entries) < DAYS:
        if rng.random() < 0.5:
            calls.add(rng.randbytes(rng.randrange(4)))
        before = calls.record
        if calls.close(rng.randbytes(room(rng, calls.need(), 0.01))):
            calls.close(rng.randbytes(calls.need()))
    return before


def turn(calls, by_add):
    """Refused calls at a full season, then the turn and day 1."""
    case, rng, before = calls.case, calls.case.rng, calls.record
    number = calls.diary.season
    calls.count()
    case.claim(calls.add(bytes(LIMIT + 1)) == 4, "4 is not said at the turn")
    need = calls.need()
    for short in {need - 1, 0} if need else ():
        case.claim(calls.close(rng.randbytes(short)) == 8,
                   "8 is not said at the turn")
    case.claim(calls.record == before, "a refused call turns")
    calls.count()
    if by_add:
        case.claim(calls.add(b"") == 0, "an empty add is refused")
        case.claim(numbers_of(calls.record) == (number + 1, 0, 0),
                   "an empty add does not turn")
        calls.count()
        calls.add(rng.randbytes(3))
    case.claim(calls.close(rng.randbytes(need)) == 0, "close is refused")
    case.claim(numbers_of(calls.record) == (number + 1, 1, 0),
               "day 1 is not closed")


def numbers_of(data):
    """Season, days closed and bytes in the open day of a record."""
    _, _, _, days, count, season = record.fields(data)
    return season, days, count


def end_of_all(calls, before):
    """The season's last close as that of the last season, and then 5."""
    case, rng = calls.case, calls.case.rng
    written = calls.seasons[calls.diary.season].book[-1]
    data = before[:record.SEASON] + struct.pack("<I", LAST)
    answer, after = case.call("close", data, rng.randbytes(len(written)),
                              random_words(rng, 1), random_words(rng, 1))
    case.claim(answer == 0 and after[1] == written
               and numbers_of(after[0]) == (LAST, DAYS, 0),
               "the last day of all is not closed as due")
    for piece in (b"", b"x", bytes(100), bytes(LIMIT + 1)):
        case.claim(case.call("add", after[0], piece,
                             random_words(rng, 1))[0] == 5, "add goes on")
    for part in (b"", bytes(600)):
        case.claim(case.call("close", after[0], part, random_words(rng, 1),
                             random_words(rng, 1))[0] == 5, "close goes on")
    case.claim(count_record(case, after[0]) == 0, "its values are refused")


def check_season(case, n, f, days, book, twice=False):
    """The first D days of a full season, D the largest: check and read.

    Three of them are altered, and with twice also none but those past D.  The
    book handed to check is the season's whole one.
    """
    rng, settings = case.rng, (case.scheme, n, f)
    d = daybook.largest_days(n, f)
    altered = list(days)
    for g in rng.sample(range(d), 3):
        altered[g] += b"\0"
    behind = days[:d] + [day + b"x" for day in days[d:]]
    for found in (altered, behind) if twice else (altered,):
        ledger, ends = join_days(found)
        answer, after = case.call(
            "check", *settings, d, ledger, ends, book,
            rng.randbytes(32 * d), rng.randbytes(len(book) // 32))
        case.claim(answer == 0, "check is refused")
        answer, after = case.call("read", *settings, d,
                                  passed_day(rng, n, f, d), after[-1],
                                  random_words(rng, d), random_words(rng, 5))
        listed = set(after[-2][:after[-1][0]])
        changed = {g for g in range(1, d + 1) if days[g - 1] != found[g - 1]}
        case.claim(answer == 0 and changed <= listed
                   and bool(listed) == bool(changed)
                   and (case.scheme != 3 or changed == listed),
                   "the list of a full season is not as due")
    for more in range(d + 1, DAYS + 1) if d > DAYS - 3 else (d + 1, DAYS):
        lent = *settings, more
        for name, rest in (
                ("values", ([9],)), ("seal", (ledger, ends, book)),
                ("check", (ledger, ends, book, bytes(32 * more), book)),
                ("read", (0, book, [9] * more, [9] * 5)),
                ("forecast", ([0] * more, [9] * 3))):
            case.claim(case.call(name, *lent, *rest)[0] == 7,
                       "a D over the largest is allowed")


def every_turn(case):
    """Records at the end of a season, and about it: every add and close."""
    rng, scheme = case.rng, case.scheme
    for n in (1, 8, 256):
        f = 1 if scheme == 3 else rng.choice((1, 3, 63))
        for season in (0, 1, LAST - 2, LAST - 1, LAST, LAST + 1, LAST + 2,
                       2 ** 24, TOP):
            for days, count in ((DAYS - 1, 0), (DAYS - 1, 63), (DAYS, 0),
                                (DAYS, 1), (DAYS, 63), (DAYS, LIMIT),
                                (DAYS, LIMIT + 1), (DAYS + 1, 0)):
                data = record_of(rng, scheme, n, f, days, count, season,
                                 start_in(rng, scheme, n))
                for length in (0, 1, 63, 200):
                    add_about_a_turn(case, data, length)
                closes_about_a_turn(case, data)
                count_record(case, data)
    for season in (0, 1, LAST - 1, LAST, LAST + 1, TOP):
        for days, count in ((DAYS - 1, 1), (DAYS, 0), (DAYS, 1)):
            data = record_of(rng, scheme, 1, 1, days, count, season)
            add_about_a_turn(case, data, LIMIT - count + 1)


def tested_on(data):
    """(refusal 6 or 5, season, days, bytes) that a call is made on.

    By the request's words, for a scheme, N and F that are allowed.
    """
    season, days, count = numbers_of(data)
    if season > LAST or days > DAYS or count > LIMIT \
            or (days == DAYS and count > 0):
        return 6, season, days, count
    if days < DAYS:
        return 0, season, days, count
    return (5, season, days, 0) if season == LAST else (0, season + 1, 0, 0)


def add_about_a_turn(case, data, length):
    """An add, and a close after it."""
    rng = case.rng
    refusal, season, days, count = tested_on(data)
    want = refusal or (4 if count + length > LIMIT else 0)
    piece = rng.randbytes(min(length, 200)).ljust(length, b"\0")
    answer, after = case.call("add", data, piece, random_words(rng, 1))
    case.claim(answer == want, "an add about a turn")
    case.claim(numbers_of(after[0]) == (
        numbers_of(data) if want else (season, days, count + length)),
        "the turn of an add")
    if want == 0:
        case.claim(record.fields(after[0])[:3] == record.fields(data)[:3]
                   and record.start_of(after[0]) == record.start_of(data),
                   "scheme, N, F or start are not kept")
        case.call("close", after[0], rng.randbytes(600),
                  random_words(rng, 1), random_words(rng, 1))


def closes_about_a_turn(case, data):
    """Closes with a part long enough, a byte too short, empty and long."""
    rng = case.rng
    refusal, season, days, _ = tested_on(data)
    scheme, n, *_ = record.fields(data)
    count = len(daybook.names(scheme, n, days + 1))
    for length in {32 * count, max(32 * count - 1, 0), 0, 600}:
        want = refusal or (8 if length < 32 * count else 0)
        answer, after = case.call("close", data, rng.randbytes(length),
                                  random_words(rng, 1), random_words(rng, 1))
        case.claim(answer == want, "a close about a turn")
        case.claim(numbers_of(after[0]) == (
            numbers_of(data) if want else (season, days + 1, 0)),
            "the turn of a close")
        if want == 0 and days == 0:
            first = daybook.link(record.start_of(data), daybook.digest(b""))
            case.claim(after[1][:32 * count] == first * count,
                       "the values of day 1, an empty day")
            case.call("close", after[0], rng.randbytes(600),
                      random_words(rng, 1), random_words(rng, 1))


def high_bytes(case):
    """Records whose open day is at its limit."""
    rng, scheme = case.rng, case.scheme
    for count in (LIMIT - 65, LIMIT - 2, LIMIT - 1, LIMIT, LIMIT + 1, TOP):
        for length in (0, 1, 2, 3, 64, 65, 66, 200):
            for days, season in ((0, 0), (DAYS - 1, LAST - 1),
                                 (DAYS - 1, LAST), (DAYS, 0), (DAYS, LAST),
                                 (DAYS + 1, 0), (0, LAST + 1)):
                data = record_of(rng, scheme, 1, 1, days, count, season)
                answer, after = case.call("add", data, rng.randbytes(length),
                                          random_words(rng, 1))
                case.claim(answer == (
                    6 if count > LIMIT or days >= DAYS or season > LAST
                    else 4 if count + length > LIMIT else 0),
                    "the day's limit")
                case.call("close", after[0], rng.randbytes(600),
                          random_words(rng, 1), random_words(rng, 1))


def add_big(case, current, piece, day, want):
    """An add whose hash words are judged by the open day's digest."""
    after, blocks = current, random_words(case.rng, 1)
    taken = blocks
    digest = None
    if want == 0:
        now = record.present(current)
        scheme, n, f, days, count, season = record.fields(now)
        taken = [record.add_blocks(current, piece)]
        count += len(piece)
        rest = day[len(day) - (count + 1) % 64:] if (count + 1) % 64 else b""
        after = record.pack((scheme, n, f, days, count, season),
                            record.FIRST, record.running_of(now), rest,
                            record.start_of(now))
        digest = hashlib.sha256(day).digest()
    answer, given = case.call("add", current, piece, blocks,
                              want=(want, (after, piece, taken)), day=digest)
    return given[0], 0 if answer else taken[0]


def big_day(case):
    """A day of 16,777,216 bytes, in one piece and in several.

    It is the first day after an open, and the first after a turn.
    """
    rng, scheme = case.rng, case.scheme
    data = rng.randbytes(LIMIT + 1)
    cuts = sorted(rng.randrange(LIMIT) for _ in range(3))
    _, fresh = case.call("open", scheme, 1, 1, rng.randbytes(record.SIZE))
    for bounds, first in (
            ([0, LIMIT], fresh[-1]), ([0, *cuts, LIMIT], fresh[-1]),
            ([0, LIMIT], record_of(rng, scheme, 1, 1, DAYS, 0, LAST - 1))):
        current, total = add_big(case, first, data, b"\0", 4)
        for a, b in zip(bounds, bounds[1:]):
            for piece, want in ((data[a:b], 0), (b"", 0),
                                (data[:LIMIT - b + 1], 4)):
                current, taken = add_big(case, current, piece,
                                         b"\0" + data[:b], want)
                total += taken
        h = daybook.digest(data[:LIMIT])
        part = rng.randbytes(100)
        answer, after = case.call("close", current, part,
                                  random_words(rng, 1), random_words(rng, 1))
        case.claim(answer == 0 and after[1][:32]
                   == daybook.link(record.start_of(first), h),
                   "the value of a big day")
        case.claim(total + after[3][0]
                   == daybook.forecast_blocks(scheme, 1, [LIMIT]),
                   "the blocks of a big day")


def big_ledger(case):
    """Days of a ledger at the limit and over it."""
    rng, scheme = case.rng, case.scheme
    ledger = rng.randbytes(LIMIT + 2)
    for ends, answer_due in (((LIMIT, LIMIT + 2), 0),
                             ((LIMIT + 1, LIMIT + 1), 10),
                             ((1, LIMIT + 1), 0), ((1, LIMIT + 2), 10),
                             ((LIMIT + 2, LIMIT + 2), 10),
                             ((LIMIT, LIMIT + 3), 10)):
        count = daybook.values(scheme, 1, 2)
        answer, after = case.call("seal", scheme, 1, 1, 2, ledger, list(ends),
                                  rng.randbytes(32 * count))
        case.claim(answer == answer_due, "seal at the day's limit")
        book = after[-1]
        answer, after = case.call("check", scheme, 1, 1, 2, ledger,
                                  list(ends), book, rng.randbytes(64),
                                  rng.randbytes(count))
        case.claim(answer == answer_due, "check at the day's limit")


def settings_grid(case):
    """Every N up to 520, every F up to 70, edges of D."""
    rng, scheme = case.rng, case.scheme
    sizes = [*range(521), *BAD_SIZES]
    intervals = [*range(71), *BAD_INTERVALS]
    pairs = [(n, f) for n in sizes for f in (0, 1, 2, 64, 65)]
    pairs += [(n, f) for n in (1, 2, 128, 256, 512) for f in intervals]
    data = rng.randbytes(record.SIZE)
    for n, f in pairs:
        case.call("open", scheme, n, f, data)
        case.call("values", scheme, n, f, f * n & TOP, random_words(rng, 1))
    for other in (*BAD_SCHEMES, 1, 2, 3):
        for n, f in ((1, 1), (0, 1), (1, 0), (0, 0), (256, 64)):
            case.call("open", other, n, f, data)
            case.call("values", other, n, f, DAYS, random_words(rng, 1))
    for n in (1, 2, 16, 256):
        for d in [*range(1030), *range(DAYS - 520, DAYS + 520),
                  *range(TOP - 520, TOP + 1)]:
            answer, after = case.call("values", scheme, n, 1, d,
                                      random_words(rng, 1))
            if answer == 0:
                case.claim(after[-1][0] == count_of_chains(scheme, n, d),
                           "values is not the number of chains")


def record_grid(case):
    """Values of records: days at all edges, numbers that are not allowed."""
    rng, scheme = case.rng, case.scheme
    for n in range(521):
        count_record(case, record_of(rng, scheme, n, 1, 5))
    for f in range(71):
        count_record(case, record_of(rng, scheme, 4, f, 5))
    for other in (*BAD_SCHEMES, 1, 2, 3):
        count_record(case, record_of(rng, other, 4, 1, 5))
    for n in (1, 2, 16, 256):
        for days in [*range(1030), *range(DAYS - 520, DAYS + 520), TOP]:
            answer = count_record(case, record_of(
                rng, scheme, n, 1, days, 0, rng.randrange(LAST + 1)))
            case.claim(answer == (6 if days > DAYS else 0), "the days' limit")
    for count in (0, 1, 63, LIMIT - 1, LIMIT, LIMIT + 1, TOP):
        for season in (0, 1, LAST - 1, LAST, LAST + 1, TOP):
            for days in (5, DAYS - 1, DAYS):
                answer = count_record(case, record_of(
                    rng, scheme, 4, 1, days, count, season))
                case.claim(answer == (
                    6 if count > LIMIT or season > LAST
                    or (days == DAYS and count) else 0),
                    "the limits of day and season")
    for season in (*range(300), *range(LAST - 300, LAST + 300),
                   *(1 << weight for weight in range(32)),
                   *((1 << weight) + 1 for weight in range(16, 32))):
        answer = count_record(case, record_of(rng, scheme, 4, 1, 5, 0,
                                              season))
        case.claim(answer == (6 if season > LAST else 0),
                   "the limit of the seasons")


def wide_arrays(case):
    """An array of 2^32 elements in each call: its length has a low half of 0.
    """
    rng, scheme = case.rng, case.scheme
    n, f, d = 4, 1, 8
    count = daybook.values(scheme, n, d)
    days = [rng.randbytes(rng.randint(1, 20)) for _ in range(d)]
    ledger, ends = join_days(days)
    book = b"".join(values_of(scheme, n, [daybook.digest(x) for x in days]))
    settings = scheme, n, f, d
    _, fresh = record.open_service(scheme, 1, 1)
    case.call("add", fresh, b"abc", [9], want=(4, (fresh, b"abc", [9])),
              wide="piece")
    full = record_of(rng, scheme, 1, 1, DAYS)
    case.call("add", full, b"abc", [9], want=(4, (full, b"abc", [9])),
              wide="piece")
    answer, _ = case.call("close", fresh, rng.randbytes(64),
                          random_words(rng, 1), random_words(rng, 1),
                          wide="part")
    case.claim(answer == 0, "close is refused")
    answer, _ = case.call("forecast", *settings, [LIMIT] * d,
                          random_words(rng, 3), wide="lengths")
    case.claim(answer == 0, "forecast is refused")
    for label in ("ledger", "ends", "book"):
        answer, _ = case.call("seal", *settings, ledger, ends,
                              rng.randbytes(32 * count), wide=label)
        case.claim(answer == 0, "seal is refused")
    for label in ("ledger", "ends", "book", "work", "outcomes"):
        answer, _ = case.call("check", *settings, ledger, ends, book,
                              rng.randbytes(32 * d), rng.randbytes(count),
                              wide=label)
        case.claim(answer == 0, "check is refused")
    for label in ("outcomes", "list"):
        answer, _ = case.call("read", *settings, n,
                              table_of(*settings[:2], d, 8),
                              random_words(rng, d), random_words(rng, 5),
                              wide=label)
        case.claim(answer == 0, "read is refused")
        answer, _ = case.call("search", *settings,
                              table_of(*settings[:2], d, 8), 5,
                              random_words(rng, d), random_words(rng, 3),
                              wide=label)
        case.claim(answer == (0 if scheme == 3 else 20), "search is refused")


def longest_season(case):
    """65,536 days of 16,777,216 bytes, and lengths about the limits."""
    rng, scheme = case.rng, case.scheme
    for n in (1, 8, 256):
        answer, after = case.call("forecast", scheme, n, 1, DAYS,
                                  [LIMIT] * DAYS, random_words(rng, 3))
        found = after[-1]
        if scheme != 2:
            once = 262_145 + 2 * (1 if scheme == 1 else 18)
            case.claim(found[2] == DAYS * once, "the longest season")
        case.claim(answer == 0 and found[0] == count_of_chains(scheme, n, DAYS)
                   and found[1] == 32 * found[0], "the longest book")
    for d, count, want in ((4, 3, 16), (4, 0, 16), (3, 3, 7), (0, 4, 7),
                           (DAYS + 4, 4, 7), (4, 4, 0), (4, 9, 0)):
        for far, last in ((False, want), (True, want or 17)):
            lengths = [LIMIT] * count + [TOP] * 2 * (count > d)
            if far and count:
                lengths[min(d, count) - 1 if d else 0] = LIMIT + 1
            answer, _ = case.call("forecast", scheme, 4, 1, d, lengths,
                                  random_words(rng, 3))
            case.claim(answer == last, "the order of 7, 16 and 17")


def every_position(case):
    """All positions of short books; in each of these all wrong numbers."""
    rng, scheme = case.rng, case.scheme
    for n in SIZES:
        for k in (1, 2, 3, 4, 5, 8):
            settings = scheme, n, 1, k * n
            count = daybook.values(scheme, n, k * n)
            found = [chain_at(case, settings, p) for p in range(count)]
            case.claim(len({tuple(four) for four in found}) == count,
                       "two chains have the same four")
            case.claim(chain_at(case, settings, count) is None,
                       "there are more chains than values")
            for four in found if n <= 8 else rng.sample(found, 1):
                for wrong in one_wrong(rng, four):
                    position_of(case, settings, wrong)


def longest_positions(case):
    """Positions of books of 65,536 days: about each power of two, and many."""
    rng, scheme = case.rng, case.scheme
    for n in (1, 8, 256):
        settings = scheme, n, 1, DAYS
        count = daybook.values(scheme, n, DAYS)
        near = [count_of_chains(scheme, n, 2 ** k) + j for k in range(17)
                for j in (0, 1, 2)]
        for position in (*near, 0, count - 2, count - 1, count, TOP,
                         *(rng.randrange(count) for _ in range(2000))):
            chain_at(case, settings, position)
        for _ in range(300):
            for four in by_rule(rng, n, DAYS):
                position_of(case, settings, four)
        case.claim(chain_at(case, settings, count - 1)[3] == DAYS,
                   "the last chain does not end with the book")


def every_search(case):
    """All tables of few days with every limit; those of no set are 14."""
    scheme = case.scheme
    sizes = (1, 2, 4, 8) if scheme == 3 else (1, 2, 4)
    for n in sizes:
        for d in range(n, 9 if scheme == 3 else 5, n):
            settings = scheme, n, 1, d
            for chosen in range(1 << d):
                if scheme == 3:
                    searched(case, n, d, chosen,
                             lambda whole: (*range(whole + 2), TOP))
                else:
                    table = table_of(scheme, n, d, chosen)
                    for limit in (0, 1, 2 * d, TOP):
                        search(case, settings, table, limit)
            count = daybook.values(scheme, n, d)
            for bits in range(1 << min(count, 9)):
                table = bytes(bits >> k & 1 for k in range(count))
                every = *range(2 * d + 1), TOP
                for limit in every if count <= 8 else [bits % (2 * d + 1)]:
                    search(case, settings, table, limit)


def longest_search(case):
    """65,536 days of which none, 1, 16 and 4,096 are changed."""
    rng, scheme = case.rng, case.scheme
    n = rng.choice((1, 8, 256))
    for count in (0, 1, 16, 4096):
        days = sorted(rng.sample(range(1, DAYS + 1), count))
        table = long_table(scheme, n, days)
        settings = scheme, n, 1, DAYS
        if scheme != 3:
            case.claim(search(case, settings, table, TOP)[0] == 20,
                       "20 is not said")
            continue
        fails = daybook.tree_outcomes(n, DAYS, table)
        whole = len(daybook.searched(DAYS, fails, TOP)[0])
        for limit in (0, 1, whole // 2, whole - 1, whole, TOP):
            answer, after = search(case, settings, table, limit)
            looked, found, undecided = after[-1]
            case.claim(answer == 0 and looked == min(limit, whole)
                       and found <= count <= found + undecided
                       and (limit < whole or after[-2][:found] == days),
                       "a long search is not as due")
        table = bytearray(table)
        table[rng.randrange(len(table))] = 2
        case.claim(search(case, settings, table, 1)[0] == 13,
                   "13 is not said")


def every_tile(case):
    """Every N up to 520 and powers of two, with every k up to 5 and far ones.
    """
    powers = [1 << weight for weight in range(32)]
    for n in (*range(521), *BAD_SIZES, *powers, *(TOP - n for n in powers)):
        for k in (*range(6), *case.rng.sample(FAR, 4), TOP):
            tile_counts(case, n, k)
    for n in (*TILE_SIZES, 128, 256):
        for k in FAR:
            tile_counts(case, n, k)


def every_layout(case):
    """Books of every scheme and N, sealed and older ones, under each N."""
    rng, d = case.rng, 256
    days = [rng.randbytes(day_length(rng)) for _ in range(d)]
    ledger, ends = join_days(days)
    digests = [daybook.digest(day) for day in days]
    books, older = {}, []
    for other in (1, 2, 3):
        for m in SIZES:
            lent = rng.randbytes(32 * daybook.values(other, m, d))
            books[other, m] = case.call("seal", other, m, 1, d, ledger, ends,
                                        lent)[1][-1]
            older.append(b"".join(
                daybook._seal_digests(other, m, digests, OLDER)))
    for n in SIZES:
        settings = case.scheme, n, 1, d
        for sealed, book in books.items():
            check_other(case, settings, days, book,
                        int(sealed == settings[:2]))
        for book in older:
            check_other(case, settings, days, book, 0)


def long_table(scheme, n, days):
    """The table of 65,536 days that these changed days, ascending, give."""
    before = [0] * (DAYS + 1)
    for day in days:
        before[day] = 1
    before = list(accumulate(before))
    out = bytearray()
    for g in range(1, DAYS + 1):
        for chain in daybook._closing(scheme, n, g):
            if isinstance(chain, range):
                out.append(before[chain[-1]] == before[chain[0] - 1])
            else:
                out.append(all(before[day] == before[day - 1]
                               for day in chain))
    return bytes(out)


ONCE = (whole_book, whole_seasons, big_day, big_ledger, every_turn,
        high_bytes, settings_grid, record_grid, wide_arrays, longest_season,
        every_position, longest_positions, every_search, longest_search,
        every_tile, every_layout)
KINDS = ((round_trip, 26), (other_layout, 6), (read_table, 24),
         (refused, 14), (history, 12), (made_up_calls, 14),
         (empty_arrays, 5), (number_of_values, 5), (values_of_record, 4),
         (sizes, 6), (positions, 6), (skipped, 4), (searches, 4), (tiles, 4))
CHOICES = [kind for kind, weight in KINDS for _ in range(weight)]
