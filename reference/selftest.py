"""Self-test of the reference implementation; see README.md."""

import contextlib
import ctypes
import hashlib
import io
import os
import random
import struct
import sys
from collections import Counter
from dataclasses import replace
from functools import lru_cache
from itertools import (combinations, combinations_with_replacement,
                       permutations, product)
from math import comb

import cases as kinds
import compare
import daybook as db
import last_day
import record as rec
import service_refusals
import short_ledgers
import stand_in
import table_text_cases
import thousand
import wanted
from cases import LENGTHS
from guarded import Arena, Case, Different
from pattern import day_bytes

PASSED = 0
FAILED = 0
SIZES = [1, 2, 4, 8, 16, 32, 64, 128, 256]
EVERY = list(product((1, 2, 3), SIZES))     # scheme and N


def expect(label, got, want):
    global PASSED, FAILED
    if got == want:
        PASSED += 1
    else:
        FAILED += 1
        print(f"FAILED {label}: got {got!r}, want {want!r}")


def intervals(scheme):
    return [1] if scheme == 3 else list(range(1, 65))


def cases(most):
    """Every allowed (scheme, N, F, D) with D up to most."""
    return [(scheme, n, f, d)
            for scheme in (1, 2, 3) for n in SIZES for f in intervals(scheme)
            for d in range(f * n, most + 1, f * n)]


def layouts(most):
    """Every allowed (scheme, N, D) with D up to most."""
    return [(scheme, n, d) for scheme in (1, 2, 3) for n in SIZES
            for d in range(n, most + 1, n)]


def table_of(scheme, n, d, changed):
    """The table that a set of days gives."""
    return [0 if set(chain) & set(changed) else 1
            for chain in db.chains(scheme, n, d)]


def read_list(scheme, n, f, d, outcomes, passed=None, lister=db.list_of):
    """(reading, listed days); the rest of the buffer must stay.

    Without a P it is D - F*N.
    """
    buffer = [777] * (d + 3)
    if passed is None:
        passed = db.validation_before(n, f, d)
    result = db.read(scheme, n, f, d, passed, outcomes, buffer, lister)
    expect("list buffer's rest", set(buffer[result.listed:]), {777})
    return result, buffer[:result.listed]


def ledger_of(days):
    ends, total = [], 0
    for day in days:
        total += len(day)
        ends.append(total)
    return b"".join(days), ends


# ------------------------------------------------------------------- examples

def examples():
    def changed(scheme, n, f, d, days):
        return read_list(scheme, n, f, d, table_of(scheme, n, d, days))

    r, days = changed(2, 16, 2, 64, [19, 20, 27])
    expect("figure, list", days, [19, 20, 23, 24, 27, 28, 31, 32])
    expect("figure, numbers", (r.kind, r.listed, r.first, r.low, r.high,
                               r.last_good), ("changed", 8, 19, 32, 64, 16))

    for n, d, want in [(2, 16, 35), (2, 14, 29), (1, 3, 5)]:
        expect("tree values, formula", db.values(3, n, d), want)
        expect("tree values, chains", len(db.chains(3, n, d)), want)

    r, days = changed(3, 2, 1, 16, [4, 7, 10])
    expect("tree, list", days, [4, 7, 10])
    expect("tree, numbers", (r.kind, r.first, r.low, r.high, r.last_good),
           ("changed", 4, 14, 16, 2))

    r, days = changed(1, 2, 3, 24, [16])
    expect("black, list", days, list(range(15, 25)))
    expect("black, numbers", (r.kind, r.first, r.low, r.high, r.last_good),
           ("changed", 15, 18, 24, 14))

    expect("tile 1 1", read_list(2, 1, 1, 1, [0, 0]),
           (db.Reading("changed", 0, 1, 1, 0, 1, 0), [1]))
    expect("tile 4 4", read_list(2, 4, 1, 4, [0, 1, 1, 0]),
           (db.Reading("changed", 0, 1, 4, 3, 4, 0), [4]))
    expect("tile 4 4, no set", read_list(2, 4, 1, 4, [1, 1, 1, 0]),
           (db.Reading("refused", 14), []))
    expect("tree 1 2", read_list(3, 1, 1, 2, [1, 0, 0]),
           (db.Reading("changed", 0, 1, 2, 1, 2, 1), [2]))
    expect("tree 1 2, no set", read_list(3, 1, 1, 2, [1, 1, 0]),
           (db.Reading("refused", 14), []))

    for scheme in (1, 2, 3):
        expect("N 256", db.open_service(scheme, 256, 1)[0], 0)
        for n in (512, 0, 3, 255, 257):
            expect("N refused", db.open_service(scheme, n, 1),
                   (2, db.Record()))
        expect("F 64", db.open_service(scheme, 1, 64)[0],
               3 if scheme == 3 else 0)
        for f in (0, 65):
            expect("F refused", db.open_service(scheme, 1, f),
                   (3, db.Record()))
    expect("F 2 under the tree", db.open_service(3, 1, 2)[0], 3)
    for scheme in (0, 4):
        expect("scheme refused", db.open_service(scheme, 0, 0),
               (1, db.Record()))

    book = bytearray(32 * 4)
    for last, want in [(5, 0), (6, 10)]:
        got = db.check(2, 2, 1, 2, b"abcde", [2, last], book, bytearray(64),
                       bytearray(3))
        expect("end at the ledger's length and beyond", got, want)

    expect("readtable example", db.readtable(b"2,4,1,8\n11110010\n"),
           b"REF,2,2,6,5,8,4\nDAY,6\nDAY,8\n")


def sketch_mistakes():
    """Tile chains over bits that are 1 list other days in 001's figure."""
    chains = []
    for g in range(16, 65, 16):
        tile = range(g - 15, g + 1)
        chains.append(list(tile))
        for weight in (8, 4, 2, 1):
            chains.append([d for d in tile if (d - 1) % 16 & weight])
        chains.append(list(range(1, g + 1)))
    bad = {19, 20, 27}
    rest = set(range(1, 65))
    for chain in chains:
        if not bad & set(chain):
            rest -= set(chain)
    listed = sorted(day for day in rest if day <= 32)
    expect("bits that are 1", listed, [17, 18, 19, 20, 25, 26, 27, 28])


# ----------------------------------------------------------------------- hash

def hashes():
    sha = lambda data: hashlib.sha256(data).hexdigest()
    expect("vector abc", sha(b"abc"),
           "ba7816bf8f01cfea414140de5dae2223b00361a396177a9cb410ff61f20015ad")
    expect("vector empty", sha(b""),
           "e3b0c44298fc1c149afbf4c8996fb92427ae41e4649b934ca495991b7852b855")
    expect("vector of two blocks",
           sha(b"abcdbcdecdefdefgefghfghighijhijkijkljklmklmnlmnomnopnopq"),
           "248d6a61d20638b8e5c026930c3e6039a33ce45964ff2167f6ecedd419db06c1")
    expect("vector of a million", sha(b"a" * 1_000_000),
           "cdc76e5c9914fb9281a1c7e284d73e67f1809a48a497200e046d39ccc7112cd0")
    expect("digest", db.digest(b"abc"), hashlib.sha256(b"\0abc").digest())
    h = db.digest(b"x")
    expect("link", db.link(bytes(32), h),
           hashlib.sha256(bytes([1] + [0] * 32) + h).digest())
    first = hashlib.sha256(bytes([2, 2, 4])).digest()
    expect("value", db.value(2, 16, [1, 3], [b"a", b"b", b"c"]),
           db.link(db.link(first, db.digest(b"a")), db.digest(b"c")))


def starts():
    """What chains start with, against other programs and by the request."""
    # by sha256sum and by openssl
    for scheme, n, want in [
            (1, 1, "27c481628200c5ed2467af54a9a4128d"
                   "aede2cd8afe1acc2670a104645381067"),
            (2, 16, "00fd3da80f6dfbbe8c475c801b41641b"
                    "bea03dcb213ffb795c25554d4345e4e0"),
            (3, 256, "6399e04230b2e30aacca944a37706de8"
                     "62c1431f20e8721f35827267e0968f8b")]:
        expect(f"start {scheme} {n}", db.start(scheme, n).hex(), want)
    for scheme, (power, n) in product((1, 2, 3), enumerate(SIZES)):
        three = bytes([2, scheme, power])
        expect("three bytes", db.start(scheme, n),
               hashlib.sha256(three).digest())
        expect("in plain Python", rec.sha256(three), db.start(scheme, n))
        expect("one block", db.message_blocks(len(three)), 1)
    found = {db.start(*both) for both in EVERY}
    expect("all different", len(found), 27)
    expect("none is zeros", bytes(32) in found, False)


# -------------------------------------------------------------------- layouts

def layout_tests():
    for scheme in (1, 2, 3):
        for n in SIZES:
            for g in range(1, 521):
                ended = db.closing(scheme, n, g)
                named = db.names(scheme, n, g)
                covered = [[day for day in range(1, g + 1)
                            if db.covers(n, name, day)] for name in named]
                expect(f"names {scheme} {n} {g}", covered, ended)
                if g % n == 0:
                    expect("black is last", ended[-1],
                           list(range(1, g + 1)))
    for scheme, n, d in layouts(512):
        counted = sum(len(db.names(scheme, n, g)) for g in range(1, d + 1))
        expect(f"count {scheme} {n} {d}", db.values(scheme, n, d), counted)
    for scheme, n, d in layouts(64):
        expect(f"chains {scheme} {n} {d}", len(db.chains(scheme, n, d)),
               db.values(scheme, n, d))
    for n in SIZES:
        total = 0
        for g in range(1, 65_537):
            total += len(db.names(3, n, g))
            if g % n == 0 and (g % 4096 == 0 or g < 300 or g > 65_000):
                expect(f"tree count {n} {g}", db.values(3, n, g), total)
    expect("tile of 4", db.closing(2, 4, 8),
           [[5, 6, 7, 8], [5, 6], [5, 7], [1, 2, 3, 4, 5, 6, 7, 8]])
    expect("tree stored once", db.closing(3, 2, 4),
           [[4], [3, 4], [1, 2, 3, 4]])
    expect("tree with black", db.closing(3, 2, 6),
           [[6], [5, 6], [1, 2, 3, 4, 5, 6]])


# ----------------------------------------------------------------------- book

def sample(d):
    return [day_bytes(g, (g * 5) % 17) for g in range(1, d + 1)]


def book_tests():
    for scheme, n, d in layouts(40):
        days = sample(d)
        want = db.book(scheme, n, days)
        expect("book length", len(want), 32 * db.values(scheme, n, d))
        expect(f"seal_book {scheme} {n} {d}", db.seal_book(scheme, n, days),
               want)
        ledger, ends = ledger_of(days)
        for f in intervals(scheme):
            if d % (f * n) == 0:
                book = bytearray(b"\xee" * (len(want) + 5))
                got = db.seal(scheme, n, f, d, ledger, ends, book)
                expect(f"seal {scheme} {n} {f} {d}", (got, bytes(book)),
                       (0, want + b"\xee" * 5))
    for scheme, n in [(1, 256), (2, 256), (3, 256), (2, 128), (3, 16)]:
        days = sample(768)
        expect(f"seal_book {scheme} {n} 768", db.seal_book(scheme, n, days),
               db.book(scheme, n, days))
    for scheme in (1, 2, 3):
        days = thousand.days()
        ledger, ends = ledger_of(days)
        book = bytearray(32 * db.values(scheme, 8, 1000))
        got = db.seal(scheme, 8, thousand.interval_count(scheme), 1000,
                      ledger, ends, book)
        expect("thousand days", (got, bytes(book)),
               (0, db.book(scheme, 8, days)))
        expect("thousand days, seal_book", db.seal_book(scheme, 8, days),
               bytes(book))


# -------------------------------------------------------------------- service

def call_lists():
    """Service against diary, over lists with refused calls among them."""
    for scheme in (1, 2, 3):
        for n in (1, 2, 4, 8):
            _, record = db.open_service(scheme, n, 1)
            diary = db.Diary(scheme, n, 1)
            book = b""
            seen = set()
            for k in range(400):
                if k % 3 != 2:
                    piece = day_bytes(k, (k * 11) % 23)
                    before = record
                    refusal, record = db.add(record, piece)
                    expect("add", refusal, diary.add(piece))
                    expect("record kept", refusal == 0 or record == before,
                           True)
                else:
                    room = (k * 13) % 200
                    part = bytearray(b"\xcc" * room)
                    before = record
                    refusal, record, count = db.close(record, part)
                    expect("close", refusal, diary.close(room))
                    if refusal:
                        expect("record kept", record, before)
                        expect("no values", count, 0)
                    expect("part's rest", bytes(part[32 * count:]),
                           b"\xcc" * (room - 32 * count))
                    book += part[:32 * count]
                    seen.add(refusal)
                expect("days", record.days, len(diary.entries))
                expect("open day", record.open_day, diary.open_day)
                expect("open bytes", record.open_bytes, len(diary.open_day))
            expect("closes taken and refused", seen, {0, 8})
            expect("start kept", record.start, db.start(scheme, n))
            expect(f"book {scheme} {n}", book,
                   db.book(scheme, n, diary.entries))


def pieces():
    """A day's cuts leave no trace in the book."""
    days = short_ledgers.days()
    for scheme in (1, 2, 3):
        want = db.book(scheme, 4, days)
        for size in (1, 2, 3, 7, 55, 63, 64, 65, 1000):
            _, record = db.open_service(scheme, 4, 1)
            book = b""
            for day in days:
                for a in range(0, len(day), size):
                    _, record = db.add(record, day[a:a + size])
                part = bytearray(32 * 18)
                _, record, count = db.close(record, part)
                book += part[:32 * count]
            expect(f"pieces of {size}", book, want)


def service_bounds():
    limit = db.DAY_LIMIT
    for scheme in (1, 2, 3):
        _, fresh = db.open_service(scheme, 1, 1)
        diary = db.Diary(scheme, 1, 1)
        for length, want in [(limit + 1, 4), (limit, 0), (0, 0), (1, 4)]:
            piece = bytes(length)
            refusal, fresh = db.add(fresh, piece)
            expect("day limit", (refusal, diary.add(piece)), (want, want))
        part = bytearray(64)
        refusal, fresh, count = db.close(fresh, part)
        expect("close of a full day", (refusal, diary.close(64)), (0, 0))
        expect("value of a full day", bytes(part[:32]),
               db.value(scheme, 1, [1], [bytes(limit)]))

    good = dict(scheme=1, n=1, f=1, days=0, open_bytes=0)
    for field, number in [("scheme", 0), ("scheme", 4), ("n", 0), ("n", 3),
                          ("n", 512), ("f", 0), ("f", 65), ("days", 65_537),
                          ("open_bytes", limit + 1), ("season", 65_536),
                          ("season", 2 ** 32 - 1)]:
        record = db.Record(**{**good, field: number})
        expect("add 6", db.add(record, b""), (6, record))
        expect("close 6", db.close(record, bytearray()), (6, record, 0))
    tree = db.Record(scheme=3, n=1, f=2)
    expect("add 6, tree", db.add(tree, b"")[0], 6)
    expect("zeros", db.add(db.Record(), b"")[0], 6)

    # Order: 6 before 5 before 4 or 8.
    full = db.Record(scheme=1, n=1, f=1, days=65_536, season=65_535)
    long = bytes(limit + 1)
    expect("add 5 before 4", db.add(full, long), (5, full))
    expect("close 5 before 8", db.close(full, bytearray()), (5, full, 0))
    for worse in (replace(full, f=0), replace(full, open_bytes=1),
                  replace(full, open_bytes=limit),
                  replace(full, season=65_536)):
        expect("add 6 before 5", db.add(worse, long), (6, worse))
        expect("close 6 before 5", db.close(worse, bytearray()),
               (6, worse, 0))

    for scheme, n in [(1, 1), (2, 8), (3, 1)]:
        need = 32 * len(db.names(scheme, n, n))
        record = db.made_up(scheme, n, 1, n - 1, [bytes(32)] * 18, bytes(32))
        part = bytearray(b"\xcc" * (need - 1))
        expect("close 8", db.close(record, part), (8, record, 0))
        expect("part kept", bytes(part), b"\xcc" * (need - 1))
        expect("close at need", db.close(record, bytearray(need))[0], 0)
    quiet = db.made_up(1, 8, 1, 0, [bytes(32)] * 18, bytes(32))
    expect("no values, no part", db.close(quiet, bytearray())[::2], (0, 0))


def last_days():
    """A season's 65,536 days through service and diary, and the next."""
    for scheme, n, f in [(1, 1, 3), (2, 8, 63), (3, 4, 1)]:
        _, record = db.open_service(scheme, n, f)
        diary = db.Diary(scheme, n, f)
        book = bytearray()
        blocks = 0
        for g in range(1, 65_537):
            piece = bytes([g % 256, g // 256 % 256])[:g % 3]
            part = bytearray(32 * len(db.names(scheme, n, g)))
            blocks += db.add_blocks(record, piece)
            a, record = db.add(record, piece)
            blocks += db.close_blocks(record)
            b, record, count = db.close(record, part)
            if (a, b) != (0, 0) or diary.add(piece) or diary.close(len(part)):
                expect(f"day {g}", False, True)
            book += part
        expect("days closed", (record.days, record.season, diary.season,
                               len(diary.entries)), (65_536, 0, 0, 65_536))
        expect("blocks", blocks,
               db.forecast_blocks(scheme, n, [len(day) for day
                                              in diary.entries]))
        expect("values", len(book), 32 * db.values(scheme, n, 65_536))
        expect("book", bytes(book), db.seal_book(scheme, n, diary.entries))
        expect("last value", bytes(book[-32:]),
               db.value(scheme, n, range(1, 65_537), diary.entries))
        next_season(record, diary)
        days = diary.seasons[0]

        ledger, ends = ledger_of(days)
        outcomes = bytearray(db.values(scheme, n, 65_536))
        got = db.check(scheme, n, 1, 65_536, ledger, ends, book,
                       bytearray(32 * 65_536), outcomes)
        expect("all days check", (got, set(outcomes)), (0, {1}))
        expect("all days read",
               read_list(scheme, n, 1, 65_536, outcomes)[0],
               db.Reading("clean", last_good=65_536))
        ledger = bytearray(ledger)
        ledger[ends[39_999] - 1] ^= 1       # day 40,000 has one byte
        for v in {1, f}:
            d = db.largest_days(n, v)
            if d < 65_536:
                expect("D 65,536 is 7", db.check(
                    scheme, n, v, 65_536, ledger, ends, book,
                    bytearray(32 * 65_536), outcomes), 7)
            db.check(scheme, n, v, d, ledger, ends, book,
                     bytearray(32 * d), outcomes)
            result, listed = read_list(scheme, n, v, d, outcomes)
            expect("late change", (result.kind, 40_000 in listed,
                                   result.last_good, result.high),
                   ("changed", True, (40_000 - 1) // n * n, d))
            expect("late change, list", listed,
                   {1: list(range(40_000, d + 1)), 2: [40_000],
                    3: [40_000]}[scheme])


def next_season(full, diary):
    """From the record of season 0, full, on: refused calls, then the turn."""
    scheme, n, f = full.scheme, full.n, full.f
    long, need = bytes(db.DAY_LIMIT + 1), 32 * len(db.names(scheme, n, 1))
    expect("4 at the turn", (db.add(full, long), diary.add(long)),
           ((4, full), 4))
    if need:
        expect("8 at the turn", (db.close(full, bytearray(need - 1)),
                                 diary.close(need - 1)), ((8, full, 0), 8))
    expect("no turn", (diary.season, len(diary.entries)), (0, 65_536))
    last = replace(full, season=65_535)
    expect("5 in the last", (db.add(last, b""), db.add(last, long),
                             db.close(last, bytearray(600)),
                             db.close(last, bytearray())),
           ((5, last), (5, last), (5, last, 0), (5, last, 0)))
    fresh = replace(db.open_service(scheme, n, f)[1], season=1)
    expect("a turn by an add", (db.add(full, b""), db.add(full, b"abc")),
           ((0, fresh), db.add(fresh, b"abc")))
    expect("a turn by a close", db.close(full, bytearray(need)),
           db.close(fresh, bytearray(need)))

    _, record = db.add(full, b"")
    expect("diary", (diary.add(b""), diary.season, diary.entries),
           (0, 1, []))
    book, blocks = b"", 0
    for g in range(1, 301):
        piece, part = day_bytes(g, g % 5), bytearray(600)
        blocks += db.add_blocks(record, piece)
        a, record = db.add(record, piece)
        blocks += db.close_blocks(record)
        b, record, count = db.close(record, part)
        expect("goes on", (a, b), (diary.add(piece), diary.close(600)))
        book += part[:32 * count]
    expect("the second season", (record.season, record.days, diary.season,
                                 len(diary.seasons[0]), len(diary.entries)),
           (1, 300, 1, 65_536, 300))
    expect("its book", book, db.book(scheme, n, diary.entries))
    expect("its values", 32 * db.record_values(record)[1], len(book))
    expect("its blocks", blocks,
           db.forecast_blocks(scheme, n, [len(day) for day
                                          in diary.entries]))


def made_up_records():
    """The close of day 65,536 worked out directly."""
    word = lambda k: b"".join((1000 * k + j).to_bytes(4, "big")
                              for j in range(8))
    h = db.digest(b"abc")
    for scheme in (1, 2, 3):
        for n in (1, 8, 256):
            _, record = db.add(last_day.record(scheme, n, 65_535), b"abc")
            part = bytearray(32 * 18)
            refusal, after, count = db.close(record, part)
            if scheme == 1:
                want = [db.link(word(0), h)]
            elif scheme == 2:
                want = [db.link(word(1), h)]
                want += [word(1 + i) for i in range(1, db.lg(n) + 1)]
                want += [db.link(word(0), h)]
            else:
                want = [db.link(word(1 + level), h) for level in range(17)]
            expect(f"last day {scheme} {n}",
                   (refusal, bytes(part[:32 * count])), (0, b"".join(want)))
            expect("black runs on", after.running[0], db.link(word(0), h))
            stored = {1: 0, 2: 1 + db.lg(n), 3: 17}[scheme]
            expect("stored chains start again", after.running[1:1 + stored],
                   (word(18),) * stored)
            expect("other slots", after.running[1 + stored:],
                   tuple(word(1 + s) for s in range(stored, 17)))
            expect("start kept", (record.start, after.start),
                   (word(18), word(18)))
            expect("then 5", (db.add(after, b"abc"),
                              db.close(after, bytearray(600))),
                   ((5, after), (5, after, 0)))
            for season in (0, 65_534):
                _, record = db.add(last_day.record(scheme, n, season), b"abc")
                again = bytearray(32 * 18)
                refusal, full, count = db.close(record, again)
                expect("the same in another season", (refusal, full, again),
                       (0, replace(after, season=season), part))
                _, first = db.add(full, b"abc")
                refusal, then, count = db.close(first, again)
                ended = db.names(scheme, n, 1)
                expect("day 1 of the next", (
                    refusal, bytes(again[:32 * count]), then.season,
                    then.days, then.start, then.running[0]),
                    (0, db.link(word(18), h) * len(ended), season + 1, 1,
                     word(18), db.link(word(18), h)))


def fresh_and_restarted():
    """The start in a fresh record, and what a stored slot starts with."""
    rng = random.Random(9)
    for scheme, n in EVERY:
        first = hashlib.sha256(bytes([2, scheme, db.lg(n)])).digest()
        for f in intervals(scheme):
            _, fresh = db.open_service(scheme, n, f)
            expect("fresh", (fresh.start, set(fresh.running)),
                   (first, {first}))
        for held in (first, bytes(32), rng.randbytes(32)):
            running = tuple(rng.randbytes(32) for _ in range(18))
            for days in (0, n - 1, 3, 7, 255, 1000 * n - 1, 65_535):
                days = min(days, 65_535)
                made = db.made_up(scheme, n, 1, days, running, held)
                refusal, made = db.add(made, b"x")
                expect("add keeps", (refusal, made.start, made.running),
                       (0, held, running))
                refusal, after, _ = db.close(made, bytearray(600))
                expect("close keeps", (refusal, after.start), (0, held))
                kept = [name[1] for name in db.names(scheme, n, days + 1)
                        if name[0] != db.BLACK]
                expect("starts again", [k for k in range(17)
                                        if after.running[1 + k] == held],
                       kept)
                expect("black goes on", after.running[0],
                       db.link(running[0], db.digest(b"x")))
    for settings in [(0, 8, 1), (1, 3, 1), (2, 8, 65), (3, 8, 2)]:
        refused = db.open_service(*settings)[1]
        expect("zeros if refused", (refused.start, set(refused.running)),
               (bytes(32), {bytes(32)}))


# -------------------------------------------------------------------- seasons

def set_limits(days, last, day):
    if days != db.DAYS_LIMIT:
        db._counts.cache_clear()
    db.DAYS_LIMIT = kinds.DAYS = days
    db.LAST_SEASON = kinds.LAST = last
    db.DAY_LIMIT = kinds.LIMIT = day


@contextlib.contextmanager
def shorter(days=db.DAYS_LIMIT, last=db.LAST_SEASON, day=db.DAY_LIMIT):
    """Seasons of fewer days, fewer of them, or days of fewer bytes."""
    before = db.DAYS_LIMIT, db.LAST_SEASON, db.DAY_LIMIT
    set_limits(days, last, day)
    try:
        yield
    finally:
        set_limits(*before)


def largest_d():
    """The largest D of a full season, whose values are the book's front."""
    for f, n, want in [(3, 1, 65_535), (63, 256, 64_512),
                       *((2 ** k, n, 65_536) for k in range(7)
                         for n in SIZES)]:
        expect(f"largest D {f} {n}", db.largest_days(n, f), want)
    for n, f in product(SIZES, range(1, 65)):
        d = db.largest_days(n, f)
        expect("largest D", (db.days_refusal(n, f, d),
                             [x for x in range(d + 1, 65_537)
                              if db.days_refusal(n, f, x) == 0]), (0, []))
    days = [bytes([g % 256, g // 256 % 256])[:g % 3] for g in range(65_536)]
    for scheme, n, f in [(1, 256, 63), (2, 1, 3), (2, 256, 63)]:
        d = db.largest_days(n, f)
        expect("front of the book",
               db.seal_book(scheme, n, days)[:32 * db.values(scheme, n, d)],
               db.seal_book(scheme, n, days[:d]))


def season_rows(need, last):
    """docs/SPEC.md, 23.7: numbers, call, answer, numbers afterwards.

    The numbers are season, days closed and open bytes; the call is a piece to
    add, or the length of a part to close with.  need is what day 1 needs, last
    what day 65,536 does.
    """
    limit = db.DAY_LIMIT
    long = bytes(limit + 1)
    for count in (0, 1, 63, 64, 1000):
        yield (0, 65_535, count), last, 0, (0, 65_536, 0)
    yield (0, 65_536, 0), b"", 0, (1, 0, 0)
    yield (0, 65_536, 0), b"abc", 0, (1, 0, 3)
    yield (0, 65_536, 0), long, 4, (0, 65_536, 0)
    yield (0, 65_536, 0), need, 0, (1, 1, 0)
    if need:
        yield (0, 65_536, 0), need - 1, 8, (0, 65_536, 0)
        yield (65_534, 65_536, 0), 0, 8, (65_534, 65_536, 0)
    yield (65_534, 65_536, 0), need, 0, (65_535, 1, 0)
    yield (65_534, 65_536, 0), b"abc", 0, (65_535, 0, 3)
    for call in (b"", b"abc", long, 0, need, 600):
        yield (65_535, 65_536, 0), call, 5, (65_535, 65_536, 0)
        for days, count in ((0, 0), (7, 5), (65_535, 0), (65_536, 0),
                            (65_536, 1)):
            for season in (65_536, 2 ** 32 - 1):
                numbers = season, days, count
                yield numbers, call, 6, numbers
        for season in (0, 1, 65_534, 65_535):
            for count in (1, 63, limit):
                numbers = season, 65_536, count
                yield numbers, call, 6, numbers


def season_examples():
    """The examples by both services and the diary, on made-up records."""
    rng = random.Random(11)
    for scheme, n in [(1, 1), (1, 8), (2, 1), (2, 256), (3, 1), (3, 8)]:
        need = 32 * len(db.names(scheme, n, 1))
        for numbers, call, want, after in season_rows(
                need, 32 * len(db.names(scheme, n, 65_536))):
            season, days, count = numbers
            plain = db.made_up(
                scheme, n, 1, days, [rng.randbytes(32) for _ in range(18)],
                rng.randbytes(32), bytes(count) if count < 2000 else b"",
                season)
            plain = replace(plain, open_bytes=count)
            data = rec.from_daybook(plain)
            diary = db.Diary(scheme, n, 1, season, [b""] * days)
            diary.open_day = plain.open_day
            told = (diary.season, len(diary.entries), len(diary.open_day))
            if isinstance(call, bytes):
                text = f"add of {len(call)}"
                got, then = db.add(plain, call)
                by_bytes = rec.add(data, call)
                said = diary.add(call)
            else:
                text = f"close with {call}"
                got, then, _ = db.close(plain, bytearray(call))
                by_bytes = rec.close(data, call)[:2]
                said = diary.close(call)
            text += f" {scheme} {n} {numbers}"
            expect(text, (got, (then.season, then.days, then.open_bytes)),
                   (want, after))
            expect(f"{text}, bytes", by_bytes, (got, rec.from_daybook(then)))
            if want:
                expect(f"{text}, kept", (then, by_bytes[1]), (plain, data))
            if want != 6:
                expect(f"{text}, diary", (said, (
                    diary.season, len(diary.entries), len(diary.open_day))),
                    (want, told if want else after))


def turned_records():
    """A turned record is an open's whole, but for start and season."""
    rng = random.Random(12)
    for scheme, n in EVERY:
        for f in intervals(scheme)[::9]:
            fresh = rec.open_service(scheme, n, f)[1]
            for season, first in product((0, 1, 65_534), (
                    db.start(scheme, n), bytes(32), rng.randbytes(32))):
                data = (b"".join(x.to_bytes(4, "little")
                                 for x in (scheme, n, f, 65_536, 0))
                        + rng.randbytes(672) + rec.swap(first)
                        + season.to_bytes(4, "little"))
                due = (fresh[:52] + rec.swap(first) * 18 + fresh[628:692]
                       + rec.swap(first) + (season + 1).to_bytes(4, "little"))
                expect("turned", rec.add(data, b""), (0, due))
                expect("turned and added to", rec.add(data, b"xyz"),
                       rec.add(due, b"xyz"))
                expect("turned and closed", rec.close(data, 64),
                       rec.close(due, 64))
                expect("blocks at the turn",
                       (rec.add_blocks(data, bytes(63)),
                        rec.close_blocks(data)),
                       (1, rec.close_blocks(due)))
                expect("the same blocks", rec.close_blocks(due),
                       db.day_blocks(scheme, n, 1, 0))


class Account:
    """All days of a list of calls, end to end, cut into seasons of equal
    length: the diary told in another way."""

    def __init__(self, scheme, n):
        self.scheme, self.n = scheme, n
        self.days, self.open_day, self.opened = [], b"", False

    def full(self):
        return len(self.days) == db.DAYS_LIMIT * (1 + db.LAST_SEASON)

    def add(self, piece):
        if self.full():
            return 5
        if len(self.open_day + piece) > db.DAY_LIMIT:
            return 4
        self.open_day += piece
        self.opened = True
        return 0

    def close(self, length):
        day = len(self.days) % db.DAYS_LIMIT + 1
        if self.full():
            return 5
        if length < 32 * len(db.closing(self.scheme, self.n, day)):
            return 8
        self.days.append(self.open_day)
        self.open_day, self.opened = b"", False
        return 0

    def seasons(self):
        """The entries of each season that a call has opened."""
        limit, total = db.DAYS_LIMIT, len(self.days)
        count = max(1, -(-total // limit))
        if self.opened and total % limit == 0 and total:
            count += 1
        return {t: self.days[t * limit:(t + 1) * limit]
                for t in range(count)}


class Both:
    """Both services, diary and, from an open on, account on the same calls.
    """

    def __init__(self, scheme, n, f, season=0, days=0, running=None):
        self.settings = scheme, n, f
        _, self.plain = db.open_service(*self.settings)
        self.plain = replace(self.plain, season=season, days=days,
                             running=running or self.plain.running)
        self.data = rec.from_daybook(self.plain)
        self.diary = db.Diary(*self.settings, season, [b""] * days)
        self.account = Account(scheme, n) if days == season == 0 else None
        self.late = season if days else None
        self.books = {season: b""}
        self.blocks = {season: 0}

    def told(self, name, got, by_bytes, said, before, length):
        """Compare the answers to a call, and what it left."""
        expect(f"{name}, bytes", by_bytes,
               (got, rec.from_daybook(self.plain)))
        self.data = by_bytes[1]
        expect(f"{name}, diary", said, got)
        if self.account:
            expect(f"{name}, account", getattr(self.account, name)(length),
                   got)
            expect("seasons", self.diary.seasons, self.account.seasons())
        if got:
            expect(f"{name} refused", self.plain, before)
        expect("season", (self.plain.season, self.plain.days,
                          self.plain.open_day),
               (self.diary.season, len(self.diary.entries),
                self.diary.open_day))
        expect("record's values", db.record_values(self.plain)[0], 0)

    def add(self, piece):
        before = self.plain
        blocks = db.add_blocks(before, piece), rec.add_blocks(self.data,
                                                              piece)
        got, self.plain = db.add(before, piece)
        self.told("add", got, rec.add(self.data, piece),
                  self.diary.add(piece), before, piece)
        if got == 0:
            expect("blocks of an add", blocks[0], blocks[1])
            self.count(blocks[0], b"")
        return got

    def close(self, length):
        before, part = self.plain, bytearray(length)
        blocks = db.close_blocks(before), rec.close_blocks(self.data)
        got, self.plain, count = db.close(before, part)
        refusal, data, values = rec.close(self.data, length)
        self.told("close", got, (refusal, data), self.diary.close(length),
                  before, length)
        expect("values", b"".join(values), bytes(part[:32 * count]))
        if got == 0:
            expect("blocks of a close", blocks[0], blocks[1])
            self.count(blocks[0], bytes(part[:32 * count]))
        return got

    def count(self, blocks, written):
        season = self.plain.season
        self.books[season] = self.books.get(season, b"") + written
        self.blocks[season] = self.blocks.get(season, 0) + blocks

    def compare(self):
        """Each season's book and blocks against those of its entries."""
        scheme, n, _ = self.settings
        expect("seasons", self.books.keys(), self.diary.seasons.keys())
        for season, days in self.diary.seasons.items():
            if season == self.late:
                continue
            expect(f"book of season {season}", self.books[season],
                   db.book(scheme, n, days))
            lengths = [len(day) for day in days]
            due = db.forecast_blocks(scheme, n, lengths)
            if season == self.diary.season:     # with the open day's
                due += (1 + len(self.diary.open_day)) // 64
            expect(f"blocks of season {season}", self.blocks[season], due)
        present = self.diary.season
        if present != self.late:
            expect("values of the record", db.record_values(self.plain),
                   (0, len(self.books[present]) // 32))

    def calls(self, rng, count):
        """Random calls, refused ones among them."""
        seen = Counter()
        for _ in range(count):
            if rng.random() < 0.4:
                piece = rng.randbytes(rng.choice((0, 0, 1, 2, 62, 63, 70)))
                full = self.plain.days == db.DAYS_LIMIT
                if full and rng.random() < 0.05:
                    piece = bytes(db.DAY_LIMIT + 1)
                seen["add", full, self.add(piece)] += 1
            else:
                full = self.plain.days == db.DAYS_LIMIT
                seen["close", full, self.close(rng.choice(
                    (600, 600, 31, 0, 64, 63)))] += 1
        return seen


def late_seasons():
    """Services from late in a season on, into the next or to the end."""
    rng = random.Random(13)
    seen = Counter()
    for scheme, n in EVERY:
        for season in (0, 1, 65_533, 65_534, 65_535):
            for days in (65_530, 65_535, 65_536):
                both = Both(scheme, n, 1, season, days,
                            tuple(rng.randbytes(32) for _ in range(18)))
                seen += both.calls(rng, 24)
                both.compare()
    for call in (("add", True, 0), ("add", True, 4), ("add", True, 5),
                 ("close", True, 0), ("close", True, 5), ("close", True, 8)):
        expect(f"{call} is seen", seen[call] > 0, True)


def short_seasons():
    """Seasons of few days and few of them: lists that cross all of them."""
    rng = random.Random(14)
    for days, last in product((1, 2, 3, 4, 7, 8), (0, 1, 2, 5)):
        with shorter(days, last):
            for scheme, n in product((1, 2, 3), (1, 2, 4)):
                both = Both(scheme, n, 1)
                seen = both.calls(rng, 3 * days * (last + 1) + 8)
                while both.close(600) == 0:
                    pass
                seen += both.calls(rng, 4)
                both.compare()
                expect("all seasons are full",
                       [len(x) for x in both.diary.seasons.values()],
                       [days] * (last + 1))
                expect("and then 5", (both.add(b""), both.add(b"x"),
                                      both.close(0), both.close(600)),
                       (5, 5, 5, 5))


# the books of a thousand days as they were with chains that start with zeros
OLDER_BOOKS = {
    1: "b4c9715c6f586d8426c291ef666bbf92181b50ab67fc318da0f28ff69fc48686",
    2: "5ef1398179d17e7b821b77bd21cc50d75de1c09534bd51247ddff362e684f896",
    3: "1b07627626dfd1299496f3d31be24d4eeaed20f57274ceef29b735ed58b2cf47"}


def other_layouts():
    """A book passes at every value under its own scheme and N, else at none.

    All 27 books of 256 days, each checked under all 27, with zeros and with
    other bytes for the values that it lacks; and so the older ones.
    """
    days, rng = sample(256), random.Random(10)
    ledger, ends = ledger_of(days)
    digests = [db.digest(day) for day in days]
    right = {both: db._seal_digests(*both, digests) for both in EVERY}
    older = {both: db._seal_digests(*both, digests, bytes(32))
             for both in EVERY}

    def outcomes(both, book):
        """Each outcome of the book under scheme and N, with the answer."""
        count = len(right[both])
        lacking = max(0, 32 * count - len(book))
        seen = set()
        for rest in {bytes(lacking), rng.randbytes(lacking)}:
            table = bytearray(b"\7" * count)
            answer = db.check(*both, 1, 256, ledger, ends, book + rest,
                              bytearray(32 * 256), table)
            seen |= {(answer, outcome) for outcome in table}
        return seen

    pairs = 0
    for both, sealed in product(EVERY, EVERY):
        own = both == sealed
        pairs += not own
        expect(f"book of {sealed} under {both}",
               outcomes(both, b"".join(right[sealed])), {(0, int(own))})
        expect(f"older book of {sealed} under {both}",
               outcomes(both, b"".join(older[sealed])), {(0, 0)})
    expect("pairs", pairs, 702)

    # Wherever a value stands: no two books have one in common.
    expect("values of all books", len(set().union(*right.values())),
           sum(len(set(values)) for values in right.values()))
    expect("none of an older book", set().union(*right.values())
           & set().union(*older.values()), set())
    expect("older ones have", len(set().union(*older.values()))
           < sum(len(set(values)) for values in older.values()), True)
    digests = [db.digest(day) for day in thousand.days()]
    for scheme, want in OLDER_BOOKS.items():
        book = b"".join(db._seal_digests(scheme, 8, digests, bytes(32)))
        expect("the older book", hashlib.sha256(book).hexdigest(), want)


# ------------------------------------------------------------------- checking

def check_tests():
    for scheme, n, d in layouts(16):
        days = sample(d)
        ledger, ends = ledger_of(days)
        book = db.book(scheme, n, days)
        count = db.values(scheme, n, d)
        all_chains = db.chains(scheme, n, d)
        for k in range(-1, count):
            spoilt = bytearray(book + b"\xdd" * 3)
            if k >= 0:
                spoilt[32 * k + k % 32] ^= 1 << k % 8
            work = bytearray(b"\xaa" * (32 * d + 2))
            outcomes = bytearray(b"\xbb" * (count + 2))
            got = db.check(scheme, n, 1, d, ledger + b"more", ends + [0, 9],
                           spoilt, work, outcomes)
            expect("check", got, 0)
            expect("digests", bytes(work),
                   b"".join(map(db.digest, days)) + b"\xaa\xaa")
            expect("outcomes", bytes(outcomes),
                   bytes(int(i != k) for i in range(count)) + b"\xbb\xbb")
        for seed in range(12):
            other = [day + b"!" if (g * 7 + seed * 3) % 5 == seed % 5 else day
                     for g, day in enumerate(days)]
            ledger2, ends2 = ledger_of(other)
            outcomes = bytearray(count)
            db.check(scheme, n, 1, d, ledger2, ends2, book,
                     bytearray(32 * d), outcomes)
            want = bytes(
                int(db.value(scheme, n, chain, other)
                    == book[32 * k:32 * k + 32])
                for k, chain in enumerate(all_chains))
            expect("outcomes by definition", bytes(outcomes), want)


def check_refusals():
    limit = db.DAY_LIMIT

    def call(scheme=2, n=4, f=1, d=4, ledger=b"abcd", ends=(1, 2, 3, 4),
             book=128, work=128, outcomes=4):
        work, outcomes = bytearray(work), bytearray(b"\7" * outcomes)
        before = bytes(work), bytes(outcomes)
        got = db.check(scheme, n, f, d, ledger, list(ends), bytearray(book),
                       work, outcomes)
        if got:
            expect("buffers kept", (bytes(work), bytes(outcomes)), before)
        return got

    expect("check accepted", call(), 0)
    # Causes in the order of the tests: each call has all the later ones.
    faults = [(1, dict(scheme=0)), (2, dict(n=3)), (3, dict(f=65)),
              (7, dict(d=6)), (9, dict(ends=())), (11, dict(book=127)),
              (8, dict(work=127, outcomes=3))]
    for k, (number, _) in enumerate(faults):
        arguments = {}
        for _, fault in faults[k:]:
            arguments.update(fault)
        expect(f"check order {number}", call(**arguments), number)
    expect("check order 10", call(ends=(1, 2, 3, 5), book=0, work=0), 10)
    expect("check order 9 before 10", call(ends=(9, 8, 7)), 9)
    for ends in [(2, 1, 3, 4), (1, 2, 3, 5), (5, 5, 5, 5), (1, 2, 4, 3)]:
        expect("check 10", call(ends=ends), 10)
    for ends in [(0, 0, 0, 0), (4, 4, 4, 4), (1, 2, 3, 4, 0), (0, 1, 1, 4)]:
        expect("check ends", call(ends=ends), 0)
    big = bytes(limit + 2)
    for ends, want in [((limit,) * 4, 0), ((limit + 1,) * 4, 10),
                       ((1, limit + 1, limit + 2, limit + 2), 0),
                       ((1, limit + 2, limit + 2, limit + 2), 10)]:
        expect("check day limit", call(ledger=big, ends=ends), want)
    for d, want in [(0, 7), (4, 0), (5, 7), (65_536, 9), (65_540, 7)]:
        expect(f"check D {d}", call(d=d), want)
    expect("check D by F", [call(f=2, d=d) for d in (4, 8, 12)], [7, 9, 7])
    for changes, want in [(dict(book=127), 11), (dict(work=127), 8),
                          (dict(outcomes=3), 8)]:
        expect("check lengths", call(**changes), want)

    def seal(scheme=2, n=4, f=1, d=4, ledger=b"abcd", ends=(1, 2, 3, 4),
             book=128):
        part = bytearray(b"\7" * book)
        got = db.seal(scheme, n, f, d, ledger, list(ends), part)
        if got:
            expect("book kept", bytes(part), b"\7" * book)
        return got

    expect("seal accepted", seal(), 0)
    faults = [(1, dict(scheme=4)), (2, dict(n=512)), (3, dict(f=0)),
              (7, dict(d=0)), (9, dict(ends=(5, 4))), (8, dict(book=127))]
    for k, (number, _) in enumerate(faults):
        arguments = {}
        for _, fault in faults[k:]:
            arguments.update(fault)
        expect(f"seal order {number}", seal(**arguments), number)
    expect("seal 10 before 8", seal(ends=(1, 2, 3, 5), book=0), 10)


# -------------------------------------------------------------------- reading

def given_tables(scheme, n, d):
    """Every table that some set gives, with the union of those sets."""
    chain_masks = db.masks(scheme, n, d)
    unions = {}
    for s in range(1 << d):
        table = tuple(0 if m & s else 1 for m in chain_masks)
        unions[table] = unions.get(table, 0) | s
    return unions


def reading_tests():
    for scheme, n, d in layouts(12):
        unions = given_tables(scheme, n, d)
        count = db.values(scheme, n, d)

        def one(table):
            want = unions.get(table)
            want = None if want is None else db.unmask(want)
            got = db.list_by_candidates(scheme, n, d, table)
            if got != want:
                expect(f"candidates {scheme} {n} {d} {table}", got, want)
            if d <= 6 and db.list_by_subsets(scheme, n, d, table) != want:
                expect(f"subsets {scheme} {n} {d} {table}", False, True)
            return 1

        tried = 0
        if count <= 15:
            for k in range(1 << count):
                tried += one(tuple(k >> i & 1 for i in range(count)))
        else:
            flip = 0
            for table in unions:
                tried += one(table)
                other = list(table)
                other[flip % count] ^= 1
                tried += one(tuple(other))
                other[flip // count % count] ^= 1
                tried += one(tuple(other))
                flip += 1
        expect(f"reading {scheme} {n} {d}", tried >= len(unions), True)

    for scheme, n, f, d in cases(10):
        for table, union in given_tables(scheme, n, d).items():
            result, listed = read_list(scheme, n, f, d, table + (9,))
            expect("list", listed, db.unmask(union))
            if union == 0:
                expect("clean", result, db.Reading("clean", last_good=d))
                continue
            black = [g for g in range(n, d + 1, n)
                     if table[db.values(scheme, n, g) - 1] == 1]
            want = db.Reading("changed", 0, len(listed), listed[0],
                              max(d - f * n, listed[0] - 1), d,
                              max(black, default=0))
            expect("numbers", result, want)
            for passed in range(0, d, n):
                low = max(passed, listed[0] - 1)
                expect("numbers with P",
                       read_list(scheme, n, f, d, table, passed,
                                 lambda *_, found=listed: found),
                       (replace(want, low=low), listed))


def reading_large():
    """Reading without masks against reading by masks."""
    rng = random.Random(5)
    for scheme, n, d in [(s, n, d) for s in (1, 2, 3)
                         for n in (1, 4, 32, 256) for d in (256, 512, 768)]:
        masks = db.masks(scheme, n, d)
        seen = Counter()
        for k in range(6):
            chosen = [rng.randint(1, d) for _ in range(rng.randint(0, 5))]
            bits = db.mask(set(chosen))
            table = [0 if m & bits else 1 for m in masks]
            if k >= 3:
                table[rng.randrange(len(table))] ^= 1
            want = db.list_by_candidates(scheme, n, d, table)
            expect(f"counts {scheme} {n} {d}",
                   db.list_by_counts(scheme, n, d, table), want)
            seen[want is None] += 1
        expect("a set is found", seen[False] >= 3, True)


def reading_refusals():
    def call(scheme=2, n=4, f=1, d=4, passed=0, outcomes=(1, 1, 1, 1),
             places=4):
        buffer = [777] * places
        result = db.read(scheme, n, f, d, passed, list(outcomes), buffer)
        expect("list buffer kept", buffer, [777] * places)
        return result.refusal

    expect("read accepted", call(), 0)
    faults = [(1, dict(scheme=0)), (2, dict(n=0)), (3, dict(f=65)),
              (7, dict(d=65_540)), (19, dict(passed=2)), (8, dict(places=3)),
              (12, dict(outcomes=(2, 1, 1)))]
    for k, (number, _) in enumerate(faults):
        arguments = {}
        for _, fault in faults[k:]:
            arguments.update(fault)
        expect(f"read order {number}", call(**arguments), number)
    for outcomes, want in [((1, 1, 2, 0), 13), ((1, 1, 1, 255), 13),
                           ((1, 1, 1, 0), 14), ((1, 1, 1, 1, 2), 0),
                           ((1, 1, 1), 12), ((), 12)]:
        expect("read outcomes", call(outcomes=outcomes), want)
    expect("read 8 when clean", call(places=3), 8)
    eight = dict(d=8, outcomes=[1] * 8, places=8)
    for passed, want in [(0, 0), (4, 0), (8, 19), (12, 19), (1, 19), (6, 19),
                         (7, 19), (9, 19), (2 ** 32 - 4, 19),
                         (2 ** 32 - 1, 19)]:
        expect(f"read P {passed}", call(**eight, passed=passed), want)
        expect("clean, whatever P", db.read(2, 4, 1, 8, passed, [1] * 8,
                                            [777] * 8),
               db.Reading("refused", want) if want
               else db.Reading("clean", last_good=8))
    for f in (1, 2, 4):         # P goes by N, not by F*N
        eight["f"] = f
        expect("read P by N", call(**eight, passed=4) if f < 4
               else call(f=4, d=16, outcomes=[1] * 16, places=16, passed=12),
               0)


def skipped_validations():
    """The figure with each P, by hand: low alone goes with it."""
    table = table_of(2, 16, 64, [19, 20, 27])
    days = [19, 20, 23, 24, 27, 28, 31, 32]
    for passed, low in [(0, 18), (16, 18), (32, 32), (48, 48)]:
        expect(f"figure, P {passed}",
               read_list(2, 16, 2, 64, table, passed),
               (db.Reading("changed", 0, 8, 19, low, 64, 16), days))
    for scheme, n, f, d in cases(300):
        expect("D - F*N is let pass",
               db.passed_refusal(scheme, n, f, d, d - f * n), 0)


# --------------------------------------------------------------------- search

def search_steps(d, fails):
    """Each state of a search, by the list of what is due.

    The chain that is due first is looked at; the halves of a failing one
    come before whatever was due.  A state has the chains looked at, the days
    found and the chains that are due.
    """
    due, looked, found = db.maximal_chains(d), [], []
    yield list(looked), list(found), list(due)
    while due:
        chain = due.pop(0)
        looked.append(chain)
        if fails(chain) and chain[0] == chain[1]:
            found.append(chain[0])
        elif fails(chain):
            due = db.halves(chain) + due
        yield list(looked), list(found), list(due)


def search_list(n, d, changed, limit):
    """(numbers, found days) of a search; the rest of the list must stay."""
    buffer = [777] * (d + 3)
    refusal, *numbers = db.search(3, n, 1, d, table_of(3, n, d, changed),
                                  limit, buffer)
    expect("search accepted", refusal, 0)
    expect("list buffer's rest", set(buffer[numbers[1]:]), {777})
    return tuple(numbers), buffer[:numbers[1]]


def search_examples():
    """The examples of docs/SPEC.md, 20.8, and the largest chains."""
    for d, changed, limits, numbers, days in [
            (4, [3], (0,), (0, 0, 4), []), (4, [3], (1,), (1, 0, 4), []),
            (4, [3], (2,), (2, 0, 2), []), (4, [3], (3,), (3, 0, 2), []),
            (4, [3], (4,), (4, 1, 1), [3]),
            (4, [3], (5, 6, 100), (5, 1, 0), [3]),
            (4, [], (1, 2, 100), (1, 0, 0), []),
            (6, [2, 6], (4,), (4, 1, 4), [2]),
            (6, [2, 6], (5,), (5, 1, 2), [2]),
            (6, [2, 6], (8, 9, 100), (8, 2, 0), [2, 6])]:
        for limit in limits:
            expect(f"search {d} {changed} {limit}",
                   search_list(1, d, changed, limit), (numbers, days))
    for d in range(1, 600):
        tree = {chain for g in range(1, d + 1) for chain in (
            (g - 2 ** level + 1, g) for level in range(db.lg(g & -g) + 1))}
        most = sorted(a for a in tree if not any(
            a != b and b[0] <= a[0] and a[1] <= b[1] for b in tree)) \
            if d <= 40 else None
        found = db.maximal_chains(d)
        expect("largest chains", found, most or found)
        expect("largest chains are of the tree", set(found) <= tree, True)
        expect("one for each one bit", len(found), bin(d).count("1"))
        expect("each day once", [day for first, last in found
                                 for day in range(first, last + 1)],
               list(range(1, d + 1)))


def searches():
    """Every set of few days with every limit, against steps and reading."""
    search_examples()
    for n, d in [(n, d) for n in SIZES for d in range(n, 9, n)]:
        for chosen in range(1 << d):
            changed = db.unmask(chosen) if chosen else []
            table = table_of(3, n, d, changed)
            fails = db.tree_outcomes(n, d, table)
            states = list(search_steps(d, fails))
            walk, found, _ = states[-1]
            expect("found is read", found, read_list(3, n, 1, d, table)[1])
            expect("bound", len(walk) <= bin(d).count("1")
                   + 2 * len(changed) * db.lg(d), True)
            for limit in (*range(len(walk) + 2), 2 * d, 2 ** 32 - 1):
                looked, found, due = states[min(limit, len(walk))]
                left = [day for first, last in due
                        for day in range(first, last + 1)]
                got = db.searched(d, fails, limit)
                expect("search by steps", (got[0], got[1], sorted(got[2])),
                       (looked, found, left))
                expect("the last ones", left,
                       list(range(d - len(left) + 1, d + 1)))
                expect("bounds", len(found) <= len(changed)
                       <= len(found) + len(left), True)
    for n, d in [(1, 100), (4, 124), (8, 1000), (256, 1024)]:
        changed = [g for g in range(1, d + 1) if g * g % 37 < 5]
        numbers, days = search_list(n, d, changed, 2 * d)
        expect("many days", (numbers[2], days), (0, changed))


def search_refusals():
    def call(scheme=3, n=4, f=1, d=4, outcomes=(1,) * 7, places=4):
        answers = set()
        for limit in (0, 1, 2 ** 32 - 1):
            buffer = [777] * places
            answers.add(db.search(scheme, n, f, d, list(outcomes), limit,
                                  buffer)[0])
            expect("list buffer kept", buffer, [777] * places)
        expect("one answer", len(answers), 1)
        return answers.pop()

    expect("search accepted", call(), 0)
    faults = [(1, dict(scheme=0)), (2, dict(n=0)), (3, dict(f=65)),
              (7, dict(d=65_540)), (8, dict(places=3)),
              (12, dict(outcomes=(2, 1, 1)))]
    for k, (number, _) in enumerate(faults):
        arguments = {}
        for _, fault in faults[k:]:
            arguments.update(fault)
        expect(f"search order {number}", call(**arguments), number)
    for outcomes, want in [((0, 1, 1, 1, 1, 1, 2), 13), ((1,) * 6, 12),
                           ((0, 1, 1, 1, 1, 1, 1), 14), ((), 12),
                           ((1,) * 7 + (2,), 0)]:
        expect("search outcomes", call(outcomes=outcomes), want)
    for scheme, good, bad in [(1, (1, 1, 0, 0), (1, 0, 1, 0)),
                              (2, (0, 0) * 4, (0, 1) * 4)]:
        for outcomes, want in [(good, 20), (bad, 14), (good[:-1], 12),
                               (good[:-1] + (2,), 13), (good + (2,), 20)]:
            expect(f"search of scheme {scheme}",
                   call(scheme=scheme, n=1, outcomes=outcomes), want)
        expect("8 before 20", call(scheme=scheme, n=1, outcomes=good,
                                   places=3), 8)


# -------------------------------------------------------- how vague a tile is

TILES = [1, 2, 4, 8, 16, 32, 64]


def closed_form(n, k):
    """(sets, listed) by docs/SPEC.md, 21.4."""
    m = db.lg(n)
    return comb(n, k), [3 ** m, (7 ** m - 3 ** m) // 2,
                        (15 ** m - 3 * 7 ** m + 2 * 3 ** m) // 6][k - 1]


def tile_examples():
    """By hand, by docs/SPEC.md, 21.4 and 21.8, and the lines.

    N 2: c(1) covers offset 0.  Set 0: it fails, both days are listed.  Set 1:
    it passes, day 2 is listed.  Set 0 1: both.
    N 4: c(1) covers the offsets 0 1, c(2) covers 0 2.  Set 0: both fail, 4
    days.  Set 1: c(2) clears 1 and 3, days 2 and 4.  Set 2: c(1) clears 1 and
    2, days 3 and 4.  Set 3: both pass, day 4.  That is 9.  Sets 0 1, 0 2, 0 3
    and 1 2 fail both, 4 days each; 1 3 fails c(1) alone and 2 3 c(2) alone, 2
    days each.  That is 20.  Each set of three offsets fails both: 16.
    """
    for n, days in [(2, {(0,): [1, 2], (1,): [2], (0, 1): [1, 2]}),
                    (4, {(0,): [1, 2, 3, 4], (1,): [2, 4], (2,): [3, 4],
                         (3,): [4], (1, 2): [1, 2, 3, 4], (1, 3): [2, 4],
                         (2, 3): [3, 4]})]:
        for offsets, want in days.items():
            table = table_of(2, n, n, [o + 1 for o in offsets])
            expect(f"days of {n} {offsets}", read_list(2, n, 1, n, table)[1],
                   want)
    for n, k, *want in [(1, 1, 1, 1), (1, 2, 0, 0), (1, 3, 0, 0),
                        (2, 1, 2, 3), (2, 2, 1, 2), (2, 3, 0, 0),
                        (4, 1, 4, 9), (4, 2, 6, 20), (4, 3, 4, 16),
                        (64, 3, 41_664, 1_839_856)]:
        expect(f"by hand {n} {k}", db.tile_counts(n, k), (0, *want))
    for n, k in product(TILES, (1, 2, 3)):
        expect(f"closed form {n} {k}", db.tile_counts(n, k),
               (0, *closed_form(n, k)))
    text = db.ambiguity_lines()
    expect("lines", text.splitlines(keepends=True), [
        "{},{},{},{}\n".format(n, k, *closed_form(n, k))
        for n in TILES for k in (1, 2, 3)])
    expect("21 of them", (text.count("\n"), text[-1]), (21, "\n"))
    for line in ("4,1,4,9", "4,2,6,20", "1,2,0,0", "64,3,41664,1839856"):
        expect(f"line {line}", text.splitlines().count(line), 1)


def tiles():
    """The counts against each set read by itself, and all sets of days."""
    tile_examples()
    for n, k in product(TILES, (1, 2, 3)):
        if n == 64 and k == 3:
            continue
        sets = listed = 0
        for offsets in combinations(range(n), k):
            table = table_of(2, n, n, [o + 1 for o in offsets])
            result, days = read_list(2, n, 1, n, table)
            failing = table[1:-1].count(0)
            expect("2^z days", (table[0], len(days)), (0, 2 ** failing))
            expect("the set is listed", {o + 1 for o in offsets} <= set(days),
                   True)
            sets += 1
            listed += result.listed
        expect(f"set by set {n} {k}", db.tile_counts(n, k), (0, sets, listed))
    for n in (1, 2, 4, 8, 16):      # each list by all sets that give the table
        masks, unions = db.masks(2, n, n), given_tables(2, n, n)
        for k in (1, 2, 3):
            lists = [unions[tuple(0 if m & s else 1 for m in masks)]
                     for s in range(1 << n) if bin(s).count("1") == k]
            expect(f"by all sets of days {n} {k}", db.tile_counts(n, k),
                   (0, len(lists), sum(bin(x).count("1") for x in lists)))
    for n, d in [(n, d) for n in (1, 2, 4, 8) for d in range(n, 11, n)]:
        for table, union in given_tables(2, n, d).items():
            for t in range(d // n):         # 21.5, in each tile of a book
                chains = table[t * (2 + db.lg(n)):][:1 + db.lg(n)]
                listed = bin(union >> t * n & (1 << n) - 1).count("1")
                expect("days of a tile", listed,
                       0 if chains[0] else 2 ** chains[1:].count(0))


def tile_refusals():
    top = 2 ** 32 - 1
    for n in (*range(600), 1024, 65_536, 65_540, 2 ** 31, top):
        for k in (0, 1, 2, 3, 4, 5, 64, 257, 65_537, 2 ** 31 + 1, top):
            allowed = n in SIZES
            want = 2 if not allowed else 21 if n > 64 or k not in (1, 2, 3) \
                else 0
            got = db.tile_counts(n, k)
            expect(f"tile counts {n} {k}", got[0], want)
            expect("none if refused", want == 0 or got[1:] == (0, 0), True)
            if allowed and want == 0 and n < k:
                expect("N below k", got, (0, 0, 0))
    for n, k, want in [(0, 1, 2), (3, 0, 2), (512, 4, 2), (128, 1, 21),
                       (256, 3, 21), (1, 0, 21), (1, 4, 21), (64, 0, 21),
                       (64, 4, 21), (128, 0, 21), (1, 3, 0)]:
        expect("21.8", db.tile_counts(n, k)[0], want)


def whole_chain():
    """Seal, change, check, read: the days listed are those the set allows."""
    for scheme, n, d in layouts(8):
        days = [day_bytes(g, g % 4) for g in range(1, d + 1)]
        ledger, ends = ledger_of(days)
        count = db.values(scheme, n, d)
        book = bytearray(32 * count)
        db.seal(scheme, n, 1, d, ledger, ends, book)
        for s in range(1 << d):
            changed = db.unmask(s) if s else []
            other = [day + b"\0" if g in changed else day
                     for g, day in enumerate(days, 1)]
            ledger2, ends2 = ledger_of(other)
            outcomes = bytearray(count)
            db.check(scheme, n, 1, d, ledger2, ends2, book,
                     bytearray(32 * d), outcomes)
            expect("table", list(outcomes), table_of(scheme, n, d, changed))
            result, listed = read_list(scheme, n, 1, d, outcomes)
            expect("changed days listed",
                   (set(changed) <= set(listed), result.kind),
                   (True, "changed" if changed else "clean"))
        if d > 2:       # moving an end changes both days beside it
            moved = list(ends)
            moved[1] -= 1
            outcomes = bytearray(count)
            db.check(scheme, n, 1, d, ledger, moved, book,
                     bytearray(32 * d), outcomes)
            expect("moved end", list(outcomes),
                   table_of(scheme, n, d, [2, 3]))


# ------------------------------------------------------------ number of values

def values_calls():
    for scheme, n, f, d in cases(64):
        expect("number of values", db.number_of_values(scheme, n, f, d),
               (0, len(db.chains(scheme, n, d))))
        expect("chains by level", wanted.count_of_chains(scheme, n, d),
               db.values(scheme, n, d))
    for arguments, want in [((0, 0, 0, 0), 1), ((1, 0, 0, 0), 2),
                            ((1, 1, 0, 0), 3), ((3, 1, 2, 2), 3),
                            ((1, 1, 1, 0), 7), ((1, 2, 1, 3), 7),
                            ((1, 1, 1, 65_537), 7)]:
        expect("values refused", db.number_of_values(*arguments), (want, 0))


def record_values_calls():
    """The values of a record's days, also where no interval is whole."""
    for scheme in (1, 2, 3):
        for n in SIZES:
            total = 0
            for days in range(300):
                total += len(db.closing(scheme, n, days)) if days else 0
                record = db.made_up(scheme, n, 1, days, [bytes(32)] * 18,
                                    bytes(32))
                expect("values of a record", db.record_values(record),
                       (0, total))
                expect("chains by level",
                       wanted.count_of_chains(scheme, n, days), total)
                expect("by its bytes",
                       rec.record_values(rec.from_daybook(record)),
                       (0, total))
            last = db.made_up(scheme, n, 1, 65_536, [bytes(32)] * 18,
                              bytes(32))
            expect("values of all days", db.record_values(last),
                   (0, db.values(scheme, n, 65_536)))
    limit = db.DAY_LIMIT
    for numbers, want in [((0, 0, 0, 0, 0), 6), ((4, 1, 1, 0, 0), 6),
                          ((1, 3, 1, 0, 0), 6), ((1, 1, 65, 0, 0), 6),
                          ((3, 1, 2, 0, 0), 6), ((1, 1, 1, 65_537, 0), 6),
                          ((1, 1, 1, 0, limit + 1), 6),
                          ((1, 1, 1, 65_535, limit), 0),
                          ((1, 1, 1, 65_536, 0), 0),
                          ((1, 1, 1, 65_536, 1), 6),
                          ((1, 1, 1, 65_536, limit), 6)]:
        for season in (0, 1, 65_534, 65_535, 65_536, 2 ** 32 - 1):
            due = want if season < 65_536 else 6
            data = rec.pack((*numbers, season), rec.FIRST, [bytes(32)] * 18,
                            b"", bytes(32))
            plain = db.Record(*numbers, season=season)
            count = 0 if due else numbers[3]
            expect("values of a record, refused or not",
                   (rec.record_values(data), db.record_values(plain)),
                   ((due, count), (due, count)))


# --------------------------------------------------------------------- sizing

def sizing():
    """Blocks by the request, against blocks counted one by one."""
    for length in range(300):
        padded = b"x" * length + b"\x80"
        while len(padded) % 64 != 56:
            padded += b"\0"
        expect("blocks of a message", db.message_blocks(length),
               (len(padded) + 8) // 64)
        expect("blocks of a day", (length + 9) // 64 + 1,
               db.message_blocks(length + 1))
    expect("blocks of a link", db.LINK_BLOCKS, 2)

    # By hand: N 4, the offsets 0 to 3 in c(0), c(1), c(2).
    expect("links", [[db.links(s, 4, g) for g in range(1, 6)]
                     for s in (1, 2, 3)],
           [[1] * 5, [4, 3, 3, 2, 4], [18] * 5])
    # Days of 0, 54, 55 and 119 bytes take 1, 1, 2 and 3 blocks.
    expect("by hand", [db.forecast(s, 4, 1, 4, [0, 54, 55, 119, 7])
                       for s in (1, 2, 3)],
           [(0, 1, 32, 15), (0, 4, 128, 31), (0, 7, 224, 151)])

    for scheme, n in [(s, n) for s in (1, 2, 3) for n in SIZES]:
        for g in range(1, 600):
            expect("links by slots", db.links(scheme, n, g),
                   1 + len(rec.linked(scheme, n, g)))

    days = [0, 54, 55, 56, 63, 64, 118, 119, 120, 130, 0, 1, 62, 127, 128, 2]
    for scheme, n in [(s, n) for s in (1, 2, 3) for n in (1, 2, 8)]:
        for size in (1, 2, 54, 55, 62, 63, 64, 65, 1000):
            _, plain = db.open_service(scheme, n, 1)
            _, data = rec.open_service(scheme, n, 1)
            total = 0
            for g, length in enumerate(days, 1):
                day = day_bytes(g, length)
                for a in range(0, length + 1, size):
                    piece = day[a:a + size]
                    total += db.add_blocks(plain, piece)
                    expect("blocks of an add", rec.add_blocks(data, piece),
                           db.add_blocks(plain, piece))
                    _, plain = db.add(plain, piece)
                    _, data = rec.add(data, piece)
                total += db.close_blocks(plain)
                expect("blocks of a close", rec.close_blocks(data),
                       db.close_blocks(plain))
                _, plain, _ = db.close(plain, bytearray(600))
                _, data, _ = rec.close(data, 600)
                expect(f"pieces of {size}", total,
                       db.forecast_blocks(scheme, n, days[:g]))

    for arguments, want in [((0, 0, 0, 0, []), 1), ((1, 0, 0, 0, []), 2),
                            ((1, 1, 0, 0, []), 3), ((3, 1, 2, 2, []), 3),
                            ((1, 1, 1, 0, []), 7), ((1, 2, 1, 3, [1]), 7),
                            ((1, 2, 1, 2, [1 << 25]), 16),
                            ((1, 2, 1, 2, [1, 1 << 25]), 17),
                            ((1, 2, 1, 2, [1, (1 << 24) + 1]), 17),
                            ((1, 2, 1, 2, [1, 1 << 24, 1 << 25]), 0)]:
        expect("forecast refused", db.forecast(*arguments)[0], want)
    expect("the longest season",
           db.forecast(3, 1, 1, 65_536, [1 << 24] * 65_536),
           (0, 196_590, 6_290_880, 17_182_294_016))


# ------------------------------------------------------------------ positions

def four_by_rule(n, name):
    """The four numbers of a named chain in closed form."""
    kind, index, g = name
    if kind == db.BLACK:
        return 1, 0, 1, g
    if kind == db.TREE:
        return 3, index, g - 2 ** index + 1, g
    return 2, index, g - n + 1, g - (n // 2 ** index if index else 0)


def positions():
    """The chain at each position, and back."""
    # By hand.
    for arguments, four in [((1, 2, 3, 24, 7), (1, 0, 1, 16)),
                            ((2, 4, 1, 8, 4), (2, 0, 5, 8)),
                            ((2, 4, 1, 8, 5), (2, 1, 5, 6)),
                            ((2, 4, 1, 8, 6), (2, 2, 5, 7)),
                            ((2, 4, 1, 8, 7), (1, 0, 1, 8)),
                            ((2, 1, 1, 1, 0), (2, 0, 1, 1)),
                            ((2, 1, 1, 1, 1), (1, 0, 1, 1)),
                            ((3, 2, 1, 16, 15), (3, 3, 1, 8)),
                            ((3, 2, 1, 16, 23), (3, 2, 9, 12)),
                            ((3, 2, 1, 16, 24), (1, 0, 1, 12)),
                            ((3, 2, 1, 16, 34), (3, 4, 1, 16)),
                            ((3, 256, 1, 256, 510), (3, 8, 1, 256))]:
        *settings, position = arguments
        expect("by hand", db.chain_at(*arguments), (0, *four))
        expect("and back", db.position_of(*settings, four), (0, position))

    for scheme, n, f, d in cases(64):
        named = [name for g in range(1, d + 1)
                 for name in db.names(scheme, n, g)]
        expect("in closed form", db.fours(scheme, n, d),
               [four_by_rule(n, name) for name in named])
        covered = db.chains(scheme, n, d)
        count = db.values(scheme, n, d)
        for position in range(count):
            refusal, *four = db.chain_at(scheme, n, f, d, position)
            days = covered[position]
            expect("first and last", (refusal, *four[2:]),
                   (0, days[0], days[-1]))
            expect("back", db.position_of(scheme, n, f, d, four),
                   (0, position))
        for position in (count, count + 1, 2 ** 32 - 1):
            expect("beyond", db.chain_at(scheme, n, f, d, position)[0], 18)

    # All that short books know, and nothing else.
    for scheme, n, f, d in cases(8):
        book = db.fours(scheme, n, d)
        for four in product(range(5), range(5), range(d + 2), range(d + 2)):
            expect("any four", db.position_of(scheme, n, f, d, four),
                   (0, book.index(four)) if four in book else (18, 0))

    for scheme, n in [(s, n) for s in (1, 2, 3) for n in SIZES]:
        count = db.values(scheme, n, 65_536)
        expect("no two the same", len(db.places(scheme, n, 65_536)), count)
        expect("the last", db.chain_at(scheme, n, 1, 65_536, count - 1),
               (0, 3, 16, 1, 65_536) if scheme == 3
               else (0, 1, 0, 1, 65_536))
    for n in SIZES:
        for g in [2 ** k for k in range(17) if 2 ** k % n == 0]:
            expect("stored once", [db.position_of(3, n, 1, 65_536, four)[0]
                                   for four in ((1, 0, 1, g),
                                                (3, db.lg(g), 1, g))],
                   [18, 0])

    for arguments, want in [((0, 0, 0, 0), 1), ((1, 0, 0, 0), 2),
                            ((1, 1, 0, 0), 3), ((3, 1, 2, 2), 3),
                            ((1, 1, 1, 0), 7), ((1, 2, 1, 3), 7),
                            ((1, 1, 1, 65_537), 7), ((1, 2, 1, 2), 18)]:
        expect("position refused", db.chain_at(*arguments, 1)[0], want)
        expect("chain refused", db.position_of(*arguments, (1, 1, 1, 2))[0],
               want)


# ------------------------------------------------------------- record's bytes

def compression():
    rng = random.Random(1)
    expect("first words", [hex(w) for w in rec.FIRST],
           ["0x6a09e667", "0xbb67ae85", "0x3c6ef372", "0xa54ff53a",
            "0x510e527f", "0x9b05688c", "0x1f83d9ab", "0x5be0cd19"])
    expect("rounds", [hex(rec.ROUND[k]) for k in (0, 1, 62, 63)],
           ["0x428a2f98", "0x71374491", "0xbef9a3f7", "0xc67178f2"])
    for length in range(300):
        data = rng.randbytes(length)
        expect(f"sha256 of {length}", rec.sha256(data),
               hashlib.sha256(data).digest())


def record_layout():
    expect("size", len(rec.open_service(1, 1, 1)[1]), 728)
    first = hashlib.sha256(bytes([2, 2, 3])).digest()
    words = b"".join(first[k:k + 4][::-1] for k in range(0, 32, 4))
    expect("fresh", rec.open_service(2, 8, 25), (
        0, bytes([2, 0, 0, 0, 8, 0, 0, 0, 25, 0, 0, 0]) + bytes(8)
        + b"".join(w.to_bytes(4, "little") for w in rec.FIRST)
        + words * 18 + bytes(64) + words + bytes(4)))
    expect("refused open", rec.open_service(0, 8, 25), (1, bytes(728)))
    data = rec.pack((1, 2, 3, 4, 5, 0xABCD), range(8), [bytes([k]) * 32
                                                        for k in range(18)],
                    b"abc", bytes(range(32)))
    expect("back", (rec.fields(data), rec.words_of(data),
                    rec.running_of(data)[17], rec.start_of(data), len(data)),
           ((1, 2, 3, 4, 5, 0xABCD), tuple(range(8)), bytes([17]) * 32,
            bytes(range(32)), 728))
    expect("the season is last, lowest byte first", data[724:],
           bytes([0xCD, 0xAB, 0, 0]))
    expect("swap", rec.swap(bytes(range(32)))[:8],
           bytes([3, 2, 1, 0, 7, 6, 5, 4]))


def record_histories():
    """The service on a record's bytes against the one of daybook.py."""
    rng = random.Random(2)
    for scheme in (1, 2, 3):
        for n in SIZES:
            _, plain = db.open_service(scheme, n, 1)
            _, data = rec.open_service(scheme, n, 1)
            expect("open", data, rec.from_daybook(plain))
            for _ in range(60):
                if rng.random() < 0.5:
                    piece = rng.randbytes(rng.choice(LENGTHS))
                    refusal, plain = db.add(plain, piece)
                    got, data = rec.add(data, piece)
                    expect("add", got, refusal)
                else:
                    part = bytearray(rng.randrange(260))
                    refusal, plain, count = db.close(plain, part)
                    got, data, values = rec.close(data, len(part))
                    expect("close", (got, b"".join(values)),
                           (refusal, bytes(part[:32 * count])))
                expect(f"record {scheme} {n}", data, rec.from_daybook(plain))


def record_made_up():
    rng = random.Random(3)
    for scheme in (1, 2, 3):
        for n in (1, 8, 256):
            plain = last_day.record(scheme, n, 65_535)
            data = rec.from_daybook(plain)
            part = bytearray(600)
            refusal, plain, count = db.close(plain, part)
            got, data, values = rec.close(data, 600)
            expect("last day", (got, data, b"".join(values)),
                   (refusal, rec.from_daybook(plain),
                    bytes(part[:32 * count])))
            expect("then 5", (rec.add(data, b""), rec.close(data, 600)),
                   ((5, data), (5, data, [])))

    # The block's bytes past the fill have no weight and go with an add.
    junk = bytearray(rng.randbytes(728))
    junk[:20] = rec.pack((1, 1, 1, 7, 70, 0), rec.FIRST, [bytes(32)] * 18,
                         b"", bytes(32))[:20]
    junk[724:] = bytes([3, 0, 0, 0])
    clean = bytes(junk[:628 + 7]) + bytes(57) + junk[692:]
    for piece in (b"", b"x", bytes(57), bytes(200)):
        expect("junk in the block", rec.add(bytes(junk), piece),
               rec.add(clean, piece))
    expect("add of length 0", rec.add(bytes(junk), b""), (0, clean))
    expect("junk and close", rec.close(bytes(junk), 32),
           rec.close(clean, 32))

    limit = db.DAY_LIMIT
    for days, count, season, length, want in [
            (0, limit - 1, 0, 1, 0), (0, limit - 1, 0, 2, 4),
            (0, limit, 0, 0, 0), (0, limit, 0, 1, 4), (0, limit + 1, 0, 0, 6),
            (65_535, 0, 0, 1, 0), (65_535, 0, 65_535, 1, 0),
            (65_536, 0, 0, 1, 0), (65_536, 0, 65_534, 0, 0),
            (65_536, 0, 65_534, limit + 1, 4), (65_536, 0, 65_535, 1, 5),
            (65_536, 0, 65_535, limit + 1, 5), (65_537, 0, 0, 1, 6),
            (65_536, limit, 65_535, 1, 6), (65_536, 1, 0, 0, 6),
            (0, 0, 65_536, 0, 6), (65_536, 0, 65_536, 1, 6)]:
        junk[12:20] = days.to_bytes(4, "little") + count.to_bytes(4, "little")
        junk[724:] = season.to_bytes(4, "little")
        refusal, after = rec.add(bytes(junk), bytes(length))
        expect("add at limits", refusal, want)
        expect("record kept", refusal == 0 or after == junk, True)


# ----------------------------------------------------------------- comparison

def differs(calls, scheme, first, last):
    """Whether a case finds the calls different."""
    return differs_in(calls, scheme, range(first, last))


# each fault meets the same cases again
rec.compress = lru_cache(maxsize=1 << 16)(rec.compress)


def differs_in(calls, scheme, indices):
    arena = Arena()
    return any(compare.run_case(calls, arena, 7, scheme, index,
                                Counter())[2] is not None
               for index in indices)


def faulty(name, fault):
    """The stand-in with one call changed."""
    calls = stand_in.calls()
    good = calls[name]
    calls[name] = lambda *arguments: fault(good, *arguments)
    return calls


def comparison():
    first = len(compare.ONCE)
    for scheme in (1, 2, 3):
        expect("stand-in is equal",
               differs(stand_in.calls(), scheme, first, first + 200), False)

    def past_record(good, address, *rest):
        ctypes.memset(address + rec.SIZE, 0, 1)
        return good(address, *rest)

    def before_book(good, *arguments):
        if arguments[8]:
            ctypes.memset(arguments[8] - 1, 0, 1)
        return good(*arguments)

    def no_zeros(good, *arguments):
        refusal = db.settings_refusal(*arguments[:3])
        return refusal or good(*arguments)

    def number_of_refused(good, *arguments):
        answer = good(*arguments)
        if answer:
            ctypes.memset(arguments[-1], 0, 4)
        return answer

    def passes_all(good, *arguments):
        answer = good(*arguments)
        if answer == 0:
            ctypes.memset(arguments[-2], 1, db.values(*arguments[:2],
                                                      arguments[3]))
        return answer

    def low_of(good, *arguments, low):
        """Low is another one; the arguments are those of read."""
        answer = good(*arguments)
        numbers = stand_in.get_words(arguments[-1], 5)
        if answer == 0 and numbers[0]:
            numbers[2] = low(numbers, *arguments[:5])
            stand_in.put_words(arguments[-1], numbers)
        return answer

    def low_without_p(good, *arguments):
        """Low is 01's, whatever P."""
        return low_of(good, *arguments, low=lambda numbers, scheme, n, f, d, p:
                      max(d - f * n, numbers[1] - 1))

    def low_is_p(good, *arguments):
        return low_of(good, *arguments,
                      low=lambda numbers, scheme, n, f, d, p: p)

    def low_in_clean(good, *arguments):
        """P is said of a clean table too."""
        answer = good(*arguments)
        numbers = stand_in.get_words(arguments[-1], 5)
        if answer == 0 and numbers[0] == 0:
            numbers[2] = arguments[4]
            stand_in.put_words(arguments[-1], numbers)
        return answer

    def other_19(says):
        """19 where says(answer, n, f, d, passed, list length) has it so."""
        def fault(good, scheme, n, f, d, passed, *rest):
            answer = good(scheme, n, f, d, passed, *rest)
            return says(answer, n, f, d, passed, rest[3])
        return fault

    def says_0(answer, n, f, d, passed, places):
        """P 0 is refused."""
        return 19 if answer in (0, 8) and passed == 0 else answer

    def by_f_n(answer, n, f, d, passed, places):
        """P must be a multiple of F*N."""
        return 19 if answer in (0, 8) and passed % (f * n) else answer

    def after_8(answer, n, f, d, passed, places):
        return 8 if answer == 19 and places < d else answer

    def before_7(answer, n, f, d, passed, places):
        return 19 if answer == 7 and passed >= d else answer

    def lets_d_pass(good, scheme, n, f, d, passed, *rest):
        """P may be D."""
        if passed == d and db.days_call_refusal(scheme, n, f, d) == 0:
            passed -= n
        return good(scheme, n, f, d, passed, *rest)

    def any_p_below(good, scheme, n, f, d, passed, *rest):
        """P need not be a multiple of N."""
        if passed < d and db.days_call_refusal(scheme, n, f, d) == 0:
            passed -= passed % n
        return good(scheme, n, f, d, passed, *rest)

    def full_is_refused(good, record, values):
        days = rec.fields(stand_in.get(record, rec.SIZE))[3]
        return 5 if days == db.DAYS_LIMIT else good(record, values)

    def whole_intervals(good, record, values):
        scheme, n, f, days, *_ = rec.fields(stand_in.get(record, rec.SIZE))
        answer = good(record, values)
        if answer == 0:
            whole = days // (f * n) * f * n
            stand_in.put_words(values, [wanted.count_of_chains(scheme, n,
                                                               whole)])
        return answer

    def null_is_refused(good, record, piece, length, blocks):
        return 4 if piece is None else good(record, piece, length, blocks)

    def next_call_counts(good, record, piece, length, blocks):
        """A block that the piece fills to its end is counted later."""
        fill = (rec.fields(stand_in.get(record, rec.SIZE))[4] + 1) % 64
        answer = good(record, piece, length, blocks)
        if answer == 0:
            stand_in.put_words(blocks, [max(fill + length - 1, 0) // 64])
        return answer

    def all_lengths(good, scheme, n, f, d, lengths, count, given):
        """The lengths past D are looked at too."""
        long = any(b > db.DAY_LIMIT for b in stand_in.get_words(lengths,
                                                                count))
        answer = good(scheme, n, f, d, lengths, count, given)
        return 17 if answer == 0 and long else answer

    def long_before_few(good, scheme, n, f, d, lengths, count, given):
        """17 before 16."""
        answer = good(scheme, n, f, d, lengths, count, given)
        long = any(b > db.DAY_LIMIT for b in stand_in.get_words(lengths,
                                                                count))
        return 17 if answer == 16 and long else answer

    def days_from_0(good, *arguments):
        answer = good(*arguments)
        if answer == 0:
            kind, index, first, last = stand_in.get_words(arguments[-1], 4)
            stand_in.put_words(arguments[-1], [kind, index, first - 1,
                                               last - 1])
        return answer

    def days_to_the_tiles_end(good, scheme, n, f, d, position, chain):
        answer = good(scheme, n, f, d, position, chain)
        if answer == 0:
            kind, index, first, last = stand_in.get_words(chain, 4)
            if kind == 2:
                stand_in.put_words(chain, [kind, index, first, first + n - 1])
        return answer

    def black_where_once(good, scheme, n, f, d, position, chain):
        answer = good(scheme, n, f, d, position, chain)
        if answer == 0:
            kind, _, first, last = stand_in.get_words(chain, 4)
            if kind == 3 and first == 1 and last % n == 0:
                stand_in.put_words(chain, [1, 0, first, last])
        return answer

    def the_last_beyond(good, scheme, n, f, d, position, chain):
        """A position beyond the book is taken as the last."""
        if db.days_call_refusal(scheme, n, f, d) == 0:
            position = min(position, db.values(scheme, n, d) - 1)
        return good(scheme, n, f, d, position, chain)

    def one_too_far(good, scheme, n, f, d, position, chain):
        """18 only if the position is over the number of values."""
        if db.days_call_refusal(scheme, n, f, d) == 0 \
                and position == db.values(scheme, n, d):
            return 0
        return good(scheme, n, f, d, position, chain)

    def position_before_7(good, scheme, n, f, d, position, chain):
        """18 before 7: no book has so many values."""
        answer = good(scheme, n, f, d, position, chain)
        return 18 if answer == 7 and position >= 2 ** 31 else answer

    def chain_before_7(good, scheme, n, f, d, chain, position):
        """18 before 7: the last day is beyond D."""
        answer = good(scheme, n, f, d, chain, position)
        last = stand_in.get_words(chain, 4)[3]
        return 18 if answer == 7 and last > d else answer

    def without(*left_out):
        """The four are compared but for those at these places."""
        def fault(good, scheme, n, f, d, chain, position):
            answer = good(scheme, n, f, d, chain, position)
            if answer != 18:
                return answer
            named = stand_in.get_words(chain, 4)
            for place, four in enumerate(db.fours(scheme, n, d)):
                if all(k in left_out or four[k] == named[k]
                       for k in range(4)):
                    stand_in.put_words(position, [place])
                    return 0
            return 18
        return fault

    def any_index_of_black(good, scheme, n, f, d, chain, position):
        kind, _, first, last = stand_in.get_words(chain, 4)
        if kind != 1:
            return good(scheme, n, f, d, chain, position)
        four = (ctypes.c_uint32 * 4)(kind, 0, first, last)
        return good(scheme, n, f, d, ctypes.addressof(four), position)

    def once_as_black(good, scheme, n, f, d, chain, position):
        """A value stored once may be named as black too."""
        kind, index, first, last = stand_in.get_words(chain, 4)
        answer = good(scheme, n, f, d, chain, position)
        if answer != 18 or (kind, index, first) != (1, 0, 1) \
                or last == 0 or last % n or last & (last - 1):
            return answer
        four = (ctypes.c_uint32 * 4)(3, db.lg(last), 1, last)
        return good(scheme, n, f, d, ctypes.addressof(four), position)

    def a_day_too_far(good, scheme, n, f, d, chain, position):
        """The values of the closing day are counted with those before."""
        answer = good(scheme, n, f, d, chain, position)
        if answer == 0:
            kind, _, first, last = stand_in.get_words(chain, 4)
            day = first + n - 1 if kind == 2 else last
            place, = stand_in.get_words(position, 1)
            stand_in.put_words(position, [place
                                          + len(db.names(scheme, n, day))])
        return answer

    def other_search(limit_of=lambda limit: limit, order=lambda due: due,
                     goes_into=lambda fails: fails, listed=lambda found: found,
                     stops=lambda found: False, once_more=0,
                     days_of=lambda chain: chain[1] - chain[0] + 1):
        """A search by what is due, in which one thing is another."""
        def fault(good, scheme, n, f, d, outcomes, length, limit, places,
                  count, progress):
            answer = good(scheme, n, f, d, outcomes, length, 0, places, count,
                          progress)
            if answer:
                return answer
            fails = db.tree_outcomes(n, d, stand_in.get(outcomes, length))
            due, looked, found = db.maximal_chains(d), 0, []
            while due and looked < limit_of(limit) and not stops(found):
                chain, due = due[0], due[1:]
                looked += 1
                if chain[0] < chain[1] and goes_into(fails(chain)):
                    due = order(db.halves(chain)) + due
                elif chain[0] == chain[1] and fails(chain):
                    found.append(chain[0])
            stand_in.put_words(places, listed(found))
            stand_in.put_words(progress, [
                looked + once_more * (not due), len(found),
                sum(map(days_of, due))])
            return 0
        return fault

    def no_tree_first(good, scheme, n, f, d, *rest):
        """20 before 8, 12, 13 and 14."""
        if scheme in (1, 2) and db.days_call_refusal(scheme, n, f, d) == 0:
            return 20
        return good(scheme, n, f, d, *rest)

    def no_tree_before_14(good, scheme, *rest):
        answer = good(scheme, *rest)
        return 20 if answer == 14 and scheme != 3 else answer

    def clears_the_rest(good, *arguments):
        answer = good(*arguments)
        if answer == 0:
            places, count, progress = arguments[-3:]
            found = stand_in.get_words(progress, 3)[1]
            if count > found:
                stand_in.put_words(places + 4 * found, [0] * (count - found))
        return answer

    def few_places(good, *arguments):
        """8 only if the list is too short for what is found."""
        *front, places, count, progress = arguments
        d = arguments[3]
        if not places or count >= d:
            return good(*arguments)
        more = (ctypes.c_uint32 * min(d, db.DAYS_LIMIT))()
        return good(*front, ctypes.addressof(more), len(more), progress)

    def few_before_short(good, scheme, n, f, d, outcomes, length, *rest):
        """12 before 8."""
        answer = good(scheme, n, f, d, outcomes, length, *rest)
        few = answer == 8 and length < db.values(scheme, n, d)
        return 12 if few else answer

    def other_counts(sets_of=combinations, refuses=db.tile_refusal,
                     days_of=lambda n, offsets, table:
                     2 ** table[1:-1].count(0),
                     counts_of=lambda sets, listed: (sets, listed)):
        """Counts by failing chains, in which one thing is another."""
        @lru_cache(maxsize=None)
        def count(n, k):
            masks = db.masks(2, n, n)
            sets = listed = 0
            for offsets in sets_of(range(n), k):
                chosen = db.mask({o + 1 for o in offsets})
                table = [int(m & chosen == 0) for m in masks]
                sets += 1
                listed += days_of(n, offsets, table)
            return counts_of(sets, listed)

        def fault(good, n, k, counts):
            refusal = refuses(n, k)
            if refusal == 0:
                stand_in.put_words(counts, count(n, k))
            return refusal
        return fault

    def alone(n, offsets, table):
        """The days of each offset of the set read by itself, added up."""
        return sum(2 ** (db.lg(n) - bin(o).count("1")) for o in offsets)

    def limits(days=64, least=1, most=3):
        """2 and 21 by other limits of N and k."""
        def refuses(n, k):
            if n not in SIZES:
                return 2
            return 0 if n <= days and least <= k <= most else 21
        return refuses

    def far_first(n, k):
        """21 before 2."""
        return 21 if n > 64 or not 1 <= k <= 3 else db.tile_refusal(n, k)

    def far_is_2(n, k):
        """2 for N over 64."""
        return 2 if n > 64 else db.tile_refusal(n, k)

    def none_is_refused(n, k):
        """21 where N is below k."""
        return db.tile_refusal(n, k) or (21 if n < k else 0)

    def any_size(n, k):
        """N need not be a power of two."""
        return 0 if 1 <= n <= 64 and 1 <= k <= 3 else db.tile_refusal(n, k)

    def low_bits(width, of_n):
        """N or k is looked at in its low bits alone."""
        low = (1 << width) - 1
        return lambda good, n, k, counts: good(
            n & low if of_n else n, k if of_n else k & low, counts)

    def other_order(good, n, k, counts):
        return good(k, n, counts)

    def second_of_refused(good, n, k, counts):
        """A refusal writes the second count."""
        answer = good(n, k, counts)
        if answer:
            stand_in.put_words(counts + 4, [0])
        return answer

    def third_count(good, n, k, counts):
        stand_in.put_words(counts + 8, [0])
        return good(n, k, counts)

    def none_is_left(good, n, k, counts):
        """Nothing is written where N is below k."""
        before = stand_in.get_words(counts, 2)
        answer = good(n, k, counts)
        if n < k:
            stand_in.put_words(counts, before)
        return answer

    # the first is no fault: the same counts by failing chains
    expect("counts by failing chains are equal",
           differs(faulty("tile_counts", other_counts()), 2, first,
                   first + 600), False)
    for number, fault in enumerate([
            number_of_refused, second_of_refused, third_count, none_is_left,
            other_order, low_bits(8, True), low_bits(16, True),
            low_bits(31, True), low_bits(8, False), low_bits(16, False),
            low_bits(31, False),
            other_counts(sets_of=combinations_with_replacement),
            other_counts(sets_of=permutations),
            other_counts(sets_of=lambda offsets, k: [
                s for size in range(1, k + 1)
                for s in combinations(offsets, size)]),
            other_counts(sets_of=lambda offsets, k: combinations(
                offsets[1:], k)),
            other_counts(days_of=alone),
            other_counts(days_of=lambda n, offsets, table: n),
            other_counts(days_of=lambda n, offsets, table: len(offsets)),
            other_counts(days_of=lambda n, offsets, table:
                         2 ** table[:-1].count(0)),
            other_counts(days_of=lambda n, offsets, table:
                         2 ** table[1:].count(0)),
            other_counts(days_of=lambda n, offsets, table:
                         2 ** table[1:-1].count(1)),
            other_counts(days_of=lambda n, offsets, table:
                         2 * table[1:-1].count(0)),
            other_counts(counts_of=lambda sets, listed: (listed, sets)),
            other_counts(counts_of=lambda sets, listed: (
                sets, listed % 2 ** 16)),
            other_counts(counts_of=lambda sets, listed: (
                sets, listed // max(sets, 1))),
            other_counts(refuses=limits(days=128)),
            other_counts(refuses=limits(days=32)),
            other_counts(refuses=limits(least=0)),
            other_counts(refuses=limits(most=4)),
            other_counts(refuses=limits(most=2)),
            other_counts(refuses=far_first), other_counts(refuses=far_is_2),
            other_counts(refuses=none_is_refused),
            other_counts(refuses=any_size)]):
        for scheme in (1, 2, 3):
            expect(f"fault {number} in tile_counts is found",
                   differs(faulty("tile_counts", fault), scheme, first,
                           first + 600), True)

    # the first is no fault: the same search by what is due
    expect("search by what is due is equal",
           differs(faulty("search", other_search()), 3, first, first + 200),
           False)
    for name, fault, schemes in [
            ("search", number_of_refused, (1, 2, 3)),
            ("search", other_search(limit_of=lambda limit: 2 ** 32), (3,)),
            ("search", other_search(limit_of=lambda limit: limit - 1), (3,)),
            ("search", other_search(limit_of=lambda limit: limit + 1), (3,)),
            ("search", other_search(
                limit_of=lambda limit: limit or 2 ** 32), (3,)),
            ("search", other_search(order=lambda due: due[::-1]), (3,)),
            ("search", other_search(goes_into=lambda fails: True), (3,)),
            ("search", other_search(days_of=lambda chain: 1), (3,)),
            ("search", other_search(stops=bool), (3,)),
            ("search", other_search(listed=lambda found: found[::-1]), (3,)),
            ("search", other_search(once_more=1), (3,)),
            ("search", clears_the_rest, (3,)), ("search", few_places, (3,)),
            ("search", few_before_short, (1, 2, 3)),
            ("search", no_tree_first, (1, 2)),
            ("search", no_tree_before_14, (1, 2)),
            ("chain_at", number_of_refused, (1, 2, 3)),
            ("chain_at", days_from_0, (1, 2, 3)),
            ("chain_at", days_to_the_tiles_end, (2,)),
            ("chain_at", black_where_once, (3,)),
            ("chain_at", the_last_beyond, (1, 2, 3)),
            ("chain_at", one_too_far, (1, 2, 3)),
            ("chain_at", position_before_7, (1, 2, 3)),
            ("position_of", number_of_refused, (1, 2, 3)),
            ("position_of", chain_before_7, (1, 2, 3)),
            ("position_of", without(0), (1, 2, 3)),
            ("position_of", without(1), (1, 2, 3)),
            ("position_of", without(2), (1, 2, 3)),
            ("position_of", without(3), (1, 2, 3)),
            ("position_of", any_index_of_black, (1, 2, 3)),
            ("position_of", once_as_black, (3,)),
            ("position_of", a_day_too_far, (1, 2, 3)),
            ("read", other_19(by_f_n), (1, 2))]:
        for scheme in schemes:
            expect(f"fault in {name} is found",
                   differs(faulty(name, fault), scheme, first, first + 600),
                   True)

    for name, fault in [
            ("add", past_record), ("add", null_is_refused),
            ("add", number_of_refused), ("add", next_call_counts),
            ("forecast", number_of_refused), ("forecast", all_lengths),
            ("forecast", long_before_few),
            ("seal", before_book), ("close", number_of_refused),
            ("read", number_of_refused), ("values", number_of_refused),
            ("record_values", number_of_refused),
            ("record_values", full_is_refused),
            ("record_values", whole_intervals),
            ("version", lambda good: good() + 1),
            ("check", passes_all),
            ("read", lambda good, *rest: good(*rest) or 14),
            ("read", low_without_p), ("read", low_is_p),
            ("read", low_in_clean), ("read", other_19(says_0)),
            ("read", other_19(after_8)), ("read", other_19(before_7)),
            ("read", lets_d_pass), ("read", any_p_below),
            ("open", no_zeros)]:
        for scheme in (1, 2, 3):
            expect(f"fault in {name} is found",
                   differs(faulty(name, fault), scheme, first, first + 600),
                   True)

    for arguments, last in [
            (["--cases", "60"], "compare: 180 cases, all equal"),
            (["--cases", "60", "--broken"],
             "compare: 180 of 180 corrupted answers found")]:
        printed = io.StringIO()
        with contextlib.redirect_stdout(printed):
            status = compare.main(["stand-in", "--without-once", *arguments])
        expect("whole run", (status, printed.getvalue().splitlines()[-1]),
               (0, last))


# --------------------------------------------------- comparison of the start

def hashed(*numbers):
    return hashlib.sha256(bytes(numbers)).digest()


def right_start(scheme, n, f):
    return db.start(scheme, n)


def zeros(scheme, n, f):
    return bytes(32)


# other starts, with the schemes under which they are not the right one
OTHER_STARTS = [
    (zeros, (1, 2, 3)),
    (lambda scheme, n, f: hashed(2, scheme, n % 256), (1, 2, 3)),
    (lambda scheme, n, f: hashed(2, scheme, db.lg(n) + 1), (1, 2, 3)),
    (lambda scheme, n, f: hashed(2, scheme, 0), (1, 2, 3)),
    (lambda scheme, n, f: hashed(2, scheme, 8), (1, 2, 3)),
    (lambda scheme, n, f: hashed(2, 1, db.lg(n)), (2, 3)),
    (lambda scheme, n, f: hashed(2, 2, db.lg(n)), (1, 3)),
    (lambda scheme, n, f: hashed(2, 3, db.lg(n)), (1, 2)),
    (lambda scheme, n, f: hashed(2, scheme - 1, db.lg(n)), (1, 2, 3)),
    (lambda scheme, n, f: hashed(2, db.lg(n), scheme), (1, 2, 3)),
    (lambda scheme, n, f: hashed(1, scheme, db.lg(n)), (1, 2, 3)),
    (lambda scheme, n, f: hashed(0, scheme, db.lg(n)), (1, 2, 3)),
    (lambda scheme, n, f: hashed(scheme, db.lg(n)), (1, 2, 3)),
    (lambda scheme, n, f: hashed(2, scheme), (1, 2, 3)),
    (lambda scheme, n, f: hashed(2, scheme, db.lg(n), f), (1, 2, 3)),
    (lambda scheme, n, f: hashed(2, scheme, db.lg(n * f)), (1, 2)),
    (lambda scheme, n, f: hashed(2, scheme, f), (1, 2, 3)),
    (lambda scheme, n, f: hashed(2, scheme, 0, 0, 0, db.lg(n)), (1, 2, 3)),
    (lambda scheme, n, f: hashed(*b"\2%d%d" % (scheme, db.lg(n))), (1, 2, 3)),
    (lambda scheme, n, f: bytes([2, scheme, db.lg(n)]).ljust(32, b"\0"),
     (1, 2, 3)),
    (lambda scheme, n, f: hashed(*db.start(scheme, n)), (1, 2, 3)),
    (lambda scheme, n, f: rec.swap(db.start(scheme, n)), (1, 2, 3))]


def book_from(scheme, n, digests, black, slots, again):
    """The values of a book whose chains start, and start again, with these.
    """
    running, out = [slots] * 17, []
    for g, h in enumerate(digests, 1):
        black = db.link(black, h)
        for k in rec.linked(scheme, n, g):
            running[k] = db.link(running[k], h)
        ended, with_black = rec.stored(scheme, n, g)
        for k in ended:
            out.append(running[k])
            running[k] = again
        out += [black] * with_black
    return out


def other_open(black=right_start, slots=right_start, kept=right_start,
               unused=None):
    """An open in whose record these are another."""
    def fault(good, scheme, n, f, address):
        answer = good(scheme, n, f, address)
        if answer == 0:
            used = {1: 0, 2: 1 + db.lg(n), 3: 17}[scheme]
            running = [slots if k < used else unused or slots
                       for k in range(17)]
            stand_in.put(address, rec.pack(
                (scheme, n, f, 0, 0, 0), rec.FIRST,
                [x(scheme, n, f) for x in (black, *running)], b"\0",
                kept(scheme, n, f)))
        return answer
    return fault


def worked_out(data):
    """The right start for a record, whatever it holds."""
    return db.start(*rec.fields(data)[:2])


def no_start(data):
    return bytes(32)


def of_scheme_1(data):
    return db.start(1, rec.fields(data)[1])


def other_byte_order(data):
    """The words of the record's start read in the other byte order."""
    return data[rec.START:rec.SEASON]


def if_zeros(data):
    """The record's start, worked out where it is zeros."""
    held = rec.start_of(data)
    return held if any(held) else worked_out(data)


def other_close(again=rec.start_of, kept=rec.start_of,
                restarts=lambda scheme, n, slots: slots, black_too=False):
    """A close that starts these slots again with another start."""
    def fault(good, address, *rest):
        before = stand_in.get(address, rec.SIZE)
        answer = good(address, *rest)
        if answer == 0:
            after = stand_in.get(address, rec.SIZE)
            scheme, n, f, g, _, season = rec.fields(after)
            black, *chains = rec.running_of(after)
            slots, with_black = rec.stored(scheme, n, g)
            for k in restarts(scheme, n, slots):
                chains[k] = again(before)
            if black_too and with_black:
                black = again(before)
            stand_in.put(address, rec.pack(
                (scheme, n, f, g, 0, season), rec.FIRST, [black] + chains,
                b"\0", kept(before)))
        return answer
    return fault


def other_kept(start):
    """An add or close that leaves another start, if it is not refused."""
    def fault(good, address, *rest):
        before = stand_in.get(address, rec.SIZE)
        answer = good(address, *rest)
        if answer == 0:
            stand_in.put(address + rec.START, rec.swap(start(before)))
        return answer
    return fault


def start_if_refused(good, address, *rest):
    """An add or close that clears the start if it is refused."""
    answer = good(address, *rest)
    if answer:
        stand_in.put(address + rec.START, bytes(32))
    return answer


def start_of_refused_open(good, scheme, n, f, address):
    """The record of zeros has a start where only F is not allowed."""
    answer = good(scheme, n, f, address)
    if answer == 3:
        stand_in.put(address + rec.START, rec.swap(db.start(scheme, n)))
    return answer


def no_start_written(good, scheme, n, f, address):
    """An open that leaves the bytes of the start as they were."""
    before = stand_in.get(address + rec.START, 32)
    answer = good(scheme, n, f, address)
    stand_in.put(address + rec.START, before)
    return answer


def right_start_only(good, address, *rest):
    """6 where the record's start is not that of its scheme and N."""
    data = stand_in.get(address, rec.SIZE)
    if rec.refusal_of(data) != 6 and rec.start_of(data) != worked_out(data):
        return 6
    return good(address, *rest)


def more_blocks(counts):
    """A block more where counts has it so; the last argument has them."""
    def fault(good, address, *rest):
        before = stand_in.get(address, rec.SIZE)
        answer = good(address, *rest)
        if answer == 0 and counts(*rec.fields(before)[3:5]):
            blocks, = stand_in.get_words(rest[-1], 1)
            stand_in.put_words(rest[-1], [blocks + 1])
        return answer
    return fault


def longer_forecast(more):
    def fault(good, scheme, n, f, d, lengths, count, sizes):
        answer = good(scheme, n, f, d, lengths, count, sizes)
        if answer == 0:
            found = (ctypes.c_uint64 * 3).from_address(sizes)
            found[2] += more(d)
        return answer
    return fault


def other_seal(**starts):
    """A seal whose chains start with these."""
    def fault(good, scheme, n, f, d, ledger, length, ends, count, book, room):
        answer = good(scheme, n, f, d, ledger, length, ends, count, book, room)
        if answer == 0:
            digests = wanted.day_digests(d, stand_in.get(ledger, length),
                                         stand_in.get_words(ends, count))
            stand_in.put(book, b"".join(book_from(
                scheme, n, digests, **started(starts, scheme, n, f))))
        return answer
    return fault


def other_check(older=False, **starts):
    """A check whose chains start with these; with older, or with zeros."""
    def fault(good, scheme, n, f, d, ledger, length, ends, count, book,
              book_length, work, work_length, outcomes, places):
        answer = good(scheme, n, f, d, ledger, length, ends, count, book,
                      book_length, work, work_length, outcomes, places)
        if answer == 0:
            digests = wanted.day_digests(d, stand_in.get(ledger, length),
                                         stand_in.get_words(ends, count))
            values = book_from(scheme, n, digests,
                               **started(starts, scheme, n, f))
            given = stand_in.get(book, 32 * len(values))
            table = [given[32 * k:32 * k + 32] == v
                     for k, v in enumerate(values)]
            if older:
                values = db._seal_digests(scheme, n, digests, bytes(32))
                table = [due or given[32 * k:32 * k + 32] == v
                         for k, (due, v) in enumerate(zip(table, values))]
            stand_in.put(outcomes, bytes(table))
        return answer
    return fault


def started(starts, scheme, n, f):
    """The three starts of book_from, the right one if not given."""
    return {key: starts.get(key, right_start)(scheme, n, f)
            for key in ("black", "slots", "again")}


def start_faults():
    """Faults in the start that the cases must find under each scheme."""
    first = len(compare.ONCE)

    def found(name, fault, schemes=(1, 2, 3), label=""):
        for scheme in schemes:
            expect(f"fault {label} in {name} is found under {scheme}",
                   differs(faulty(name, fault), scheme, first, first + 600),
                   True)

    # these are no faults: the same calls by other means
    for name, same in [("open", other_open()), ("close", other_close()),
                       ("add", other_kept(rec.start_of)),
                       ("seal", other_seal()), ("check", other_check())]:
        for scheme in (1, 2, 3):
            expect(f"{name} by other means is equal",
                   differs(faulty(name, same), scheme, first, first + 60),
                   False)

    for number, (start, schemes) in enumerate(OTHER_STARTS):
        whole = dict(black=start, slots=start)
        found("open", other_open(**whole, kept=start), schemes, number)
        found("open", other_open(kept=start), schemes, f"{number} kept")
        found("seal", other_seal(**whole, again=start), schemes, number)
        found("check", other_check(**whole, again=start), schemes, number)
    chains = 2, 3
    for start in (zeros, OTHER_STARTS[-1][0]):
        for make, name in ((other_open, "open"), (other_seal, "seal"),
                           (other_check, "check")):
            found(name, make(black=start), label="black")
            found(name, make(slots=start), chains, "slots")
        for make, name in ((other_seal, "seal"), (other_check, "check")):
            found(name, make(again=start), chains, "again")
        found("open", other_open(unused=start), (1, 2), "unused")
    found("check", other_check(older=True), label="older")

    for again in (no_start, worked_out, of_scheme_1, other_byte_order,
                 if_zeros):
        found("close", other_close(again=again), chains, again.__name__)
    for kept in (no_start, worked_out, of_scheme_1, other_byte_order,
                 if_zeros):
        found("add", other_kept(kept), label=kept.__name__)
        found("close", other_kept(kept), label=kept.__name__)
        found("close", other_close(again=kept, kept=kept),
              label=f"{kept.__name__} throughout")
    for label, fault, schemes in [
            ("black starts again", other_close(black_too=True), (1, 2, 3)),
            ("all slots start again", other_close(
                restarts=lambda scheme, n, slots: range(17)), (1, 2, 3)),
            ("all slots at an interval", other_close(
                restarts=lambda scheme, n, slots: slots and range(17)),
             chains),
            ("unused slots", other_close(
                restarts=lambda scheme, n, slots:
                range({1: 0, 2: 1 + db.lg(n), 3: 17}[scheme], 17)), (1, 2))]:
        found("close", fault, schemes, label)
    for name in ("add", "close", "record_values"):
        found(name, right_start_only, label="the right start only")
    for name in ("add", "close"):
        found(name, start_if_refused, label="start if refused")
    found("open", start_of_refused_open, label="start of refused")
    found("open", no_start_written, label="no start written")

    for name, fault, label in [
            ("add", more_blocks(lambda days, count: days == 0 == count),
             "a block more once"),
            ("add", more_blocks(lambda days, count: count == 0),
             "a block more a day"),
            ("close", more_blocks(lambda days, count: days == 0),
             "a block more once"),
            ("close", more_blocks(lambda days, count: True),
             "a block more a day"),
            ("forecast", longer_forecast(lambda d: 1), "a block more once"),
            ("forecast", longer_forecast(lambda d: d),
             "a block more a day")]:
        found(name, fault, label=label)

    # every_layout by itself
    index = [case.__name__ for case in compare.ONCE].index("every_layout")
    for scheme in (1, 2, 3):
        expect("every layout, stand-in",
               differs(stand_in.calls(), scheme, index, index + 1), False)
        expect("every layout, older books pass",
               differs(faulty("check", other_check(older=True)), scheme,
                       index, index + 1), True)


# -------------------------------------------------- comparison of the seasons

def turns(data):
    """Whether an add or close of the record is made on the next season."""
    return rec.refusal_of(data) == 0 and rec.fields(data)[3] == db.DAYS_LIMIT


def turned(data):
    """The record of the next season."""
    scheme, n, f, _, _, season = rec.fields(data)
    first = rec.start_of(data)
    return rec.pack((scheme, n, f, 0, 0, season + 1), rec.FIRST, [first] * 18,
                    b"\0", first)


def keeps(first, last):
    """A turn that keeps these bytes of the full season's record."""
    return lambda data: turned(data)[:first] + data[first:last] \
        + turned(data)[last:]


def at_season(number):
    """A turn to a season of another number."""
    return lambda data: turned(data)[:rec.SEASON] + struct.pack(
        "<I", number(rec.fields(data)[5]) % 2 ** 32)


def with_start(start, running=True, kept=True):
    """A turn whose chains start, or start again, with another start."""
    def made(data):
        first, held = start(data), rec.start_of(data)
        return rec.pack((*rec.fields(data)[:3], 0, 0,
                         rec.fields(data)[5] + 1), rec.FIRST,
                        [first if running else held] * 18, b"\0",
                        first if kept else held)
    return made


def of_season(data):
    """A start with the season in it."""
    scheme, n, *_, season = rec.fields(data)
    return hashed(2, scheme, db.lg(n), *(season + 1).to_bytes(4, "little"))


def other_turn(made, gives_back=True, when=turns):
    """An add or close that turns the record itself, by made."""
    def fault(good, address, *rest):
        data = stand_in.get(address, rec.SIZE)
        if not when(data):
            return good(address, *rest)
        stand_in.put(address, made(data))
        answer = good(address, *rest)
        if answer and gives_back:
            stand_in.put(address, data)
        return answer
    return fault


def full_last(data):
    """Whether 5 is due."""
    return rec.refusal_of(data) == 5


def after_all(season):
    """Where the last season is full, a turn to this one."""
    return other_turn(at_season(lambda _: season), when=full_last)


def answers(number, when):
    """An add or close that says this number where when has it so."""
    def fault(good, address, *rest):
        data = stand_in.get(address, rec.SIZE)
        return number if when(data, *rest) else good(address, *rest)
    return fault


def early_5(from_season):
    """5 at a full season from this one on."""
    return answers(5, lambda data, *rest: turns(data)
                   and rec.fields(data)[5] >= from_season)


def short_for(day):
    """8 before 5, by the values of a day."""
    def when(data, part, length, values, blocks):
        scheme, n, *_ = rec.fields(data)
        return full_last(data) and length < 32 * len(db.names(scheme, n, day))
    return answers(8, when)


def needs_day(day):
    """8 at the turn by the values of another day than day 1."""
    def when(data, part, length, values, blocks):
        scheme, n, *_ = rec.fields(data)
        return turns(data) and length < 32 * len(db.names(scheme, n, day))
    return answers(8, when)


def five_before_6(data, *rest):
    """Where the last season is full, or a later one, whatever else holds."""
    days, _, season = rec.fields(data)[3:]
    return days == db.DAYS_LIMIT and season >= db.LAST_SEASON


def full_with_bytes(data):
    """Whether 6 is due for open bytes beside 65,536 days alone."""
    *numbers, days, count, season = rec.fields(data)
    return days == db.DAYS_LIMIT and 0 < count <= db.DAY_LIMIT \
        and season <= db.LAST_SEASON \
        and db.settings_refusal(*numbers) == 0


def no_bytes(data):
    return data[:16] + bytes(4) + data[20:]


def any_bytes(seasons=lambda season: True):
    """Open bytes beside 65,536 days are not looked at, in some seasons."""
    return other_turn(no_bytes, when=lambda data: full_with_bytes(data)
                      and seasons(rec.fields(data)[5]))


def bytes_as_5(good, address, *rest):
    """5, and not 6, for open bytes beside 65,536 days of the last season."""
    data = stand_in.get(address, rec.SIZE)
    late = full_with_bytes(data) and rec.fields(data)[5] == db.LAST_SEASON
    return 5 if late else good(address, *rest)


def any_season(allowed):
    """Seasons that are allowed wrongly, taken as season 0."""
    def fault(good, address, *rest):
        data = stand_in.get(address, rec.SIZE)
        season = rec.fields(data)[5]
        if season <= db.LAST_SEASON or not allowed(season):
            return good(address, *rest)
        stand_in.put(address + rec.SEASON, bytes(4))
        answer = good(address, *rest)
        stand_in.put(address + rec.SEASON, data[rec.SEASON:])
        return answer
    return fault


def empty_add_stays(good, address, piece, length, blocks):
    """An add of length 0 does not turn."""
    if length or not turns(stand_in.get(address, rec.SIZE)):
        return good(address, piece, length, blocks)
    stand_in.put_words(blocks, [0])
    return 0


def piece_is_lost(good, address, piece, length, blocks):
    """An add that turns takes nothing in."""
    if turns(stand_in.get(address, rec.SIZE)) and length <= db.DAY_LIMIT:
        return good(address, None, 0, blocks)
    return good(address, piece, length, blocks)


def close_only_turns(good, address, part, length, values, blocks):
    """A close at the turn closes no day."""
    data = stand_in.get(address, rec.SIZE)
    scheme, n, *_ = rec.fields(data)
    if not turns(data) or length < 32 * len(db.names(scheme, n, 1)):
        return good(address, part, length, values, blocks)
    stand_in.put(address, turned(data))
    stand_in.put_words(values, [0])
    stand_in.put_words(blocks, [0])
    return 0


def turns_at_once(good, address, *rest):
    """The close of day 65,536 opens the next season."""
    answer = good(address, *rest)
    data = stand_in.get(address, rec.SIZE)
    if answer == 0 and turns(data):
        stand_in.put(address, turned(data))
    return answer


def other_season(number, at=0, refused=False):
    """An accepted or refused call that leaves another season.

    The record is the argument numbered at; number takes the season's bytes
    before and after.
    """
    def fault(good, *arguments):
        place = arguments[at] + rec.SEASON
        before = stand_in.get(place, 4)
        answer = good(*arguments)
        if (answer != 0) == refused:
            stand_in.put(place, number(before, stand_in.get(place, 4)))
        return answer
    return fault


def values_of_next(good, address, values):
    """A full record's values are those of the season to come: none."""
    answer = good(address, values)
    if answer == 0 and turns(stand_in.get(address, rec.SIZE)):
        stand_in.put_words(values, [0])
    return answer


def values_of_all(good, address, values):
    """The values of all seasons so far."""
    answer = good(address, values)
    scheme, n, *_, season = rec.fields(stand_in.get(address, rec.SIZE))
    if answer == 0 and season:
        count, = stand_in.get_words(values, 1)
        stand_in.put_words(values, [(count + season * db.values_closed(
            scheme, n, db.DAYS_LIMIT)) % 2 ** 32])
    return answer


BLACK, SLOTS = (rec.CHAINS, rec.CHAINS + 32), (rec.CHAINS + 32, rec.BLOCK)
WORDS, BLOCK = (rec.WORDS, rec.CHAINS), (rec.BLOCK, rec.START)
LAST = db.LAST_SEASON

# What goes wrong, the call, the fault, and what must find it besides
# every_turn: "all" the random cases, "run" the run of two seasons and a day.
# "tree" is a fault under scheme 3 only.
SEASON_FAULTS = [
    ("a refused close turns", "close", other_turn(turned, False), "all run"),
    ("a refused add turns", "add", other_turn(turned, False), "run"),
    ("an empty add does not turn", "add", empty_add_stays, "all run"),
    ("an add that turns loses its piece", "add", piece_is_lost, "all"),
    ("a close that turns closes no day", "close", close_only_turns,
     "all run"),
    ("a close turns at once", "close", turns_at_once, "all run"),
    *((f"a turn keeps {text}", name, other_turn(keeps(*place)), found)
      for name in ("add", "close") for text, place, found in (
          ("black", BLACK, "all run"), ("the slots", SLOTS, "all"),
          ("slot 0", (SLOTS[0], SLOTS[0] + 32), "all"),
          ("slot 16", (SLOTS[1] - 32, SLOTS[1]), "all"),
          ("the open day's hash", WORDS, "all"),
          ("the block", BLOCK, "all"),
          ("the chains", (BLACK[0], SLOTS[1]), "all run"),
          ("the season", (rec.SEASON, rec.SIZE), "all run"))),
    *((f"a turn {text}", name, other_turn(at_season(number)), "all run")
      for name in ("add", "close") for text, number in (
          ("raises the season by 2", lambda season: season + 2),
          ("lowers the season", lambda season: season - 1),
          ("goes to season 0", lambda season: 0))),
    *((f"a turn {text}", name, other_turn(at_season(number)), "all")
      for name in ("add", "close") for text, number in (
          ("goes to season 1", lambda season: 1),
          ("keeps the season's low byte", lambda season: (season + 1) % 256),
          ("goes to the last season", lambda season: LAST))),
    *((f"a turn with a start {text}", name,
       other_turn(with_start(start, **where)), found)
      for name in ("add", "close") for text, start, found in (
          ("worked out again", worked_out, "all"),
          ("of zeros", no_start, "all run"),
          ("in another byte order", other_byte_order, "all run"),
          ("with the season in it", of_season, "all run"))
      for where in ({}, dict(running=False), dict(kept=False))),
    *((f"5 from season {season}", name, early_5(season), found)
      for name in ("add", "close") for season, found in (
          (0, "all run"), (1, "all run"), (LAST - 2, "all"),
          (LAST - 1, "all"))),
    ("4 before 5", "add",
     answers(4, lambda data, piece, length, blocks:
             full_last(data) and length > db.DAY_LIMIT), "run"),
    ("8 before 5", "close", short_for(1), "none"),
    ("8 before 5, if empty", "close",
     answers(8, lambda data, part, length, *rest:
             full_last(data) and length == 0), "all run"),
    *((f"after the last, season {season}", name, after_all(season),
       "all run")
      for name in ("add", "close") for season in (0, LAST, LAST + 1)),
    *(("5 before 6", name, answers(5, five_before_6), "all")
      for name in ("add", "close")),
    ("8 by day 65,537", "close", needs_day(65_537), "tree"),
    ("8 by day 65,536", "close", needs_day(65_536), "all"),
    *(("open bytes beside 65,536 days", name, any_bytes(), "all")
      for name in ("add", "close", "record_values")),
    *(("open bytes in the last season", name,
       any_bytes(lambda season: season == LAST), "all")
      for name in ("record_values",)),
    *(("open bytes as 5", name, bytes_as_5, "none")
      for name in ("add", "close")),
    *((f"season {text}", name, any_season(allowed), found)
      for name in ("add", "close", "record_values") for text, allowed, found
      in (("65,536", lambda season: season == LAST + 1, "all"),
          ("over 65,535", lambda season: True, "all"),
          ("2^32 - 1", lambda season: season == 2 ** 32 - 1, "none"),
          ("by its low 16 bits", lambda season: season % 2 ** 16 != LAST,
           "all"))),
    ("a block for the turn", "add", more_blocks(
        lambda days, count: days == db.DAYS_LIMIT), "all run"),
    ("a block for the turn", "close", more_blocks(
        lambda days, count: days == db.DAYS_LIMIT), "all run"),
    *((f"{name} {text}", name, other_season(number), found)
      for name in ("add", "close") for text, number, found in (
          ("clears the season", lambda a, b: bytes(4), "all run"),
          ("keeps the low byte", lambda a, b: b[:1] + bytes(3), "all"),
          ("turns its bytes", lambda a, b: b[::-1], "all run"))),
    *((f"{name} clears the season if refused", name, other_season(
        lambda a, b: bytes(4), refused=True), "all run")
      for name in ("add", "close")),
    ("each close raises the season", "close", other_season(
        lambda a, b: bytes([(b[0] + 1) % 256]) + b[1:]), "all run"),
    ("open gives season 1", "open", other_season(
        lambda a, b: bytes([1, 0, 0, 0]), 3), "all run"),
    ("open leaves the season's bytes", "open", other_season(
        lambda a, b: a, 3), "all run"),
    ("a refused open leaves the season's bytes", "open", other_season(
        lambda a, b: a, 3, True), "all"),
    ("values of the next season", "record_values", values_of_next,
     "all run"),
    ("values of all seasons", "record_values", values_of_all, "all run")]


def run_differs(calls, scheme, n, f):
    """Whether a run of two seasons and a day finds the calls different."""
    case = Case(calls, Arena(), scheme, random.Random(15), Counter())
    try:
        kinds.run_seasons(case, n, f)
    except Different:
        return True
    return False


def record_cases(scheme, count):
    """Those of the first random cases that are about records."""
    first = len(compare.ONCE)
    about = {"history", "made_up_calls", "empty_arrays", "values_of_record"}
    return [index for index in range(first, first + count)
            if random.Random(f"7/{scheme}/{index}").choice(
                compare.CHOICES).__name__ in about]


def season_faults():
    """Faults in the seasons that the cases must find under each scheme."""
    once = [case.__name__ for case in compare.ONCE]
    grid = [once.index("every_turn")]
    chosen = {scheme: record_cases(scheme, 3000) for scheme in (1, 2, 3)}

    # these are no faults: the same calls by other means
    for scheme in (1, 2, 3):
        for name in ("every_turn", "high_bytes", "record_grid"):
            expect(f"{name}, stand-in",
                   differs_in(stand_in.calls(), scheme, [once.index(name)]),
                   False)
        for name in ("add", "close"):
            calls = faulty(name, other_turn(turned))
            expect(f"{name} by other means is equal",
                   differs_in(calls, scheme, grid + chosen[scheme][:200]),
                   False)

    with shorter(day=5000):
        for text, name, fault, found in SEASON_FAULTS:
            calls = faulty(name, fault)
            for scheme in (3,) if found == "tree" else (1, 2, 3):
                label = f"{text}: found in {name} under {scheme}"
                if name != "open":
                    expect(f"{label}, every_turn",
                           differs_in(calls, scheme, grid), True)
                if "all" in found:
                    expect(f"{label}, random cases",
                           differs_in(calls, scheme, chosen[scheme]), True)


def short_runs():
    """The run of two seasons and a day, with seasons of fewer days.

    And a long day after a turn, with days of fewer bytes.
    """
    index = [case.__name__ for case in compare.ONCE].index("big_day")
    with shorter(day=5000):
        for scheme in (1, 2, 3):
            expect("a long day", differs_in(stand_in.calls(), scheme,
                                            [index]), False)
            for part in (BLACK, WORDS, BLOCK):
                expect("a long day after a turn that keeps something",
                       differs_in(faulty("add", other_turn(keeps(*part))),
                                  scheme, [index]), True)
    for days, settings in [
            (40, ((1, 1, 3), (2, 1, 3), (2, 4, 3), (3, 2, 1))),
            (64, ((1, 2, 5), (2, 8, 3), (3, 1, 1), (3, 8, 1))),
            (100, ((1, 8, 3), (2, 16, 3), (3, 4, 1)))]:
        with shorter(days, day=5000):
            for scheme, n, f in settings:
                expect(f"run of {days}",
                       run_differs(stand_in.calls(), scheme, n, f), False)
    with shorter(24, day=5000):
        for text, name, fault, found in SEASON_FAULTS:
            for scheme, n, f in ((1, 1, 5), (2, 1, 5), (3, 2, 1)):
                if "run" in found:
                    expect(f"{text}: found in {name} under {scheme}, run",
                           run_differs(faulty(name, fault), scheme, n, f),
                           True)


# -------------------------------------------------------------------- program

def program():
    run = db.readtable
    for scheme in (1, 2, 3):
        ones = b"1" * db.values(scheme, 4, 8)
        expect("clean", run(b"%d,4,1,8\n%s\n" % (scheme, ones)),
               b"REF,%d,0,0,0,0,8\n" % scheme)
    for text in [b"", b"\n", b"\n\n", b"2,4,1,8", b"2,4,1,8\n",
                 b"2,4,1,8\n11110010", b"2,4,1,8\n11110010\n\n",
                 b"2,4,1,8\n11110010\nx", b"2,4,1,8\r\n11110010\r\n",
                 b"2,4,1,8\n1111 0010\n", b"2,4,1,8\n1111001x\n",
                 b"2,4,1\n11110010\n", b"2,4,1,8,\n11110010\n",
                 b"2,4,1,8,4,\n11110010\n", b"2,4,1,8,4,4\n11110010\n",
                 b"2,4,1,8,,4\n11110010\n", b"2,4,1,8,04\n11110010\n",
                 b"2,4,1,8,00\n11110010\n", b"2,4,1,8,+4\n11110010\n",
                 b"2,4,1,8,100000\n11110010\n",
                 b"2,4,1,8,4 \n11110010\n", b"2,4,,8\n11110010\n",
                 b"02,4,1,8\n11110010\n", b"2,4,1,08\n11110010\n",
                 b"2,4,00,8\n11110010\n", b"2,4,1,+8\n11110010\n",
                 b"2,4,1,-8\n11110010\n", b" 2,4,1,8\n11110010\n",
                 b"2,4,1,8 \n11110010\n", b"2,100000,1,8\n11110010\n",
                 b"2;4;1;8\n11110010\n", b"2,4,1,8\n11110010\n\0",
                 b"\xef\xbb\xbf2,4,1,8\n11110010\n",
                 "\u0662,4,1,8\n1\n".encode(), b"2,4,1,8\n\xb2\n"]:
        expect(f"form {text!r}", run(text), b"NO,15\n")
    for text, want in [(b"0,0,0,257\n\n", 15), (b"0,0,0,256\n\n", 1),
                       (b"99999,99999,99999,256\n9\n", 1),
                       (b"99999,99999,99999,99999\n9\n", 15),
                       (b"4,0,0,0\n\n", 1), (b"1,0,0,0\n\n", 2),
                       (b"1,512,0,0\n\n", 2), (b"1,3,0,0\n\n", 2),
                       (b"1,256,0,0\n\n", 3), (b"1,256,65,0\n\n", 3),
                       (b"3,1,2,0\n\n", 3), (b"1,256,1,0\n\n", 7),
                       (b"1,256,2,256\n\n", 7), (b"1,256,1,256\n\n", 12),
                       (b"1,256,1,256\n22\n", 15),
                       (b"1,256,1,256\n2\n", 13),
                       (b"2,4,1,8\n111100100\n", 15),
                       (b"2,4,1,8\n9999999999\n", 15),
                       (b"2,4,1,8\n9999999\n", 12),
                       (b"2,4,1,8\n11112010\n", 13),
                       (b"2,4,1,8\n00002999\n", 13),
                       (b"2,4,1,4\n1110\n", 14), (b"3,1,1,2\n110\n", 14),
                       (b"2,4,1,8,1\n11110010\n", 19),
                       (b"2,4,1,8,8\n11110010\n", 19),
                       (b"2,4,1,8,12345\n11110010\n", 19),
                       (b"2,4,1,8,99999\n111100100\n", 19),
                       (b"2,4,1,8,8\n\n", 19), (b"2,4,1,8,4\n\n", 12),
                       (b"2,4,1,8,4\n111100100\n", 15),
                       (b"2,4,1,6,8\n\n", 7), (b"2,4,0,8,8\n\n", 3),
                       (b"9,4,1,8,8\n\n", 1), (b"9,4,1,257,8\n\n", 15)]:
        expect(f"order {text!r}", run(text), b"NO,%d\n" % want)
    expect("tile 1 1", run(b"2,1,1,1\n00\n"), b"REF,2,1,1,0,1,0\nDAY,1\n")
    expect("one value", run(b"1,256,1,256\n1\n"), b"REF,1,0,0,0,0,256\n")
    expect("all days", run(b"1,256,1,256\n0\n"), b"REF,1,256,1,0,256,0\n"
           + b"".join(b"DAY,%d\n" % g for g in range(1, 257)))

    for fifth, low in [(b"", 5), (b",0", 5), (b",4", 5)]:
        expect("the figure of the page with P",
               run(b"2,4,1,8%s\n11110010\n" % fifth),
               b"REF,2,2,6,%d,8,4\nDAY,6\nDAY,8\n" % low)
    expect("clean, whatever P", run(b"2,4,1,8,4\n11111111\n"),
           b"REF,2,0,0,0,0,8\n")

    expect("most values at D 256",
           max(db.values(s, n, 256) for s in (1, 2, 3) for n in SIZES), 758)
    expect("longest table", run(b"3,1,1,256\n" + b"1" * 758 + b"\n"),
           b"REF,3,0,0,0,0,256\n")
    # 1,024 bytes are taken for their form, 1,025 are not; with a refused
    # scheme the two are told apart.
    head = b"0,1,1,1\n"
    for total, want in [(1024, 1), (1025, 15)]:
        text = head + b"1" * (total - len(head) - 1) + b"\n"
        expect(f"length {total}", (len(text), run(text)),
               (total, b"NO,%d\n" % want))

    table = table_of(2, 16, 64, [19, 20, 27])
    expect("figure", run(b"2,16,2,64\n" + bytes(48 + t for t in table)
                         + b"\n"),
           b"REF,2,8,19,32,64,16\n"
           + b"".join(b"DAY,%d\n" % g
                      for g in (19, 20, 23, 24, 27, 28, 31, 32)))


def text_faults():
    """The cases of crates/test_table_text find faults in P's field."""
    def head(text):
        return text.split(b"\n")[0].split(b",")

    def four_are_0(text):
        """Four fields mean P 0."""
        line, mark, rest = text.partition(b"\n")
        fifth = b",0" if len(head(text)) == 4 else b""
        return db.readtable(line + fifth + mark + rest)

    def fifth_up_to_256(text):
        """P over 256 is 15, as D is."""
        printed = db.readtable(text)
        long = printed == b"NO,19\n" and int(head(text)[4]) > 256
        return b"NO,15\n" if long else printed

    def extra_before_19(text):
        printed = db.readtable(text)
        if printed != b"NO,19\n":
            return printed
        scheme, n, _, d = map(int, head(text)[:4])
        extra = len(text.split(b"\n")[1]) > db.values(scheme, n, d)
        return b"NO,15\n" if extra else printed

    def before_7(text):
        """19 before 7."""
        printed = db.readtable(text)
        fields = head(text)
        high = len(fields) == 5 and printed == b"NO,7\n" \
            and int(fields[4]) >= int(fields[3])
        return b"NO,19\n" if high else printed

    def fifth_is_not_read(text):
        """Five fields are as four."""
        line, mark, rest = text.partition(b"\n")
        if len(head(text)) == 5 and db.readtable(text)[:3] == b"REF":
            line = b",".join(head(text)[:4])
        return db.readtable(line + mark + rest)

    texts = [text for _, text in table_text_cases.texts()]
    for fault in (four_are_0, fifth_up_to_256, extra_before_19, before_7,
                  fifth_is_not_read):
        expect(f"fault {fault.__name__} is found",
               any(fault(text) != db.readtable(text) for text in texts), True)


# ----------------------------------------------------------- expected outputs

def expected_outputs():
    folder = os.path.join(os.path.dirname(os.path.abspath(__file__)),
                          "expected")
    outputs = {f"thousand-{s}.txt": thousand.lines(s) for s in (1, 2, 3)}
    outputs["short_ledgers.txt"] = short_ledgers.lines()
    outputs["last_day.txt"] = last_day.lines()
    outputs["service_refusals.txt"] = service_refusals.lines()
    for name, lines in outputs.items():
        with open(os.path.join(folder, name), encoding="ascii") as file:
            expect(name, file.read(), "\n".join(lines) + "\n")


def main():
    for test in (examples, sketch_mistakes, hashes, starts, layout_tests,
                 book_tests, call_lists, pieces, service_bounds,
                 made_up_records, fresh_and_restarted, other_layouts,
                 last_days, largest_d, season_examples, turned_records,
                 late_seasons, short_seasons, check_tests, check_refusals,
                 reading_tests,
                 reading_large, reading_refusals, skipped_validations,
                 searches, search_refusals, tiles, tile_refusals,
                 whole_chain, values_calls,
                 record_values_calls, sizing, positions, compression,
                 record_layout, record_histories, record_made_up, comparison,
                 start_faults, season_faults, short_runs, program,
                 text_faults, expected_outputs):
        before = PASSED, FAILED
        test()
        print(f"{test.__name__}: {PASSED - before[0]} passed, "
              f"{FAILED - before[1]} failed", flush=True)
    print(f"{PASSED} passed, {FAILED} failed")
    return 1 if FAILED else 0


if __name__ == "__main__":
    sys.exit(main())
