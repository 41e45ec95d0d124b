//! Every refusal through the safe calls, in the order of the tests, with everything left as it was.

mod common;

use common::{day, ledger};
use daybook::{
    chain_at, check, check_to_vecs, forecast, position_of, read, read_to_vec, seal, seal_to_vec,
    search, search_to_vec, tile_counts, validation_before, values, Chain, Kind, Layout, Refusal,
    Service, RECORD,
};

/// Settings that are not allowed, with their refusal. Where two causes meet, the first test tells.
const SETTINGS: [(u32, u32, u32, Refusal); 16] = [
    (0, 1, 1, Refusal::BadScheme),
    (4, 1, 1, Refusal::BadScheme),
    (u32::MAX, 0, 0, Refusal::BadScheme),
    (1, 0, 1, Refusal::BadN),
    (1, 3, 1, Refusal::BadN),
    (2, 12, 1, Refusal::BadN),
    (2, 512, 1, Refusal::BadN),
    (3, 2_147_483_648, 2, Refusal::BadN),
    (3, u32::MAX, 1, Refusal::BadN),
    (1, 1, 0, Refusal::BadF),
    (1, 1, 65, Refusal::BadF),
    (2, 256, 65, Refusal::BadF),
    (2, 256, u32::MAX, Refusal::BadF),
    (3, 4, 0, Refusal::BadF),
    (3, 4, 2, Refusal::BadF),
    (3, 256, 64, Refusal::BadF),
];

/// Numbers of days that are not allowed with N 4 and F 2.
const DAYS: [u32; 8] = [0, 1, 4, 12, 65_537, 65_544, 4_294_967_288, u32::MAX];

const LAYOUT: Layout = Layout::tile(4, 2);
const D: u32 = 8;
/// The values of D days: 2 intervals of 2 + lg 4.
const VALUES: usize = 8;

/// A chain of no book.
const NOWHERE: Chain = Chain {
    kind: Kind::Tree,
    index: u32::MAX,
    first: u32::MAX,
    last: u32::MAX,
};

/// Eight days of four bytes.
fn plain() -> (Vec<u8>, Vec<u32>) {
    ledger(&(1..=D).map(|g| day(g, 4)).collect::<Vec<_>>())
}

#[test]
fn settings_by_every_call() {
    for (scheme, n, f, refusal) in SETTINGS {
        let layout = Layout { scheme, n, f };
        assert_eq!(Service::open(layout), Err(refusal), "{layout}");
        assert_eq!(values(layout, 0), Err(refusal), "{layout}");
        assert_eq!(seal(layout, 0, &[], &[], &mut []), Err(refusal));
        assert_eq!(seal_to_vec(layout, 0, &[], &[]), Err(refusal));
        let checked = check(layout, 0, &[], &[], &[], &mut [], &mut []);
        assert_eq!(checked, Err(refusal));
        assert_eq!(check_to_vecs(layout, 0, &[], &[], &[]), Err(refusal));
        assert_eq!(read(layout, 0, 0, &[], &mut []), Err(refusal));
        assert_eq!(read_to_vec(layout, 0, 0, &[]), Err(refusal));
        assert_eq!(search(layout, 0, &[], 0, &mut []), Err(refusal));
        assert_eq!(search_to_vec(layout, 0, &[], 0), Err(refusal));
        assert_eq!(validation_before(layout, 0), Err(refusal));
        assert_eq!(forecast(layout, 0, &[]), Err(refusal));
        assert_eq!(chain_at(layout, 0, u32::MAX), Err(refusal));
        assert_eq!(position_of(layout, 0, NOWHERE), Err(refusal));
        if refusal == Refusal::BadN {
            assert_eq!(tile_counts(n, 0), Err(refusal), "{layout}");
        }
    }
}

#[test]
fn settings_that_are_allowed() {
    for scheme in 1..=3 {
        for n in [1, 2, 4, 8, 16, 32, 64, 128, 256] {
            for f in if scheme == 3 { 1..=1 } else { 1..=64 } {
                assert!(Service::open(Layout { scheme, n, f }).is_ok());
            }
        }
    }
}

#[test]
fn numbers_of_days_by_every_call() {
    let refusal = Refusal::BadD;
    for d in DAYS {
        assert_eq!(values(LAYOUT, d), Err(refusal), "{d}");
        assert_eq!(seal(LAYOUT, d, &[], &[], &mut []), Err(refusal));
        assert_eq!(seal_to_vec(LAYOUT, d, &[], &[]), Err(refusal));
        let checked = check(LAYOUT, d, &[], &[], &[], &mut [], &mut []);
        assert_eq!(checked, Err(refusal));
        assert_eq!(check_to_vecs(LAYOUT, d, &[], &[], &[]), Err(refusal));
        for passed in [0, 3, d, u32::MAX] {
            assert_eq!(read(LAYOUT, d, passed, &[], &mut []), Err(refusal));
            assert_eq!(read_to_vec(LAYOUT, d, passed, &[]), Err(refusal));
        }
        assert_eq!(search(LAYOUT, d, &[], 9, &mut []), Err(refusal));
        assert_eq!(search_to_vec(LAYOUT, d, &[], 9), Err(refusal));
        assert_eq!(validation_before(LAYOUT, d), Err(refusal));
        assert_eq!(forecast(LAYOUT, d, &[u32::MAX; 3]), Err(refusal));
        assert_eq!(chain_at(LAYOUT, d, u32::MAX), Err(refusal));
        assert_eq!(position_of(LAYOUT, d, NOWHERE), Err(refusal));
    }
    assert_eq!(values(Layout::tile(4, 3), 65_536), Err(refusal));
    assert_eq!(values(LAYOUT, 65_536), Ok(65_536));
}

/// A record of season 0 with these five numbers.
fn record(scheme: u32, n: u32, f: u32, days: u32, open_bytes: u32) -> [u8; RECORD] {
    let mut record = [170; RECORD];
    record[724..].fill(0);
    for (place, number) in record
        .chunks_exact_mut(4)
        .zip([scheme, n, f, days, open_bytes])
    {
        place.copy_from_slice(&number.to_le_bytes());
    }
    record
}

/// The refusal of an add of one byte and of a close; the record stays.
fn refused_both(record: [u8; RECORD]) -> (Refusal, Refusal) {
    let mut service = Service::from_bytes(record);
    let mut part = [170; 544];
    let refusals = (
        service.add(&[1]).unwrap_err(),
        service.close(&mut part).unwrap_err(),
    );
    assert_eq!(service.close_day(), Err(refusals.1));
    assert_eq!(service.to_bytes(), record);
    assert_eq!(part, [170; 544]);
    refusals
}

#[test]
fn records() {
    let bad = (Refusal::BadRecord, Refusal::BadRecord);
    for (scheme, n, f, _) in SETTINGS {
        assert_eq!(refused_both(record(scheme, n, f, 0, 0)), bad);
    }
    for (days, open_bytes) in [
        (65_537, 0),
        (u32::MAX, 0),
        (0, 16_777_217),
        (65_536, u32::MAX),
        (65_536, 16_777_216),
        (65_536, 1),
    ] {
        assert_eq!(refused_both(record(2, 4, 2, days, open_bytes)), bad);
    }
    assert_eq!(refused_both([0; RECORD]), bad);
    assert_eq!(refused_both([255; RECORD]), bad);
    let full = (Refusal::LastSeasonFull, Refusal::LastSeasonFull);
    let of_season = |season: u32, days, open_bytes| {
        let mut record = record(2, 4, 2, days, open_bytes);
        record[724..].copy_from_slice(&season.to_le_bytes());
        record
    };
    assert_eq!(refused_both(of_season(65_535, 65_536, 0)), full);
    assert_eq!(refused_both(of_season(65_535, 65_536, 1)), bad);
    for season in [65_536, 65_537, 1 << 24, u32::MAX] {
        for days in [0, 7, 65_535, 65_536] {
            assert_eq!(refused_both(of_season(season, days, 0)), bad);
        }
    }
}

#[test]
fn made_up_records_that_are_taken() {
    let mut service = Service::from_bytes(record(3, 256, 1, 65_535, 16_777_215));
    assert_eq!(service.add(&[1, 2]), Err(Refusal::DayTooLong));
    assert_eq!(service.add(&[1]), Ok(0)); // with the byte in front 262,144 blocks and 1 byte
    assert_eq!(service.add(&[]), Ok(0));
    assert_eq!(service.close_day().unwrap().len(), 17 * 32);
    // the season is full, and the next call is made on the next one
    assert_eq!((service.season(), service.days()), (0, 65_536));
    assert_eq!(service.add(&[]), Ok(0));
    assert_eq!((service.season(), service.days()), (1, 0));
}

#[test]
fn a_piece_too_long() {
    let mut service = Service::open(LAYOUT).unwrap();
    service.add(b"rye").unwrap();
    let before = service.clone();
    assert_eq!(service.add(&vec![0; 16_777_214]), Err(Refusal::DayTooLong));
    assert_eq!(service, before);
}

#[test]
fn a_part_too_short() {
    let mut service = Service::open(Layout::tile(4, 1)).unwrap();
    for _ in 1..4 {
        assert_eq!(service.close(&mut []).unwrap().values, 0);
    }
    let before = service.clone();
    for length in [0, 1, 32, 127] {
        let mut part = vec![170; length];
        assert_eq!(service.close(&mut part), Err(Refusal::ShortBuffer));
        assert_eq!(part, vec![170; length]);
    }
    assert_eq!(service, before);
    assert_eq!(service.close(&mut [0; 128]).unwrap().values, 4);
}

/// The refusal of sealing and of checking, with buffers that stay.
fn refused_ledger(ledger: &[u8], ends: &[u32]) -> (Refusal, Refusal) {
    let mut book = [170; 32 * VALUES];
    let (mut work, mut outcomes) = ([170; 32 * D as usize], [170; VALUES]);
    let sealed = seal(LAYOUT, D, ledger, ends, &mut book).unwrap_err();
    assert_eq!(book, [170; 32 * VALUES]);
    let checked = check(LAYOUT, D, ledger, ends, &book, &mut work, &mut outcomes).unwrap_err();
    assert_eq!((work, outcomes), ([170; 32 * D as usize], [170; VALUES]));
    assert_eq!(seal_to_vec(LAYOUT, D, ledger, ends), Err(sealed));
    assert_eq!(check_to_vecs(LAYOUT, D, ledger, ends, &book), Err(checked));
    (sealed, checked)
}

#[test]
fn few_ends() {
    let (ledger, ends) = plain();
    let few = (Refusal::FewEnds, Refusal::FewEnds);
    assert_eq!(refused_ledger(&ledger, &ends[..7]), few);
    assert_eq!(refused_ledger(&ledger, &[]), few);
    assert_eq!(refused_ledger(&[], &[u32::MAX; 7]), few);
}

#[test]
fn bad_ends() {
    let (ledger, ends) = plain();
    let bad = (Refusal::BadEnd, Refusal::BadEnd);
    let with = |index: usize, end| {
        let mut ends = ends.clone();
        ends[index] = end;
        ends
    };
    assert_eq!(refused_ledger(&ledger, &with(0, 9)), bad);
    assert_eq!(refused_ledger(&ledger, &with(4, 15)), bad);
    assert_eq!(refused_ledger(&ledger, &with(7, 33)), bad);
    assert_eq!(refused_ledger(&ledger, &with(7, u32::MAX)), bad);
    assert_eq!(refused_ledger(&ledger[..31], &ends), bad);
    assert_eq!(refused_ledger(&[], &ends), bad);

    // the ledger's length is allowed as an end, and a day may be empty
    assert!(seal_to_vec(LAYOUT, D, &ledger, &with(4, 16)).is_ok());
    assert!(seal_to_vec(LAYOUT, D, &[], &[0; 8]).is_ok());
}

#[test]
fn a_day_too_long_in_a_ledger() {
    let layout = Layout::black(1, 1);
    let ledger = vec![0; 16_777_217];
    let sealed = |ends: &[u32]| seal_to_vec(layout, 1, &ledger, ends).map(|book| book.len());
    assert_eq!(sealed(&[16_777_216]), Ok(32));
    assert_eq!(sealed(&[16_777_217]), Err(Refusal::BadEnd));
    let checked = check_to_vecs(layout, 1, &ledger, &[16_777_217], &[0; 32]);
    assert_eq!(checked, Err(Refusal::BadEnd));
}

#[test]
fn short_books_and_buffers() {
    let (ledger, ends) = plain();
    let mut book = vec![170; 32 * VALUES - 1];
    assert_eq!(
        seal(LAYOUT, D, &ledger, &ends, &mut book),
        Err(Refusal::ShortBuffer)
    );
    assert_eq!(book, vec![170; 32 * VALUES - 1]);

    let book = seal_to_vec(LAYOUT, D, &ledger, &ends).unwrap();
    let with = |book: &[u8], work: usize, outcomes: usize| {
        let (mut work, mut outcomes) = (vec![170; work], vec![170; outcomes]);
        let answer = check(LAYOUT, D, &ledger, &ends, book, &mut work, &mut outcomes);
        if answer.is_err() {
            assert!(work.iter().chain(&outcomes).all(|byte| *byte == 170));
        }
        answer
    };
    let short = Err(Refusal::ShortBuffer);
    assert_eq!(with(&book, 256, 8), Ok(()));
    assert_eq!(with(&book, 255, 8), short);
    assert_eq!(with(&book, 256, 7), short);
    assert_eq!(with(&book, 0, 0), short);
    assert_eq!(with(&book[..255], 0, 0), Err(Refusal::ShortBook));
    assert_eq!(with(&[], 256, 8), Err(Refusal::ShortBook));
    let checked = check_to_vecs(LAYOUT, D, &ledger, &ends, &book[1..]);
    assert_eq!(checked, Err(Refusal::ShortBook));
}

#[test]
fn check_reads_and_writes_no_more_than_its_need() {
    let (mut ledger, mut ends) = plain();
    let mut book = seal_to_vec(LAYOUT, D, &ledger, &ends).unwrap();
    ledger.extend([1; 3]);
    ends.push(0);
    book.extend([9; 40]);
    let (mut work, mut outcomes) = ([170; 260], [170; 11]);
    check(LAYOUT, D, &ledger, &ends, &book, &mut work, &mut outcomes).unwrap();
    assert_eq!(outcomes, [1, 1, 1, 1, 1, 1, 1, 1, 170, 170, 170]);
    assert_eq!(work[256..], [170; 4]);
    for (digest, g) in work.chunks_exact(32).zip(1..) {
        assert_eq!(digest, common::digest(&day(g, 4)));
    }
}

#[test]
fn lists_and_outcomes() {
    let refused = |outcomes: &[u8], places: usize| {
        let mut list = vec![77; places];
        let refusal = read(LAYOUT, D, 4, outcomes, &mut list).unwrap_err();
        assert_eq!(list, vec![77; places]);
        refusal
    };
    let clean = [1; VALUES];
    // 8 before 12, 13 and 14, and whatever would be listed
    assert_eq!(refused(&clean, 7), Refusal::ShortBuffer);
    assert_eq!(refused(&[], 0), Refusal::ShortBuffer);
    assert_eq!(refused(&clean[..7], 8), Refusal::FewOutcomes);
    assert_eq!(refused(&[2; 7], 8), Refusal::FewOutcomes);
    assert_eq!(refused(&[], 8), Refusal::FewOutcomes);
    assert_eq!(refused(&[1, 1, 1, 1, 1, 1, 1, 2], 8), Refusal::BadOutcome);
    assert_eq!(refused(&[1, 1, 1, 0, 1, 1, 1, 255], 8), Refusal::BadOutcome);
    assert_eq!(
        refused(&[1, 1, 1, 0, 1, 1, 1, 0], 8),
        Refusal::ImpossibleTable
    );
    let few = read_to_vec(LAYOUT, D, 0, &[1; 7]);
    assert_eq!(few, Err(Refusal::FewOutcomes));
    let bad = read_to_vec(LAYOUT, D, 0, &[3; 8]);
    assert_eq!(bad, Err(Refusal::BadOutcome));
    let outcomes = [0, 1, 1, 1, 1, 1, 1, 1];
    assert_eq!(
        read_to_vec(LAYOUT, D, 0, &outcomes),
        Err(Refusal::ImpossibleTable)
    );
}

#[test]
fn days_of_the_last_passed_check() {
    let read_with = |passed, outcomes: &[u8], places: usize| {
        let mut list = vec![77; places];
        let answer = read(LAYOUT, D, passed, outcomes, &mut list);
        assert_eq!(list, vec![77; places]);
        answer.map(|reading| reading.numbers())
    };
    let bad = Err(Refusal::BadPassed);
    // below D and a multiple of N; 4 is none of F·N
    for passed in [0, 4] {
        assert_eq!(read_with(passed, &[1; 8], 8), Ok([0, 0, 0, 0, 8]));
    }
    for passed in [1, 2, 3, 5, 7, 8, 9, 12, 65_536, 1 << 31, u32::MAX] {
        assert_eq!(read_with(passed, &[1; 8], 8), bad, "{passed}");
        // before 8, 12, 13 and 14
        assert_eq!(read_with(passed, &[1; 8], 7), bad, "{passed}");
        assert_eq!(read_with(passed, &[], 0), bad, "{passed}");
        assert_eq!(read_with(passed, &[2; 8], 8), bad, "{passed}");
        assert_eq!(read_with(passed, &[0, 1, 1, 1, 1, 1, 1, 1], 8), bad);
        let refused = read_to_vec(LAYOUT, D, passed, &[]);
        assert_eq!(refused, Err(Refusal::BadPassed));
    }
}

#[test]
fn read_reads_and_writes_no_more_than_its_need() {
    // day 8 alone: offset 3 of the second tile
    let outcomes = [1, 1, 1, 1, 0, 1, 1, 0, 9, 9];
    let mut list = [77; 10];
    let reading = read(LAYOUT, D, 0, &outcomes, &mut list).unwrap();
    assert_eq!(reading.numbers(), [1, 8, 7, 8, 4]);
    assert_eq!(list, [8, 77, 77, 77, 77, 77, 77, 77, 77, 77]);
    let mut list = [77; 8];
    let reading = read(LAYOUT, D, 4, &[1; 8], &mut list).unwrap();
    assert_eq!(reading.numbers(), [0, 0, 0, 0, 8]);
    assert_eq!(list, [77; 8]);
}
