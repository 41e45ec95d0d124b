//! The chain start: what it is, that a record keeps it, and that a book under another layout fails
//! throughout.

mod common;
#[path = "common/random.rs"]
mod random;
#[path = "common/record.rs"]
mod record;

use std::collections::HashMap;

use common::{book_before, day, hex, ledger, start};
use daybook::{check_to_vecs, forecast, seal_to_vec, Layout, Refusal, Service};
use daybook::{DAY_LIMIT, PART, RECORD, VALUE};
use random::Random;
use record::{turned, Record, SEASON_AT, START_AT};

const D: u32 = 256;

/// Every scheme with every N, F 1.
fn layouts() -> Vec<Layout> {
    let sizes = (0..=8).map(|lg| 1 << lg);
    let schemes = |n| [Layout::black(n, 1), Layout::tile(n, 1), Layout::tree(n)];
    sizes.flat_map(schemes).collect()
}

/// The layout with each F that it may have, or some of them.
fn with_each_f(layout: Layout) -> impl Iterator<Item = Layout> {
    let most = if layout.scheme == Layout::TREE { 1 } else { 64 };
    let some = [1, 2, 3, 16, 63, 64]
        .into_iter()
        .filter(move |f| *f <= most);
    some.map(move |f| Layout { f, ..layout })
}

/// Days of few bytes, each of its own.
fn short_days() -> Vec<Vec<u8>> {
    (1..=D).map(|g| day(g, g % 5 + 1)).collect()
}

#[test]
fn starts_by_hand() {
    // SHA-256 of 02 01 00, 02 02 04, 02 03 08
    for (layout, text) in [
        (
            Layout::black(1, 1),
            "27c481628200c5ed2467af54a9a4128daede2cd8afe1acc2670a104645381067",
        ),
        (
            Layout::tile(16, 2),
            "00fd3da80f6dfbbe8c475c801b41641bbea03dcb213ffb795c25554d4345e4e0",
        ),
        (
            Layout::tree(256),
            "6399e04230b2e30aacca944a37706de862c1431f20e8721f35827267e0968f8b",
        ),
    ] {
        assert_eq!(hex(&start(layout)), text);
        let kept = Service::open(layout).unwrap().to_bytes();
        assert_eq!(kept[START_AT..SEASON_AT], turned(start(layout)), "{layout}");
    }
}

/// Every byte of a fresh record: black and all seventeen slots hold the start, and so does its own
/// place.
#[test]
fn fresh_records() {
    let mut starts = HashMap::new();
    for layout in layouts() {
        for layout in with_each_f(layout) {
            let kept = Service::open(layout).unwrap().to_bytes();
            assert_eq!(kept, Record::open(layout).to_bytes(), "{layout}");
            let start: [u8; 32] = kept[START_AT..SEASON_AT].try_into().unwrap();
            for at in (52..628).step_by(32) {
                assert_eq!(kept[at..at + 32], start, "{layout}, offset {at}");
            }
            // one for each scheme and N, whatever F
            let named = (layout.scheme, layout.n);
            assert_eq!(*starts.entry(start).or_insert(named), named);
        }
    }
    assert_eq!(starts.len(), 27);
}

/// A record that no list of calls may have made, of these days closed.
fn made_up(random: &mut Random, layout: Layout, days: u32) -> Record {
    Record {
        layout,
        days,
        bytes: random.below(200) as u32,
        open: random.bytes(),
        black: random.bytes(),
        slots: std::array::from_fn(|_| random.bytes()),
        block: random.bytes(),
        start: random.bytes(),
        season: random.below(65_536) as u32,
    }
}

/// Any start is taken: add keeps it, close keeps it and starts again with it whatever it has
/// stored.
#[test]
fn made_up_records() {
    let mut random = Random(0x2545_f491_4f6c_dd1d);
    for layout in layouts().into_iter().flat_map(with_each_f) {
        let last = [0, 1, 2, 3, 7, 15, 127, 255, 256, 511, 65_534, 65_535];
        for days in last {
            let mut plain = made_up(&mut random, layout, days);
            let mut service = Service::from_bytes(plain.to_bytes());
            let piece: [u8; 150] = random.bytes();
            let piece = &piece[..random.below(151) as usize];
            let text = format!("{layout}, days {days}, piece of {}", piece.len());

            assert_eq!(service.add(piece), Ok(plain.add(piece)), "{text}");
            assert_eq!(service.to_bytes(), plain.to_bytes(), "{text}");

            let mut part = [170; PART + 1];
            let closed = service.close(&mut part).unwrap();
            let (start, expected) = (plain.start, plain.close());
            let values = expected.values.concat();
            assert_eq!(closed.blocks, expected.blocks, "{text}");
            assert_eq!(closed.values as usize, expected.values.len(), "{text}");
            assert_eq!(part[..values.len()], values, "{text}");
            assert!(part[values.len()..].iter().all(|byte| *byte == 170));
            assert_eq!(service.to_bytes(), plain.to_bytes(), "{text}");
            let kept = service.to_bytes();
            assert_eq!(kept[START_AT..SEASON_AT], turned(start), "{text}");
        }
    }
}

/// A refused call leaves the start too.
#[test]
fn refused_calls() {
    let mut random = Random(0x9e37_79b9_7f4a_7c15);
    let long = vec![0; DAY_LIMIT as usize + 1];
    for layout in [Layout::black(1, 1), Layout::tile(2, 3), Layout::tree(4)] {
        let mut none = made_up(&mut random, layout, 3);
        none.layout.n = 3;
        let mut full = made_up(&mut random, layout, 65_536);
        (full.season, full.bytes) = (65_535, 0);
        for (refusal, plain) in [(Refusal::LastSeasonFull, full), (Refusal::BadRecord, none)] {
            let mut service = Service::from_bytes(plain.to_bytes());
            assert_eq!(service.add(&[1]), Err(refusal));
            assert_eq!(service.close(&mut [0; PART]), Err(refusal));
            assert_eq!(service.to_bytes(), plain.to_bytes());
        }
        let plain = made_up(&mut random, layout, 3);
        let mut service = Service::from_bytes(plain.to_bytes());
        assert_eq!(service.add(&long), Err(Refusal::DayTooLong));
        assert_eq!(service.close(&mut [0; 31]), Err(Refusal::ShortBuffer));
        assert_eq!(service.to_bytes(), plain.to_bytes());
    }
}

/// The book of the days, and the blocks of all calls, by the plain record.
fn plain_book(layout: Layout, days: &[Vec<u8>]) -> (Vec<u8>, u64) {
    let mut plain = Record::open(layout);
    let (mut book, mut blocks) = (Vec::new(), 0);
    for day in days {
        blocks += plain.add(day);
        let closed = plain.close();
        blocks += closed.blocks;
        book.extend(closed.values.concat());
    }
    (book, u64::from(blocks))
}

/// Under every layout the service, the seal and the check go by the same start, whose block belongs
/// to no call and to no forecast.
#[test]
fn books_of_every_layout() {
    let days = short_days();
    let lengths: Vec<u32> = days.iter().map(|day| day.len() as u32).collect();
    let (bytes, ends) = ledger(&days);
    for layout in layouts() {
        let (expected, blocks) = plain_book(layout, &days);
        let mut service = Service::open(layout).unwrap();
        let (mut book, mut counted) = (Vec::new(), 0);
        for day in &days {
            let mut part = [0; PART];
            counted += service.add(day).unwrap();
            let closed = service.close(&mut part).unwrap();
            counted += closed.blocks;
            book.extend(&part[..VALUE * closed.values as usize]);
        }
        assert_eq!(book, expected, "{layout}");
        assert_eq!(u64::from(counted), blocks, "{layout}");
        assert_eq!(forecast(layout, D, &lengths).unwrap().blocks, blocks);
        assert_eq!(seal_to_vec(layout, D, &bytes, &ends), Ok(expected));
        let checked = check_to_vecs(layout, D, &bytes, &ends, &book).unwrap();
        assert_eq!(checked.outcomes, vec![1; book.len() / VALUE], "{layout}");
    }
}

/// F has no part in a book.
#[test]
fn books_with_another_f() {
    let days = short_days();
    let (bytes, ends) = ledger(&days);
    for (one, other) in [
        (Layout::black(4, 1), Layout::black(4, 64)),
        (Layout::tile(4, 1), Layout::tile(4, 16)),
    ] {
        let book = seal_to_vec(one, D, &bytes, &ends).unwrap();
        assert_eq!(seal_to_vec(other, D, &bytes, &ends).as_ref(), Ok(&book));
        let checked = check_to_vecs(other, D, &bytes, &ends, &book).unwrap();
        assert!(checked.outcomes.iter().all(|outcome| *outcome == 1));
    }
}

/// The book of each layout, sealed by the library.
fn books(bytes: &[u8], ends: &[u32]) -> Vec<(Layout, Vec<u8>)> {
    let sealed = |layout| (layout, seal_to_vec(layout, D, bytes, ends).unwrap());
    layouts().into_iter().map(sealed).collect()
}

/// A book of one layout checked under another fails at every value. Where the other has more, the
/// book is lengthened by its own values over again.
#[test]
fn a_book_under_another_layout() {
    let (bytes, ends) = ledger(&short_days());
    let books = books(&bytes, &ends);
    let mut pairs = 0;
    for (sealed, book) in &books {
        for (taken, other) in &books {
            let values = other.len() / VALUE;
            let lengthened: Vec<u8> = book.iter().cycle().take(other.len()).copied().collect();
            let longer = if book.len() < other.len() {
                &lengthened
            } else {
                book
            };
            let checked = check_to_vecs(*taken, D, &bytes, &ends, longer).unwrap();
            let passes = u8::from(sealed == taken);
            let text = format!("sealed under {sealed}, checked under {taken}");
            assert_eq!(checked.outcomes, vec![passes; values], "{text}");
            pairs += 1;
        }
    }
    assert_eq!(pairs, 27 * 27);
}

/// At whatever place: no value of a book stands in that of another layout.
#[test]
fn no_value_stands_in_two_books() {
    let (bytes, ends) = ledger(&short_days());
    let mut seen = HashMap::new();
    for (layout, book) in books(&bytes, &ends) {
        for value in book.chunks_exact(VALUE) {
            let first = *seen.entry(value.to_vec()).or_insert(layout);
            assert_eq!(first, layout);
        }
    }
}

/// A book of before version 0.8.0 fails at every value, under its own layout too.
#[test]
fn books_of_before() {
    let days: Vec<Vec<u8>> = (1..=16).map(|g| day(g, 3)).collect();
    let (bytes, ends) = ledger(&days);
    for layout in layouts().into_iter().filter(|layout| layout.n <= 16) {
        let book = book_before(layout, &days);
        let checked = check_to_vecs(layout, 16, &bytes, &ends, &book).unwrap();
        assert_eq!(checked.outcomes, vec![0; book.len() / VALUE], "{layout}");
    }
}

/// The record in bytes and back, whatever its length.
#[test]
fn records_of_other_lengths() {
    let kept = Service::open(Layout::tile(16, 2)).unwrap().to_bytes();
    // one of version 0.8 is of season 0
    for length in [SEASON_AT, RECORD] {
        let service = Service::from_slice(&kept[..length]).unwrap();
        assert_eq!(service.to_bytes(), kept);
    }
    let later = [[7; SEASON_AT].as_slice(), &[1, 2, 0, 0]].concat();
    let service = Service::from_slice(&later).unwrap();
    assert_eq!((service.season(), service.days()), (513, 0x0707_0707));
    assert_eq!(service.to_bytes()[..], later);
    let service = Service::from_slice(&later[..SEASON_AT]).unwrap();
    assert_eq!((service.season(), service.days()), (0, 0x0707_0707));
    for length in [0, 1, 20, 691, 692, 693, 723, 725, 726, 727] {
        let error = Service::from_slice(&kept[..length]).unwrap_err();
        assert_eq!(error.length, length);
        assert_eq!(error.is_earlier(), length == START_AT);
        let earlier = "this is the record of an earlier version, of 692 bytes: seal its days again";
        let other = format!("a record has 728 bytes, and this has {length}");
        let words = if length == START_AT { earlier } else { &other };
        assert_eq!(error.to_string(), words);
    }
    assert!(Service::from_slice(&[0; RECORD + 1]).is_err());
}
