//! Seasons: the turn from one to the next, what is refused there, and the book of each.

mod common;
#[path = "common/random.rs"]
mod random;
#[path = "common/record.rs"]
mod record;

use common::{day, ledger};
use daybook::{check_to_vecs, forecast, read_to_vec, seal_to_vec, search_to_vec, values};
use daybook::{Layout, Reading, Refusal, Service, DAYS_LIMIT, DAY_LIMIT, LAST_SEASON, PART, VALUE};
use random::Random;
use record::{Record, SEASON_AT};

/// Every scheme with some N and F.
const LAYOUTS: [Layout; 9] = [
    Layout::black(1, 1),
    Layout::black(1, 3),
    Layout::black(256, 63),
    Layout::tile(1, 1),
    Layout::tile(4, 2),
    Layout::tile(256, 64),
    Layout::tree(1),
    Layout::tree(8),
    Layout::tree(256),
];

/// A record that no list of calls may have made.
fn made_up(random: &mut Random, layout: Layout, (season, days, bytes): (u32, u32, u32)) -> Record {
    Record {
        layout,
        days,
        bytes,
        open: random.bytes(),
        black: random.bytes(),
        slots: std::array::from_fn(|_| random.bytes()),
        block: random.bytes(),
        start: random.bytes(),
        season,
    }
}

/// The record as a list of calls leaves it where its season is full: with the layout's own start.
fn full(layout: Layout, season: u32) -> Record {
    let mut random = Random(1 + u64::from(season));
    let fresh = Record::open(layout);
    Record {
        start: fresh.start,
        ..made_up(&mut random, layout, (season, DAYS_LIMIT, 0))
    }
}

fn service(plain: &Record) -> Service {
    Service::from_bytes(plain.to_bytes())
}

/// An add gives what the plain record says, and leaves it.
fn adds(plain: &Record, piece: &[u8]) -> Record {
    let (mut service, mut plain) = (service(plain), plain.clone());
    let text = format!("{service:?}, a piece of {}", piece.len());
    assert_eq!(service.add(piece), Ok(plain.add(piece)), "{text}");
    assert_eq!(service.to_bytes(), plain.to_bytes(), "{text}");
    plain
}

/// A close gives what the plain record says, and leaves it.
fn closes(plain: &Record) -> Record {
    let (mut service, mut plain) = (service(plain), plain.clone());
    let text = format!("{service:?}");
    let mut part = [170; PART + 1];
    let closed = service.close(&mut part).unwrap();
    let expected = plain.close();
    let values = expected.values.concat();
    assert_eq!(closed.values as usize, expected.values.len(), "{text}");
    assert_eq!(closed.blocks, expected.blocks, "{text}");
    assert_eq!(part[..values.len()], values, "{text}");
    assert!(part[values.len()..].iter().all(|byte| *byte == 170));
    assert_eq!(service.to_bytes(), plain.to_bytes(), "{text}");
    plain
}

/// Every call is refused with this number and leaves record and part.
fn refuses(plain: &Record, refusal: Refusal) {
    let mut service = service(plain);
    let text = format!("{service:?}");
    let mut part = [170; PART];
    for piece in [&[][..], &[1], &[0; 200]] {
        assert_eq!(service.add(piece), Err(refusal), "{text}");
    }
    assert_eq!(service.close(&mut part), Err(refusal), "{text}");
    assert_eq!(service.close(&mut []), Err(refusal), "{text}");
    assert_eq!(part, [170; PART], "{text}");
    assert_eq!(service.to_bytes(), plain.to_bytes(), "{text}");
}

#[test]
fn open_gives_season_0() {
    for layout in LAYOUTS {
        let service = Service::open(layout).unwrap();
        assert_eq!((service.season(), service.days()), (0, 0));
        assert_eq!(service.to_bytes()[SEASON_AT..], [0; 4]);
    }
    assert_eq!((LAST_SEASON, DAYS_LIMIT), (65_535, 65_536));
}

/// The turned record is that of an open with its season raised, to the byte: for the layout's own
/// start the library's open, for any other one the record's start.
#[test]
fn turned_records() {
    let mut random = Random(0x2545_f491_4f6c_dd1d);
    for layout in LAYOUTS {
        for season in [0, 1, 255, 256, 65_533, 65_534] {
            let mut turned = service(&full(layout, season));
            assert_eq!(turned.add(&[]), Ok(0), "{turned:?}");
            let mut opened = Service::open(layout).unwrap().to_bytes();
            opened[SEASON_AT..].copy_from_slice(&(season + 1).to_le_bytes());
            assert_eq!(turned.to_bytes(), opened, "{turned:?}");

            let plain = made_up(&mut random, layout, (season, DAYS_LIMIT, 0));
            let turned = adds(&plain, &[]);
            assert_eq!(turned, plain.next_season());
            assert_eq!((turned.start, turned.black), (plain.start, plain.start));
        }
    }
}

/// Made-up records at the last two days, in every season that counts: each accepted call.
#[test]
fn calls_near_the_turn() {
    let mut random = Random(0x9e37_79b9_7f4a_7c15);
    for layout in LAYOUTS {
        for season in [0, 1, 65_534, 65_535] {
            for bytes in [0, 1, 62, 63, 64, 200] {
                let plain = made_up(&mut random, layout, (season, 65_535, bytes));
                let piece: [u8; 150] = random.bytes();
                for piece in [&[][..], &piece[..1], &piece] {
                    let plain = adds(&plain, piece);
                    assert_eq!((plain.season, plain.days), (season, 65_535));
                    let plain = closes(&plain);
                    assert_eq!((plain.season, plain.days), (season, 65_536));
                    assert_eq!(plain.bytes, 0);
                }
            }
            if season == LAST_SEASON {
                continue;
            }
            let plain = made_up(&mut random, layout, (season, DAYS_LIMIT, 0));
            let piece: [u8; 150] = random.bytes();
            for length in [0, 1, 62, 63, 64, 127, 150] {
                let open = adds(&plain, &piece[..length]);
                assert_eq!((open.season, open.days), (season + 1, 0));
                assert_eq!(open.bytes, length as u32);
                let closed = closes(&adds(&open, &piece[..3]));
                assert_eq!((closed.season, closed.days), (season + 1, 1));
            }
            // a close at once closes an empty day 1
            let closed = closes(&plain);
            assert_eq!(
                (closed.season, closed.days, closed.bytes),
                (season + 1, 1, 0)
            );
            assert_eq!(closed, closes(&adds(&plain, &[])));
        }
    }
}

/// A refused call at the turn gives back the record of the full season.
#[test]
fn refused_at_the_turn() {
    let mut random = Random(7);
    let long = vec![0; DAY_LIMIT as usize + 1];
    for layout in LAYOUTS {
        for season in [0, 65_534] {
            let plain = made_up(&mut random, layout, (season, DAYS_LIMIT, 0));
            let mut service = service(&plain);
            assert_eq!(service.add(&long), Err(Refusal::DayTooLong), "{layout}");
            assert_eq!(service.to_bytes(), plain.to_bytes(), "{layout}");
            // the values of day 1 of the next season are those that a part must have room for
            let need = 32 * closes(&plain).close_values();
            for length in [0, 1, 31, need.saturating_sub(1)] {
                if length >= need {
                    continue;
                }
                let mut part = vec![170; length];
                let closed = service.close(&mut part);
                assert_eq!(closed, Err(Refusal::ShortBuffer), "{layout}, {length}");
                assert_eq!(part, vec![170; length]);
                assert_eq!(service.to_bytes(), plain.to_bytes(), "{layout}");
            }
            let closed = service.close(&mut vec![0; need]).unwrap();
            assert_eq!(32 * closed.values as usize, need, "{layout}");
            // the longest day is taken
            let mut service = Service::from_bytes(plain.to_bytes());
            assert!(service.add(&long[1..]).is_ok());
            assert_eq!(service.season(), season + 1);
            assert_eq!(service.open_bytes(), DAY_LIMIT);
            assert_eq!(service.add(&[0]), Err(Refusal::DayTooLong));
        }
    }
}

impl Record {
    /// The values that day 1 has.
    fn close_values(&self) -> usize {
        assert_eq!(self.days, 1);
        Record::open(self.layout).close().values.len()
    }
}

/// 5 is found where the last season is full, and nowhere else; there it comes before 4 and 8.
#[test]
fn the_last_season() {
    let mut random = Random(11);
    let long = vec![0; DAY_LIMIT as usize + 1];
    for layout in LAYOUTS {
        let plain = made_up(&mut random, layout, (LAST_SEASON, DAYS_LIMIT, 0));
        refuses(&plain, Refusal::LastSeasonFull);
        let mut service = service(&plain);
        assert_eq!(service.add(&long), Err(Refusal::LastSeasonFull));
        assert_eq!(service.to_bytes(), plain.to_bytes());
        assert!(service.values().is_ok());
        let before = made_up(&mut random, layout, (LAST_SEASON, 65_535, 9));
        refuses(&closes(&adds(&before, &[1])), Refusal::LastSeasonFull);
    }
}

/// 6 comes first: a season over the last, and open bytes beside 65,536 closed days.
#[test]
fn records_that_cannot_go_on() {
    let mut random = Random(13);
    for layout in LAYOUTS {
        for season in [65_536, 65_537, 1 << 20, u32::MAX] {
            for (days, bytes) in [(0, 0), (1, 5), (65_535, 0), (65_536, 0), (65_536, 1)] {
                let plain = made_up(&mut random, layout, (season, days, bytes));
                refuses(&plain, Refusal::BadRecord);
                assert_eq!(service(&plain).values(), Err(Refusal::BadRecord));
            }
        }
        for season in [0, 1, 65_534, 65_535] {
            for bytes in [1, 64, DAY_LIMIT, DAY_LIMIT + 1, u32::MAX] {
                let plain = made_up(&mut random, layout, (season, DAYS_LIMIT, bytes));
                refuses(&plain, Refusal::BadRecord);
                assert_eq!(service(&plain).values(), Err(Refusal::BadRecord));
            }
            let mut plain = made_up(&mut random, layout, (season, DAYS_LIMIT + 1, 0));
            refuses(&plain, Refusal::BadRecord);
            plain.days = DAYS_LIMIT;
            assert!(service(&plain).values().is_ok());
        }
    }
}

/// The bytes of a day of a season: of few lengths, each season's its own.
fn bytes_of(season: u32, g: u32) -> Vec<u8> {
    day(g.wrapping_mul(season + 1), (g + season) % 5)
}

/// The days of a season with their ledger and ends.
fn season_days(season: u32, days: u32) -> (Vec<u8>, Vec<u32>) {
    ledger(&(1..=days).map(|g| bytes_of(season, g)).collect::<Vec<_>>())
}

/// Seals the days of seasons 0, 1 and the first 300 of season 2, through the record's bytes at every
/// turn. The book of each is the one that `seal` writes for its days alone, and the blocks of its
/// calls are those that the forecast says.
fn runs(layout: Layout, through: u32) {
    let mut service = Service::open(layout).unwrap();
    let mut books = vec![Vec::<u8>::new(); 3];
    let mut blocks = [0u64; 3];
    for season in 0..3 {
        for g in 1..=(if season < 2 { DAYS_LIMIT } else { through }) {
            let piece = bytes_of(season, g);
            let mut part = [0; PART];
            let added = service.add(&piece).unwrap();
            let closed = service.close(&mut part).unwrap();
            let of = service.season() as usize;
            assert_eq!((service.season(), service.days()), (season, g), "{layout}");
            books[of].extend(&part[..VALUE * closed.values as usize]);
            blocks[of] += u64::from(added + closed.blocks);
        }
        // a record of a full season, kept and taken up
        service = Service::from_slice(&service.to_bytes()).unwrap();
        assert_eq!(service.season(), season);
    }
    for (season, (book, blocks)) in (0..).zip(books.iter().zip(blocks)) {
        let closed = if season < 2 { DAYS_LIMIT } else { through };
        let d = closed - closed % (layout.f * layout.n);
        let (bytes, ends) = season_days(season, closed);
        let sealed = seal_to_vec(layout, d, &bytes, &ends).unwrap();
        assert_eq!(book[..sealed.len()], sealed, "{layout}, season {season}");
        let rest = closed / layout.n - d / layout.n;
        if layout.scheme != Layout::TREE {
            let each = if layout.scheme == Layout::TILE {
                2 + layout.n.ilog2()
            } else {
                1
            };
            assert_eq!(book.len() - sealed.len(), (32 * rest * each) as usize);
        }
        if d == closed {
            assert_eq!(book.len(), sealed.len(), "{layout}, season {season}");
            let lengths: Vec<u32> = (1..=d).map(|g| bytes_of(season, g).len() as u32).collect();
            assert_eq!(forecast(layout, d, &lengths).unwrap().blocks, blocks);
        }
    }
}

#[test]
fn a_run_across_two_turns_under_black() {
    runs(Layout::black(1, 3), 300);
    runs(Layout::black(256, 1), 512);
}

#[test]
fn a_run_across_two_turns_under_tiles() {
    runs(Layout::tile(4, 2), 304);
}

#[test]
fn a_run_across_two_turns_under_the_tree() {
    runs(Layout::tree(2), 300);
}

/// Of a full season the first D days are checked and read, D the largest that F and N allow.
fn first_days(layout: Layout, d: u32, changed: &[u32]) {
    // season 1, after a season 0 that is only said to be full
    let mut service = service(&full(layout, 0));
    let mut book = Vec::new();
    for g in 1..=DAYS_LIMIT {
        service.add(&bytes_of(1, g)).unwrap();
        book.extend(service.close_day().unwrap());
    }
    assert_eq!((service.season(), service.days()), (1, DAYS_LIMIT));
    let (mut bytes, mut ends) = season_days(1, DAYS_LIMIT);
    let values = values(layout, d).unwrap() as usize;
    let checked = check_to_vecs(layout, d, &bytes, &ends, &book).unwrap();
    assert_eq!(checked.outcomes, vec![1; values]);
    let (reading, days) = read_to_vec(layout, d, 0, &checked.outcomes).unwrap();
    assert_eq!((reading, days), (Reading::Clean { last_good: d }, vec![]));
    for beyond in [d + 1, DAYS_LIMIT] {
        if beyond != d && beyond % (layout.f * layout.n) != 0 {
            let refused = check_to_vecs(layout, beyond, &bytes, &ends, &book);
            assert_eq!(refused, Err(Refusal::BadD));
        }
    }
    // a day behind D is not seen, those before it are
    for g in changed
        .iter()
        .copied()
        .chain((d < DAYS_LIMIT).then_some(d + 1))
    {
        bytes.insert(ends[g as usize - 1] as usize, 7);
        for end in &mut ends[g as usize - 1..] {
            *end += 1;
        }
    }
    let checked = check_to_vecs(layout, d, &bytes, &ends, &book).unwrap();
    let (reading, days) = read_to_vec(layout, d, 0, &checked.outcomes).unwrap();
    assert_eq!(reading.numbers()[1], changed[0], "{layout}");
    assert_eq!(reading.numbers()[3], d, "{layout}");
    assert!(changed.iter().all(|g| days.contains(g)), "{layout}");
    if layout.scheme == Layout::TREE {
        assert_eq!(days, changed);
        let (search, found) = search_to_vec(layout, d, &checked.outcomes, u32::MAX).unwrap();
        assert_eq!((search.undecided, found), (0, days));
    }
}

#[test]
fn the_first_days_of_a_full_season() {
    first_days(Layout::black(1, 3), 65_535, &[65_534, 65_535]);
    first_days(Layout::black(256, 63), 64_512, &[64_257]);
    first_days(Layout::tile(256, 63), 64_512, &[513, 64_385]);
    first_days(Layout::tile(1, 64), 65_536, &[65_536]);
    first_days(Layout::tree(256), 65_536, &[3, 40_000, 65_536]);
}

/// A record of version 0.8, at any day, goes on as one of season 0.
#[test]
fn a_record_without_a_season_goes_on() {
    let mut random = Random(17);
    for layout in LAYOUTS {
        for (days, bytes) in [(0, 0), (5, 70), (65_535, 1), (65_536, 0)] {
            let plain = made_up(&mut random, layout, (0, days, bytes));
            let kept = &plain.to_bytes()[..SEASON_AT];
            let service = Service::from_slice(kept).unwrap();
            assert_eq!(service.to_bytes(), plain.to_bytes());
            adds(&plain, b"rye");
            closes(&plain);
        }
    }
}

/// A service that goes through all seasons by its last days alone: 65,536 turns, and then 5.
#[test]
fn every_turn() {
    let layout = Layout::tile(2, 1);
    let opened = Service::open(layout).unwrap().to_bytes();
    let mut record = opened;
    for season in 0..=LAST_SEASON {
        record[12..16].copy_from_slice(&DAYS_LIMIT.to_le_bytes());
        let mut service = Service::from_bytes(record);
        assert_eq!(service.season(), season);
        if season == LAST_SEASON {
            assert_eq!(service.add(&[]), Err(Refusal::LastSeasonFull));
            break;
        }
        assert_eq!(service.add(&[]), Ok(0));
        record = service.to_bytes();
        assert_eq!(record[..SEASON_AT], opened[..SEASON_AT]);
    }
}
