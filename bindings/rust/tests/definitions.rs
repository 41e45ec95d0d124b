//! Books, checks and readings against the definitions, the request's examples and the reference.

mod common;

use common::{altered, book, chains, day, days, hex, ledger, listing, sha256, table};
use daybook::{
    check_to_vecs, read_to_vec, seal_to_vec, validation_before, values, Layout, Reading, Refusal,
    Service,
};

/// Every layout with N up to 8, and a D for it.
fn layouts() -> Vec<(Layout, u32)> {
    let mut layouts = Vec::new();
    for n in [1, 2, 4, 8] {
        for f in [1, 3] {
            layouts.push((Layout::black(n, f), 2 * f * n));
            layouts.push((Layout::tile(n, f), 2 * f * n));
        }
        for intervals in [1, 2, 3, 5] {
            layouts.push((Layout::tree(n), intervals * n));
        }
    }
    layouts
}

#[test]
fn published_vectors() {
    let cases = [
        (
            "",
            "e3b0c44298fc1c149afbf4c8996fb92427ae41e4649b934ca495991b7852b855",
        ),
        (
            "abc",
            "ba7816bf8f01cfea414140de5dae2223b00361a396177a9cb410ff61f20015ad",
        ),
        (
            "abcdbcdecdefdefgefghfghighijhijkijkljklmklmnlmnomnopnopq",
            "248d6a61d20638b8e5c026930c3e6039a33ce45964ff2167f6ecedd419db06c1",
        ),
    ];
    for (message, hash) in cases {
        assert_eq!(hex(&sha256(message.as_bytes())), hash);
    }
}

#[test]
fn two_days_by_hand() {
    // day 1 is empty, day 2 is abc: SHA-256 of 00, of 00 abc, and the links over these from the
    // starts, SHA-256 of 02 01 00, 02 02 00, 02 02 01 and 02 03 00
    let empty = "6e340b9cffb37a989ca544e6bb780a2c78901d3fb33738768511a30617afa01d";
    let abc = "609f6e36d2405585188d5cfd761f407c7cc46a7d3f314c88270469dde315fcd1";
    let sealed = |layout| hex(&seal_to_vec(layout, 2, b"abc", &[0, 3]).unwrap());
    let day_1 = "fb49e70ff97c380836cc1ac0577e0779459c8ba161755859c2d9928bcc3f5747";
    let both = "c89c4a84f6964f1c665b660b37f6d6f4b639583726e6962397382fdb62e8fec4";
    assert_eq!(sealed(Layout::black(1, 1)), [day_1, both].concat());
    let day_1 = "6c01d551ae6875ce2730c28e2c7d40f25e1dbe657d2798cf0484720db11d94ae";
    let day_2 = "d7b6f815a2c36dd3b2f5796d3ec00536b6a6e1d561fc6eb38c71f3d1168ed8d5";
    let both = "f2c5055c695fa44a575a9b70f310cc7b07f0b0c7ada18b1c17197156e9c5dabc";
    let tiles = [day_1, day_1, day_2, both].concat();
    assert_eq!(sealed(Layout::tile(1, 1)), tiles);
    let day_1 = "f410b190987ac4d4d563f898efce1191383df707c01bb70251db966c0dd1901c";
    let both = "9f7ea5e3f9fae71ffaec82a2d3a28a796f88bcc40b44cf04056754241b13953c";
    assert_eq!(sealed(Layout::tile(2, 1)), [both, day_1, both].concat());
    let day_1 = "5105ba6ac6280a66f14376bc7436bbbbceba7e66d4f52de9ad1ca8badee24663";
    let day_2 = "680dc269f960d98cb3e472ea75e7599afdb0ed8726e49976e1f6cff715c4d285";
    let both = "a683f1c26d00a068ea99410822984b98a50c06ff615ea85d715571f117453d68";
    assert_eq!(sealed(Layout::tree(1)), [day_1, day_2, both].concat());

    let book = seal_to_vec(Layout::tree(1), 2, b"abc", &[0, 3]).unwrap();
    let checked = check_to_vecs(Layout::tree(1), 2, b"abc", &[0, 3], &book).unwrap();
    assert_eq!(hex(&checked.digests), [empty, abc].concat());
    assert_eq!(checked.outcomes, [1, 1, 1]);
}

#[test]
fn counts_of_values() {
    for (layout, d) in layouts() {
        assert_eq!(
            values(layout, d),
            Ok(chains(layout, d).len() as u32),
            "{layout}, D {d}"
        );
    }
    assert_eq!(values(Layout::tree(2), 16), Ok(35));
    assert_eq!(values(Layout::tree(2), 14), Ok(29));
    assert_eq!(values(Layout::tree(1), 3), Ok(5));
    assert_eq!(values(Layout::black(1, 1), 65_536), Ok(65_536));
    assert_eq!(values(Layout::tile(256, 64), 65_536), Ok(2_560));
    // 2 D, less 1 one bit, D for black, less 1 + 16
    assert_eq!(values(Layout::tree(1), 65_536), Ok(196_590));
}

#[test]
fn books_by_definition() {
    for (layout, d) in layouts() {
        let days = days(d);
        let (ledger, ends) = ledger(&days);
        let expected = book(layout, &days);
        assert_eq!(
            seal_to_vec(layout, d, &ledger, &ends),
            Ok(expected),
            "{layout}, D {d}"
        );
    }
}

#[test]
fn every_day_altered_alone() {
    for (layout, d) in layouts() {
        let before = days(d);
        let book = book(layout, &before);
        for changed in 1..=d {
            let (ledger, ends) = ledger(&altered(&before, &[changed]));
            let checked = check_to_vecs(layout, d, &ledger, &ends, &book).unwrap();
            assert_eq!(checked.outcomes, table(layout, d, &[changed]));
            let (reading, listed) = read_01(layout, d, &checked.outcomes).unwrap();
            assert!(!reading.is_clean());
            assert!(listed.contains(&changed), "{layout}, D {d}, day {changed}");
        }
    }
}

#[test]
fn every_table_of_few_days() {
    let cases = [
        (Layout::black(1, 1), 6),
        (Layout::black(2, 2), 8),
        (Layout::tile(1, 1), 3),
        (Layout::tile(2, 1), 6),
        (Layout::tile(4, 1), 8),
        (Layout::tree(1), 4),
        (Layout::tree(2), 6),
    ];
    for (layout, d) in cases {
        let count = chains(layout, d).len();
        for bits in 0..1u32 << count {
            let outcomes: Vec<u8> = (0..count).map(|k| (bits >> k & 1) as u8).collect();
            let read = read_01(layout, d, &outcomes).map(|(_, listed)| listed);
            let expected = listing(layout, d, &outcomes).ok_or(Refusal::ImpossibleTable);
            assert_eq!(read, expected, "{layout}, D {d}, {outcomes:?}");
        }
    }
}

/// Seals days, alters some, checks and reads: all by real hashes.
fn found(layout: Layout, d: u32, changed: &[u32]) -> (Reading, Vec<u32>) {
    read_01(layout, d, &outcomes_of(layout, d, changed)).unwrap()
}

/// The outcomes of a check after some days were altered.
fn outcomes_of(layout: Layout, d: u32, changed: &[u32]) -> Vec<u8> {
    let before = days(d);
    let (bytes, ends) = ledger(&before);
    let book = seal_to_vec(layout, d, &bytes, &ends).unwrap();
    let (bytes, ends) = ledger(&altered(&before, changed));
    let checked = check_to_vecs(layout, d, &bytes, &ends, &book).unwrap();
    checked.outcomes
}

/// Reads as 01 does: the validation before was made and passed.
fn read_01(layout: Layout, d: u32, outcomes: &[u8]) -> Result<(Reading, Vec<u32>), Refusal> {
    read_to_vec(layout, d, validation_before(layout, d)?, outcomes)
}

#[test]
fn the_figure_of_001() {
    let (reading, listed) = found(Layout::tile(16, 2), 64, &[19, 20, 27]);
    assert_eq!(listed, [19, 20, 23, 24, 27, 28, 31, 32]);
    assert_eq!(
        reading,
        Reading::Changed {
            listed: 8,
            first: 19,
            low: 32,
            high: 64,
            last_good: 16
        }
    );
}

/// The figure where validations were skipped: low alone goes by the last one that passed.
#[test]
fn the_figure_with_skipped_validations() {
    let layout = Layout::tile(16, 2);
    let outcomes = outcomes_of(layout, 64, &[19, 20, 27]);
    for (passed, low) in [(0, 18), (16, 18), (32, 32), (48, 48)] {
        let (reading, listed) = read_to_vec(layout, 64, passed, &outcomes).unwrap();
        assert_eq!(reading.numbers(), [8, 19, low, 64, 16], "P {passed}");
        assert_eq!(listed, [19, 20, 23, 24, 27, 28, 31, 32]);
    }
}

/// Whatever passed before: one day altered, and none.
#[test]
fn low_with_every_day_of_a_passed_check() {
    for (layout, d) in layouts() {
        let clean = vec![1; values(layout, d).unwrap() as usize];
        let before = validation_before(layout, d).unwrap();
        assert!(read_to_vec(layout, d, before, &clean).is_ok());
        for passed in 0..d + layout.n + 1 {
            let allowed = passed < d && passed.is_multiple_of(layout.n);
            let answer = read_to_vec(layout, d, passed, &clean);
            let expected = match allowed {
                true => Ok((Reading::Clean { last_good: d }, vec![])),
                false => Err(Refusal::BadPassed),
            };
            assert_eq!(answer, expected, "{layout}, D {d}, P {passed}");
            for changed in (1..=d).filter(|_| allowed) {
                let outcomes = table(layout, d, &[changed]);
                let (reading, listed) = read_to_vec(layout, d, passed, &outcomes).unwrap();
                let [_, first, low, high, _] = reading.numbers();
                assert_eq!((low, high), (passed.max(first - 1), d));
                let as_01 = read_01(layout, d, &outcomes).unwrap();
                assert_eq!(listed, as_01.1);
            }
        }
    }
}

#[test]
fn the_other_examples() {
    let (reading, listed) = found(Layout::tree(2), 16, &[4, 7, 10]);
    assert_eq!(listed, [4, 7, 10]);
    assert_eq!(reading.numbers(), [3, 4, 14, 16, 2]);

    let (reading, listed) = found(Layout::black(2, 3), 24, &[16]);
    assert_eq!(listed, (15..=24).collect::<Vec<u32>>());
    assert_eq!(reading.numbers(), [10, 15, 18, 24, 14]);

    for layout in [Layout::black(4, 2), Layout::tile(4, 2), Layout::tree(4)] {
        let clean = (Reading::Clean { last_good: 16 }, vec![]);
        assert_eq!(found(layout, 16, &[]), clean);
    }
}

#[test]
fn tables_of_the_paper() {
    let listed = |layout, d, table: &[u8]| read_01(layout, d, table).map(|(_, days)| days);
    let impossible = Err(Refusal::ImpossibleTable);
    assert_eq!(listed(Layout::tile(1, 1), 1, &[0, 0]), Ok(vec![1]));
    assert_eq!(listed(Layout::tile(4, 1), 4, &[0, 1, 1, 0]), Ok(vec![4]));
    assert_eq!(listed(Layout::tile(4, 1), 4, &[1, 1, 1, 0]), impossible);
    assert_eq!(listed(Layout::tree(1), 2, &[1, 0, 0]), Ok(vec![2]));
    assert_eq!(listed(Layout::tree(1), 2, &[1, 1, 0]), impossible);
}

/// The number of values, SHA-256 of the book, its first, middle and last value.
fn summary(book: &[u8]) -> String {
    let count = book.len() / 32;
    let mut text = format!("{count}\n{}\n", hex(&sha256(book)));
    for k in [0, count / 2, count - 1] {
        text += &format!("{}\n", hex(&book[32 * k..32 * k + 32]));
    }
    text
}

#[test]
fn a_thousand_days_of_the_reference() {
    let cases = [
        (
            Layout::black(8, 25),
            include_str!("../../../reference/expected/thousand-1.txt"),
        ),
        (
            Layout::tile(8, 25),
            include_str!("../../../reference/expected/thousand-2.txt"),
        ),
        (
            Layout::tree(8),
            include_str!("../../../reference/expected/thousand-3.txt"),
        ),
    ];
    for (layout, expected) in cases {
        let mut service = Service::open(layout).unwrap();
        let mut book = Vec::new();
        for g in 1..=1000 {
            service.add(&day(g, 7 * g % 131)).unwrap();
            book.extend(service.close_day().unwrap());
        }
        assert_eq!(summary(&book), expected, "{layout}");
    }
}
