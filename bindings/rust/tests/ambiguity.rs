//! How vague a tile is: the counts against every set of days, read one by one.

mod common;

use std::collections::BTreeSet;
use std::fs;

use common::{chains, outcomes};
use daybook::{read_to_vec, tile_counts, validation_before, Layout, Reading, Refusal, TileCounts};

/// The N and the k that are counted.
const SIZES: [u32; 7] = [1, 2, 4, 8, 16, 32, 64];
const ALTERED: [u32; 3] = [1, 2, 3];

fn every() -> impl Iterator<Item = (u32, u32)> {
    SIZES.into_iter().flat_map(|n| ALTERED.map(move |k| (n, k)))
}

/// Sets and listed.
fn counts(n: u32, k: u32) -> (u32, u32) {
    let TileCounts { sets, listed } = tile_counts(n, k).unwrap();
    (sets, listed)
}

/// Every set of k different days of 1 to n, each ascending.
fn sets(n: u32, k: u32) -> Vec<Vec<u32>> {
    if k == 0 {
        return vec![vec![]];
    }
    let mut all = Vec::new();
    for set in sets(n, k - 1) {
        let behind = set.last().map_or(1, |day| day + 1);
        all.extend((behind..=n).map(|day| [&set[..], &[day]].concat()));
    }
    all
}

/// The days that read lists for a set of changed days, in a tile by itself.
fn listed(n: u32, chains: &[Vec<u32>], set: &[u32]) -> u32 {
    let layout = Layout::tile(n, 1);
    let passed = validation_before(layout, n).unwrap();
    assert_eq!(passed, 0);
    let table = outcomes(chains, set);
    let (reading, days) = read_to_vec(layout, n, passed, &table).unwrap();
    assert_eq!(reading.is_clean(), set.is_empty(), "N {n}, {set:?}");
    assert!(set.iter().all(|day| days.contains(day)), "N {n}, {set:?}");
    let [listed, first, _, high, last_good] = reading.numbers();
    assert_eq!(listed as usize, days.len());
    if !reading.is_clean() {
        assert_eq!((first, high, last_good), (days[0], n, 0));
        // a day is listed for each way to leave the failing chains open
        let fails = table[1..table.len() - 1].iter().filter(|one| **one == 0);
        assert_eq!(listed, 1 << fails.count(), "N {n}, {set:?}");
    }
    listed
}

/// Goes over every set with the library's own read.
fn by_reading(n: u32, k: u32) -> (u32, u32) {
    let chains = chains(Layout::tile(n, 1), n);
    let sets = sets(n, k);
    let distinct: BTreeSet<&Vec<u32>> = sets.iter().collect();
    assert_eq!(distinct.len(), sets.len());
    let total = sets.iter().map(|set| listed(n, &chains, set)).sum();
    (sets.len() as u32, total)
}

#[test]
fn every_set_read() {
    for (n, k) in every() {
        assert_eq!(counts(n, k), by_reading(n, k), "N {n}, k {k}");
    }
}

#[test]
fn a_tile_that_no_day_of_is_altered_is_clean() {
    for n in SIZES {
        assert_eq!(sets(n, 0), [vec![]]);
        let chains = chains(Layout::tile(n, 1), n);
        let clean = vec![1; chains.len()];
        assert_eq!(outcomes(&chains, &[]), clean);
        let read = read_to_vec(Layout::tile(n, 1), n, 0, &clean);
        assert_eq!(read, Ok((Reading::Clean { last_good: n }, vec![])));
        assert_eq!(listed(n, &chains, &[]), 0);
    }
}

/// The reference's lines, which the proved program prints: each once, in any order.
#[test]
fn the_lines_of_the_reference() {
    let path = concat!(
        env!("CARGO_MANIFEST_DIR"),
        "/../../crates/ambiguity_lines/stdout"
    );
    let stored = fs::read_to_string(path).unwrap_or_else(|error| panic!("{path}: {error}"));
    let mut stored: Vec<&str> = stored.split_inclusive('\n').collect();
    let line = |(n, k)| {
        let (sets, listed) = counts(n, k);
        format!("{n},{k},{sets},{listed}\n")
    };
    let mut lines: Vec<String> = every().map(line).collect();
    stored.sort_unstable();
    lines.sort_unstable();
    assert_eq!(lines, stored);
    assert_eq!(lines.len(), 21);
}

#[test]
fn the_examples_of_the_specification() {
    assert_eq!(counts(4, 1), (4, 9));
    assert_eq!(counts(4, 2), (6, 20));
    assert_eq!(counts(1, 2), (0, 0));
    assert_eq!(counts(64, 3), (41_664, 1_839_856));
}

/// SPEC 21.4.
#[test]
fn in_closed_form() {
    for (n, m) in (0..7).map(|m| (2u64.pow(m), m)) {
        let [three, seven, fifteen] = [3u64, 7, 15].map(|base| base.pow(m));
        for (k, sets, listed) in [
            (1, n, three),
            (2, (n * n - n) / 2, (seven - three) / 2),
            (
                3,
                (n * n * n + 2 * n - 3 * n * n) / 6,
                (fifteen + 2 * three - 3 * seven) / 6,
            ),
        ] {
            let (found, all) = counts(n as u32, k);
            assert_eq!((found.into(), all.into()), (sets, listed), "N {n}, k {k}");
        }
    }
}

#[test]
fn no_set_where_n_is_below_k() {
    for (n, k) in [(1, 2), (1, 3), (2, 3)] {
        assert_eq!(counts(n, k), (0, 0), "N {n}, k {k}");
    }
    assert!(every()
        .filter(|(n, k)| n >= k)
        .all(|(n, k)| counts(n, k).0 > 0));
}

/// Numbers around every limit, as high as can be, and with no more than a bit or its neighbours.
fn numbers() -> impl Iterator<Item = u32> {
    let bits = (10..32).map(|lg| 1u32 << lg);
    let near = bits.flat_map(|bit| [bit - 1, bit, bit + 1]);
    (0..=600).chain(near).chain([u32::MAX - 1, u32::MAX])
}

/// 2 before 21, and whatever k; 21 exactly if N is over 64, or k is 0 or over 3.
#[test]
fn refusals() {
    for n in numbers() {
        for k in (0..=5).chain([64, 256, 257, 258, 259, 1 << 31, u32::MAX]) {
            let refusal = match (n, k) {
                (1 | 2 | 4 | 8 | 16 | 32 | 64, 1..=3) => None,
                (1 | 2 | 4 | 8 | 16 | 32 | 64 | 128 | 256, _) => Some(Refusal::NotCounted),
                _ => Some(Refusal::BadN),
            };
            assert_eq!(tile_counts(n, k).err(), refusal, "N {n}, k {k}");
        }
    }
    for k in 0..=4 {
        for n in [0, 3, 512] {
            assert_eq!(tile_counts(n, k), Err(Refusal::BadN), "N {n}, k {k}");
        }
        for n in [128, 256] {
            assert_eq!(tile_counts(n, k), Err(Refusal::NotCounted));
        }
    }
    for n in SIZES {
        for k in [0, 4, u32::MAX] {
            assert_eq!(tile_counts(n, k), Err(Refusal::NotCounted), "N {n}, k {k}");
        }
    }
    assert_eq!(Refusal::NotCounted.number(), 21);
}
