//! The search of tree tables against the definition of its walk, at every limit.

mod common;

use common::{chains, listing, searched, table, tree_table, walk};
use daybook::{
    read_to_vec, search, search_to_vec, validation_before, values, Layout, Progress, Refusal,
};

const DAYS: u32 = 65_536;

/// Looked, found and undecided.
fn numbers(progress: Progress) -> [u32; 3] {
    [progress.looked, progress.found, progress.undecided]
}

/// Searches in a list longer than D, whose rest must stay, with outcomes behind that are not read.
fn search_all(layout: Layout, d: u32, outcomes: &[u8], limit: u32) -> ([u32; 3], Vec<u32>) {
    let outcomes = [outcomes, &[9, 0, 255]].concat();
    let mut list = vec![u32::MAX; d as usize + 3];
    let progress = search(layout, d, &outcomes, limit, &mut list).unwrap();
    let rest = list.split_off(progress.found as usize);
    assert!(rest.iter().all(|place| *place == u32::MAX), "{rest:?}");
    assert_eq!(progress.is_finished(), progress.undecided == 0);
    let to_vec = search_to_vec(layout, d, &outcomes, limit);
    assert_eq!(to_vec, Ok((progress, list.clone())));
    (numbers(progress), list)
}

/// A search agrees with the definition, and with what is said of every search.
fn agrees(n: u32, d: u32, changed: &[u32], outcomes: &[u8], limit: u32) {
    let (numbers, found) = search_all(Layout::tree(n), d, outcomes, limit);
    let expected = searched(d, changed, limit);
    assert_eq!(
        (numbers, found.clone()),
        expected,
        "N {n}, D {d}, {changed:?}, limit {limit}"
    );
    let [looked, count, undecided] = numbers;
    assert!(looked <= limit && (looked == limit || undecided == 0));
    let all = changed.len() as u32;
    assert!(count <= all && all <= count + undecided);
    // the undecided days are the last ones: before them all that is changed is found
    let decided = d - undecided;
    let before: Vec<u32> = changed.iter().copied().filter(|g| *g <= decided).collect();
    assert_eq!(found, before);
}

/// A finished search lists what read lists, within the bound on its looks.
fn finished(n: u32, d: u32, changed: &[u32], outcomes: &[u8]) {
    let layout = Layout::tree(n);
    let length = walk(d, changed).len() as u32;
    for limit in [length, length + 1, 2 * d, u32::MAX] {
        let ([looked, _, undecided], found) = search_all(layout, d, outcomes, limit);
        assert_eq!(
            (looked, undecided),
            (length, 0),
            "N {n}, D {d}, {changed:?}"
        );
        let passed = validation_before(layout, d).unwrap();
        let (_, listed) = read_to_vec(layout, d, passed, outcomes).unwrap();
        assert_eq!(found, listed);
        assert_eq!(found, changed);
    }
    let bound = d.count_ones() + 2 * changed.len() as u32 * d.ilog2();
    assert!(length <= bound && length < 2 * d);
}

/// The days of a set.
fn days_of(d: u32, set: u32) -> Vec<u32> {
    (1..=d).filter(|day| set >> (day - 1) & 1 == 1).collect()
}

/// N and D of scheme 3, with D from 1 to `most`.
fn small_layouts(most: u32) -> impl Iterator<Item = (u32, u32)> {
    let sizes = (0..=8).map(|lg| 1 << lg);
    sizes.flat_map(move |n| (n..=most).step_by(n as usize).map(move |d| (n, d)))
}

#[test]
fn the_examples_of_the_specification() {
    for (d, changed, limits, numbers, days) in [
        (4, &[3][..], 0..=0, [0, 0, 4], &[][..]),
        (4, &[3], 1..=1, [1, 0, 4], &[]),
        (4, &[3], 2..=2, [2, 0, 2], &[]),
        (4, &[3], 3..=3, [3, 0, 2], &[]),
        (4, &[3], 4..=4, [4, 1, 1], &[3]),
        (4, &[3], 5..=9, [5, 1, 0], &[3]),
        (4, &[], 1..=9, [1, 0, 0], &[]),
        (6, &[2, 6], 4..=4, [4, 1, 4], &[2]),
        (6, &[2, 6], 5..=5, [5, 1, 2], &[2]),
        (6, &[2, 6], 8..=12, [8, 2, 0], &[2, 6]),
    ] {
        let outcomes = table(Layout::tree(1), d, changed);
        for limit in limits {
            let found = search_all(Layout::tree(1), d, &outcomes, limit);
            assert_eq!(found, (numbers, days.to_vec()), "D {d}, limit {limit}");
        }
    }
    assert_eq!(walk(4, &[3]), [(1, 4), (1, 2), (3, 4), (3, 3), (4, 4)]);
    assert_eq!(
        walk(6, &[2, 6]),
        [
            (1, 4),
            (1, 2),
            (1, 1),
            (2, 2),
            (3, 4),
            (5, 6),
            (5, 5),
            (6, 6)
        ]
    );
}

/// Every set of few days, every limit, every N.
#[test]
fn every_set_and_every_limit() {
    let mut calls = 0;
    for (n, d) in small_layouts(9) {
        for set in 0..1u32 << d {
            let changed = days_of(d, set);
            let outcomes = table(Layout::tree(n), d, &changed);
            assert_eq!(outcomes, tree_table(n, d, &changed));
            let length = walk(d, &changed).len() as u32;
            for limit in 0..=length + 1 {
                agrees(n, d, &changed, &outcomes, limit);
                calls += 1;
            }
            finished(n, d, &changed, &outcomes);
        }
    }
    assert!(calls > 20_000, "{calls}");
}

/// Every table of few days, given by a set or not, with every limit.
#[test]
fn every_table() {
    let tree = [(1, 4), (2, 4), (4, 4), (1, 5), (2, 6)].map(|(n, d)| (Layout::tree(n), d));
    let others = [
        (Layout::black(1, 1), 6),
        (Layout::black(2, 2), 8),
        (Layout::tile(1, 1), 4),
        (Layout::tile(2, 1), 6),
        (Layout::tile(4, 2), 8),
    ];
    for (layout, d) in tree.into_iter().chain(others) {
        let count = chains(layout, d).len();
        for bits in 0..1u32 << count {
            let outcomes: Vec<u8> = (0..count).map(|k| (bits >> k & 1) as u8).collect();
            let given = match listing(layout, d, &outcomes) {
                None => Err(Refusal::ImpossibleTable),
                Some(_) if layout.scheme != Layout::TREE => Err(Refusal::NotTree),
                Some(days) => Ok(days),
            };
            for limit in (0..=2 * d).chain([u32::MAX]) {
                let answer = search_to_vec(layout, d, &outcomes, limit)
                    .map(|(progress, days)| (numbers(progress), days));
                let expected = given.clone().map(|changed| searched(d, &changed, limit));
                assert_eq!(
                    answer, expected,
                    "{layout}, D {d}, {outcomes:?}, limit {limit}"
                );
            }
        }
    }
}

/// Days changed at random, D with many one bits and with few.
#[test]
fn more_days() {
    let mut x = 1u32;
    let mut random = |below: u32| {
        x = x.wrapping_mul(1_664_525).wrapping_add(1_013_904_223);
        (x >> 8) % below
    };
    for (n, d) in [
        (1, 100),
        (4, 124),
        (1, 127),
        (2, 128),
        (16, 144),
        (8, 1000),
        (256, 1024),
    ] {
        for share in [2, 5, 40, 300] {
            let changed: Vec<u32> = (1..=d).filter(|_| random(share) == 0).collect();
            let outcomes = tree_table(n, d, &changed);
            let length = walk(d, &changed).len() as u32;
            for limit in (0..20)
                .map(|_| random(length + 2))
                .chain([0, 1, length - 1])
            {
                agrees(n, d, &changed, &outcomes, limit);
            }
            finished(n, d, &changed, &outcomes);
        }
    }
}

#[test]
fn the_longest_tables() {
    for n in [1, 8, 256] {
        for count in [0, 1, 16, 4_096, DAYS] {
            // spread evenly: the last of each of `count` runs of days
            let changed: Vec<u32> = (1..=count).map(|k| k * (DAYS / count)).collect();
            let outcomes = tree_table(n, DAYS, &changed);
            assert_eq!(values(Layout::tree(n), DAYS), Ok(outcomes.len() as u32));
            let length = walk(DAYS, &changed).len() as u32;
            for limit in [0, 1, 17, 1_000, length / 2, length - 1] {
                agrees(n, DAYS, &changed, &outcomes, limit);
            }
            finished(n, DAYS, &changed, &outcomes);
        }
    }
    // the last day but one alone: its chain of each level, and the other half of that
    let outcomes = tree_table(1, DAYS, &[DAYS - 1]);
    let (progress, days) = search_to_vec(Layout::tree(1), DAYS, &outcomes, u32::MAX).unwrap();
    assert_eq!(numbers(progress), [33, 1, 0]);
    assert_eq!(days, [DAYS - 1]);
}

/// Four days under N 4: seven outcomes.
const LAYOUT: Layout = Layout::tree(4);
const PASS: [u8; 7] = [1; 7];
/// Day 1 fails, and no chain over it.
const IMPOSSIBLE: [u8; 7] = [0, 1, 1, 1, 1, 1, 1];

/// The refusal, with a list that stays, whatever the limit.
fn refused(layout: Layout, d: u32, outcomes: &[u8], places: usize) -> Refusal {
    let answers = [0, 1, 5, 2 * d.min(DAYS), u32::MAX].map(|limit| {
        let mut list = vec![77; places];
        let answer = search(layout, d, outcomes, limit, &mut list);
        assert_eq!(list, vec![77; places]);
        answer.unwrap_err()
    });
    assert!(answers.iter().all(|answer| *answer == answers[0]));
    answers[0]
}

#[test]
fn each_refusal_in_its_order() {
    let layout = |scheme, n, f| Layout { scheme, n, f };
    let bad = [2; 7];
    // each with all causes that come later
    for (setting, d, outcomes, places, refusal) in [
        (layout(0, 0, 0), 0, &bad[..6], 3, Refusal::BadScheme),
        (layout(4, 3, 65), 65_537, &bad[..6], 3, Refusal::BadScheme),
        (layout(3, 3, 65), 65_537, &bad[..6], 3, Refusal::BadN),
        (layout(2, 512, 0), 0, &bad[..6], 3, Refusal::BadN),
        (layout(3, 4, 2), 65_537, &bad[..6], 3, Refusal::BadF),
        (layout(1, 4, 65), 6, &bad[..6], 3, Refusal::BadF),
        (LAYOUT, 0, &bad[..6], 3, Refusal::BadD),
        (LAYOUT, 6, &bad[..6], 3, Refusal::BadD),
        (LAYOUT, 65_540, &bad[..6], 3, Refusal::BadD),
        (LAYOUT, 4, &bad[..6], 3, Refusal::ShortBuffer),
        (LAYOUT, 4, &[], 0, Refusal::ShortBuffer),
        (LAYOUT, 4, &PASS[..], 3, Refusal::ShortBuffer),
        (LAYOUT, 4, &bad[..6], 4, Refusal::FewOutcomes),
        (LAYOUT, 4, &[], 9, Refusal::FewOutcomes),
        (LAYOUT, 4, &[0, 1, 1, 1, 1, 1, 2], 4, Refusal::BadOutcome),
        (LAYOUT, 4, &[255, 1, 1, 1, 1, 1, 1], 4, Refusal::BadOutcome),
        (LAYOUT, 4, &IMPOSSIBLE[..], 4, Refusal::ImpossibleTable),
    ] {
        assert_eq!(
            refused(setting, d, outcomes, places),
            refusal,
            "{setting}, D {d}"
        );
    }
}

/// A table of scheme 1 or 2 is tested in full before it is 20.
#[test]
fn other_schemes() {
    for (layout, d, good, bad) in [
        (Layout::black(1, 2), 4, [1, 1, 0, 0], [1, 0, 1, 0]),
        (Layout::tile(4, 1), 4, [0, 1, 1, 0], [1, 1, 1, 0]),
    ] {
        assert_eq!(refused(layout, d, &good, 4), Refusal::NotTree);
        assert_eq!(refused(layout, d, &PASS[..4], 4), Refusal::NotTree);
        assert_eq!(refused(layout, d, &[0; 5], 9), Refusal::NotTree);
        assert_eq!(refused(layout, d, &bad, 4), Refusal::ImpossibleTable);
        assert_eq!(refused(layout, d, &[1, 1, 1, 2], 4), Refusal::BadOutcome);
        assert_eq!(refused(layout, d, &good[..3], 4), Refusal::FewOutcomes);
        assert_eq!(refused(layout, d, &good[..3], 3), Refusal::ShortBuffer);
        assert_eq!(refused(layout, d + 1, &[2; 3], 3), Refusal::BadD);
    }
}

/// No place more than D is needed, and none less.
#[test]
fn a_list_of_exactly_d_places() {
    let outcomes = table(LAYOUT, 4, &[1, 2, 3, 4]);
    let mut list = [77; 4];
    let progress = search(LAYOUT, 4, &outcomes, 7, &mut list).unwrap();
    assert_eq!((numbers(progress), list), ([7, 4, 0], [1, 2, 3, 4]));
    let progress = search(LAYOUT, 4, &outcomes, 0, &mut [77; 4]).unwrap();
    assert_eq!(numbers(progress), [0, 0, 4]);
}
