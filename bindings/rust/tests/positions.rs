//! From a position of the book to its chain, and back: against the book listed by the definitions.

mod common;

use std::collections::HashMap;

use common::{chains, days, ledger, start, value};
use daybook::{chain_at, position_of, seal_to_vec, values, Chain, Kind, Layout, Refusal, VALUE};

fn chain(kind: Kind, index: u32, first: u32, last: u32) -> Chain {
    Chain {
        kind,
        index,
        first,
        last,
    }
}

fn black(g: u32) -> Chain {
    chain(Kind::Black, 0, 1, g)
}

/// The chains that close at day `g` by their four, in order.
fn closing(layout: Layout, g: u32) -> Vec<Chain> {
    let n = layout.n;
    let ends = g.is_multiple_of(n);
    match layout.scheme {
        Layout::BLACK if ends => vec![black(g)],
        Layout::TILE if ends => {
            let tiles = (0..=n.ilog2()).map(|i| tile(n, i, g));
            tiles.chain([black(g)]).collect()
        }
        Layout::TREE => {
            let levels = (0..).take_while(|level| g.is_multiple_of(1 << level));
            let mut found: Vec<Chain> = levels
                .map(|level| chain(Kind::Tree, level, g - (1 << level) + 1, g))
                .collect();
            // stored once where the last level is over all days
            if ends && found[found.len() - 1].first != 1 {
                found.push(black(g));
            }
            found
        }
        _ => vec![],
    }
}

/// c(i) of the tile that ends at `g`: the first and the last of its days, looked for one by one.
fn tile(n: u32, i: u32, g: u32) -> Chain {
    let covers = |day: &u32| i == 0 || ((day - 1) % n) & (n >> i) == 0;
    let mut days = (g - n + 1..=g).filter(covers);
    let first = days.next().unwrap();
    chain(Kind::Tile, i, first, days.next_back().unwrap_or(first))
}

/// The book of `d` days, by the four of each chain.
fn listed(layout: Layout, d: u32) -> Vec<Chain> {
    (1..=d).flat_map(|g| closing(layout, g)).collect()
}

/// Layouts of all three schemes with this N.
fn layouts(n: u32, f: u32) -> [Layout; 3] {
    [Layout::black(n, f), Layout::tile(n, f), Layout::tree(n)]
}

/// Each position of the book gives the chain listed there, and that chain the position; none is beyond.
fn compare(layout: Layout, d: u32) {
    let listed = listed(layout, d);
    let count = listed.len() as u32;
    assert_eq!(values(layout, d), Ok(count), "{layout}, D {d}");
    for (place, chain) in (0..).zip(&listed) {
        let found = chain_at(layout, d, place);
        assert_eq!(found, Ok(*chain), "{layout}, D {d}, {place}");
        assert_eq!(
            position_of(layout, d, *chain),
            Ok(place),
            "{layout}, D {d}, {chain:?}"
        );
    }
    for place in [count, count + 1, 2 * count, 1 << 31, u32::MAX] {
        let beyond = chain_at(layout, d, place);
        assert_eq!(beyond, Err(Refusal::NotInBook), "{layout}, D {d}, {place}");
    }
}

#[test]
fn the_listed_books_are_those_of_the_definitions() {
    for n in [1, 2, 4, 8, 16] {
        for layout in layouts(n, 1) {
            let ends = |days: &Vec<u32>| (days[0], days[days.len() - 1]);
            let covered: Vec<(u32, u32)> = chains(layout, 48).iter().map(ends).collect();
            let found = listed(layout, 48).into_iter();
            let found: Vec<(u32, u32)> = found.map(|chain| (chain.first, chain.last)).collect();
            assert_eq!(found, covered, "{layout}");
        }
    }
}

#[test]
fn every_position_of_short_books() {
    for n in (0..=8).map(|lg| 1 << lg) {
        for f in [1, 2, 3] {
            for layout in layouts(n, f) {
                let step = layout.f * n;
                for d in (step..=6 * step).step_by(step as usize) {
                    compare(layout, d);
                }
            }
        }
    }
}

#[test]
fn every_position_of_the_thousand_days() {
    for layout in layouts(8, 25) {
        compare(layout, 1000);
    }
    // 125 intervals; in each a tile's chains and black; the levels 0 to 3 of day 1000 and black
    let at = |layout, place| chain_at(layout, 1000, place).unwrap();
    assert_eq!(at(Layout::black(8, 25), 124), black(1000));
    let tile = Layout::tile(8, 25);
    assert_eq!(at(tile, 620), chain(Kind::Tile, 0, 993, 1000));
    assert_eq!(at(tile, 621), chain(Kind::Tile, 1, 993, 996));
    assert_eq!(at(tile, 622), chain(Kind::Tile, 2, 993, 998));
    assert_eq!(at(tile, 623), chain(Kind::Tile, 3, 993, 999));
    assert_eq!(at(tile, 624), black(1000));
    let tree = Layout::tree(8);
    assert_eq!(at(tree, 2107), chain(Kind::Tree, 0, 1000, 1000));
    assert_eq!(at(tree, 2110), chain(Kind::Tree, 3, 993, 1000));
    assert_eq!(at(tree, 2111), black(1000));
}

#[test]
fn every_position_of_65_536_days() {
    for n in [1, 8, 256] {
        for layout in layouts(n, 1) {
            compare(layout, 65_536);
        }
    }
    compare(Layout::black(256, 64), 65_536);
    compare(Layout::tile(256, 64), 65_536);
    let last = |layout| {
        let count = values(layout, 65_536).unwrap();
        chain_at(layout, 65_536, count - 1).unwrap()
    };
    assert_eq!(last(Layout::black(1, 1)), black(65_536));
    assert_eq!(last(Layout::tile(256, 64)), black(65_536));
    // stored once
    let root = chain(Kind::Tree, 16, 1, 65_536);
    assert_eq!(last(Layout::tree(1)), root);
    assert_eq!(last(Layout::tree(256)), root);
    let third = chain_at(Layout::tree(1), 65_536, 196_588).unwrap();
    assert_eq!(third, chain(Kind::Tree, 15, 32_769, 65_536));
}

/// The position of a chain does not depend on how many days follow.
#[test]
fn longer_books_begin_alike() {
    for layout in layouts(4, 1) {
        let count = values(layout, 64).unwrap();
        for place in 0..count {
            let chain = chain_at(layout, 64, place).unwrap();
            assert_eq!(chain_at(layout, 65_536, place), Ok(chain), "{layout}");
            assert_eq!(position_of(layout, 65_536, chain), Ok(place), "{layout}");
        }
    }
}

#[test]
fn examples() {
    let at = |layout, d, place| chain_at(layout, d, place).unwrap();
    assert_eq!(at(Layout::black(2, 3), 24, 7), black(16));
    let tile = Layout::tile(4, 1);
    assert_eq!(at(tile, 8, 4), chain(Kind::Tile, 0, 5, 8));
    assert_eq!(at(tile, 8, 5), chain(Kind::Tile, 1, 5, 6));
    assert_eq!(at(tile, 8, 6), chain(Kind::Tile, 2, 5, 7));
    assert_eq!(at(tile, 8, 7), black(8));
    let tree = Layout::tree(2);
    assert_eq!(at(tree, 16, 15), chain(Kind::Tree, 3, 1, 8));
    assert_eq!(at(tree, 16, 23), chain(Kind::Tree, 2, 9, 12));
    assert_eq!(at(tree, 16, 24), black(12));
    assert_eq!(at(tree, 16, 34), chain(Kind::Tree, 4, 1, 16));
    assert_eq!(chain_at(tree, 16, 35), Err(Refusal::NotInBook));
}

/// c(i) ends at g - N/2^i; with the tile's end or any other day it is not in the book.
#[test]
fn the_last_day_of_a_tile_chain() {
    for n in (1..=8).map(|lg| 1u32 << lg) {
        let layout = Layout::tile(n, 1);
        for g in (n..=4 * n).step_by(n as usize) {
            for i in 1..=n.ilog2() {
                let place = (g / n - 1) * (2 + n.ilog2()) + i;
                let found = chain_at(layout, 4 * n, place).unwrap();
                assert_eq!(found, chain(Kind::Tile, i, g - n + 1, g - n / 2u32.pow(i)));
                for last in (g - n..=g + 1).filter(|last| *last != found.last) {
                    let wrong = Chain { last, ..found };
                    let answer = position_of(layout, 4 * n, wrong);
                    assert_eq!(answer, Err(Refusal::NotInBook), "{wrong:?}");
                }
            }
        }
    }
}

/// Numbers near a book's own and as far from them as can be.
fn numbers(d: u32) -> impl Iterator<Item = u32> {
    let far = [
        255,
        256,
        65_535,
        65_536,
        65_537,
        1 << 31,
        u32::MAX - 1,
        u32::MAX,
    ];
    (0..=d + 2).chain(far)
}

/// The chain with each of its four in turn replaced by each number.
fn one_replaced(right: Chain, d: u32) -> Vec<Chain> {
    let mut out: Vec<Chain> = Kind::ALL.map(|kind| Chain { kind, ..right }).to_vec();
    for number in numbers(d) {
        out.push(Chain {
            index: number,
            ..right
        });
        out.push(Chain {
            first: number,
            ..right
        });
        out.push(Chain {
            last: number,
            ..right
        });
    }
    out
}

/// What the book says of a chain: its place, or 18.
fn due(places: &HashMap<Chain, u32>, chain: Chain) -> Result<u32, Refusal> {
    places.get(&chain).copied().ok_or(Refusal::NotInBook)
}

/// The places of a book's chains, no two of which are the same.
fn places(layout: Layout, d: u32) -> HashMap<Chain, u32> {
    let listed = listed(layout, d);
    let count = listed.len();
    let places: HashMap<Chain, u32> = listed.into_iter().zip(0..).collect();
    assert_eq!(places.len(), count, "{layout}");
    places
}

#[test]
fn one_of_the_four_is_another() {
    for n in [1, 2, 4, 8] {
        for layout in layouts(n, 2) {
            let d = 4 * n * layout.f;
            let places = places(layout, d);
            for right in places.keys() {
                for other in one_replaced(*right, d) {
                    assert_eq!(
                        position_of(layout, d, other),
                        due(&places, other),
                        "{layout}, D {d}, {other:?}"
                    );
                }
            }
        }
    }
}

#[test]
fn every_four_of_short_books() {
    for (n, d) in [(1, 1), (1, 6), (2, 8), (4, 8), (8, 8), (4, 12)] {
        for layout in layouts(n, 1) {
            let places = places(layout, d);
            let mut found = 0;
            for kind in Kind::ALL {
                for index in 0..6 {
                    for first in 0..=d + 1 {
                        for last in 0..=d + 1 {
                            let four = chain(kind, index, first, last);
                            let answer = position_of(layout, d, four);
                            assert_eq!(answer, due(&places, four), "{layout}, {four:?}");
                            found += usize::from(answer.is_ok());
                        }
                    }
                }
            }
            assert_eq!(found, places.len(), "{layout}");
        }
    }
}

#[test]
fn a_value_stored_once_is_tree_only() {
    for n in (0..=8).map(|lg| 1 << lg) {
        let layout = Layout::tree(n);
        for level in n.ilog2()..=16 {
            let g = 1 << level;
            let none = Err(Refusal::NotInBook);
            assert_eq!(position_of(layout, 65_536, black(g)), none, "{layout}, {g}");
            let root = chain(Kind::Tree, level, 1, g);
            let place = position_of(layout, 65_536, root).unwrap();
            assert_eq!(chain_at(layout, 65_536, place), Ok(root));
            // every other black is in the book
            let next = g + n;
            if next < 2 * g && next <= 65_536 {
                assert!(position_of(layout, 65_536, black(next)).is_ok());
            }
        }
    }
}

/// The sealed value at a position is that of the chain found there, hashed day by day.
#[test]
fn the_values_are_those_of_the_chains() {
    for n in [1, 4, 16] {
        for layout in layouts(n, 1) {
            let d = 3 * n.max(8);
            let (days, covered) = (days(d), chains(layout, d));
            let (ledger, ends) = ledger(&days);
            let book = seal_to_vec(layout, d, &ledger, &ends).unwrap();
            for (place, bytes) in (0..).zip(book.chunks_exact(VALUE)) {
                let found = chain_at(layout, d, place).unwrap();
                // only black and c(0) of the first tile share these, and they have the same value
                let over =
                    |days: &&Vec<u32>| days[0] == found.first && days[days.len() - 1] == found.last;
                let chain = covered.iter().find(over).unwrap();
                let value = value(start(layout), chain, &days);
                assert_eq!(value, bytes, "{layout}, {place}");
            }
        }
    }
}

#[test]
fn refusals_in_their_order() {
    let nowhere = chain(Kind::Tree, u32::MAX, u32::MAX, u32::MAX);
    let refused = |layout, d| {
        let refusal = chain_at(layout, d, u32::MAX).unwrap_err();
        assert_eq!(
            position_of(layout, d, nowhere),
            Err(refusal),
            "{layout}, {d}"
        );
        refusal
    };
    let bad = |scheme, n, f| refused(Layout { scheme, n, f }, 3);
    assert_eq!(bad(0, 3, 0), Refusal::BadScheme);
    assert_eq!(bad(4, 3, 0), Refusal::BadScheme);
    assert_eq!(bad(2, 3, 0), Refusal::BadN);
    assert_eq!(bad(2, 512, 65), Refusal::BadN);
    assert_eq!(bad(2, 4, 65), Refusal::BadF);
    assert_eq!(bad(3, 4, 2), Refusal::BadF);
    // 7 before 18
    for d in [0, 4, 12, 65_537, u32::MAX] {
        assert_eq!(refused(Layout::tile(4, 2), d), Refusal::BadD, "{d}");
    }
    assert_eq!(refused(Layout::tile(4, 2), 8), Refusal::NotInBook);
    // a chain of the book, with a D that is not allowed
    let first = chain(Kind::Tile, 0, 1, 4);
    assert_eq!(position_of(Layout::tile(4, 2), 8, first), Ok(0));
    let other = position_of(Layout::tile(4, 2), 12, first);
    assert_eq!(other, Err(Refusal::BadD));
}
