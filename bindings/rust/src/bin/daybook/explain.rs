//! Which day or value a refusal speaks of, in words.

use daybook::{position_of, Kind, Layout, DAY_LIMIT, VALUE};

use crate::chains::{chains, run_text, Chain};

/// Refusal 10: the first of `d` days whose end is wrong, and why. `length` is that of the ledger.
pub fn bad_end(ends: &[u32], d: u32, length: u64, names: Option<&[String]>) -> Option<String> {
    let mut start = 0;
    for (day, end) in (1..=d).zip(ends) {
        let name = day_name(day, names);
        if *end < start {
            return Some(format!("{name} ends at {end}, before it starts at {start}"));
        }
        if u64::from(*end) > length {
            return Some(format!(
                "{name} ends at {end}, and the ledger has {length} bytes"
            ));
        }
        if end - start > DAY_LIMIT {
            return Some(format!("{name} has more than {DAY_LIMIT} bytes"));
        }
        start = *end;
    }
    None
}

/// Refusal 17: the first of `d` days whose length is over the limit.
pub fn long_day(lengths: &[u32], d: u32, names: Option<&[String]>) -> Option<String> {
    let mut days = (1..=d).zip(lengths);
    let (day, _) = days.find(|(_, length)| **length > DAY_LIMIT)?;
    let name = day_name(day, names);
    Some(format!("{name} has more than {DAY_LIMIT} bytes"))
}

/// A day, with its name where it has one.
pub fn day_name(day: u32, names: Option<&[String]>) -> String {
    let name = (day as usize)
        .checked_sub(1)
        .and_then(|place| names?.get(place));
    match name {
        Some(name) => format!("day {day} ({name})"),
        None => format!("day {day}"),
    }
}

/// Refusal 19: why this cannot be the last day at which a check passed.
pub fn bad_passed(layout: Layout, d: u32, passed: u32) -> String {
    let why = match passed < d {
        true => format!("no multiple of N, which is {}", layout.n),
        false => format!("not below D, which is {d}"),
    };
    format!("P {passed}, the last day at which a check passed, is {why}")
}

/// Refusal 11: what the book has and needs.
pub fn short_book(values: u32, bytes: usize) -> String {
    let need = VALUE as u64 * u64::from(values);
    format!("the book has {bytes} bytes, and {values} values need {need}")
}

/// Refusal 13: the first outcome that is neither 0 nor 1.
pub fn bad_outcome(layout: Layout, d: u32, outcomes: &[u8]) -> Option<String> {
    let (place, chain) = chains(layout, d)
        .enumerate()
        .find(|(place, _)| outcomes.get(*place).is_some_and(|outcome| *outcome > 1))?;
    let outcome = outcomes[place];
    Some(format!("{} is {outcome}", value_name(place, &chain)))
}

/// Refusal 14: the first failing value whose days all stand in values that pass. A set of changed
/// days gives the table if and only if there is none: the days in no passing value are then such a
/// set.
pub fn impossible_value(layout: Layout, d: u32, outcomes: &[u8]) -> Option<String> {
    let open = days_not_cleared(layout, d, outcomes);
    let before = |day: u32| open[day as usize];
    let contradicted = |chain: &Chain| {
        let runs = chain.runs();
        runs.iter()
            .all(|(first, last)| before(first - 1) == before(*last))
    };
    let mut values = chains(layout, d).zip(outcomes).enumerate();
    let (place, (chain, _)) =
        values.find(|(_, (chain, outcome))| **outcome == 0 && contradicted(chain))?;
    Some(format!(
        "{} fails, though each day that it covers is in a value that passes",
        value_name(place, &chain)
    ))
}

/// How many of the days 1 to g no passing value covers, for g from 0 to D.
fn days_not_cleared(layout: Layout, d: u32, outcomes: &[u8]) -> Vec<u32> {
    let mut steps = vec![0i64; d as usize + 2];
    for (chain, outcome) in chains(layout, d).zip(outcomes) {
        if *outcome == 1 {
            for (first, last) in chain.runs() {
                steps[first as usize] += 1;
                steps[last as usize + 1] -= 1;
            }
        }
    }
    let (mut covering, mut open) = (0, vec![0]);
    for day in 1..=d as usize {
        covering += steps[day];
        open.push(open[day - 1] + u32::from(covering == 0));
    }
    open
}

fn value_name(place: usize, chain: &Chain) -> String {
    format!("value {} of the book ({chain})", place + 1)
}

/// Refusal 18: a position beyond the book's values.
pub fn no_position(values: u32, position: u32) -> String {
    let last = values.saturating_sub(1);
    format!("the positions are 0 to {last}, and {position} is beyond them")
}

/// Refusal 18: why no chain of the book has these four.
pub fn no_chain(layout: Layout, d: u32, chain: daybook::Chain) -> String {
    match chain.kind {
        Kind::Black => no_black(layout, d, chain),
        Kind::Tile => no_tile(layout, d, chain.index),
        Kind::Tree => no_tree(layout, d, chain.index),
    }
}

fn no_black(layout: Layout, d: u32, chain: daybook::Chain) -> String {
    let (n, last) = (layout.n, chain.last);
    if chain.index != 0 {
        return "the index of black is 0".to_string();
    }
    let level = last.checked_ilog2().unwrap_or_default();
    let root = daybook::Chain {
        kind: Kind::Tree,
        index: level,
        ..chain
    };
    match position_of(layout, d, root) {
        Ok(position) if last.is_multiple_of(n) => format!(
            "black over {} is stored once, as tree level {level}: at position {position}",
            run_text(&[(1, last)])
        ),
        _ => format!("black goes from day 1 to a multiple of {n}, up to day {d}"),
    }
}

fn no_tile(layout: Layout, d: u32, index: u32) -> String {
    let (scheme, n) = (layout.scheme, layout.n);
    if scheme != Layout::TILE {
        return format!("scheme {scheme} has no tile chains");
    }
    if index > n.ilog2() {
        let top = n.ilog2();
        return format!("with N {n} the last tile chain of a day is {top}");
    }
    let last = if index == 0 { n } else { n - (n >> index) };
    format!(
        "tile chain {index} goes from day 1 to {last}, and so on by {n}, in tiles up to day {d}"
    )
}

fn no_tree(layout: Layout, d: u32, level: u32) -> String {
    let scheme = layout.scheme;
    if scheme != Layout::TREE {
        return format!("scheme {scheme} has no tree chains");
    }
    if level > d.ilog2() {
        let top = d.ilog2();
        return format!("with D {d} the highest level of the tree is {top}");
    }
    let span = 1 << level;
    format!("tree level {level} goes from day 1 to {span}, and so on by {span}, up to day {d}")
}

#[cfg(test)]
mod tests {
    use super::*;

    #[test]
    fn the_first_wrong_end() {
        let said = |ends: &[u32], d, length| bad_end(ends, d, length, None);
        assert_eq!(said(&[3, 7, 7], 3, 7), None);
        assert_eq!(
            said(&[3, 2, 1], 3, 7).unwrap(),
            "day 2 ends at 2, before it starts at 3"
        );
        assert_eq!(
            said(&[3, 8, 1], 3, 7).unwrap(),
            "day 2 ends at 8, and the ledger has 7 bytes"
        );
        assert_eq!(said(&[3, 8], 1, 7), None);
        let names = ["a%2Cb".to_string(), "c".to_string()];
        assert_eq!(
            bad_end(&[16_777_217, 16_777_217], 2, 20_000_000, Some(&names)).unwrap(),
            "day 1 (a%2Cb) has more than 16777216 bytes"
        );
        assert_eq!(
            said(&[16_777_216, 33_554_433], 2, 40_000_000).unwrap(),
            "day 2 has more than 16777216 bytes"
        );
    }

    #[test]
    fn the_first_long_day() {
        let lengths = [16_777_216, 16_777_217, u32::MAX];
        assert_eq!(long_day(&lengths, 1, None), None);
        assert_eq!(
            long_day(&lengths, 3, None).unwrap(),
            "day 2 has more than 16777216 bytes"
        );
        let names = ["a".to_string(), "b%2C".to_string()];
        assert_eq!(
            long_day(&lengths, 3, Some(&names)).unwrap(),
            "day 2 (b%2C) has more than 16777216 bytes"
        );
    }

    #[test]
    fn the_first_impossible_value() {
        let said = |layout, d, table: &[u8]| impossible_value(layout, d, table);
        assert_eq!(
            said(Layout::tile(4, 1), 4, &[1, 1, 1, 0]).unwrap(),
            "value 4 of the book (black at day 4, over days 1 to 4) fails, \
             though each day that it covers is in a value that passes"
        );
        assert_eq!(
            said(Layout::tree(1), 2, &[1, 1, 0]).unwrap(),
            "value 3 of the book (tree level 1, also black, at day 2, over days 1 to 2) fails, \
             though each day that it covers is in a value that passes"
        );
        // day 2 fails alone, and a pass over both days clears it
        assert!(said(Layout::tree(1), 2, &[1, 0, 1])
            .unwrap()
            .starts_with("value 2 of the book (tree level 0 at day 2, over day 2)"));
        assert_eq!(said(Layout::tree(1), 2, &[1, 0, 0]), None);
    }

    /// A table has an impossible value exactly if the library refuses it with 14.
    #[test]
    fn refused_exactly_if_a_value_is_impossible() {
        let layouts = [
            (Layout::black(1, 1), 6),
            (Layout::tile(2, 1), 6),
            (Layout::tile(4, 1), 8),
            (Layout::tree(2), 6),
        ];
        for (layout, d) in layouts {
            let values = chains(layout, d).count();
            for bits in 0..1u32 << values {
                let table: Vec<u8> = (0..values).map(|v| (bits >> v & 1) as u8).collect();
                let refused = daybook::read_to_vec(layout, d, 0, &table).is_err();
                let said = impossible_value(layout, d, &table);
                assert_eq!(said.is_some(), refused, "{layout} {table:?}");
            }
        }
    }

    #[test]
    fn no_such_position() {
        assert_eq!(
            no_position(35, 35),
            "the positions are 0 to 34, and 35 is beyond them"
        );
    }

    #[test]
    fn no_such_chain() {
        let said = |layout, d, (kind, index, first, last)| {
            let chain = daybook::Chain {
                kind,
                index,
                first,
                last,
            };
            assert!(position_of(layout, d, chain).is_err(), "{chain:?}");
            no_chain(layout, d, chain)
        };
        let (black, tile, tree) = (Layout::black(2, 3), Layout::tile(16, 2), Layout::tree(2));
        let by_two = "black goes from day 1 to a multiple of 2, up to day 24";
        for days in [(2, 4), (1, 3), (1, 26), (0, 0), (1, u32::MAX)] {
            let chain = (Kind::Black, 0, days.0, days.1);
            assert_eq!(said(black, 24, chain), by_two);
        }
        let second = (Kind::Black, 1, 1, 4);
        assert_eq!(said(black, 24, second), "the index of black is 0");
        for (layout, scheme) in [(black, 1), (tree, 3)] {
            assert_eq!(
                said(layout, 48, (Kind::Tile, 0, 1, 2)),
                format!("scheme {scheme} has no tile chains")
            );
        }
        for (layout, scheme) in [(black, 1), (tile, 2)] {
            assert_eq!(
                said(layout, 96, (Kind::Tree, 0, 1, 1)),
                format!("scheme {scheme} has no tree chains")
            );
        }
        assert_eq!(
            said(tile, 64, (Kind::Tile, 5, 17, 31)),
            "with N 16 the last tile chain of a day is 4"
        );
        assert_eq!(
            said(tile, 64, (Kind::Tile, 2, 17, 32)),
            "tile chain 2 goes from day 1 to 12, and so on by 16, in tiles up to day 64"
        );
        assert_eq!(
            said(tile, 64, (Kind::Tile, 0, 17, 31)),
            "tile chain 0 goes from day 1 to 16, and so on by 16, in tiles up to day 64"
        );
        assert_eq!(
            said(tree, 16, (Kind::Tree, 2, 8, 12)),
            "tree level 2 goes from day 1 to 4, and so on by 4, up to day 16"
        );
        for level in [5, 31, 32, u32::MAX] {
            assert_eq!(
                said(tree, 16, (Kind::Tree, level, 1, 16)),
                "with D 16 the highest level of the tree is 4"
            );
        }
    }

    #[test]
    fn black_that_is_stored_once() {
        let said = |n, d, first, last| {
            let chain = daybook::Chain {
                kind: Kind::Black,
                index: 0,
                first,
                last,
            };
            no_chain(Layout::tree(n), d, chain)
        };
        assert_eq!(
            said(2, 16, 1, 8),
            "black over days 1 to 8 is stored once, as tree level 3: at position 15"
        );
        assert_eq!(
            said(1, 4, 1, 1),
            "black over day 1 is stored once, as tree level 0: at position 0"
        );
        // no black closes at these days, or it begins at day 1, or the book ends before
        let plain = "black goes from day 1 to a multiple of 4, up to day 16";
        for (first, last) in [(1, 2), (5, 8), (1, 32), (1, 1 << 31), (0, 0)] {
            assert_eq!(said(4, 16, first, last), plain);
        }
    }

    #[test]
    fn days_at_which_no_check_passed() {
        let said = |passed| bad_passed(Layout::tile(16, 2), 64, passed);
        let start = |passed: u32| format!("P {passed}, the last day at which a check passed, is ");
        for passed in [64, 65, 80, u32::MAX] {
            assert_eq!(said(passed), start(passed) + "not below D, which is 64");
        }
        for passed in [1, 24, 63] {
            assert_eq!(
                said(passed),
                start(passed) + "no multiple of N, which is 16"
            );
        }
    }

    #[test]
    fn other_causes() {
        assert_eq!(
            short_book(8, 255),
            "the book has 255 bytes, and 8 values need 256"
        );
        assert_eq!(
            bad_outcome(Layout::black(2, 1), 4, &[1, 7]).unwrap(),
            "value 2 of the book (black at day 4, over days 1 to 4) is 7"
        );
        assert_eq!(bad_outcome(Layout::black(2, 1), 4, &[1, 0, 9]), None);
    }
}
