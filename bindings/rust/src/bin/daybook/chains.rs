//! The chains of a layout, in book order: to say in words and to draw what the library answers in numbers.

use std::fmt;
use std::ops::RangeInclusive;

use daybook::{Layout, DAYS_LIMIT, VALUE};

#[derive(Clone, Copy, Debug, PartialEq, Eq)]
pub enum Kind {
    /// Black: all days so far.
    Black,
    /// The tile chain c(i).
    Tile(u32),
    /// The tree chain of this level.
    Tree(u32),
    /// The tree chain of this level, which is the day's black value too.
    Root(u32),
}

/// The name of a scheme that is allowed.
pub fn scheme_name(scheme: u32) -> &'static str {
    match scheme {
        Layout::BLACK => "black",
        Layout::TILE => "tile",
        _ => "tree",
    }
}

/// A chain, by its name.
#[derive(Clone, Copy, Debug, PartialEq, Eq)]
pub struct Chain {
    pub kind: Kind,
    /// The day at whose close its value goes into the book.
    pub day: u32,
    n: u32,
}

impl Chain {
    /// The chain of a book that the library gives by its four.
    pub fn named(chain: daybook::Chain, n: u32) -> Chain {
        let (kind, day) = match chain.kind {
            daybook::Kind::Black => (Kind::Black, chain.last),
            daybook::Kind::Tile => (Kind::Tile(chain.index), chain.first + n - 1),
            daybook::Kind::Tree => (Kind::Tree(chain.index), chain.last),
        };
        Chain { kind, day, n }
    }

    /// The days covered, as runs from one day to another, ascending.
    pub fn runs(&self) -> Vec<(u32, u32)> {
        let last = self.day;
        match self.kind {
            Kind::Black => vec![(1, last)],
            Kind::Tree(level) | Kind::Root(level) => vec![(last - (1 << level) + 1, last)],
            Kind::Tile(0) => vec![(last - self.n + 1, last)],
            Kind::Tile(i) => {
                let (first, weight) = (last - self.n + 1, self.n >> i);
                let starts = (0..1 << (i - 1)).map(|run| first + 2 * weight * run);
                starts.map(|start| (start, start + weight - 1)).collect()
            }
        }
    }
}

impl fmt::Display for Chain {
    fn fmt(&self, out: &mut fmt::Formatter<'_>) -> fmt::Result {
        match self.kind {
            Kind::Black => write!(out, "black at day {}", self.day)?,
            Kind::Tile(i) => write!(out, "tile chain c({i}) at day {}", self.day)?,
            Kind::Tree(level) => write!(out, "tree level {level} at day {}", self.day)?,
            Kind::Root(level) => {
                write!(out, "tree level {level}, also black, at day {}", self.day)?;
            }
        }
        write!(out, ", over {}", run_text(&self.runs()))
    }
}

/// Runs of days in words.
pub fn run_text(runs: &[(u32, u32)]) -> String {
    let text = runs_listed(runs);
    match runs {
        [(first, last)] if first == last => format!("day {text}"),
        _ => format!("days {text}"),
    }
}

/// Runs of days; of many the first and the last.
pub fn runs_listed(runs: &[(u32, u32)]) -> String {
    let one = |run: &(u32, u32)| match *run {
        (first, last) if first == last => first.to_string(),
        (first, last) => format!("{first} to {last}"),
    };
    match runs {
        [first, second, .., last] if runs.len() > 4 => {
            format!("{}, {}, .. {}", one(first), one(second), one(last))
        }
        runs => runs.iter().map(one).collect::<Vec<_>>().join(", "),
    }
}

/// All chains of `d` days in book order, for a layout that is allowed.
pub fn chains(layout: Layout, d: u32) -> impl Iterator<Item = Chain> {
    (1..=d).flat_map(move |day| closing(layout, day))
}

/// The chains that close at a day.
fn closing(layout: Layout, day: u32) -> Vec<Chain> {
    let n = layout.n;
    let ends = day.is_multiple_of(n);
    let kinds: Vec<Kind> = match layout.scheme {
        Layout::TREE => {
            let top = day.trailing_zeros();
            let once = ends && day.is_power_of_two();
            let last = if once {
                Kind::Root(top)
            } else {
                Kind::Tree(top)
            };
            let black = (ends && !once).then_some(Kind::Black);
            (0..top)
                .map(Kind::Tree)
                .chain([last])
                .chain(black)
                .collect()
        }
        _ if !ends => vec![],
        Layout::TILE => {
            let tiles = (0..=n.ilog2()).map(Kind::Tile);
            tiles.chain([Kind::Black]).collect()
        }
        _ => vec![Kind::Black],
    };
    let chain = |kind| Chain { kind, day, n };
    kinds.into_iter().map(chain).collect()
}

/// The number of values through a day, whether D may be so many or not.
fn values_through(layout: Layout, day: u32) -> u32 {
    let intervals = day / layout.n;
    match layout.scheme {
        Layout::TILE => intervals * (2 + layout.n.ilog2()),
        Layout::TREE => {
            let once = intervals.checked_ilog2().map_or(0, |lg| 1 + lg);
            2 * day - day.count_ones() + intervals - once
        }
        _ => intervals,
    }
}

/// The numbers of days whose book has this length; none if no number of days has it.
pub fn book_days(layout: Layout, bytes: u64) -> Option<RangeInclusive<u32>> {
    let values = bytes / VALUE as u64;
    if !bytes.is_multiple_of(VALUE as u64) {
        return None;
    }
    let reaches = |least: u64| {
        let (mut low, mut high) = (0, DAYS_LIMIT + 1);
        while low < high {
            let middle = (low + high) / 2;
            if u64::from(values_through(layout, middle)) < least {
                low = middle + 1;
            } else {
                high = middle;
            }
        }
        low
    };
    let (first, past) = (reaches(values), reaches(values + 1));
    (first < past).then(|| first..=(past - 1).min(DAYS_LIMIT))
}

#[cfg(test)]
#[path = "../../../tests/common/mod.rs"]
mod plain;

#[cfg(test)]
mod tests {
    use super::*;

    fn layouts() -> Vec<Layout> {
        let sizes = [1, 2, 4, 16];
        let all = |n| [Layout::black(n, 1), Layout::tile(n, 1), Layout::tree(n)];
        sizes.into_iter().flat_map(all).collect()
    }

    #[test]
    fn the_chains_are_those_of_the_request() {
        for layout in layouts() {
            let days = |chain: Chain| -> Vec<u32> {
                let runs = chain.runs().into_iter();
                runs.flat_map(|(first, last)| first..=last).collect()
            };
            let all: Vec<Vec<u32>> = chains(layout, 48).map(days).collect();
            assert_eq!(all, plain::chains(layout, 48), "{layout}");
        }
    }

    /// The four that the library gives name the same days.
    #[test]
    fn chains_by_their_four() {
        for layout in layouts() {
            for (place, chain) in chains(layout, 48).enumerate() {
                let four = daybook::chain_at(layout, 48, place as u32).unwrap();
                let named = Chain::named(four, layout.n);
                assert_eq!(named.runs(), chain.runs(), "{layout}, {place}");
                assert_eq!(named.day, chain.day, "{layout}, {place}");
            }
        }
    }

    #[test]
    fn the_days_of_a_length() {
        for layout in layouts() {
            let count = |d| plain::chains(layout, d).len() as u64;
            let counts: Vec<u64> = (0..=60).map(count).collect();
            for bytes in 0..=32 * counts[40] {
                let fits = (0..=60).filter(|d| 32 * counts[*d as usize] == bytes);
                let fits: Vec<u32> = fits.collect();
                let range = fits.first().map(|first| *first..=fits[fits.len() - 1]);
                assert_eq!(book_days(layout, bytes), range, "{layout}, {bytes}");
            }
        }
    }

    #[test]
    fn lengths_at_the_limit() {
        assert_eq!(book_days(Layout::tree(1), 6_290_880), Some(65_536..=65_536));
        assert_eq!(book_days(Layout::tree(1), 6_290_912), None);
        assert_eq!(
            book_days(Layout::black(256, 1), 8192),
            Some(65_536..=65_536)
        );
        assert_eq!(book_days(Layout::black(1, 1), u64::MAX), None);
        assert_eq!(book_days(Layout::black(1, 1), 32 * 0xffff_ffff), None);
    }

    #[test]
    fn chains_in_words() {
        let words = |layout, d| -> Vec<String> {
            chains(layout, d).map(|chain| chain.to_string()).collect()
        };
        assert_eq!(
            words(Layout::tile(4, 1), 8)[4..],
            [
                "tile chain c(0) at day 8, over days 5 to 8",
                "tile chain c(1) at day 8, over days 5 to 6",
                "tile chain c(2) at day 8, over days 5, 7",
                "black at day 8, over days 1 to 8",
            ]
        );
        assert_eq!(
            words(Layout::tree(1), 3),
            [
                "tree level 0, also black, at day 1, over day 1",
                "tree level 0 at day 2, over day 2",
                "tree level 1, also black, at day 2, over days 1 to 2",
                "tree level 0 at day 3, over day 3",
                "black at day 3, over days 1 to 3",
            ]
        );
        assert_eq!(
            words(Layout::tile(16, 1), 16)[4],
            "tile chain c(4) at day 16, over days 1, 3, .. 15"
        );
    }
}
