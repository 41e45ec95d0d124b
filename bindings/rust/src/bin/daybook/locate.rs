//! From a position of the book to its chain, and back.

use daybook::{chain_at, position_of, values, Chain, Kind, Layout, Refusal};

use crate::arguments::Sought;
use crate::chains::{run_text, runs_listed, scheme_name, Chain as Covering};
use crate::commands::{Answer, Done};
use crate::explain::{no_chain, no_position};
use crate::stop::Stop;

pub fn locate(layout: Layout, d: u32, sought: Sought, line: bool) -> Result<Done, Stop> {
    let book = Book { layout, d };
    let (position, chain) = match sought {
        Sought::Position(position) => (position, book.chain_at(position)?),
        Sought::Chain(chain) => (book.position_of(chain)?, chain),
    };
    let lines = match sought {
        _ if line => line_of(position, chain),
        Sought::Position(_) => format!("{}\n", text(chain, layout.n)),
        Sought::Chain(_) => format!("position {position}\n"),
    };
    Ok(Done {
        lines,
        answer: Answer::Clean,
    })
}

/// What is known of the book: it is not read.
struct Book {
    layout: Layout,
    d: u32,
}

impl Book {
    fn chain_at(&self, position: u32) -> Result<Chain, Stop> {
        chain_at(self.layout, self.d, position).map_err(|refusal| {
            let numbers = format!("position {position}");
            self.refused(refusal, &numbers, || {
                let count = values(self.layout, self.d).unwrap_or_default();
                no_position(count, position)
            })
        })
    }

    fn position_of(&self, chain: Chain) -> Result<u32, Stop> {
        position_of(self.layout, self.d, chain).map_err(|refusal| {
            self.refused(refusal, &numbers_of(chain), || {
                no_chain(self.layout, self.d, chain)
            })
        })
    }

    /// A refusal with its numbers; of 18 also the reason.
    fn refused(&self, refusal: Refusal, numbers: &str, reason: impl Fn() -> String) -> Stop {
        let context = format!("{}, D {}, {numbers}", self.layout, self.d);
        match refusal {
            Refusal::NotInBook => Stop::Explained(refusal, context, vec![reason()]),
            _ => Stop::Refused(refusal, context),
        }
    }
}

/// The four numbers of a chain, for a message.
fn numbers_of(chain: Chain) -> String {
    let [kind, index, first, last] = chain.numbers();
    let kind = scheme_name(kind);
    format!("kind {kind}, index {index}, first {first}, last {last}")
}

/// A chain of the book in words.
fn text(chain: Chain, n: u32) -> String {
    let days = days_text(&Covering::named(chain, n).runs());
    match chain.kind {
        Kind::Black => format!("black, {days}"),
        Kind::Tile => format!("tile chain {}, {days}", chain.index),
        Kind::Tree => format!("tree level {}, {days}", chain.index),
    }
}

/// The days of a chain. Where some between the first and the last are not among them, their number too.
fn days_text(runs: &[(u32, u32)]) -> String {
    let (Some((first, _)), Some((_, last)), true) = (runs.first(), runs.last(), runs.len() > 1)
    else {
        return run_text(runs);
    };
    let count: u32 = runs.iter().map(|(first, last)| last - first + 1).sum();
    let days = runs_listed(runs);
    format!("{count} days from {first} to {last}: {days}")
}

/// Position and chain as a line for programs.
fn line_of(position: u32, chain: Chain) -> String {
    let [kind, index, first, last] = chain.numbers();
    format!("CHAIN,{position},{kind},{index},{first},{last}\n")
}

#[cfg(test)]
mod tests {
    use super::*;

    fn words(layout: Layout, d: u32, position: u32) -> String {
        text(chain_at(layout, d, position).unwrap(), layout.n)
    }

    #[test]
    fn chains_in_words() {
        let tree = Layout::tree(2);
        assert_eq!(words(tree, 16, 23), "tree level 2, days 9 to 12");
        assert_eq!(words(tree, 16, 24), "black, days 1 to 12");
        assert_eq!(words(tree, 16, 7), "tree level 0, day 5");
        assert_eq!(words(tree, 16, 15), "tree level 3, days 1 to 8");
        assert_eq!(words(Layout::black(1, 1), 1, 0), "black, day 1");
        assert_eq!(words(Layout::tile(1, 1), 3, 4), "tile chain 0, day 3");
        assert_eq!(words(Layout::tile(2, 1), 4, 4), "tile chain 1, day 3");
    }

    /// From c(2) on a tile chain does not cover all days from its first to its last.
    #[test]
    fn tile_chains_in_words() {
        let tile = Layout::tile(16, 2);
        let second: Vec<String> = (6..12).map(|place| words(tile, 64, place)).collect();
        assert_eq!(
            second,
            [
                "tile chain 0, days 17 to 32",
                "tile chain 1, days 17 to 24",
                "tile chain 2, 8 days from 17 to 28: 17 to 20, 25 to 28",
                "tile chain 3, 8 days from 17 to 30: 17 to 18, 21 to 22, 25 to 26, 29 to 30",
                "tile chain 4, 8 days from 17 to 31: 17, 19, .. 31",
                "black, days 1 to 32",
            ]
        );
        assert_eq!(
            words(Layout::tile(4, 1), 8, 6),
            "tile chain 2, 2 days from 5 to 7: 5, 7"
        );
    }

    #[test]
    fn lines_for_programs() {
        let chain = Chain {
            kind: Kind::Tree,
            index: 2,
            first: 9,
            last: 12,
        };
        assert_eq!(line_of(23, chain), "CHAIN,23,3,2,9,12\n");
        assert_eq!(numbers_of(chain), "kind tree, index 2, first 9, last 12");
    }
}
