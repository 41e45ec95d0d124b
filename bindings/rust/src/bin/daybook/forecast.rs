//! What sealing a season will take, before it is sealed.

use daybook::{Layout, Refusal, Sizes, VALUE};

use crate::arguments::Lengths;
use crate::chains::scheme_name;
use crate::commands::{labels, warn_of_order, Answer, Done};
use crate::explain::long_day;
use crate::fit::Fit;
use crate::lengths::Found;
use crate::stop::Stop;

pub fn forecast(
    layout: Layout,
    d: Option<u32>,
    source: &Lengths,
    line: bool,
) -> Result<Done, Stop> {
    test_layout(layout)?;
    let found = Found::find(source)?;
    warn_of_order(found.names.as_deref().unwrap_or_default());
    let season = Season {
        layout,
        d: d.unwrap_or_else(|| found.count()),
        given: d.is_some(),
        found,
    };
    let sizes = season.sizes()?;
    let lines = if line {
        line_of(layout.scheme, &sizes)
    } else {
        season.text(&sizes)
    };
    Ok(Done {
        lines,
        answer: Answer::Clean,
    })
}

/// Tests 1 2 3, before the source is looked at: a season of no days comes to 7, the test behind them.
fn test_layout(layout: Layout) -> Result<(), Stop> {
    match daybook::forecast(layout, 0, &[]) {
        Ok(_) | Err(Refusal::BadD) => Ok(()),
        Err(refusal) => Err(Stop::Refused(refusal, layout.to_string())),
    }
}

/// The days to be sealed.
struct Season {
    layout: Layout,
    d: u32,
    /// Whether D was given, and is not the number of lengths found.
    given: bool,
    found: Found,
}

impl Season {
    fn sizes(&self) -> Result<Sizes, Stop> {
        daybook::forecast(self.layout, self.d, &self.found.lengths)
            .map_err(|refusal| self.explained(refusal))
    }

    fn explained(&self, refusal: Refusal) -> Stop {
        let lines = match refusal {
            Refusal::FewLengths => self.misfit(),
            Refusal::BadD if !self.given => self.misfit(),
            Refusal::LongDay => {
                let names = self.found.names.as_deref().map(labels);
                Vec::from_iter(long_day(&self.found.lengths, self.d, names.as_deref()))
            }
            _ => vec![],
        };
        let (layout, d, found) = (self.layout, self.d, self.found.count());
        Stop::Explained(
            refusal,
            format!("{layout}, D {d}, days found {found}"),
            lines,
        )
    }

    /// How many days there are, and how many D may take.
    fn misfit(&self) -> Vec<String> {
        let fit = Fit {
            layout: self.layout,
            found: self.found.count(),
            names: self.found.names.as_deref(),
            book: None,
            closed: None,
        };
        fit.misfit()
    }

    /// The sizes as a person reads them.
    fn text(&self, sizes: &Sizes) -> String {
        let Layout { scheme, n, f } = self.layout;
        let lengths = self.found.lengths.iter().take(self.d as usize);
        let bytes: u64 = lengths.map(|length| u64::from(*length)).sum();
        format!(
            "{}, scheme {scheme} ({}), N {n}, F {f}\n\
             disk     {} for the book, beside {} of days\n\
             notary   {} of {VALUE} bytes, in {} of {}\n\
             hashing  {} of 64 bytes\n",
            counted(self.d, "day"),
            scheme_name(scheme),
            counted(sizes.bytes, "byte"),
            counted(bytes, "byte"),
            counted(sizes.values, "value"),
            counted(self.d / n, "interval"),
            counted(n, "day"),
            counted(sizes.blocks, "SHA-256 block"),
        )
    }
}

/// The sizes as a line for programs.
fn line_of(scheme: u32, sizes: &Sizes) -> String {
    let Sizes {
        values,
        bytes,
        blocks,
    } = sizes;
    format!("SIZE,{scheme},{values},{bytes},{blocks}\n")
}

/// So many of a thing.
fn counted(number: impl Into<u64>, thing: &str) -> String {
    match number.into() {
        1 => format!("1 {thing}"),
        number => format!("{} {thing}s", grouped(number)),
    }
}

/// A number with a comma before each three digits.
pub fn grouped(number: u64) -> String {
    let digits = number.to_string();
    let mut text = String::new();
    for (place, digit) in digits.chars().enumerate() {
        if place > 0 && (digits.len() - place).is_multiple_of(3) {
            text.push(',');
        }
        text.push(digit);
    }
    text
}

#[cfg(test)]
mod tests {
    use super::*;

    fn season(layout: Layout, lengths: &[u32]) -> Season {
        Season {
            layout,
            d: lengths.len() as u32,
            given: false,
            found: Found {
                lengths: lengths.to_vec(),
                names: None,
            },
        }
    }

    #[test]
    fn numbers_in_groups() {
        for (number, text) in [
            (0, "0"),
            (7, "7"),
            (999, "999"),
            (1_000, "1,000"),
            (65_536, "65,536"),
            (196_590, "196,590"),
            (6_290_880, "6,290,880"),
            (17_182_294_016, "17,182,294,016"),
            (1_099_511_627_776, "1,099,511,627,776"),
        ] {
            assert_eq!(grouped(number), text);
        }
        assert_eq!(counted(0u32, "byte"), "0 bytes");
        assert_eq!(counted(1u32, "byte"), "1 byte");
        assert_eq!(counted(2_000u32, "byte"), "2,000 bytes");
    }

    #[test]
    fn sizes_in_words() {
        // days of 1, 1, 2 and 2 blocks, 12 links of 2
        let four = season(Layout::tile(4, 1), &[0, 54, 55, 118]);
        assert_eq!(
            four.text(&four.sizes().unwrap()),
            "4 days, scheme 2 (tile), N 4, F 1\n\
             disk     128 bytes for the book, beside 227 bytes of days\n\
             notary   4 values of 32 bytes, in 1 interval of 4 days\n\
             hashing  30 SHA-256 blocks of 64 bytes\n"
        );
        let one = season(Layout::black(1, 1), &[1]);
        assert_eq!(
            one.text(&one.sizes().unwrap()),
            "1 day, scheme 1 (black), N 1, F 1\n\
             disk     32 bytes for the book, beside 1 byte of days\n\
             notary   1 value of 32 bytes, in 1 interval of 1 day\n\
             hashing  3 SHA-256 blocks of 64 bytes\n"
        );
    }

    #[test]
    fn the_largest_season() {
        let all = season(Layout::tree(1), &[16_777_216; 65_536]);
        let sizes = all.sizes().unwrap();
        assert_eq!(
            all.text(&sizes),
            "65,536 days, scheme 3 (tree), N 1, F 1\n\
             disk     6,290,880 bytes for the book, beside 1,099,511,627,776 bytes of days\n\
             notary   196,590 values of 32 bytes, in 65,536 intervals of 1 day\n\
             hashing  17,182,294,016 SHA-256 blocks of 64 bytes\n"
        );
        assert_eq!(line_of(3, &sizes), "SIZE,3,196590,6290880,17182294016\n");
    }

    #[test]
    fn refusals_say_what_was_found() {
        let stopped = |d, lengths: &[u32]| {
            let mut season = season(Layout::tile(4, 1), lengths);
            (season.d, season.given) = (d, true);
            season.sizes().unwrap_err()
        };
        let refused = |refusal, numbers: &str, line: &str| {
            let numbers = format!("scheme 2, N 4, F 1, {numbers}");
            Stop::Explained(refusal, numbers, vec![line.to_string()])
        };
        assert_eq!(
            stopped(8, &[0; 7]),
            refused(
                Refusal::FewLengths,
                "D 8, days found 7",
                "7 days found; D is a multiple of 4: --d 4 takes the first 4"
            )
        );
        assert_eq!(
            stopped(4, &[0, 0, u32::MAX, 16_777_217]),
            refused(
                Refusal::LongDay,
                "D 4, days found 4",
                "day 3 has more than 16777216 bytes"
            )
        );
    }
}
