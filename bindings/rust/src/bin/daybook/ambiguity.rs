//! How vague a tile is, for those who choose N.

use std::fmt::Write;
use std::path::Path;

use daybook::{tile_counts, Refusal, TileCounts};

use crate::chart::chart;
use crate::commands::{Answer, Done};
use crate::files::{test_written, Staged};
use crate::forecast::grouped;
use crate::stop::Stop;

/// The N and the k that are counted.
pub const SIZES: [u32; 7] = [1, 2, 4, 8, 16, 32, 64];
pub const ALTERED: [u32; 3] = [1, 2, 3];

/// The counts of a tile of N days, k of which were altered.
pub struct Counted {
    pub n: u32,
    pub k: u32,
    pub sets: u32,
    pub listed: u32,
}

pub fn ambiguity(line: bool, figure: Option<&Path>) -> Result<Done, Stop> {
    test_written(&Vec::from_iter(figure), &[], None)?;
    let counted = count()?;
    if let Some(path) = figure {
        Staged::new(path, chart(&counted).as_bytes())?.commit()?;
    }
    let lines = match line {
        true => counted.iter().map(Counted::line).collect(),
        false => table(&counted),
    };
    Ok(Done {
        lines,
        answer: Answer::Clean,
    })
}

/// Every N with every k, by N and then by k.
fn count() -> Result<Vec<Counted>, Stop> {
    let pairs = SIZES.into_iter().flat_map(|n| ALTERED.map(move |k| (n, k)));
    pairs
        .map(|(n, k)| Counted::new(n, k, tile_counts(n, k)))
        .collect()
}

impl Counted {
    fn new(n: u32, k: u32, counts: Result<TileCounts, Refusal>) -> Result<Counted, Stop> {
        match counts {
            Ok(TileCounts { sets, listed }) => Ok(Counted { n, k, sets, listed }),
            Err(refusal) => Err(Stop::Refused(refusal, format!("N {n}, k {k}"))),
        }
    }

    /// The counts as a line for programs.
    fn line(&self) -> String {
        let Counted { n, k, sets, listed } = self;
        format!("{n},{k},{sets},{listed}\n")
    }

    /// The days listed a set, with two places behind the point; none where there is no set.
    pub fn mean(&self) -> Option<String> {
        let (sets, listed) = (u64::from(self.sets), u64::from(self.listed));
        let hundredths = (200 * listed + sets).checked_div(2 * sets)?;
        Some(format!("{}.{:02}", hundredths / 100, hundredths % 100))
    }
}

/// The counts as a person reads them, a row for each N.
fn table(counted: &[Counted]) -> String {
    let mut text = String::from(HEADING);
    let _ = write!(text, "\n   ");
    for k in ALTERED {
        let _ = write!(text, "{:>18}{k:<9}", "k = ");
    }
    text.truncate(text.trim_end().len());
    let _ = write!(text, "\n  N");
    for _ in ALTERED {
        let _ = write!(text, "{:>9}{:>11}{:>7}", "sets", "listed", "a set");
    }
    for row in counted.chunks(ALTERED.len()) {
        let _ = write!(text, "\n{:>3}", row[0].n);
        for one in row {
            let (sets, listed) = (grouped(one.sets.into()), grouped(one.listed.into()));
            let mean = one.mean().unwrap_or_else(|| String::from("-"));
            let _ = write!(text, "{sets:>9}{listed:>11}{mean:>7}");
        }
    }
    text.push('\n');
    text
}

const HEADING: &str = "\
How vague a tile is: scheme 2 (tile), one tile of N days, k of which were altered.
Sets: how many sets of k days the tile has. Listed: the days that may have been altered as far as
reading tells, added up over all these sets. A set: the days listed for one of them, on average.
";

#[cfg(test)]
mod tests {
    use super::*;

    fn counted(n: u32, k: u32, sets: u32, listed: u32) -> Counted {
        Counted { n, k, sets, listed }
    }

    #[test]
    fn means() {
        for (sets, listed, mean) in [
            (4, 9, "2.25"),
            (6, 20, "3.33"),
            (3, 2, "0.67"),
            (8, 27, "3.38"),
            (1, 1, "1.00"),
            (200, 1, "0.01"),
            (201, 1, "0.00"),
            (2_000, 199_990, "100.00"),
            (41_664, 1_839_856, "44.16"),
            (u32::MAX, u32::MAX, "1.00"),
            (1, u32::MAX, "4294967295.00"),
        ] {
            let found = counted(4, 1, sets, listed).mean();
            assert_eq!(found.as_deref(), Some(mean), "{listed} / {sets}");
        }
        assert_eq!(counted(1, 2, 0, 0).mean(), None);
    }

    #[test]
    fn every_size_with_every_number_of_altered_days() {
        let counted = count().unwrap();
        let pairs: Vec<(u32, u32)> = counted.iter().map(|one| (one.n, one.k)).collect();
        assert_eq!(pairs.len(), 21);
        assert!(pairs.is_sorted_by(|one, next| one < next));
        let lines: String = counted.iter().map(Counted::line).collect();
        assert!(lines.contains("\n4,1,4,9\n4,2,6,20\n"), "{lines}");
    }

    #[test]
    fn a_refusal_says_n_and_k() {
        let refused = Counted::new(128, 3, Err(Refusal::NotCounted));
        assert_eq!(
            refused.err(),
            Some(Stop::Refused(
                Refusal::NotCounted,
                String::from("N 128, k 3")
            ))
        );
    }
}
