//! How the days found fit the book: D where it is not given, and which files are strange or missing.

use std::collections::BTreeSet;
use std::ffi::OsString;
use std::ops::RangeInclusive;

use daybook::{Layout, DAYS_LIMIT, VALUE};

use crate::chains::book_days;
use crate::names::{field, fields, Doubts};

/// Names said at once.
const MOST: usize = 8;

/// The days found, and the book that they are checked against.
pub struct Fit<'a> {
    pub layout: Layout,
    pub found: u32,
    /// The names of the days, where they have names.
    pub names: Option<&'a [OsString]>,
    /// The book's length in bytes, where there is a book.
    pub book: Option<u64>,
    /// The days that are closed, where a state folder tells.
    pub closed: Option<u32>,
}

impl Fit<'_> {
    /// D where it is not given: the days found, if D may be so many. Else the greatest D below, if
    /// the book's length is that of the days found and of no other number of days, and the names
    /// leave no doubt that the first D are its days.
    pub fn d(&self) -> u32 {
        let step = self.step();
        if self.found.is_multiple_of(step) || !self.agrees() || !self.named() {
            return self.found;
        }
        match self.found - self.found % step {
            0 => self.found,
            d => d,
        }
    }

    fn step(&self) -> u32 {
        self.layout.f * self.layout.n
    }

    /// Whether the book's length is that of the days found alone: where days between two values are
    /// not in it, a file too many cannot be told.
    fn agrees(&self) -> bool {
        self.found <= DAYS_LIMIT && self.days() == Some(self.found..=self.found)
    }

    fn named(&self) -> bool {
        self.names.is_none_or(|names| Doubts::of(names).none())
    }

    fn days(&self) -> Option<RangeInclusive<u32>> {
        book_days(self.layout, self.book?)
    }

    /// What is said where D is less than the days found.
    pub fn later(&self, d: u32) -> String {
        let (found, step) = (self.found, self.step());
        let name = |day: u32| match self.names.and_then(|names| names.get(day as usize - 1)) {
            Some(name) => format!("{day} ({})", field(name)),
            None => day.to_string(),
        };
        let later = if found == d + 1 {
            format!("day {} is", name(found))
        } else {
            format!("days {} to {} are", name(d + 1), name(found))
        };
        format!(
            "note: {found} days found, and the book is of as many. Days 1 to {d} are taken; \
             {later} not yet checkable, since D is a multiple of {step}"
        )
    }

    /// Where the days found are no D, or not those of the book: how many there are of each, and
    /// which names are strange or missing.
    pub fn misfit(&self) -> Vec<String> {
        let mut lines = vec![self.counts()];
        let doubts = self.names.map(Doubts::of).unwrap_or_default();
        if !doubts.strays.is_empty() {
            let names = fields(doubts.strays.iter(), MOST);
            lines.push(format!("not named as the others are: {names}"));
        }
        if !doubts.missing.is_empty() {
            let names = fields(doubts.missing.iter(), MOST);
            lines.push(format!("left out in the numbering: {names}"));
        }
        if doubts.strays.is_empty() {
            lines.extend(self.beyond());
        }
        lines
    }

    fn counts(&self) -> String {
        let found = match self.names {
            Some([only]) => format!("1 file found ({})", field(only)),
            Some([first, .., last]) => {
                let (first, last) = (field(first), field(last));
                format!("{} files found, from {first} to {last}", self.found)
            }
            _ => format!("{} days found", self.found),
        };
        format!("{found}; {}", self.wanted())
    }

    /// How many days there should be.
    fn wanted(&self) -> String {
        if let Some(closed) = self.closed {
            return format!("{closed} days are closed");
        }
        let Some(bytes) = self.book else {
            return self.nearest();
        };
        let Some(days) = self.days() else {
            return format!("the book's {bytes} bytes are those of no number of days");
        };
        let (days, values) = (*days.start(), bytes / VALUE as u64);
        let next = days - days % self.layout.n + self.layout.n;
        match self.layout.scheme {
            Layout::TREE => format!("the book's {values} values are those of {days} days"),
            _ => format!(
                "the book's {values} values are those of {days} days (day {next} would add to them)"
            ),
        }
    }

    /// The numbers of days nearest to those found that D may be.
    fn nearest(&self) -> String {
        let step = self.step();
        let below = self.found.min(DAYS_LIMIT) / step * step;
        match below {
            0 => format!("D is a multiple of {step}"),
            _ => format!("D is a multiple of {step}: --d {below} takes the first {below}"),
        }
    }

    /// The names behind the last day that the book can be of.
    fn beyond(&self) -> Option<String> {
        let last = match self.closed {
            Some(closed) => closed,
            None => *self.days()?.end(),
        };
        let beyond = self.names?.get(last as usize..)?;
        let names = fields(beyond.iter(), MOST);
        (!beyond.is_empty()).then(|| format!("beyond the book's days: {names}"))
    }
}

/// The first day whose file here has another name than the one that it was sealed from, where one of
/// the two stands at another day. Names are fields; of a source the last part of its path counts.
pub fn moved(sealed: &[String], found: &[String]) -> Option<String> {
    let last = |source: &'_ String| source.rsplit('/').next().unwrap_or_default().to_string();
    let sources: BTreeSet<String> = sealed.iter().map(last).collect();
    let files: BTreeSet<&String> = found.iter().collect();
    let mut days = (1u32..).zip(sealed.iter().zip(found));
    let (day, (source, here)) = days.find(|(_, (source, here))| {
        let name = last(source);
        name != **here && (files.contains(&name) || sources.contains(*here))
    })?;
    Some(format!(
        "day {day} was sealed from {source}, and is the file {here} here"
    ))
}

#[cfg(test)]
mod tests {
    use super::*;

    #[test]
    fn files_that_moved() {
        let own = |names: &[&str]| -> Vec<String> { names.iter().map(|n| n.to_string()).collect() };
        let said = |sealed: &[&str], found: &[&str]| moved(&own(sealed), &own(found));
        assert_eq!(said(&["in/1", "in/2"], &["1", "2"]), None);
        assert_eq!(said(&["-", "a + b"], &["1", "2"]), None);
        assert_eq!(said(&["in/1", "in/2"], &["1", "3"]), None);
        assert_eq!(
            said(&["in/1", "in/2"], &[".swp", "1", "2"]).unwrap(),
            "day 1 was sealed from in/1, and is the file .swp here"
        );
        assert_eq!(
            said(&["1", "2", "3"], &["1", "3"]).unwrap(),
            "day 2 was sealed from 2, and is the file 3 here"
        );
    }

    #[test]
    fn files_of_a_state() {
        let mut names = numbered(1..=64);
        names.insert(0, ".swp".into());
        let state = Fit {
            closed: Some(64),
            ..fit(TILE, &names, 24)
        };
        assert_eq!(
            state.misfit(),
            [
                "65 files found, from .swp to 64; 64 days are closed",
                "not named as the others are: .swp",
            ]
        );
        let state = Fit {
            closed: Some(62),
            ..fit(TILE, &names[1..], 24)
        };
        assert_eq!(
            state.misfit(),
            [
                "64 files found, from 01 to 64; 62 days are closed",
                "beyond the book's days: 63, 64",
            ]
        );
    }

    fn numbered(days: RangeInclusive<u32>) -> Vec<OsString> {
        days.map(|day| format!("{day:02}").into()).collect()
    }

    fn fit(layout: Layout, names: &[OsString], values: u64) -> Fit<'_> {
        Fit {
            layout,
            found: names.len() as u32,
            names: Some(names),
            book: Some(32 * values),
            closed: None,
        }
    }

    /// Scheme 2, N 16, F 2: 6 values at the days 16, 32, 48 and so on.
    const TILE: Layout = Layout::tile(16, 2);

    #[test]
    fn d_from_the_book() {
        let d = |files, values| fit(TILE, &numbered(1..=files), values).d();
        assert_eq!(d(64, 24), 64);
        // the book of 64 to 79 days: it does not tell whether a file is too many
        assert_eq!(d(65, 24), 65);
        assert_eq!(d(79, 24), 79);
        // values of a day beyond, or of fewer days: no D is made up
        assert_eq!(d(80, 24), 80);
        assert_eq!(d(63, 24), 63);
        assert_eq!(d(65, 25), 65);
        assert_eq!(d(48, 18), 48);
        assert_eq!(d(31, 6), 31);
        assert_eq!(d(0, 0), 0);
        let tree = |files, values| fit(Layout::tree(4), &numbered(1..=files), values).d();
        // 9 days: 2·9 − 2 ones + 2 intervals − 2 stored once = 16
        assert_eq!(tree(9, 16), 8);
        assert_eq!(tree(9, 15), 9);
        assert_eq!(tree(9, 17), 9);
        // a value a day
        let black = |files, values| fit(Layout::black(1, 4), &numbered(1..=files), values).d();
        assert_eq!(black(9, 9), 8);
        assert_eq!(black(9, 8), 9);
    }

    #[test]
    fn doubtful_names_give_no_d() {
        let black = Layout::black(1, 32);
        let mut names = numbered(1..=64);
        names.insert(0, ".swp".into());
        assert_eq!(fit(black, &names, 65).d(), 65);
        let mut names = numbered(1..=66);
        names.remove(9);
        assert_eq!(fit(black, &names, 65).d(), 65);
        let ends = Fit {
            names: None,
            ..fit(black, &names, 65)
        };
        assert_eq!(ends.d(), 64);
    }

    #[test]
    fn later_days() {
        assert_eq!(
            fit(TILE, &numbered(1..=70), 24).later(64),
            "note: 70 days found, and the book is of as many. Days 1 to 64 are taken; days 65 (65) \
             to 70 (70) are not yet checkable, since D is a multiple of 32"
        );
        assert_eq!(
            fit(TILE, &numbered(1..=65), 24).later(64),
            "note: 65 days found, and the book is of as many. Days 1 to 64 are taken; day 65 (65) \
             is not yet checkable, since D is a multiple of 32"
        );
    }

    #[test]
    fn stray_files() {
        let mut names = numbered(1..=64);
        names.insert(0, ".swp".into());
        names.push("notes,old".into());
        assert_eq!(
            fit(TILE, &names, 24).misfit(),
            [
                "66 files found, from .swp to notes%2Cold; the book's 24 values are those of 64 \
                 days (day 80 would add to them)",
                "not named as the others are: .swp, notes%2Cold",
            ]
        );
        assert_eq!(
            fit(Layout::tree(1), &numbered(1..=65), 184).misfit(),
            [
                "65 files found, from 01 to 65; the book's 184 values are those of 64 days",
                "beyond the book's days: 65",
            ]
        );
    }

    #[test]
    fn missing_files() {
        let mut names = numbered(1..=64);
        names.remove(26);
        assert_eq!(
            fit(TILE, &names, 24).misfit(),
            [
                "63 files found, from 01 to 64; the book's 24 values are those of 64 days (day 80 \
                 would add to them)",
                "left out in the numbering: 27",
            ]
        );
        assert_eq!(
            fit(TILE, &names, 0).misfit()[0],
            "63 files found, from 01 to 64; the book's 0 values are those of 0 days (day 16 would \
             add to them)"
        );
        let book = Fit {
            book: Some(770),
            ..fit(TILE, &names, 0)
        };
        assert!(book.misfit()[0].ends_with("the book's 770 bytes are those of no number of days"));
    }

    #[test]
    fn without_a_book() {
        let sealing = |files| {
            let names = numbered(1..=files);
            let fit = Fit {
                book: None,
                ..fit(TILE, &names, 0)
            };
            assert_eq!(fit.d(), files);
            fit.misfit().join("; ")
        };
        assert_eq!(
            sealing(65),
            "65 files found, from 01 to 65; D is a multiple of 32: --d 64 takes the first 64"
        );
        assert_eq!(sealing(1), "1 file found (01); D is a multiple of 32");
    }
}
