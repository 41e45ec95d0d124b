//! A season of the service: its days, its book and its index.

use std::path::{Path, PathBuf};

use daybook::{values, Layout, DAYS_LIMIT, VALUE};

use super::files::{at, misfit, of_season, past_bytes};
use super::form::{Extent, Line, PastSeason};
use super::{BOOK, INDEX};
use crate::stop::Stop;

/// A season whose files were read and tested.
pub struct Season {
    folder: PathBuf,
    layout: Layout,
    pub number: u32,
    /// The number of days closed.
    pub days: u32,
    pub book: Vec<u8>,
    pub index: Vec<u8>,
}

impl Season {
    /// A season without a day.
    pub fn fresh(folder: &Path, layout: Layout, number: u32) -> Season {
        Season {
            folder: folder.to_path_buf(),
            layout,
            number,
            days: 0,
            book: Vec::new(),
            index: Vec::new(),
        }
    }

    /// A past season, all of whose days are closed. Its files are read and tested.
    pub fn past(folder: &Path, layout: Layout, line: &PastSeason) -> Result<Season, Stop> {
        let mut season = Season::fresh(folder, layout, line.season);
        season.days = DAYS_LIMIT;
        season.book = past_bytes(&season.path(BOOK), line.book)?;
        season.index = past_bytes(&season.path(INDEX), line.index)?;
        season.test_lines()?;
        Ok(season)
    }

    /// The place of a file of the season.
    pub fn path(&self, name: &str) -> PathBuf {
        at(&self.folder, &of_season(name, self.number))
    }

    /// The number of values in the book.
    pub fn values(&self) -> usize {
        self.book.len() / VALUE
    }

    /// The greatest D that is allowed and not above the days closed; 0 where there is none.
    pub fn checkable(&self) -> u32 {
        let Layout { n, f, .. } = self.layout;
        self.days - self.days % (n * f)
    }

    /// Whether all its days are closed.
    pub fn is_full(&self) -> bool {
        self.days == DAYS_LIMIT
    }

    /// The front of the book that the first `d` days have, where they are closed and can be checked.
    pub fn front_of(&self, d: u32) -> Option<&[u8]> {
        let values = values(self.layout, d).ok()?;
        self.book.get(..VALUE * values as usize)
    }

    /// The line of a closed day.
    pub fn line(&self, day: u32) -> Result<Line, Stop> {
        let mut lines = self.index.split(|byte| *byte == b'\n');
        let text = lines.nth((day as usize).wrapping_sub(1));
        text.and_then(Line::parse)
            .filter(|line| line.day == day)
            .ok_or_else(|| misfit(&self.path(INDEX), format!("it has no line of day {day}")))
    }

    /// The names of the closed days' sources, as fields.
    pub fn names(&self) -> Result<Vec<String>, Stop> {
        let lines = self
            .index
            .split(|byte| *byte == b'\n')
            .filter_map(Line::parse);
        let names: Vec<String> = lines.map(|line| line.names).collect();
        match names.len() == self.days as usize {
            true => Ok(names),
            false => Err(misfit(
                &self.path(INDEX),
                format!("it has {} lines of {} days", names.len(), self.days),
            )),
        }
    }

    /// The index has a line for each closed day.
    pub fn test_lines(&self) -> Result<(), Stop> {
        let lines = self.index.iter().filter(|byte| **byte == b'\n').count();
        let days = self.days;
        match lines == days as usize {
            true => Ok(()),
            false => Err(misfit(
                &self.path(INDEX),
                format!("it has {lines} lines, and {days} days are closed"),
            )),
        }
    }

    /// The index with one more line.
    pub fn index_with(&self, line: &Line) -> Extent {
        Extent::of(&[&self.index, line.text().as_bytes()].concat())
    }

    /// The book with more values.
    pub fn book_with(&self, values: &[u8]) -> Extent {
        Extent::of(&[&self.book, values].concat())
    }
}
