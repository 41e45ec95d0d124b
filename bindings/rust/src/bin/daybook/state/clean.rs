//! The days that verified clean, which the folder keeps and offers.

use std::path::{Path, PathBuf};

use daybook::DAYS_LIMIT;

use super::digest::{digest, Digest};
use super::files::{misfit, of_season, put, sync_folder};
use super::form::{CleanDay, CLEAN_MOST};
use super::load::State;
use super::lock::Access;
use super::season::Season;
use super::{CLEAN, CLEAN_NEW};
use crate::files::read_front;
use crate::say;
use crate::stop::Stop;

/// What a state folder keeps of D days of a season and of fewer.
#[derive(Debug, PartialEq, Eq)]
pub struct Kept {
    folder: PathBuf,
    season: u32,
    d: u32,
    /// The last day below D that is kept and fits the book; 0 where there is none.
    pub before: u32,
    /// The digest that is kept of D.
    digest: Option<Digest>,
}

impl Kept {
    pub fn of(season: &Season, folder: &Path, d: u32) -> Result<Kept, Stop> {
        let days = load(season)?;
        Ok(Kept {
            folder: folder.to_path_buf(),
            season: season.number,
            d,
            before: last(season, days.iter().filter(|day| day.day < d)),
            digest: days.iter().find(|day| day.day == d).map(|day| day.digest),
        })
    }

    /// Keeps D, whose values all pass against this front of the book. The answer does not hang on it:
    /// where it cannot be done, that is said.
    pub fn keep(&self, front: &[u8]) {
        let new = CleanDay {
            day: self.d,
            digest: digest(front),
        };
        let d = self.d;
        let kept = match self.digest == Some(new.digest) {
            true => Ok(()),
            false => self.write(new, front),
        };
        if let Err(stop) = kept {
            return say(&format!("day {d} is not kept as verified clean: {stop}"));
        }
        // also where a run before has written it, and may have been stopped then
        if let Err(stop) = sync_folder(&self.folder) {
            say(&format!("day {d} is kept as verified clean, but {stop}"));
        }
    }

    fn write(&self, new: CleanDay, front: &[u8]) -> Result<(), Stop> {
        let mut state = State::load(&self.folder, Access::Write)?;
        // the season may be a past one, also where it was not when it was checked
        let past = match self.season == state.season.number {
            true => None,
            false => Some(state.past(self.season)?),
        };
        let season = past.as_ref().unwrap_or(&state.season);
        if season.front_of(new.day) != Some(front) {
            return Err(misfit(
                &season.path(super::BOOK),
                "it is not the one that was checked",
            ));
        }
        let mut days = load(season)?;
        if days.contains(&new) {
            return Ok(());
        }
        days.retain(|day| day.day != new.day);
        days.push(new);
        days.sort_by_key(|day| day.day);
        state.settle()?;
        let text: String = days.iter().map(CleanDay::text).collect();
        let name = of_season(CLEAN, self.season);
        put(&self.folder, (CLEAN_NEW, &name), text.as_bytes())
    }
}

/// The last day of a season that is kept and fits the book; 0 where there is none.
pub fn last_of(season: &Season) -> Result<u32, Stop> {
    Ok(last(season, load(season)?.iter()))
}

/// The last of these days that fits the book. Later ones are said, and not used.
fn last<'a>(season: &Season, days: impl DoubleEndedIterator<Item = &'a CleanDay>) -> u32 {
    let mut others = Vec::new();
    let mut found = 0;
    for day in days.rev() {
        if fits(season, day) {
            found = day.day;
            break;
        }
        others.push(day.day.to_string());
    }
    if !others.is_empty() {
        others.reverse();
        say(&format!(
            "note: {} has days that are not of this book, and are not used: {}",
            season.path(CLEAN).display(),
            others.join(" ")
        ));
    }
    found
}

fn fits(season: &Season, day: &CleanDay) -> bool {
    let front = season.front_of(day.day);
    front.is_some_and(|front| digest(front) == day.digest)
}

/// The days that the folder keeps of a season; none where it has no such file.
fn load(season: &Season) -> Result<Vec<CleanDay>, Stop> {
    let path = season.path(CLEAN);
    if !path.exists() {
        return Ok(Vec::new());
    }
    let (text, more) = read_front(&path, CLEAN_MOST)?;
    if more {
        let what = format!("it has more than {DAYS_LIMIT} lines");
        return Err(misfit(&path, what));
    }
    let mut days: Vec<CleanDay> = Vec::new();
    for (line, text) in (1..).zip(text.split_inclusive(|byte| *byte == b'\n')) {
        let before = days.last().map_or(0, |day| day.day);
        match CleanDay::parse(text).filter(|day| day.day > before) {
            Some(day) => days.push(day),
            None => {
                let what = format!("line {line} is not a later day and its digest, as D,digest");
                return Err(misfit(&path, what));
            }
        }
    }
    Ok(days)
}
