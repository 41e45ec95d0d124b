//! Adding to the open day, and closing it.

use std::ffi::OsString;
use std::path::Path;

use daybook::{Refusal, DAYS_LIMIT, LAST_SEASON, VALUE};

use super::digest::digest;
use super::files::of_season;
use super::form::{joined, Extent, Line, Record};
use super::input::{self, Input};
use super::load::State;
use super::lock::Access;
use super::BOOK;
use crate::say;
use crate::stop::Stop;

/// A day as it is given: its number, and its season where that is given too.
#[derive(Clone, Copy, Debug, PartialEq, Eq)]
pub struct Day {
    pub season: Option<u32>,
    pub day: u32,
}

/// A day that a command is about, and where it stands.
struct Found {
    season: u32,
    day: u32,
    is_closed: bool,
    /// How messages name it. Where there is season 0 alone, they do not name that.
    name: String,
}

/// Finds the day of a number. Without a season it is a day of the one that the next accepted call is
/// made in; but while that has no closed day, a day above 1 is one of the season before, all of whose
/// days are closed. So a script of the last day of a season can be run again, as for any other day.
fn find(state: &State, given: Day) -> Result<Found, Stop> {
    let (day, (next_season, next_day)) = (given.day, state.next());
    if day == 0 {
        return Err(Stop::Fault("days count from 1: there is no day 0".into()));
    }
    let before = (next_day == 1 && day > 1).then(|| next_season.checked_sub(1));
    let season = given.season.or(before.flatten()).unwrap_or(next_season);
    let name = name_of(state, season, day);
    if season > next_season {
        let next = name_of(state, next_season, next_day);
        return Err(Stop::Fault(format!(
            "{name} is not the next one: {next} is"
        )));
    }
    let closed = match season < next_season {
        true => DAYS_LIMIT,
        false => next_day - 1,
    };
    let is_open = (season, day) == (next_season, next_day);
    if day > closed && !is_open {
        let what = match closed {
            DAYS_LIMIT if next_day > DAYS_LIMIT => "the last season is full".to_string(),
            DAYS_LIMIT => format!("{} is", name_of(state, next_season, next_day)),
            _ => format!("{closed} days are closed, and day {next_day} is open"),
        };
        return Err(Stop::Fault(format!("{name} is not the next one: {what}")));
    }
    Ok(Found {
        season,
        day,
        is_closed: !is_open,
        name,
    })
}

fn name_of(state: &State, season: u32, day: u32) -> String {
    match (season, state.next()) {
        (0, (0, _)) => format!("day {day}"),
        _ => format!("day {day} of season {season}"),
    }
}

fn refused(refusal: Refusal, state: &State, name: &str, bytes: usize) -> Stop {
    let open = state.day.len();
    Stop::Refused(
        refusal,
        format!(
            "{}, {name}, open bytes {open}, bytes given {bytes}",
            state.layout()
        ),
    )
}

pub fn add(folder: &Path, day: Day, at: u32, files: &[OsString]) -> Result<(), Stop> {
    let input = input::read(files)?;
    let state = State::load(folder, Access::Write)?;
    let found = find(&state, day)?;
    match found.is_closed {
        true => add_closed(state, &found, at, &input),
        false if (at as usize) < state.day.len() => add_before(state, &found, at, &input),
        false => add_open(state, &found, at, &input),
    }
}

/// An add to a closed day can only be a repeat: of the whole day, by its digest, or of a piece of the
/// last closed day, whose bytes are still there.
fn add_closed(mut state: State, found: &Found, at: u32, input: &Input) -> Result<(), Stop> {
    let line = state.line(found.season, found.day)?;
    let name = &found.name;
    let whole = at == 0 && same_day(&line, &input.bytes);
    let kept = match state.last_closed() == Some((found.season, found.day)) {
        true => state.last_day(&line)?,
        false => None,
    };
    if whole || kept.is_some_and(|kept| stands_at(&kept, at, &input.bytes)) {
        state.settle()?;
        say(&format!(
            "{name} is closed already, and has these {} bytes at {at}: nothing to do",
            input.bytes.len()
        ));
        return Ok(());
    }
    Err(Stop::Fault(format!(
        "{name} is closed, with {} bytes, and it is not seen that these {} bytes at {at} are of \
         it: nothing is written",
        line.bytes,
        input.bytes.len()
    )))
}

/// An add before the end of the open day can only be a repeat.
fn add_before(mut state: State, found: &Found, at: u32, input: &Input) -> Result<(), Stop> {
    let name = &found.name;
    if stands_at(&state.day, at, &input.bytes) {
        state.settle()?;
        say(&format!(
            "{name} has these {} bytes at {at} already: nothing to do",
            input.bytes.len()
        ));
        return Ok(());
    }
    Err(Stop::Fault(format!(
        "{name} has {} bytes, and those at {at} are not these {}: nothing is written",
        state.day.len(),
        input.bytes.len()
    )))
}

fn add_open(mut state: State, found: &Found, at: u32, input: &Input) -> Result<(), Stop> {
    let name = &found.name;
    let mut service = state.record.service.clone();
    let added = service.add(&input.bytes);
    added.map_err(|refusal| refused(refusal, &state, name, input.bytes.len()))?;
    if at as usize > state.day.len() {
        return Err(Stop::Fault(format!(
            "{name} has {} bytes, and a piece at {at} would leave a gap: nothing is written",
            state.day.len()
        )));
    }
    let names = names_with(&state.record, input);
    if input.bytes.is_empty() && names == state.record.names {
        state.settle()?;
        say(&format!("{name} has {at} bytes: nothing is added to them"));
        return Ok(());
    }
    let bytes = [&state.day, &input.bytes[..]].concat();
    state.follow(&service);
    let record = Record {
        service,
        day: Extent::of(&bytes),
        names,
        ..state.record
    };
    state.commit_add(record, &input.bytes)?;
    say(&format!(
        "{name} has {} bytes: {} added at {at}",
        bytes.len(),
        input.bytes.len()
    ));
    Ok(())
}

/// Whether the bytes stand at this place of a day.
fn stands_at(day: &[u8], at: u32, bytes: &[u8]) -> bool {
    day.get(at as usize..)
        .is_some_and(|rest| rest.starts_with(bytes))
}

fn same_day(line: &Line, bytes: &[u8]) -> bool {
    line.bytes == bytes.len() as u64 && line.digest == digest(bytes)
}

fn names_with(record: &Record, input: &Input) -> String {
    joined(&record.names, input.names.iter().map(String::as_str))
}

pub fn close(folder: &Path, day: Day, files: &[OsString]) -> Result<(), Stop> {
    let input = input::read(files)?;
    let state = State::load(folder, Access::Write)?;
    let found = find(&state, day)?;
    match found.is_closed {
        true => close_again(state, &found, files, &input),
        false if !files.is_empty() && !state.day.is_empty() => Err(Stop::Fault(format!(
            "{} has {} bytes already: it is closed without FILE, or not at all: nothing is written",
            found.name,
            state.day.len()
        ))),
        false => close_open(state, &found, &input),
    }
}

/// A close of a closed day can only be a repeat.
fn close_again(
    mut state: State,
    found: &Found,
    files: &[OsString],
    input: &Input,
) -> Result<(), Stop> {
    let line = state.line(found.season, found.day)?;
    let name = &found.name;
    if !files.is_empty() && !same_day(&line, &input.bytes) {
        return Err(Stop::Fault(format!(
            "{name} is closed, with other bytes ({}, from {}): nothing is written",
            line.bytes, line.names
        )));
    }
    state.settle()?;
    say(&format!(
        "{name} is closed already, with {} bytes: nothing to do",
        line.bytes
    ));
    Ok(())
}

/// Closes the open day. Where files are given it is empty, and theirs are all of its bytes.
fn close_open(mut state: State, found: &Found, input: &Input) -> Result<(), Stop> {
    let mut service = state.record.service.clone();
    let closed = service.add(&input.bytes).and_then(|_| service.close_day());
    let values =
        closed.map_err(|refusal| refused(refusal, &state, &found.name, input.bytes.len()))?;
    state.follow(&service);
    let whole = match input.bytes[..] {
        [] => state.record.day,
        _ => Extent::of(&input.bytes),
    };
    let line = Line {
        day: found.day,
        bytes: whole.length,
        digest: whole.digest,
        names: names_with(&state.record, input),
    };
    let record = Record {
        book: match values[..] {
            [] => state.record.book,
            _ => state.season.book_with(&values),
        },
        index: state.season.index_with(&line),
        day: Extent::of(&[]),
        names: String::new(),
        seasons: state.record.seasons,
        service,
    };
    state.commit_close(record, &values, &line)?;
    let (name, count) = (&found.name, values.len() / VALUE);
    say(&format!(
        "{name} is closed: bytes {}, values {count}",
        line.bytes
    ));
    if found.day == DAYS_LIMIT {
        say(&full(found.season));
    }
    Ok(())
}

/// Says that a season is full, and what comes next.
fn full(season: u32) -> String {
    let next = match season {
        LAST_SEASON => "it is the last one".to_string(),
        _ => {
            let (next, book) = (season + 1, of_season(BOOK, season + 1));
            format!("next is day 1 of season {next}, whose values go to {book}")
        }
    };
    format!("season {season} is full: {next}")
}

#[cfg(test)]
mod tests {
    use super::*;

    #[test]
    fn full_seasons() {
        assert_eq!(
            full(65_534),
            "season 65534 is full: next is day 1 of season 65535, whose values go to book-65535"
        );
        assert_eq!(full(65_535), "season 65535 is full: it is the last one");
    }
}
