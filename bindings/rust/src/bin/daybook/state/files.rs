//! Files of a state folder: read to a length, written from a place on, and the one commit.

use std::fmt::Display;
use std::fs::{self, File, OpenOptions};
use std::io::{self, ErrorKind, Seek, SeekFrom, Write};
use std::path::{Path, PathBuf};

use daybook::LAST_SEASON;

use super::form::{Extent, Record};
use super::{RECORD, RECORD_NEW};
use crate::files::{read_front, unread, unwritten};
use crate::stop::Stop;

pub fn at(folder: &Path, name: &str) -> PathBuf {
    folder.join(name)
}

/// The file that holds the bytes of a day while it is open.
pub fn day_name(day: u32) -> String {
    format!("day-{day}")
}

/// The day whose bytes a file of this name holds.
pub fn day_of(name: &str) -> Option<u32> {
    let day = name.strip_prefix("day-")?.parse().ok()?;
    (day_name(day) == name).then_some(day)
}

/// The name of a season's file. Those of season 0 have no number.
pub fn of_season(name: &str, season: u32) -> String {
    match season {
        0 => name.to_string(),
        _ => format!("{name}-{season}"),
    }
}

/// The season from 1 on whose file this is.
pub fn season_of(name: &str, file: &str) -> Option<u32> {
    let season = file.strip_prefix(name)?.strip_prefix('-')?.parse().ok()?;
    let own = (1..=LAST_SEASON).contains(&season) && of_season(name, season) == file;
    own.then_some(season)
}

/// A file that is not what the record says.
pub fn misfit(path: &Path, what: impl Display) -> Stop {
    let path = path.display();
    Stop::Fault(format!(
        "{path} does not fit the state: {what}. Nothing is written"
    ))
}

/// A file's front, and what a stopped run left behind it.
pub struct Front {
    pub bytes: Vec<u8>,
    pub tail: Vec<u8>,
}

/// Reads the front that the record says, and a tail of at most `most` bytes.
pub fn front(path: &Path, extent: Extent, most: u64) -> Result<Front, Stop> {
    let (mut bytes, more) = read_front(path, extent.length.saturating_add(most))?;
    if (bytes.len() as u64) < extent.length {
        let (has, length) = (bytes.len(), extent.length);
        return Err(misfit(
            path,
            format!("it has {has} bytes, and the record says {length}"),
        ));
    }
    let tail = bytes.split_off(extent.length as usize);
    if Extent::of(&bytes) != extent {
        let length = extent.length;
        return Err(misfit(
            path,
            format!("its first {length} bytes are not those that the record says"),
        ));
    }
    if more {
        let length = extent.length;
        return Err(misfit(
            path,
            format!("the record says {length} bytes, and it has more than a stopped run leaves"),
        ));
    }
    Ok(Front { bytes, tail })
}

/// The bytes of a file of a past season, which `seasons` says.
pub fn past_bytes(path: &Path, extent: Extent) -> Result<Vec<u8>, Stop> {
    test_past_length(path, extent)?;
    let (bytes, _) = read_front(path, extent.length)?;
    match Extent::of(&bytes) == extent {
        true => Ok(bytes),
        false => Err(misfit(path, "its bytes are not those that seasons says")),
    }
}

/// A file of a past season is there, with the length that `seasons` says.
pub fn test_past_length(path: &Path, extent: Extent) -> Result<(), Stop> {
    let has = fs::metadata(path)
        .map_err(|error| unread(path, error))?
        .len();
    let length = extent.length;
    match has == length {
        true => Ok(()),
        false => Err(misfit(
            path,
            format!("it has {has} bytes, and seasons says {length}"),
        )),
    }
}

/// The bytes of the record, of which there is always one.
pub fn record_bytes(path: &Path) -> Result<Vec<u8>, Stop> {
    match fs::read(path) {
        Ok(bytes) => Ok(bytes),
        Err(error) if error.kind() == ErrorKind::NotFound => Err(misfit(
            path,
            "it is missing, and a state without its record is no fresh one",
        )),
        Err(error) => Err(unread(path, error)),
    }
}

pub fn sync_folder(folder: &Path) -> Result<(), Stop> {
    let synced = File::open(folder).and_then(|file| file.sync_all());
    synced.map_err(|error| {
        Stop::Fault(format!(
            "{} cannot be flushed to disk: {error}",
            folder.display()
        ))
    })
}

/// Writes the bytes behind a file that has `length` of them, flushed to disk. A file that is not there
/// is made, if it has none.
pub fn append(path: &Path, length: u64, bytes: &[u8]) -> Result<(), Stop> {
    let written = || -> io::Result<()> {
        let mut options = OpenOptions::new();
        options.write(true).create(length == 0).truncate(false);
        let mut file = options.open(path)?;
        file.seek(SeekFrom::Start(length))?;
        file.write_all(bytes)?;
        file.sync_all()
    };
    written().map_err(|error| unwritten(path, error))
}

/// A new file with these bytes, flushed to disk.
pub fn create(path: &Path, bytes: &[u8]) -> Result<(), Stop> {
    let written = || -> io::Result<()> {
        let mut file = File::create(path)?;
        file.write_all(bytes)?;
        file.sync_all()
    };
    written().map_err(|error| unwritten(path, error))
}

/// The commit: the new record takes the place of the old one, in one step. Before it, all that the
/// new record says is on disk.
pub fn commit(folder: &Path, record: &Record) -> Result<(), Stop> {
    put(folder, (RECORD_NEW, RECORD), &record.to_bytes())?;
    sync_folder(folder).map_err(|stop| match stop {
        Stop::Fault(message) => Stop::Fault(format!(
            "it is done, but {message}. Repeat the command, to be sure that it lasts"
        )),
        other => other,
    })
}

/// Writes a file under its first name and renames it to its second: it takes the place of the old one, if
/// there is one, in one step. The folder is still to be flushed.
pub fn put(folder: &Path, (new, old): (&str, &str), bytes: &[u8]) -> Result<(), Stop> {
    let (new, old) = (at(folder, new), at(folder, old));
    create(&new, bytes)?;
    fs::rename(&new, &old).map_err(|error| unwritten(&old, error))
}

/// Cuts a file back to its first `length` bytes.
pub fn cut(path: &Path, length: u64) -> Result<(), Stop> {
    let file = OpenOptions::new().write(true).open(path);
    file.and_then(|file| file.set_len(length))
        .map_err(|error| unwritten(path, error))
}

#[cfg(test)]
mod tests {
    use super::*;

    #[test]
    fn names_of_seasons() {
        assert_eq!(of_season("book", 0), "book");
        assert_eq!(of_season("book", 17), "book-17");
        assert_eq!(season_of("book", "book-17"), Some(17));
        assert_eq!(season_of("index", "index-65535"), Some(65_535));
        for name in [
            "book",
            "book-",
            "book-0",
            "book-017",
            "book-65536",
            "book-x",
            "books-1",
            "index-1",
            "book-1.new",
        ] {
            assert_eq!(season_of("book", name), None, "{name}");
        }
    }

    #[test]
    fn names_of_days() {
        assert_eq!(day_of("day-17"), Some(17));
        for name in [
            "day-",
            "day-017",
            "day-x",
            "day",
            "record",
            "day-4294967296",
        ] {
            assert_eq!(day_of(name), None, "{name}");
        }
    }
}
