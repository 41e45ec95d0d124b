//! The days: files of a folder, or a ledger with its ends.

use std::ffi::OsString;
use std::fs;
use std::io::{self, Read};
use std::path::{Path, PathBuf};

use daybook::{Refusal, Service, DAYS_LIMIT, DAY_LIMIT};

use crate::arguments::Source;
use crate::files::{open, read_front, reserved, unread};
use crate::progress::Progress;
use crate::stop::Stop;

/// Bytes handed to the service at a time.
const PIECE: usize = 65_536;

/// The days of a source, found but not yet read.
pub enum Days {
    /// A file for each day, in order.
    Files(Vec<PathBuf>),
    Ledger {
        ledger: PathBuf,
        ends: Vec<u32>,
    },
}

/// The bytes of the days, and where each ends.
pub struct Ledger {
    pub bytes: Vec<u8>,
    pub ends: Vec<u32>,
    /// Whether the ledger goes on past the last end.
    pub more: bool,
}

impl Days {
    pub fn find(source: &Source) -> Result<Days, Stop> {
        match source {
            Source::Folder(folder) => Ok(Days::Files(day_files(folder)?)),
            Source::Ledger { ledger, ends } => Ok(Days::Ledger {
                ledger: ledger.clone(),
                ends: read_ends(ends)?,
            }),
        }
    }

    /// The number of days. Past the limit of days it may be less than the source has.
    pub fn count(&self) -> u32 {
        let count = match self {
            Days::Files(files) => files.len(),
            Days::Ledger { ends, .. } => ends.len(),
        };
        u32::try_from(count).unwrap_or(u32::MAX)
    }

    /// The names of the days, where each is a file.
    pub fn names(&self) -> Option<Vec<OsString>> {
        match self {
            Days::Files(files) => Some(file_names(files)),
            Days::Ledger { .. } => None,
        }
    }

    /// The length of the whole ledger, of which this was read.
    pub fn length(&self, read: &Ledger) -> u64 {
        let read = read.bytes.len() as u64;
        match self {
            Days::Files(_) => read,
            Days::Ledger { ledger, .. } => fs::metadata(ledger)
                .map_or(read, |file| file.len())
                .max(read),
        }
    }

    /// Reads the first `d` days; with fewer, as many as there are.
    pub fn load(&self, d: u32) -> Result<Ledger, Stop> {
        match self {
            Days::Files(files) => load_files(&files[..files.len().min(d as usize)]),
            Days::Ledger { ledger, ends } => load_ledger(ledger, ends, d),
        }
    }
}

/// The files of a folder in byte order of their names. An entry that is no file is a fault.
pub fn day_files(folder: &Path) -> Result<Vec<PathBuf>, Stop> {
    let mut files = Vec::new();
    for entry in fs::read_dir(folder).map_err(|error| unread(folder, error))? {
        let path = entry.map_err(|error| unread(folder, error))?.path();
        let kind = fs::metadata(&path).map_err(|error| unread(&path, error))?;
        if !kind.is_file() {
            return Err(unread(&path, "a day must be a regular file"));
        }
        files.push(path);
    }
    files.sort_by(|a, b| name_bytes(a).cmp(name_bytes(b)));
    Ok(files)
}

pub fn file_names(files: &[PathBuf]) -> Vec<OsString> {
    let names = files.iter().filter_map(|path| path.file_name());
    names.map(OsString::from).collect()
}

fn name_bytes(path: &Path) -> &[u8] {
    path.file_name().unwrap_or_default().as_encoded_bytes()
}

/// The ends in a file. One more than a book can have is enough to tell that there are too many.
fn read_ends(path: &Path) -> Result<Vec<u32>, Stop> {
    let (bytes, _) = read_front(path, 4 * (u64::from(DAYS_LIMIT) + 1))?;
    if bytes.len() % 4 != 0 {
        return Err(unread(path, "its length is not a multiple of 4"));
    }
    Ok(ends_of(&bytes))
}

fn ends_of(bytes: &[u8]) -> Vec<u32> {
    bytes
        .chunks_exact(4)
        .map(|end| u32::from_le_bytes([end[0], end[1], end[2], end[3]]))
        .collect()
}

/// Reads the ledger up to the last end needed: more of it has no part in any answer.
fn load_ledger(path: &Path, ends: &[u32], d: u32) -> Result<Ledger, Stop> {
    let last = (d as usize).checked_sub(1).and_then(|at| ends.get(at));
    let (bytes, more) = read_front(path, last.map_or(0, |end| u64::from(*end)))?;
    Ok(Ledger {
        bytes,
        ends: ends.to_vec(),
        more,
    })
}

/// Reads the files end to end. Of a day over its limit one byte more is read: enough to be refused.
fn load_files(files: &[PathBuf]) -> Result<Ledger, Stop> {
    let most = u64::from(DAY_LIMIT) + 1;
    let mut bytes = reserved(total(files, most)?)?;
    let mut ends = Vec::with_capacity(files.len());
    let mut progress = Progress::new("reading", files.len());
    for path in files {
        let read = open(path)?.take(most).read_to_end(&mut bytes);
        read.map_err(|error| unread(path, error))?;
        ends.push(u32::try_from(bytes.len()).map_err(|_| too_long())?);
        progress.done(ends.len());
    }
    Ok(Ledger {
        bytes,
        ends,
        more: false,
    })
}

/// The bytes of the files together, at most `most` of each.
fn total(files: &[PathBuf], most: u64) -> Result<u64, Stop> {
    let mut total = 0;
    for path in files {
        let length = fs::metadata(path).map_err(|error| unread(path, error))?;
        total += length.len().min(most);
    }
    if total > u64::from(u32::MAX) {
        return Err(too_long());
    }
    Ok(total)
}

fn too_long() -> Stop {
    Stop::Fault("the days together have more than 4294967295 bytes: no 32-bit ends".to_string())
}

/// How adding a file can end early.
pub enum Halt {
    Refused(Refusal),
    Stopped(Stop),
}

/// Adds the file to the open day, in pieces.
pub fn add_file(service: &mut Service, path: &Path) -> Result<(), Halt> {
    let mut file = open(path).map_err(Halt::Stopped)?;
    let mut piece = [0; PIECE];
    loop {
        match file.read(&mut piece) {
            Ok(0) => return Ok(()),
            Ok(length) => {
                service.add(&piece[..length]).map_err(Halt::Refused)?;
            }
            Err(error) if error.kind() == io::ErrorKind::Interrupted => {}
            Err(error) => return Err(Halt::Stopped(unread(path, error))),
        }
    }
}

#[cfg(test)]
mod tests {
    use super::*;

    #[test]
    fn ends_are_little_endian() {
        assert_eq!(ends_of(&[]), []);
        assert_eq!(
            ends_of(&[1, 0, 0, 0, 4, 3, 2, 1, 255, 255, 255, 255]),
            [1, 0x0102_0304, u32::MAX]
        );
    }
}
