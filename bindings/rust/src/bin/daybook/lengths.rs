//! The lengths of the days: those of the files of a folder, or in a text.

use std::ffi::OsString;
use std::fs;
use std::io::{self, BufReader, Read};
use std::path::{Path, PathBuf};

use daybook::DAYS_LIMIT;

use crate::arguments::Lengths;
use crate::days::{day_files, file_names};
use crate::files::{open, unread};
use crate::stop::Stop;

/// The lengths of a source. One that does not fit 32 bits, and so no day, is the greatest that does.
pub struct Found {
    pub lengths: Vec<u32>,
    /// The names of the days, where each is a file.
    pub names: Option<Vec<OsString>>,
}

impl Found {
    pub fn find(source: &Lengths) -> Result<Found, Stop> {
        match source {
            Lengths::Folder(folder) => of_files(&day_files(folder)?),
            Lengths::Text(path) => Ok(Found {
                lengths: read(path)?,
                names: None,
            }),
        }
    }

    /// The number of lengths. Past the limit of days it may be less than the source has.
    pub fn count(&self) -> u32 {
        u32::try_from(self.lengths.len()).unwrap_or(u32::MAX)
    }
}

/// The lengths of files that are not read.
fn of_files(files: &[PathBuf]) -> Result<Found, Stop> {
    let length = |path: &PathBuf| match fs::metadata(path) {
        Ok(file) => Ok(u32::try_from(file.len()).unwrap_or(u32::MAX)),
        Err(error) => Err(unread(path, error)),
    };
    Ok(Found {
        lengths: files.iter().map(length).collect::<Result<_, _>>()?,
        names: Some(file_names(files)),
    })
}

fn read(path: &Path) -> Result<Vec<u32>, Stop> {
    match path.as_os_str().as_encoded_bytes() {
        b"-" => read_lines(path, io::stdin().lock()),
        _ => read_lines(path, open(path)?),
    }
}

/// The lengths in a text, a number a line; the last line may be without its line feed. One more than a
/// book can have is enough to tell that there are too many.
fn read_lines(path: &Path, text: impl Read) -> Result<Vec<u32>, Stop> {
    let (mut lengths, mut begun) = (Vec::new(), None);
    for byte in BufReader::new(text).bytes() {
        let byte = byte.map_err(|error| unread(path, error))?;
        let line = lengths.len() + 1;
        let wrong = || no_length(path, line);
        if byte != b'\n' {
            begun = Some(with_digit(begun, byte).ok_or_else(wrong)?);
            continue;
        }
        lengths.push(begun.take().ok_or_else(wrong)?);
        if lengths.len() > DAYS_LIMIT as usize {
            break;
        }
    }
    lengths.extend(begun);
    Ok(lengths)
}

/// A number with one more digit; none where this is no digit, or the one before a leading zero.
fn with_digit(begun: Option<u32>, byte: u8) -> Option<u32> {
    let digit = char::from(byte).to_digit(10)?;
    match begun {
        None => Some(digit),
        Some(0) => None,
        Some(number) => Some(number.saturating_mul(10).saturating_add(digit)),
    }
}

fn no_length(path: &Path, line: usize) -> Stop {
    unread(path, format!("line {line} is not a number in plain digits"))
}

#[cfg(test)]
mod tests {
    use super::*;

    fn said(text: &str) -> Result<Vec<u32>, Stop> {
        read_lines(Path::new("l"), text.as_bytes())
    }

    #[test]
    fn a_number_a_line() {
        assert_eq!(said(""), Ok(vec![]));
        assert_eq!(said("0"), Ok(vec![0]));
        assert_eq!(said("0\n70\n16777216\n"), Ok(vec![0, 70, 16_777_216]));
        assert_eq!(said("0\n70\n16777217"), Ok(vec![0, 70, 16_777_217]));
    }

    #[test]
    fn lengths_over_32_bits() {
        for text in [
            "4294967295",
            "4294967296",
            "42949672950",
            "18446744073709551616",
            "99999999999999999999999999",
        ] {
            assert_eq!(said(text), Ok(vec![u32::MAX]), "{text}");
        }
        assert_eq!(said("4294967294"), Ok(vec![u32::MAX - 1]));
    }

    #[test]
    fn other_lines() {
        for (text, line) in [
            ("\n", 1),
            ("7\n\n7\n", 2),
            ("7\n7\n\n", 3),
            ("7\n 7\n", 2),
            ("7 \n", 1),
            ("7\r\n", 1),
            ("+7", 1),
            ("7\n-7\n", 2),
            ("7\n7\nseven\n", 3),
            ("7,000\n", 1),
            ("7.0\n", 1),
            ("0x7\n", 1),
            ("07\n", 1),
            ("00\n", 1),
            ("7\n\u{663}\n", 2),
            ("7\n\0", 2),
        ] {
            let message = format!("l cannot be read: line {line} is not a number in plain digits");
            assert_eq!(said(text), Err(Stop::Fault(message)), "{text:?}");
        }
    }

    #[test]
    fn more_than_a_book_can_have() {
        let limit = DAYS_LIMIT as usize;
        assert_eq!(said(&"7\n".repeat(limit)).unwrap().len(), limit);
        let many = "7\n".repeat(limit + 2) + "seven";
        assert_eq!(said(&many).unwrap().len(), limit + 1);
        let last = "7\n".repeat(limit) + "7";
        assert_eq!(said(&last).unwrap().len(), limit + 1);
    }
}
