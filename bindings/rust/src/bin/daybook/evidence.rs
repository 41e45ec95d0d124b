//! A book is evidence: it is not replaced by another one.

use std::fs::{self, OpenOptions};
use std::io::ErrorKind;
use std::path::Path;

use crate::files::{read_front, unwritten};
use crate::stop::Stop;

/// Whether a book must be written where one may be already.
#[derive(Debug, PartialEq, Eq)]
pub enum Book {
    /// There is none, or it is the front of the new one, or it is to be replaced.
    Write,
    /// It is there already, byte for byte.
    Stands,
}

/// Compares the book that is there, if any, with the new one. A read-only one is never replaced, and
/// another one only by force.
pub fn test_book(path: &Path, new: &[u8], force: bool) -> Result<Book, Stop> {
    if !path.exists() {
        return Ok(Book::Write);
    }
    let (old, more) = read_front(path, new.len() as u64)?;
    let front = !more && new.starts_with(&old);
    if front && old.len() == new.len() {
        return Ok(Book::Stands);
    }
    if read_only(path) {
        return Err(unwritten(
            path,
            "it is read-only, and a book is not replaced then",
        ));
    }
    if front || force {
        return Ok(Book::Write);
    }
    Err(unwritten(
        path,
        "it is another book, and not the front of the new one. It may be evidence; --force \
         replaces it",
    ))
}

/// Whether nobody may write the file, or this process may not.
fn read_only(path: &Path) -> bool {
    let marked = fs::metadata(path).is_ok_and(|file| file.permissions().readonly());
    let opened = OpenOptions::new().write(true).open(path);
    marked || opened.is_err_and(|error| error.kind() == ErrorKind::PermissionDenied)
}
