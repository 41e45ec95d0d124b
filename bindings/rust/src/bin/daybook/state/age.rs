//! Folders begun before version 0.8.0. They are named before anything is done: not even the lock is
//! taken.

use std::path::Path;

use super::files::{at, misfit};
use super::form::{layout_age, record_age, Age, RECORD_MOST};
use super::{LAYOUT, RECORD};
use crate::files::read_front;
use crate::older;
use crate::stop::Stop;

/// Names the file that tells of a version before. One that cannot be read tells nothing.
pub fn test(folder: &Path) -> Result<(), Stop> {
    let (layout, record) = (at(folder, LAYOUT), at(folder, RECORD));
    match (layout_age(&bytes(&layout)), record_age(&bytes(&record))) {
        (Age::Older(_), Age::Now(version)) => Err(misfit(
            &layout,
            format!("its format version is 1, and that of the record is {version}"),
        )),
        (Age::Older(what), _) => Err(older::file(&layout, what)),
        (_, Age::Older(what)) => Err(older::file(&record, what)),
        _ => Ok(()),
    }
}

fn bytes(path: &Path) -> Vec<u8> {
    read_front(path, RECORD_MOST).map_or(Vec::new(), |(bytes, _)| bytes)
}
