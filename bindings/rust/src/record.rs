use std::error::Error;
use std::fmt;

use crate::{EARLIER_RECORD, RECORD};

/// Bytes that are no record, since they are neither [`RECORD`] many nor as many as one of version
/// 0.8 has.
///
/// Those of a version before 0.8.0 are [`EARLIER_RECORD`] many. Chains started otherwise then, and
/// no service goes on from such a record: its days are sealed again.
#[derive(Clone, Copy, Debug, PartialEq, Eq, Hash)]
pub struct NotARecord {
    /// How many bytes there are.
    pub length: usize,
}

impl NotARecord {
    /// Whether they are as many as a record had before version 0.8.0.
    #[must_use]
    pub const fn is_earlier(&self) -> bool {
        self.length == EARLIER_RECORD
    }
}

impl fmt::Display for NotARecord {
    fn fmt(&self, out: &mut fmt::Formatter<'_>) -> fmt::Result {
        let length = self.length;
        match self.is_earlier() {
            true => write!(
                out,
                "this is the record of an earlier version, of {length} bytes: seal its days again"
            ),
            false => write!(out, "a record has {RECORD} bytes, and this has {length}"),
        }
    }
}

impl Error for NotARecord {}
