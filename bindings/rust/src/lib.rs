//! Day books: seal the days of a ledger, check the ledger later, list the days that may have been
//! altered.
//!
//! Safe calls of the proved static library `libdaybook_c.a`. A [`Service`] takes each closing day's
//! bytes and gives the values of the book; it goes on from season to season, each of 65,536 days with
//! a book of its own. [`seal`] does the same for a whole ledger. [`check`]
//! hashes the ledger again and compares it with the book; [`read`] lists the days that the outcomes
//! tell of, and [`search`] does so chain by chain, up to a limit. [`forecast`] says from the lengths of
//! the days what sealing them will take; [`chain_at`] and [`position_of`] lead from a position of a
//! book to its chain, and back. [`tile_counts`] says how vague a tile is, for those who choose N. A
//! call that is refused gives its [`Refusal`] and changes nothing.
//!
//! ```
//! use daybook::{check_to_vecs, read_to_vec, Layout, Refusal, Service};
//!
//! // Four days, sealed one by one.
//! let layout = Layout::tile(4, 1);
//! let mut service = Service::open(layout)?;
//! let mut book = Vec::new();
//! for day in ["rye 12", "oats 7", "wheat 40", "barley 3"] {
//!     service.add(day.as_bytes())?;
//!     book.extend(service.close_day()?);
//! }
//!
//! // The ledger later: day 4 was altered.
//! let ledger = b"rye 12oats 7wheat 40barley 9";
//! let ends = [6, 12, 20, 28];
//! let checked = check_to_vecs(layout, 4, ledger, &ends, &book)?;
//! let (reading, days) = read_to_vec(layout, 4, 0, &checked.outcomes)?; // no check passed before
//! assert!(!reading.is_clean());
//! assert_eq!(days, [4]);
//! # Ok::<(), Refusal>(())
//! ```

#![deny(unsafe_code)]
#![warn(missing_docs)]
#![warn(clippy::missing_errors_doc, clippy::must_use_candidate)]

mod ambiguity;
mod book;
#[allow(unsafe_code)]
mod ffi;
mod layout;
mod positions;
mod record;
mod refusal;
mod search;
mod service;
mod sizing;

pub use ambiguity::{tile_counts, TileCounts};
pub use book::{
    check, check_to_vecs, read, read_to_vec, seal, seal_to_vec, validation_before, values, Checked,
    Reading,
};
pub use layout::Layout;
pub use positions::{chain_at, position_of, Chain, Kind};
pub use record::NotARecord;
pub use refusal::Refusal;
pub use search::{search, search_to_vec, Progress};
pub use service::{Closed, Service};
pub use sizing::{forecast, Sizes};

/// Bytes of a record.
pub const RECORD: usize = 728;
/// Bytes of a record of version 0.8, which has no season: with four zero bytes behind it, it is a
/// record of season 0.
pub const RECORD_WITHOUT_SEASON: usize = 724;
/// Bytes of a record before version 0.8.0. Its chains start otherwise, and no service goes on from
/// it.
pub const EARLIER_RECORD: usize = 692;
/// Bytes of a value, and of a day's digest.
pub const VALUE: usize = 32;
/// Bytes that are enough for the values of any day.
pub const PART: usize = 544;
/// Bytes that a day may hold.
pub const DAY_LIMIT: u32 = 16_777_216;
/// Days in a season, and so in a book.
pub const DAYS_LIMIT: u32 = 65_536;
/// The number of the last season; the first is 0.
pub const LAST_SEASON: u32 = 65_535;
/// Bytes that are enough for any book: scheme 3, N 1, 65,536 days.
pub const BOOK_LIMIT: usize = 6_290_880;

/// The version of the archive: 10000 · major + 100 · minor + patch.
#[must_use]
pub fn version() -> u32 {
    ffi::version()
}

/// The code of the package's page, as doc tests.
#[cfg(doctest)]
#[doc = include_str!("../README.md")]
struct Readme;
