//! A service kept in a folder, day by day: the commands `open`, `add`, `close` and `status`.
//!
//! A run takes the lock, reads all files and tests them against the record, and writes only what goes
//! beyond the record. Then it commits: a new record takes the place of the old one. A run that is
//! stopped leaves the state before or after that step, and the next run takes away the rest.

mod age;
mod build;
mod clean;
mod day;
mod digest;
mod files;
mod form;
mod input;
mod load;
mod lock;
mod sealed;
mod season;

use std::ffi::OsString;
use std::path::Path;

use daybook::Layout;

use crate::commands::{Answer, Done};
use crate::stop::Stop;
use load::State;
use lock::Access;

pub use clean::Kept;
pub use day::Day;
pub use sealed::Sealed;

/// The files of a state folder. Beside them stands a file for the bytes of the open day. Book, index
/// and clean days are those of season 0; from season 1 on their names have its number.
const LAYOUT: &str = "layout";
const LAYOUT_NEW: &str = "layout.new";
const BOOK: &str = "book";
const INDEX: &str = "index";
const RECORD: &str = "record";
const RECORD_NEW: &str = "record.new";
/// The past seasons; a folder that has none need not have it.
const SEASONS: &str = "seasons";
/// The days that verified clean; a folder that keeps none need not have it.
const CLEAN: &str = "clean";
const CLEAN_NEW: &str = "clean.new";
const LOCK: &str = "lock";

/// A command on a state folder.
#[derive(Debug, PartialEq, Eq)]
pub enum Service {
    Open {
        layout: Layout,
    },
    /// Adds files to the open day, which had `at` bytes before.
    Add {
        day: Day,
        at: u32,
        files: Vec<OsString>,
    },
    /// Closes the open day, of the files where there are some.
    Close {
        day: Day,
        files: Vec<OsString>,
    },
    /// Says where the service stands, or what one of its seasons has.
    Status {
        season: Option<u32>,
    },
}

/// Whether a folder is a state folder, whole or not.
pub fn is_state(folder: &Path) -> bool {
    let has = |name: &str| folder.join(name).is_file();
    has(LOCK) && (has(LAYOUT) || has(RECORD))
}

pub fn run(folder: &Path, service: &Service) -> Result<Done, Stop> {
    let lines = match service {
        Service::Open { layout } => build::open(folder, *layout).map(|()| String::new()),
        Service::Add { day, at, files } => {
            day::add(folder, *day, *at, files).map(|()| String::new())
        }
        Service::Close { day, files } => day::close(folder, *day, files).map(|()| String::new()),
        Service::Status { season } => status(folder, *season),
    };
    Ok(Done {
        lines: lines?,
        answer: Answer::Clean,
    })
}

fn status(folder: &Path, season: Option<u32>) -> Result<String, Stop> {
    let state = State::load(folder, Access::Look)?;
    if season.is_none() {
        state.test_past()?;
    }
    state.say_left();
    let Layout { scheme, n, f } = state.layout();
    let interrupted = if state.interrupted() { "yes" } else { "no" };
    let open = match season {
        Some(season) if season != state.season.number => 0,
        _ => state.day.len(),
    };
    let season = state.into_season(season)?;
    let (number, days, values) = (season.number, season.days, season.values());
    let (checkable, clean) = (season.checkable(), clean::last_of(&season)?);
    Ok(format!(
        "scheme {scheme}\nn {n}\nf {f}\nseason {number}\ndays {days}\nopen {open}\n\
         values {values}\ncheckable {checkable}\ninterrupted {interrupted}\nclean {clean}\n"
    ))
}
