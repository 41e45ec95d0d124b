//! What was made before version 0.8.0, when chains started otherwise. It is named as such, and
//! never taken for altered or damaged.

use std::fmt::Display;
use std::path::Path;

use crate::stop::Stop;

/// Where it stands how the days of before are sealed again.
const HOW: &str = "\"Members seal older years again\" in README.md, OLDER YEARS in man daybook";

/// Why a file whose format version is the one before is not taken.
pub const FOLDER: &str =
    "format version 1: the folder was begun before version 0.8.0, whose chains \
    start otherwise; its days must be sealed again";

/// A file of a state folder that is of before.
pub fn file(path: &Path, what: impl Display) -> Stop {
    let path = path.display();
    Stop::Fault(format!("{path}: {what} ({HOW}). Nothing is written"))
}

/// Where the book that was checked comes from.
#[derive(Clone, Copy, Debug, PartialEq, Eq)]
pub enum Book {
    /// A file, which has values and nothing else.
    Given,
    /// A state folder, whose record tells its layout and how its chains start.
    OfState,
}

/// What it may mean that no value of a book passes; nothing where one does.
pub fn note(outcomes: &[u8], book: Book) -> Option<String> {
    if outcomes.is_empty() || outcomes.contains(&1) {
        return None;
    }
    let else_what = match book {
        Book::Given => format!(
            "or the book may be of another season, of another layout (another scheme or N) or of \
             a delivery before 0.8.0, and then it says nothing of these days ({HOW})"
        ),
        Book::OfState => "or these may not be the days that were sealed in this season: by the \
             folder's record the book is of version 0.8.0 or later, and of this layout"
            .to_string(),
    };
    Some(format!(
        "note: no value of the book passes. Each may cover an altered day; {else_what}"
    ))
}
