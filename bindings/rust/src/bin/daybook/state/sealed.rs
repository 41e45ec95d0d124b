//! What a state folder gives to `check`, `read`, `search`, `verify` and `locate`.

use std::path::{Path, PathBuf};

use daybook::Layout;

use super::clean::Kept;
use super::load::State;
use super::lock::Access;
use super::season::Season;
use super::BOOK;
use crate::say;
use crate::stop::Stop;

/// Layout, number of days, book and names of a season. The state may go on meanwhile: the front of a
/// season's book stays.
pub struct Sealed {
    pub layout: Layout,
    pub d: u32,
    pub book: PathBuf,
    /// The names of the closed days, as fields.
    pub names: Vec<String>,
    /// What the folder keeps of days that verified clean, where it was asked for.
    pub kept: Option<Box<Kept>>,
}

impl Sealed {
    /// The season is the one given, or else the present one. D is the one given, or else the greatest
    /// that is allowed and not above the days closed.
    pub fn of(folder: &Path, season: Option<u32>, d: Option<u32>) -> Result<Sealed, Stop> {
        let state = State::load(folder, Access::Look)?;
        let layout = state.layout();
        Sealed::in_season(&state.into_season(season)?, layout, folder, d)
    }

    /// The same, with the days that verified clean.
    pub fn with_kept(folder: &Path, season: Option<u32>, d: Option<u32>) -> Result<Sealed, Stop> {
        let state = State::load(folder, Access::Look)?;
        let layout = state.layout();
        let season = state.into_season(season)?;
        let sealed = Sealed::in_season(&season, layout, folder, d)?;
        let kept = Some(Box::new(Kept::of(&season, folder, sealed.d)?));
        Ok(Sealed { kept, ..sealed })
    }

    fn in_season(
        season: &Season,
        layout: Layout,
        folder: &Path,
        d: Option<u32>,
    ) -> Result<Sealed, Stop> {
        let closed = season.days;
        let d = d.unwrap_or(season.checkable());
        if d > closed {
            return Err(Stop::Fault(format!(
                "{}: {closed} days are closed, and D is {d}",
                folder.display()
            )));
        }
        say_later(season, layout);
        Ok(Sealed {
            layout,
            d,
            book: season.path(BOOK),
            names: season.names()?,
            kept: None,
        })
    }
}

/// Names the days that cannot be checked yet. Those of a full season never can.
fn say_later(season: &Season, layout: Layout) {
    let (first, last) = (season.checkable() + 1, season.days);
    let Layout { n, f, .. } = layout;
    let not = if season.is_full() { "not" } else { "not yet" };
    let why = format!("D goes by {}, and {last} days are closed", n * f);
    match last.checked_sub(first) {
        None => {}
        Some(0) => say(&format!("note: day {first} is {not} checkable: {why}")),
        Some(_) => say(&format!(
            "note: days {first} to {last} are {not} checkable: {why}"
        )),
    }
    if last == 0 {
        say("note: no day is closed, and none is checkable");
    }
}
