//! Making a state folder, whole in one step.

use std::fs;
use std::io::{self, ErrorKind};
use std::path::{Path, PathBuf};

use daybook::{Layout, Service};

use super::files::{at, create, sync_folder};
use super::form::{layout_text, Record};
use super::load::State;
use super::lock::{self, Access};
use super::{BOOK, INDEX, LAYOUT, LOCK, RECORD};
use crate::files::unwritten;
use crate::leavings::{self, parent};
use crate::say;
use crate::stop::Stop;

/// The files of a folder that was never used.
const FRESH: [&str; 5] = [LOCK, LAYOUT, BOOK, INDEX, RECORD];

pub fn open(folder: &Path, layout: Layout) -> Result<(), Stop> {
    let service =
        Service::open(layout).map_err(|refusal| Stop::Refused(refusal, layout.to_string()))?;
    let place = place(folder)?;
    match fs::read_dir(&place) {
        Ok(mut entries) => match entries.next() {
            Some(_) => open_again(folder, &place, service),
            None => build(folder, &place, service),
        },
        Err(error) if error.kind() == ErrorKind::NotFound => build(folder, &place, service),
        Err(error) => Err(unwritten(folder, error)),
    }
}

/// Where the folder stands, or is to stand.
fn place(folder: &Path) -> Result<PathBuf, Stop> {
    match fs::canonicalize(folder) {
        Ok(place) => Ok(place),
        Err(_) => crate::files::place(folder),
    }
}

/// The folder is there: a fresh state of this layout is what would be made.
fn open_again(folder: &Path, place: &Path, service: Service) -> Result<(), Stop> {
    if FRESH.iter().all(|name| !at(folder, name).exists()) {
        return Err(unwritten(folder, "it is not empty, and holds no state"));
    }
    let mut state = State::load(folder, Access::Write)?;
    if state.record != Record::fresh(service) {
        return Err(Stop::Fault(format!(
            "{} holds a state already: {}, season {}, days closed {}, open bytes {}. Nothing is \
             written",
            folder.display(),
            state.layout(),
            state.season.number,
            state.season.days,
            state.day.len()
        )));
    }
    state.settle()?;
    leavings::clean(parent(place));
    sync_folder(parent(place))?;
    say(&format!(
        "{} is open already, with no day: nothing to do",
        folder.display()
    ));
    Ok(())
}

/// Builds the folder beside its place, and moves it there.
fn build(folder: &Path, place: &Path, service: Service) -> Result<(), Stop> {
    leavings::clean(parent(place));
    let layout = service.layout();
    let beside = leavings::make_folder(parent(place)).map_err(|error| unwritten(folder, error))?;
    let built = fill(&beside, service)
        .and_then(|()| lock::take(&beside, Access::Write))
        .and_then(|held| sync_folder(&beside).map(|()| held));
    let moved = built.and_then(|held| {
        let moved: io::Result<()> = fs::rename(&beside, place);
        moved.map_err(|error| unwritten(folder, error))?;
        Ok(held)
    });
    let held = moved.inspect_err(|_| leavings::remove_folder(&beside))?;
    sync_folder(parent(place)).map_err(|stop| match stop {
        Stop::Fault(message) => Stop::Fault(format!(
            "{} is made, but {message}. Repeat the command, to be sure that it lasts",
            folder.display()
        )),
        other => other,
    })?;
    drop(held);
    say(&format!("{} is open: {layout}", folder.display()));
    Ok(())
}

fn fill(folder: &Path, service: Service) -> Result<(), Stop> {
    for name in FRESH {
        let bytes = match name {
            LAYOUT => layout_text(service.layout()).into_bytes(),
            RECORD => Record::fresh(service.clone()).to_bytes(),
            _ => Vec::new(),
        };
        create(&at(folder, name), &bytes)?;
    }
    Ok(())
}
