//! Files read to a length, and files replaced whole.

use std::fmt::Display;
use std::fs::{self, File};
use std::io::{self, Read, Write};
use std::path::{Path, PathBuf};

use crate::leavings::{self, parent};
use crate::state;
use crate::stop::Stop;

/// Links in a row that the system follows.
const MOST_LINKS: u32 = 40;

/// The first `need` bytes of a file, or all where it has fewer, and whether it has more.
pub fn read_front(path: &Path, need: u64) -> Result<(Vec<u8>, bool), Stop> {
    let file = open(path)?;
    let length = file.metadata().map_err(|error| unread(path, error))?.len();
    let mut bytes = reserved(length.min(need + 1))?;
    let read = file.take(need + 1).read_to_end(&mut bytes);
    read.map_err(|error| unread(path, error))?;
    let more = bytes.len() as u64 > need;
    if more {
        bytes.pop();
    }
    Ok((bytes, more))
}

pub fn open(path: &Path) -> Result<File, Stop> {
    File::open(path).map_err(|error| unread(path, error))
}

/// An empty vector with room for so many bytes.
pub fn reserved(length: u64) -> Result<Vec<u8>, Stop> {
    let mut bytes = Vec::new();
    let room = usize::try_from(length).map(|length| bytes.try_reserve_exact(length));
    match room {
        Ok(Ok(())) => Ok(bytes),
        _ => Err(Stop::Fault(format!("no memory for {length} bytes"))),
    }
}

pub fn unread(path: &Path, error: impl Display) -> Stop {
    Stop::Fault(format!("{} cannot be read: {error}", path.display()))
}

pub fn unwritten(path: &Path, error: impl Display) -> Stop {
    Stop::Fault(format!("{} cannot be written: {error}", path.display()))
}

/// Where a file to be written stands: an existing regular file, or a new name in an existing folder.
pub fn place(path: &Path) -> Result<PathBuf, Stop> {
    if is_stream(path) {
        return Err(unwritten(path, "it is a stream and not the name of a file"));
    }
    match fs::canonicalize(path) {
        Ok(place) if place.is_file() => Ok(place),
        Ok(_) => Err(unwritten(path, "it is not a regular file")),
        Err(_) => new_place(path),
    }
}

fn new_place(path: &Path) -> Result<PathBuf, Stop> {
    if path.is_symlink() {
        return Err(unwritten(path, "it is a link to nothing"));
    }
    let (Some(folder), Some(name)) = (path.parent(), path.file_name()) else {
        return Err(unwritten(path, "it is not the name of a file"));
    };
    let folder = full_folder(folder).map_err(|error| unwritten(path, error))?;
    Ok(folder.join(name))
}

fn full_folder(folder: &Path) -> io::Result<PathBuf> {
    if folder.as_os_str().is_empty() {
        return fs::canonicalize(".");
    }
    fs::canonicalize(folder)
}

/// Whether a path leads to what a process has open, as /dev/stdout does: the file behind it, if it is
/// one, is not the one that is named.
fn is_stream(path: &Path) -> bool {
    let mut path = path.to_path_buf();
    for _ in 0..MOST_LINKS {
        let folder = full_folder(path.parent().unwrap_or(Path::new("/")));
        let Ok(folder) = folder else {
            return false;
        };
        if folder.starts_with("/proc") {
            return true;
        }
        match fs::read_link(&path) {
            Ok(target) => path = folder.join(target),
            Err(_) => return false,
        }
    }
    false
}

/// A file's new bytes, flushed to disk under a temporary name in its folder. It is removed unless
/// it takes the file's place.
pub struct Staged {
    place: PathBuf,
    temporary: PathBuf,
    /// Holds the lock that tells others that the temporary file is in use.
    file: File,
    moved: bool,
}

impl Staged {
    pub fn new(path: &Path, bytes: &[u8]) -> Result<Staged, Stop> {
        let place = place(path)?;
        leavings::clean(parent(&place));
        let made = leavings::make_file(parent(&place));
        let (file, temporary) = made.map_err(|error| unwritten(path, error))?;
        let mut staged = Staged {
            place,
            temporary,
            file,
            moved: false,
        };
        staged.fill(bytes).map_err(|error| unwritten(path, error))?;
        Ok(staged)
    }

    fn fill(&mut self, bytes: &[u8]) -> io::Result<()> {
        if let Ok(old) = fs::metadata(&self.place) {
            self.file.set_permissions(old.permissions())?;
        }
        self.file.write_all(bytes)?;
        self.file.sync_all()
    }

    /// Takes the file's place, in one step.
    pub fn commit(mut self) -> Result<(), Stop> {
        fs::rename(&self.temporary, &self.place).map_err(|error| unwritten(&self.place, error))?;
        self.moved = true;
        self.flush_folder().map_err(|error| {
            let place = self.place.display();
            Stop::Fault(format!(
                "{place} is written, but its folder cannot be flushed: {error}"
            ))
        })
    }

    /// Takes the file's place after another file took its own. In between there is none, so that the
    /// old one never stands beside the other new one.
    pub fn commit_after(self, other: Staged) -> Result<(), Stop> {
        match fs::remove_file(&self.place) {
            Ok(()) => self
                .flush_folder()
                .map_err(|error| unwritten(&self.place, error))?,
            Err(error) if error.kind() == io::ErrorKind::NotFound => {}
            Err(error) => return Err(unwritten(&self.place, error)),
        }
        other.commit()?;
        self.commit()
    }

    fn flush_folder(&self) -> io::Result<()> {
        File::open(parent(&self.place))?.sync_all()
    }
}

impl Drop for Staged {
    fn drop(&mut self) {
        if !self.moved {
            let _ = fs::remove_file(&self.temporary);
        }
    }
}

/// No file to be written may be another file of the command, or stand in the folder of days.
pub fn test_written(
    written: &[&Path],
    others: &[&Path],
    folder: Option<&Path>,
) -> Result<(), Stop> {
    let folder = folder.map(|folder| (folder, fs::canonicalize(folder).ok()));
    for (index, path) in written.iter().enumerate() {
        let here = place(path)?;
        if state::is_state(parent(&here)) {
            return Err(unwritten(
                path,
                "it stands in a state folder, which open, add and close alone write",
            ));
        }
        if let Some((folder, Some(full))) = &folder {
            if here.parent() == Some(full) {
                let (path, folder) = (path.display(), folder.display());
                return Err(Stop::Fault(format!(
                    "{path} would be a day: it stands in the folder of days {folder}"
                )));
            }
        }
        for other in written[..index].iter().chain(others) {
            if place(other).is_ok_and(|there| there == here) {
                let (path, other) = (path.display(), other.display());
                return Err(Stop::Fault(format!("{path} and {other} are the same file")));
            }
        }
    }
    Ok(())
}
