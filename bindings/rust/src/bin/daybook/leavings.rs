//! Temporary names, and what stopped runs left under them.

use std::fs::{self, File, OpenOptions};
use std::io::{self, ErrorKind};
use std::path::{Path, PathBuf};
use std::process;

const START: &str = ".daybook-";
const END: &str = ".tmp";
const TRIES: u32 = 100;

/// The folder that a place stands in.
pub fn parent(place: &Path) -> &Path {
    place.parent().unwrap_or(Path::new("/"))
}

/// A new file of a temporary name, locked as long as it is held. Where files cannot be locked, the
/// number of the process alone tells that it is in use.
pub fn make_file(folder: &Path) -> io::Result<(File, PathBuf)> {
    make(folder, |path| {
        let file = OpenOptions::new().write(true).create_new(true).open(path)?;
        let _ = file.try_lock();
        Ok(file)
    })
}

/// A new folder of a temporary name.
pub fn make_folder(folder: &Path) -> io::Result<PathBuf> {
    make(folder, |path| fs::create_dir(path)).map(|((), path)| path)
}

fn make<T>(folder: &Path, new: impl Fn(&Path) -> io::Result<T>) -> io::Result<(T, PathBuf)> {
    let mut tries = 0;
    loop {
        let path = folder.join(format!("{START}{}-{tries}{END}", process::id()));
        match new(&path) {
            Err(error) if error.kind() == ErrorKind::AlreadyExists && tries < TRIES => tries += 1,
            made => return made.map(|made| (made, path)),
        }
    }
}

/// Removes what stopped runs left in a folder under temporary names. What cannot be removed stays:
/// it has no part in any answer.
pub fn clean(folder: &Path) {
    let Ok(entries) = fs::read_dir(folder) else {
        return;
    };
    for entry in entries.flatten() {
        let name = entry.file_name();
        let Some(process) = name.to_str().and_then(process_of) else {
            continue;
        };
        let path = entry.path();
        if lives(process) || in_use(&path) {
            continue;
        }
        if path.is_dir() {
            remove_folder(&path);
        } else {
            let _ = fs::remove_file(&path);
        }
    }
}

/// Removes a folder and the files in it.
pub fn remove_folder(folder: &Path) {
    for entry in fs::read_dir(folder).into_iter().flatten().flatten() {
        let _ = fs::remove_file(entry.path());
    }
    let _ = fs::remove_dir(folder);
}

/// The process that a temporary name is of.
fn process_of(name: &str) -> Option<u32> {
    let (process, number) = name
        .strip_prefix(START)?
        .strip_suffix(END)?
        .split_once('-')?;
    number.parse::<u32>().ok()?;
    process.parse().ok()
}

fn lives(process: u32) -> bool {
    Path::new("/proc").join(process.to_string()).exists()
}

/// Whether another process, perhaps one that is not seen from here, holds the lock.
fn in_use(path: &Path) -> bool {
    let locked = if path.is_dir() {
        path.join("lock")
    } else {
        path.to_path_buf()
    };
    File::open(locked).is_ok_and(|file| file.try_lock_shared().is_err())
}

#[cfg(test)]
mod tests {
    use super::*;

    #[test]
    fn own_names_alone() {
        assert_eq!(process_of(".daybook-17-0.tmp"), Some(17));
        for name in [
            "daybook-17-0.tmp",
            ".daybook-17.tmp",
            ".daybook-17-0",
            ".daybook-x-0.tmp",
            ".book.17-0.tmp",
        ] {
            assert_eq!(process_of(name), None, "{name}");
        }
    }
}
