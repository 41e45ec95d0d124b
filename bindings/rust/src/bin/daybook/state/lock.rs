//! One run at a time.

use std::fs::{File, OpenOptions, TryLockError};
use std::path::Path;

use super::files::at;
use crate::stop::Stop;

/// What a command does with a state folder.
#[derive(Clone, Copy, Debug, PartialEq, Eq)]
pub enum Access {
    /// It writes nothing, and others may look at the same time.
    Look,
    Write,
}

/// Takes the lock of a state folder, held until the file is dropped. It goes with the process, however
/// that ends.
pub fn take(folder: &Path, access: Access) -> Result<File, Stop> {
    let path = at(folder, super::LOCK);
    let file = OpenOptions::new()
        .read(true)
        .write(access == Access::Write)
        .open(&path)
        .map_err(|error| Stop::Fault(format!("{} cannot be opened: {error}", path.display())))?;
    let taken = match access {
        Access::Look => file.try_lock_shared(),
        Access::Write => file.try_lock(),
    };
    match taken {
        Ok(()) => Ok(file),
        Err(TryLockError::WouldBlock) => Err(Stop::Fault(format!(
            "{} is in use by another run: nothing is done",
            folder.display()
        ))),
        Err(TryLockError::Error(error)) => Err(Stop::Fault(format!(
            "{} cannot be locked: {error}",
            path.display()
        ))),
    }
}
