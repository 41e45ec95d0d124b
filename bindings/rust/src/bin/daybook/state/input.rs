//! The bytes that a command is handed, in files or on standard input.

use std::ffi::OsString;
use std::fs::File;
use std::io::{self, Read};
use std::path::Path;

use daybook::DAY_LIMIT;

use crate::files::unread;
use crate::names::field;
use crate::stop::Stop;

pub struct Input {
    pub bytes: Vec<u8>,
    /// The name of each file, as a field of the index.
    pub names: Vec<String>,
}

/// Reads the files end to end. Of what is longer than a day may be, one byte more is read: enough to
/// be refused.
pub fn read(files: &[OsString]) -> Result<Input, Stop> {
    let mut bytes = Vec::new();
    for file in files {
        let rest = u64::from(DAY_LIMIT) + 1 - bytes.len() as u64;
        let path = Path::new(file);
        let read = match file.as_encoded_bytes() {
            b"-" => io::stdin().lock().take(rest).read_to_end(&mut bytes),
            _ => File::open(path).and_then(|open| open.take(rest).read_to_end(&mut bytes)),
        };
        read.map_err(|error| unread(path, error))?;
    }
    Ok(Input {
        bytes,
        names: files.iter().map(|file| field(file)).collect(),
    })
}
