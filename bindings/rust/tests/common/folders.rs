//! Folders with all that is in them, and the form of a state's record, from docs/SERVICE.md and not
//! by the program.

#![allow(dead_code)] // each test program uses some of it

use std::collections::BTreeMap;
use std::fs;
use std::path::{Path, PathBuf};

use crate::common::digest;

/// Every file with its bytes and every folder, by their paths below a root.
pub type Tree = BTreeMap<String, Option<Vec<u8>>>;

/// The tree below a folder.
pub fn tree(root: &Path) -> Tree {
    tree_without(root, &[])
}

/// The same without the files at these paths.
pub fn tree_without(root: &Path, left_out: &[PathBuf]) -> Tree {
    let mut all = Tree::new();
    for entry in fs::read_dir(root).unwrap() {
        let entry = entry.unwrap().path();
        let name = entry.strip_prefix(root).unwrap().display().to_string();
        if left_out.contains(&entry) {
            continue;
        }
        if entry.is_dir() {
            let below = tree_without(&entry, left_out).into_iter();
            all.extend(below.map(|(below, bytes)| (format!("{name}/{below}"), bytes)));
            all.insert(name, None);
        } else {
            all.insert(name, Some(fs::read(&entry).unwrap()));
        }
    }
    all
}

/// The file `record` of a format version: a service's record, what book, index and the open day's
/// file hold with it, and the names of the open day's sources. From version 3 on there is a file
/// `seasons` too, which is empty here.
pub fn record_file(version: u32, service: &[u8], files: [&[u8]; 3], names: &str) -> Vec<u8> {
    let seasons: &[&[u8]] = if version < 3 { &[] } else { &[&[]] };
    record_of(version, service, &[&files, seasons].concat(), names)
}

/// The same, with all files that it says.
pub fn record_of(version: u32, service: &[u8], files: &[&[u8]], names: &str) -> Vec<u8> {
    record_with(digest, version, service, files, names)
}

/// The same by another digest.
pub fn record_with(
    digest: fn(&[u8]) -> [u8; 32],
    version: u32,
    service: &[u8],
    files: &[&[u8]],
    names: &str,
) -> Vec<u8> {
    let mut bytes = format!("daybook record {version}\n").into_bytes();
    bytes.extend(service);
    for file in files {
        bytes.extend((file.len() as u64).to_le_bytes());
        bytes.extend(digest(file));
    }
    bytes.extend((names.len() as u32).to_le_bytes());
    bytes.extend(names.as_bytes());
    let checksum = digest(&bytes);
    bytes.extend(checksum);
    bytes
}
