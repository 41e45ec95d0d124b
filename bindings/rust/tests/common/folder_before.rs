//! State folders as the programs before version 0.8.0 left them, built by hand.

#![allow(dead_code)] // each test program uses some of it

use std::fs;

use daybook::Layout;

use crate::common::{book_before, digest, hex, Folder};
use crate::folders::record_file;
use crate::record::{Record, START_AT};

/// A service of before: its layout, its closed days and the bytes of the open one.
pub struct Before {
    pub layout: Layout,
    pub days: Vec<Vec<u8>>,
    pub open: Vec<u8>,
}

impl Before {
    /// The library's record, of 692 bytes.
    pub fn service(&self) -> Vec<u8> {
        let mut plain = Record::open_before(self.layout);
        for day in &self.days {
            plain.add(day);
            plain.close();
        }
        plain.add(&self.open);
        plain.to_bytes()[..START_AT].to_vec()
    }

    pub fn book(&self) -> Vec<u8> {
        book_before(self.layout, &self.days)
    }

    /// The index of days that were closed from the files `days/day-01` and so on.
    pub fn index(&self) -> String {
        let line = |(day, bytes): (usize, &Vec<u8>)| {
            let (number, length, digest) = (day + 1, bytes.len(), hex(&digest(bytes)));
            format!("{number},{length},{digest},days/day-{number:02}\n")
        };
        self.days.iter().enumerate().map(line).collect()
    }

    pub fn layout_text(&self, version: u32) -> String {
        let Layout { scheme, n, f } = self.layout;
        format!("daybook state {version}\nscheme {scheme}\nn {n}\nf {f}\n")
    }

    /// The file `record` of the format version 1, or of another one with this service's record.
    pub fn record(&self, version: u32, service: &[u8]) -> Vec<u8> {
        let names = if self.open.is_empty() { "" } else { "noon" };
        let (book, index) = (self.book(), self.index());
        record_file(
            version,
            service,
            [&book, index.as_bytes(), &self.open],
            names,
        )
    }

    /// Writes the folder.
    pub fn write(&self, folder: &Folder, name: &str) {
        let path = folder.file(name);
        let file = |file: &str, bytes: &[u8]| fs::write(path.join(file), bytes).unwrap();
        fs::create_dir(&path).unwrap();
        file("lock", &[]);
        file("layout", self.layout_text(1).as_bytes());
        file("book", &self.book());
        file("index", self.index().as_bytes());
        file("record", &self.record(1, &self.service()));
        if !self.open.is_empty() {
            file(&format!("day-{}", self.days.len() + 1), &self.open);
        }
    }
}
