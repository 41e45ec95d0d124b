//! State folders near the end of a season, built by hand from docs/SERVICE.md. The library closes the
//! days; the program has no part in it.

#![allow(dead_code)] // each test program uses some of it

use std::fs;
use std::path::Path;

use daybook::{check_to_vecs, Layout, Service};

use crate::common::hex;
use crate::folders::record_with;

/// The days of a season that are closed, each of one byte: where the service stands then, its book
/// and its index.
#[derive(Clone)]
pub struct Season {
    pub number: u32,
    pub service: Service,
    pub book: Vec<u8>,
    pub index: Vec<u8>,
}

/// The digest of a day, as `common::digest` has it, by the library: these files are long.
pub fn digest(bytes: &[u8]) -> [u8; 32] {
    let ends = [bytes.len() as u32];
    let checked = check_to_vecs(Layout::black(1, 1), 1, bytes, &ends, &[0; 32]);
    checked.unwrap().digests.try_into().unwrap()
}

/// The file `record`, as `folders::record_of` has it.
pub fn record_of(version: u32, service: &[u8], files: &[&[u8]], names: &str) -> Vec<u8> {
    record_with(digest, version, service, files, names)
}

/// The byte of a day of a season.
pub fn byte_of(season: u32, day: u32) -> u8 {
    (day + season) as u8
}

impl Season {
    /// The first `days` of a season.
    pub fn of(layout: Layout, number: u32, days: u32) -> Season {
        let mut record = Service::open(layout).unwrap().to_bytes();
        record[724..].copy_from_slice(&number.to_le_bytes());
        let mut season = Season {
            number,
            service: Service::from_bytes(record),
            book: Vec::new(),
            index: Vec::new(),
        };
        let digests: Vec<String> = (0..=255).map(|byte| hex(&digest(&[byte]))).collect();
        for day in 1..=days {
            let byte = byte_of(number, day);
            season.service.add(&[byte]).unwrap();
            season.book.extend(season.service.close_day().unwrap());
            let line = format!("{day},1,{},d{}\n", digests[byte as usize], day % 10);
            season.index.extend(line.as_bytes());
        }
        assert_eq!(season.service.season(), number);
        season
    }

    pub fn full(layout: Layout, number: u32) -> Season {
        Season::of(layout, number, 65_536)
    }

    /// The name of one of its files.
    pub fn name(&self, file: &str) -> String {
        match self.number {
            0 => file.to_string(),
            number => format!("{file}-{number}"),
        }
    }

    /// Its line in `seasons`, once it is past.
    pub fn line(&self) -> String {
        past_line(self.number, &self.book, &self.index)
    }
}

pub fn past_line(number: u32, book: &[u8], index: &[u8]) -> String {
    format!(
        "{number},{},{},{},{}\n",
        book.len(),
        hex(&digest(book)),
        index.len(),
        hex(&digest(index))
    )
}

pub fn layout_text(version: u32, layout: Layout) -> String {
    let Layout { scheme, n, f } = layout;
    format!("daybook state {version}\nscheme {scheme}\nn {n}\nf {f}\n")
}

/// The files of a state folder of version 3 whose last season is the present one, with these bytes in
/// the open day.
pub fn files(seasons: &[&Season], open: &[u8]) -> Vec<(String, Vec<u8>)> {
    let (present, past) = seasons.split_last().unwrap();
    let layout = present.service.layout();
    // a full season stays the record's until the next call
    let mut service = present.service.clone();
    if !open.is_empty() {
        service.add(open).unwrap();
    }
    let lines: String = past.iter().map(|season| season.line()).collect();
    let parts: [&[u8]; 4] = [&present.book, &present.index, open, lines.as_bytes()];
    let names = if open.is_empty() { "" } else { "noon" };
    let record = record_of(3, &service.to_bytes(), &parts, names);
    let mut files = vec![
        ("lock".to_string(), Vec::new()),
        ("layout".to_string(), layout_text(3, layout).into_bytes()),
        ("record".to_string(), record),
    ];
    for season in seasons {
        files.push((season.name("book"), season.book.clone()));
        files.push((season.name("index"), season.index.clone()));
    }
    if !past.is_empty() {
        files.push(("seasons".to_string(), lines.into_bytes()));
    }
    if !open.is_empty() {
        files.push((format!("day-{}", service.days() + 1), open.to_vec()));
    }
    files
}

/// The same as version 0.8 left it, in season 0.
pub fn files_of_version_2(season: &Season, open: &[u8]) -> Vec<(String, Vec<u8>)> {
    let layout = season.service.layout();
    let mut service = season.service.clone();
    if !open.is_empty() {
        service.add(open).unwrap();
    }
    let names = if open.is_empty() { "" } else { "noon" };
    let parts: [&[u8]; 3] = [&season.book, &season.index, open];
    let record = record_of(2, &service.to_bytes()[..724], &parts, names);
    let mut files = files(&[season], open);
    for (name, bytes) in &mut files {
        match name.as_str() {
            "layout" => *bytes = layout_text(2, layout).into_bytes(),
            "record" => bytes.clone_from(&record),
            _ => {}
        }
    }
    files
}

/// Writes the folder, in the place of one that is there.
pub fn write(path: &Path, files: &[(String, Vec<u8>)]) {
    let _ = fs::remove_dir_all(path);
    fs::create_dir(path).unwrap();
    for (name, bytes) in files {
        fs::write(path.join(name), bytes).unwrap();
    }
}
