//! The forms of the files of a state folder. docs/SERVICE.md describes them.

use std::str::FromStr;

use daybook::{Layout, NotARecord, Service, VALUE};
use daybook::{DAYS_LIMIT, EARLIER_RECORD, LAST_SEASON, RECORD, RECORD_WITHOUT_SEASON};

use super::digest::{digest, hex, Digest};
use crate::older;

/// The format version that this program writes.
pub const VERSION: u32 = 3;
/// The one of version 0.8, which it reads too: its service has season 0 alone.
pub const VERSION_WITHOUT_SEASON: u32 = 2;
/// The one of the programs before 0.8.0.
const EARLIER_VERSION: u32 = 1;
const LAYOUT_START: &str = "daybook state ";
const RECORD_START: &str = "daybook record ";

/// Bytes of the names of a day's sources; what is longer ends with three dots.
const NAMES_MOST: usize = 1024;
/// Bytes that are enough for any line of the index.
pub const LINE_MOST: u64 = 5 + 1 + 8 + 1 + 2 * VALUE as u64 + 1 + NAMES_MOST as u64 + 1;

/// How long the front of a file is, and its digest.
#[derive(Clone, Copy, Debug, PartialEq, Eq)]
pub struct Extent {
    pub length: u64,
    pub digest: Digest,
}

impl Extent {
    pub fn of(bytes: &[u8]) -> Extent {
        Extent {
            length: bytes.len() as u64,
            digest: digest(bytes),
        }
    }
}

/// What the file `record` says: the service's record, and what the other files hold with it.
#[derive(Clone, Debug, PartialEq, Eq)]
pub struct Record {
    pub service: Service,
    pub book: Extent,
    pub index: Extent,
    /// The bytes of the open day.
    pub day: Extent,
    /// The names of the open day's sources, as in the index.
    pub names: String,
    /// The file `seasons`, with a line for each past season.
    pub seasons: Extent,
}

impl Record {
    /// The record of a service that has just been opened.
    pub fn fresh(service: Service) -> Record {
        let none = Extent::of(&[]);
        Record {
            service,
            book: none,
            index: none,
            day: none,
            names: String::new(),
            seasons: none,
        }
    }

    pub fn to_bytes(&self) -> Vec<u8> {
        let mut bytes = format!("{RECORD_START}{VERSION}\n").into_bytes();
        bytes.extend(self.service.to_bytes());
        for extent in [self.book, self.index, self.day, self.seasons] {
            bytes.extend(extent.length.to_le_bytes());
            bytes.extend(extent.digest);
        }
        bytes.extend((self.names.len() as u32).to_le_bytes());
        bytes.extend(self.names.as_bytes());
        let checksum = digest(&bytes);
        bytes.extend(checksum);
        bytes
    }

    pub fn from_bytes(bytes: &[u8]) -> Result<Record, String> {
        let line = first_line(bytes);
        let version = known_version(line, RECORD_START)?;
        let (body, checksum) = bytes
            .split_last_chunk::<VALUE>()
            .ok_or_else(|| too_short(bytes))?;
        if digest(body) != *checksum {
            return Err(format!(
                "its checksum does not fit its {} bytes",
                bytes.len()
            ));
        }
        let mut fields = Fields(&body[line.len()..]);
        let record = fields.record(version).ok_or_else(|| too_short(bytes))?;
        match fields.0 {
            [] => Ok(record),
            _ => Err("it has bytes past its end".to_string()),
        }
    }
}

/// Bytes that are enough for any file `record`.
pub const RECORD_MOST: u64 = 4096;

/// When a file of a state folder was made, as far as it tells.
#[derive(Debug, PartialEq, Eq)]
pub enum Age {
    /// Of a format version that this program reads.
    Now(u32),
    /// Before version 0.8.0, in words.
    Older(String),
    Unknown,
}

pub fn layout_age(text: &[u8]) -> Age {
    let line = first_line(text);
    match version_of(line, LAYOUT_START) {
        Some(EARLIER_VERSION) => Age::Older(older::FOLDER.to_string()),
        Some(version) if KNOWN.contains(&version) => Age::Now(version),
        _ => Age::Unknown,
    }
}

/// The age of the file `record`. Where its first line says version 2, its form may still be the one
/// of before.
pub fn record_age(bytes: &[u8]) -> Age {
    let words = NotARecord {
        length: EARLIER_RECORD,
    };
    let line = first_line(bytes);
    match version_of(line, RECORD_START) {
        Some(EARLIER_VERSION) => Age::Older(format!("format version {EARLIER_VERSION}: {words}")),
        Some(VERSION_WITHOUT_SEASON)
            if Record::from_bytes(bytes).is_err() && has_earlier_form(bytes) =>
        {
            Age::Older(words.to_string())
        }
        Some(version) if KNOWN.contains(&version) => Age::Now(version),
        _ => Age::Unknown,
    }
}

/// Whether the lengths in the file are those of a record of before, whatever its checksum.
fn has_earlier_form(bytes: &[u8]) -> bool {
    let fields = bytes.get(first_line(bytes).len()..).unwrap_or_default();
    let Some(fields) = fields.get(EARLIER_RECORD..) else {
        return false;
    };
    let mut fields = Fields(fields);
    let extents = (0..3).all(|_| fields.extent().is_some());
    extents && fields.text().is_some() && fields.0.len() == VALUE
}

fn first_line(bytes: &[u8]) -> &[u8] {
    let line = bytes.split_inclusive(|byte| *byte == b'\n').next();
    line.unwrap_or_default()
}

fn too_short(bytes: &[u8]) -> String {
    format!("its {} bytes are too few", bytes.len())
}

/// The format versions that this program reads.
const KNOWN: [u32; 2] = [VERSION_WITHOUT_SEASON, VERSION];

/// The first line of a file is its start and a version that this program knows.
fn known_version(line: &[u8], start: &str) -> Result<u32, String> {
    match version_of(line, start) {
        Some(version) if KNOWN.contains(&version) => Ok(version),
        Some(version) => Err(format!(
            "its format version is {version}, and this program knows {VERSION_WITHOUT_SEASON} and \
             {VERSION} only"
        )),
        None => Err(format!("it does not begin with \"{start}{VERSION}\"")),
    }
}

/// The format version, in plain digits, that the first line of a file has behind its start.
fn version_of(line: &[u8], start: &str) -> Option<u32> {
    let line = std::str::from_utf8(line).ok()?;
    let text = line.strip_prefix(start)?.strip_suffix('\n')?;
    let version: u32 = text.parse().ok()?;
    (version.to_string() == text).then_some(version)
}

/// The format version of a record that was read.
pub fn record_version(bytes: &[u8]) -> Option<u32> {
    version_of(first_line(bytes), RECORD_START)
}

/// What is left to be taken apart.
struct Fields<'a>(&'a [u8]);

impl Fields<'_> {
    /// The fields of a record of this format version. One without a season is of season 0, and has
    /// no past one.
    fn record(&mut self, version: u32) -> Option<Record> {
        let numbered = version != VERSION_WITHOUT_SEASON;
        let service = match numbered {
            true => Service::from_bytes(*self.take::<RECORD>()?),
            false => Service::from_slice(self.take::<RECORD_WITHOUT_SEASON>()?).ok()?,
        };
        let (book, index, day) = (self.extent()?, self.extent()?, self.extent()?);
        let seasons = match numbered {
            true => self.extent()?,
            false => Extent::of(&[]),
        };
        Some(Record {
            service,
            book,
            index,
            day,
            names: self.text()?,
            seasons,
        })
    }

    fn take<const LENGTH: usize>(&mut self) -> Option<&[u8; LENGTH]> {
        let (front, rest) = self.0.split_first_chunk()?;
        self.0 = rest;
        Some(front)
    }

    fn extent(&mut self) -> Option<Extent> {
        Some(Extent {
            length: u64::from_le_bytes(*self.take()?),
            digest: *self.take()?,
        })
    }

    fn text(&mut self) -> Option<String> {
        let length = u32::from_le_bytes(*self.take()?) as usize;
        let (text, rest) = self.0.split_at_checked(length)?;
        self.0 = rest;
        String::from_utf8(text.to_vec()).ok()
    }
}

pub fn layout_text(layout: Layout) -> String {
    text_of_layout(VERSION, layout)
}

fn text_of_layout(version: u32, layout: Layout) -> String {
    let Layout { scheme, n, f } = layout;
    format!("{LAYOUT_START}{version}\nscheme {scheme}\nn {n}\nf {f}\n")
}

/// Tests a text of a layout against the one that the record names, and gives its format version.
pub fn test_layout(text: &[u8], layout: Layout) -> Result<u32, String> {
    let version = known_version(first_line(text), LAYOUT_START)?;
    if text == text_of_layout(version, layout).as_bytes() {
        return Ok(version);
    }
    Err(format!("the record is of {layout}"))
}

/// A line of the index.
#[derive(Clone, Debug, PartialEq, Eq)]
pub struct Line {
    pub day: u32,
    pub bytes: u64,
    pub digest: Digest,
    pub names: String,
}

impl Line {
    pub fn text(&self) -> String {
        let (day, bytes, names) = (self.day, self.bytes, &self.names);
        format!("{day},{bytes},{},{names}\n", hex(&self.digest))
    }

    /// The line that a text is, without its line feed.
    pub fn parse(text: &[u8]) -> Option<Line> {
        let text = std::str::from_utf8(text).ok()?;
        let mut fields = text.splitn(4, ',');
        let line = Line {
            day: number_of(fields.next()?)?,
            bytes: number_of(fields.next()?)?,
            digest: digest_of(fields.next()?)?,
            names: fields.next()?.to_string(),
        };
        let own = line
            .names
            .bytes()
            .all(|byte| (b' '..=b'~').contains(&byte) && byte != b',');
        (line.day <= DAYS_LIMIT && own).then_some(line)
    }
}

/// A line of `clean`: a day that verified clean, and the digest of the book's front of so many days.
#[derive(Clone, Copy, Debug, PartialEq, Eq)]
pub struct CleanDay {
    pub day: u32,
    pub digest: Digest,
}

/// Bytes that are enough for a line of each day.
pub const CLEAN_MOST: u64 = DAYS_LIMIT as u64 * (5 + 1 + 2 * VALUE as u64 + 1);

impl CleanDay {
    pub fn text(&self) -> String {
        format!("{},{}\n", self.day, hex(&self.digest))
    }

    /// The line that a text is, with its line feed.
    pub fn parse(text: &[u8]) -> Option<CleanDay> {
        let text = std::str::from_utf8(text).ok()?;
        let (day, digest) = text.strip_suffix('\n')?.split_once(',')?;
        let line = CleanDay {
            day: day.parse().ok()?,
            digest: digest_of(digest)?,
        };
        (line.day <= DAYS_LIMIT && line.text() == text).then_some(line)
    }
}

/// A line of `seasons`: a season that is past, and what its book and index hold.
#[derive(Clone, Copy, Debug, PartialEq, Eq)]
pub struct PastSeason {
    pub season: u32,
    pub book: Extent,
    pub index: Extent,
}

/// Bytes that are enough for any line of `seasons`.
pub const PAST_MOST: u64 = 5 + 2 * (1 + 10 + 1 + 2 * VALUE as u64) + 1;

impl PastSeason {
    pub fn text(&self) -> String {
        let (season, book, index) = (self.season, self.book, self.index);
        format!(
            "{season},{},{},{},{}\n",
            book.length,
            hex(&book.digest),
            index.length,
            hex(&index.digest)
        )
    }

    /// The line that a text is, with its line feed.
    pub fn parse(text: &[u8]) -> Option<PastSeason> {
        let text = std::str::from_utf8(text).ok()?;
        let mut fields = text.strip_suffix('\n')?.split(',');
        let season = fields.next()?.parse().ok()?;
        let mut extent = || {
            Some(Extent {
                length: fields.next()?.parse().ok()?,
                digest: digest_of(fields.next()?)?,
            })
        };
        let line = PastSeason {
            season,
            book: extent()?,
            index: extent()?,
        };
        (line.season < LAST_SEASON && line.text() == text).then_some(line)
    }
}

/// A number in plain digits, with no sign and no leading zero.
fn number_of<T: FromStr>(text: &str) -> Option<T> {
    let digits = text.bytes().all(|byte| byte.is_ascii_digit());
    let leading = text.len() > 1 && text.starts_with('0');
    let number = text.parse().ok()?;
    (digits && !leading).then_some(number)
}

/// A digest in small hex digits.
fn digest_of(text: &str) -> Option<Digest> {
    let mut digest = [0; VALUE];
    if text.len() != 2 * VALUE {
        return None;
    }
    for (byte, pair) in digest.iter_mut().zip(text.as_bytes().chunks_exact(2)) {
        *byte = 16 * half_of(pair[0])? + half_of(pair[1])?;
    }
    Some(digest)
}

fn half_of(digit: u8) -> Option<u8> {
    match digit {
        b'0'..=b'9' => Some(digit - b'0'),
        b'a'..=b'f' => Some(digit - b'a' + 10),
        _ => None,
    }
}

/// The names of a day's sources with those that come after them. One that comes twice in a row
/// stands once.
pub fn joined<'a>(names: &str, more: impl Iterator<Item = &'a str>) -> String {
    let mut all: Vec<&str> = names.split(AND).filter(|name| !name.is_empty()).collect();
    for name in more {
        if all.last() != Some(&name) {
            all.push(name);
        }
    }
    let text = all.join(AND);
    if text.len() <= NAMES_MOST {
        return text;
    }
    format!("{}...", &text[..NAMES_MOST - 3])
}

const AND: &str = " + ";

#[cfg(test)]
mod tests {
    use super::*;

    fn record() -> Record {
        let mut service = Service::open(Layout::tile(16, 2)).unwrap();
        service.add(b"rye").unwrap();
        let mut record = Record::fresh(service);
        record.day = Extent::of(b"rye");
        record.names = "a.csv".to_string();
        record
    }

    #[test]
    fn a_record_to_bytes_and_back() {
        let bytes = record().to_bytes();
        assert_eq!(Record::from_bytes(&bytes), Ok(record()));
        assert_eq!(bytes.len(), 17 + 728 + 4 * 40 + 4 + 5 + 32);
    }

    /// The file of version 0.8: without a season, and without the file `seasons`.
    fn without_season() -> Vec<u8> {
        let bytes = record().to_bytes();
        let rest = &bytes[17 + RECORD + 4 * 40..bytes.len() - VALUE];
        let (service, extents) = (&bytes[17..17 + 724], &bytes[17 + RECORD..]);
        let mut bytes = [b"daybook record 2\n", service, &extents[..3 * 40], rest].concat();
        bytes.extend(digest(&bytes));
        bytes
    }

    #[test]
    fn a_record_of_version_2_is_of_season_0() {
        let bytes = without_season();
        assert_eq!(bytes.len(), 17 + 724 + 3 * 40 + 4 + 5 + 32);
        assert_eq!(Record::from_bytes(&bytes), Ok(record()));
        assert_eq!(record_version(&bytes), Some(2));
        assert_eq!(record_version(&record().to_bytes()), Some(3));
        // neither has the other's form
        for (from, to) in [(without_season(), b'3'), (record().to_bytes(), b'2')] {
            let mut bytes = from[..from.len() - VALUE].to_vec();
            bytes[15] = to;
            bytes.extend(digest(&bytes));
            assert!(Record::from_bytes(&bytes).is_err(), "{}", to as char);
        }
    }

    #[test]
    fn lines_of_past_seasons() {
        let line = PastSeason {
            season: 7,
            book: Extent::of(b"rye"),
            index: Extent::of(b"oats"),
        };
        let text = line.text();
        assert_eq!(
            text,
            format!("7,3,{},4,{}\n", hex(&digest(b"rye")), hex(&digest(b"oats")))
        );
        assert_eq!(PastSeason::parse(text.as_bytes()), Some(line));
        let no = |text: &str| assert_eq!(PastSeason::parse(text.as_bytes()), None, "{text}");
        no("");
        no("\n");
        no(text.trim_end());
        no(&text.replace("7,3", "07,3"));
        no(&text.replace("7,3", "65535,3"));
        no(&text.replace('\n', ",\n"));
        no(&text.to_uppercase());
        no(&text[2..]);
        let long = Extent {
            length: 9_999_999_999,
            digest: [255; VALUE],
        };
        let longest = PastSeason {
            season: 65_534,
            book: long,
            index: long,
        };
        assert_eq!(longest.text().len() as u64, PAST_MOST);
    }

    #[test]
    fn every_byte_of_a_record_is_under_its_checksum() {
        let bytes = record().to_bytes();
        for at in 0..bytes.len() {
            let mut other = bytes.clone();
            other[at] ^= 1;
            assert!(Record::from_bytes(&other).is_err(), "byte {at}");
            assert!(
                Record::from_bytes(&bytes[..at]).is_err(),
                "the first {at} bytes"
            );
        }
        assert!(Record::from_bytes(&[&bytes[..], &[0]].concat()).is_err());
    }

    #[test]
    fn versions() {
        let message = |bytes: &[u8]| Record::from_bytes(bytes).unwrap_err();
        assert!(message(b"").contains("does not begin with"));
        for version in ["1", "4", "22"] {
            let line = format!("daybook record {version}\n");
            let said = format!("format version is {version}, ");
            assert!(message(line.as_bytes()).contains(&said));
        }
        assert!(message(b"daybook record \n").contains("does not begin with"));
        assert!(message(b"daybook record 3").contains("does not begin with"));
        assert_eq!(message(b"daybook record 3\n"), "its 17 bytes are too few");
        let layout = Layout::tile(16, 2);
        let text = "daybook state 3\nscheme 2\nn 16\nf 2\n";
        assert_eq!(test_layout(text.as_bytes(), layout), Ok(3));
        let before = text.replace("state 3", "state 2");
        assert_eq!(test_layout(before.as_bytes(), layout), Ok(2));
        let later = text.replace("state 3", "state 9");
        assert!(test_layout(later.as_bytes(), layout)
            .unwrap_err()
            .contains("format version is 9"));
        let other = text.replace("n 16", "n 8");
        assert!(test_layout(other.as_bytes(), layout)
            .unwrap_err()
            .contains("scheme 2, N 16, F 2"));
    }

    /// The file of before: without the start, under these two versions.
    fn earlier(line: &str, sum: &str) -> Vec<u8> {
        let bytes = record().to_bytes();
        let record = &bytes[17..17 + EARLIER_RECORD];
        let (extents, rest) = bytes[17 + RECORD..bytes.len() - VALUE].split_at(4 * 40);
        let under = |line: &str| [line.as_bytes(), record, &extents[..3 * 40], rest].concat();
        [under(line), digest(&under(sum)).to_vec()].concat()
    }

    #[test]
    fn ages_of_records() {
        let (one, two) = ("daybook record 1\n", "daybook record 2\n");
        let words = "this is the record of an earlier version, of 692 bytes: seal its days again";
        let older = |words: &str| Age::Older(words.to_string());
        let numbered = older(&format!("format version 1: {words}"));
        assert_eq!(record_age(&earlier(one, one)), numbered);
        assert_eq!(record_age(one.as_bytes()), numbered);
        // its version line changed, with the checksum and without
        assert_eq!(record_age(&earlier(two, one)), older(words));
        assert_eq!(record_age(&earlier(two, two)), older(words));
        // one byte less or more has no form, and every front of a record of now is one of now
        let bytes = earlier(two, one);
        assert_eq!(record_age(&bytes[..bytes.len() - 1]), Age::Now(2));
        assert_eq!(record_age(&[&bytes[..], &[0]].concat()), Age::Now(2));
        for (version, bytes) in [(2, without_season()), (3, record().to_bytes())] {
            for length in two.len()..=bytes.len() {
                assert_eq!(record_age(&bytes[..length]), Age::Now(version), "{length}");
            }
        }
        for text in ["", "daybook record 2", "daybook record 4\n", "rye\n"] {
            assert_eq!(record_age(text.as_bytes()), Age::Unknown, "{text}");
        }
    }

    #[test]
    fn ages_of_layouts() {
        let age = |text: &str| layout_age(text.as_bytes());
        let older = Age::Older(older::FOLDER.to_string());
        assert_eq!(age("daybook state 1\nscheme 2\nn 16\nf 2\n"), older);
        assert_eq!(age("daybook state 1\n"), older);
        assert_eq!(age("daybook state 2\nscheme 2\nn 16\nf 2\n"), Age::Now(2));
        assert_eq!(age("daybook state 3\nscheme 2\nn 16\nf 2\n"), Age::Now(3));
        for text in [
            "",
            "daybook state 1",
            "daybook state 01\n",
            "daybook state 03\n",
            "daybook state 4\n",
        ] {
            assert_eq!(age(text), Age::Unknown, "{text}");
        }
    }

    #[test]
    fn lines_of_the_index() {
        let line = Line {
            day: 7,
            bytes: 3,
            digest: digest(b"rye"),
            names: "a.csv + b%2C.csv".to_string(),
        };
        let text = line.text();
        assert_eq!(Line::parse(text.trim_end().as_bytes()), Some(line));
        let no = |text: &str| assert_eq!(Line::parse(text.as_bytes()), None, "{text}");
        no("");
        no(&text);
        no(&text.trim_end().replace("7,3", "07,3"));
        no(&text.trim_end().replace("7,3", "7,03"));
        no(&text.trim_end().replace("7,3", "+7,3"));
        no(&text.trim_end().replace("7,3", "7,+3"));
        no(&text.trim_end().replace("7,3", "7,-3"));
        no(&text.trim_end().replace("7,3", ",3"));
        no(&text.trim_end().replace("7,3", "65537,3"));
        no(&text.trim_end().to_uppercase());
        no(&text.trim_end().replace("7,3,", "7,3,+"));
        no(&text.trim_end().replace("a.csv", "\u{e9}.csv"));
        no(&text[..60]);
        let longest = Line {
            day: 65_536,
            bytes: 16_777_216,
            digest: [0; VALUE],
            names: joined("", ["x".repeat(2000).as_str()].into_iter()),
        };
        assert_eq!(longest.text().len() as u64, LINE_MOST);
    }

    #[test]
    fn lines_of_clean_days() {
        let line = CleanDay {
            day: 64,
            digest: digest(b"rye"),
        };
        let text = line.text();
        assert_eq!(CleanDay::parse(text.as_bytes()), Some(line));
        let no = |text: &str| assert_eq!(CleanDay::parse(text.as_bytes()), None, "{text}");
        no("");
        no("\n");
        no("64\n");
        no(text.trim_end());
        no(&text.to_uppercase());
        no(&text.replace("64,", "064,"));
        no(&text.replace("64,", "+64,"));
        no(&text.replace("64,", "65537,"));
        no(&text.replace('\n', "0\n"));
        no(&text.replace('\n', "\r\n"));
        no(&text[2..]);
        let last = CleanDay {
            day: 65_536,
            ..line
        };
        assert_eq!(65_536 * last.text().len() as u64, CLEAN_MOST);
    }

    #[test]
    fn names() {
        assert_eq!(joined("", ["a", "b", "b"].into_iter()), "a + b");
        assert_eq!(joined("a + b", ["b", "a"].into_iter()), "a + b + a");
        assert_eq!(joined("a", std::iter::empty()), "a");
        let long = joined(
            "",
            ["x".repeat(1000).as_str(), "yyyyyyyyyyyyyyyyyyyyyyyyyyy"].into_iter(),
        );
        assert_eq!(long.len(), NAMES_MOST);
        assert!(long.ends_with("yyy..."));
    }
}
