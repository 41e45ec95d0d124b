//! What a run takes up: every file read, and each tested against the others.

use std::fs::{self, File};
use std::path::{Path, PathBuf};

use daybook::RECORD_WITHOUT_SEASON;
use daybook::{Layout, Refusal, Service, DAYS_LIMIT, DAY_LIMIT, EARLIER_RECORD, LAST_SEASON, PART};

use super::age;
use super::files::{append, at, commit, cut, day_name, day_of, front, misfit, put, record_bytes};
use super::files::{of_season, season_of, sync_folder, test_past_length};
use super::form::{layout_text, record_version, test_layout, Extent, Line, PastSeason, Record};
use super::form::{LINE_MOST, PAST_MOST, VERSION};
use super::lock::{self, Access};
use super::season::Season;
use super::{BOOK, CLEAN_NEW, INDEX, LAYOUT, LAYOUT_NEW, RECORD, RECORD_NEW, SEASONS};
use crate::files::{read_front, unread, unwritten};
use crate::say;
use crate::stop::Stop;

/// A state folder as the last commit left it, under its lock.
pub struct State {
    folder: PathBuf,
    _lock: File,
    /// The format version of the file `layout`.
    version: u32,
    pub record: Record,
    /// The present season.
    pub season: Season,
    /// The past ones, from season 0 on.
    past: Vec<PastSeason>,
    /// Whether the present season begins with the next commit.
    begins: bool,
    /// The bytes of the open day.
    pub day: Vec<u8>,
    left: Vec<Left>,
}

/// What a stopped run left, which no command takes for a part of the state.
enum Left {
    /// A file that goes on past this length.
    Tail(PathBuf, u64),
    /// A file that has no use.
    File(PathBuf),
}

impl State {
    /// Reads and tests all files of a state folder. Of past seasons only the lengths are tested.
    /// Nothing is written.
    pub fn load(folder: &Path, access: Access) -> Result<State, Stop> {
        if !folder.is_dir() {
            return Err(unread(
                folder,
                "it is not a folder (daybook open makes a state folder)",
            ));
        }
        age::test(folder)?;
        let lock = lock::take(folder, access)?;
        let (record, version) = load_record(folder)?;
        let mut season = Season::fresh(folder, record.service.layout(), record.service.season());
        season.days = record.service.days();
        let mut state = State {
            folder: folder.to_path_buf(),
            _lock: lock,
            version,
            season,
            past: Vec::new(),
            begins: false,
            day: Vec::new(),
            left: Vec::new(),
            record,
        };
        state.season.book =
            state.front(&state.season.path(BOOK), state.record.book, PART as u64)?;
        state.load_index()?;
        state.load_day()?;
        state.load_seasons()?;
        state.find_left()?;
        Ok(state)
    }

    pub fn path(&self, name: &str) -> PathBuf {
        at(&self.folder, name)
    }

    pub fn layout(&self) -> Layout {
        self.record.service.layout()
    }

    /// The season and the day that the next accepted call is made on. A last season that is full has no
    /// next day: the call is refused.
    pub fn next(&self) -> (u32, u32) {
        match &self.season {
            season if season.is_full() && season.number < LAST_SEASON => (season.number + 1, 1),
            season => (season.number, season.days + 1),
        }
    }

    /// The season and the day that was closed last, if any was.
    pub fn last_closed(&self) -> Option<(u32, u32)> {
        match (self.season.number, self.season.days) {
            (0, 0) => None,
            (season, 0) => Some((season - 1, DAYS_LIMIT)),
            last => Some(last),
        }
    }

    /// A past season, with its files read and tested.
    pub fn past(&self, season: u32) -> Result<Season, Stop> {
        match self.past.get(season as usize) {
            Some(line) => Season::past(&self.folder, self.layout(), line),
            None => Err(Stop::Fault(format!(
                "{}: there is no season {season} yet: the present one is {}",
                self.folder.display(),
                self.season.number
            ))),
        }
    }

    /// The season of this number, or the present one.
    pub fn into_season(self, season: Option<u32>) -> Result<Season, Stop> {
        match season {
            Some(season) if season != self.season.number => self.past(season),
            _ => Ok(self.season),
        }
    }

    /// Reads and tests the files of every past season.
    pub fn test_past(&self) -> Result<(), Stop> {
        for line in &self.past {
            Season::past(&self.folder, self.layout(), line)?;
        }
        Ok(())
    }

    /// The line of a closed day.
    pub fn line(&self, season: u32, day: u32) -> Result<Line, Stop> {
        match season == self.season.number {
            true => self.season.line(day),
            false => self.past(season)?.line(day),
        }
    }

    /// The bytes of the last closed day, whose line this is, where they were added and are still there.
    pub fn last_day(&self, line: &Line) -> Result<Option<Vec<u8>>, Stop> {
        let path = self.path(&day_name(line.day));
        if !path.is_file() {
            return Ok(None);
        }
        let (bytes, _) = read_front(&path, line.bytes)?;
        let extent = Extent {
            length: line.bytes,
            digest: line.digest,
        };
        Ok((Extent::of(&bytes) == extent).then_some(bytes))
    }

    /// Whether a run was stopped before its end.
    pub fn interrupted(&self) -> bool {
        !self.left.is_empty()
    }

    /// Says what a stopped run left.
    pub fn say_left(&self) {
        for left in &self.left {
            match left {
                Left::Tail(path, length) => say(&format!(
                    "note: a stopped run left bytes in {} past the first {length}: not part of the state",
                    path.display()
                )),
                Left::File(path) => say(&format!(
                    "note: a stopped run left {}: not part of the state",
                    path.display()
                )),
            }
        }
    }

    /// Makes sure that the record is on disk, and takes away what a stopped run left.
    pub fn settle(&mut self) -> Result<(), Stop> {
        sync_folder(&self.folder)?;
        self.say_left();
        for left in std::mem::take(&mut self.left) {
            match left {
                Left::Tail(path, length) => cut(&path, length)?,
                Left::File(path) => {
                    fs::remove_file(&path).map_err(|error| unwritten(&path, error))?
                }
            }
        }
        Ok(())
    }

    /// Goes on in the season of a call that was accepted. Where it is the next one, the season so far
    /// is a past one then; nothing is written before the commit.
    pub fn follow(&mut self, service: &Service) {
        if service.season() == self.season.number {
            return;
        }
        self.past.push(PastSeason {
            season: self.season.number,
            book: self.record.book,
            index: self.record.index,
        });
        self.begins = true;
        self.season = Season::fresh(&self.folder, self.layout(), service.season());
        let text: String = self.past.iter().map(PastSeason::text).collect();
        self.record.seasons = Extent::of(text.as_bytes());
        (self.record.book, self.record.index) = (Extent::of(&[]), Extent::of(&[]));
    }

    /// Writes a piece of the open day and commits the record that has it.
    pub fn commit_add(&mut self, record: Record, piece: &[u8]) -> Result<(), Stop> {
        self.prepare()?;
        if self.begins {
            append(&self.season.path(BOOK), 0, &[])?;
            append(&self.season.path(INDEX), 0, &[])?;
        }
        let begun = self.record.day.length == 0 && !piece.is_empty();
        if !piece.is_empty() {
            let path = self.path(&day_name(self.season.days + 1));
            append(&path, self.record.day.length, piece)?;
        }
        if begun || self.begins {
            sync_folder(&self.folder)?;
        }
        commit(&self.folder, &record)
    }

    /// Writes the values of a day and its line, and commits the record that has them.
    pub fn commit_close(mut self, record: Record, values: &[u8], line: &Line) -> Result<(), Stop> {
        self.prepare()?;
        if self.begins || !values.is_empty() {
            let path = self.season.path(BOOK);
            append(&path, self.record.book.length, values)?;
        }
        let text = line.text();
        let path = self.season.path(INDEX);
        append(&path, self.record.index.length, text.as_bytes())?;
        if self.begins {
            sync_folder(&self.folder)?;
        }
        commit(&self.folder, &record)?;
        // the bytes of the day before the closed one; the next run finds them if this fails
        if let Some((_, day)) = self.last_closed() {
            let _ = fs::remove_file(self.path(&day_name(day)));
        }
        Ok(())
    }

    /// Before anything else is written: what a stopped run left is gone, the folder has this program's
    /// format version, and a season that ends has its line.
    fn prepare(&mut self) -> Result<(), Stop> {
        self.settle()?;
        if self.version != VERSION {
            let text = layout_text(self.layout());
            put(&self.folder, (LAYOUT_NEW, LAYOUT), text.as_bytes())?;
            // before a record of this version: an older program names the version, and no other fault
            sync_folder(&self.folder)?;
        }
        if let (true, Some(past)) = (self.begins, self.past.last()) {
            let text = past.text();
            let length = self.record.seasons.length - text.len() as u64;
            append(&self.path(SEASONS), length, text.as_bytes())?;
        }
        Ok(())
    }

    /// Reads a file and gives its front; notes its tail.
    fn front(&mut self, path: &Path, extent: Extent, most: u64) -> Result<Vec<u8>, Stop> {
        let front = front(path, extent, most)?;
        if !front.tail.is_empty() {
            let path = path.to_path_buf();
            self.left.push(Left::Tail(path, extent.length));
        }
        Ok(front.bytes)
    }

    fn load_index(&mut self) -> Result<(), Stop> {
        let path = self.season.path(INDEX);
        let extent = self.record.index;
        let front = front(&path, extent, 2 * LINE_MOST)?;
        self.season.index = front.bytes;
        self.season.test_lines()?;
        self.test_tail(&front.tail)?;
        if !front.tail.is_empty() {
            self.left.push(Left::Tail(path, extent.length));
        }
        Ok(())
    }

    /// A stopped run leaves at most one line. Two of them tell of a record that is older than the
    /// index.
    fn test_tail(&self, tail: &[u8]) -> Result<(), Stop> {
        let lines = tail.split_inclusive(|byte| *byte == b'\n');
        let whole = lines.filter_map(|line| Line::parse(line.strip_suffix(b"\n")?));
        let days: Vec<u32> = whole.map(|line| line.day).collect();
        match days[..] {
            [] | [_] => Ok(()),
            [.., last] => Err(self.older(format!("the index goes on to day {last}"))),
        }
    }

    /// The record is not the one of the last commit.
    fn older(&self, what: String) -> Stop {
        let (path, closed) = (self.path(RECORD), self.season.days);
        let said = match self.season.number {
            0 => format!("it says {closed} days closed"),
            season => format!("it says season {season}, {closed} days closed"),
        };
        misfit(&path, format!("{said}, and {what}: it is an older record"))
    }

    /// The bytes of the open day. There is no file where there are none.
    fn load_day(&mut self) -> Result<(), Stop> {
        let extent = self.record.day;
        let open = u64::from(self.record.service.open_bytes());
        if extent.length != open {
            let length = extent.length;
            return Err(misfit(
                &self.path(RECORD),
                format!("it says {length} bytes in the open day, and within {open}"),
            ));
        }
        if extent.length > 0 {
            let path = self.path(&day_name(self.season.days + 1));
            self.day = self.front(&path, extent, u64::from(DAY_LIMIT))?;
        }
        Ok(())
    }

    /// The past seasons. There need be no file where there are none.
    fn load_seasons(&mut self) -> Result<(), Stop> {
        let (path, extent) = (self.path(SEASONS), self.record.seasons);
        if extent.length == 0 && !path.exists() {
            return self.test_seasons(&path);
        }
        let front = front(&path, extent, PAST_MOST)?;
        if extent.length == 0 {
            self.left.push(Left::File(path.clone()));
        } else if !front.tail.is_empty() {
            self.left.push(Left::Tail(path.clone(), extent.length));
        }
        for (line, text) in (1..).zip(front.bytes.split_inclusive(|byte| *byte == b'\n')) {
            match PastSeason::parse(text).filter(|past| past.season as usize == self.past.len()) {
                Some(past) => self.past.push(past),
                None => {
                    let what = format!(
                        "line {line} is not the next season, as T,bytes,digest,bytes,digest"
                    );
                    return Err(misfit(&path, what));
                }
            }
        }
        self.test_seasons(&path)
    }

    /// There is a line for each past season, and the files of each have the lengths that it says.
    fn test_seasons(&self, path: &Path) -> Result<(), Stop> {
        let (lines, present) = (self.past.len(), self.season.number);
        if lines != present as usize {
            let what = format!("it has {lines} lines, and the season is {present}");
            return Err(misfit(path, what));
        }
        for past in &self.past {
            let path = |name| self.path(&of_season(name, past.season));
            test_past_length(&path(BOOK), past.book)?;
            test_past_length(&path(INDEX), past.index)?;
        }
        Ok(())
    }

    /// Notes the files that have no use: a record, a layout or clean days that were not committed,
    /// bytes of days other than the open one and the last closed one, files of a season that was not
    /// begun.
    fn find_left(&mut self) -> Result<(), Stop> {
        let open = (!self.day.is_empty()).then_some(self.season.days + 1);
        let closed = self.last_closed().map(|(_, day)| day);
        let entries = fs::read_dir(&self.folder).map_err(|error| unread(&self.folder, error))?;
        for entry in entries {
            let entry = entry.map_err(|error| unread(&self.folder, error))?;
            let name = entry.file_name();
            let name = name.to_str().unwrap_or_default();
            let unused = |day: u32| Some(day) != open && Some(day) != closed;
            let new = [RECORD_NEW, LAYOUT_NEW, CLEAN_NEW].contains(&name);
            if new || day_of(name).is_some_and(unused) || self.is_later(name)? {
                self.left.push(Left::File(entry.path()));
            }
        }
        Ok(())
    }

    /// Whether a file is the book or the index of the next season, as a stopped run leaves it behind a
    /// full one. More than that tells of a record that is older than the file.
    fn is_later(&self, name: &str) -> Result<bool, Stop> {
        let (book, index) = (season_of(BOOK, name), season_of(INDEX, name));
        let Some(season) = book.or(index).filter(|season| *season > self.season.number) else {
            return Ok(false);
        };
        let most = if book.is_some() {
            PART as u64
        } else {
            LINE_MOST
        };
        let (bytes, more) = read_front(&self.path(name), most)?;
        let lines = bytes.iter().filter(|byte| **byte == b'\n').count();
        let long = more || (index.is_some() && lines > 1);
        if (season, 1) == self.next() && !long {
            return Ok(true);
        }
        Err(self.older(format!("there is {name}, of a later season")))
    }
}

/// The record, which is of the layout beside it and which the service can go on from, and the format
/// version of that layout.
fn load_record(folder: &Path) -> Result<(Record, u32), Stop> {
    let layout_path = at(folder, LAYOUT);
    let (text, _) = read_front(&layout_path, 1024)?;
    let path = at(folder, RECORD);
    let bytes = record_bytes(&path)?;
    let record = Record::from_bytes(&bytes).map_err(|what| misfit(&path, what))?;
    if record.service.clone().add(&[]) == Err(Refusal::BadRecord) {
        return Err(Stop::Refused(
            Refusal::BadRecord,
            path.display().to_string(),
        ));
    }
    let version =
        test_layout(&text, record.service.layout()).map_err(|what| misfit(&layout_path, what))?;
    // the layout is replaced first, so its version is never below that of the record
    if let Some(above) = record_version(&bytes).filter(|record| *record > version) {
        let what = format!("its format version is {version}, and that of the record is {above}");
        return Err(misfit(&layout_path, what));
    }
    test_start(&record.service).map_err(|what| misfit(&path, what))?;
    Ok((record, version))
}

/// The start of the chains, which a record has behind what it had before version 0.8.0, is that of
/// its layout: a book with any other start could never be checked.
fn test_start(service: &Service) -> Result<(), String> {
    let layout = service.layout();
    let start =
        |service: &Service| service.to_bytes()[EARLIER_RECORD..RECORD_WITHOUT_SEASON].to_vec();
    match Service::open(layout) {
        Ok(fresh) if start(&fresh) == start(service) => Ok(()),
        _ => Err(format!("its chains do not start as those of {layout} do")),
    }
}
