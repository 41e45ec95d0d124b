//! A service over several days, kept in one file between runs, that may be stopped at any step.
//!
//!     cargo run --offline --example service_days
//!
//! closes eight days, alters one and finds it. The steps can be run one by one:
//!
//!     service_days open STATE | close STATE K TEXT | status STATE
//!
//! STATE is one file: the record, the digest of each closed day, the book, and a checksum over
//! these. A close has one commit, in which the new file takes the place of the old one; a run that
//! is stopped leaves the service before or after it. The number K makes a repeat harmless.
//!
//! A season has 65,536 days and a book of its own. When day 65,536 is closed, the next close is
//! that of day 1 of the next season: STATE goes on with that one's days and book, and the full
//! season's are put into STATE-T before, T its number. Until then day 65,536 can be repeated.
//!
//! A record of version 0.8, which has no season, goes on as one of season 0. One of before version
//! 0.8.0 is named by its length: its days are closed again, in a new file.

use std::env;
use std::error::Error;
use std::fs::{self, File};
use std::io::Write;
use std::path::{Path, PathBuf};
use std::process::ExitCode;

use daybook::{check, check_to_vecs, read_to_vec, Layout, Reading, Service};
use daybook::{DAYS_LIMIT, LAST_SEASON, RECORD, VALUE};

const LAYOUT: Layout = Layout::tile(4, 2);

/// Eight closing days.
const DAYS: [&str; 8] = [
    "rye 12", "oats 7", "wheat 40", "barley 3", "rye 9", "", "wheat 38", "oats 11",
];

type Answer<T> = Result<T, Box<dyn Error>>;

fn main() -> ExitCode {
    let words: Vec<String> = env::args().skip(1).collect();
    let words: Vec<&str> = words.iter().map(String::as_str).collect();
    let result = match words[..] {
        [] => demonstration(),
        ["open", state] => open(Path::new(state)),
        ["close", state, day, text] => match day.parse() {
            Ok(day) => close(Path::new(state), day, text.as_bytes()),
            Err(_) => Err(format!("{day} is no number").into()),
        },
        ["status", state] => status(Path::new(state)),
        _ => Err("usage: service_days [open STATE | close STATE K TEXT | status STATE]".into()),
    };
    match result {
        Ok(()) => ExitCode::SUCCESS,
        Err(error) => {
            eprintln!("service_days: {error}");
            ExitCode::from(3)
        }
    }
}

fn demonstration() -> Answer<()> {
    let folder = env::temp_dir().join(format!("service-days-{}", std::process::id()));
    fs::create_dir(&folder)?;
    let result = eight_days(&folder.join("state"));
    fs::remove_dir_all(&folder)?;
    result
}

fn eight_days(state: &Path) -> Answer<()> {
    open(state)?;
    for (day, text) in DAYS.iter().enumerate() {
        close(state, day as u32 + 1, text.as_bytes())?;
    }
    let kept = Kept::load(state)?;
    let values = kept.book.len() / VALUE;
    println!("{} days, {values} values", kept.service.days());

    print_reading("as sealed", &DAYS, &kept.book)?;
    let mut now = DAYS;
    now[6] = "wheat 83";
    print_reading("day 7 altered", &now, &kept.book)
}

fn open(state: &Path) -> Answer<()> {
    let _lock = locked(state)?;
    if state.exists() {
        let service = Kept::load(state)?.service;
        if service.days() > 0 || service.season() > 0 {
            return Err("it has days already".into());
        }
        return flush_folder(state);
    }
    let service = Service::open(LAYOUT)?;
    Kept {
        service,
        digests: Vec::new(),
        book: Vec::new(),
    }
    .save(state)
}

/// What one run of the service does: takes up its state, closes a day, keeps its state.
fn close(state: &Path, day: u32, text: &[u8]) -> Answer<()> {
    let _lock = locked(state)?;
    let mut kept = Kept::load(state)?;
    let (season, closed) = (kept.service.season(), kept.service.days());
    // behind a full season day 1 is that of the next one; every other day is one of the full season
    let turns = closed == DAYS_LIMIT && season < LAST_SEASON;
    let next = if turns { 1 } else { closed + 1 };
    if (1..=closed).contains(&day) && day != next {
        let at = VALUE * (day as usize - 1);
        if kept.digests[at..at + VALUE] != digest(text)? {
            return Err(format!("day {day} is closed, with other bytes").into());
        }
        // a run that was stopped may have left the file, but not on disk
        return flush_folder(state);
    }
    if day != next {
        return Err(format!("day {day} is not the next one, which is {next}").into());
    }
    for piece in text.chunks(4) {
        kept.service.add(piece)?;
    }
    let values = kept.service.close_day()?;
    // the season after the close is the one whose book the values belong to
    if kept.service.season() != season {
        let past = [&kept.digests[..], &kept.book].concat();
        write(&beside(state, &season.to_string()), &past)?;
        flush_folder(state)?;
        (kept.digests, kept.book) = (Vec::new(), Vec::new());
    }
    kept.book.extend(values);
    kept.digests.extend(digest(text)?);
    kept.save(state)
}

fn status(state: &Path) -> Answer<()> {
    let kept = Kept::load(state)?;
    let (season, days) = (kept.service.season(), kept.service.days());
    let values = kept.book.len() / VALUE;
    println!("season {season}: {days} days, {values} values");
    Ok(())
}

/// What is kept between two runs.
struct Kept {
    service: Service,
    /// The digest of each closed day of the season.
    digests: Vec<u8>,
    book: Vec<u8>,
}

impl Kept {
    /// A state that is missing is no fresh one, and one that is not whole is none.
    fn load(state: &Path) -> Answer<Kept> {
        let bytes = fs::read(state).map_err(|error| format!("{}: {error}", state.display()))?;
        let (body, sum) = bytes
            .split_last_chunk::<VALUE>()
            .ok_or("the state is too short")?;
        if digest(body)? != *sum {
            return Err("the state does not fit its checksum".into());
        }
        let (days, values) = counts(body)?;
        let length = body.len().checked_sub(VALUE * (days + values));
        let (record, rest) = body.split_at(length.ok_or("the state is too short")?);
        // one of version 0.8 is of season 0; one of before is shorter, and the error says so
        let service = Service::from_slice(record)?;
        let (digests, book) = rest.split_at(VALUE * days);
        Ok(Kept {
            service,
            digests: digests.to_vec(),
            book: book.to_vec(),
        })
    }

    /// The new file is on disk before it takes the place of the old one, in one step.
    fn save(&self, state: &Path) -> Answer<()> {
        let mut bytes = [&self.service.to_bytes()[..], &self.digests, &self.book].concat();
        let sum = digest(&bytes)?;
        bytes.extend(sum);
        let new = state.with_extension("new");
        write(&new, &bytes)?;
        fs::rename(&new, state)?;
        flush_folder(state)
    }
}

/// A file with these bytes, flushed to disk.
fn write(path: &Path, bytes: &[u8]) -> Answer<()> {
    let mut file = File::create(path)?;
    file.write_all(bytes)?;
    Ok(file.sync_all()?)
}

/// STATE-NAME.
fn beside(state: &Path, name: &str) -> PathBuf {
    let mut path = state.as_os_str().to_os_string();
    path.push(format!("-{name}"));
    path.into()
}

/// The days and values of a record's season, by the numbers that stand first in it in every
/// version.
fn counts(record: &[u8]) -> Answer<(usize, usize)> {
    let mut numbers = [0; RECORD];
    let front = record.get(..20).ok_or("the state is too short")?;
    numbers[..20].copy_from_slice(front);
    let service = Service::from_bytes(numbers);
    Ok((service.days() as usize, service.values()? as usize))
}

/// The digest of a day of these bytes: a check of one day writes it.
fn digest(bytes: &[u8]) -> Answer<[u8; VALUE]> {
    let mut digest = [0; VALUE];
    let ends = [u32::try_from(bytes.len())?];
    let layout = Layout::black(1, 1);
    check(layout, 1, bytes, &ends, &[0; VALUE], &mut digest, &mut [0])?;
    Ok(digest)
}

fn folder(state: &Path) -> PathBuf {
    match state.parent() {
        Some(folder) if !folder.as_os_str().is_empty() => folder.to_path_buf(),
        _ => PathBuf::from("."),
    }
}

fn flush_folder(state: &Path) -> Answer<()> {
    Ok(File::open(folder(state))?.sync_all()?)
}

/// One run at a time: the folder is locked until the file is dropped.
fn locked(state: &Path) -> Answer<File> {
    let folder = File::open(folder(state))?;
    folder.try_lock()?;
    Ok(folder)
}

/// Checks the days against the book and prints what the outcomes say.
fn print_reading(what: &str, days: &[&str], book: &[u8]) -> Answer<()> {
    let ledger = days.concat();
    let mut ends = Vec::new();
    for day in days {
        ends.push(ends.last().unwrap_or(&0) + u32::try_from(day.len())?);
    }
    let d = u32::try_from(days.len())?;
    let checked = check_to_vecs(LAYOUT, d, ledger.as_bytes(), &ends, book)?;
    // no check passed before this one
    let (reading, listed) = read_to_vec(LAYOUT, d, 0, &checked.outcomes)?;
    match reading {
        Reading::Clean { last_good } => println!("{what}: clean up to day {last_good}"),
        Reading::Changed { last_good, .. } => {
            println!("{what}: may have been altered: {listed:?}, last good day {last_good}")
        }
    }
    Ok(())
}
