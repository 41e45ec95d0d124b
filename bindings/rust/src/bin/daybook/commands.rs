//! What each command does.

use std::ffi::OsString;
use std::fmt::Write as _;
use std::fs;
use std::io::{self, IsTerminal, Write};
use std::path::{Path, PathBuf};

use daybook::{check_to_vecs, read_to_vec, seal_to_vec, validation_before, values};
use daybook::{Checked, Layout, Reading, Refusal, Service, VALUE};

use crate::ambiguity::ambiguity;
use crate::arguments::{Command, Passed, Source};
use crate::days::{add_file, Days, Halt, Ledger};
use crate::evidence::{test_book, Book};
use crate::explain::{bad_end, bad_outcome, bad_passed, impossible_value, short_book};
use crate::figure::Verified;
use crate::files::{read_front, test_written, Staged};
use crate::fit::{moved, Fit};
use crate::forecast::forecast;
use crate::locate::locate;
use crate::names::{field, out_of_order};
use crate::older;
use crate::progress::Progress;
use crate::say;
use crate::search::search;
use crate::state::{self, Kept};
use crate::stop::Stop;
use crate::summary::{strip, summary};

/// A command that was done.
pub struct Done {
    /// What goes to standard output.
    pub lines: String,
    pub answer: Answer,
}

/// What a command tells of the days; its exit status goes by this.
#[derive(Clone, Copy, Debug, PartialEq, Eq)]
pub enum Answer {
    /// Done, and nothing is altered as far as the command tells.
    Clean,
    /// Days may have been altered, or a value fails.
    Changed,
    /// A search that is not finished has found no day.
    Undecided,
}

impl Answer {
    fn changed(changed: bool) -> Answer {
        match changed {
            true => Answer::Changed,
            false => Answer::Clean,
        }
    }
}

pub fn run(command: &Command) -> Result<Done, Stop> {
    match command {
        Command::Service { folder, service } => state::run(folder, service),
        Command::Seal {
            layout,
            d,
            source,
            book,
            force,
        } => {
            let work = Work::find(*layout, *d, source, None, &[book])?;
            seal(&work, book, *force)
        }
        Command::Check {
            layout,
            d,
            source,
            book,
            outcomes,
            digests,
            sealed,
            kept,
        } => {
            let mut written = vec![outcomes.as_path()];
            written.extend(digests.as_deref());
            test_written(&written, &[book], None)?;
            let mut work = Work::find(*layout, *d, source, Some(book), &written)?;
            work.compare(sealed);
            check(&work, book, outcomes, digests.as_deref(), kept.as_deref())
        }
        Command::Read {
            layout,
            d,
            passed,
            outcomes,
            days,
            names,
            sealed,
            kept,
        } => {
            let view = View::of_folder(days.as_deref(), sealed, *names)?;
            let asked = Asked::of(*layout, *d, *passed, kept.as_deref())?;
            listed(&asked, &outcomes_of(*layout, *d, outcomes)?, &view)
        }
        Command::Search {
            layout,
            d,
            limit,
            outcomes,
            days,
            names,
            sealed,
        } => {
            let view = View::of_folder(days.as_deref(), sealed, *names)?;
            search(*layout, *d, *limit, outcomes, &view)
        }
        Command::Verify {
            layout,
            d,
            passed,
            source,
            book,
            names,
            figure,
            sealed,
            kept,
        } => {
            let written = Vec::from_iter(figure.as_deref());
            test_written(&written, &[book], None)?;
            let mut work = Work::find(*layout, *d, source, Some(book), &written)?;
            let asked = Asked::of(*layout, work.d, *passed, kept.as_deref())?;
            work.compare(sealed);
            let view = View {
                names: work.labels().or_else(|| some(sealed)),
                named: *names,
                figure: figure.clone(),
            };
            verify(&work, book, &asked, &view)
        }
        Command::Forecast {
            layout,
            d,
            lengths,
            line,
        } => forecast(*layout, *d, lengths, *line),
        Command::Locate {
            layout,
            d,
            sought,
            line,
        } => locate(*layout, *d, *sought, *line),
        Command::Ambiguity { line, figure } => ambiguity(*line, figure.as_deref()),
    }
}

/// The days that a command works on.
struct Work {
    layout: Layout,
    d: u32,
    /// Whether D was given, and is not the number of days found.
    given: bool,
    /// The number of values of D days.
    values: u32,
    days: Days,
    /// The names of the days, where they have names.
    names: Option<Vec<OsString>>,
    /// The book's length, where there is a book.
    book: Option<u64>,
    /// Whether the days were compared with those of a state, and what does not fit was said.
    compared: bool,
}

impl Work {
    /// Finds the days and tests layout and D, before anything long is done.
    fn find(
        layout: Layout,
        d: Option<u32>,
        source: &Source,
        book: Option<&Path>,
        written: &[&Path],
    ) -> Result<Work, Stop> {
        Service::open(layout).map_err(|refusal| Stop::Refused(refusal, layout.to_string()))?;
        test_source(source, written)?;
        let days = Days::find(source)?;
        let mut work = Work {
            layout,
            d: d.unwrap_or_else(|| days.count()),
            given: d.is_some(),
            values: 0,
            names: days.names(),
            days,
            book: book
                .and_then(|book| fs::metadata(book).ok())
                .map(|file| file.len()),
            compared: false,
        };
        warn_of_order(work.names.as_deref().unwrap_or_default());
        if !work.given {
            work.fit_book();
        }
        work.values = values(layout, work.d).map_err(|refusal| work.misfit(refusal))?;
        Ok(work)
    }

    fn fit(&self) -> Fit<'_> {
        Fit {
            layout: self.layout,
            found: self.days.count(),
            names: self.names.as_deref(),
            book: self.book,
            closed: None,
        }
    }

    /// The names of the days as fields, where they have names.
    fn labels(&self) -> Option<Vec<String>> {
        self.names.as_deref().map(labels)
    }

    /// Says where the days found are not those of a state's index.
    fn compare(&mut self, sealed: &[String]) {
        let closed = Some(sealed.len() as u32);
        if sealed.is_empty() {
            return;
        }
        self.compared = true;
        if closed != Some(self.days.count()) {
            let fit = Fit {
                closed,
                ..self.fit()
            };
            for line in fit.misfit() {
                say(&format!("note: {line}"));
            }
        }
        if let Some(line) = moved(sealed, &self.labels().unwrap_or_default()) {
            say(&format!("note: {line}"));
        }
    }

    /// Takes D from the book, where the days found leave it open.
    fn fit_book(&mut self) {
        let d = self.fit().d();
        if d != self.d {
            say(&self.fit().later(d));
            (self.d, self.given) = (d, true);
        }
    }

    /// A refusal of the number of days.
    fn misfit(&self, refusal: Refusal) -> Stop {
        let lines = match refusal {
            Refusal::FewEnds if !self.compared => self.fit().misfit(),
            Refusal::BadD if !self.given => self.fit().misfit(),
            _ => vec![],
        };
        Stop::Explained(refusal, self.numbers(), lines)
    }

    /// A refusal of the ledger or the book.
    fn explained(&self, refusal: Refusal, ledger: &Ledger, book: &[u8]) -> Stop {
        if refusal == Refusal::FewEnds {
            return self.misfit(refusal);
        }
        let mut lines = match refusal {
            Refusal::BadEnd => {
                let length = self.days.length(ledger);
                let names = self.labels();
                Vec::from_iter(bad_end(&ledger.ends, self.d, length, names.as_deref()))
            }
            Refusal::ShortBook => vec![short_book(self.values, book.len())],
            _ => vec![],
        };
        if refusal == Refusal::ShortBook && !self.given {
            lines.extend(self.fit().misfit());
        }
        Stop::Explained(refusal, self.numbers(), lines)
    }

    fn refused(&self, refusal: Refusal) -> Stop {
        Stop::Refused(refusal, self.numbers())
    }

    fn numbers(&self) -> String {
        let (layout, d, found) = (self.layout, self.d, self.days.count());
        format!("{layout}, D {d}, days found {found}")
    }

    /// The bytes of the D days.
    fn load(&self) -> Result<Ledger, Stop> {
        let ledger = self.days.load(self.d)?;
        if ledger.more && !self.given {
            say("note: the ledger has bytes past the last end; they are in no day");
        }
        Ok(ledger)
    }
}

pub fn warn_of_order(names: &[OsString]) {
    if let Some((first, second)) = out_of_order(names) {
        say(&format!(
            "warning: days go in byte order of the names, and so {} comes before {}",
            field(first),
            field(second)
        ));
    }
}

pub fn labels(names: &[OsString]) -> Vec<String> {
    names.iter().map(|name| field(name)).collect()
}

/// The names of a state's index, where there is a state.
fn some(sealed: &[String]) -> Option<Vec<String>> {
    (!sealed.is_empty()).then(|| sealed.to_vec())
}

pub fn numbers(layout: Layout, d: u32) -> String {
    format!("{layout}, D {d}")
}

/// The files to be written are not those of the source.
fn test_source(source: &Source, written: &[&Path]) -> Result<(), Stop> {
    match source {
        Source::Folder(folder) => test_written(written, &[], Some(folder)),
        Source::Ledger { ledger, ends } => test_written(written, &[ledger, ends], None),
    }
}

fn seal(work: &Work, book: &Path, force: bool) -> Result<Done, Stop> {
    let bytes = match &work.days {
        Days::Files(files) => seal_files(work, files)?,
        Days::Ledger { .. } => seal_ledger(work)?,
    };
    let stands = match test_book(book, &bytes, force)? {
        Book::Stands => ", the book was there already",
        Book::Write => {
            Staged::new(book, &bytes)?.commit()?;
            ""
        }
    };
    say(&format!(
        "sealed: days {}, values {}{stands}",
        work.d, work.values
    ));
    Ok(Done {
        lines: String::new(),
        answer: Answer::Clean,
    })
}

/// Seals file by file, so that the days need not be in memory.
fn seal_files(work: &Work, files: &[PathBuf]) -> Result<Vec<u8>, Stop> {
    let files = files
        .get(..work.d as usize)
        .ok_or_else(|| work.misfit(Refusal::FewEnds))?;
    let mut service = Service::open(work.layout).map_err(|refusal| work.refused(refusal))?;
    let mut book = vec![0; VALUE * work.values as usize];
    let mut written = 0;
    let mut progress = Progress::new("sealing", files.len());
    for (index, path) in files.iter().enumerate() {
        let count = seal_file(&mut service, path, &mut book[written..])
            .map_err(|halt| halted(work, halt, index + 1, path))?;
        written += VALUE * count as usize;
        progress.done(index + 1);
    }
    Ok(book)
}

/// Adds a file as a day and closes it; gives the number of its values.
fn seal_file(service: &mut Service, path: &Path, rest: &mut [u8]) -> Result<u32, Halt> {
    add_file(service, path)?;
    let closed = service.close(rest).map_err(Halt::Refused)?;
    Ok(closed.values)
}

fn halted(work: &Work, halt: Halt, day: usize, path: &Path) -> Stop {
    match halt {
        Halt::Stopped(stop) => stop,
        Halt::Refused(refusal) => {
            let numbers = work.numbers();
            Stop::Refused(refusal, format!("{numbers}, day {day}, {}", path.display()))
        }
    }
}

fn seal_ledger(work: &Work) -> Result<Vec<u8>, Stop> {
    let ledger = work.load()?;
    let _shown = Progress::whole("sealing", work.d);
    seal_to_vec(work.layout, work.d, &ledger.bytes, &ledger.ends)
        .map_err(|refusal| work.explained(refusal, &ledger, &[]))
}

fn check(
    work: &Work,
    book: &Path,
    outcomes: &Path,
    digests: Option<&Path>,
    kept: Option<&Kept>,
) -> Result<Done, Stop> {
    let (checked, front) = checked(work, book)?;
    let staged = Staged::new(outcomes, &checked.outcomes)?;
    match digests {
        None => staged.commit()?,
        Some(path) => staged.commit_after(Staged::new(path, &checked.digests)?)?,
    }
    let fail = checked.outcomes.iter().filter(|o| **o == 0).count();
    say(&format!(
        "checked: days {}, values {}, failing {fail}",
        work.d, work.values
    ));
    say_none_passes(&checked, kept);
    if let (0, Some(kept)) = (fail, kept) {
        kept.keep(&front);
    }
    Ok(Done {
        lines: String::new(),
        answer: Answer::changed(fail > 0),
    })
}

fn verify(work: &Work, book: &Path, asked: &Asked, view: &View) -> Result<Done, Stop> {
    let (checked, front) = checked(work, book)?;
    say_none_passes(&checked, asked.kept);
    let done = listed(asked, &checked.outcomes, view)?;
    if let (Answer::Clean, Some(kept)) = (done.answer, asked.kept) {
        kept.keep(&front);
    }
    Ok(done)
}

/// Says what it may mean that no value passes, where none does. Days are kept by state folders
/// alone.
fn say_none_passes(checked: &Checked, kept: Option<&Kept>) {
    let book = match kept {
        Some(_) => older::Book::OfState,
        None => older::Book::Given,
    };
    if let Some(note) = older::note(&checked.outcomes, book) {
        say(&note);
    }
}

/// What a check found, and the front of the book that it was made against.
fn checked(work: &Work, book: &Path) -> Result<(Checked, Vec<u8>), Stop> {
    let values = read_book(work, book)?;
    let ledger = work.load()?;
    let _shown = Progress::whole("checking", work.d);
    let checked = check_to_vecs(work.layout, work.d, &ledger.bytes, &ledger.ends, &values)
        .map_err(|refusal| work.explained(refusal, &ledger, &values))?;
    Ok((checked, values))
}

/// The front of the book that D days have. Where D is only the number of days found, a longer book
/// tells that days are missing.
fn read_book(work: &Work, book: &Path) -> Result<Vec<u8>, Stop> {
    let (bytes, more) = read_front(book, VALUE as u64 * u64::from(work.values))?;
    if more && !work.given {
        return Err(Stop::Fault(format!(
            "{} has more values than the {} days found: days are missing, or the book is of \
             another layout. Give --d {} if these days alone are meant\ndaybook: {}",
            book.display(),
            work.d,
            work.d,
            work.fit().misfit().join("\ndaybook: ")
        )));
    }
    Ok(bytes)
}

/// The outcomes of D days, from a file. Layout and D are tested before it is read.
pub fn outcomes_of(layout: Layout, d: u32, file: &Path) -> Result<Vec<u8>, Stop> {
    let values = values(layout, d).map_err(|refusal| Stop::Refused(refusal, numbers(layout, d)))?;
    let (table, more) = read_front(file, u64::from(values))?;
    if more {
        say(&format!(
            "note: D {d} has {values} outcomes; the rest of the file is not read"
        ));
    }
    Ok(table)
}

/// What a table is read with.
struct Asked<'a> {
    layout: Layout,
    d: u32,
    /// The last day at which a check passed, 0 for none.
    passed: u32,
    /// Whether that day was given.
    given: bool,
    kept: Option<&'a Kept>,
}

impl Asked<'_> {
    /// Tests the day of the last passed check, for a layout and D that are allowed.
    fn of(layout: Layout, d: u32, passed: Passed, kept: Option<&Kept>) -> Result<Asked<'_>, Stop> {
        let refused = |refusal| Stop::Refused(refusal, numbers(layout, d));
        let before = validation_before(layout, d).map_err(refused)?;
        let (passed, given) = match passed {
            Passed::Before => (before, false),
            Passed::Day(day) => (day, true),
        };
        // with no list the library says 8, if it has no cause before
        if daybook::read(layout, d, passed, &[], &mut []) == Err(Refusal::BadPassed) {
            let context = format!("{}, P {passed}", numbers(layout, d));
            let lines = vec![bad_passed(layout, d, passed)];
            return Err(Stop::Explained(Refusal::BadPassed, context, lines));
        }
        Ok(Asked {
            layout,
            d,
            passed,
            given,
            kept,
        })
    }

    /// Says what low supposes, where the state folder keeps another day than the one that was not given.
    fn note(&self, reading: &Reading) {
        let (Reading::Changed { first, .. }, Some(kept)) = (*reading, self.kept) else {
            return;
        };
        let (d, passed, before) = (self.d, self.passed, kept.before);
        if self.given || before == passed || passed < first {
            return;
        }
        let offer = match before {
            0 => format!(
                "this folder keeps no day below {d} as verified clean; --passed kept takes 0"
            ),
            _ => format!(
                "the last day below {d} that this folder keeps as verified clean is {before}; \
                 --passed kept takes it"
            ),
        };
        say(&format!(
            "note: low supposes that the validation at day {passed} was made and passed; {offer}"
        ));
    }
}

/// What is shown of a reading or a search.
pub struct View {
    /// The names of the days as fields, where they have names.
    names: Option<Vec<String>>,
    /// Whether each line of a day has its name.
    pub named: bool,
    /// The picture to write.
    figure: Option<PathBuf>,
}

impl View {
    /// The names are those of a folder's files, or else those of a state's index.
    fn of_folder(folder: Option<&Path>, sealed: &[String], named: bool) -> Result<View, Stop> {
        let names = match folder {
            Some(folder) => {
                let days = Days::find(&Source::Folder(folder.to_path_buf()))?;
                let names = days.names().unwrap_or_default();
                warn_of_order(&names);
                Some(labels(&names))
            }
            None => some(sealed),
        };
        Ok(View {
            names,
            named,
            figure: None,
        })
    }

    pub fn names(&self) -> Option<&[String]> {
        self.names.as_deref()
    }
}

/// Reads the table of outcomes; the lines are those of the program readtable.
fn listed(asked: &Asked, outcomes: &[u8], view: &View) -> Result<Done, Stop> {
    let (layout, d, passed) = (asked.layout, asked.d, asked.passed);
    let (reading, days) = read_to_vec(layout, d, passed, outcomes)
        .map_err(|refusal| unread_table(layout, d, outcomes, refusal))?;
    asked.note(&reading);
    if let Some(path) = &view.figure {
        draw(
            path,
            &Verified {
                layout,
                d,
                passed,
                outcomes,
                reading,
                days: &days,
            },
        )?;
    }
    if io::stderr().is_terminal() {
        let words = summary(layout, d, passed, &reading, &days, view.names());
        let _ = write!(io::stderr(), "{words}{}", strip(d, &days));
    }
    let named = view.names().filter(|_| view.named);
    Ok(Done {
        lines: lines(layout.scheme, reading.numbers(), &days, named),
        answer: Answer::changed(!reading.is_clean()),
    })
}

fn draw(path: &Path, verified: &Verified) -> Result<(), Stop> {
    let (first, last) = verified.window();
    if last - first + 1 < verified.d {
        let d = verified.d;
        say(&format!(
            "note: the figure shows the days {first} to {last} of {d}"
        ));
    }
    Staged::new(path, verified.svg().as_bytes())?.commit()
}

/// A refusal of the outcomes.
pub fn unread_table(layout: Layout, d: u32, outcomes: &[u8], refusal: Refusal) -> Stop {
    let line = match refusal {
        Refusal::BadOutcome => bad_outcome(layout, d, outcomes),
        Refusal::ImpossibleTable => impossible_value(layout, d, outcomes),
        _ => None,
    };
    Stop::Explained(refusal, numbers(layout, d), Vec::from_iter(line))
}

fn lines(
    scheme: u32,
    [listed, first, low, high, last_good]: [u32; 5],
    days: &[u32],
    names: Option<&[String]>,
) -> String {
    let first = format!("REF,{scheme},{listed},{first},{low},{high},{last_good}\n");
    first + &day_lines(days, names)
}

/// A line for each day, with its name where the days have names.
pub fn day_lines(days: &[u32], names: Option<&[String]>) -> String {
    let mut text = String::new();
    for day in days {
        let name = names.and_then(|names| names.get(*day as usize - 1));
        let name = name.map_or(String::new(), |name| format!(",{name}"));
        let _ = writeln!(text, "DAY,{day}{name}");
    }
    text
}

#[cfg(test)]
mod tests {
    use super::*;

    #[test]
    fn lines_of_readtable() {
        assert_eq!(
            lines(2, [2, 6, 5, 8, 4], &[6, 8], None),
            "REF,2,2,6,5,8,4\nDAY,6\nDAY,8\n"
        );
        assert_eq!(lines(3, [0, 0, 0, 0, 16], &[], None), "REF,3,0,0,0,0,16\n");
    }

    #[test]
    fn lines_with_names() {
        let names: Vec<OsString> = (1..=8).map(|day| format!("d,{day}").into()).collect();
        let names = labels(&names);
        assert_eq!(
            lines(2, [2, 6, 5, 8, 4], &[6, 8], Some(&names)),
            "REF,2,2,6,5,8,4\nDAY,6,d%2C6\nDAY,8,d%2C8\n"
        );
    }
}
