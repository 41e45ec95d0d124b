//! The command line: `daybook COMMAND --option value ...`.

use std::ffi::{OsStr, OsString};
use std::os::unix::ffi::OsStringExt;
use std::path::{Path, PathBuf};

use daybook::{Chain, Kind, Layout};

use crate::help;
use crate::state::{Day, Kept, Sealed, Service};
use crate::stop::Stop;

#[derive(Debug, PartialEq, Eq)]
pub enum Request {
    Help(&'static str),
    Run(Command),
}

#[derive(Debug, PartialEq, Eq)]
pub enum Command {
    /// A command on a state folder.
    Service { folder: PathBuf, service: Service },
    Seal {
        layout: Layout,
        d: Option<u32>,
        source: Source,
        book: PathBuf,
        /// Whether a book that is there is replaced in any case.
        force: bool,
    },
    Check {
        layout: Layout,
        d: Option<u32>,
        source: Source,
        book: PathBuf,
        outcomes: PathBuf,
        digests: Option<PathBuf>,
        sealed: Vec<String>,
        kept: Option<Box<Kept>>,
    },
    Read {
        layout: Layout,
        d: u32,
        passed: Passed,
        outcomes: PathBuf,
        /// The folder of days, for their names alone.
        days: Option<PathBuf>,
        names: bool,
        sealed: Vec<String>,
        kept: Option<Box<Kept>>,
    },
    Search {
        layout: Layout,
        d: u32,
        /// How many chains may be looked at; without it the search goes to its end.
        limit: Option<u32>,
        outcomes: PathBuf,
        /// The folder of days, for their names alone.
        days: Option<PathBuf>,
        names: bool,
        sealed: Vec<String>,
    },
    Verify {
        layout: Layout,
        d: Option<u32>,
        passed: Passed,
        source: Source,
        book: PathBuf,
        names: bool,
        figure: Option<PathBuf>,
        /// The names of the closed days in the state folder's index; none without one.
        sealed: Vec<String>,
        /// What the state folder keeps of days that verified clean.
        kept: Option<Box<Kept>>,
    },
    Forecast {
        layout: Layout,
        d: Option<u32>,
        lengths: Lengths,
        /// Whether the sizes are one line for programs.
        line: bool,
    },
    Locate {
        layout: Layout,
        d: u32,
        sought: Sought,
        /// Whether position and chain are one line for programs.
        line: bool,
    },
    Ambiguity {
        /// Whether the counts are lines for programs.
        line: bool,
        figure: Option<PathBuf>,
    },
}

/// The last day at which a check passed, 0 for none.
#[derive(Clone, Copy, Debug, PartialEq, Eq)]
pub enum Passed {
    /// It is not given: the validation before D is supposed to have passed.
    Before,
    Day(u32),
}

/// What is given of a value of the book, and the rest is sought.
#[derive(Clone, Copy, Debug, PartialEq, Eq)]
pub enum Sought {
    Position(u32),
    Chain(Chain),
}

/// Where the days are.
#[derive(Debug, PartialEq, Eq)]
pub enum Source {
    Folder(PathBuf),
    Ledger { ledger: PathBuf, ends: PathBuf },
}

/// Where the lengths of the days are.
#[derive(Debug, PartialEq, Eq)]
pub enum Lengths {
    Folder(PathBuf),
    /// A text, or - for standard input.
    Text(PathBuf),
}

/// A command's name, its help, its options, and how it is made of them.
type Form = (
    &'static str,
    &'static str,
    &'static [&'static str],
    fn(&mut Options) -> Result<Command, Stop>,
);

const FORMS: [Form; 12] = [
    (
        "open",
        help::OPEN,
        &[WORDS, "--scheme", "--n", "--f"],
        |options| options.service(open),
    ),
    (
        "add",
        help::ADD,
        &[WORDS, "--season", "--day", "--at"],
        |options| options.service(add),
    ),
    (
        "close",
        help::CLOSE,
        &[WORDS, "--season", "--day"],
        |options| options.service(close),
    ),
    ("status", help::STATUS, &[WORDS, "--season"], |options| {
        options.service(status)
    }),
    (
        "seal",
        help::SEAL,
        &[
            "--scheme", "--n", "--f", "--d", "--days", "--ledger", "--ends", "--book", "--force",
        ],
        seal,
    ),
    (
        "check",
        help::CHECK,
        &[
            "--scheme",
            "--n",
            "--f",
            "--d",
            "--days",
            "--ledger",
            "--ends",
            "--book",
            "--state",
            "--season",
            "--outcomes",
            "--digests",
        ],
        check,
    ),
    (
        "read",
        help::READ,
        &[
            "--scheme",
            "--n",
            "--f",
            "--d",
            "--state",
            "--season",
            "--passed",
            "--outcomes",
            "--days",
            "--names",
        ],
        read,
    ),
    (
        "search",
        help::SEARCH,
        &[
            "--scheme",
            "--n",
            "--f",
            "--d",
            "--state",
            "--season",
            "--limit",
            "--outcomes",
            "--days",
            "--names",
        ],
        search,
    ),
    (
        "verify",
        help::VERIFY,
        &[
            "--scheme", "--n", "--f", "--d", "--days", "--ledger", "--ends", "--book", "--state",
            "--season", "--passed", "--names", "--figure",
        ],
        verify,
    ),
    (
        "forecast",
        help::FORECAST,
        &[
            "--scheme",
            "--n",
            "--f",
            "--d",
            "--days",
            "--lengths",
            "--line",
        ],
        forecast,
    ),
    (
        "locate",
        help::LOCATE,
        &[
            "--scheme",
            "--n",
            "--f",
            "--d",
            "--state",
            "--season",
            "--position",
            "--kind",
            "--index",
            "--first",
            "--last",
            "--line",
        ],
        locate,
    ),
    (
        "ambiguity",
        help::AMBIGUITY,
        &["--line", "--figure"],
        |options| {
            Ok(Command::Ambiguity {
                line: options.flag("--line"),
                figure: options.path("--figure"),
            })
        },
    ),
];

/// Options that have no value.
const FLAGS: [&str; 3] = ["--force", "--names", "--line"];

/// In the options of a command: it takes words that are no options, a folder and files.
const WORDS: &str = "DIR";

/// What the words after the program's name ask for.
pub fn parse(mut words: impl Iterator<Item = OsString>) -> Result<Request, Stop> {
    let Some(word) = words.next() else {
        return Err(usage("no command is given"));
    };
    if word == "--help" || word == "-h" {
        return Ok(Request::Help(help::ALL));
    }
    if word == "--version" || word == "-V" {
        return Ok(Request::Help(help::VERSION));
    }
    if word == "help" {
        return helped(words);
    }
    let (name, text, allowed, make) = form(&word)?;
    match Options::collect(name, allowed, words)? {
        None => Ok(Request::Help(text)),
        Some(mut options) => Ok(Request::Run(make(&mut options)?)),
    }
}

/// `daybook help`, or of one command.
fn helped(mut words: impl Iterator<Item = OsString>) -> Result<Request, Stop> {
    let text = match words.next() {
        None => help::ALL,
        Some(word) => form(&word)?.1,
    };
    match words.next() {
        None => Ok(Request::Help(text)),
        Some(_) => Err(usage("help takes one command")),
    }
}

fn form(word: &OsStr) -> Result<&'static Form, Stop> {
    let form = FORMS.iter().find(|form| word == form.0);
    form.ok_or_else(|| usage(&format!("there is no command {}", word.display())))
}

fn seal(options: &mut Options) -> Result<Command, Stop> {
    Ok(Command::Seal {
        layout: options.layout()?,
        d: options.number("--d")?,
        source: options.source()?,
        book: options.needed_path("--book")?,
        force: options.take("--force").is_some(),
    })
}

fn check(options: &mut Options) -> Result<Command, Stop> {
    options.use_state(Sealed::with_kept)?;
    Ok(Command::Check {
        layout: options.layout()?,
        d: options.number("--d")?,
        source: options.source()?,
        book: options.needed_path("--book")?,
        outcomes: options.needed_path("--outcomes")?,
        digests: options.path("--digests"),
        sealed: options.sealed.take().unwrap_or_default(),
        kept: options.kept.take(),
    })
}

fn read(options: &mut Options) -> Result<Command, Stop> {
    options.use_state(Sealed::with_kept)?;
    Ok(Command::Read {
        layout: options.layout()?,
        d: options.needed_number("--d")?,
        passed: options.passed()?,
        outcomes: options.needed_path("--outcomes")?,
        names: options.names()?,
        days: options.path("--days"),
        sealed: options.sealed.take().unwrap_or_default(),
        kept: options.kept.take(),
    })
}

fn search(options: &mut Options) -> Result<Command, Stop> {
    let limit = options.number("--limit")?;
    options.use_state(Sealed::of)?;
    Ok(Command::Search {
        layout: options.layout()?,
        d: options.needed_number("--d")?,
        limit,
        outcomes: options.needed_path("--outcomes")?,
        names: options.names()?,
        days: options.path("--days"),
        sealed: options.sealed.take().unwrap_or_default(),
    })
}

fn verify(options: &mut Options) -> Result<Command, Stop> {
    options.use_state(Sealed::with_kept)?;
    Ok(Command::Verify {
        layout: options.layout()?,
        d: options.number("--d")?,
        passed: options.passed()?,
        names: options.names()?,
        figure: options.path("--figure"),
        source: options.source()?,
        book: options.needed_path("--book")?,
        sealed: options.sealed.take().unwrap_or_default(),
        kept: options.kept.take(),
    })
}

fn forecast(options: &mut Options) -> Result<Command, Stop> {
    Ok(Command::Forecast {
        layout: options.layout()?,
        d: options.number("--d")?,
        lengths: options.lengths()?,
        line: options.flag("--line"),
    })
}

fn locate(options: &mut Options) -> Result<Command, Stop> {
    let sought = options.sought()?;
    options.use_state(Sealed::of)?;
    Ok(Command::Locate {
        layout: options.layout()?,
        d: options.needed_number("--d")?,
        sought,
        line: options.flag("--line"),
    })
}

fn open(options: &mut Options) -> Result<Service, Stop> {
    let layout = options.layout()?;
    options.no_files()?;
    Ok(Service::Open { layout })
}

fn add(options: &mut Options) -> Result<Service, Stop> {
    let (day, at) = (options.day()?, options.needed_number("--at")?);
    let files = options.files()?;
    if files.is_empty() {
        return Err(usage("add needs FILE, or - for standard input"));
    }
    Ok(Service::Add { day, at, files })
}

fn close(options: &mut Options) -> Result<Service, Stop> {
    Ok(Service::Close {
        day: options.day()?,
        files: options.files()?,
    })
}

fn status(options: &mut Options) -> Result<Service, Stop> {
    options.no_files()?;
    let season = options.number("--season")?;
    Ok(Service::Status { season })
}

/// The options of a command, each given at most once, and its other words.
struct Options {
    command: &'static str,
    given: Vec<(&'static str, OsString)>,
    words: Vec<OsString>,
    /// The names of the days in the state folder's index, where there is a state folder.
    sealed: Option<Vec<String>>,
    /// What it keeps of days that verified clean, where the command asks for it.
    kept: Option<Box<Kept>>,
}

/// How a state folder is read, the season and D being those given.
type Reader = fn(&Path, Option<u32>, Option<u32>) -> Result<Sealed, Stop>;

impl Options {
    /// Reads the words as options with values; none where one of them asks for help.
    fn collect(
        command: &'static str,
        allowed: &[&'static str],
        mut words: impl Iterator<Item = OsString>,
    ) -> Result<Option<Options>, Stop> {
        let mut options = Options {
            command,
            given: Vec::new(),
            words: Vec::new(),
            sealed: None,
            kept: None,
        };
        while let Some(word) = words.next() {
            if word == "--help" || word == "-h" {
                return Ok(None);
            }
            if allowed.contains(&WORDS) && is_value(&word) {
                options.words.push(word);
                continue;
            }
            let (word, joined) = at_equals(word);
            let Some(name) = allowed.iter().find(|name| word == **name) else {
                let word = word.display();
                return Err(usage(&format!("{command} has no option {word}")));
            };
            if options.given.iter().any(|(given, _)| given == name) {
                return Err(usage(&format!("{name} is given twice")));
            }
            let value = match joined {
                Some(_) if FLAGS.contains(name) => {
                    return Err(usage(&format!("{name} takes no value")));
                }
                Some(value) => Some(value).filter(|value| !value.is_empty()),
                None if FLAGS.contains(name) => Some(OsString::new()),
                None => words.next().filter(is_value),
            };
            match value {
                Some(value) => options.given.push((name, value)),
                None => return Err(usage(&format!("{name} has no value"))),
            }
        }
        Ok(Some(options))
    }

    fn take(&mut self, name: &str) -> Option<OsString> {
        let place = self.given.iter().position(|(given, _)| *given == name)?;
        Some(self.given.swap_remove(place).1)
    }

    fn path(&mut self, name: &str) -> Option<PathBuf> {
        self.take(name).map(PathBuf::from)
    }

    fn needed_path(&mut self, name: &str) -> Result<PathBuf, Stop> {
        self.path(name).ok_or_else(|| self.missing(name))
    }

    fn number(&mut self, name: &str) -> Result<Option<u32>, Stop> {
        let value = self.take(name);
        value.map(|value| number_of(name, &value)).transpose()
    }

    fn needed_number(&mut self, name: &str) -> Result<u32, Stop> {
        self.number(name)?.ok_or_else(|| self.missing(name))
    }

    fn layout(&mut self) -> Result<Layout, Stop> {
        Ok(Layout {
            scheme: self.needed_number("--scheme")?,
            n: self.needed_number("--n")?,
            f: self.needed_number("--f")?,
        })
    }

    /// The day that is given, with its season where that is given too.
    fn day(&mut self) -> Result<Day, Stop> {
        Ok(Day {
            day: self.needed_number("--day")?,
            season: self.number("--season")?,
        })
    }

    fn flag(&mut self, name: &str) -> bool {
        self.take(name).is_some()
    }

    /// Whether the lines have names: those of the files, or those of the state's index.
    fn names(&mut self) -> Result<bool, Stop> {
        let files = self.given.iter().any(|(given, _)| *given == "--days");
        match self.flag("--names") {
            true if !files && self.sealed.is_none() => Err(usage(
                "--names needs --days or --state: there are no other names",
            )),
            names => Ok(names),
        }
    }

    /// The day of the last check that passed: a number, or the one that the state folder keeps.
    fn passed(&mut self) -> Result<Passed, Stop> {
        let Some(value) = self.take("--passed") else {
            return Ok(Passed::Before);
        };
        match &self.kept {
            Some(kept) if value == "kept" => Ok(Passed::Day(kept.before)),
            None if value == "kept" => Err(usage("--passed kept needs --state")),
            _ => number_of("--passed", &value).map(Passed::Day),
        }
    }

    /// Takes layout, number of days and book from the state folder, as if they had been given.
    fn use_state(&mut self, read: Reader) -> Result<(), Stop> {
        let season = self.number("--season")?;
        let Some(folder) = self.path("--state") else {
            return match season {
                None => Ok(()),
                Some(_) => Err(usage("--season needs --state")),
            };
        };
        for name in ["--scheme", "--n", "--f", "--book"] {
            if self.take(name).is_some() {
                return Err(usage(&format!("--state has what {name} gives: not both")));
            }
        }
        let sealed = read(&folder, season, self.number("--d")?)?;
        let Layout { scheme, n, f } = sealed.layout;
        for (name, number) in [
            ("--scheme", scheme),
            ("--n", n),
            ("--f", f),
            ("--d", sealed.d),
        ] {
            self.given.push((name, number.to_string().into()));
        }
        self.given.push(("--book", sealed.book.into()));
        self.sealed = Some(sealed.names);
        self.kept = sealed.kept;
        Ok(())
    }

    fn source(&mut self) -> Result<Source, Stop> {
        let paths = (
            self.path("--days"),
            self.path("--ledger"),
            self.path("--ends"),
        );
        match paths {
            (Some(folder), None, None) => Ok(Source::Folder(folder)),
            (None, Some(ledger), Some(ends)) => Ok(Source::Ledger { ledger, ends }),
            _ => Err(usage(&format!(
                "{} needs either --days, or --ledger and --ends",
                self.command
            ))),
        }
    }

    fn lengths(&mut self) -> Result<Lengths, Stop> {
        match (self.path("--days"), self.path("--lengths")) {
            (Some(folder), None) => Ok(Lengths::Folder(folder)),
            (None, Some(text)) => Ok(Lengths::Text(text)),
            _ => Err(usage(&format!(
                "{} needs either --days or --lengths",
                self.command
            ))),
        }
    }

    /// A position, or a chain by its four; black may come without its index, which is 0.
    fn sought(&mut self) -> Result<Sought, Stop> {
        let position = self.number("--position")?;
        let kind = self.kind()?;
        let index = self.number("--index")?;
        let days = (self.number("--first")?, self.number("--last")?);
        let black = (kind == Some(Kind::Black)).then_some(0);
        match (position, kind, index.or(black), days) {
            (Some(position), None, None, (None, None)) => Ok(Sought::Position(position)),
            (None, Some(kind), Some(index), (Some(first), Some(last))) => {
                Ok(Sought::Chain(Chain {
                    kind,
                    index,
                    first,
                    last,
                }))
            }
            _ => Err(usage(&format!(
                "{} needs either --position, or --kind, --index, --first and --last",
                self.command
            ))),
        }
    }

    /// The kind of a chain, by its name or its number.
    fn kind(&mut self) -> Result<Option<Kind>, Stop> {
        let Some(value) = self.take("--kind") else {
            return Ok(None);
        };
        match value.to_str() {
            Some("black" | "1") => Ok(Some(Kind::Black)),
            Some("tile" | "2") => Ok(Some(Kind::Tile)),
            Some("tree" | "3") => Ok(Some(Kind::Tree)),
            _ => Err(usage(&format!(
                "--kind {} is not black, tile or tree, nor 1, 2 or 3",
                value.display()
            ))),
        }
    }

    /// A command on the folder that is the first word.
    fn service(
        &mut self,
        make: fn(&mut Options) -> Result<Service, Stop>,
    ) -> Result<Command, Stop> {
        if self.words.is_empty() {
            return Err(self.missing(WORDS));
        }
        let folder = self.words.remove(0).into();
        let service = make(self)?;
        Ok(Command::Service { folder, service })
    }

    /// The words after the folder. Standard input stands alone.
    fn files(&mut self) -> Result<Vec<OsString>, Stop> {
        let files = std::mem::take(&mut self.words);
        if files.len() > 1 && files.iter().any(|file| file == "-") {
            return Err(usage("- for standard input stands alone"));
        }
        Ok(files)
    }

    fn no_files(&mut self) -> Result<(), Stop> {
        match self.words.first() {
            None => Ok(()),
            Some(word) => Err(usage(&format!(
                "{} takes no {}",
                self.command,
                word.display()
            ))),
        }
    }

    fn missing(&self, name: &str) -> Stop {
        usage(&format!("{} needs {name}", self.command))
    }
}

/// An option and its value, where they are written as one word: --option=value.
fn at_equals(word: OsString) -> (OsString, Option<OsString>) {
    let bytes = word.as_encoded_bytes();
    let place = bytes.iter().position(|byte| *byte == b'=');
    match place {
        Some(place) if bytes.starts_with(b"--") => {
            let part = |bytes: &[u8]| OsString::from_vec(bytes.to_vec());
            (part(&bytes[..place]), Some(part(&bytes[place + 1..])))
        }
        _ => (word, None),
    }
}

/// A word that starts with two hyphens is an option; a file of such a name is given as ./--name.
fn is_value(word: &OsString) -> bool {
    !word.is_empty() && !word.as_encoded_bytes().starts_with(b"--")
}

/// The number that an option has.
fn number_of(name: &str, value: &OsStr) -> Result<u32, Stop> {
    value.to_str().and_then(number).ok_or_else(|| {
        usage(&format!(
            "{name} {} is not a number from 0 to 4294967295 in plain digits",
            value.display()
        ))
    })
}

/// A 32-bit number in digits, with no sign and no leading zero.
fn number(text: &str) -> Option<u32> {
    let digits = text.bytes().all(|byte| byte.is_ascii_digit());
    let leading = text.len() > 1 && text.starts_with('0');
    if digits && !leading {
        text.parse().ok()
    } else {
        None
    }
}

fn usage(message: &str) -> Stop {
    Stop::Usage(message.to_string())
}

#[cfg(test)]
mod tests {
    use super::*;

    fn parsed(line: &str) -> Result<Request, Stop> {
        parse(line.split_whitespace().map(OsString::from))
    }

    fn message(line: &str) -> String {
        match parsed(line) {
            Err(Stop::Usage(message)) => message,
            other => panic!("{line}: {other:?}"),
        }
    }

    #[test]
    fn commands() {
        let layout = Layout::tile(16, 2);
        assert_eq!(
            parsed("seal --scheme 2 --n 16 --f 2 --days in --book out"),
            Ok(Request::Run(Command::Seal {
                layout,
                d: None,
                source: Source::Folder("in".into()),
                book: "out".into(),
                force: false,
            }))
        );
        assert_eq!(
            parsed(
                "check --outcomes o --book b --ends e --ledger l --d 64 --f 2 --n 16 --scheme 2"
            ),
            Ok(Request::Run(Command::Check {
                layout,
                d: Some(64),
                source: Source::Ledger {
                    ledger: "l".into(),
                    ends: "e".into()
                },
                book: "b".into(),
                outcomes: "o".into(),
                digests: None,
                sealed: vec![],
                kept: None,
            }))
        );
        assert_eq!(
            parsed("read --scheme 2 --n 16 --f 2 --d 4294967295 --outcomes o"),
            Ok(Request::Run(Command::Read {
                layout,
                d: u32::MAX,
                passed: Passed::Before,
                outcomes: "o".into(),
                days: None,
                names: false,
                sealed: vec![],
                kept: None,
            }))
        );
        assert_eq!(
            parsed("verify --scheme 2 --names --n 16 --f 2 --days in --book b"),
            Ok(Request::Run(Command::Verify {
                layout,
                d: None,
                passed: Passed::Before,
                source: Source::Folder("in".into()),
                book: "b".into(),
                names: true,
                figure: None,
                sealed: vec![],
                kept: None,
            }))
        );
    }

    #[test]
    fn days_of_the_last_passed_check() {
        let verify = "verify --scheme 2 --n 16 --f 2 --days in --book b";
        let read = "read --scheme 2 --n 16 --f 2 --d 64 --outcomes o";
        for line in [verify, read] {
            for (word, day) in [("0", 0), ("48", 48), ("4294967295", u32::MAX)] {
                let given = parsed(&format!("{line} --passed {word}"));
                let Ok(Request::Run(Command::Verify { passed, .. } | Command::Read { passed, .. })) =
                    given
                else {
                    panic!("{line}: {given:?}");
                };
                assert_eq!(passed, Passed::Day(day));
            }
            let said = |word: &str| message(&format!("{line} --passed {word}"));
            assert_eq!(said("kept"), "--passed kept needs --state");
            assert_eq!(said(""), "--passed has no value");
            for word in ["-1", "048", "4294967296", "Kept", "last"] {
                let text = format!("--passed {word} is not a number from 0");
                assert!(said(word).starts_with(&text), "{word}");
            }
        }
        assert_eq!(message("check --passed 0"), "check has no option --passed");
        assert_eq!(message("seal --passed 0"), "seal has no option --passed");
    }

    #[test]
    fn searches() {
        let line = "search --scheme 3 --n 4 --f 1 --d 8 --outcomes o";
        let search = |limit, days, names| {
            Ok(Request::Run(Command::Search {
                layout: Layout::tree(4),
                d: 8,
                limit,
                outcomes: "o".into(),
                days,
                names,
                sealed: vec![],
            }))
        };
        assert_eq!(parsed(line), search(None, None, false));
        for (word, limit) in [("0", 0), ("7", 7), ("4294967295", u32::MAX)] {
            let limited = parsed(&format!("{line} --limit {word}"));
            assert_eq!(limited, search(Some(limit), None, false));
        }
        assert_eq!(
            parsed(&format!("{line} --limit=7 --days in --names")),
            search(Some(7), Some("in".into()), true)
        );
        let said = |words: &str| message(&format!("{line} {words}"));
        for word in ["-1", "+1", "07", "4294967296", "1.0", "all"] {
            let text = format!("--limit {word} is not a number from 0");
            assert!(said(&format!("--limit {word}")).starts_with(&text));
        }
        assert_eq!(said("--limit"), "--limit has no value");
        assert_eq!(said("--limit="), "--limit has no value");
        assert_eq!(said("--limit 1 --limit 1"), "--limit is given twice");
        assert_eq!(said("--passed 0"), "search has no option --passed");
        assert_eq!(said("--figure f"), "search has no option --figure");
        assert_eq!(
            said("--names"),
            "--names needs --days or --state: there are no other names"
        );
        assert_eq!(
            message("search --scheme 3 --n 4 --f 1 --outcomes o"),
            "search needs --d"
        );
        assert_eq!(
            message("search --scheme 3 --n 4 --f 1 --d 8"),
            "search needs --outcomes"
        );
        assert_eq!(message("read --limit 1"), "read has no option --limit");
    }

    #[test]
    fn forecasts() {
        let forecast = |d, lengths, line| {
            Ok(Request::Run(Command::Forecast {
                layout: Layout::tree(8),
                d,
                lengths,
                line,
            }))
        };
        assert_eq!(
            parsed("forecast --scheme 3 --n 8 --f 1 --days in"),
            forecast(None, Lengths::Folder("in".into()), false)
        );
        assert_eq!(
            parsed("forecast --line --scheme 3 --n 8 --f 1 --d 16 --lengths -"),
            forecast(Some(16), Lengths::Text("-".into()), true)
        );
        for words in ["", "--days in --lengths l"] {
            let line = format!("forecast --scheme 3 --n 8 --f 1 {words}");
            assert_eq!(message(&line), "forecast needs either --days or --lengths");
        }
        assert_eq!(message("forecast --line=yes"), "--line takes no value");
        assert_eq!(
            message("forecast --state s"),
            "forecast has no option --state"
        );
    }

    #[test]
    fn locations() {
        let locate = |sought, line| {
            Ok(Request::Run(Command::Locate {
                layout: Layout::tree(2),
                d: 16,
                sought,
                line,
            }))
        };
        let layout = "locate --scheme 3 --n 2 --f 1 --d 16";
        let found = |words: &str| parsed(&format!("{layout} {words}"));
        let position = |position| Sought::Position(position);
        assert_eq!(found("--position 23"), locate(position(23), false));
        let most = locate(position(u32::MAX), true);
        assert_eq!(found("--line --position 4294967295"), most);
        let chain = |kind, index, first, last| {
            Sought::Chain(Chain {
                kind,
                index,
                first,
                last,
            })
        };
        let tree = locate(chain(Kind::Tree, 2, 9, 12), false);
        assert_eq!(found("--kind tree --index 2 --first 9 --last 12"), tree);
        assert_eq!(found("--last=12 --index=2 --first=9 --kind=3"), tree);
        let tile = locate(chain(Kind::Tile, 0, 1, 2), true);
        assert_eq!(
            found("--kind tile --index 0 --first 1 --last 2 --line"),
            tile
        );
        let black = locate(chain(Kind::Black, 0, 1, 12), false);
        assert_eq!(found("--kind black --first 1 --last 12"), black);
        assert_eq!(found("--kind 1 --index 0 --first 1 --last 12"), black);
        let other = locate(chain(Kind::Black, 7, 1, 12), false);
        assert_eq!(found("--kind black --index 7 --first 1 --last 12"), other);
    }

    #[test]
    fn locations_that_are_none() {
        let layout = "locate --scheme 3 --n 2 --f 1 --d 16";
        let said = |words: &str| message(&format!("{layout} {words}"));
        for words in [
            "",
            "--kind tree",
            "--kind tree --first 9 --last 12",
            "--kind tree --index 2 --first 9",
            "--kind tree --index 2 --last 12",
            "--index 2 --first 9 --last 12",
            "--kind black --index 0 --first 1",
            "--position 23 --index 2",
            "--position 23 --last 12",
            "--position 23 --kind black",
            "--position 23 --kind tree --index 2 --first 9 --last 12",
        ] {
            assert_eq!(
                said(words),
                "locate needs either --position, or --kind, --index, --first and --last"
            );
        }
        for kind in ["Black", "4", "0", "01", "trees", "4294967295"] {
            assert_eq!(
                said(&format!("--kind {kind}")),
                format!("--kind {kind} is not black, tile or tree, nor 1, 2 or 3")
            );
        }
        for option in ["--position", "--index", "--first", "--last"] {
            for number in ["4294967296", "-1", "x", "07"] {
                let text = said(&format!("{option}={number}"));
                assert!(text.starts_with(&format!("{option} {number} is not a number")));
            }
        }
        assert_eq!(
            message("locate --scheme 3 --n 2 --f 1 --position 1"),
            "locate needs --d"
        );
        assert_eq!(message("locate --days in"), "locate has no option --days");
    }

    #[test]
    fn ambiguities() {
        let ambiguity = |line, figure: Option<&str>| {
            let figure = figure.map(PathBuf::from);
            Ok(Request::Run(Command::Ambiguity { line, figure }))
        };
        assert_eq!(parsed("ambiguity"), ambiguity(false, None));
        assert_eq!(parsed("ambiguity --line"), ambiguity(true, None));
        let both = ambiguity(true, Some("f"));
        assert_eq!(parsed("ambiguity --line --figure f"), both);
        assert_eq!(parsed("ambiguity --figure=f --line"), both);
        for (words, said) in [
            ("4", "ambiguity has no option 4"),
            ("--n 4", "ambiguity has no option --n"),
            ("--lines", "ambiguity has no option --lines"),
            ("--line=yes", "--line takes no value"),
            ("--line --line", "--line is given twice"),
            ("--figure", "--figure has no value"),
            ("--figure --line", "--figure has no value"),
            ("--figure f --figure f", "--figure is given twice"),
        ] {
            assert_eq!(message(&format!("ambiguity {words}")), said);
        }
    }

    #[test]
    fn services() {
        let service = |folder: &str, service| {
            Ok(Request::Run(Command::Service {
                folder: folder.into(),
                service,
            }))
        };
        let layout = Layout::tile(16, 2);
        let open = service("s", Service::Open { layout });
        assert_eq!(parsed("open s --scheme 2 --n 16 --f 2"), open);
        assert_eq!(parsed("open --scheme 2 --n 16 s --f 2"), open);
        let files = |names: &[&str]| names.iter().map(OsString::from).collect();
        let day = |season, day| Day { season, day };
        assert_eq!(
            parsed("add s --day 7 --at 0 a b"),
            service(
                "s",
                Service::Add {
                    day: day(None, 7),
                    at: 0,
                    files: files(&["a", "b"])
                }
            )
        );
        assert_eq!(
            parsed("add s --day 7 --at 0 --season 65535 a"),
            service(
                "s",
                Service::Add {
                    day: day(Some(65_535), 7),
                    at: 0,
                    files: files(&["a"])
                }
            )
        );
        assert_eq!(
            parsed("close s - --day 7"),
            service(
                "s",
                Service::Close {
                    day: day(None, 7),
                    files: files(&["-"])
                }
            )
        );
        assert_eq!(
            parsed("close s --season=0 --day 7"),
            service(
                "s",
                Service::Close {
                    day: day(Some(0), 7),
                    files: vec![]
                }
            )
        );
        let status = |season| service("s", Service::Status { season });
        assert_eq!(parsed("status s"), status(None));
        assert_eq!(parsed("status s --season 2"), status(Some(2)));
        assert_eq!(message("status"), "status needs DIR");
        assert_eq!(message("status s t"), "status takes no t");
        assert_eq!(
            message("open s t --scheme 2 --n 16 --f 2"),
            "open takes no t"
        );
        assert_eq!(message("add s --day 7 a"), "add needs --at");
        assert_eq!(message("add s --at 7 a"), "add needs --day");
        assert_eq!(
            message("add s --at 7 --day 1"),
            "add needs FILE, or - for standard input"
        );
        assert_eq!(
            message("add s --at 7 --day 1 a -"),
            "- for standard input stands alone"
        );
        assert_eq!(message("close s"), "close needs --day");
        assert_eq!(message("close s --season 1"), "close needs --day");
        assert_eq!(message("open s --season 1"), "open has no option --season");
        for line in ["close s --day 1", "status s", "add s --day 1 --at 0 a"] {
            assert_eq!(
                message(&format!("{line} --season -1")),
                "--season -1 is not a number from 0 to 4294967295 in plain digits"
            );
        }
    }

    #[test]
    fn a_season_is_one_of_a_state() {
        let book = "--scheme 3 --n 4 --f 1 --d 8";
        for line in [
            format!("check {book} --days in --book b --outcomes o"),
            format!("read {book} --outcomes o"),
            format!("search {book} --outcomes o"),
            format!("verify {book} --days in --book b"),
            format!("locate {book} --position 1"),
        ] {
            assert!(matches!(parsed(&line), Ok(Request::Run(_))), "{line}");
            let said = message(&format!("{line} --season 0"));
            assert_eq!(said, "--season needs --state");
        }
        for command in ["seal", "forecast", "ambiguity"] {
            let said = message(&format!("{command} --season 0"));
            assert_eq!(said, format!("{command} has no option --season"));
        }
    }

    #[test]
    fn helps() {
        assert_eq!(parsed("open --help"), Ok(Request::Help(help::OPEN)));
        assert_eq!(parsed("add s -h"), Ok(Request::Help(help::ADD)));
        assert_eq!(parsed("close --help"), Ok(Request::Help(help::CLOSE)));
        assert_eq!(parsed("status --help"), Ok(Request::Help(help::STATUS)));
        assert_eq!(parsed("--help"), Ok(Request::Help(help::ALL)));
        assert_eq!(parsed("-h"), Ok(Request::Help(help::ALL)));
        assert_eq!(parsed("seal --help"), Ok(Request::Help(help::SEAL)));
        assert_eq!(parsed("check -h"), Ok(Request::Help(help::CHECK)));
        assert_eq!(parsed("read --d 1 --help"), Ok(Request::Help(help::READ)));
        assert_eq!(parsed("search -h"), Ok(Request::Help(help::SEARCH)));
        assert_eq!(parsed("verify --help"), Ok(Request::Help(help::VERIFY)));
        assert_eq!(parsed("forecast -h"), Ok(Request::Help(help::FORECAST)));
        assert_eq!(parsed("locate -h"), Ok(Request::Help(help::LOCATE)));
        assert_eq!(parsed("ambiguity -h"), Ok(Request::Help(help::AMBIGUITY)));
        assert_eq!(parsed("help"), Ok(Request::Help(help::ALL)));
        assert_eq!(parsed("help read"), Ok(Request::Help(help::READ)));
        assert_eq!(parsed("--version"), Ok(Request::Help(help::VERSION)));
        assert_eq!(parsed("-V"), Ok(Request::Help(help::VERSION)));
        assert_eq!(message("help reed"), "there is no command reed");
        assert_eq!(message("help read all"), "help takes one command");
    }

    #[test]
    fn values_behind_an_equals_sign() {
        assert_eq!(
            parsed("verify --scheme=2 --n 16 --f=2 --days=--in=x --book b --figure=a=b"),
            Ok(Request::Run(Command::Verify {
                layout: Layout::tile(16, 2),
                d: None,
                passed: Passed::Before,
                source: Source::Folder("--in=x".into()),
                book: "b".into(),
                names: false,
                figure: Some("a=b".into()),
                sealed: vec![],
                kept: None,
            }))
        );
        assert_eq!(message("seal --n="), "--n has no value");
        assert_eq!(message("seal --x=4"), "seal has no option --x");
        assert_eq!(message("seal =4"), "seal has no option =4");
        assert_eq!(message("seal --n=4 --n 4"), "--n is given twice");
        assert_eq!(message("verify --names=yes"), "--names takes no value");
    }

    #[test]
    fn wrong_words() {
        assert_eq!(message(""), "no command is given");
        assert_eq!(message("seel"), "there is no command seel");
        assert_eq!(message("seal folder"), "seal has no option folder");
        assert_eq!(
            message("seal --outcomes o"),
            "seal has no option --outcomes"
        );
        assert_eq!(message("seal --n 4 --n 4"), "--n is given twice");
        assert_eq!(message("seal --n"), "--n has no value");
        assert_eq!(message("seal --n --f 1"), "--n has no value");
        assert_eq!(message("read --scheme 1 --n 1"), "read needs --f");
        assert_eq!(
            message("read --scheme 1 --n 1 --f 1 --outcomes o"),
            "read needs --d"
        );
        assert_eq!(
            message("verify --scheme 1 --n 1 --f 1 --days in"),
            "verify needs --book"
        );
        for line in [
            "verify --scheme 1 --n 1 --f 1 --names --ledger l --ends e --book b",
            "read --scheme 1 --n 1 --f 1 --d 1 --names --outcomes o",
        ] {
            assert_eq!(
                message(line),
                "--names needs --days or --state: there are no other names"
            );
        }
    }

    #[test]
    fn sources() {
        let either = "seal needs either --days, or --ledger and --ends";
        for words in [
            "",
            "--ledger l",
            "--ends e",
            "--days in --ends e",
            "--days in --ledger l --ends e",
        ] {
            let line = format!("seal --scheme 1 --n 1 --f 1 --book b {words}");
            assert_eq!(message(&line), either);
        }
    }

    #[test]
    fn numbers() {
        assert_eq!(number("0"), Some(0));
        assert_eq!(number("65536"), Some(65_536));
        assert_eq!(number("4294967295"), Some(u32::MAX));
        for text in [
            "",
            "4294967296",
            "-1",
            "+1",
            "01",
            "00",
            "1.0",
            "1e3",
            "0x10",
            "1,000",
            "x",
        ] {
            assert_eq!(number(text), None, "{text}");
        }
    }
}
