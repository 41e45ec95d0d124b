//! The days done so far, on standard error where that is a terminal.

use std::io::{self, IsTerminal, Write};
use std::time::{Duration, Instant};

const PAUSE: Duration = Duration::from_millis(200);

pub struct Progress {
    what: &'static str,
    total: usize,
    shown: bool,
    /// When the next line is due; none where standard error is no terminal.
    due: Option<Instant>,
}

impl Progress {
    pub fn new(what: &'static str, total: usize) -> Progress {
        let due = io::stderr().is_terminal().then(|| Instant::now() + PAUSE);
        Progress {
            what,
            total,
            shown: false,
            due,
        }
    }

    /// So many days are done.
    pub fn done(&mut self, days: usize) {
        if self.due.is_some_and(|due| Instant::now() >= due) {
            self.show(&format!("{}: {days} of {} days", self.what, self.total));
        }
    }

    /// All days in one step, shown until this is dropped.
    pub fn whole(what: &'static str, days: u32) -> Progress {
        let mut progress = Progress::new(what, days as usize);
        if progress.due.is_some() {
            progress.show(&format!("{what} {days} days"));
        }
        progress
    }

    fn show(&mut self, text: &str) {
        let _ = write!(io::stderr(), "\r\x1b[K{text}");
        self.shown = true;
        self.due = Some(Instant::now() + PAUSE);
    }
}

impl Drop for Progress {
    fn drop(&mut self) {
        if self.shown {
            let _ = write!(io::stderr(), "\r\x1b[K");
        }
    }
}
