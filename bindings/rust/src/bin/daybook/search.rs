//! The search of a table: up to a limit, or in steps that a signal stops.

use std::io::{self, IsTerminal, Write};
use std::path::Path;

use daybook::{search_to_vec, Layout, Refusal};

use crate::chains::{run_text, scheme_name};
use crate::commands::{day_lines, numbers, outcomes_of, unread_table, Answer, Done, View};
use crate::explain::day_name;
use crate::progress::Progress;
use crate::say;
use crate::signals::Held;
use crate::stop::Stop;
use crate::summary::strip_of_search;

/// The first limit of a search in steps. Below it the tests of a call outweigh its looks by far.
const FIRST: u32 = 1024;

pub fn search(
    layout: Layout,
    d: u32,
    limit: Option<u32>,
    outcomes: &Path,
    view: &View,
) -> Result<Done, Stop> {
    let outcomes = outcomes_of(layout, d, outcomes)?;
    let table = Table {
        layout,
        d,
        outcomes,
    };
    let state = match limit {
        Some(limit) => table.state(limit)?,
        None => table.in_steps()?,
    };
    if io::stderr().is_terminal() {
        let (words, strip) = (state.words(d, view.names()), state.strip(d));
        let _ = write!(io::stderr(), "{words}{strip}");
    }
    let named = view.names().filter(|_| view.named);
    Ok(Done {
        lines: state.line() + &day_lines(&state.days, named),
        answer: state.answer(),
    })
}

struct Table {
    layout: Layout,
    d: u32,
    outcomes: Vec<u8>,
}

impl Table {
    fn state(&self, limit: u32) -> Result<State, Stop> {
        let (progress, days) = search_to_vec(self.layout, self.d, &self.outcomes, limit)
            .map_err(|refusal| self.refused(refusal))?;
        Ok(State { progress, days })
    }

    /// The search to its end, or until SIGINT or SIGTERM comes.
    fn in_steps(&self) -> Result<State, Stop> {
        let held = Held::new();
        let mut shown = Progress::new("searching", self.d as usize);
        let mut stopped = false;
        let state = in_steps(
            |limit| self.state(limit),
            |state| {
                shown.done((self.d - state.progress.undecided) as usize);
                stopped = held.arrived();
                !stopped
            },
        )?;
        drop(shown);
        if stopped {
            say("stopped by a signal: this is the state so far");
        }
        Ok(state)
    }

    fn refused(&self, refusal: Refusal) -> Stop {
        let (layout, d) = (self.layout, self.d);
        if refusal != Refusal::NotTree {
            return unread_table(layout, d, &self.outcomes, refusal);
        }
        let name = scheme_name(layout.scheme);
        let line = format!("a table of scheme {} ({name}) is for read", layout.scheme);
        Stop::Explained(refusal, numbers(layout, d), vec![line])
    }
}

/// The state of a search whose limit doubles from call to call, until no day is undecided or `goes_on`
/// says no. A call starts anew: all of them together look at less than three times as many chains as the
/// last.
fn in_steps(
    mut call: impl FnMut(u32) -> Result<State, Stop>,
    mut goes_on: impl FnMut(&State) -> bool,
) -> Result<State, Stop> {
    let mut limit = FIRST;
    loop {
        let state = call(limit)?;
        match limit.checked_mul(2) {
            Some(next) if !state.progress.is_finished() && goes_on(&state) => limit = next,
            _ => return Ok(state),
        }
    }
}

/// How far a search is, and the days that it found.
#[derive(Debug, PartialEq, Eq)]
struct State {
    progress: daybook::Progress,
    days: Vec<u32>,
}

impl State {
    /// A day that is found tells of a change, however many days are undecided.
    fn answer(&self) -> Answer {
        match (self.days.is_empty(), self.progress.is_finished()) {
            (false, _) => Answer::Changed,
            (true, true) => Answer::Clean,
            (true, false) => Answer::Undecided,
        }
    }

    fn line(&self) -> String {
        let daybook::Progress {
            looked,
            found,
            undecided,
        } = self.progress;
        format!("SEARCH,{looked},{found},{undecided}\n")
    }

    fn words(&self, d: u32, names: Option<&[String]>) -> String {
        let looked = match self.progress.looked {
            1 => "1 chain".to_string(),
            looked => format!("{looked} chains"),
        };
        let left = match self.progress.undecided {
            0 => "No day is undecided.".to_string(),
            undecided => format!("Undecided: {}.", run_text(&[(d - undecided + 1, d)])),
        };
        let found = match self.days[..] {
            [] if self.progress.is_finished() => {
                format!("Clean: the days 1 to {d} are as they were sealed.")
            }
            [] => "No altered day is found so far.".to_string(),
            [day] => format!("1 day of {d} is found altered: {}.", day_name(day, names)),
            [first, ..] => {
                let (found, first) = (self.days.len(), day_name(first, names));
                format!("{found} days of {d} are found altered, the first is {first}.")
            }
        };
        format!("{found}\n{left} Looked at: {looked}.\n")
    }

    fn strip(&self, d: u32) -> String {
        strip_of_search(d, &self.days, self.progress.undecided)
    }
}

#[cfg(test)]
mod tests {
    use super::*;
    use crate::signals::tests::send_to_this_thread;

    fn state(looked: u32, days: &[u32], undecided: u32) -> State {
        State {
            progress: daybook::Progress {
                looked,
                found: days.len() as u32,
                undecided,
            },
            days: days.to_vec(),
        }
    }

    /// A table of so many days, all of them altered.
    fn all_altered(d: u32) -> Table {
        let layout = Layout::tree(1);
        let values = daybook::values(layout, d).unwrap();
        Table {
            layout,
            d,
            outcomes: vec![0; values as usize],
        }
    }

    #[test]
    fn answers() {
        assert_eq!(state(5, &[], 0).answer(), Answer::Clean);
        assert_eq!(state(5, &[3], 0).answer(), Answer::Changed);
        assert_eq!(state(4, &[3], 1).answer(), Answer::Changed);
        assert_eq!(state(3, &[], 2).answer(), Answer::Undecided);
        assert_eq!(state(0, &[], 4).answer(), Answer::Undecided);
    }

    #[test]
    fn states_in_words() {
        let names: Vec<String> = (1..=4).map(|day| format!("d-{day}")).collect();
        for (state, words) in [
            (
                state(1, &[], 0),
                "Clean: the days 1 to 4 are as they were sealed.\n\
                 No day is undecided. Looked at: 1 chain.\n",
            ),
            (
                state(0, &[], 4),
                "No altered day is found so far.\nUndecided: days 1 to 4. Looked at: 0 chains.\n",
            ),
            (
                state(4, &[3], 1),
                "1 day of 4 is found altered: day 3 (d-3).\nUndecided: day 4. Looked at: 4 chains.\n",
            ),
            (
                state(6, &[3, 4], 0),
                "2 days of 4 are found altered, the first is day 3 (d-3).\n\
                 No day is undecided. Looked at: 6 chains.\n",
            ),
        ] {
            assert_eq!(state.words(4, Some(&names)), words);
        }
    }

    #[test]
    fn lines_for_programs() {
        assert_eq!(state(4, &[3], 1).line(), "SEARCH,4,1,1\n");
    }

    /// The limit doubles, and the last state is that of a search without an end.
    #[test]
    fn steps_to_the_end() {
        for (d, limits) in [(511, vec![FIRST]), (4096, vec![1024, 2048, 4096, 8192])] {
            let table = all_altered(d);
            let mut called = Vec::new();
            let call = |limit| {
                called.push(limit);
                table.state(limit)
            };
            let state = in_steps(call, |_| true).unwrap();
            assert_eq!(state, table.state(u32::MAX).unwrap());
            assert_eq!(state.days, (1..=d).collect::<Vec<u32>>());
            assert_eq!(called, limits, "{d}");
            let looked: u32 = called.iter().sum();
            assert!(looked < 3 * state.progress.looked.max(FIRST));
        }
    }

    /// A stop is asked for after each step, and the state is that of the last one.
    #[test]
    fn steps_that_are_stopped() {
        let table = all_altered(4096);
        for (steps, limit) in [(1, 1024), (2, 2048), (3, 4096)] {
            let mut asked = 0;
            let goes_on = |_: &State| {
                asked += 1;
                asked < steps
            };
            let state = in_steps(|limit| table.state(limit), goes_on).unwrap();
            assert_eq!(state, table.state(limit).unwrap());
            assert_eq!((asked, state.progress.looked), (steps, limit));
            assert!(!state.progress.is_finished());
        }
        // a search that is finished is not asked any more
        let few = all_altered(16);
        let state = in_steps(|limit| few.state(limit), |_| panic!("asked")).unwrap();
        assert_eq!(state, few.state(31).unwrap());
    }

    /// Signals that come in the last step have nothing to stop: the state is that of the end, and they are
    /// gone. Before it the first of them stops the search, and the other does not end the program.
    #[test]
    fn signals_in_a_step() {
        let waiting = Held::new();
        for (d, stopped) in [(16, 31), (4096, FIRST)] {
            let sent = send_to_this_thread();
            let table = all_altered(d);
            let limit = if sent == 0 { u32::MAX } else { stopped };
            assert_eq!(table.in_steps(), table.state(limit));
            assert!(!waiting.arrived());
        }
    }

    /// The steps end where the limit cannot grow, whatever the calls say.
    #[test]
    fn steps_that_are_never_finished() {
        let mut last = 0;
        let call = |limit| {
            last = limit;
            Ok(state(7, &[], 9))
        };
        assert_eq!(in_steps(call, |_| true), Ok(state(7, &[], 9)));
        assert_eq!(last, 1 << 31);
    }

    #[test]
    fn a_refusal_ends_the_steps() {
        let mut table = all_altered(16);
        table.outcomes[0] = 2;
        let mut calls = 0;
        let call = |limit| {
            calls += 1;
            table.state(limit)
        };
        assert!(in_steps(call, |_| true).is_err());
        assert_eq!(calls, 1);
    }
}
