//! A plain account of a state folder: what each command is to answer and to change.

use std::fs;
use std::path::Path;

use crate::explore::Bench;

/// A closed day, and whether its bytes were added before it was closed.
#[derive(Clone, Default, PartialEq, Eq)]
struct Closed {
    bytes: Vec<u8>,
    added: bool,
}

#[derive(Clone, Default, PartialEq, Eq)]
pub struct Plain {
    closed: Vec<Closed>,
    open: Vec<u8>,
}

/// A command that is asked for.
pub enum Asked {
    Add(usize, usize, Vec<u8>),
    Close(usize, Option<Vec<u8>>),
}

impl Asked {
    /// A command near to where the service stands, of few and short pieces, so that repeats come up.
    pub fn random(plain: &Plain, below: &mut dyn FnMut(u64) -> u64) -> Asked {
        let day = (plain.closed.len() + 3).saturating_sub(1 + below(4) as usize);
        let piece = [&b""[..], b"a", b"ab", b"b"][below(4) as usize].to_vec();
        match below(8) {
            0 => Asked::Close(day, None),
            1 => Asked::Close(day, Some(piece)),
            2 => Asked::Close(plain.closed.len() + 1, None),
            3 => Asked::Add(day, below(4) as usize, piece),
            _ => {
                let at = (plain.open.len() + 1).saturating_sub(below(3) as usize);
                Asked::Add(plain.closed.len() + 1, at, piece)
            }
        }
    }

    /// Its words; the bytes are put into a file.
    pub fn line(&self, root: &Path) -> String {
        let put = |bytes: &Vec<u8>| fs::write(root.join("piece"), bytes).unwrap();
        match self {
            Asked::Add(day, at, bytes) => {
                put(bytes);
                format!("add s --day {day} --at {at} piece")
            }
            Asked::Close(day, None) => format!("close s --day {day}"),
            Asked::Close(day, Some(bytes)) => {
                put(bytes);
                format!("close s --day {day} piece")
            }
        }
    }
}

const DONE: i32 = 0;
const FAULT: i32 = 3;

impl Plain {
    /// The status of a command, and what stands after it.
    pub fn asked(&self, asked: &Asked) -> (i32, Plain) {
        let mut after = self.clone();
        let next = self.closed.len() + 1;
        let day = match asked {
            Asked::Add(day, ..) | Asked::Close(day, _) => *day,
        };
        if day == 0 || day > next {
            return (FAULT, after);
        }
        let repeat = |same: bool| if same { DONE } else { FAULT };
        let status = match (self.closed.get(day - 1), asked) {
            (Some(closed), Asked::Add(_, at, bytes)) => {
                let whole = *at == 0 && *bytes == closed.bytes;
                let kept = closed.added && day + 1 == next && !closed.bytes.is_empty();
                repeat(whole || (kept && stands(&closed.bytes, *at, bytes)))
            }
            (Some(closed), Asked::Close(_, Some(bytes))) => repeat(*bytes == closed.bytes),
            (Some(_), Asked::Close(_, None)) => DONE,
            (None, Asked::Add(_, at, bytes)) if *at == self.open.len() => {
                after.open.extend(bytes);
                DONE
            }
            (None, Asked::Add(_, at, bytes)) => {
                repeat(*at < self.open.len() && stands(&self.open, *at, bytes))
            }
            (None, Asked::Close(_, Some(_))) if !self.open.is_empty() => FAULT,
            (None, Asked::Close(_, bytes)) => {
                let added = bytes.is_none();
                let bytes = bytes.clone().unwrap_or(std::mem::take(&mut after.open));
                after.closed.push(Closed { bytes, added });
                DONE
            }
        };
        (status, after)
    }

    pub fn days(&self) -> Vec<Vec<u8>> {
        self.closed.iter().map(|day| day.bytes.clone()).collect()
    }

    /// Days closed and bytes of the open day.
    pub fn numbers(&self) -> (usize, usize) {
        (self.closed.len(), self.open.len())
    }
}

fn stands(day: &[u8], at: usize, bytes: &[u8]) -> bool {
    day.get(at..).is_some_and(|rest| rest.starts_with(bytes))
}

/// Days closed and bytes of the open day, as the program says.
pub fn status(bench: &Bench) -> (usize, usize) {
    let ran = bench.run("status s");
    assert_eq!(ran.status, Some(0), "{}", ran.messages);
    let number = |name: &str| {
        let line = ran.printed.lines().find_map(|line| line.strip_prefix(name));
        line.unwrap().trim().parse().unwrap()
    };
    (number("days "), number("open "))
}
