//! The program `daybook`: seal, check and read day books kept in files.

#![deny(unsafe_code)]

mod ambiguity;
mod arguments;
mod chains;
mod chart;
mod commands;
mod days;
mod evidence;
mod explain;
mod figure;
mod files;
mod fit;
mod forecast;
mod help;
mod leavings;
mod lengths;
mod locate;
mod names;
mod older;
mod progress;
mod search;
#[allow(unsafe_code)]
mod signals;
mod state;
mod stop;
mod summary;
mod svg;

use std::env;
use std::io::{self, Write};
use std::process::ExitCode;

use arguments::Request;
use commands::{Answer, Done};
use daybook::Refusal;
use stop::Stop;

const CLEAN: u8 = 0;
const CHANGED: u8 = 1;
const REFUSED: u8 = 2;
const FAULT: u8 = 3;
const UNDECIDED: u8 = 4;

fn main() -> ExitCode {
    let status = match arguments::parse(env::args_os().skip(1)) {
        Ok(Request::Help(text)) => print(text, CLEAN),
        Ok(Request::Run(command)) => end(commands::run(&command)),
        Err(stop) => end(Err(stop)),
    };
    ExitCode::from(status)
}

/// Prints what came of a command and gives the exit status.
fn end(result: Result<Done, Stop>) -> u8 {
    let stop = match result {
        Ok(done) => {
            let status = match done.answer {
                Answer::Clean => CLEAN,
                Answer::Changed => CHANGED,
                Answer::Undecided => UNDECIDED,
            };
            return print(&done.lines, status);
        }
        Err(stop) => stop,
    };
    say(&stop.to_string());
    match stop {
        Stop::Refused(refusal, _) => refused(refusal, &[]),
        Stop::Explained(refusal, _, lines) => refused(refusal, &lines),
        Stop::Fault(_) => FAULT,
        Stop::Usage(_) => {
            let _ = writeln!(io::stderr(), "Try: daybook --help");
            FAULT
        }
    }
}

/// Prints the number of a refusal, whose message was said, and the lines that explain it.
fn refused(refusal: Refusal, lines: &[String]) -> u8 {
    for line in lines {
        say(line);
    }
    print(&format!("NO,{}\n", refusal.number()), REFUSED)
}

/// Prints on standard output; gives `status`, or the one of a fault. A reader that has enough is no
/// fault.
fn print(text: &str, status: u8) -> u8 {
    let mut out = io::stdout().lock();
    match out.write_all(text.as_bytes()).and_then(|()| out.flush()) {
        Ok(()) => status,
        Err(error) if error.kind() == io::ErrorKind::BrokenPipe => {
            say("standard output was closed early: lines are lost, the exit status holds");
            status
        }
        Err(error) => {
            say(&format!("standard output cannot be written: {error}"));
            FAULT
        }
    }
}

/// Prints a message on standard error. There is no place to report that this fails.
fn say(message: &str) {
    let _ = writeln!(io::stderr(), "daybook: {message}");
}
