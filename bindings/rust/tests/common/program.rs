//! The program as its tests run it: a line of words in a folder, and what it says.

#![allow(dead_code)] // each test program uses some of it

use std::fs::File;
use std::io;
use std::process::{Command, Output, Stdio};

use crate::common::Folder;

const PROGRAM: &str = env!("CARGO_BIN_EXE_daybook");

/// Exit status, standard output, standard error.
pub type Ran = (i32, String, String);

pub fn command(folder: &Folder, line: &str) -> Command {
    let mut command = Command::new(PROGRAM);
    command.current_dir(folder.path());
    command.args(line.split_whitespace()).stdin(Stdio::null());
    command
}

pub fn ended(output: Output) -> Ran {
    let text = |bytes| String::from_utf8(bytes).unwrap();
    let status = output.status.code().unwrap();
    (status, text(output.stdout), text(output.stderr))
}

pub fn run(folder: &Folder, line: &str) -> Ran {
    ended(command(folder, line).output().unwrap())
}

/// The line ends with this status and these lines, and with these messages.
pub fn said(folder: &Folder, line: &str, (status, out): (i32, &str), messages: &[&str]) {
    let ran = run(folder, line);
    assert_eq!((ran.0, ran.1.as_str()), (status, out), "{line}: {}", ran.2);
    let lines: Vec<&str> = ran.2.lines().collect();
    assert_eq!(lines, messages, "{line}");
}

pub fn done(folder: &Folder, line: &str, out: &str) {
    said(folder, line, (0, out), &[]);
}

/// The line is a fault, whose message has this text.
pub fn fault(folder: &Folder, line: &str, text: &str) {
    let (status, out, messages) = run(folder, line);
    assert_eq!((status, out.as_str()), (3, ""), "{line}: {messages}");
    assert!(messages.starts_with("daybook: "), "{line}: {messages}");
    assert!(messages.contains(text), "{line}: {messages}");
}

/// The line keeps this status with its standard output closed, and says so; onto a full disk it is a fault.
pub fn closed_or_full(folder: &Folder, line: &str, status: i32) {
    let (reader, writer) = io::pipe().unwrap();
    drop(reader);
    let (found, _, messages) = ended(command(folder, line).stdout(writer).output().unwrap());
    assert_eq!(found, status, "{line}: {messages}");
    assert!(messages.contains("standard output was closed early"));
    let full = File::options().write(true).open("/dev/full").unwrap();
    let output = command(folder, line).stdout(full).output().unwrap();
    assert_eq!(output.status.code(), Some(3), "{line}");
}
