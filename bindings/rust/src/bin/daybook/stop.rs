//! Why a command ended early.

use std::fmt;

use daybook::Refusal;

#[derive(Debug, PartialEq, Eq)]
pub enum Stop {
    /// A call was refused; with the numbers that it was given.
    Refused(Refusal, String),
    /// The same, with lines that say which day, file or value it is about.
    Explained(Refusal, String, Vec<String>),
    /// A file could not be read or written, or does not have its form.
    Fault(String),
    /// The words of the command line are not a command.
    Usage(String),
}

impl fmt::Display for Stop {
    fn fmt(&self, out: &mut fmt::Formatter<'_>) -> fmt::Result {
        match self {
            Stop::Refused(refusal, context) | Stop::Explained(refusal, context, _) => {
                let number = refusal.number();
                write!(out, "refusal {number} ({context}): {refusal}")
            }
            Stop::Fault(message) | Stop::Usage(message) => out.write_str(message),
        }
    }
}
