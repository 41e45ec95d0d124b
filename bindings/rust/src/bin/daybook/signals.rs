//! SIGINT and SIGTERM while a search goes on: they wait, and the search asks for them between its steps.
//! All unsafe code of the program is here.

use std::ffi::c_void;
use std::fs;
use std::ptr;

/// Signals as Linux on x86-64 has them: number n is bit n - 1.
#[repr(C)]
#[derive(Clone, Copy)]
struct Set([u64; 16]);

impl Set {
    const fn of(first: u64) -> Set {
        let mut bits = [0; 16];
        bits[0] = first;
        Set(bits)
    }
}

const SIGINT: u32 = 2;
const SIGTERM: u32 = 15;
const STOPS: u64 = 1 << (SIGINT - 1) | 1 << (SIGTERM - 1);

const SIG_BLOCK: i32 = 0;
const SIG_SETMASK: i32 = 2;

/// A span of time: seconds and nanoseconds.
#[repr(C)]
struct Span(i64, i64);

mod c {
    use super::{c_void, Set, Span};

    extern "C" {
        pub fn pthread_sigmask(how: i32, set: *const Set, before: *mut Set) -> i32;
        pub fn sigtimedwait(set: *const Set, info: *mut c_void, span: *const Span) -> i32;
    }
}

/// While this lives, the two signals wait; one that the program was started to ignore is still ignored. Then
/// they are again what they were before, and one that came meanwhile ends nothing: what it was to stop is over.
pub struct Held {
    stops: Set,
    before: Set,
}

impl Held {
    pub fn new() -> Held {
        let stops = Set::of(STOPS & !ignored());
        let mut before = Set::of(0);
        // SAFETY: both sets have the size of the system's, and the call keeps neither. Only another `how`
        // would make it fail.
        unsafe { c::pthread_sigmask(SIG_BLOCK, &stops, &mut before) };
        Held { stops, before }
    }

    /// Whether one of the two has come. It is taken, and ends nothing any more.
    pub fn arrived(&self) -> bool {
        // SAFETY: set and span are valid and only read; nothing is to be told of the signal, so that is null.
        unsafe { c::sigtimedwait(&self.stops, ptr::null_mut(), &Span(0, 0)) > 0 }
    }
}

impl Drop for Held {
    fn drop(&mut self) {
        while self.arrived() {}
        // SAFETY: the set is one that the system gave; the one before is not asked for.
        unsafe { c::pthread_sigmask(SIG_SETMASK, &self.before, ptr::null_mut()) };
    }
}

/// The signals that this process ignores.
fn ignored() -> u64 {
    told("SigIgn:")
}

/// A set of signals as the system tells it of this thread.
fn told(name: &str) -> u64 {
    let status = fs::read_to_string("/proc/thread-self/status").unwrap_or_default();
    let mask = status.lines().find_map(|line| line.strip_prefix(name));
    mask.and_then(|mask| u64::from_str_radix(mask.trim(), 16).ok())
        .unwrap_or(0)
}

#[cfg(test)]
pub mod tests {
    use super::*;

    extern "C" {
        fn raise(signal: i32) -> i32;
    }

    /// Sends this thread each of the two that is not ignored; they must wait. Gives their set.
    pub fn send_to_this_thread() -> u64 {
        let sent = STOPS & !ignored();
        for signal in [SIGINT, SIGTERM] {
            if sent & 1 << (signal - 1) != 0 {
                // SAFETY: the call takes a number and keeps nothing.
                assert_eq!(unsafe { raise(signal as i32) }, 0);
            }
        }
        sent
    }

    #[test]
    fn the_two_wait_while_it_lives() {
        let blocked = || told("SigBlk:");
        let before = blocked();
        let held = Held::new();
        // a shell ignores SIGINT for what it starts in the background
        assert_eq!(blocked(), before | (STOPS & !ignored()));
        assert!(!held.arrived());
        drop(held);
        assert_eq!(blocked(), before);
    }

    /// Both come, and the first is asked for; neither ends the program afterwards.
    #[test]
    fn what_came_ends_nothing() {
        let held = Held::new();
        let sent = send_to_this_thread();
        assert_eq!(told("SigPnd:"), sent);
        assert_eq!(held.arrived(), sent != 0);
        drop(held);
        assert_eq!(told("SigPnd:"), 0);
    }
}
