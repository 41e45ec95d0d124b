//! `--passed`, and the days that verified clean, which a state folder keeps.

mod common;
#[path = "common/program.rs"]
mod program;

use std::cell::Cell;
use std::fs::{self, File};
use std::io::Write;
use std::os::unix::fs::{MetadataExt, PermissionsExt};
use std::process::{Command, Stdio};

use common::{altered, book, day, digest, hex, ledger, table, Folder};
use daybook::Layout;
use program::{command, done, ended, fault, run, said, Ran};

/// Every day has bytes of its own.
fn days(d: u32) -> Vec<Vec<u8>> {
    (1..=d).map(|g| day(g, 9)).collect()
}

/// The figure's days as a ledger with its ends, sealed; 19, 20 and 27 are altered then. Beside them the
/// outcomes.
fn figure(name: &str) -> Folder {
    let folder = Folder::new(&format!("kept-{name}"));
    let layout = Layout::tile(16, 2);
    fs::write(folder.file("book"), book(layout, &days(64))).unwrap();
    let bytes = write_ends(&folder, &altered(&days(64), &[19, 20, 27]));
    fs::write(folder.file("ledger"), bytes).unwrap();
    fs::write(folder.file("table"), table(layout, 64, &[19, 20, 27])).unwrap();
    folder
}

/// Writes the ends of the days and gives their ledger.
fn write_ends(folder: &Folder, days: &[Vec<u8>]) -> Vec<u8> {
    let (bytes, ends) = ledger(days);
    let ends: Vec<u8> = ends.iter().flat_map(|end| end.to_le_bytes()).collect();
    fs::write(folder.file("ends"), ends).unwrap();
    bytes
}

const VERIFY: &str = "verify --scheme 2 --n 16 --f 2 --ledger ledger --ends ends --book book";
const READ: &str = "read --scheme 2 --n 16 --f 2 --d 64 --outcomes table";

/// The lines of the figure with this low.
fn found(low: u32) -> String {
    let days = [19, 20, 23, 24, 27, 28, 31, 32];
    let days = days.map(|day| format!("DAY,{day}\n")).concat();
    format!("REF,2,8,19,{low},64,16\n{days}")
}

#[test]
fn low_by_the_last_passed_check() {
    let folder = figure("low");
    for line in [VERIFY, READ] {
        said(&folder, line, (1, &found(32)), &[]);
        for (passed, low) in [(0, 18), (16, 18), (32, 32), (48, 48)] {
            let line = format!("{line} --passed {passed}");
            said(&folder, &line, (1, &found(low)), &[]);
        }
    }
}

#[test]
fn the_bounds_in_a_picture() {
    let folder = figure("picture");
    let drawn = |passed: &str| {
        let line = format!("{VERIFY}{passed} --figure out.svg");
        assert_eq!(run(&folder, &line).0, 1, "{line}");
        fs::read_to_string(folder.file("out.svg")).unwrap()
    };
    let supposed =
        "after the close of day 32, if the validation at day 32 was made and passed, and";
    assert_eq!(drawn(""), drawn(" --passed 32"));
    assert!(drawn("").contains(supposed));
    let other = drawn(" --passed 48");
    assert!(other.contains("after the close of day 48, if a check at day 48 passed, and"));
    assert!(other.contains("low 48, high 64"));
    assert!(drawn(" --passed 0").contains("after the close of day 18 and by the end of day 64"));
}

/// Refusal 19 comes after 1 2 3 7, and before any file of days, book or outcomes is read.
#[test]
fn days_that_no_check_passed_at() {
    let folder = figure("refused");
    for (passed, why) in [
        ("64", "not below D, which is 64"),
        ("80", "not below D, which is 64"),
        ("4294967295", "not below D, which is 64"),
        ("24", "no multiple of N, which is 16"),
        ("63", "no multiple of N, which is 16"),
    ] {
        let refusal = "the day of the last passed check is not below D, or N does not divide it";
        let context = format!("scheme 2, N 16, F 2, D 64, P {passed}");
        let messages = [
            format!("daybook: refusal 19 ({context}): {refusal}"),
            format!("daybook: P {passed}, the last day at which a check passed, is {why}"),
        ];
        let messages = messages.each_ref().map(String::as_str);
        for line in [
            VERIFY.to_string(),
            READ.to_string(),
            READ.replace("table", "none"),
        ] {
            let line = format!("{line} --passed {passed}");
            said(&folder, &line, (2, "NO,19\n"), &messages);
        }
    }
    // the book is too short, and the ends are not in order: both come later
    fs::write(folder.file("book"), "short").unwrap();
    let ends: Vec<u8> = (0..64u32).rev().flat_map(u32::to_le_bytes).collect();
    fs::write(folder.file("ends"), ends).unwrap();
    let line = format!("{VERIFY} --passed 64");
    assert_eq!(run(&folder, &line).1, "NO,19\n");
    assert_eq!(run(&folder, VERIFY).1, "NO,10\n");
    for (from, to, number) in [
        ("--scheme 2", "--scheme 4", 1),
        ("--n 16", "--n 12", 2),
        ("--f 2", "--f 65", 3),
        ("--f 2", "--f 3", 7),
    ] {
        for line in [VERIFY, READ] {
            let line = format!("{line} --passed 64").replace(from, to);
            assert_eq!(run(&folder, &line).1, format!("NO,{number}\n"), "{line}");
        }
    }
    fault(&folder, &format!("{VERIFY} --passed kept"), "needs --state");
    fault(&folder, &format!("{READ} --passed kept"), "needs --state");
}

/// A state `s` under scheme 2, N 2, F 2, so that D goes by 4, with the first `closed` days; `in` has
/// the files.
fn state(name: &str, closed: u32) -> Folder {
    let folder = Folder::new(&format!("kept-{name}"));
    write_days(&folder, &days(12));
    assert_eq!(run(&folder, "open s --scheme 2 --n 2 --f 2").0, 0);
    close(&folder, 1..=closed);
    folder
}

fn write_days(folder: &Folder, days: &[Vec<u8>]) {
    let _ = fs::remove_dir_all(folder.file("in"));
    fs::create_dir(folder.file("in")).unwrap();
    for (g, day) in (1..).zip(days) {
        fs::write(folder.file(&format!("in/{g:02}")), day).unwrap();
    }
}

fn close(folder: &Folder, days: impl Iterator<Item = u32>) {
    for g in days {
        let line = format!("close s --day {g} in/{g:02}");
        assert_eq!(run(folder, &line).0, 0, "{line}");
    }
}

/// The line of `clean` for the first `d` days.
fn line(d: u32) -> String {
    let front = book(Layout::tile(2, 2), &days(d));
    format!("{d},{}\n", hex(&digest(&front)))
}

fn clean(folder: &Folder) -> Option<String> {
    fs::read_to_string(folder.file("s/clean")).ok()
}

/// The last line of `status`.
fn last_kept(folder: &Folder) -> String {
    let (status, out, messages) = run(folder, "status s");
    assert_eq!(status, 0, "{messages}");
    out.lines().last().unwrap().to_string()
}

/// Verifies the first `d` days: they are clean, and kept.
fn verified(folder: &Folder, d: u32) {
    let verify = format!("verify --state s --days in --d {d}");
    let (status, out, messages) = run(folder, &verify);
    assert_eq!((status, out), (0, format!("REF,2,0,0,0,0,{d}\n")));
    assert!(!messages.contains("kept"), "{messages}");
}

#[test]
fn clean_days_are_kept() {
    let folder = state("kept", 12);
    assert_eq!(
        (clean(&folder), last_kept(&folder)),
        (None, "clean 0".into())
    );
    done(&folder, "verify --state s --days in", "REF,2,0,0,0,0,12\n");
    assert_eq!(clean(&folder), Some(line(12)));
    assert_eq!(last_kept(&folder), "clean 12");
    // each once, ascending, by check too
    let check = "check --state s --days in --d 4 --outcomes table";
    let checked = "daybook: checked: days 4, values 6, failing 0";
    said(&folder, check, (0, ""), &[checked]);
    assert_eq!(clean(&folder), Some([line(4), line(12)].concat()));
    verified(&folder, 8);
    verified(&folder, 4);
    let all = [line(4), line(8), line(12)].concat();
    assert_eq!(clean(&folder), Some(all.clone()));
    // what is kept is not written again
    let before = fs::metadata(folder.file("s/clean")).unwrap();
    let read_only = fs::Permissions::from_mode(0o444);
    fs::set_permissions(folder.file("s/clean"), read_only).unwrap();
    verified(&folder, 8);
    let after = fs::metadata(folder.file("s/clean")).unwrap();
    assert_eq!(before.modified().unwrap(), after.modified().unwrap());
    assert_eq!(after.permissions().mode() & 0o777, 0o444);
    assert_eq!(clean(&folder), Some(all));
}

#[test]
fn other_days_are_not_kept() {
    let folder = state("others", 8);
    // a book that is given, also the state's own
    let given = "verify --scheme 2 --n 2 --f 2 --days in --book s/book --d 4";
    done(&folder, given, "REF,2,0,0,0,0,4\n");
    // outcomes of any time
    fs::write(folder.file("table"), [1; 12]).unwrap();
    let read = "read --state s --outcomes table";
    done(&folder, read, "REF,2,0,0,0,0,8\n");
    // changed, refused, faults
    write_days(&folder, &altered(&days(8), &[3]));
    assert_eq!(run(&folder, "verify --state s --days in").0, 1);
    let check = "check --state s --days in --outcomes table";
    assert_eq!(run(&folder, check).0, 1);
    assert_eq!(run(&folder, "verify --state s --days in --d 6").0, 2);
    assert_eq!(run(&folder, "verify --state s --days in --d 12").0, 3);
    let refused = "verify --state s --days in --passed 8";
    assert_eq!(run(&folder, refused).1, "NO,19\n");
    assert_eq!(clean(&folder), None);
}

fn note(passed: u32, offer: &str) -> String {
    let supposed = format!("low supposes that the validation at day {passed} was made and passed");
    format!("daybook: note: {supposed}; {offer}")
}

/// Verified clean at 4, not at 8, and altered by 12: day 6 may have been altered before 8 closed.
#[test]
fn a_skipped_validation() {
    let folder = state("skipped", 4);
    verified(&folder, 4);
    close(&folder, 5..=12);
    write_days(&folder, &altered(&days(12), &[6]));
    let verify = "verify --state s --days in";
    let lines = |low: u32| format!("REF,2,1,6,{low},12,4\nDAY,6\n");
    let offer = "the last day below 12 that this folder keeps as verified clean is 4; \
                 --passed kept takes it";
    let kept = note(8, offer);
    said(&folder, verify, (1, &lines(8)), &[&kept]);
    for (passed, low) in [("kept", 5), ("8", 8), ("10", 10), ("0", 5)] {
        let line = format!("{verify} --passed {passed}");
        said(&folder, &line, (1, &lines(low)), &[]);
    }
    assert_eq!(run(&folder, &format!("{verify} --passed 12")).1, "NO,19\n");
    assert_eq!(run(&folder, &format!("{verify} --passed 5")).1, "NO,19\n");
    let check = "check --state s --days in --outcomes table";
    assert_eq!(run(&folder, check).0, 1);
    let read = "read --state s --outcomes table";
    said(&folder, read, (1, &lines(8)), &[&kept]);
    said(
        &folder,
        &format!("{read} --passed kept"),
        (1, &lines(5)),
        &[],
    );
    // below D: the day that is verified is not its own bound
    let lines = "REF,2,1,6,5,8,4\nDAY,6\n";
    said(
        &folder,
        &format!("{verify} --d 8 --passed kept"),
        (1, lines),
        &[],
    );
}

/// Where low is the first listed day less 1, it supposes nothing of a check.
#[test]
fn no_note_where_low_does_not_hang_on_it() {
    let folder = state("no-note", 12);
    write_days(&folder, &altered(&days(12), &[10]));
    let verify = "verify --state s --days in";
    let lines = "REF,2,1,10,9,12,8\nDAY,10\n";
    said(&folder, verify, (1, lines), &[]);
    said(&folder, &format!("{verify} --passed kept"), (1, lines), &[]);
    // and where the folder keeps the day that is supposed
    write_days(&folder, &days(12));
    verified(&folder, 8);
    write_days(&folder, &altered(&days(12), &[2]));
    let lines = "REF,2,1,2,8,12,0\nDAY,2\n";
    said(&folder, verify, (1, lines), &[]);
    said(&folder, &format!("{verify} --passed kept"), (1, lines), &[]);
}

/// A folder of before has no such file: it keeps none.
#[test]
fn an_older_folder() {
    let folder = state("older", 8);
    write_days(&folder, &altered(&days(8), &[3]));
    let verify = "verify --state s --days in";
    let offer = "this folder keeps no day below 8 as verified clean; --passed kept takes 0";
    let kept = note(4, offer);
    // black fails from 4 on, so that 3 or 4 is in the tile
    let low = |low: u32| format!("REF,2,2,3,{low},8,2\nDAY,3\nDAY,4\n");
    said(&folder, verify, (1, &low(4)), &[&kept]);
    said(
        &folder,
        &format!("{verify} --passed kept"),
        (1, &low(2)),
        &[],
    );
    assert_eq!(last_kept(&folder), "clean 0");
    assert_eq!(clean(&folder), None);
}

/// What is kept of another book is said, and not used.
#[test]
fn a_digest_that_does_not_fit() {
    let folder = state("digest", 8);
    write_days(&folder, &days(8));
    let other = format!("8,{}\n", hex(&digest(b"another book")));
    let beyond = format!("12,{}\n", hex(&digest(b"")));
    let odd = format!("6,{}\n", hex(&digest(b"")));
    fs::write(
        folder.file("s/clean"),
        [&line(4), &odd, &other, &beyond[..]].concat(),
    )
    .unwrap();
    let note = |days: &str| {
        format!(
            "daybook: note: s/clean has days that are not of this book, and are not used: {days}"
        )
    };
    let (status, out, messages) = run(&folder, "status s");
    assert_eq!((status, messages), (0, note("6 8 12") + "\n"));
    assert!(out.ends_with("\nclean 4\n"), "{out}");
    // D's own line is put right, the others stay
    let (status, _, messages) = run(&folder, "verify --state s --days in");
    assert_eq!((status, messages), (0, note("6") + "\n"));
    let put = [&line(4), &odd, &line(8), &beyond[..]].concat();
    assert_eq!(clean(&folder), Some(put));
    // with nothing that fits the offer is 0
    fs::write(folder.file("s/clean"), &odd).unwrap();
    assert_eq!(last_kept(&folder), "clean 0");
    write_days(&folder, &altered(&days(8), &[3]));
    let kept = run(&folder, "verify --state s --days in --passed kept");
    assert_eq!(kept.1, "REF,2,2,3,2,8,2\nDAY,3\nDAY,4\n");
    assert_eq!(kept.2, note("6") + "\n");
}

/// A line that has not its form is a fault of what uses the file, and of nothing else.
#[test]
fn a_line_without_its_form() {
    let folder = state("form", 8);
    let digest = hex(&digest(b""));
    for (text, number) in [
        ("x".to_string(), 1),
        ("\n".to_string(), 1),
        (format!("4,{digest}"), 1),
        (format!("0,{digest}\n"), 1),
        (line(4) + "8," + &digest[1..] + "\n", 2),
        (line(4) + &line(4), 2),
        (line(8) + &line(4), 2),
        (line(4) + &line(8) + "\n", 3),
        (line(4) + &format!("08,{digest}\n"), 2),
    ] {
        fs::write(folder.file("s/clean"), &text).unwrap();
        let what = format!("s/clean does not fit the state: line {number} is not a later day");
        for line in [
            "status s",
            "verify --state s --days in",
            "verify --state s --days in --passed kept",
            "check --state s --days in --outcomes table",
            "read --state s --outcomes table",
        ] {
            fault(&folder, line, &what);
        }
        assert_eq!(clean(&folder), Some(text));
    }
    fs::write(folder.file("s/clean"), "x").unwrap();
    assert_eq!(run(&folder, "locate --state s --position 0").0, 0);
    close(&folder, 9..=9);
    assert_eq!(clean(&folder), Some("x".to_string()));
}

/// The answer is said where the day cannot be kept.
fn not_kept(folder: &Folder, why: &str) {
    let before = clean(folder);
    let verify = "verify --state s --days in";
    let check = "check --state s --days in --outcomes table";
    for (line, out) in [(verify, "REF,2,0,0,0,0,8\n"), (check, "")] {
        let ran = run(folder, line);
        assert_eq!((ran.0, ran.1.as_str()), (0, out), "{line}: {}", ran.2);
        let start = "daybook: day 8 is not kept as verified clean: ";
        let said = ran.2.lines().find_map(|line| line.strip_prefix(start));
        assert!(said.is_some_and(|said| said.contains(why)), "{}", ran.2);
        assert_eq!(clean(folder), before);
    }
}

#[test]
fn two_runs_at_once() {
    let folder = state("lock", 8);
    verified(&folder, 4);
    let lock = File::open(folder.file("s/lock")).unwrap();
    lock.lock_shared().unwrap();
    not_kept(&folder, "s is in use by another run");
    // what is kept already asks for no lock
    verified(&folder, 4);
    lock.unlock().unwrap();
    verified(&folder, 8);
    assert_eq!(clean(&folder), Some([line(4), line(8)].concat()));
}

#[test]
fn a_folder_that_cannot_be_written() {
    let folder = state("unwritable", 8);
    // in the way of the new file, for every user
    fs::create_dir(folder.file("s/clean.new")).unwrap();
    not_kept(&folder, "s/clean.new cannot be written");
    fs::remove_dir(folder.file("s/clean.new")).unwrap();
    let mode = |mode| {
        for name in ["s/lock", "s"] {
            fs::set_permissions(folder.file(name), fs::Permissions::from_mode(mode)).unwrap();
        }
    };
    mode(0o555);
    // not for who may write everywhere
    if File::create(folder.file("s/probe")).is_err() {
        not_kept(&folder, "s/lock cannot be opened");
    }
    mode(0o755);
}

/// Runs the program where no file can grow past 0 bytes, as on a full disk.
#[test]
fn a_full_disk() {
    let folder = state("disk", 8);
    verified(&folder, 4);
    let script = "trap '' XFSZ; ulimit -f 0; exec \"$0\" \"$@\"";
    let output = Command::new("sh")
        .current_dir(folder.path())
        .args(["-c", script, env!("CARGO_BIN_EXE_daybook")])
        .args("verify --state s --days in".split(' '))
        .output()
        .unwrap();
    let messages = String::from_utf8(output.stderr).unwrap();
    assert_eq!(output.status.code(), Some(0), "{messages}");
    assert_eq!(output.stdout, b"REF,2,0,0,0,0,8\n");
    let text = "day 8 is not kept as verified clean: s/clean.new cannot be written";
    assert!(messages.contains(text), "{messages}");
    assert_eq!(clean(&folder), Some(line(4)));
    // what it left is taken away by the next run that writes
    assert!(run(&folder, "status s").1.contains("interrupted yes\n"));
    verified(&folder, 8);
    assert_eq!(clean(&folder), Some([line(4), line(8)].concat()));
    assert!(run(&folder, "status s").1.contains("interrupted no\n"));
}

/// Verifies eight days of `s`, with something done after the book is read and before the days are.
fn verified_while(folder: &Folder, between: impl Fn()) -> Ran {
    let bytes = write_ends(folder, &days(8));
    let pipe = folder.file("pipe");
    let made = Command::new("mkfifo").arg(&pipe).status().unwrap();
    assert!(made.success());
    let verify = "verify --state s --d 8 --ledger pipe --ends ends";
    let mut command = command(folder, verify);
    let child = command.stdout(Stdio::piped()).stderr(Stdio::piped());
    let child = child.spawn().unwrap();
    // opened when the program opens it too
    let mut days = File::options().write(true).open(&pipe).unwrap();
    between();
    days.write_all(&bytes).unwrap();
    drop(days);
    fs::remove_file(&pipe).unwrap();
    ended(child.wait_with_output().unwrap())
}

/// The folder is looked at again before a day is kept.
#[test]
fn what_happens_to_the_folder_meanwhile() {
    let folder = state("meanwhile", 8);
    let clean_8 = "REF,2,0,0,0,0,8\n".to_string();
    // the state goes on: the front of its book stays
    let ran = verified_while(&folder, || close(&folder, 9..=12));
    assert_eq!((ran.0, ran.1), (0, clean_8.clone()), "{}", ran.2);
    assert!(!ran.2.contains("not kept"), "{}", ran.2);
    assert_eq!(clean(&folder), Some(line(8)));
    // another run keeps a day
    fs::remove_file(folder.file("s/clean")).unwrap();
    let ran = verified_while(&folder, || verified(&folder, 4));
    assert_eq!(ran.0, 0, "{}", ran.2);
    assert_eq!(clean(&folder), Some([line(4), line(8)].concat()));
    // another run keeps the same day: it is not written again
    fs::remove_file(folder.file("s/clean")).unwrap();
    let written = Cell::new(0);
    let file = || fs::metadata(folder.file("s/clean")).unwrap().ino();
    let ran = verified_while(&folder, || {
        verified(&folder, 8);
        written.set(file());
    });
    assert_eq!((ran.0, file()), (0, written.get()), "{}", ran.2);
    // another state takes its place
    fs::remove_file(folder.file("s/clean")).unwrap();
    let other = state("meanwhile-other", 0);
    write_days(&other, &altered(&days(8), &[5]));
    close(&other, 1..=8);
    let ran = verified_while(&folder, || {
        fs::rename(folder.file("s"), folder.file("before")).unwrap();
        fs::rename(other.file("s"), folder.file("s")).unwrap();
    });
    assert_eq!((ran.0, ran.1), (0, clean_8), "{}", ran.2);
    let said =
        "daybook: day 8 is not kept as verified clean: s/book does not fit the state: it is \
                not the one that was checked";
    assert!(ran.2.contains(said), "{}", ran.2);
    assert_eq!(clean(&folder), None);
    assert!(!folder.file("before/clean").exists());
}
