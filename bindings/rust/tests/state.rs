//! The state folder: `open`, `add`, `close`, `status`, and files that do not fit each other.

mod common;
#[path = "common/folders.rs"]
mod folders;

use std::fs::{self, File};
use std::io::Write;
use std::path::Path;
use std::process::{Command, Stdio};

use common::{book, days, digest, hex, Folder};
use daybook::{Layout, Service};
use folders::{record_file, tree, Tree};

const PROGRAM: &str = env!("CARGO_BIN_EXE_daybook");

/// Exit status, standard output, standard error.
type Ran = (i32, String, String);

/// Runs the program in a folder with the words of a line and these bytes on standard input.
fn run_with(folder: &Folder, line: &str, input: &[u8]) -> Ran {
    let mut child = Command::new(PROGRAM)
        .current_dir(folder.path())
        .args(line.split_whitespace())
        .stdin(Stdio::piped())
        .stdout(Stdio::piped())
        .stderr(Stdio::piped())
        .spawn()
        .unwrap();
    let _ = child.stdin.take().unwrap().write_all(input);
    let output = child.wait_with_output().unwrap();
    let text = |bytes| String::from_utf8(bytes).unwrap();
    let status = output.status.code().unwrap();
    (status, text(output.stdout), text(output.stderr))
}

fn run(folder: &Folder, line: &str) -> Ran {
    run_with(folder, line, &[])
}

/// The line ends with 0, prints nothing, and says this.
fn said(folder: &Folder, line: &str, text: &str) {
    let (status, out, messages) = run(folder, line);
    assert_eq!((status, out.as_str()), (0, ""), "{line}: {messages}");
    assert!(messages.contains(text), "{line}: {messages}");
}

/// The line ends with 3, says this, and changes nothing.
fn fault(folder: &Folder, line: &str, text: &str) {
    let before = tree(folder.path());
    let (status, out, messages) = run(folder, line);
    assert_eq!((status, out.as_str()), (3, ""), "{line}: {messages}");
    assert!(messages.starts_with("daybook: "), "{line}: {messages}");
    assert!(messages.contains(text), "{line}: {messages}");
    assert_eq!(tree(folder.path()), before, "{line}");
}

/// The line is refused with this number and changes nothing.
fn refused(folder: &Folder, line: &str, number: u32) {
    let before = tree(folder.path());
    let (status, out, messages) = run(folder, line);
    assert_eq!(
        (status, out),
        (2, format!("NO,{number}\n")),
        "{line}: {messages}"
    );
    assert_eq!(tree(folder.path()), before, "{line}");
}

fn names(path: &Path) -> Vec<String> {
    tree(path).into_keys().collect()
}

fn read(folder: &Folder, name: &str) -> Vec<u8> {
    fs::read(folder.file(name)).unwrap()
}

const FRESH: [&str; 5] = ["book", "index", "layout", "lock", "record"];

/// A state `s` under scheme 2, N 2, F 1, with the files `d1` to `d8` beside it, the first `closed` of
/// which are closed.
fn state(name: &str, closed: usize) -> Folder {
    let folder = Folder::new(name);
    for (g, day) in days(8).iter().enumerate() {
        fs::write(folder.file(&format!("d{}", g + 1)), day).unwrap();
    }
    said(&folder, "open s --scheme 2 --n 2 --f 1", "s is open");
    for g in 1..=closed {
        said(&folder, &format!("close s --day {g} d{g}"), "is closed");
    }
    folder
}

/// What the index must have for these days, each closed from its file.
fn index(days: &[Vec<u8>]) -> String {
    let line = |(g, day): (usize, &Vec<u8>)| {
        let (number, bytes) = (g + 1, day.len());
        format!("{number},{bytes},{},d{number}\n", hex(&digest(day)))
    };
    days.iter().enumerate().map(line).collect()
}

fn status(folder: &Folder) -> String {
    let (status, out, messages) = run(folder, "status s");
    assert_eq!(status, 0, "{messages}");
    out
}

#[test]
fn days_one_by_one_give_the_book() {
    for (scheme, layout) in [
        ("--scheme 1 --n 2 --f 2", Layout::black(2, 2)),
        ("--scheme 2 --n 4 --f 1", Layout::tile(4, 1)),
        ("--scheme 3 --n 2 --f 1", Layout::tree(2)),
    ] {
        let folder = Folder::new(&format!("one-by-one-{}", layout.scheme));
        said(&folder, &format!("open s {scheme}"), "s is open");
        assert_eq!(names(&folder.file("s")), FRESH);
        let text = format!(
            "daybook state 3\nscheme {}\nn {}\nf {}\n",
            layout.scheme, layout.n, layout.f
        );
        assert_eq!(read(&folder, "s/layout"), text.as_bytes());
        let days = days(8);
        for (g, day) in days.iter().enumerate() {
            fs::write(folder.file(&format!("d{}", g + 1)), day).unwrap();
        }
        for g in 1..=8 {
            said(
                &folder,
                &format!("close s --day {g} d{g}"),
                &format!("day {g} is closed: bytes {}", days[g - 1].len()),
            );
            assert_eq!(read(&folder, "s/book"), book(layout, &days[..g]));
            assert_eq!(
                read(&folder, "s/index"),
                index(&days[..g]).as_bytes(),
                "day {g}"
            );
        }
        assert_eq!(names(&folder.file("s")), FRESH);
    }
}

#[test]
fn pieces_give_the_same_book_as_files() {
    let whole = state("pieces-whole", 8);
    let folder = state("pieces", 0);
    for (g, day) in days(8).iter().enumerate() {
        let mut at = 0;
        for piece in day.chunks(11) {
            let line = format!("add s --day {} --at {at} -", g + 1);
            let (status, _, messages) = run_with(&folder, &line, piece);
            assert_eq!(status, 0, "{messages}");
            at += piece.len();
        }
        said(
            &folder,
            &format!("close s --day {}", g + 1),
            &format!("is closed: bytes {}", day.len()),
        );
    }
    assert_eq!(read(&folder, "s/book"), read(&whole, "s/book"));
    let names = |index: Vec<u8>| {
        let text = String::from_utf8(index).unwrap();
        let cut = |line: &str| line.rsplit_once(',').map(|(rest, _)| rest.to_string());
        text.lines().map(cut).collect::<Vec<_>>()
    };
    assert_eq!(
        names(read(&folder, "s/index")),
        names(read(&whole, "s/index"))
    );
}

#[test]
fn what_status_prints() {
    let folder = state("status", 3);
    said(&folder, "add s --day 4 --at 0 d1 d2", "day 4 has 21 bytes");
    assert_eq!(
        status(&folder),
        "scheme 2\nn 2\nf 1\nseason 0\ndays 3\nopen 21\nvalues 3\ncheckable 2\n\
         interrupted no\nclean 0\n"
    );
    assert_eq!(
        run(&folder, "status s --season 0").1,
        status(&folder),
        "the present season"
    );
    fault(&folder, "status s --season 1", "there is no season 1 yet");
    let before = tree(folder.path());
    fs::write(folder.file("s/record.new"), "half").unwrap();
    let (_, out, messages) = run(&folder, "status s");
    assert!(out.ends_with("interrupted yes\nclean 0\n"), "{out}");
    assert!(messages.contains("s/record.new"), "{messages}");
    fs::remove_file(folder.file("s/record.new")).unwrap();
    assert_eq!(tree(folder.path()), before);
}

#[test]
fn opening() {
    let folder = Folder::new("opening");
    for (layout, number) in [
        ("--scheme 4 --n 0 --f 0", 1),
        ("--scheme 1 --n 3 --f 0", 2),
        ("--scheme 3 --n 1 --f 2", 3),
    ] {
        refused(&folder, &format!("open s {layout}"), number);
    }
    assert!(names(folder.path()).is_empty());
    let open = "open s --scheme 2 --n 2 --f 1";
    fs::create_dir(folder.file("s")).unwrap();
    said(&folder, open, "s is open: scheme 2, N 2, F 1");
    let made = tree(folder.path());
    assert_eq!(names(&folder.file("s")), FRESH);
    said(&folder, open, "is open already");
    assert_eq!(tree(folder.path()), made);
    fault(&folder, "open s --scheme 2 --n 4 --f 1", "holds a state");
    fs::write(folder.file("d1"), "rye").unwrap();
    said(&folder, "add s --day 1 --at 0 d1", "");
    fault(&folder, open, "open bytes 3");
    said(&folder, "close s --day 1", "");
    fault(&folder, open, "days closed 1");
    fs::create_dir(folder.file("other")).unwrap();
    fs::write(folder.file("other/file"), "").unwrap();
    let other = "open other --scheme 2 --n 2 --f 1";
    fault(&folder, other, "not empty, and holds no state");
    fault(&folder, "open d1 --scheme 2 --n 2 --f 1", "d1 cannot");
    fault(&folder, "open none/s --scheme 2 --n 2 --f 1", "none/s");
}

#[test]
fn adding_and_its_repeats() {
    let folder = state("adding", 1);
    fs::write(folder.file("a"), "abc").unwrap();
    fs::write(folder.file("b"), "defg").unwrap();
    said(&folder, "add s --day 2 --at 0 a", "day 2 has 3 bytes");
    let one = tree(folder.path());
    said(&folder, "add s --day 2 --at 0 a", "already: nothing to do");
    assert_eq!(tree(folder.path()), one);
    said(&folder, "add s --day 2 --at 3 b", "day 2 has 7 bytes");
    let two = tree(folder.path());
    assert_eq!(two["s/day-2"].as_deref(), Some(&b"abcdefg"[..]));
    for line in [
        "add s --day 2 --at 0 a",
        "add s --day 2 --at 3 b",
        "add s --day 2 --at 0 a b",
    ] {
        said(&folder, line, "already: nothing to do");
        assert_eq!(tree(folder.path()), two);
    }
    for (line, text) in [
        ("add s --day 2 --at 8 a", "would leave a gap"),
        ("add s --day 2 --at 0 b", "are not these 4"),
        ("add s --day 2 --at 6 a", "are not these 3"),
        ("add s --day 2 --at 3 b b", "are not these 8"),
        ("add s --day 3 --at 0 a", "day 3 is not the next one"),
        ("add s --day 0 --at 0 a", "there is no day 0"),
        ("add s --day 2 --at 7 none", "none cannot be read"),
        ("add s --day 2 --at 7 s", "s cannot be read"),
        ("close s --day 2 a", "has 7 bytes already"),
        ("close s --day 3", "day 3 is not the next one"),
    ] {
        fault(&folder, line, text);
    }
    said(&folder, "close s --day 2", "day 2 is closed: bytes 7");
    let index = String::from_utf8(read(&folder, "s/index")).unwrap();
    let line = format!("2,7,{},a + b\n", hex(&digest(b"abcdefg")));
    assert!(index.ends_with(&line), "{index}");
}

#[test]
fn adding_to_a_closed_day() {
    let folder = state("closed", 1);
    fs::write(folder.file("a"), "abc").unwrap();
    fs::write(folder.file("b"), "defg").unwrap();
    said(&folder, "add s --day 2 --at 0 a", "");
    said(&folder, "add s --day 2 --at 3 b", "");
    said(&folder, "close s --day 2", "");
    // the whole run again: each step is said
    let closed = tree(folder.path());
    said(&folder, "add s --day 2 --at 0 a", "closed already");
    said(&folder, "add s --day 2 --at 3 b", "closed already");
    said(&folder, "close s --day 2", "closed already");
    said(&folder, "add s --day 1 --at 0 d1", "closed already");
    assert_eq!(tree(folder.path()), closed);
    fault(&folder, "add s --day 2 --at 2 b", "day 2 is closed");
    fault(&folder, "add s --day 1 --at 0 a", "day 1 is closed");
    // of a day before the last closed one only the whole can be told
    said(&folder, "close s --day 3 d3", "");
    said(&folder, "add s --day 2 --at 0 a b", "closed already");
    fault(&folder, "add s --day 2 --at 3 b", "day 2 is closed");
    assert_eq!(names(&folder.file("s")), FRESH);
}

#[test]
fn an_empty_piece() {
    let folder = state("empty-piece", 0);
    fs::write(folder.file("none"), "").unwrap();
    said(&folder, "add s --day 1 --at 0 none", "day 1 has 0 bytes");
    let once = tree(folder.path());
    said(&folder, "add s --day 1 --at 0 none", "nothing is added");
    assert_eq!(tree(folder.path()), once);
    fault(&folder, "add s --day 1 --at 1 none", "gap");
    said(&folder, "close s --day 1", "day 1 is closed: bytes 0");
    said(&folder, "close s --day 2 none", "day 2 is closed: bytes 0");
    said(&folder, "close s --day 3", "day 3 is closed: bytes 0");
    let line = |day: u32, name: &str| format!("{day},0,{},{name}\n", hex(&digest(b"")));
    let index = [line(1, "none"), line(2, "none"), line(3, "")].concat();
    assert_eq!(read(&folder, "s/index"), index.as_bytes());
}

#[test]
fn closing_and_its_repeats() {
    let folder = state("closing", 4);
    let closed = tree(folder.path());
    for line in [
        "close s --day 4 d4",
        "close s --day 1 d1",
        "close s --day 4",
        "close s --day 2",
    ] {
        said(&folder, line, "closed already");
        assert_eq!(tree(folder.path()), closed);
    }
    fault(&folder, "close s --day 4 d5", "closed, with other bytes");
    fault(&folder, "close s --day 1 d1 d1", "closed, with other bytes");
    fault(&folder, "close s --day 6 d6", "day 6 is not the next one");
    fault(&folder, "close s --day 0 d6", "there is no day 0");
    fault(&folder, "close s --day 5 none", "none cannot be read");
    let (status, _, messages) = run_with(&folder, "close s --day 5 -", &days(8)[4]);
    assert_eq!(status, 0, "{messages}");
    said(&folder, "close s --day 5 d5", "closed already");
    let layout = Layout::tile(2, 1);
    assert_eq!(read(&folder, "s/book"), book(layout, &days(4)));
}

#[test]
fn names_of_sources() {
    let folder = state("names", 0);
    fs::write(folder.file("a,%\u{e9}"), "abc").unwrap();
    said(&folder, "close s --day 1 a,%\u{e9} d1", "");
    let index = String::from_utf8(read(&folder, "s/index")).unwrap();
    assert!(index.ends_with(",a%2C%25%C3%A9 + d1\n"), "{index}");
}

#[test]
fn a_day_too_long() {
    let folder = state("long", 1);
    let file = File::create(folder.file("long")).unwrap();
    file.set_len(16_777_217).unwrap();
    refused(&folder, "close s --day 2 long", 4);
    refused(&folder, "add s --day 2 --at 0 long", 4);
    fault(&folder, "close s --day 1 long", "other bytes");
    file.set_len(16_777_216).unwrap();
    said(
        &folder,
        "add s --day 2 --at 0 long",
        "day 2 has 16777216 bytes",
    );
    refused(&folder, "add s --day 2 --at 16777216 d1", 4);
    said(&folder, "add s --day 2 --at 0 long", "already");
    said(&folder, "close s --day 2", "is closed: bytes 16777216");
    let index = String::from_utf8(read(&folder, "s/index")).unwrap();
    let line = format!("2,16777216,{},long\n", hex(&digest(&vec![0; 16_777_216])));
    assert!(index.ends_with(&line), "{index}");
}

#[test]
fn the_form_of_the_record() {
    let folder = state("form", 2);
    said(&folder, "add s --day 3 --at 0 d4", "");
    let days = days(8);
    let mut service = Service::open(Layout::tile(2, 1)).unwrap();
    for day in &days[..2] {
        service.add(day).unwrap();
        service.close_day().unwrap();
    }
    service.add(&days[3]).unwrap();
    let sealed = book(Layout::tile(2, 1), &days[..2]);
    let lines = index(&days[..2]);
    let expected = record_file(
        3,
        &service.to_bytes(),
        [&sealed, lines.as_bytes(), &days[3]],
        "d4",
    );
    assert_eq!(read(&folder, "s/record"), expected);
}

#[test]
fn the_last_day_of_a_book() {
    let folder = state("full", 0);
    let mut service = Service::open(Layout::black(256, 1)).unwrap();
    let (mut made, mut lines) = (Vec::new(), String::new());
    for day in 1..=65_535 {
        made.extend(service.close_day().unwrap());
        lines += &format!("{day},0,{},\n", hex(&digest(b"")));
    }
    let layout = "daybook state 3\nscheme 1\nn 256\nf 1\n";
    fs::write(folder.file("s/layout"), layout).unwrap();
    fs::write(folder.file("s/book"), &made).unwrap();
    fs::write(folder.file("s/index"), &lines).unwrap();
    let bytes = record_file(3, &service.to_bytes(), [&made, lines.as_bytes(), &[]], "");
    fs::write(folder.file("s/record"), bytes).unwrap();
    said(&folder, "add s --day 65536 --at 0 d2", "day 65536 has");
    said(
        &folder,
        "close s --day 65536",
        "is closed: bytes 14, values 1\ndaybook: season 0 is full: next is day 1 of season 1, \
         whose values go to book-1\n",
    );
    for line in [
        "add s --day 65537 --at 0 d1",
        "close s --day 65537",
        "close s --day 65537 d1",
        "close s --day 65538 d1",
    ] {
        fault(&folder, line, "is not the next one: day 1 of season 1 is");
    }
    let text = "season 0\ndays 65536\nopen 0\nvalues 256\ncheckable 65536\n";
    assert!(status(&folder).contains(text));
}

/// Every command that takes a state, with what it would do to this one.
const COMMANDS: [&str; 5] = [
    "status s",
    "add s --day 5 --at 11 d3",
    "close s --day 5",
    "close s --day 4 d4",
    "open s --scheme 2 --n 2 --f 1",
];

/// A state with four days closed and eleven bytes in the fifth.
fn four(name: &str) -> Folder {
    let folder = state(name, 4);
    fs::write(folder.file("piece"), "eleven byte").unwrap();
    said(&folder, "add s --day 5 --at 0 piece", "day 5 has 11 bytes");
    folder
}

#[test]
fn files_that_do_not_fit() {
    let folder = four("misfit");
    for name in ["layout", "book", "index", "record", "day-5"] {
        let path = format!("s/{name}");
        let bytes = read(&folder, &path);
        let mut wrong = vec![bytes[..bytes.len() - 1].to_vec(), Vec::new()];
        for at in [0, bytes.len() / 2, bytes.len() - 1] {
            let mut other = bytes.clone();
            other[at] ^= 1;
            wrong.push(other);
        }
        for other in wrong {
            fs::write(folder.file(&path), other).unwrap();
            for command in COMMANDS {
                fault(&folder, command, &path);
            }
        }
        fs::remove_file(folder.file(&path)).unwrap();
        for command in COMMANDS {
            fault(&folder, command, &path);
        }
        fs::write(folder.file(&path), bytes).unwrap();
    }
    fs::remove_file(folder.file("s/lock")).unwrap();
    for command in COMMANDS {
        fault(&folder, command, "s/lock");
    }
    fault(&folder, "status none", "none cannot be read");
    fault(&folder, "status d1", "d1 cannot be read");
}

#[test]
fn a_missing_record_is_no_fresh_service() {
    let folder = state("missing", 0);
    fs::remove_file(folder.file("s/record")).unwrap();
    for command in ["status s", "close s --day 1 d1", COMMANDS[4]] {
        fault(
            &folder,
            command,
            "it is missing, and a state without its record is no fresh one",
        );
    }
}

#[test]
fn other_versions() {
    let folder = four("versions");
    let layout = String::from_utf8(read(&folder, "s/layout")).unwrap();
    fs::write(
        folder.file("s/layout"),
        layout.replace("state 3", "state 4"),
    )
    .unwrap();
    fault(
        &folder,
        "status s",
        "s/layout does not fit the state: its format version is 4, and this program knows 2 and 3 \
         only",
    );
    fs::write(
        folder.file("s/layout"),
        layout.replace("state 3", "state 2"),
    )
    .unwrap();
    for command in COMMANDS {
        fault(
            &folder,
            command,
            "s/layout does not fit the state: its format version is 2, and that of the record is 3",
        );
    }
    fs::write(folder.file("s/layout"), layout).unwrap();
    let mut record = read(&folder, "s/record");
    record[15] = b'7';
    fs::write(folder.file("s/record"), record).unwrap();
    fault(
        &folder,
        "status s",
        "s/record does not fit the state: its format version is 7",
    );
}

#[test]
fn a_record_that_the_service_cannot_go_on_from() {
    let folder = state("six", 0);
    let mut service = Service::open(Layout::tile(2, 1)).unwrap().to_bytes();
    service[4] = 3;
    let bytes = record_file(3, &service, [&[], &[], &[]], "");
    fs::write(folder.file("s/record"), bytes).unwrap();
    refused(&folder, "status s", 6);
    refused(&folder, "close s --day 1 d1", 6);
    // a season over the last, and open bytes beside 65,536 days
    for (season, days, open) in [(65_536u32, 0u32, 0u32), (0, 65_536, 1)] {
        let mut service = Service::open(Layout::tile(2, 1)).unwrap().to_bytes();
        service[12..16].copy_from_slice(&days.to_le_bytes());
        service[16..20].copy_from_slice(&open.to_le_bytes());
        service[724..].copy_from_slice(&season.to_le_bytes());
        let bytes = record_file(3, &service, [&[], &[], &[]], "");
        fs::write(folder.file("s/record"), bytes).unwrap();
        refused(&folder, "status s", 6);
        refused(&folder, "add s --day 1 --at 0 d1", 6);
    }
}

#[test]
fn records_of_another_time() {
    let folder = state("older", 1);
    let record = |folder: &Folder| read(folder, "s/record");
    let mut records = vec![record(&folder)];
    for g in 2..=5 {
        said(&folder, &format!("close s --day {g} d{g}"), "");
        records.push(record(&folder));
    }
    let whole = tree(folder.path());
    // a record newer than the rest, or of another state
    fs::write(folder.file("s/index"), index(&days(4))).unwrap();
    fault(&folder, "status s", "s/index");
    fs::write(folder.file("s/index"), index(&days(5))).unwrap();
    // older by two days and more: days would be lost
    for older in &records[..3] {
        fs::write(folder.file("s/record"), older).unwrap();
        fault(&folder, "close s --day 6 d6", "older record");
    }
    // older by one day: the state before that close, as if it had been stopped
    fs::write(folder.file("s/record"), &records[3]).unwrap();
    fault(&folder, "close s --day 6 d6", "day 6 is not the next one");
    said(&folder, "close s --day 5 d5", "day 5 is closed");
    assert_eq!(tree(folder.path()), whole);
}

#[test]
fn tails_are_cut_back() {
    let folder = four("tails");
    let before = tree(folder.path());
    let tail = |name: &str, bytes: &[u8]| {
        let file = File::options().append(true).open(folder.file(name));
        file.unwrap().write_all(bytes).unwrap();
    };
    tail("s/book", &[0; 544]);
    tail("s/index", b"5,11,half a line");
    tail("s/day-5", b"a piece that was not committed");
    fs::write(folder.file("s/record.new"), "half a record").unwrap();
    fs::write(folder.file("s/clean.new"), "half a line").unwrap();
    fs::write(folder.file("s/day-3"), "of another day").unwrap();
    // looking changes nothing
    let left = tree(folder.path());
    assert!(status(&folder).ends_with("interrupted yes\nclean 0\n"));
    assert_eq!(tree(folder.path()), left);
    fault(&folder, "add s --day 5 --at 12 d3", "gap");
    // a repeat and a step cut back
    said(&folder, "add s --day 5 --at 0 piece", "already");
    assert_eq!(tree(folder.path()), before);
    tail("s/book", &[0; 545]);
    fault(
        &folder,
        "status s",
        "s/book does not fit the state: the record says 192 bytes",
    );
}

#[test]
fn one_run_at_a_time() {
    let folder = four("lock");
    let lock = File::open(folder.file("s/lock")).unwrap();
    lock.lock().unwrap();
    for command in COMMANDS {
        fault(&folder, command, "s is in use by another run");
    }
    lock.unlock().unwrap();
    lock.lock_shared().unwrap();
    fault(&folder, "close s --day 5", "s is in use by another run");
    assert!(status(&folder).contains("days 4\n"));
    lock.unlock().unwrap();
    said(&folder, "close s --day 5", "is closed");
}

/// Runs the program where no file can grow past 0 bytes, as on a full disk.
#[test]
fn nothing_is_written_when_the_disk_is_full() {
    let folder = four("disk");
    for line in [
        "add s --day 5 --at 11 d3",
        "close s --day 5",
        "open t --scheme 2 --n 2 --f 1",
    ] {
        let before = tree(folder.path());
        let script = "trap '' XFSZ; ulimit -f 0; exec \"$0\" \"$@\"";
        let output = Command::new("sh")
            .current_dir(folder.path())
            .args(["-c", script, PROGRAM])
            .args(line.split_whitespace())
            .output()
            .unwrap();
        let messages = String::from_utf8(output.stderr).unwrap();
        assert_eq!(output.status.code(), Some(3), "{messages}");
        assert!(messages.contains("cannot be written"), "{messages}");
        let record = |tree: &Tree| tree["s/record"].clone();
        assert_eq!(record(&tree(folder.path())), record(&before));
        assert!(status(&folder).contains("days 4\nopen 11\n"));
    }
    said(&folder, "add s --day 5 --at 11 d3", "day 5 has 32 bytes");
    said(&folder, "close s --day 5", "is closed: bytes 32");
    assert!(!folder.file("t").exists());
}

/// A folder `in` of the first days, as they are now.
fn write_days(folder: &Folder, days: &[Vec<u8>]) {
    let _ = fs::remove_dir_all(folder.file("in"));
    fs::create_dir(folder.file("in")).unwrap();
    for (g, day) in days.iter().enumerate() {
        fs::write(folder.file(&format!("in/{}", g + 1)), day).unwrap();
    }
}

#[test]
fn checking_a_state() {
    let folder = Folder::new("checking");
    said(&folder, "open s --scheme 2 --n 2 --f 2", "");
    let days = days(7);
    write_days(&folder, &days);
    let verify = "verify --state s --days in";
    let (status, out, messages) = run(&folder, verify);
    assert_eq!((status, out.as_str()), (2, "NO,7\n"), "{messages}");
    assert!(messages.contains("no day is closed"), "{messages}");
    for g in 1..=7 {
        said(&folder, &format!("close s --day {g} in/{g}"), "");
        let ran = run(&folder, verify);
        let (expected, later) = match g {
            1 => ((2, "NO,7\n"), "day 1 is not yet checkable: D goes by 4"),
            2 | 3 => ((2, "NO,7\n"), "are not yet checkable"),
            4 => ((0, "REF,2,0,0,0,0,4\n"), ""),
            5 => ((0, "REF,2,0,0,0,0,4\n"), "day 5 is not yet checkable"),
            _ => ((0, "REF,2,0,0,0,0,4\n"), "days 5 to "),
        };
        assert_eq!((ran.0, ran.1.as_str()), expected, "day {g}: {}", ran.2);
        assert!(ran.2.contains(later), "day {g}: {}", ran.2);
        assert_eq!(ran.2.contains("not yet checkable"), g != 4, "{}", ran.2);
    }
    // a later day altered is not seen yet, an earlier one is
    write_days(&folder, &common::altered(&days, &[6]));
    assert_eq!(run(&folder, verify).1, "REF,2,0,0,0,0,4\n");
    write_days(&folder, &common::altered(&days, &[4]));
    let listed = "REF,2,1,4,3,4,2\nDAY,4\n";
    let (status, out, _) = run(&folder, verify);
    assert_eq!((status, out.as_str()), (1, listed));
    let check = "check --state s --days in --outcomes table";
    let before = tree(&folder.file("s"));
    assert_eq!(run(&folder, check).0, 1);
    let read = "read --state s --outcomes table";
    assert_eq!(run(&folder, read).1, listed);
    assert_eq!(tree(&folder.file("s")), before);
    // D given
    assert_eq!(run(&folder, &format!("{verify} --d 4")).1, listed);
    assert_eq!(run(&folder, &format!("{verify} --d 6")).1, "NO,7\n");
    fault(
        &folder,
        &format!("{verify} --d 8"),
        "7 days are closed, and D is 8",
    );
    // fewer days than are sealed
    write_days(&folder, &days[..3]);
    assert_eq!(run(&folder, verify).1, "NO,9\n");
}

#[test]
fn checking_a_state_that_does_not_fit() {
    let folder = four("checked-misfit");
    write_days(&folder, &days(4));
    let verify = "verify --state s --days in";
    assert_eq!(run(&folder, verify).1, "REF,2,0,0,0,0,4\n");
    // a stopped run has no part in the answer, and stays
    fs::write(folder.file("s/record.new"), "half").unwrap();
    assert_eq!(run(&folder, verify).1, "REF,2,0,0,0,0,4\n");
    assert!(folder.file("s/record.new").exists());
    let mut book = read(&folder, "s/book");
    book[70] ^= 1;
    fs::write(folder.file("s/book"), book).unwrap();
    for line in [
        verify,
        "check --state s --days in --outcomes table",
        "read --state s --outcomes d1",
    ] {
        fault(&folder, line, "s/book does not fit the state");
    }
    for name in ["--scheme", "--n", "--f", "--book"] {
        fault(
            &folder,
            &format!("{verify} {name} 2"),
            &format!("--state has what {name} gives"),
        );
    }
}

#[test]
fn no_other_command_writes_into_a_state() {
    let folder = four("others");
    write_days(&folder, &days(4));
    for line in [
        "seal --scheme 2 --n 2 --f 1 --days in --book s/book --force",
        "seal --scheme 2 --n 2 --f 1 --days in --book s/new",
        "check --state s --days in --outcomes s/index",
        "check --state s --days in --outcomes table --digests s/new",
    ] {
        fault(&folder, line, "stands in a state folder");
    }
}
