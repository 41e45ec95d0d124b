//! What was sealed before version 0.8.0: state folders are named, books are noted, and the commands
//! of README.md seal the days again.

mod common;
#[path = "common/folder_before.rs"]
mod folder_before;
#[path = "common/folders.rs"]
mod folders;
#[path = "common/program.rs"]
mod program;
#[path = "common/record.rs"]
mod record;

use std::fs::{self, File};
use std::io::Write;
use std::os::unix::fs::{symlink, PermissionsExt};
use std::process::{Command, Stdio};

use common::{altered, book, book_before, day, digest, table, Folder};
use daybook::Layout;
use folder_before::Before;
use folders::tree;
use program::{ended, run, Ran};

const LAYOUT: Layout = Layout::tile(2, 1);
const HOW: &str = "(\"Members seal older years again\" in README.md, OLDER YEARS in man daybook). \
    Nothing is written";

fn days(d: u32) -> Vec<Vec<u8>> {
    (1..=d).map(|g| day(g, 9)).collect()
}

fn write_days(folder: &Folder, days: &[Vec<u8>]) {
    let _ = fs::remove_dir_all(folder.file("days"));
    fs::create_dir(folder.file("days")).unwrap();
    for (g, day) in (1..).zip(days) {
        fs::write(folder.file(&format!("days/day-{g:02}")), day).unwrap();
    }
}

/// A folder `s` of before with so many days closed and these bytes in the open one, beside its
/// days.
fn before(name: &str, closed: u32, open: &[u8]) -> (Folder, Before) {
    let folder = Folder::new(&format!("older-{name}"));
    write_days(&folder, &days(8));
    fs::write(folder.file("table"), [1; 16]).unwrap();
    let state = Before {
        layout: LAYOUT,
        days: days(closed),
        open: open.to_vec(),
    };
    state.write(&folder, "s");
    (folder, state)
}

/// Every command that takes a state folder.
const COMMANDS: [&str; 13] = [
    "open s --scheme 2 --n 2 --f 1",
    "open s --scheme 3 --n 4 --f 1",
    "add s --day 1 --at 0 days/day-01",
    "add s --day 5 --at 4 days/day-01",
    "close s --day 1 days/day-01",
    "close s --day 5 days/day-05",
    "close s --day 5",
    "status s",
    "check --state s --days days --outcomes new --digests sums",
    "read --state s --outcomes table --passed kept",
    "search --state s --outcomes table",
    "verify --state s --days days --figure new.svg",
    "locate --state s --position 0",
];

/// Each command ends with 3 and this message alone, and writes nothing.
fn named(folder: &Folder, message: &str) {
    let before = tree(folder.path());
    for line in COMMANDS {
        let expected = (3, String::new(), format!("daybook: {message}\n"));
        assert_eq!(run(folder, line), expected, "{line}");
        assert_eq!(tree(folder.path()), before, "{line}");
    }
}

fn of_the_folder() -> String {
    format!(
        "s/layout: format version 1: the folder was begun before version 0.8.0, whose chains start \
         otherwise; its days must be sealed again {HOW}"
    )
}

const RECORD_BEFORE: &str =
    "this is the record of an earlier version, of 692 bytes: seal its days again";

#[test]
fn every_command_names_the_folder() {
    for (name, closed, open) in [
        ("fresh", 0, &b""[..]),
        ("begun", 0, b"rye"),
        ("closed", 4, b""),
        ("open", 4, b"rye 12"),
    ] {
        let (folder, _) = before(name, closed, open);
        named(&folder, &of_the_folder());
    }
}

/// What a run of before left when it was stopped, and what is wrong with the folder beside its age.
#[test]
fn a_folder_that_is_not_whole() {
    let (folder, _) = before("stopped", 4, b"rye 12");
    let tail = |name: &str, bytes: &[u8]| {
        let file = File::options().append(true).open(folder.file(name));
        file.unwrap().write_all(bytes).unwrap();
    };
    tail("s/book", &[0; 100]);
    tail("s/index", b"5,6,half a line");
    tail("s/day-5", b"not committed");
    fs::write(folder.file("s/record.new"), "half a record").unwrap();
    fs::write(folder.file("s/clean.new"), "half a line").unwrap();
    fs::write(folder.file("s/clean"), "no day").unwrap();
    named(&folder, &of_the_folder());
    // in use by a program of before
    let lock = File::open(folder.file("s/lock")).unwrap();
    lock.lock().unwrap();
    named(&folder, &of_the_folder());
    lock.unlock().unwrap();
    // altered files, and missing ones
    for name in ["book", "index", "day-5"] {
        fs::write(folder.file(&format!("s/{name}")), "altered").unwrap();
    }
    named(&folder, &of_the_folder());
    let record = fs::read(folder.file("s/record")).unwrap();
    for wrong in [&record[..record.len() - 1], &record[..17], b"", b"rye\n"] {
        fs::write(folder.file("s/record"), wrong).unwrap();
        named(&folder, &of_the_folder());
    }
    for name in ["record", "book", "index", "lock"] {
        fs::remove_file(folder.file(&format!("s/{name}"))).unwrap();
        named(&folder, &of_the_folder());
    }
}

#[test]
fn a_record_of_before_beside_another_layout() {
    let (folder, state) = before("record", 4, b"rye 12");
    let layout = |text: &str| fs::write(folder.file("s/layout"), text).unwrap();
    let record = |bytes: &[u8]| fs::write(folder.file("s/record"), bytes).unwrap();
    let numbered = format!("s/record: format version 1: {RECORD_BEFORE} {HOW}");
    for text in [
        state.layout_text(2),
        state.layout_text(3),
        state.layout_text(4),
        String::new(),
    ] {
        layout(&text);
        named(&folder, &numbered);
    }
    fs::remove_file(folder.file("s/layout")).unwrap();
    named(&folder, &numbered);
    layout(&state.layout_text(2));
    record(b"daybook record 1\n");
    named(&folder, &numbered);
    // its version line changed, with the checksum and without
    let unnumbered = format!("s/record: {RECORD_BEFORE} {HOW}");
    let mut bytes = state.record(1, &state.service());
    bytes[15] = b'2';
    record(&bytes);
    named(&folder, &unnumbered);
    record(&state.record(2, &state.service()));
    named(&folder, &unnumbered);
    // the layout of before as well: it is the folder then
    layout(&state.layout_text(1));
    named(&folder, &of_the_folder());
}

#[test]
fn a_layout_of_before_beside_another_record() {
    let (folder, _) = before("layout", 0, b"");
    assert_eq!(run(&folder, "open t --scheme 2 --n 2 --f 1").0, 0);
    let mut record = fs::read(folder.file("t/record")).unwrap();
    fs::remove_dir_all(folder.file("t")).unwrap();
    for version in [3, 2] {
        let differ = format!(
            "s/layout does not fit the state: its format version is 1, and that of the record is \
             {version}. Nothing is written"
        );
        record[15] = b'0' + version;
        fs::write(folder.file("s/record"), &record).unwrap();
        named(&folder, &differ);
        fs::write(folder.file("s/record"), &record[..100]).unwrap();
        named(&folder, &differ);
    }
}

/// A record of before, lengthened by hand: nothing that it would write could ever be checked.
#[test]
fn a_record_with_another_start() {
    let (folder, state) = before("start", 4, b"rye 12");
    for (version, season) in [(2, &[][..]), (3, &[0; 4])] {
        fs::write(folder.file("s/layout"), state.layout_text(version)).unwrap();
        for start in [[0; 32], [7; 32]] {
            let service = [&state.service()[..], &start, season].concat();
            fs::write(folder.file("s/record"), state.record(version, &service)).unwrap();
            named(
                &folder,
                "s/record does not fit the state: its chains do not start as those of scheme 2, \
                 N 2, F 1 do. Nothing is written",
            );
        }
    }
}

/// What is said where no value passes of a book that is given.
const NOTE: &str = "daybook: note: no value of the book passes. Each may cover an altered day; or \
    the book may be of another season, of another layout (another scheme or N) or of a delivery \
    before 0.8.0, and then it says nothing of these days (\"Members seal older years again\" in README.md, OLDER YEARS in man daybook)\n";
/// And of a state's: it is neither of before nor of another layout.
const NOTE_OF_STATE: &str =
    "daybook: note: no value of the book passes. Each may cover an altered \
    day; or these may not be the days that were sealed in this season: by the folder's record the \
    book is of version 0.8.0 or later, and of this layout\n";

fn options(layout: Layout) -> String {
    let Layout { scheme, n, f } = layout;
    format!("--scheme {scheme} --n {n} --f {f}")
}

/// Checks and verifies with these words. The note is there or not, beside nothing else; status and
/// lines are those of the outcomes.
fn noted(folder: &Folder, layout: Layout, words: &str, outcomes: &[u8], note: bool) {
    let d = 8;
    let fail = outcomes.iter().filter(|outcome| **outcome == 0).count();
    let note = match note {
        true if words == "--state s" => NOTE_OF_STATE,
        true => NOTE,
        false => "",
    };
    let status = i32::from(fail > 0);
    let check = format!("check {words} --days days --outcomes found");
    let checked = format!(
        "daybook: checked: days {d}, values {}, failing {fail}\n",
        outcomes.len()
    );
    let expected: Ran = (status, String::new(), checked + note);
    assert_eq!(run(folder, &check), expected, "{check}");
    assert_eq!(fs::read(folder.file("found")).unwrap(), outcomes);
    // read and search have no book, and outcomes may be of any delivery
    let read = format!(
        "read {} --d {d} --outcomes found --passed 0",
        options(layout)
    );
    let read = run(folder, &read);
    assert_eq!((read.0, read.2.as_str()), (status, ""));
    if layout.scheme == Layout::TREE {
        let search = format!("search {} --d {d} --outcomes found", options(layout));
        assert_eq!(run(folder, &search).2, "");
    }
    let verify = format!("verify {words} --days days --passed 0");
    let expected: Ran = (status, read.1, note.to_string());
    assert_eq!(run(folder, &verify), expected, "{verify}");
}

const THREE: [Layout; 3] = [Layout::black(2, 1), Layout::tile(4, 2), Layout::tree(2)];

#[test]
fn books_of_before() {
    for layout in THREE {
        let folder = Folder::new(&format!("older-book-{}", layout.scheme));
        write_days(&folder, &days(8));
        let words = format!("{} --book book", options(layout));
        let sealed = book(layout, &days(8));
        let old = book_before(layout, &days(8));
        let (values, mut passes) = (sealed.len() / 32, vec![1; sealed.len() / 32]);
        fs::write(folder.file("book"), &sealed).unwrap();
        noted(&folder, layout, &words, &passes, false);
        fs::write(folder.file("book"), &old).unwrap();
        noted(&folder, layout, &words, &vec![0; values], true);
        // one value that passes, the first day's or tile's, is enough for no word
        if layout.scheme != Layout::TREE {
            continue;
        }
        write_days(&folder, &altered(&days(8), &[2, 3, 4, 5, 6, 7, 8]));
        fs::write(folder.file("book"), &sealed).unwrap();
        passes = table(layout, 8, &[2, 3, 4, 5, 6, 7, 8]);
        assert_eq!(passes.iter().filter(|outcome| **outcome == 1).count(), 1);
        noted(&folder, layout, &words, &passes, false);
    }
}

#[test]
fn books_of_another_layout() {
    let folder = Folder::new("older-other");
    write_days(&folder, &days(8));
    let layouts = [
        Layout::black(1, 1),
        Layout::black(2, 1),
        Layout::tile(1, 1),
        Layout::tile(2, 1),
        Layout::tree(1),
        Layout::tree(2),
    ];
    for sealed in layouts {
        for taken in layouts {
            let mut bytes = book(sealed, &days(8));
            let values = common::chains(taken, 8).len();
            bytes.resize(32 * values, 7);
            fs::write(folder.file("book"), bytes).unwrap();
            let words = format!("{} --book book", options(taken));
            let same = sealed == taken;
            noted(&folder, taken, &words, &vec![u8::from(same); values], !same);
        }
    }
}

/// Day 1 altered under scheme 1, and every day under the others: the book is right, and no value
/// passes.
#[test]
fn a_right_book_of_which_no_value_passes() {
    for (layout, changed) in [
        (Layout::black(2, 1), &[1][..]),
        (Layout::tile(2, 2), &[1, 3, 5, 7]),
        (Layout::tree(4), &[1, 2, 3, 4, 5, 6, 7, 8]),
    ] {
        let folder = Folder::new(&format!("older-right-{}", layout.scheme));
        write_days(&folder, &days(8));
        let open = format!("open s {}", options(layout));
        assert_eq!(run(&folder, &open).0, 0);
        for g in 1..=8 {
            let line = format!("close s --day {g} days/day-{g:02}");
            assert_eq!(run(&folder, &line).0, 0);
        }
        let given = format!("{} --book s/book", options(layout));
        let clean = vec![1; book(layout, &days(8)).len() / 32];
        noted(&folder, layout, &given, &clean, false);
        write_days(&folder, &altered(&days(8), changed));
        let outcomes = table(layout, 8, changed);
        assert!(!outcomes.contains(&1), "{layout}");
        for words in ["--state s", &given] {
            noted(&folder, layout, words, &outcomes, true);
        }
        write_days(&folder, &altered(&days(8), &[8]));
        let outcomes = table(layout, 8, &[8]);
        for words in ["--state s", &given] {
            noted(&folder, layout, words, &outcomes, false);
        }
    }
}

/// A value alone, and a refused check: nothing is said where nothing was compared.
#[test]
fn one_value_and_none() {
    let folder = Folder::new("older-one");
    write_days(&folder, &days(2));
    let verify = "verify --scheme 1 --n 2 --f 1 --days days --book book --passed 0";
    fs::write(folder.file("book"), book(Layout::black(2, 1), &days(2))).unwrap();
    assert_eq!(
        run(&folder, verify),
        (0, "REF,1,0,0,0,0,2\n".into(), String::new())
    );
    fs::write(folder.file("book"), [0; 32]).unwrap();
    let lines = "REF,1,2,1,0,2,0\nDAY,1\nDAY,2\n";
    assert_eq!(run(&folder, verify), (1, lines.into(), NOTE.into()));
    fs::write(folder.file("book"), [0; 31]).unwrap();
    let (status, out, messages) = run(&folder, verify);
    assert_eq!((status, out.as_str()), (2, "NO,11\n"));
    assert!(!messages.contains("no value"), "{messages}");
}

/// The blocks of commands in the part of README.md on older years.
fn blocks_of_the_readme() -> Vec<Vec<String>> {
    let page = include_str!("../../../README.md");
    let (_, part) = page
        .split_once("\n## Members seal older years again\n")
        .unwrap();
    let (part, _) = part.split_once("\n## ").unwrap();
    let mut blocks = vec![Vec::new()];
    for line in part.lines() {
        match line.strip_prefix("    ") {
            Some(command) => blocks.last_mut().unwrap().push(command.to_string()),
            None => blocks.push(Vec::new()),
        }
    }
    blocks.retain(|block| !block.is_empty());
    blocks
}

/// The programs that the commands name: this one, and one in the place of the delivery before,
/// which finds the days as they were sealed. Gives the path to them.
fn programs(folder: &Folder) -> String {
    fs::create_dir(folder.file("bin")).unwrap();
    symlink(env!("CARGO_BIN_EXE_daybook"), folder.file("bin/daybook")).unwrap();
    let path = std::env::var("PATH").unwrap();
    // by a process of its own: one that this process wrote could be busy when it is run
    let earlier = r#"cat >bin/daybook-0.7 <<'END'
#!/bin/sh
echo "$@" >>asked
[ "$1" != status ] || echo 'interrupted no'
END
chmod 755 bin/daybook-0.7"#;
    assert_eq!(shell(folder, &path, &[earlier.to_string()]).0, 0);
    format!("{}:{path}", folder.file("bin").display())
}

/// Runs commands as they are printed; the first that fails ends them.
fn shell(folder: &Folder, path: &str, commands: &[String]) -> Ran {
    let mut shell = Command::new("sh");
    shell.args(["-euc", &commands.join("\n")]).env("PATH", path);
    shell.current_dir(folder.path()).stdin(Stdio::null());
    ended(shell.output().unwrap())
}

#[test]
fn a_folder_of_days_by_the_readme() {
    let folder = Folder::new("older-readme-days");
    let layout = Layout::tile(16, 2);
    write_days(&folder, &days(64));
    let old = book_before(layout, &days(64));
    fs::write(folder.file("book"), &old).unwrap();
    let [commands, _] = &blocks_of_the_readme()[..] else {
        panic!("two blocks")
    };
    let path = programs(&folder);
    let (status, out, messages) = shell(&folder, &path, commands);
    assert_eq!(
        (status, out.as_str()),
        (0, "REF,2,0,0,0,0,64\n"),
        "{messages}"
    );
    assert_eq!(messages, "daybook: sealed: days 64, values 24\n");
    assert_eq!(fs::read(folder.file("book-0.7")).unwrap(), old);
    let new = fs::read(folder.file("book")).unwrap();
    assert_eq!(new, book(layout, &days(64)));
    // without --force, and of a read-only book even so, nothing is replaced
    fs::write(folder.file("book"), &old).unwrap();
    let seal = commands[2].trim_start().strip_prefix("daybook ").unwrap();
    let (gentle, _) = seal.split_once(" --force").unwrap();
    let seal = &format!("{gentle} --force");
    assert_eq!(run(&folder, gentle).0, 3);
    let read_only = fs::Permissions::from_mode(0o444);
    fs::set_permissions(folder.file("book"), read_only).unwrap();
    assert_eq!(run(&folder, seal).0, 3);
    assert_eq!(fs::read(folder.file("book")).unwrap(), old);
}

/// The state folder `books` of before with forty days closed and an open one, `days` beside it, and
/// the commands that seal its days again.
fn forty(name: &str) -> (Folder, Before, String, Vec<String>) {
    let folder = Folder::new(&format!("older-readme-{name}"));
    write_days(&folder, &days(41));
    let state = Before {
        layout: Layout::tile(16, 2),
        days: days(40),
        open: days(41)[40][..5].to_vec(),
    };
    state.write(&folder, "books");
    let path = programs(&folder);
    let [_, commands] = &blocks_of_the_readme()[..] else {
        panic!("two blocks")
    };
    (folder, state, path, commands.clone())
}

#[test]
fn a_state_folder_by_the_readme() {
    let (folder, state, path, commands) = forty("state");
    let before = tree(&folder.file("books"));
    let (status, out, messages) = shell(&folder, &path, &commands);
    assert_eq!(
        (status, out.as_str()),
        (0, "interrupted no\nREF,2,0,0,0,0,32\n"),
        "{messages}"
    );
    let asked = fs::read_to_string(folder.file("asked")).unwrap();
    assert_eq!(asked, "status books\nverify --state books --days days\n");
    // the folder of before stays to the byte, and the same days stand in the new one
    assert_eq!(tree(&folder.file("books-0.7")), before);
    let index = fs::read_to_string(folder.file("books/index")).unwrap();
    assert_eq!(index, state.index());
    let new = fs::read(folder.file("books/book")).unwrap();
    assert_eq!(new, book(state.layout, &state.days));
    let (_, out, _) = run(&folder, "status books");
    assert!(
        out.contains("days 40\nopen 5\n") && out.ends_with("clean 32\n"),
        "{out}"
    );
    // it goes on
    let rest = &days(41)[40][5..];
    fs::write(folder.file("rest"), rest).unwrap();
    assert_eq!(run(&folder, "add books --day 41 --at 5 rest").0, 0);
    assert_eq!(run(&folder, "close books --day 41").0, 0);
    let again = "close books --day 41 days/day-41";
    assert!(run(&folder, again).2.contains("closed already"));
}

/// Stopped behind any line and begun again from there, it comes to the same; so does a line that is
/// done again.
#[test]
fn the_commands_of_the_readme_stopped() {
    let (folder, _, path, commands) = forty("whole");
    assert_eq!(shell(&folder, &path, &commands).0, 0);
    let whole = tree(&folder.file("books"));
    let first = commands
        .iter()
        .position(|line| line.starts_with("for "))
        .unwrap();
    let (setting, looping) = (&commands[first - 1..first], &commands[first..]);
    for days in [0, 1, 17, 40] {
        let (folder, _, path, commands) = forty(&format!("stopped-{days}"));
        assert_eq!(shell(&folder, &path, &commands[..first - 1]).0, 0);
        for g in 1..=days {
            let line = format!("close books --day {g} days/day-{g:02}");
            assert_eq!(run(&folder, &line).0, 0);
        }
        for _ in 0..2 {
            let again = [setting, looping].concat();
            let (status, _, messages) = shell(&folder, &path, &again);
            assert_eq!(status, 0, "{messages}");
            assert_eq!(tree(&folder.file("books")), whole, "{days}");
        }
        // the folder of before is not moved over
        let moving = commands[2].trim_end_matches(" &&").to_string();
        assert!(moving.trim_start().starts_with("mv "));
        assert_ne!(shell(&folder, &path, &[moving]).0, 0);
        assert_eq!(tree(&folder.file("books")), whole);
    }
}

/// A day that is not the one sealed before is found by the index, also one that no D covers yet.
#[test]
fn an_altered_day_is_found_by_the_index() {
    for altered in [7, 40] {
        let (folder, _, path, commands) = forty(&format!("altered-{altered}"));
        fs::write(folder.file(&format!("days/day-{altered:02}")), "other").unwrap();
        let (status, out, messages) = shell(&folder, &path, &commands);
        assert_ne!(status, 0);
        assert!((out + &messages).contains("differ"), "{altered}");
    }
}

/// The man page has the same commands.
#[test]
fn the_commands_of_the_man_page() {
    let page = include_str!("../../../docs/daybook.1");
    let page = page.replace("\\-", "-").replace("\\(aq", "'");
    for line in blocks_of_the_readme().concat() {
        let command = line.split(" #").next().unwrap().trim_end();
        let printed = page.lines().any(|line| line == command);
        assert!(printed, "{command}");
    }
}

/// The digest of a day, by which the indexes are compared, is the one of before.
#[test]
fn the_digest_of_a_day() {
    let hex = common::hex(&digest(b"abc"));
    assert_eq!(
        hex,
        "609f6e36d2405585188d5cfd761f407c7cc46a7d3f314c88270469dde315fcd1"
    );
    let folder = Folder::new("older-digest");
    fs::write(folder.file("abc"), "abc").unwrap();
    assert_eq!(run(&folder, "open s --scheme 1 --n 1 --f 1").0, 0);
    assert_eq!(run(&folder, "close s --day 1 abc").0, 0);
    let index = fs::read_to_string(folder.file("s/index")).unwrap();
    assert_eq!(index, format!("1,3,{hex},abc\n"));
}
