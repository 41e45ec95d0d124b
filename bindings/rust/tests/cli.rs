//! The program `daybook`: its lines, its exit statuses and its files.

mod common;

use std::fs::{self, File};
use std::path::Path;
use std::process::{Command, Stdio};

use common::{altered, book, days, ledger, table, Folder};
use daybook::Layout;

const PROGRAM: &str = env!("CARGO_BIN_EXE_daybook");
const FIGURE: &str = "REF,2,8,19,32,64,16\n\
    DAY,19\nDAY,20\nDAY,23\nDAY,24\nDAY,27\nDAY,28\nDAY,31\nDAY,32\n";

/// Exit status, standard output, standard error.
type Ran = (i32, String, String);

/// Runs the program in a folder, with the words of a line.
fn run(folder: &Folder, line: &str) -> Ran {
    let mut command = Command::new(PROGRAM);
    command.current_dir(folder.path());
    ended(command.args(line.split_whitespace()))
}

fn ended(command: &mut Command) -> Ran {
    let output = command.stdin(Stdio::null()).output().unwrap();
    let text = |bytes| String::from_utf8(bytes).unwrap();
    let status = output.status.code().unwrap();
    (status, text(output.stdout), text(output.stderr))
}

/// The line is done with this status and these lines.
fn done(folder: &Folder, line: &str, status: i32, lines: &str) {
    let ran = run(folder, line);
    assert_eq!(
        (ran.0, ran.1.as_str()),
        (status, lines),
        "{line}: {}",
        ran.2
    );
}

/// The line is refused with this number.
fn refused(folder: &Folder, line: &str, number: u32) {
    let (status, out, messages) = run(folder, line);
    assert_eq!((status, out), (2, format!("NO,{number}\n")), "{line}");
    let start = format!("daybook: refusal {number} (");
    assert!(messages.starts_with(&start), "{line}: {messages}");
}

/// The line is a fault, whose message has this text.
fn fault(folder: &Folder, line: &str, text: &str) {
    let (status, out, messages) = run(folder, line);
    assert_eq!((status, out.as_str()), (3, ""), "{line}: {messages}");
    assert!(messages.starts_with("daybook: "), "{line}: {messages}");
    assert!(messages.contains(text), "{line}: {messages}");
}

/// A folder of day files, in the order of the days.
fn write_days(folder: &Folder, name: &str, days: &[Vec<u8>]) {
    fs::create_dir(folder.file(name)).unwrap();
    for (g, day) in days.iter().enumerate() {
        let file = format!("{name}/day-{:03}", g + 1);
        fs::write(folder.file(&file), day).unwrap();
    }
}

fn write_ledger(folder: &Folder, days: &[Vec<u8>]) {
    let (bytes, ends) = ledger(days);
    fs::write(folder.file("ledger"), bytes).unwrap();
    write_ends(folder, &ends);
}

fn write_ends(folder: &Folder, ends: &[u32]) {
    let bytes: Vec<u8> = ends.iter().flat_map(|end| end.to_le_bytes()).collect();
    fs::write(folder.file("ends"), bytes).unwrap();
}

/// The names in a folder.
fn names(path: &Path) -> Vec<String> {
    let entries = fs::read_dir(path).unwrap();
    let name = |entry: std::io::Result<fs::DirEntry>| entry.unwrap().file_name();
    let mut names: Vec<String> = entries
        .map(|entry| name(entry).into_string().unwrap())
        .collect();
    names.sort();
    names
}

/// Eight days in a folder and in a ledger, sealed under scheme 2, N 4, F 2.
fn eight(name: &str) -> Folder {
    let folder = Folder::new(name);
    write_days(&folder, "in", &days(8));
    write_ledger(&folder, &days(8));
    fs::write(folder.file("book"), book(Layout::tile(4, 2), &days(8))).unwrap();
    folder
}

#[test]
fn the_figure_of_001() {
    let folder = Folder::new("figure");
    let layout = "--scheme 2 --n 16 --f 2 --days in --book book";
    let (seal, verify) = (format!("seal {layout}"), format!("verify {layout}"));
    let days = days(64);
    write_days(&folder, "in", &days);
    done(&folder, &seal, 0, "");
    let sealed = fs::read(folder.file("book")).unwrap();
    assert_eq!(sealed, book(Layout::tile(16, 2), &days));
    done(&folder, &verify, 0, "REF,2,0,0,0,0,64\n");
    for day in ["in/day-019", "in/day-020", "in/day-027"] {
        let mut bytes = fs::read(folder.file(day)).unwrap();
        bytes[0] ^= 1;
        fs::write(folder.file(day), bytes).unwrap();
    }
    done(&folder, &verify, 1, FIGURE);
    let check = verify.replace("verify", "check") + " --outcomes table";
    done(&folder, &check, 1, "");
    let read = "read --scheme 2 --n 16 --f 2 --d 64 --outcomes table";
    done(&folder, read, 1, FIGURE);
}

#[test]
fn altered_folders_under_each_layout() {
    let cases = [
        ("--scheme 1 --n 2 --f 2", vec![3], "REF,1,6,3,4,8,2\n", 3..9),
        ("--scheme 2 --n 4 --f 2", vec![8], "REF,2,1,8,7,8,4\n", 8..9),
        ("--scheme 3 --n 4 --f 1", vec![5], "REF,3,1,5,4,8,4\n", 5..6),
    ];
    for (layout, changed, first_line, listed) in cases {
        let folder = Folder::new(&format!("altered-{}", &layout[9..10]));
        write_days(&folder, "in", &days(8));
        write_days(&folder, "now", &altered(&days(8), &changed));
        done(
            &folder,
            &format!("seal {layout} --days in --book book"),
            0,
            "",
        );
        let listed: String = listed.map(|day| format!("DAY,{day}\n")).collect();
        let verify = format!("verify {layout} --days now --book book");
        done(&folder, &verify, 1, &(first_line.to_string() + &listed));
        write_ledger(&folder, &altered(&days(8), &changed));
        let verify = format!("verify {layout} --ledger ledger --ends ends --book book");
        done(&folder, &verify, 1, &(first_line.to_string() + &listed));
    }
}

#[test]
fn both_sources_give_the_same_book() {
    let layouts = [Layout::black(4, 2), Layout::tile(4, 2), Layout::tree(4)];
    for layout in layouts {
        let folder = eight(&format!("sources-{}", layout.scheme));
        let options = format!(
            "--scheme {} --n {} --f {}",
            layout.scheme, layout.n, layout.f
        );
        let by = |source: &str| {
            done(
                &folder,
                &format!("seal {options} {source} --book made"),
                0,
                "",
            );
            fs::read(folder.file("made")).unwrap()
        };
        let expected = book(layout, &days(8));
        assert_eq!(by("--days in"), expected);
        assert_eq!(by("--ledger ledger --ends ends"), expected);
        assert_eq!(by("--ledger ledger --ends ends --d 8"), expected);
    }
}

#[test]
fn check_writes_outcomes_and_digests() {
    let folder = eight("outcomes");
    let check = "check --scheme 2 --n 4 --f 2 --book book --outcomes table";
    done(&folder, &format!("{check} --days in"), 0, "");
    assert_eq!(fs::read(folder.file("table")).unwrap(), [1; 8]);
    let now = altered(&days(8), &[2, 7]);
    write_ledger(&folder, &now);
    let line = format!("{check} --ledger ledger --ends ends --digests digests");
    done(&folder, &line, 1, "");
    assert_eq!(
        fs::read(folder.file("table")).unwrap(),
        table(Layout::tile(4, 2), 8, &[2, 7])
    );
    let digests: Vec<u8> = now.iter().flat_map(|day| common::digest(day)).collect();
    assert_eq!(fs::read(folder.file("digests")).unwrap(), digests);
}

#[test]
fn the_lines_of_readtable() {
    let folder = Folder::new("lines");
    fs::write(folder.file("table"), [1, 1, 1, 1, 0, 0, 1, 0]).unwrap();
    let read = "read --scheme 2 --n 4 --f 1 --d 8 --outcomes table";
    done(&folder, read, 1, "REF,2,2,6,5,8,4\nDAY,6\nDAY,8\n");
    fs::write(folder.file("table"), [1; 8]).unwrap();
    done(&folder, read, 0, "REF,2,0,0,0,0,8\n");
    fs::write(folder.file("table"), [1, 1, 1, 1, 1, 1, 1, 1, 9]).unwrap();
    done(&folder, read, 0, "REF,2,0,0,0,0,8\n");
    let note = "note: D 8 has 8 outcomes";
    assert!(run(&folder, read).2.contains(note));
}

#[test]
fn refusals_of_settings_and_days() {
    let folder = eight("settings");
    let rests = [
        "seal --days in --book made",
        "seal --ledger ledger --ends ends --book made",
        "check --days in --book book --outcomes table",
        "verify --ledger ledger --ends ends --book book",
        "read --d 8 --outcomes book",
        "search --d 8 --outcomes book",
    ];
    for rest in rests {
        let with = |layout: &str| format!("{rest} {layout}");
        refused(&folder, &with("--scheme 4 --n 0 --f 0"), 1);
        refused(&folder, &with("--scheme 1 --n 3 --f 0"), 2);
        refused(&folder, &with("--scheme 1 --n 512 --f 1"), 2);
        refused(&folder, &with("--scheme 1 --n 1 --f 65"), 3);
        refused(&folder, &with("--scheme 3 --n 1 --f 2"), 3);
        refused(&folder, &with("--scheme 1 --n 4 --f 3"), 7);
    }
    assert_eq!(names(folder.path()), ["book", "ends", "in", "ledger"]);
    let seal = "seal --scheme 1 --n 1 --f 1 --book made --days in";
    for d in ["0", "65537", "4294967295"] {
        refused(&folder, &format!("{seal} --d {d}"), 7);
    }
    fs::create_dir(folder.file("none")).unwrap();
    refused(
        &folder,
        "seal --scheme 1 --n 1 --f 1 --days none --book made",
        7,
    );
}

#[test]
fn refusals_of_ledgers() {
    let folder = eight("ledgers");
    let layout = "--scheme 2 --n 4 --f 2";
    let sources = ["--days in", "--ledger ledger --ends ends"];
    for source in sources {
        for command in [
            "seal --book made",
            "verify --book book",
            "check --book book --outcomes table",
        ] {
            refused(&folder, &format!("{command} {layout} {source} --d 16"), 9);
        }
    }
    let (_, ends) = ledger(&days(8));
    for (index, end) in [(0, ends[1] + 1), (7, ends[7] + 1), (7, u32::MAX), (5, 0)] {
        let mut ends = ends.clone();
        ends[index] = end;
        write_ends(&folder, &ends);
        let source = "--ledger ledger --ends ends";
        refused(&folder, &format!("seal {layout} {source} --book made"), 10);
        refused(
            &folder,
            &format!("verify {layout} {source} --book book"),
            10,
        );
    }
    assert_eq!(names(folder.path()), ["book", "ends", "in", "ledger"]);
}

#[test]
fn refusals_of_books_and_outcomes() {
    let folder = eight("tables");
    let layout = "--scheme 2 --n 4 --f 2";
    let verify = format!("verify {layout} --days in --book book");
    let check = format!("check {layout} --days in --book book --outcomes table");
    let bytes = fs::read(folder.file("book")).unwrap();
    fs::write(folder.file("book"), &bytes[..255]).unwrap();
    refused(&folder, &verify, 11);
    refused(&folder, &check, 11);
    fs::write(folder.file("book"), []).unwrap();
    refused(&folder, &verify, 11);

    // an altered book: the value of the first tile alone fails
    let mut other = bytes;
    other[0] ^= 1;
    fs::write(folder.file("book"), &other).unwrap();
    refused(&folder, &verify, 14);
    done(&folder, &check, 1, "");
    let read = format!("read {layout} --d 8 --outcomes table");
    refused(&folder, &read, 14);
    fs::write(folder.file("table"), [1; 7]).unwrap();
    refused(&folder, &read, 12);
    fs::write(folder.file("table"), [1, 1, 1, 1, 1, 1, 1, b'1']).unwrap();
    refused(&folder, &read, 13);
}

#[test]
fn a_day_too_long() {
    let folder = eight("long-day");
    let file = File::create(folder.file("in/day-003")).unwrap();
    file.set_len(16_777_217).unwrap();
    let layout = "--scheme 2 --n 4 --f 2 --days in";
    let seal = format!("seal {layout} --book made");
    refused(&folder, &seal, 4);
    assert!(run(&folder, &seal).2.contains("day 3, in/day-003"));
    refused(&folder, &format!("verify {layout} --book book"), 10);
    file.set_len(16_777_216).unwrap();
    done(&folder, &seal, 0, "");
    let verify = format!("verify {layout} --book made");
    done(&folder, &verify, 0, "REF,2,0,0,0,0,8\n");
}

#[test]
fn wrong_words() {
    let folder = Folder::new("words");
    for line in [
        "",
        "seel",
        "seal",
        "seal --scheme",
        "seal --scheme 1 --scheme 1",
        "seal --scheme one --n 1 --f 1 --days in --book book",
        "seal --scheme 1 --n 01 --f 1 --days in --book book",
        "seal --scheme 1 --n 1 --f 4294967296 --days in --book book",
        "seal --scheme 1 --n 1 --f 1 --days in --ends ends --book book",
        "seal --scheme 1 --n 1 --f 1 --days in --book book --outcomes table",
        "read --scheme 1 --n 1 --f 1 --outcomes table",
        "read --scheme 1 --n 1 --f 1 --d -1 --outcomes table",
        "check --scheme 1 --n 1 --f 1 --days in --book book",
        "verify --scheme 1 --n 1 --f 1 --book book",
    ] {
        fault(&folder, line, "Try: daybook --help");
    }
}

#[test]
fn help() {
    let folder = Folder::new("help");
    for (line, start) in [
        ("--help", "daybook: seal, check and read"),
        ("seal --help", "daybook seal --scheme"),
        ("check --help", "daybook check --scheme"),
        ("read --help", "daybook read --scheme"),
        ("search --help", "daybook search --scheme"),
        ("verify -h", "daybook verify --scheme"),
        ("forecast --help", "daybook forecast --scheme"),
        ("locate --help", "daybook locate --scheme"),
        ("ambiguity --help", "daybook ambiguity [--line]"),
    ] {
        let (status, out, messages) = run(&folder, line);
        assert_eq!((status, messages.as_str()), (0, ""));
        assert!(out.starts_with(start), "{line}: {out}");
    }
}

#[test]
fn missing_files() {
    let folder = eight("missing");
    let layout = "--scheme 2 --n 4 --f 2";
    for line in [
        "seal --days none --book made",
        "seal --ledger none --ends ends --book made",
        "seal --ledger ledger --ends none --book made",
        "check --days in --book none --outcomes table",
        "verify --days in --book none",
        "read --d 8 --outcomes none",
        "verify --days book --book book",
        "verify --days in --book in",
    ] {
        fault(&folder, &format!("{line} {layout}"), "cannot be read");
    }
    for line in [
        "seal --days in --book none/made",
        "seal --days in --book .",
        "check --days in --book book --outcomes none/table",
        "check --days in --book book --outcomes table --digests in",
    ] {
        fault(&folder, &format!("{line} {layout}"), "cannot be written");
    }
    assert_eq!(names(folder.path()), ["book", "ends", "in", "ledger"]);
}

#[test]
fn files_without_their_form() {
    let folder = eight("form");
    fs::write(folder.file("ends"), [0; 33]).unwrap();
    fault(
        &folder,
        "seal --scheme 2 --n 4 --f 2 --ledger ledger --ends ends --book made",
        "not a multiple of 4",
    );
}

#[test]
fn every_entry_of_the_folder_counts() {
    let folder = eight("entries");
    let seal = "seal --scheme 1 --n 1 --f 1 --days in --book made";
    fs::write(folder.file("in/.hidden"), "first").unwrap();
    done(&folder, seal, 0, "");
    assert_eq!(fs::read(folder.file("made")).unwrap().len(), 9 * 32);
    fs::create_dir(folder.file("in/sub")).unwrap();
    fault(&folder, seal, "in/sub");
    fs::remove_dir(folder.file("in/sub")).unwrap();
    std::os::unix::fs::symlink("nothing", folder.file("in/link")).unwrap();
    fault(&folder, seal, "in/link");
}

#[test]
fn byte_order_of_names() {
    let folder = Folder::new("order");
    fs::create_dir(folder.file("in")).unwrap();
    let order = ["10", "9", "B", "a", "é"];
    for name in order.iter().rev() {
        fs::write(folder.file("in").join(name), name).unwrap();
    }
    let seal = "seal --scheme 1 --n 1 --f 1 --days in --book made";
    done(&folder, seal, 0, "");
    let days: Vec<Vec<u8>> = order.iter().map(|name| name.as_bytes().to_vec()).collect();
    assert_eq!(
        fs::read(folder.file("made")).unwrap(),
        book(Layout::black(1, 1), &days)
    );
}

#[test]
fn the_first_days_alone() {
    let folder = eight("first");
    let layout = "--scheme 2 --n 4 --f 1 --days in";
    let seal = format!("seal {layout} --d 4 --book made");
    done(&folder, &seal, 0, "");
    let four = book(Layout::tile(4, 1), &days(4));
    assert_eq!(fs::read(folder.file("made")).unwrap(), four);
    // the front of a longer book, where D is given
    let verify = format!("verify {layout} --d 4 --book book");
    done(&folder, &verify, 0, "REF,2,0,0,0,0,4\n");
}

#[test]
fn a_book_of_more_days_than_there_are() {
    let folder = eight("fewer");
    let layout = "--scheme 2 --n 4 --f 1 --days in --book book";
    for g in 5..=8 {
        fs::remove_file(folder.file(&format!("in/day-00{g}"))).unwrap();
    }
    fault(&folder, &format!("verify {layout}"), "days are missing");
    let check = format!("check {layout} --outcomes table");
    fault(&folder, &check, "days are missing");
    let verify = format!("verify {layout} --d 4");
    done(&folder, &verify, 0, "REF,2,0,0,0,0,4\n");
}

#[test]
fn a_ledger_past_its_last_end() {
    let folder = eight("tail");
    let file = File::options().write(true).open(folder.file("ledger"));
    file.unwrap().set_len(5_000_000_000).unwrap();
    let verify = "verify --scheme 2 --n 4 --f 2 --ledger ledger --ends ends --book book";
    let (status, out, messages) = run(&folder, verify);
    assert_eq!((status, out.as_str()), (0, "REF,2,0,0,0,0,8\n"));
    assert!(messages.contains("note: the ledger has bytes past the last end"));
}

#[test]
fn a_folder_too_long_for_ends() {
    let folder = Folder::new("long");
    fs::create_dir(folder.file("in")).unwrap();
    for g in 0..256 {
        let file = File::create(folder.file(&format!("in/{g:03}"))).unwrap();
        file.set_len(16_777_216).unwrap();
    }
    fs::write(folder.file("book"), [0; 32]).unwrap();
    let layout = "--scheme 1 --n 256 --f 1 --days in --book book";
    fault(&folder, &format!("verify {layout}"), "4294967295");
    let check = format!("check {layout} --outcomes table");
    fault(&folder, &check, "4294967295");
}

#[test]
fn files_are_not_mixed_up() {
    let folder = eight("mixed");
    let layout = "--scheme 2 --n 4 --f 2";
    for (line, text) in [
        ("seal --days in --book in/made", "would be a day"),
        (
            "seal --ledger ledger --ends ends --book ./ends",
            "the same file",
        ),
        (
            "check --days in --book book --outcomes book",
            "the same file",
        ),
        (
            "check --days in --book book --outcomes new --digests in/../new",
            "the same file",
        ),
        (
            "check --days in --book book --outcomes in/day-001",
            "would be a day",
        ),
    ] {
        fault(&folder, &format!("{line} {layout}"), text);
    }
    assert_eq!(names(folder.path()), ["book", "ends", "in", "ledger"]);
}

#[test]
fn the_book_is_replaced_whole() {
    let folder = eight("replaced");
    let seal = "seal --scheme 1 --n 8 --f 1 --days in --book made --force";
    fs::write(folder.file("made"), [9; 1000]).unwrap();
    done(&folder, seal, 0, "");
    let expected = book(Layout::black(8, 1), &days(8));
    assert_eq!(fs::read(folder.file("made")).unwrap(), expected);
    // through a link, which stays
    fs::write(folder.file("old"), [9; 1000]).unwrap();
    std::os::unix::fs::symlink("old", folder.file("link")).unwrap();
    done(&folder, &seal.replace("made", "link"), 0, "");
    assert_eq!(fs::read(folder.file("old")).unwrap(), expected);
    assert!(folder.file("link").is_symlink());
}

#[test]
fn the_old_file_stays_after_a_refusal_or_a_fault() {
    let folder = eight("old");
    let old = [9; 100];
    fs::write(folder.file("made"), old).unwrap();
    let before = names(folder.path());
    let seal = "seal --scheme 2 --n 4 --f 2 --days in --book made";
    refused(&folder, &seal.replace("--n 4", "--n 256"), 7);
    let file = File::create(folder.file("in/day-008")).unwrap();
    file.set_len(16_777_217).unwrap();
    refused(&folder, seal, 4);
    fs::create_dir(folder.file("in/sub")).unwrap();
    fault(&folder, seal, "in/sub");
    fault(
        &folder,
        "check --scheme 2 --n 4 --f 2 --ledger ledger --ends ends --book none --outcomes made",
        "none",
    );
    assert_eq!(fs::read(folder.file("made")).unwrap(), old);
    assert_eq!(names(folder.path()), before);
}

/// Runs the program where no file can grow past 0 bytes, as on a full disk.
fn run_full(folder: &Folder, line: &str) -> Ran {
    let script = "trap '' XFSZ; ulimit -f 0; exec \"$0\" \"$@\"";
    let mut command = Command::new("sh");
    command.current_dir(folder.path());
    command.args(["-c", script, PROGRAM]);
    ended(command.args(line.split_whitespace()))
}

#[test]
fn the_old_file_stays_when_the_disk_is_full() {
    let folder = eight("full");
    let old = [9; 100];
    fs::write(folder.file("made"), old).unwrap();
    let before = names(folder.path());
    for line in [
        "seal --scheme 2 --n 4 --f 2 --days in --book made --force",
        "seal --scheme 2 --n 4 --f 2 --days in --book new",
        "check --scheme 2 --n 4 --f 2 --days in --book book --outcomes made --digests new",
    ] {
        let (status, out, messages) = run_full(&folder, line);
        assert_eq!((status, out.as_str()), (3, ""), "{messages}");
        assert!(messages.contains("cannot be written"), "{messages}");
        assert_eq!(fs::read(folder.file("made")).unwrap(), old);
        assert_eq!(names(folder.path()), before);
    }
}

#[test]
fn standard_output_that_cannot_be_written() {
    let folder = eight("stdout");
    let line = "verify --scheme 2 --n 4 --f 2 --days in --book book";
    let full = File::options().write(true).open("/dev/full").unwrap();
    let status = Command::new(PROGRAM)
        .current_dir(folder.path())
        .args(line.split_whitespace())
        .stdout(full)
        .stderr(Stdio::null())
        .status();
    assert_eq!(status.unwrap().code(), Some(3));
}
