//! What the program says to the clerk who opens the files: names, the days found and the book, which
//! day or value a refusal is about, and what is shown on a terminal.

mod common;

use std::ffi::OsStr;
use std::fs;
use std::os::unix::ffi::OsStrExt;
use std::process::{Command, Stdio};

use common::{altered, book, days, ledger, Folder};
use daybook::Layout;

const PROGRAM: &str = env!("CARGO_BIN_EXE_daybook");
/// Scheme 2, N 16, F 2, days 19, 20 and 27 altered.
const LISTED: [u32; 8] = [19, 20, 23, 24, 27, 28, 31, 32];

/// Runs the program in a folder; gives exit status, standard output, standard error.
fn run(folder: &Folder, line: &str) -> (i32, String, String) {
    let output = Command::new(PROGRAM)
        .current_dir(folder.path())
        .args(line.split_whitespace())
        .stdin(Stdio::null())
        .output()
        .unwrap();
    let text = |bytes| String::from_utf8(bytes).unwrap();
    let status = output.status.code().unwrap();
    (status, text(output.stdout), text(output.stderr))
}

/// The line ends with this status and these lines, and with these messages.
fn said(folder: &Folder, line: &str, (status, out): (i32, &str), messages: &[&str]) {
    let ran = run(folder, line);
    assert_eq!((ran.0, ran.1.as_str()), (status, out), "{line}: {}", ran.2);
    let lines: Vec<&str> = ran.2.lines().collect();
    assert_eq!(lines, messages, "{line}");
}

/// The days as files named by `name`.
fn write_days(folder: &Folder, days: &[Vec<u8>], name: impl Fn(usize) -> Vec<u8>) {
    fs::create_dir(folder.file("in")).unwrap();
    for (place, day) in days.iter().enumerate() {
        let name = name(place + 1);
        let path = folder.file("in").join(OsStr::from_bytes(&name));
        fs::write(path, day).unwrap();
    }
}

fn numbered(day: usize) -> Vec<u8> {
    format!("day-{day:02}").into_bytes()
}

/// 64 days of which 19, 20 and 27 are altered, and their book under scheme 2, N 16, F 2.
fn figure(name: &str) -> Folder {
    let folder = Folder::new(&format!("clerk-{name}"));
    write_days(&folder, &altered(&days(64), &[19, 20, 27]), numbered);
    fs::write(folder.file("book"), book(Layout::tile(16, 2), &days(64))).unwrap();
    folder
}

/// So many unaltered days, and the book of the first `sealed` of them.
fn sealed(name: &str, layout: Layout, found: u32, sealed: u32) -> Folder {
    let folder = Folder::new(&format!("clerk-{name}"));
    write_days(&folder, &days(found), numbered);
    fs::write(folder.file("book"), book(layout, &days(sealed))).unwrap();
    folder
}

#[test]
fn names_in_the_lines() {
    let folder = figure("names");
    let layout = "--scheme 2 --n 16 --f 2";
    let verify = format!("verify {layout} --days in --book book");
    let mut plain = String::from("REF,2,8,19,32,64,16\n");
    let mut named = plain.clone();
    for day in LISTED {
        plain += &format!("DAY,{day}\n");
        named += &format!("DAY,{day},day-{day}\n");
    }
    said(&folder, &verify, (1, &plain), &[]);
    said(&folder, &format!("{verify} --names"), (1, &named), &[]);
    let check = verify.replace("verify", "check");
    run(&folder, &format!("{check} --outcomes table"));
    let read = format!("read {layout} --d 64 --outcomes table --days in");
    said(&folder, &read, (1, &plain), &[]);
    said(&folder, &format!("{read} --names"), (1, &named), &[]);
}

#[test]
fn names_of_any_bytes() {
    let folder = Folder::new("clerk-bytes");
    let names: [&[u8]; 5] = [b"1\n,2%.csv", b"2 \xff", b"3\xc3\xa9", b"4\x1b[31m", b"5"];
    write_days(&folder, &altered(&days(5), &[1, 2, 3, 4]), |day| {
        names[day - 1].to_vec()
    });
    fs::write(folder.file("book"), book(Layout::tree(1), &days(5))).unwrap();
    let verify = "verify --scheme 3 --n 1 --f 1 --days in --book book --names --passed 0";
    let lines =
        "REF,3,4,1,0,5,0\nDAY,1,1%0A%2C2%25.csv\nDAY,2,2 %FF\nDAY,3,3%C3%A9\nDAY,4,4%1B[31m\n";
    said(&folder, verify, (1, lines), &[]);
}

#[test]
fn names_not_in_the_order_of_their_numbers() {
    let folder = Folder::new("clerk-order");
    write_days(&folder, &days(11), |day| format!("{day}.csv").into_bytes());
    let warning =
        "daybook: warning: days go in byte order of the names, and so 11.csv comes before 2.csv";
    let seal = "seal --scheme 1 --n 1 --f 1 --days in --book book";
    let done = "daybook: sealed: days 11, values 11";
    said(&folder, seal, (0, ""), &[warning, done]);
    let verify = seal.replace("seal", "verify");
    said(&folder, &verify, (0, "REF,1,0,0,0,0,11\n"), &[warning]);
}

#[test]
fn d_from_the_book() {
    // the book of 64 to 79 days does not tell which of 70 files are its days, the first perhaps a stray
    let folder = sealed("later", Layout::tile(16, 2), 70, 70);
    let verify = "verify --scheme 2 --n 16 --f 2 --days in --book book";
    let ran = run(&folder, verify);
    assert_eq!((ran.0, ran.1.as_str()), (2, "NO,7\n"));
    fs::write(folder.file("in/day-00"), "stray").unwrap();
    let ran = run(&folder, verify);
    assert_eq!((ran.0, ran.1.as_str()), (2, "NO,7\n"));
    // under the tree every day has values
    let folder = sealed("later-tree", Layout::tree(4), 9, 9);
    let verify = "verify --scheme 3 --n 4 --f 1 --days in --book book";
    let note = "daybook: note: 9 days found, and the book is of as many. Days 1 to 8 are taken; \
                day 9 (day-09) is not yet checkable, since D is a multiple of 4";
    said(&folder, verify, (0, "REF,3,0,0,0,0,8\n"), &[note]);
    // an altered day is found, one not yet checkable is not
    fs::write(folder.file("in/day-09"), "altered").unwrap();
    said(&folder, verify, (0, "REF,3,0,0,0,0,8\n"), &[note]);
    fs::remove_file(folder.file("in/day-09")).unwrap();
    assert_eq!(run(&folder, verify).0, 3);
}

#[test]
fn a_stray_file() {
    let verify = "verify --scheme 2 --n 16 --f 2 --days in --book book";
    for name in [".lock", "day-12.bak", "notes"] {
        let folder = sealed(&format!("stray{name}"), Layout::tile(16, 2), 64, 64);
        fs::write(folder.file("in").join(name), "").unwrap();
        let (status, out, messages) = run(&folder, verify);
        assert_eq!((status, out.as_str()), (2, "NO,7\n"));
        let lines: Vec<&str> = messages.lines().collect();
        assert!(lines[1].starts_with("daybook: 65 files found, from "));
        assert!(lines[1]
            .ends_with("; the book's 24 values are those of 64 days (day 80 would add to them)"));
        let stray = format!("daybook: not named as the others are: {name}");
        assert_eq!(lines[2..], [stray]);
    }
    let folder = sealed("beyond", Layout::tree(16), 65, 64);
    said(
        &folder,
        "verify --scheme 3 --n 16 --f 1 --days in --book book",
        (2, "NO,7\n"),
        &[
            "daybook: refusal 7 (scheme 3, N 16, F 1, D 65, days found 65): D is not from 1 to \
             65,536 and a multiple of F times N",
            "daybook: 65 files found, from day-01 to day-65; the book's 128 values are those of 64 \
             days",
            "daybook: beyond the book's days: day-65",
        ],
    );
}

#[test]
fn a_missing_file() {
    let folder = sealed("missing", Layout::tile(16, 2), 64, 64);
    fs::remove_file(folder.file("in/day-27")).unwrap();
    said(
        &folder,
        "verify --scheme 2 --n 16 --f 2 --days in --book book",
        (2, "NO,7\n"),
        &[
            "daybook: refusal 7 (scheme 2, N 16, F 2, D 63, days found 63): D is not from 1 to \
             65,536 and a multiple of F times N",
            "daybook: 63 files found, from day-01 to day-64; the book's 24 values are those of 64 \
             days (day 80 would add to them)",
            "daybook: left out in the numbering: day-27",
        ],
    );
    let (status, out, messages) = run(
        &folder,
        "verify --scheme 2 --n 16 --f 2 --d 64 --days in --book book",
    );
    assert_eq!((status, out.as_str()), (2, "NO,9\n"));
    assert!(messages.ends_with("daybook: left out in the numbering: day-27\n"));
    // where D may be the number of files, a day that is missing is a fault as before
    let folder = sealed("missing-one", Layout::black(1, 1), 8, 8);
    fs::remove_file(folder.file("in/day-03")).unwrap();
    said(
        &folder,
        "verify --scheme 1 --n 1 --f 1 --days in --book book",
        (3, ""),
        &[
            "daybook: book has more values than the 7 days found: days are missing, or the book is \
             of another layout. Give --d 7 if these days alone are meant",
            "daybook: 7 files found, from day-01 to day-08; the book's 8 values are those of 8 days \
             (day 9 would add to them)",
            "daybook: left out in the numbering: day-03",
        ],
    );
}

/// A day is never missed: whatever files are taken away or put in, clean is said only of days that
/// stand in the book as they are.
#[test]
fn no_missing_day_is_clean() {
    for layout in [Layout::black(4, 2), Layout::tile(4, 2), Layout::tree(4)] {
        let line = format!(
            "verify --scheme {} --n {} --f {} --days in --book book",
            layout.scheme, layout.n, layout.f
        );
        for gone in 1..=16 {
            let folder = sealed(&format!("gone-{}-{gone}", layout.scheme), layout, 16, 16);
            fs::remove_file(folder.file(&format!("in/day-{gone:02}"))).unwrap();
            let (status, out, _) = run(&folder, &line);
            assert_eq!((status, out.as_str()), (2, "NO,7\n"), "{layout}, {gone}");
        }
        let short = sealed(&format!("cut-{}", layout.scheme), layout, 17, 8);
        let (status, out, _) = run(&short, &line);
        assert_eq!((status, out.as_str()), (2, "NO,7\n"), "{layout}");
    }
}

#[test]
fn a_short_book() {
    let folder = sealed("short", Layout::black(1, 1), 5, 4);
    said(
        &folder,
        "verify --scheme 1 --n 1 --f 1 --days in --book book",
        (2, "NO,11\n"),
        &[
            "daybook: refusal 11 (scheme 1, N 1, F 1, D 5, days found 5): the book has fewer than 32 \
             bytes for each value",
            "daybook: the book has 128 bytes, and 5 values need 160",
            "daybook: 5 files found, from day-01 to day-05; the book's 4 values are those of 4 days \
             (day 5 would add to them)",
            "daybook: beyond the book's days: day-05",
        ],
    );
}

#[test]
fn the_day_of_refusal_10() {
    let folder = Folder::new("clerk-ends");
    let (bytes, ends) = ledger(&days(8));
    fs::write(folder.file("ledger"), &bytes).unwrap();
    fs::write(folder.file("book"), book(Layout::tile(4, 2), &days(8))).unwrap();
    let length = bytes.len();
    let cases = [
        (
            0,
            ends[1] + 1,
            format!(
                "day 2 ends at {}, before it starts at {}",
                ends[1],
                ends[1] + 1
            ),
        ),
        (
            7,
            ends[7] + 1,
            format!(
                "day 8 ends at {}, and the ledger has {length} bytes",
                ends[7] + 1
            ),
        ),
        (
            5,
            0,
            format!("day 6 ends at 0, before it starts at {}", ends[4]),
        ),
    ];
    for (place, end, text) in cases {
        let mut ends = ends.clone();
        ends[place] = end;
        let bytes: Vec<u8> = ends.iter().flat_map(|end| end.to_le_bytes()).collect();
        fs::write(folder.file("ends"), bytes).unwrap();
        for command in ["seal --book made", "verify --book book"] {
            let line = format!("{command} --scheme 2 --n 4 --f 2 --ledger ledger --ends ends");
            let (status, out, messages) = run(&folder, &line);
            assert_eq!((status, out.as_str()), (2, "NO,10\n"));
            assert_eq!(
                messages.lines().nth(1),
                Some(format!("daybook: {text}").as_str())
            );
        }
    }
}

#[test]
fn the_long_day_of_refusal_10() {
    let folder = sealed("long", Layout::tile(4, 2), 8, 8);
    let file = fs::File::create(folder.file("in/day-03")).unwrap();
    file.set_len(16_777_217).unwrap();
    let line = "verify --scheme 2 --n 4 --f 2 --days in --book book";
    let (status, out, messages) = run(&folder, line);
    assert_eq!((status, out.as_str()), (2, "NO,10\n"));
    let text = "daybook: day 3 (day-03) has more than 16777216 bytes";
    assert_eq!(messages.lines().nth(1), Some(text));
}

#[test]
fn the_value_of_refusal_14() {
    let folder = sealed("value", Layout::tile(4, 2), 8, 8);
    let mut bytes = fs::read(folder.file("book")).unwrap();
    bytes[7 * 32] ^= 1;
    fs::write(folder.file("book"), bytes).unwrap();
    said(
        &folder,
        "verify --scheme 2 --n 4 --f 2 --days in --book book",
        (2, "NO,14\n"),
        &[
            "daybook: refusal 14 (scheme 2, N 4, F 2, D 8): no set of changed days gives these \
             outcomes",
            "daybook: value 8 of the book (black at day 8, over days 1 to 8) fails, though each day \
             that it covers is in a value that passes",
        ],
    );
    fs::write(folder.file("table"), [1, 1, 3, 1, 1, 1, 1, 1]).unwrap();
    let (status, out, messages) = run(
        &folder,
        "read --scheme 2 --n 4 --f 2 --d 8 --outcomes table",
    );
    assert_eq!((status, out.as_str()), (2, "NO,13\n"));
    let text = "daybook: value 3 of the book (tile chain c(2) at day 4, over days 1, 3) is 3";
    assert_eq!(messages.lines().nth(1), Some(text));
}

/// Standard error on a terminal, made by script(1): summary and strip, and standard output as ever.
#[test]
fn on_a_terminal() {
    let folder = figure("terminal");
    let verify = "verify --scheme 2 --n 16 --f 2 --days in --book book >lines";
    let shown = Command::new("script")
        .current_dir(folder.path())
        .args(["-qec", &format!("'{PROGRAM}' {verify}"), "typed"])
        .stdin(Stdio::null())
        .output();
    let Ok(shown) = shown else {
        println!("no script(1) here: the test on a terminal is left out");
        return;
    };
    assert_eq!(shown.status.code(), Some(1));
    let text = String::from_utf8(shown.stdout).unwrap().replace('\r', "");
    let text = text.rsplit("\x1b[K").next().unwrap();
    let mut expected = String::from(
        "8 days of 64 may have been altered, the first is day 19 (day-19).\n\
         When: after the close of day 32, if the validation at day 32 was made and passed, and by \
         the end of day 64.\n\
         Last good: day 16 (day-16); up to it all days are as they were sealed.\nListed:\n",
    );
    for day in LISTED {
        expected += &format!("  day {day} (day-{day})\n");
    }
    expected += "Days, '#' for one that is listed:\n     1 ..................##..##..##..##\
                 ................................\n";
    assert_eq!(text, expected);
    let lines = fs::read_to_string(folder.file("lines")).unwrap();
    assert!(lines.starts_with("REF,2,8,19,32,64,16\nDAY,19\nDAY,20\n"));
}

/// Days in the folder `in`, closed one by one in the state folder `s` under scheme 3, N 4; then day 3
/// is altered. Days, ledger and ends hold the same.
fn service(name: &str, closed: u32) -> Folder {
    let folder = Folder::new(&format!("clerk-{name}"));
    write_days(&folder, &days(closed), numbered);
    assert_eq!(run(&folder, "open s --scheme 3 --n 4 --f 1").0, 0);
    for day in 1..=closed {
        let close = format!("close s --day {day} in/day-{day:02}");
        assert_eq!(run(&folder, &close).0, 0);
    }
    let now = altered(&days(closed), &[3]);
    fs::write(folder.file("in/day-03"), &now[2]).unwrap();
    let (bytes, ends) = ledger(&now);
    fs::write(folder.file("ledger"), bytes).unwrap();
    let ends: Vec<u8> = ends.iter().flat_map(|end| end.to_le_bytes()).collect();
    fs::write(folder.file("ends"), ends).unwrap();
    folder
}

/// What is said of low where the folder keeps no day as verified clean.
const NONE_KEPT: &str = "daybook: note: low supposes that the validation at day 4 was made and \
    passed; this folder keeps no day below 8 as verified clean; --passed kept takes 0";

#[test]
fn names_of_a_state() {
    let folder = service("state", 8);
    let lines = |name: &str| format!("REF,3,1,3,4,8,0\nDAY,3{name}\n");
    let verify = "verify --state s --days in";
    said(&folder, verify, (1, &lines("")), &[NONE_KEPT]);
    let named = format!("{verify} --names --figure=out.svg");
    said(&folder, &named, (1, &lines(",day-03")), &[NONE_KEPT]);
    assert!(folder.file("out.svg").is_file());
    // without a folder the names are those of the index
    let verify = "verify --state s --ledger ledger --ends ends --names";
    said(&folder, verify, (1, &lines(",in/day-03")), &[NONE_KEPT]);
    run(&folder, "check --state s --days in --outcomes table");
    let read = "read --state s --outcomes table --names";
    said(&folder, read, (1, &lines(",in/day-03")), &[NONE_KEPT]);
    let read = "read --state s --outcomes table --names --days in";
    said(&folder, read, (1, &lines(",day-03")), &[NONE_KEPT]);
    let (status, _, messages) = run(&folder, "verify --state s --days in --figure s/new.svg");
    assert_eq!(status, 3, "{messages}");
}

#[test]
fn days_that_are_not_those_of_a_state() {
    let folder = service("state-stray", 8);
    fs::write(folder.file("in/.lock"), "").unwrap();
    let (status, _, messages) = run(&folder, "verify --state s --days in");
    assert_eq!(status, 1);
    let lines: Vec<&str> = messages.lines().collect();
    assert_eq!(
        lines,
        [
            "daybook: note: 9 files found, from .lock to day-08; 8 days are closed",
            "daybook: note: not named as the others are: .lock",
            "daybook: note: day 1 was sealed from in/day-01, and is the file .lock here",
            "daybook: note: no value of the book passes. Each may cover an altered day; or these \
             may not be the days that were sealed in this season: by the folder's record the book \
             is of version 0.8.0 or later, and of this layout",
            NONE_KEPT,
        ]
    );
    fs::remove_file(folder.file("in/.lock")).unwrap();
    fs::remove_file(folder.file("in/day-05")).unwrap();
    let (status, out, messages) = run(&folder, "check --state s --days in --outcomes table");
    assert_eq!((status, out.as_str()), (2, "NO,9\n"));
    assert!(messages.contains("note: 7 files found, from day-01 to day-08; 8 days are closed\n"));
    assert!(messages.contains("note: left out in the numbering: day-05\n"));
    assert!(
        messages.contains("note: day 5 was sealed from in/day-05, and is the file day-06 here\n")
    );
}

/// The commands of README.md, in the part on the service, run as they are printed.
#[test]
fn the_commands_of_the_readme() {
    let folder = Folder::new("clerk-readme");
    fs::create_dir(folder.file("days")).unwrap();
    let (morning, noon) = ("m".repeat(1800), "n".repeat(700));
    for (name, bytes) in [
        ("morning", morning.as_str()),
        ("noon", noon.as_str()),
        ("days/day-01", "rye 12"),
        ("days/day-02", "oats 7"),
        ("days/day-03", &(morning.clone() + &noon)),
    ] {
        fs::write(folder.file(name), bytes).unwrap();
    }
    let page = concat!(env!("CARGO_MANIFEST_DIR"), "/../../README.md");
    let page = fs::read_to_string(page).unwrap();
    let (_, part) = page.split_once("## A service, day by day").unwrap();
    let (part, _) = part.split_once("\n## ").unwrap();
    let lines = part
        .lines()
        .filter_map(|line| line.strip_prefix("    daybook "));
    let lines: Vec<&str> = lines.map(|line| line.split('#').next().unwrap()).collect();
    assert_eq!(lines.len(), 9);
    let mut out = String::new();
    for line in lines {
        let ran = run(&folder, line);
        assert_eq!(ran.0, 0, "{line}: {}", ran.2);
        out = ran.1;
    }
    assert_eq!(out, "REF,3,0,0,0,0,3\n");
    assert!(folder.file("found.svg").is_file());
}

#[test]
fn version_and_help() {
    let folder = Folder::new("clerk-help");
    let version = format!("daybook {}\n", env!("CARGO_PKG_VERSION"));
    said(&folder, "--version", (0, &version), &[]);
    let all = run(&folder, "--help").1;
    said(&folder, "help", (0, &all), &[]);
    for command in [
        "open",
        "add",
        "close",
        "status",
        "seal",
        "check",
        "read",
        "search",
        "verify",
        "forecast",
        "locate",
        "ambiguity",
    ] {
        assert!(all.contains(&format!("daybook {command} ")), "{command}");
        let text = run(&folder, &format!("{command} --help")).1;
        said(&folder, &format!("help {command}"), (0, &text), &[]);
    }
    assert_eq!(run(&folder, "help nothing").0, 3);
}

/// The man page has every command and every option that the helps have.
#[test]
fn the_man_page_has_every_option() {
    let folder = Folder::new("clerk-man");
    let path = concat!(env!("CARGO_MANIFEST_DIR"), "/../../docs/daybook.1");
    let page = fs::read_to_string(path).unwrap().replace("\\-", "-");
    let all = run(&folder, "help").1;
    let commands = all
        .lines()
        .filter_map(|line| line.strip_prefix("  daybook "));
    let mut options = 0;
    for command in commands.filter_map(|line| line.split(' ').next()) {
        assert!(page.contains(&format!("daybook {command}")), "{command}");
        let text = run(&folder, &format!("help {command}")).1;
        let words = text.split(|c: char| !(c.is_ascii_lowercase() || c == '-'));
        for option in words.filter(|word| word.starts_with("--") && word.len() > 2) {
            assert!(page.contains(option), "{command} {option}");
            options += 1;
        }
    }
    assert!(options > 30);
    let version = format!("daybook {}", env!("CARGO_PKG_VERSION"));
    assert!(page.contains(&version));
    for refusal in daybook::Refusal::ALL {
        let line = format!("{:>2}  {refusal}\n", refusal.number());
        assert!(page.contains(&line), "{line}");
    }
}
