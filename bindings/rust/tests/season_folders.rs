//! State folders at and behind the turn of a season, and those of version 0.8.

mod common;
#[path = "common/folders.rs"]
mod folders;
#[path = "common/full.rs"]
mod full;
#[path = "common/program.rs"]
mod program;

use std::fs::{self, File};
use std::io::Write;
use std::sync::OnceLock;

use common::{hex, Folder};
use daybook::{Layout, Service};
use folders::{tree, Tree};
use full::{byte_of, digest, files, files_of_version_2, layout_text, past_line, record_of};
use full::{write, Season};
use program::run;

const LAYOUT: Layout = Layout::black(256, 1);

/// Season 0, full.
fn full_season() -> &'static Season {
    static SEASON: OnceLock<Season> = OnceLock::new();
    SEASON.get_or_init(|| Season::full(LAYOUT, 0))
}

/// The line ends with 0, prints nothing and says this.
fn said(folder: &Folder, line: &str, text: &str) {
    let (status, out, messages) = run(folder, line);
    assert_eq!((status, out.as_str()), (0, ""), "{line}: {messages}");
    assert!(messages.contains(text), "{line}: {messages}");
}

/// The line ends with this status and these lines, and changes nothing. Gives what it says.
fn unchanged(folder: &Folder, line: &str, status: i32, lines: &str) -> String {
    let before = tree(folder.path());
    let (ended, out, messages) = run(folder, line);
    assert_eq!((ended, out.as_str()), (status, lines), "{line}: {messages}");
    assert!(tree(folder.path()) == before, "{line}: it wrote");
    messages
}

fn fault(folder: &Folder, line: &str, text: &str) {
    let messages = unchanged(folder, line, 3, "");
    assert!(messages.contains(text), "{line}: {messages}");
}

fn repeated(folder: &Folder, line: &str) {
    let messages = unchanged(folder, line, 0, "");
    assert!(messages.contains("already"), "{line}: {messages}");
}

fn read(folder: &Folder, name: &str) -> Vec<u8> {
    fs::read(folder.file(name)).unwrap()
}

fn status(folder: &Folder, words: &str) -> String {
    let (status, out, messages) = run(folder, &format!("status s{words}"));
    assert_eq!(status, 0, "{messages}");
    out
}

/// A folder with files to take days from, and the state `s` of these files.
fn folder(name: &str, state: &[(String, Vec<u8>)]) -> Folder {
    let folder = Folder::in_memory(&format!("seasons-{name}"));
    for (name, text) in [("a", "rye 12"), ("b", "oats 7"), ("none", "")] {
        fs::write(folder.file(name), text).unwrap();
    }
    write(&folder.file("s"), state);
    folder
}

/// The files of `s` that are there.
fn names(folder: &Folder) -> Vec<String> {
    tree(&folder.file("s")).into_keys().collect()
}

fn line(day: u32, bytes: &[u8], name: &str) -> String {
    format!("{day},{},{},{name}\n", bytes.len(), hex(&digest(bytes)))
}

/// What the folder must be after season 0, which is full, and these days of season 1.
fn expected(past: &Season, days: &[(&[u8], &str)], open: (&[u8], &str)) -> Tree {
    let mut service = past.service.clone();
    let (mut book, mut index) = (Vec::new(), String::new());
    for (day, (bytes, name)) in (1..).zip(days) {
        service.add(bytes).unwrap();
        book.extend(service.close_day().unwrap());
        index += &line(day, bytes, name);
    }
    service.add(open.0).unwrap();
    let seasons = past.line();
    let parts: [&[u8]; 4] = [&book, index.as_bytes(), open.0, seasons.as_bytes()];
    let record = record_of(3, &service.to_bytes(), &parts, open.1);
    let layout = layout_text(3, service.layout()).into_bytes();
    let mut tree = Tree::from([
        ("lock".to_string(), Some(Vec::new())),
        ("layout".to_string(), Some(layout)),
        ("record".to_string(), Some(record)),
        ("book".to_string(), Some(past.book.clone())),
        ("index".to_string(), Some(past.index.clone())),
        ("book-1".to_string(), Some(book)),
        ("index-1".to_string(), Some(index.into_bytes())),
        ("seasons".to_string(), Some(seasons.into_bytes())),
    ]);
    if !open.0.is_empty() {
        let name = format!("day-{}", days.len() + 1);
        tree.insert(name, Some(open.0.to_vec()));
    }
    tree
}

#[test]
fn the_turn_by_a_close() {
    for layout in [LAYOUT, Layout::tile(1, 3), Layout::tree(256)] {
        let past = &Season::full(layout, 0);
        let folder = folder(&format!("close-{}", layout.scheme), &files(&[past], b""));
        // as if day 65,536 had been added: its bytes go with the close of the next day
        fs::write(folder.file("s/day-65536"), [byte_of(0, 65_536)]).unwrap();
        assert!(status(&folder, "").contains("interrupted no\n"));
        said(
            &folder,
            "close s --day 1 a",
            "day 1 of season 1 is closed: bytes 6, values",
        );
        let one = expected(past, &[(b"rye 12", "a")], (b"", ""));
        assert!(tree(&folder.file("s")) == one, "{layout}");
        repeated(&folder, "close s --day 1 a");
        repeated(&folder, "close s --day 1 --season 1");
        fault(
            &folder,
            "close s --day 1 b",
            "day 1 of season 1 is closed, with other bytes",
        );
        said(
            &folder,
            "close s --day 2",
            "day 2 of season 1 is closed: bytes 0",
        );
        let two = expected(past, &[(b"rye 12", "a"), (b"", "")], (b"", ""));
        assert!(tree(&folder.file("s")) == two, "{layout}");
    }
}

#[test]
fn the_turn_by_an_add() {
    let past = full_season();
    let folder = folder("add", &files(&[past], b""));
    fault(
        &folder,
        "add s --day 1 --at 3 a",
        "day 1 of season 1 has 0 bytes, and a piece at 3",
    );
    said(
        &folder,
        "add s --day 1 --at 0 a",
        "day 1 of season 1 has 6 bytes: 6 added at 0",
    );
    let one = expected(past, &[], (b"rye 12", "a"));
    assert!(tree(&folder.file("s")) == one);
    assert!(status(&folder, "").contains("season 1\ndays 0\nopen 6\nvalues 0\ncheckable 0\n"));
    repeated(&folder, "add s --day 1 --at 0 a");
    fault(
        &folder,
        "add s --day 1 --at 0 b",
        "day 1 of season 1 has 6 bytes",
    );
    fault(
        &folder,
        "close s --day 1 a",
        "day 1 of season 1 has 6 bytes already",
    );
    said(&folder, "add s --day 1 --at 6 b --season 1", "has 12 bytes");
    said(
        &folder,
        "close s --day 1",
        "day 1 of season 1 is closed: bytes 12, values 0",
    );
    let mut one = expected(past, &[(b"rye 12oats 7", "a + b")], (b"", ""));
    one.insert("day-1".to_string(), Some(b"rye 12oats 7".to_vec()));
    assert!(tree(&folder.file("s")) == one);
    repeated(&folder, "add s --day 1 --at 6 b");
}

/// An empty add opens the season too, and so does an empty close.
#[test]
fn the_turn_by_nothing() {
    let past = full_season();
    let folder = folder("empty", &files(&[past], b""));
    said(
        &folder,
        "add s --day 1 --at 0 none",
        "day 1 of season 1 has 0 bytes: 0 added",
    );
    assert!(tree(&folder.file("s")) == expected(past, &[], (b"", "none")));
    let messages = unchanged(&folder, "add s --day 1 --at 0 none", 0, "");
    assert!(messages.contains("nothing is added"), "{messages}");
    said(
        &folder,
        "close s --day 1",
        "day 1 of season 1 is closed: bytes 0",
    );
    assert!(tree(&folder.file("s")) == expected(past, &[(b"", "none")], (b"", "")));

    write(&folder.file("s"), &files(&[past], b""));
    said(
        &folder,
        "close s --season 1 --day 1",
        "day 1 of season 1 is closed: bytes 0",
    );
    assert!(tree(&folder.file("s")) == expected(past, &[(b"", "")], (b"", "")));
}

/// What is refused or a fault at the turn leaves the full season.
#[test]
fn refused_at_the_turn() {
    let past = full_season();
    let folder = folder("refused", &files(&[past], b""));
    let long = File::create(folder.file("long")).unwrap();
    long.set_len(16_777_217).unwrap();
    unchanged(&folder, "add s --day 1 --at 0 long", 2, "NO,4\n");
    unchanged(&folder, "close s --day 1 long", 2, "NO,4\n");
    fs::remove_file(folder.file("long")).unwrap();
    for (line, text) in [
        (
            "close s --day 2 --season 1",
            "day 2 of season 1 is not the next one",
        ),
        (
            "close s --day 1 --season 2",
            "day 1 of season 2 is not the next one: day 1 of season 1 is",
        ),
        (
            "add s --day 1 --at 0 --season 65536 a",
            "season 65536 is not the next one",
        ),
        (
            "close s --day 65537 a",
            "day 65537 of season 0 is not the next one: day 1 of season 1 is",
        ),
        ("close s --day 0", "there is no day 0"),
        ("close s --day 0 --season 0", "there is no day 0"),
        (
            "status s --season 1",
            "there is no season 1 yet: the present one is 0",
        ),
        (
            "locate --state s --season 1 --position 0",
            "there is no season 1 yet",
        ),
    ] {
        fault(&folder, line, text);
    }
}

/// The script of day 65,536 can be run again from its start until day 1 of the next season is
/// closed.
#[test]
fn the_last_day_again() {
    let past = &Season::of(LAYOUT, 0, 65_535);
    let folder = folder("again", &files(&[past], b""));
    let script = [
        "add s --day 65536 --at 0 a",
        "add s --day 65536 --at 6 b",
        "close s --day 65536",
    ];
    said(&folder, script[0], "day 65536 has 6 bytes");
    said(&folder, script[1], "day 65536 has 12 bytes");
    said(
        &folder,
        script[2],
        "season 0 is full: next is day 1 of season 1",
    );
    let again = |words: &str| {
        for line in script {
            repeated(&folder, &format!("{line}{words}"));
        }
        fault(
            &folder,
            "add s --day 65536 --at 7 b",
            "day 65536 of season 0 is closed",
        );
        fault(
            &folder,
            "close s --day 65536 b",
            "closed, with other bytes (12, from a + b)",
        );
    };
    again("");
    again(" --season 0");
    repeated(&folder, "close s --day 65535");
    said(
        &folder,
        "add s --day 1 --at 0 a",
        "day 1 of season 1 has 6 bytes",
    );
    assert!(names(&folder).contains(&"day-65536".to_string()));
    again("");
    again(" --season 0");
    repeated(&folder, "close s --day 7");
    said(&folder, "close s --day 1", "day 1 of season 1 is closed");
    assert!(!names(&folder).contains(&"day-65536".to_string()));
    // now a day is one of season 1, unless its season is given
    fault(
        &folder,
        script[2],
        "day 65536 of season 1 is not the next one: 1 days are closed",
    );
    repeated(&folder, &format!("{} --season 0", script[2]));
    fault(
        &folder,
        &format!("{} --season 0", script[1]),
        "is closed, with 12 bytes",
    );
    said(&folder, "close s --day 2 a", "day 2 of season 1 is closed");
}

/// Two seasons past: days of each are told by its index.
fn two_past(name: &str) -> (Folder, Vec<Season>) {
    let seasons = vec![
        full_season().clone(),
        Season::full(LAYOUT, 1),
        Season::of(LAYOUT, 2, 2),
    ];
    let state = files(&seasons.iter().collect::<Vec<_>>(), b"");
    (folder(name, &state), seasons)
}

#[test]
fn days_of_earlier_seasons() {
    let (folder, _) = two_past("earlier");
    for (season, day) in [(0, 1), (0, 777), (0, 65_536), (1, 777), (2, 2)] {
        fs::write(folder.file("day"), [byte_of(season, day)]).unwrap();
        for line in [
            format!("close s --day {day} --season {season} day"),
            format!("close s --day {day} --season {season}"),
            format!("add s --day {day} --season {season} --at 0 day"),
        ] {
            repeated(&folder, &line);
        }
        let named = format!("day {day} of season {season} is closed, with");
        fault(
            &folder,
            &format!("close s --day {day} --season {season} a"),
            &named,
        );
        fault(
            &folder,
            &format!("add s --day {day} --season {season} --at 0 a"),
            &named,
        );
        fault(
            &folder,
            &format!("add s --day {day} --season {season} --at 1 none"),
            &named,
        );
    }
    fault(
        &folder,
        "close s --day 65537 --season 1",
        "day 65537 of season 1 is not the next one: day 3 of season 2 is",
    );
    fault(
        &folder,
        "close s --day 3 --season 3",
        "day 3 of season 3 is not the next one",
    );
    repeated(&folder, "close s --day 2");
    said(&folder, "close s --day 3 a", "day 3 of season 2 is closed");
    assert_eq!(status(&folder, "").lines().nth(3), Some("season 2"));
    let past = "scheme 1\nn 256\nf 1\nseason 1\ndays 65536\nopen 0\nvalues 256\ncheckable 65536\n\
                interrupted no\nclean 0\n";
    assert_eq!(status(&folder, " --season 1"), past);
    said(&folder, "add s --day 4 --at 0 a", "");
    assert_eq!(status(&folder, " --season 1"), past);
    assert!(status(&folder, " --season 2").contains("season 2\ndays 3\nopen 6\n"));
}

/// The days of a season as a ledger and its ends, some of them altered.
fn write_ledger(folder: &Folder, season: u32, altered: &[u32]) {
    let byte = |day| byte_of(season, day) ^ u8::from(altered.contains(&day));
    let ledger: Vec<u8> = (1..=65_536).map(byte).collect();
    let ends: Vec<u8> = (1..=65_536u32).flat_map(u32::to_le_bytes).collect();
    fs::write(folder.file("ledger"), ledger).unwrap();
    fs::write(folder.file("ends"), ends).unwrap();
}

const SOURCE: &str = "--ledger ledger --ends ends";

/// Each season is checked by itself, against its own book, and keeps its own clean days.
#[test]
fn seasons_by_themselves() {
    let layout = Layout::tree(256);
    let seasons = [
        Season::full(layout, 0),
        Season::full(layout, 1),
        Season::of(layout, 2, 256),
    ];
    let folder = folder("themselves", &files(&seasons.each_ref(), b""));
    let ran = |line: &str, status: i32, out: &str| {
        let (ended, lines, messages) = run(&folder, line);
        assert_eq!((ended, lines.as_str()), (status, out), "{line}: {messages}");
        messages
    };
    for season in [0, 1] {
        let words = format!("--state s --season {season}");
        write_ledger(&folder, season, &[]);
        ran(
            &format!("verify {words} {SOURCE} --d 512"),
            0,
            "REF,3,0,0,0,0,512\n",
        );
        if season == 0 {
            continue;
        }
        assert!(status(&folder, &format!(" --season {season}")).ends_with("clean 512\n"));
        write_ledger(&folder, season, &[700, 65_536]);
        let found = "REF,3,2,700,65280,65536,512\nDAY,700\nDAY,65536\n";
        ran(&format!("verify {words} {SOURCE}"), 1, found);
        let kept = "REF,3,2,700,699,65536,512\nDAY,700,d0\nDAY,65536,d6\n";
        let line = format!("verify {words} {SOURCE} --passed kept --names");
        ran(&line, 1, kept);
        ran(&format!("check {words} {SOURCE} --outcomes table"), 1, "");
        ran(
            &format!("read {words} --outcomes table --names --passed kept"),
            1,
            kept,
        );
        let searched = "SEARCH,";
        let (ended, lines, _) = run(&folder, &format!("search {words} --outcomes table --names"));
        assert_eq!((ended, lines.starts_with(searched)), (1, true), "{lines}");
        assert!(
            lines.ends_with(",2,0\nDAY,700,d0\nDAY,65536,d6\n"),
            "{lines}"
        );
        ran(
            &format!("locate {words} --position 131317"),
            0,
            "tree level 16, days 1 to 65536\n",
        );
        fault(
            &folder,
            &format!("verify {words} {SOURCE} --d 65537"),
            "65536 days are closed",
        );
    }
    // the other season's days are not these
    write_ledger(&folder, 1, &[]);
    let (ended, _, messages) = run(&folder, &format!("verify --state s --season 0 {SOURCE}"));
    assert_eq!(ended, 1);
    assert!(
        messages.contains("no value of the book passes"),
        "{messages}"
    );
    // the present one, without the option and with it
    write_ledger(&folder, 2, &[]);
    for words in ["", " --season 2"] {
        let line = format!("verify --state s{words} {SOURCE}");
        ran(&line, 0, "REF,3,0,0,0,0,256\n");
        ran(
            &format!("locate --state s{words} --position 510"),
            0,
            "tree level 8, days 1 to 256\n",
        );
        assert!(status(&folder, words).ends_with("clean 256\n"));
    }
    fault(
        &folder,
        &format!("verify --state s --season 3 {SOURCE}"),
        "there is no season 3 yet",
    );
    let clean = |name: &str, d: &str| {
        let text = String::from_utf8(read(&folder, name)).unwrap();
        assert!(text.starts_with(d) && text.lines().count() == 1, "{text}");
    };
    clean("s/clean", "512,");
    clean("s/clean-1", "512,");
    clean("s/clean-2", "256,");
}

/// Where F times N does not divide 65,536, the last days of a full season are named as not
/// checkable.
#[test]
fn the_greatest_d_of_a_full_season() {
    for (layout, d, note) in [
        (
            Layout::black(1, 3),
            65_535,
            "day 65536 is not checkable: D goes by 3",
        ),
        (
            Layout::black(256, 63),
            64_512,
            "days 64513 to 65536 are not checkable: D goes by 16128",
        ),
    ] {
        let seasons = [Season::full(layout, 0), Season::of(layout, 1, 1)];
        let folder = folder(&format!("d-{}", layout.f), &files(&seasons.each_ref(), b""));
        write_ledger(&folder, 0, &[]);
        let line = format!("verify --state s --season 0 {SOURCE}");
        let (ended, out, messages) = run(&folder, &line);
        assert_eq!(
            (ended, out),
            (0, format!("REF,1,0,0,0,0,{d}\n")),
            "{messages}"
        );
        assert!(messages.contains(note), "{messages}");
        let checkable = format!("checkable {d}\n");
        assert!(status(&folder, " --season 0").contains(&checkable));
        write_ledger(&folder, 0, &[65_536]);
        assert_eq!(run(&folder, &line).0, if d == 65_536 { 1 } else { 0 });
    }
}

/// Commands that say nothing of a past season go by its lengths alone; `status` and those that name
/// it go by its bytes.
#[test]
fn files_of_past_seasons() {
    let (folder, _) = two_past("files");
    fs::write(folder.file("day"), [byte_of(2, 2)]).unwrap();
    fs::write(folder.file("table"), [1; 256]).unwrap();
    let all = [
        "status s",
        "close s --day 2 day",
        "close s --day 3 a",
        "open s --scheme 1 --n 256 --f 1",
    ];
    let of = |season: u32| {
        [
            format!("status s --season {season}"),
            format!("close s --day 7 --season {season}"),
            format!("add s --day 7 --at 0 --season {season} a"),
            format!("read --state s --season {season} --outcomes table"),
            format!("locate --state s --season {season} --position 0"),
        ]
    };
    for (season, name) in [
        (0, "s/book"),
        (0, "s/index"),
        (1, "s/book-1"),
        (1, "s/index-1"),
    ] {
        let bytes = read(&folder, name);
        let mut longer = bytes.clone();
        longer.push(0);
        for wrong in [&bytes[1..], &[], &longer] {
            fs::write(folder.file(name), wrong).unwrap();
            for line in all {
                fault(
                    &folder,
                    line,
                    &format!("{name} does not fit the state: it has"),
                );
            }
        }
        fs::remove_file(folder.file(name)).unwrap();
        for line in all {
            fault(&folder, line, &format!("{name} cannot be read"));
        }
        let mut other = bytes.clone();
        other[bytes.len() / 2] ^= 1;
        fs::write(folder.file(name), other).unwrap();
        let differs =
            format!("{name} does not fit the state: its bytes are not those that seasons says");
        fault(&folder, "status s", &differs);
        for line in of(season) {
            fault(&folder, &line, &differs);
        }
        repeated(&folder, "close s --day 2 day");
        unchanged(&folder, "locate --state s --d 256 --position 0", 3, "");
        assert_eq!(run(&folder, &of(1 - season)[0]).0, 0);
        fs::write(folder.file(name), bytes).unwrap();
    }
    assert_eq!(run(&folder, "status s").0, 0);
}

#[test]
fn the_file_seasons() {
    let (folder, seasons) = two_past("seasons");
    let text = read(&folder, "s/seasons");
    assert_eq!(text, (seasons[0].line() + &seasons[1].line()).into_bytes());
    let mut wrong = vec![text[..text.len() - 1].to_vec(), Vec::new()];
    for at in [0, text.len() / 2, text.len() - 1] {
        let mut other = text.clone();
        other[at] ^= 1;
        wrong.push(other);
    }
    for other in wrong {
        fs::write(folder.file("s/seasons"), other).unwrap();
        for line in ["status s", "close s --day 3 a", "status s --season 2"] {
            fault(&folder, line, "s/seasons does not fit the state");
        }
    }
    fs::remove_file(folder.file("s/seasons")).unwrap();
    fault(&folder, "status s", "s/seasons cannot be read");
    // bytes past what the record says are of a stopped run, up to a line
    fs::write(
        folder.file("s/seasons"),
        [&text[..], b"2,half a line"].concat(),
    )
    .unwrap();
    assert!(status(&folder, "").contains("interrupted yes\n"));
    repeated_after_leavings(&folder, "close s --day 2");
    assert_eq!(read(&folder, "s/seasons"), text);
    fs::write(folder.file("s/seasons"), [&text[..], &text[..]].concat()).unwrap();
    fault(
        &folder,
        "status s",
        "s/seasons does not fit the state: the record says",
    );
    // one that the record says, but whose lines are not its seasons
    let lines = [seasons[0].line(), seasons[0].line()].concat();
    let present = &seasons[2];
    let lined = |lines: &str| {
        let parts: [&[u8]; 4] = [&present.book, &present.index, b"", lines.as_bytes()];
        let record = record_of(3, &present.service.to_bytes(), &parts, "");
        fs::write(folder.file("s/record"), record).unwrap();
        fs::write(folder.file("s/seasons"), lines).unwrap();
    };
    lined(&lines);
    fault(
        &folder,
        "status s",
        "s/seasons does not fit the state: line 2 is not the next season",
    );
    lined(&seasons[0].line());
    fault(
        &folder,
        "status s",
        "s/seasons does not fit the state: it has 1 lines, and the season is 2",
    );
    lined("");
    fault(
        &folder,
        "status s",
        "s/seasons does not fit the state: it has 0 lines, and the season is 2",
    );
}

/// A repeat that takes away what a stopped run left.
fn repeated_after_leavings(folder: &Folder, line: &str) {
    said(folder, line, "already");
    assert!(status(folder, "").contains("interrupted no\n"));
}

/// What a turn that was stopped leaves is said by `status` and taken away by the next run that writes.
#[test]
fn leavings_of_a_turn() {
    let past = full_season();
    let state = files(&[past], b"");
    let folder = folder("leavings", &state);
    let before = tree(&folder.file("s"));
    let leave = |name: &str, bytes: &[u8]| fs::write(folder.file(name), bytes).unwrap();
    let values = [7; 544];
    let left: [(&str, &[u8]); 6] = [
        ("s/book-1", &values),
        ("s/index-1", b"1,6,half"),
        ("s/seasons", b"0,8192,half"),
        ("s/day-1", b"rye 12"),
        ("s/record.new", b"half"),
        ("s/layout.new", b"half"),
    ];
    for (name, bytes) in left {
        leave(name, bytes);
        let (_, out, messages) = run(&folder, "status s");
        assert!(out.contains("interrupted yes\n"), "{out}");
        assert!(messages.contains(name), "{messages}");
        leave(name, b"");
        assert!(status(&folder, "").contains("interrupted yes\n"));
    }
    for (name, bytes) in left {
        leave(name, bytes);
    }
    let whole = line(1, b"rye 12", "a");
    leave("s/index-1", whole.as_bytes());
    let dirty = tree(folder.path());
    assert_eq!(run(&folder, "locate --state s --position 0").0, 0);
    assert!(tree(folder.path()) == dirty);
    repeated_after_leavings(&folder, "close s --day 65536");
    assert!(tree(&folder.file("s")) == before);
    for (name, bytes) in left {
        leave(name, bytes);
    }
    said(&folder, "close s --day 1 a", "day 1 of season 1 is closed");
    let after = expected(past, &[(b"rye 12", "a")], (b"", ""));
    assert!(tree(&folder.file("s")) == after);
    // more than a stopped run leaves: the record is an older one
    let older = "s/record does not fit the state: it says 65536 days closed, and there is";
    for (name, bytes) in [
        ("s/book-1", vec![7; 545]),
        ("s/index-1", [whole.as_bytes(), b"\n"].concat()),
        ("s/book-2", Vec::new()),
        ("s/index-65535", Vec::new()),
    ] {
        write(&folder.file("s"), &state);
        leave(name, &bytes);
        fault(&folder, "status s", older);
        fault(&folder, "close s --day 1 a", older);
    }
    // and where the season is not full, there is no next one
    write(
        &folder.file("s"),
        &files(&[&Season::of(LAYOUT, 0, 300)], b""),
    );
    leave("s/book-1", b"");
    fault(
        &folder,
        "status s",
        "300 days closed, and there is book-1, of a later season",
    );
}

/// A record put back from before the turn: one close of the next season cannot be told from a run
/// that was stopped, two can.
#[test]
fn a_record_from_before_the_turn() {
    let past = full_season();
    let folder = folder("put-back", &files(&[past], b""));
    let record = read(&folder, "s/record");
    said(&folder, "close s --day 1 a", "");
    let once = tree(&folder.file("s"));
    fs::write(folder.file("s/record"), &record).unwrap();
    said(&folder, "close s --day 1 a", "day 1 of season 1 is closed");
    assert!(tree(&folder.file("s")) == once);
    said(&folder, "close s --day 2 b", "");
    fs::write(folder.file("s/record"), &record).unwrap();
    fault(&folder, "close s --day 1 a", "it is an older record");
}

/// A day that is kept while the season turns is kept in its own season.
#[test]
fn clean_days_of_a_past_season() {
    let layout = Layout::black(1, 1);
    let past = &Season::full(layout, 0);
    let folder = folder("kept", &files(&[past], b""));
    write_ledger(&folder, 0, &[]);
    let verify = format!("verify --state s {SOURCE} --d");
    assert_eq!(run(&folder, &format!("{verify} 100")).0, 0);
    said(&folder, "close s --day 1 a", "season 1");
    assert_eq!(run(&folder, &format!("{verify} 200 --season 0")).0, 0);
    let text = String::from_utf8(read(&folder, "s/clean")).unwrap();
    let days: Vec<&str> = text
        .lines()
        .map(|line| line.split(',').next().unwrap())
        .collect();
    assert_eq!(days, ["100", "200"]);
    assert!(!names(&folder).contains(&"clean-1".to_string()));
    assert!(status(&folder, "").ends_with("clean 0\n"));
    assert!(status(&folder, " --season 0").ends_with("clean 200\n"));
}

/// A folder of version 0.8, with days and with an open one: reading leaves it as it is, the first add
/// or close raises it.
#[test]
fn folders_of_version_2() {
    let layout = Layout::tile(2, 1);
    for (name, days, open) in [
        ("fresh", 0, &b""[..]),
        ("closed", 4, b""),
        ("open", 3, b"noon"),
    ] {
        let season = Season::of(layout, 0, days);
        let state = files_of_version_2(&season, open);
        let folder = folder(&format!("v2-{name}"), &state);
        write_ledger(&folder, 0, &[]);
        fs::write(folder.file("table"), [1; 64]).unwrap();
        let said_so = format!("season 0\ndays {days}\nopen {}\n", open.len());
        assert!(status(&folder, "").contains(&said_so));
        assert!(status(&folder, " --season 0").contains(&said_so));
        for line in ["status s", "status s --season 0"] {
            let out = run(&folder, line).1;
            unchanged(&folder, line, 0, &out);
        }
        let expected = if days == 0 { 2 } else { 0 };
        let reading = format!("verify --state s {SOURCE}");
        for line in ["read --state s --outcomes table --passed 0", &reading] {
            assert_eq!(run(&folder, line).0, expected, "{line}");
        }
        let check = format!("check --state s {SOURCE} --outcomes found");
        assert_eq!(run(&folder, &check).0, expected);
        let kept = |name: &str| read(&folder, &format!("s/{name}"));
        let state: Tree = state
            .into_iter()
            .map(|(name, bytes)| (name, Some(bytes)))
            .collect();
        for name in ["layout", "record", "book", "index"] {
            assert_eq!(state[name], Some(kept(name)), "{name}");
        }
        // what is said already raises nothing
        if days > 0 {
            said(&folder, "close s --day 1", "already");
        } else {
            said(&folder, "open s --scheme 2 --n 2 --f 1", "already");
        }
        assert_eq!(state["layout"], Some(kept("layout")));
        assert_eq!(state["record"], Some(kept("record")));
        // a stop between the two: layout 3 beside record 2
        for between in [false, true] {
            let mut start: Vec<(String, Vec<u8>)> = files_of_version_2(&season, open);
            if between {
                start[1].1 = layout_text(3, layout).into_bytes();
            }
            let next = days + 1;
            for line in [
                format!("close s --day {next}"),
                format!("add s --day {next} --at {} a", open.len()),
            ] {
                write(&folder.file("s"), &start);
                assert!(status(&folder, "").contains(&said_so));
                said(&folder, &line, "");
                assert_eq!(kept("layout"), layout_text(3, layout).as_bytes());
                assert!(kept("record").starts_with(b"daybook record 3\n"));
                let raised = tree(&folder.file("s"));
                write(&folder.file("s"), &files(&[&season], open));
                said(&folder, &line, "");
                assert!(tree(&folder.file("s")) == raised, "{line}");
            }
        }
        // layout 2 beside record 3: the layout is never the older one
        let mut start = files(&[&season], open);
        start[1].1 = layout_text(2, layout).into_bytes();
        write(&folder.file("s"), &start);
        fault(
            &folder,
            "status s",
            "s/layout does not fit the state: its format version is 2",
        );
        fault(&folder, "close s --day 9", "and that of the record is 3");
    }
}

/// A folder of version 0.8 whose season is full: it could not go on, and now its next close is day 1
/// of season 1.
#[test]
fn a_full_folder_of_version_2() {
    let past = full_season();
    let folder = folder("v2-full", &files_of_version_2(past, b""));
    assert!(status(&folder, "").contains("season 0\ndays 65536\nopen 0\n"));
    repeated(&folder, "close s --day 65536");
    assert_eq!(read(&folder, "s/layout"), layout_text(2, LAYOUT).as_bytes());
    for (step, days, open) in [
        (
            "close s --day 1 a",
            &[(&b"rye 12"[..], "a")][..],
            (&b""[..], ""),
        ),
        ("add s --day 1 --at 0 a", &[], (b"rye 12", "a")),
    ] {
        write(&folder.file("s"), &files_of_version_2(past, b""));
        said(&folder, step, "day 1 of season 1");
        assert!(
            tree(&folder.file("s")) == expected(past, days, open),
            "{step}"
        );
    }
    // bytes of an open day beside 65,536 days: no version left these, and the service cannot go on
    let mut service = past.service.to_bytes();
    service[16] = 1;
    let parts: [&[u8]; 3] = [&past.book, &past.index, b"x"];
    let record = record_of(2, &service[..724], &parts, "");
    write(&folder.file("s"), &files_of_version_2(past, b""));
    fs::write(folder.file("s/record"), record).unwrap();
    unchanged(&folder, "status s", 2, "NO,6\n");
}

/// In the last season, whose past ones are empty here but for their names: when it is full the next
/// day is refused.
#[test]
fn the_last_season() {
    let present = Season::full(LAYOUT, 65_535);
    let none = past_line(0, b"", b"");
    let (_, rest) = none.split_once(',').unwrap();
    let lines: String = (0..65_535)
        .map(|season| format!("{season},{rest}"))
        .collect();
    let parts: [&[u8]; 4] = [&present.book, &present.index, b"", lines.as_bytes()];
    let mut state = files(&[&present], b"");
    state[2].1 = record_of(3, &present.service.to_bytes(), &parts, "");
    state.push(("seasons".to_string(), lines.into_bytes()));
    let folder = folder("last", &state);
    for name in ["book", "index"] {
        File::create(folder.file(&format!("s/{name}"))).unwrap();
        for season in 1..65_535 {
            File::create(folder.file(&format!("s/{name}-{season}"))).unwrap();
        }
    }
    let (ended, out, messages) = run(&folder, "close s --day 65537");
    assert_eq!((ended, out.as_str()), (2, "NO,5\n"), "{messages}");
    assert!(
        messages.contains("the last season, 65,535, is full"),
        "{messages}"
    );
    let (ended, _, messages) = run(&folder, "add s --day 65538 --at 0 a");
    assert_eq!(ended, 3);
    assert!(
        messages.contains("is not the next one: the last season is full"),
        "{messages}"
    );
    assert_eq!(read(&folder, "s/record"), state[2].1);
}

/// The commands for a clerk at the turn, as docs/SERVICE.md has them, one after the other; the man page
/// has them too.
#[test]
fn the_commands_of_the_page() {
    let page = include_str!("../../../docs/SERVICE.md");
    let (_, part) = page.split_once("\n## Seasons\n").unwrap();
    let (part, _) = part.split_once("\n## ").unwrap();
    let lines = part.lines().filter_map(|line| line.strip_prefix("    "));
    let lines: Vec<&str> = lines
        .map(|line| line.split(" #").next().unwrap().trim_end())
        .collect();
    let folder = Folder::in_memory("seasons-page");
    let season = Season::of(Layout::tile(1, 1), 0, 65_535);
    write(&folder.file("books"), &files(&[&season], b""));
    for (season, days) in [(0, 65_536), (1, 2)] {
        let path = folder.file(&format!("days-{season}"));
        fs::create_dir(&path).unwrap();
        for day in 1..=days {
            fs::write(path.join(format!("day-{day:05}")), [byte_of(season, day)]).unwrap();
        }
    }
    let said: Vec<String> = lines
        .iter()
        .map(|line| {
            let line = line.strip_prefix("daybook ").unwrap();
            let (status, out, messages) = run(&folder, line);
            assert_eq!(status, 0, "{line}: {messages}");
            out
        })
        .collect();
    assert_eq!(said.len(), 8);
    assert_eq!(said[1], "REF,2,0,0,0,0,65536\n");
    assert!(said[3].contains("season 1\ndays 1\n"));
    assert_eq!(said[5], "REF,2,0,0,0,0,2\n");
    assert_eq!(said[6], "REF,2,0,0,0,0,65536\n");
    assert!(said[7].contains("season 0\ndays 65536\n") && said[7].ends_with("clean 65536\n"));
    let man = include_str!("../../../docs/daybook.1").replace("\\-", "-");
    let (_, man) = man.split_once("The commands at a turn:\n").unwrap();
    let (man, _) = man.split_once("\n.fi\n").unwrap();
    let man: Vec<&str> = man
        .lines()
        .filter(|line| line.starts_with("daybook "))
        .collect();
    assert_eq!(man.len(), 5);
    assert!(man.iter().all(|line| lines.contains(line)), "{man:?}");
}

/// A tail behind the index of a full season, as for any other.
#[test]
fn a_tail_at_the_turn() {
    let past = full_season();
    let folder = folder("tail", &files(&[past], b""));
    let file = File::options().append(true).open(folder.file("s/index"));
    file.unwrap().write_all(b"65537,half").unwrap();
    said(
        &folder,
        "close s --day 1 a",
        "a stopped run left bytes in s/index",
    );
    let after = expected(past, &[(b"rye 12", "a")], (b"", ""));
    assert!(tree(&folder.file("s")) == after);
}

/// The record that the library would keep is the one in the folder.
#[test]
fn the_record_behind_the_turn() {
    let past = full_season();
    let folder = folder("record", &files(&[past], b""));
    said(&folder, "add s --day 1 --at 0 a", "");
    let mut service = past.service.clone();
    service.add(b"rye 12").unwrap();
    assert_eq!(read(&folder, "s/record")[17..17 + 728], service.to_bytes());
    let mut fresh = Service::open(LAYOUT).unwrap();
    fresh.add(b"rye 12").unwrap();
    assert_eq!(service.to_bytes()[..724], fresh.to_bytes()[..724]);
    assert_eq!(service.season(), 1);
}
