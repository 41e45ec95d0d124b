//! The picture that `daybook verify --figure` draws.

mod common;
#[path = "common/picture.rs"]
mod picture;

use std::fs;
use std::path::Path;
use std::process::{Command, Stdio};

use common::{ledger, Folder};
use picture::{has, well_formed};

const PROGRAM: &str = env!("CARGO_BIN_EXE_daybook");

fn run(folder: &Folder, line: &str) -> (i32, String, String) {
    let output = Command::new(PROGRAM)
        .current_dir(folder.path())
        .args(line.split_whitespace())
        .stdin(Stdio::null())
        .output()
        .unwrap();
    let text = |bytes| String::from_utf8(bytes).unwrap();
    let status = output.status.code().unwrap();
    (status, text(output.stdout), text(output.stderr))
}

/// The days of the demonstration as a ledger with its ends, sealed under the layout; then some are
/// altered.
fn altered(name: &str, layout: &str, d: u32, changed: &[u32]) -> Folder {
    let folder = Folder::new(&format!("figure-{name}"));
    let plain = |day: u32| format!("day {day}: wheat {}\n", day * 37 % 101);
    let mut days: Vec<Vec<u8>> = (1..=d).map(|day| plain(day).into_bytes()).collect();
    write_ledger(&folder, &days);
    let seal = format!("seal {layout} --ledger ledger --ends ends --book book");
    let seal = run(&folder, &seal);
    assert_eq!(seal.0, 0, "{}", seal.2);
    for day in changed {
        days[*day as usize - 1] = format!("day {day}: wheat 999\n").into_bytes();
    }
    write_ledger(&folder, &days);
    folder
}

fn write_ledger(folder: &Folder, days: &[Vec<u8>]) {
    let (bytes, ends) = ledger(days);
    let ends: Vec<u8> = ends.iter().flat_map(|end| end.to_le_bytes()).collect();
    fs::write(folder.file("ledger"), bytes).unwrap();
    fs::write(folder.file("ends"), ends).unwrap();
}

/// Verifies and gives the picture and the messages.
fn drawn(folder: &Folder, layout: &str, status: i32) -> (String, String) {
    let line = format!("verify {layout} --ledger ledger --ends ends --book book --figure out.svg");
    let ran = run(folder, &line);
    assert_eq!(ran.0, status, "{}", ran.2);
    let picture = fs::read_to_string(folder.file("out.svg")).unwrap();
    well_formed(&picture);
    (picture, ran.2)
}

#[test]
fn the_figure_of_the_readme() {
    let layout = "--scheme 2 --n 16 --f 2";
    let folder = altered("readme", layout, 64, &[19, 20, 27]);
    let (picture, messages) = drawn(&folder, layout, 1);
    assert_eq!(messages, "");
    let stored = Path::new(env!("CARGO_MANIFEST_DIR")).join("../../docs/figure.svg");
    let stored = fs::read_to_string(stored).unwrap();
    assert!(picture == stored, "docs/figure.svg is another picture");
}

/// Scheme 2, N 4, D 4, day 4 altered. A day is 208 wide and starts at 160; rows are 22 high, the first
/// has its middle at 95; a bar of one run ends 2 before its last day does.
#[test]
fn bars_over_the_days_that_they_cover() {
    let layout = "--scheme 2 --n 4 --f 1";
    let folder = altered("bars", layout, 4, &[4]);
    let (picture, _) = drawn(&folder, layout, 1);
    for line in [
        "<text class=\"note\" x=\"16\" y=\"47\">1 day may have been altered: 4.</text>",
        "<text class=\"note\" x=\"16\" y=\"65\">When: after the close of day 3 and by the end of day 4.</text>",
        // c(0) over the days 1 to 4 fails
        "<path class=\"fail\" d=\"M160 88h830v14h-830z\"/>",
        "<path class=\"hatch\" d=\"M160 88h830v14h-830z\"/>",
        // c(1) over the days 1 and 2 passes, c(2) over 1 and 3 too
        "<path class=\"pass\" d=\"M160 114h414v6h-414z\"/>",
        "<path class=\"pass\" d=\"M160 136h208v6h-208zM576 136h208v6h-208z\"/>",
        "<path class=\"link\" d=\"M160 139H783\"/>",
        // black fails
        "<path class=\"fail\" d=\"M160 154h830v14h-830z\"/>",
        // day 4 is listed; low 3, high 4
        "<path class=\"listed\" d=\"M784 176h206v14h-206z\"/>",
        "<path class=\"bound\" d=\"M784 78L784 227\"/>",
        "<path class=\"bound\" d=\"M992 78L992 227\"/>",
        "<text class=\"row\" x=\"150\" y=\"231\">low 3, high 4</text>",
    ] {
        has(&picture, line);
    }
    for label in [
        "tile c(0)",
        "tile c(1)",
        "tile c(2)",
        "black at 4",
        "listed days",
        "last good 0",
    ] {
        assert_eq!(
            picture.matches(&format!(">{label}</text>")).count(),
            1,
            "{label}"
        );
    }
}

/// Each value is drawn once: 35 of the tree over 16 days with N 2.
#[test]
fn each_value_once() {
    let layout = "--scheme 3 --n 2 --f 1";
    let folder = altered("tree", layout, 16, &[4, 7, 10]);
    let (picture, _) = drawn(&folder, layout, 1);
    let bars = |class: &str| -> usize {
        let start = format!("<path class=\"{class}\" d=\"");
        let paths = picture.lines().filter(|line| line.starts_with(&start));
        // the legend has one of each
        paths.map(|path| path.matches('M').count()).sum::<usize>() - 1
    };
    // level 0: 4 7 10; level 1: 3-4 7-8 9-10; level 2: 1-4 5-8 9-12; level 3: both; level 4; black 6 10 12 14
    assert_eq!((bars("fail"), bars("pass")), (16, 19));
    assert_eq!(bars("listed"), 3);
}

#[test]
fn a_clean_figure() {
    let layout = "--scheme 1 --n 2 --f 1";
    let folder = altered("clean", layout, 4, &[]);
    let (picture, _) = drawn(&folder, layout, 0);
    has(
        &picture,
        "<text class=\"note\" x=\"16\" y=\"47\">Clean: every value passes.</text>",
    );
    has(
        &picture,
        "<path class=\"pass\" d=\"M160 114h830v6h-830z\"/>",
    );
    assert!(!picture.contains(">listed days<"));
}

#[test]
fn many_days_around_the_listed_ones() {
    let layout = "--scheme 2 --n 256 --f 2";
    let folder = altered("many", layout, 2560, &[2000]);
    let (picture, messages) = drawn(&folder, layout, 1);
    assert_eq!(
        messages,
        "daybook: note: the figure shows the days 1473 to 2496 of 2560\n"
    );
    assert!(picture.contains("2560 days, of which 1473 to 2496 are drawn"));
    let folder = altered("later", layout, 3072, &[2]);
    let (picture, _) = drawn(&folder, layout, 1);
    assert!(picture.contains(">low 2560, high 3072</text>"));
    assert!(picture.contains(">later than the days drawn</text>"));
    assert!(picture.contains(">none</text>")); // last good
    let layout = "--scheme 2 --n 256 --f 1";
    let folder = altered("all", layout, 2048, &[2000]);
    let (picture, messages) = drawn(&folder, layout, 1);
    assert_eq!(messages, "");
    assert!(!picture.contains("are drawn"));
}

#[test]
fn where_a_figure_is_written() {
    let layout = "--scheme 2 --n 4 --f 1";
    let folder = altered("where", layout, 4, &[4]);
    let verify = format!("verify {layout} --ledger ledger --ends ends --book book --figure");
    let book = fs::read(folder.file("book")).unwrap();
    for (path, text) in [
        ("book", "the same file"),
        ("ends", "the same file"),
        ("none/new.svg", "cannot be written"),
    ] {
        let (status, out, messages) = run(&folder, &format!("{verify} {path}"));
        assert_eq!((status, out.as_str()), (3, ""));
        assert!(messages.contains(text), "{messages}");
    }
    assert_eq!(fs::read(folder.file("book")).unwrap(), book);
    fs::create_dir(folder.file("days")).unwrap();
    let days = format!("verify {layout} --days days --book book --figure days/new.svg");
    let (status, _, messages) = run(&folder, &days);
    assert!(
        status == 3 && messages.contains("would be a day"),
        "{messages}"
    );
    // a refusal draws nothing, and an old figure stays
    fs::write(folder.file("old.svg"), "old").unwrap();
    fs::write(folder.file("book"), &book[..127]).unwrap();
    for path in ["old.svg", "new.svg"] {
        let (status, out, _) = run(&folder, &format!("{verify} {path}"));
        assert_eq!((status, out.as_str()), (2, "NO,11\n"));
    }
    assert_eq!(fs::read(folder.file("old.svg")).unwrap(), b"old");
    assert!(!folder.file("new.svg").exists());
    // an old figure is replaced
    fs::write(folder.file("book"), &book).unwrap();
    assert_eq!(run(&folder, &format!("{verify} old.svg")).0, 1);
    assert!(fs::read(folder.file("old.svg"))
        .unwrap()
        .starts_with(b"<svg"));
}
