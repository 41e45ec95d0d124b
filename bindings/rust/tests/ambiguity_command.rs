//! The command `daybook ambiguity`.

mod common;
#[path = "common/picture.rs"]
mod picture;
#[path = "common/program.rs"]
mod program;

use std::collections::BTreeSet;
use std::fs::{self, File, Permissions};
use std::os::unix::fs::{symlink, PermissionsExt};
use std::path::{Path, PathBuf};
use std::process::Command;

use common::Folder;
use daybook::{tile_counts, TileCounts};
use picture::{has, well_formed};
use program::{closed_or_full, command, done, ended, fault, run, said};

const TABLE: &str = "\
How vague a tile is: scheme 2 (tile), one tile of N days, k of which were altered.
Sets: how many sets of k days the tile has. Listed: the days that may have been altered as far as
reading tells, added up over all these sets. A set: the days listed for one of them, on average.

                 k = 1                      k = 2                      k = 3
  N     sets     listed  a set     sets     listed  a set     sets     listed  a set
  1        1          1   1.00        0          0      -        0          0      -
  2        2          3   1.50        1          2   2.00        0          0      -
  4        4          9   2.25        6         20   3.33        4         16   4.00
  8        8         27   3.38       28        158   5.64       56        400   7.14
 16       16         81   5.06      120      1,160   9.67      560      7,264  12.97
 32       32        243   7.59      496      8,282  16.70    4,960    118,240  23.84
 64       64        729  11.39    2,016     58,460  29.00   41,664  1,839,856  44.16
";

fn top(path: &str) -> PathBuf {
    Path::new(env!("CARGO_MANIFEST_DIR"))
        .join("../..")
        .join(path)
}

/// The lines of a text, each with its line feed, in an order of their own.
fn lines(text: &str) -> Vec<String> {
    let mut lines: Vec<String> = text.split_inclusive('\n').map(String::from).collect();
    lines.sort_unstable();
    lines
}

#[test]
fn a_table_for_a_person() {
    let folder = Folder::new("ambiguity-table");
    done(&folder, "ambiguity", TABLE);
    // nothing was written
    assert_eq!(fs::read_dir(folder.path()).unwrap().count(), 0);
}

/// The table has what the library counts.
#[test]
fn the_numbers_of_the_table() {
    let rows = TABLE.lines().skip(6).map(|row| row.replace(',', ""));
    let mut counted = BTreeSet::new();
    for row in rows {
        let fields: Vec<&str> = row.split_whitespace().collect();
        let n: u32 = fields[0].parse().unwrap();
        for (k, fields) in (1..).zip(fields[1..].chunks(3)) {
            let TileCounts { sets, listed } = tile_counts(n, k).unwrap();
            assert_eq!(fields[..2], [sets.to_string(), listed.to_string()]);
            let mean = format!("{:.2}", f64::from(listed) / f64::from(sets));
            assert_eq!(fields[2], if sets == 0 { "-" } else { &mean });
            counted.insert((n, k));
        }
    }
    assert_eq!(counted.len(), 21);
}

/// The lines are those of the reference, each once; nobody may count on their order.
#[test]
fn lines_for_programs() {
    let folder = Folder::new("ambiguity-lines");
    let (status, out, messages) = run(&folder, "ambiguity --line");
    assert_eq!((status, messages.as_str()), (0, ""));
    let stored = fs::read_to_string(top("crates/ambiguity_lines/stdout")).unwrap();
    assert_eq!(lines(&out), lines(&stored));
    let distinct: BTreeSet<String> = lines(&out).into_iter().collect();
    assert_eq!((distinct.len(), out.lines().count()), (21, 21));
    for line in ["4,1,4,9\n", "4,2,6,20\n", "1,2,0,0\n", "64,1,64,729\n"] {
        assert!(distinct.contains(line), "{line}");
    }
    // the one that the page shows
    let page = fs::read_to_string(top("README.md")).unwrap();
    assert!(page.contains("`64,1,64,729`"));
    assert_eq!(fs::read_dir(folder.path()).unwrap().count(), 0);
}

/// The picture that the command writes.
fn drawn(folder: &Folder, line: &str, out: &str) -> String {
    done(folder, &format!("{line} --figure out.svg"), out);
    let picture = fs::read_to_string(folder.file("out.svg")).unwrap();
    well_formed(&picture);
    picture
}

#[test]
fn the_chart_of_the_readme() {
    let folder = Folder::new("ambiguity-chart");
    let picture = drawn(&folder, "ambiguity", TABLE);
    let stored = fs::read_to_string(top("docs/ambiguity.svg")).unwrap();
    assert!(picture == stored, "docs/ambiguity.svg is another picture");
    let by_lines = run(&folder, "ambiguity --line").1;
    assert_eq!(drawn(&folder, "ambiguity --line", &by_lines), stored);
    let page = fs::read_to_string(top("README.md")).unwrap();
    assert!(page.contains("](docs/ambiguity.svg)"));
}

/// The points of the line for k, in the first panel or in the second.
fn curve(picture: &str, k: u32, panel: usize) -> Vec<(f64, f64)> {
    let start = format!("<path class=\"curve k{k}\" d=\"M");
    let mut paths = picture.lines().filter_map(|line| line.strip_prefix(&start));
    let path = paths.nth(panel).unwrap().strip_suffix("\"/>").unwrap();
    let point = |text: &str| {
        let (x, y) = text.split_once(' ').unwrap();
        (x.parse().unwrap(), y.parse().unwrap())
    };
    path.split('L').map(point).collect()
}

/// The panels are 264 by 256, from (84, 112) and from (468, 112) on; N 1 stands 16 from their left and N 64
/// 6 before their right. A decade has 256 / 6.5, a day a set 256 / 50.
#[test]
fn where_the_points_stand() {
    let folder = Folder::new("ambiguity-points");
    let picture = drawn(&folder, "ambiguity", TABLE);
    let heights: [fn(f64, f64) -> f64; 2] = [
        |_, listed| listed.log10() * 256.0 / 6.5,
        |sets, listed| listed / sets * 256.0 / 50.0,
    ];
    for (panel, left) in [(0, 84.0), (1, 468.0)] {
        for k in 1..=3 {
            let counted = (0..7).map(|m| (m, tile_counts(1 << m, k).unwrap()));
            let point = |(m, counts): (u32, TileCounts)| {
                let height = heights[panel](counts.sets.into(), counts.listed.into());
                (left + 16.0 + f64::from(m) * 242.0 / 6.0, 368.0 - height)
            };
            let points: Vec<(f64, f64)> = counted
                .filter(|(_, counts)| counts.sets > 0)
                .map(point)
                .collect();
            let found = curve(&picture, k, panel);
            assert_eq!(found.len(), points.len(), "k {k}");
            let near = |(one, other): (&(f64, f64), &(f64, f64))| {
                (one.0 - other.0).abs() < 0.01 && (one.1 - other.1).abs() < 0.01
            };
            assert!(found.iter().zip(&points).all(near), "{found:?} {points:?}");
        }
    }
    assert_eq!(curve(&picture, 1, 0)[0], (100.0, 368.0));
    assert_eq!(curve(&picture, 3, 1)[0], (564.67, 347.52));
}

#[test]
fn words_of_the_chart() {
    let folder = Folder::new("ambiguity-words");
    let picture = drawn(&folder, "ambiguity", TABLE);
    let title = "How vague a tile is: scheme 2 (tile), one tile of N days, k of them altered";
    has(&picture, &format!("<title>{title}</title>"));
    let most = "Of a tile of 64 days reading lists on average 11.39 for k = 1, 29.00 for k = 2, 44.16 for \
                k = 3.";
    assert!(picture.contains(&format!("{most}</desc>")));
    for (label, count) in [
        ("k = 1", 2),
        ("k = 2", 2),
        ("k = 3", 2),
        ("1,000,000", 1),
        ("50", 1),
        ("64", 2),
        (most, 1),
    ] {
        let found = picture.matches(&format!(">{label}</text>")).count();
        assert_eq!(found, count, "{label}");
    }
    // a mark for each point, of a form of its own for each k
    for (k, points, form) in [(1, 7, "a3.5"), (2, 6, "h7v7"), (3, 5, "h9l-4.5")] {
        let start = format!("<path class=\"mark k{k}\" d=\"");
        let marks: Vec<&str> = picture
            .lines()
            .filter_map(|line| line.strip_prefix(&start))
            .collect();
        assert_eq!(marks.len(), 2);
        for path in marks {
            assert_eq!(path.matches('M').count(), points, "k {k}");
            assert!(path.contains(form), "k {k}");
        }
    }
}

#[test]
fn where_a_figure_is_written() {
    let folder = Folder::new("ambiguity-where");
    symlink("/dev/stdout", folder.file("stream")).unwrap();
    symlink("nothing", folder.file("link")).unwrap();
    assert_eq!(run(&folder, "open s --scheme 2 --n 4 --f 1").0, 0);
    for (path, text) in [
        ("none/new.svg", "cannot be written"),
        (".", "not a regular file"),
        ("/dev/full", "not a regular file"),
        ("/dev/stdout", "it is a stream"),
        ("stream", "it is a stream"),
        ("link", "it is a link to nothing"),
        ("s/new.svg", "it stands in a state folder"),
    ] {
        for words in ["", "--line"] {
            fault(&folder, &format!("ambiguity {words} --figure {path}"), text);
        }
    }
    assert_eq!(names(&folder), ["link", "s", "stream"]);
    // an old figure is replaced, and keeps what it allows
    let old = folder.file("old.svg");
    fs::write(&old, "old").unwrap();
    fs::set_permissions(&old, Permissions::from_mode(0o640)).unwrap();
    done(&folder, "ambiguity --figure=old.svg", TABLE);
    let stored = fs::read(top("docs/ambiguity.svg")).unwrap();
    assert_eq!(fs::read(&old).unwrap(), stored);
    let mode = fs::metadata(&old).unwrap().permissions().mode();
    assert_eq!(mode & 0o777, 0o640);
    assert_eq!(names(&folder), ["link", "old.svg", "s", "stream"]);
}

fn names(folder: &Folder) -> Vec<String> {
    let entries = fs::read_dir(folder.path()).unwrap().flatten();
    let mut names: Vec<String> = entries
        .map(|entry| entry.file_name().into_string().unwrap())
        .collect();
    names.sort();
    names
}

/// A file that can have no more than 2,048 bytes, as on a full disk: the old one stays, and no half one is
/// left.
#[test]
fn a_figure_that_does_not_fit() {
    let folder = Folder::new("ambiguity-full");
    let limited = |path: &str| {
        let shell = "trap '' XFSZ; ulimit -f 4; exec \"$0\" ambiguity --figure \"$1\"";
        let mut command = Command::new("sh");
        command.args(["-c", shell, env!("CARGO_BIN_EXE_daybook"), path]);
        ended(command.current_dir(folder.path()).output().unwrap())
    };
    fs::write(folder.file("old.svg"), "old").unwrap();
    for path in ["old.svg", "new.svg"] {
        let (status, out, messages) = limited(path);
        assert_eq!((status, out.as_str()), (3, ""), "{messages}");
        assert!(
            messages.contains(&format!("{path} cannot be written")),
            "{messages}"
        );
    }
    assert_eq!(fs::read(folder.file("old.svg")).unwrap(), b"old");
    assert_eq!(names(&folder), ["old.svg"]);
}

#[test]
fn wrong_words() {
    let folder = Folder::new("ambiguity-wrong");
    for (words, text) in [
        ("4", "ambiguity has no option 4"),
        ("-", "ambiguity has no option -"),
        ("--n 4", "ambiguity has no option --n"),
        ("--k 1", "ambiguity has no option --k"),
        ("--scheme 2", "ambiguity has no option --scheme"),
        ("--lines", "ambiguity has no option --lines"),
        ("--line yes", "ambiguity has no option yes"),
        ("--line=yes", "--line takes no value"),
        ("--line --line", "--line is given twice"),
        ("--figure", "--figure has no value"),
        ("--figure=", "--figure has no value"),
        ("--figure --line", "--figure has no value"),
        ("--figure a --figure b", "--figure is given twice"),
    ] {
        let line = format!("ambiguity {words}");
        fault(&folder, &line, text);
        fault(&folder, &line, "Try: daybook --help");
    }
    assert_eq!(names(&folder), Vec::<String>::new());
}

#[test]
fn help() {
    let folder = Folder::new("ambiguity-help");
    let (status, text, _) = run(&folder, "help ambiguity");
    assert_eq!(status, 0);
    assert!(text.starts_with("daybook ambiguity [--line] [--figure FILE]\n"));
    for line in [
        "ambiguity --help",
        "ambiguity --line -h",
        "ambiguity --figure f --help",
    ] {
        said(&folder, line, (0, &text), &[]);
    }
    assert_eq!(names(&folder), Vec::<String>::new());
}

#[test]
fn standard_output_closed_or_full() {
    let folder = Folder::new("ambiguity-output");
    for line in [
        "ambiguity",
        "ambiguity --line",
        "ambiguity --figure out.svg",
    ] {
        closed_or_full(&folder, line, 0);
    }
    // the figure is whole, whatever became of the lines
    let stored = fs::read(top("docs/ambiguity.svg")).unwrap();
    assert_eq!(fs::read(folder.file("out.svg")).unwrap(), stored);
    fs::remove_file(folder.file("out.svg")).unwrap();
    let full = File::options().write(true).open("/dev/full").unwrap();
    let line = "ambiguity --line --figure out.svg";
    let (status, _, messages) = ended(command(&folder, line).stdout(full).output().unwrap());
    assert_eq!(status, 3);
    assert!(
        messages.contains("standard output cannot be written"),
        "{messages}"
    );
    assert_eq!(fs::read(folder.file("out.svg")).unwrap(), stored);
}
