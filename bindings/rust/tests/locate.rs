//! The command `daybook locate`.

mod common;
#[path = "common/program.rs"]
mod program;

use std::fs;

use common::{chains, Folder};
use daybook::Layout;
use program::{closed_or_full, done, fault, run, said};

/// A book of 35 values.
const TREE: &str = "locate --scheme 3 --n 2 --f 1 --d 16";
/// A book of 24 values, in tiles of 16 days.
const TILE: &str = "locate --scheme 2 --n 16 --f 2 --d 64";

/// The line is refused with 18, of this position or chain and for this reason.
fn refused(folder: &Folder, line: &str, context: &str, reason: &str) {
    let first = format!("daybook: refusal 18 ({context}): the book has no such position or chain");
    let reason = format!("daybook: {reason}");
    said(folder, line, (2, "NO,18\n"), &[&first, &reason]);
}

#[test]
fn positions_in_words() {
    let folder = Folder::new("locate-words");
    for (layout, position, words) in [
        (TREE, 0, "tree level 0, day 1"),
        (TREE, 7, "tree level 0, day 5"),
        (TREE, 15, "tree level 3, days 1 to 8"),
        (TREE, 23, "tree level 2, days 9 to 12"),
        (TREE, 24, "black, days 1 to 12"),
        (TREE, 34, "tree level 4, days 1 to 16"),
        (TILE, 6, "tile chain 0, days 17 to 32"),
        (TILE, 7, "tile chain 1, days 17 to 24"),
        (
            TILE,
            8,
            "tile chain 2, 8 days from 17 to 28: 17 to 20, 25 to 28",
        ),
        (
            TILE,
            10,
            "tile chain 4, 8 days from 17 to 31: 17, 19, .. 31",
        ),
        (TILE, 11, "black, days 1 to 32"),
    ] {
        let line = format!("{layout} --position {position}");
        done(&folder, &line, &format!("{words}\n"));
    }
    // nothing was written
    assert_eq!(fs::read_dir(folder.path()).unwrap().count(), 0);
}

/// The pages print what the command prints.
#[test]
fn the_words_of_the_pages() {
    let folder = Folder::new("locate-pages");
    let package = concat!(env!("CARGO_MANIFEST_DIR"), "/");
    for (line, words) in [
        (
            format!("{TREE} --position 23"),
            "tree level 2, days 9 to 12\n",
        ),
        (
            format!("{TILE} --position 8"),
            "tile chain 2, 8 days from 17 to 28: 17 to 20, 25 to 28\n",
        ),
    ] {
        done(&folder, &line, words);
        for page in ["README.md", "../../README.md", "../../docs/daybook.1"] {
            let text = fs::read_to_string(format!("{package}{page}")).unwrap();
            assert!(text.contains(words.trim_end()), "{page}: {words}");
        }
    }
}

#[test]
fn chains_in_words() {
    let folder = Folder::new("locate-chains");
    for (layout, chain, position) in [
        (TREE, "--kind tree --index 2 --first 9 --last 12", 23),
        (TREE, "--kind=3 --index=2 --first=9 --last=12", 23),
        (TREE, "--kind black --first 1 --last 12", 24),
        (TREE, "--kind 1 --index 0 --first 1 --last 12", 24),
        (TREE, "--last 8 --first 1 --index 3 --kind tree", 15),
        (TILE, "--kind tile --index 2 --first 17 --last 28", 8),
        (TILE, "--kind 2 --index 0 --first 1 --last 16", 0),
    ] {
        let line = format!("{layout} {chain}");
        done(&folder, &line, &format!("position {position}\n"));
    }
}

/// The options that name a chain by its line.
fn options(line: &str) -> String {
    let fields: Vec<&str> = line.trim_end().split(',').collect();
    let [_, _, kind, index, first, last] = fields[..] else {
        panic!("{line}");
    };
    format!("--kind {kind} --index {index} --first {first} --last {last}")
}

#[test]
fn every_line_and_back() {
    let folder = Folder::new("locate-lines");
    for (layout, d) in [
        (Layout::black(2, 3), 24),
        (Layout::tile(4, 2), 16),
        (Layout::tree(2), 16),
    ] {
        let Layout { scheme, n, f } = layout;
        let locate = format!("locate --scheme {scheme} --n {n} --f {f} --d {d} --line");
        for (place, days) in chains(layout, d).iter().enumerate() {
            let (status, line, messages) = run(&folder, &format!("{locate} --position {place}"));
            assert_eq!((status, messages.as_str()), (0, ""), "{layout}, {place}");
            let ends = format!(",{},{}\n", days[0], days[days.len() - 1]);
            assert!(line.starts_with(&format!("CHAIN,{place},")), "{line}");
            assert!(line.ends_with(&ends), "{line}");
            done(&folder, &format!("{locate} {}", options(&line)), &line);
        }
    }
}

#[test]
fn the_thousand_days() {
    let folder = Folder::new("locate-thousand");
    for (layout, position, words, line) in [
        (
            "--scheme 1 --n 8 --f 25",
            124,
            "black, days 1 to 1000",
            "CHAIN,124,1,0,1,1000",
        ),
        (
            "--scheme 2 --n 8 --f 25",
            622,
            "tile chain 2, 4 days from 993 to 998: 993 to 994, 997 to 998",
            "CHAIN,622,2,2,993,998",
        ),
        (
            "--scheme 3 --n 8 --f 1",
            2110,
            "tree level 3, days 993 to 1000",
            "CHAIN,2110,3,3,993,1000",
        ),
    ] {
        let locate = format!("locate {layout} --d 1000");
        let by_position = format!("{locate} --position {position}");
        done(&folder, &by_position, &format!("{words}\n"));
        let line = format!("{line}\n");
        done(&folder, &format!("{by_position} --line"), &line);
        let by_chain = format!("{locate} {} --line", options(&line));
        done(&folder, &by_chain, &line);
    }
}

#[test]
fn books_of_65_536_days() {
    let folder = Folder::new("locate-longest");
    for (layout, position, line) in [
        ("--scheme 1 --n 1 --f 1", 65_535, "1,0,1,65536"),
        ("--scheme 2 --n 256 --f 64", 2_559, "1,0,1,65536"),
        ("--scheme 2 --n 256 --f 64", 2_558, "2,8,65281,65535"),
        ("--scheme 3 --n 1 --f 1", 196_589, "3,16,1,65536"),
        ("--scheme 3 --n 256 --f 1", 131_317, "3,16,1,65536"),
    ] {
        let locate = format!("locate {layout} --d 65536 --line");
        let line = format!("CHAIN,{position},{line}\n");
        done(&folder, &format!("{locate} --position {position}"), &line);
        done(&folder, &format!("{locate} {}", options(&line)), &line);
    }
    for (layout, values) in [
        ("--scheme 1 --n 1 --f 1", 65_536),
        ("--scheme 2 --n 256 --f 64", 2_560),
        ("--scheme 3 --n 1 --f 1", 196_590),
        ("--scheme 3 --n 256 --f 1", 131_318),
    ] {
        let beyond = format!("locate {layout} --d 65536 --position {values}");
        let (status, out, _) = run(&folder, &beyond);
        assert_eq!((status, out.as_str()), (2, "NO,18\n"), "{beyond}");
    }
    done(
        &folder,
        "locate --scheme 2 --n 256 --f 64 --d 65536 --position 2558",
        "tile chain 8, 128 days from 65281 to 65535: 65281, 65283, .. 65535\n",
    );
}

#[test]
fn positions_beyond() {
    let folder = Folder::new("locate-beyond");
    for position in ["35", "36", "4294967295"] {
        refused(
            &folder,
            &format!("{TREE} --position {position} --line"),
            &format!("scheme 3, N 2, F 1, D 16, position {position}"),
            &format!("the positions are 0 to 34, and {position} is beyond them"),
        );
    }
}

#[test]
fn chains_that_are_not_in_the_book() {
    let folder = Folder::new("locate-none");
    let (tree, tile) = ("scheme 3, N 2, F 1, D 16", "scheme 2, N 16, F 2, D 64");
    let none = |line: &str, chain: &str, numbers: &str, reason: &str| {
        refused(&folder, &format!("{line} {chain}"), numbers, reason);
    };
    none(
        TREE,
        "--kind tree --index 2 --first 8 --last 12",
        &format!("{tree}, kind tree, index 2, first 8, last 12"),
        "tree level 2 goes from day 1 to 4, and so on by 4, up to day 16",
    );
    none(
        TREE,
        "--kind black --first 1 --last 8",
        &format!("{tree}, kind black, index 0, first 1, last 8"),
        "black over days 1 to 8 is stored once, as tree level 3: at position 15",
    );
    none(
        TREE,
        "--kind black --index 1 --first 1 --last 12",
        &format!("{tree}, kind black, index 1, first 1, last 12"),
        "the index of black is 0",
    );
    none(
        TREE,
        "--kind tile --index 0 --first 1 --last 2",
        &format!("{tree}, kind tile, index 0, first 1, last 2"),
        "scheme 3 has no tile chains",
    );
    none(
        TILE,
        "--kind tree --index 4 --first 17 --last 32",
        &format!("{tile}, kind tree, index 4, first 17, last 32"),
        "scheme 2 has no tree chains",
    );
    // the tile's end is not the chain's
    none(
        TILE,
        "--kind tile --index 2 --first 17 --last 32",
        &format!("{tile}, kind tile, index 2, first 17, last 32"),
        "tile chain 2 goes from day 1 to 12, and so on by 16, in tiles up to day 64",
    );
    none(
        TILE,
        "--kind tile --index 4294967295 --first 4294967295 --last 4294967295",
        &format!("{tile}, kind tile, index 4294967295, first 4294967295, last 4294967295"),
        "with N 16 the last tile chain of a day is 4",
    );
}

#[test]
fn other_refusals_come_first() {
    let folder = Folder::new("locate-order");
    for (numbers, number) in [
        ("--scheme 4 --n 3 --f 0 --d 0", 1),
        ("--scheme 2 --n 3 --f 0 --d 0", 2),
        ("--scheme 2 --n 4 --f 65 --d 0", 3),
        ("--scheme 3 --n 4 --f 2 --d 8", 3),
        ("--scheme 2 --n 4 --f 2 --d 12", 7),
        ("--scheme 2 --n 4 --f 2 --d 65537", 7),
    ] {
        for sought in [
            "--position 4294967295",
            "--kind tree --index 99 --first 7 --last 3",
        ] {
            let (status, out, messages) = run(&folder, &format!("locate {numbers} {sought}"));
            assert_eq!((status, out), (2, format!("NO,{number}\n")), "{numbers}");
            assert_eq!(messages.lines().count(), 1, "{messages}");
        }
    }
}

#[test]
fn by_a_state_folder() {
    let folder = Folder::new("locate-state");
    assert_eq!(run(&folder, "open s --scheme 3 --n 2 --f 1").0, 0);
    let none = run(&folder, "locate --state s --position 0");
    assert_eq!((none.0, none.1.as_str()), (2, "NO,7\n"), "{}", none.2);
    for g in 1..=5 {
        fs::write(folder.file("day"), format!("{g}")).unwrap();
        assert_eq!(run(&folder, &format!("close s --day {g} day")).0, 0);
    }
    // 4 days of 5 make whole intervals
    let note = "daybook: note: day 5 is not yet checkable: D goes by 2, and 5 days are closed";
    let level = "tree level 2, days 1 to 4\n";
    said(
        &folder,
        "locate --state s --position 6",
        (0, level),
        &[note],
    );
    let two = "locate --state s --d 2 --kind tree --index 1 --first 1 --last 2 --line";
    said(&folder, two, (0, "CHAIN,2,3,1,1,2\n"), &[note]);
    let (status, out, messages) = run(&folder, "locate --state s --position 7");
    assert_eq!((status, out.as_str()), (2, "NO,18\n"));
    assert!(messages.contains("the positions are 0 to 6"), "{messages}");
    fault(&folder, "locate --state s --d 6 --position 0", "D is 6");
    fault(&folder, "locate --state none --position 0", "none");
    fault(
        &folder,
        "locate --state s --n 2 --position 0",
        "--state has what --n gives: not both",
    );
}

#[test]
fn wrong_words() {
    let folder = Folder::new("locate-wrong");
    let needs = "locate needs either --position, or --kind, --index, --first and --last";
    for words in [
        "",
        "--line",
        "--kind tree --index 2 --first 9",
        "--kind tree --first 9 --last 12",
        "--position 1 --kind black --first 1 --last 2",
        "--position 1 --index 0",
    ] {
        fault(&folder, &format!("{TREE} {words}"), needs);
    }
    for (words, text) in [
        ("--kind wood", "--kind wood is not black, tile or tree"),
        ("--kind 4", "--kind 4 is not black, tile or tree"),
        ("--kind 0", "--kind 0 is not black, tile or tree"),
        ("--position -1", "--position -1 is not a number"),
        ("--position --line", "--position has no value"),
        (
            "--position 4294967296",
            "--position 4294967296 is not a number",
        ),
        ("--position 23.0", "--position 23.0 is not a number"),
        ("--position", "--position has no value"),
        ("--position 1 --position 1", "--position is given twice"),
        ("--position 1 --line=yes", "--line takes no value"),
        ("--position 1 --book book", "locate has no option --book"),
        ("23", "locate has no option 23"),
    ] {
        fault(&folder, &format!("{TREE} {words}"), text);
        fault(&folder, &format!("{TREE} {words}"), "Try: daybook --help");
    }
    fault(&folder, "locate --scheme 3 --n 2 --f 1 --position 1", "--d");
    fault(&folder, "locate --position 1", "locate needs --scheme");
}

#[test]
fn standard_output_closed_or_full() {
    let folder = Folder::new("locate-output");
    let found = format!("{TREE} --position 23");
    let beyond = format!("{TREE} --position 35");
    for (line, status) in [(found, 0), (beyond, 2)] {
        closed_or_full(&folder, &line, status);
    }
}
