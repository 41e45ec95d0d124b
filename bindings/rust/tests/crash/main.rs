//! Stops a program before every call that writes, renames, truncates, syncs, makes or removes, by a
//! kill, a full disk, a failing call and a power cut; then repeats it and compares what it leaves with
//! an undisturbed run. `.ci/crash` builds what this needs and runs it.

#[path = "../common/mod.rs"]
mod common;
mod explore;
#[path = "../common/folder_before.rs"]
mod folder_before;
#[path = "../common/folders.rs"]
mod folders;
#[path = "../common/full.rs"]
mod full;
mod model;
mod plain;
#[path = "../common/random.rs"]
mod random;
#[path = "../common/record.rs"]
mod record;

use std::env;
use std::fs;
use std::path::PathBuf;

use common::{book, book_before, digest};
use daybook::Layout;
use explore::{states, Bench, Step};
use folder_before::Before;
use folders::{tree, Tree};
use full::Season;
use model::{put, Call};
use plain::{Asked, Plain};
use random::Random;

const PROGRAM: &str = env!("CARGO_BIN_EXE_daybook");

/// What `.ci/crash` built.
fn built(name: &str) -> PathBuf {
    let path = env::var_os(name).unwrap_or_else(|| panic!("{name} is not set: run .ci/crash"));
    PathBuf::from(path)
}

/// A bench whose files are removed at the end.
fn bench(name: &str, program: impl Into<PathBuf>) -> Bench {
    Bench::new(name, program.into(), built("CRASH_SHIM"))
}

fn file(tree: &mut Tree, path: &str, bytes: impl AsRef<[u8]>) {
    tree.insert(path.to_string(), Some(bytes.as_ref().to_vec()));
}

/// The files that the days come from.
fn sources() -> Tree {
    let mut tree = Tree::new();
    for (name, text) in [
        ("a", "rye 12"),
        ("b", "oats 7, wheat 40"),
        ("c", "barley 3"),
        ("none", ""),
    ] {
        file(&mut tree, name, text);
    }
    tree
}

/// Explores each step of a service in turn, from what the one before left.
fn explore_all(bench: &Bench, start: Tree, steps: &[Step]) {
    let (mut start, mut stops, mut cuts) = (start, 0, 0);
    for step in steps {
        let found = bench.explore(&start, step);
        assert!(
            found.differences.is_empty(),
            "{}: {} differences, the first:\n{}",
            step.line,
            found.differences.len(),
            found.differences[0]
        );
        stops += found.stops;
        cuts += found.cuts;
        start = found.after;
    }
    println!(
        "crash: {}: {stops} stops, {cuts} states after power cuts, 0 differences",
        bench.name
    );
}

fn steps(lines: &[&str], look: &str) -> Vec<Step> {
    lines.iter().map(|line| Step::new(line, look)).collect()
}

/// The steps of a service, each with others that may come next.
fn service(lines: &[&str]) -> Vec<Step> {
    let step = |line: &&str| {
        let mut words = line.split(' ').skip_while(|word| *word != "--day");
        let day: u32 = words.nth(1).map_or(0, |day| day.parse().unwrap());
        let next = day + 1;
        Step::new(line, "status s").or_next(&[
            &format!("add s --day {day} --at 0 b"),
            &format!("close s --day {day} c"),
            &format!("close s --day {day}"),
            &format!("add s --day {next} --at 0 b"),
            &format!("close s --day {next} c"),
        ])
    };
    lines.iter().map(step).collect()
}

#[test]
#[ignore = "run by .ci/crash"]
fn a_service_under_the_tree() {
    let lines = [
        "open s --scheme 3 --n 2 --f 1",
        "open s --scheme 3 --n 2 --f 1",
        "add s --day 1 --at 0 a",
        "add s --day 1 --at 6 b c",
        "add s --day 1 --at 6 b c",
        "close s --day 1",
        "close s --day 1",
        "add s --day 1 --at 6 b",
        "add s --day 2 --at 0 b",
        "close s --day 2",
        "close s --day 3 c",
        "close s --day 3 c",
        "close s --day 4",
        "add s --day 5 --at 0 none",
        "close s --day 5",
    ];
    let bench = bench("daybook-tree", PROGRAM);
    explore_all(&bench, sources(), &service(&lines));
}

#[test]
#[ignore = "run by .ci/crash"]
fn a_service_under_tiles() {
    let lines = [
        "open s --scheme 2 --n 2 --f 1",
        "close s --day 1 a",
        "close s --day 2 b",
        "add s --day 3 --at 0 a",
        "close s --day 3",
        "add s --day 4 --at 0 c",
        "add s --day 4 --at 8 a",
        "close s --day 4",
        "close s --day 5 none",
    ];
    let mut start = sources();
    start.insert("s".to_string(), None);
    let bench = bench("daybook-tiles", PROGRAM);
    explore_all(&bench, start, &service(&lines));
}

/// Files of a state folder `s` beside the sources, its season 0 full: a bench on which its long book
/// and index are fixed, since nothing writes them any more, and the rest. The bytes of day 65,536 are
/// there, as if they had been added.
fn full_season(name: &str, layout: Layout, version: u32) -> (Bench, Tree) {
    let season = Season::full(layout, 0);
    let files = match version {
        2 => full::files_of_version_2(&season, b""),
        _ => full::files(&[&season], b""),
    };
    let (mut start, mut fixed) = (sources(), Vec::new());
    start.insert("s".to_string(), None);
    for (name, bytes) in files {
        match name.as_str() {
            "book" | "index" => fixed.push((format!("s/{name}"), bytes)),
            _ => file(&mut start, &format!("s/{name}"), bytes),
        }
    }
    file(&mut start, "s/day-65536", [full::byte_of(0, 65_536)]);
    (bench(name, PROGRAM).with_fixed(fixed), start)
}

/// The steps of a turn, each with some that may come next.
fn turning(lines: &[&str]) -> Vec<Step> {
    let others = ["add s --day 1 --at 0 b", "close s --day 65536"];
    let step = |line: &&str| Step::new(line, "status s").or_next(&others);
    lines.iter().map(step).collect()
}

/// A close across the turn, with values on day 1 of the new season.
#[test]
#[ignore = "run by .ci/crash"]
fn a_turn_by_a_close() {
    let (bench, start) = full_season("turn-close", Layout::black(1, 1), 3);
    explore_all(&bench, start, &turning(&["close s --day 1 a"]));
}

/// An add across the turn, and the close of the day that it began.
#[test]
#[ignore = "run by .ci/crash"]
fn a_turn_by_an_add() {
    let (bench, start) = full_season("turn-add", Layout::black(256, 1), 3);
    let lines = ["add s --day 1 --at 0 a", "close s --day 1"];
    explore_all(&bench, start.clone(), &turning(&lines));
    explore_all(&bench, start, &turning(&["add s --day 1 --at 0 none"]));
}

/// A full folder of version 0.8: its version is raised and its season turned in one run.
#[test]
#[ignore = "run by .ci/crash"]
fn a_turn_of_version_2() {
    let (bench, start) = full_season("turn-2", Layout::black(256, 1), 2);
    let close = Step::new("close s --day 1 a", "status s").or_next(&["add s --day 1 --at 0 b"]);
    explore_all(&bench, start.clone(), &[close]);
    let add = steps(&["add s --day 1 --at 0 b"], "status s");
    explore_all(&bench, start, &add);
}

/// The files of a folder of version 0.8 with four days closed and these bytes in the fifth.
fn version_2(open: &[u8]) -> Tree {
    let season = Season::of(Layout::tile(2, 1), 0, 4);
    let mut start = sources();
    start.insert("s".to_string(), None);
    for (name, bytes) in full::files_of_version_2(&season, open) {
        file(&mut start, &format!("s/{name}"), bytes);
    }
    start
}

/// The raising of a folder of version 0.8, by each step that writes.
#[test]
#[ignore = "run by .ci/crash"]
fn a_folder_of_version_2() {
    let bench = bench("daybook-2", PROGRAM);
    for (open, line) in [
        (&b""[..], "close s --day 5 a"),
        (b"", "close s --day 5"),
        (b"", "add s --day 5 --at 0 a"),
        (b"noon", "add s --day 5 --at 4 a"),
        (b"noon", "close s --day 5"),
    ] {
        explore_all(&bench, version_2(open), &service(&[line]));
    }
    // the layout of this version beside the record of the one before is a good state
    let mut between = version_2(b"noon");
    file(
        &mut between,
        "s/layout",
        full::layout_text(3, Layout::tile(2, 1)),
    );
    let lines = ["add s --day 5 --at 4 a", "close s --day 5"];
    explore_all(&bench, between, &service(&lines));
}

/// Whether what the record says is there: it is the one of before, or the new one, and with that all
/// files that were written before it are those of the end.
fn together(tree: &Tree, start: &Tree, after: &Tree) -> bool {
    let same = |name: &String| tree.get(name) == after.get(name);
    let record = "s/record".to_string();
    match same(&record) {
        true => after.keys().filter(|name| name.starts_with("s/")).all(same),
        false => tree.get(&record) == start.get(&record),
    }
}

/// Each flush of a step counts but the first, which is of the record found, and the last, which makes
/// the commit last: with one left out, a power cut leaves a record that says more than there is. Gives
/// how many were found.
fn each_sync(bench: &Bench, start: &Tree, line: &str) -> usize {
    let (calls, after) = bench.traced(start, &Step::new(line, "status s"));
    let whole = |calls: &[Call]| {
        let states = states(start, calls);
        states.iter().all(|tree| together(tree, start, &after))
    };
    assert!(whole(&calls), "{line}");
    let syncs = (0..calls.len()).filter(|at| matches!(calls[*at], Call::Sync(_)));
    let syncs: Vec<usize> = syncs.collect();
    let mut counted = 0;
    for at in &syncs[1..syncs.len() - 1] {
        let mut others = calls.clone();
        others.remove(*at);
        let Call::Sync(path) = &calls[*at] else {
            unreachable!()
        };
        // an empty book has nothing to lose; and at a turn the folder is flushed again before the commit
        let empty = after.get(path).is_some_and(|bytes| *bytes == Some(vec![]));
        let twice = matches!(&calls[at - 1], Call::Move(..)) && after.contains_key("s/seasons");
        assert_eq!(whole(&others), empty || twice, "{line}: {path}");
        counted += usize::from(!empty && !twice);
    }
    counted
}

#[test]
#[ignore = "run by .ci/crash"]
fn each_sync_of_a_turn_counts() {
    let mut counted = 0;
    for version in [3, 2] {
        let (bench, start) = full_season("turn-syncs", Layout::black(1, 1), version);
        for line in ["close s --day 1 a", "add s --day 1 --at 0 a"] {
            counted += each_sync(&bench, &start, line);
        }
    }
    let bench = bench("raise-syncs", PROGRAM);
    for line in ["add s --day 5 --at 4 a", "close s --day 5"] {
        counted += each_sync(&bench, &version_2(b"noon"), line);
    }
    counted += each_sync(&bench, &version_2(b""), "close s --day 5 a");
    println!("crash: each of {counted} flushes of turns and raisings that is left out is found");
}

/// The files of four days, and the steps that close them.
fn four_days() -> (Tree, Vec<String>) {
    let mut start = Tree::new();
    start.insert("in".to_string(), None);
    for day in ["1", "2", "3", "4"] {
        file(&mut start, &format!("in/{day}"), day);
    }
    let mut lines = vec!["open s --scheme 2 --n 2 --f 1".to_string()];
    lines.extend((1..=4).map(|day| format!("close s --day {day} in/{day}")));
    (start, lines)
}

/// Four days, closed.
fn four_closed(bench: &Bench) -> Tree {
    let (start, lines) = four_days();
    let closed = |start: Tree, line: &String| bench.traced(&start, &Step::new(line, "")).1;
    lines.iter().fold(start, closed)
}

/// Days that verified clean: the file is the old one or the new one, whatever stops the run.
#[test]
#[ignore = "run by .ci/crash"]
fn clean_days() {
    let bench = bench("daybook-clean", PROGRAM);
    let whole = |tree: &Tree| match tree.get("s/clean") {
        Some(Some(text)) => text.ends_with(b"\n"),
        _ => true,
    };
    let others = [
        "add s --day 5 --at 0 in/1",
        "close s --day 5 in/2",
        "close s --day 4 in/4",
    ];
    let step = |line: &str| Step::new(line, "status s").holding(whole).spared();
    let verify = "verify --state s --days in";
    let fewer = "verify --state s --days in --d 2";
    let check = "check --state s --days in --outcomes table";
    let closed = four_closed(&bench);
    let steps = [
        step(verify).or_next(&[&others[..], &[fewer]].concat()),
        step(verify).or_next(&others),
        step(fewer).or_next(&others),
    ];
    explore_all(&bench, closed.clone(), &steps);
    explore_all(&bench, closed, &[step(check)]);
}

/// Outcomes and digests: where both are there, they are of one run.
#[test]
#[ignore = "run by .ci/crash"]
fn outcomes_with_their_digests() {
    let bench = bench("daybook-check", PROGRAM);
    let mut start = sources();
    start.insert("in".to_string(), None);
    for day in ["1", "2", "3", "4"] {
        file(&mut start, &format!("in/{day}"), day);
    }
    let layout = "--scheme 2 --n 2 --f 1 --days in";
    let seal = Step::new(&format!("seal {layout} --book book"), "status none");
    let (_, mut sealed) = bench.traced(&start, &seal);
    explore_all(&bench, start, &[seal]);
    // of another run, and of other lengths, to be told apart
    file(&mut sealed, "table", [9; 7]);
    file(&mut sealed, "sums", [9; 9]);
    let check = format!("check {layout} --book book --outcomes table --digests sums");
    let together = |tree: &Tree| match (tree.get("table"), tree.get("sums")) {
        (Some(Some(table)), Some(Some(sums))) => (table.len() == 7) == (sums.len() == 9),
        _ => true,
    };
    assert!(together(&sealed));
    let step = Step::new(&check, "status none").holding(together);
    explore_all(&bench, sealed, &[step]);
}

/// The book of the four days as it was before version 0.8.0, and as it is.
fn books_of_four() -> [Vec<u8>; 2] {
    let layout = Layout::tile(2, 1);
    let days = ["1", "2", "3", "4"].map(|day| day.as_bytes().to_vec());
    [book_before(layout, &days), book(layout, &days)]
}

/// A book of before, sealed again: it is the old one or the new one, whatever stops the run.
#[test]
#[ignore = "run by .ci/crash"]
fn a_book_sealed_again() {
    let bench = bench("daybook-again", PROGRAM);
    let [old, new] = books_of_four();
    let (mut start, _) = four_days();
    file(&mut start, "book", old);
    let either = |tree: &Tree| {
        let found = tree.get("book").and_then(Option::as_ref);
        found.is_some_and(|found| books_of_four().contains(found))
    };
    let seal = "seal --scheme 2 --n 2 --f 1 --days in --book book --force";
    let step = Step::new(seal, "status none").holding(either);
    let (_, after) = bench.traced(&start, &step);
    assert_eq!(after["book"], Some(new));
    explore_all(&bench, start, &[step]);
}

/// A figure over another one: it is the old one or the new one, whatever stops the run.
#[test]
#[ignore = "run by .ci/crash"]
fn a_figure() {
    let bench = bench("daybook-figure", PROGRAM);
    let mut start = Tree::new();
    file(&mut start, "chart.svg", "<svg>old</svg>\n");
    let whole = |tree: &Tree| match tree.get("chart.svg") {
        Some(Some(text)) => text.ends_with(b"</svg>\n"),
        _ => false,
    };
    assert!(whole(&start));
    let step = Step::new("ambiguity --figure chart.svg", "status none");
    explore_all(&bench, start, &[step.holding(whole)]);
}

/// The shim sees every call: strace, where there is one, counts as many.
#[test]
#[ignore = "run by .ci/crash"]
fn no_call_escapes_the_shim() {
    let daybook = bench("strace", PROGRAM);
    let rust = bench("strace-rust", built("CRASH_RUST_EXAMPLE"));
    let c = bench("strace-c", built("CRASH_C_EXAMPLE"));
    let opened = |bench: &Bench, line: &str| bench.traced(&sources(), &Step::new(line, "")).1;
    let cases = [
        (
            &daybook,
            "open s --scheme 3 --n 1 --f 1",
            "add s --day 1 --at 0 a",
        ),
        (
            &daybook,
            "open s --scheme 3 --n 1 --f 1",
            "close s --day 1 a",
        ),
        (&rust, "open s", "close s 1 rye"),
        (&c, "open s", "close s 1 rye"),
    ];
    for (bench, open, line) in cases {
        let start = opened(bench, open);
        for (start, line) in [(&sources(), open), (&start, line)] {
            match bench.counted(start, line) {
                (_, None) => return println!("crash: no strace here: its count left out"),
                // the message on standard output is by stdio, which the shim does not see
                (seen, Some(traced)) if bench.name == "strace-c" => assert_eq!(seen + 1, traced),
                (seen, Some(traced)) => assert_eq!(seen, traced, "{}: {line}", bench.name),
            }
        }
    }
    println!("crash: strace counts the same calls");
}

/// The example in Rust.
#[test]
#[ignore = "run by .ci/crash"]
fn the_example_in_rust() {
    let lines = [
        "open s",
        "open s",
        "close s 1 rye",
        "close s 1 rye",
        "close s 2 oats",
        "close s 3 wheat",
        "close s 4 barley",
    ];
    let bench = bench("example-rust", built("CRASH_RUST_EXAMPLE"));
    explore_all(&bench, Tree::new(), &steps(&lines, "status s"));
}

/// The example in C.
#[test]
#[ignore = "run by .ci/crash"]
fn the_example_in_c() {
    let lines = [
        "open s",
        "open s",
        "close s 1 rye",
        "close s 1 rye",
        "close s 2 oats",
        "close s 3 wheat",
        "close s 4 barley",
    ];
    let bench = bench("example-c", built("CRASH_C_EXAMPLE"));
    explore_all(&bench, Tree::new(), &steps(&lines, "status s"));
}

/// Bytes and their digest.
fn summed(parts: &[&[u8]]) -> Vec<u8> {
    let bytes = parts.concat();
    [&bytes[..], &digest(&bytes)].concat()
}

/// Both examples name a state of before version 0.8.0, with days and without, and leave it as it
/// is.
#[test]
#[ignore = "run by .ci/crash"]
fn the_examples_name_a_state_of_before() {
    let words =
        "service_days: this is the record of an earlier version, of 692 bytes: seal its days \
                 again\n";
    let c = bench("before-c", built("CRASH_C_EXAMPLE"));
    let rust = bench("before-rust", built("CRASH_RUST_EXAMPLE"));
    for closed in [0, 1, 5] {
        let state = |layout| Before {
            layout,
            days: vec![b"rye".to_vec(); closed],
            open: Vec::new(),
        };
        let (tree_n_1, tiles) = (state(Layout::tree(1)), state(Layout::tile(4, 2)));
        let mut start = Tree::new();
        start.insert("s".to_string(), None);
        file(&mut start, "s/book", tree_n_1.book());
        for day in 1..=closed {
            file(&mut start, &format!("s/day-{day}"), "rye");
        }
        let sum = digest(&tree_n_1.book());
        file(&mut start, "s/state", summed(&[&tree_n_1.service(), &sum]));
        named(&c, &start, words);
        let digests: Vec<u8> = tiles.days.iter().flat_map(|day| digest(day)).collect();
        let mut start = Tree::new();
        let parts = [&tiles.service(), &digests, &tiles.book()];
        file(&mut start, "s", summed(&parts.map(|part| &part[..])));
        named(&rust, &start, words);
    }
    println!("crash: the examples name a state of before version 0.8.0");
}

/// The state that the example in C keeps of a season, its book left out: the record's bytes, the
/// digest of the book.
fn state_in_c(season: &Season, record: &[u8]) -> Vec<u8> {
    let parts = [record, &full::digest(&season.book)].concat();
    [&parts[..], &full::digest(&parts)].concat()
}

/// The state that the example in Rust keeps: record, digests of the days, book.
fn state_in_rust(season: &Season, record: &[u8]) -> Vec<u8> {
    let digests: Vec<[u8; 32]> = (0..=255).map(|byte| digest(&[byte])).collect();
    let days = 1..=season.service.days();
    let digest = |day| digests[full::byte_of(season.number, day) as usize];
    let parts = [
        record,
        &days.flat_map(digest).collect::<Vec<u8>>(),
        &season.book,
    ]
    .concat();
    [&parts[..], &full::digest(&parts)].concat()
}

/// Both examples go on from a state of version 0.8, whose record has 724 bytes: it is of season 0, and
/// what they leave is what they leave of one of now.
#[test]
#[ignore = "run by .ci/crash"]
fn the_examples_go_on_from_version_0_8() {
    let c = bench("go-on-c", built("CRASH_C_EXAMPLE"));
    let rust = bench("go-on-rust", built("CRASH_RUST_EXAMPLE"));
    for closed in [0, 1, 5] {
        let line = format!("close s {} rye", closed + 1);
        let season = Season::of(Layout::tree(1), 0, closed);
        let tiles = Season::of(Layout::tile(4, 2), 0, closed);
        let after = [724, 728].map(|length| {
            let mut start = Tree::new();
            start.insert("s".to_string(), None);
            file(&mut start, "s/book", &season.book);
            for day in 1..=closed {
                file(&mut start, &format!("s/day-{day}"), [full::byte_of(0, day)]);
            }
            let record = &season.service.to_bytes()[..length];
            file(&mut start, "s/state", state_in_c(&season, record));
            let after_c = went_on(&c, &start, closed, &line);
            let mut start = Tree::new();
            let record = &tiles.service.to_bytes()[..length];
            file(&mut start, "s", state_in_rust(&tiles, record));
            (after_c, went_on(&rust, &start, closed, &line))
        });
        assert!(after[0] == after[1], "{closed} days");
    }
    println!("crash: the examples go on from a state of version 0.8");
}

/// What an example leaves of a step, after it has told where it stands.
fn went_on(bench: &Bench, start: &Tree, closed: u32, line: &str) -> Tree {
    bench.put(start);
    let told = bench.run("status s");
    let text = format!("season 0: {closed} days, ");
    assert!(told.printed.starts_with(&text), "{}", told.messages);
    assert!(bench.tree() == *start, "{}: looking wrote", bench.name);
    bench.traced(start, &Step::new(line, "status s")).1
}

/// Both examples at the turn of a season, stopped at every call: the next season has a book of its own.
#[test]
#[ignore = "run by .ci/crash"]
fn the_examples_turn() {
    let (book, day) = (book(Layout::tree(1), &[b"rye".to_vec()]), b"rye".to_vec());
    let season = Season::full(Layout::tree(1), 0);
    let mut start = Tree::new();
    start.insert("s".to_string(), None);
    let record = season.service.to_bytes();
    file(&mut start, "s/state", state_in_c(&season, &record));
    file(&mut start, "s/day-65536", [full::byte_of(0, 65_536)]);
    let fixed = vec![("s/book".to_string(), season.book)];
    let c = bench("turn-c", built("CRASH_C_EXAMPLE")).with_fixed(fixed);
    c.put(&start);
    assert_eq!(c.run("close s 65536 x").status, Some(3));
    assert_eq!(c.run("close s 65537 x").status, Some(3));
    let (_, after) = c.traced(&start, &Step::new("close s 1 rye", ""));
    assert_eq!(after["s/book-1"], Some(book));
    assert_eq!(after["s/day-1-1"], Some(day));
    assert!(c.run("status s").printed == "season 1: 1 days, 1 values\n");
    assert!(c.run("check s").printed == "1 days, clean\n");
    explore_all(&c, start, &steps(&["close s 1 rye"], "status s"));

    let tiles = Season::full(Layout::tile(4, 2), 0);
    let state = state_in_rust(&tiles, &tiles.service.to_bytes());
    let mut start = Tree::new();
    file(&mut start, "s", &state);
    let rust = bench("turn-rust", built("CRASH_RUST_EXAMPLE"));
    rust.put(&start);
    assert_eq!(rust.run("close s 65537 x").status, Some(3));
    let (_, after) = rust.traced(&start, &Step::new("close s 1 rye", ""));
    // of the full season all but record and checksum
    let past = state[daybook::RECORD..state.len() - 32].to_vec();
    assert!(after["s-0"] == Some(past));
    let kept = after["s"].as_ref().unwrap();
    assert_eq!(kept.len(), daybook::RECORD + 32 + 32);
    assert!(rust.run("status s").printed == "season 1: 1 days, 0 values\n");
    explore_all(&rust, start, &steps(&["close s 1 rye"], "status s"));
}

/// Each command of an example ends with 3 and these words alone, and writes nothing.
fn named(bench: &Bench, start: &Tree, words: &str) {
    for line in ["open s", "close s 1 rye", "close s 6 oats", "status s"] {
        put(&bench.root, start);
        let ran = bench.run(line);
        let found = (ran.status, ran.printed.as_str(), ran.messages.as_str());
        assert_eq!(found, (Some(3), "", words), "{}: {line}", bench.name);
        assert_eq!(tree(&bench.root), *start, "{}: {line}", bench.name);
    }
}

/// The test bites: a program that commits in the wrong order is found out, one in the right order is
/// not.
#[test]
#[ignore = "run by .ci/crash"]
fn wrong_orders_are_found() {
    let bench = bench("toy", built("CRASH_TOY"));
    let mut start = Tree::new();
    file(&mut start, "record", "1");
    file(&mut start, "book", "one.");
    for (order, by) in [
        ("sound", None),
        ("in-place", Some("killed before call")),
        ("record-first", Some("killed before call")),
        ("unsynced", Some("power cut")),
    ] {
        let step = Step::new(&format!("{order} 2 two."), "look");
        let found = bench.explore(&start, &step);
        let seen = |by: &str| found.differences.iter().any(|text| text.contains(by));
        match by {
            None => assert!(found.differences.is_empty(), "{}", found.differences[0]),
            Some(by) => assert!(seen(by), "{order}: {:?}", found.differences),
        }
        println!(
            "crash: the toy {order} shows {} differences",
            found.differences.len()
        );
    }
}

/// Each sync counts: a run that leaves one out is found out.
#[test]
#[ignore = "run by .ci/crash"]
fn each_sync_counts() {
    let bench = bench("syncs", PROGRAM);
    let mut start = sources();
    let verified = Step::new("verify --state s --days in", "status s").spared();
    syncs_count(
        &bench,
        &four_closed(&bench),
        &verified,
        &["s/clean.new", "s"],
    );
    for (line, syncs) in [
        (
            "open s --scheme 3 --n 2 --f 1",
            &["/layout", "/record", ".tmp", ""][..],
        ),
        (
            "add s --day 1 --at 0 a",
            &["s/day-1", "s/record.new", "s"][..],
        ),
        (
            "close s --day 1",
            &["s/book", "s/index", "s/record.new", "s"][..],
        ),
    ] {
        let step = Step::new(line, "status s");
        start = syncs_count(&bench, &start, &step, syncs);
    }
    println!("crash: each flush of open, add, close and verify that is left out is found");
}

/// Each of these syncs of a step counts, and so does that of a repeat. Gives what the step leaves.
fn syncs_count(bench: &Bench, start: &Tree, step: &Step, syncs: &[&str]) -> Tree {
    let line = &step.line;
    let (calls, after) = bench.traced(start, step);
    assert!(bench.power_cuts(start, step, &calls, &after).is_empty());
    for sync in syncs {
        let left_out = |call: &Call| match call {
            Call::Sync(path) if sync.is_empty() => path.is_empty(),
            Call::Sync(path) => path.ends_with(sync),
            _ => false,
        };
        let others: Vec<Call> = calls
            .iter()
            .filter(|call| !left_out(call))
            .cloned()
            .collect();
        assert!(others.len() < calls.len(), "{line} has no sync of {sync}");
        let found = bench.power_cuts(start, step, &others, &after);
        assert!(
            !found.is_empty(),
            "{line}: the sync of {sync} has no weight"
        );
    }
    // a repeat that finds its step done must flush the folder too
    let flushed = |call: &Call| !matches!(call, Call::Sync(path) if path.is_empty() || path == "s");
    let found = bench.power_cuts_after_repeats(start, step, &calls, &after, flushed);
    assert!(!found.is_empty(), "{line}: a repeat's flush has no weight");
    after
}

/// Commands at random, many of them killed, against a plain account of what they are to do.
#[test]
#[ignore = "run by .ci/crash"]
fn commands_at_random() {
    let bench = bench("random", PROGRAM);
    put(&bench.root, &Tree::new());
    assert_eq!(bench.run("open s --scheme 3 --n 1 --f 1").status, Some(0));
    let mut random = Random(0x2545_f491_4f6c_dd1d);
    let mut plain = Plain::default();
    let (mut kills, mut statuses) = (0, [0; 4]);
    for number in 0..RUNS {
        let asked = Asked::random(&plain, &mut |end| random.below(end));
        let line = asked.line(&bench.root);
        let (status, after) = plain.asked(&asked);
        if random.below(3) == 0 {
            let ran = bench.stopped(&line, 1 + random.below(CALLS), "kill");
            if ran.status.is_none() {
                kills += 1;
                // before or after it: the rest goes on from there
                if plain::status(&bench) == after.numbers() {
                    plain = after;
                }
                assert_eq!(plain::status(&bench), plain.numbers(), "{number}: {line}");
                continue;
            }
            assert_eq!(
                ran.status,
                Some(status),
                "{number}: {line}: {}",
                ran.messages
            );
        } else {
            let ran = bench.run(&line);
            assert_eq!(
                ran.status,
                Some(status),
                "{number}: {line}: {}",
                ran.messages
            );
        }
        plain = after;
        statuses[status as usize] += 1;
        assert_eq!(plain::status(&bench), plain.numbers(), "{number}: {line}");
    }
    let days = plain.days();
    let read = |name: &str| fs::read(bench.root.join(name)).unwrap();
    let sealed = common::book(daybook::Layout::tree(1), &days);
    assert!(read("s/book") == sealed, "the book is another one");
    let index = String::from_utf8(read("s/index")).unwrap();
    assert_eq!(index.lines().count(), days.len());
    for (line, (number, day)) in index.lines().zip(days.iter().enumerate()) {
        let digest = common::hex(&common::digest(day));
        let front = format!("{},{},{digest},", number + 1, day.len());
        assert!(line.starts_with(&front), "{line}");
    }
    println!(
        "crash: {RUNS} commands at random: {} done, {} faults, {kills} kills, {} days, as told",
        statuses[0],
        statuses[3],
        days.len()
    );
}

const RUNS: usize = 1000;
const DAYS: u64 = 3000;
const STOPS: usize = 200;
/// The calls of a close, from its first sync to its last message.
const CALLS: u64 = 14;

/// Three thousand days, each closed by a run of its own, two hundred runs killed: the book is that of
/// one `seal`.
#[test]
#[ignore = "run by .ci/crash"]
fn three_thousand_days() {
    let bench = bench("days", PROGRAM);
    put(&bench.root, &Tree::new());
    fs::create_dir(bench.root.join("in")).unwrap();
    let mut random = Random(0x9e37_79b9_7f4a_7c15);
    for day in 1..=DAYS {
        let length = random.below(100) as usize;
        let bytes: Vec<u8> = (0..length).map(|_| random.below(256) as u8).collect();
        fs::write(bench.root.join(format!("in/{day:04}")), bytes).unwrap();
    }
    let mut stopped = std::collections::BTreeSet::new();
    while stopped.len() < STOPS {
        stopped.insert(1 + random.below(DAYS));
    }
    let layout = "--scheme 3 --n 8 --f 1";
    assert_eq!(bench.run(&format!("open s {layout}")).status, Some(0));
    let mut kills = 0;
    for day in 1..=DAYS {
        let line = format!("close s --day {day} in/{day:04}");
        if stopped.contains(&day) {
            let ran = bench.stopped(&line, 1 + random.below(CALLS), "kill");
            kills += usize::from(ran.status.is_none());
        }
        let ran = bench.run(&line);
        assert_eq!(ran.status, Some(0), "{line}: {}", ran.messages);
    }
    assert_eq!(kills, STOPS);
    let seal = format!("seal {layout} --days in --book sealed");
    assert_eq!(bench.run(&seal).status, Some(0));
    let read = |name: &str| fs::read(bench.root.join(name)).unwrap();
    assert!(read("s/book") == read("sealed"), "the books differ");
    let lines = String::from_utf8(read("s/index")).unwrap();
    assert_eq!(lines.lines().count() as u64, DAYS);
    assert!(!tree(&bench.root).keys().any(|path| path.contains(".new")));
    println!("crash: {DAYS} days, {kills} kills: the book of one seal");
}
