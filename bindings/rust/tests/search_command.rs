//! The command `daybook search`.

mod common;
#[path = "common/program.rs"]
mod program;

use std::fs::{self, File};
use std::io::Write;
use std::os::unix::process::ExitStatusExt;
use std::process::{Child, Command, Stdio};

use common::{searched, table, tree_table, Folder};
use daybook::Layout;
use program::{closed_or_full, done, ended, fault, run, said, Ran};

/// Four days, of which day 3 was altered.
const FOUR: &str = "search --scheme 3 --n 1 --f 1 --d 4 --outcomes table";

/// A folder with the table of these changed days.
fn with_table(name: &str, layout: Layout, d: u32, changed: &[u32]) -> Folder {
    let folder = Folder::new(name);
    fs::write(folder.file("table"), table(layout, d, changed)).unwrap();
    folder
}

/// What the command prints of a state.
fn lines(numbers: [u32; 3], days: &[u32]) -> String {
    let [looked, found, undecided] = numbers;
    let days: String = days.iter().map(|day| format!("DAY,{day}\n")).collect();
    format!("SEARCH,{looked},{found},{undecided}\n{days}")
}

/// The line is refused with this number, and explained with these lines.
fn refused(folder: &Folder, line: &str, number: u32, explained: &[&str]) {
    let (status, out, messages) = run(folder, line);
    assert_eq!((status, out), (2, format!("NO,{number}\n")), "{line}");
    let lines: Vec<&str> = messages.lines().collect();
    assert!(lines[0].starts_with(&format!("daybook: refusal {number} (")));
    assert_eq!(&lines[1..], explained, "{line}");
}

#[test]
fn every_limit_of_an_example() {
    let folder = with_table("search-limits", Layout::tree(1), 4, &[3]);
    for (limit, status, out) in [
        ("0", 4, "SEARCH,0,0,4\n"),
        ("1", 4, "SEARCH,1,0,4\n"),
        ("2", 4, "SEARCH,2,0,2\n"),
        ("3", 4, "SEARCH,3,0,2\n"),
        ("4", 1, "SEARCH,4,1,1\nDAY,3\n"),
        ("5", 1, "SEARCH,5,1,0\nDAY,3\n"),
        ("4294967295", 1, "SEARCH,5,1,0\nDAY,3\n"),
    ] {
        said(
            &folder,
            &format!("{FOUR} --limit {limit}"),
            (status, out),
            &[],
        );
    }
    said(&folder, FOUR, (1, "SEARCH,5,1,0\nDAY,3\n"), &[]);
    // nothing was written
    assert_eq!(fs::read_dir(folder.path()).unwrap().count(), 1);
}

#[test]
fn clean_tables() {
    let folder = with_table("search-clean", Layout::tree(2), 6, &[]);
    let line = "search --scheme 3 --n 2 --f 1 --d 6 --outcomes table";
    done(&folder, line, "SEARCH,2,0,0\n");
    let one = format!("{line} --limit 1");
    said(&folder, &one, (4, "SEARCH,1,0,2\n"), &[]);
    done(&folder, &format!("{line} --limit 2"), "SEARCH,2,0,0\n");
}

/// The page prints what the command prints.
#[test]
fn the_lines_of_the_page() {
    let folder = with_table("search-page", Layout::tree(2), 16, &[4, 7, 10]);
    let path = concat!(env!("CARGO_MANIFEST_DIR"), "/../../README.md");
    let page = fs::read_to_string(path).unwrap();
    let line = "search --scheme 3 --n 2 --f 1 --d 16 --outcomes";
    for words in [" --limit 10", ""] {
        let (status, out, _) = run(&folder, &format!("{line} table{words}"));
        assert_eq!(status, 1);
        let shown = format!("$ daybook {line} FILE{words}\n{out}").replace('\n', "\n    ");
        assert!(page.contains(shown.trim_end()), "{shown}");
    }
}

/// Without a limit the days are those that read lists, also where it takes several steps.
#[test]
fn to_the_end() {
    for (n, d, every) in [(1, 16, 3), (8, 1000, 1), (4, 4096, 2), (256, 65_536, 16)] {
        let folder = Folder::new(&format!("search-end-{d}"));
        let changed: Vec<u32> = (1..=d).filter(|day| day % every == 0).collect();
        fs::write(folder.file("table"), tree_table(n, d, &changed)).unwrap();
        let options = format!("--scheme 3 --n {n} --f 1 --d {d} --outcomes table");
        let (numbers, days) = searched(d, &changed, u32::MAX);
        assert_eq!(days, changed);
        let out = lines(numbers, &days);
        said(&folder, &format!("search {options}"), (1, &out), &[]);
        let (_, read, _) = run(&folder, &format!("read {options}"));
        let listed = |text: &str| text.lines().skip(1).map(String::from).collect::<Vec<_>>();
        assert_eq!(listed(&read), listed(&out));
    }
}

#[test]
fn names_of_days() {
    let folder = with_table("search-names", Layout::tree(1), 4, &[2, 3]);
    fs::create_dir(folder.file("in")).unwrap();
    for name in ["a", "b,", "c", "d"] {
        fs::write(folder.file(&format!("in/{name}")), "").unwrap();
    }
    let line = format!("{FOUR} --days in --names");
    let out = "SEARCH,7,2,0\nDAY,2,b%2C\nDAY,3,c\n";
    said(&folder, &line, (1, out), &[]);
    let limited = format!("{line} --limit 4");
    said(&folder, &limited, (1, "SEARCH,4,1,2\nDAY,2,b%2C\n"), &[]);
    said(
        &folder,
        &format!("{FOUR} --days in"),
        (1, "SEARCH,7,2,0\nDAY,2\nDAY,3\n"),
        &[],
    );
    fault(&folder, &format!("{FOUR} --days none"), "none");
}

#[test]
fn by_a_state_folder() {
    let folder = Folder::new("search-state");
    assert_eq!(run(&folder, "open s --scheme 3 --n 2 --f 1").0, 0);
    for g in 1..=5 {
        fs::write(folder.file("day"), format!("{g}")).unwrap();
        assert_eq!(run(&folder, &format!("close s --day {g} day")).0, 0);
    }
    fs::write(folder.file("table"), table(Layout::tree(2), 4, &[4])).unwrap();
    let note = "daybook: note: day 5 is not yet checkable: D goes by 2, and 5 days are closed";
    let line = "search --state s --outcomes table";
    let out = "SEARCH,5,1,0\nDAY,4\n";
    said(&folder, line, (1, out), &[note]);
    said(
        &folder,
        &format!("{line} --names --limit 5"),
        (1, "SEARCH,5,1,0\nDAY,4,day\n"),
        &[note],
    );
    fault(
        &folder,
        &format!("{line} --n 2"),
        "--state has what --n gives: not both",
    );
    fault(&folder, "search --state none --outcomes table", "none");
}

#[test]
fn refusals_of_settings_and_tables() {
    let folder = with_table("search-refused", Layout::tree(1), 4, &[3]);
    let with = |numbers: &str| format!("search {numbers} --outcomes table");
    refused(&folder, &with("--scheme 4 --n 3 --f 0 --d 0"), 1, &[]);
    refused(&folder, &with("--scheme 3 --n 3 --f 2 --d 0"), 2, &[]);
    refused(&folder, &with("--scheme 3 --n 4 --f 2 --d 0"), 3, &[]);
    refused(&folder, &with("--scheme 3 --n 4 --f 1 --d 6"), 7, &[]);
    refused(&folder, &with("--scheme 3 --n 1 --f 1 --d 65537"), 7, &[]);
    refused(&folder, &with("--scheme 3 --n 1 --f 1 --d 5"), 12, &[]);
    let rewrite = |bytes: &[u8]| fs::write(folder.file("table"), bytes).unwrap();
    rewrite(&[1, 1, 1, 0, 0, 1, 0, 7]);
    let what =
        "daybook: value 8 of the book (tree level 2, also black, at day 4, over days 1 to 4)";
    refused(&folder, FOUR, 13, &[&format!("{what} is 7")]);
    rewrite(&[1, 1, 1, 1, 1, 1, 1, 0]);
    let why = "fails, though each day that it covers is in a value that passes";
    refused(&folder, FOUR, 14, &[&format!("{what} {why}")]);
}

/// Other schemes are tested in full, and then refused with 20.
#[test]
fn refusals_of_other_schemes() {
    let folder = Folder::new("search-schemes");
    for (layout, name, good, bad) in [
        (
            "--scheme 1 --n 1 --f 2",
            "1 (black)",
            [1, 1, 0, 0],
            [1, 0, 1, 0],
        ),
        (
            "--scheme 2 --n 4 --f 1",
            "2 (tile)",
            [0, 1, 1, 0],
            [1, 1, 1, 0],
        ),
    ] {
        for limit in ["", "--limit 0", "--limit 9"] {
            let line = format!("search {layout} --d 4 --outcomes table {limit}");
            fs::write(folder.file("table"), good).unwrap();
            let explained = format!("daybook: a table of scheme {name} is for read");
            refused(&folder, &line, 20, &[&explained]);
            fs::write(folder.file("table"), &good[..3]).unwrap();
            refused(&folder, &line, 12, &[]);
            fs::write(folder.file("table"), bad).unwrap();
            let (status, out, _) = run(&folder, &line);
            assert_eq!((status, out.as_str()), (2, "NO,14\n"), "{line}");
        }
    }
    let (_, _, messages) = run(
        &folder,
        "search --scheme 1 --n 1 --f 1 --d 1 --outcomes table",
    );
    let text =
        "(scheme 1, N 1, F 1, D 1): the scheme is not 3, and only tables of the tree are searched";
    assert!(messages.contains(text), "{messages}");
}

#[test]
fn outcomes_past_the_last_value() {
    let folder = Folder::new("search-past");
    let outcomes = [table(Layout::tree(1), 4, &[3]), vec![9]].concat();
    fs::write(folder.file("table"), outcomes).unwrap();
    let note = "daybook: note: D 4 has 8 outcomes; the rest of the file is not read";
    said(&folder, FOUR, (1, "SEARCH,5,1,0\nDAY,3\n"), &[note]);
}

#[test]
fn wrong_words() {
    let folder = with_table("search-words", Layout::tree(1), 4, &[3]);
    for (words, text) in [
        ("--limit", "--limit has no value"),
        ("--limit -1", "--limit -1 is not a number"),
        ("--limit 4294967296", "--limit 4294967296 is not a number"),
        ("--limit 05", "--limit 05 is not a number"),
        ("--limit five", "--limit five is not a number"),
        ("--limit 1 --limit 2", "--limit is given twice"),
        ("--passed 0", "search has no option --passed"),
        ("--line", "search has no option --line"),
        ("--names", "--names needs --days or --state"),
        ("3", "search has no option 3"),
    ] {
        fault(&folder, &format!("{FOUR} {words}"), text);
        fault(&folder, &format!("{FOUR} {words}"), "Try: daybook --help");
    }
    fault(&folder, "search --limit 1", "search needs --scheme");
    let missing = "search --scheme 3 --n 1 --f 1 --d 4 --outcomes none";
    fault(&folder, missing, "none cannot be read");
    fault(
        &folder,
        "search --scheme 3 --n 1 --f 1 --d 4 --outcomes .",
        "cannot be read",
    );
}

#[test]
fn standard_output_closed_or_full() {
    let folder = with_table("search-output", Layout::tree(1), 4, &[3]);
    for (words, status) in [("", 1), ("--limit 4", 1), ("--limit 3", 4)] {
        let line = format!("{FOUR} {words}");
        closed_or_full(&folder, &line, status);
    }
}

const DAYS: u32 = 4096;

/// A search that waits for its outcomes, with the pipe that it reads them from. It is started by env with
/// these options: they say which signals are blocked, and so wait for it, and which are ignored.
fn waiting(folder: &Folder, options: &[&str]) -> (Child, File) {
    let pipe = folder.file("pipe");
    if !pipe.exists() {
        let made = Command::new("mkfifo").arg(&pipe).status().unwrap();
        assert!(made.success());
    }
    let line = format!("search --scheme 3 --n 1 --f 1 --d {DAYS} --outcomes pipe");
    // a shell ignores SIGINT for what it starts in the background, and so would the search
    let child = Command::new("env")
        .arg("--default-signal=INT,TERM")
        .args(options)
        .arg(env!("CARGO_BIN_EXE_daybook"))
        .args(line.split_whitespace())
        .current_dir(folder.path())
        .stdout(Stdio::piped())
        .stderr(Stdio::piped())
        .spawn()
        .unwrap();
    // it is open when the search has begun to read it
    let pipe = File::options().write(true).open(pipe).unwrap();
    (child, pipe)
}

fn send(signal: &str, child: &Child) {
    let id = child.id().to_string();
    let sent = Command::new("kill").args([signal, &id]).status().unwrap();
    assert!(sent.success());
}

/// Sends the signal while the outcomes are awaited, and then these. Gives what the search printed and said.
fn signalled(folder: &Folder, signal: &str, options: &[&str], changed: &[u32]) -> Ran {
    let (child, mut pipe) = waiting(folder, options);
    send(signal, &child);
    pipe.write_all(&tree_table(1, DAYS, changed)).unwrap();
    drop(pipe);
    ended(child.wait_with_output().unwrap())
}

/// What a search with this limit prints.
fn state(changed: &[u32], limit: u32) -> String {
    let (numbers, days) = searched(DAYS, changed, limit);
    lines(numbers, &days)
}

/// A signal that waits when the first step is over ends the search with the state of that step.
#[test]
fn a_signal_while_it_searches() {
    let folder = Folder::new("search-signal");
    let all: Vec<u32> = (1..=DAYS).collect();
    let some: Vec<u32> = (1..=512).map(|k| 8 * k - 3).collect();
    let stopped = "daybook: stopped by a signal: this is the state so far\n";
    for (signal, blocked) in [("-TERM", "TERM"), ("-INT", "INT")] {
        let options = format!("--block-signal={blocked}");
        let ran = |changed: &[u32]| signalled(&folder, signal, &[&options], changed);
        for changed in [&all, &some] {
            let out = state(changed, 1024);
            assert_eq!(ran(changed), (1, out, stopped.to_string()));
        }
        // one that is finished in its first step is not stopped
        let out = state(&[DAYS], u32::MAX);
        assert_eq!(ran(&[DAYS]), (1, out, String::new()));
    }
}

/// A signal that the program was started to ignore does not stop the search.
#[test]
fn a_signal_that_is_ignored() {
    let folder = Folder::new("search-ignored");
    let all: Vec<u32> = (1..=DAYS).collect();
    let out = state(&all, u32::MAX);
    for options in [
        &["--ignore-signal=TERM"][..],
        &["--ignore-signal=TERM", "--block-signal=TERM"],
    ] {
        let ran = signalled(&folder, "-TERM", options, &all);
        assert_eq!(ran, (1, out.clone(), String::new()));
    }
}

/// A signal that comes while the outcomes are read ends the program, as it ends every other command.
#[test]
fn a_signal_before_it_searches() {
    let folder = Folder::new("search-early");
    for (signal, number) in [("-TERM", 15), ("-INT", 2)] {
        let (child, pipe) = waiting(&folder, &[]);
        send(signal, &child);
        let output = child.wait_with_output().unwrap();
        drop(pipe);
        assert_eq!(output.status.signal(), Some(number));
        assert!(output.stdout.is_empty());
    }
}
