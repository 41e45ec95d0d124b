//! The command `daybook forecast`.

mod common;
#[path = "common/program.rs"]
mod program;

use std::fs::{self, File};
use std::io::Write;
use std::process::Stdio;

use common::{day, Folder};
use program::{closed_or_full, command, done, ended, fault, run, said, Ran};

/// The thousand days of the reference under scheme 3, N 8.
const THOUSAND: &str = "\
1,000 days, scheme 3 (tree), N 8, F 1
disk     67,584 bytes for the book, beside 64,750 bytes of days
notary   2,112 values of 32 bytes, in 125 intervals of 8 days
hashing  37,668 SHA-256 blocks of 64 bytes
";

/// The line is run with these bytes on standard input.
fn run_with(folder: &Folder, line: &str, input: &str) -> Ran {
    let mut command = command(folder, line);
    command.stdin(Stdio::piped());
    command.stdout(Stdio::piped()).stderr(Stdio::piped());
    let mut child = command.spawn().unwrap();
    let _ = child.stdin.take().unwrap().write_all(input.as_bytes());
    ended(child.wait_with_output().unwrap())
}

fn refused(folder: &Folder, line: &str, number: u32, messages: &[&str]) {
    said(folder, line, (2, &format!("NO,{number}\n")), messages);
}

/// A folder `in` with a file for each length.
fn write_days(folder: &Folder, lengths: &[u64]) {
    fs::create_dir(folder.file("in")).unwrap();
    for (g, length) in (1..).zip(lengths) {
        let file = File::create(folder.file(&format!("in/day-{g:02}"))).unwrap();
        file.set_len(*length).unwrap();
    }
}

fn write_text(folder: &Folder, text: &str) {
    fs::write(folder.file("lengths"), text).unwrap();
}

#[test]
fn a_thousand_days() {
    let folder = Folder::new("forecast-thousand");
    fs::create_dir(folder.file("in")).unwrap();
    let mut text = String::new();
    for g in 1..=1000 {
        let bytes = day(g, 7 * g % 131);
        fs::write(folder.file(&format!("in/{g:04}")), &bytes).unwrap();
        text += &format!("{}\n", bytes.len());
    }
    write_text(&folder, &text);
    let forecast = "forecast --scheme 3 --n 8 --f 1";
    done(&folder, &format!("{forecast} --days in"), THOUSAND);
    done(&folder, &format!("{forecast} --lengths lengths"), THOUSAND);
    let by_input = run_with(&folder, &format!("{forecast} --lengths -"), &text);
    assert_eq!(by_input, (0, THOUSAND.to_string(), String::new()));
    for source in ["--days in", "--lengths lengths"] {
        for (layout, line) in [
            ("--scheme 1 --n 8 --f 25", "SIZE,1,125,4000,3668\n"),
            ("--scheme 2 --n 8 --f 25", "SIZE,2,625,20000,8668\n"),
            ("--scheme 3 --n 8 --f 1", "SIZE,3,2112,67584,37668\n"),
        ] {
            done(&folder, &format!("forecast {layout} {source} --line"), line);
        }
    }
    // the book that is then sealed has these bytes
    let seal = "seal --scheme 3 --n 8 --f 1 --days in --book book";
    assert_eq!(run(&folder, seal).0, 0);
    assert_eq!(fs::metadata(folder.file("book")).unwrap().len(), 67_584);
    let page = concat!(env!("CARGO_MANIFEST_DIR"), "/README.md");
    assert!(fs::read_to_string(page).unwrap().contains(THOUSAND));
}

#[test]
fn the_first_days_alone() {
    let folder = Folder::new("forecast-first");
    write_days(&folder, &[0, 54, 55, 118, 16_777_217]);
    // days of 1, 1, 2 and 2 blocks, 12 links of 2
    let sizes = "4 days, scheme 2 (tile), N 4, F 1\n\
                 disk     128 bytes for the book, beside 227 bytes of days\n\
                 notary   4 values of 32 bytes, in 1 interval of 4 days\n\
                 hashing  30 SHA-256 blocks of 64 bytes\n";
    let layout = "forecast --scheme 2 --n 4 --f 1 --d 4";
    done(&folder, &format!("{layout} --days in"), sizes);
    for last in ["", "\n", "\n16777217", "\n99999999999999999999\n"] {
        write_text(&folder, &format!("0\n54\n55\n118{last}"));
        done(&folder, &format!("{layout} --lengths lengths"), sizes);
        done(
            &folder,
            &format!("{layout} --lengths=lengths --line"),
            "SIZE,2,4,128,30\n",
        );
    }
}

#[test]
fn the_longest_season() {
    let folder = Folder::new("forecast-longest");
    write_text(&folder, &"16777216\n".repeat(65_536));
    let forecast = "forecast --lengths lengths --line --n 1 --f 1 --scheme";
    for line in [
        "SIZE,1,65536,2097152,17180065792\n",
        "SIZE,2,131072,4194304,17180196864\n",
        "SIZE,3,196590,6290880,17182294016\n",
    ] {
        done(&folder, &format!("{forecast} {}", &line[5..6]), line);
    }
    write_text(&folder, &"16777216\n".repeat(65_537));
    let forecast = format!("{forecast} 3");
    refused(
        &folder,
        &forecast,
        7,
        &[
            "daybook: refusal 7 (scheme 3, N 1, F 1, D 65537, days found 65537): D is not from 1 \
             to 65,536 and a multiple of F times N",
            "daybook: 65537 days found; D is a multiple of 1: --d 65536 takes the first 65536",
        ],
    );
    let first = format!("{forecast} --d 65536");
    done(&folder, &first, "SIZE,3,196590,6290880,17182294016\n");
}

#[test]
fn refusals_of_settings() {
    let folder = Folder::new("forecast-settings");
    for (layout, number) in [
        ("--scheme 4 --n 0 --f 0", 1),
        ("--scheme 1 --n 3 --f 0", 2),
        ("--scheme 1 --n 512 --f 1", 2),
        ("--scheme 1 --n 1 --f 65", 3),
        ("--scheme 3 --n 1 --f 2", 3),
    ] {
        // before the source is looked at
        let line = format!("forecast {layout} --lengths none");
        let (status, out, messages) = run(&folder, &line);
        assert_eq!((status, out), (2, format!("NO,{number}\n")));
        assert!(messages.starts_with(&format!("daybook: refusal {number} (")));
    }
}

#[test]
fn refusals_of_days() {
    let folder = Folder::new("forecast-refusals");
    let refusal_7 = "D is not from 1 to 65,536 and a multiple of F times N";
    let refusal_16 = "there are fewer than D lengths of days";
    write_days(&folder, &[0; 7]);
    write_text(&folder, "0\n0\n0\n0\n0\n0\n0\n");
    let layout = "forecast --scheme 2 --n 4 --f 1";
    for (source, found) in [
        ("--days in", "7 files found, from day-01 to day-07"),
        ("--lengths lengths", "7 days found"),
    ] {
        let numbers = |d| format!("(scheme 2, N 4, F 1, D {d}, days found 7)");
        let found = format!("daybook: {found}; D is a multiple of 4: --d 4 takes the first 4");
        let first = |number, d, text| format!("daybook: refusal {number} {}: {text}", numbers(d));
        refused(
            &folder,
            &format!("{layout} {source}"),
            7,
            &[&first(7, 7, refusal_7), &found],
        );
        for d in [0, 6, 65_540] {
            refused(
                &folder,
                &format!("{layout} {source} --d {d}"),
                7,
                &[&first(7, d, refusal_7)],
            );
        }
        refused(
            &folder,
            &format!("{layout} {source} --d 8 --line"),
            16,
            &[&first(16, 8, refusal_16), &found],
        );
    }
    fs::remove_file(folder.file("in/day-03")).unwrap();
    let (_, out, messages) = run(&folder, &format!("{layout} --days in --d 8"));
    assert_eq!(out, "NO,16\n");
    assert!(messages.ends_with("daybook: left out in the numbering: day-03\n"));
    write_text(&folder, "");
    let (_, out, messages) = run(&folder, &format!("{layout} --lengths lengths"));
    assert_eq!(out, "NO,7\n");
    assert!(messages.ends_with("daybook: 0 days found; D is a multiple of 4\n"));
}

#[test]
fn a_day_too_long() {
    let folder = Folder::new("forecast-long");
    write_days(&folder, &[0, 16_777_216, 5_000_000_000, 16_777_217]);
    let refusal = "daybook: refusal 17 (scheme 1, N 1, F 1, D 4, days found 4): the length of a \
                   day is over 16,777,216 bytes";
    let layout = "forecast --scheme 1 --n 1 --f 1";
    refused(
        &folder,
        &format!("{layout} --days in"),
        17,
        &[
            refusal,
            "daybook: day 3 (day-03) has more than 16777216 bytes",
        ],
    );
    for length in [
        "16777217",
        "4294967295",
        "4294967296",
        "340282366920938463463374607431768211456",
    ] {
        write_text(&folder, &format!("0\n16777216\n{length}\n16777217"));
        refused(
            &folder,
            &format!("{layout} --lengths lengths"),
            17,
            &[refusal, "daybook: day 3 has more than 16777216 bytes"],
        );
        // 16 before 17, and 17 among the first D alone
        let (_, out, _) = run(&folder, &format!("{layout} --lengths lengths --d 5"));
        assert_eq!(out, "NO,16\n");
        done(
            &folder,
            &format!("{layout} --lengths lengths --d 2 --line"),
            "SIZE,1,2,64,262150\n",
        );
    }
}

#[test]
fn files_without_their_form() {
    let folder = Folder::new("forecast-form");
    let forecast = "forecast --scheme 1 --n 1 --f 1 --d 1 --lengths lengths";
    for (text, line) in [
        ("\n", 1),
        ("7\n\n7\n", 2),
        ("7\n7\n\n", 3),
        ("7\n+7\n", 2),
        ("-7\n", 1),
        ("7\n7 \n", 2),
        (" 7\n", 1),
        ("7\r\n", 1),
        ("7\n7\n7x\n", 3),
        ("1,000\n", 1),
        ("7\n007\n", 2),
        ("7\n7\0", 2),
    ] {
        write_text(&folder, text);
        let message =
            format!("lengths cannot be read: line {line} is not a number in plain digits");
        fault(&folder, forecast, &message);
    }
    let (status, out, messages) = run_with(
        &folder,
        "forecast --scheme 1 --n 1 --f 1 --lengths -",
        "7\nseven\n",
    );
    assert_eq!((status, out.as_str()), (3, ""));
    assert!(
        messages.contains("- cannot be read: line 2 is"),
        "{messages}"
    );
}

#[test]
fn missing_files() {
    let folder = Folder::new("forecast-missing");
    write_days(&folder, &[7, 7]);
    let forecast = "forecast --scheme 1 --n 1 --f 1";
    for (source, text) in [
        ("--lengths none", "none cannot be read"),
        ("--lengths in", "in cannot be read"),
        ("--days none", "none cannot be read"),
        ("--days in/day-01", "in/day-01 cannot be read"),
    ] {
        fault(&folder, &format!("{forecast} {source}"), text);
    }
    for words in [
        "",
        "--days in --lengths lengths",
        "--days in --line=1",
        "--days in --book book",
        "--state in",
        "--days in --d",
    ] {
        fault(
            &folder,
            &format!("{forecast} {words}"),
            "Try: daybook --help",
        );
    }
    fault(
        &folder,
        "forecast --scheme 1 --n 1 --days in",
        "forecast needs --f",
    );
    // as for seal, every entry counts and each must be a file
    fs::write(folder.file("in/.hidden"), "first").unwrap();
    let line = format!("{forecast} --days in --line");
    done(&folder, &line, "SIZE,1,3,96,9\n");
    fs::create_dir(folder.file("in/sub")).unwrap();
    fault(
        &folder,
        &line,
        "in/sub cannot be read: a day must be a regular file",
    );
}

#[test]
fn names_not_in_the_order_of_their_numbers() {
    let folder = Folder::new("forecast-order");
    fs::create_dir(folder.file("in")).unwrap();
    for (name, length) in [("9", 0), ("10", 55)] {
        fs::write(folder.file("in").join(name), vec![7; length]).unwrap();
    }
    // the first day is 10
    said(
        &folder,
        "forecast --scheme 1 --n 1 --f 1 --d 1 --days in --line",
        (0, "SIZE,1,1,32,4\n"),
        &["daybook: warning: days go in byte order of the names, and so 10 comes before 9"],
    );
}

#[test]
fn standard_output_closed_or_full() {
    let folder = Folder::new("forecast-output");
    write_text(&folder, "7\n7\n");
    let forecast = "forecast --scheme 1 --n 1 --f 1 --lengths lengths";
    let refused = format!("{forecast} --d 3");
    for (line, status) in [(forecast, 0), (refused.as_str(), 2)] {
        closed_or_full(&folder, line, status);
    }
}
