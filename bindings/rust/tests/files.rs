//! What the program does to files that are there: books, streams, leavings of stopped runs.

mod common;

use std::fs::{self, File, Permissions};
use std::io::Read;
use std::os::unix::fs::{symlink, PermissionsExt};
use std::path::Path;
use std::process::{Command, Stdio};

use common::{altered, book, days, digest, table, Folder};
use daybook::Layout;

const PROGRAM: &str = env!("CARGO_BIN_EXE_daybook");
const SEAL: &str = "seal --scheme 2 --n 4 --f 1 --days in --book book";

fn command(folder: &Folder, line: &str) -> Command {
    let mut command = Command::new(PROGRAM);
    command.current_dir(folder.path());
    command.args(line.split_whitespace()).stdin(Stdio::null());
    command
}

/// Exit status and standard error.
fn run(folder: &Folder, line: &str) -> (i32, String) {
    let output = command(folder, line).output().unwrap();
    let messages = String::from_utf8(output.stderr).unwrap();
    (output.status.code().unwrap(), messages)
}

fn ends(folder: &Folder, line: &str, status: i32, text: &str) {
    let ran = run(folder, line);
    assert_eq!(ran.0, status, "{line}: {}", ran.1);
    assert!(ran.1.contains(text), "{line}: {}", ran.1);
}

fn write_days(folder: &Folder, days: &[Vec<u8>]) {
    let _ = fs::remove_dir_all(folder.file("in"));
    fs::create_dir(folder.file("in")).unwrap();
    for (g, day) in days.iter().enumerate() {
        fs::write(folder.file(&format!("in/{:03}", g + 1)), day).unwrap();
    }
}

fn read(folder: &Folder, name: &str) -> Vec<u8> {
    fs::read(folder.file(name)).unwrap()
}

fn names(path: &Path) -> Vec<String> {
    let entries = fs::read_dir(path).unwrap().flatten();
    let mut names: Vec<String> = entries
        .map(|entry| entry.file_name().into_string().unwrap())
        .collect();
    names.sort();
    names
}

/// Four days in a folder `in`, sealed in `book`.
fn sealed(name: &str) -> Folder {
    let folder = Folder::new(name);
    write_days(&folder, &days(4));
    ends(&folder, SEAL, 0, "sealed: days 4");
    folder
}

#[test]
fn a_book_is_not_replaced_by_another() {
    let folder = sealed("evidence");
    let old = read(&folder, "book");
    write_days(&folder, &altered(&days(4), &[2]));
    ends(
        &folder,
        SEAL,
        3,
        "book cannot be written: it is another book",
    );
    assert_eq!(read(&folder, "book"), old);
    // a shorter one, of the same days
    write_days(&folder, &days(8));
    ends(&folder, SEAL, 0, "sealed: days 8");
    let long = read(&folder, "book");
    assert_eq!(long, book(Layout::tile(4, 1), &days(8)));
    ends(&folder, &format!("{SEAL} --d 4"), 3, "another book");
    assert_eq!(read(&folder, "book"), long);
    ends(
        &folder,
        &format!("{SEAL} --d 4 --force"),
        0,
        "sealed: days 4",
    );
    assert_eq!(read(&folder, "book"), old);
}

#[test]
fn a_book_that_goes_on() {
    let folder = sealed("goes-on");
    let seal = SEAL.replace("book book", "book new");
    fs::write(folder.file("new"), "").unwrap();
    ends(&folder, &seal, 0, "sealed: days 4, values 4");
    assert_eq!(read(&folder, "new"), read(&folder, "book"));
    ends(&folder, SEAL, 0, "the book was there already");
}

#[test]
fn a_read_only_book_is_not_replaced() {
    let folder = sealed("read-only");
    let old = read(&folder, "book");
    fs::set_permissions(folder.file("book"), Permissions::from_mode(0o444)).unwrap();
    ends(&folder, SEAL, 0, "the book was there already");
    write_days(&folder, &days(8));
    for line in [SEAL, &format!("{SEAL} --force")] {
        ends(&folder, line, 3, "book cannot be written: it is read-only");
        assert_eq!(read(&folder, "book"), old);
    }
}

#[test]
fn a_stream_is_no_file() {
    let folder = sealed("stream");
    symlink("/dev/stdout", folder.file("link")).unwrap();
    for name in ["/dev/stdout", "/dev/fd/1", "/proc/self/fd/1", "link"] {
        fs::write(folder.file("behind"), "what is behind").unwrap();
        let behind = File::options()
            .append(true)
            .open(folder.file("behind"))
            .unwrap();
        let line = format!(
            "{} --force",
            SEAL.replace("book book", &format!("book {name}"))
        );
        let output = command(&folder, &line).stdout(behind).output().unwrap();
        let messages = String::from_utf8(output.stderr).unwrap();
        assert_eq!(output.status.code(), Some(3), "{name}: {messages}");
        assert!(messages.contains("it is a stream"), "{name}: {messages}");
        assert_eq!(read(&folder, "behind"), b"what is behind", "{name}");
    }
    let null = SEAL.replace("book book", "book /dev/null");
    ends(&folder, &null, 3, "not a regular file");
}

#[test]
fn a_closed_pipe_keeps_the_status() {
    let folder = sealed("pipe");
    let verify = SEAL.replace("seal", "verify");
    for (changed, status) in [(vec![], 0), (vec![2], 1)] {
        write_days(&folder, &altered(&days(4), &changed));
        let (reader, writer) = std::io::pipe().unwrap();
        drop(reader);
        let output = command(&folder, &verify).stdout(writer).output().unwrap();
        assert_eq!(output.status.code(), Some(status));
        let messages = String::from_utf8(output.stderr).unwrap();
        assert!(
            messages.contains("standard output was closed early"),
            "{messages}"
        );
    }
    let (reader, writer) = std::io::pipe().unwrap();
    drop(reader);
    let refused = command(&folder, &verify.replace("--n 4", "--n 3"))
        .stdout(writer)
        .output();
    assert_eq!(refused.unwrap().status.code(), Some(2));
}

#[test]
fn leavings_of_stopped_runs_are_removed() {
    let folder = sealed("leavings");
    let mut dead = Command::new("true").spawn().unwrap();
    dead.wait().unwrap();
    let left = format!(".daybook-{}-0.tmp", dead.id());
    let live = format!(".daybook-{}-0.tmp", std::process::id());
    let held = format!(".daybook-{}-1.tmp", dead.id());
    let other = format!(".other-{}-0.tmp", dead.id());
    for name in [&left, &live, &held, &other] {
        fs::write(folder.file(name), "half a file").unwrap();
    }
    let lock = File::open(folder.file(&held)).unwrap();
    lock.lock().unwrap();
    fs::write(folder.file(&format!("in/{left}")), "a day like any other").unwrap();
    let check = "check --scheme 2 --n 4 --f 1 --d 4 --days in --book book --outcomes table";
    run(&folder, check);
    let mut expected = vec![live, held, other];
    expected.extend(["book", "in", "table"].map(String::from));
    expected.sort();
    assert_eq!(names(folder.path()), expected);
    assert!(folder.file(&format!("in/{left}")).exists());
    // a folder that open left
    drop(lock);
    fs::create_dir(folder.file(&left)).unwrap();
    fs::write(folder.file(&format!("{left}/lock")), "").unwrap();
    ends(&folder, "open s --scheme 1 --n 1 --f 1", 0, "s is open");
    assert!(!folder.file(&left).exists());
}

#[test]
fn outcomes_and_digests_are_of_one_run() {
    let folder = sealed("pair");
    let check =
        "check --scheme 2 --n 4 --f 1 --days in --book book --outcomes table --digests sums";
    ends(&folder, check, 0, "failing 0");
    write_days(&folder, &altered(&days(4), &[2]));
    ends(&folder, check, 1, "failing");
    assert_eq!(read(&folder, "table"), table(Layout::tile(4, 1), 4, &[2]));
    let now = altered(&days(4), &[2]);
    let sums: Vec<u8> = now.iter().flat_map(|day| digest(day)).collect();
    assert_eq!(read(&folder, "sums"), sums);
    assert_eq!(names(folder.path()), ["book", "in", "sums", "table"]);
}

/// The build script without `rt`: it names `rt`, not the archive, as what is missing.
#[test]
fn a_build_without_rt() {
    let folder = Folder::new("build");
    let script = folder.file("script");
    let package = Path::new(env!("CARGO_MANIFEST_DIR"));
    let rustc = std::env::var("RUSTC").unwrap_or_else(|_| "rustc".to_string());
    let built = Command::new(rustc)
        .args(["--edition", "2021", "-o"])
        .arg(&script)
        .arg(package.join("build.rs"))
        .status();
    assert!(built.unwrap().success());
    let mut command = Command::new(&script);
    command
        .env_clear()
        .env("PATH", folder.path())
        .env("CARGO_CFG_TARGET_ARCH", "x86_64")
        .env("CARGO_CFG_TARGET_OS", "linux")
        .env("CARGO_MANIFEST_DIR", package)
        .env("OUT_DIR", folder.path());
    let output = command.output().unwrap();
    let messages = String::from_utf8(output.stderr).unwrap();
    assert_eq!(output.status.code(), Some(1));
    assert!(
        messages.starts_with("`rt`, which proves and builds libdaybook_c.a, is not on PATH.\n"),
        "{messages}"
    );
    assert!(!messages.contains("missing"), "{messages}");
}

/// A reader that takes the first line alone.
#[test]
fn a_reader_that_has_enough() {
    let folder = sealed("enough");
    write_days(&folder, &altered(&days(4), &[1, 2, 3, 4]));
    let mut child = command(&folder, &SEAL.replace("seal", "verify"))
        .stdout(Stdio::piped())
        .stderr(Stdio::null())
        .spawn()
        .unwrap();
    let mut line = [0; 3];
    child.stdout.take().unwrap().read_exact(&mut line).unwrap();
    assert_eq!(&line, b"REF");
    assert_eq!(child.wait().unwrap().code(), Some(1));
}
