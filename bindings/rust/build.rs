//! Links `libdaybook_c.a`: from the folder `DAYBOOK_LIB_DIR`, or proved and built by `rt`.

use std::env;
use std::fs;
use std::io::ErrorKind;
use std::path::{Path, PathBuf};
use std::process::{self, Command};

const ARCHIVE: &str = "libdaybook_c.a";
const FOLDER: &str = "DAYBOOK_LIB_DIR";

fn main() {
    println!("cargo:rerun-if-changed=build.rs");
    println!("cargo:rerun-if-env-changed={FOLDER}");
    match test_target().and_then(|()| archive_folder()) {
        Ok(folder) => {
            println!("cargo:rustc-link-search=native={}", folder.display());
            println!("cargo:rustc-link-lib=static=daybook_c");
        }
        Err(message) => {
            eprintln!("{message}");
            process::exit(1);
        }
    }
}

/// The archive holds code for Linux on x86-64 alone.
fn test_target() -> Result<(), String> {
    let arch = variable("CARGO_CFG_TARGET_ARCH")?;
    let system = variable("CARGO_CFG_TARGET_OS")?;
    if arch == "x86_64" && system == "linux" {
        return Ok(());
    }
    Err(format!(
        "{ARCHIVE} is for Linux on x86-64 only, and this build is for {system} on {arch}.\n\
         Build for such a target, for example --target x86_64-unknown-linux-gnu."
    ))
}

/// The folder that the archive is linked from.
fn archive_folder() -> Result<PathBuf, String> {
    match env::var_os(FOLDER) {
        Some(folder) => given(PathBuf::from(folder)),
        None => proved(),
    }
}

/// The folder that the environment names.
fn given(folder: PathBuf) -> Result<PathBuf, String> {
    if !folder.is_absolute() {
        return Err(format!(
            "{FOLDER} is {}: give an absolute path.",
            folder.display()
        ));
    }
    let archive = folder.join(ARCHIVE);
    println!("cargo:rerun-if-changed={}", archive.display());
    if archive.is_file() {
        return Ok(folder);
    }
    Err(format!(
        "{FOLDER} is {}, and there is no {ARCHIVE} in it.\n\
         Make it with `.ci/archive` in the repository's top folder: it is then in\n\
         target/staticlib. Or unset {FOLDER}, and the build makes it.",
        folder.display()
    ))
}

/// Proves the archive in the repository that this package stands in. A copy is linked, so that the
/// build does not depend on a file that it writes itself.
fn proved() -> Result<PathBuf, String> {
    let top = top_folder()?;
    println!(
        "cargo:rerun-if-changed={}",
        top.join("crates.txt").display()
    );
    for folder in sources(&top) {
        println!("cargo:rerun-if-changed={}", folder.display());
    }
    run_archive(&top)?;
    let made = top.join("target").join("staticlib").join(ARCHIVE);
    let folder = PathBuf::from(variable("OUT_DIR")?);
    match fs::copy(&made, folder.join(ARCHIVE)) {
        Ok(_) => Ok(folder),
        Err(error) => Err(format!("{} cannot be copied: {error}.", made.display())),
    }
}

/// The repository's top folder, two above this package.
fn top_folder() -> Result<PathBuf, String> {
    let package = PathBuf::from(variable("CARGO_MANIFEST_DIR")?);
    let top = package.parent().and_then(Path::parent);
    match top {
        Some(top) if top.join("crates.txt").is_file() => Ok(top.to_path_buf()),
        _ => Err(format!(
            "{} does not stand in its repository: there is no crates.txt two folders above.\n\
             Set {FOLDER} to the folder that holds {ARCHIVE}.",
            package.display()
        )),
    }
}

/// What the archive is made from: the folders of each crate but `out`, where `rt` keeps its work.
fn sources(top: &Path) -> Vec<PathBuf> {
    let crates = fs::read_dir(top.join("crates"));
    let mut folders: Vec<PathBuf> = crates
        .into_iter()
        .flatten()
        .flatten()
        .flat_map(|folder| ["src", "specs", "proofs"].map(|part| folder.path().join(part)))
        .filter(|folder| folder.is_dir())
        .collect();
    folders.sort();
    folders
}

fn run_archive(top: &Path) -> Result<(), String> {
    test_rt()?;
    let result = Command::new(top.join(".ci").join("archive")).output();
    let output = result.map_err(|error| format!("`.ci/archive` cannot be run: {error}."))?;
    if output.status.success() {
        return Ok(());
    }
    Err(format!(
        "`.ci/archive` failed in {} ({}). It wrote:\n{}{}",
        top.display(),
        output.status,
        String::from_utf8_lossy(&output.stdout),
        String::from_utf8_lossy(&output.stderr)
    ))
}

/// Whether there is an `rt`, without which `.ci/archive` makes nothing.
fn test_rt() -> Result<(), String> {
    let result = Command::new("rt").arg("version").output();
    result.map(|_| ()).map_err(|error| {
        let what = match error.kind() {
            ErrorKind::NotFound => "is not on PATH".to_string(),
            _ => format!("cannot be run: {error}"),
        };
        format!(
            "`rt`, which proves and builds {ARCHIVE}, {what}.\n\
             Install the Rattle kit and put its `rt` on PATH, or set {FOLDER} to a folder that\n\
             holds {ARCHIVE}."
        )
    })
}

fn variable(name: &str) -> Result<String, String> {
    env::var(name).map_err(|_| format!("cargo did not set {name}."))
}
