//! All the places at which a run can be stopped, and what the next run makes of them.

use std::collections::BTreeSet;
use std::env;
use std::fs;
use std::path::PathBuf;
use std::process::{self, Command, Stdio};

use crate::folders::{self, Tree};
use crate::model::{self, plain, Call, Disk};

/// The system calls that write, rename, truncate, sync, make or remove.
const TRACED: &str = "trace=open,openat,openat2,creat,write,writev,pwrite64,pwritev,pwritev2,\
    truncate,ftruncate,fallocate,copy_file_range,sendfile,splice,fsync,fdatasync,sync,syncfs,\
    sync_file_range,msync,rename,renameat,renameat2,link,linkat,symlink,symlinkat,unlink,unlinkat,\
    mkdir,mkdirat,rmdir,mknod,mknodat,fchmod,chmod,fchmodat,io_uring_enter";

/// A run to be stopped, and a command that prints the state without changing it.
pub struct Step {
    pub line: String,
    look: String,
    /// Commands that may come next in place of a repeat.
    others: Vec<String>,
    /// What must hold of the files at every stop.
    holds: fn(&Tree) -> bool,
    /// Whether a run may end with 0 and leave the state as it was, where a call fails.
    spared: bool,
}

impl Step {
    pub fn new(line: &str, look: &str) -> Step {
        Step {
            line: line.to_string(),
            look: look.to_string(),
            others: Vec::new(),
            holds: |_| true,
            spared: false,
        }
    }

    pub fn or_next(mut self, others: &[&str]) -> Step {
        self.others = others.iter().map(|line| line.to_string()).collect();
        self
    }

    /// The run's answer does not hang on what it writes.
    pub fn spared(mut self) -> Step {
        self.spared = true;
        self
    }

    pub fn holding(mut self, holds: fn(&Tree) -> bool) -> Step {
        self.holds = holds;
        self
    }
}

/// How a run ended: its status, none where it was killed, and what it printed.
#[derive(Clone, Debug, PartialEq, Eq, PartialOrd, Ord)]
pub struct Ran {
    pub status: Option<i32>,
    pub printed: String,
    pub messages: String,
}

/// What came of exploring a step.
pub struct Found {
    /// The files that the undisturbed run left.
    pub after: Tree,
    /// The calls before which the run was stopped.
    pub stops: usize,
    /// What power cuts left, each different from the others.
    pub cuts: usize,
    pub differences: Vec<String>,
}

/// A folder in which a program is run.
pub struct Bench {
    pub name: String,
    pub root: PathBuf,
    program: PathBuf,
    shim: PathBuf,
    /// Long files that no run writes: they stand in the folder and are left out of its trees.
    fixed: Vec<(String, Vec<u8>)>,
}

impl Bench {
    /// The folder is in memory where it can be: what is on disk is for the model to say.
    pub fn new(name: &str, program: PathBuf, shim: PathBuf) -> Bench {
        let memory = PathBuf::from("/dev/shm");
        let probe = memory.join(format!("daybook-crash-{}-{name}", process::id()));
        let root = match fs::create_dir(&probe) {
            Ok(()) => probe,
            Err(_) => env::temp_dir().join(format!("daybook-crash-{}-{name}", process::id())),
        };
        Bench {
            name: name.to_string(),
            root,
            program,
            shim,
            fixed: Vec::new(),
        }
    }

    /// The same with long files that no run writes.
    pub fn with_fixed(mut self, fixed: Vec<(String, Vec<u8>)>) -> Bench {
        fs::create_dir_all(self.kept()).unwrap();
        for (number, (_, bytes)) in fixed.iter().enumerate() {
            fs::write(self.kept().join(number.to_string()), bytes).unwrap();
        }
        self.fixed = fixed;
        self
    }

    /// Where the long files are kept; trees have links to them.
    fn kept(&self) -> PathBuf {
        self.root.with_extension("fixed")
    }

    /// Puts a tree into the folder, in the place of all that is there.
    pub fn put(&self, tree: &Tree) {
        model::put(&self.root, tree);
        for (number, (path, _)) in self.fixed.iter().enumerate() {
            let kept = self.kept().join(number.to_string());
            fs::hard_link(kept, self.root.join(path)).unwrap();
        }
    }

    /// The tree of the folder without the long files, which are still there.
    pub fn tree(&self) -> Tree {
        let paths = self.fixed.iter().map(|(path, _)| self.root.join(path));
        let paths: Vec<PathBuf> = paths.collect();
        for (path, (_, bytes)) in paths.iter().zip(&self.fixed) {
            let length = fs::metadata(path).unwrap().len();
            assert_eq!(length, bytes.len() as u64, "{}", path.display());
        }
        folders::tree_without(&self.root, &paths)
    }

    /// The long files are as they were.
    fn test_fixed(&self) {
        for (number, (path, bytes)) in self.fixed.iter().enumerate() {
            let kept = fs::read(self.kept().join(number.to_string())).unwrap();
            assert!(kept == *bytes, "{path} was written");
        }
    }

    pub fn run(&self, line: &str) -> Ran {
        ended(&mut self.command(line))
    }

    /// Runs the line under the shim, which stops it before a call.
    pub fn stopped(&self, line: &str, call: u64, how: &str) -> Ran {
        let mut command = self.command(line);
        command.env("LD_PRELOAD", &self.shim);
        command.env("SHIM_AT", call.to_string());
        ended(command.env("SHIM_HOW", how))
    }

    fn command(&self, line: &str) -> Command {
        let mut command = Command::new(&self.program);
        command.args(line.split(' ')).current_dir(&self.root);
        command
    }

    /// The number of calls that the shim sees, and the number that strace sees; none where there is no
    /// strace, or it may not trace.
    pub fn counted(&self, start: &Tree, line: &str) -> (usize, Option<usize>) {
        self.put(start);
        let seen = self.log(line).0.len();
        self.put(start);
        let log = self.root.with_extension("log");
        let mut command = Command::new("strace");
        command.args(["-f", "-qq", "-e", TRACED, "-o"]).arg(&log);
        command.arg(&self.program).args(line.split(' '));
        let traced = command
            .current_dir(&self.root)
            .stdout(Stdio::null())
            .stderr(Stdio::null())
            .status();
        if !traced.is_ok_and(|status| status.success()) {
            return (seen, None);
        }
        let text = fs::read_to_string(&log).unwrap();
        fs::remove_file(&log).unwrap();
        // an open that neither makes nor cuts a file changes nothing
        let changes = |line: &&str| {
            let name = line.split('(').next().unwrap_or_default();
            !name.contains("open") || line.contains("O_CREAT") || line.contains("O_TRUNC")
        };
        let calls = text.lines().filter(|line| line.contains('('));
        (seen, Some(calls.filter(changes).count()))
    }

    /// The calls of an undisturbed run on what is in the folder, and how it ended.
    fn log(&self, line: &str) -> (Vec<Call>, Ran) {
        let log = self.root.with_extension("log");
        let _ = fs::remove_file(&log);
        let mut command = self.command(line);
        command.env("LD_PRELOAD", &self.shim).env("SHIM_LOG", &log);
        let ran = ended(&mut command);
        let calls = Call::read(&fs::read_to_string(&log).unwrap(), &self.root);
        fs::remove_file(&log).unwrap();
        (calls, ran)
    }

    /// The calls of an undisturbed run from `start`, and the files that it leaves.
    pub fn traced(&self, start: &Tree, step: &Step) -> (Vec<Call>, Tree) {
        self.put(start);
        let (calls, ran) = self.log(&step.line);
        assert_eq!(ran.status, Some(0), "{}: {}", step.line, ran.messages);
        (calls, self.tree())
    }

    pub fn explore(&self, start: &Tree, step: &Step) -> Found {
        let (calls, after) = self.traced(start, step);
        let mut differences = self.kills(start, step, &calls, &after);
        for how in ["EIO", "ENOSPC"] {
            differences.extend(self.failures(start, step, calls.len(), &after, how));
        }
        let left = states(start, &calls);
        differences.extend(self.power_cuts(start, step, &calls, &after));
        let all = |_: &Call| true;
        differences.extend(self.power_cuts_after_repeats(start, step, &calls, &after, all));
        differences.extend(self.others(start, step, &left, &after));
        self.test_fixed();
        Found {
            after,
            stops: calls.len(),
            cuts: left.len(),
            differences,
        }
    }

    /// Other commands after a stop: they go on from before or from after the step.
    fn others(
        &self,
        start: &Tree,
        step: &Step,
        left: &BTreeSet<Tree>,
        after: &Tree,
    ) -> Vec<String> {
        let mut differences = Vec::new();
        for other in &step.others {
            let ends = |tree: &Tree| {
                self.put(tree);
                let ran = self.run(other);
                (ran.status, self.tree())
            };
            let expected = [ends(start), ends(after)];
            for stopped in left {
                let (status, made) = ends(stopped);
                // a command that is refused leaves what was there, leavings too
                let same = |(end, tree): &(Option<i32>, Tree)| {
                    *end == status && (status != Some(0) || *tree == made)
                };
                if !expected.iter().any(same) || (status != Some(0) && made != *stopped) {
                    differences.push(format!("power cut, then {other}: status {status:?}"));
                }
            }
        }
        differences
    }

    fn look(&self, tree: &Tree, step: &Step) -> (Option<i32>, String) {
        self.put(tree);
        let ran = self.run(&step.look);
        // whether a run was stopped is not part of the state
        let lines = ran
            .printed
            .lines()
            .filter(|line| !line.starts_with("interrupted"));
        (ran.status, lines.collect())
    }

    /// Repeats the step on what is in the folder: it must be done then, as if undisturbed.
    fn repeat(&self, step: &Step, after: &Tree, where_: &str) -> Option<String> {
        let ran = self.run(&step.line);
        let left = self.tree();
        if ran.status == Some(0) && left == *after {
            return None;
        }
        let (status, messages) = (ran.status, ran.messages);
        Some(format!(
            "{where_}: repeated, status {status:?}: {messages}{}",
            difference(&left, after)
        ))
    }

    /// A kill before each call. The model must tell what it leaves.
    fn kills(&self, start: &Tree, step: &Step, calls: &[Call], after: &Tree) -> Vec<String> {
        let mut differences = Vec::new();
        let mut disk = Disk::of(start);
        for (number, call) in calls.iter().enumerate() {
            let where_ = format!("killed before call {}, {call:?}", number + 1);
            self.put(start);
            let ran = self.stopped(&step.line, number as u64 + 1, "kill");
            assert_eq!(ran.status, None, "{where_}");
            let left = plain(&self.tree());
            assert_eq!(left, plain(&disk.now()), "{where_}: the model is wrong");
            differences.extend(self.repeat(step, after, &where_));
            disk.apply(call);
        }
        assert_eq!(plain(&disk.now()), plain(after), "the model is wrong");
        differences
    }

    /// Each call fails. The run ends with a fault, or is done all the same.
    fn failures(
        &self,
        start: &Tree,
        step: &Step,
        calls: usize,
        after: &Tree,
        how: &str,
    ) -> Vec<String> {
        let mut good = vec![self.look(after, step)];
        if step.spared {
            good.push(self.look(start, step));
        }
        let mut differences = Vec::new();
        for call in 1..=calls as u64 {
            let where_ = format!("{how} at call {call}");
            self.put(start);
            let ran = self.stopped(&step.line, call, how);
            let left = self.tree();
            match ran.status {
                Some(3) => {}
                Some(0) if good.contains(&self.look(&left, step)) => {}
                status => differences.push(format!("{where_}: status {status:?}")),
            }
            self.put(&left);
            differences.extend(self.repeat(step, after, &where_));
        }
        differences
    }

    /// A power cut before each call and after the last.
    pub fn power_cuts(
        &self,
        start: &Tree,
        step: &Step,
        calls: &[Call],
        after: &Tree,
    ) -> Vec<String> {
        let mut differences = Vec::new();
        let (before, done) = (self.look(start, step), self.look(after, step));
        let mut disk = Disk::of(start);
        let mut seen = BTreeSet::new();
        for number in 0..=calls.len() {
            let ended = number == calls.len();
            for left in disk.after_power_cut() {
                let where_ = format!("power cut before call {}", number + 1);
                if ended && self.look(&left, step) != done {
                    differences.push(format!("{where_}, the run had ended: it is not done"));
                }
                if !seen.insert(left.clone()) {
                    continue;
                }
                let looked = self.look(&left, step);
                if looked != before && looked != done {
                    differences.push(format!("{where_}: neither before nor after: {looked:?}"));
                }
                if self.tree() != left {
                    differences.push(format!("{where_}: looking wrote"));
                }
                if !(step.holds)(&left) {
                    differences.push(format!("{where_}: the files do not belong together"));
                }
                differences.extend(self.repeat(step, after, &where_));
            }
            if !ended {
                disk.apply(&calls[number]);
            }
        }
        differences
    }

    /// A kill, a repeat, and a power cut before each call of the repeat and after its last: what the
    /// repeat says must last. Of the repeat's calls those are made that are told.
    pub fn power_cuts_after_repeats(
        &self,
        start: &Tree,
        step: &Step,
        calls: &[Call],
        after: &Tree,
        made: fn(&Call) -> bool,
    ) -> Vec<String> {
        let mut differences = Vec::new();
        let done = self.look(after, step);
        let mut disk = Disk::of(start);
        let mut seen = BTreeSet::new();
        for (number, call) in calls.iter().enumerate() {
            self.put(&disk.now());
            let (repeated, ran) = self.log(&step.line);
            if ran.status != Some(0) {
                let (status, messages) = (ran.status, ran.messages);
                differences.push(format!(
                    "killed before call {}: repeated, status {status:?}: {messages}",
                    number + 1
                ));
            }
            let mut again = disk.clone();
            for repeat in repeated.iter().filter(|call| made(call)) {
                let left = again.synced();
                let where_ = format!("killed before call {}, repeated, power cut", number + 1);
                if seen.insert(left.clone()) {
                    self.put(&left);
                    differences.extend(self.repeat(step, after, &where_));
                }
                again.apply(repeat);
            }
            for left in again.after_power_cut() {
                if self.look(&left, step) != done {
                    differences.push(format!(
                        "killed before call {}, repeated with status 0, power cut: it is not done",
                        number + 1
                    ));
                }
            }
            disk.apply(call);
        }
        differences
    }
}

impl Drop for Bench {
    fn drop(&mut self) {
        let _ = fs::remove_dir_all(&self.root);
        let _ = fs::remove_dir_all(self.kept());
        let _ = fs::remove_file(self.root.with_extension("log"));
    }
}

/// All that power cuts can leave of a run.
pub fn states(start: &Tree, calls: &[Call]) -> BTreeSet<Tree> {
    let mut disk = Disk::of(start);
    let mut left = disk.after_power_cut();
    for call in calls {
        disk.apply(call);
        left.extend(disk.after_power_cut());
    }
    left
}

fn ended(command: &mut Command) -> Ran {
    let output = command.stdin(Stdio::null()).output().unwrap();
    let text = |bytes: Vec<u8>| String::from_utf8_lossy(&bytes).into_owned();
    Ran {
        status: output.status.code(),
        printed: text(output.stdout),
        messages: text(output.stderr),
    }
}

/// In what two trees differ.
fn difference(left: &Tree, after: &Tree) -> String {
    let mut text = String::new();
    let paths: BTreeSet<&String> = left.keys().chain(after.keys()).collect();
    for path in paths {
        let size = |tree: &Tree| tree.get(path).map(|bytes| bytes.as_ref().map(Vec::len));
        if left.get(path) != after.get(path) {
            let (left, after) = (size(left), size(after));
            text += &format!("\n  {path}: {left:?} bytes, undisturbed {after:?}");
        }
    }
    text
}
