//! A disk that tells what is on it from what was only written: files by their bytes and folders by
//! their entries, each as programs see it now and as it was when it was last synced.

use std::collections::{BTreeMap, BTreeSet};
use std::fs;
use std::path::Path;

use crate::folders::Tree;

/// A call as the shim wrote it down.
#[derive(Clone, Debug, PartialEq, Eq)]
pub enum Call {
    /// A call without effect on files.
    None,
    Create(String),
    Folder(String),
    Write(String, usize, Vec<u8>),
    Cut(String, usize),
    Sync(String),
    Move(String, String),
    Remove(String),
}

impl Call {
    /// Reads the log. Paths are given below the root; calls on files elsewhere have no effect.
    pub fn read(log: &str, root: &Path) -> Vec<Call> {
        log.lines().map(|line| Call::parse(line, root)).collect()
    }

    fn parse(line: &str, root: &Path) -> Call {
        let words: Vec<&str> = line.split(' ').collect();
        let below = |word: usize| Path::new(words[word]).strip_prefix(root);
        if words.len() < 2 || below(1).is_err() {
            assert!(!line.starts_with("unknown"), "no model of {line}");
            return Call::None;
        }
        let path = |word: usize| below(word).unwrap().to_str().unwrap().to_string();
        let number = |word: usize| words[word].parse().unwrap();
        match words[0] {
            "create" => Call::Create(path(1)),
            "folder" => Call::Folder(path(1)),
            "write" => Call::Write(path(1), number(2), unhex(words[3])),
            "cut" => Call::Cut(path(1), number(2)),
            "sync" => Call::Sync(path(1)),
            "move" => Call::Move(path(1), path(2)),
            "remove" => Call::Remove(path(1)),
            _ => panic!("no model of {line}"),
        }
    }
}

fn unhex(text: &str) -> Vec<u8> {
    let digits = text.as_bytes().chunks_exact(2);
    let byte = |pair: &[u8]| u8::from_str_radix(std::str::from_utf8(pair).unwrap(), 16).unwrap();
    digits.map(byte).collect()
}

/// What a power cut leaves of bytes that were not synced.
#[derive(Clone, Copy, Debug, PartialEq, Eq)]
enum Bytes {
    /// All of them, as after a kill.
    Kept,
    Lost,
    /// The length, with zeros for the bytes.
    Zeros,
    Half,
}

/// A change of a folder that was not synced.
#[derive(Clone, Debug)]
enum Change {
    Set(usize, String, usize),
    Unset(usize, String),
    Move(usize, String, usize, String),
}

#[derive(Clone)]
enum Node {
    File {
        now: Vec<u8>,
        disk: Vec<u8>,
    },
    Folder {
        now: BTreeMap<String, usize>,
        disk: BTreeMap<String, usize>,
    },
}

#[derive(Clone)]
pub struct Disk {
    nodes: Vec<Node>,
    /// The changes of folders that are not on disk, in order.
    changes: Vec<Change>,
}

const ROOT: usize = 0;

impl Disk {
    /// A disk that holds the tree, all of it synced.
    pub fn of(tree: &Tree) -> Disk {
        let mut disk = Disk {
            nodes: vec![Disk::folder()],
            changes: Vec::new(),
        };
        for (path, bytes) in tree {
            match bytes {
                Some(bytes) => {
                    disk.make(path, Disk::file());
                    disk.apply(&Call::Write(path.clone(), 0, bytes.clone()));
                }
                None => disk.make(path, Disk::folder()),
            }
        }
        for node in &mut disk.nodes {
            node.sync();
        }
        disk.changes.clear();
        disk
    }

    fn file() -> Node {
        Node::File {
            now: Vec::new(),
            disk: Vec::new(),
        }
    }

    fn folder() -> Node {
        Node::Folder {
            now: BTreeMap::new(),
            disk: BTreeMap::new(),
        }
    }

    /// The node of a path.
    fn find(&self, path: &str) -> usize {
        let names = path.split('/').filter(|name| !name.is_empty());
        names.fold(ROOT, |node, name| self.nodes[node].entries()[name])
    }

    /// The folder of a path, and the name in it.
    fn place(&self, path: &str) -> (usize, String) {
        let (folder, name) = path.rsplit_once('/').unwrap_or(("", path));
        (self.find(folder), name.to_string())
    }

    fn make(&mut self, path: &str, node: Node) {
        let (folder, name) = self.place(path);
        let number = self.nodes.len();
        self.nodes.push(node);
        self.change(Change::Set(folder, name, number));
    }

    fn change(&mut self, change: Change) {
        let mut folders: Vec<_> = self.nodes.iter().map(Node::now).collect();
        change.apply(&mut folders);
        for (node, folder) in self.nodes.iter_mut().zip(folders) {
            if let (Node::Folder { now, .. }, Some(folder)) = (node, folder) {
                *now = folder;
            }
        }
        self.changes.push(change);
    }

    pub fn apply(&mut self, call: &Call) {
        match call {
            Call::None => {}
            Call::Create(path) => self.make(path, Disk::file()),
            Call::Folder(path) => self.make(path, Disk::folder()),
            Call::Write(path, at, bytes) => {
                let now = self.bytes(path);
                now.resize(now.len().max(at + bytes.len()), 0);
                now[*at..at + bytes.len()].copy_from_slice(bytes);
            }
            Call::Cut(path, length) => self.bytes(path).resize(*length, 0),
            Call::Sync(path) => self.sync(path),
            Call::Move(from, to) => {
                let (from, to) = (self.place(from), self.place(to));
                self.change(Change::Move(from.0, from.1, to.0, to.1));
            }
            Call::Remove(path) => {
                let (folder, name) = self.place(path);
                self.change(Change::Unset(folder, name));
            }
        }
    }

    fn bytes(&mut self, path: &str) -> &mut Vec<u8> {
        let node = self.find(path);
        match &mut self.nodes[node] {
            Node::File { now, .. } => now,
            Node::Folder { .. } => panic!("{path} is a folder"),
        }
    }

    /// A sync puts the bytes of a file on disk, or the entries of a folder, and nothing else.
    fn sync(&mut self, path: &str) {
        let node = self.find(path);
        self.nodes[node].sync();
        self.changes.retain(|change| change.folder() != node);
    }

    /// The files as programs see them.
    pub fn now(&self) -> Tree {
        self.tree(self.changes.len(), &|_| true, Bytes::Kept)
    }

    /// What can be found after a power cut: each change of a folder that was not synced was made or
    /// not, and each way for bytes.
    pub fn after_power_cut(&self) -> BTreeSet<Tree> {
        let count = self.changes.len();
        let mut trees = BTreeSet::new();
        for mask in masks(count) {
            for bytes in [Bytes::Kept, Bytes::Lost, Bytes::Zeros, Bytes::Half] {
                trees.insert(self.tree(count, &|change| mask >> change & 1 == 1, bytes));
            }
        }
        trees
    }

    /// What is found after a power cut if nothing is left of what was not synced.
    pub fn synced(&self) -> Tree {
        self.tree(0, &|_| false, Bytes::Lost)
    }

    fn tree(&self, count: usize, made: &dyn Fn(usize) -> bool, bytes: Bytes) -> Tree {
        let mut folders: Vec<_> = self.nodes.iter().map(Node::disk).collect();
        for (number, change) in self.changes[..count].iter().enumerate() {
            if made(number) {
                change.apply(&mut folders);
            }
        }
        let mut tree = Tree::new();
        self.collect(&folders, ROOT, "", bytes, &mut tree);
        tree
    }

    fn collect(
        &self,
        folders: &[Option<BTreeMap<String, usize>>],
        node: usize,
        path: &str,
        left: Bytes,
        tree: &mut Tree,
    ) {
        for (name, node) in folders[node].iter().flatten() {
            let path = if path.is_empty() {
                name.clone()
            } else {
                format!("{path}/{name}")
            };
            match &self.nodes[*node] {
                Node::File { now, disk } => {
                    tree.insert(path, Some(left.of(now, disk)));
                }
                Node::Folder { .. } => {
                    tree.insert(path.clone(), None);
                    self.collect(folders, *node, &path, left, tree);
                }
            }
        }
    }
}

/// The sets of changes that are made: all of them where there are few.
fn masks(count: usize) -> Vec<u64> {
    let all = (1 << count) - 1;
    if count <= 5 {
        return (0..=all).collect();
    }
    let ones = (0..count).map(|change| 1 << change);
    let without = ones.clone().map(|one: u64| all & !one);
    let front = (0..=count).map(|first| (1 << first) - 1);
    ones.chain(without).chain(front).collect()
}

impl Bytes {
    fn of(self, now: &[u8], disk: &[u8]) -> Vec<u8> {
        let mut bytes = disk.to_vec();
        match self {
            Bytes::Kept => return now.to_vec(),
            Bytes::Lost => {}
            Bytes::Zeros => bytes.resize(now.len(), 0),
            Bytes::Half if now.len() <= disk.len() => return now.to_vec(),
            Bytes::Half => return now[..(now.len() + disk.len()) / 2].to_vec(),
        }
        bytes
    }
}

impl Change {
    /// The folder that must be synced for the change to be on disk.
    fn folder(&self) -> usize {
        match self {
            Change::Set(folder, ..) | Change::Unset(folder, _) | Change::Move(_, _, folder, _) => {
                *folder
            }
        }
    }

    fn apply(&self, folders: &mut [Option<BTreeMap<String, usize>>]) {
        let mut entries = |folder: usize| folders[folder].take().unwrap_or_default();
        match self {
            Change::Set(folder, name, node) => {
                let mut all = entries(*folder);
                all.insert(name.clone(), *node);
                folders[*folder] = Some(all);
            }
            Change::Unset(folder, name) => {
                let mut all = entries(*folder);
                all.remove(name);
                folders[*folder] = Some(all);
            }
            Change::Move(from, old, to, new) => {
                assert_eq!(from, to, "moves are within a folder");
                let mut all = entries(*to);
                // what was never made cannot be moved
                if let Some(node) = all.remove(old) {
                    all.insert(new.clone(), node);
                }
                folders[*to] = Some(all);
            }
        }
    }
}

impl Node {
    fn entries(&self) -> &BTreeMap<String, usize> {
        match self {
            Node::Folder { now, .. } => now,
            Node::File { .. } => panic!("a file has no entries"),
        }
    }

    fn now(&self) -> Option<BTreeMap<String, usize>> {
        match self {
            Node::Folder { now, .. } => Some(now.clone()),
            Node::File { .. } => None,
        }
    }

    fn disk(&self) -> Option<BTreeMap<String, usize>> {
        match self {
            Node::Folder { disk, .. } => Some(disk.clone()),
            Node::File { .. } => None,
        }
    }

    fn sync(&mut self) {
        match self {
            Node::File { now, disk } => disk.clone_from(now),
            Node::Folder { now, disk } => disk.clone_from(now),
        }
    }
}

/// Puts a tree into a folder, in the place of all that is there.
pub fn put(root: &Path, tree: &Tree) {
    let _ = fs::remove_dir_all(root);
    fs::create_dir_all(root).unwrap();
    for (path, bytes) in tree {
        let path = root.join(path);
        match bytes {
            Some(bytes) => fs::write(path, bytes).unwrap(),
            None => fs::create_dir_all(path).unwrap(),
        }
    }
}

/// A tree with the number of the process left out of temporary names, for comparing.
pub fn plain(tree: &Tree) -> Tree {
    let name = |path: &String| {
        let parts = path
            .split('/')
            .map(|part| match part.strip_prefix(".daybook-") {
                Some(rest) => format!(".daybook-N{}", rest.trim_start_matches(char::is_numeric)),
                None => part.to_string(),
            });
        parts.collect::<Vec<_>>().join("/")
    };
    tree.iter()
        .map(|(path, bytes)| (name(path), bytes.clone()))
        .collect()
}
