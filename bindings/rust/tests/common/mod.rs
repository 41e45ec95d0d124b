//! The request's definitions written plainly, to compare the library with. Nothing here calls it.

#![allow(dead_code)] // each test program uses some of it

use std::collections::BTreeSet;
use std::fs;
use std::path::{Path, PathBuf};

use daybook::Layout;

/// FIPS 180-4, section 4.2.2: bits of the cube roots of the first 64 primes.
const K: [u32; 64] = [
    0x428a2f98, 0x71374491, 0xb5c0fbcf, 0xe9b5dba5, 0x3956c25b, 0x59f111f1, 0x923f82a4, 0xab1c5ed5,
    0xd807aa98, 0x12835b01, 0x243185be, 0x550c7dc3, 0x72be5d74, 0x80deb1fe, 0x9bdc06a7, 0xc19bf174,
    0xe49b69c1, 0xefbe4786, 0x0fc19dc6, 0x240ca1cc, 0x2de92c6f, 0x4a7484aa, 0x5cb0a9dc, 0x76f988da,
    0x983e5152, 0xa831c66d, 0xb00327c8, 0xbf597fc7, 0xc6e00bf3, 0xd5a79147, 0x06ca6351, 0x14292967,
    0x27b70a85, 0x2e1b2138, 0x4d2c6dfc, 0x53380d13, 0x650a7354, 0x766a0abb, 0x81c2c92e, 0x92722c85,
    0xa2bfe8a1, 0xa81a664b, 0xc24b8b70, 0xc76c51a3, 0xd192e819, 0xd6990624, 0xf40e3585, 0x106aa070,
    0x19a4c116, 0x1e376c08, 0x2748774c, 0x34b0bcb5, 0x391c0cb3, 0x4ed8aa4a, 0x5b9cca4f, 0x682e6ff3,
    0x748f82ee, 0x78a5636f, 0x84c87814, 0x8cc70208, 0x90befffa, 0xa4506ceb, 0xbef9a3f7, 0xc67178f2,
];

/// FIPS 180-4, section 5.3.3: what a hash begins with.
pub const INITIAL: [u32; 8] = [
    0x6a09e667, 0xbb67ae85, 0x3c6ef372, 0xa54ff53a, 0x510e527f, 0x9b05688c, 0x1f83d9ab, 0x5be0cd19,
];

pub fn sha256(message: &[u8]) -> [u8; 32] {
    let mut padded = message.to_vec();
    padded.push(0x80);
    while padded.len() % 64 != 56 {
        padded.push(0);
    }
    padded.extend((8 * message.len() as u64).to_be_bytes());
    let mut hash = INITIAL;
    for block in padded.chunks_exact(64) {
        compress(&mut hash, block);
    }
    let mut out = [0; 32];
    for (place, word) in out.chunks_exact_mut(4).zip(hash) {
        place.copy_from_slice(&word.to_be_bytes());
    }
    out
}

pub fn compress(hash: &mut [u32; 8], block: &[u8]) {
    let mut w = [0u32; 64];
    for (word, bytes) in w.iter_mut().zip(block.chunks_exact(4)) {
        *word = u32::from_be_bytes([bytes[0], bytes[1], bytes[2], bytes[3]]);
    }
    for t in 16..64 {
        let (x, y) = (w[t - 15], w[t - 2]);
        let s0 = x.rotate_right(7) ^ x.rotate_right(18) ^ (x >> 3);
        let s1 = y.rotate_right(17) ^ y.rotate_right(19) ^ (y >> 10);
        let sum = w[t - 16].wrapping_add(s0);
        w[t] = sum.wrapping_add(w[t - 7]).wrapping_add(s1);
    }
    let [mut a, mut b, mut c, mut d, mut e, mut f, mut g, mut h] = *hash;
    for t in 0..64 {
        let s1 = e.rotate_right(6) ^ e.rotate_right(11) ^ e.rotate_right(25);
        let choice = (e & f) ^ (!e & g);
        let first = h.wrapping_add(s1).wrapping_add(choice);
        let first = first.wrapping_add(K[t]).wrapping_add(w[t]);
        let s0 = a.rotate_right(2) ^ a.rotate_right(13) ^ a.rotate_right(22);
        let majority = (a & b) ^ (a & c) ^ (b & c);
        let second = s0.wrapping_add(majority);
        (h, g, f, e) = (g, f, e, d.wrapping_add(first));
        (d, c, b, a) = (c, b, a, first.wrapping_add(second));
    }
    for (word, new) in hash.iter_mut().zip([a, b, c, d, e, f, g, h]) {
        *word = word.wrapping_add(new);
    }
}

/// The digest of a day.
pub fn digest(day: &[u8]) -> [u8; 32] {
    sha256(&[&[0], day].concat())
}

/// What every chain of a layout's book starts with.
pub fn start(layout: Layout) -> [u8; 32] {
    sha256(&[2, layout.scheme as u8, layout.n.ilog2() as u8])
}

/// The link of a chain's value so far and a day's digest.
pub fn link(value: [u8; 32], digest: [u8; 32]) -> [u8; 32] {
    sha256(&[&[1][..], &value, &digest].concat())
}

/// The value of a chain over the days of these numbers.
pub fn value(start: [u8; 32], chain: &[u32], days: &[Vec<u8>]) -> [u8; 32] {
    let digests = chain.iter().map(|day| digest(&days[*day as usize - 1]));
    digests.fold(start, link)
}

/// The chains that close at day `g`, each as the days that it covers.
pub fn closing(layout: Layout, g: u32) -> Vec<Vec<u32>> {
    let n = layout.n;
    let black: Vec<u32> = (1..=g).collect();
    match layout.scheme {
        Layout::BLACK if g.is_multiple_of(n) => vec![black],
        Layout::TILE if g.is_multiple_of(n) => {
            let tile = g - n + 1..=g;
            let mut chains = vec![tile.clone().collect()];
            for i in 1..=n.ilog2() {
                let weight = n / 2u32.pow(i);
                let zero = |day: &u32| ((day - 1) % n) & weight == 0;
                chains.push(tile.clone().filter(zero).collect());
            }
            chains.push(black);
            chains
        }
        Layout::TREE => {
            let levels = (0..).map(|level| 2u32.pow(level));
            let levels = levels.take_while(|span| g.is_multiple_of(*span));
            let mut chains: Vec<Vec<u32>> =
                levels.map(|span| (g - span + 1..=g).collect()).collect();
            if g.is_multiple_of(n) && chains.last() != Some(&black) {
                chains.push(black);
            }
            chains
        }
        _ => vec![],
    }
}

/// All chains of `d` days in book order.
pub fn chains(layout: Layout, d: u32) -> Vec<Vec<u32>> {
    (1..=d).flat_map(|g| closing(layout, g)).collect()
}

/// The book of the days: every chain hashed from its first day.
pub fn book(layout: Layout, days: &[Vec<u8>]) -> Vec<u8> {
    book_from(start(layout), layout, days)
}

/// The same as it was before version 0.8.0: chains started with zeros.
pub fn book_before(layout: Layout, days: &[Vec<u8>]) -> Vec<u8> {
    book_from([0; 32], layout, days)
}

fn book_from(start: [u8; 32], layout: Layout, days: &[Vec<u8>]) -> Vec<u8> {
    let chains = chains(layout, days.len() as u32);
    let value = |chain: &Vec<u32>| value(start, chain, days);
    chains.iter().flat_map(value).collect()
}

/// The table that a set of changed days gives.
pub fn table(layout: Layout, d: u32, changed: &[u32]) -> Vec<u8> {
    outcomes(&chains(layout, d), changed)
}

/// The outcomes of chains, each as the days that it covers.
pub fn outcomes(chains: &[Vec<u32>], changed: &[u32]) -> Vec<u8> {
    let fails = |chain: &Vec<u32>| chain.iter().any(|day| changed.contains(day));
    chains.iter().map(|chain| u8::from(!fails(chain))).collect()
}

/// The days of at least one set that gives the table, by trying every set; none if no set does.
pub fn listing(layout: Layout, d: u32, outcomes: &[u8]) -> Option<Vec<u32>> {
    let masks: Vec<u32> = chains(layout, d)
        .iter()
        .map(|chain| chain.iter().map(|day| 1 << (day - 1)).sum())
        .collect();
    let gives = |set: &u32| {
        let outcome = masks.iter().map(|mask| u8::from(mask & set == 0));
        outcome.eq(outcomes.iter().copied())
    };
    let all = (0..1u32 << d).filter(gives).reduce(|a, b| a | b)?;
    Some((1..=d).filter(|day| all >> (day - 1) & 1 == 1).collect())
}

/// A chain of the tree: its first and its last day.
type Span = (u32, u32);

/// The chains of the tree that lie in no other one over days of 1 to `d`, each as its first and last day:
/// from the left, the longest one that can begin there.
fn maximal(d: u32) -> Vec<Span> {
    let mut chains = Vec::new();
    let mut day = 0;
    while day < d {
        let spans = (0..=16).map(|level| 2u32.pow(level));
        let fits = |span: &u32| day.is_multiple_of(*span) && day + span <= d;
        let span = spans.filter(fits).max().unwrap();
        chains.push((day + 1, day + span));
        day += span;
    }
    chains
}

/// The two halves of a chain of more than one day.
fn halves((first, last): Span) -> [Span; 2] {
    let middle = first + (last - first) / 2;
    [(first, middle), (middle + 1, last)]
}

/// Whether a chain of the tree fails: it covers one of the changed days, which ascend.
fn fails((first, last): Span, changed: &[u32]) -> bool {
    let from = changed.partition_point(|day| *day < first);
    changed.get(from).is_some_and(|day| *day <= last)
}

fn look(chain: Span, changed: &[u32], walk: &mut Vec<Span>) {
    walk.push(chain);
    if fails(chain, changed) && chain.0 < chain.1 {
        for half in halves(chain) {
            look(half, changed, walk);
        }
    }
}

/// The chains that a search to the end looks at, in order.
pub fn walk(d: u32, changed: &[u32]) -> Vec<Span> {
    let mut walk = Vec::new();
    for chain in maximal(d) {
        look(chain, changed, &mut walk);
    }
    walk
}

/// What a search leaves: looked, found and undecided, and the days found. Undecided are the days of the
/// chains that are due, the largest ones and the halves of those that failed, and were not looked at.
pub fn searched(d: u32, changed: &[u32], limit: u32) -> ([u32; 3], Vec<u32>) {
    let walk = walk(d, changed);
    let looked = &walk[..walk.len().min(limit as usize)];
    let failing = looked
        .iter()
        .copied()
        .filter(|chain| fails(*chain, changed));
    let (single, longer): (Vec<Span>, Vec<Span>) = failing.partition(|chain| chain.0 == chain.1);
    let found: Vec<u32> = single.iter().map(|chain| chain.0).collect();
    let mut due = maximal(d);
    due.extend(longer.into_iter().flat_map(halves));
    let seen: BTreeSet<_> = looked.iter().collect();
    let left = due.iter().filter(|chain| !seen.contains(chain));
    let undecided = left.map(|(first, last)| last - first + 1).sum();
    let numbers = [looked.len() as u32, found.len() as u32, undecided];
    (numbers, found)
}

/// As [`table`], for scheme 3 and many days.
pub fn tree_table(n: u32, d: u32, changed: &[u32]) -> Vec<u8> {
    let mut outcomes = Vec::new();
    let pass = |first, last| u8::from(!fails((first, last), changed));
    for g in 1..=d {
        let mut span = 1;
        while g.is_multiple_of(span) {
            outcomes.push(pass(g - span + 1, g));
            span *= 2;
        }
        if g.is_multiple_of(n) && !g.is_power_of_two() {
            outcomes.push(pass(1, g));
        }
    }
    outcomes
}

/// The ledger of the days and their ends.
pub fn ledger(days: &[Vec<u8>]) -> (Vec<u8>, Vec<u32>) {
    let ends = days.iter().scan(0, |end, day| {
        *end += day.len() as u32;
        Some(*end)
    });
    (days.concat(), ends.collect())
}

/// Byte i of day g is (31 g + 7 i + 5) mod 256, as in the reference.
pub fn day(g: u32, length: u32) -> Vec<u8> {
    (0..length).map(|i| (31 * g + 7 * i + 5) as u8).collect()
}

/// `d` days of several lengths, some of them empty.
pub fn days(d: u32) -> Vec<Vec<u8>> {
    (1..=d).map(|g| day(g, 7 * g % 131)).collect()
}

/// The days with these ones altered: one more byte.
pub fn altered(days: &[Vec<u8>], changed: &[u32]) -> Vec<Vec<u8>> {
    let mut days = days.to_vec();
    for day in changed {
        days[*day as usize - 1].push(0);
    }
    days
}

pub fn hex(bytes: &[u8]) -> String {
    bytes.iter().map(|byte| format!("{byte:02x}")).collect()
}

/// A folder that is removed at the end of the test.
pub struct Folder(PathBuf);

impl Folder {
    pub fn new(name: &str) -> Folder {
        let name = format!("daybook-test-{}-{name}", std::process::id());
        let path = std::env::temp_dir().join(name);
        fs::create_dir(&path).unwrap();
        Folder(path)
    }

    /// The same in memory where it can be, for many or long files.
    pub fn in_memory(name: &str) -> Folder {
        let path = format!("/dev/shm/daybook-test-{}-{name}", std::process::id());
        match fs::create_dir(&path) {
            Ok(()) => Folder(path.into()),
            Err(_) => Folder::new(name),
        }
    }

    pub fn path(&self) -> &Path {
        &self.0
    }

    pub fn file(&self, name: &str) -> PathBuf {
        self.0.join(name)
    }
}

impl Drop for Folder {
    fn drop(&mut self) {
        let _ = fs::remove_dir_all(&self.0);
    }
}
