//! A record and its calls, written plainly from docs/SPEC.md 5, 15.4 and 23. Nothing here calls the
//! library.

#![allow(dead_code)] // each test program uses some of it

use daybook::{Layout, RECORD};

use crate::common::{compress, link, start, INITIAL};

pub type Value = [u8; 32];

/// Where the start stands in a record's bytes: behind all that a record had before version 0.8.0.
pub const START_AT: usize = 692;
/// Where the season stands: behind all that a record of version 0.8 had.
pub const SEASON_AT: usize = 724;

#[derive(Clone, Debug, PartialEq, Eq)]
pub struct Record {
    pub layout: Layout,
    /// The days closed.
    pub days: u32,
    /// The bytes in the open day.
    pub bytes: u32,
    /// The hash of the open day, as eight words end to end.
    pub open: Value,
    pub black: Value,
    pub slots: [Value; 17],
    pub block: [u8; 64],
    pub start: Value,
    pub season: u32,
}

/// What a close gives.
pub struct Closed {
    pub values: Vec<Value>,
    pub blocks: u32,
}

impl Record {
    /// A fresh service.
    pub fn open(layout: Layout) -> Record {
        Record::started(layout, start(layout))
    }

    /// A fresh service as it was before version 0.8.0, with zeros behind it.
    pub fn open_before(layout: Layout) -> Record {
        Record::started(layout, [0; 32])
    }

    fn started(layout: Layout, start: Value) -> Record {
        Record {
            layout,
            days: 0,
            bytes: 0,
            open: value_of(INITIAL),
            black: start,
            slots: [start; 17],
            block: [0; 64],
            start,
            season: 0,
        }
    }

    /// The record of the next season, where this one is full: that of an open, with its own start.
    pub fn next_season(&self) -> Record {
        Record {
            season: self.season + 1,
            ..Record::started(self.layout, self.start)
        }
    }

    /// Goes on in the next season, where this one is full.
    fn turn(&mut self) {
        if self.days == 65_536 {
            *self = self.next_season();
        }
    }

    pub fn to_bytes(&self) -> [u8; RECORD] {
        let Layout { scheme, n, f } = self.layout;
        let mut bytes = Vec::new();
        for number in [scheme, n, f, self.days, self.bytes] {
            bytes.extend(number.to_le_bytes());
        }
        for value in [&[self.open, self.black][..], &self.slots].concat() {
            bytes.extend(turned(value));
        }
        bytes.extend(self.block);
        assert_eq!(bytes.len(), START_AT);
        bytes.extend(turned(self.start));
        assert_eq!(bytes.len(), SEASON_AT);
        bytes.extend(self.season.to_le_bytes());
        bytes.try_into().unwrap()
    }

    /// Adds a piece; gives the blocks that it fills.
    pub fn add(&mut self, piece: &[u8]) -> u32 {
        self.turn();
        let whole = [&self.block[..self.fill()], piece].concat();
        let mut blocks = whole.chunks_exact(64);
        let count = self.hash(&mut blocks);
        let rest = blocks.remainder();
        self.block = [0; 64];
        self.block[..rest.len()].copy_from_slice(rest);
        self.bytes += piece.len() as u32;
        count
    }

    /// Closes the open day.
    pub fn close(&mut self) -> Closed {
        self.turn();
        let (digest, mut blocks) = self.digest();
        let g = self.days + 1;
        self.black = link(self.black, digest);
        blocks += 2;
        let mut values = Vec::new();
        for i in 0..17 {
            let slot = i as usize;
            if self.takes(i, g) {
                self.slots[slot] = link(self.slots[slot], digest);
                blocks += 2;
            }
            if self.ends(i, g) {
                values.push(self.slots[slot]);
                self.slots[slot] = self.start;
            }
        }
        let once = self.layout.scheme == Layout::TREE && g.is_power_of_two();
        if g.is_multiple_of(self.layout.n) && !once {
            values.push(self.black);
        }
        (self.days, self.bytes) = (g, 0);
        (self.open, self.block) = (value_of(INITIAL), [0; 64]);
        Closed { values, blocks }
    }

    /// Whether slot i is linked at day g.
    fn takes(&self, i: u32, g: u32) -> bool {
        let n = self.layout.n;
        match self.layout.scheme {
            Layout::BLACK => false,
            Layout::TILE => i <= n.ilog2() && (i == 0 || ((g - 1) % n) & (n >> i) == 0),
            _ => true,
        }
    }

    /// Whether slot i is a value of day g.
    fn ends(&self, i: u32, g: u32) -> bool {
        match self.layout.scheme {
            Layout::BLACK => false,
            Layout::TILE => i <= self.layout.n.ilog2() && g.is_multiple_of(self.layout.n),
            _ => g.is_multiple_of(1 << i),
        }
    }

    /// How many bytes of the block count.
    fn fill(&self) -> usize {
        (self.bytes as usize + 1) % 64
    }

    fn hash<'a>(&mut self, blocks: &mut impl Iterator<Item = &'a [u8]>) -> u32 {
        let mut words = words_of(self.open);
        let mut count = 0;
        for block in blocks {
            compress(&mut words, block);
            count += 1;
        }
        self.open = value_of(words);
        count
    }

    /// The digest of the open day, and the blocks that end it.
    fn digest(&self) -> (Value, u32) {
        let mut day = self.clone();
        let mut end = self.block[..self.fill()].to_vec();
        end.push(0x80);
        while end.len() % 64 != 56 {
            end.push(0);
        }
        end.extend((8 * (u64::from(self.bytes) + 1)).to_be_bytes());
        let blocks = day.hash(&mut end.chunks_exact(64));
        (day.open, blocks)
    }
}

/// The words that a value's bytes are, the highest byte first.
fn words_of(value: Value) -> [u32; 8] {
    let mut words = [0; 8];
    for (word, bytes) in words.iter_mut().zip(value.chunks_exact(4)) {
        *word = u32::from_be_bytes(bytes.try_into().unwrap());
    }
    words
}

fn value_of(words: [u32; 8]) -> Value {
    let bytes = words.map(u32::to_be_bytes).concat();
    bytes.try_into().unwrap()
}

/// The words of a value with the lowest byte first, as a record has them.
pub fn turned(value: Value) -> Value {
    let bytes = words_of(value).map(u32::to_le_bytes).concat();
    bytes.try_into().unwrap()
}
