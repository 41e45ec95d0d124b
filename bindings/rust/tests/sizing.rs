//! Sizing a season: the forecast against the definitions, and against the blocks that add and close
//! count.

mod common;

use common::{chains, closing, day, days};
use daybook::{forecast, Layout, Refusal, Service, Sizes, DAY_LIMIT, PART, VALUE};

/// The blocks of a message of so many bytes, by its padding: a byte, zeros, the length in 8 bytes.
fn padded_blocks(length: u64) -> u64 {
    let mut padded = length + 1;
    while padded % 64 != 56 {
        padded += 1;
    }
    (padded + 8) / 64
}

/// The links of day g: the chains over it that close with its interval, or black and all 17 levels.
fn links(layout: Layout, g: u32) -> u64 {
    if layout.scheme == Layout::TREE {
        return 18;
    }
    let chains = closing(layout, g.next_multiple_of(layout.n));
    chains.iter().filter(|chain| chain.contains(&g)).count() as u64
}

/// The blocks of the days of these lengths, message by message.
fn blocks_by_definition(layout: Layout, lengths: &[u32]) -> u64 {
    let day_blocks = |(g, length): (u32, &u32)| {
        padded_blocks(1 + u64::from(*length)) + links(layout, g) * padded_blocks(65)
    };
    (1..).zip(lengths).map(day_blocks).sum()
}

fn lengths(days: &[Vec<u8>]) -> Vec<u32> {
    days.iter().map(|day| day.len() as u32).collect()
}

/// A service and what its accepted calls came to.
struct Counter {
    service: Service,
    sum: Sizes,
}

impl Counter {
    fn open(layout: Layout) -> Counter {
        Counter {
            service: Service::open(layout).unwrap(),
            sum: Sizes {
                values: 0,
                bytes: 0,
                blocks: 0,
            },
        }
    }

    /// Adds a piece. The blocks are those that it fills, the byte in front of the day included.
    fn add(&mut self, piece: &[u8]) {
        let before = 1 + self.service.open_bytes();
        let blocks = self.service.add(piece).unwrap();
        let after = 1 + self.service.open_bytes();
        assert_eq!(blocks, after / 64 - before / 64);
        self.sum.blocks += u64::from(blocks);
    }

    fn close(&mut self) {
        let closed = self.service.close(&mut [0; PART]).unwrap();
        self.sum.values += closed.values;
        self.sum.bytes += VALUE as u32 * closed.values;
        self.sum.blocks += u64::from(closed.blocks);
    }
}

#[test]
fn a_thousand_days() {
    let long = vec![0; DAY_LIMIT as usize + 1];
    for (layout, values, blocks) in [
        (Layout::black(8, 25), 125, 3_668),
        (Layout::tile(8, 25), 625, 8_668),
        (Layout::tree(8), 2_112, 37_668),
    ] {
        let lengths: Vec<u32> = (1..=1000).map(|g| 7 * g % 131).collect();
        let mut counter = Counter::open(layout);
        for g in 1..=1000 {
            for piece in day(g, lengths[g as usize - 1]).chunks(50) {
                counter.add(piece);
            }
            // refused, and counts nothing
            assert_eq!(counter.service.add(&long), Err(Refusal::DayTooLong));
            counter.close();
            if g.is_multiple_of(layout.f * layout.n) {
                assert_eq!(
                    forecast(layout, g, &lengths),
                    Ok(counter.sum),
                    "{layout}, D {g}"
                );
            }
        }
        let sizes = Sizes {
            values,
            bytes: 32 * values,
            blocks,
        };
        assert_eq!(counter.sum, sizes, "{layout}");
        assert_eq!(blocks_by_definition(layout, &lengths), blocks, "{layout}");
    }
}

#[test]
fn every_layout_of_few_days() {
    for n in [1, 2, 4, 8, 16] {
        for layout in [Layout::black(n, 3), Layout::tile(n, 3), Layout::tree(n)] {
            let d = 3 * n;
            let days = days(d);
            let lengths = lengths(&days);
            let mut counter = Counter::open(layout);
            for day in &days {
                counter.add(day);
                counter.close();
            }
            let values = chains(layout, d).len() as u32;
            let sizes = Sizes {
                values,
                bytes: 32 * values,
                blocks: blocks_by_definition(layout, &lengths),
            };
            assert_eq!(forecast(layout, d, &lengths), Ok(sizes), "{layout}");
            assert_eq!(counter.sum, sizes, "{layout}");
        }
    }
}

/// A day cut whole, after its first byte, in pieces of one block and about it, and, where it is short,
/// byte by byte.
fn cuttings(day: &[u8]) -> Vec<Vec<&[u8]>> {
    let (first, rest) = day.split_at(day.len().min(1));
    let mut cuttings = vec![vec![day], vec![first, rest]];
    cuttings.extend([63, 64, 65].map(|size| day.chunks(size).collect()));
    if day.len() < 1000 {
        cuttings.push(day.chunks(1).collect());
    }
    cuttings
}

/// The blocks of one day in pieces, with an empty piece before each of them or not.
fn blocks_of_pieces(layout: Layout, pieces: &[&[u8]], empty: bool) -> Sizes {
    let mut counter = Counter::open(layout);
    for piece in pieces {
        if empty {
            counter.add(&[]);
        }
        counter.add(piece);
    }
    counter.close();
    counter.sum
}

/// The lengths at which a day's blocks change, with these blocks by (b + 9)/64 rounded down, plus 1.
const EDGES: [(u32, u64); 10] = [
    (0, 1),
    (54, 1),
    (55, 2),
    (56, 2),
    (63, 2),
    (64, 2),
    (118, 2),
    (119, 3),
    (120, 3),
    (16_777_216, 262_145),
];

#[test]
fn any_cutting_takes_the_same_blocks() {
    let layouts = [
        (Layout::black(1, 1), 1, 1),
        (Layout::tile(1, 1), 2, 2),
        (Layout::tree(1), 1, 18),
    ];
    for (length, own) in EDGES {
        let day = day(1, length);
        for (layout, values, links) in layouts {
            let sizes = Sizes {
                values,
                bytes: 32 * values,
                blocks: own + 2 * links,
            };
            assert_eq!(forecast(layout, 1, &[length]), Ok(sizes));
            for pieces in cuttings(&day) {
                for empty in [false, true] {
                    let counted = blocks_of_pieces(layout, &pieces, empty);
                    let count = pieces.len();
                    assert_eq!(counted, sizes, "{layout}, {length} bytes, {count} pieces");
                }
            }
        }
    }
}

#[test]
fn a_block_counts_in_the_call_that_fills_it() {
    let mut service = Service::open(Layout::black(1, 1)).unwrap();
    let bytes = [7; 300];
    assert_eq!(service.add(&bytes[..62]), Ok(0));
    assert_eq!(service.add(&[]), Ok(0));
    assert_eq!(service.add(&bytes[..1]), Ok(1));
    assert_eq!(service.add(&bytes[..63]), Ok(0));
    assert_eq!(service.add(&bytes[..2]), Ok(1));
    assert_eq!(service.add(&bytes[..191]), Ok(3));
    // 319 bytes and the one in front are 5 blocks; the padding is a block of its own, the link two
    assert_eq!(service.close(&mut [0; PART]).unwrap().blocks, 3);
    let closed = forecast(Layout::black(1, 1), 1, &[319]).unwrap().blocks;
    assert_eq!(closed, 8);
    // what is added to the next day is not in it
    assert_eq!(service.add(&bytes), Ok(4));
    assert_eq!(service.close(&mut [0; PART]).unwrap().blocks, 3);
    let both = forecast(Layout::black(1, 1), 2, &[319, 300]).unwrap();
    assert_eq!(both.blocks, closed + 4 + 3);
}

/// 55 bytes and the one in front leave no room for the padding in their block.
#[test]
fn the_blocks_of_a_close() {
    for (length, blocks) in [(0, 3), (54, 3), (55, 4), (62, 4), (63, 3), (64, 3)] {
        let mut service = Service::open(Layout::black(1, 1)).unwrap();
        service.add(&day(1, length)).unwrap();
        let closed = service.close(&mut [0; PART]).unwrap();
        assert_eq!(closed.blocks, blocks, "{length} bytes");
    }
}

#[test]
fn the_longest_season() {
    let lengths = [DAY_LIMIT; 65_536];
    for (layout, values, blocks) in [
        // a link a day: 65,536 · (262,145 + 2)
        (Layout::black(1, 1), 65_536, 17_180_065_792),
        (Layout::black(256, 64), 256, 17_180_065_792),
        // black and c(0): 65,536 · (262,145 + 4)
        (Layout::tile(1, 1), 131_072, 17_180_196_864),
        // a tile of 256 days has 256 · 2 links, and of c(1) to c(8) each 128
        (Layout::tile(256, 64), 2_560, 17_180_721_152),
        // 65,536 · (262,145 + 36), whatever N
        (Layout::tree(1), 196_590, 17_182_294_016),
        (Layout::tree(256), 131_318, 17_182_294_016),
    ] {
        let sizes = Sizes {
            values,
            bytes: 32 * values,
            blocks,
        };
        assert_eq!(forecast(layout, 65_536, &lengths), Ok(sizes), "{layout}");
    }
}

#[test]
fn refusals_in_their_order() {
    let layout = Layout::tile(4, 2);
    let long = [u32::MAX; 7];
    let refused = |layout, d, lengths: &[u32]| forecast(layout, d, lengths).unwrap_err();
    let bad = |scheme, n, f| refused(Layout { scheme, n, f }, 3, &long);
    assert_eq!(bad(0, 3, 0), Refusal::BadScheme);
    assert_eq!(bad(4, 3, 0), Refusal::BadScheme);
    assert_eq!(bad(2, 3, 0), Refusal::BadN);
    assert_eq!(bad(2, 512, 65), Refusal::BadN);
    assert_eq!(bad(2, 4, 65), Refusal::BadF);
    assert_eq!(bad(3, 4, 2), Refusal::BadF);
    // 7 before 16 and 17
    for d in [0, 4, 12, 65_537, u32::MAX] {
        assert_eq!(refused(layout, d, &long), Refusal::BadD, "{d}");
    }
    // 16 before 17
    assert_eq!(refused(layout, 8, &long), Refusal::FewLengths);
    assert_eq!(refused(layout, 8, &[0; 7]), Refusal::FewLengths);
    assert_eq!(refused(layout, 8, &[]), Refusal::FewLengths);
    assert_eq!(refused(layout, 65_536, &[0; 65_535]), Refusal::FewLengths);
}

#[test]
fn long_days_among_the_first_d() {
    let layout = Layout::tile(4, 2);
    for length in [DAY_LIMIT + 1, u32::MAX] {
        for place in 0..16 {
            let mut lengths = [DAY_LIMIT; 16];
            lengths[place] = length;
            let first = forecast(layout, 8, &lengths);
            if place < 8 {
                assert_eq!(first, Err(Refusal::LongDay), "{place}");
            } else {
                // not looked at
                assert_eq!(first, forecast(layout, 8, &[DAY_LIMIT; 8]), "{place}");
            }
            assert_eq!(forecast(layout, 16, &lengths), Err(Refusal::LongDay));
        }
    }
}
