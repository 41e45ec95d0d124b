//! The calls of `libdaybook_c.a` (`include/daybook.h`), on slices. All unsafe code is here.
//!
//! Each function returns 0, or the number of the refusal. Every pointer comes from a slice or an
//! array, with that slice's length, so it is valid for it; one that is written comes from a `&mut`,
//! so nothing else overlaps it or touches it until the call returns.

use crate::RECORD;

mod c {
    extern "C" {
        pub fn daybook_open(scheme: u32, n: u32, f: u32, record: *mut u8) -> u32;
        pub fn daybook_add(
            record: *mut u8,
            piece: *const u8,
            piece_len: usize,
            blocks: *mut u32,
        ) -> u32;
        pub fn daybook_close(
            record: *mut u8,
            part: *mut u8,
            part_len: usize,
            values: *mut u32,
            blocks: *mut u32,
        ) -> u32;
        pub fn daybook_seal(
            scheme: u32,
            n: u32,
            f: u32,
            d: u32,
            ledger: *const u8,
            ledger_len: usize,
            ends: *const u32,
            ends_len: usize,
            book: *mut u8,
            book_len: usize,
        ) -> u32;
        pub fn daybook_check(
            scheme: u32,
            n: u32,
            f: u32,
            d: u32,
            ledger: *const u8,
            ledger_len: usize,
            ends: *const u32,
            ends_len: usize,
            book: *const u8,
            book_len: usize,
            work: *mut u8,
            work_len: usize,
            outcomes: *mut u8,
            outcomes_len: usize,
        ) -> u32;
        pub fn daybook_read(
            scheme: u32,
            n: u32,
            f: u32,
            d: u32,
            passed: u32,
            outcomes: *const u8,
            outcomes_len: usize,
            list: *mut u32,
            list_len: usize,
            numbers: *mut u32,
        ) -> u32;
        pub fn daybook_search(
            scheme: u32,
            n: u32,
            f: u32,
            d: u32,
            outcomes: *const u8,
            outcomes_len: usize,
            limit: u32,
            list: *mut u32,
            list_len: usize,
            progress: *mut u32,
        ) -> u32;
        pub fn daybook_values(scheme: u32, n: u32, f: u32, d: u32, values: *mut u32) -> u32;
        pub fn daybook_record_values(record: *const u8, values: *mut u32) -> u32;
        pub fn daybook_forecast(
            scheme: u32,
            n: u32,
            f: u32,
            d: u32,
            lengths: *const u32,
            lengths_len: usize,
            sizes: *mut u64,
        ) -> u32;
        pub fn daybook_chain_at(
            scheme: u32,
            n: u32,
            f: u32,
            d: u32,
            position: u32,
            chain: *mut u32,
        ) -> u32;
        pub fn daybook_position_of(
            scheme: u32,
            n: u32,
            f: u32,
            d: u32,
            chain: *const u32,
            position: *mut u32,
        ) -> u32;
        pub fn daybook_tile_counts(n: u32, k: u32, counts: *mut u32) -> u32;
        pub fn daybook_version() -> u32;
    }
}

/// Scheme, N and F.
pub type Setting = (u32, u32, u32);

pub fn open((scheme, n, f): Setting, record: &mut [u8; RECORD]) -> u32 {
    // SAFETY: see above; the record has RECORD bytes.
    unsafe { c::daybook_open(scheme, n, f, record.as_mut_ptr()) }
}

pub fn add(record: &mut [u8; RECORD], piece: &[u8], blocks: &mut [u32; 1]) -> u32 {
    // SAFETY: see above; the record has RECORD bytes, blocks one place.
    unsafe {
        c::daybook_add(
            record.as_mut_ptr(),
            piece.as_ptr(),
            piece.len(),
            blocks.as_mut_ptr(),
        )
    }
}

pub fn close(
    record: &mut [u8; RECORD],
    part: &mut [u8],
    values: &mut [u32; 1],
    blocks: &mut [u32; 1],
) -> u32 {
    // SAFETY: see above; the record has RECORD bytes, values and blocks one place each.
    unsafe {
        c::daybook_close(
            record.as_mut_ptr(),
            part.as_mut_ptr(),
            part.len(),
            values.as_mut_ptr(),
            blocks.as_mut_ptr(),
        )
    }
}

pub fn seal((scheme, n, f): Setting, d: u32, ledger: &[u8], ends: &[u32], book: &mut [u8]) -> u32 {
    // SAFETY: see above.
    unsafe {
        c::daybook_seal(
            scheme,
            n,
            f,
            d,
            ledger.as_ptr(),
            ledger.len(),
            ends.as_ptr(),
            ends.len(),
            book.as_mut_ptr(),
            book.len(),
        )
    }
}

pub fn check(
    (scheme, n, f): Setting,
    d: u32,
    ledger: &[u8],
    ends: &[u32],
    book: &[u8],
    work: &mut [u8],
    outcomes: &mut [u8],
) -> u32 {
    // SAFETY: see above.
    unsafe {
        c::daybook_check(
            scheme,
            n,
            f,
            d,
            ledger.as_ptr(),
            ledger.len(),
            ends.as_ptr(),
            ends.len(),
            book.as_ptr(),
            book.len(),
            work.as_mut_ptr(),
            work.len(),
            outcomes.as_mut_ptr(),
            outcomes.len(),
        )
    }
}

pub fn read(
    (scheme, n, f): Setting,
    d: u32,
    passed: u32,
    outcomes: &[u8],
    list: &mut [u32],
    numbers: &mut [u32; 5],
) -> u32 {
    // SAFETY: see above; numbers has five places.
    unsafe {
        c::daybook_read(
            scheme,
            n,
            f,
            d,
            passed,
            outcomes.as_ptr(),
            outcomes.len(),
            list.as_mut_ptr(),
            list.len(),
            numbers.as_mut_ptr(),
        )
    }
}

pub fn search(
    (scheme, n, f): Setting,
    d: u32,
    outcomes: &[u8],
    limit: u32,
    list: &mut [u32],
    progress: &mut [u32; 3],
) -> u32 {
    // SAFETY: see above; progress has three places.
    unsafe {
        c::daybook_search(
            scheme,
            n,
            f,
            d,
            outcomes.as_ptr(),
            outcomes.len(),
            limit,
            list.as_mut_ptr(),
            list.len(),
            progress.as_mut_ptr(),
        )
    }
}

pub fn values((scheme, n, f): Setting, d: u32, values: &mut [u32; 1]) -> u32 {
    // SAFETY: see above; values has one place.
    unsafe { c::daybook_values(scheme, n, f, d, values.as_mut_ptr()) }
}

pub fn record_values(record: &[u8; RECORD], values: &mut [u32; 1]) -> u32 {
    // SAFETY: `record` has RECORD elements, `values` has 1.
    unsafe { c::daybook_record_values(record.as_ptr(), values.as_mut_ptr()) }
}

pub fn forecast((scheme, n, f): Setting, d: u32, lengths: &[u32], sizes: &mut [u64; 3]) -> u32 {
    // SAFETY: see above; sizes has three places.
    unsafe {
        c::daybook_forecast(
            scheme,
            n,
            f,
            d,
            lengths.as_ptr(),
            lengths.len(),
            sizes.as_mut_ptr(),
        )
    }
}

pub fn chain_at((scheme, n, f): Setting, d: u32, position: u32, chain: &mut [u32; 4]) -> u32 {
    // SAFETY: see above; chain has four places.
    unsafe { c::daybook_chain_at(scheme, n, f, d, position, chain.as_mut_ptr()) }
}

pub fn position_of(
    (scheme, n, f): Setting,
    d: u32,
    chain: &[u32; 4],
    position: &mut [u32; 1],
) -> u32 {
    // SAFETY: see above; chain has four places, position one.
    unsafe { c::daybook_position_of(scheme, n, f, d, chain.as_ptr(), position.as_mut_ptr()) }
}

pub fn tile_counts(n: u32, k: u32, counts: &mut [u32; 2]) -> u32 {
    // SAFETY: see above; counts has two places.
    unsafe { c::daybook_tile_counts(n, k, counts.as_mut_ptr()) }
}

pub fn version() -> u32 {
    // SAFETY: it takes no pointer.
    unsafe { c::daybook_version() }
}

#[cfg(test)]
mod tests {
    use super::*;
    use crate::DAY_LIMIT;

    /// The record of an open service under scheme 2, N 1, F 1.
    fn opened() -> [u8; RECORD] {
        let mut record = [0; RECORD];
        assert_eq!(open((2, 1, 1), &mut record), 0);
        record
    }

    #[test]
    fn a_refused_open_writes_zeros() {
        for (number, setting) in [(1, (4, 0, 0)), (2, (1, 3, 0)), (3, (3, 1, 2))] {
            let mut record = [77; RECORD];
            assert_eq!(open(setting, &mut record), number);
            assert_eq!(record, [0; RECORD]);
        }
    }

    /// The same with all days of a season closed.
    fn full(season: u32) -> [u8; RECORD] {
        let mut record = opened();
        record[12..16].copy_from_slice(&65_536u32.to_le_bytes());
        record[724..].copy_from_slice(&season.to_le_bytes());
        record
    }

    #[test]
    fn a_refused_add_leaves_record_and_blocks() {
        let long = vec![0; DAY_LIMIT as usize + 1];
        for (number, kept, piece) in [
            (6, [0; RECORD], &long[..1]),
            (6, full(65_536), &long[..]),
            (5, full(65_535), &long[..]),
            (4, full(65_534), &long[..]),
            (4, full(0), &long[..]),
            (4, opened(), &long[..]),
        ] {
            let (mut record, mut blocks) = (kept, [77]);
            assert_eq!(add(&mut record, piece, &mut blocks), number);
            assert_eq!((record, blocks), (kept, [77]));
        }
    }

    #[test]
    fn a_refused_close_leaves_every_array() {
        for (number, kept) in [
            (6, [0; RECORD]),
            (6, full(65_536)),
            (5, full(65_535)),
            (8, full(65_534)),
            (8, full(0)),
            (8, opened()),
        ] {
            let (mut record, mut part) = (kept, [170; 63]);
            let (mut values, mut blocks) = ([77], [78]);
            let answer = close(&mut record, &mut part, &mut values, &mut blocks);
            assert_eq!(answer, number);
            assert_eq!((record, part), (kept, [170; 63]));
            assert_eq!((values, blocks), ([77], [78]));
        }
    }

    #[test]
    fn a_refused_forecast_leaves_the_sizes() {
        let long = [DAY_LIMIT, DAY_LIMIT + 1];
        for (number, setting, d) in [
            (1, (0, 0, 0), 0),
            (2, (1, 0, 0), 0),
            (3, (1, 1, 0), 0),
            (7, (1, 1, 1), 0),
            (16, (1, 1, 1), 3),
            (17, (1, 1, 1), 2),
        ] {
            let mut sizes = [77, 78, 79];
            assert_eq!(forecast(setting, d, &long, &mut sizes), number);
            assert_eq!(sizes, [77, 78, 79]);
        }
        let mut sizes = [77, 78, 79];
        assert_eq!(forecast((1, 1, 1), 1, &long, &mut sizes), 0);
        // 16,777,225 / 64 rounded down, plus 1, and one link
        assert_eq!(sizes, [1, 32, 262_147]);
    }

    #[test]
    fn a_refused_search_leaves_list_and_progress() {
        // with five outcomes: four days under N 4 have seven, three under N 1 five
        for (number, setting, d, table) in [
            (1, (0, 0, 0), 0, [2; 5]),
            (2, (3, 0, 0), 0, [2; 5]),
            (3, (3, 1, 2), 0, [2; 5]),
            (7, (3, 1, 1), 0, [2; 5]),
            (8, (3, 1, 1), 5, [2; 5]),
            (12, (3, 4, 1), 4, [2; 5]),
            (13, (3, 1, 1), 3, [1, 1, 0, 1, 2]),
            (14, (3, 1, 1), 3, [1, 1, 0, 1, 1]),
            (20, (1, 1, 1), 3, [1, 1, 0, 1, 1]),
        ] {
            for limit in [0, 1, u32::MAX] {
                let (mut list, mut progress) = ([66; 4], [77, 78, 79]);
                let answer = search(setting, d, &table, limit, &mut list, &mut progress);
                assert_eq!(answer, number);
                assert_eq!((list, progress), ([66; 4], [77, 78, 79]));
            }
        }
        let (mut list, mut progress) = ([66; 4], [77, 78, 79]);
        let table = [1, 0, 0, 1, 0];
        let answer = search((3, 1, 1), 3, &table, 4, &mut list, &mut progress);
        assert_eq!(answer, 0);
        assert_eq!((list, progress), ([2, 66, 66, 66], [4, 1, 0]));
    }

    #[test]
    fn refused_tile_counts_leave_the_counts() {
        for (number, n, k) in [
            (2, 0, 0),
            (2, 0, 1),
            (2, 3, 1),
            (2, 3, 4),
            (2, 512, 1),
            (2, 512, 0),
            (2, u32::MAX, u32::MAX),
            (21, 128, 1),
            (21, 256, 3),
            (21, 256, 0),
            (21, 1, 0),
            (21, 4, 0),
            (21, 4, 4),
            (21, 64, u32::MAX),
        ] {
            let mut counts = [77, 78];
            assert_eq!(tile_counts(n, k, &mut counts), number, "N {n}, k {k}");
            assert_eq!(counts, [77, 78], "N {n}, k {k}");
        }
        // the two places and none beside them
        for (n, k, counted) in [(4, 1, [4, 9]), (64, 3, [41_664, 1_839_856]), (2, 3, [0, 0])] {
            let mut places = [[76, 77], [78, 79], [80, 81]];
            assert_eq!(tile_counts(n, k, &mut places[1]), 0);
            assert_eq!(places, [[76, 77], counted, [80, 81]]);
        }
    }

    /// Settings and D that are refused, and those of a book of 35 values.
    const LOCATED: [(u32, Setting, u32); 5] = [
        (1, (0, 0, 0), 0),
        (2, (1, 0, 0), 0),
        (3, (1, 1, 0), 0),
        (7, (3, 2, 1), 15),
        (18, (3, 2, 1), 16),
    ];

    #[test]
    fn a_refused_position_leaves_the_chain() {
        for (number, setting, d) in LOCATED {
            for position in [35, 36, 1 << 31, u32::MAX] {
                let mut chain = [77, 78, 79, 80];
                assert_eq!(chain_at(setting, d, position, &mut chain), number);
                assert_eq!(chain, [77, 78, 79, 80]);
            }
        }
        let mut chain = [77, 78, 79, 80];
        assert_eq!(chain_at((3, 2, 1), 16, 34, &mut chain), 0);
        assert_eq!(chain, [3, 4, 1, 16]);
    }

    #[test]
    fn a_refused_chain_leaves_the_position() {
        // the kind any number, all numbers as high as can be, and black that is stored once
        for (number, setting, d) in LOCATED {
            for chain in [
                [0, 4, 1, 16],
                [4, 4, 1, 16],
                [u32::MAX, 4, 1, 16],
                [1, u32::MAX, 1, 12],
                [2, 0, u32::MAX, u32::MAX],
                [2, u32::MAX, u32::MAX, 0],
                [3, u32::MAX, u32::MAX, u32::MAX],
                [3, 32, 1, 16],
                [1, 0, 1, 16],
                [0, 0, 0, 0],
            ] {
                let (given, mut position) = (chain, [77]);
                assert_eq!(position_of(setting, d, &given, &mut position), number);
                assert_eq!((given, position), (chain, [77]));
            }
        }
        let mut position = [77];
        assert_eq!(position_of((3, 2, 1), 16, &[3, 4, 1, 16], &mut position), 0);
        assert_eq!(position, [34]);
    }
}
