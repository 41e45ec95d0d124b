use crate::{ffi, Refusal};

/// How vague a tile is, as two counts over all sets of k of its days.
#[must_use]
#[derive(Clone, Copy, Debug, PartialEq, Eq, Hash)]
pub struct TileCounts {
    /// The sets of k different days of the tile; 0 where N is below k.
    pub sets: u32,
    /// The days that [`read`](crate::read) lists, added up over all these sets.
    pub listed: u32,
}

/// Counts how vague one tile of `n` days is under scheme 2, if `k` of its days were altered, over all sets
/// of `k` different days. The tile stands by itself: F is 1 and D is N. Where `n` is below `k` there is no
/// such set, and both counts are 0.
///
/// # Errors
///
/// Refusals 2 21, the first in this order: N is a power of two from 1 to 256, and counted up to 64; k is
/// 1, 2 or 3.
///
/// ```
/// use daybook::{tile_counts, Refusal, TileCounts};
///
/// // of four days one is altered: the list has 4, 2, 2 or 1 of them, by its place
/// assert_eq!(tile_counts(4, 1), Ok(TileCounts { sets: 4, listed: 9 }));
/// assert_eq!(tile_counts(4, 2), Ok(TileCounts { sets: 6, listed: 20 }));
/// assert_eq!(tile_counts(1, 2), Ok(TileCounts { sets: 0, listed: 0 }));
/// assert_eq!(tile_counts(3, 4), Err(Refusal::BadN));
/// assert_eq!(tile_counts(128, 1), Err(Refusal::NotCounted));
/// assert_eq!(tile_counts(4, 4), Err(Refusal::NotCounted));
/// ```
pub fn tile_counts(n: u32, k: u32) -> Result<TileCounts, Refusal> {
    let mut counts = [0; 2];
    Refusal::answer(ffi::tile_counts(n, k, &mut counts))?;
    let [sets, listed] = counts;
    Ok(TileCounts { sets, listed })
}
