use crate::{ffi, values, Layout, Refusal};

/// The state of a search.
#[must_use]
#[derive(Clone, Copy, Debug, PartialEq, Eq, Hash)]
pub struct Progress {
    /// The chains looked at: the limit, or fewer where none was due any more.
    pub looked: u32,
    /// The altered days found.
    pub found: u32,
    /// The days under chains that are due and not looked at: the last ones up to D. The number of
    /// altered days lies between `found` and `found + undecided`.
    pub undecided: u32,
}

impl Progress {
    /// Whether no day is undecided. The days found are then those that [`read`](crate::read) lists.
    #[must_use]
    pub const fn is_finished(&self) -> bool {
        self.undecided == 0
    }
}

/// Searches a table of scheme 3 for its altered days, looking at no more than `limit` chains. Writes
/// the days found, ascending, to the front of `list`; the rest stays. The list must have `d` places,
/// whatever is found.
///
/// The largest chains over the days 1 to `d` are looked at from left to right. When one fails, its
/// left half and then its right half are dealt with fully before whatever follows; one that passes
/// needs no more. With limit 0 all days are undecided. A limit of 2·D is never reached.
///
/// Each call starts anew and tests the whole table, whatever the limit.
///
/// # Errors
///
/// Refusals 1 2 3 7 8 12 13 14 20, the first in this order; the list is then as it was.
///
/// ```
/// use daybook::{search, Layout, Progress, Refusal};
///
/// // four days, of which day 3 was altered
/// let outcomes = [1, 1, 1, 0, 1, 0, 0];
/// let mut list = [0; 4];
/// let begun = search(Layout::tree(4), 4, &outcomes, 2, &mut list)?;
/// assert_eq!(begun, Progress { looked: 2, found: 0, undecided: 2 });
/// let ended = search(Layout::tree(4), 4, &outcomes, 8, &mut list)?;
/// assert_eq!(ended, Progress { looked: 5, found: 1, undecided: 0 });
/// assert_eq!(list, [3, 0, 0, 0]);
/// # Ok::<(), Refusal>(())
/// ```
pub fn search(
    layout: Layout,
    d: u32,
    outcomes: &[u8],
    limit: u32,
    list: &mut [u32],
) -> Result<Progress, Refusal> {
    let mut progress = [0; 3];
    let setting = layout.setting();
    Refusal::answer(ffi::search(
        setting,
        d,
        outcomes,
        limit,
        list,
        &mut progress,
    ))?;
    let [looked, found, undecided] = progress;
    Ok(Progress {
        looked,
        found,
        undecided,
    })
}

/// Searches as [`search`] and gives the days found too.
///
/// # Errors
///
/// Refusals 1 2 3 7 12 13 14 20, the first in this order.
///
/// ```
/// use daybook::{search_to_vec, Layout, Refusal};
///
/// let (progress, days) = search_to_vec(Layout::tree(1), 2, &[1, 0, 0], 3)?;
/// assert!(progress.is_finished());
/// assert_eq!(days, [2]);
/// // a table of scheme 1 has no tree
/// let refused = search_to_vec(Layout::black(1, 1), 2, &[1, 0], 3);
/// assert_eq!(refused, Err(Refusal::NotTree));
/// # Ok::<(), Refusal>(())
/// ```
pub fn search_to_vec(
    layout: Layout,
    d: u32,
    outcomes: &[u8],
    limit: u32,
) -> Result<(Progress, Vec<u32>), Refusal> {
    values(layout, d)?;
    let mut list = vec![0; d as usize];
    let progress = search(layout, d, outcomes, limit, &mut list)?;
    list.truncate(progress.found as usize);
    Ok((progress, list))
}
