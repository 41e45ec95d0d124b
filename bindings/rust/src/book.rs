use crate::{ffi, Layout, Refusal, VALUE};

/// The number of values in the book of `d` days.
///
/// # Errors
///
/// Refusals 1 2 3 7, the first in this order.
///
/// ```
/// use daybook::{values, Layout, Refusal};
///
/// assert_eq!(values(Layout::tree(2), 16), Ok(35));
/// assert_eq!(values(Layout::tree(2), 15), Err(Refusal::BadD));
/// ```
pub fn values(layout: Layout, d: u32) -> Result<u32, Refusal> {
    let mut values = [0];
    Refusal::answer(ffi::values(layout.setting(), d, &mut values))?;
    Ok(values[0])
}

/// Seals the `d` days of a ledger: writes their book to the front of `book`; the rest stays.
///
/// `ends[d - 1]` is where day `d` ends in the ledger; day 1 starts at 0, every other day where the
/// one before ends. Only the first `d` ends are read, and the ledger up to the last of these.
///
/// # Errors
///
/// Refusals 1 2 3 7 9 10 8, the first in this order; the book is then as it was.
///
/// ```
/// use daybook::{seal, Layout, Refusal};
///
/// let mut book = [0; 64];
/// seal(Layout::black(1, 1), 2, b"ryeoats", &[3, 7], &mut book)?;
/// # Ok::<(), Refusal>(())
/// ```
pub fn seal(
    layout: Layout,
    d: u32,
    ledger: &[u8],
    ends: &[u32],
    book: &mut [u8],
) -> Result<(), Refusal> {
    Refusal::answer(ffi::seal(layout.setting(), d, ledger, ends, book))
}

/// Seals as [`seal`] and gives the book.
///
/// # Errors
///
/// Refusals 1 2 3 7 9 10, the first in this order.
pub fn seal_to_vec(
    layout: Layout,
    d: u32,
    ledger: &[u8],
    ends: &[u32],
) -> Result<Vec<u8>, Refusal> {
    let mut book = vec![0; VALUE * values(layout, d)? as usize];
    seal(layout, d, ledger, ends, &mut book)?;
    Ok(book)
}

/// Checks the `d` days of a ledger against a book.
///
/// The digest of each day goes to the front of `work`, 32 bytes each, and an outcome for each value,
/// in book order, to the front of `outcomes`: 1 pass, 0 fail. The rest of both stays. Only the first
/// `d` ends are read, the ledger up to the last of these, and the front of the book that `d` days
/// have.
///
/// # Errors
///
/// Refusals 1 2 3 7 9 10 11 8, the first in this order; both buffers are then as they were.
pub fn check(
    layout: Layout,
    d: u32,
    ledger: &[u8],
    ends: &[u32],
    book: &[u8],
    work: &mut [u8],
    outcomes: &mut [u8],
) -> Result<(), Refusal> {
    Refusal::answer(ffi::check(
        layout.setting(),
        d,
        ledger,
        ends,
        book,
        work,
        outcomes,
    ))
}

/// What a check found.
#[must_use]
#[derive(Clone, Debug, PartialEq, Eq)]
pub struct Checked {
    /// The digests of the days, [`VALUE`] bytes each.
    pub digests: Vec<u8>,
    /// An outcome for each value, in book order: 1 pass, 0 fail.
    pub outcomes: Vec<u8>,
}

/// Checks as [`check`] and gives digests and outcomes.
///
/// # Errors
///
/// Refusals 1 2 3 7 9 10 11, the first in this order.
///
/// ```
/// use daybook::{check_to_vecs, seal_to_vec, Layout, Refusal};
///
/// let layout = Layout::black(1, 1);
/// let book = seal_to_vec(layout, 2, b"ryeoats", &[3, 7])?;
/// let checked = check_to_vecs(layout, 2, b"ryeOats", &[3, 7], &book)?;
/// assert_eq!(checked.outcomes, [1, 0]); // day 1 passes, days 1 to 2 fail
/// # Ok::<(), Refusal>(())
/// ```
pub fn check_to_vecs(
    layout: Layout,
    d: u32,
    ledger: &[u8],
    ends: &[u32],
    book: &[u8],
) -> Result<Checked, Refusal> {
    let mut outcomes = vec![0; values(layout, d)? as usize];
    let mut digests = vec![0; VALUE * d as usize];
    check(layout, d, ledger, ends, book, &mut digests, &mut outcomes)?;
    Ok(Checked { digests, outcomes })
}

/// What a table of outcomes says.
#[must_use]
#[derive(Clone, Copy, Debug, PartialEq, Eq, Hash)]
pub enum Reading {
    /// No day was altered.
    Clean {
        /// D.
        last_good: u32,
    },
    /// Some of the listed days were altered.
    Changed {
        /// The number of days listed, at least 1.
        listed: u32,
        /// The first day listed.
        first: u32,
        /// The greater of the last day at which a check passed and the first day listed less 1.
        low: u32,
        /// D.
        high: u32,
        /// The last day whose black value passes, else 0.
        last_good: u32,
    },
}

impl Reading {
    /// Whether no day was altered.
    #[must_use]
    pub const fn is_clean(&self) -> bool {
        matches!(self, Reading::Clean { .. })
    }

    /// Listed, first listed, low, high, last good: 0, 0, 0, 0, D where clean.
    #[must_use]
    pub const fn numbers(&self) -> [u32; 5] {
        match *self {
            Reading::Clean { last_good } => [0, 0, 0, 0, last_good],
            Reading::Changed {
                listed,
                first,
                low,
                high,
                last_good,
            } => [listed, first, low, high, last_good],
        }
    }

    fn from_numbers([listed, first, low, high, last_good]: [u32; 5]) -> Reading {
        match listed {
            0 => Reading::Clean { last_good },
            _ => Reading::Changed {
                listed,
                first,
                low,
                high,
                last_good,
            },
        }
    }
}

/// The day of the validation before the one at `d`: D − F·N, 0 where there is none. As `passed` of
/// [`read`] it supposes that this validation was made and passed; it is always allowed there.
///
/// # Errors
///
/// Refusals 1 2 3 7, the first in this order.
///
/// ```
/// use daybook::{validation_before, Layout, Refusal};
///
/// assert_eq!(validation_before(Layout::tile(16, 2), 64), Ok(32));
/// assert_eq!(validation_before(Layout::tile(16, 2), 32), Ok(0));
/// assert_eq!(validation_before(Layout::tile(16, 2), 48), Err(Refusal::BadD));
/// ```
pub fn validation_before(layout: Layout, d: u32) -> Result<u32, Refusal> {
    values(layout, d)?;
    Ok(d - layout.f * layout.n)
}

/// Reads a table of outcomes: writes the days that may have been altered, ascending, to the front of
/// `list`; the rest stays. The list must have `d` places, whatever it lists.
///
/// `passed` is the last day at which a check really passed, 0 if none did: below `d`, and a multiple of
/// N, not necessarily of F·N. Low rests on it, and nothing else. [`validation_before`] gives the day
/// that it is where no validation was skipped.
///
/// # Errors
///
/// Refusals 1 2 3 7 19 8 12 13 14, the first in this order; the list is then as it was.
///
/// ```
/// use daybook::{read, Layout, Reading, Refusal};
///
/// let mut list = [0; 8];
/// let outcomes = [1, 1, 1, 1, 0, 0, 1, 0];
/// let reading = read(Layout::tile(4, 1), 8, 4, &outcomes, &mut list)?;
/// assert_eq!(
///     reading,
///     Reading::Changed { listed: 2, first: 6, low: 5, high: 8, last_good: 4 }
/// );
/// assert_eq!(list[..2], [6, 8]);
/// let refused = read(Layout::tile(4, 1), 8, 8, &outcomes, &mut list);
/// assert_eq!(refused, Err(Refusal::BadPassed));
/// # Ok::<(), Refusal>(())
/// ```
pub fn read(
    layout: Layout,
    d: u32,
    passed: u32,
    outcomes: &[u8],
    list: &mut [u32],
) -> Result<Reading, Refusal> {
    let mut numbers = [0; 5];
    let setting = layout.setting();
    Refusal::answer(ffi::read(setting, d, passed, outcomes, list, &mut numbers))?;
    Ok(Reading::from_numbers(numbers))
}

/// Reads as [`read`] and gives the listed days too.
///
/// # Errors
///
/// Refusals 1 2 3 7 19 12 13 14, the first in this order.
///
/// ```
/// use daybook::{read_to_vec, Layout, Reading, Refusal};
///
/// let (reading, days) = read_to_vec(Layout::tree(1), 2, 1, &[1, 0, 0])?;
/// assert!(!reading.is_clean());
/// assert_eq!(days, [2]);
/// let (reading, days) = read_to_vec(Layout::tree(1), 2, 1, &[1, 1, 1])?;
/// assert_eq!(reading, Reading::Clean { last_good: 2 });
/// assert_eq!(days, []);
/// # Ok::<(), Refusal>(())
/// ```
pub fn read_to_vec(
    layout: Layout,
    d: u32,
    passed: u32,
    outcomes: &[u8],
) -> Result<(Reading, Vec<u32>), Refusal> {
    values(layout, d)?;
    let mut list = vec![0; d as usize];
    let reading = read(layout, d, passed, outcomes, &mut list)?;
    list.truncate(reading.numbers()[0] as usize);
    Ok((reading, list))
}

#[cfg(test)]
mod tests {
    use super::*;

    #[test]
    fn numbers_and_back() {
        for numbers in [[0, 0, 0, 0, 64], [8, 19, 32, 64, 16]] {
            let reading = Reading::from_numbers(numbers);
            assert_eq!(reading.numbers(), numbers);
            assert_eq!(reading.is_clean(), numbers[0] == 0);
        }
    }
}
