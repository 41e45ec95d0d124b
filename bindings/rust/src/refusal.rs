use std::error::Error;
use std::fmt;

/// Why a call was refused. A refused call changes nothing.
///
/// ```
/// use daybook::{Layout, Refusal, Service};
///
/// let refusal = Service::open(Layout::black(3, 1)).unwrap_err();
/// assert_eq!(refusal, Refusal::BadN);
/// assert_eq!(refusal.number(), 2);
/// assert_eq!(refusal.to_string(), "N is not a power of two from 1 to 256");
/// ```
#[derive(Clone, Copy, Debug, PartialEq, Eq, Hash)]
#[non_exhaustive]
#[repr(u32)]
pub enum Refusal {
    /// The scheme is not 1 to 3.
    BadScheme = 1,
    /// N is not a power of two from 1 to 256.
    BadN = 2,
    /// F is not 1 to 64, or not 1 under scheme 3.
    BadF = 3,
    /// The piece would take the day over [`DAY_LIMIT`](crate::DAY_LIMIT).
    DayTooLong = 4,
    /// The last season, [`LAST_SEASON`](crate::LAST_SEASON), is full. Every other full season is
    /// followed by the next, which an accepted add or close opens by itself.
    LastSeasonFull = 5,
    /// The record's scheme, N or F is not allowed, its days, bytes or season are over their limit,
    /// or it has bytes of an open day beside 65,536 closed days.
    BadRecord = 6,
    /// D is not 1 to 65,536 and a multiple of F·N.
    BadD = 7,
    /// A buffer to be written is shorter than its need.
    ShortBuffer = 8,
    /// There are fewer than D ends.
    FewEnds = 9,
    /// An end is below the one before, beyond the ledger, or makes a day over its limit.
    BadEnd = 10,
    /// The book has fewer than 32 bytes a value.
    ShortBook = 11,
    /// There are fewer outcomes than values.
    FewOutcomes = 12,
    /// One of the outcomes needed is neither 0 nor 1.
    BadOutcome = 13,
    /// No set of changed days gives the outcomes.
    ImpossibleTable = 14,
    /// There are fewer than D lengths of days.
    FewLengths = 16,
    /// One of the first D lengths is over [`DAY_LIMIT`](crate::DAY_LIMIT).
    LongDay = 17,
    /// The position is not below the number of values, or no chain of the book is the one given.
    NotInBook = 18,
    /// The day of the last passed check is not below D, or N does not divide it.
    BadPassed = 19,
    /// A search of a table whose scheme is not 3.
    NotTree = 20,
    /// Tile counts of N over 64, or of k that is 0 or over 3.
    NotCounted = 21,
}

impl Refusal {
    /// Every refusal, by number. 15 is one of the program `readtable` and of no call.
    pub const ALL: [Refusal; 20] = [
        Refusal::BadScheme,
        Refusal::BadN,
        Refusal::BadF,
        Refusal::DayTooLong,
        Refusal::LastSeasonFull,
        Refusal::BadRecord,
        Refusal::BadD,
        Refusal::ShortBuffer,
        Refusal::FewEnds,
        Refusal::BadEnd,
        Refusal::ShortBook,
        Refusal::FewOutcomes,
        Refusal::BadOutcome,
        Refusal::ImpossibleTable,
        Refusal::FewLengths,
        Refusal::LongDay,
        Refusal::NotInBook,
        Refusal::BadPassed,
        Refusal::NotTree,
        Refusal::NotCounted,
    ];

    /// The number of the cause: 1 to 14, or 16 to 21.
    #[must_use]
    pub const fn number(self) -> u32 {
        self as u32
    }

    /// The refusal of this number, if there is one.
    ///
    /// ```
    /// use daybook::Refusal;
    ///
    /// assert_eq!(Refusal::from_number(9), Some(Refusal::FewEnds));
    /// assert_eq!(Refusal::from_number(0), None);
    /// assert_eq!(Refusal::from_number(15), None);
    /// ```
    #[must_use]
    pub fn from_number(number: u32) -> Option<Refusal> {
        Refusal::ALL
            .into_iter()
            .find(|refusal| refusal.number() == number)
    }

    /// The answer of a call that returned this number.
    ///
    /// # Panics
    ///
    /// Where the archive gives a number that this crate does not know: the two do not belong together.
    pub(crate) fn answer(number: u32) -> Result<(), Refusal> {
        match (number, Refusal::from_number(number)) {
            (0, _) => Ok(()),
            (_, Some(refusal)) => Err(refusal),
            (_, None) => panic!("libdaybook_c.a gave the refusal {number}, unknown to this crate"),
        }
    }

    const fn message(self) -> &'static str {
        match self {
            Refusal::BadScheme => "the scheme is not 1, 2 or 3",
            Refusal::BadN => "N is not a power of two from 1 to 256",
            Refusal::BadF => "F is not from 1 to 64, or not 1 under scheme 3",
            Refusal::DayTooLong => "the piece would take the day over 16,777,216 bytes",
            Refusal::LastSeasonFull => "the last season, 65,535, is full",
            Refusal::BadRecord => {
                "the record's scheme, N, F, days, bytes or season is not allowed, or it has bytes \
                 beside 65,536 days"
            }
            Refusal::BadD => "D is not from 1 to 65,536 and a multiple of F times N",
            Refusal::ShortBuffer => "a buffer to be written is shorter than its need",
            Refusal::FewEnds => "there are fewer than D ends",
            Refusal::BadEnd => {
                "an end is below the one before, beyond the ledger, or makes a day over 16,777,216 bytes"
            }
            Refusal::ShortBook => "the book has fewer than 32 bytes for each value",
            Refusal::FewOutcomes => "there are fewer outcomes than values",
            Refusal::BadOutcome => "an outcome is neither 0 nor 1",
            Refusal::ImpossibleTable => "no set of changed days gives these outcomes",
            Refusal::FewLengths => "there are fewer than D lengths of days",
            Refusal::LongDay => "the length of a day is over 16,777,216 bytes",
            Refusal::NotInBook => "the book has no such position or chain",
            Refusal::BadPassed => {
                "the day of the last passed check is not below D, or N does not divide it"
            }
            Refusal::NotTree => "the scheme is not 3, and only tables of the tree are searched",
            Refusal::NotCounted => "N is over 64, or k is not 1, 2 or 3",
        }
    }
}

impl fmt::Display for Refusal {
    fn fmt(&self, out: &mut fmt::Formatter<'_>) -> fmt::Result {
        out.write_str(self.message())
    }
}

impl Error for Refusal {}

#[cfg(test)]
mod tests {
    use super::*;

    #[test]
    fn numbers_are_1_to_21_without_15() {
        let numbers: Vec<u32> = Refusal::ALL.into_iter().map(Refusal::number).collect();
        assert_eq!(numbers, (1..=14).chain(16..=21).collect::<Vec<u32>>());
    }

    #[test]
    fn number_and_back() {
        for refusal in Refusal::ALL {
            assert_eq!(Refusal::from_number(refusal.number()), Some(refusal));
            assert_eq!(Refusal::answer(refusal.number()), Err(refusal));
        }
        assert_eq!(Refusal::answer(0), Ok(()));
        for number in [0, 15, 22, u32::MAX] {
            assert_eq!(Refusal::from_number(number), None);
        }
    }

    #[test]
    fn messages_differ() {
        let messages: std::collections::BTreeSet<String> =
            Refusal::ALL.iter().map(Refusal::to_string).collect();
        assert_eq!(messages.len(), Refusal::ALL.len());
    }
}
