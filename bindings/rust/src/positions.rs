use crate::{ffi, Layout, Refusal};

/// The kind of a chain.
#[derive(Clone, Copy, Debug, PartialEq, Eq, Hash)]
#[repr(u32)]
pub enum Kind {
    /// Black: over all days so far.
    Black = 1,
    /// A chain of a tile, under scheme 2.
    Tile = 2,
    /// A chain of the tree, under scheme 3.
    Tree = 3,
}

impl Kind {
    /// Every kind, by number.
    pub const ALL: [Kind; 3] = [Kind::Black, Kind::Tile, Kind::Tree];

    /// The number of the kind: 1 black, 2 tile, 3 tree.
    #[must_use]
    pub const fn number(self) -> u32 {
        self as u32
    }

    /// The kind of this number, if there is one.
    ///
    /// ```
    /// use daybook::Kind;
    ///
    /// assert_eq!(Kind::from_number(3), Some(Kind::Tree));
    /// assert_eq!(Kind::from_number(0), None);
    /// ```
    #[must_use]
    pub fn from_number(number: u32) -> Option<Kind> {
        Kind::ALL.into_iter().find(|kind| kind.number() == number)
    }
}

/// A chain of a book, by what a letter says of it.
///
/// Any four can be put together. [`position_of`] refuses those that no chain of the book has.
#[derive(Clone, Copy, Debug, PartialEq, Eq, Hash)]
pub struct Chain {
    /// Black, tile or tree. A value that scheme 3 stores once, for black and for the tree, is tree.
    pub kind: Kind,
    /// i of the tile chain c(i), the level of the tree, 0 for black.
    pub index: u32,
    /// The first day that it covers.
    pub first: u32,
    /// The last day that it covers. A tile chain from c(1) on ends before its tile does, and from c(2)
    /// on it does not cover all days between the two.
    pub last: u32,
}

impl Chain {
    /// The four as numbers: that of the kind, index, first and last day.
    #[must_use]
    pub const fn numbers(self) -> [u32; 4] {
        [self.kind.number(), self.index, self.first, self.last]
    }
}

/// The chain at a position of the book of `d` days, counted from 0.
///
/// # Errors
///
/// Refusals 1 2 3 7 18, the first in this order.
///
/// ```
/// use daybook::{chain_at, Chain, Kind, Layout, Refusal};
///
/// let layout = Layout::tree(2);
/// let chain = Chain { kind: Kind::Tree, index: 2, first: 9, last: 12 };
/// assert_eq!(chain_at(layout, 16, 23), Ok(chain));
/// assert_eq!(chain_at(layout, 16, 35), Err(Refusal::NotInBook));
/// ```
pub fn chain_at(layout: Layout, d: u32, position: u32) -> Result<Chain, Refusal> {
    let mut chain = [0; 4];
    let setting = layout.setting();
    Refusal::answer(ffi::chain_at(setting, d, position, &mut chain))?;
    let [kind, index, first, last] = chain;
    Ok(Chain {
        kind: known(kind),
        index,
        first,
        last,
    })
}

/// The kind that the archive gives.
fn known(number: u32) -> Kind {
    match Kind::from_number(number) {
        Some(kind) => kind,
        None => panic!("libdaybook_c.a gave the kind {number}, unknown to this crate"),
    }
}

/// The position, counted from 0, of a chain in the book of `d` days. It undoes [`chain_at`].
///
/// # Errors
///
/// Refusals 1 2 3 7 18, the first in this order.
///
/// ```
/// use daybook::{position_of, Chain, Kind, Layout, Refusal};
///
/// let layout = Layout::tree(2);
/// let chain = Chain { kind: Kind::Tree, index: 2, first: 9, last: 12 };
/// assert_eq!(position_of(layout, 16, chain), Ok(23));
/// // day 8 is not in it
/// let wrong = Chain { first: 8, ..chain };
/// assert_eq!(position_of(layout, 16, wrong), Err(Refusal::NotInBook));
/// ```
pub fn position_of(layout: Layout, d: u32, chain: Chain) -> Result<u32, Refusal> {
    let four = chain.numbers();
    let mut position = [0];
    Refusal::answer(ffi::position_of(layout.setting(), d, &four, &mut position))?;
    Ok(position[0])
}

#[cfg(test)]
mod tests {
    use super::*;

    #[test]
    fn kinds_and_their_numbers() {
        assert_eq!(Kind::ALL.map(Kind::number), [1, 2, 3]);
        for kind in Kind::ALL {
            assert_eq!(Kind::from_number(kind.number()), Some(kind));
        }
        for number in [0, 4, u32::MAX] {
            assert_eq!(Kind::from_number(number), None);
        }
    }
}
