use crate::{ffi, Layout, Refusal};

/// What sealing a season takes.
#[must_use]
#[derive(Clone, Copy, Debug, PartialEq, Eq, Hash)]
pub struct Sizes {
    /// The values of the book.
    pub values: u32,
    /// The bytes of the book: [`VALUE`](crate::VALUE) for each value.
    pub bytes: u32,
    /// The SHA-256 blocks that the adds and closes of the days compress in all.
    pub blocks: u64,
}

/// Sizes a season of `d` days before it is sealed, from the lengths of its days in bytes. Nothing is
/// hashed, and lengths past the first `d` are not read.
///
/// The blocks are those that [`Service::add`](crate::Service::add) and
/// [`Service::close`](crate::Service::close) give for the days 1 to `d`, however these come in pieces:
/// a day of b bytes takes (b + 9)/64 rounded down, plus 1, and each link 2. A day is linked once under
/// scheme 1, to black and each tile chain that covers it under scheme 2, and to black and seventeen
/// levels under scheme 3.
///
/// # Errors
///
/// Refusals 1 2 3 7 16 17, the first in this order.
///
/// ```
/// use daybook::{forecast, Layout, Refusal, Sizes};
///
/// let layout = Layout::tile(4, 1);
/// // the days take 1, 1, 2 and 2 blocks; their 4, 3, 3 and 2 links take 24
/// assert_eq!(
///     forecast(layout, 4, &[0, 54, 55, 118]),
///     Ok(Sizes { values: 4, bytes: 128, blocks: 30 })
/// );
/// assert_eq!(forecast(layout, 4, &[0, 54, 55]), Err(Refusal::FewLengths));
/// assert_eq!(forecast(layout, 4, &[0, 54, 55, 16_777_217]), Err(Refusal::LongDay));
/// ```
pub fn forecast(layout: Layout, d: u32, lengths: &[u32]) -> Result<Sizes, Refusal> {
    let mut sizes = [0; 3];
    Refusal::answer(ffi::forecast(layout.setting(), d, lengths, &mut sizes))?;
    let [values, bytes, blocks] = sizes;
    Ok(Sizes {
        // no book has more than BOOK_LIMIT bytes
        values: values as u32,
        bytes: bytes as u32,
        blocks,
    })
}
