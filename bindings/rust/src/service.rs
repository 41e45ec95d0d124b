use std::fmt;

use crate::{ffi, Layout, NotARecord, Refusal, PART, RECORD, RECORD_WITHOUT_SEASON, VALUE};

/// The service: days are added in pieces and closed, and each close gives the day's values.
///
/// It is nothing but its record of [`RECORD`] bytes, which can be kept on disk between two runs.
///
/// ```
/// use daybook::{Layout, Refusal, Service};
///
/// let mut service = Service::open(Layout::black(2, 1))?;
/// service.add(b"rye 12")?;
/// service.add(b" oats 7")?;
/// assert_eq!(service.open_bytes(), 13);
/// assert_eq!(service.close_day()?, []); // N is 2: day 1 has no value
/// service.add(b"wheat 40")?;
/// assert_eq!(service.close_day()?.len(), 32); // day 2 has one value
/// assert_eq!(service.days(), 2);
/// # Ok::<(), Refusal>(())
/// ```
///
/// # Seasons
///
/// A season has 65,536 days and a book of its own; seasons count from 0 to 65,535. When the last day
/// of a season has been closed, the next add or close that is accepted opens the next season, at day 1
/// with fresh chains. The values that a close gives belong to the book of [`Service::season`] as it is
/// *after* the call:
///
/// ```
/// use daybook::{Layout, Refusal, Service};
///
/// let mut service = Service::open(Layout::black(1, 1))?;
/// let mut books = vec![Vec::new()];
/// for _ in 0..65_538 {
///     let values = service.close_day()?;
///     books.resize(service.season() as usize + 1, Vec::new());
///     books[service.season() as usize].extend(values);
/// }
/// assert_eq!((service.season(), service.days()), (1, 2));
/// assert_eq!(books[0].len(), 32 * 65_536);
/// assert_eq!(books[1].len(), 32 * 2);
/// assert_eq!(books[1], books[0][..64]); // the same empty days, from the same start
/// # Ok::<(), Refusal>(())
/// ```
#[derive(Clone, PartialEq, Eq)]
pub struct Service {
    record: [u8; RECORD],
}

impl Service {
    /// Opens a service at day 1 of season 0.
    ///
    /// # Errors
    ///
    /// Refusals 1 2 3, the first in this order.
    pub fn open(layout: Layout) -> Result<Service, Refusal> {
        let mut record = [0; RECORD];
        Refusal::answer(ffi::open(layout.setting(), &mut record))?;
        Ok(Service { record })
    }

    /// Adds a piece to the open day; it may be empty. Gives the SHA-256 blocks that this compressed:
    /// those that the piece filled.
    ///
    /// Where the season is full the piece goes to day 1 of the next one, and an empty piece opens
    /// that season too. [`Service::season`] after the call tells.
    ///
    /// # Errors
    ///
    /// Refusals 6 5 4, the first in this order; the service is then as it was, its season too.
    ///
    /// ```
    /// use daybook::{Layout, Refusal, Service};
    ///
    /// let mut service = Service::open(Layout::black(1, 1))?;
    /// assert_eq!(service.add(&[0; 62]), Ok(0)); // with the byte in front of a day 63 of 64
    /// assert_eq!(service.add(&[0; 1]), Ok(1));
    /// # Ok::<(), Refusal>(())
    /// ```
    pub fn add(&mut self, piece: &[u8]) -> Result<u32, Refusal> {
        let mut blocks = [0];
        Refusal::answer(ffi::add(&mut self.record, piece, &mut blocks))?;
        Ok(blocks[0])
    }

    /// Closes the open day, writes its values to the front of `part`, gives their number and the
    /// blocks compressed, and opens the next day. [`PART`] bytes are always enough.
    ///
    /// The values belong to the book of [`Service::season`] as it is after the call: where the season
    /// was full, day 1 of the next one has been closed, an empty day.
    ///
    /// # Errors
    ///
    /// Refusals 6 5 8, the first in this order; service and part are then as they were.
    ///
    /// ```
    /// use daybook::{Closed, Layout, Refusal, Service};
    ///
    /// let mut service = Service::open(Layout::tile(1, 1))?;
    /// assert_eq!(service.close(&mut [0; 63]), Err(Refusal::ShortBuffer)); // 2 values need 64
    /// assert_eq!(service.days(), 0);
    /// // the empty day takes 1 block, each of its 2 links 2
    /// assert_eq!(service.close(&mut [0; 64]), Ok(Closed { values: 2, blocks: 5 }));
    /// assert_eq!(service.days(), 1);
    /// # Ok::<(), Refusal>(())
    /// ```
    #[must_use = "the number of values at the front of the part"]
    pub fn close(&mut self, part: &mut [u8]) -> Result<Closed, Refusal> {
        let (mut values, mut blocks) = ([0], [0]);
        Refusal::answer(ffi::close(&mut self.record, part, &mut values, &mut blocks))?;
        Ok(Closed {
            values: values[0],
            blocks: blocks[0],
        })
    }

    /// Closes the open day and gives its values, [`VALUE`] bytes each. They belong to the book of
    /// [`Service::season`] as it is after the call.
    ///
    /// # Errors
    ///
    /// Refusals 6 5, the first in this order; the service is then as it was.
    #[must_use = "the values belong into the book, and cannot be had again"]
    pub fn close_day(&mut self) -> Result<Vec<u8>, Refusal> {
        let mut part = [0; PART];
        let closed = self.close(&mut part)?;
        Ok(part[..VALUE * closed.values as usize].to_vec())
    }

    /// The record, to be kept.
    ///
    /// ```
    /// use daybook::{Layout, Refusal, Service};
    ///
    /// let mut service = Service::open(Layout::tree(4))?;
    /// service.add(b"begun in one run, ")?;
    /// let kept = service.to_bytes();
    ///
    /// let mut service = Service::from_bytes(kept);
    /// service.add(b"ended in the next")?;
    /// service.close_day()?;
    /// # Ok::<(), Refusal>(())
    /// ```
    #[must_use]
    pub fn to_bytes(&self) -> [u8; RECORD] {
        self.record
    }

    /// The service of a record. Every array is taken: if the service cannot go on from it, the next
    /// call is refused with [`Refusal::BadRecord`].
    ///
    /// ```
    /// use daybook::{Refusal, Service, RECORD};
    ///
    /// let mut service = Service::from_bytes([0; RECORD]);
    /// assert_eq!(service.add(b""), Err(Refusal::BadRecord));
    /// ```
    #[must_use]
    pub fn from_bytes(record: [u8; RECORD]) -> Service {
        Service { record }
    }

    /// The service of a record that was kept, whatever its length. One of version 0.8, which has
    /// [`RECORD_WITHOUT_SEASON`] bytes, is of season 0.
    ///
    /// # Errors
    ///
    /// [`NotARecord`] where these are as many bytes as neither has. Of a record of before version
    /// 0.8.0 it says that its days are to be sealed again.
    ///
    /// ```
    /// use daybook::{Layout, Refusal, Service};
    ///
    /// let service = Service::open(Layout::tree(4))?;
    /// assert_eq!(Service::from_slice(&service.to_bytes()), Ok(service.clone()));
    /// assert_eq!(Service::from_slice(&service.to_bytes()[..724]), Ok(service));
    /// assert_eq!(
    ///     Service::from_slice(&[0; 692]).unwrap_err().to_string(),
    ///     "this is the record of an earlier version, of 692 bytes: seal its days again"
    /// );
    /// assert_eq!(
    ///     Service::from_slice(b"rye").unwrap_err().to_string(),
    ///     "a record has 728 bytes, and this has 3"
    /// );
    /// # Ok::<(), Refusal>(())
    /// ```
    pub fn from_slice(record: &[u8]) -> Result<Service, NotARecord> {
        let length = record.len();
        if length != RECORD && length != RECORD_WITHOUT_SEASON {
            return Err(NotARecord { length });
        }
        let mut bytes = [0; RECORD];
        bytes[..length].copy_from_slice(record);
        Ok(Service { record: bytes })
    }

    /// The layout that the record names.
    #[must_use]
    pub fn layout(&self) -> Layout {
        Layout {
            scheme: self.scheme(),
            n: self.n(),
            f: self.f(),
        }
    }

    /// The record's scheme.
    #[must_use]
    pub fn scheme(&self) -> u32 {
        self.number_at(0)
    }

    /// The record's N.
    #[must_use]
    pub fn n(&self) -> u32 {
        self.number_at(4)
    }

    /// The record's F.
    #[must_use]
    pub fn f(&self) -> u32 {
        self.number_at(8)
    }

    /// The season that the record is of. That of a full season stays until the next accepted add or
    /// close.
    #[must_use]
    pub fn season(&self) -> u32 {
        self.number_at(724)
    }

    /// The number of days closed in the season.
    #[must_use]
    pub fn days(&self) -> u32 {
        self.number_at(12)
    }

    /// The number of bytes in the open day.
    #[must_use]
    pub fn open_bytes(&self) -> u32 {
        self.number_at(16)
    }

    /// The number of values of the days closed in the season: what its closes have written so far.
    ///
    /// # Errors
    ///
    /// [`Refusal::BadRecord`], as for [`Service::add`].
    ///
    /// ```
    /// use daybook::{Layout, Refusal, Service};
    ///
    /// let mut service = Service::open(Layout::tree(4))?;
    /// for _ in 0..3 {
    ///     service.close_day()?;
    /// }
    /// assert_eq!(service.values(), Ok(4)); // days 1, 2 and 3 have 1, 2 and 1
    /// # Ok::<(), Refusal>(())
    /// ```
    pub fn values(&self) -> Result<u32, Refusal> {
        let mut values = [0];
        Refusal::answer(ffi::record_values(&self.record, &mut values))?;
        Ok(values[0])
    }

    /// The 32 bits at this place of the record, little-endian.
    fn number_at(&self, at: usize) -> u32 {
        let mut bytes = [0; 4];
        bytes.copy_from_slice(&self.record[at..at + 4]);
        u32::from_le_bytes(bytes)
    }
}

/// What the close of a day gives.
#[must_use]
#[derive(Clone, Copy, Debug, PartialEq, Eq, Hash)]
pub struct Closed {
    /// The number of values at the front of the part.
    pub values: u32,
    /// The SHA-256 blocks that the close compressed: those that end the day, and those of its links.
    pub blocks: u32,
}

impl fmt::Debug for Service {
    fn fmt(&self, out: &mut fmt::Formatter<'_>) -> fmt::Result {
        out.debug_struct("Service")
            .field("layout", &self.layout())
            .field("season", &self.season())
            .field("days", &self.days())
            .field("open_bytes", &self.open_bytes())
            .finish_non_exhaustive()
    }
}

#[cfg(test)]
mod tests {
    use super::*;

    #[test]
    fn numbers_by_their_offsets() {
        let mut record = [0; RECORD];
        for (place, byte) in record.iter_mut().enumerate() {
            *byte = place as u8;
        }
        let service = Service::from_bytes(record);
        assert_eq!(service.scheme(), 0x0302_0100);
        assert_eq!(service.n(), 0x0706_0504);
        assert_eq!(service.f(), 0x0b0a_0908);
        assert_eq!(service.days(), 0x0f0e_0d0c);
        assert_eq!(service.open_bytes(), 0x1312_1110);
        // 724 is 2 times 256 and d4 hex
        assert_eq!(service.season(), 0xd7d6_d5d4);
        assert_eq!(service.to_bytes(), record);
    }

    #[test]
    fn shown_with_its_season() {
        let service = Service::open(Layout::tree(4)).unwrap();
        let text = format!("{service:?}");
        assert!(text.contains("season: 0, days: 0, open_bytes: 0"), "{text}");
    }
}
