//! SHA-256 by the proved library: its check of one day writes that day's digest.

use daybook::{check, Layout, DAY_LIMIT, VALUE};

pub type Digest = [u8; VALUE];

/// The digest of a day of these bytes. What is longer than a day may be counts as the digests of its
/// pieces of that length, end to end.
pub fn digest(bytes: &[u8]) -> Digest {
    if bytes.len() <= DAY_LIMIT as usize {
        return day_digest(bytes);
    }
    let pieces = bytes.chunks(DAY_LIMIT as usize);
    digest(&pieces.flat_map(day_digest).collect::<Vec<u8>>())
}

fn day_digest(bytes: &[u8]) -> Digest {
    let mut digest = [0; VALUE];
    let ends = [bytes.len() as u32];
    let book = [0; VALUE];
    check(
        Layout::black(1, 1),
        1,
        bytes,
        &ends,
        &book,
        &mut digest,
        &mut [0],
    )
    .expect("one day within its limit is not refused");
    digest
}

pub fn hex(digest: &Digest) -> String {
    let halves = digest.iter().flat_map(|byte| [byte >> 4, byte & 15]);
    let digits = halves.map(|half| b"0123456789abcdef"[usize::from(half)]);
    digits.map(char::from).collect()
}

#[cfg(test)]
mod tests {
    use super::*;

    #[test]
    fn published_digests() {
        // SHA-256 of the byte 0; of 00 61 62 63
        assert_eq!(
            hex(&digest(b"")),
            "6e340b9cffb37a989ca544e6bb780a2c78901d3fb33738768511a30617afa01d"
        );
        assert_eq!(
            hex(&digest(b"abc")),
            "609f6e36d2405585188d5cfd761f407c7cc46a7d3f314c88270469dde315fcd1"
        );
    }

    #[test]
    fn longer_than_a_day() {
        let limit = DAY_LIMIT as usize;
        let bytes: Vec<u8> = (0..limit + 3).map(|at| (at % 251) as u8).collect();
        let digests = [day_digest(&bytes[..limit]), day_digest(&bytes[limit..])];
        assert_eq!(digest(&bytes), day_digest(&digests.concat()));
        assert_eq!(digest(&bytes[..limit]), digests[0]);
    }
}
