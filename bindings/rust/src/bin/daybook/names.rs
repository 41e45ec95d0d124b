//! The names of the days: as fields of a line, in order, and which of them are strange or missing.

use std::collections::BTreeMap;
use std::ffi::{OsStr, OsString};

/// A name as a field: a comma, a percent sign and every byte that is not printable ASCII as %XX.
pub fn field(name: &OsStr) -> String {
    let mut text = String::new();
    for byte in name.as_encoded_bytes() {
        match byte {
            b',' | b'%' => text.push_str(&format!("%{byte:02X}")),
            b' '..=b'~' => text.push(char::from(*byte)),
            _ => text.push_str(&format!("%{byte:02X}")),
        }
    }
    text
}

/// Names as fields, at most `most` of them.
pub fn fields<'a>(names: impl ExactSizeIterator<Item = &'a OsString>, most: usize) -> String {
    let more = names.len().saturating_sub(most);
    let mut text = names
        .take(most)
        .map(|name| field(name))
        .collect::<Vec<_>>()
        .join(", ");
    if more > 0 {
        text.push_str(&format!(" and {more} more"));
    }
    text
}

/// The first two names, in byte order, that are not in the order of their numbers.
pub fn out_of_order(names: &[OsString]) -> Option<(&OsString, &OsString)> {
    let mut last: BTreeMap<Vec<u8>, &OsString> = BTreeMap::new();
    for name in names {
        if let Some(before) = last.insert(shape(name), name) {
            if numbers(before) > numbers(name) {
                return Some((before, name));
            }
        }
    }
    None
}

/// A name with each run of digits as one sign.
fn shape(name: &OsStr) -> Vec<u8> {
    let mut shape = Vec::new();
    for byte in name.as_encoded_bytes() {
        match byte {
            // a sign that no name has
            b'0'..=b'9' if shape.last() == Some(&0) => {}
            b'0'..=b'9' => shape.push(0),
            _ => shape.push(*byte),
        }
    }
    shape
}

/// The numbers in a name, each by its length and its digits, so that they compare as numbers.
fn numbers(name: &OsStr) -> Vec<(usize, &[u8])> {
    let runs = name.as_encoded_bytes().split(|byte| !byte.is_ascii_digit());
    runs.filter(|run| !run.is_empty())
        .map(|run| {
            let zeros = run.iter().take_while(|digit| **digit == b'0').count();
            (run.len() - zeros, &run[zeros..])
        })
        .collect()
}

/// What the names tell of files that should not be there, or should.
#[derive(Debug, Default, PartialEq, Eq)]
pub struct Doubts {
    /// Names that are not formed as most of the names are.
    pub strays: Vec<OsString>,
    /// Names that the numbering leaves out.
    pub missing: Vec<OsString>,
    /// Whether the names do not tell: most of them have no form in common.
    pub unknown: bool,
}

impl Doubts {
    pub fn of(names: &[OsString]) -> Doubts {
        let Some(common) = common_shape(names) else {
            return Doubts {
                unknown: true,
                ..Doubts::default()
            };
        };
        let (alike, strays): (Vec<_>, Vec<_>) = names
            .iter()
            .cloned()
            .partition(|name| shape(name) == common);
        Doubts {
            strays,
            missing: missing(&alike),
            unknown: false,
        }
    }

    /// Whether the names leave no doubt that they are the first days, in order.
    pub fn none(&self) -> bool {
        !self.unknown && self.strays.is_empty() && self.missing.is_empty()
    }
}

/// The shape of more than half of the names, if it has a number.
fn common_shape(names: &[OsString]) -> Option<Vec<u8>> {
    let mut counts: BTreeMap<Vec<u8>, usize> = BTreeMap::new();
    for name in names {
        *counts.entry(shape(name)).or_default() += 1;
    }
    let most = counts.into_iter().max_by_key(|(_, count)| *count);
    let (shape, count) = most?;
    (2 * count > names.len() && shape.contains(&0)).then_some(shape)
}

/// The names left out where names of one shape are numbered by one number. Where more would be left
/// out than there are names (as with dates), the number is not one that counts the days.
fn missing(names: &[OsString]) -> Vec<OsString> {
    let Some(place) = counter(names) else {
        return Vec::new();
    };
    let value = |name: &OsString| digits(name, place).and_then(|(_, text, _)| text.parse().ok());
    let Some(mut values) = names.iter().map(value).collect::<Option<Vec<u64>>>() else {
        return Vec::new();
    };
    values.sort_unstable();
    let (first, last) = (values[0], values[values.len() - 1]);
    if last - first >= 2 * names.len() as u64 {
        return Vec::new();
    }
    let absent = (first..=last).filter(|number| values.binary_search(number).is_err());
    let named = |number: u64| -> Option<OsString> {
        let (front, text, back) = digits(&names[0], place)?;
        Some(format!("{front}{number:0width$}{back}", width = text.len()).into())
    };
    absent.filter_map(named).collect()
}

/// Which of the numbers in the names differs, if one alone does.
fn counter(names: &[OsString]) -> Option<usize> {
    let first = numbers(names.first()?);
    let differs = |place: &usize| {
        names
            .iter()
            .any(|name| numbers(name)[*place] != first[*place])
    };
    let mut places = (0..first.len()).filter(differs);
    let place = places.next()?;
    places.next().is_none().then_some(place)
}

/// What stands before the number at this place, its digits, and what stands behind.
fn digits(name: &OsStr, place: usize) -> Option<(&str, &str, &str)> {
    let text = name.to_str()?;
    let mut from = 0;
    for _ in 0..place {
        from += text[from..].find(|c: char| c.is_ascii_digit())?;
        from += text[from..].find(|c: char| !c.is_ascii_digit())?;
    }
    from += text[from..].find(|c: char| c.is_ascii_digit())?;
    let rest = &text[from..];
    let length = rest.find(|c: char| !c.is_ascii_digit());
    let to = from + length.unwrap_or(rest.len());
    Some((&text[..from], &text[from..to], &text[to..]))
}

#[cfg(test)]
mod tests {
    use super::*;
    use std::os::unix::ffi::OsStringExt;

    fn os(names: &[&str]) -> Vec<OsString> {
        names.iter().map(OsString::from).collect()
    }

    #[test]
    fn names_as_fields() {
        let name = OsString::from_vec(b"a, b%\n\x7f\xc3\xa9~".to_vec());
        assert_eq!(field(&name), "a%2C b%25%0A%7F%C3%A9~");
        assert_eq!(field(OsStr::new("2026-01-02.csv")), "2026-01-02.csv");
        let names = os(&["a", "b,", "c"]);
        assert_eq!(fields(names.iter(), 3), "a, b%2C, c");
        assert_eq!(fields(names.iter(), 2), "a, b%2C and 1 more");
    }

    #[test]
    fn order_as_numbers() {
        let pair = |names: &[&str]| {
            let names = os(names);
            out_of_order(&names).map(|(a, b)| (field(a), field(b)))
        };
        let found = |a: &str, b: &str| Some((a.to_string(), b.to_string()));
        assert_eq!(pair(&["10", "11", "9"]), found("11", "9"));
        assert_eq!(
            pair(&["d1.csv", "d10.csv", "d2.csv"]),
            found("d10.csv", "d2.csv")
        );
        assert_eq!(pair(&["1-10", "1-9"]), found("1-10", "1-9"));
        assert_eq!(pair(&["10", "10a", "9"]), found("10", "9"));
        assert_eq!(pair(&["09", "10", "11"]), None);
        assert_eq!(pair(&["01", "1", "B", "a"]), None);
        assert_eq!(pair(&["2025-12-31", "2026-01-01"]), None);
        assert_eq!(pair(&[]), None);
    }

    #[test]
    fn strays_and_missing() {
        let doubts = |names: &[&str]| Doubts::of(&os(names));
        let told = |strays: &[&str], missing: &[&str]| Doubts {
            strays: os(strays),
            missing: os(missing),
            unknown: false,
        };
        assert_eq!(doubts(&["d1", "d2", "d3"]), told(&[], &[]));
        assert!(doubts(&[".x", "d1", "d2", "notes"]).unknown);
        assert_eq!(
            doubts(&[".x", "d1", "d2", "d3", "notes"]),
            told(&[".x", "notes"], &[])
        );
        assert_eq!(
            doubts(&["d008", "d009", "d011", "d012"]),
            told(&[], &["d010"])
        );
        assert_eq!(
            doubts(&["26-1.csv", "26-2.csv", "26-4.csv"]),
            told(&[], &["26-3.csv"])
        );
        // dates: no number that counts
        assert_eq!(doubts(&["20260131", "20260201"]), told(&[], &[]));
        assert_eq!(doubts(&["26-01-31", "26-02-02"]), told(&[], &[]));
        assert!(doubts(&["a", "b"]).unknown);
        assert!(doubts(&[]).unknown);
        assert!(doubts(&["1", "2"]).none());
        assert!(!doubts(&["1", "3"]).none());
        assert!(!doubts(&["1", "2", "x"]).none());
        assert!(!doubts(&["x"]).none());
    }
}
