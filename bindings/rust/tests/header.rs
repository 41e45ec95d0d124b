//! `include/daybook.h` and this crate say the same.

use std::fs;
use std::path::Path;

use daybook::{values, Layout, Refusal};

fn header() -> String {
    let path = Path::new(env!("CARGO_MANIFEST_DIR")).join("../../include/daybook.h");
    fs::read_to_string(path).unwrap()
}

/// What stands behind `#define NAME`, without a comment.
fn defined(header: &str, name: &str) -> String {
    let start = format!("#define {name} ");
    let line = header.lines().find(|line| line.starts_with(&start));
    let text = &line.unwrap_or_else(|| panic!("{name}"))[start.len()..];
    text.split("/*").next().unwrap().trim().to_string()
}

#[test]
fn limits() {
    let header = header();
    for (name, number) in [
        ("DAYBOOK_RECORD", daybook::RECORD),
        ("DAYBOOK_VALUE", daybook::VALUE),
        ("DAYBOOK_PART", daybook::PART),
        ("DAYBOOK_DAY_LIMIT", daybook::DAY_LIMIT as usize),
        ("DAYBOOK_DAYS_LIMIT", daybook::DAYS_LIMIT as usize),
        ("DAYBOOK_LAST_SEASON", daybook::LAST_SEASON as usize),
        ("DAYBOOK_BOOK_LIMIT", daybook::BOOK_LIMIT),
    ] {
        assert_eq!(defined(&header, name), number.to_string(), "{name}");
    }
}

/// No layout has a longer book than 32·196,590 bytes, and one has it.
#[test]
fn the_largest_book() {
    let mut most = 0;
    for n in (0..=8).map(|lg| 1 << lg) {
        for layout in [Layout::black(n, 1), Layout::tile(n, 1), Layout::tree(n)] {
            most = most.max(values(layout, 65_536).unwrap());
        }
    }
    assert_eq!(most, 196_590);
    assert_eq!(32 * most as usize, daybook::BOOK_LIMIT);
}

#[test]
fn version() {
    let header = header();
    let text = env!("CARGO_PKG_VERSION");
    assert_eq!(
        defined(&header, "DAYBOOK_VERSION_TEXT"),
        format!("\"{text}\"")
    );
    let parts: Vec<u32> = text.split('.').map(|part| part.parse().unwrap()).collect();
    let number = 10_000 * parts[0] + 100 * parts[1] + parts[2];
    assert_eq!(defined(&header, "DAYBOOK_VERSION"), number.to_string());
    assert_eq!(daybook::version(), number);
}

/// The names of the refusals by their numbers, from the enum.
fn refusal_names(header: &str) -> Vec<(u32, String)> {
    let start = header.find("enum daybook_refusal {").unwrap();
    let end = start + header[start..].find("};").unwrap();
    let lines = header[start..end].lines().skip(1);
    lines
        .filter(|line| line.trim().starts_with("DAYBOOK_"))
        .map(|line| {
            let (name, rest) = line.trim().split_once(" = ").unwrap();
            let number = rest.split([',', ' ']).next().unwrap();
            (number.parse().unwrap(), name.to_string())
        })
        .collect()
}

#[test]
fn texts_of_refusals() {
    let header = header();
    let names = refusal_names(&header);
    let numbers = Refusal::ALL.map(Refusal::number);
    assert_eq!(
        names.iter().map(|name| name.0).collect::<Vec<_>>(),
        [&[0], &numbers[..]].concat()
    );
    for (number, name) in &names[1..] {
        let (_, behind) = header.split_once(&format!("case {name}:")).unwrap();
        let text = behind.split('"').nth(1).unwrap();
        let refusal = Refusal::from_number(*number).unwrap();
        assert_eq!(text, refusal.to_string(), "{name}");
    }
}
