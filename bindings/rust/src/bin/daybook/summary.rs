//! What was read, in words and as a strip of the days, for standard error where that is a terminal.

use std::fmt::Write;

use daybook::{validation_before, Layout, Reading};

use crate::explain::day_name;

/// Listed days named one by one.
const MOST: usize = 20;
/// Signs in a line of the strip, and lines.
const WIDTH: u32 = 64;
const LINES: u32 = 16;

/// The reading in words.
pub fn summary(
    layout: Layout,
    d: u32,
    passed: u32,
    reading: &Reading,
    days: &[u32],
    names: Option<&[String]>,
) -> String {
    let Reading::Changed {
        listed,
        first,
        last_good,
        ..
    } = *reading
    else {
        return format!("Clean: the days 1 to {d} are as they were sealed.\n");
    };
    let first_name = day_name(first, names);
    let mut text = match listed {
        1 => format!("1 day of {d} may have been altered: {first_name}.\n"),
        _ => format!("{listed} days of {d} may have been altered, the first is {first_name}.\n"),
    };
    if let Some(when) = when(layout, d, passed, reading) {
        let _ = writeln!(text, "{when}");
    }
    let _ = match last_good {
        0 => writeln!(text, "Last good: none; no black value passes."),
        _ => {
            let name = day_name(last_good, names);
            writeln!(
                text,
                "Last good: {name}; up to it all days are as they were sealed."
            )
        }
    };
    if names.is_some() {
        text.push_str(&listing(days, names));
    }
    text
}

/// The bounds in time in words. The check that passed is named where it is what bounds it from below; the
/// one at D − F·N is the validation that is due there.
pub fn when(layout: Layout, d: u32, passed: u32, reading: &Reading) -> Option<String> {
    let Reading::Changed {
        first, low, high, ..
    } = *reading
    else {
        return None;
    };
    let due = validation_before(layout, d) == Ok(passed);
    let condition = match passed >= first {
        true if due => format!(", if the validation at day {passed} was made and passed,"),
        true => format!(", if a check at day {passed} passed,"),
        false => String::new(),
    };
    Some(format!(
        "When: after the close of day {low}{condition} and by the end of day {high}."
    ))
}

/// Ascending days as runs from one day to another.
pub fn runs_of(days: &[u32]) -> Vec<(u32, u32)> {
    let mut runs: Vec<(u32, u32)> = Vec::new();
    for day in days {
        match runs.last_mut() {
            Some((_, last)) if *last + 1 == *day => *last = *day,
            _ => runs.push((*day, *day)),
        }
    }
    runs
}

fn listing(days: &[u32], names: Option<&[String]>) -> String {
    let mut text = String::from("Listed:\n");
    for day in days.iter().take(MOST) {
        let _ = writeln!(text, "  {}", day_name(*day, names));
    }
    if let Some(more) = days.len().checked_sub(MOST).filter(|more| *more > 0) {
        let _ = writeln!(text, "  and {more} more; --names has them all");
    }
    text
}

/// The days as signs, '#' for one that is listed; of many days a sign stands for several.
pub fn strip(d: u32, days: &[u32]) -> String {
    let (group, signs) = signs(d, days, 0);
    let title = match group {
        1 => String::from("Days, '#' for one that is listed:"),
        _ => format!("Days, {group} a sign, '#' where one of them is listed:"),
    };
    laid(&title, group, &signs)
}

/// The same for a search: '#' for a day that is found, '?' for one that is undecided.
pub fn strip_of_search(d: u32, days: &[u32], undecided: u32) -> String {
    let (group, signs) = signs(d, days, undecided);
    let title = match group {
        1 => String::from("Days, '#' for one that is found, '?' for one that is undecided:"),
        _ => format!(
            "Days, {group} a sign, '#' where one of them is found, '?' where one is undecided:"
        ),
    };
    laid(&title, group, &signs)
}

/// How many days a sign stands for, and the signs; the last `undecided` days are so.
fn signs(d: u32, days: &[u32], undecided: u32) -> (u32, Vec<char>) {
    let group = d.div_ceil(WIDTH * LINES).max(1).next_power_of_two();
    let mut signs = vec!['.'; d.div_ceil(group) as usize];
    if undecided > 0 {
        signs[((d - undecided) / group) as usize..].fill('?');
    }
    for day in days {
        signs[((day - 1) / group) as usize] = '#';
    }
    (group, signs)
}

/// The signs in lines, each with its first day.
fn laid(title: &str, group: u32, signs: &[char]) -> String {
    let mut text = format!("{title}\n");
    for (line, signs) in signs.chunks(WIDTH as usize).enumerate() {
        let first = line as u32 * WIDTH * group + 1;
        let signs: String = signs.iter().collect();
        let _ = writeln!(text, "{first:>6} {signs}");
    }
    text
}

#[cfg(test)]
mod tests {
    use super::*;

    const LISTED: [u32; 8] = [19, 20, 23, 24, 27, 28, 31, 32];

    fn figure(names: Option<&[String]>) -> String {
        let reading = Reading::Changed {
            listed: 8,
            first: 19,
            low: 32,
            high: 64,
            last_good: 16,
        };
        summary(Layout::tile(16, 2), 64, 32, &reading, &LISTED, names)
    }

    #[test]
    fn the_figure_in_words() {
        let words = "\
            8 days of 64 may have been altered, the first is day 19.\n\
            When: after the close of day 32, if the validation at day 32 was made and passed, and \
            by the end of day 64.\n\
            Last good: day 16; up to it all days are as they were sealed.\n";
        assert_eq!(figure(None), words);
        let names: Vec<String> = (1..=64).map(|day| format!("d-{day}")).collect();
        let named = words
            .replace("day 19.", "day 19 (d-19).")
            .replace("day 16;", "day 16 (d-16);")
            + "Listed:\n  day 19 (d-19)\n  day 20 (d-20)\n  day 23 (d-23)\n  day 24 (d-24)\n  \
               day 27 (d-27)\n  day 28 (d-28)\n  day 31 (d-31)\n  day 32 (d-32)\n";
        assert_eq!(figure(Some(&names)), named);
    }

    #[test]
    fn bounds_without_a_validation() {
        let reading = Reading::Changed {
            listed: 1,
            first: 4,
            low: 3,
            high: 4,
            last_good: 0,
        };
        assert_eq!(
            summary(Layout::tile(4, 1), 4, 0, &reading, &[4], None),
            "1 day of 4 may have been altered: day 4.\n\
             When: after the close of day 3 and by the end of day 4.\n\
             Last good: none; no black value passes.\n"
        );
    }

    #[test]
    fn bounds_where_validations_were_skipped() {
        let said = |passed, low| {
            let reading = Reading::Changed {
                listed: 8,
                first: 19,
                low,
                high: 64,
                last_good: 16,
            };
            when(Layout::tile(16, 2), 64, passed, &reading).unwrap()
        };
        for passed in [0, 16] {
            assert_eq!(
                said(passed, 18),
                "When: after the close of day 18 and by the end of day 64."
            );
        }
        assert_eq!(
            said(48, 48),
            "When: after the close of day 48, if a check at day 48 passed, and by the end of day 64."
        );
    }

    #[test]
    fn clean_in_words() {
        let reading = Reading::Clean { last_good: 8 };
        assert_eq!(
            summary(Layout::tree(4), 8, 4, &reading, &[], None),
            "Clean: the days 1 to 8 are as they were sealed.\n"
        );
    }

    #[test]
    fn days_in_runs() {
        assert_eq!(runs_of(&[]), []);
        assert_eq!(runs_of(&[1, 2, 3, 5, 7, 8]), [(1, 3), (5, 5), (7, 8)]);
    }

    #[test]
    fn many_names() {
        let names: Vec<String> = (1..=30).map(|day| format!("{day}")).collect();
        let days: Vec<u32> = (1..=22).collect();
        let text = listing(&days, Some(&names));
        assert!(text.ends_with("  day 20 (20)\n  and 2 more; --names has them all\n"));
        let text = listing(&days[..20], Some(&names));
        assert!(text.ends_with("  day 20 (20)\n"));
    }

    #[test]
    fn strips() {
        assert_eq!(
            strip(64, &LISTED),
            "Days, '#' for one that is listed:\n     1 ..................##..##..##..##\
             ................................\n"
        );
        assert_eq!(
            strip(66, &[66]),
            format!(
                "Days, '#' for one that is listed:\n     1 {}\n    65 .#\n",
                ".".repeat(64)
            )
        );
        let long = strip(65_536, &[65, 65_536]);
        let lines: Vec<&str> = long.lines().collect();
        assert_eq!(lines.len(), 17);
        assert_eq!(
            lines[0],
            "Days, 64 a sign, '#' where one of them is listed:"
        );
        assert_eq!(lines[1], format!("     1 .#{}", ".".repeat(62)));
        assert_eq!(lines[16], format!(" 61441 {}#", ".".repeat(63)));
        assert_eq!(strip(1025, &[]).lines().count(), 10);
    }

    #[test]
    fn strips_of_searches() {
        let title = "Days, '#' for one that is found, '?' for one that is undecided:\n";
        for (undecided, signs) in [(0, "..#."), (1, "..#?"), (2, "..#?"), (4, "??#?")] {
            let strip = strip_of_search(4, &[3], undecided);
            assert_eq!(strip, format!("{title}     1 {signs}\n"));
        }
        let long = strip_of_search(65_536, &[65], 65_536 - 130);
        let lines: Vec<&str> = long.lines().collect();
        let title = "Days, 64 a sign, '#' where one of them is found, '?' where one is undecided:";
        assert_eq!(lines[0], title);
        assert_eq!(lines[1], format!("     1 .#{}", "?".repeat(62)));
        assert_eq!(lines[16], format!(" 61441 {}", "?".repeat(64)));
        // the last sign stands for one day alone
        assert!(strip_of_search(1025, &[], 0).ends_with("  1025 .\n"));
        assert!(strip_of_search(1025, &[], 1).ends_with("  1025 ?\n"));
    }
}
