//! The book's values as bars over the days that they cover, as an SVG picture.

use std::fmt::Write;

use daybook::{Layout, Reading};

use crate::chains::{chains, scheme_name, Chain, Kind};
use crate::summary::{runs_of, when};
use crate::svg::{short, Svg};

/// Days drawn at most; of more, as many of them around the listed days.
const MOST_DAYS: u32 = 2048;
const WINDOW: u32 = 1024;
/// Bars of black drawn at most; of more, three.
const MOST_BLACK: usize = 16;

const LEFT: f64 = 160.0;
const RIGHT: f64 = 28.0;
const WIDTH: f64 = 832.0;
/// Where the rows start, and their height.
const TOP: f64 = 84.0;
const ROW: f64 = 22.0;
/// Heights of the bars: a value that fails stands out without colour too.
const PASS: f64 = 6.0;
const FAIL: f64 = 14.0;
/// Bars below this width have no outline and no hatching; marks are at least so wide.
const FINE: f64 = 4.0;
const MARK: f64 = 2.0;

/// What is drawn.
pub struct Verified<'a> {
    pub layout: Layout,
    pub d: u32,
    pub passed: u32,
    pub outcomes: &'a [u8],
    pub reading: Reading,
    pub days: &'a [u32],
}

/// A row of bars: chains that do not overlap, each with its outcome.
struct Row {
    label: String,
    bars: Vec<(Chain, u8)>,
}

impl Verified<'_> {
    /// The first and the last day drawn.
    pub fn window(&self) -> (u32, u32) {
        if self.d <= MOST_DAYS {
            return (1, self.d);
        }
        let first = *self.days.first().unwrap_or(&self.d);
        let last = *self.days.last().unwrap_or(&self.d);
        let last = last.min(first + WINDOW - 1);
        let before = (WINDOW - (last - first + 1)) / 2;
        let start = first.saturating_sub(before + 1).min(self.d - WINDOW);
        let even = start / 64 * 64;
        let start = if even + WINDOW < last { start } else { even };
        (start + 1, start + WINDOW)
    }

    /// The rows from above: tree levels or tile chains, then black.
    fn rows(&self) -> Vec<Row> {
        let values: Vec<(Chain, u8)> = chains(self.layout, self.d)
            .zip(self.outcomes.iter().copied())
            .collect();
        let mut rows: Vec<Row> = Vec::new();
        let mut blacks = Vec::new();
        for (chain, outcome) in values {
            let (place, label) = match chain.kind {
                Kind::Black => {
                    blacks.push((chain, outcome));
                    continue;
                }
                Kind::Tile(i) => (i as usize, format!("tile c({i})")),
                Kind::Tree(level) | Kind::Root(level) => {
                    (level as usize, format!("tree level {level}"))
                }
            };
            while rows.len() <= place {
                rows.push(Row {
                    label: label.clone(),
                    bars: Vec::new(),
                });
            }
            rows[place].bars.push((chain, outcome));
        }
        rows.extend(black_rows(&blacks));
        rows
    }

    pub fn svg(&self) -> String {
        let window = self.window();
        let rows = self.rows();
        let mut picture = Picture::new(window, rows.len());
        let (found, time) = (self.found(), self.time());
        picture.svg.heading(&self.title(window), [&found, &time]);
        picture.bands(self.days);
        picture.intervals(self.layout.n);
        for (place, row) in rows.iter().enumerate() {
            picture.row(place, row);
        }
        picture.reading(rows.len(), self);
        picture.axis(rows.len() + self.reading_rows());
        picture.legend(rows.len() + self.reading_rows(), self.layout.scheme);
        picture.end()
    }

    /// Rows below the values: listed days, last good, bounds.
    fn reading_rows(&self) -> usize {
        if self.reading.is_clean() {
            1
        } else {
            3
        }
    }

    fn title(&self, (first, last): (u32, u32)) -> String {
        let scheme = scheme_name(self.layout.scheme);
        let (n, f, d) = (self.layout.n, self.layout.f, self.d);
        let number = self.layout.scheme;
        let mut text = format!("Day book: scheme {number} ({scheme}), N {n}, F {f}, {d} days");
        if (first, last) != (1, self.d) {
            let _ = write!(text, ", of which {first} to {last} are drawn");
        }
        text
    }

    fn found(&self) -> String {
        if self.reading.is_clean() {
            return String::from("Clean: every value passes.");
        }
        let runs = runs_of(self.days);
        let run = |(first, last): &(u32, u32)| match last - first {
            0 => first.to_string(),
            1 => format!("{first}, {last}"),
            _ => format!("{first} to {last}"),
        };
        let mut text = format!("{} days may have been altered: ", self.days.len());
        if self.days.len() == 1 {
            text = String::from("1 day may have been altered: ");
        }
        text += &runs.iter().take(12).map(run).collect::<Vec<_>>().join(", ");
        if runs.len() > 12 {
            text.push_str(" and more");
        }
        text.push('.');
        text
    }

    fn time(&self) -> String {
        match when(self.layout, self.d, self.passed, &self.reading) {
            Some(text) => text,
            None => format!("Last good: day {}.", self.d),
        }
    }
}

/// A row for each black value; of many the last that passes, the first that fails and the last.
fn black_rows(blacks: &[(Chain, u8)]) -> Vec<Row> {
    let row = |bar: &(Chain, u8)| Row {
        label: format!("black at {}", bar.0.day),
        bars: vec![*bar],
    };
    if blacks.len() <= MOST_BLACK {
        return blacks.iter().map(row).collect();
    }
    let fails = blacks.iter().position(|(_, outcome)| *outcome == 0);
    let fails = fails.unwrap_or(blacks.len());
    let mut places = vec![fails.saturating_sub(1), fails, blacks.len() - 1];
    places.dedup();
    places.retain(|place| *place < blacks.len());
    places.iter().map(|place| row(&blacks[*place])).collect()
}

/// The text of the picture, and where its days stand.
struct Picture {
    svg: Svg,
    first: u32,
    last: u32,
    /// Width of the days together, and of one.
    width: f64,
    day: f64,
    /// Where the rows of values end.
    bottom: f64,
}

impl Picture {
    fn new((first, last): (u32, u32), rows: usize) -> Picture {
        let days = f64::from(last - first + 1);
        let width = WIDTH.max(days);
        Picture {
            svg: Svg::default(),
            first,
            last,
            width,
            day: width / days,
            bottom: TOP + ROW * rows as f64,
        }
    }

    /// Where a day starts; days that are not drawn stand at the edge.
    fn start(&self, day: u32) -> f64 {
        let day = day.clamp(self.first, self.last + 1);
        LEFT + self.day * f64::from(day - self.first)
    }

    /// Where a day ends.
    fn close(&self, day: u32) -> f64 {
        self.start(day + 1)
    }

    /// A shade behind the listed days.
    fn bands(&mut self, days: &[u32]) {
        let mut path = String::new();
        for (first, last) in runs_of(days) {
            if last >= self.first && first <= self.last {
                let (x, end) = (self.start(first), self.close(last));
                path += &bar(x, TOP, (end - x).max(MARK), self.bottom - TOP + ROW);
            }
        }
        self.svg.paths("band", &path);
    }

    /// A line where an interval ends, if these do not stand too close.
    fn intervals(&mut self, n: u32) {
        if self.day * f64::from(n) < 8.0 {
            return;
        }
        let first = self.first.next_multiple_of(n);
        for day in (first..self.last).step_by(n as usize) {
            let x = self.close(day);
            self.svg.line("interval", (x, TOP), (x, self.bottom));
        }
    }

    fn row(&mut self, place: usize, row: &Row) {
        let middle = TOP + ROW * (place as f64 + 0.5);
        self.svg.label("row", LEFT - 10.0, middle + 4.0, &row.label);
        let [mut pass, mut fail, mut links] = [const { String::new() }; 3];
        let mut fine = false;
        for (chain, outcome) in &row.bars {
            let runs = chain.runs();
            let (first, last) = (runs[0].0, runs[runs.len() - 1].1);
            if last < self.first || first > self.last {
                continue;
            }
            fine = self.day * f64::from(runs[0].1 - first + 1) < FINE;
            let single = runs.len() == 1;
            for run in &runs {
                match outcome {
                    0 if single => fail += &self.mark(*run, middle),
                    0 => fail += &self.exact(*run, middle, FAIL),
                    _ if single => pass += &self.bar(*run, middle, PASS),
                    _ => pass += &self.exact(*run, middle, PASS),
                }
            }
            if !single {
                let (x, end) = (self.start(first), self.close(last));
                let (x, end, y) = (short(x), short(end - 1.0), short(middle));
                let _ = write!(links, "M{x} {y}H{end}");
            }
        }
        self.svg.paths("link", &links);
        self.svg.paths(if fine { "fine" } else { "pass" }, &pass);
        self.svg.paths("fail", &fail);
        if !fine {
            self.svg.paths("hatch", &fail);
        }
    }

    /// A bar over a run of days; none where the run is not drawn.
    fn exact(&self, run: (u32, u32), middle: f64, height: f64) -> String {
        self.gapped(run, middle, height, 0.0)
    }

    /// The same, a little short of the run's end, to stand off from the next one.
    fn bar(&self, run: (u32, u32), middle: f64, height: f64) -> String {
        self.gapped(run, middle, height, 2.0)
    }

    fn gapped(&self, (first, last): (u32, u32), middle: f64, height: f64, most: f64) -> String {
        if last < self.first || first > self.last {
            return String::new();
        }
        let (x, end) = (self.start(first), self.close(last));
        let gap = (0.2 * (end - x)).min(most);
        bar(x, middle - height / 2.0, end - x - gap, height)
    }

    /// A bar that is seen also where the days are narrow.
    fn mark(&self, (first, last): (u32, u32), middle: f64) -> String {
        let width = self.close(last) - self.start(first);
        if width >= FINE || last < self.first || first > self.last {
            return self.bar((first, last), middle, FAIL);
        }
        let top = middle - FAIL / 2.0;
        bar(self.start(first), top, width.max(MARK), FAIL)
    }

    /// The rows of what was read.
    fn reading(&mut self, rows: usize, verified: &Verified) {
        let middle = |row: usize| TOP + ROW * (row as f64 + 0.5);
        let [_, _, low, high, last_good] = verified.reading.numbers();
        if verified.reading.is_clean() {
            self.span("last good", last_good, (0, last_good), middle(rows));
            return;
        }
        self.svg
            .label("row", LEFT - 10.0, middle(rows) + 4.0, "listed days");
        let mut path = String::new();
        for run in self.marks(verified.days) {
            path += &self.mark(run, middle(rows));
        }
        self.svg.paths("listed", &path);
        self.span("last good", last_good, (0, last_good), middle(rows + 1));
        let y = middle(rows + 2);
        self.svg.label(
            "row",
            LEFT - 10.0,
            y + 4.0,
            &format!("low {low}, high {high}"),
        );
        self.bracket((low, high), y);
        for day in [low, high] {
            self.bound("bound", day, y);
        }
        self.bound("good", last_good, middle(rows + 1));
    }

    /// The days to be marked one by one, or run by run where they are narrow.
    fn marks(&self, days: &[u32]) -> Vec<(u32, u32)> {
        if self.day < FINE {
            return runs_of(days);
        }
        days.iter().map(|day| (*day, *day)).collect()
    }

    fn span(&mut self, name: &str, day: u32, days: (u32, u32), y: f64) {
        self.svg
            .label("row", LEFT - 10.0, y + 4.0, &format!("{name} {day}"));
        self.bracket(days, y);
    }

    /// From the close of one day to that of another.
    fn bracket(&mut self, (from, to): (u32, u32), y: f64) {
        let (x, end) = (self.close(from), self.close(to));
        let missed = match to {
            0 => Some("none"),
            _ if to < self.first => Some("earlier than the days drawn"),
            _ if from >= self.last => Some("later than the days drawn"),
            _ => None,
        };
        if let Some(text) = missed {
            return self.svg.label("key", LEFT, y + 4.0, text);
        }
        let (top, bottom) = (y - 5.0, y + 5.0);
        self.svg.line("bracket", (x, y), (end, y));
        for (day, x) in [(from, x), (to, end)] {
            if day + 1 >= self.first && day <= self.last {
                self.svg.line("bracket", (x, top), (x, bottom));
            }
        }
    }

    /// A line through the rows at the close of a day, if it is drawn.
    fn bound(&mut self, class: &str, day: u32, bottom: f64) {
        if day + 1 > self.first && day <= self.last {
            let x = self.close(day);
            self.svg.line(class, (x, TOP - 6.0), (x, bottom));
        }
    }

    fn axis(&mut self, rows: usize) {
        let y = TOP + ROW * rows as f64 + 4.0;
        self.svg.line("axis", (LEFT, y), (LEFT + self.width, y));
        let mut step = 1;
        while self.day * f64::from(step) < 44.0 && step < self.last {
            step *= 2;
        }
        for day in 1..=self.last {
            if day < self.first || (day != self.first && !day.is_multiple_of(step)) {
                continue;
            }
            let x = (self.start(day) + self.close(day)) / 2.0;
            let near = day != self.first && self.start(day) - LEFT < 26.0;
            self.svg.line("axis", (x, y), (x, y + 5.0));
            if !near {
                self.svg.label("tick", x, y + 18.0, &day.to_string());
            }
        }
        self.svg
            .label("tick", LEFT + self.width / 2.0, y + 36.0, "day");
    }

    fn legend(&mut self, rows: usize, scheme: u32) {
        let y = TOP + ROW * rows as f64 + 64.0;
        let bars = [
            ("pass", PASS, "value that passes"),
            ("fail", FAIL, "value that fails"),
            ("listed", FAIL, "listed day"),
        ];
        let mut x = LEFT;
        for (class, height, text) in bars {
            let path = bar(x, y - height / 2.0, 30.0, height);
            self.svg.paths(class, &path);
            if class == "fail" {
                self.svg.paths("hatch", &path);
            }
            self.svg.label("key", x + 38.0, y + 4.0, text);
            x += 170.0;
        }
        for (class, text) in [
            ("good", "close of the last good day"),
            ("bound", "low and high"),
        ] {
            self.svg.line(class, (x, y), (x + 30.0, y));
            self.svg.label("key", x + 38.0, y + 4.0, text);
            x += 220.0;
        }
        let text = match scheme {
            Layout::TREE => {
                "A value stands over the days that it covers. A tree chain from day 1 on, where an \
                 interval ends, is black too."
            }
            _ => "A value stands over the days that it covers.",
        };
        self.svg.label("key", LEFT, y + 26.0, text);
        self.bottom = y + 42.0;
    }

    fn end(self) -> String {
        let size = (LEFT + self.width + RIGHT, self.bottom);
        self.svg.whole(size, STYLE, DEFS)
    }
}

/// Dark and light tell failing from passing without colour, and so do height and hatching.
const STYLE: &str = "\
.band { fill: #f3e3b5 }
.interval { stroke: #d5d5d5; stroke-width: 1 }
.link { stroke: #8a97a3; stroke-width: 1; fill: none }
.pass { fill: #c3d4e2; stroke: #5b7488; stroke-width: 0.5 }
.fine { fill: #c3d4e2 }
.fail { fill: #8f1d14 }
.hatch { fill: url(#lines) }
.listed { fill: #111 }
.bracket { stroke: #222; stroke-width: 1.5 }
.bound { stroke: #222; stroke-width: 1.5; stroke-dasharray: 6 4 }
.good { stroke: #222; stroke-width: 1.5; stroke-dasharray: 1.5 3 }
.axis { stroke: #222; stroke-width: 1 }
";

const DEFS: &str = "\
<defs>
<pattern id=\"lines\" width=\"6\" height=\"6\" patternUnits=\"userSpaceOnUse\" patternTransform=\"rotate(45)\">
<rect width=\"1.2\" height=\"6\" fill=\"#fff\"/>
</pattern>
</defs>
";

/// A rectangle as a part of a path.
fn bar(x: f64, y: f64, width: f64, height: f64) -> String {
    let (x, y, width, height) = (short(x), short(y), short(width), short(height));
    format!("M{x} {y}h{width}v{height}h-{width}z")
}

#[cfg(test)]
mod tests {
    use super::*;

    #[test]
    fn days_drawn() {
        let window = |d, days: &[u32]| {
            let reading = Reading::Clean { last_good: d };
            let (layout, outcomes) = (Layout::tree(1), &[][..]);
            let verified = Verified {
                layout,
                d,
                passed: 0,
                outcomes,
                reading,
                days,
            };
            verified.window()
        };
        assert_eq!(window(64, &[19]), (1, 64));
        assert_eq!(window(2048, &[19]), (1, 2048));
        assert_eq!(window(2049, &[19]), (1, 1024));
        assert_eq!(window(2049, &[2049]), (1026, 2049));
        assert_eq!(window(65_536, &[]), (64_513, 65_536));
        assert_eq!(window(65_536, &[65_536]), (64_513, 65_536));
        // 30000 in the middle, from a multiple of 64 on
        assert_eq!(window(65_536, &[30_000]), (29_441, 30_464));
        // listed days as wide as the window, or wider
        assert_eq!(window(65_536, &[100, 1123]), (100, 1123));
        assert_eq!(window(65_536, &[100, 1124]), (100, 1123));
    }
}
