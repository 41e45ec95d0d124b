//! The days that a tile lists, by N and by k, as an SVG picture.

use crate::ambiguity::{Counted, ALTERED, SIZES};
use crate::forecast::grouped;
use crate::svg::{short, Svg};

const WIDTH: f64 = 800.0;
const HEIGHT: f64 = 424.0;
/// Where the panels start from above, and their size.
const TOP: f64 = 112.0;
const DOWN: f64 = 256.0;
const ACROSS: f64 = 264.0;
/// From the panel's left side to the first N, and from the last N to its right side.
const FIRST: f64 = 16.0;
const LAST: f64 = 6.0;

const LARGEST: u32 = SIZES[SIZES.len() - 1];

/// A line over the sizes for each k.
struct Panel {
    left: f64,
    title: &'static str,
    ticks: Vec<u32>,
    /// What is shown of the counts.
    value: fn(&Counted) -> f64,
    /// How high a value stands, from 0 to 1.
    height: fn(f64) -> f64,
}

/// The decades of one axis, and the days of the other.
const DECADES: f64 = 6.5;
const DAYS: f64 = 50.0;

fn panels() -> [Panel; 2] {
    [
        Panel {
            left: 84.0,
            title: "Days listed over all sets (logarithmic)",
            ticks: (0..7).map(|place| 10u32.pow(place)).collect(),
            value: |counted| f64::from(counted.listed),
            height: |listed| listed.log10() / DECADES,
        },
        Panel {
            left: 468.0,
            title: "Days listed a set, on average",
            ticks: (0..=5).map(|tens| 10 * tens).collect(),
            value: |counted| f64::from(counted.listed) / f64::from(counted.sets),
            height: |days| days / DAYS,
        },
    ]
}

pub fn chart(counted: &[Counted]) -> String {
    let mut svg = Svg::default();
    svg.heading(
        "How vague a tile is: scheme 2 (tile), one tile of N days, k of them altered",
        [
            "Over all sets of k different days of the tile: the days that may have been altered, as far \
             as reading tells.",
            &most(counted),
        ],
    );
    for panel in panels() {
        panel.axes(&mut svg);
        for k in ALTERED {
            curve(&mut svg, k, &panel.points(counted, k));
        }
    }
    svg.whole((WIDTH, HEIGHT), STYLE, "")
}

/// What is listed of the greatest tile.
fn most(counted: &[Counted]) -> String {
    let last = counted.iter().filter(|one| one.n == LARGEST);
    let means = last.filter_map(|one| Some(format!("{} for k = {}", one.mean()?, one.k)));
    let means: Vec<String> = means.collect();
    let means = means.join(", ");
    format!("Of a tile of {LARGEST} days reading lists on average {means}.")
}

impl Panel {
    /// Where N stands from the left.
    fn across(&self, n: u32) -> f64 {
        let step = (ACROSS - FIRST - LAST) / f64::from(LARGEST.ilog2());
        self.left + FIRST + step * f64::from(n.ilog2())
    }

    /// Where a value stands from above.
    fn down(&self, value: f64) -> f64 {
        TOP + DOWN * (1.0 - (self.height)(value))
    }

    fn axes(&self, svg: &mut Svg) {
        let (left, right, bottom) = (self.left, self.left + ACROSS, TOP + DOWN);
        svg.label("panel", left, TOP - 14.0, self.title);
        for tick in &self.ticks {
            let y = self.down((*tick).into());
            svg.line("grid", (left, y), (right, y));
            svg.label("row", left - 8.0, y + 4.0, &grouped((*tick).into()));
        }
        svg.line("axis", (left, bottom), (right, bottom));
        for n in SIZES {
            let x = self.across(n);
            svg.line("axis", (x, bottom), (x, bottom + 5.0));
            svg.label("tick", x, bottom + 18.0, &n.to_string());
        }
        let middle = left + ACROSS / 2.0;
        svg.label("tick", middle, bottom + 38.0, "N, the days of the tile");
    }

    /// Where the counts for k stand, from left to right; none where there is no set.
    fn points(&self, counted: &[Counted], k: u32) -> Vec<(f64, f64)> {
        let some = counted.iter().filter(|one| one.k == k && one.sets > 0);
        some.map(|one| (self.across(one.n), self.down((self.value)(one))))
            .collect()
    }
}

/// A line through the points, a mark at each, and k beside the last.
fn curve(svg: &mut Svg, k: u32, points: &[(f64, f64)]) {
    let mut path = String::new();
    let mut marks = String::new();
    for (x, y) in points {
        let letter = if path.is_empty() { 'M' } else { 'L' };
        path += &format!("{letter}{} {}", short(*x), short(*y));
        marks += &mark(k, *x, *y);
    }
    svg.paths(&format!("curve k{k}"), &path);
    svg.paths(&format!("mark k{k}"), &marks);
    if let Some((x, y)) = points.last() {
        svg.label("key", x + 10.0, y + 4.0, &format!("k = {k}"));
    }
}

/// A disc, a square or a triangle around a point, by k.
fn mark(k: u32, x: f64, y: f64) -> String {
    let at = |x: f64, y: f64| format!("M{} {}", short(x), short(y));
    match k {
        1 => at(x - 3.5, y) + "a3.5 3.5 0 1 0 7 0a3.5 3.5 0 1 0 -7 0z",
        2 => at(x - 3.5, y - 3.5) + "h7v7h-7z",
        _ => at(x - 4.5, y + 3.5) + "h9l-4.5 -8z",
    }
}

/// Marks and dashes tell the lines apart without colour.
const STYLE: &str = "\
.panel { font-size: 13px; font-weight: bold }
.grid { stroke: #d5d5d5; stroke-width: 1 }
.axis { stroke: #222; stroke-width: 1 }
.curve { fill: none; stroke-width: 1.5 }
.mark { stroke-width: 1.5 }
.k1 { stroke: #1f5a8a }
.k2 { stroke: #8f1d14; stroke-dasharray: 7 4 }
.k3 { stroke: #222; stroke-dasharray: 2 3 }
.mark.k1 { fill: #1f5a8a }
.mark.k2 { fill: none; stroke-dasharray: none }
.mark.k3 { fill: #222; stroke-dasharray: none }
";
