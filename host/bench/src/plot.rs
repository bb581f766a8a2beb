//! The plot of growth as SVG: a panel for each series, a colour for each call, a stroke for each implementation.
//!
//! Times stand at a logarithmic axis, in ns as in the tables, from the least to the greatest of a panel. The plot has a
//! background of its own.

use std::ops::RangeInclusive;

use crate::growth::{points, Point, Series, SERIES};
use crate::names::{MATRIX, PLAIN, PROVED};
use crate::summary::Summary;

/// The size of a panel's inside.
const WIDTH: f64 = 380.0;
const HEIGHT: f64 = 360.0;
/// What is around it: on its left the times, above it what stays the same, below it the amounts.
const LEFT: f64 = 94.0;
const ABOVE: f64 = 44.0;
const BELOW: f64 = 56.0;
/// What is free at the right of a panel.
const RIGHT: f64 = 16.0;
/// The legend above the panels.
const LEGEND: f64 = 68.0;
/// How many panels stand side by side.
const ACROSS: usize = 2;
/// How far the amounts at an axis are apart at least.
const APART: f64 = 23.0;
/// The size of the letters: a page shows the plot smaller than it is.
const LETTERS: f64 = 14.0;

/// What stands over the times.
const UNIT: &str = "ns, logarithmic";
/// What the plot shows, for those who cannot see it.
const TITLE: &str = "Times of the calls over what grows";

const INK: &str = "#222222";
const PALE: &str = "#e4e4e4";
const PAPER: &str = "#ffffff";

/// The calls that are drawn, each in its colour. All of these differ for the colour-blind too.
const CALLS: [(&str, &str); 5] = [
    ("interval count", "#5f5f5f"),
    ("fragmentation", "#b8609a"),
    ("place", "#008f68"),
    ("list", "#0072b2"),
    ("choose", "#d55e00"),
];

/// The implementations, each with what it is called and its stroke: solid, dotted and dashed. The dots are wider than
/// the solid line, so that they are seen on it where both take as long.
const STROKES: [(&str, &str, &str); 3] = [
    (
        PROVED,
        "proved library",
        "stroke-width=\"2\" stroke-dasharray=\"none\"",
    ),
    (
        PLAIN,
        "plain Rust",
        "stroke-width=\"3.4\" stroke-linecap=\"round\" stroke-dasharray=\"0.1 7\"",
    ),
    (
        MATRIX,
        "cell matrix",
        "stroke-width=\"1.6\" stroke-dasharray=\"8 4\"",
    ),
];

/// The times at an axis, in ns: each power of ten, and its double and fivefold.
fn ticks() -> impl Iterator<Item = f64> {
    let powers = (0..12).map(|power| 10f64.powi(power));
    powers.flat_map(|power| [power, 2.0 * power, 5.0 * power])
}

/// A time at the axis, a comma between each three of its digits.
fn time(ns: f64) -> String {
    let digits = format!("{ns:.0}");
    let mut words = String::new();
    for (index, digit) in digits.chars().enumerate() {
        if index > 0 && (digits.len() - index) % 3 == 0 {
            words.push(',');
        }
        words.push(digit);
    }
    words
}

/// A text at a place; the anchor says which of its points stands there.
fn text(x: f64, y: f64, anchor: &str, words: &str) -> String {
    format!("<text x=\"{x:.1}\" y=\"{y:.1}\" text-anchor=\"{anchor}\">{words}</text>\n")
}

/// A straight line.
fn line(from: (f64, f64), to: (f64, f64), look: &str) -> String {
    let ((x1, y1), (x2, y2)) = (from, to);
    format!("<line x1=\"{x1:.1}\" y1=\"{y1:.1}\" x2=\"{x2:.1}\" y2=\"{y2:.1}\" {look}/>\n")
}

/// A line of a panel: a call by an implementation.
struct Curve {
    colour: &'static str,
    stroke: &'static str,
    points: Vec<Point>,
}

/// A panel at a place: its left upper corner, inside.
struct Panel<'a> {
    series: &'a Series,
    curves: Vec<Curve>,
    corner: (f64, f64),
}

/// The curves of a series, in the order of the calls; the dots of plain are drawn over the proved library's line.
fn curves(summary: &Summary, series: &Series) -> Vec<Curve> {
    let all = points(summary, series);
    let mut curves = Vec::new();
    for (call, colour) in CALLS {
        let with_task = series.drawn.map(|task| format!("{call}, {task}"));
        for (implementation, _, stroke) in STROKES {
            let is_of = |point: &&Point| {
                let is_call = point.call == call || Some(&point.call) == with_task.as_ref();
                is_call && point.implementation == implementation
            };
            let points: Vec<Point> = all.iter().filter(is_of).cloned().collect();
            if !points.is_empty() {
                curves.push(Curve {
                    colour,
                    stroke,
                    points,
                });
            }
        }
    }
    curves
}

impl Panel<'_> {
    /// All points of the panel.
    fn points(&self) -> impl Iterator<Item = &Point> {
        self.curves.iter().flat_map(|curve| &curve.points)
    }

    /// The least and the greatest time at the axis: the ticks around all times.
    fn range(&self) -> RangeInclusive<f64> {
        let times = || self.points().map(|point| point.ns);
        let least = times().fold(f64::INFINITY, f64::min);
        let greatest = times().fold(0.0, f64::max);
        let low = ticks().filter(|&tick| tick <= least).last();
        let high = ticks().find(|&tick| tick > greatest);
        low.unwrap_or(1.0)..=high.unwrap_or(1e12)
    }

    /// Where an amount stands.
    fn x(&self, amount: usize) -> f64 {
        let most = self.points().map(|point| point.amount).max();
        self.corner.0 + WIDTH * amount as f64 / most.unwrap_or(1).max(1) as f64
    }

    /// Where a time stands in a range.
    fn y(&self, range: &RangeInclusive<f64>, ns: f64) -> f64 {
        let (low, high) = (range.start().log10(), range.end().log10());
        let part = (ns.log10() - low) / (high - low);
        self.corner.1 + HEIGHT * (1.0 - part)
    }

    /// The times at the left, with a pale line for each.
    fn times(&self, range: &RangeInclusive<f64>) -> String {
        let (left, right) = (self.corner.0, self.corner.0 + WIDTH);
        let tick = |tick: f64| {
            let y = self.y(range, tick);
            let stroke = format!("stroke=\"{PALE}\"");
            line((left, y), (right, y), &stroke) + &text(left - 8.0, y + 5.0, "end", &time(tick))
        };
        let seen = ticks().filter(|tick| range.contains(tick));
        seen.map(tick).collect()
    }

    /// The amounts below, as many as there is room for.
    fn amounts(&self) -> String {
        let mut amounts: Vec<usize> = self.points().map(|point| point.amount).collect();
        amounts.sort();
        amounts.dedup();
        let base = self.corner.1 + HEIGHT;
        let mut svg = String::new();
        let mut free_from = f64::NEG_INFINITY;
        for amount in amounts {
            let x = self.x(amount);
            let stroke = format!("stroke=\"{INK}\"");
            svg += &line((x, base), (x, base + 5.0), &stroke);
            if x >= free_from {
                svg += &text(x, base + 20.0, "middle", &amount.to_string());
                free_from = x + APART;
            }
        }
        svg
    }

    /// The frame, with what grows below it and what stays the same above it.
    fn frame(&self) -> String {
        let (x, y) = self.corner;
        let middle = x + WIDTH / 2.0;
        let frame = format!(
            "<rect x=\"{x:.1}\" y=\"{y:.1}\" width=\"{WIDTH}\" height=\"{HEIGHT}\" fill=\"none\" stroke=\"{INK}\"/>\n"
        );
        let axis = text(middle, y + HEIGHT + 42.0, "middle", self.series.axis);
        frame
            + &format!("<g font-weight=\"bold\">{axis}</g>\n")
            + &text(middle, y - 14.0, "middle", self.series.beside)
            + &text(x - LEFT + 8.0, y - 14.0, "start", UNIT)
    }

    /// A curve.
    fn curve(&self, range: &RangeInclusive<f64>, curve: &Curve) -> String {
        let place =
            |point: &Point| format!("{:.1},{:.1}", self.x(point.amount), self.y(range, point.ns));
        let places: Vec<String> = curve.points.iter().map(place).collect();
        format!(
            "<polyline fill=\"none\" stroke=\"{}\" {} points=\"{}\"/>\n",
            curve.colour,
            curve.stroke,
            places.join(" ")
        )
    }

    /// The panel.
    fn svg(&self) -> String {
        if self.curves.is_empty() {
            return String::new();
        }
        let range = self.range();
        let curves = self.curves.iter().map(|curve| self.curve(&range, curve));
        let curves: String = curves.collect();
        self.times(&range) + &self.amounts() + &curves + &self.frame()
    }
}

/// A short line and what it stands for.
fn key(x: f64, y: f64, look: &str, words: &str) -> String {
    line((x, y), (x + 40.0, y), look) + &text(x + 48.0, y + 5.0, "start", words)
}

/// What the colours and the strokes stand for.
fn legend() -> String {
    let step = 168.0;
    let place = |index: usize| LEFT + step * index as f64;
    let calls = CALLS
        .into_iter()
        .enumerate()
        .map(|(index, (call, colour))| {
            let look = format!("stroke=\"{colour}\" stroke-width=\"4\"");
            key(place(index), 21.0, &look, call)
        });
    let strokes = STROKES.into_iter().enumerate();
    let strokes = strokes.map(|(index, (_, words, stroke))| {
        let look = format!("stroke=\"{INK}\" {stroke}");
        key(place(index), 47.0, &look, words)
    });
    let keys: String = calls.chain(strokes).collect();
    text(8.0, 26.0, "start", "call") + &text(8.0, 52.0, "start", "made by") + &keys
}

/// The whole plot, of the medians over the runs.
pub fn svg(summary: &Summary) -> String {
    let (across, down) = (LEFT + WIDTH + RIGHT, ABOVE + HEIGHT + BELOW);
    let width = ACROSS as f64 * across;
    let height = LEGEND + SERIES.len().div_ceil(ACROSS) as f64 * down;
    let mut svg = format!(
        "<svg xmlns=\"http://www.w3.org/2000/svg\" width=\"{width}\" height=\"{height}\" viewBox=\"0 0 {width} {height}\" \
         font-family=\"sans-serif\" font-size=\"{LETTERS}\" fill=\"{INK}\">\n\
         <title>{TITLE}</title>\n\
         <rect width=\"100%\" height=\"100%\" fill=\"{PAPER}\"/>\n"
    );
    svg += &legend();
    for (index, series) in SERIES.iter().enumerate() {
        let (column, row) = (index % ACROSS, index / ACROSS);
        let x = LEFT + across * column as f64;
        let y = LEGEND + ABOVE + down * row as f64;
        let panel = Panel {
            series,
            curves: curves(summary, series),
            corner: (x, y),
        };
        svg += &panel.svg();
    }
    svg + "</svg>\n"
}
