//! The targets, judged in every stored run by the worst call on a load, or by the worst of all points of a series.

use crate::growth::{Series, SERIES};
use crate::names::{ratio, searches_of, Ratio, CALLS, MATRIX, MEMCMP, PLAIN, PROVED, SEARCHES};
use crate::summary::{Line, Summary};

/// Which of two ratios is the better one.
#[derive(Clone, Copy, Debug)]
pub enum Better {
    /// The lower one.
    Lower,
    /// The higher one.
    Higher,
}

/// A ratio of some calls, of which the worst counts.
#[derive(Clone, Copy, Debug)]
pub struct Measure {
    /// The part of a run.
    pub part: &'static str,
    /// How the calls begin.
    pub call: &'static str,
    /// The ratio.
    pub ratio: Ratio,
    /// Which ratios are better.
    pub better: Better,
}

/// Where a target is judged.
#[derive(Clone, Copy, Debug, PartialEq, Eq)]
pub enum Place<'a> {
    /// On a load.
    Load(&'a str),
    /// On all points of a series.
    Growth(&'static Series),
}

/// A target.
#[derive(Clone, Copy, Debug)]
pub struct Target {
    /// What stands in the table.
    pub words: &'static str,
    /// What is judged.
    pub measure: Measure,
    /// The worst ratio that meets it.
    pub bound: f64,
    /// The only load that it is about, if it is not about all loads and points that have its calls.
    pub load: Option<&'static str>,
}

/// Each call beside plain Rust.
pub const SLOWNESS: Measure = Measure::lower(CALLS, "", (PROVED, PLAIN));
/// Choose beside the matrix scan.
pub const CHOICE: Measure = Measure::higher(CALLS, "choose", (MATRIX, PROVED));
/// The search of list beside the matrix scan's.
pub const SEARCH: Measure = Measure::lower(SEARCHES, "list", (PROVED, MATRIX));
/// The check of the record beside memcmp.
pub const CHECK: Measure = Measure::lower(CALLS, "interval count", (PROVED, MEMCMP));
/// The check of the record beside plain Rust's.
pub const CHECK_TWIN: Measure = Measure::lower(CALLS, "interval count", (PROVED, PLAIN));
/// Fragmentation beside plain Rust.
pub const SETS: Measure = Measure::lower(CALLS, "fragmentation", (PROVED, PLAIN));
/// Fragmentation beside the flood fill of a cell matrix.
pub const FLOOD: Measure = Measure::higher(CALLS, "fragmentation", (MATRIX, PROVED));
/// Fragmentation beside the flood fill, both without the check.
pub const FLOOD_ALONE: Measure = Measure::lower(SEARCHES, "fragmentation", (PROVED, MATRIX));

/// The least ratio above 1 that a stored run can have: it has four digits.
const ABOVE_ONE: f64 = 1.0001;
/// The greatest ratio below 1 that it can have.
const BELOW_ONE: f64 = 0.9999;

/// The targets.
pub const TARGETS: [Target; 10] = [
    CHECK
        .target(
            "the check of the record takes at most 2 times as long as memcmp",
            2.0,
        )
        .on("empty, 128 rows"),
    CHECK
        .target(
            "the check of the record takes at most 4 times as long as memcmp",
            4.0,
        )
        .on("20 tasks of 5 blocks"),
    CHECK.target(
        "the check of the record takes at most 40 times as long as memcmp",
        40.0,
    ),
    CHECK_TWIN.target(
        "the check of the record takes at most 1.3 times as long as plain's",
        1.3,
    ),
    CHOICE.target(
        "choose is at least 5 times as fast as matrix, check included",
        5.0,
    ),
    SEARCH.target(
        "the search of list is faster than matrix, check left out",
        BELOW_ONE,
    ),
    SLOWNESS.target("each call takes at most 2 times as long as plain", 2.0),
    SETS.target("fragmentation takes at most 2 times as long as plain", 2.0),
    FLOOD.target(
        "fragmentation is faster than the flood fill of matrix, check included",
        ABOVE_ONE,
    ),
    FLOOD_ALONE.target(
        "fragmentation takes at most as long as the flood fill of matrix, check left out",
        1.0,
    ),
];

impl Measure {
    /// A ratio of calls that is better the lower it is.
    const fn lower(part: &'static str, call: &'static str, ratio: Ratio) -> Measure {
        let better = Better::Lower;
        Measure {
            part,
            call,
            ratio,
            better,
        }
    }

    /// A ratio of calls that is better the higher it is.
    const fn higher(part: &'static str, call: &'static str, ratio: Ratio) -> Measure {
        let better = Better::Higher;
        Measure {
            better,
            ..Measure::lower(part, call, ratio)
        }
    }

    /// A target for it, wherever its calls are measured.
    const fn target(self, words: &'static str, bound: f64) -> Target {
        Target {
            words,
            measure: self,
            bound,
            load: None,
        }
    }

    /// The worse of two ratios.
    fn worse(&self, a: f64, b: f64) -> f64 {
        match self.better {
            Better::Lower => a.max(b),
            Better::Higher => a.min(b),
        }
    }

    /// The part of a run that has its figures for a place.
    fn part(&self, place: Place) -> String {
        match place {
            Place::Load(_) => self.part.into(),
            Place::Growth(series) if self.part == SEARCHES => searches_of(series.name),
            Place::Growth(series) => series.name.into(),
        }
    }

    /// The figures of a part that count.
    fn lines<'a>(&self, summary: &'a Summary, part: String) -> impl Iterator<Item = &'a Line> {
        let call = self.call;
        let name = ratio(self.ratio);
        summary.lines.iter().filter(move |line| {
            let key = &line.key;
            key.part == part && key.call.starts_with(call) && key.name == name
        })
    }

    /// The loads on which it is measured, in their order.
    pub fn loads<'a>(&self, summary: &'a Summary) -> Vec<&'a str> {
        let lines = self.lines(summary, self.part.into());
        let mut loads: Vec<&str> = lines.map(|line| line.key.load.as_str()).collect();
        loads.dedup();
        loads
    }

    /// Where it is measured: the loads, and then the series.
    pub fn places<'a>(&self, summary: &'a Summary) -> Vec<Place<'a>> {
        let loads = self.loads(summary).into_iter().map(Place::Load);
        let series = SERIES.iter().map(Place::Growth);
        let is_measured = |place: &Place| self.lines(summary, self.part(*place)).next().is_some();
        loads.chain(series.filter(is_measured)).collect()
    }

    /// The worst ratio of the calls at a place, in each run.
    pub fn worst(&self, summary: &Summary, place: Place) -> Vec<f64> {
        let is_there = |line: &&Line| match place {
            Place::Load(load) => line.key.load == load,
            Place::Growth(_) => true,
        };
        let lines = self.lines(summary, self.part(place)).filter(is_there);
        let by_run = lines.map(|line| line.by_run.clone());
        let worse = |worst: Vec<f64>, other: Vec<f64>| {
            let pairs = worst.into_iter().zip(other);
            pairs.map(|(a, b)| self.worse(a, b)).collect()
        };
        by_run
            .reduce(worse)
            .expect("a place that is judged has a call that counts")
    }
}

impl Place<'_> {
    /// What stands in the table.
    pub fn words(&self) -> String {
        match self {
            Place::Load(load) => load.to_string(),
            Place::Growth(series) => format!("growth: {}", series.axis),
        }
    }
}

impl Target {
    /// The same on one load alone.
    const fn on(self, load: &'static str) -> Target {
        Target {
            load: Some(load),
            ..self
        }
    }

    /// Where it is judged.
    pub fn places<'a>(&self, summary: &'a Summary) -> Vec<Place<'a>> {
        match self.load {
            Some(load) => vec![Place::Load(load)],
            None => self.measure.places(summary),
        }
    }

    /// Whether a ratio meets it.
    pub fn is_met(&self, ratio: f64) -> bool {
        self.measure.worse(ratio, self.bound) == self.bound
    }

    /// In how many of the runs it was met.
    pub fn verdict(&self, by_run: &[f64]) -> String {
        let met = by_run.iter().filter(|&&ratio| self.is_met(ratio)).count();
        let runs = by_run.len();
        match met {
            0 => format!("missed in all {runs} runs"),
            _ if met == runs => format!("met in all {runs} runs"),
            _ => format!("met in {met} of {runs} runs"),
        }
    }
}
