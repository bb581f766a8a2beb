//! The figures of all stored runs side by side: what is stated is never that of one run.

use std::path::Path;

use crate::measure::median;
use crate::run::{stored, Figure, Key, Run};

/// How many runs there must be before anything is stated.
pub const LEAST_RUNS: usize = 3;

/// A figure in all runs.
#[derive(Clone, Debug, PartialEq)]
pub struct Line {
    /// What it is of.
    pub key: Key,
    /// Its median over the rounds, in each run.
    pub by_run: Vec<f64>,
}

/// Where some numbers lie.
#[derive(Clone, Copy, Debug, PartialEq)]
pub struct Spread {
    /// The least of them.
    pub least: f64,
    /// The middle of them.
    pub median: f64,
    /// The greatest of them.
    pub greatest: f64,
}

/// The figures of all runs.
#[derive(Clone, Debug)]
pub struct Summary {
    /// The runs.
    pub runs: Vec<Run>,
    /// Their figures, in the order of the runs.
    pub lines: Vec<Line>,
}

/// Where some numbers lie, at least one.
pub fn spread(numbers: &[f64]) -> Spread {
    Spread {
        least: numbers.iter().copied().fold(f64::INFINITY, f64::min),
        median: median(numbers.to_vec()),
        greatest: numbers.iter().copied().fold(f64::NEG_INFINITY, f64::max),
    }
}

impl Line {
    /// Where the runs lie.
    pub fn spread(&self) -> Spread {
        spread(&self.by_run)
    }
}

/// What all runs must have in common.
pub const COMMON: [&str; 3] = ["compiler", "kit", "processor"];

/// What two runs must have in common and have not, if anything.
fn unlike(first: &Run, run: &Run) -> Option<&'static str> {
    let differs = |name: &&str| run.about.get(*name) != first.about.get(*name);
    COMMON.into_iter().find(differs)
}

/// What keeps a run from standing beside the first one, if anything does.
fn difference(first: &Run, run: &Run) -> Option<String> {
    if let Some(name) = unlike(first, run) {
        return Some(format!("another {name}"));
    }
    let keys = |run: &Run| -> Vec<Key> { run.figures.iter().map(|f| f.key.clone()).collect() };
    (keys(run) != keys(first)).then(|| "other figures".into())
}

impl Summary {
    /// Sets runs side by side; they must be enough, and of the same figures, compiler, kit and processor.
    pub fn of(runs: Vec<Run>) -> Result<Summary, String> {
        if runs.len() < LEAST_RUNS {
            return Err(format!("{} runs, and not {LEAST_RUNS}", runs.len()));
        }
        for (index, run) in runs.iter().enumerate() {
            if let Some(difference) = difference(&runs[0], run) {
                return Err(format!("run {} has {difference} than run 1", index + 1));
            }
        }
        let line = |(index, figure): (usize, &Figure)| Line {
            key: figure.key.clone(),
            by_run: runs
                .iter()
                .map(|run| run.figures[index].quartiles[1])
                .collect(),
        };
        let lines = runs[0].figures.iter().enumerate().map(line).collect();
        Ok(Summary { runs, lines })
    }

    /// The loads of a part, in their order.
    pub fn loads(&self, part: &str) -> Vec<&str> {
        let lines = self.lines.iter().filter(|line| line.key.part == part);
        let mut loads: Vec<&str> = lines.map(|line| line.key.load.as_str()).collect();
        loads.dedup();
        loads
    }

    /// The calls of a part on a load, in their order.
    pub fn calls(&self, part: &str, load: &str) -> Vec<&str> {
        let is_there = |line: &&Line| line.key.part == part && line.key.load == load;
        let lines = self.lines.iter().filter(is_there);
        let mut calls: Vec<&str> = lines.map(|line| line.key.call.as_str()).collect();
        calls.dedup();
        calls
    }

    /// Where the runs lie in one figure, if they have it.
    pub fn find(&self, part: &str, load: &str, call: &str, name: &str) -> Option<Spread> {
        let key = Key {
            part: part.into(),
            load: load.into(),
            call: call.into(),
            name: name.into(),
        };
        let line = self.lines.iter().find(|line| line.key == key)?;
        Some(line.spread())
    }
}

/// The folder, in that of the runs, with runs of the library before a change.
pub const BEFORE: &str = "before";

/// All that is stored.
#[derive(Clone, Debug)]
pub struct Stored {
    /// The runs of the library as it is.
    pub now: Summary,
    /// Those of the library before a change, if there are any.
    pub before: Option<Summary>,
}

impl Stored {
    /// Reads the runs of a folder. Those before must have been made with the same compiler, kit and processor.
    pub fn read(folder: &Path) -> Result<Stored, String> {
        let now = Summary::of(stored(folder)?)?;
        let folder = folder.join(BEFORE);
        if !folder.exists() {
            return Ok(Stored { now, before: None });
        }
        let before = Summary::of(stored(&folder)?).map_err(|fault| format!("before: {fault}"))?;
        if let Some(name) = unlike(&now.runs[0], &before.runs[0]) {
            return Err(format!("the runs before have another {name}"));
        }
        let before = Some(before);
        Ok(Stored { now, before })
    }
}
