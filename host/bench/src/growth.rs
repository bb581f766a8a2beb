//! How the time of a call grows: with the running tasks, with the blocks of a task, with the rows, and with how crowded
//! the columns are.

use calls::SUBJECTS;

use crate::loads::{busy, comb_probe, combs, empty, mixed_probe, wide_probe, Load, Probe};
use crate::measure::Effort;
use crate::names::{self, CALL_RATIOS, SEARCH_RATIOS};
use crate::rows::{list_alone, place_row, reading_rows, search_rows, Row};
use crate::run::{figures, Figure};
use crate::summary::{Line, Summary};

/// Something that grows.
#[derive(Debug, PartialEq, Eq)]
pub struct Series {
    /// Its name: that of the part of a run, and of the table.
    pub name: &'static str,
    /// What there is so much of.
    pub axis: &'static str,
    /// What stays the same.
    pub beside: &'static str,
    /// The task whose calls are drawn, if there are several.
    pub drawn: Option<&'static str>,
}

/// What grows: each is a part of a run.
pub const SERIES: [Series; 4] = [
    Series {
        name: "tasks",
        axis: "running tasks of 5 blocks",
        beside: "128 rows, a task of 5 blocks",
        drawn: None,
    },
    Series {
        name: "blocks",
        axis: "blocks of the task",
        beside: "128 rows, nothing runs",
        drawn: None,
    },
    Series {
        name: "rows",
        axis: "rows",
        beside: "nothing runs, a task of 5 blocks",
        drawn: None,
    },
    Series {
        name: "teeth",
        axis: "teeth of each of 63 combs",
        beside: "128 rows, a comb of 16 blocks",
        drawn: Some("comb of 16"),
    },
];

/// One point of a line.
#[derive(Clone, Debug, PartialEq)]
pub struct Point {
    /// How many there are.
    pub amount: usize,
    /// The call, with its task if there are several.
    pub call: String,
    /// The implementation.
    pub implementation: String,
    /// The time in ns.
    pub ns: f64,
}

/// How many rounds a row has, of so many on a load: fewer, since there are many points.
pub fn rounds(on_load: usize) -> usize {
    2 * on_load / 3
}

/// A row that names the call alone.
fn without_task(row: Row) -> Row {
    let call = row.call.split(',').next().unwrap_or_default().to_string();
    Row { call, ..row }
}

/// Measures the calls of some tasks for one amount. A call is named with its task if there are several.
fn measure_amount(
    series: &Series,
    amount: usize,
    load: &Load,
    probes: &[Probe],
    effort: Effort,
) -> Vec<Figure> {
    let mut calls = reading_rows(load, effort);
    let mut searches = Vec::new();
    for probe in probes {
        calls.push(place_row(load, probe, effort));
        calls.extend(search_rows(load, probe, effort));
        searches.push(list_alone(load, probe, effort));
    }
    let named = |row: Row| match probes.len() {
        1 => without_task(row),
        _ => row,
    };
    let amount = amount.to_string();
    let part = names::searches_of(series.name);
    let calls = calls.into_iter().map(named);
    let calls = calls.flat_map(|row| figures(series.name, &amount, &row, &CALL_RATIOS));
    let searches = searches.into_iter().map(named);
    let searches = searches.flat_map(|row| figures(&part, &amount, &row, &SEARCH_RATIOS));
    calls.chain(searches).collect()
}

/// Measures all of them.
pub fn measure(effort: Effort) -> Vec<Figure> {
    let rounds = rounds(effort.rounds);
    let effort = Effort { rounds, ..effort };
    let subject = SUBJECTS[0];
    let [tasks, blocks, rows, teeth] = &SERIES;
    let five = [mixed_probe()];
    let both = [mixed_probe(), comb_probe()];
    let mut all = Vec::new();
    for amount in (0..=56).step_by(8) {
        let load = busy(subject, amount);
        all.extend(measure_amount(tasks, amount, &load, &five, effort));
    }
    let load = empty(subject, 128);
    for amount in [1, 2, 4, 8, 12, 16, 20, 24, 28, 32] {
        let wide = [wide_probe(amount)];
        all.extend(measure_amount(blocks, amount, &load, &wide, effort));
    }
    for amount in [16, 24, 32, 48, 64, 80, 96, 112, 128] {
        let load = empty(subject, amount as u32);
        all.extend(measure_amount(rows, amount, &load, &five, effort));
    }
    for amount in [1, 2, 4, 8, 12, 16, 20, 24, 28, 32] {
        let load = combs(subject, amount as i16);
        all.extend(measure_amount(teeth, amount, &load, &both, effort));
    }
    all
}

/// The points of a series: the medians over the runs.
pub fn points(summary: &Summary, series: &Series) -> Vec<Point> {
    let is_part = |line: &&Line| line.key.part == series.name;
    let lines = summary.lines.iter().filter(is_part);
    let point = |line: &Line| {
        let implementation = names::timed(&line.key.name)?;
        (implementation != names::MEMCMP).then_some(())?;
        Some(Point {
            amount: line.key.load.parse().ok()?,
            call: line.key.call.clone(),
            implementation: implementation.into(),
            ns: line.spread().median,
        })
    };
    lines.filter_map(point).collect()
}
