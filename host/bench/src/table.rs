//! The Markdown tables, and the lines at the top, from all stored runs.

use crate::growth::{points, Series};
use crate::names::{
    ratio, time, Ratio, CALLS, CALL_RATIOS, MATRIX, PLAIN, PROVED, SEARCHES, SEARCH_RATIOS,
};
use crate::run::Run;
use crate::summary::{spread, Spread, Summary, COMMON};
use crate::targets::{Better, Measure, Place, CHECK, CHOICE, FLOOD, SETS, SLOWNESS, TARGETS};

/// What stands where there is no figure.
pub const NONE: &str = "–";

/// One line of a table.
fn line(cells: &[String]) -> String {
    format!("| {} |\n", cells.join(" | "))
}

/// A table.
pub fn table(heads: &[String], rows: &[Vec<String>]) -> String {
    let marks = vec!["---".to_string(); heads.len()];
    let rows: String = rows.iter().map(|row| line(row)).collect();
    line(heads) + &line(&marks) + &rows
}

/// A ratio, with about three digits.
pub fn shown(ratio: f64) -> String {
    let digits = match ratio.abs() {
        size if size < 0.1 => 3,
        size if size < 10.0 => 2,
        size if size < 100.0 => 1,
        _ => 0,
    };
    format!("{ratio:.digits$}")
}

/// A ratio in all runs.
pub fn shown_spread(spread: Spread) -> String {
    let Spread {
        least,
        median,
        greatest,
    } = spread;
    format!(
        "{} ({} to {})",
        shown(median),
        shown(least),
        shown(greatest)
    )
}

/// The cells of a call on a load, with the figures that it has.
fn cells(summary: &Summary, place: [&str; 3], times: &[&str], ratios: &[Ratio]) -> Vec<String> {
    let [part, load, call] = place;
    let find = |name: String| summary.find(part, load, call, &name);
    let times = times.iter().map(|name| {
        let found = find(time(name));
        found.map(|spread| format!("{:.0}", spread.median))
    });
    let ratios = ratios
        .iter()
        .map(|&pair| find(ratio(pair)).map(shown_spread));
    let figures = times.chain(ratios);
    let figures = figures.map(|found| found.unwrap_or(NONE.into()));
    let names = [load.to_string(), call.to_string()];
    names.into_iter().chain(figures).collect()
}

/// A table of a part: each call on each load, with times and ratios.
fn part(summary: &Summary, part: &str, times: &[&str], ratios: &[Ratio]) -> String {
    let mut heads = vec!["load".to_string(), "call".to_string()];
    heads.extend(times.iter().map(|name| time(name)));
    heads.extend(ratios.iter().map(|&pair| ratio(pair)));
    let mut rows = Vec::new();
    for load in summary.loads(part) {
        for call in summary.calls(part, load) {
            rows.push(cells(summary, [part, load, call], times, ratios));
        }
    }
    table(&heads, &rows)
}

/// The table of the calls.
pub fn calls(summary: &Summary) -> String {
    part(summary, CALLS, &[PROVED, PLAIN, MATRIX], &CALL_RATIOS)
}

/// The table of the searches alone.
pub fn searches(summary: &Summary) -> String {
    part(summary, SEARCHES, &[PLAIN, MATRIX], &SEARCH_RATIOS)
}

/// The table of the targets.
pub fn targets(summary: &Summary) -> String {
    let heads = [
        "target",
        "load, or what grows",
        "worst call: median (least to greatest)",
        "judged",
    ];
    let mut rows = Vec::new();
    for target in TARGETS {
        for place in target.places(summary) {
            let by_run = target.measure.worst(summary, place);
            rows.push(vec![
                target.words.to_string(),
                place.words(),
                shown_spread(spread(&by_run)),
                target.verdict(&by_run),
            ]);
        }
    }
    table(&heads.map(String::from), &rows)
}

/// The worst ratio of all runs on each load that has one, as words.
fn by_load(summary: &Summary, measure: Measure) -> String {
    let loads = measure.loads(summary);
    let words = |load: &&str| {
        let by_run = spread(&measure.worst(summary, Place::Load(load)));
        let worst = match measure.better {
            Better::Lower => by_run.greatest,
            Better::Higher => by_run.least,
        };
        format!("{} ({load})", shown(worst))
    };
    loads.iter().map(words).collect::<Vec<_>>().join("; ")
}

/// The lines at the top.
pub fn top(summary: &Summary) -> String {
    let slowness = by_load(summary, SLOWNESS);
    let choice = by_load(summary, CHOICE);
    let check = by_load(summary, CHECK);
    let sets = by_load(summary, SETS);
    let flood = by_load(summary, FLOOD);
    format!(
        "- **A call beside the same algorithm in unverified Rust**, for a task of 5 blocks or a comb of 16. The slowest took at most, in times of the other: {slowness}.\n\
         - **Choosing beside the scan of a cell matrix**, for the same tasks. Where it gains least, the scan took at least, in times of choosing: {choice}.\n\
         - **The check of the record beside a comparison of its bytes**; every call but new makes it. It took at most, in times of the other: {check}.\n\
         - **Fragmentation beside the same algorithm in unverified Rust, and beside the flood fill of a cell matrix.** It took at most, in times of the first: {sets}. The flood fill took at least, in times of fragmentation: {flood}.\n"
    )
}

/// What is said about the runs.
pub fn runs(summary: &Summary) -> String {
    let value = |name: &str| {
        let value = summary.runs[0].about.get(name);
        value.map_or(NONE, String::as_str)
    };
    let common = COMMON.map(|name| format!("- {name}: {}\n", value(name)));
    format!("{}\n{}", common.concat(), own(summary, "performance"))
}

/// A table of what is said about each run by itself, with the file of the run in a folder.
pub fn own(summary: &Summary, folder: &str) -> String {
    let names = summary.runs[0].about.keys().map(String::as_str);
    let own: Vec<&str> = names.filter(|name| !COMMON.contains(name)).collect();
    let mut heads = vec!["run".to_string()];
    heads.extend(own.iter().map(|name| name.to_string()));
    let row = |(run, number): (&Run, usize)| {
        let link = format!("[{number}]({folder}/run-{number}.tsv)");
        let value = |name: &&str| run.about.get(*name).map_or(NONE, String::as_str).into();
        std::iter::once(link).chain(own.iter().map(value)).collect()
    };
    let rows: Vec<Vec<String>> = summary.runs.iter().zip(1..).map(row).collect();
    table(&heads, &rows)
}

/// The calls of a growth table that are made without a task, or with the only one.
const GROWING: [(&str, &str); 8] = [
    (PROVED, "interval count"),
    (PROVED, "fragmentation"),
    (PROVED, "place"),
    (PROVED, "list"),
    (PROVED, "choose"),
    (MATRIX, "fragmentation"),
    (MATRIX, "list"),
    (MATRIX, "choose"),
];

/// The calls of the growth table with two tasks.
const GROWING_BY_TASK: [(&str, &str); 12] = [
    (PROVED, "interval count"),
    (PROVED, "fragmentation"),
    (PROVED, "list, 5 blocks"),
    (PROVED, "choose, 5 blocks"),
    (PROVED, "place, comb of 16"),
    (PROVED, "list, comb of 16"),
    (PROVED, "choose, comb of 16"),
    (MATRIX, "fragmentation"),
    (MATRIX, "list, 5 blocks"),
    (MATRIX, "choose, 5 blocks"),
    (MATRIX, "list, comb of 16"),
    (MATRIX, "choose, comb of 16"),
];

/// The calls of a series' table, with their implementations.
fn growing(series: &Series) -> &'static [(&'static str, &'static str)] {
    match series.drawn {
        None => &GROWING,
        Some(_) => &GROWING_BY_TASK,
    }
}

/// The table of a series.
pub fn growth(summary: &Summary, series: &Series) -> String {
    let points = points(summary, series);
    let mut heads = vec![series.name.to_string()];
    let head = |&(implementation, call): &(&str, &str)| match implementation {
        PROVED => call.to_string(),
        _ => format!("{implementation} {call}"),
    };
    heads.extend(growing(series).iter().map(head));
    let mut amounts: Vec<usize> = points.iter().map(|point| point.amount).collect();
    amounts.dedup();
    let row = |amount: usize| {
        let cell = |&(implementation, call): &(&str, &str)| {
            let mut points = points.iter();
            let point = points.find(|point| {
                point.amount == amount
                    && point.implementation == implementation
                    && point.call == call
            });
            point.map_or(NONE.into(), |point| format!("{:.0}", point.ns))
        };
        let cells = growing(series).iter().map(cell);
        std::iter::once(amount.to_string()).chain(cells).collect()
    };
    let rows: Vec<Vec<String>> = amounts.into_iter().map(row).collect();
    table(&heads, &rows)
}
