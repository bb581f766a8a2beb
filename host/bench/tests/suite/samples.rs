//! Written runs, in which every figure is known.

use bench::run::{About, Figure, Key, Run};
use bench::summary::Summary;

/// A figure whose quartiles are one number.
pub fn figure(part: &str, load: &str, call: &str, name: &str, value: f64) -> Figure {
    Figure {
        key: Key {
            part: part.into(),
            load: load.into(),
            call: call.into(),
            name: name.into(),
        },
        quartiles: [value; 3],
    }
}

/// The figures on two loads with all calls, whose slowest takes so many times as long as plain.
fn on_loads(slowest: f64) -> Vec<Figure> {
    let (empty, busy) = ("empty, 128 rows", "20 tasks of 5 blocks");
    let mut figures = Vec::new();
    for (load, check) in [(empty, 2.0), (busy, 9.0)] {
        let count = "interval count";
        figures.push(figure("calls", load, count, "proved ns", 1000.0));
        figures.push(figure("calls", load, count, "proved / plain", 0.5));
        figures.push(figure("calls", load, count, "proved / memcmp", check));
        let choose = "choose, 5 blocks";
        figures.push(figure("calls", load, choose, "proved / plain", slowest));
        figures.push(figure("calls", load, choose, "matrix / proved", 40.0));
        let list = "list, 5 blocks";
        figures.push(figure("searches", load, list, "proved / matrix", 0.0125));
    }
    figures
}

/// The figures of a series at two amounts, with a task's name behind the calls if it has several.
fn of_series(series: &str, task: &str, slowest: f64) -> Vec<Figure> {
    let mut figures = Vec::new();
    let (list, choose) = (format!("list{task}"), format!("choose{task}"));
    let searches = format!("searches, {series}");
    for (amount, ns) in [("8", 1500.0), ("16", 3000.0)] {
        for (name, value) in [
            ("proved ns", ns),
            ("plain ns", 0.8 * ns),
            ("matrix ns", 100.0 * ns),
            ("memcmp ns", 500.0),
            ("proved / memcmp", ns / 500.0),
        ] {
            figures.push(figure(series, amount, &list, name, value));
        }
        let gain = 12_000.0 / ns + slowest;
        figures.push(figure(series, amount, &choose, "matrix / proved", gain));
        figures.push(figure(
            &searches,
            amount,
            &list,
            "proved / matrix",
            1e-4 * ns,
        ));
    }
    figures
}

/// A small run, whose slowest call on the empty card takes so many times as long as plain.
pub fn sample(slowest: f64) -> Run {
    let mut figures = on_loads(slowest);
    // A load on which calls with a task are not measured.
    for (call, name, value) in [
        ("interval count", "proved / memcmp", 160.0),
        ("fragmentation", "proved / plain", 0.9),
        ("fragmentation", "matrix / proved", 0.5 * slowest),
    ] {
        figures.push(figure("calls", "stripes", call, name, value));
    }
    for series in ["tasks", "blocks", "rows"] {
        figures.extend(of_series(series, "", slowest));
    }
    figures.extend(of_series("teeth", ", comb of 16", slowest));
    let about = ["compiler", "kit", "processor", "rounds"];
    let about = about.map(|name| (name.to_string(), format!("the {name}")));
    Run {
        about: About::from(about),
        figures,
    }
}

/// Four runs, in one of which plain was not kept up with.
pub fn summary() -> Summary {
    Summary::of([1.5, 2.5, 1.0, 2.0].map(sample).into()).expect("runs of one kind")
}
