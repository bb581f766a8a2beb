//! Runs of the library before a change, beside those after it.

use std::fs;
use std::path::{Path, PathBuf};

use bench::before::{part, Change, Comparison, Took, Verdict};
use bench::run::{store, Run};
use bench::summary::{spread, Stored, Summary, BEFORE};

use crate::samples::{sample, summary};

/// A run whose figures of a call at a place, beside memcmp, are so many times as great as in the sample.
fn slower(call: &str, load: &str, times: f64) -> Run {
    let mut run = sample(1.0);
    for figure in &mut run.figures {
        let key = &figure.key;
        if key.name == "proved / memcmp" && key.call == call && key.load == load {
            figure.quartiles = figure.quartiles.map(|number| times * number);
        }
    }
    run
}

/// A summary of three such runs.
fn slower_summary(call: &str, load: &str, times: f64) -> Summary {
    Summary::of(vec![slower(call, load, times); 3]).expect("runs of one kind")
}

#[test]
fn every_call_on_a_load_and_the_worst_point_of_a_series_are_compared() {
    // Before, the check took twice as long on one load, and list the same at all points.
    let before = slower_summary("interval count", "20 tasks of 5 blocks", 2.0);
    let comparison = Comparison::of(&before, &summary());
    let seen: Vec<(&str, &str)> = comparison
        .changes
        .iter()
        .map(|change| (change.place.as_str(), change.call.as_str()))
        .collect();
    let wanted = [
        ("empty, 128 rows", "interval count"),
        ("20 tasks of 5 blocks", "interval count"),
        ("stripes", "interval count"),
        ("running tasks of 5 blocks: 8", "list"),
        ("blocks of the task: 8", "list"),
        ("rows: 8", "list"),
        ("teeth of each of 63 combs: 8", "list, comb of 16"),
    ];
    assert_eq!(seen, wanted);
    let quotients = comparison.changes.iter().map(Change::quotient);
    let quotients: Vec<f64> = quotients.collect();
    assert_eq!(quotients, [1.0, 0.5, 1.0, 1.0, 1.0, 1.0, 1.0]);
    assert_eq!(comparison.alone, 0);
}

/// A call that took so long before and after, in each run.
fn change(before: [f64; 3], after: [f64; 3]) -> Change {
    let took = |by_run: [f64; 3]| Took {
        ratio: spread(&by_run),
        ns: None,
    };
    Change {
        place: "a card".into(),
        call: "list".into(),
        before: took(before),
        after: took(after),
    }
}

#[test]
fn a_call_is_slower_by_its_medians_unless_the_runs_lie_too_far_apart() {
    for (before, after, verdict) in [
        ([1.0; 3], [1.0; 3], Verdict::Met),
        ([1.0; 3], [1.05; 3], Verdict::Met),
        ([1.0; 3], [1.06; 3], Verdict::Slower),
        // One run is no median.
        ([1.0; 3], [1.0, 1.0, 9.0], Verdict::Met),
        ([1.0; 3], [1.05, 2.0, 2.0], Verdict::Within),
        ([1.0; 3], [1.06, 2.0, 2.0], Verdict::Slower),
        ([1.0, 1.0, 1.9], [1.9, 2.0, 2.0], Verdict::Within),
        ([1.0, 1.0, 1.9], [2.0; 3], Verdict::Slower),
    ] {
        let judged = change(before, after).verdict();
        assert_eq!(judged, verdict, "{before:?}, {after:?}");
    }
}

#[test]
fn the_first_line_counts_and_names_the_greatest_wherever_it_is() {
    let before = slower_summary("list", "16", 0.5);
    let text = part(Some(&before), &summary());
    let first_line =
        "Of 7 calls compared, 4 are met, 0 are within the spread of the runs, and 3 are slower; \
         the greatest quotient of medians is 2.000 (running tasks of 5 blocks: 16, list). Every row has a partner.\n\n\
         | load, or worst point |";
    assert!(text.starts_with(first_line), "{text}");
    let row = "| running tasks of 5 blocks: 16 | list | 3000 | 3000 | 3.00 (3.00 to 3.00) | 6.00 (6.00 to 6.00) | 2.000 | slower |\n";
    assert!(text.contains(row), "{text}");
    // No time in ns is stored there.
    let row = "| stripes | interval count | – | – | 160 (160 to 160) | 160 (160 to 160) | 1.000 | met |\n";
    assert!(text.contains(row), "{text}");
    assert!(text.contains("| [3](performance/before/run-3.tsv) | the rounds |\n"));
}

#[test]
fn a_slower_point_is_shown_though_one_within_the_spread_has_the_greater_quotient() {
    // Before, one run of three was far slower at 16.
    let mut runs = vec![slower("list", "16", 0.4); 3];
    for run in &mut runs {
        let at_8 = slower("list", "8", 0.5);
        for (figure, other) in run.figures.iter_mut().zip(at_8.figures) {
            if other.key.load == "8" {
                *figure = other;
            }
        }
    }
    let far = slower("list", "16", 2.0);
    for (figure, other) in runs[0].figures.iter_mut().zip(far.figures) {
        if other.key.load == "16" {
            *figure = other;
        }
    }
    let before = Summary::of(runs).expect("runs of one kind");
    let comparison = Comparison::of(&before, &summary());
    let shown = &comparison.changes[3];
    assert_eq!(shown.place, "running tasks of 5 blocks: 8");
    assert_eq!((shown.quotient(), shown.verdict()), (2.0, Verdict::Slower));
    let greatest = comparison.greatest.expect("there are calls");
    assert_eq!(greatest.place, "running tasks of 5 blocks: 16");
    assert_eq!(greatest.verdict(), Verdict::Within);
}

#[test]
fn what_only_one_side_has_is_counted_and_not_compared() {
    let mut run = sample(1.0);
    run.figures.retain(|figure| figure.key.load == "stripes");
    let few = Summary::of(vec![run; 3]).expect("runs of one kind");
    // On two loads, and at two points of each of four series.
    for (before, after) in [(&few, &summary()), (&summary(), &few)] {
        let comparison = Comparison::of(before, after);
        assert_eq!(comparison.changes.len(), 1);
        assert_eq!(comparison.alone, 10);
        let text = part(Some(before), after);
        assert!(text.contains(" 10 rows have no partner.\n"), "{text}");
    }
    let mut run = sample(1.0);
    run.figures.clear();
    let none = Summary::of(vec![run; 3]).expect("runs of one kind");
    assert_eq!(part(Some(&none), &summary()).lines().count(), 1);
    assert_eq!(part(None, &summary()).lines().count(), 1);
}

/// An empty folder of this name.
fn folder(name: &str) -> PathBuf {
    let folder = Path::new(env!("CARGO_TARGET_TMPDIR")).join(name);
    let _ = fs::remove_dir_all(&folder);
    folder
}

/// Stores a run three times.
fn store_thrice(folder: &Path, run: &Run) {
    for _ in 0..3 {
        store(folder, run).expect("a folder to write in");
    }
}

#[test]
fn runs_before_are_read_from_their_folder() {
    let folder = folder("with-before");
    store_thrice(&folder, &sample(1.0));
    let stored = Stored::read(&folder).expect("three runs");
    assert!(stored.before.is_none());
    store_thrice(&folder.join(BEFORE), &sample(2.0));
    let stored = Stored::read(&folder).expect("three runs and three before");
    let before = stored.before.expect("they are there");
    assert_eq!(before.runs, vec![sample(2.0); 3]);
    assert_eq!(stored.now.runs, vec![sample(1.0); 3]);
}

#[test]
fn runs_before_that_are_few_or_of_another_machine_are_refused() {
    let folder = folder("with-other-before");
    store_thrice(&folder, &sample(1.0));
    let mut other = sample(1.0);
    other.about.insert("processor".into(), "another".into());
    store(&folder.join(BEFORE), &other).expect("a folder to write in");
    let fault = Stored::read(&folder).map(|_| ());
    assert_eq!(fault, Err("before: 1 runs, and not 3".into()));
    for _ in 0..2 {
        store(&folder.join(BEFORE), &other).expect("a folder to write in");
    }
    let fault = Stored::read(&folder).map(|_| ());
    assert_eq!(fault, Err("the runs before have another processor".into()));
}
