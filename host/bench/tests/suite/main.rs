//! Loads, rounds, stored runs, summaries and the document, on written data: nothing is timed here.

mod before;
mod pictures;
mod samples;

use std::cell::RefCell;
use std::fs;
use std::path::Path;

use bench::clock::processor_time;
use bench::document::{fill, filled, filled_readme};
use bench::growth::SERIES;
use bench::machine::processor_of;
use bench::measure::{median, quartiles, take_turns, Named, Samples};
use bench::names::{CALL_RATIOS, PLAIN, PROVED};
use bench::rows::Row;
use bench::run::{figures, store, stored, Run};
use bench::summary::{Spread, Stored, Summary};
use bench::targets::{Place, Target, CHECK, CHOICE, FLOOD, SEARCH, SLOWNESS, TARGETS};
use bench::{loads, plot, table};
use calls::{Calls, SUBJECTS};
use oracle::layout::{entry_part, RUNNING_AT};

use samples::{sample, summary};

#[test]
fn the_clock_never_goes_back() {
    let start = processor_time();
    assert!(processor_time() >= start);
}

#[test]
fn quartiles_lie_between_the_numbers_next_to_them() {
    assert_eq!(quartiles(vec![5.0, 1.0, 2.0, 4.0, 3.0]), [2.0, 3.0, 4.0]);
    assert_eq!(median(vec![4.0, 1.0, 2.0, 3.0]), 2.5);
    assert_eq!(quartiles(vec![7.0]), [7.0; 3]);
}

#[test]
fn works_take_turns_and_each_round_begins_with_another() {
    let order = RefCell::new(Vec::new());
    let work = |name: &'static str| -> Named {
        let order = &order;
        let body = move |times: u32| {
            order.borrow_mut().push(name);
            f64::from(times)
        };
        (name, Box::new(body))
    };
    let mut works = ["a", "b", "c"].map(work);
    let samples = take_turns(&mut works, &[1, 2, 3], 4);
    let rounds = order.borrow().concat();
    assert_eq!(rounds, "abcbcacababc");
    assert_eq!(samples["b"], [2.0; 4]);
}

#[test]
fn a_ratio_is_taken_within_a_round() {
    let times = [(PROVED, vec![1.0, 10.0, 4.0]), (PLAIN, vec![1.0, 5.0, 8.0])];
    let row = Row {
        call: "list".into(),
        samples: Samples::from(times),
    };
    let figures = figures("calls", "a card", &row, &CALL_RATIOS);
    let names: Vec<&str> = figures.iter().map(|f| f.key.name.as_str()).collect();
    assert_eq!(names, ["plain ns", "proved ns", "proved / plain"]);
    // The medians of the times, 4 and 5, have another ratio.
    assert_eq!(figures[2].quartiles[1], 1.0);
}

#[test]
fn a_run_is_read_as_it_was_written() {
    let run = sample(1.25);
    assert_eq!(Run::of_text(&run.text()), Ok(run));
}

#[test]
fn a_text_that_is_no_run_is_refused() {
    let text = sample(1.25).text();
    let wrong = [
        text.replace("\n\n", "\n"),
        text.replace("name\tvalue", "names"),
        text.replace("part\tload", "part"),
        text.replace("the kit", "the\nkit"),
        text.replace("\t0.5000", ""),
        text.replace("\t0.5000", "\tNaN"),
        text + "calls\n",
    ];
    for text in wrong {
        assert!(Run::of_text(&text).is_err(), "{text}");
    }
}

#[test]
fn runs_are_stored_by_number_and_none_is_missed() {
    let folder = Path::new(env!("CARGO_TARGET_TMPDIR")).join("stored-runs");
    let _ = fs::remove_dir_all(&folder);
    let runs = [1.0, 2.0, 3.0].map(sample);
    for run in &runs {
        store(&folder, run).expect("a folder to write in");
    }
    assert_eq!(stored(&folder), Ok(runs.to_vec()));
    fs::remove_file(folder.join("run-2.tsv")).expect("the second run");
    assert!(stored(&folder).is_err());
    let path = store(&folder, &runs[1]).expect("a folder to write in");
    assert_eq!(path, folder.join("run-2.tsv"));
    assert_eq!(stored(&folder), Ok(runs.to_vec()));
}

#[test]
fn a_summary_has_the_least_the_median_and_the_greatest_of_the_runs() {
    let name = "proved / plain";
    let found = summary().find("calls", "empty, 128 rows", "choose, 5 blocks", name);
    let spread = Spread {
        least: 1.0,
        median: 1.75,
        greatest: 2.5,
    };
    assert_eq!(found, Some(spread));
    assert_eq!(summary().find("calls", "no card", "list", name), None);
}

#[test]
fn runs_that_are_few_or_of_other_kinds_are_refused() {
    assert!(Summary::of(vec![sample(1.0); 2]).is_err());
    assert!(Summary::of(vec![sample(1.0); 3]).is_ok());
    let mut runs = vec![sample(1.0); 3];
    runs[2].about.insert("compiler".into(), "another".into());
    let fault = Summary::of(runs).map(|_| ());
    assert_eq!(fault, Err("run 3 has another compiler than run 1".into()));
    let mut runs = vec![sample(1.0); 3];
    runs[1].figures.pop();
    let fault = Summary::of(runs).map(|_| ());
    assert_eq!(fault, Err("run 2 has other figures than run 1".into()));
}

/// The target whose words have these in them.
fn target(words: &str) -> Target {
    let found = TARGETS
        .into_iter()
        .find(|target| target.words.contains(words));
    found.expect("a target of these words")
}

#[test]
fn targets_are_judged_in_each_run_by_the_worst_call() {
    let (summary, load) = (summary(), Place::Load("empty, 128 rows"));
    assert_eq!(SLOWNESS.worst(&summary, load), [1.5, 2.5, 1.0, 2.0]);
    assert_eq!(CHOICE.worst(&summary, load), [40.0; 4]);
    assert_eq!(CHECK.worst(&summary, load), [2.0; 4]);
    let stripes = Place::Load("stripes");
    assert_eq!(FLOOD.worst(&summary, stripes), [0.75, 1.25, 0.5, 1.0]);
    let slowness = target("each call");
    assert_eq!(
        slowness.verdict(&[1.5, 2.5, 1.0, 2.0]),
        "met in 3 of 4 runs"
    );
    assert_eq!(slowness.verdict(&[2.0, 1.0]), "met in all 2 runs");
    let choice = target("choose");
    assert_eq!(choice.verdict(&[4.9, 1.0]), "missed in all 2 runs");
    assert_eq!(choice.verdict(&[5.0, 6.0]), "met in all 2 runs");
}

#[test]
fn a_series_is_judged_by_its_worst_point() {
    let summary = summary();
    for series in &SERIES {
        let place = Place::Growth(series);
        // The scan gains least where there is more, and list's own search too.
        assert_eq!(CHOICE.worst(&summary, place), [5.5, 6.5, 5.0, 6.0]);
        assert_eq!(SEARCH.worst(&summary, place), [0.3; 4]);
    }
}

#[test]
fn a_target_is_judged_wherever_its_calls_are_measured() {
    let summary = summary();
    let loads = ["empty, 128 rows", "20 tasks of 5 blocks", "stripes"];
    // The series have no interval count here.
    assert_eq!(CHECK.places(&summary), loads.map(Place::Load));
    assert_eq!(CHECK.loads(&summary), loads);
    let mut places = vec![Place::Load(loads[0]), Place::Load(loads[1])];
    assert_eq!(CHOICE.loads(&summary), &loads[..2]);
    places.extend(SERIES.iter().map(Place::Growth));
    assert_eq!(CHOICE.places(&summary), places);
    assert_eq!(SEARCH.places(&summary), places);
    assert_eq!(FLOOD.places(&summary), [Place::Load("stripes")]);
    let only = target("at most 2 times as long as memcmp").places(&summary);
    assert_eq!(only, [Place::Load("empty, 128 rows")]);
}

#[test]
fn to_take_as_long_is_not_to_be_faster() {
    let flood = target("faster than the flood fill");
    assert!(!flood.is_met(1.0));
    assert!(flood.is_met(1.0001));
    let search = target("search of list is faster than matrix");
    assert!(!search.is_met(1.0));
    assert!(search.is_met(0.9999));
}

#[test]
fn the_check_is_judged_on_every_load_and_more_strictly_on_two() {
    let bounds = [
        (
            "at most 2 times as long as memcmp",
            Some("empty, 128 rows"),
            2.0,
        ),
        (
            "at most 4 times as long as memcmp",
            Some("20 tasks of 5 blocks"),
            4.0,
        ),
        ("at most 40 times as long as memcmp", None, 40.0),
        ("at most 1.3 times as long as plain's", None, 1.3),
    ];
    for (words, load, bound) in bounds {
        let target = target(words);
        assert_eq!((target.load, target.bound), (load, bound), "{words}");
        assert!(target.is_met(bound) && !target.is_met(bound + 0.01));
    }
}

/// Fragmentation of a record by each measured implementation: sets, free cells and degree.
fn fragmentation_by_all(record: &[u8]) -> Vec<[i32; 3]> {
    let numbers = |call: &dyn Fn(&mut i32, &mut i32) -> i32| {
        let (mut free, mut degree) = (0, 0);
        let sets = call(&mut free, &mut degree);
        [sets, free, degree]
    };
    let subjects = SUBJECTS.iter();
    let by_subject =
        |subject: &&dyn Calls| numbers(&|free, degree| subject.fragmentation(record, free, degree));
    let mut all: Vec<_> = subjects.map(by_subject).collect();
    all.push(numbers(&|free, degree| {
        matrix::fragmentation(record, free, degree)
    }));
    all
}

#[test]
fn all_that_is_measured_finds_the_loads_broken_up_alike() {
    let subject = SUBJECTS[0];
    // A free row of the stripes is one set, and a free cell of the chessboard.
    let known = [
        (loads::empty(subject, 128), [1, 48 * 128 + 16 * 51, 0]),
        (loads::stripes(subject), [32, 2_048, 151]),
        (loads::chessboard(subject), [2_048, 2_048, 10_000]),
    ];
    for (load, numbers) in known {
        assert_eq!(fragmentation_by_all(&load.record), [numbers; 3]);
    }
    let others = [
        loads::busy(subject, 20),
        loads::busy(subject, 60),
        loads::combs(subject, 8),
        loads::combs(subject, 32),
        loads::rakes(subject),
    ];
    for load in others {
        let all = fragmentation_by_all(&load.record);
        assert_eq!(all, [all[0]; 3], "{}", load.name);
    }
}

#[test]
fn loads_have_the_tasks_and_blocks_that_they_are_named_after() {
    let subject = SUBJECTS[0];
    for (load, name, tasks, blocks) in [
        (loads::busy(subject, 60), "60 tasks of 5 blocks", 60, 5),
        (loads::combs(subject, 32), "63 combs of 32 blocks", 63, 32),
        (loads::rakes(subject), "63 rakes of 32 blocks", 63, 32),
    ] {
        assert_eq!(load.name, name);
        assert_eq!(load.record[RUNNING_AT], tasks);
        for entry in 0..usize::from(tasks) {
            // The number of blocks, and the columns of the first and the last one.
            let entry = &load.record[entry_part(entry)];
            assert_eq!(entry[3], blocks);
            let last = 6 * usize::from(blocks);
            assert_eq!(entry[6], 0);
            let is_wide = entry[last] >= 31;
            assert_eq!(is_wide, name.contains("rakes"));
        }
    }
}

#[test]
fn records_begin_where_a_cache_line_does() {
    let load = loads::empty(SUBJECTS[0], 128);
    for record in [&load.record, &load.record.clone()] {
        assert_eq!(record.as_ptr() as usize % 64, 0);
    }
}

#[test]
fn tables_have_the_figures_of_all_runs() {
    let summary = summary();
    let calls = table::calls(&summary);
    let row = "| empty, 128 rows | choose, 5 blocks | – | – | – | 1.75 (1.00 to 2.50) | 40.0 (40.0 to 40.0) | – |\n";
    assert!(calls.contains(row), "{calls}");
    let searches = table::searches(&summary);
    assert!(
        searches.contains("| 0.013 (0.013 to 0.013) |"),
        "{searches}"
    );
    let targets = table::targets(&summary);
    let row = "| 20 tasks of 5 blocks | 9.00 (9.00 to 9.00) | missed in all 4 runs |\n";
    assert!(targets.contains(row), "{targets}");
    let row = "| growth: rows | 5.75 (5.00 to 6.50) | met in all 4 runs |\n";
    assert!(targets.contains(row), "{targets}");
    let [_, _, rows, teeth] = &SERIES;
    let growth = table::growth(&summary, rows);
    assert!(
        growth.contains("| 16 | – | – | – | 3000 | – | – | 300000 | – |\n"),
        "{growth}"
    );
    let growth = table::growth(&summary, teeth);
    assert!(
        growth.contains("| 16 | – | – | – | – | – | 3000 | – | – | – | – | 300000 | – |\n"),
        "{growth}"
    );
    let row = "| stripes | 0.88 (0.50 to 1.25) | met in 1 of 4 runs |\n";
    assert!(targets.contains(row), "{targets}");
    // The lines at the top state the worst run.
    let top = table::top(&summary);
    assert_eq!(top.lines().count(), 4);
    let flood = "in times of the first: 0.90 (stripes). The flood fill took at least, in times of fragmentation: 0.50 (stripes).\n";
    assert!(top.contains(flood), "{top}");
    assert!(
        top.contains(": 2.50 (empty, 128 rows); 2.50 (20 tasks of 5 blocks); 0.90 (stripes).\n"),
        "{top}"
    );
}

#[test]
fn a_part_is_filled_between_its_marks() {
    let text = "before\n<!-- bench: rows -->\nold\n<!-- end -->\nafter\n";
    let new = "before\n<!-- bench: rows -->\n\nnew\n\n<!-- end -->\nafter\n";
    assert_eq!(fill(text, "rows", "new\n").as_deref(), Ok(new));
    assert_eq!(fill(new, "rows", "new\n").as_deref(), Ok(new));
    assert!(fill(text, "calls", "new\n").is_err());
    assert!(fill("<!-- bench: rows -->\n", "rows", "new\n").is_err());
}

#[test]
fn the_processor_is_named_by_the_systems_text() {
    let one =
        "processor\t: 0\ncpu family\t: 25\nmodel\t\t: 1\nmodel name\t: Sample 7\nstepping\t: 2\n";
    let text = format!("{one}\n{}", one.replace(": 0", ": 1"));
    let named = "Sample 7, family 25, model 1, stepping 2; 2 of them";
    assert_eq!(processor_of(&text).as_deref(), Some(named));
    assert_eq!(processor_of("processor: 0\n"), None);
}

#[test]
fn the_document_and_the_plot_are_those_of_the_stored_runs() {
    let docs = Path::new(env!("CARGO_MANIFEST_DIR")).join("../../docs");
    let stored = Stored::read(&docs.join("performance")).expect("stored runs");
    let text = fs::read_to_string(docs.join("PERFORMANCE.md")).expect("the document");
    let is_same = filled(&text, &stored).as_deref() == Ok(&text);
    assert!(is_same, "`bench document` makes the document anew");
    let text = fs::read_to_string(docs.join("../README.md")).expect("the README");
    let is_same = filled_readme(&text, &stored.now).as_deref() == Ok(&text);
    assert!(is_same, "`bench document` makes its lines on speed anew");
    let svg = fs::read_to_string(docs.join("performance/growth.svg")).expect("the plot");
    assert!(
        svg == plot::svg(&stored.now),
        "`bench document` makes the plot anew"
    );
}
