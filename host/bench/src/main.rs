//! The benchmark.
//!
//!     bench run [--quick] [--before] FOLDER
//!         measures, and stores the run in FOLDER/performance under the next number
//!     bench document FOLDER
//!         makes the tables of FOLDER/PERFORMANCE.md, the plot and the README's lines on speed from all stored runs
//!
//! A run takes about two minutes, and is made with `--release`. `--quick` makes fewer rounds, for a try. With
//! `--before` it is a run of the library before a change, and is stored in FOLDER/performance/before.

#![deny(missing_docs)]
#![forbid(unsafe_code)]

use std::error::Error;
use std::path::{Path, PathBuf};
use std::process::ExitCode;
use std::time::{Duration, Instant};
use std::{env, fs};

use bench::clock::processor_time;
use bench::loads::{self, Load};
use bench::measure::Effort;
use bench::names::{CALLS, CALL_RATIOS, SEARCHES, SEARCH_RATIOS};
use bench::run::{figures, About, Figure, Run};
use bench::summary::{Stored, BEFORE};
use bench::{document, growth, machine, plot, rows, run};
use calls::{Calls, SUBJECTS};

/// How many rounds a row has.
const ROUNDS: usize = 301;
/// How many it has when only trying.
const QUICK_ROUNDS: usize = 11;
/// Four turns are shorter than a time slice, so that most rounds are not broken off. A call that takes longer is a turn by itself.
const TURN: Duration = Duration::from_micros(200);

/// Makes loads; every implementation must come to the same records.
fn made<const N: usize>(build: impl Fn(&'static dyn Calls) -> [Load; N]) -> [Load; N] {
    let loads = build(SUBJECTS[0]);
    for &subject in &SUBJECTS[1..] {
        let same = build(subject);
        let is_same = loads.iter().zip(&same).all(|(a, b)| a.record == b.record);
        assert!(is_same, "{} comes to other records", subject.name());
    }
    loads
}

/// The loads on which every call is measured.
fn loads() -> [Load; 6] {
    made(|subject| {
        [
            loads::empty(subject, 128),
            loads::busy(subject, 20),
            loads::busy(subject, 60),
            loads::combs(subject, 8),
            loads::combs(subject, 32),
            loads::rakes(subject),
        ]
    })
}

/// The two loads on which 64 tasks run; only calls without a task are measured.
fn full_loads() -> [Load; 2] {
    made(|subject| [loads::stripes(subject), loads::chessboard(subject)])
}

/// Measures the calls on every load.
fn measure_calls(effort: Effort) -> Vec<Figure> {
    let probes = [loads::mixed_probe(), loads::comb_probe()];
    let mut all = Vec::new();
    for load in &loads() {
        let mut calls = rows::simple_rows(load, effort);
        for probe in &probes {
            calls.push(rows::place_row(load, probe, effort));
            calls.push(rows::release_row(load, probe, effort));
            calls.extend(rows::search_rows(load, probe, effort));
        }
        for row in calls {
            all.extend(figures(CALLS, &load.name, &row, &CALL_RATIOS));
        }
    }
    for load in &full_loads() {
        for row in rows::simple_rows(load, effort) {
            all.extend(figures(CALLS, &load.name, &row, &CALL_RATIOS));
        }
    }
    all
}

/// Measures every search on every load.
fn measure_searches(effort: Effort) -> Vec<Figure> {
    let probes = [loads::mixed_probe(), loads::comb_probe()];
    let mut all = Vec::new();
    for load in &loads() {
        let mut rows = vec![rows::fragmentation_alone(load, effort)];
        for probe in &probes {
            rows.push(rows::list_alone(load, probe, effort));
            rows.push(rows::choose_alone(load, probe, effort));
        }
        for row in rows {
            all.extend(figures(SEARCHES, &load.name, &row, &SEARCH_RATIOS));
        }
    }
    for load in &full_loads() {
        let row = rows::fragmentation_alone(load, effort);
        all.extend(figures(SEARCHES, &load.name, &row, &SEARCH_RATIOS));
    }
    all
}

/// Makes a run: all that is measured, with what it was measured with.
fn make_run(effort: Effort) -> Result<Run, String> {
    let mut about = About::from([
        ("compiler".into(), machine::compiler().into()),
        ("kit".into(), machine::kit()?),
        ("processor".into(), machine::processor()?),
        ("rounds".into(), effort.rounds.to_string()),
        (
            "rounds for growth".into(),
            growth::rounds(effort.rounds).to_string(),
        ),
    ]);
    let (start, start_on_processor) = (Instant::now(), processor_time());
    let mut figures = measure_calls(effort);
    figures.extend(measure_searches(effort));
    figures.extend(growth::measure(effort));
    let on_processor = processor_time() - start_on_processor;
    let share = on_processor.as_secs_f64() / start.elapsed().as_secs_f64();
    about.insert(
        "time on a processor".into(),
        format!("{:.0} %", 100.0 * share),
    );
    Ok(Run { about, figures })
}

/// What a run is asked to be.
#[derive(Clone, Copy, Default)]
struct Request {
    is_quick: bool,
    is_before: bool,
}

impl Request {
    /// What some words ask for; none where one is not known.
    fn of(words: &[&str]) -> Option<Request> {
        let mut request = Request::default();
        for word in words {
            match *word {
                "--quick" => request.is_quick = true,
                "--before" => request.is_before = true,
                _ => return None,
            }
        }
        Some(request)
    }

    /// Where in a folder the run is stored.
    fn place(&self, folder: &Path) -> PathBuf {
        let runs = folder.join("performance");
        match self.is_before {
            true => runs.join(BEFORE),
            false => runs,
        }
    }
}

/// Makes a run and stores it.
fn store_run(folder: &Path, request: Request) -> Result<(), Box<dyn Error>> {
    if cfg!(debug_assertions) {
        return Err("a run is made with --release".into());
    }
    let rounds = match request.is_quick {
        true => QUICK_ROUNDS,
        false => ROUNDS,
    };
    let effort = Effort { rounds, turn: TURN };
    let path = run::store(&request.place(folder), &make_run(effort)?)?;
    println!("{}", path.display());
    Ok(())
}

/// Makes the document and the plot anew.
fn write_document(folder: &Path) -> Result<(), Box<dyn Error>> {
    let runs = folder.join("performance");
    let stored = Stored::read(&runs)?;
    let path = folder.join("PERFORMANCE.md");
    let text = document::filled(&fs::read_to_string(&path)?, &stored)?;
    fs::write(path, text)?;
    let readme = folder.join("../README.md");
    let text = document::filled_readme(&fs::read_to_string(&readme)?, &stored.now)?;
    fs::write(readme, text)?;
    fs::write(runs.join("growth.svg"), plot::svg(&stored.now))?;
    Ok(())
}

/// Does what some words ask for.
fn done(words: &[&str]) -> Result<(), Box<dyn Error>> {
    let usage = "usage: bench run [--quick] [--before] FOLDER | bench document FOLDER";
    match *words {
        ["run", ref options @ .., folder] if !folder.starts_with("--") => {
            let request = Request::of(options).ok_or(usage)?;
            store_run(folder.as_ref(), request)
        }
        ["document", folder] => write_document(folder.as_ref()),
        _ => Err(usage.into()),
    }
}

fn main() -> ExitCode {
    let words: Vec<String> = env::args().skip(1).collect();
    let words: Vec<&str> = words.iter().map(String::as_str).collect();
    match done(&words) {
        Ok(()) => ExitCode::SUCCESS,
        Err(fault) => {
            eprintln!("bench: {fault}");
            ExitCode::FAILURE
        }
    }
}

#[cfg(test)]
mod tests {
    use super::{done, Request};
    use std::path::Path;

    /// Where in a folder a run of some words is stored, and whether it is a quick one.
    fn place(words: &[&str]) -> Option<(String, bool)> {
        let request = Request::of(words)?;
        let place = request.place(Path::new("docs"));
        Some((place.to_string_lossy().into(), request.is_quick))
    }

    #[test]
    fn a_run_before_has_a_folder_of_its_own() {
        let (runs, before) = ("docs/performance", "docs/performance/before");
        assert_eq!(place(&[]), Some((runs.into(), false)));
        assert_eq!(place(&["--quick"]), Some((runs.into(), true)));
        assert_eq!(place(&["--before"]), Some((before.into(), false)));
        let both = Some((before.into(), true));
        assert_eq!(place(&["--before", "--quick"]), both);
        assert_eq!(place(&["--quick", "--before"]), both);
    }

    #[test]
    fn words_that_are_not_known_are_refused() {
        for words in [
            &[][..],
            &["run"],
            &["run", "--before"],
            &["run", "--slow", "docs"],
        ] {
            let fault = done(words).expect_err("nothing to do");
            assert!(fault.to_string().starts_with("usage"), "{fault}");
        }
    }
}
