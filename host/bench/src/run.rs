//! A run: what was measured, with what, and its form as a text of fields parted by tabs.
//!
//! First the names and values of what is said about the run, then an empty line, then a line for
//! each figure. Both have a line of names before them.

use std::collections::BTreeMap;
use std::fs;
use std::path::{Path, PathBuf};

use crate::measure::quartiles;
use crate::names::{self, Ratio};
use crate::rows::Row;

/// What a figure is of.
#[derive(Clone, Debug, PartialEq, Eq)]
pub struct Key {
    /// The part of the run.
    pub part: String,
    /// The load, or the amount of what grows.
    pub load: String,
    /// The call.
    pub call: String,
    /// The name of the time or of the ratio.
    pub name: String,
}

/// A figure of a run.
#[derive(Clone, Debug, PartialEq)]
pub struct Figure {
    /// What it is of.
    pub key: Key,
    /// The lower quartile, the median and the upper quartile over the rounds.
    pub quartiles: [f64; 3],
}

/// What is said about a run, by names.
pub type About = BTreeMap<String, String>;

/// A run.
#[derive(Clone, Debug, PartialEq)]
pub struct Run {
    /// What is said about it.
    pub about: About,
    /// Its figures.
    pub figures: Vec<Figure>,
}

/// The figures of a row: every time, and the ratios, each taken within its round.
pub fn figures(part: &str, load: &str, row: &Row, ratios: &[Ratio]) -> Vec<Figure> {
    let figure = |name, by_round| Figure {
        key: Key {
            part: part.into(),
            load: load.into(),
            call: row.call.clone(),
            name,
        },
        quartiles: quartiles(by_round),
    };
    let times = row.samples.iter();
    let times = times.map(|(name, times)| figure(names::time(name), times.clone()));
    let ratios = ratios.iter().filter_map(|&(over, under)| {
        let pairs = row.samples.get(over)?.iter().zip(row.samples.get(under)?);
        let by_round = pairs.map(|(over, under)| over / under).collect();
        Some(figure(names::ratio((over, under)), by_round))
    });
    times.chain(ratios).collect()
}

/// The names over what is said about a run.
const ABOUT_NAMES: &str = "name\tvalue";
/// The names over the figures.
const FIGURE_NAMES: &str = "part\tload\tcall\tfigure\tlower quartile\tmedian\tupper quartile";

impl Figure {
    /// The figure as a line.
    fn line(&self) -> String {
        let Key {
            part,
            load,
            call,
            name,
        } = &self.key;
        // No more digits than say something: a time is in ns.
        let digits = if names::timed(name).is_some() { 0 } else { 4 };
        let [lower, median, upper] = self.quartiles;
        format!("{part}\t{load}\t{call}\t{name}\t{lower:.digits$}\t{median:.digits$}\t{upper:.digits$}\n")
    }

    /// The figure of a line; none where it is not of that form.
    fn of_line(line: &str) -> Option<Figure> {
        let fields: Vec<&str> = line.split('\t').collect();
        let [part, load, call, name, lower, median, upper] = fields[..] else {
            return None;
        };
        let number = |field: &str| field.parse().ok().filter(|number: &f64| number.is_finite());
        Some(Figure {
            key: Key {
                part: part.into(),
                load: load.into(),
                call: call.into(),
                name: name.into(),
            },
            quartiles: [number(lower)?, number(median)?, number(upper)?],
        })
    }
}

impl Run {
    /// The run as a text.
    pub fn text(&self) -> String {
        let mut text = format!("{ABOUT_NAMES}\n");
        for (name, value) in &self.about {
            text += &format!("{name}\t{value}\n");
        }
        text += &format!("\n{FIGURE_NAMES}\n");
        self.figures
            .iter()
            .for_each(|figure| text += &figure.line());
        text
    }

    /// The run of a text, or what is wrong with it.
    pub fn of_text(text: &str) -> Result<Run, String> {
        let (about, figures) = text.split_once("\n\n").ok_or("no empty line")?;
        let about = below(about, ABOUT_NAMES)?.map(|line| {
            let (name, value) = line.split_once('\t').ok_or(format!("no value: {line}"))?;
            Ok((name.to_string(), value.to_string()))
        });
        let figures = below(figures, FIGURE_NAMES)?
            .map(|line| Figure::of_line(line).ok_or(format!("no figure: {line}")));
        Ok(Run {
            about: about.collect::<Result<_, String>>()?,
            figures: figures.collect::<Result<_, String>>()?,
        })
    }
}

/// The lines below the line of names.
fn below<'a>(text: &'a str, names: &str) -> Result<impl Iterator<Item = &'a str>, String> {
    let mut lines = text.lines();
    match lines.next() {
        Some(first) if first == names => Ok(lines),
        _ => Err(format!("no line of names: {names}")),
    }
}

/// How the file of a run begins and ends, around its number.
const FILE: (&str, &str) = ("run-", ".tsv");

/// The file of a run.
fn file(folder: &Path, number: usize) -> PathBuf {
    let (start, end) = FILE;
    folder.join(format!("{start}{number}{end}"))
}

/// Stores a run under the next number, and answers its file.
pub fn store(folder: &Path, run: &Run) -> Result<PathBuf, String> {
    let fault = |error| format!("{}: {error}", folder.display());
    fs::create_dir_all(folder).map_err(fault)?;
    let is_free = |number: &usize| !file(folder, *number).exists();
    let path = file(folder, (1..).find(is_free).unwrap_or_default());
    fs::write(&path, run.text()).map_err(fault)?;
    Ok(path)
}

/// How many runs are stored.
fn count(folder: &Path) -> Result<usize, String> {
    let fault = |error| format!("{}: {error}", folder.display());
    let mut runs = 0;
    for entry in fs::read_dir(folder).map_err(fault)? {
        let name = entry.map_err(fault)?.file_name();
        let name = name.to_string_lossy();
        runs += usize::from(name.starts_with(FILE.0) && name.ends_with(FILE.1));
    }
    Ok(runs)
}

/// All stored runs; their numbers go from 1 on, so that none is missed.
pub fn stored(folder: &Path) -> Result<Vec<Run>, String> {
    let read = |path: PathBuf| {
        let text = fs::read_to_string(&path).map_err(|error| error.to_string());
        let run = text.and_then(|text| Run::of_text(&text));
        run.map_err(|fault| format!("{}: {fault}", path.display()))
    };
    let numbers = 1..=count(folder)?;
    numbers.map(|number| read(file(folder, number))).collect()
}
