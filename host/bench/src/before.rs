//! Before and after a change of the library: what each proved call took of a comparison of two records, then and now.

use crate::growth::SERIES;
use crate::names::{ratio, time, CALLS, MEMCMP, PROVED};
use crate::summary::{Line, Spread, Summary};
use crate::table::{own, shown_spread, table, NONE};

/// How many times as long as before a call may take.
const SLOWER: f64 = 1.05;

/// What a change is judged to be; the worse ones are greater.
#[derive(Clone, Copy, Debug, PartialEq, Eq, PartialOrd, Ord)]
pub enum Verdict {
    /// By the medians, it takes no longer than it may.
    Met,
    /// It takes longer by the medians, but the runs lie so far apart that this says nothing.
    Within,
    /// It takes longer.
    Slower,
}

impl Verdict {
    /// What stands in the table.
    fn words(self) -> &'static str {
        match self {
            Verdict::Met => "met",
            Verdict::Within => "within the spread",
            Verdict::Slower => "slower",
        }
    }
}

/// A proved call in some runs.
#[derive(Clone, Copy, Debug, PartialEq)]
pub struct Took {
    /// Its time, in times of memcmp.
    pub ratio: Spread,
    /// The median of its times in ns, if they are stored.
    pub ns: Option<f64>,
}

/// A call before and after.
#[derive(Clone, Debug, PartialEq)]
pub struct Change {
    /// The load, or the point of a series.
    pub place: String,
    /// The call.
    pub call: String,
    /// What it took before.
    pub before: Took,
    /// What it took after.
    pub after: Took,
}

impl Change {
    /// How many times as long it takes as before, by the medians.
    pub fn quotient(&self) -> f64 {
        self.after.ratio.median / self.before.ratio.median
    }

    /// Whether it takes longer than it may.
    pub fn verdict(&self) -> Verdict {
        let least = self.after.ratio.least / self.before.ratio.greatest;
        match (self.quotient(), least) {
            (quotient, _) if quotient <= SLOWER => Verdict::Met,
            (_, least) if least <= SLOWER => Verdict::Within,
            _ => Verdict::Slower,
        }
    }

    /// The row of the table.
    fn row(&self) -> Vec<String> {
        let ns = |took: Took| took.ns.map_or(NONE.into(), |ns| format!("{ns:.0}"));
        vec![
            self.place.clone(),
            self.call.clone(),
            ns(self.before),
            ns(self.after),
            shown_spread(self.before.ratio),
            shown_spread(self.after.ratio),
            quotient(self),
            self.verdict().words().into(),
        ]
    }
}

/// What the call of a figure took in some runs, if they have it.
fn took(summary: &Summary, line: &Line) -> Option<Took> {
    let key = &line.key;
    let find = |name: &str| summary.find(&key.part, &key.load, &key.call, name);
    Some(Took {
        ratio: find(&key.name)?,
        ns: find(&time(PROVED)).map(|spread| spread.median),
    })
}

/// The change of a figure, if both have it; the place is that of the figure, under a name.
fn change(before: &Summary, after: &Summary, line: &Line, place: String) -> Option<Change> {
    Some(Change {
        place,
        call: line.key.call.clone(),
        before: took(before, line)?,
        after: took(after, line)?,
    })
}

/// The figures of a part that are compared.
fn lines<'a>(summary: &'a Summary, part: &'a str) -> impl Iterator<Item = &'a Line> {
    let name = ratio((PROVED, MEMCMP));
    let is_compared = move |line: &&Line| line.key.part == part && line.key.name == name;
    summary.lines.iter().filter(is_compared)
}

/// The one of two changes with the greater quotient, and of equal ones the first.
fn greater(a: Change, b: Change) -> Change {
    if b.quotient() > a.quotient() {
        b
    } else {
        a
    }
}

/// The one of two changes that is the worse: by what it is judged to be, and then by the quotient.
fn worse(a: Change, b: Change) -> Change {
    if a.verdict() == b.verdict() {
        greater(a, b)
    } else if a.verdict() < b.verdict() {
        b
    } else {
        a
    }
}

/// The worst of each call, in the order of the calls.
fn worst_of_each(changes: &[Change]) -> Vec<Change> {
    let mut worst: Vec<Change> = Vec::new();
    for change in changes {
        match worst.iter_mut().find(|other| other.call == change.call) {
            Some(other) => *other = worse(other.clone(), change.clone()),
            None => worst.push(change.clone()),
        }
    }
    worst
}

/// Runs before and after, call by call.
#[derive(Clone, Debug, PartialEq)]
pub struct Comparison {
    /// Every call on every load, and of each series the worst point of each call.
    pub changes: Vec<Change>,
    /// The greatest quotient, of all loads and points; none where nothing is compared.
    pub greatest: Option<Change>,
    /// How many figures, on loads and at points, only one of the two has.
    pub alone: usize,
}

impl Comparison {
    /// Compares them.
    pub fn of(before: &Summary, after: &Summary) -> Comparison {
        let changes_of = |part: &str, place: &dyn Fn(&str) -> String| -> Vec<Change> {
            let lines = lines(after, part);
            let changes = lines.filter_map(|line| {
                let place = place(&line.key.load);
                change(before, after, line, place)
            });
            changes.collect()
        };
        let mut changes = changes_of(CALLS, &|load| load.into());
        let mut all = changes.clone();
        for series in &SERIES {
            let of_series = changes_of(series.name, &|load| format!("{}: {load}", series.axis));
            changes.extend(worst_of_each(&of_series));
            all.extend(of_series);
        }
        let parts = || std::iter::once(CALLS).chain(SERIES.iter().map(|series| series.name));
        let count = |summary| -> usize { parts().map(|part| lines(summary, part).count()).sum() };
        Comparison {
            changes,
            alone: count(before) + count(after) - 2 * all.len(),
            greatest: all.into_iter().reduce(greater),
        }
    }

    /// How many are judged to be so.
    fn count(&self, verdict: Verdict) -> usize {
        let verdicts = self.changes.iter().map(Change::verdict);
        verdicts.filter(|&other| other == verdict).count()
    }

    /// How many have no partner, in words.
    fn alone_words(&self) -> String {
        match self.alone {
            0 => "Every row has a partner.".into(),
            1 => "1 row has no partner.".into(),
            alone => format!("{alone} rows have no partner."),
        }
    }

    /// The first line; none where nothing is compared.
    fn first_line(&self) -> Option<String> {
        let greatest = self.greatest.as_ref()?;
        Some(format!(
            "Of {} calls compared, {} are met, {} are within the spread of the runs, and {} are slower; \
             the greatest quotient of medians is {} ({}, {}). {}\n",
            self.changes.len(),
            self.count(Verdict::Met),
            self.count(Verdict::Within),
            self.count(Verdict::Slower),
            quotient(greatest),
            greatest.place,
            greatest.call,
            self.alone_words(),
        ))
    }
}

/// A quotient, with three digits after the point: a hundredth more is to be seen.
fn quotient(change: &Change) -> String {
    format!("{:.3}", change.quotient())
}

/// The part of the document: how many calls are slower, the table, and the runs before; or that there are none.
pub fn part(before: Option<&Summary>, after: &Summary) -> String {
    let Some(before) = before else {
        return "No runs of an earlier library are stored.\n".into();
    };
    let comparison = Comparison::of(before, after);
    let Some(first_line) = comparison.first_line() else {
        return "The stored runs have no call in common.\n".into();
    };
    let heads = [
        "load, or worst point",
        "call",
        "proved ns before",
        "proved ns after",
        "proved / memcmp before",
        "proved / memcmp after",
        "after / before",
        "judged",
    ];
    let rows: Vec<Vec<String>> = comparison.changes.iter().map(Change::row).collect();
    format!(
        "{first_line}\n{}\nThe runs before:\n\n{}",
        table(&heads.map(String::from), &rows),
        own(before, "performance/before"),
    )
}
