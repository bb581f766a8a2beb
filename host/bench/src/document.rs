//! The documents: written by hand, but for the parts between two marks, which are made from the stored runs.

use crate::growth::SERIES;
use crate::summary::{Stored, Summary};
use crate::{before, table};

/// The line before a part.
fn mark(name: &str) -> String {
    format!("<!-- bench: {name} -->\n")
}

/// The line after a part.
const END: &str = "<!-- end -->\n";

/// A text with the part of a name made anew, or what is wrong with the text.
pub fn fill(text: &str, name: &str, part: &str) -> Result<String, String> {
    let mark = mark(name);
    let missing = || format!("the document lacks {}", mark.trim());
    let (before, rest) = text.split_once(&mark).ok_or_else(missing)?;
    let (_, after) = rest
        .split_once(END)
        .ok_or_else(|| format!("the part {name} has no end"))?;
    Ok(format!("{before}{mark}\n{part}\n{END}{after}"))
}

/// The README with its lines on speed made anew.
pub fn filled_readme(text: &str, summary: &Summary) -> Result<String, String> {
    fill(text, "top", &table::top(summary))
}

/// The document with all its parts made anew.
pub fn filled(text: &str, stored: &Stored) -> Result<String, String> {
    let summary = &stored.now;
    let mut parts = vec![
        ("top", table::top(summary)),
        ("targets", table::targets(summary)),
        ("calls", table::calls(summary)),
        ("searches", table::searches(summary)),
        ("runs", table::runs(summary)),
        ("before", before::part(stored.before.as_ref(), summary)),
    ];
    parts.extend(SERIES.map(|series| (series.name, table::growth(summary, &series))));
    parts
        .iter()
        .try_fold(text.to_string(), |text, (name, part)| {
            fill(&text, name, part)
        })
}
