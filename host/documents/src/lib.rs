//! What the documents point at: links, clauses, and the names in the map of proofs.
//!
//! The tests compare the documents with the files that are there: [`links`] finds the links of a
//! text, [`clauses`] the clauses that it states or cites, and [`map`] reads the rows of
//! `docs/PROOFS.md`, in which names follow the file that declares them.

#![deny(missing_docs)]
#![forbid(unsafe_code)]

use std::fs;
use std::io;
use std::path::{Path, PathBuf};

pub mod clauses;
pub mod map;

/// The top folder of the repository.
pub fn top() -> PathBuf {
    Path::new(env!("CARGO_MANIFEST_DIR")).join("../..")
}

/// The documents: the README and the texts of `docs/` and `examples/`, by their names.
pub fn texts() -> io::Result<Vec<PathBuf>> {
    let mut found = vec![top().join("README.md")];
    for folder in ["docs", "examples"] {
        let files = files(&top().join(folder))?;
        found.extend(files.into_iter().filter(|path| ends_with(path, "md")));
    }
    found.sort();
    Ok(found)
}

/// The files in a folder and below it, by their names.
pub fn files(folder: &Path) -> io::Result<Vec<PathBuf>> {
    let mut found = Vec::new();
    for entry in fs::read_dir(folder)? {
        let path = entry?.path();
        if path.is_dir() {
            found.extend(files(&path)?);
        } else {
            found.push(path);
        }
    }
    found.sort();
    Ok(found)
}

/// Whether a file's name has this ending.
pub fn ends_with(path: &Path, ending: &str) -> bool {
    path.extension().is_some_and(|found| found == ending)
}

/// The files of the repository that a text links to, in their order: in `[..](path)`, and in lines
/// `[label]: path`.
pub fn links(text: &str) -> Vec<&str> {
    let beside = text.split("](").skip(1);
    let beside = beside.filter_map(|rest| rest.split_once(')').map(|(path, _)| path));
    let below = map::references(text).into_iter().map(|(_, path)| path);
    beside
        .chain(below)
        .filter(|path| !path.contains("://"))
        .collect()
}

/// Whether a link names a line of its file.
pub fn names_a_line(link: &str) -> bool {
    link.contains("#L")
}

/// Whether a source file declares a name.
pub fn declared(source: &str, name: &str) -> bool {
    source.lines().any(|line| declares(line, name))
}

/// Words that stand before the name where it is declared.
const BEFORE: [&str; 13] = [
    "pub",
    "pub(crate)",
    "abbrev",
    "unfoldable",
    "record",
    "data",
    "extern",
    "\"C\"",
    "fn",
    "struct",
    "enum",
    "const",
    "trait",
];

/// Whether a line declares a name: in a definition's file it goes before a colon, in code after
/// `fn` and the like.
fn declares(line: &str, name: &str) -> bool {
    let mut marked = false;
    for word in line.split_whitespace() {
        if BEFORE.contains(&word) {
            marked = true;
            continue;
        }
        let rest = match word.strip_prefix(name) {
            Some(rest) if !line.trim_start().starts_with("//") => rest,
            _ => return false,
        };
        let after = line[line.find(word).unwrap_or(0) + word.len()..].trim_start();
        return match rest {
            "" => marked || after.starts_with(':'),
            _ => marked && rest.starts_with(['(', '<', ':', ';']),
        };
    }
    false
}
