//! The documents point at what is there: files, names, clauses and must-fail edits.

use std::collections::{BTreeMap, BTreeSet};
use std::fs;
use std::path::{Path, PathBuf};

use documents::clauses::{
    cited, cited_as_model, outside_brackets, section_number, sections, Clause, Section,
};
use documents::map::{references, rows, Row};
use documents::{declared, ends_with, files, links, names_a_line, texts, top};

/// A text of the repository.
fn read(path: &Path) -> String {
    fs::read_to_string(path).unwrap_or_else(|error| panic!("{}: {error}", path.display()))
}

/// The words between backticks.
fn quoted(text: &str) -> impl Iterator<Item = &str> {
    text.split('`').skip(1).step_by(2)
}

/// A document, by its name.
fn document(name: &str) -> String {
    read(&top().join("docs").join(name))
}

/// The sections of the model.
fn model() -> Vec<Section> {
    sections(&document("MODEL.md"))
}

/// The clauses of the model.
fn stated() -> BTreeSet<Clause> {
    let sections = model().into_iter();
    sections.flat_map(|section| section.clauses).collect()
}

/// The rows of the map of proofs.
fn map() -> Vec<Row> {
    rows(&document("PROOFS.md")).unwrap_or_else(|fault| panic!("PROOFS.md: {fault}"))
}

/// The clauses that a row answers: what its first cell has in brackets only says more.
fn answered(row: &Row) -> Vec<Clause> {
    cited(&outside_brackets(&row.what))
}

#[test]
fn every_link_points_at_a_file() {
    for path in texts().expect("the documents") {
        let folder = path.parent().expect("a folder");
        for link in links(&read(&path)) {
            let there = folder.join(link).exists() && !names_a_line(link);
            assert!(there, "{}: {link}", path.display());
        }
    }
}

#[test]
fn no_document_links_to_a_line() {
    for path in texts().expect("the documents") {
        assert!(!names_a_line(&read(&path)), "{}", path.display());
    }
}

#[test]
fn every_path_that_a_document_names_is_there() {
    for path in texts().expect("the documents") {
        let text = read(&path);
        let folders = ["crates/", "host/", "docs/", "examples/"];
        let named = quoted(&text).filter(|word| folders.iter().any(|f| word.starts_with(f)));
        for word in named.filter(|word| !word.contains(['*', '{', ' '])) {
            assert!(top().join(word).exists(), "{}: {word}", path.display());
        }
    }
}

#[test]
fn clauses_are_numbered_in_order() {
    let mut before = Clause {
        section: 0,
        number: 0,
    };
    for section in model() {
        assert!(!section.clauses.is_empty(), "{}", section.heading);
        for clause in section.clauses {
            assert_eq!(clause.section, section.number, "{}", section.heading);
            assert!(before < clause, "{clause:?} behind {before:?}");
            before = clause;
        }
    }
}

#[test]
fn every_clause_that_a_document_cites_is_there() {
    let stated = stated();
    for name in ["MODEL.md", "PROOFS.md"] {
        for clause in cited(&document(name)) {
            assert!(stated.contains(&clause), "{name}: {clause:?}");
        }
    }
    for path in texts().expect("the documents") {
        for clause in cited_as_model(&read(&path)) {
            assert!(stated.contains(&clause), "{}: {clause:?}", path.display());
        }
    }
}

/// The files of crates, examples and host crates, without what cargo builds.
fn sources() -> Vec<PathBuf> {
    let host = fs::read_dir(top().join("host")).expect("the host crates");
    let host = host.map(|entry| entry.expect("an entry").path());
    let built = |path: &PathBuf| !path.is_dir() || path.ends_with("target");
    let folders = ["crates", "examples"].map(|folder| top().join(folder));
    let folders = folders.into_iter().chain(host.filter(|path| !built(path)));
    folders
        .flat_map(|folder| files(&folder).expect("a folder"))
        .collect()
}

#[test]
fn every_clause_that_a_comment_cites_is_there() {
    let stated = stated();
    for path in sources() {
        let endings = ["antt", "rt", "edit", "rs", "h", "c"];
        let source = endings.iter().any(|ending| ends_with(&path, ending));
        let text = if source { read(&path) } else { continue };
        for clause in cited_as_model(&text) {
            assert!(stated.contains(&clause), "{}: {clause:?}", path.display());
        }
    }
}

#[test]
fn every_clause_has_its_row() {
    let told: BTreeSet<Clause> = map().iter().flat_map(answered).collect();
    let stated = stated();
    let untold: Vec<&Clause> = stated.difference(&told).collect();
    assert!(untold.is_empty(), "PROOFS.md leaves out {untold:?}");
}

#[test]
fn the_map_has_the_headings_of_the_model() {
    let headings = document("PROOFS.md");
    let headings = headings
        .lines()
        .filter(|line| section_number(line).is_some());
    let told: Vec<String> = headings.map(|line| line["## ".len()..].into()).collect();
    let round = |heading: &str| heading.replace('[', "(").replace(']', ")");
    let sections = model();
    let expected: Vec<String> = sections.iter().map(|s| round(&s.heading)).collect();
    assert_eq!(told, expected);
}

#[test]
fn the_rows_follow_the_model() {
    let mut firsts: BTreeMap<String, Clause> = BTreeMap::new();
    for row in map() {
        let Some(section) = section_number(&format!("## {}", row.heading)) else {
            continue;
        };
        let place = format!("{}: {}", row.heading, row.what);
        let clauses = answered(&row);
        let of_section = |clause: &Clause| clause.section == section;
        assert!(clauses.iter().all(of_section), "{place}");
        let first = clauses.first().copied();
        let before = firsts.insert(row.heading, first.unwrap_or_else(|| panic!("{place}")));
        assert!(before <= first, "{place}");
    }
    assert_eq!(firsts.len(), model().len(), "sections with rows");
}

/// The path of each label of the map.
fn paths() -> BTreeMap<String, PathBuf> {
    let text = document("PROOFS.md");
    let docs = top().join("docs");
    let pairs = references(&text).into_iter();
    pairs
        .map(|(label, path)| (label.into(), docs.join(path)))
        .collect()
}

#[test]
fn every_label_has_one_path_and_is_used() {
    let text = document("PROOFS.md");
    let mut labels = BTreeSet::new();
    for (label, _) in references(&text) {
        // Markdown takes labels for equal that differ in capitals alone.
        assert!(labels.insert(label.to_lowercase()), "twice: {label}");
    }
    let used: BTreeSet<String> = map()
        .into_iter()
        .flat_map(|row| row.groups)
        .map(|group| group.label)
        .collect();
    let known: BTreeSet<String> = paths().into_keys().collect();
    let unused: Vec<&String> = known.difference(&used).collect();
    let unknown: Vec<&String> = used.difference(&known).collect();
    assert!(unused.is_empty(), "labels that no row has: {unused:?}");
    assert!(unknown.is_empty(), "labels without a path: {unknown:?}");
}

/// Whether a name stands in a file, or is that of a file in a folder.
fn stands_in(path: &Path, name: &str) -> bool {
    if !path.is_dir() {
        return declared(&read(path), name);
    }
    let names = files(path).expect("a folder");
    names
        .iter()
        .any(|file| file.file_stem().is_some_and(|stem| stem == name))
}

#[test]
fn every_name_stands_in_its_file() {
    let paths = paths();
    let mut lost = Vec::new();
    let mut checked = 0;
    for group in map().into_iter().flat_map(|row| row.groups) {
        let path = &paths[&group.label];
        for name in group.names {
            checked += 1;
            if !stands_in(path, &name) {
                lost.push(format!("[{}] {name}", group.label));
            }
        }
    }
    assert!(lost.is_empty(), "not declared there: {lost:#?}");
    assert!(checked > 500, "{checked} names");
}

/// The names of all must-fail edits.
fn edits() -> BTreeSet<String> {
    let mut found = BTreeSet::new();
    for entry in fs::read_dir(top().join("crates")).expect("the crates") {
        let folder = entry.expect("an entry").path().join("must-fail");
        for entry in fs::read_dir(folder).into_iter().flatten() {
            let edit = entry.expect("an entry").path();
            found.insert(edit.file_stem().expect("a name").to_string_lossy().into());
        }
    }
    found
}

#[test]
fn the_wrong_programs_are_the_must_fail_edits() {
    let text = document("WRONG-PROGRAMS.md");
    let rows = text.lines().filter(|line| line.starts_with("| "));
    let told: BTreeSet<String> = rows
        .filter_map(|row| row.split(" | ").nth(1))
        .flat_map(quoted)
        .map(String::from)
        .collect();
    let tried = edits();
    let untold: Vec<&String> = tried.difference(&told).collect();
    let untried: Vec<&String> = told.difference(&tried).collect();
    assert!(
        untold.is_empty(),
        "edits that the document leaves out: {untold:?}"
    );
    assert!(untried.is_empty(), "no such edits: {untried:?}");
}
