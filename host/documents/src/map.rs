//! The rows of `docs/PROOFS.md`. A cell of a row is a list of groups, such as
//! ``[Book] `free`, `held`; [Laws/Cells] `free_cell` ``: a file, and names that it declares. The
//! paths of the files stand in lines `[Book]: path` at the end.

/// A file, and names that stand in it.
#[derive(Clone, Debug, PartialEq, Eq)]
pub struct Group {
    /// The label of the file.
    pub label: String,
    /// The names.
    pub names: Vec<String>,
}

/// A row of a table.
#[derive(Clone, Debug, PartialEq, Eq)]
pub struct Row {
    /// The heading of its section.
    pub heading: String,
    /// Its first cell: what is answered.
    pub what: String,
    /// The groups of its other cells.
    pub groups: Vec<Group>,
}

/// The label and the path of each line `[label]: path`.
pub fn references(text: &str) -> Vec<(&str, &str)> {
    let lines = text.lines().filter_map(|line| line.strip_prefix('['));
    lines.filter_map(|line| line.split_once("]: ")).collect()
}

/// The rows of all tables of a text, without the head of each.
pub fn rows(text: &str) -> Result<Vec<Row>, String> {
    let mut heading = "";
    let mut body = false;
    let mut found = Vec::new();
    for line in text.lines() {
        heading = line.strip_prefix("## ").unwrap_or(heading);
        if !line.starts_with('|') {
            body = false;
        } else if line.starts_with("|---") {
            body = true;
        } else if body {
            found.push(row(heading, line)?);
        }
    }
    Ok(found)
}

/// A row from its line.
fn row(heading: &str, line: &str) -> Result<Row, String> {
    let mut cells = line.trim_matches('|').split('|').map(str::trim);
    let what = cells.next().unwrap_or("").into();
    let mut found = Vec::new();
    for cell in cells {
        found.extend(groups(cell).map_err(|fault| format!("{fault}, in: {line}"))?);
    }
    Ok(Row {
        heading: heading.into(),
        what,
        groups: found,
    })
}

/// The groups of a cell; one that names nothing is words.
fn groups(cell: &str) -> Result<Vec<Group>, String> {
    if !cell.contains(['[', '`']) {
        return Ok(Vec::new());
    }
    cell.split("; ")
        .map(|part| group(part).ok_or(format!("no file with names: {part}")))
        .collect()
}

/// A group: a label, and names if there are any.
fn group(part: &str) -> Option<Group> {
    let (label, rest) = part.strip_prefix('[')?.split_once(']')?;
    let names = match rest {
        "" => Vec::new(),
        _ => rest
            .strip_prefix(' ')?
            .split(", ")
            .map(quoted)
            .collect::<Option<Vec<_>>>()?,
    };
    Some(Group {
        label: label.into(),
        names,
    })
}

/// A name without the backticks around it.
fn quoted(word: &str) -> Option<String> {
    let name = word.strip_prefix('`')?.strip_suffix('`')?;
    let plain = !name.is_empty() && !name.contains('`');
    plain.then(|| name.into())
}
