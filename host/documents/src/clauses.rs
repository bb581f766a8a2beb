//! The clauses of `docs/MODEL.md`: those that it states, and those that a text cites.

/// A clause, such as 4.10: its section, and its number in that.
#[derive(Clone, Copy, Debug, PartialEq, Eq, PartialOrd, Ord)]
pub struct Clause {
    /// The section.
    pub section: u32,
    /// The number in its section.
    pub number: u32,
}

impl Clause {
    /// The clause that a word is, whatever stands around its digits. No section has the number 0,
    /// so 0.25 is a fraction.
    pub fn read(word: &str) -> Option<Clause> {
        let word = word.trim_matches(|letter: char| !letter.is_ascii_digit());
        let (section, number) = word.split_once('.')?;
        let section = section.parse().ok().filter(|&section| section > 0)?;
        let number = number.parse().ok()?;
        Some(Clause { section, number })
    }

    /// The clauses behind this one, up to and with another of its section.
    fn up_to(self, last: Clause) -> impl Iterator<Item = Clause> {
        let numbers = self.number + 1..=last.number;
        numbers.map(move |number| Clause { number, ..self })
    }
}

/// A section of the model.
#[derive(Clone, Debug, PartialEq, Eq)]
pub struct Section {
    /// Its number.
    pub number: u32,
    /// Its heading, with the number.
    pub heading: String,
    /// Its clauses, in the order in which they stand.
    pub clauses: Vec<Clause>,
}

/// The number of a heading `## 4. ..`.
pub fn section_number(line: &str) -> Option<u32> {
    let heading = line.strip_prefix("## ")?;
    heading.split_once(". ")?.0.parse().ok()
}

/// The clause that a line states: `- **4.5** ..`, or a row `| **2.2** | ..` of a table.
fn stated(line: &str) -> Option<Clause> {
    let list = line.strip_prefix("- **");
    let rest = list.or_else(|| line.strip_prefix("| **"))?;
    Clause::read(rest.split_once("**")?.0)
}

/// The sections of the model, with the clauses that they state. A heading without a number ends
/// the last one.
pub fn sections(model: &str) -> Vec<Section> {
    let mut found: Vec<Section> = Vec::new();
    let mut open = false;
    for line in model.lines() {
        let number = section_number(line);
        if line.starts_with("## ") {
            open = number.is_some();
        }
        found.extend(number.map(|number| Section {
            number,
            heading: line["## ".len()..].into(),
            clauses: Vec::new(),
        }));
        if let Some(section) = found.last_mut().filter(|_| open) {
            section.clauses.extend(stated(line));
        }
    }
    found
}

/// The clauses that a text cites, one by one or as in "4.5 to 4.10".
pub fn cited(text: &str) -> Vec<Clause> {
    let mut found = Vec::new();
    let mut last: Option<Clause> = None;
    let mut to = false;
    for word in text.split_whitespace() {
        let clause = Clause::read(word);
        match (clause, last) {
            (Some(clause), Some(from)) if to && from.section == clause.section => {
                found.extend(from.up_to(clause));
            }
            (Some(clause), _) => found.push(clause),
            (None, _) => {}
        }
        to = word == "to";
        if !to {
            last = clause;
        }
    }
    found
}

/// The clauses that a source file cites: those right behind the word MODEL.
pub fn cited_as_model(text: &str) -> Vec<Clause> {
    let behind = text.split("MODEL ").skip(1);
    behind.flat_map(|rest| cited(&list(rest))).collect()
}

/// The list of clauses that a text begins with, such as "4.5, 4.7 to 4.9 and 5.1".
fn list(text: &str) -> String {
    let mut found = Vec::new();
    let mut open = true;
    for word in text.split_whitespace() {
        let joins = matches!(word, "to" | "and" | "or");
        let listed = open && Clause::read(word).is_some();
        if !joins && !listed {
            break;
        }
        found.push(word);
        open = joins || word.ends_with(',');
    }
    found.join(" ")
}

/// A text without what it has in round brackets.
pub fn outside_brackets(text: &str) -> String {
    let mut depth = 0;
    let mut found = String::new();
    for letter in text.chars() {
        match letter {
            '(' => depth += 1,
            ')' => depth -= 1,
            _ if depth == 0 => found.push(letter),
            _ => {}
        }
    }
    found
}
