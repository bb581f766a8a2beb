//! What is read from a text, on small texts.

use documents::clauses::{cited, cited_as_model, outside_brackets, sections, Clause};
use documents::map::{references, rows, Group};
use documents::{declared, links, names_a_line};

/// Clauses, as words.
fn words(clauses: &[Clause]) -> Vec<String> {
    let word = |clause: &Clause| format!("{}.{}", clause.section, clause.number);
    clauses.iter().map(word).collect()
}

#[test]
fn a_declaration_is_told_from_a_use() {
    let source =
        "-- meet\nuse Meet.{meet}\npub meet : A → B\nmeet a = a\npub record Meets (a : A) where\n";
    assert!(declared(source, "meet"));
    assert!(declared(source, "Meets"));
    assert!(!declared(source, "Meet"));
    assert!(!declared("-- meet\nuse Meet.{meet}\nmeet a = a\n", "meet"));
    let code =
        "// fn join(\nlet x = join(a);\npub extern \"C\" fn meet(a: Range)\npub struct Range {\n";
    assert!(declared(code, "meet"));
    assert!(declared(code, "Range"));
    assert!(!declared(code, "a"));
    assert!(!declared(code, "join"));
    assert!(!declared(code, "mee"));
}

#[test]
fn links_beside_and_below() {
    let text = "See [a](x.md) and [b](https://host/y), [Book] too.\n\n[Book]: ../z.antt\n";
    assert_eq!(links(text), ["x.md", "../z.antt"]);
    assert!(names_a_line("x.antt#L12"));
    assert!(!names_a_line("x.antt"));
}

#[test]
fn clauses_that_are_stated() {
    let model = "- **1.1** no\n## 3. Device [Columns]\n\n- **3.1** A **cell** is 2.5 high.\n\
        | **3.2** | x |\nas **3.4** is\n## 4. Tasks [Tasks]\n- **4.1** See 3.1.\n\
        ## Index\n- **4.2** no\n";
    let found = sections(model);
    assert_eq!(found.len(), 2);
    assert_eq!(found[0].heading, "3. Device [Columns]");
    assert_eq!(words(&found[0].clauses), ["3.1", "3.2"]);
    assert_eq!(
        (found[1].number, words(&found[1].clauses)),
        (4, vec!["4.1".into()])
    );
}

#[test]
fn clauses_that_are_cited() {
    assert_eq!(
        words(&cited("as in (8.2), 9.9 and 4.10.")),
        ["8.2", "9.9", "4.10"]
    );
    assert_eq!(
        words(&cited("4.5 to 4.7, 5.1")),
        ["4.5", "4.6", "4.7", "5.1"]
    );
    assert_eq!(
        words(&cited("0.14 is less, 1,024 and 1 to 5")),
        Vec::<String>::new()
    );
    assert_eq!(words(&cited("3.3 goes to 3.6")), ["3.3", "3.6"]);
    let comment = "-- MODEL 4.5, 4.7 and 5.1: half of 2.5 is 1.25\n-- 6.1\n";
    assert_eq!(words(&cited_as_model(comment)), ["4.5", "4.7", "5.1"]);
    let comment = "(MODEL 4.5): 2.5 rows; MODEL 8.2 to 8.4, not 9.1; the MODEL in 3.1";
    assert_eq!(
        words(&cited_as_model(comment)),
        ["4.5", "8.2", "8.3", "8.4"]
    );
    assert_eq!(outside_brackets("21.5 (3.3 to 3.6), 21.6"), "21.5 , 21.6");
}

#[test]
fn rows_of_a_table() {
    let text = "## One\n\n| clause | a | b |\n|---|---|---|\n| 1.1 | [A] `x`, `y`; [B] | |\n\
        | 1.2 | in words | [C d] `z` |\n\n[A]: a.antt\n";
    let found = rows(text).expect("rows");
    let group = |label: &str, names: &[&str]| Group {
        label: label.into(),
        names: names.iter().map(|&name| name.into()).collect(),
    };
    assert_eq!(found.len(), 2);
    assert_eq!(
        (found[0].heading.as_str(), found[0].what.as_str()),
        ("One", "1.1")
    );
    assert_eq!(found[0].groups, [group("A", &["x", "y"]), group("B", &[])]);
    assert_eq!(found[1].groups, [group("C d", &["z"])]);
    assert_eq!(references(text), [("A", "a.antt")]);
}

#[test]
fn a_name_without_its_file_is_a_fault() {
    for cell in [
        "`x`",
        "[A]`x`",
        "[A] x",
        "[A] `x` `y`",
        "[A] `x`, [B] `y`",
        "[A `x`",
    ] {
        let text = format!("|---|---|\n| 1.1 | {cell} |\n");
        assert!(rows(&text).is_err(), "{cell}");
    }
}
