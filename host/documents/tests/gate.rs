//! The gate on a small repository, with an `rt` and a `cargo` that only say what the test has them say:
//! it passes when all that the tree has is reported, and fails when one thing is not.

use std::env;
use std::fs;
use std::os::unix::fs::symlink;
use std::path::{Path, PathBuf};
use std::process::{self, Command};

use documents::top;

/// The files of the small repository. What they hold is not looked at, save `crates.txt` and the mark of an export.
const FILES: [(&str, &str); 13] = [
    ("crates.txt", "# ground up\nground staticlib:\nprogram:\n"),
    ("crates/ground/src/lib.rt", "#[unsafe(no_mangle)]\n"),
    ("crates/ground/must-fail/wrong.edit", ""),
    ("crates/program/src/main.rt", ""),
    ("crates/program/stdin", ""),
    ("host/bench/Cargo.toml", ""),
    ("host/bench/src/main.rs", ""),
    ("host/bench/src/bin/other.rs", ""),
    ("host/card/Cargo.toml", ""),
    ("host/card/src/lib.rs", ""),
    ("host/card/tests/first.rs", ""),
    ("host/oracle/src/lib.rs", ""),
    ("host/oracle/tests/suite/main.rs", ""),
];

/// What `rt ci` says of it.
const CI: &str = "\
fn ground::f: proved
rt: ground proved
rt: program proved
rt: must-fail ground/wrong.edit: refused, as it must be: ./proofs/f/Answers.antt:1:2: error: `returns`
rt: program ran, and wrote what its file stdout has
rt: program ran (built by Rattle's own compiler), and wrote what its file stdout has
rt: ok; handles allowed: none; must-fail edits: 1 refused; every proof and must-fail edit was done in this run
3 passed, 0 failed
";

/// What `cargo metadata` says, cut down.
const METADATA: &str = r#"{"packages":[
{"name":"bench","manifest_path":"/a/host/bench/Cargo.toml","metadata":null},
{"name":"card","manifest_path":"/a/host/card/Cargo.toml","metadata":null},
{"name":"oracle","manifest_path":"/a/host/oracle/Cargo.toml","metadata":null}]}
"#;

/// The test binaries of the crates that are tested in debug too, with how many tests each has.
const TESTS: [(&str, u32); 6] = [
    ("Running unittests src/lib.rs (target/deps/card-0a1)", 0),
    ("Running tests/first.rs (target/deps/first-0a2)", 2),
    ("Running unittests src/lib.rs (target/deps/oracle-0a3)", 1),
    ("Running tests/suite/main.rs (target/deps/suite-0a4)", 4),
    ("Doc-tests card", 1),
    ("Doc-tests oracle", 0),
];

/// The other test binaries.
const MORE_TESTS: [(&str, u32); 2] = [
    ("Running unittests src/main.rs (target/deps/bench-0a5)", 1),
    (
        "Running unittests src/bin/other.rs (target/deps/other-0a6)",
        0,
    ),
];

/// The last line when all is well: 3 proofs, 9 tests, and 8 of them in debug.
const ALL_WELL: &str = "20 passed, 0 failed";

/// What `cargo test` says when it has run these.
fn report(tests: &[(&str, u32)]) -> String {
    let line = |&(name, passed): &(&str, u32)| {
        format!(
            "     {name}\n\nrunning {passed} tests\n\ntest result: ok. {passed} passed; 0 failed; \
             0 ignored; 0 measured; 0 filtered out; finished in 0.00s\n\n"
        )
    };
    tests.iter().map(line).collect()
}

/// A repository of its own for a test. It lies outside this one, in which the gate wants no other, and goes with the test.
struct Small {
    top: PathBuf,
}

impl Drop for Small {
    fn drop(&mut self) {
        let _ = fs::remove_dir_all(&self.top);
    }
}

impl Small {
    /// One in which all is well.
    fn new(name: &str) -> Small {
        let folder = format!("wallarnica-gate-{}-{name}", process::id());
        let small = Small {
            top: env::temp_dir().join(folder),
        };
        let _ = fs::remove_dir_all(&small.top);
        for (path, text) in FILES {
            small.write(path, text);
        }
        small.write("said/ci", CI);
        small.write("said/metadata", METADATA);
        small.write("said/release", &(report(&TESTS) + &report(&MORE_TESTS)));
        small.write("said/debug", &report(&TESTS));
        for script in ["gate", "archive"] {
            fs::copy(documents::top().join(script), small.top.join(script)).expect("the script");
        }
        small
    }

    fn write(&self, path: &str, text: &str) {
        let path = self.top.join(path);
        fs::create_dir_all(path.parent().expect("a folder")).expect("a new folder");
        fs::write(path, text).expect("a new file");
    }

    /// Has a command say something else in the place of a text that it says.
    fn say(&self, file: &str, old: &str, new: &str) {
        let path = self.top.join("said").join(file);
        let text = fs::read_to_string(&path).expect("what is said");
        assert!(text.contains(old), "{file} has no {old}");
        fs::write(path, text.replacen(old, new, 1)).expect("what is said");
    }

    /// Runs the gate by a path, in a folder: its last line, and whether its status is 0.
    fn run(&self, gate: &Path, folder: &Path) -> (String, bool) {
        let stand_ins = top().join("host/documents/tests/stand-ins");
        let mut path = vec![stand_ins];
        path.extend(env::split_paths(&env::var_os("PATH").expect("a PATH")));
        let run = Command::new("bash")
            .arg(gate)
            .current_dir(folder)
            .env("PATH", env::join_paths(path).expect("a PATH"))
            .env("SAID", self.top.join("said"))
            .output()
            .expect("the gate runs");
        let text = String::from_utf8(run.stdout).expect("text");
        let last = text.lines().last().unwrap_or_default();
        (last.to_string(), run.status.success())
    }

    /// The gate's last line; its status has to go with it.
    fn last_line(&self) -> String {
        let (last, success) = self.run(&self.top.join("gate"), &self.top);
        assert_eq!(success, last.ends_with(", 0 failed"), "{last}");
        last
    }
}

#[test]
fn all_well() {
    assert_eq!(Small::new("well").last_line(), ALL_WELL);
}

#[test]
fn through_a_link_and_from_any_folder() {
    let small = Small::new("link");
    let link = small.top.join("host/link");
    symlink("../gate", &link).expect("a link");
    let elsewhere = env::temp_dir();
    let wanted = (ALL_WELL.to_string(), true);
    assert_eq!(small.run(&link, &elsewhere), wanted);
}

/// The last line when a command says something else in the place of a text that it says.
fn when_said(name: &str, file: &str, old: &str, new: &str) -> String {
    let small = Small::new(name);
    small.say(file, old, new);
    small.last_line()
}

/// The last line when there is one more file.
fn with_file(name: &str, path: &str) -> String {
    let small = Small::new(name);
    small.write(path, "");
    small.last_line()
}

const ONE_FAULT: &str = "20 passed, 1 failed";
const TWO_FAULTS: &str = "20 passed, 2 failed";
const ONE_LESS: &str = "19 passed, 1 failed";
const TWO_LESS: &str = "18 passed, 1 failed";

#[test]
fn a_crate_that_was_not_proved_fails() {
    let proved = "rt: ground proved\n";
    let not = "rt: ground NOT PROVED\n";
    assert_eq!(when_said("crate", "ci", proved, ""), ONE_LESS);
    assert_eq!(when_said("not-proved", "ci", proved, not), ONE_LESS);
    assert_eq!(
        with_file("crate-unlisted", "crates/stray/src/lib.rt"),
        ONE_FAULT
    );
}

#[test]
fn a_crate_that_is_kept_passes() {
    let kept = "rt: ground is kept: an earlier run on this machine proved the same files over the same libraries\n";
    let last = when_said("kept", "ci", "rt: ground proved\n", kept);
    assert_eq!(last, ALL_WELL);
}

#[test]
fn a_program_that_did_not_run_fails() {
    for (name, ran) in [
        ("program", "program ran,"),
        ("built-again", "program ran ("),
    ] {
        assert_eq!(when_said(name, "ci", ran, "program was not run"), ONE_LESS);
    }
}

#[test]
fn an_edit_that_was_not_refused_fails() {
    let (refused, not) = ("refused, as it must be", "NOT REFUSED");
    assert_eq!(when_said("edit", "ci", "rt: must-fail", ""), ONE_LESS);
    assert_eq!(when_said("survives", "ci", refused, not), ONE_LESS);
    // It is refused for a fact, and not for a name.
    let name = "as it must be (only because a proof file names what the edit took away)";
    let last = when_said("named", "ci", "as it must be", name);
    assert_eq!(last, ONE_LESS);
    // rt looks in no folder below.
    let below = "crates/ground/must-fail/below/lost.edit";
    assert_eq!(with_file("edit-below", below), ONE_FAULT);
}

#[test]
fn another_count_than_the_tree_s_fails() {
    let all = "3 passed, 0 failed";
    for (name, count) in [
        ("fewer", "2 passed, 0 failed"),
        ("bad", "3 passed, 1 failed"),
    ] {
        assert_eq!(when_said(name, "ci", all, count), ONE_FAULT);
    }
}

#[test]
fn a_bad_edit_fails() {
    let (refused, bad) = ("1 refused;", "1 refused, 1 bad;");
    assert_eq!(when_said("bad-edit", "ci", refused, bad), ONE_FAULT);
    let ok = "rt: ok;";
    assert_eq!(when_said("not-ok", "ci", ok, "rt: not ok;"), ONE_FAULT);
}

#[test]
fn a_test_binary_that_did_not_run_fails() {
    let (name, _) = MORE_TESTS[1];
    assert_eq!(when_said("binary", "release", name, ""), ONE_FAULT);
    let doc = "Doc-tests oracle";
    assert_eq!(when_said("doc-tests", "debug", doc, ""), ONE_FAULT);
    let unlisted = with_file("test-unlisted", "host/bench/tests/more.rs");
    assert_eq!(unlisted, ONE_FAULT);
}

#[test]
fn a_test_binary_without_a_result_fails() {
    let result = "test result: ok. 2 passed";
    for file in ["release", "debug"] {
        let last = when_said(file, file, result, "Segmentation fault");
        assert_eq!(last, TWO_LESS);
    }
}

#[test]
fn a_test_that_failed_or_was_left_out_fails() {
    let all = "ok. 2 passed; 0 failed; 0 ignored; 0 measured; 0 filtered out";
    for (name, result) in [
        (
            "failed",
            "FAILED. 1 passed; 1 failed; 0 ignored; 0 measured; 0 filtered out",
        ),
        (
            "ignored",
            "ok. 1 passed; 0 failed; 1 ignored; 0 measured; 0 filtered out",
        ),
        (
            "filtered",
            "ok. 1 passed; 0 failed; 0 ignored; 0 measured; 1 filtered out",
        ),
    ] {
        assert_eq!(when_said(name, "release", all, result), ONE_LESS);
    }
}

#[test]
fn a_folder_of_the_host_that_is_no_member_fails() {
    // Without a source there is no test binary to miss.
    for (name, path) in [
        ("member", "host/stray/Cargo.toml"),
        ("folder", "host/stray/notes"),
    ] {
        assert_eq!(with_file(name, path), ONE_FAULT);
    }
}

#[test]
fn a_step_that_fails_is_counted() {
    for command in ["ci", "lib", "run", "fmt", "clippy", "doc"] {
        let last = with_file(command, &format!("said/no-{command}"));
        assert_eq!(last, ONE_FAULT, "{command}");
    }
    // Tests run twice.
    let last = with_file("test", "said/no-test");
    assert_eq!(last, TWO_FAULTS);
}

#[test]
fn a_static_library_that_is_missing_fails() {
    let library = Small::new("no-library");
    library.write("crates.txt", "ground:\nprogram:\n");
    assert_eq!(library.last_line(), ONE_FAULT);
    let export = Small::new("no-export");
    export.write("crates/ground/src/lib.rt", "");
    assert_eq!(export.last_line(), ONE_FAULT);
}

#[test]
fn what_is_built_stands_where_it_is_looked_for() {
    let small = Small::new("built");
    assert_eq!(small.last_line(), ALL_WELL);
    for built in ["staticlib/libground.a", "bin/program"] {
        assert!(small.top.join("target").join(built).exists(), "{built}");
    }
}
