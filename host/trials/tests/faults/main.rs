//! Wrong implementations, which the trials must find out. The faults are tried around the compiled
//! library, which is what is assumed, and `found.txt` says which trials find which of them.

mod changes;
mod choices;
mod faulty;
mod fragments;
mod list;
mod records;
mod searches;

use std::sync::OnceLock;
use std::thread;

use calls::{Calls, Card};
use choices::choose_by_the_rule;
use faulty::Wrong::Choose;
use faulty::{Fault, Faulty};
use trials::suite::{self, Size};

/// The table of faults and trials, as it is written down.
const WRITTEN: &str = include_str!("found.txt");

/// The implementation that the faults are put around.
const RIGHT: &dyn Calls = &Card;

/// Which trials find a fault, in the order of the list.
fn found(fault: &Fault) -> Vec<bool> {
    let finds = |trial: &suite::Entry| {
        let faulty = Faulty::new(RIGHT, fault);
        (trial.run)(&faulty, Size::Short).is_err()
    };
    suite::ALL.iter().map(finds).collect()
}

/// Which trials find each fault, computed once for all tests.
fn computed() -> &'static [Vec<bool>] {
    static ROWS: OnceLock<Vec<Vec<bool>>> = OnceLock::new();
    ROWS.get_or_init(in_two_threads)
}

/// Which trials find each fault: every second fault in another thread.
fn in_two_threads() -> Vec<Vec<bool>> {
    let every_second = |start| {
        let faults = list::ALL.iter().skip(start).step_by(2);
        faults.map(found).collect::<Vec<_>>()
    };
    let (even, odd) = thread::scope(|scope| {
        let odd = scope.spawn(|| every_second(1));
        (every_second(0), odd.join().expect("no trial panics"))
    });
    let mut odd = odd.into_iter();
    let pairs = even.into_iter().map(|row| [Some(row), odd.next()]);
    pairs.flatten().flatten().collect()
}

/// The letter of a trial in the table.
fn letter(index: usize) -> char {
    (b'a' + index as u8) as char
}

/// The table as text: the trials with their letters, then each fault with the letters of those that find it.
fn table(rows: &[Vec<bool>]) -> String {
    let mut text = String::new();
    for (index, trial) in suite::ALL.iter().enumerate() {
        text += &format!("{} {}\n", letter(index), trial.name);
    }
    text += "\n";
    for (fault, row) in list::ALL.iter().zip(rows) {
        let mark = |(index, found): (usize, &bool)| if *found { letter(index) } else { '.' };
        let marks: String = row.iter().enumerate().map(mark).collect();
        text += &format!("{marks}  {}\n", fault.name);
    }
    text
}

#[test]
fn every_fault_is_found() {
    for (fault, row) in list::ALL.iter().zip(computed()) {
        assert!(row.contains(&true), "{}", fault.name);
    }
}

/// Without the trial this fault would not be found.
#[test]
fn every_trial_finds_a_fault_alone() {
    for (index, trial) in suite::ALL.iter().enumerate() {
        let alone = |row: &Vec<bool>| row[index] && row.iter().filter(|&&found| found).count() == 1;
        assert!(computed().iter().any(alone), "{}", trial.name);
    }
}

#[test]
fn the_table_has_what_was_found() {
    let text = table(computed());
    assert!(text == WRITTEN, "found.txt is not this:\n{text}");
}

/// Where there is no fault, and where choose goes the way of its faults but has the right s.
#[test]
fn nothing_is_found_where_nothing_is_wrong() {
    let no_fault = |wrong| Fault {
        name: "none",
        wrong,
    };
    for faultless in [no_fault(&[]), no_fault(&[Choose(choose_by_the_rule)])] {
        for trial in suite::ALL {
            let faulty = Faulty::new(RIGHT, &faultless);
            let result = (trial.run)(&faulty, Size::Short);
            assert!(result.is_ok(), "{}: {result:?}", trial.name);
        }
    }
}
