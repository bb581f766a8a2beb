//! Every trial in its full size, as a test of each implementation. A further implementation is one
//! line at the end.

use calls::Calls;
use oracle::Book;
use trials::pair::Pair;
use trials::suite::{self, Size};
use trials::{for_every_trial, histories, shapes, Trial};

/// The trial's result, or a failed test that says what differed.
fn must<T>(trial: Trial<T>) -> T {
    trial.unwrap_or_else(|mismatch| panic!("{mismatch}"))
}

/// Runs the trial of a name.
fn run(subject: &dyn Calls, name: &str) {
    let trial = suite::ALL.iter().find(|trial| trial.name == name);
    must((trial.expect("it is in the list").run)(subject, Size::Full));
}

/// The oracle's book after many calls is the same whatever implementation is on trial.
#[test]
fn the_oracle_agrees_with_itself() {
    must(histories::many(&calls::Oracle, 1, 20, 40));
    let book = Book::new(5, &[0, 1]).expect("the limits are kept");
    let task = [0, 0, 0, 0, 2, 0];
    must(Pair::on_book(&calls::Oracle, book).call(&shapes::list_call(&task)));
}

/// Every trial as a test of one implementation.
macro_rules! tests {
    ($module:ident, $subject:expr; $($trial:ident)*) => {
        mod $module {
            $(#[test]
            fn $trial() {
                super::run(&$subject, stringify!($trial));
            })*
        }
    };
}

for_every_trial!(tests!(plain, calls::Plain));
for_every_trial!(tests!(card, calls::Card));
