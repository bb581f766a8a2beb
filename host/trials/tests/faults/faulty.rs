//! An implementation that is wrong in one way, around one that is right.

use std::borrow::Cow;
use std::sync::{Mutex, PoisonError};

use calls::Calls;
use oracle::Refusal;

/// What is asked of place, but for the record.
#[derive(Clone, Copy)]
pub struct Placing<'a> {
    pub task: &'a [u8],
    pub number: u32,
    pub column: u32,
    pub bottom: i32,
}

impl Placing<'_> {
    /// Asks the right implementation for it.
    pub fn on(self, right: &dyn Calls, record: &mut [u8]) -> i32 {
        right.place(record, self.task, self.number, self.column, self.bottom)
    }
}

/// What an implementation might keep between calls, though it must not.
#[derive(Default)]
pub struct Past {
    /// The record as the last call that changed one left it.
    left: Vec<u8>,
    /// How many calls in a row have changed this record.
    pub changes: usize,
    /// The number of the last place, if it was refused for its position.
    pub misfit: Option<u32>,
}

impl Past {
    /// A call on a record begins.
    fn begin(&mut self, record: &[u8]) {
        if self.left != record {
            *self = Past::default();
        }
    }

    /// The call has ended, with the number of a place that was refused for its position.
    fn end(&mut self, record: &[u8], answer: i32, misfit: Option<u32>) {
        self.changes += usize::from(answer == 0);
        self.misfit = misfit;
        self.left = record.to_vec();
    }
}

/// List, done otherwise: record, task and output.
pub type List = fn(&dyn Calls, &[u8], &[u8], &mut [u8]) -> i32;

/// Fragmentation, done otherwise: record, free cells and degree.
pub type Fragmentation = fn(&dyn Calls, &[u8], &mut i32, &mut i32) -> i32;

/// What is wrong: a call done otherwise, or a record or a task judged otherwise. Each function is given
/// the right implementation first.
pub enum Wrong {
    New(fn(&dyn Calls, &mut [u8], u32, &[u8]) -> i32),
    Place(fn(&dyn Calls, &Past, &mut [u8], Placing) -> i32),
    Release(fn(&dyn Calls, &Past, &mut [u8], u32) -> i32),
    List(List),
    Choose(fn(&dyn Calls, &[u8], &[u8]) -> i32),
    Count(fn(&dyn Calls, &[u8], u32) -> i32),
    Fragmentation(Fragmentation),
    /// A record that is to be refused is taken for this one.
    TakesRecord(fn(&[u8]) -> Vec<u8>),
    /// A sound record is refused.
    RefusesRecord(fn(&[u8]) -> bool),
    /// A task is refused with −5.
    RefusesTask(fn(&[u8]) -> bool),
}

/// A way to be wrong, which may show in more than one call.
pub struct Fault {
    pub name: &'static str,
    pub wrong: &'static [Wrong],
}

/// The wrong implementation.
pub struct Faulty<'a> {
    right: &'a dyn Calls,
    wrong: &'static [Wrong],
    past: Mutex<Past>,
}

impl<'a> Faulty<'a> {
    /// An implementation with a fault, around one without.
    pub fn new(right: &'a dyn Calls, fault: &Fault) -> Faulty<'a> {
        Faulty {
            right,
            wrong: fault.wrong,
            past: Mutex::default(),
        }
    }

    /// The refusal that a record gets from the right implementation.
    fn refusal(&self, record: &[u8]) -> Option<i32> {
        let answer = self.right.interval_count(record, 0);
        (-2..0).contains(&answer).then_some(answer)
    }

    /// The record as the wrong test of it takes it.
    fn taken<'r>(&self, record: &'r [u8]) -> Cow<'r, [u8]> {
        for wrong in self.wrong {
            if let Wrong::TakesRecord(taken) = wrong {
                if self.refusal(record).is_some() {
                    return Cow::Owned(taken(record));
                }
            }
        }
        Cow::Borrowed(record)
    }

    /// The answer to a record, or to a task, that is wrongly refused.
    fn refused(&self, record: &[u8], task: Option<&[u8]>) -> Option<i32> {
        self.wrong.iter().find_map(|wrong| {
            let refusal = match (wrong, task) {
                (Wrong::RefusesRecord(refuses), _) if refuses(record) => Refusal::RecordNotSound,
                (Wrong::RefusesTask(refuses), Some(task)) if refuses(task) => {
                    Refusal::TaskNotWellFormed
                }
                _ => return None,
            };
            Some(self.refusal(record).unwrap_or(refusal.number()))
        })
    }

    /// A call that may change the record, on what the record is taken for.
    fn change(&self, record: &mut [u8], call: impl FnOnce(&Past, &mut [u8]) -> i32) -> i32 {
        let mut past = self.past.lock().unwrap_or_else(PoisonError::into_inner);
        past.begin(record);
        let mut taken = match self.taken(record) {
            Cow::Borrowed(_) => return call(&past, record),
            Cow::Owned(taken) => taken,
        };
        let answer = call(&past, &mut taken);
        if answer == 0 {
            record[..taken.len()].copy_from_slice(&taken);
        }
        answer
    }

    /// Keeps what the call has done.
    fn keep(&self, record: &[u8], answer: i32, misfit: Option<u32>) -> i32 {
        let mut past = self.past.lock().unwrap_or_else(PoisonError::into_inner);
        past.end(record, answer, misfit);
        answer
    }
}

/// The function of a kind among what is wrong, if there is one.
macro_rules! instead {
    ($self:ident, $kind:path) => {
        $self.wrong.iter().find_map(|wrong| match wrong {
            $kind(function) => Some(function),
            _ => None,
        })
    };
}

impl Calls for Faulty<'_> {
    fn name(&self) -> &'static str {
        "faulty"
    }

    fn new(&self, record: &mut [u8], rows: u32, kinds: &[u8]) -> i32 {
        match instead!(self, Wrong::New) {
            Some(new) => new(self.right, record, rows, kinds),
            None => self.right.new(record, rows, kinds),
        }
    }

    fn place(&self, record: &mut [u8], task: &[u8], number: u32, column: u32, bottom: i32) -> i32 {
        if let Some(answer) = self.refused(record, Some(task)) {
            return answer;
        }
        let placing = Placing {
            task,
            number,
            column,
            bottom,
        };
        let answer = self.change(record, |past, record| match instead!(self, Wrong::Place) {
            Some(place) => place(self.right, past, record, placing),
            None => placing.on(self.right, record),
        });
        let misfit = (answer == Refusal::Misfit.number()).then_some(number);
        self.keep(record, answer, misfit)
    }

    fn release(&self, record: &mut [u8], number: u32) -> i32 {
        if let Some(answer) = self.refused(record, None) {
            return answer;
        }
        let answer = self.change(record, |past, record| {
            match instead!(self, Wrong::Release) {
                Some(release) => release(self.right, past, record, number),
                None => self.right.release(record, number),
            }
        });
        self.keep(record, answer, None)
    }

    fn list(&self, record: &[u8], task: &[u8], output: &mut [u8]) -> i32 {
        if let Some(answer) = self.refused(record, Some(task)) {
            return answer;
        }
        let record = &self.taken(record);
        match instead!(self, Wrong::List) {
            Some(list) => list(self.right, record, task, output),
            None => self.right.list(record, task, output),
        }
    }

    fn choose(&self, record: &[u8], task: &[u8]) -> i32 {
        if let Some(answer) = self.refused(record, Some(task)) {
            return answer;
        }
        let record = &self.taken(record);
        match instead!(self, Wrong::Choose) {
            Some(choose) => choose(self.right, record, task),
            None => self.right.choose(record, task),
        }
    }

    fn interval_count(&self, record: &[u8], column: u32) -> i32 {
        if let Some(answer) = self.refused(record, None) {
            return answer;
        }
        let record = &self.taken(record);
        match instead!(self, Wrong::Count) {
            Some(count) => count(self.right, record, column),
            None => self.right.interval_count(record, column),
        }
    }

    fn fragmentation(&self, record: &[u8], free: &mut i32, degree: &mut i32) -> i32 {
        if let Some(answer) = self.refused(record, None) {
            (*free, *degree) = (0, 0);
            return answer;
        }
        let record = &self.taken(record);
        match instead!(self, Wrong::Fragmentation) {
            Some(fragmentation) => fragmentation(self.right, record, free, degree),
            None => self.right.fragmentation(record, free, degree),
        }
    }
}
