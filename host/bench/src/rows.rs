//! The measured calls: a row for each call on a load, in which the implementations take turns.

use std::cell::RefCell;
use std::hint::black_box;

use calls::{Calls, SUBJECTS};
use oracle::listing::LIST_ROOM;
use oracle::Position;
use plain::fragments;

use crate::bytes::Bytes;
use crate::loads::{Load, Probe, PROBE_NUMBER};
use crate::measure::{half, rounds, whole, Effort, Named, Samples, Work};
use crate::names::{MATRIX, MEMCMP, PLAIN, PROVED};

/// On how many records in turn a task is placed before it is released from them:
/// few enough to stay in a core's second cache.
const RECORDS: usize = 8;

/// The times of one call on one load.
pub struct Row {
    /// The call, with its task.
    pub call: String,
    /// The times of each implementation, by rounds.
    pub samples: Samples,
}

/// A work for each implementation.
fn subjects<'a>(work: impl Fn(&'static dyn Calls) -> Work<'a>) -> Vec<Named<'a>> {
    let named = |subject: &'static dyn Calls| (subject.name(), work(subject));
    SUBJECTS.map(named).into()
}

/// The comparison of two equal records.
fn memcmp(load: &Load) -> Work<'_> {
    let copy = load.record.clone();
    whole(move || black_box(&*load.record) == black_box(&*copy))
}

/// The interval count: the check of the record, and one byte.
fn count<'a>(subject: &'static dyn Calls, load: &'a Load) -> Work<'a> {
    whole(move || subject.interval_count(black_box(&load.record), 0))
}

/// Measures works, and memcmp beside them.
fn row<'a>(load: &'a Load, call: String, mut works: Vec<Named<'a>>, effort: Effort) -> Row {
    works.push((MEMCMP, memcmp(load)));
    let samples = rounds(works, effort);
    Row { call, samples }
}

/// Fragmentation with its two numbers, by one of the implementations.
fn broken_up(call: impl Fn(&mut i32, &mut i32) -> i32) -> [i32; 3] {
    let (mut free, mut degree) = (0, 0);
    let sets = call(&mut free, &mut degree);
    [sets, free, degree]
}

/// Fragmentation, with the flood fill of a cell matrix behind the same check.
fn fragmentation_row(load: &Load, effort: Effort) -> Row {
    let record = &load.record;
    let work = |subject: &'static dyn Calls| {
        whole(move || {
            broken_up(|free, degree| subject.fragmentation(black_box(record), free, degree))
        })
    };
    let mut works = subjects(work);
    let flood = || broken_up(|free, degree| matrix::fragmentation(black_box(record), free, degree));
    works.push((MATRIX, whole(flood)));
    row(load, "fragmentation".into(), works, effort)
}

/// New.
fn new_row(load: &Load, effort: Effort) -> Row {
    let made = RefCell::new(Bytes::zeros());
    let works = subjects(|subject| {
        let made = &made;
        whole(move || subject.new(&mut made.borrow_mut(), load.rows, black_box(&load.kinds)))
    });
    row(load, "new".into(), works, effort)
}

/// The calls that take no task and leave the record: interval count and fragmentation.
pub fn reading_rows(load: &Load, effort: Effort) -> Vec<Row> {
    let counts = subjects(|subject| count(subject, load));
    vec![
        row(load, "interval count".into(), counts, effort),
        fragmentation_row(load, effort),
    ]
}

/// The calls that take no task: new, interval count and fragmentation.
pub fn simple_rows(load: &Load, effort: Effort) -> Vec<Row> {
    let mut rows = vec![new_row(load, effort)];
    rows.extend(reading_rows(load, effort));
    rows
}

/// Place or release of a task at the position that choose gives.
fn change_row(load: &Load, probe: &Probe, is_place: bool, effort: Effort) -> Row {
    let chosen = SUBJECTS[0].choose(&load.record, &probe.task);
    assert!(chosen >= 0, "{} has no place for {}", load.name, probe.name);
    let Position { column, bottom } = Position::of_answer(chosen);
    let records = RefCell::new(vec![load.record.clone(); RECORDS]);
    let works = subjects(|subject| {
        let records = &records;
        half(is_place, RECORDS, move |is_place, index| {
            let record = &mut records.borrow_mut()[index];
            let answer = match is_place {
                true => {
                    let task = black_box(&probe.task);
                    subject.place(record, task, PROBE_NUMBER, column, bottom)
                }
                false => subject.release(record, PROBE_NUMBER),
            };
            assert_eq!(answer, 0);
        })
    });
    let call = if is_place { "place" } else { "release" };
    row(load, named(call, probe), works, effort)
}

/// Place of a task.
pub fn place_row(load: &Load, probe: &Probe, effort: Effort) -> Row {
    change_row(load, probe, true, effort)
}

/// Release of a task.
pub fn release_row(load: &Load, probe: &Probe, effort: Effort) -> Row {
    change_row(load, probe, false, effort)
}

/// A call with its task.
fn named(call: &str, probe: &Probe) -> String {
    format!("{call}, {}", probe.name)
}

/// List and choose of a task, with the matrix scan behind the same check.
pub fn search_rows(load: &Load, probe: &Probe, effort: Effort) -> Vec<Row> {
    let output = RefCell::new(vec![0; LIST_ROOM]);
    let (record, task) = (&load.record, &probe.task);
    let list = |subject: &'static dyn Calls| {
        let output = &output;
        whole(move || subject.list(black_box(record), task, &mut output.borrow_mut()))
    };
    let choose =
        |subject: &'static dyn Calls| whole(move || subject.choose(black_box(record), task));
    let matrix_list = || matrix::list(black_box(record), task, &mut output.borrow_mut());
    let mut lists = subjects(list);
    lists.push((MATRIX, whole(matrix_list)));
    let mut chooses = subjects(choose);
    chooses.push((MATRIX, whole(|| matrix::choose(black_box(record), task))));
    vec![
        row(load, named("list", probe), lists, effort),
        row(load, named("choose", probe), chooses, effort),
    ]
}

/// The search of list without the record's check.
///
/// The searches of plain and of the matrix can be called by themselves; the proved one is its call
/// less the interval count.
pub fn list_alone(load: &Load, probe: &Probe, effort: Effort) -> Row {
    let record = plain::calls::checked(&load.record).expect("loads are sound");
    let output = RefCell::new(vec![0; LIST_ROOM]);
    let (bytes, task, proved) = (&load.record, &probe.task, SUBJECTS[0]);
    let works = [
        whole(|| plain::calls::search_list(black_box(record), task, &mut output.borrow_mut())),
        whole(|| matrix::search_list(black_box(record), task, &mut output.borrow_mut())),
        whole(|| proved.list(black_box(bytes), task, &mut output.borrow_mut())),
    ];
    alone(load, named("list", probe), works, effort)
}

/// The search of choose without the record's check, in the same way.
pub fn choose_alone(load: &Load, probe: &Probe, effort: Effort) -> Row {
    let record = plain::calls::checked(&load.record).expect("loads are sound");
    let (bytes, task, proved) = (&load.record, &probe.task, SUBJECTS[0]);
    let works = [
        whole(|| plain::calls::search_choose(black_box(record), task)),
        whole(|| matrix::search_choose(black_box(record), task)),
        whole(|| proved.choose(black_box(bytes), task)),
    ];
    alone(load, named("choose", probe), works, effort)
}

/// Fragmentation without the record's check: that of plain and the flood fill by themselves, the proved one
/// less the interval count.
pub fn fragmentation_alone(load: &Load, effort: Effort) -> Row {
    let record = plain::calls::checked(&load.record).expect("loads are sound");
    let (bytes, proved) = (&load.record, SUBJECTS[0]);
    let works = [
        whole(|| {
            let record = black_box(record);
            (fragments::sets(record), fragments::free_cells(record))
        }),
        whole(|| matrix::flood(black_box(record))),
        whole(|| broken_up(|free, degree| proved.fragmentation(black_box(bytes), free, degree))),
    ];
    alone(load, "fragmentation".into(), works, effort)
}

/// The check of the record, measured to be taken off.
const CHECK: &str = "check";

/// Measures the works of plain and of the matrix, and the proved call less the check in it.
fn alone(load: &Load, call: String, works: [Work; 3], effort: Effort) -> Row {
    let [plain, matrix, whole_call] = works;
    let works = vec![
        (PLAIN, plain),
        (MATRIX, matrix),
        (PROVED, whole_call),
        (CHECK, count(SUBJECTS[0], load)),
    ];
    let mut samples = rounds(works, effort);
    let checks = samples.remove(CHECK).unwrap_or_default();
    for (time, check) in samples.entry(PROVED).or_default().iter_mut().zip(checks) {
        *time -= check;
    }
    Row { call, samples }
}
