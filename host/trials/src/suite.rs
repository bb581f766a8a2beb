//! All trials, in one list. Each is a function of the implementation on trial and of a [`Size`].
//!
//! The tests run the full size on each implementation, and the short one on every wrong implementation,
//! of which each trial must find one that no other finds. A further trial is a function here and its
//! name in [`for_every_trial`](crate::for_every_trial).

use calls::Calls;
use oracle::rng::Rng;
use oracle::Device;

use crate::histories::Answers;
use crate::pair::Pair;
use crate::small::Cards;
use crate::{combs, damage, ensure, flaws, fragments, histories, limits, shapes, small, Trial};

/// How much a trial does.
#[derive(Clone, Copy, Debug, PartialEq, Eq)]
pub enum Size {
    /// So little that it can be done for every wrong implementation.
    Short,
    /// So much that little is left out.
    Full,
}

impl Size {
    /// The first for the short size, the second for the full one.
    fn of<T>(self, short: T, full: T) -> T {
        match self {
            Size::Short => short,
            Size::Full => full,
        }
    }
}

/// A trial with its name.
#[derive(Clone, Copy, Debug)]
pub struct Entry {
    /// The function's name.
    pub name: &'static str,
    /// The trial.
    pub run: fn(&dyn Calls, Size) -> Trial<()>,
}

/// Hands the names of all trials to a macro, behind what it is given.
#[macro_export]
macro_rules! for_every_trial {
    ($then:ident!($($given:tt)*)) => {
        $then! { $($given)*;
            new_on_any_arguments
            many_histories
            long_histories_on_small_cards
            long_histories_on_the_largest_card
            shapes_of_two_steps
            releases_between_free_stretches
            no_position_exactly_when_there_is_none
            every_byte_of_a_record
            records_of_other_lengths
            damaged_records
            records_with_one_flaw
            mixed_up_records
            random_bytes
            small_cards_searched
            small_cards_placed
            small_histories
            listings_of_thousands_of_ranges
            columns_full_of_intervals
            tasks_of_full_height_and_width
            sixty_four_tasks_of_32_blocks
            arguments_past_their_limits
            cards_like_labyrinths
            cards_broken_up_at_the_limits
            combs_with_several_blocks_in_an_interval
        }
    };
}

/// The list from the names.
macro_rules! list {
    (; $($trial:ident)*) => {
        /// All trials.
        pub const ALL: &[Entry] = &[$(Entry { name: stringify!($trial), run: $trial }),*];
    };
}

for_every_trial!(list!());

/// A trial of the full size is worth something only if enough came up in it.
fn worth(size: Size, enough: bool, came_up: impl std::fmt::Debug) -> Trial<()> {
    ensure(enough || size == Size::Short, || {
        format!("too little came up: {came_up:?}")
    })
}

/// All of these answers came up.
fn worth_with(size: Size, answers: &Answers, wanted: &[i32]) -> Trial<()> {
    let all = wanted.iter().all(|answer| answers.contains_key(answer));
    worth(size, all, answers)
}

fn new_on_any_arguments(subject: &dyn Calls, size: Size) -> Trial<()> {
    let answers = histories::devices(subject, 1, size.of(150, 3000))?;
    worth_with(size, &answers, &[0, -1, -3])
}

fn many_histories(subject: &dyn Calls, size: Size) -> Trial<()> {
    let answers = histories::many(subject, 1000, size.of(60, 1500), size.of(60, 80))?;
    worth_with(size, &answers, &[1, 0, -4, -5, -6, -7, -9, -10, -11])
}

fn long_histories_on_small_cards(subject: &dyn Calls, size: Size) -> Trial<()> {
    for seed in 0..size.of(2, 8) {
        let answers = histories::long_on_small(subject, seed, size.of(1000, 20_000))?;
        worth_with(size, &answers, &[0, -10, -11])?;
    }
    Ok(())
}

fn long_histories_on_the_largest_card(subject: &dyn Calls, size: Size) -> Trial<()> {
    let mut answers = Answers::new();
    for (seed, blocks) in size.of(&[(2, 3)][..], &[(1, 1), (2, 3), (3, 32)]) {
        let calls = size.of(60, 3000);
        let more = histories::long_on_largest(subject, *seed, calls, *blocks)?;
        histories::add(&mut answers, more);
    }
    worth_with(size, &answers, &[1, 0, -8])
}

fn shapes_of_two_steps(subject: &dyn Calls, size: Size) -> Trial<()> {
    let fitting = shapes::mixed_steps(subject, 5, size.of(20, 600))?;
    worth(size, fitting > 1000, fitting)
}

fn releases_between_free_stretches(subject: &dyn Calls, size: Size) -> Trial<()> {
    let joined = shapes::release_between(subject, 6, size.of(40, 1000))?;
    worth(size, joined > 500, joined)
}

fn no_position_exactly_when_there_is_none(subject: &dyn Calls, size: Size) -> Trial<()> {
    let (some, none) = shapes::no_position(subject, 7, size.of(40, 1000))?;
    worth(size, some > 500 && none > 500, (some, none))
}

fn every_byte_of_a_record(subject: &dyn Calls, size: Size) -> Trial<()> {
    let mut rng = Rng::new(8);
    // One card with columns that are not used, and one without.
    let devices = [
        histories::small_device(&mut rng),
        histories::largest_device(&mut rng),
    ];
    for device in devices.into_iter().take(size.of(1, 2)) {
        let book = shapes::used_card(&mut rng, device, 60);
        let tally = damage::every_byte(subject, 1, &book, size.of(97, 1))?;
        // A changed task number is another book's record.
        worth(size, tally.sound > 0, tally)?;
    }
    Ok(())
}

fn records_of_other_lengths(subject: &dyn Calls, _: Size) -> Trial<()> {
    damage::lengths(subject, 9)
}

fn damaged_records(subject: &dyn Calls, size: Size) -> Trial<()> {
    let tally = damage::likely(subject, 10, size.of(20, 200), 30)?;
    worth(size, tally.sound > 10 && tally.unsound > 3000, tally)
}

fn records_with_one_flaw(subject: &dyn Calls, size: Size) -> Trial<()> {
    let rarest = flaws::one_flaw(subject, 13, size.of(20, 300))?;
    worth(size, rarest > 30, rarest)
}

fn mixed_up_records(subject: &dyn Calls, size: Size) -> Trial<()> {
    let tally = damage::mixed_up(subject, 11, size.of(100, 1000))?;
    worth(size, tally.sound > 10 && tally.unsound > 500, tally)
}

fn random_bytes(subject: &dyn Calls, size: Size) -> Trial<()> {
    let tally = damage::random_bytes(subject, 12, size.of(60, 500))?;
    worth(size, tally.unsound > 400, tally)
}

/// A device within the limits.
fn device(rows: u32, kinds: &[u8]) -> Device {
    Device::new(rows, kinds).expect("the limits are kept")
}

fn small_cards_searched(subject: &dyn Calls, size: Size) -> Trial<()> {
    let (rows, reach) = size.of((4, 5), (6, 10));
    let fitting = small::searches(subject, &Cards::up_to(rows, 2, reach))?;
    worth(size, fitting > 1000, fitting)?;
    if size == Size::Full {
        small::searches(subject, &Cards::up_to(3, 3, 6))?;
    }
    Ok(())
}

fn small_cards_placed(subject: &dyn Calls, size: Size) -> Trial<()> {
    // Within a reach of 7 a second logic block may be off the grid, and further up than the first one's top.
    let cards = match size {
        // The first has a column without a cell.
        Size::Short => Cards::on(vec![device(2, &[0, 1]), device(3, &[2, 0])], 7),
        Size::Full => Cards::up_to(5, 2, 7),
    };
    let fitting = small::placements(subject, &cards)?;
    worth(size, fitting > 500, fitting)
}

fn small_histories(subject: &dyn Calls, size: Size) -> Trial<()> {
    let logic = vec![0, 0, 0, 0, 2, 0];
    let tall = vec![0, 0, 0, 0, 4, 0];
    let comb = vec![0, 0, 0, 0, 2, 0, 0, 0, 4, 0, 6, 0];
    let memory = vec![0, 1, 0, 0, 5, 0];
    let mixed = vec![0, 0, 0, 0, 2, 0, 1, 1, 1, 0, 6, 0];
    let cards = [
        (device(3, &[0, 1]), vec![mixed.clone(), logic.clone()]),
        (device(4, &[0]), vec![logic.clone(), tall.clone()]),
        (device(4, &[0]), vec![logic.clone(), comb]),
        (device(5, &[0, 1]), vec![mixed.clone(), memory.clone()]),
        (device(5, &[0, 1]), vec![mixed, memory, tall]),
    ];
    let mut books = 0;
    for (device, tasks) in cards.into_iter().take(size.of(1, 5)) {
        let calls = small::alphabet(&device, &tasks, &[1, 2, 65_535]);
        books += small::every_book(subject, &device, &calls)?.books;
    }
    worth(size, books > 300, books)?;
    // Without passing over books that came before: a call might see more than its arguments.
    let least = device(2, &[0]);
    let calls = small::alphabet(&least, &[logic], &[1, 2]);
    let start = Pair::new(subject, least)?;
    small::every_history(&start, &calls, size.of(2, 3))?;
    Ok(())
}

fn listings_of_thousands_of_ranges(subject: &dyn Calls, size: Size) -> Trial<()> {
    let most = limits::thousands_of_ranges(subject, size.of(1, 4))?;
    worth(size, most == 63 * 64, most)
}

fn columns_full_of_intervals(subject: &dyn Calls, size: Size) -> Trial<()> {
    let most = limits::columns_full_of_intervals(subject)?;
    worth(size, most == 64, most)
}

fn tasks_of_full_height_and_width(subject: &dyn Calls, size: Size) -> Trial<()> {
    let fitting = limits::greatest(subject)?;
    worth(size, fitting == 8, fitting)
}

fn sixty_four_tasks_of_32_blocks(subject: &dyn Calls, size: Size) -> Trial<()> {
    let blocks = limits::many_tasks(subject)?;
    worth(size, blocks == 64 * 32, blocks)
}

fn arguments_past_their_limits(subject: &dyn Calls, size: Size) -> Trial<()> {
    let refused = limits::past_the_limits(subject)?;
    worth(size, refused > 320, refused)
}

fn cards_like_labyrinths(subject: &dyn Calls, size: Size) -> Trial<()> {
    let most = fragments::labyrinths(subject, 14, size.of(40, 1500))?;
    worth(size, most > 500, most)
}

fn cards_broken_up_at_the_limits(subject: &dyn Calls, size: Size) -> Trial<()> {
    let most = fragments::at_the_limits(subject)?;
    worth(size, most == 64 * 32, most)
}

fn combs_with_several_blocks_in_an_interval(subject: &dyn Calls, size: Size) -> Trial<()> {
    let tally = combs::in_intervals(subject, 15, size.of(120, 4000), 5)?;
    let all = |counts: [usize; 3], least| counts.iter().all(|&count| count >= least);
    let enough = all(tally.otherwise, 80) && all(tally.lying_in, 300);
    worth(size, enough, tally)
}
