//! Which block of a task breaks which rule: the reason behind −5.

use core::fmt;

use crate::layout::{MAX_COLUMNS, REACH};
use crate::{Block, Refusal, Task};

/// A rule of well-formedness that a block can break (`docs/MODEL.md`, 4.5 to 4.10).
///
/// One rule, 4.8, has no place here: a [`Task`] has no kind above 2.
///
/// ```
/// use card::{Kind, Rule, Task};
///
/// let broken = Task::of(Kind::C, 258).check().expect_err("too high");
/// assert_eq!((broken.block, broken.rule), (0, Rule::TopTooHigh));
/// ```
#[derive(Clone, Copy, Debug, PartialEq, Eq, Hash)]
pub enum Rule {
    /// The first block's column is 0.
    FirstColumn,
    /// The first block's bottom is 0.
    FirstBottom,
    /// No column is lower than that of the block before.
    ColumnFalls,
    /// No column is above 63.
    ColumnTooHigh,
    /// A block has the kind of the block before it in its column.
    OtherKind,
    /// A block's bottom is above the top of the block before it in its column; two that touch have to be written as one.
    NotAbove,
    /// The bottom is not under −256.
    BottomTooLow,
    /// The top is not over 256.
    TopTooHigh,
    /// The block is a whole number of cells of its kind high, one at least.
    NotWholeCells,
}

impl Rule {
    /// The first rule that a block breaks, after the block before it, if there is one.
    fn broken_by(block: Block, before: Option<Block>) -> Option<Rule> {
        let is_first = before.is_none();
        let below = before.filter(|before| before.column == block.column);
        let height = i32::from(block.top) - i32::from(block.bottom);
        let is_whole = height > 0 && height % i32::from(block.kind.height()) == 0;
        let rules = [
            (Rule::FirstColumn, is_first && block.column != 0),
            (Rule::FirstBottom, is_first && block.bottom != 0),
            (
                Rule::ColumnFalls,
                before.is_some_and(|before| block.column < before.column),
            ),
            (
                Rule::ColumnTooHigh,
                usize::from(block.column) >= MAX_COLUMNS,
            ),
            (
                Rule::OtherKind,
                below.is_some_and(|below| block.kind != below.kind),
            ),
            (
                Rule::NotAbove,
                below.is_some_and(|below| block.bottom <= below.top),
            ),
            (Rule::BottomTooLow, block.bottom < -REACH),
            (Rule::TopTooHigh, block.top > REACH),
            (Rule::NotWholeCells, !is_whole),
        ];
        let broken = rules.into_iter().find(|&(_, is_broken)| is_broken);
        broken.map(|(rule, _)| rule)
    }

    /// What a block that breaks the rule does.
    fn text(self) -> &'static str {
        match self {
            Rule::FirstColumn => "the first block is not in column 0",
            Rule::FirstBottom => "the first block's bottom is not 0",
            Rule::ColumnFalls => "its column is below that of the block before it",
            Rule::ColumnTooHigh => "its column is over 63",
            Rule::OtherKind => "its kind is not that of the block before it in its column",
            Rule::NotAbove => {
                "its bottom is not above the top of the block before it in its column"
            }
            Rule::BottomTooLow => "its bottom is under -256",
            Rule::TopTooHigh => "its top is over 256",
            Rule::NotWholeCells => "its height is no positive multiple of its kind's height",
        }
    }
}

/// Why a task is not well-formed: the first block that breaks a rule, and the first rule that it breaks.
///
/// ```
/// use card::{Broken, Kind, Refusal, Rule, Task};
///
/// // Two blocks that touch have to be written as one.
/// let touching = Task::builder()
///     .block(0, Kind::C, 0, 2)
///     .block(0, Kind::C, 2, 4)
///     .build()?;
/// let broken = Broken { block: 1, rule: Rule::NotAbove };
/// assert_eq!(touching.check(), Err(broken));
/// assert_eq!(
///     broken.to_string(),
///     "block 1: its bottom is not above the top of the block before it in its column"
/// );
/// assert_eq!(Refusal::from(broken), Refusal::TaskNotWellFormed);
/// # Ok::<(), Refusal>(())
/// ```
#[derive(Clone, Copy, Debug, PartialEq, Eq, Hash)]
pub struct Broken {
    /// The block's place in the task, from 0.
    pub block: usize,
    /// The rule.
    pub rule: Rule,
}

impl fmt::Display for Broken {
    fn fmt(&self, f: &mut fmt::Formatter<'_>) -> fmt::Result {
        write!(f, "block {}: {}", self.block, self.rule.text())
    }
}

impl core::error::Error for Broken {}

/// A task that is not well-formed is −5.
impl From<Broken> for Refusal {
    fn from(_: Broken) -> Refusal {
        Refusal::TaskNotWellFormed
    }
}

impl Task {
    /// Says which block breaks which rule, where the task is not well-formed.
    ///
    /// This explains a refusal with −5, and is not needed before a call: the
    /// proved library stays the judge, and the tests compare the two.
    ///
    /// ```
    /// use card::{Kind, Rule, Task};
    ///
    /// assert_eq!(Task::of(Kind::B, 5).check(), Ok(()));
    /// // A cell of memory is 5 half rows high.
    /// let broken = Task::of(Kind::B, 4).check();
    /// assert_eq!(broken.map_err(|broken| broken.rule), Err(Rule::NotWholeCells));
    /// ```
    pub fn check(&self) -> Result<(), Broken> {
        let mut before = None;
        for (index, block) in self.blocks().enumerate() {
            if let Some(rule) = Rule::broken_by(block, before) {
                return Err(Broken { block: index, rule });
            }
            before = Some(block);
        }
        Ok(())
    }
}
