//! A card drawn as a text.

use core::fmt;

use crate::layout::{MAX_COLUMNS, MAX_ROWS, MAX_RUNNING};
use crate::{Card, Device, Running};

/// What stands for a running task: the symbol at its place among the running tasks.
const SYMBOLS: &[u8; MAX_RUNNING] =
    b"abcdefghijklmnopqrstuvwxyzABCDEFGHIJKLMNOPQRSTUVWXYZ0123456789+*";

/// A free cell.
const FREE: u8 = b'.';

/// A half row from the top of a column on: no cell.
const NO_CELL: u8 = b'-';

/// The half rows of the highest device.
const MAX_HALF_ROWS: usize = 2 * MAX_ROWS as usize;

/// The symbol of each column in each half row.
struct Picture([[u8; MAX_COLUMNS]; MAX_HALF_ROWS]);

impl Picture {
    /// Draws the cells of a device, all free.
    fn of(device: &Device) -> Picture {
        let mut picture = Picture([[NO_CELL; MAX_COLUMNS]; MAX_HALF_ROWS]);
        for column in 0..device.columns() {
            for half_row in 0..device.top(column).into() {
                picture.set(column.into(), half_row, FREE);
            }
        }
        picture
    }

    /// Draws the blocks of a running task.
    fn draw(&mut self, running: &Running, symbol: u8) {
        for block in running.task.blocks() {
            let (column, half_rows) = running.moved(block);
            for half_row in half_rows {
                self.set(column, half_row, symbol);
            }
        }
    }

    /// Sets one symbol; off the picture, none.
    fn set(&mut self, column: usize, half_row: i32, symbol: u8) {
        let line = usize::try_from(half_row).ok();
        let line = line.and_then(|line| self.0.get_mut(line));
        if let Some(place) = line.and_then(|line| line.get_mut(column)) {
            *place = symbol;
        }
    }
}

/// Draws the card: a line for each half row from the highest down, a column of symbols for each column under its kind.
///
/// Each running task has one symbol, the legend below says which: `a` is the
/// one with the lowest number, and so on. `.` is a free cell, `-` no cell at all.
/// The picture is read from the record without any call.
///
/// ```
/// use card::{Card, Device, Kind, Position, Task};
///
/// let mut card = Card::new(&Device::from_text(3, "CB")?);
/// card.place(&Task::of(Kind::C, 2), 40_000, Position::new(0, 2))?;
/// assert_eq!(
///     card.to_string(),
///     "\
/// half row  C B
///        5  . -
///        4  . .
///        3  a .
///        2  a .
///        1  . .
///        0  . .
/// a: number 40000 at column 0, bottom 2
/// .: free, -: no cell"
/// );
/// # Ok::<(), card::Refusal>(())
/// ```
impl<B: AsRef<[u8]>> fmt::Display for Card<B> {
    fn fmt(&self, f: &mut fmt::Formatter<'_>) -> fmt::Result {
        let mut picture = Picture::of(self.device());
        for (running, &symbol) in self.running().zip(SYMBOLS) {
            picture.draw(&running, symbol);
        }
        let kinds = self.device().kinds();
        let letters = kinds.iter().map(|kind| kind.letter());
        write_line(f, &"half row", letters)?;
        let half_rows = usize::from(self.device().half_rows());
        for (half_row, line) in picture.0[..half_rows].iter().enumerate().rev() {
            let symbols = line[..kinds.len()].iter().map(|&symbol| char::from(symbol));
            write_line(f, &half_row, symbols)?;
        }
        for (running, &symbol) in self.running().zip(SYMBOLS) {
            writeln!(f, "{}: {running}", char::from(symbol))?;
        }
        write!(
            f,
            "{}: free, {}: no cell",
            char::from(FREE),
            char::from(NO_CELL)
        )
    }
}

/// Writes one line of a picture: what it is, and a symbol for each column.
fn write_line(
    f: &mut fmt::Formatter<'_>,
    title: &dyn fmt::Display,
    symbols: impl Iterator<Item = char>,
) -> fmt::Result {
    write!(f, "{title:>8} ")?;
    for symbol in symbols {
        write!(f, " {symbol}")?;
    }
    writeln!(f)
}
