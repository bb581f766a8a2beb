//! The book of a history: the device and the running tasks, and the calls on it.
//!
//! No record is looked at here: all follows from the device and these tasks.

use std::collections::BTreeMap;

use crate::cells::{intervals, CellSet, Interval};
use crate::choice;
use crate::device::Device;
use crate::fit::{cells_of, fits, Position};
use crate::fragments::{fragmentation, Fragmentation};
use crate::listing::{ranges, Range, LIST_ROOM, RANGE_SIZE};
use crate::refusal::Refusal;
use crate::task::Task;

/// The most tasks that run at once.
pub const MAX_RUNNING: usize = 64;

/// A running task: its blocks and its position.
#[derive(Clone, Debug, PartialEq, Eq)]
pub struct Running {
    /// The task, with its block bytes.
    pub task: Task,
    /// Where it was placed.
    pub position: Position,
}

/// The book: a device and the tasks that run on it, by rising number.
#[derive(Clone, Debug, PartialEq, Eq)]
pub struct Book {
    device: Device,
    running: BTreeMap<u16, Running>,
}

impl Book {
    /// The book of the empty history: new's device, no running task; or −3.
    pub fn new(rows: u32, kinds: &[u8]) -> Result<Book, Refusal> {
        Device::new(rows, kinds).map(Book::on)
    }

    /// The book of the empty history on a device.
    pub fn on(device: Device) -> Book {
        let running = BTreeMap::new();
        Book { device, running }
    }

    /// A book from its parts, as read from a record that was judged sound.
    pub(crate) fn from_parts(device: Device, running: BTreeMap<u16, Running>) -> Book {
        Book { device, running }
    }

    /// The device.
    pub fn device(&self) -> &Device {
        &self.device
    }

    /// The running tasks, by rising number.
    pub fn running(&self) -> &BTreeMap<u16, Running> {
        &self.running
    }

    /// The cells that a running task holds, as pairs of column and cell.
    pub fn cells_held_by(&self, number: u16) -> Vec<(usize, usize)> {
        self.running
            .get(&number)
            .and_then(|entry| cells_of(&self.device, &entry.task, entry.position))
            .unwrap_or_default()
    }

    /// The free cells.
    pub fn free_cells(&self) -> CellSet {
        let mut free = CellSet::all_of(&self.device);
        for &number in self.running.keys() {
            for (column, cell) in self.cells_held_by(number) {
                free.remove(column, cell);
            }
        }
        free
    }

    /// The free intervals of a column, upwards.
    pub fn intervals(&self, column: usize) -> Vec<Interval> {
        intervals(&self.device, &self.free_cells(), column)
    }

    /// Whether the task fits at the position.
    pub fn fits(&self, task: &Task, at: Position) -> bool {
        fits(&self.device, &self.free_cells(), task, at)
    }

    /// The ranges of a task, by column and then by first.
    pub fn ranges(&self, task: &Task) -> Vec<Range> {
        ranges(&self.device, &self.free_cells(), task)
    }

    /// How broken up the card is.
    pub fn fragmentation(&self) -> Fragmentation {
        fragmentation(&self.device, &self.free_cells())
    }

    /// Place: enters a task in the book, or refuses with −4, −5, −7, −8
    /// or −10.
    pub fn place(
        &mut self,
        task: &[u8],
        number: u32,
        column: u32,
        bottom: i32,
    ) -> Result<(), Refusal> {
        let task = Task::from_bytes(task)?;
        let number = self.unused_number(number).ok_or(Refusal::BadNumber)?;
        if self.running.len() >= MAX_RUNNING {
            return Err(Refusal::Full);
        }
        let position = Position { column, bottom };
        if !self.fits(&task, position) {
            return Err(Refusal::Misfit);
        }
        self.running.insert(number, Running { task, position });
        Ok(())
    }

    /// Release: strikes a task out of the book, or refuses with −11.
    pub fn release(&mut self, number: u32) -> Result<(), Refusal> {
        let number = u16::try_from(number).map_err(|_| Refusal::NotRunning)?;
        match self.running.remove(&number) {
            Some(_) => Ok(()),
            None => Err(Refusal::NotRunning),
        }
    }

    /// List: puts the ranges at the front of the output, leaves the rest of it,
    /// and answers how many they are; or refuses with −4, −5, −6 or −9.
    pub fn list(&self, task: &[u8], output: &mut [u8]) -> Result<usize, Refusal> {
        let task = Task::from_bytes(task)?;
        if output.len() < LIST_ROOM {
            return Err(Refusal::OutputShort);
        }
        let ranges = self.ranges(&task);
        if ranges.is_empty() {
            return Err(Refusal::NoPosition);
        }
        for (part, range) in output.chunks_exact_mut(RANGE_SIZE).zip(&ranges) {
            part.copy_from_slice(&range.to_bytes());
        }
        Ok(ranges.len())
    }

    /// Choose: the best position, or a refusal: −4, −5 or −9.
    pub fn choose(&self, task: &[u8]) -> Result<Position, Refusal> {
        let task = Task::from_bytes(task)?;
        choice::chosen(&self.device, &self.free_cells(), &task).ok_or(Refusal::NoPosition)
    }

    /// The number as a task number that may be entered now.
    fn unused_number(&self, number: u32) -> Option<u16> {
        let number = u16::try_from(number).ok()?;
        let is_good = number != 0 && !self.running.contains_key(&number);
        is_good.then_some(number)
    }
}
