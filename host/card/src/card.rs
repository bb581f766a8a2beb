//! A card: one record, made anew or opened, and what it holds.

#[cfg(feature = "alloc")]
use alloc::{boxed::Box, vec};
use core::fmt;

use crate::bytes;
use crate::layout::{ENTRIES_AT, ENTRY_SIZE, RUNNING_AT};
use crate::{outcome, Device, Refusal, Running, RunningTasks};

/// A card: a device, the tasks that run on it, and which cells are free; kept as a record (`docs/MODEL.md`, section 8).
///
/// The record's bytes are the card's own (`Card`), or any that it is lent:
/// `&mut [u8]`, or `&[u8]` for the calls that only read. No call allocates.
///
/// A card is sound from [`new`](Card::new), [`new_in`](Card::new_in) or
/// [`open`](Card::open) on, and its calls keep it sound; so, where nobody else
/// writes the bytes, none of them refuses it with −1 or −2. The calls are the
/// proved library's: a refused one changes no byte, no cell is ever held by two
/// running tasks, and a task is listed exactly where it fits.
///
/// A card printed with `{}` is drawn.
///
/// ```
/// use card::{Card, Device, Kind, Refusal, Task};
///
/// let mut card = Card::new(&Device::from_text(5, "C")?);
/// let task = Task::of(Kind::C, 4);
/// let best = card.choose(&task)?;
/// card.place(&task, 7, best)?;
///
/// // Its number is taken now.
/// assert_eq!(card.place(&task, 7, best), Err(Refusal::BadNumber));
///
/// card.release(7)?;
/// assert_eq!(card.release(7), Err(Refusal::NotRunning));
/// # Ok::<(), Refusal>(())
/// ```
///
/// # What a call costs
///
/// Every call but new checks the whole record before it does anything else:
/// it reads all bytes, makes the record of the running tasks anew, and
/// compares the two. So even a call that asks for little is not cheap, and it
/// costs the more the more blocks run. Don't make calls in a loop over cells or
/// half rows: ask once for each column, and keep the answer.
/// [`device`](Card::device), [`running`](Card::running),
/// [`running_task`](Card::running_task), [`running_at`](Card::running_at) and
/// the picture are no calls: they read what they need, and check nothing.
///
/// # Panics
///
/// The calls never do: where somebody else has written the bytes and they are
/// no longer sound, they refuse. What reads the running tasks without a call
/// ([`running`](Card::running) and the two after it, and printing) panics then.
/// Anything may, where a `B` of one's own gives other bytes at each `as_ref`.
#[derive(Clone)]
pub struct Card<#[cfg(feature = "alloc")] B = Box<[u8]>, #[cfg(not(feature = "alloc"))] B> {
    // No call changes the device, so it is read once.
    device: Device,
    pub(crate) bytes: B,
}

#[cfg(feature = "alloc")]
impl Card {
    /// New: a card with all cells of the device free, in bytes of its own. Needs the feature `alloc`.
    ///
    /// ```
    /// use card::{Card, Device};
    ///
    /// let card = Card::new(&Device::from_text(5, "CCB")?);
    /// assert_eq!(card.interval_count(2), Ok(1));
    /// # Ok::<(), card::Refusal>(())
    /// ```
    pub fn new(device: &Device) -> Card {
        let bytes = vec![0; crate::RECORD_SIZE].into_boxed_slice();
        // Neither of new's refusals applies: the length is a record's, and a `Device` is within the limits.
        Card::new_in(bytes, device).expect("new takes every device")
    }
}

impl<B: AsRef<[u8]> + AsMut<[u8]>> Card<B> {
    /// New, in bytes that are lent: all of them are written, whatever they
    /// were; −1 where they are not 29,188.
    ///
    /// ```
    /// use card::{Card, Device, Kind, RECORD_SIZE};
    ///
    /// let mut record = [0; RECORD_SIZE];
    /// let card = Card::new_in(&mut record, &Device::new(5, &[Kind::C])?)?;
    /// assert_eq!(card.running().len(), 0);
    /// # Ok::<(), card::Refusal>(())
    /// ```
    pub fn new_in(mut bytes: B, device: &Device) -> Result<Card<B>, Refusal> {
        let kinds = &device.kind_bytes()[..device.kinds().len()];
        outcome(bytes::new(bytes.as_mut(), device.rows().into(), kinds))?;
        let device = *device;
        Ok(Card { device, bytes })
    }
}

impl<B: AsRef<[u8]>> Card<B> {
    /// Takes bytes that are a card's record already; −1 where they are not
    /// 29,188, −2 where they are not sound.
    ///
    /// ```
    /// use card::{Card, Device, Kind, Refusal, RECORD_SIZE};
    ///
    /// let record = Card::new(&Device::new(5, &[Kind::C])?).into_bytes();
    /// let card = Card::open(&record)?;
    /// assert_eq!(card.device().rows(), 5);
    ///
    /// let zeros = [0; RECORD_SIZE];
    /// assert!(matches!(Card::open(&zeros), Err(Refusal::RecordNotSound)));
    /// # Ok::<(), Refusal>(())
    /// ```
    pub fn open(bytes: B) -> Result<Card<B>, Refusal> {
        let record = bytes.as_ref();
        // Every device has a column 0, so this refuses the record or nothing.
        outcome(bytes::interval_count(record, 0))?;
        let device = Device::of_record(record).ok_or(Refusal::RecordNotSound)?;
        Ok(Card { device, bytes })
    }

    /// The device, as it was given to new.
    pub fn device(&self) -> &Device {
        &self.device
    }

    /// The running tasks, by rising number. No call: it reads the record, and checks nothing.
    ///
    /// # Panics
    ///
    /// Here or in the iterator, where somebody else has written the bytes and they are no longer sound.
    ///
    /// ```
    /// use card::{Card, Device, Kind, Position, Task};
    ///
    /// let mut card = Card::new(&Device::new(5, &[Kind::C])?);
    /// let position = Position::new(0, 4);
    /// card.place(&Task::of(Kind::C, 2), 7, position)?;
    /// for running in card.running() {
    ///     assert_eq!((running.number, running.position), (7, position));
    /// }
    /// # Ok::<(), card::Refusal>(())
    /// ```
    pub fn running(&self) -> RunningTasks<'_> {
        let record = self.as_bytes();
        let count = usize::from(record[RUNNING_AT]);
        RunningTasks::of(&record[ENTRIES_AT..ENTRIES_AT + ENTRY_SIZE * count])
    }

    /// The running task of a number, if it runs. No call, as [`running`](Card::running).
    ///
    /// # Panics
    ///
    /// As [`running`](Card::running).
    ///
    /// ```
    /// use card::{Card, Device, Kind, Position, Task};
    ///
    /// let mut card = Card::new(&Device::from_text(5, "C")?);
    /// card.place(&Task::of(Kind::C, 2), 7, Position::new(0, 4))?;
    /// let running = card.running_task(7).expect("it runs");
    /// assert_eq!(running.position, Position::new(0, 4));
    /// assert_eq!(card.running_task(8), None);
    /// # Ok::<(), card::Refusal>(())
    /// ```
    pub fn running_task(&self, number: u16) -> Option<Running> {
        self.running().find(|running| running.number == number)
    }

    /// The running task that holds a half row of a column. No call, as [`running`](Card::running).
    ///
    /// The half row may be any of the cell's. None where the cell is free, and
    /// where there is no cell: above the last one, or off the device.
    ///
    /// # Panics
    ///
    /// As [`running`](Card::running).
    ///
    /// ```
    /// use card::{Card, Device, Kind, Position, Task};
    ///
    /// let mut card = Card::new(&Device::from_text(5, "C")?);
    /// card.place(&Task::of(Kind::C, 2), 7, Position::new(0, 4))?;
    /// let holder = |half_row| card.running_at(0, half_row).map(|running| running.number);
    /// assert_eq!([3, 4, 5, 6].map(holder), [None, Some(7), Some(7), None]);
    /// # Ok::<(), card::Refusal>(())
    /// ```
    pub fn running_at(&self, column: u8, half_row: i16) -> Option<Running> {
        self.running()
            .find(|running| running.holds(column, half_row))
    }

    /// The record's bytes, to be kept or sent; [`open`](Card::open) takes them back.
    pub fn as_bytes(&self) -> &[u8] {
        self.bytes.as_ref()
    }

    /// Gives back the bytes that the card owned or was lent.
    pub fn into_bytes(self) -> B {
        self.bytes
    }
}

/// Two cards are equal when their records are: they have the same device, and
/// the same tasks run, with equal numbers and positions.
impl<B: AsRef<[u8]>, C: AsRef<[u8]>> PartialEq<Card<C>> for Card<B> {
    fn eq(&self, other: &Card<C>) -> bool {
        self.as_bytes() == other.as_bytes()
    }
}

impl<B: AsRef<[u8]>> Eq for Card<B> {}

impl<B: AsRef<[u8]>> fmt::Debug for Card<B> {
    fn fmt(&self, f: &mut fmt::Formatter<'_>) -> fmt::Result {
        f.debug_struct("Card")
            .field("rows", &self.device.rows())
            .field("kinds", &self.device.kinds())
            .field("running", &self.running())
            .finish()
    }
}
