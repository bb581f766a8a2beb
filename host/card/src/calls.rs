//! The calls on a card: place and release, list and choose, the free intervals of a column, and how broken up it is.

use crate::bytes;
use crate::layout::{COLUMN_SIZE, INTERVALS_AT, INTERVAL_SIZE, RANGE_SIZE};
use crate::{outcome, Card, Fragmentation, Intervals, Position, Ranges, Refusal, Task};

impl<B: AsRef<[u8]> + AsMut<[u8]>> Card<B> {
    /// Place: puts the task on the card under a number, so that it holds its cells.
    ///
    /// [Checks the whole record](Card#what-a-call-costs). Refuses with −5, −7 (number 0, or running), −8 (64 tasks run) or −10
    /// (it does not fit there).
    ///
    /// ```
    /// use card::{Card, Device, Kind, Position, Refusal, Task};
    ///
    /// let mut card = Card::new(&Device::from_text(5, "C")?);
    /// let task = Task::of(Kind::C, 2);
    /// card.place(&task, 7, Position::new(0, 4))?;
    ///
    /// let odd = Position::new(0, 1);
    /// assert_eq!(card.place(&task, 8, odd), Err(Refusal::Misfit));
    /// # Ok::<(), Refusal>(())
    /// ```
    pub fn place(&mut self, task: &Task, number: u16, position: Position) -> Result<(), Refusal> {
        let Position { column, bottom } = position;
        let record = self.bytes.as_mut();
        let answer = bytes::place(
            record,
            task.as_bytes(),
            number.into(),
            column.into(),
            bottom.into(),
        );
        outcome(answer).map(|_| ())
    }

    /// Release: takes a running task off the card. Its cells are free again, as one
    /// interval with what is free right below and above; −11 where the number does not run.
    ///
    /// [Checks the whole record](Card#what-a-call-costs).
    ///
    /// ```
    /// use card::{Card, Device, Kind, Position, Task};
    ///
    /// let mut card = Card::new(&Device::from_text(5, "C")?);
    /// card.place(&Task::of(Kind::C, 2), 7, Position::new(0, 4))?;
    /// assert_eq!(card.interval_count(0), Ok(2));
    /// card.release(7)?;
    /// assert_eq!(card.interval_count(0), Ok(1));
    /// # Ok::<(), card::Refusal>(())
    /// ```
    pub fn release(&mut self, number: u16) -> Result<(), Refusal> {
        outcome(bytes::release(self.bytes.as_mut(), number.into())).map(|_| ())
    }
}

impl<B: AsRef<[u8]>> Card<B> {
    /// List: all positions at which the task fits, as ranges by column and then by first.
    ///
    /// The ranges are written into the output, [`LIST_ROOM`](crate::LIST_ROOM) bytes or more,
    /// and read from there. [Checks the whole record](Card#what-a-call-costs).
    /// Refuses with −5, −6 (the output is too short) or −9 (no position fits).
    ///
    /// ```
    /// use card::{Card, Device, Kind, Task, LIST_ROOM};
    ///
    /// let card = Card::new(&Device::from_text(10, "CB")?);
    /// let task = Task::builder()
    ///     .block(0, Kind::C, 0, 2)
    ///     .block(1, Kind::B, 0, 5)
    ///     .build()?;
    /// let mut output = [0; LIST_ROOM];
    /// let ranges = card.list(&task, &mut output)?;
    /// let bottoms: Vec<i16> = ranges
    ///     .flat_map(|range| range.positions())
    ///     .map(|position| position.bottom)
    ///     .collect();
    /// assert_eq!(bottoms, [0, 10]);
    /// # Ok::<(), card::Refusal>(())
    /// ```
    pub fn list<'a>(&self, task: &Task, output: &'a mut [u8]) -> Result<Ranges<'a>, Refusal> {
        let count = outcome(bytes::list(self.as_bytes(), task.as_bytes(), output))?;
        Ok(Ranges::of(&output[..RANGE_SIZE * count as usize]))
    }

    /// Choose: the best of all positions at which the task fits.
    ///
    /// That is the one with the least n / s: few free intervals left over (n) of
    /// the intervals that it cuts, and these high (s, their heights added up, each
    /// interval once, however many blocks lie in it). Of equals it is the one in
    /// the lowest column, and there the lowest.
    ///
    /// [Checks the whole record](Card#what-a-call-costs) before it weighs the
    /// positions. Refuses with −5 or −9 (no position fits).
    ///
    /// ```
    /// use card::{Card, Device, Kind, Position, Task};
    ///
    /// let card = Card::new(&Device::from_text(5, "CB")?);
    /// let best = card.choose(&Task::of(Kind::B, 5))?;
    /// assert_eq!(best, Position::new(1, 0));
    /// # Ok::<(), card::Refusal>(())
    /// ```
    pub fn choose(&self, task: &Task) -> Result<Position, Refusal> {
        let answer = bytes::choose(self.as_bytes(), task.as_bytes());
        outcome(answer).map(Position::of_answer)
    }

    /// How many free intervals a column has; −3 where there is no such column.
    ///
    /// [Checks the whole record](Card#what-a-call-costs), though it reads one byte.
    ///
    /// ```
    /// use card::{Card, Device, Refusal};
    ///
    /// let card = Card::new(&Device::from_text(5, "CB")?);
    /// assert_eq!(card.interval_count(1), Ok(1));
    /// assert_eq!(card.interval_count(2), Err(Refusal::DeviceOrColumn));
    /// # Ok::<(), Refusal>(())
    /// ```
    pub fn interval_count(&self, column: u8) -> Result<usize, Refusal> {
        let answer = bytes::interval_count(self.as_bytes(), column.into());
        outcome(answer).map(|count| count as usize)
    }

    /// The free intervals of a column, upwards, read where they stand in the
    /// record; −3 where there is no such column.
    ///
    /// [Checks the whole record](Card#what-a-call-costs): ask once for a
    /// column, and not once for each of its cells.
    ///
    /// ```
    /// use card::{Card, Device, Interval, Kind, Position, Task};
    ///
    /// let mut card = Card::new(&Device::from_text(5, "C")?);
    /// card.place(&Task::of(Kind::C, 2), 7, Position::new(0, 4))?;
    /// let free: Vec<Interval> = card.intervals(0)?.collect();
    /// assert_eq!(free, [Interval { bottom: 0, top: 4 }, Interval { bottom: 6, top: 10 }]);
    /// # Ok::<(), card::Refusal>(())
    /// ```
    pub fn intervals(&self, column: u8) -> Result<Intervals<'_>, Refusal> {
        let count = self.interval_count(column)?;
        let start = INTERVALS_AT + COLUMN_SIZE * usize::from(column);
        let part = &self.as_bytes()[start..start + INTERVAL_SIZE * count];
        Ok(Intervals::of(part))
    }

    /// How broken up the card is: the connected sets of its free cells, the free cells, and the degree.
    ///
    /// [Checks the whole record](Card#what-a-call-costs), then goes over all free intervals.
    /// Refuses nothing of its own.
    ///
    /// ```
    /// use card::{Card, Device, Kind, Position, Task};
    ///
    /// let mut card = Card::new(&Device::from_text(5, "CCB")?);
    /// assert_eq!(card.fragmentation()?.to_string(), "1 set, 12 free cells, 0.00 %");
    /// // All of the middle column: what is left and right of it no longer touches.
    /// card.place(&Task::of(Kind::C, 10), 7, Position::new(1, 0))?;
    /// let broken_up = card.fragmentation()?;
    /// assert_eq!((broken_up.sets, broken_up.free_cells), (2, 7));
    /// // 1 / 6, in hundredths of a percent.
    /// assert_eq!(broken_up.degree, 1_666);
    /// # Ok::<(), card::Refusal>(())
    /// ```
    pub fn fragmentation(&self) -> Result<Fragmentation, Refusal> {
        let (mut free, mut degree) = (0, 0);
        let answer = bytes::fragmentation(self.as_bytes(), &mut free, &mut degree);
        // Neither number is ever negative.
        outcome(answer).map(|sets| Fragmentation {
            sets,
            free_cells: free as u32,
            degree: degree as u32,
        })
    }
}
