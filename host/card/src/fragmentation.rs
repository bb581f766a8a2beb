//! How broken up the free cells of a card are.

use core::fmt;

/// How broken up a card is, in three numbers.
///
/// Two free cells touch if one stands right above the other in a column, or if
/// they stand in columns side by side and have a half row in common. A
/// *connected set* is a free cell with all that touching leads to from it, step
/// by step.
///
/// The degree is `sets − 1` over `free_cells − 1`: 0 where all free cells are
/// one set, and the whole, 100 %, where no two of them touch. It is given in
/// hundredths of a percent, rounded down: 3,333 is 33.33 %. Where one cell is
/// free, or none, it is 0.
///
/// ```
/// use card::{Card, Device, Fragmentation, Kind, Position, Task};
///
/// // Five cells of logic, the one in the middle held: two sets of two cells.
/// let mut card = Card::new(&Device::from_text(5, "C")?);
/// card.place(&Task::of(Kind::C, 2), 7, Position::new(0, 4))?;
/// let broken_up = card.fragmentation()?;
/// let wanted = Fragmentation { sets: 2, free_cells: 4, degree: 3_333 };
/// assert_eq!(broken_up, wanted);
/// assert_eq!(broken_up.to_string(), "2 sets, 4 free cells, 33.33 %");
/// # Ok::<(), card::Refusal>(())
/// ```
#[derive(Clone, Copy, Debug, PartialEq, Eq, Hash)]
pub struct Fragmentation {
    /// How many connected sets the free cells make; 0 where no cell is free.
    pub sets: u32,
    /// How many cells are free.
    pub free_cells: u32,
    /// The degree in hundredths of a percent, 0 to 10,000.
    pub degree: u32,
}

/// Shows the three numbers: `1 set, 12 free cells, 0.00 %`.
impl fmt::Display for Fragmentation {
    fn fmt(&self, f: &mut fmt::Formatter<'_>) -> fmt::Result {
        let Fragmentation {
            sets,
            free_cells,
            degree,
        } = self;
        let (percent, hundredths) = (degree / 100, degree % 100);
        write!(f, "{sets} set{}, ", plural(*sets))?;
        write!(f, "{free_cells} free cell{}, ", plural(*free_cells))?;
        write!(f, "{percent}.{hundredths:02} %")
    }
}

/// What a noun ends with behind a number.
fn plural(number: u32) -> &'static str {
    match number {
        1 => "",
        _ => "s",
    }
}
