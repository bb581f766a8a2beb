//! Where circuits may go on an FPGA card of mixed columns: Rust over the proved library.
//!
//! The library itself is written in Rattle and proved against the model in
//! `docs/MODEL.md`; this crate calls it through the C calling form and adds types, and decides
//! nothing about placement itself.
//!
//! A [`Device`] has rows, and columns of a [`Kind`]: C (logic), B (memory) or D
//! (multiplier). The unit of heights is the half row: a cell of C is 2 high, one of
//! B or D is 5. A circuit is a [`Task`]: blocks of whole cells, relative to the
//! first one. A [`Card`] holds one device with its running tasks. It lists the
//! [`Position`]s at which a task fits, chooses the best one, places a task
//! there under a number, and releases it again; and it says how broken up its
//! free cells are ([`Fragmentation`]). What can't be done is refused with a
//! [`Refusal`], and then nothing has changed.
//!
//! ```
//! use card::{Card, Device, Kind, Refusal, Task, LIST_ROOM};
//!
//! // 5 rows; two columns of logic, one of memory.
//! let device = Device::from_text(5, "CCB")?;
//! let mut card = Card::new(&device);
//!
//! // A circuit of three blocks: column, kind, bottom and top.
//! let task = Task::builder()
//!     .block(0, Kind::C, 0, 2)
//!     .block(1, Kind::C, -2, 2)
//!     .block(2, Kind::B, 1, 6)
//!     .build()?;
//!
//! // Where does it fit? Only at column 0, bottom 4.
//! let mut output = [0; LIST_ROOM];
//! for range in card.list(&task, &mut output)? {
//!     assert_eq!(range.to_string(), "column 0, bottom 4");
//! }
//!
//! // Load it there as number 7. There is no position for another one.
//! let best = card.choose(&task)?;
//! card.place(&task, 7, best)?;
//! assert_eq!(card.choose(&task), Err(Refusal::NoPosition));
//!
//! // Look at the card, and at how broken up it is.
//! println!("{card}");
//! assert_eq!(card.fragmentation()?.to_string(), "2 sets, 8 free cells, 14.28 %");
//! assert_eq!(card.running_at(1, 2), card.running_task(7));
//!
//! // Unload it.
//! card.release(7)?;
//! assert_eq!(card.choose(&task), Ok(best));
//! # Ok::<(), Refusal>(())
//! ```
//!
//! # The archive that it links
//!
//! `./archive`, in the root of the repository, proves and builds
//! `target/staticlib/libcard.a`; after that a package needs only
//! `card = { path = "host/card" }`. Where the crate is used without that
//! folder, as a git dependency or vendored, the environment variable
//! `WALLARNICA_LIB_DIR` names the folder that has `libcard.a`, by its whole
//! path; it goes before the other. `examples/first_card.rs` is a longer tour.
//!
//! # Without the standard library
//!
//! The crate uses `core` alone, and `alloc` for [`Card::new`], which owns its
//! bytes. Without the default feature `alloc` a card is made in bytes that are
//! lent, by [`Card::new_in`] and [`Card::open`], and nothing else is missing.
//! The archive needs `memcpy` and `memset`.
//!
//! # Layers
//!
//! Under [`Card`] are two more layers: [`bytes`] has the same calls on byte
//! slices with the model's answers, and [`raw`] the functions themselves.
//! [`layout`] has the numbers with which these bytes are read. `host/card.h`
//! declares all that for C.
//!
//! # Stack
//!
//! What is proved leaves out a stack that runs out.
//! [`raw::card_fragmentation`] needs at most 16 KiB of it and any other call
//! 8 KiB, whatever its input. `tests/stack` measures it.

#![no_std]
#![deny(missing_docs)]
#![deny(unsafe_op_in_unsafe_fn)]
#![deny(unsafe_code)]

#[cfg(feature = "alloc")]
extern crate alloc;

mod builder;
#[allow(unsafe_code)]
pub mod bytes;
mod calls;
mod card;
mod check;
mod device;
mod fault;
mod fragmentation;
mod interval;
mod kind;
pub mod layout;
mod listing;
mod parts;
mod picture;
mod position;
pub mod raw;
mod refusal;
mod running;
mod task;

pub use builder::TaskBuilder;
pub use card::Card;
pub use check::{Broken, Rule};
pub use device::Device;
pub use fault::DeviceFault;
pub use fragmentation::Fragmentation;
pub use interval::{Interval, Intervals};
pub use kind::Kind;
pub use layout::{LIST_ROOM, MAX_BLOCKS, MAX_COLUMNS, MAX_ROWS, MAX_RUNNING, RECORD_SIZE};
pub use listing::{Positions, Range, Ranges};
pub use position::Position;
pub use refusal::{outcome, Refusal};
pub use running::{Running, RunningTasks};
pub use task::{Block, Blocks, Task};

/// The Rust of the README, run as a test.
#[cfg(doctest)]
#[doc = include_str!("../../../README.md")]
struct Readme;
