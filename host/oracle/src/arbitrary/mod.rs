//! Random cards for comparisons, steered so that the rare cases come up: full
//! cards, fragmented columns, shapes of mixed kinds, refusals, damaged records.
//!
//! All of it is drawn from an [`Rng`](crate::rng::Rng), so a seed gives the same card again.

mod calls;
mod records;
mod shapes;
mod sheets;

pub use calls::{call, mood, Mood};
pub use records::{book, damage};
pub use shapes::{device, device_arguments, fitting_task, loose_task, task, task_bytes};
pub use sheets::{sheet_bytes, sheet_calls, text_of};
