//! Reference model of the group-allocated load-store queue of the tally board.
//!
//! It is written from the papers alone: document 01, "The group-allocated
//! load-store queue of the tally board", and of document 02 S-1, the shift page,
//! S-2, groups with no load and no store, S-3, half to even in shares, S-4,
//! padding refused, S-5, the byte count by formula, S-6, a group's order from
//! precedence pairs, and S-7, serve sooner. Quoted sentences in the comments are
//! theirs. Everything works in place and refusals are plain numbers, so that another
//! implementation can be compared with this one answer by answer.
//!
//! "Tables and events lie lowest, the queue above, `play` on top":
//! [`number`], [`table`], [`event`] and [`shift`] know nothing of [`queue`],
//! which knows nothing of [`play`]. [`ordering`] stands beside the queue: it knows
//! of [`table`] alone, and nothing but [`gen`] knows of it. [`plain`] is the run
//! that demand 3 is measured on, and the sources of S-7; it uses nothing of the queue.
//! [`gen`] and [`rng`] make inputs for comparisons.

#![forbid(unsafe_code)]
#![warn(missing_docs)]

pub mod counts;
pub mod event;
pub mod gen;
pub mod number;
pub mod ordering;
pub mod plain;
pub mod play;
pub mod queue;
pub mod refusal;
pub mod replay;
pub mod rng;
pub mod shift;
pub mod table;

pub use counts::Counts;
pub use event::{Event, Header, Step};
pub use ordering::Precedence;
pub use queue::Queue;
pub use shift::ShiftRecord;
pub use table::Table;
