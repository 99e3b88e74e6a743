//! Safe calls into the static library of the group-allocated load-store queue.
//!
//! [`Queue`] is a live queue, on which calls are made one by one. [`replay`]
//! plays a whole trace; it and [`text`] say which of the things lent has a
//! wrong length. [`ShiftRecord`] keeps what was taken at each load port, by
//! [`Queue::take_recorded`] or [`replay_recorded`], and writes its page.
//! [`order`] gives a group's order from pairs, and [`Order::table`] the table of
//! that group. [`direct`] has the library's functions as they are, with the
//! paper's numbers for answers.
//!
//! The library's functions are proved; what stands over them here is plain
//! Rust and is not.

#![warn(missing_docs)]

use std::fmt;

use refusal::accepted;

mod bytes;
pub mod direct;
mod ffi;
mod live;
mod ordering;
pub mod record;
mod refusal;
mod saved;
mod shift;

pub use bytes::{read_table, write_event, write_number, write_table};
pub use direct::{event_count, memory_length, share, table_fault, trace_fault};
pub use live::Queue;
pub use ordering::{order, Access, Order};
pub use record::{Counts, Precedence, ShiftRecord};
pub use refusal::Refusal;
pub use saved::QUEUE_BYTES;
pub use shift::PAGE_BYTES;

/// The least length of the buffer lent to [`text`]: no text is longer.
pub const TEXT_BYTES: usize = 1_224_789;

/// What a replay is lent.
#[derive(Debug)]
pub struct Lent<'a> {
    /// As many words as [`memory_length`] says.
    pub memory: &'a mut [u32],
    /// Loads, forwarded; at least two places.
    pub counts: &'a mut [u32],
    /// At least as many places as [`event_count`] says.
    pub answers: &'a mut [u8],
    /// At least as many places: 1 where an event gave a value, else 0.
    pub given: &'a mut [u8],
    /// At least as many places: the value, or 0.
    pub values: &'a mut [u32],
}

/// Something lent to a call.
#[derive(Clone, Copy, Debug, PartialEq, Eq)]
pub enum Buffer {
    /// [`Lent::memory`].
    Memory,
    /// [`Lent::counts`].
    Counts,
    /// [`Lent::answers`].
    Answers,
    /// [`Lent::given`].
    Given,
    /// [`Lent::values`].
    Values,
    /// The text of [`text`].
    Text,
    /// The accesses of [`Order::table`].
    Accesses,
}

/// Why a call was not made, or what it was refused for. Everything lent keeps
/// its contents.
#[derive(Clone, Copy, Debug, PartialEq, Eq)]
pub enum Error {
    /// The paper's number for a table or a trace that can't be played.
    Refused(u32),
    /// Something lent has a wrong length.
    Length {
        /// What it is.
        buffer: Buffer,
        /// Its length.
        lent: usize,
        /// The length that it must have; the least, but for memory and
        /// accesses.
        needed: usize,
    },
}

impl fmt::Display for Error {
    fn fmt(&self, f: &mut fmt::Formatter) -> fmt::Result {
        match self {
            Self::Refused(number) => write!(f, "refused with {number}"),
            Self::Length {
                buffer,
                lent,
                needed,
            } => write!(f, "{buffer:?} has length {lent} and needs {needed}"),
        }
    }
}

impl std::error::Error for Error {}

impl From<Refusal> for Error {
    fn from(Refusal(number): Refusal) -> Self {
        Self::Refused(number)
    }
}

/// Plays every event of the trace from a fresh opening, on the memory and the
/// counts as lent, and gives the number of events. Answers and values stand at
/// the front of their buffers. Every length is tested before the library's
/// replay is called; [`direct::replay`], which tests them too, reads the trace
/// fewer times.
///
/// # Errors
/// In this order: the table's fault; counts that are too short; the trace's
/// fault; another memory length; the first buffer that is too short.
pub fn replay(table: &[u8], trace: &[u8], lent: Lent) -> Result<usize, Error> {
    let events = playable(table, trace, &lent)?;
    accepted(direct::replay(table, trace, lent))?;
    Ok(events)
}

/// [`replay`], and keeps the record of what it takes, going on from what it
/// holds. A refused replay leaves the record.
///
/// # Errors
/// Those of [`replay`].
pub fn replay_recorded(
    table: &[u8],
    trace: &[u8],
    lent: Lent,
    kept: &mut ShiftRecord,
) -> Result<usize, Error> {
    let events = playable(table, trace, &lent)?;
    let replayed = direct::replay_recorded(table, trace, lent, *kept);
    accepted(replayed.answer)?;
    *kept = replayed.kept;
    Ok(events)
}

/// The number of events, where the trace can be played with what is lent.
fn playable(table: &[u8], trace: &[u8], lent: &Lent) -> Result<usize, Error> {
    accepted(table_fault(table))?;
    at_least(Buffer::Counts, lent.counts.len(), 2)?;
    accepted(trace_fault(table, trace))?;
    let words = memory_length(table, trace) as usize;
    if lent.memory.len() != words {
        return Err(wrong_length(Buffer::Memory, lent.memory.len(), words));
    }
    let events = event_count(table, trace) as usize;
    at_least(Buffer::Answers, lent.answers.len(), events)?;
    at_least(Buffer::Given, lent.given.len(), events)?;
    at_least(Buffer::Values, lent.values.len(), events)?;
    Ok(events)
}

fn at_least(buffer: Buffer, lent: usize, needed: usize) -> Result<(), Error> {
    if lent < needed {
        return Err(wrong_length(buffer, lent, needed));
    }
    Ok(())
}

/// The text that `play` prints for these two files' bytes, at the front of
/// `out`, which keeps the rest of its contents.
///
/// # Errors
/// When `out` is shorter than [`TEXT_BYTES`].
pub fn text<'a>(table: &[u8], trace: &[u8], out: &'a mut [u8]) -> Result<&'a [u8], Error> {
    at_least(Buffer::Text, out.len(), TEXT_BYTES)?;
    let length = direct::text(table, trace, out) as usize;
    Ok(&out[..length])
}

/// The value that an event's places of [`Lent::given`] and [`Lent::values`]
/// stand for.
#[must_use]
pub fn value(given: u8, word: u32) -> Option<u32> {
    (given == 1).then_some(word)
}

fn wrong_length(buffer: Buffer, lent: usize, needed: usize) -> Error {
    Error::Length {
        buffer,
        lent,
        needed,
    }
}
