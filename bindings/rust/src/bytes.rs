//! Tables, numbers and events as bytes.

use crate::direct;
use crate::record::{Table, Written};
use crate::refusal::{accepted, Refusal};

/// Reads a table that takes up all of `bytes`.
///
/// # Errors
/// 1 to 9 or 42.
pub fn read_table(bytes: &[u8]) -> Result<Table, Refusal> {
    let read = direct::read_table(bytes);
    accepted(read.answer)?;
    Ok(read.table)
}

/// Writes a table at the front of `out`, whose rest keeps its contents, and
/// gives the byte count.
///
/// # Errors
/// 4, 5, 8, 6, 7; 10 `out` is too short.
pub fn write_table(table: &Table, out: &mut [u8]) -> Result<usize, Refusal> {
    count(direct::write_table(*table, out))
}

/// Writes a number at the front of `out` in the fewest bytes, and gives their
/// count.
///
/// # Errors
/// 10 `out` is too short.
pub fn write_number(value: u32, out: &mut [u8]) -> Result<usize, Refusal> {
    count(direct::write_number(value, out))
}

/// Writes an event at the front of `out` and gives the byte count. The kinds
/// and their numbers are those of `lsq_write_event` in `lsq.h`; of a kind with
/// one number `second` is not looked at.
///
/// # Errors
/// 35 kind above 6; 10 `out` is too short.
pub fn write_event(kind: u32, first: u32, second: u32, out: &mut [u8]) -> Result<usize, Refusal> {
    count(direct::write_event(kind, first, second, out))
}

/// The byte count of what was written.
pub(crate) fn count(written: Written) -> Result<usize, Refusal> {
    accepted(written.answer)?;
    Ok(written.count as usize)
}
