//! The shift record: what was taken at each load port, and its page.

use crate::bytes::count;
use crate::direct;
use crate::record::ShiftRecord;
use crate::refusal::Refusal;

/// The length of every page, and the least length of the buffer lent to
/// [`ShiftRecord::page`].
pub const PAGE_BYTES: usize = 1_394;

impl ShiftRecord {
    /// The record once this value was taken at this port: the port's count is
    /// one more, if it has not stopped, and its value is this one. A port above
    /// 31 changes nothing.
    #[must_use]
    pub fn recorded(self, port: u32, value: u32) -> Self {
        direct::recorded(self, port, value)
    }

    /// Writes the page at the front of `out`, whose rest keeps its contents, and
    /// gives the byte count, [`PAGE_BYTES`]. `lsq_page` in `lsq.h` says what
    /// stands in which columns.
    ///
    /// # Errors
    /// 41 `out` is too short.
    pub fn page(&self, out: &mut [u8]) -> Result<usize, Refusal> {
        count(direct::page(*self, out))
    }
}
