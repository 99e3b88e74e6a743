//! The shift page (S-1): "Each accepted take updates a record; from it print a
//! page of 34 lines, each 40 characters and a line feed: a header, load ports 0
//! to 31, a footer."

use crate::refusal;
use crate::table::MAX_PORT;

/// Load ports 0 to 31.
pub const PORTS: usize = MAX_PORT as usize + 1;
/// "Each 40 characters."
const COLUMNS: usize = 40;
/// The bytes of a page: 34 lines of 40 characters and a line feed.
pub const PAGE_BYTES: usize = 1_394;

/// What the takes of each load port leave. It may hold anything when it is
/// handed in, a value where there is no take too.
#[derive(Clone, Copy, Debug, Default, PartialEq, Eq)]
pub struct ShiftRecord {
    /// Accepted takes of each load port.
    pub takes: [u32; PORTS],
    /// The last value taken at each load port.
    pub values: [u32; PORTS],
}

impl ShiftRecord {
    /// What an accepted take of `value` at `port` changes: "The count of takes
    /// stops at 4294967295, the value doesn't." A port above 31 changes nothing.
    pub fn recorded(&mut self, port: u32, value: u32) {
        if port > MAX_PORT {
            return;
        }
        let port = port as usize;
        self.takes[port] = self.takes[port].saturating_add(1);
        self.values[port] = value;
    }

    /// The page: [`PAGE_BYTES`] bytes. "The header is `LOAD PORTS` and the
    /// footer `END`."
    #[must_use]
    pub fn page(&self) -> Vec<u8> {
        let mut page = Vec::with_capacity(PAGE_BYTES);
        page.extend(words_line("LOAD PORTS"));
        for port in 0..PORTS {
            page.extend(self.port_line(port));
        }
        page.extend(words_line("END"));
        page
    }

    /// Writes the page at the front of `out` and gives the byte count; the
    /// bytes beyond keep their contents.
    ///
    /// # Errors
    /// "41: page buffer under 1,394 bytes, the only check." Nothing is written
    /// then.
    pub fn write_page(&self, out: &mut [u8]) -> Result<usize, u8> {
        let front = out.get_mut(..PAGE_BYTES);
        let front = front.ok_or(refusal::PAGE_TOO_SHORT)?;
        front.copy_from_slice(&self.page());
        Ok(PAGE_BYTES)
    }

    /// "A port line has the port in columns 1 to 2, accepted takes in 7 to 16
    /// and the last value taken in 31 to 40, all right-aligned, other columns
    /// blank."
    fn port_line(&self, port: usize) -> Line {
        let mut line = blank_line();
        put_number(&mut line, 1, 2, port as u32);
        put_number(&mut line, 7, 16, self.takes[port]);
        put_number(&mut line, 31, 40, self.value_shown(port));
        line
    }

    /// "A port with none shows 0 and 0": without a take there is no last value,
    /// whatever stands in its place.
    fn value_shown(&self, port: usize) -> u32 {
        match self.takes[port] {
            0 => 0,
            _ => self.values[port],
        }
    }
}

/// 40 characters and a line feed.
type Line = [u8; COLUMNS + 1];

fn blank_line() -> Line {
    let mut line = [b' '; COLUMNS + 1];
    line[COLUMNS] = b'\n';
    line
}

/// Header and footer are "padded on the right with spaces".
fn words_line(words: &str) -> Line {
    let mut line = blank_line();
    line[..words.len()].copy_from_slice(words.as_bytes());
    line
}

/// Puts a number, right-aligned, in the columns from `first` to `last`, which
/// are counted from 1 and are enough for it.
fn put_number(line: &mut Line, first: usize, last: usize, number: u32) {
    let width = last - first + 1;
    let field = format!("{number:>width$}");
    line[first - 1..last].copy_from_slice(field.as_bytes());
}
