//! A queue as bytes: every field in turn, lowest byte first, the same on every
//! host and the same as `lsq_save` of `lsq.h`. Any bytes of the right length
//! make a record, which the calls test.

use crate::live::Queue;
use crate::record::{Frame, Pair, Side, Span, Table, TableParts, ENTRIES, GROUPS, PLACES};

const TABLE_BYTES: usize = 1 + 4 * GROUPS + 2 * 2 * PLACES;
const SIDE_BYTES: usize = 6;

/// Bytes that a queue is saved in.
pub const QUEUE_BYTES: usize = TABLE_BYTES + 2 + 2 * SIDE_BYTES + 2 * 8 * ENTRIES;

impl Queue {
    /// The bytes of the queue.
    #[must_use]
    pub fn to_bytes(&self) -> [u8; QUEUE_BYTES] {
        let mut saved = Saving(Vec::with_capacity(QUEUE_BYTES));
        saved.table(&self.frame.table.parts());
        saved.put(self.frame.memory_length.to_le_bytes());
        saved.side(self.frame.loads);
        saved.side(self.frame.stores);
        for entry in self.loads.iter().chain(&self.stores) {
            saved.put(entry.to_le_bytes());
        }
        let mut bytes = [0; QUEUE_BYTES];
        bytes.copy_from_slice(&saved.0);
        bytes
    }

    /// The queue of these bytes: what [`Queue::to_bytes`] gave, or anything.
    #[must_use]
    pub fn from_bytes(bytes: &[u8; QUEUE_BYTES]) -> Self {
        let mut saved = Saved(bytes);
        let frame = Frame {
            table: Table::new(saved.table()),
            memory_length: u16::from_le_bytes(saved.take()),
            loads: saved.side(),
            stores: saved.side(),
        };
        Self {
            frame,
            loads: saved.entries(),
            stores: saved.entries(),
        }
    }
}

/// Bytes that are put down so far.
struct Saving(Vec<u8>);

impl Saving {
    fn put<const N: usize>(&mut self, bytes: [u8; N]) {
        self.0.extend(bytes);
    }

    fn table(&mut self, parts: &TableParts) {
        self.put([parts.count]);
        for span in &parts.groups {
            self.put([span.first_load, span.loads, span.first_store, span.stores]);
        }
        for pair in parts.loads.iter().chain(&parts.stores) {
            self.put([pair.offset, pair.port]);
        }
    }

    fn side(&mut self, side: Side) {
        self.put([side.depth, side.count]);
        self.put(side.next.to_le_bytes());
    }
}

/// Bytes that are still to be read; there are always as many as are taken.
struct Saved<'a>(&'a [u8]);

impl Saved<'_> {
    fn take<const N: usize>(&mut self) -> [u8; N] {
        let (front, rest) = self.0.split_at(N);
        self.0 = rest;
        let mut bytes = [0; N];
        bytes.copy_from_slice(front);
        bytes
    }

    // The elements of an array are made from the first to the last.
    fn table(&mut self) -> TableParts {
        let [count] = self.take();
        TableParts {
            count,
            groups: [(); GROUPS].map(|()| self.span()),
            loads: [(); PLACES].map(|()| self.pair()),
            stores: [(); PLACES].map(|()| self.pair()),
        }
    }

    fn span(&mut self) -> Span {
        let [first_load, loads, first_store, stores] = self.take();
        Span {
            first_load,
            loads,
            first_store,
            stores,
        }
    }

    fn pair(&mut self) -> Pair {
        let [offset, port] = self.take();
        Pair { offset, port }
    }

    fn side(&mut self) -> Side {
        let [depth, count] = self.take();
        let next = u32::from_le_bytes(self.take());
        Side { depth, count, next }
    }

    fn entries(&mut self) -> [u64; ENTRIES] {
        [(); ENTRIES].map(|()| u64::from_le_bytes(self.take()))
    }
}
