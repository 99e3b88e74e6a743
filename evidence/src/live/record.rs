//! A queue's parts as a host holds them, and what the reference takes them for.
//! Nothing here goes by the library's code: the table's record and the packing
//! of entries are read as `bindings/c/lsq.h` says.

use lsq::record::{Frame, Pair, Side, Span, Table, TableParts, ENTRIES};
use lsq_ref::queue::{LoadEntry, Side as HeldSide, StoreEntry};
use lsq_ref::table::{Group, Pair as HeldPair, MAX_ACCESSES};
use lsq_ref::{Queue, Table as HeldTable};

use crate::buffers::Guarded;

/// A frame and two runs of entries, which may have any length.
#[derive(Clone, Debug, PartialEq, Eq)]
pub struct Record {
    /// The frame.
    pub frame: Frame,
    /// The loads' entries.
    pub loads: Guarded<u64>,
    /// The stores' entries.
    pub stores: Guarded<u64>,
}

/// What the record holds.
impl Record {
    /// The queue of a record, or none where a run has another length than 64.
    #[must_use]
    pub fn held(&self) -> Option<Queue> {
        let loads = <&[u64; ENTRIES]>::try_from(self.loads.run()).ok()?;
        let stores = <&[u64; ENTRIES]>::try_from(self.stores.run()).ok()?;
        Some(Queue {
            table: held_table(&self.frame.table.parts()),
            load_depth: self.frame.loads.depth.into(),
            store_depth: self.frame.stores.depth.into(),
            memory_length: self.frame.memory_length.into(),
            loads: held_side(self.frame.loads, loads, load_of),
            stores: held_side(self.frame.stores, stores, store_of),
        })
    }

    /// Lets the record hold this queue, as far as its fields have room: the
    /// table, the numbers of the frame, and both sides' entries. Entries beyond
    /// stay as they are.
    pub fn hold(&mut self, queue: &Queue) {
        self.frame.table = Table::new(table_of(&queue.table));
        self.hold_calls(queue);
        self.frame.memory_length = queue.memory_length as u16;
        self.frame.loads.depth = queue.load_depth as u8;
        self.frame.stores.depth = queue.store_depth as u8;
    }

    /// The same for what calls change: counts, next serials and entries.
    pub fn hold_calls(&mut self, queue: &Queue) {
        let loads = queue.loads.entries.iter().map(number_of_load);
        let stores = queue.stores.entries.iter().map(number_of_store);
        fill(self.loads.lend(), loads);
        fill(self.stores.lend(), stores);
        self.frame.loads.count = queue.loads.entries.len() as u8;
        self.frame.stores.count = queue.stores.entries.len() as u8;
        self.frame.loads.next = queue.loads.next_serial;
        self.frame.stores.next = queue.stores.next_serial;
    }
}

fn fill(run: &mut [u64], numbers: impl Iterator<Item = u64>) {
    for (place, number) in run.iter_mut().zip(numbers) {
        *place = number;
    }
}

/// The entries that the count says, from the oldest. Those beyond the run are
/// blank: so many are more than any depth, and 40 whatever they are.
fn held_side<E>(side: Side, entries: &[u64; ENTRIES], entry: fn(u64) -> E) -> HeldSide<E> {
    let blank = std::iter::repeat(&0);
    let numbers = entries.iter().chain(blank).take(side.count.into());
    HeldSide {
        next_serial: side.next,
        entries: numbers.map(|&number| entry(number)).collect(),
    }
}

// Entries, from the lowest bits: the port in five, three marks, the remembered
// number in eight, the address in sixteen, the word in the rest.

/// An entry without its word.
struct Low {
    port: u32,
    address: Option<u32>,
    filled: bool,
    finished: bool,
    before: usize,
}

fn low_of(number: u64) -> Low {
    let bit = |place: u32| number >> place & 1 == 1;
    let address = (number >> 16) as u16;
    Low {
        port: (number & 31) as u32,
        address: bit(5).then_some(address.into()),
        filled: bit(6),
        finished: bit(7),
        before: (number >> 8 & 0xFF) as usize,
    }
}

fn load_of(number: u64) -> LoadEntry {
    let low = low_of(number);
    LoadEntry {
        port: low.port,
        address: low.address,
        served: low.filled,
        // The value of a load that is not served means nothing.
        value: if low.filled { (number >> 32) as u32 } else { 0 },
        taken: low.finished,
        stores_before: low.before,
    }
}

fn store_of(number: u64) -> StoreEntry {
    let low = low_of(number);
    StoreEntry {
        port: low.port,
        address: low.address,
        data: low.filled.then_some((number >> 32) as u32),
        written: low.finished,
        loads_before: low.before,
    }
}

fn number_of(low: &Low, word: u32) -> u64 {
    let marks = [low.address.is_some(), low.filled, low.finished];
    let marks = marks
        .iter()
        .rev()
        .fold(0, |bits, &mark| bits << 1 | u64::from(mark));
    let address = low.address.unwrap_or(0) as u16;
    let port = u64::from(low.port & 31);
    let before = u64::from(low.before as u8);
    port | marks << 5 | before << 8 | u64::from(address) << 16 | u64::from(word) << 32
}

fn number_of_load(load: &LoadEntry) -> u64 {
    let low = Low {
        port: load.port,
        address: load.address,
        filled: load.served,
        finished: load.taken,
        before: load.stores_before,
    };
    number_of(&low, load.value)
}

fn number_of_store(store: &StoreEntry) -> u64 {
    let low = Low {
        port: store.port,
        address: store.address,
        filled: store.data.is_some(),
        finished: store.written,
        before: store.loads_before,
    };
    number_of(&low, store.data.unwrap_or(0))
}

// Tables.

/// The groups that a table's record shows: as many as its count says, those
/// beyond its places blank.
#[must_use]
pub fn held_table(parts: &TableParts) -> HeldTable {
    let group = |i: usize| {
        let span = parts.groups.get(i).copied().unwrap_or_default();
        Group {
            loads: held_pairs(&parts.loads, span.first_load, span.loads),
            stores: held_pairs(&parts.stores, span.first_store, span.stores),
        }
    };
    HeldTable {
        groups: (0..parts.count.into()).map(group).collect(),
    }
}

/// So many accesses from a place on. A span that runs past the places stands
/// for one access more than a group may have, so that the table meets 5.
fn held_pairs(places: &[Pair], first: u8, count: u8) -> Vec<HeldPair> {
    let (first, count) = (usize::from(first), usize::from(count));
    let held = |pair: &Pair| HeldPair {
        offset: pair.offset.into(),
        port: pair.port.into(),
    };
    match places.get(first..first + count) {
        Some(pairs) => pairs.iter().map(held).collect(),
        None if count == 0 => Vec::new(),
        None => vec![held(&Pair::default()); MAX_ACCESSES + 1],
    }
}

/// The record of a table that was read: accesses one behind the other, all
/// other places blank. Of a table with more than its places it keeps the first.
#[must_use]
pub fn table_of(table: &HeldTable) -> TableParts {
    let mut parts = TableParts {
        count: table.groups.len() as u8,
        ..TableParts::default()
    };
    let (mut load, mut store) = (0, 0);
    for (span, group) in parts.groups.iter_mut().zip(&table.groups) {
        *span = Span {
            first_load: load as u8,
            loads: group.loads.len() as u8,
            first_store: store as u8,
            stores: group.stores.len() as u8,
        };
        load += put_pairs(&mut parts.loads, load, &group.loads);
        store += put_pairs(&mut parts.stores, store, &group.stores);
    }
    parts
}

fn put_pairs(places: &mut [Pair], first: usize, pairs: &[HeldPair]) -> usize {
    for (place, pair) in places.iter_mut().skip(first).zip(pairs) {
        *place = Pair {
            offset: pair.offset as u8,
            port: pair.port as u8,
        };
    }
    pairs.len()
}
