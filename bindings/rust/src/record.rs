//! The records that the library's functions take and give, laid out as in
//! `bindings/c/lsq.h`. They are plain data and may hold anything: every call
//! tests what it is handed.

use std::mem::{offset_of, size_of};

/// Groups that a table has places for.
pub const GROUPS: usize = 16;
/// Accesses of one kind that a table has places for.
pub const PLACES: usize = 32;
/// Numbers that a side's entries are packed into, one each.
pub const ENTRIES: usize = 64;

/// Load ports, 0 to 31.
pub const PORTS: usize = 32;

/// The most accesses that can be ordered.
pub const ACCESSES: usize = 32;
/// The most pairs that they can be ordered by, repeated ones counted.
pub const PAIRS: usize = 64;

/// Where a group's accesses stand in a table.
#[derive(Clone, Copy, Debug, Default, PartialEq, Eq)]
pub struct Span {
    /// The first load's place.
    pub first_load: u8,
    /// How many loads.
    pub loads: u8,
    /// The first store's place.
    pub first_store: u8,
    /// How many stores.
    pub stores: u8,
}

/// An access of a group.
#[derive(Clone, Copy, Debug, Default, PartialEq, Eq)]
pub struct Pair {
    /// How many accesses of the other kind come before it in the group.
    pub offset: u8,
    /// Its port.
    pub port: u8,
}

/// A group table as the library holds it. What it holds is shown by
/// [`Table::parts`]; nothing else in this crate knows how it is packed.
#[repr(C)]
#[derive(Clone, Copy, Debug, Default, PartialEq, Eq)]
pub struct Table {
    count: u8,
    groups: [u32; GROUPS],
    loads: [u16; PLACES],
    stores: [u16; PLACES],
}

/// What a table's record holds. Places beyond the count, or that no group has,
/// mean nothing.
#[derive(Clone, Copy, Debug, Default, PartialEq, Eq)]
pub struct TableParts {
    /// How many groups.
    pub count: u8,
    /// Where each group's accesses stand.
    pub groups: [Span; GROUPS],
    /// The loads of all groups.
    pub loads: [Pair; PLACES],
    /// The stores of all groups.
    pub stores: [Pair; PLACES],
}

impl Table {
    /// The record that holds these parts, right or wrong.
    #[must_use]
    pub fn new(parts: TableParts) -> Self {
        Self {
            count: parts.count,
            groups: parts.groups.map(Span::number),
            loads: parts.loads.map(Pair::number),
            stores: parts.stores.map(Pair::number),
        }
    }

    /// What the record holds.
    #[must_use]
    pub fn parts(&self) -> TableParts {
        TableParts {
            count: self.count,
            groups: self.groups.map(Span::of),
            loads: self.loads.map(Pair::of),
            stores: self.stores.map(Pair::of),
        }
    }
}

impl Span {
    fn number(self) -> u32 {
        u32::from_le_bytes([self.first_load, self.loads, self.first_store, self.stores])
    }

    fn of(number: u32) -> Self {
        let [first_load, loads, first_store, stores] = number.to_le_bytes();
        Self {
            first_load,
            loads,
            first_store,
            stores,
        }
    }
}

impl Pair {
    fn number(self) -> u16 {
        u16::from_le_bytes([self.offset, self.port])
    }

    fn of(number: u16) -> Self {
        let [offset, port] = number.to_le_bytes();
        Self { offset, port }
    }
}

/// One side of a queue.
#[repr(C)]
#[derive(Clone, Copy, Debug, Default, PartialEq, Eq)]
pub struct Side {
    /// The most entries that it holds.
    pub depth: u8,
    /// How many it holds.
    pub count: u8,
    /// The next serial.
    pub next: u32,
}

/// All of a queue but its entries.
#[repr(C)]
#[derive(Clone, Copy, Debug, Default, PartialEq, Eq)]
pub struct Frame {
    /// The groups that can be activated.
    pub table: Table,
    /// The memory length that the queue was opened for.
    pub memory_length: u16,
    /// The loads' side.
    pub loads: Side,
    /// The stores' side.
    pub stores: Side,
}

/// Loads served, and loads forwarded. When either stands at 4294967295 both
/// stop.
#[repr(C)]
#[derive(Clone, Copy, Debug, Default, PartialEq, Eq)]
pub struct Counts {
    /// Loads served.
    pub loads: u32,
    /// Loads served that got a queued store's data.
    pub forwarded: u32,
}

/// What was taken at each load port. It may come from anywhere and hold
/// anything; the default is the record of no take.
#[repr(C)]
#[derive(Clone, Copy, Debug, Default, PartialEq, Eq)]
pub struct ShiftRecord {
    /// How many takes were accepted; a count stops at 4294967295.
    pub takes: [u32; PORTS],
    /// The last value taken.
    pub values: [u32; PORTS],
}

/// What a replay that keeps a record answers.
#[repr(C)]
#[derive(Clone, Copy, Debug, PartialEq, Eq)]
pub struct Replayed {
    /// 0, or the refusal number.
    pub answer: u32,
    /// The record that the takes leave; of a refused replay it is the one handed
    /// in.
    pub kept: ShiftRecord,
}

/// A pair: one access has to come before another.
#[repr(C)]
#[derive(Clone, Copy, Debug, Default, PartialEq, Eq)]
pub struct Precedence {
    /// The access that comes before.
    pub first: u32,
    /// The access that comes behind.
    pub second: u32,
}

/// As many pairs as the count says. Places beyond it mean nothing.
#[repr(C)]
#[derive(Clone, Copy, Debug, PartialEq, Eq)]
pub struct Precedences {
    /// How many pairs.
    pub count: u32,
    /// The pairs.
    pub pairs: [Precedence; PAIRS],
}

impl Precedences {
    /// The record of these pairs. Of more than [`PAIRS`] it has the count and as
    /// many as it has places for, and is refused.
    #[must_use]
    pub fn new(pairs: &[Precedence]) -> Self {
        let mut places = [Precedence::default(); PAIRS];
        for (place, pair) in places.iter_mut().zip(pairs) {
            *place = *pair;
        }
        Self {
            count: u32::try_from(pairs.len()).unwrap_or(u32::MAX),
            pairs: places,
        }
    }
}

/// What ordering answers.
#[repr(C)]
#[derive(Clone, Copy, Debug, PartialEq, Eq)]
pub struct Ordered {
    /// 0, or the refusal number.
    pub answer: u8,
    /// How many accesses the order has; 0 where it is refused.
    pub count: u8,
    /// The order at the front; the places beyond the count are 0 and mean
    /// nothing.
    pub accesses: [u8; ACCESSES],
}

/// The kind and the port of each access, by its number. Places of accesses that
/// an order does not have mean nothing.
#[repr(C)]
#[derive(Clone, Copy, Debug, Default, PartialEq, Eq)]
pub struct Accesses {
    /// 0 a load, any other a store.
    pub kinds: [u8; ACCESSES],
    /// The ports.
    pub ports: [u8; ACCESSES],
}

/// What opening answers.
#[repr(C)]
#[derive(Clone, Copy, Debug, PartialEq, Eq)]
pub struct Opened {
    /// 0, or the refusal number.
    pub answer: u32,
    /// The frame; of a refused opening it is 0 in every field.
    pub frame: Frame,
}

/// What a call that may move the sides answers. The rest of the frame stays as
/// it is.
#[repr(C)]
#[derive(Clone, Copy, Debug, PartialEq, Eq)]
pub struct Step {
    /// 0, or the refusal number.
    pub answer: u32,
    /// 1 or 0 as the call gave a value or none.
    pub given: u32,
    /// The value, or 0.
    pub value: u32,
    /// The load side that follows; of a refused call it is the one handed in.
    pub loads: Side,
    /// The store side, likewise.
    pub stores: Side,
}

/// What serving answers.
#[repr(C)]
#[derive(Clone, Copy, Debug, PartialEq, Eq)]
pub struct Service {
    /// 0, or the refusal number.
    pub answer: u32,
    /// 1 or 0 as the call gave a value or none.
    pub given: u32,
    /// The value, or 0.
    pub value: u32,
    /// The counts that follow; of a refused call they are those handed in.
    pub counts: Counts,
}

/// What a ready call answers: 0 and how many serials stand at the front of the
/// run, or the refusal number and 0.
#[repr(C)]
#[derive(Clone, Copy, Debug, PartialEq, Eq)]
pub struct Listed {
    /// 0, or the refusal number.
    pub answer: u32,
    /// How many serials.
    pub count: u64,
}

/// What a writer answers: 0 and how many bytes stand at the front of the
/// buffer, or the refusal number and 0.
#[repr(C)]
#[derive(Clone, Copy, Debug, PartialEq, Eq)]
pub struct Written {
    /// 0, or the refusal number.
    pub answer: u32,
    /// How many bytes.
    pub count: u64,
}

/// What reading a table answers.
#[repr(C)]
#[derive(Clone, Copy, Debug, PartialEq, Eq)]
pub struct TableRead {
    /// 0, or 1 to 9 or 42.
    pub answer: u32,
    /// The table; of bytes that are refused it is 0 in every field.
    pub table: Table,
}

// The layout that the library was compiled for; `lsq.h` has the same numbers.
const _: () = {
    assert!(size_of::<usize>() == 8);
    assert!(size_of::<Table>() == 196);
    assert!(offset_of!(Table, groups) == 4);
    assert!(offset_of!(Table, loads) == 68);
    assert!(offset_of!(Table, stores) == 132);
    assert!(size_of::<TableRead>() == 200);
    assert!(size_of::<Side>() == 8);
    assert!(offset_of!(Side, next) == 4);
    assert!(size_of::<Frame>() == 216);
    assert!(offset_of!(Frame, memory_length) == 196);
    assert!(offset_of!(Frame, loads) == 200);
    assert!(offset_of!(Frame, stores) == 208);
    assert!(size_of::<Counts>() == 8);
    assert!(size_of::<Opened>() == 220);
    assert!(size_of::<Step>() == 28);
    assert!(size_of::<Service>() == 20);
    assert!(size_of::<Listed>() == 16);
    assert!(size_of::<Written>() == 16);
    assert!(size_of::<Precedence>() == 8);
    assert!(offset_of!(Precedence, second) == 4);
    assert!(size_of::<Precedences>() == 516);
    assert!(offset_of!(Precedences, pairs) == 4);
    assert!(size_of::<Ordered>() == 34);
    assert!(offset_of!(Ordered, accesses) == 2);
    assert!(size_of::<Accesses>() == 64);
    assert!(offset_of!(Accesses, ports) == 32);
    assert!(size_of::<ShiftRecord>() == 256);
    assert!(offset_of!(ShiftRecord, values) == 128);
    assert!(size_of::<Replayed>() == 260);
    assert!(offset_of!(Replayed, kept) == 4);
};
