//! Records from seeds: hand-made, damaged in any field, of other lengths, or
//! noise.

use lsq::record::{Frame, Pair, Side, Span, Table, TableParts, ENTRIES};
use lsq_ref::gen;
use lsq_ref::rng::Rng;
use lsq_ref::Queue;

use super::record::Record;
use crate::buffers::Guarded;

/// What a record is.
#[derive(Clone, Copy, Debug, PartialEq, Eq)]
pub enum Kind {
    /// Entries of any kind on a right table, one in four unsound.
    HandMade,
    /// The same, with nearly all accesses of a side in one state, on many words.
    Alike,
    /// The same, with one to three fields changed.
    Damaged,
    /// The same, with a run of another length than 64.
    Lengths,
    /// Any numbers.
    Noise,
}

use Kind::*;

/// The kinds, each as often as it comes.
#[rustfmt::skip]
const TURN: [Kind; 16] = [
    HandMade, Damaged, HandMade, Damaged, HandMade, Damaged, Alike, Lengths,
    HandMade, Damaged, HandMade, Damaged, HandMade, Damaged, Alike, Noise,
];

/// A record, and the queue that it was made from.
#[derive(Clone, Debug)]
pub struct RecordCase {
    /// What the case is made from.
    pub seed: u64,
    /// What the record is.
    pub kind: Kind,
    /// The record.
    pub record: Record,
    /// The queue before any damage.
    pub made_from: Queue,
}

impl RecordCase {
    /// The case of this seed.
    #[must_use]
    pub fn new(seed: u64) -> Self {
        let mut rng = Rng::new(seed);
        let kind = TURN[seed as usize % TURN.len()];
        let made_from = gen::record(&mut rng);
        let mut record = blank(&mut rng);
        record.hold(&made_from);
        match kind {
            HandMade => {}
            Alike => make_alike(&mut rng, &mut record),
            Damaged => (0..rng.pick(&[1, 1, 3])).for_each(|_| damage(&mut rng, &mut record)),
            Lengths => other_lengths(&mut rng, &mut record),
            Noise => record.frame = noise(&mut rng),
        }
        Self {
            seed,
            kind,
            record,
            made_from,
        }
    }
}

/// A record of no queue, with any entries.
#[must_use]
pub fn blank(rng: &mut Rng) -> Record {
    Record {
        frame: Frame::default(),
        loads: Guarded::new(ENTRIES, || rng.bits()),
        stores: Guarded::new(ENTRIES, || rng.bits()),
    }
}

/// Marks of an entry, from the lowest: it has its address, its word, is finished.
const READY_LOAD: u64 = 0b001;
const SERVED_LOAD: u64 = 0b011;
const READY_STORE: u64 = 0b011;
const FINISHED: u64 = 0b111;

/// Mostly full sides whose accesses are nearly all ready, served or finished, so
/// that many can be listed and many leave at once.
fn make_alike(rng: &mut Rng, record: &mut Record) {
    let frame = &mut record.frame;
    frame.memory_length = rng.pick(&[64, 1_000, 4_096]);
    for side in [&mut frame.loads, &mut frame.stores] {
        side.depth = rng.pick(&[side.depth, 64]);
        side.count = rng.pick(&[side.count, side.depth, side.depth]);
    }
    let (loads, stores) = (frame.loads.count, frame.stores.count);
    let (words, few) = (frame.memory_length, rng.pick(&[8, 64, 1_000]));
    let marks = rng.pick(&[READY_LOAD, READY_LOAD, SERVED_LOAD, FINISHED]);
    for load in record.loads.lend() {
        *load = alike_entry(rng, *load, marks, few) | before_and_address(rng, stores, words);
    }
    let marks = rng.pick(&[READY_STORE, READY_STORE, FINISHED]);
    for store in record.stores.lend() {
        *store = alike_entry(rng, *store, marks, few) | before_and_address(rng, loads, words);
    }
}

/// The entry's port and word with these marks, which are others in one of `few`.
fn alike_entry(rng: &mut Rng, entry: u64, marks: u64, few: usize) -> u64 {
    let changed = if rng.chance(1, few) { rng.bits() } else { 0 };
    let marks = (marks ^ changed) & 0b111;
    entry & 0xFFFF_FFFF_0000_001F | marks << 5
}

fn before_and_address(rng: &mut Rng, others: u8, words: u16) -> u64 {
    let before = rng.below(usize::from(others) + 1) as u64;
    let address = rng.below(words.into()) as u64;
    before << 8 | address << 16
}

fn damage(rng: &mut Rng, record: &mut Record) {
    let (loads, stores) = (record.frame.loads.count, record.frame.stores.count);
    let words = record.frame.memory_length;
    let (side, run, others) = match rng.chance(1, 2) {
        true => (&mut record.frame.loads, &mut record.loads, stores),
        false => (&mut record.frame.stores, &mut record.stores, loads),
    };
    match rng.below(8) {
        0..=2 => damage_entry(rng, run.lend(), side.count, others, words),
        3 => damage_side(rng, side),
        4 => record.frame.memory_length = word_near(rng, words),
        _ => {
            let mut parts = record.frame.table.parts();
            damage_table(rng, &mut parts);
            record.frame.table = Table::new(parts);
        }
    }
}

/// A number next to this one, or at an edge of some limit.
fn byte_near(rng: &mut Rng, byte: u8) -> u8 {
    let (more, less) = (byte.wrapping_add(1), byte.wrapping_sub(1));
    let edge = rng.pick(&[0, 1, 16, 17, 31, 32, 33, 64, 65, 255]);
    rng.pick(&[more, less, edge])
}

fn word_near(rng: &mut Rng, word: u16) -> u16 {
    let (more, less) = (word.wrapping_add(1), word.wrapping_sub(1));
    rng.pick(&[more, less, 0, 1, 4096, 4097, u16::MAX])
}

fn damage_side(rng: &mut Rng, side: &mut Side) {
    match rng.below(3) {
        0 => side.count = byte_near(rng, side.count),
        1 => side.depth = byte_near(rng, side.depth),
        _ => side.next = gen::first_serial(rng),
    }
}

/// Changes a field of an entry that is held, or of any where none is.
fn damage_entry(rng: &mut Rng, run: &mut [u64], held: u8, others: u8, words: u16) {
    let held = usize::from(held).clamp(1, ENTRIES);
    let entry = &mut run[rng.below(held)];
    let mut set = |shift: u32, bits: u32, number: u64| {
        let mask = (1 << bits) - 1;
        *entry = *entry & !(mask << shift) | (number & mask) << shift;
    };
    match rng.below(6) {
        0 => set(0, 5, rng.bits()),
        1 => set(5, 3, rng.bits()),
        2 => set(
            8,
            8,
            rng.pick(&[others, others.wrapping_add(1), 0, 255]).into(),
        ),
        3 => set(16, 16, word_near(rng, words).into()),
        4 => set(32, 32, rng.bits()),
        _ => *entry = rng.bits(),
    }
}

fn damage_table(rng: &mut Rng, parts: &mut TableParts) {
    let groups = usize::from(parts.count).clamp(1, parts.groups.len());
    let span = &mut parts.groups[rng.below(groups)];
    let load = span.first_load.saturating_add(rng.below(2) as u8);
    let store = span.first_store.saturating_add(rng.below(2) as u8);
    match rng.below(9) {
        0 => parts.count = byte_near(rng, parts.count),
        1 => span.first_load = byte_near(rng, span.first_load),
        2 => span.loads = byte_near(rng, span.loads),
        3 => span.first_store = byte_near(rng, span.first_store),
        4 => span.stores = byte_near(rng, span.stores),
        5..=6 => damage_pair(rng, &mut parts.loads, load),
        _ => damage_pair(rng, &mut parts.stores, store),
    }
}

fn damage_pair(rng: &mut Rng, places: &mut [Pair], at: u8) {
    let other = rng.pick(places).port;
    let at = usize::from(at) % places.len();
    let pair = &mut places[at];
    match rng.below(3) {
        0 => pair.offset = byte_near(rng, pair.offset),
        1 => pair.port = byte_near(rng, pair.port),
        _ => pair.port = other,
    }
}

/// One run of another length, or both.
fn other_lengths(rng: &mut Rng, record: &mut Record) {
    let which = rng.below(3);
    if which != 0 {
        record.loads = cut(rng, &record.loads);
    }
    if which != 1 {
        record.stores = cut(rng, &record.stores);
    }
}

/// A run of another length that begins as this one does: but for its length the
/// record may be sound.
fn cut(rng: &mut Rng, run: &Guarded<u64>) -> Guarded<u64> {
    let length = rng.pick(&[0, 1, ENTRIES - 1, ENTRIES + 1, 2 * ENTRIES]);
    let mut cut = Guarded::new(length, || rng.bits());
    let numbers = run.run().iter().cycle();
    for (place, number) in cut.lend().iter_mut().zip(numbers) {
        *place = *number;
    }
    cut
}

fn noise(rng: &mut Rng) -> Frame {
    let most = rng.pick(&[3, 33, 256]);
    let mut byte = || rng.below(most) as u8;
    let mut parts = TableParts {
        count: byte(),
        ..TableParts::default()
    };
    for span in &mut parts.groups {
        *span = Span {
            first_load: byte(),
            loads: byte(),
            first_store: byte(),
            stores: byte(),
        };
    }
    for pair in parts.loads.iter_mut().chain(&mut parts.stores) {
        (pair.offset, pair.port) = (byte(), byte());
    }
    let mut side = || Side {
        depth: byte(),
        count: byte(),
        next: byte().into(),
    };
    let (loads, stores) = (side(), side());
    Frame {
        table: Table::new(parts),
        memory_length: rng.pick(&[1, 64, 4096, 4097]),
        loads,
        stores,
    }
}
