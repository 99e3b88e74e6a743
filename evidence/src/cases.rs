//! Cases from seeds: a table's and a trace's bytes, and what is lent to play
//! them.

use lsq_ref::event::{read_header, Event, Header};
use lsq_ref::gen::{self, Lean, Scenario};
use lsq_ref::number::write_numbers;
use lsq_ref::play::MAX_FILE;
use lsq_ref::replay::{event_count, trace_fault};
use lsq_ref::rng::Rng;
use lsq_ref::{ShiftRecord, Table};

use crate::buffers::{Buffers, Lengths};

/// What a case dwells on.
#[derive(Clone, Copy, Debug, PartialEq, Eq)]
pub enum Kind {
    /// Something of everything.
    Mixed,
    /// A dozen events or fewer.
    Brief,
    /// Depth 64 on both sides, kept full.
    Full,
    /// Stores to one address, loads that get their data.
    Forwarded,
    /// Depth 1 on both sides.
    Shallow,
    /// 16 groups.
    Wide,
    /// Accesses to one address that wait for each other.
    Conflicts,
    /// Stores that hurry past each other.
    Stores,
    /// Many entries that leave at once.
    Leaving,
    /// Refusals next to acceptances.
    Neighbours,
    /// 10,000 events and more, or some thousand.
    Long,
    /// More events than 16 bits count.
    Huge,
    /// Padded numbers.
    Padded,
    /// Files of 16,384 bytes, one more or one less.
    Limit,
    /// Something lent has another length than it should.
    Lengths,
    /// A damaged table.
    BadTable,
    /// A damaged trace.
    BadTrace,
    /// A leading number at or over its limit.
    BadHeader,
    /// A table that is spelled well and wrong.
    WrongTable,
    /// Any bytes.
    Noise,
}

use Kind::*;

/// The kinds that are played whole.
#[rustfmt::skip]
const PLAYED: [Kind; 10] = [
    Mixed, Brief, Full, Forwarded, Shallow, Wide, Conflicts, Stores, Leaving, Neighbours,
];

/// The kinds, each as often as it comes: seeds that follow each other go
/// through them in turn.
#[rustfmt::skip]
pub const TURN: [Kind; 64] = [
    Mixed, BadTable, Full, BadTrace, Forwarded, Lengths, Shallow, WrongTable,
    Neighbours, Noise, Wide, BadTrace, Conflicts, Brief, Stores, BadHeader,
    Long, BadTable, Full, Lengths, Forwarded, Padded, Shallow, BadTrace,
    Neighbours, Brief, Leaving, BadTable, Conflicts, Lengths, Mixed, WrongTable,
    Mixed, BadTable, Full, BadTrace, Forwarded, Lengths, Shallow, WrongTable,
    Neighbours, Noise, Wide, BadTrace, Stores, Brief, Mixed, BadHeader,
    Conflicts, BadTable, Full, Lengths, Forwarded, Limit, Wide, BadTrace,
    Neighbours, Brief, Leaving, BadTable, Stores, Lengths, Mixed, WrongTable,
];

/// One seed in so many is of kind [`Kind::Huge`].
const HUGE_EVERY: u64 = 2_048;

fn kind_of(seed: u64) -> Kind {
    match seed % HUGE_EVERY {
        777 => Huge,
        place => TURN[place as usize % TURN.len()],
    }
}

/// One case.
#[derive(Clone, Debug)]
pub struct Case {
    /// What the case is made from.
    pub seed: u64,
    /// What it dwells on.
    pub kind: Kind,
    /// The table's bytes.
    pub table: Vec<u8>,
    /// The trace's bytes.
    pub trace: Vec<u8>,
    /// What is lent.
    pub buffers: Buffers,
    /// Whether the text buffer is one byte too short.
    pub short_text: bool,
    /// The record that a replay goes on from, with any numbers.
    pub kept: ShiftRecord,
}

impl Case {
    /// The case of this seed.
    #[must_use]
    pub fn new(seed: u64) -> Self {
        let kind = kind_of(seed);
        let mut rng = Rng::new(seed);
        let (table, trace) = bytes(&mut rng, kind);
        let faulty = trace_fault(&table, &trace) != 0;
        // Behind a fault the order of checking is at stake.
        let seldom = if faulty { 4 } else { 40 };
        let events = match faulty {
            true => trace.len() / 2,
            false => event_count(&table, &trace) as usize,
        };
        let mut lengths = right_lengths(&mut rng, &trace, events);
        if kind == Lengths || rng.chance(1, seldom) {
            spoil_lengths(&mut rng, &mut lengths, events);
        }
        Self {
            seed,
            kind,
            table,
            trace,
            buffers: Buffers::random(&mut rng, lengths),
            short_text: rng.chance(1, 16),
            kept: gen::shift_record(&mut rng),
        }
    }
}

fn bytes(rng: &mut Rng, kind: Kind) -> (Vec<u8>, Vec<u8>) {
    let mut scenario = scenario(rng, kind);
    if kind == BadHeader {
        gen::spoil_header(rng, &mut scenario.header);
    }
    let (mut table, mut trace) = scenario.bytes();
    match kind {
        // One file alone: a padded table would hide the trace's fault.
        Padded => match rng.chance(1, 3) {
            true => gen::pad_several(rng, &mut table),
            false => gen::pad_several(rng, &mut trace),
        },
        Limit => reach_limit(rng, &mut table, &mut trace),
        BadTable => gen::damage(rng, &mut table),
        BadTrace => gen::damage(rng, &mut trace),
        WrongTable => table = wrong_table(rng, scenario.table),
        Noise => (table, trace) = noise(rng, table, trace),
        _ => {}
    }
    (table, trace)
}

fn scenario(rng: &mut Rng, kind: Kind) -> Scenario {
    match kind {
        Mixed | Padded => Scenario::random(rng),
        Long => long(rng),
        Huge => {
            let table = gen::table(rng);
            let header = gen::header(rng, &table);
            leaning(rng, table, header, (66_000, 70_000), &Lean::MIXED)
        }
        Limit => near_limit(rng),
        Lengths => {
            let played = rng.pick(&PLAYED);
            scenario(rng, played)
        }
        Full => full(rng),
        Forwarded => forwarded(rng),
        Shallow => shallow(rng),
        Wide => wide(rng),
        Conflicts => conflicts(rng),
        Stores => stores(rng),
        Leaving => leaving(rng),
        Neighbours => {
            let table = gen::table(rng);
            let header = gen::header(rng, &table);
            leaning(rng, table, header, (50, 400), &Lean::NEIGHBOURS)
        }
        _ => {
            let count = rng.below(13);
            Scenario::of_length(rng, count)
        }
    }
}

/// A scenario of between so many events.
fn leaning(
    rng: &mut Rng,
    table: Table,
    header: Header,
    (least, most): (u32, u32),
    lean: &Lean,
) -> Scenario {
    let count = rng.between(least, most) as usize;
    let events = gen::events_leaning(rng, &table, header, count, lean);
    Scenario {
        table,
        header,
        events,
    }
}

/// So many groups alike; one table in three has empty ones among them.
fn groups_alike(rng: &mut Rng, groups: usize, loads: usize, stores: usize) -> Table {
    let mut table = gen::table_of(rng, groups, loads, stores);
    if rng.chance(1, 3) {
        gen::add_empty_groups(rng, &mut table);
    }
    table
}

fn full(rng: &mut Rng) -> Scenario {
    let groups = rng.between(1, 4) as usize;
    let even = rng.pick(&[1, 2, 4, 8]);
    let (loads, stores) = (rng.between(1, 8) as usize, rng.between(1, 8) as usize);
    let (loads, stores) = rng.pick(&[(even, even), (even, even), (loads, stores)]);
    let table = groups_alike(rng, groups, loads, stores);
    let header = Header {
        load_depth: 64,
        store_depth: 64,
        ..gen::header(rng, &table)
    };
    leaning(rng, table, header, (200, 700), &Lean::FULL)
}

fn forwarded(rng: &mut Rng) -> Scenario {
    let loads = rng.between(1, 16) as usize;
    let stores = rng.between(1, 16) as usize;
    let table = groups_alike(rng, 1, loads, stores);
    let header = Header {
        load_depth: rng.between(16, 64),
        store_depth: rng.between(16, 64),
        memory_length: rng.between(1, 4),
        ..gen::header(rng, &table)
    };
    leaning(rng, table, header, (50, 500), &Lean::FORWARDED)
}

fn shallow(rng: &mut Rng) -> Scenario {
    let groups = rng.pick(&[1, 1, 2, 16]);
    let (loads, stores) = rng.pick(&[(1, 1), (1, 1), (1, 0), (0, 1)]);
    let table = groups_alike(rng, groups, loads, stores);
    let header = Header {
        load_depth: 1,
        store_depth: 1,
        ..gen::header(rng, &table)
    };
    let lean = rng.pick(&[Lean::MIXED, Lean::NEIGHBOURS]);
    leaning(rng, table, header, (10, 200), &lean)
}

fn wide(rng: &mut Rng) -> Scenario {
    let (loads, stores) = rng.pick(&[(2, 2), (2, 2), (2, 1), (1, 2), (2, 0)]);
    let table = groups_alike(rng, 16, loads, stores);
    let header = gen::header(rng, &table);
    let lean = rng.pick(&[Lean::MIXED, Lean::FULL, Lean::NEIGHBOURS]);
    leaning(rng, table, header, (50, 400), &lean)
}

fn conflicts(rng: &mut Rng) -> Scenario {
    let table = gen::table(rng);
    let header = Header {
        memory_length: rng.between(1, 2),
        ..gen::header(rng, &table)
    };
    leaning(rng, table, header, (50, 400), &Lean::CONFLICTS)
}

fn stores(rng: &mut Rng) -> Scenario {
    let groups = rng.between(1, 2) as usize;
    let loads = rng.between(0, 1) as usize;
    let stores = rng.between(2, 8) as usize;
    let table = groups_alike(rng, groups, loads, stores);
    let header = gen::header(rng, &table);
    leaning(rng, table, header, (50, 400), &Lean::STORES)
}

/// Two groups of a load and a store. One activation of the first group stands
/// among others of the second and is finished last, so that all behind it leave
/// at once.
fn leaving(rng: &mut Rng) -> Scenario {
    let table = gen::table_of(rng, 2, 1, 1);
    let depth = rng.pick(&[2, 8, 33, 63, 64]);
    let header = Header {
        load_depth: depth,
        store_depth: depth,
        memory_length: rng.between(2, 9),
        ..gen::header(rng, &table)
    };
    let mut events = Vec::new();
    for round in 0..3 {
        let first = header.first_serial.wrapping_add(round * depth);
        let last = rng.pick(&[0, 0, depth / 2, depth - 1]);
        events.extend(held_back(&table, first, depth, last));
    }
    Scenario {
        table,
        header,
        events,
    }
}

/// Fills an empty queue with `depth` activations, the one at place `last` of
/// group 0, and finishes that one last.
fn held_back(table: &Table, first: u32, depth: u32, last: u32) -> Vec<Event> {
    let activation = |place: u32| Activation {
        table,
        group: usize::from(place != last),
        serial: first.wrapping_add(place),
    };
    let all: Vec<Activation> = (0..depth).map(activation).collect();
    let begun = [
        Activation::activate,
        Activation::load_address,
        Activation::store_address,
        Activation::store_data,
        Activation::serve,
    ];
    let finished = [Activation::take, Activation::write];
    let mut events = Vec::new();
    events.extend(begun.iter().flat_map(|call| all.iter().map(call)));
    for group in [1, 0] {
        let activations = all.iter().filter(|each| each.group == group);
        events.extend(
            finished
                .iter()
                .flat_map(|call| activations.clone().map(call)),
        );
    }
    events
}

/// An activation of a group of a load and a store, on a word of its group.
struct Activation<'a> {
    table: &'a Table,
    group: usize,
    serial: u32,
}

impl Activation<'_> {
    fn load_port(&self) -> u32 {
        self.table.groups[self.group].loads[0].port
    }

    fn store_port(&self) -> u32 {
        self.table.groups[self.group].stores[0].port
    }

    fn activate(&self) -> Event {
        let group = self.group as u32;
        Event::Activate { group }
    }

    fn load_address(&self) -> Event {
        let (port, address) = (self.load_port(), self.group as u32);
        Event::LoadAddress { port, address }
    }

    fn store_address(&self) -> Event {
        let (port, address) = (self.store_port(), self.group as u32);
        Event::StoreAddress { port, address }
    }

    fn store_data(&self) -> Event {
        let (port, word) = (self.store_port(), self.serial);
        Event::StoreData { port, word }
    }

    fn serve(&self) -> Event {
        let serial = self.serial;
        Event::Serve { serial }
    }

    fn take(&self) -> Event {
        let port = self.load_port();
        Event::Take { port }
    }

    fn write(&self) -> Event {
        let serial = self.serial;
        Event::Write { serial }
    }
}

/// One in three has 10,000 events or more.
fn long(rng: &mut Rng) -> Scenario {
    let table = gen::table(rng);
    let header = gen::header(rng, &table);
    let length = rng.pick(&[(10_000, 16_000), (1_000, 3_000), (1_000, 3_000)]);
    let lean = rng.pick(&[Lean::MIXED, Lean::FULL, Lean::FORWARDED]);
    leaning(rng, table, header, length, &lean)
}

/// A trace of a little less than 16,384 bytes.
fn near_limit(rng: &mut Rng) -> Scenario {
    let table = gen::table(rng);
    let header = gen::header(rng, &table);
    let mut scenario = leaning(rng, table, header, (8_000, 8_000), &Lean::NEIGHBOURS);
    let mut length = 20;
    let fits = scenario.events.iter().take_while(|event| {
        length += gen::event_bytes(event).len();
        length < MAX_FILE
    });
    let fitting = fits.count();
    scenario.events.truncate(fitting);
    scenario
}

/// Lengthens the trace, or the table, to a file's limit or one byte over it.
fn reach_limit(rng: &mut Rng, table: &mut Vec<u8>, trace: &mut Vec<u8>) {
    match rng.below(4) {
        0 => table.resize(MAX_FILE + rng.below(2), 0),
        _ => gen::stretch(rng, trace),
    }
}

/// A table that mostly meets one of 3 to 9, in bytes that can be read.
fn wrong_table(rng: &mut Rng, mut table: Table) -> Vec<u8> {
    let fault = rng.below(8);
    match fault {
        0..=1 => {}
        2..=3 => gen::spoil_table(rng, &mut table),
        _ => gen::nudge_table(rng, &mut table),
    }
    let mut numbers = table.numbers();
    match fault {
        0 => numbers[0] = rng.pick(&[0, 1, 3, u32::MAX]),
        1 => numbers.push(rng.word()),
        _ => {}
    }
    let mut bytes = vec![0; 5 * numbers.len()];
    let count = write_numbers(&numbers, &mut bytes).expect("room for the numbers");
    bytes.truncate(count);
    bytes
}

/// Any bytes in place of the table, the trace, or both.
fn noise(rng: &mut Rng, table: Vec<u8>, trace: Vec<u8>) -> (Vec<u8>, Vec<u8>) {
    match rng.below(3) {
        0 => (any_bytes(rng), trace),
        1 => (table, any_bytes(rng)),
        _ => (any_bytes(rng), any_bytes(rng)),
    }
}

fn any_bytes(rng: &mut Rng) -> Vec<u8> {
    let count = rng.below(60);
    let small = rng.chance(2, 3);
    let byte = |rng: &mut Rng| match small {
        true => rng.pick(&[0, 1, 1, 2, 2, 3, 4, 5, 6, 7, 16, 0x80, 0xFF]),
        false => rng.word() as u8,
    };
    (0..count).map(|_| byte(rng)).collect()
}

/// Lengths that a replay of so many events accepts, mostly the least ones.
fn right_lengths(rng: &mut Rng, trace: &[u8], events: usize) -> Lengths {
    let words = read_header(trace).map_or(9, |(header, _)| header.memory_length);
    let more = |rng: &mut Rng| rng.pick(&[0, 0, 0, 1, 2, 40]);
    Lengths {
        memory: words.min(5_000) as usize,
        counts: 2 + rng.pick(&[0, 0, 1, 2]),
        answers: events + more(rng),
        given: events + more(rng),
        values: events + more(rng),
    }
}

/// Makes one length wrong, mostly by one, or all.
fn spoil_lengths(rng: &mut Rng, lengths: &mut Lengths, events: usize) {
    let memory = lengths.memory;
    let others = [memory + 1, memory.saturating_sub(1), 0, 4_096];
    let fewer = [events.saturating_sub(1), events / 2];
    match rng.below(7) {
        0 | 1 => lengths.memory = rng.pick(&others),
        2 => lengths.counts = rng.pick(&[0, 1]),
        3 => lengths.answers = rng.pick(&fewer),
        4 => lengths.given = rng.pick(&fewer),
        5 => lengths.values = rng.pick(&fewer),
        _ => {
            *lengths = Lengths {
                memory: rng.pick(&others),
                counts: rng.below(3),
                answers: 0,
                given: 0,
                values: 0,
            }
        }
    }
}
