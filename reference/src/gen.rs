//! Seeded inputs for comparing implementations: valid tables, traces that lean
//! towards conflicts, full queues and the turn of the serials, damaged bytes,
//! queue records that no opening leads to, calls on them, shift records, and
//! accesses with precedence pairs.

use std::{array, mem};

use crate::counts::Counts;
use crate::event::{write_event, write_header, Event, Header};
use crate::number::byte_count;
use crate::ordering::{Precedence, MAX_LISTED, MAX_PAIRS};
use crate::play::MAX_FILE;
use crate::queue::{LoadEntry, Queue, Side, StoreEntry, TrustingQueue, MAX_DEPTH, MAX_MEMORY};
use crate::rng::Rng;
use crate::shift::ShiftRecord;
use crate::table::{Access, Group, Pair, Table, MAX_ACCESSES, MAX_GROUPS, MAX_PORT};

/// Longest encodings: of one number, and of a whole valid table.
const NUMBER_BYTES: usize = 5;
const TABLE_BYTES: usize = 512;

/// `table.bin` and `trace.bin` for this seed: more than half the pairs are whole,
/// the others have a damaged table, trace or header; in one of ten the table or
/// the trace is right but for padding.
#[must_use]
pub fn pair(seed: u64) -> (Vec<u8>, Vec<u8>) {
    let mut rng = Rng::new(seed);
    let mut scenario = Scenario::random(&mut rng);
    if rng.chance(1, 12) {
        spoil_header(&mut rng, &mut scenario.header);
    }
    let (mut table, mut trace) = scenario.bytes();
    match rng.below(20) {
        0..=2 => damage(&mut rng, &mut table),
        3..=5 => damage(&mut rng, &mut trace),
        6 => stretch(&mut rng, &mut trace),
        7 if rng.chance(1, 8) => table.resize(MAX_FILE + rng.below(2), 0),
        8 => pad_several(&mut rng, &mut table),
        9 => pad_several(&mut rng, &mut trace),
        _ => {}
    }
    (table, trace)
}

/// A valid table, a header that opens it, and events.
#[derive(Clone, Debug, PartialEq, Eq)]
pub struct Scenario {
    /// The table.
    pub table: Table,
    /// Depths, first serial and memory length that [`Queue::open`] accepts.
    pub header: Header,
    /// Events, accepted and refused ones mixed.
    pub events: Vec<Event>,
}

impl Scenario {
    /// A random scenario of a length between none and some thousand events.
    pub fn random(rng: &mut Rng) -> Self {
        let most = rng.pick(&[8, 60, 60, 200, 200, 400]);
        let count = if rng.chance(1, 50) {
            rng.between(1000, 3500) as usize
        } else {
            rng.below(most + 1)
        };
        Self::of_length(rng, count)
    }

    /// A random scenario of `count` events. One in four is [`Lean::SOONER`] on groups
    /// of several stores, so that serves often meet a store without address behind
    /// one to their word, or before it (S-7).
    pub fn of_length(rng: &mut Rng, count: usize) -> Self {
        let (table, lean) = match rng.chance(1, 4) {
            true => (table_of_stores(rng), Lean::SOONER),
            false => (table(rng), Lean::MIXED),
        };
        let header = header(rng, &table);
        let events = events_leaning(rng, &table, header, count, &lean);
        Self {
            table,
            header,
            events,
        }
    }

    /// The bytes of table and trace.
    ///
    /// # Panics
    /// When the table was changed to a wrong one.
    #[must_use]
    pub fn bytes(&self) -> (Vec<u8>, Vec<u8>) {
        let mut table = vec![0; TABLE_BYTES];
        let count = self.table.write(&mut table).expect("a valid table");
        table.truncate(count);
        (table, trace_bytes(&self.header, &self.events))
    }
}

/// The bytes of a trace.
///
/// # Panics
/// Never: the buffer is long enough.
#[must_use]
pub fn trace_bytes(header: &Header, events: &[Event]) -> Vec<u8> {
    let mut buffer = [0; 4 * NUMBER_BYTES];
    let count = write_header(header, &mut buffer).expect("room for a header");
    let mut trace = buffer[..count].to_vec();
    trace.extend(events.iter().flat_map(event_bytes));
    trace
}

/// The bytes of an event.
///
/// # Panics
/// Never: the buffer is long enough.
#[must_use]
pub fn event_bytes(event: &Event) -> Vec<u8> {
    let mut buffer = [0; 3 * NUMBER_BYTES];
    let count = write_event(event, &mut buffer).expect("room for an event");
    buffer[..count].to_vec()
}

// Tables and headers.

/// A valid table. One in three has empty groups, one in about fifty no others.
pub fn table(rng: &mut Rng) -> Table {
    let shapes = [(1, 1), (1, 3), (2, 2), (3, 2), (4, 4), (16, 3), (2, 16)];
    let (groups, most) = rng.pick(&shapes);
    let mut load_ports = shuffled_ports(rng);
    let mut store_ports = shuffled_ports(rng);
    let mut table = Table::default();
    for _ in 0..rng.between(1, groups) {
        let mut order = some_ports(rng, &mut load_ports, most, Access::Load);
        order.extend(some_ports(rng, &mut store_ports, most, Access::Store));
        rng.shuffle(&mut order);
        if !order.is_empty() {
            table.groups.push(Group::from_order(&order));
        }
    }
    if table.groups.is_empty() && rng.chance(2, 3) {
        let order = [Access::Load(load_ports[0]), Access::Store(store_ports[0])];
        table.groups.push(Group::from_order(&order));
    }
    if table.groups.is_empty() || rng.chance(1, 3) {
        add_empty_groups(rng, &mut table);
    }
    table
}

/// Puts one or more empty groups at any places of a table. Once it has 16
/// groups, others lose their accesses instead.
pub fn add_empty_groups(rng: &mut Rng, table: &mut Table) {
    for _ in 0..rng.pick(&[1, 1, 2, 3, MAX_GROUPS]) {
        match table.groups.len() {
            MAX_GROUPS => table.groups[rng.below(MAX_GROUPS)] = Group::default(),
            count => table.groups.insert(rng.below(count + 1), Group::default()),
        }
    }
}

/// A valid table of `groups` groups, each of `loads` loads and `stores` stores
/// in random order, both of which may be 0. Each kind's accesses are at most 32
/// in all, as its ports.
///
/// # Panics
/// When there are too few ports.
pub fn table_of(rng: &mut Rng, groups: usize, loads: usize, stores: usize) -> Table {
    let mut load_ports = shuffled_ports(rng);
    let mut store_ports = shuffled_ports(rng);
    let mut table = Table::default();
    for _ in 0..groups {
        let last_loads = load_ports.drain(load_ports.len() - loads..);
        let mut order: Vec<Access> = last_loads.map(Access::Load).collect();
        let last_stores = store_ports.drain(store_ports.len() - stores..);
        order.extend(last_stores.map(Access::Store));
        rng.shuffle(&mut order);
        table.groups.push(Group::from_order(&order));
    }
    table
}

/// A valid table whose groups have one to three loads and two to four stores. One
/// in three has empty groups too.
pub fn table_of_stores(rng: &mut Rng) -> Table {
    let groups = rng.pick(&[1, 1, 2]);
    let loads = rng.pick(&[1, 2, 3]);
    let stores = rng.pick(&[2, 3, 4]);
    let mut table = table_of(rng, groups, loads, stores);
    if rng.chance(1, 3) {
        add_empty_groups(rng, &mut table);
    }
    table
}

fn shuffled_ports(rng: &mut Rng) -> Vec<u32> {
    let mut ports: Vec<u32> = (0..=MAX_PORT).collect();
    rng.shuffle(&mut ports);
    ports
}

/// Takes up to `most` of the free ports.
fn some_ports(
    rng: &mut Rng,
    free: &mut Vec<u32>,
    most: usize,
    access: fn(u32) -> Access,
) -> Vec<Access> {
    let count = rng.below(most + 1).min(free.len());
    let rest = free.len() - count;
    free.drain(rest..).map(access).collect()
}

/// A header with which the table opens.
pub fn header(rng: &mut Rng, table: &Table) -> Header {
    let loads = table.groups.iter().map(|group| group.loads.len()).max();
    let stores = table.groups.iter().map(|group| group.stores.len()).max();
    Header {
        load_depth: depth(rng, loads.unwrap_or(0) as u32),
        store_depth: depth(rng, stores.unwrap_or(0) as u32),
        first_serial: first_serial(rng),
        memory_length: memory_length(rng),
    }
}

/// A depth for groups of up to `most` accesses, often a tight one.
fn depth(rng: &mut Rng, most: u32) -> u32 {
    let least = most.max(1);
    let wide = rng.between(least, MAX_DEPTH);
    let close = least + rng.between(0, 3);
    let choices = [least, 2 * least, 3 * least, close, close, wide, MAX_DEPTH];
    rng.pick(&choices).min(MAX_DEPTH)
}

/// Mostly a serial soon before the turn from 4294967295 to 0.
pub fn first_serial(rng: &mut Rng) -> u32 {
    let soon = u32::MAX - rng.between(0, 8);
    let later = u32::MAX - rng.between(0, 120);
    let middle = (1 << 31) - rng.between(0, 8);
    let any = rng.word();
    rng.pick(&[0, soon, soon, soon, later, later, middle, any])
}

fn memory_length(rng: &mut Rng) -> u32 {
    let any = rng.between(1, MAX_MEMORY);
    rng.pick(&[1, 2, 3, 4, 4, 8, 130, any, MAX_MEMORY])
}

/// Puts one of the header's numbers at or over the edge of its limits.
pub fn spoil_header(rng: &mut Rng, header: &mut Header) {
    let extreme = rng.pick(&[0, 0, 1, u32::MAX]);
    match rng.below(3) {
        0 => header.load_depth = rng.pick(&[extreme, header.load_depth - 1, 64, 65]),
        1 => header.store_depth = rng.pick(&[extreme, header.store_depth - 1, 64, 65]),
        _ => header.memory_length = rng.pick(&[extreme, 4096, 4097]),
    }
}

// Events.

/// How often each kind of event is tried; a trace changes from one to another.
const PROFILES: [[usize; 7]; 8] = [
    [4, 4, 4, 4, 4, 4, 4],
    [3, 6, 6, 6, 8, 8, 8],
    [12, 2, 2, 2, 1, 1, 1], // fill the queue
    [3, 8, 8, 8, 2, 2, 2],  // bring the arguments
    [1, 4, 4, 4, 8, 8, 8],  // empty the queue
    LOADS_HURRY,
    [4, 2, 8, 8, 1, 8, 1], // stores hurry
    [6, 6, 6, 1, 8, 2, 4], // data comes late
];

const LOADS_HURRY: [usize; 7] = [4, 8, 3, 1, 8, 1, 4];

/// What a trace leans towards.
#[derive(Clone, Copy, Debug)]
pub struct Lean {
    /// How often each kind of event is tried, changed now and then.
    profiles: &'static [[usize; 7]],
    /// Most addresses that accesses crowd on.
    hot: u32,
    /// How often in 16 a refused event is kept.
    refused: usize,
    /// How often in 16 the event before is repeated, changed a little or not.
    neighbours: usize,
    /// Whether the side that holds more is emptied first.
    even: bool,
    /// How often in 16 a store's address or data is meant for the youngest store
    /// that lacks it.
    youngest: usize,
}

impl Lean {
    /// Something of everything.
    pub const MIXED: Self = Self {
        profiles: &PROFILES,
        hot: 3,
        refused: 2,
        neighbours: 0,
        even: false,
        youngest: 0,
    };
    /// Both sides filled again as soon as places are free.
    pub const FULL: Self = Self {
        profiles: &[[24, 4, 4, 4, 4, 4, 4], [16, 5, 5, 5, 4, 2, 4]],
        hot: 2,
        refused: 2,
        neighbours: 0,
        even: true,
        youngest: 0,
    };
    /// Many stores to one address whose data waits for no write, so that loads
    /// are forwarded to.
    pub const FORWARDED: Self = Self {
        profiles: &[[6, 8, 10, 10, 8, 0, 4], [4, 8, 8, 8, 8, 2, 8]],
        hot: 1,
        refused: 1,
        neighbours: 0,
        even: false,
        youngest: 0,
    };
    /// Loads and stores of one address that wait for each other.
    pub const CONFLICTS: Self = Self {
        profiles: &[[6, 6, 6, 3, 6, 6, 4], LOADS_HURRY],
        hot: 1,
        refused: 5,
        neighbours: 0,
        even: false,
        youngest: 0,
    };
    /// Stores that hurry past each other.
    pub const STORES: Self = Self {
        profiles: &[[8, 3, 5, 8, 4, 12, 2], [8, 3, 3, 8, 4, 12, 2]],
        hot: 3,
        refused: 8,
        neighbours: 0,
        even: false,
        youngest: 0,
    };
    /// Loads that hurry past stores of one address, where the addresses of older
    /// stores come later than those of younger ones, and data comes late at times.
    pub const SOONER: Self = Self {
        profiles: &[[8, 8, 4, 3, 6, 3, 6], [8, 8, 4, 1, 6, 3, 6]],
        hot: 1,
        refused: 4,
        neighbours: 0,
        even: false,
        youngest: 12,
    };
    /// Refusals next to acceptances.
    pub const NEIGHBOURS: Self = Self {
        profiles: &PROFILES,
        hot: 2,
        refused: 1,
        neighbours: 8,
        even: false,
        youngest: 0,
    };
}

/// `count` events of [`Lean::MIXED`] for a queue opened with `header`.
///
/// # Panics
/// When the table does not open with the header.
pub fn events(rng: &mut Rng, table: &Table, header: Header, count: usize) -> Vec<Event> {
    events_leaning(rng, table, header, count, &Lean::MIXED)
}

/// `count` events for a queue opened with `header`; one that the queue would
/// refuse is kept only now and then.
///
/// # Panics
/// When the table does not open with the header.
pub fn events_leaning(
    rng: &mut Rng,
    table: &Table,
    header: Header,
    count: usize,
    lean: &Lean,
) -> Vec<Event> {
    let mut driver = Driver::new(rng, table, header, lean);
    let mut weights = rng.pick(lean.profiles);
    let mut events = Vec::with_capacity(count);
    for _ in 0..count {
        if rng.chance(1, 20) {
            weights = rng.pick(lean.profiles);
        }
        let last = events.last().filter(|_| rng.chance(lean.neighbours, 16));
        let event = match last {
            Some(last) => neighbour(rng, last, header.memory_length),
            None => driver.next_event(rng, &weights, lean),
        };
        driver.make(&event);
        events.push(event);
    }
    events
}

/// The same event again, or one that differs in one number by one or goes to
/// the memory's end.
fn neighbour(rng: &mut Rng, event: &Event, memory_length: u32) -> Event {
    let step = rng.pick(&[0, 0, 1, u32::MAX]);
    match *event {
        Event::Activate { group } => Event::Activate {
            group: group.wrapping_add(step),
        },
        Event::LoadAddress { port, address } => Event::LoadAddress {
            port: port.wrapping_add(step),
            address: rng.pick(&[address, address, memory_length]),
        },
        Event::StoreAddress { port, address } => Event::StoreAddress {
            port: port.wrapping_add(step),
            address: rng.pick(&[address, address, memory_length]),
        },
        Event::StoreData { port, word } => Event::StoreData {
            port: port.wrapping_add(step),
            word,
        },
        Event::Serve { serial } => Event::Serve {
            serial: serial.wrapping_add(step),
        },
        Event::Write { serial } => Event::Write {
            serial: serial.wrapping_add(step),
        },
        Event::Take { port } => Event::Take {
            port: port.wrapping_add(step),
        },
    }
}

/// The few addresses that most accesses go to.
fn hot_addresses(rng: &mut Rng, memory_length: u32, most: u32) -> Vec<u32> {
    let count = rng.between(1, most);
    (0..count)
        .map(|_| rng.between(0, memory_length - 1))
        .collect()
}

/// Proposes events with the queue that they will meet in view. Answers don't
/// depend on the words in memory.
struct Driver {
    queue: TrustingQueue,
    memory: Vec<u32>,
    hot: Vec<u32>,
    youngest: usize,
    word: u32,
}

impl Driver {
    fn new(rng: &mut Rng, table: &Table, header: Header, lean: &Lean) -> Self {
        let queue = TrustingQueue::open(table.clone(), header).expect("a header that opens");
        Self {
            queue,
            memory: vec![0; header.memory_length as usize],
            hot: hot_addresses(rng, header.memory_length, lean.hot),
            youngest: lean.youngest,
            word: 0,
        }
    }

    /// Makes the call of an event that is kept.
    fn make(&mut self, event: &Event) {
        let mut counts = Counts::default();
        let _ = self.queue.apply(event, &mut self.memory, &mut counts);
    }

    /// Tries a few events and keeps the first accepted one, or by chance a
    /// refused one.
    fn next_event(&mut self, rng: &mut Rng, weights: &[usize; 7], lean: &Lean) -> Event {
        let weights = self.evened(weights, lean);
        let mut event = self.propose(rng, &weights);
        for _ in 0..8 {
            if rng.chance(lean.refused, 16) || self.accepts(&event) {
                break;
            }
            event = self.propose(rng, &weights);
        }
        event
    }

    /// The weights without takes while fewer loads are held than stores, and
    /// without writes while fewer stores are.
    fn evened(&self, weights: &[usize; 7], lean: &Lean) -> [usize; 7] {
        let loads = self.queue.loads.entries.len();
        let stores = self.queue.stores.entries.len();
        let mut weights = *weights;
        if lean.even && stores < loads {
            weights[5] = 0;
        }
        if lean.even && loads < stores {
            weights[6] = 0;
        }
        weights
    }

    fn accepts(&self, event: &Event) -> bool {
        let mut counts = Counts::default();
        let mut run = [0; MAX_DEPTH as usize];
        match *event {
            Event::Serve { serial } => {
                let ready = self.queue.ready_loads(&mut run);
                ready.is_ok_and(|ready| ready.contains(&serial))
            }
            Event::Write { serial } => {
                let ready = self.queue.ready_stores(&mut run);
                ready.is_ok_and(|ready| ready.contains(&serial))
            }
            _ => self
                .queue
                .clone()
                .apply(event, &mut [], &mut counts)
                .is_ok(),
        }
    }

    fn propose(&mut self, rng: &mut Rng, weights: &[usize; 7]) -> Event {
        match weighted(rng, weights) {
            0 => Event::Activate {
                group: self.group(rng),
            },
            1 => Event::LoadAddress {
                port: self.load_port(rng, |load| load.address.is_none()),
                address: self.address(rng),
            },
            2 => Event::StoreAddress {
                port: self.store_port(rng, |store| store.address.is_none()),
                address: self.address(rng),
            },
            3 => Event::StoreData {
                port: self.store_port(rng, |store| store.data.is_none()),
                word: self.data(rng),
            },
            4 => Event::Serve {
                serial: self.load_serial(rng),
            },
            5 => Event::Write {
                serial: self.store_serial(rng),
            },
            _ => Event::Take {
                port: self.load_port(rng, |load| load.served && !load.taken),
            },
        }
    }

    /// Mostly a group of the table. Empty ones come less often than others: a
    /// full queue accepts them too, and they would fill the trace.
    fn group(&self, rng: &mut Rng) -> u32 {
        let groups = &self.queue.table.groups;
        let count = groups.len() as u32;
        if rng.chance(1, 16) {
            return rng.pick(&[count, count + 1, u32::MAX]);
        }
        let group = rng.between(0, count - 1);
        if groups[group as usize].is_empty() && rng.chance(3, 4) {
            return rng.between(0, count - 1);
        }
        group
    }

    /// Mostly the port of a queued load that passes `test`.
    fn load_port(&self, rng: &mut Rng, test: impl Fn(&LoadEntry) -> bool) -> u32 {
        let loads = self.queue.loads.entries.iter();
        let useful: Vec<u32> = loads.filter(|e| test(e)).map(|e| e.port).collect();
        some_port(rng, &useful, &load_ports(&self.queue.table))
    }

    /// Mostly the port of a queued store that passes `test`.
    fn store_port(&self, rng: &mut Rng, test: impl Fn(&StoreEntry) -> bool) -> u32 {
        let stores = self.queue.stores.entries.iter();
        let mut useful: Vec<u32> = stores.filter(|e| test(e)).map(|e| e.port).collect();
        if self.youngest > 0 && rng.chance(self.youngest, 16) {
            useful.drain(..useful.len().saturating_sub(1));
        }
        some_port(rng, &useful, &store_ports(&self.queue.table))
    }

    fn address(&self, rng: &mut Rng) -> u32 {
        let length = self.queue.memory_length;
        match rng.below(24) {
            0 => rng.pick(&[length, length, length + 1, u32::MAX]),
            1..=3 => rng.between(0, length - 1),
            _ => rng.pick(&self.hot),
        }
    }

    /// Data that tells the stores apart, and now and then an extreme word.
    fn data(&mut self, rng: &mut Rng) -> u32 {
        self.word += 1;
        let any = rng.word();
        rng.pick(&[self.word, self.word, self.word, self.word, 0, u32::MAX, any])
    }

    fn load_serial(&self, rng: &mut Rng) -> u32 {
        let side = &self.queue.loads;
        let mut run = [0; MAX_DEPTH as usize];
        let ready = self.queue.ready_loads(&mut run).unwrap_or_default();
        some_serial(rng, ready, side.oldest_serial(), side.next_serial)
    }

    fn store_serial(&self, rng: &mut Rng) -> u32 {
        let side = &self.queue.stores;
        let mut run = [0; MAX_DEPTH as usize];
        let ready = self.queue.ready_stores(&mut run).unwrap_or_default();
        some_serial(rng, ready, side.oldest_serial(), side.next_serial)
    }
}

/// A place of `weights`, each as often as its weight says.
fn weighted(rng: &mut Rng, weights: &[usize]) -> usize {
    let mut rest = rng.below(weights.iter().sum());
    for (place, &weight) in weights.iter().enumerate() {
        if rest < weight {
            return place;
        }
        rest -= weight;
    }
    unreachable!("the rest is below the sum")
}

/// Mostly a useful port, else a known one, or any, or one past the limit.
fn some_port(rng: &mut Rng, useful: &[u32], known: &[u32]) -> u32 {
    match rng.below(24) {
        0 => rng.pick(&[0, MAX_PORT, MAX_PORT + 1, u32::MAX]),
        1 => rng.between(0, MAX_PORT),
        2.. if !useful.is_empty() => rng.pick(useful),
        _ if !known.is_empty() => rng.pick(known),
        _ => 0,
    }
}

fn load_ports(table: &Table) -> Vec<u32> {
    let loads = table.groups.iter().flat_map(|group| &group.loads);
    loads.map(|load| load.port).collect()
}

fn store_ports(table: &Table) -> Vec<u32> {
    let stores = table.groups.iter().flat_map(|group| &group.stores);
    stores.map(|store| store.port).collect()
}

/// Mostly a ready serial, else a queued one, one just outside, or any.
fn some_serial(rng: &mut Rng, ready: &[u32], oldest: u32, next: u32) -> u32 {
    let queued = next.wrapping_sub(oldest) as usize;
    match rng.below(16) {
        0 => rng.pick(&[oldest.wrapping_sub(1), next, next, 0, u32::MAX]),
        1 => rng.word(),
        2..=5 if queued > 0 => oldest.wrapping_add(rng.below(queued) as u32),
        _ if !ready.is_empty() => rng.pick(ready),
        _ => oldest,
    }
}

// Damage.

/// Damages the bytes in one to three places.
pub fn damage(rng: &mut Rng, bytes: &mut Vec<u8>) {
    for _ in 0..rng.between(1, 3) {
        damage_once(rng, bytes);
    }
}

fn damage_once(rng: &mut Rng, bytes: &mut Vec<u8>) {
    let at = rng.below(bytes.len() + 1);
    let inside = at < bytes.len();
    match rng.below(12) {
        0 if inside => bytes[at] ^= 1 << rng.below(8),
        1 if inside => bytes[at] = rng.word() as u8,
        2 if inside => drop(bytes.remove(at)),
        3 => bytes.truncate(at),
        4 => bytes.insert(at, rng.pick(&[0x00, 0x01, 0x7F, 0x80, 0xFF])),
        5 => bytes.extend([rng.word() as u8, 0x00].iter().take(rng.below(3))),
        6 => respell(rng, bytes, any_padded),
        7..=8 => respell(rng, bytes, widened),
        _ => respell(rng, bytes, |rng, number| fewest(other_number(rng, number))),
    }
}

/// The places at which numbers start and end, by bit 7 alone: those that can't
/// be read and those behind them are found too, so that it shows which is told.
fn number_places(bytes: &[u8]) -> Vec<(usize, usize)> {
    let last = |at: &usize| bytes[*at] & 0x80 == 0;
    let ends = (0..bytes.len()).filter(last).map(|at| at + 1);
    let mut start = 0;
    ends.map(|end| (mem::replace(&mut start, end), end))
        .collect()
}

/// The number that these bytes stand for, padded or not.
fn spelled(bytes: &[u8]) -> u32 {
    let groups = bytes.iter().take(NUMBER_BYTES).enumerate();
    groups.fold(0, |number, (i, byte)| {
        number | u32::from(byte & 0x7F) << (7 * i)
    })
}

/// Puts other bytes in place of one number.
fn respell(rng: &mut Rng, bytes: &mut Vec<u8>, spelling: impl FnOnce(&mut Rng, u32) -> Vec<u8>) {
    let places = number_places(bytes);
    if places.is_empty() {
        return;
    }
    let (start, end) = rng.pick(&places);
    let other = spelling(rng, spelled(&bytes[start..end]));
    bytes.splice(start..end, other);
}

/// A near or an extreme number.
fn other_number(rng: &mut Rng, number: u32) -> u32 {
    let near = [number.wrapping_add(1), number.wrapping_sub(1)];
    let far = rng.pick(&[0, 1, 2, 6, 7, 16, 17, 31, 32, 64, 65, u32::MAX]);
    rng.pick(&[near[0], near[1], far])
}

/// The number in the fewest bytes.
fn fewest(number: u32) -> Vec<u8> {
    in_bytes(number, byte_count(number))
}

/// The number in so many bytes; those beyond the fewest pad it.
fn in_bytes(number: u32, count: usize) -> Vec<u8> {
    let group = |i: usize| (u64::from(number) >> (7 * i)) as u8 | 0x80;
    let mut bytes: Vec<u8> = (0..count).map(group).collect();
    bytes[count - 1] &= 0x7F;
    bytes
}

/// The number in five bytes, the fifth at an edge: 0F is the last one that can
/// be read, and 00 pads.
fn widened(rng: &mut Rng, number: u32) -> Vec<u8> {
    let fifth = rng.pick(&[0x00, 0x01, 0x0F, 0x10, 0x1F, 0x7F, 0x80, 0x8F]);
    let mut bytes = in_bytes(number, NUMBER_BYTES);
    bytes[NUMBER_BYTES - 1] = fifth;
    bytes
}

/// The number padded to at most `most` bytes, if there is room: 42 for up to
/// five, and 2 for more.
fn padded(rng: &mut Rng, number: u32, most: usize) -> Vec<u8> {
    let padding = match most - byte_count(number) {
        0 => 0,
        room => 1 + rng.below(room),
    };
    in_bytes(number, byte_count(number) + padding)
}

/// The number or another one, padded: another one may be refused by its field
/// too, and 42 comes first.
fn any_padded(rng: &mut Rng, number: u32) -> Vec<u8> {
    let other = other_number(rng, number);
    let number = rng.pick(&[number, other]);
    let most = rng.pick(&[NUMBER_BYTES, NUMBER_BYTES, NUMBER_BYTES + 2]);
    padded(rng, number, most)
}

/// Pads one to four numbers within five bytes, where one has fewer. What they
/// mean stays, and the first of them gets 42. Half of them are among the first
/// eight: else a trace of many events would seldom be refused for a leading one.
pub fn pad_several(rng: &mut Rng, bytes: &mut Vec<u8>) {
    for _ in 0..rng.between(1, 4) {
        let mut places = number_places(bytes);
        places.retain(|(start, end)| end - start < NUMBER_BYTES);
        if places.is_empty() {
            return;
        }
        let front = places.get(..8).filter(|_| rng.chance(1, 2));
        let (start, end) = rng.pick(front.unwrap_or(&places));
        let padded = padded(rng, spelled(&bytes[start..end]), NUMBER_BYTES);
        bytes.splice(start..end, padded);
    }
}

/// Bytes to read one number from, with another byte behind them or not. Most hold
/// it in the fewest bytes; some are padded, cut short, or have a fifth byte at an
/// edge.
pub fn number_bytes(rng: &mut Rng) -> Vec<u8> {
    let number = rng.word() >> rng.below(32);
    let mut bytes = match rng.below(16) {
        0 => padded(rng, number, NUMBER_BYTES),
        1 => widened(rng, number),
        _ => fewest(number),
    };
    let any = rng.word() as u8;
    match rng.below(16) {
        0 => bytes.truncate(rng.below(bytes.len())),
        1..=7 => bytes.push(rng.pick(&[0x00, 0x80, any])),
        _ => {}
    }
    bytes
}

/// Lengthens a trace by takes to the limit of a file, or over it. Each has two
/// bytes; where the rest is odd, one is of port 128, which no table has, in three.
pub fn stretch(rng: &mut Rng, trace: &mut Vec<u8>) {
    let length = MAX_FILE - 1 + rng.below(3);
    if trace.len() + 3 > length {
        return;
    }
    if (length - trace.len()) % 2 == 1 {
        trace.extend([0x06, 0x80, 0x01]);
    }
    while trace.len() < length {
        trace.extend([0x06, 0x00]);
    }
}

// Records.

/// A queue's record as no opening need lead to: "wherever it came from, the
/// rules go by what it holds". One in eight is full on both sides; in one of three
/// most serves come to the walk of S-7; one in four is unsound and meets 40.
pub fn record(rng: &mut Rng) -> Queue {
    let table = table(rng);
    let header = header(rng, &table);
    let mut queue = Queue::open(table, header).expect("a header that opens");
    queue.loads.next_serial = first_serial(rng);
    queue.stores.next_serial = first_serial(rng);
    fill_record(rng, &mut queue);
    if rng.chance(1, 4) {
        spoil_record(rng, &mut queue);
    }
    queue
}

/// What the entries of a record are like.
struct EntryMix {
    /// The addresses.
    hot: Vec<u32>,
    /// One load in so many has no address.
    load_gaps: usize,
    /// One store in so many has no address, and one no data.
    store_gaps: usize,
    /// So many loads in 12 are served.
    served: usize,
}

impl EntryMix {
    /// Anything.
    fn any(rng: &mut Rng, memory_length: u32) -> Self {
        let hot = hot_addresses(rng, memory_length, 3);
        let gaps = rng.pick(&[2, 10, 100]);
        Self {
            hot,
            load_gaps: gaps,
            store_gaps: gaps,
            served: 4,
        }
    }

    /// Loads that mostly have an address and are not served, and stores to one or two
    /// words of which many lack something: serves meet every end of the walk (S-7),
    /// with other stores behind it that could have ended it too.
    fn walked(rng: &mut Rng, memory_length: u32) -> Self {
        Self {
            hot: hot_addresses(rng, memory_length, 2),
            load_gaps: 24,
            store_gaps: 3,
            served: 1,
        }
    }
}

fn fill_record(rng: &mut Rng, queue: &mut Queue) {
    let most = rng.pick(&[2, 6, MAX_DEPTH]);
    let some = |rng: &mut Rng, depth: u32| rng.between(0, depth.min(most));
    let (loads, stores) = match rng.chance(1, 8) {
        true => (queue.load_depth, queue.store_depth),
        false => (some(rng, queue.load_depth), some(rng, queue.store_depth)),
    };
    let (loads, stores) = (loads as usize, stores as usize);
    let mix = match rng.chance(1, 3) {
        true => EntryMix::walked(rng, queue.memory_length),
        false => EntryMix::any(rng, queue.memory_length),
    };
    for _ in 0..loads {
        let load = any_load(rng, &queue.table, &mix, stores);
        queue.loads.entries.push_back(load);
    }
    for _ in 0..stores {
        let store = any_store(rng, &queue.table, &mix, loads);
        queue.stores.entries.push_back(store);
    }
}

fn any_load(rng: &mut Rng, table: &Table, mix: &EntryMix, stores: usize) -> LoadEntry {
    LoadEntry {
        port: some_port(rng, &[], &load_ports(table)),
        address: (!rng.chance(1, mix.load_gaps)).then(|| rng.pick(&mix.hot)),
        served: rng.chance(mix.served, 12),
        value: rng.word(),
        taken: rng.chance(1, 3),
        stores_before: rng.below(stores + 1),
    }
}

fn any_store(rng: &mut Rng, table: &Table, mix: &EntryMix, loads: usize) -> StoreEntry {
    StoreEntry {
        port: some_port(rng, &[], &store_ports(table)),
        address: (!rng.chance(1, mix.store_gaps)).then(|| rng.pick(&mix.hot)),
        data: (!rng.chance(1, mix.store_gaps)).then(|| rng.word()),
        written: rng.chance(1, 3),
        loads_before: rng.below(loads + 1),
    }
}

/// Brings about one of the things that 40 lists, where the entries allow it.
fn spoil_record(rng: &mut Rng, queue: &mut Queue) {
    let (loads, stores) = (queue.loads.entries.len(), queue.stores.entries.len());
    let length = queue.memory_length;
    let beyond = rng.pick(&[length, length + 1, u32::MAX]);
    match rng.below(12) {
        0 => queue.load_depth = rng.pick(&[0, 65, u32::MAX]),
        1 => queue.store_depth = rng.pick(&[0, 65, u32::MAX]),
        2 => queue.memory_length = rng.pick(&[0, 4097, u32::MAX]),
        3 if loads > 1 => queue.load_depth = loads as u32 - 1,
        4 if stores > 1 => queue.store_depth = stores as u32 - 1,
        5 if loads > 0 => queue.loads.entries[rng.below(loads)].stores_before = stores + 1,
        6 if stores > 0 => queue.stores.entries[rng.below(stores)].loads_before = loads + 1,
        7 if loads > 0 => queue.loads.entries[rng.below(loads)].address = Some(beyond),
        8 if stores > 0 => queue.stores.entries[rng.below(stores)].address = Some(beyond),
        _ => spoil_table(rng, &mut queue.table),
    }
}

/// Makes a table meet one of 4 to 8. For an empty group only 4 and 5 are left:
/// it has no pair that could be wrong, and may stand twice.
pub fn spoil_table(rng: &mut Rng, table: &mut Table) {
    let place = rng.below(table.groups.len());
    let group = &mut table.groups[place];
    let pair = group.loads.iter_mut().chain(&mut group.stores).next();
    let faults = if pair.is_some() { 5 } else { 2 };
    match (rng.below(faults), pair) {
        (0, _) => table.groups.clear(),
        (2, Some(pair)) => pair.offset = rng.pick(&[17, u32::MAX]),
        (3, Some(pair)) => pair.port = rng.pick(&[32, u32::MAX]),
        (4, _) => table.groups.push(table.groups[place].clone()),
        _ => lengthen(rng, &mut table.groups[place]),
    }
}

/// Gives a group more loads or more stores than it may have.
fn lengthen(rng: &mut Rng, group: &mut Group) {
    let pairs = match rng.chance(1, 2) {
        true => &mut group.loads,
        false => &mut group.stores,
    };
    let count = MAX_ACCESSES + rng.pick(&[1, 1, 2, 16]);
    pairs.resize(count, Pair { offset: 0, port: 0 });
}

/// Changes one pair of a table a little: its offset by one, or its port to
/// that of another access of its kind, to the last port or past it. The table
/// may stay a right one.
pub fn nudge_table(rng: &mut Rng, table: &mut Table) {
    let groups = table.groups.iter_mut();
    let mut pairs: Vec<&mut Pair> = match rng.chance(1, 2) {
        true => groups.flat_map(|group| &mut group.loads).collect(),
        false => groups.flat_map(|group| &mut group.stores).collect(),
    };
    if pairs.is_empty() {
        return;
    }
    let other = pairs[rng.below(pairs.len())].port;
    let place = rng.below(pairs.len());
    let pair = &mut pairs[place];
    match rng.below(5) {
        0 => pair.offset = pair.offset.wrapping_add(1),
        1 => pair.offset = pair.offset.wrapping_sub(1),
        2 => pair.offset = 0,
        3 => pair.port = other,
        _ => pair.port = rng.pick(&[MAX_PORT, MAX_PORT + 1]),
    }
}

// Calls on records.

/// Counts that may hold anything, the edges included.
pub fn counts(rng: &mut Rng) -> Counts {
    let edge = u32::MAX - rng.between(0, 1);
    Counts {
        loads: rng.pick(&[0, 7, edge]),
        forwarded: rng.pick(&[0, 9, edge]),
    }
}

/// A shift record that may hold anything: many counts at or next to 0 and
/// 4294967295, and values of every number of digits. One in eight has no takes
/// and no values.
pub fn shift_record(rng: &mut Rng) -> ShiftRecord {
    if rng.chance(1, 8) {
        return ShiftRecord::default();
    }
    ShiftRecord {
        takes: array::from_fn(|_| takes(rng)),
        values: array::from_fn(|_| number_of_digits(rng)),
    }
}

fn takes(rng: &mut Rng) -> u32 {
    let any = number_of_digits(rng);
    rng.pick(&[0, 1, u32::MAX - 1, u32::MAX, any, any])
}

/// A number of one to ten digits, each as often, and often the least or the
/// greatest of so many.
fn number_of_digits(rng: &mut Rng) -> u32 {
    let digits = rng.between(1, 10);
    let least = if digits == 1 {
        0
    } else {
        10u32.pow(digits - 1)
    };
    let most = 10u32.checked_pow(digits).map_or(u32::MAX, |next| next - 1);
    let any = rng.between(least, most);
    rng.pick(&[least, most, any, any])
}

/// A memory of the record's length, where that can be, or of another one.
pub fn memory_for(rng: &mut Rng, queue: &Queue) -> Vec<u32> {
    let length = queue.memory_length.min(MAX_MEMORY + 1) as usize;
    let other = rng.pick(&[0, length + 1, length.saturating_sub(1)]);
    let length = if rng.chance(1, 12) { other } else { length };
    (0..length).map(|_| rng.word()).collect()
}

/// A call on a record that is seldom beside the point.
pub fn call_on(rng: &mut Rng, queue: &Queue) -> Event {
    let kind = rng.pick(&[0, 1, 2, 3, 4, 4, 5, 5, 6, 6]);
    call_of_kind(rng, queue, kind)
}

/// The same, of one of the seven kinds.
pub fn call_of_kind(rng: &mut Rng, queue: &Queue, kind: usize) -> Event {
    let load_port = port_on(rng, &queue.loads, |load| load.port);
    let store_port = port_on(rng, &queue.stores, |store| store.port);
    let address = rng.between(0, queue.memory_length.saturating_add(1).min(5000));
    match kind {
        0 => Event::Activate {
            group: rng.between(0, queue.table.groups.len() as u32),
        },
        1 => Event::LoadAddress {
            port: load_port,
            address,
        },
        2 => Event::StoreAddress {
            port: store_port,
            address,
        },
        3 => Event::StoreData {
            port: store_port,
            word: rng.word(),
        },
        4 => Event::Serve {
            serial: serial_on(rng, &queue.loads),
        },
        5 => Event::Write {
            serial: serial_on(rng, &queue.stores),
        },
        _ => Event::Take { port: load_port },
    }
}

/// Mostly the port of an entry, else any.
fn port_on<E>(rng: &mut Rng, side: &Side<E>, port: impl Fn(&E) -> u32) -> u32 {
    let held = side.entries.len();
    match rng.below(5) {
        1.. if held > 0 => port(&side.entries[rng.below(held)]),
        _ => rng.between(0, MAX_PORT + 2),
    }
}

/// Mostly the serial of an entry, else one just outside or any.
fn serial_on<E>(rng: &mut Rng, side: &Side<E>) -> u32 {
    let held = side.entries.len();
    match rng.below(12) {
        0 => rng.word(),
        1 => side.next_serial,
        2 => side.oldest_serial().wrapping_sub(1),
        _ if held > 0 => side.serial_at(rng.below(held)),
        _ => 0,
    }
}

// Accesses and precedence pairs.

/// A number of accesses and precedence pairs (S-6). The pairs go along a row of the
/// accesses, so that there is no circle, and in every second case a circle is put
/// among them; then one in twelve has an access that is not listed. More accesses
/// or pairs than may be come now and then.
pub fn ordering(rng: &mut Rng) -> (u32, Vec<Precedence>) {
    let accesses = access_count(rng);
    let count = pair_count(rng);
    let row = row_of(rng, accesses);
    let mut pairs = pairs_along(rng, &row, count);
    if rng.chance(1, 2) && !row.is_empty() {
        let circle = circle_of(rng, &row);
        pairs.truncate(count.saturating_sub(circle.len()));
        pairs.extend(circle);
    }
    if rng.chance(2, 3) {
        rng.shuffle(&mut pairs);
    }
    if rng.chance(1, 12) {
        name_unlisted(rng, accesses, &mut pairs);
    }
    (accesses, pairs)
}

/// Few and many, the edges often, a huge number now and then.
fn access_count(rng: &mut Rng) -> u32 {
    let any = rng.between(0, MAX_LISTED);
    let few = rng.between(2, 6);
    let most = rng.between(MAX_LISTED - 1, MAX_LISTED);
    if rng.chance(1, 14) {
        let huge = rng.pick(&[64, 256, 256 + any, 1 << 16, 1 << 31, u32::MAX]);
        return rng.pick(&[MAX_LISTED + 1, MAX_LISTED + 1, huge]);
    }
    let least = rng.between(0, 1);
    rng.pick(&[few, few, few, any, any, any, most, most, least])
}

/// Few and many, the edges often, up to two more than may be.
fn pair_count(rng: &mut Rng) -> usize {
    let any = rng.below(MAX_PAIRS + 1);
    let few = rng.below(6);
    match rng.chance(1, 12) {
        true => MAX_PAIRS + 1 + rng.below(2),
        false => rng.pick(&[few, few, any, any, MAX_PAIRS - 1, MAX_PAIRS]),
    }
}

/// The accesses in some order, a few more than may be at most: rising, falling or
/// mixed.
fn row_of(rng: &mut Rng, accesses: u32) -> Vec<u32> {
    let mut row: Vec<u32> = (0..accesses.min(MAX_LISTED + 2)).collect();
    match rng.below(5) {
        0 => {}
        1 => row.reverse(),
        _ => rng.shuffle(&mut row),
    }
    row
}

/// So many pairs along the row, if it has two accesses: in one of three cases a
/// chain through the whole row comes first, as far as the pairs reach; the others
/// go any distance forward or repeat one.
fn pairs_along(rng: &mut Rng, row: &[u32], count: usize) -> Vec<Precedence> {
    let mut pairs = Vec::new();
    if row.len() < 2 {
        return pairs;
    }
    if rng.chance(1, 3) {
        pairs.extend(row.windows(2).map(|two| precedence(two[0], two[1])));
        pairs.truncate(count);
    }
    let repeats = rng.pick(&[0, 0, 1, 3, 4]);
    while pairs.len() < count {
        if rng.chance(repeats, 4) && !pairs.is_empty() {
            pairs.push(rng.pick(&pairs));
            continue;
        }
        let later = 1 + rng.below(row.len() - 1);
        let earlier = rng.below(later);
        pairs.push(precedence(row[earlier], row[later]));
    }
    pairs
}

/// The pairs of a circle: of one access, of two, of some or of all; in every second
/// case of those farthest from access 0.
fn circle_of(rng: &mut Rng, row: &[u32]) -> Vec<Precedence> {
    let some = 1 + rng.below(row.len());
    let length = rng.pick(&[1, 1, 2, 2, 3, some, row.len()]).min(row.len());
    let mut members = row.to_vec();
    match rng.chance(1, 2) {
        true => members.sort_by(|a, b| b.cmp(a)),
        false => rng.shuffle(&mut members),
    }
    members.truncate(length);
    rng.shuffle(&mut members);
    let next = members.iter().cycle().skip(1);
    let pairs = members.iter().zip(next);
    pairs.map(|(&a, &b)| precedence(a, b)).collect()
}

/// Changes a pair, or adds one, so that it names an access that is not listed: one
/// just outside, a huge one, or one that ends in the bits of a listed one.
fn name_unlisted(rng: &mut Rng, accesses: u32, pairs: &mut Vec<Precedence>) {
    let other = rng.between(0, MAX_LISTED);
    let next = accesses.saturating_add(rng.between(0, 1));
    let cut = rng.pick(&[256, 1 << 16]) + other;
    let any = rng.word();
    let unlisted = rng.pick(&[accesses, next, MAX_LISTED, cut, any, u32::MAX]);
    let unlisted = unlisted.max(accesses);
    if pairs.is_empty() {
        pairs.push(precedence(unlisted, unlisted));
    }
    let at = rng.below(pairs.len());
    match rng.chance(1, 2) {
        true => pairs[at].first = unlisted,
        false => pairs[at].second = unlisted,
    }
}

fn precedence(first: u32, second: u32) -> Precedence {
    Precedence { first, second }
}
