//! What the benchmark plays.

use lsq_ref::gen::{self, Lean, Scenario};
use lsq_ref::queue::LoadEntry;
use lsq_ref::refusal::{ACCEPTED, EARLIER_STORE_ADDRESS, NO_DATA};
use lsq_ref::replay::{replay_watched, Lent};
use lsq_ref::rng::Rng;
use lsq_ref::table::{Access, Group};
use lsq_ref::{Counts, Event, Header, Queue, Table};

/// Events of a workload, about.
const EVENTS: usize = 20_000;
/// Near the last serial, so that serials turn to 0 on the way.
const FIRST_SERIAL: u32 = u32::MAX - 100;

/// A table and a trace, and what happens in it.
#[derive(Clone, Debug)]
pub struct Workload {
    /// What it is.
    pub title: String,
    /// The table's bytes.
    pub table: Vec<u8>,
    /// The trace's bytes.
    pub trace: Vec<u8>,
    /// The trace's leading numbers.
    pub header: Header,
    /// Its events.
    pub events: Vec<Event>,
    /// Words of memory.
    pub memory_length: usize,
    /// Calls of the trace.
    pub calls: usize,
    /// Calls that are accepted.
    pub accepted: usize,
    /// Loads served, and those forwarded.
    pub counts: Counts,
    /// Loads and stores held after a call, on average.
    pub held: [f64; 2],
    /// Its serves that wait for a store's address, now and before S-7.
    pub waits: Waits,
}

impl Workload {
    /// The workload that plays this scenario.
    ///
    /// # Panics
    /// When the scenario's table does not open with its header.
    #[must_use]
    pub fn new(title: String, scenario: &Scenario) -> Self {
        let (table, trace) = scenario.bytes();
        let mut workload = Self {
            title,
            table,
            trace,
            header: scenario.header,
            events: scenario.events.clone(),
            memory_length: scenario.header.memory_length as usize,
            calls: scenario.events.len(),
            accepted: 0,
            counts: Counts::default(),
            held: [0.0; 2],
            waits: Waits::default(),
        };
        workload.observe();
        workload
    }

    /// Plays the trace once and notes what happens.
    fn observe(&mut self) {
        let mut memory = vec![0; self.memory_length];
        let mut counts = [0; 2];
        let mut answers = vec![0; self.calls];
        let mut given = vec![0; self.calls];
        let mut values = vec![0; self.calls];
        let lent = Lent {
            memory: &mut memory,
            counts: &mut counts,
            answers: &mut answers,
            given: &mut given,
            values: &mut values,
        };
        let mut held = [0; 2];
        let mut waits = Waits::default();
        let watch = |queue: &Queue, event: &Event, outcome: Result<Option<u32>, u8>| {
            held[0] += queue.loads.entries.len();
            held[1] += queue.stores.entries.len();
            waits.count(queue, event, outcome.err().unwrap_or(ACCEPTED));
        };
        replay_watched::<true>(&self.table, &self.trace, lent, watch).expect("a right trace");
        self.accepted = answers.iter().filter(|&&answer| answer == 0).count();
        let [loads, forwarded] = counts;
        self.counts = Counts { loads, forwarded };
        self.held = held.map(|held| held as f64 / self.calls as f64);
        self.waits = waits;
    }

    /// The same as [`Self::waits`], but of a serve of every queued load after each call,
    /// which is tried and not made. The trace's own serves are chosen, most of them of
    /// loads that are ready by the rule of now.
    ///
    /// # Panics
    /// Never: the workload was played before.
    #[must_use]
    pub fn waits_of_all_loads(&self) -> Waits {
        let table = Table::read(&self.table).expect("a right table");
        let mut queue = Queue::open(table, self.header).expect("a header that opens");
        let mut memory = vec![0; self.memory_length];
        let mut waits = Waits::default();
        for event in &self.events {
            let _ = queue.apply(event, &mut memory, &mut Counts::default());
            waits.count_all_loads(&queue, &memory);
        }
        waits
    }
}

/// Serves that are past 27, those answered 0, 28 or 29, and how many of them wait for a
/// store's address: what S-7 changed.
#[derive(Clone, Copy, Debug, Default, PartialEq, Eq)]
pub struct Waits {
    /// All of them.
    pub past_27: usize,
    /// Those that get 28.
    pub now: usize,
    /// Those that would have got 28 by the rule before S-7.
    pub before: usize,
    /// Of the latter, those that are accepted now.
    pub accepted: usize,
    /// Of the latter, those that get 29 now.
    pub no_data: usize,
}

impl Waits {
    /// Counts a call, given the queue after it. That is the queue to ask: a refused
    /// serve changes nothing, and an accepted one changes no store and no remembered
    /// number, and no entry leaves.
    fn count(&mut self, queue: &Queue, event: &Event, answer: u8) {
        let serial = match (*event, answer) {
            (Event::Serve { serial }, ACCEPTED | EARLIER_STORE_ADDRESS | NO_DATA) => serial,
            _ => return,
        };
        let index = queue.loads.index_of(serial).expect("a load past 25");
        let waited = waited_before(queue, &queue.loads.entries[index]);
        self.past_27 += 1;
        self.now += usize::from(answer == EARLIER_STORE_ADDRESS);
        self.before += usize::from(waited);
        self.accepted += usize::from(waited && answer == ACCEPTED);
        self.no_data += usize::from(waited && answer == NO_DATA);
    }

    /// Counts a serve of each queued load. All are tried on one copy, since an accepted
    /// one changes its own load alone.
    fn count_all_loads(&mut self, queue: &Queue, memory: &[u32]) {
        let mut tried = queue.clone();
        for index in 0..queue.loads.entries.len() {
            let serial = queue.loads.serial_at(index);
            let served = tried.serve(serial, memory, &mut Counts::default());
            let answer = served.err().unwrap_or(ACCEPTED);
            self.count(&tried, &Event::Serve { serial }, answer);
        }
    }
}

/// Whether a serve of this load, once past 27, got 28 by the rule before S-7: "28 an
/// earlier store has no address", whichever store it is, and 28 was checked before 29.
fn waited_before(queue: &Queue, load: &LoadEntry) -> bool {
    let mut earlier = queue.stores.entries.range(..load.stores_before);
    earlier.any(|store| store.address.is_none())
}

/// The workloads whose ratios are held to the target.
pub const MAIN: [&str; 4] = ["a", "b", "c1", "c16"];

/// The same kind of trace at each depth, over one small group.
pub const BY_DEPTH: [&str; 7] = [
    "depth1", "depth2", "depth4", "depth8", "depth16", "depth32", "depth64",
];

/// The same kind of trace at each number of groups, at depth 8.
pub const BY_GROUPS: [&str; 5] = ["groups1", "groups2", "groups4", "groups8", "groups16"];

/// The workload of one of the names above.
#[must_use]
pub fn named(name: &str) -> Option<Workload> {
    let all = [&MAIN[..], &BY_DEPTH, &BY_GROUPS].concat();
    if !all.contains(&name) {
        return None;
    }
    let number = name.trim_start_matches(char::is_alphabetic);
    let number: u32 = number.parse().unwrap_or(0);
    let (title, scenario) = match name.trim_end_matches(char::is_numeric) {
        "a" => ("(a) histogram loop, depth 8".into(), histogram(8)),
        "b" => ("(b) full queues of depth 64, conflicts".into(), conflicts()),
        "depth" => (format!("{number}"), mixed(1, 1, number)),
        "groups" => (format!("{number}"), mixed(number as usize, 2, 8)),
        _ if number == 1 => (
            "(c) one group of 1 load and 1 store, depth 8".into(),
            mixed(1, 1, 8),
        ),
        _ => (
            "(c) 16 groups of 2 loads and 2 stores, depth 8".into(),
            mixed(16, 2, 8),
        ),
    };
    Some(Workload::new(title, &scenario))
}

fn header(depth: u32, memory_length: u32) -> Header {
    Header {
        load_depth: depth,
        store_depth: depth,
        first_serial: FIRST_SERIAL,
        memory_length,
    }
}

/// Groups of `accesses` loads and as many stores; calls of all kinds, refused
/// ones among them, on queues that are filled again as places become free.
fn mixed(groups: usize, accesses: usize, depth: u32) -> Scenario {
    let mut rng = Rng::new(11);
    let table = gen::table_of(&mut rng, groups, accesses, accesses);
    let header = header(depth, 64);
    let events = gen::events_leaning(&mut rng, &table, header, EVENTS, &Lean::FULL);
    Scenario {
        table,
        header,
        events,
    }
}

/// Groups of 4 loads and 4 stores on a word or two.
fn conflicts() -> Scenario {
    let mut rng = Rng::new(12);
    let table = gen::table_of(&mut rng, 4, 4, 4);
    let header = header(64, 64);
    let events = gen::events_leaning(&mut rng, &table, header, EVENTS, &Lean::FULL);
    Scenario {
        table,
        header,
        events,
    }
}

/// `h[x[i]] += 1` over random `x` of 32 values: a group of a load and then a
/// store, kept `depth` deep.
fn histogram(depth: u32) -> Scenario {
    let table = Table {
        groups: vec![Group::from_order(&[Access::Load(0), Access::Store(0)])],
    };
    let header = header(depth, 32);
    let mut circuit = Circuit::new(&table, header);
    while circuit.events.len() < EVENTS {
        circuit.step();
    }
    Scenario {
        table,
        header,
        events: circuit.events,
    }
}

/// The circuit of the histogram loop. Each step moves every stage on by one
/// where it can; iterations go through a stage in order.
struct Circuit {
    queue: Queue,
    memory: Vec<u32>,
    events: Vec<Event>,
    rng: Rng,
    /// Iterations that have gone through each stage.
    activated: u32,
    addressed: u32,
    served: u32,
    taken: Vec<u32>,
    filled: u32,
    written: u32,
}

impl Circuit {
    fn new(table: &Table, header: Header) -> Self {
        Self {
            queue: Queue::open(table.clone(), header).expect("a header that opens"),
            memory: vec![0; header.memory_length as usize],
            events: Vec::new(),
            rng: Rng::new(13),
            activated: 0,
            addressed: 0,
            served: 0,
            taken: Vec::new(),
            filled: 0,
            written: 0,
        }
    }

    /// Makes a call, and keeps it when it is accepted: the circuit waits where
    /// the queue would refuse.
    fn call(&mut self, event: Event) -> Option<Option<u32>> {
        let mut counts = Counts::default();
        let outcome = self.queue.apply(&event, &mut self.memory, &mut counts);
        let value = outcome.ok()?;
        self.events.push(event);
        Some(value)
    }

    /// From the last stage to the first, so that an iteration goes through one
    /// stage a step. Stores are written when the queue is full.
    fn step(&mut self) {
        let serial = |iteration: u32| FIRST_SERIAL.wrapping_add(iteration);
        let (oldest, taken) = (self.written, self.taken.len() as u32);
        let full = self.activated - oldest == self.queue.store_depth;
        if full && oldest < self.filled {
            let serial = serial(oldest);
            self.written += u32::from(self.call(Event::Write { serial }).is_some());
        }
        if self.filled < taken {
            let word = self.taken[self.filled as usize] + 1;
            self.filled += u32::from(self.call(Event::StoreData { port: 0, word }).is_some());
        }
        if taken < self.served {
            let value = self.call(Event::Take { port: 0 }).flatten();
            self.taken.extend(value);
        }
        if self.served < self.addressed {
            let serial = serial(self.served);
            self.served += u32::from(self.call(Event::Serve { serial }).is_some());
        }
        if self.addressed < self.activated {
            let address = self.rng.between(0, 31);
            self.call(Event::LoadAddress { port: 0, address });
            self.call(Event::StoreAddress { port: 0, address });
            self.addressed += 1;
        }
        self.activated += u32::from(self.call(Event::Activate { group: 0 }).is_some());
    }
}
