//! Demand 3 on random lists of calls: values taken and memory are those of the
//! one-after-another run, whatever is filled in, and the queue goes on. Since S-7
//! values are taken while earlier stores have no address yet.

use std::collections::BTreeMap;

use lsq_ref::gen::Scenario;
use lsq_ref::plain::{self, Call, Fill, Rows};
use lsq_ref::rng::Rng;
use lsq_ref::table::Group;
use lsq_ref::{Counts, Event, Header, Queue, Table};

/// Fills in random numbers: mostly addresses that loads of the list have, since
/// these are the ones that a wrong value would show at, and small words.
struct RandomFill {
    rng: Rng,
    loaded: Vec<u32>,
}

impl RandomFill {
    fn new(rng: Rng, calls: &[Call]) -> Self {
        let rows = Rows::gather(calls).load_addresses;
        let loaded = rows.into_values().flatten().collect();
        Self { rng, loaded }
    }
}

impl Fill for RandomFill {
    fn load_address(&mut self, memory_length: u32) -> u32 {
        if !self.loaded.is_empty() && self.rng.chance(3, 4) {
            return self.rng.pick(&self.loaded);
        }
        let most = self.rng.pick(&[0, 1, 3, memory_length - 1]);
        self.rng.between(0, most.min(memory_length - 1))
    }

    fn store_address(&mut self, memory_length: u32) -> u32 {
        self.load_address(memory_length)
    }

    fn store_data(&mut self) -> u32 {
        let any = self.rng.word();
        self.rng.pick(&[0, 1, u32::MAX, any])
    }
}

/// A list of calls with all that came of it.
struct List {
    table: Table,
    opening_memory: Vec<u32>,
    calls: Vec<Call>,
    taken: BTreeMap<u32, Vec<u32>>,
    opened: Queue,
    queue: Queue,
    memory: Vec<u32>,
}

impl List {
    fn open(table: Table, header: Header, rng: &mut Rng) -> Self {
        let queue = Queue::open(table.clone(), header).expect("an accepted opening");
        let words = (0..header.memory_length).map(|_| rng.word());
        let memory: Vec<u32> = words.collect();
        Self {
            table,
            opening_memory: memory.clone(),
            calls: Vec::new(),
            taken: BTreeMap::new(),
            opened: queue.clone(),
            queue,
            memory,
        }
    }

    /// One more call, with counts that hold anything.
    fn call(&mut self, event: Event, rng: &mut Rng) -> u8 {
        let mut counts = Counts {
            loads: rng.word(),
            forwarded: rng.word(),
        };
        let answer = self.queue.apply(&event, &mut self.memory, &mut counts);
        if let (Event::Take { port }, Ok(Some(value))) = (event, answer) {
            self.taken.entry(port).or_default().push(value);
        }
        let answer = answer.err().unwrap_or(0);
        self.calls.push(Call { event, answer });
        answer
    }

    fn accepted(&self, kind: fn(&Event) -> bool) -> usize {
        let accepted = self.calls.iter().filter(|call| call.answer == 0);
        accepted.filter(|call| kind(&call.event)).count()
    }

    fn served(&self) -> usize {
        self.accepted(|event| matches!(event, Event::Serve { .. }))
    }

    fn written(&self) -> usize {
        self.accepted(|event| matches!(event, Event::Write { .. }))
    }

    fn groups(&self) -> impl Iterator<Item = &Group> {
        plain::activations(&self.calls).map(|group| &self.table.groups[group as usize])
    }

    fn loads(&self) -> usize {
        self.groups().map(|group| group.loads.len()).sum()
    }

    fn stores(&self) -> usize {
        self.groups().map(|group| group.stores.len()).sum()
    }

    /// "All accesses have their arguments when each row is as long as its port
    /// has accesses in these activations."
    fn has_all_arguments(&self) -> bool {
        let mut loads: BTreeMap<u32, usize> = BTreeMap::new();
        let mut stores: BTreeMap<u32, usize> = BTreeMap::new();
        for group in self.groups() {
            for load in &group.loads {
                *loads.entry(load.port).or_default() += 1;
            }
            for store in &group.stores {
                *stores.entry(store.port).or_default() += 1;
            }
        }
        let rows = Rows::gather(&self.calls);
        let full = |row: &plain::Row, accesses: &BTreeMap<u32, usize>| {
            let length = |port| row.get(port).map_or(0, |numbers| numbers.len());
            accesses.iter().all(|(port, count)| length(port) == *count)
        };
        full(&rows.load_addresses, &loads)
            && full(&rows.store_addresses, &stores)
            && full(&rows.store_data, &stores)
    }

    /// Whether a serve or write of some serial would be accepted, found by
    /// trying every serial near the queue's.
    fn could_go_on(&self) -> bool {
        let near = |next: u32| (0..=65).map(move |back| next.wrapping_sub(back));
        let serve = |serial| {
            let mut counts = Counts::default();
            self.queue
                .clone()
                .serve(serial, &self.memory, &mut counts)
                .is_ok()
        };
        let write = |serial| {
            let mut memory = self.memory.clone();
            self.queue.clone().write(serial, &mut memory).is_ok()
        };
        near(self.queue.loads.next_serial).any(serve)
            || near(self.queue.stores.next_serial).any(write)
    }

    /// Whether the load that a serve or take is about stands behind a store that
    /// has no address yet, so that the address is filled in.
    fn stands_behind_unknown(&self, event: &Event) -> bool {
        let loads = &self.queue.loads;
        let load = match *event {
            Event::Serve { serial } => loads.index_of(serial).map(|place| &loads.entries[place]),
            Event::Take { port } => loads.entries.iter().find(|l| l.port == port && !l.taken),
            _ => None,
        };
        load.is_some_and(|load| {
            let mut earlier = self.queue.stores.entries.range(..load.stores_before);
            earlier.any(|store| store.address.is_none())
        })
    }

    fn ready_loads(&self) -> Vec<u32> {
        let mut run = [3; 64];
        let ready = self.queue.ready_loads(&mut run);
        ready.expect("a sound queue").to_vec()
    }

    fn ready_stores(&self) -> Vec<u32> {
        let mut run = [3; 64];
        let ready = self.queue.ready_stores(&mut run);
        ready.expect("a sound queue").to_vec()
    }

    fn check(&self, fillings: usize, rng: &mut Rng) {
        for _ in 0..fillings {
            let mut fill = RandomFill::new(Rng::new(rng.bits()), &self.calls);
            let run = plain::run(&self.table, &self.opening_memory, &self.calls, &mut fill);
            for (port, taken) in &self.taken {
                let loaded = &run.loaded[port];
                assert_eq!(taken[..], loaded[..taken.len()], "port {port}");
            }
            if self.written() == self.stores() {
                assert_eq!(self.memory, run.memory);
            }
        }
        let unfinished = self.served() < self.loads() || self.written() < self.stores();
        if unfinished && self.has_all_arguments() {
            assert!(self.could_go_on());
            assert!(!self.ready_loads().is_empty() || !self.ready_stores().is_empty());
        }
        // "A queue with only empty groups activated since opening holds no
        // entry", and nothing else of it has changed.
        if self.groups().all(Group::is_empty) {
            assert_eq!(self.queue, self.opened);
        }
    }

    /// Brings all missing arguments, then serves, writes and takes in random
    /// order until nothing is left.
    fn finish(&mut self, rng: &mut Rng) {
        let address = |rng: &mut Rng, length: u32| rng.between(0, length.min(3) - 1);
        let length = self.memory.len() as u32;
        for load in self.queue.loads.entries.clone() {
            let (port, address) = (load.port, address(rng, length));
            self.call(Event::LoadAddress { port, address }, rng);
        }
        for store in self.queue.stores.entries.clone() {
            let (port, address) = (store.port, address(rng, length));
            self.call(Event::StoreAddress { port, address }, rng);
            let word = rng.word();
            self.call(Event::StoreData { port, word }, rng);
        }
        assert!(self.has_all_arguments());
        while self.served() < self.loads() || self.written() < self.stores() {
            let loads = self.ready_loads().into_iter();
            let stores = self.ready_stores().into_iter();
            let serves = loads.map(|serial| Event::Serve { serial });
            let writes = stores.map(|serial| Event::Write { serial });
            let ready: Vec<Event> = serves.chain(writes).collect();
            assert_eq!(self.call(rng.pick(&ready), rng), 0);
        }
        for load in self.queue.loads.entries.clone() {
            if !load.taken {
                assert_eq!(self.call(Event::Take { port: load.port }, rng), 0);
            }
        }
        assert!(self.queue.loads.entries.is_empty());
        assert!(self.queue.stores.entries.is_empty());
    }
}

/// What random lists reach.
#[derive(Debug, Default)]
struct Tally {
    taken: usize,
    forwarded: u32,
    /// Serves accepted while an earlier store had no address, and takes of such loads
    /// while it still had none. Only there could a filling give another value.
    served_sooner: u32,
    taken_sooner: u32,
}

/// Makes the calls on the list and checks it now and then, and where a load was
/// served or taken sooner.
fn make_calls(list: &mut List, events: &[Event], tally: &mut Tally, rng: &mut Rng) {
    let every = if events.len() <= 60 { 1 } else { 50 };
    for (i, &event) in events.iter().enumerate() {
        let (mut queue, mut memory) = (list.queue.clone(), list.memory.clone());
        let mut counts = Counts::default();
        let _ = queue.apply(&event, &mut memory, &mut counts);
        tally.forwarded += counts.forwarded;
        let behind = list.stands_behind_unknown(&event);
        let sooner = list.call(event, rng) == 0 && behind;
        if sooner || i % every == 0 {
            list.check(1, rng);
        }
        let is_serve = matches!(event, Event::Serve { .. });
        tally.served_sooner += u32::from(sooner && is_serve);
        tally.taken_sooner += u32::from(sooner && !is_serve);
    }
}

#[test]
fn random_lists_meet_demand_3() {
    let mut tally = Tally::default();
    for seed in 0..4000 {
        let mut rng = Rng::new(seed);
        let scenario = Scenario::random(&mut rng);
        let mut list = List::open(scenario.table, scenario.header, &mut rng);
        make_calls(&mut list, &scenario.events, &mut tally, &mut rng);
        list.check(4, &mut rng);
        list.finish(&mut rng);
        list.check(1, &mut rng);
        let taken = list.taken.values().map(Vec::len).sum::<usize>();
        assert_eq!(taken, list.loads());
        tally.taken += taken;
    }
    assert!(tally.taken > 20_000 && tally.forwarded > 2_000, "{tally:?}");
    assert!(tally.served_sooner > 1_500, "{tally:?}");
    assert!(tally.taken_sooner > 1_000, "{tally:?}");
}

/// "The one-after-another run passes over" an empty group, and so does the
/// queue: without these activations all other calls are answered alike.
#[test]
fn lists_end_alike_without_their_empty_groups() {
    let (mut left_out, mut full) = (0, 0);
    for seed in 0..2000 {
        let mut rng = Rng::new(seed);
        let scenario = Scenario::of_length(&mut rng, 100);
        let open = || List::open(scenario.table.clone(), scenario.header, &mut Rng::new(seed));
        let (mut list, mut without) = (open(), open());
        for &event in &scenario.events {
            let answer = list.call(event, &mut rng);
            if activates_empty(&scenario.table, &event) {
                assert_eq!(answer, 0);
                left_out += 1;
                full += u32::from(is_full(&list.queue));
            } else {
                assert_eq!(without.call(event, &mut rng), answer);
            }
            assert_eq!(list.queue, without.queue);
        }
        assert_eq!(
            (&list.taken, &list.memory),
            (&without.taken, &without.memory)
        );
        let filled = |list: &List| {
            let mut fill = RandomFill::new(Rng::new(seed), &list.calls);
            plain::run(&list.table, &list.opening_memory, &list.calls, &mut fill)
        };
        assert_eq!(filled(&list), filled(&without));
    }
    assert!(left_out > 1_000, "only {left_out} activations left out");
    assert!(full > 300, "only {full} of them in full queues");
}

fn activates_empty(table: &Table, event: &Event) -> bool {
    let Event::Activate { group } = event else {
        return false;
    };
    let group = table.groups.get(*group as usize);
    group.is_some_and(Group::is_empty)
}

/// Whether no place is free on either side.
fn is_full(queue: &Queue) -> bool {
    queue.loads.entries.len() == queue.load_depth as usize
        && queue.stores.entries.len() == queue.store_depth as usize
}

/// "Two lists alike in table, opening memory, accepted activations and each
/// port's accepted arguments give a port's nth take the same value."
#[test]
fn order_of_serves_and_writes_does_not_matter() {
    for seed in 0..300 {
        let mut rng = Rng::new(seed);
        let scenario = Scenario::of_length(&mut rng, 60);
        let finished = |finish_seed| {
            let mut rng = Rng::new(seed);
            let mut list = List::open(scenario.table.clone(), scenario.header, &mut rng);
            for &event in &scenario.events {
                list.call(event, &mut rng);
            }
            let length = list.memory.len() as u32;
            for load in list.queue.loads.entries.clone() {
                let (port, address) = (load.port, load.port % length);
                list.call(Event::LoadAddress { port, address }, &mut rng);
            }
            for store in list.queue.stores.entries.clone() {
                let (port, address) = (store.port, store.port % length);
                list.call(Event::StoreAddress { port, address }, &mut rng);
                list.call(Event::StoreData { port, word: 7 }, &mut rng);
            }
            list.finish(&mut Rng::new(finish_seed));
            (list.taken, list.memory)
        };
        assert_eq!(finished(1), finished(2), "seed {seed}");
    }
}
