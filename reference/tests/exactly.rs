//! S-7's "exactly": "for memories of at least two words, from opening, a serve past
//! 27 gets 28 exactly if the missing addresses can be filled in two ways that give
//! this load different sources". The sources come from the plain run, which knows
//! nothing of the queue's record, with every filling of the missing store addresses.

mod common;

use std::collections::{BTreeSet, HashMap};
use std::vec;

use common::{header, table_of};
use lsq_ref::gen::{self, Lean};
use lsq_ref::plain::{self, Call, Fill, Row, Rows, Run, Source};
use lsq_ref::rng::Rng;
use lsq_ref::table::Access::{self, Load, Store};
use lsq_ref::table::Group;
use lsq_ref::{Counts, Event, Header, Queue, Table};

/// Most missing store addresses of which every filling is tried.
const MOST_MISSING: u32 = 4;

/// Gives the missing store addresses in their order. Missing load addresses and data
/// are random: no source of a load that has its address depends on them.
struct Filling {
    addresses: vec::IntoIter<u32>,
    rng: Rng,
}

impl Fill for Filling {
    fn load_address(&mut self, memory_length: u32) -> u32 {
        self.rng.between(0, memory_length - 1)
    }

    fn store_address(&mut self, _: u32) -> u32 {
        self.addresses.next().expect("no more than are missing")
    }

    fn store_data(&mut self) -> u32 {
        self.rng.word()
    }
}

/// Every choice of `count` addresses below `length`.
fn choices(count: u32, length: u32) -> impl Iterator<Item = Vec<u32>> {
    let digit = move |number: u32, place: u32| number / length.pow(place) % length;
    let choice = move |number| (0..count).map(|place| digit(number, place)).collect();
    (0..length.pow(count)).map(choice)
}

// Lists.

/// An access of the accepted activations, with what the list says of it.
struct Known {
    is_load: bool,
    /// Which load of the list it is, or which store, from 0.
    nth: u32,
    address: Option<u32>,
    data: Option<u32>,
}

impl Known {
    fn is_unknown_store(&self) -> bool {
        !self.is_load && self.address.is_none()
    }
}

/// A list of calls on an opened queue, and what it left.
#[derive(Clone)]
struct List {
    table: Table,
    first_serial: u32,
    opening_memory: Vec<u32>,
    calls: Vec<Call>,
    queue: Queue,
    memory: Vec<u32>,
}

impl List {
    /// The opening words differ from each other and from the data of the lists that
    /// are compared, so that a value tells its source.
    fn open(table: Table, header: Header) -> Self {
        let queue = Queue::open(table.clone(), header).expect("an accepted opening");
        let words = (0..header.memory_length).map(|address| 1_000_000 + address);
        let memory: Vec<u32> = words.collect();
        Self {
            table,
            first_serial: header.first_serial,
            opening_memory: memory.clone(),
            calls: Vec::new(),
            queue,
            memory,
        }
    }

    fn call(&mut self, event: Event) -> u8 {
        let mut counts = Counts::default();
        let answer = self.queue.apply(&event, &mut self.memory, &mut counts);
        let answer = answer.err().unwrap_or(0);
        self.calls.push(Call { event, answer });
        answer
    }

    /// A list of one activation of a group with this order, then these calls, all of
    /// which are accepted.
    fn accepted(order: &[Access], memory_length: u32, events: &[Event]) -> Self {
        let mut list = Self::open(table_of(order), header(4, 4, 0, memory_length));
        assert_eq!(list.call(Event::Activate { group: 0 }), 0);
        assert!(events.iter().all(|&event| list.call(event) == 0));
        list
    }

    /// The accesses in program order. The arguments come from the rows alone.
    fn known(&self) -> Vec<Known> {
        let mut rows = Rows::gather(&self.calls);
        let next = |row: &mut Row, port| row.get_mut(&port)?.pop_front();
        let (mut loads, mut stores) = (0.., 0..);
        let accesses = plain::accesses(&self.table, &self.calls);
        let known = accesses.map(|access| match access {
            Load(port) => Known {
                is_load: true,
                nth: loads.next().unwrap(),
                address: next(&mut rows.load_addresses, port),
                data: None,
            },
            Store(port) => Known {
                is_load: false,
                nth: stores.next().unwrap(),
                address: next(&mut rows.store_addresses, port),
                data: next(&mut rows.store_data, port),
            },
        });
        known.collect()
    }

    /// The serial of the nth load or store; these lists are too short for a serial
    /// to come again.
    fn serial(&self, nth: u32) -> u32 {
        self.first_serial.wrapping_add(nth)
    }

    /// What a serve of the nth load would be answered, and whether it would count as
    /// forwarded.
    fn serve(&self, nth: u32) -> (Result<u32, u8>, bool) {
        let mut counts = Counts::default();
        let mut queue = self.queue.clone();
        let answer = queue.serve(self.serial(nth), &self.memory, &mut counts);
        (answer, counts.forwarded == 1)
    }

    fn wrote(&self, nth: u32) -> bool {
        let serial = self.serial(nth);
        let event = Event::Write { serial };
        self.calls.contains(&Call { event, answer: 0 })
    }

    /// The plain run with every filling of so many missing store addresses.
    fn runs(&self, missing: u32) -> Vec<Run> {
        let length = self.memory.len() as u32;
        let mut rng = Rng::new(self.calls.len() as u64);
        let runs = choices(missing, length).map(|addresses| {
            let addresses = addresses.into_iter();
            let rng = Rng::new(rng.bits());
            let mut fill = Filling { addresses, rng };
            plain::run(&self.table, &self.opening_memory, &self.calls, &mut fill)
        });
        runs.collect()
    }
}

/// A serve that is past 27.
#[derive(Debug)]
struct Serve {
    answer: Result<u32, u8>,
    forwarded: bool,
    /// The load's number among all accesses.
    number: usize,
    /// The load's sources, with all fillings.
    sources: BTreeSet<Source>,
}

/// The serves of all loads that would now be answered 0, 28 or 29, unless too many
/// addresses are missing.
fn serves(list: &List, known: &[Known]) -> Option<Vec<Serve>> {
    let missing = known.iter().filter(|access| access.is_unknown_store());
    let missing = missing.count() as u32;
    if missing > MOST_MISSING {
        return None;
    }
    let runs = list.runs(missing);
    let numbered = known.iter().enumerate();
    let loads = numbered.filter(|(_, access)| access.is_load);
    let serves = loads.filter_map(|(number, load)| {
        let (answer, forwarded) = list.serve(load.nth);
        matches!(answer, Ok(_) | Err(28 | 29)).then(|| Serve {
            answer,
            forwarded,
            number,
            sources: sources(&runs, load.nth),
        })
    });
    Some(serves.collect())
}

fn sources(runs: &[Run], nth: u32) -> BTreeSet<Source> {
    runs.iter().map(|run| run.sources[nth as usize]).collect()
}

/// [`serves`] of a list that lacks few addresses.
fn serves_of(list: &List) -> Vec<Serve> {
    serves(list, &list.known()).expect("few missing addresses")
}

// The comparison.

/// How many serves past 27 were met of each sort.
#[derive(Debug, Default)]
struct Tally {
    /// Points of lists that were left out.
    skipped: u32,
    /// Of two sources or more, so 28.
    unknown: u32,
    /// Of one source, whose data is missing or not.
    no_data: u32,
    served: u32,
    /// Of one source, though the rule before S-7 gives 28.
    sooner: u32,
    /// Of one source: the opening word, a store that is not written, that is
    /// written and queued, or that has left.
    opening: u32,
    unwritten: u32,
    written: u32,
    left: u32,
}

/// 28 as it was before S-7: any earlier queued store has no address.
fn old_28(queue: &Queue, serial: u32) -> bool {
    let place = queue.loads.index_of(serial).expect("a queued load");
    let earlier = queue.loads.entries[place].stores_before;
    let mut stores = queue.stores.entries.range(..earlier);
    stores.any(|store| store.address.is_none())
}

/// Holds every serve past 27 to the sources of its load.
fn check(list: &List, tally: &mut Tally) {
    let known = list.known();
    let Some(serves) = serves(list, &known) else {
        tally.skipped += 1;
        return;
    };
    for serve in serves {
        let two = serve.sources.len() > 1;
        assert_eq!(serve.answer == Err(28), two, "{serve:?} {:?}", list.queue);
        let old = old_28(&list.queue, list.serial(known[serve.number].nth));
        if two {
            assert!(old);
            tally.unknown += 1;
            continue;
        }
        tally.sooner += u32::from(old);
        check_single(list, &known, &serve, tally);
    }
}

/// A serve with a single source gives its word, and 29 where that is the data of a
/// store and missing. It counts as forwarded if the source is not written.
fn check_single(list: &List, known: &[Known], serve: &Serve, tally: &mut Tally) {
    let source = *serve.sources.first().expect("a source");
    let address = known[serve.number].address.expect("past 27");
    let (word, unwritten) = match source {
        Source::Opening => {
            tally.opening += 1;
            (Some(list.opening_memory[address as usize]), false)
        }
        Source::Store(number) => {
            let store = &known[number];
            let written = list.wrote(store.nth);
            let queued = list.queue.stores.index_of(list.serial(store.nth)).is_some();
            tally.unwritten += u32::from(!written);
            tally.written += u32::from(written && queued);
            tally.left += u32::from(!queued);
            (store.data, !written)
        }
    };
    assert_eq!(serve.answer, word.ok_or(29), "{serve:?} {:?}", list.queue);
    assert_eq!(serve.forwarded, unwritten && word.is_some());
    tally.served += u32::from(word.is_some());
    tally.no_data += u32::from(word.is_none());
}

// Random lists.

/// One to three groups of one to five accesses.
fn random_table(rng: &mut Rng) -> Table {
    let mut ports = 0..;
    let mut random_group = || {
        let accesses = (0..rng.between(1, 5)).map(|_| {
            let port = ports.next().unwrap();
            match rng.chance(2, 5) {
                true => Load(port),
                false => Store(port),
            }
        });
        Group::from_order(&accesses.collect::<Vec<Access>>())
    };
    let mut groups = vec![random_group(), random_group(), random_group()];
    groups.truncate(rng.between(1, 3) as usize);
    Table { groups }
}

/// Depths of the largest group or a little more, and two or three words.
fn random_header(rng: &mut Rng, table: &Table) -> Header {
    let loads = table.groups.iter().map(|group| group.loads.len()).max();
    let stores = table.groups.iter().map(|group| group.stores.len()).max();
    let depth = |rng: &mut Rng, most: Option<usize>| {
        let least = most.unwrap_or(0).max(1) as u32;
        least + rng.between(0, 4)
    };
    Header {
        load_depth: depth(rng, loads),
        store_depth: depth(rng, stores),
        first_serial: gen::first_serial(rng),
        memory_length: rng.between(2, 3),
    }
}

/// The event with data that no other has.
fn with_word(event: Event, word: u32) -> Event {
    match event {
        Event::StoreData { port, .. } => Event::StoreData { port, word },
        other => other,
    }
}

#[test]
fn random_lists_get_28_exactly_for_two_sources() {
    let mut tally = Tally::default();
    for seed in 0..3_000 {
        let mut rng = Rng::new(seed);
        let table = random_table(&mut rng);
        let header = random_header(&mut rng, &table);
        let lean = rng.pick(&[Lean::MIXED, Lean::FORWARDED, Lean::CONFLICTS, Lean::STORES]);
        let events = gen::events_leaning(&mut rng, &table, header, 60, &lean);
        let mut list = List::open(table, header);
        for (i, event) in events.into_iter().enumerate() {
            list.call(with_word(event, i as u32));
            check(&list, &mut tally);
        }
    }
    let checked = tally.unknown + tally.no_data + tally.served;
    assert!(checked > 100_000 && tally.unknown > 20_000, "{tally:?}");
    assert!(tally.no_data > 15_000 && tally.sooner > 4_000, "{tally:?}");
    assert!(
        tally.opening > 20_000 && tally.unwritten > 40_000,
        "{tally:?}"
    );
    assert!(tally.written > 300 && tally.left > 10_000, "{tally:?}");
    assert!(tally.skipped < 9_000, "{tally:?}"); // of 180,000 points
}

// Every list.

/// The calls that could be accepted after one activation of a group with this
/// order, in which each access has a port of its own. A store's data is its port.
fn calls_on(order: &[Access], memory_length: u32) -> Vec<Event> {
    let mut calls = Vec::new();
    let (mut loads, mut stores) = (0.., 0..);
    for &access in order {
        calls.extend((0..memory_length).map(|address| match access {
            Load(port) => Event::LoadAddress { port, address },
            Store(port) => Event::StoreAddress { port, address },
        }));
        match access {
            Load(port) => {
                let serial = loads.next().unwrap();
                calls.extend([Event::Serve { serial }, Event::Take { port }]);
            }
            Store(port) => {
                let (serial, word) = (stores.next().unwrap(), port);
                calls.extend([Event::StoreData { port, word }, Event::Write { serial }]);
            }
        }
    }
    calls
}

/// Visits what the lists of calls after one activation leave, once for each set of
/// accepted calls: in whatever order these come, they leave the same.
fn every_list(order: &[Access], memory_length: u32, visit: &mut impl FnMut(&List)) {
    let calls = calls_on(order, memory_length);
    let mut met: HashMap<u32, List> = HashMap::new();
    let mut waiting = vec![(0, List::accepted(order, memory_length, &[]))];
    while let Some((set, list)) = waiting.pop() {
        visit(&list);
        for (i, &event) in calls.iter().enumerate() {
            let mut longer = list.clone();
            let set = set | 1 << i;
            if longer.call(event) != 0 {
                continue;
            }
            if let Some(met) = met.get(&set) {
                assert_eq!((&met.queue, &met.memory), (&longer.queue, &longer.memory));
                continue;
            }
            met.insert(set, longer.clone());
            waiting.push((set, longer));
        }
    }
}

/// Every order of `count` loads and stores.
fn every_order(count: u32) -> impl Iterator<Item = Vec<Access>> {
    (0..1 << count).map(move |kinds: u32| {
        let access = |port| match kinds >> port & 1 {
            0 => Load(port),
            _ => Store(port),
        };
        (0..count).map(access).collect()
    })
}

#[test]
fn every_list_on_four_accesses_gets_28_exactly_for_two_sources() {
    for memory_length in [2, 3] {
        let mut tally = Tally::default();
        for order in every_order(4) {
            every_list(&order, memory_length, &mut |list| check(list, &mut tally));
        }
        let checked = tally.unknown + tally.no_data + tally.served;
        assert!(checked > 18_000 && tally.unknown > 2_000, "{tally:?}");
        assert!(tally.no_data > 1_500 && tally.sooner > 300, "{tally:?}");
        assert!(tally.written > 100 && tally.left > 1_000, "{tally:?}");
        assert_eq!(tally.skipped, 0);
    }
}

// Where it does not hold.

/// A memory of one word has a single filling, so that no load has two sources; 28 is
/// given all the same.
#[test]
fn for_one_word_it_is_false() {
    let (port, address) = (0, 0);
    let load_address = Event::LoadAddress { port, address };
    let list = List::accepted(&[Store(0), Load(0)], 1, &[load_address]);
    let serve = &serves_of(&list)[0];
    assert_eq!(serve.answer, Err(28));
    assert_eq!(serve.sources, BTreeSet::from([Source::Store(0)]));
    let mut unknown = 0;
    for order in every_order(4) {
        every_list(&order, 1, &mut |list| {
            for serve in serves_of(list) {
                assert_eq!(serve.sources.len(), 1);
                unknown += u32::from(serve.answer == Err(28));
            }
        });
    }
    assert!(unknown > 300, "only {unknown} answers 28");
}

/// Before S-7 a store without address got 28 behind one to the load's address too.
#[test]
fn by_the_rule_before_it_was_false() {
    let (port, address) = (1, 0);
    let events = [
        Event::LoadAddress { port: 0, address },
        Event::StoreAddress { port, address },
        Event::StoreData { port, word: 7 },
    ];
    let list = List::accepted(&[Store(0), Store(1), Load(0)], 2, &events);
    assert!(old_28(&list.queue, 0));
    let serve = &serves_of(&list)[0];
    assert_eq!(serve.answer, Ok(7));
    assert_eq!(serve.sources, BTreeSet::from([Source::Store(1)]));
}

/// Two sources may hold the same word; a source is not its value.
#[test]
fn for_values_instead_of_sources_it_is_false() {
    let (port, address, word) = (0, 0, 1_000_000);
    let events = [
        Event::LoadAddress { port, address },
        Event::StoreData { port, word },
    ];
    let list = List::accepted(&[Store(0), Load(0)], 2, &events);
    let serve = &serves_of(&list)[0];
    assert_eq!(serve.answer, Err(28));
    let both = [Source::Opening, Source::Store(0)];
    assert_eq!(serve.sources, BTreeSet::from(both));
    let runs = list.runs(1);
    assert!(runs.iter().all(|run| run.loaded[&port] == [word]));
}

// The sources themselves.

/// The numbers go on from one activation to the next, loads among them, and what
/// the queue has done shows in no source.
#[test]
fn sources_are_numbered_over_the_whole_list() {
    let table = table_of(&[Store(0), Load(0), Store(1), Load(1)]);
    let accepted = |event| Call { event, answer: 0 };
    let store = |port, address| accepted(Event::StoreAddress { port, address });
    let load = |port, address| accepted(Event::LoadAddress { port, address });
    let activate = accepted(Event::Activate { group: 0 });
    // Stores 0, 2, 4 and 6 go to words 1, 2, 2 and the one filled in.
    let mut calls = vec![activate, activate, store(0, 1), store(0, 2), store(1, 2)];
    calls.extend([load(0, 1), load(0, 1), load(1, 2), load(1, 2)]);
    let sources = |calls: &[Call], address| {
        let addresses = vec![address].into_iter();
        let rng = Rng::new(0);
        plain::run(&table, &[0; 4], calls, &mut Filling { addresses, rng }).sources
    };
    use Source::{Opening, Store as At};
    assert_eq!(sources(&calls, 0), [At(0), At(2), At(0), At(4)]);
    assert_eq!(sources(&calls, 2), [At(0), At(2), At(0), At(6)]);
    calls[5] = load(0, 3);
    assert_eq!(sources(&calls, 3), [Opening, At(2), At(0), At(4)]);
    // A serve, a write and a refused address change nothing.
    calls.extend([0, 1].map(|serial| accepted(Event::Serve { serial })));
    calls.push(accepted(Event::Write { serial: 0 }));
    let (event, answer) = (store(1, 4).event, 23);
    calls.push(Call { event, answer });
    assert_eq!(sources(&calls, 3), [Opening, At(2), At(0), At(4)]);
}
