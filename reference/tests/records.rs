//! Records that no opening leads to. Every call on a random record is compared
//! with a second statement of the rules, written apart from the queue's code.

mod common;

use common::{header, open, trusting};
use lsq_ref::gen;
use lsq_ref::queue::{LoadEntry, Side, StoreEntry};
use lsq_ref::rng::Rng;
use lsq_ref::table::Access::{Load, Store};
use lsq_ref::{Counts, Event, Queue};

// The second statement.

type Outcome = (Result<Option<u32>, u8>, Queue, Vec<u32>, Counts);

/// 40, by its list; a table's faults are those of `Table::check`.
fn unsound(q: &Queue) -> bool {
    let (loads, stores) = (&q.loads.entries, &q.stores.entries);
    let depth_off = |depth: u32| depth == 0 || depth > 64;
    let address_off = |address: Option<u32>| address.is_some_and(|a| a >= q.memory_length);
    let mut off = q.table.check() != 0;
    off |= depth_off(q.load_depth) || depth_off(q.store_depth);
    off |= q.memory_length == 0 || q.memory_length > 4096;
    off |= loads.len() as u64 > u64::from(q.load_depth);
    off |= stores.len() as u64 > u64::from(q.store_depth);
    for load in loads {
        off |= load.stores_before > stores.len() || address_off(load.address);
    }
    for store in stores {
        off |= store.loads_before > loads.len() || address_off(store.address);
    }
    off
}

/// The entries with their serials, counted back from the next one.
fn with_serials<E: Copy>(side: &Side<E>) -> Vec<(u32, E)> {
    let mut serial = side.next_serial;
    let mut entries = Vec::new();
    for entry in side.entries.iter().rev() {
        serial = serial.wrapping_sub(1);
        entries.insert(0, (serial, *entry));
    }
    entries
}

fn place_of<E: Copy>(side: &Side<E>, serial: u32) -> Option<usize> {
    with_serials(side).iter().position(|(s, _)| *s == serial)
}

/// The first number whose condition holds, else 0.
fn first(conditions: &[(bool, u8)]) -> u8 {
    let met = conditions.iter().find(|(condition, _)| *condition);
    met.map_or(0, |(_, number)| *number)
}

fn has_port(q: &Queue, port: u32, load: bool) -> bool {
    let mut ports = Vec::new();
    for group in &q.table.groups {
        let pairs = if load { &group.loads } else { &group.stores };
        ports.extend(pairs.iter().map(|pair| pair.port));
    }
    ports.contains(&port)
}

/// Where the walk of S-7 could end: the nearest earlier store without address, and
/// the nearest unwritten and the nearest written one to the load's address. It ends
/// at the greatest of these places, and `None` is less than every place.
struct Ends {
    unknown: Option<usize>,
    unwritten: Option<usize>,
    written: Option<usize>,
}

fn ends(q: &Queue, load: &LoadEntry) -> Ends {
    let mut ends = Ends {
        unknown: None,
        unwritten: None,
        written: None,
    };
    let earlier = q.stores.entries.iter().take(load.stores_before);
    for (place, store) in earlier.enumerate() {
        match (store.address, store.written) {
            (None, _) => ends.unknown = Some(place),
            (known, false) if known == load.address => ends.unwritten = Some(place),
            (known, true) if known == load.address => ends.written = Some(place),
            _ => {}
        }
    }
    ends
}

/// The place of the store whose data the load gets, or waits for.
fn supplier(q: &Queue, load: &LoadEntry) -> Option<usize> {
    let ends = ends(q, load);
    let others = ends.unknown.max(ends.written);
    ends.unwritten.filter(|&place| others < Some(place))
}

fn activate_answer(q: &Queue, group: usize) -> u8 {
    let Some(group) = q.table.groups.get(group) else {
        return 20;
    };
    // S-2: "always accepted unless 40 or 20 applies", whatever places are free.
    if group.loads.is_empty() && group.stores.is_empty() {
        return 0;
    }
    let free_loads = q.load_depth as usize - q.loads.entries.len();
    let free_stores = q.store_depth as usize - q.stores.entries.len();
    let short = group.loads.len() > free_loads || group.stores.len() > free_stores;
    first(&[(short, 21)])
}

fn serve_answer(q: &Queue, serial: u32, length: usize) -> u8 {
    if length as u64 != u64::from(q.memory_length) {
        return 30;
    }
    let Some(place) = place_of(&q.loads, serial) else {
        return 25;
    };
    let load = q.loads.entries[place];
    let ends = ends(q, &load);
    let unknown = ends.unknown > ends.unwritten.max(ends.written);
    let dataless = supplier(q, &load).is_some_and(|p| q.stores.entries[p].data.is_none());
    first(&[
        (load.served, 26),
        (load.address.is_none(), 27),
        (unknown, 28),
        (dataless, 29),
    ])
}

fn write_answer(q: &Queue, serial: u32, length: usize) -> u8 {
    if length as u64 != u64::from(q.memory_length) {
        return 30;
    }
    let Some(place) = place_of(&q.stores, serial) else {
        return 25;
    };
    let store = q.stores.entries[place];
    let in_the_way = |address: Option<u32>| address.is_none() || address == store.address;
    let mut load_waits = false;
    for p in 0..store.loads_before {
        let load = q.loads.entries[p];
        load_waits |= !load.served && in_the_way(load.address);
    }
    let mut store_waits = false;
    for p in 0..place {
        let older = q.stores.entries[p];
        store_waits |= !older.written && in_the_way(older.address);
    }
    first(&[
        (store.written, 26),
        (store.address.is_none(), 27),
        (store.data.is_none(), 29),
        (load_waits, 31),
        (store_waits, 32),
    ])
}

/// Finished entries leave one by one.
fn leave(q: &mut Queue) {
    while q.loads.entries.front().is_some_and(|load| load.taken) {
        q.loads.entries.pop_front();
        for store in &mut q.stores.entries {
            store.loads_before -= usize::from(store.loads_before > 0);
        }
    }
    while q.stores.entries.front().is_some_and(|store| store.written) {
        q.stores.entries.pop_front();
        for load in &mut q.loads.entries {
            load.stores_before -= usize::from(load.stores_before > 0);
        }
    }
}

fn answer(q: &Queue, event: &Event, length: usize) -> u8 {
    if unsound(q) {
        return 40;
    }
    let loads = &q.loads.entries;
    let stores = &q.stores.entries;
    match *event {
        Event::Activate { group } => activate_answer(q, group as usize),
        Event::LoadAddress { port, address } => first(&[
            (!has_port(q, port, true), 22),
            (address >= q.memory_length, 23),
            (
                !loads.iter().any(|l| l.port == port && l.address.is_none()),
                24,
            ),
        ]),
        Event::StoreAddress { port, address } => first(&[
            (!has_port(q, port, false), 22),
            (address >= q.memory_length, 23),
            (
                !stores.iter().any(|s| s.port == port && s.address.is_none()),
                24,
            ),
        ]),
        Event::StoreData { port, .. } => first(&[
            (!has_port(q, port, false), 22),
            (
                !stores.iter().any(|s| s.port == port && s.data.is_none()),
                24,
            ),
        ]),
        Event::Serve { serial } => serve_answer(q, serial, length),
        Event::Write { serial } => write_answer(q, serial, length),
        Event::Take { port } => {
            let untaken = loads.iter().find(|l| l.port == port && !l.taken);
            first(&[
                (!has_port(q, port, true), 22),
                (untaken.is_none(), 33),
                (untaken.is_some_and(|load| !load.served), 34),
            ])
        }
    }
}

/// The whole outcome of a call.
fn outcome(q: &Queue, event: &Event, memory: &[u32], counts: Counts) -> Outcome {
    let (mut q, mut memory, mut counts) = (q.clone(), memory.to_vec(), counts);
    let number = answer(&q, event, memory.len());
    if number != 0 {
        return (Err(number), q, memory, counts);
    }
    let mut value = None;
    match *event {
        Event::Activate { group } => activate(&mut q, group as usize),
        Event::LoadAddress { port, address } => {
            let mut loads = q.loads.entries.iter_mut().filter(|l| l.port == port);
            loads.find(|l| l.address.is_none()).unwrap().address = Some(address);
        }
        Event::StoreAddress { port, address } => {
            let mut stores = q.stores.entries.iter_mut().filter(|s| s.port == port);
            stores.find(|s| s.address.is_none()).unwrap().address = Some(address);
        }
        Event::StoreData { port, word } => {
            let mut stores = q.stores.entries.iter_mut().filter(|s| s.port == port);
            stores.find(|s| s.data.is_none()).unwrap().data = Some(word);
        }
        Event::Serve { serial } => {
            let place = place_of(&q.loads, serial).unwrap();
            let source = supplier(&q, &q.loads.entries[place]);
            let load = &mut q.loads.entries[place];
            load.value = match source {
                Some(p) => q.stores.entries[p].data.unwrap(),
                None => memory[load.address.unwrap() as usize],
            };
            load.served = true;
            value = Some(load.value);
            if counts.loads < u32::MAX && counts.forwarded < u32::MAX {
                counts.loads += 1;
                counts.forwarded += u32::from(source.is_some());
            }
        }
        Event::Write { serial } => {
            let place = place_of(&q.stores, serial).unwrap();
            let store = &mut q.stores.entries[place];
            memory[store.address.unwrap() as usize] = store.data.unwrap();
            store.written = true;
            leave(&mut q);
        }
        Event::Take { port } => {
            let mut loads = q.loads.entries.iter_mut();
            let load = loads.find(|l| l.port == port && !l.taken).unwrap();
            load.taken = true;
            value = Some(load.value);
            leave(&mut q);
        }
    }
    (Ok(value), q, memory, counts)
}

fn activate(q: &mut Queue, group: usize) {
    let group = q.table.groups[group].clone();
    let (loads, stores) = (q.loads.entries.len(), q.stores.entries.len());
    let new_loads = group.loads.iter().map(|load| LoadEntry {
        port: load.port,
        address: None,
        served: false,
        value: 0,
        taken: false,
        stores_before: stores + load.offset as usize,
    });
    q.loads.entries.extend(new_loads);
    let new_stores = group.stores.iter().map(|store| StoreEntry {
        port: store.port,
        address: None,
        data: None,
        written: false,
        loads_before: loads + store.offset as usize,
    });
    q.stores.entries.extend(new_stores);
    q.loads.next_serial = q.loads.next_serial.wrapping_add(group.loads.len() as u32);
    q.stores.next_serial = q.stores.next_serial.wrapping_add(group.stores.len() as u32);
}

// Comparison.

fn compare_call(q: &Queue, event: &Event, memory: &[u32], counts: Counts) -> Outcome {
    let expected = outcome(q, event, memory, counts);
    let (mut after, mut words, mut tally) = (q.clone(), memory.to_vec(), counts);
    let got = after.apply(event, &mut words, &mut tally);
    let got = (got, after, words, tally);
    assert_eq!(got, expected, "{event:?} on {q:?}");
    got
}

/// Ready lists exactly what serve and write accept, and keeps the rest.
fn compare_ready(rng: &mut Rng, q: &Queue) {
    let length = q.memory_length as usize;
    for is_load in [true, false] {
        let serials: Vec<u32> = if is_load {
            let loads = with_serials(&q.loads).into_iter().map(|(s, _)| s);
            loads.filter(|s| serve_answer(q, *s, length) == 0).collect()
        } else {
            let stores = with_serials(&q.stores).into_iter().map(|(s, _)| s);
            stores
                .filter(|s| write_answer(q, *s, length) == 0)
                .collect()
        };
        let room = serials.len() + rng.below(4);
        let mut run: Vec<u32> = (0..room.saturating_sub(1)).map(|_| rng.word()).collect();
        let before = run.clone();
        let got = if is_load {
            q.ready_loads(&mut run)
        } else {
            q.ready_stores(&mut run)
        };
        if before.len() < serials.len() {
            assert_eq!(got, Err(10));
            assert_eq!(run, before);
        } else {
            assert_eq!(got.map(|front| front.to_vec()), Ok(serials.clone()));
            assert_eq!(run, [&serials, &before[serials.len()..]].concat());
        }
    }
}

#[test]
fn every_call_follows_what_the_record_holds() {
    let mut seen = [0u32; 41];
    let mut empty_when_full = 0;
    for seed in 0..6000 {
        let mut rng = Rng::new(seed);
        let mut q = gen::record(&mut rng);
        let mut memory = gen::memory_for(&mut rng, &q);
        let mut counts = gen::counts(&mut rng);
        assert_eq!(q.sound(), !unsound(&q));
        for _ in 0..24 {
            let event = gen::call_on(&mut rng, &q);
            let (answer, after, words, tally) = compare_call(&q, &event, &memory, counts);
            empty_when_full += u32::from(is_full(&q) && activates_empty(&q, &event));
            seen[usize::from(answer.err().unwrap_or(0))] += 1;
            (q, memory, counts) = (after, words, tally);
            if q.sound() {
                compare_ready(&mut rng, &q);
            }
        }
    }
    let met = [
        0, 20, 21, 22, 23, 24, 25, 26, 27, 28, 29, 30, 31, 32, 33, 34, 40,
    ];
    for number in met {
        assert!(seen[number] > 100, "answer {number}: {}", seen[number]);
    }
    assert!(empty_when_full > 100, "only {empty_when_full}");
}

/// Every store that the walk of S-7 can tell apart, for a load of word 1: its address
/// none, the load's or another, its data there or not, written or not.
fn every_store() -> Vec<StoreEntry> {
    let mut stores = Vec::new();
    for address in [None, Some(1), Some(2)] {
        for (data, written) in [
            (None, false),
            (None, true),
            (Some(8), false),
            (Some(9), true),
        ] {
            stores.push(StoreEntry {
                address,
                data,
                written,
                ..StoreEntry::default()
            });
        }
    }
    stores
}

/// Every row of three of these stores, and a load behind the first 0 to 3 of them.
#[test]
fn every_row_of_three_stores_is_walked_alike() {
    let mut answers = [0; 30];
    let stores = every_store();
    let mut queue = open(&[Store(0), Load(0)], header(1, 3, 1, 4));
    queue.loads.entries.push_back(LoadEntry {
        address: Some(1),
        ..LoadEntry::default()
    });
    for row in 0..stores.len().pow(3) {
        let places = [row / 144, row / 12 % 12, row % 12];
        queue.stores.entries = places.map(|place| stores[place]).into();
        for before in 0..=3 {
            queue.loads.entries[0].stores_before = before;
            let serve = Event::Serve { serial: 0 };
            let outcome = compare_call(&queue, &serve, &[4, 5, 6, 7], Counts::default());
            answers[usize::from(outcome.0.err().unwrap_or(0))] += 1;
            compare_ready(&mut Rng::new(row as u64), &queue);
        }
    }
    assert!(answers[28] > 2_000 && answers[29] > 300, "{answers:?}");
    assert!(answers[0] > 2_000, "{answers:?}");
}

/// Whether the record is sound and no place is free on either side.
fn is_full(q: &Queue) -> bool {
    let (loads, stores) = (q.loads.entries.len(), q.stores.entries.len());
    q.sound() && (loads, stores) == (q.load_depth as usize, q.store_depth as usize)
}

fn activates_empty(q: &Queue, event: &Event) -> bool {
    let Event::Activate { group } = event else {
        return false;
    };
    let group = q.table.groups.get(*group as usize);
    group.is_some_and(|group| group.loads.is_empty() && group.stores.is_empty())
}

#[test]
fn without_check_40_sound_records_are_answered_alike() {
    for seed in 0..2000 {
        let mut rng = Rng::new(seed);
        let mut checked = gen::record(&mut rng);
        if !checked.sound() {
            continue;
        }
        let mut trusting = trusting(&checked);
        let mut memory = vec![0; checked.memory_length as usize];
        let mut counts = Counts::default();
        for _ in 0..24 {
            let event = gen::call_on(&mut rng, &checked);
            let mut words = memory.clone();
            let mut tally = counts;
            let answer = trusting.apply(&event, &mut words, &mut tally);
            assert_eq!(checked.apply(&event, &mut memory, &mut counts), answer);
            assert_eq!(trusting.loads, checked.loads);
            assert_eq!(trusting.stores, checked.stores);
            assert_eq!((&words, tally), (&memory, counts));
        }
    }
}

// Named oddities, none of which is 40.

/// Two loads and two stores, activated once.
fn queued() -> Queue {
    let order = [Load(0), Store(0), Load(1), Store(1)];
    let mut queue = open(&order, header(2, 2, 0, 4));
    queue.activate(0).unwrap();
    queue
}

#[test]
fn each_part_of_40_is_met_at_its_edge() {
    let spoils: [fn(&mut Queue); 13] = [
        |q| q.load_depth = 0,
        |q| q.load_depth = 65,
        |q| q.store_depth = 0,
        |q| q.store_depth = 65,
        |q| q.memory_length = 0,
        |q| q.memory_length = 4097,
        |q| q.load_depth = 1,
        |q| q.store_depth = 1,
        |q| q.loads.entries[0].stores_before = 3,
        |q| q.stores.entries[1].loads_before = 3,
        |q| q.loads.entries[1].address = Some(4),
        |q| q.stores.entries[0].address = Some(4),
        |q| q.table.groups[0].loads[1].port = 0,
    ];
    for (i, spoil) in spoils.iter().enumerate() {
        let mut queue = queued();
        spoil(&mut queue);
        assert_eq!(queue.activate(9), Err(40), "spoil {i}");
    }
    let edges: [fn(&mut Queue); 8] = [
        |q| q.load_depth = 64,
        |q| q.store_depth = 64,
        |q| q.memory_length = 4096,
        |q| q.memory_length = 1,
        |q| q.loads.entries[0].stores_before = 2,
        |q| q.stores.entries[0].loads_before = 2,
        |q| q.loads.entries[0].address = Some(3),
        |q| q.stores.entries[0].address = Some(3),
    ];
    for (i, edge) in edges.iter().enumerate() {
        let mut queue = queued();
        edge(&mut queue);
        assert_eq!(queue.activate(9), Err(20), "edge {i}");
    }
}

#[test]
fn table_that_would_not_open_is_not_40() {
    let mut queue = queued();
    queue.loads.entries.clear();
    queue.stores.entries.clear();
    queue.load_depth = 1; // the group has two loads: 14 at opening
    assert_eq!(queue.activate(0), Err(21));
}

#[test]
fn contradicting_numbers_are_each_believed() {
    // The load says the store is earlier, the store says the load is.
    let mut queue = queued();
    queue.loads.entries[0].stores_before = 1;
    queue.load_address(0, 1).unwrap();
    queue.store_address(0, 1).unwrap();
    queue.store_data(0, 5).unwrap();
    let mut memory = [0; 4];
    assert_eq!(queue.write(0, &mut memory), Err(31));
    assert_eq!(queue.serve(0, &memory, &mut Counts::default()), Ok(5));
    assert_eq!(queue.write(0, &mut memory), Ok(()));
}

#[test]
fn port_outside_the_table_gets_no_argument() {
    let mut queue = queued();
    queue.loads.entries[0].port = 9;
    assert_eq!(queue.load_address(9, 0), Err(22));
    assert_eq!(queue.load_address(0, 0), Err(24));
    assert_eq!(queue.take(9), Err(22));
}

#[test]
fn written_store_without_address_still_bars_a_serve_but_no_write() {
    let mut queue = queued();
    queue.stores.entries[0].written = true;
    queue.load_address(0, 0).unwrap();
    queue.load_address(1, 0).unwrap();
    queue.store_address(1, 1).unwrap();
    queue.store_data(1, 7).unwrap();
    assert_eq!(queue.serve(1, &[0; 4], &mut Counts::default()), Err(28));
    let mut memory = [0; 4];
    assert_eq!(queue.write(1, &mut memory), Ok(()));
    assert_eq!(queue.stores.entries.len(), 0); // the written ones both leave
    assert_eq!(queue.loads.entries[1].stores_before, 0);
}

#[test]
fn served_load_without_address_waits_for_one_but_bars_no_write() {
    let mut queue = queued();
    queue.loads.entries[0].served = true;
    queue.store_address(0, 0).unwrap();
    queue.store_data(0, 7).unwrap();
    let mut memory = [0; 4];
    assert_eq!(queue.write(0, &mut memory), Ok(()));
    assert_eq!(queue.load_address(0, 3), Ok(()));
    assert_eq!(queue.loads.entries[0].address, Some(3));
}

#[test]
fn finished_entries_at_the_oldest_end_wait_for_a_write_or_take() {
    let mut queue = queued();
    queue.loads.entries[0].taken = true;
    queue.stores.entries[0].written = true;
    assert_eq!(queue.activate(0), Err(21));
    assert_eq!(queue.loads.entries.len(), 2);
    queue.loads.entries[1].served = true;
    assert_eq!(queue.take(1), Ok(0));
    assert_eq!(queue.loads.entries.len(), 0);
    assert_eq!(queue.stores.entries.len(), 1);
    assert_eq!(queue.stores.entries[0].loads_before, 0);
}

#[test]
fn taken_load_that_is_not_served_can_be_served() {
    let mut queue = queued();
    queue.loads.entries[0].taken = true;
    queue.load_address(0, 2).unwrap();
    assert_eq!(queue.take(0), Err(33));
    assert_eq!(queue.serve(0, &[4; 4], &mut Counts::default()), Ok(4));
    assert_eq!(queue.loads.entries.len(), 2); // serve lets nothing leave
}

#[test]
fn the_two_series_may_stand_apart() {
    let mut queue = queued();
    queue.loads.next_serial = 1; // serials 4294967295 and 0
    queue.stores.next_serial = 1002; // serials 1000 and 1001
    queue.load_address(0, 2).unwrap();
    let mut run = [0; 2];
    assert_eq!(queue.ready_loads(&mut run), Ok(&mut [u32::MAX][..]));
    let mut counts = Counts::default();
    assert_eq!(queue.serve(1000, &[4; 4], &mut counts), Err(25));
    assert_eq!(queue.serve(u32::MAX, &[4; 4], &mut counts), Ok(4));
    assert_eq!(queue.write(0, &mut [4; 4]), Err(25));
    assert_eq!(queue.write(1000, &mut [4; 4]), Err(27));
}
