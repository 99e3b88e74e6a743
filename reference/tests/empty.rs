//! Groups with no load and no store (S-2): which counts are left to 5, tables
//! without a port, activations that take no place, and the plain run.

mod common;

use common::header;
use lsq_ref::number::write_numbers;
use lsq_ref::plain::{self, Call, Fill, Source};
use lsq_ref::queue::{LoadEntry, Side, StoreEntry};
use lsq_ref::table::Access::{self, Load, Store};
use lsq_ref::table::Group;
use lsq_ref::{Counts, Event, Queue, Table};

const MAX: u32 = u32::MAX;

/// A group of so many loads, then so many stores, on the lowest ports.
fn group(loads: u32, stores: u32) -> Group {
    let loads = (0..loads).map(Load);
    let order: Vec<Access> = loads.chain((0..stores).map(Store)).collect();
    Group::from_order(&order)
}

fn empty() -> Group {
    group(0, 0)
}

fn table(groups: &[Group]) -> Table {
    let groups = groups.to_vec();
    Table { groups }
}

/// Its numbers as bytes, whatever the table is.
fn spelled(table: &Table) -> Vec<u8> {
    let mut bytes = vec![0; 512];
    let count = write_numbers(&table.numbers(), &mut bytes).expect("room");
    bytes.truncate(count);
    bytes
}

// Counts.

/// Loads, stores, and what a group of so many meets.
const COUNTS: [(u32, u32, u8); 11] = [
    (0, 0, 0),
    (0, 1, 0),
    (1, 0, 0),
    (0, 16, 0),
    (16, 0, 0),
    (16, 16, 0),
    (0, 17, 5),
    (17, 0, 5),
    (16, 17, 5),
    (17, 16, 5),
    (17, 17, 5),
];

/// Tables of a group of these counts: alone, between empty ones, as the last of
/// 16.
fn tables(loads: u32, stores: u32) -> [Table; 3] {
    let group = group(loads, stores);
    let mut sixteen = vec![empty(); 15];
    sixteen.push(group.clone());
    let between = [empty(), group.clone(), empty()];
    [table(&[group]), table(&between), table(&sixteen)]
}

fn answer(number: u8) -> Result<(), u8> {
    match number {
        0 => Ok(()),
        _ => Err(number),
    }
}

#[test]
fn only_a_count_above_16_gets_5_in_reading_and_writing() {
    for (loads, stores, number) in COUNTS {
        for table in tables(loads, stores) {
            let bytes = spelled(&table);
            let read = Table::read(&bytes);
            assert_eq!(read, answer(number).map(|()| table.clone()), "{bytes:?}");
            let mut buffer = [0xEE; 512];
            let written = table.write(&mut buffer);
            assert_eq!(written, answer(number).map(|()| bytes.len()), "{bytes:?}");
            let front = written.unwrap_or(0);
            assert_eq!(buffer[..front], bytes[..front]);
            assert!(buffer[front..].iter().all(|&byte| byte == 0xEE));
        }
    }
}

#[test]
fn only_a_count_above_16_gets_5_in_opening() {
    for (loads, stores, number) in COUNTS {
        for table in tables(loads, stores) {
            assert_eq!(table.check(), number);
            let opened = Queue::open(table.clone(), header(64, 64, 0, 1));
            assert_eq!(opened.map(|_| ()), answer(number), "{table:?}");
            // 5 comes before the depths.
            let first = if number == 0 { 11 } else { 5 };
            assert_eq!(Queue::open(table, header(0, 0, 0, 0)), Err(first));
        }
    }
    // Empty groups fit the least depths.
    let table = table(&[empty(), empty()]);
    assert!(Queue::open(table, header(1, 1, 0, 1)).is_ok());
}

#[test]
fn only_a_count_above_16_gets_40() {
    for (loads, stores, number) in COUNTS {
        for table in tables(loads, stores) {
            let mut queue = full(1);
            queue.table = table;
            assert_eq!(queue.sound(), number == 0);
            let refused = if number == 0 { 20 } else { 40 };
            assert_eq!(queue.activate(16), Err(refused), "{:?}", queue.table);
        }
    }
}

#[test]
fn counts_far_above_16_get_5() {
    let most = [0xFF, 0xFF, 0xFF, 0xFF, 0x0F];
    for counts in [[&most[..], &[0]].concat(), [&[0], &most[..]].concat()] {
        assert_eq!(Table::read(&[&[2, 1][..], &counts].concat()), Err(5));
    }
}

// Bytes.

#[test]
fn tables_of_empty_groups_are_spelled_by_zeros() {
    for count in 1..=16 {
        let table = table(&vec![empty(); count]);
        let bytes = [&[2, count as u8][..], &vec![0; 2 * count]].concat();
        assert_eq!(spelled(&table), bytes);
        assert_eq!(Table::read(&bytes), Ok(table));
        for cut in 0..bytes.len() {
            assert_eq!(Table::read(&bytes[..cut]), Err(1), "{cut} of {bytes:?}");
        }
        assert_eq!(Table::read(&[&bytes[..], &[0]].concat()), Err(9));
    }
    let padded = [2, 1, 0x80, 0x00, 0x80, 0x80, 0x00];
    assert_eq!(Table::read(&padded), Err(42));
}

#[test]
fn the_group_count_stays_1_to_16() {
    assert_eq!(Table::read(&[2, 0]), Err(4));
    assert_eq!(Table::read(&[2, 0, 0, 0]), Err(4)); // before any group
    assert_eq!(
        Table::read(&[&[2, 17][..], &[0; 34]].concat()),
        Err(4) // however empty they are
    );
    for groups in [vec![], vec![empty(); 17]] {
        let table = Table { groups };
        assert_eq!(table.write(&mut [0; 64]), Err(4));
        assert_eq!(Queue::open(table, header(1, 1, 0, 1)), Err(4));
    }
}

#[test]
fn an_empty_group_has_no_order_and_no_port() {
    assert!(empty().is_empty());
    assert!(!group(1, 0).is_empty() && !group(0, 1).is_empty());
    assert_eq!(empty().program_order(), []);
    assert_eq!(Group::from_order(&[]), empty());
    let table = table(&[empty()]);
    assert!((0..40).all(|port| !table.has_load_port(port) && !table.has_store_port(port)));
}

// Queues.

/// Opened at this depth on both sides, with an empty group on each side of
/// group 1, which was activated until it found no place.
fn full(depth: u32) -> Queue {
    let accesses = depth.min(16);
    let groups = [empty(), group(accesses, accesses), empty()];
    let opened = Queue::open(table(&groups), header(depth, depth, MAX - 1, 4));
    let mut queue = opened.expect("an opening that is accepted");
    for _ in 0..depth / accesses {
        assert_eq!(queue.activate(1), Ok(()));
    }
    assert_eq!(held(&queue), (depth as usize, depth as usize));
    queue
}

fn held(queue: &Queue) -> (usize, usize) {
    (queue.loads.entries.len(), queue.stores.entries.len())
}

/// Entries that no activation leads to, as many as the depths, on serials that
/// stand apart.
fn hand_made(groups: &[Group], load_depth: u32, store_depth: u32) -> Queue {
    let load = LoadEntry {
        port: 7,
        address: Some(3),
        taken: true,
        ..LoadEntry::default()
    };
    let store = StoreEntry {
        port: 9,
        written: true,
        loads_before: load_depth as usize,
        ..StoreEntry::default()
    };
    Queue {
        table: table(groups),
        load_depth,
        store_depth,
        memory_length: 4,
        loads: Side {
            next_serial: 5,
            entries: vec![load; load_depth as usize].into(),
        },
        stores: Side {
            next_serial: MAX,
            entries: vec![store; store_depth as usize].into(),
        },
    }
}

/// Every empty group is accepted and changes nothing; the others find no place.
fn assert_full_to_others(mut queue: Queue) {
    let before = queue.clone();
    for (number, group) in before.table.groups.iter().enumerate() {
        let expected = if group.is_empty() { Ok(()) } else { Err(21) };
        assert_eq!(queue.activate(number as u32), expected, "{before:?}");
        assert_eq!(queue, before);
    }
    let count = before.table.groups.len() as u32;
    for number in [count, count + 1, MAX] {
        assert_eq!(queue.activate(number), Err(20));
    }
    assert_eq!(queue, before);
}

#[test]
fn a_full_opened_queue_accepts_empty_groups() {
    for depth in [1, 2, 16, 32, 64] {
        assert_full_to_others(full(depth));
    }
}

#[test]
fn a_full_side_is_enough_for_21_and_not_for_an_empty_group() {
    for (load_depth, store_depth) in [(1, 2), (2, 1), (1, 64), (64, 1)] {
        let groups = table(&[group(1, 1), empty()]);
        let opened = Queue::open(groups, header(load_depth, store_depth, 0, 4));
        let mut queue = opened.expect("an opening that is accepted");
        assert_eq!(queue.activate(0), Ok(()));
        assert_full_to_others(queue);
    }
}

#[test]
fn a_full_hand_made_record_accepts_empty_groups() {
    for depth in [1, 2, 63, 64] {
        let mixed = [group(1, 1), empty(), group(0, 0)];
        assert_full_to_others(hand_made(&mixed, depth, depth));
        assert_full_to_others(hand_made(&[empty()], depth, depth));
        assert_full_to_others(hand_made(&vec![empty(); 16], depth, depth));
    }
    assert_full_to_others(hand_made(&[empty(), group(16, 0)], 64, 1));
    assert_full_to_others(hand_made(&[empty(), group(0, 16)], 1, 64));
}

#[test]
fn no_such_group_gets_20_however_empty_the_others_are() {
    for count in 1..=16 {
        let opened = Queue::open(table(&vec![empty(); count]), header(1, 1, 0, 1));
        let mut queue = opened.expect("an opening that is accepted");
        let count = count as u32;
        assert_eq!(queue.activate(count - 1), Ok(()));
        assert_eq!(queue.activate(count), Err(20));
        assert_eq!(queue.activate(MAX), Err(20));
    }
}

#[test]
fn an_unsound_record_gets_40_for_an_empty_group() {
    let spoils: [fn(&mut Queue); 5] = [
        |q| q.load_depth = 63, // a side holds more than its depth: no 21 either
        |q| q.store_depth = 0,
        |q| q.memory_length = 0,
        |q| q.loads.entries[0].address = Some(4),
        |q| q.table.groups.resize(17, Group::default()),
    ];
    for (i, spoil) in spoils.iter().enumerate() {
        let mut queue = hand_made(&[empty()], 64, 64);
        spoil(&mut queue);
        let before = queue.clone();
        assert_eq!(queue.activate(0), Err(40), "spoil {i}");
        assert_eq!(queue.activate(99), Err(40), "spoil {i}");
        assert_eq!(queue, before);
    }
}

/// Every call that names a port, with an address that is or is not in memory.
fn assert_no_port(queue: &mut Queue) {
    let before = queue.clone();
    for port in (0..=33).chain([MAX]) {
        for address in [0, queue.memory_length, MAX] {
            assert_eq!(queue.load_address(port, address), Err(22));
            assert_eq!(queue.store_address(port, address), Err(22));
        }
        assert_eq!(queue.store_data(port, 0), Err(22));
        assert_eq!(queue.take(port), Err(22));
    }
    assert_eq!(*queue, before);
}

#[test]
fn without_a_port_in_the_table_every_port_gets_22() {
    let opened = Queue::open(table(&[empty()]), header(1, 1, 5, 4));
    let mut queue = opened.expect("an opening that is accepted");
    assert_no_port(&mut queue);
    assert_eq!(queue.activate(0), Ok(()));
    assert_no_port(&mut queue);
    let mut counts = Counts::default();
    for serial in [4, 5, 6] {
        assert_eq!(queue.serve(serial, &[0; 3], &mut counts), Err(30));
        assert_eq!(queue.serve(serial, &[0; 4], &mut counts), Err(25));
        assert_eq!(queue.write(serial, &mut [0; 4]), Err(25));
    }
    let none: &mut [u32] = &mut [];
    assert_eq!(queue.ready_loads(&mut []), Ok(&mut *none));
    assert_eq!(queue.ready_stores(&mut []), Ok(none));
}

/// The entries of a record need no port in its table to be served or written.
#[test]
fn entries_of_a_record_without_a_port_go_by_what_it_holds() {
    let mut queue = hand_made(&[empty()], 2, 2);
    queue.stores.entries[1] = StoreEntry {
        address: Some(1),
        data: Some(6),
        ..StoreEntry::default()
    };
    assert_no_port(&mut queue);
    let mut memory = [8; 4];
    let mut counts = Counts::default();
    assert_eq!(queue.serve(4, &memory, &mut counts), Ok(8));
    assert_eq!(queue.activate(0), Ok(()));
    assert_eq!(held(&queue), (2, 2)); // finished entries wait for a write
    assert_eq!(queue.write(MAX - 1, &mut memory), Ok(()));
    assert_eq!(memory, [8, 6, 8, 8]);
    assert_eq!(held(&queue), (0, 0));
    assert_eq!(queue.activate(0), Ok(()));
    assert_eq!(
        (queue.loads.next_serial, queue.stores.next_serial),
        (5, MAX)
    );
}

#[test]
fn only_empty_groups_since_opening_leave_no_entry() {
    for first in [0, 9, MAX] {
        let groups = table(&[empty(), group(1, 1), empty()]);
        let opened = Queue::open(groups, header(1, 1, first, 4));
        let opened = opened.expect("an opening that is accepted");
        let mut queue = opened.clone();
        for _ in 0..200 {
            assert_eq!(queue.activate(0), Ok(()));
            assert_eq!(queue.activate(2), Ok(()));
        }
        assert_eq!(held(&queue), (0, 0));
        assert_eq!(queue.loads.next_serial, first);
        assert_eq!(queue.stores.next_serial, first);
        assert_eq!(queue, opened);
        // The next group is queued as if it were the first.
        let mut at_once = opened;
        assert_eq!(queue.activate(1), Ok(()));
        assert_eq!(at_once.activate(1), Ok(()));
        assert_eq!(queue, at_once);
    }
}

// The plain run.

/// For lists that leave nothing to fill in.
struct NoFill;

impl Fill for NoFill {
    fn load_address(&mut self, _: u32) -> u32 {
        panic!("every row is long enough")
    }

    fn store_address(&mut self, _: u32) -> u32 {
        panic!("every row is long enough")
    }

    fn store_data(&mut self) -> u32 {
        panic!("every row is long enough")
    }
}

fn accepted(event: Event) -> Call {
    Call { event, answer: 0 }
}

#[test]
fn the_plain_run_passes_over_empty_groups() {
    let groups = table(&[empty(), group(1, 1)]);
    let activate = |group| accepted(Event::Activate { group });
    let (port, address) = (0, 2);
    let arguments = [
        accepted(Event::LoadAddress { port, address }),
        accepted(Event::StoreAddress { port, address }),
        accepted(Event::StoreData { port, word: 6 }),
    ];
    let list = |groups: &[u32]| {
        let activations = groups.iter().map(|&group| activate(group));
        activations.chain(arguments).collect::<Vec<Call>>()
    };
    let memory = [5; 4];
    let without = plain::run(&groups, &memory, &list(&[1]), &mut NoFill);
    assert_eq!(without.memory, [5, 5, 6, 5]);
    assert_eq!(without.loaded[&0], [5]);
    assert_eq!(without.sources, [Source::Opening]);
    for order in [&[0, 1][..], &[1, 0], &[0, 0, 1, 0, 0]] {
        let calls = list(order);
        assert!(plain::activations(&calls).eq(order.iter().copied()));
        let run = plain::run(&groups, &memory, &calls, &mut NoFill);
        assert_eq!(run, without, "{order:?}");
    }
}

#[test]
fn the_plain_run_of_empty_groups_alone_does_nothing() {
    let groups = table(&[empty(), empty()]);
    let calls = [0, 1, 1].map(|group| accepted(Event::Activate { group }));
    let run = plain::run(&groups, &[1, 2, 3], &calls, &mut NoFill);
    assert_eq!(run.memory, [1, 2, 3]);
    assert!(run.loaded.is_empty());
    assert_eq!(plain::activations(&calls).count(), 3); // accepted ones all the same
}
