//! Opening and the calls on a queue: every refusal, the order of checking, and
//! the movements that the paper describes.

mod common;

use common::{header, open, table_of};
use lsq_ref::queue::{LoadEntry, Side, StoreEntry};
use lsq_ref::table::Access::{self, Load, Store};
use lsq_ref::{Counts, Queue, Table};

const MAX: u32 = u32::MAX;

fn counts(loads: u32, forwarded: u32) -> Counts {
    Counts { loads, forwarded }
}

/// Serves with a memory of zeros and counts that don't matter.
fn serve(queue: &mut Queue, serial: u32) -> Result<u32, u8> {
    let memory = vec![0; queue.memory_length as usize];
    queue.serve(serial, &memory, &mut Counts::default())
}

fn write(queue: &mut Queue, serial: u32) -> Result<(), u8> {
    let mut memory = vec![0; queue.memory_length as usize];
    queue.write(serial, &mut memory)
}

fn ready_stores(queue: &Queue) -> Vec<u32> {
    let mut run = [0; 64];
    queue
        .ready_stores(&mut run)
        .expect("a sound queue")
        .to_vec()
}

fn side<E: Clone>(next_serial: u32, entries: &[E]) -> Side<E> {
    Side {
        next_serial,
        entries: entries.iter().cloned().collect(),
    }
}

// Opening.

#[test]
fn opening_checks_in_order() {
    let wrong = Table::default();
    let table = table_of(&[Load(0), Load(1), Store(0), Store(1)]);
    let cases = [
        (&wrong, header(0, 0, 0, 0), Err(4)),
        (&table, header(0, 0, 0, 0), Err(11)),
        (&table, header(65, 65, 0, 4097), Err(11)),
        (&table, header(1, 0, 0, 0), Err(12)),
        (&table, header(1, 65, 0, 4097), Err(12)),
        (&table, header(1, 1, 0, 0), Err(13)),
        (&table, header(1, 1, 0, 4097), Err(13)),
        (&table, header(1, 2, 0, 1), Err(14)),
        (&table, header(2, 1, 0, 1), Err(14)),
        (&table, header(2, 2, 0, 1), Ok(())),
        (&table, header(64, 64, MAX, 4096), Ok(())),
    ];
    for (table, header, answer) in cases {
        let opened = Queue::open(table.clone(), header);
        assert_eq!(opened.map(|_| ()), answer, "{header:?}");
    }
}

// Each call's refusals, each met while all later ones of its list hold too.

/// One load and one store, queued once, with depths that allow no more.
fn full() -> Queue {
    let mut queue = open(&[Load(0), Store(0)], header(1, 1, MAX, 4));
    assert_eq!(queue.activate(0), Ok(()));
    queue
}

#[test]
fn unsound_records_get_40_from_every_call() {
    let mut queue = full();
    queue.load_depth = 0;
    let before = queue.clone();
    let mut memory = [7; 3];
    let mut tally = counts(1, 2);
    let mut run = [9; 2];
    assert_eq!(queue.activate(9), Err(40));
    assert_eq!(queue.load_address(9, 9), Err(40));
    assert_eq!(queue.store_address(9, 9), Err(40));
    assert_eq!(queue.store_data(9, 9), Err(40));
    assert_eq!(queue.serve(9, &memory, &mut tally), Err(40));
    assert_eq!(queue.write(9, &mut memory), Err(40));
    assert_eq!(queue.take(9), Err(40));
    assert_eq!(queue.ready_loads(&mut run[..0]), Err(40));
    assert_eq!(queue.ready_stores(&mut run[..0]), Err(40));
    assert_eq!(
        (queue, memory, tally, run),
        (before, [7; 3], counts(1, 2), [9; 2])
    );
}

#[test]
fn activate_checks_in_order() {
    let mut queue = full();
    assert_eq!(queue.activate(1), Err(20));
    assert_eq!(queue.activate(MAX), Err(20));
    assert_eq!(queue.activate(0), Err(21));
}

#[test]
fn either_side_can_lack_places() {
    let mut loads_full = open(&[Load(0), Store(0)], header(1, 2, 0, 4));
    assert_eq!(loads_full.activate(0), Ok(()));
    assert_eq!(loads_full.activate(0), Err(21));
    let mut stores_full = open(&[Load(0), Store(0)], header(2, 1, 0, 4));
    assert_eq!(stores_full.activate(0), Ok(()));
    assert_eq!(stores_full.activate(0), Err(21));
}

#[test]
fn arguments_check_in_order() {
    // Load ports 1 and store ports 2 only, so that the series can't be mixed.
    let mut queue = open(&[Load(1), Store(2)], header(1, 1, 0, 4));
    assert_eq!(queue.load_address(2, 4), Err(22));
    assert_eq!(queue.load_address(1, 4), Err(23));
    assert_eq!(queue.load_address(1, 3), Err(24));
    assert_eq!(queue.store_address(1, 4), Err(22));
    assert_eq!(queue.store_address(2, 4), Err(23));
    assert_eq!(queue.store_address(2, 3), Err(24));
    assert_eq!(queue.store_data(1, 4), Err(22));
    assert_eq!(queue.store_data(2, 4), Err(24));
    assert_eq!(queue.activate(0), Ok(()));
    assert_eq!(queue.load_address(1, 3), Ok(()));
    assert_eq!(queue.load_address(1, 3), Err(24));
    assert_eq!(queue.store_data(2, MAX), Ok(()));
    assert_eq!(queue.store_data(2, 0), Err(24));
    assert_eq!(queue.store_address(2, 3), Ok(()));
    assert_eq!(queue.store_address(2, 3), Err(24));
}

#[test]
fn serve_checks_in_order() {
    let mut queue = open(&[Store(0), Store(1), Load(0)], header(1, 2, 5, 4));
    assert_eq!(queue.activate(0), Ok(()));
    queue.loads.entries[0].served = true;
    let mut tally = counts(3, 4);
    assert_eq!(queue.serve(6, &[0; 5], &mut tally), Err(30));
    assert_eq!(queue.serve(6, &[0; 3], &mut tally), Err(30));
    assert_eq!(queue.serve(6, &[0; 4], &mut tally), Err(25));
    assert_eq!(queue.serve(4, &[0; 4], &mut tally), Err(25));
    assert_eq!(queue.serve(5, &[0; 4], &mut tally), Err(26));
    queue.loads.entries[0].served = false;
    assert_eq!(queue.serve(5, &[0; 4], &mut tally), Err(27));
    assert_eq!(queue.load_address(0, 2), Ok(()));
    assert_eq!(queue.store_address(0, 2), Ok(()));
    assert_eq!(queue.serve(5, &[0; 4], &mut tally), Err(28)); // store 1 is nearer
    assert_eq!(queue.store_address(1, 2), Ok(()));
    assert_eq!(queue.store_data(0, 8), Ok(()));
    assert_eq!(queue.serve(5, &[0; 4], &mut tally), Err(29));
    assert_eq!(tally, counts(3, 4));
    assert_eq!(queue.store_data(1, 9), Ok(()));
    assert_eq!(queue.serve(5, &[0; 4], &mut tally), Ok(9));
    assert_eq!(tally, counts(4, 5));
    assert_eq!(queue.serve(5, &[0; 4], &mut tally), Err(26));
}

#[test]
fn write_checks_in_order() {
    let mut queue = open(&[Load(0), Store(0), Store(1)], header(1, 2, 5, 4));
    assert_eq!(queue.activate(0), Ok(()));
    queue.stores.entries[1].written = true;
    let mut memory = [7; 4];
    assert_eq!(queue.write(9, &mut [7; 5]), Err(30));
    assert_eq!(queue.write(7, &mut memory), Err(25));
    assert_eq!(queue.write(4, &mut memory), Err(25));
    assert_eq!(queue.write(6, &mut memory), Err(26));
    queue.stores.entries[1].written = false;
    assert_eq!(queue.write(6, &mut memory), Err(27));
    assert_eq!(queue.store_address(1, 2), Ok(()));
    assert_eq!(queue.write(6, &mut memory), Err(29));
    assert_eq!(queue.store_data(1, 9), Ok(()));
    assert_eq!(queue.write(6, &mut memory), Err(31)); // load without address
    assert_eq!(queue.load_address(0, 2), Ok(()));
    assert_eq!(queue.write(6, &mut memory), Err(31)); // load of the same word
    queue.loads.entries[0].served = true;
    assert_eq!(queue.write(6, &mut memory), Err(32)); // store without address
    assert_eq!(queue.store_address(0, 2), Ok(()));
    assert_eq!(queue.write(6, &mut memory), Err(32)); // store to the same word
    assert_eq!(memory, [7; 4]);
    queue.stores.entries[0].address = Some(1);
    assert_eq!(queue.write(6, &mut memory), Ok(()));
    assert_eq!(memory, [7, 7, 9, 7]);
    assert_eq!(queue.write(6, &mut memory), Err(26));
}

#[test]
fn unserved_load_of_another_word_does_not_hold_a_write_up() {
    let mut queue = open(&[Load(0), Store(0)], header(1, 1, 0, 4));
    assert_eq!(queue.activate(0), Ok(()));
    assert_eq!(queue.load_address(0, 1), Ok(()));
    assert_eq!(queue.store_address(0, 2), Ok(()));
    assert_eq!(queue.store_data(0, 3), Ok(()));
    assert_eq!(write(&mut queue, 0), Ok(()));
}

#[test]
fn take_checks_in_order() {
    let mut queue = open(&[Load(1)], header(1, 1, 0, 4));
    assert_eq!(queue.take(0), Err(22));
    assert_eq!(queue.take(1), Err(33));
    assert_eq!(queue.activate(0), Ok(()));
    assert_eq!(queue.take(1), Err(34));
    assert_eq!(queue.load_address(1, 0), Ok(()));
    assert_eq!(queue.take(1), Err(34));
    assert_eq!(queue.serve(0, &[6; 4], &mut counts(0, 0)), Ok(6));
    assert_eq!(queue.take(1), Ok(6));
    assert_eq!(queue.take(1), Err(33));
}

#[test]
fn ready_needs_room_for_the_list_and_no_more() {
    let mut queue = open(&[Load(0), Load(1), Store(0)], header(2, 1, MAX, 4));
    let none: &mut [u32] = &mut [];
    assert_eq!(queue.ready_loads(&mut []), Ok(none));
    assert_eq!(queue.activate(0), Ok(()));
    assert_eq!(queue.load_address(0, 1), Ok(()));
    assert_eq!(queue.load_address(1, 1), Ok(()));
    let mut run = [7; 3];
    assert_eq!(queue.ready_loads(&mut run[..1]), Err(10));
    assert_eq!(run, [7; 3]);
    assert_eq!(queue.ready_loads(&mut run), Ok(&mut [MAX, 0][..]));
    assert_eq!(run, [MAX, 0, 7]);
    assert_eq!(queue.ready_loads(&mut run[..2]), Ok(&mut [MAX, 0][..]));
    assert_eq!(ready_stores(&queue), [0; 0]);
}

#[test]
fn ready_stores_needs_room_too() {
    let mut queue = open(&[Store(0)], header(1, 1, MAX, 4));
    assert_eq!(queue.activate(0), Ok(()));
    assert_eq!(queue.store_address(0, 0), Ok(()));
    assert_eq!(ready_stores(&queue), [0; 0]);
    assert_eq!(queue.store_data(0, 0), Ok(()));
    assert_eq!(queue.ready_stores(&mut []), Err(10));
    assert_eq!(ready_stores(&queue), [MAX]);
}

// Movements.

#[test]
fn opening_leaves_both_series_at_the_first_serial() {
    let queue = open(&[Load(0)], header(1, 2, 9, 3));
    assert_eq!(queue.loads, side(9, &[]));
    assert_eq!(queue.stores, side(9, &[]));
    assert_eq!((queue.load_depth, queue.store_depth), (1, 2));
    assert_eq!(queue.memory_length, 3);
}

#[test]
fn activation_remembers_the_other_kind() {
    let order = [Load(4), Store(3), Store(4), Load(5)];
    let mut queue = open(&order, header(4, 4, MAX - 1, 4));
    assert_eq!(queue.activate(0), Ok(()));
    assert_eq!(queue.activate(0), Ok(()));
    let load = |port, stores_before| LoadEntry {
        port,
        stores_before,
        ..LoadEntry::default()
    };
    let store = |port, loads_before| StoreEntry {
        port,
        loads_before,
        ..StoreEntry::default()
    };
    assert_eq!(
        queue.loads,
        side(2, &[load(4, 0), load(5, 2), load(4, 2), load(5, 4)])
    );
    assert_eq!(
        queue.stores,
        side(2, &[store(3, 1), store(4, 1), store(3, 3), store(4, 3)])
    );
}

#[test]
fn arguments_go_to_the_oldest_entry_that_lacks_them() {
    let mut queue = open(&[Load(0), Store(0)], header(2, 2, 0, 4));
    queue.activate(0).unwrap();
    queue.activate(0).unwrap();
    queue.load_address(0, 1).unwrap();
    queue.load_address(0, 2).unwrap();
    queue.store_data(0, 5).unwrap();
    queue.store_address(0, 1).unwrap();
    queue.store_data(0, 6).unwrap();
    let addresses: Vec<_> = queue.loads.entries.iter().map(|l| l.address).collect();
    assert_eq!(addresses, [Some(1), Some(2)]);
    let stores = queue.stores.entries.iter();
    let arguments: Vec<_> = stores.map(|s| (s.address, s.data)).collect();
    assert_eq!(arguments, [(Some(1), Some(5)), (None, Some(6))]);
}

#[test]
fn forwarding_takes_the_nearest_earlier_store() {
    let order = [Store(0), Store(1), Load(0), Store(2)];
    let mut queue = open(&order, header(1, 3, MAX, 4));
    queue.activate(0).unwrap();
    for port in 0..3 {
        queue.store_address(port, 1).unwrap();
        queue.store_data(port, 10 + port).unwrap();
    }
    queue.load_address(0, 1).unwrap();
    assert_eq!(serve(&mut queue, MAX), Ok(11));
}

#[test]
fn written_store_left_behind_an_unwritten_one_is_read_from_memory() {
    let mut queue = open(&[Store(0), Store(1), Load(0)], header(1, 2, 0, 4));
    queue.activate(0).unwrap();
    queue.store_address(0, 0).unwrap();
    queue.store_address(1, 1).unwrap();
    queue.store_data(1, 8).unwrap();
    queue.load_address(0, 1).unwrap();
    let mut memory = [0; 4];
    assert_eq!(queue.write(1, &mut memory), Ok(()));
    assert_eq!(queue.stores.entries.len(), 2);
    let mut tally = counts(0, 0);
    assert_eq!(queue.serve(0, &memory, &mut tally), Ok(8));
    assert_eq!(tally, counts(1, 0));
}

#[test]
fn places_are_free_only_from_the_oldest_end() {
    let order: [Access; 2] = [Load(0), Load(1)];
    let mut queue = open(&order, header(2, 1, MAX, 1));
    queue.activate(0).unwrap();
    queue.load_address(0, 0).unwrap();
    queue.load_address(1, 0).unwrap();
    assert_eq!(serve(&mut queue, 0), Ok(0));
    assert_eq!(queue.take(1), Ok(0));
    assert_eq!(queue.loads.entries.len(), 2);
    assert_eq!(queue.activate(0), Err(21));
    assert_eq!(serve(&mut queue, MAX), Ok(0));
    assert_eq!(queue.take(0), Ok(0));
    assert_eq!(queue.loads, side(1, &[]));
    assert_eq!(queue.activate(0), Ok(()));
}

#[test]
fn remembered_numbers_fall_to_0_and_stay_there() {
    let mut queue = open(&[Store(0), Load(0)], header(1, 1, 0, 1));
    queue
        .table
        .groups
        .push(table_of(&[Store(1)]).groups.remove(0));
    queue.activate(0).unwrap();
    queue.store_address(0, 0).unwrap();
    queue.store_data(0, 5).unwrap();
    assert_eq!(queue.loads.entries[0].stores_before, 1);
    let mut memory = [0];
    queue.write(0, &mut memory).unwrap();
    assert_eq!(queue.loads.entries[0].stores_before, 0);
    for serial in 1..4 {
        queue.activate(1).unwrap();
        queue.store_address(1, 0).unwrap();
        queue.store_data(1, 6).unwrap();
        assert_eq!(queue.loads.entries[0].stores_before, 0);
        assert_eq!(queue.write(serial, &mut memory), Err(31));
        queue.loads.entries[0].served = true; // lets the store pass
        assert_eq!(queue.write(serial, &mut memory), Ok(()));
        queue.loads.entries[0].served = false;
    }
    assert_eq!(queue.loads.entries[0].stores_before, 0);
}

// Counts.

#[test]
fn counts_stop_together() {
    let cases = [
        (counts(MAX, 0), true, counts(MAX, 0)),
        (counts(0, MAX), false, counts(0, MAX)),
        (counts(MAX - 1, 5), true, counts(MAX, 6)),
        (counts(MAX - 1, 5), false, counts(MAX, 5)),
        (counts(0, MAX - 1), true, counts(1, MAX)),
        (counts(2, 9), false, counts(3, 9)),
    ];
    for (mut tally, forwarded, after) in cases {
        tally.record(forwarded);
        assert_eq!(tally, after);
    }
}

#[test]
fn share_goes_to_the_nearest_half_to_even() {
    let cases = [
        // No loads.
        (0, 0, 0),
        (0, 5, 0),
        (0, MAX, 0),
        // No half.
        (1, 0, 0),
        (1, 1, 1000),
        (3, 1, 333),
        (3, 2, 667),
        (MAX, MAX, 1000),
        (MAX, 1, 0),
        // An exact half.
        (16, 1, 62),
        (16, 3, 188),
        (16, 5, 312),
        (16, 7, 438),
        (2000, 1, 0),
        (2000, 3, 2),
        (2000, 5, 2),
        (2000, 1999, 1000),
        // Next to a half of few loads.
        (2001, 1, 0),
        (1999, 1, 1),
        (2001, 3, 1),
        (1999, 3, 2),
        // 1 in 16 and 3 in 16 of many loads, and next to them.
        (4_294_967_280, 268_435_454, 62),
        (4_294_967_280, 268_435_455, 62),
        (4_294_967_280, 268_435_456, 63),
        (4_294_967_281, 268_435_455, 62),
        (4_294_967_279, 268_435_455, 63),
        (4_294_967_280, 805_306_364, 187),
        (4_294_967_280, 805_306_365, 188),
        (4_294_967_280, 805_306_366, 188),
        (4_294_967_281, 805_306_365, 187),
        (4_294_967_279, 805_306_365, 188),
        // As near to a half as an odd number of loads allows: 905 and a rest of
        // 2147483645, 94 and a rest of 2147483646.
        (4_294_967_291, 3_889_092_882, 905),
        (4_294_967_291, 405_874_409, 95),
        // Forwarded above loads: no half, an exact half, next to one.
        (3, 7, 2333),
        (7, 10, 1429),
        (16, 17, 1062),
        (16, 19, 1188),
        (2000, 2001, 1000),
        (2000, 2003, 1002),
        (1999, 2000, 1001),
        (2001, 2002, 1000),
        // Above 32 bits: no half, then an exact one.
        (1, MAX, 4_294_967_295_000),
        (2, MAX, 2_147_483_647_500),
        (16, MAX, 268_435_455_938),
        (16, MAX - 2, 268_435_455_812),
    ];
    for (loads, forwarded, share) in cases {
        assert_eq!(
            counts(loads, forwarded).share(),
            share,
            "{forwarded} in {loads}"
        );
    }
}

/// A share is no further than half a thousandth from the true one, and even
/// where it is as far as that. 1 in 2,000 is half a thousandth.
#[test]
fn share_is_the_nearest_and_even_at_a_half() {
    for loads in (1..=400).chain([2_000]) {
        for forwarded in 0..=2 * loads {
            let share = counts(loads, forwarded).share();
            let off = (share * u64::from(loads)).abs_diff(1000 * u64::from(forwarded));
            let case = format!("{forwarded} in {loads}: {share}");
            assert!(2 * off <= u64::from(loads), "{case}");
            if 2 * off == u64::from(loads) {
                assert_eq!(share % 2, 0, "{case}");
            }
        }
    }
}
