//! S-7, serve sooner: every end of the walk "back over the queued earlier stores,
//! nearest first", on records made by hand where no opening leads there, and what
//! stays as it was.

mod common;

use common::{header, k1_trace, open, trusting, K1_TABLE};
use lsq_ref::event::{read_header, EventReader};
use lsq_ref::queue::{LoadEntry, StoreEntry};
use lsq_ref::table::Access::{Load, Store};
use lsq_ref::{Counts, Queue, Table};

const MEMORY: [u32; 4] = [50, 51, 52, 53];
/// The load's address.
const WORD: u32 = 2;

// Stores of a record.

/// A store without address; whether it has data doesn't matter.
const UNKNOWN: StoreEntry = StoreEntry {
    port: 0,
    address: None,
    data: Some(60),
    written: false,
    loads_before: 0,
};
/// A written store without address, which no opening leads to.
const WRITTEN_UNKNOWN: StoreEntry = StoreEntry {
    written: true,
    ..UNKNOWN
};
/// An unwritten store to the load's address, without data.
const NO_DATA: StoreEntry = StoreEntry {
    address: Some(WORD),
    data: None,
    ..UNKNOWN
};
/// A written store to the load's address. Its data is no longer in the memory, so
/// that it shows where the value comes from.
const WRITTEN: StoreEntry = StoreEntry {
    address: Some(WORD),
    written: true,
    ..UNKNOWN
};
/// Stores to other words, one of them written.
const OTHER: StoreEntry = StoreEntry {
    address: Some(1),
    ..UNKNOWN
};
const WRITTEN_OTHER: StoreEntry = StoreEntry {
    address: Some(3),
    ..WRITTEN
};

/// An unwritten store to the load's address with this data.
fn supplying(data: u32) -> StoreEntry {
    StoreEntry {
        data: Some(data),
        ..NO_DATA
    }
}

/// A load of serial 7 with these stores before it and those behind it.
fn record(earlier: &[StoreEntry], later: &[StoreEntry]) -> Queue {
    let mut queue = open(&[Store(0), Load(0)], header(1, 8, 8, 4));
    queue.loads.entries.push_back(LoadEntry {
        address: Some(WORD),
        stores_before: earlier.len(),
        ..LoadEntry::default()
    });
    queue.stores.entries.extend(earlier.iter().chain(later));
    queue
}

// Outcomes: the value with whether it was forwarded, or the refusal.

type Outcome = Result<(u32, bool), u8>;

const FROM_MEMORY: Outcome = Ok((52, false));

const fn forwarded(data: u32) -> Outcome {
    Ok((data, true))
}

/// What the serve gives, which the queue without check 40 gives too. The ready call
/// lists the load if it is accepted and only then, and a refusal changes nothing.
fn serve(queue: &Queue) -> Outcome {
    let (mut after, mut counts) = (queue.clone(), Counts::default());
    let answer = after.serve(7, &MEMORY, &mut counts);
    let (mut other, mut tally) = (trusting(queue), Counts::default());
    assert_eq!(other.serve(7, &MEMORY, &mut tally), answer);
    assert_eq!((&other, tally), (&trusting(&after), counts));
    let (mut run, mut other_run) = ([9; 1], [9; 1]);
    let ready = queue.ready_loads(&mut run).expect("room").to_vec();
    let other_ready = trusting(queue)
        .ready_loads(&mut other_run)
        .map(|r| r.to_vec());
    assert_eq!(other_ready.as_ref(), Ok(&ready));
    assert_eq!(ready.contains(&7), answer.is_ok());
    if answer.is_err() {
        assert_eq!((&after, counts), (queue, Counts::default()));
    }
    answer.map(|value| (value, counts.forwarded == 1))
}

/// Each row of stores stands oldest first, so that the walk begins at its right end.
fn check(cases: &[(&[StoreEntry], Outcome)]) {
    for (i, (stores, outcome)) in cases.iter().enumerate() {
        assert_eq!(
            serve(&record(stores, &[])),
            *outcome,
            "case {i}: {stores:?}"
        );
    }
}

// The ends of the walk.

#[test]
fn one_store_decides_or_none() {
    check(&[
        (&[], FROM_MEMORY),
        (&[OTHER], FROM_MEMORY),
        (&[OTHER, WRITTEN_OTHER], FROM_MEMORY),
        (&[UNKNOWN], Err(28)),
        (&[supplying(6)], forwarded(6)),
        (&[NO_DATA], Err(29)),
        (&[WRITTEN], FROM_MEMORY),
        (&[OTHER, WRITTEN, OTHER], FROM_MEMORY),
    ]);
}

#[test]
fn a_store_without_address_behind_the_match_does_not_matter() {
    check(&[
        (&[UNKNOWN, supplying(6)], forwarded(6)),
        (&[UNKNOWN, UNKNOWN, supplying(6)], forwarded(6)),
        (&[UNKNOWN, OTHER, supplying(6), OTHER], forwarded(6)),
        (&[supplying(5), UNKNOWN, supplying(6)], forwarded(6)),
    ]);
}

#[test]
fn missing_data_of_the_match_hides_a_missing_address_behind_it() {
    check(&[
        (&[UNKNOWN, NO_DATA], Err(29)),
        (&[UNKNOWN, OTHER, NO_DATA, OTHER], Err(29)),
        (&[supplying(5), UNKNOWN, NO_DATA], Err(29)),
    ]);
}

#[test]
fn a_store_without_address_nearer_than_the_match_gets_28() {
    check(&[
        (&[supplying(6), UNKNOWN], Err(28)),
        (&[supplying(6), OTHER, UNKNOWN, OTHER], Err(28)),
        (&[NO_DATA, UNKNOWN], Err(28)),
        (&[WRITTEN, UNKNOWN], Err(28)),
        (&[WRITTEN, UNKNOWN, WRITTEN_OTHER], Err(28)),
    ]);
}

#[test]
fn the_nearest_of_several_matches_decides() {
    check(&[
        (&[supplying(5), supplying(6)], forwarded(6)),
        (&[NO_DATA, supplying(6)], forwarded(6)),
        (&[supplying(5), NO_DATA], Err(29)),
        (&[WRITTEN, supplying(6)], forwarded(6)),
        (&[WRITTEN, NO_DATA], Err(29)),
    ]);
}

/// From opening nothing that could decide stands behind a written match, because of
/// 32. In these records it does and is not looked at.
#[test]
fn a_written_match_sends_the_load_to_memory_whatever_is_behind_it() {
    let without_data = StoreEntry {
        data: None,
        ..WRITTEN
    };
    check(&[
        (&[supplying(6), WRITTEN], FROM_MEMORY),
        (&[NO_DATA, WRITTEN], FROM_MEMORY),
        (&[UNKNOWN, WRITTEN], FROM_MEMORY),
        (&[UNKNOWN, supplying(6), OTHER, WRITTEN, OTHER], FROM_MEMORY),
        (&[supplying(6), without_data], FROM_MEMORY),
        (&[WRITTEN, WRITTEN], FROM_MEMORY),
    ]);
}

/// "A store without address gives 28" has no word of its being written.
#[test]
fn a_written_store_without_address_gets_28_too() {
    check(&[
        (&[WRITTEN_UNKNOWN], Err(28)),
        (&[supplying(6), WRITTEN_UNKNOWN], Err(28)),
        (&[WRITTEN, WRITTEN_UNKNOWN], Err(28)),
        (&[WRITTEN_UNKNOWN, supplying(6)], forwarded(6)),
        (&[WRITTEN_UNKNOWN, NO_DATA], Err(29)),
        (&[WRITTEN_UNKNOWN, WRITTEN], FROM_MEMORY),
    ]);
}

#[test]
fn the_walk_begins_where_the_load_stands() {
    let later = [UNKNOWN, supplying(6), NO_DATA, WRITTEN, WRITTEN_UNKNOWN];
    for store in later {
        assert_eq!(serve(&record(&[], &[store])), FROM_MEMORY);
        let earlier = [UNKNOWN, supplying(5)];
        assert_eq!(serve(&record(&earlier, &[store])), forwarded(5));
        assert_eq!(serve(&record(&[UNKNOWN], &[store])), Err(28));
    }
}

// From opening.

#[test]
fn k1s_event_5_still_gets_28() {
    let table = Table::read(&K1_TABLE).expect("K1's table");
    let trace = k1_trace(4, &[]);
    let (header, at) = read_header(&trace).expect("K1's leading numbers");
    let events = EventReader { bytes: &trace, at }.rest();
    let mut queue = Queue::open(table, header).expect("K1's opening");
    let mut counts = Counts::default();
    for event in events.expect("K1's events") {
        assert_eq!(queue.apply(&event, &mut [0; 4], &mut counts), Ok(None));
    }
    let mut run = [0; 2];
    assert_eq!(queue.ready_loads(&mut run), Ok(&mut [u32::MAX][..]));
    assert_eq!(queue.serve(0, &[0; 4], &mut counts), Err(28));
}

/// The store could go to no other word, and 28 is given all the same.
#[test]
fn a_memory_of_one_word_stays_at_28() {
    let mut queue = open(&[Store(0), Load(0)], header(1, 1, 0, 1));
    queue.activate(0).unwrap();
    queue.load_address(0, 0).unwrap();
    queue.store_data(0, 6).unwrap();
    let mut counts = Counts::default();
    assert_eq!(queue.serve(0, &[0], &mut counts), Err(28));
    assert_eq!(queue.ready_loads(&mut []), Ok(&mut [][..]));
    queue.store_address(0, 0).unwrap();
    assert_eq!(queue.serve(0, &[0], &mut counts), Ok(6));
}

/// A load is served past a store whose address comes later and is the load's. The
/// write of the match still waits for that store, so that the memory ends right.
#[test]
fn a_load_served_sooner_keeps_its_value() {
    let mut queue = open(&[Store(0), Store(1), Load(0)], header(1, 2, 0, 4));
    let (mut memory, mut counts) = (MEMORY, Counts::default());
    queue.activate(0).unwrap();
    queue.load_address(0, WORD).unwrap();
    queue.store_address(1, WORD).unwrap();
    assert_eq!(queue.serve(0, &memory, &mut counts), Err(29));
    queue.store_data(1, 6).unwrap();
    assert_eq!(queue.serve(0, &memory, &mut counts), Ok(6));
    assert_eq!((counts.loads, counts.forwarded), (1, 1));
    assert_eq!(queue.write(1, &mut memory), Err(32)); // an older one has no address
    queue.store_address(0, WORD).unwrap();
    queue.store_data(0, 5).unwrap();
    assert_eq!(queue.write(1, &mut memory), Err(32)); // an older one to this word
    assert_eq!(queue.write(0, &mut memory), Ok(()));
    assert_eq!(queue.write(1, &mut memory), Ok(()));
    assert_eq!(memory, [50, 51, 6, 53]);
    assert_eq!(queue.take(0), Ok(6));
}

/// 31 asks all earlier unserved loads and 32 all earlier unwritten stores, as before:
/// no nearer match hides them.
#[test]
fn writes_wait_as_before() {
    let order = [Load(0), Store(0), Load(1), Store(1), Store(2)];
    let mut queue = open(&order, header(2, 3, 0, 4));
    let mut memory = MEMORY;
    queue.activate(0).unwrap();
    queue.load_address(1, 1).unwrap();
    for port in [1, 2] {
        queue.store_address(port, WORD).unwrap();
        queue.store_data(port, port).unwrap();
    }
    assert_eq!(queue.write(2, &mut memory), Err(31)); // the first load has no address
    queue.load_address(0, 1).unwrap();
    assert_eq!(queue.write(2, &mut memory), Err(32)); // nor has the first store
    assert_eq!(queue.write(1, &mut memory), Err(32));
    queue.store_address(0, 3).unwrap();
    assert_eq!(queue.write(2, &mut memory), Err(32)); // the second store comes first
    assert_eq!(queue.write(1, &mut memory), Ok(()));
    assert_eq!(queue.write(2, &mut memory), Ok(()));
    assert_eq!(memory, [50, 51, 2, 53]);
}
