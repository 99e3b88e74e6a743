//! The serves that waited for a store's address before S-7 and those that wait now are
//! counted right, and S-7 makes none wait that did not.

use evidence::workloads::{named, Waits, Workload, BY_DEPTH, BY_GROUPS, MAIN};
use lsq_ref::gen::Scenario;
use lsq_ref::table::{Access, Group};
use lsq_ref::{Event, Header, Table};

const WORD: u32 = 2;

const NONE: Waits = Waits {
    past_27: 0,
    now: 0,
    before: 0,
    accepted: 0,
    no_data: 0,
};

const ACTIVATE: Event = Event::Activate { group: 0 };
const LOAD_ADDRESS: Event = Event::LoadAddress {
    port: 0,
    address: WORD,
};
const SERVE: Event = Event::Serve { serial: 0 };

fn store_address(port: u32) -> Event {
    Event::StoreAddress {
        port,
        address: WORD,
    }
}

fn store_data(port: u32) -> Event {
    Event::StoreData { port, word: 6 }
}

/// A trace on one group of two stores, a load, and a store after it.
fn workload(events: &[Event]) -> Workload {
    let order = [
        Access::Store(0),
        Access::Store(1),
        Access::Load(0),
        Access::Store(2),
    ];
    let header = Header {
        load_depth: 1,
        store_depth: 3,
        first_serial: 0,
        memory_length: 4,
    };
    let scenario = Scenario {
        table: Table {
            groups: vec![Group::from_order(&order)],
        },
        header,
        events: events.to_vec(),
    };
    Workload::new("by hand".into(), &scenario)
}

fn counted(events: &[Event]) -> Waits {
    workload(events).waits
}

/// What is counted of one serve, where these arguments are in besides the load's.
fn counted_with(arguments: &[Event]) -> Waits {
    counted(&[&[ACTIVATE, LOAD_ADDRESS], arguments, &[SERVE]].concat())
}

#[test]
fn a_store_without_address_behind_the_match_is_waited_for_no_longer() {
    let served = Waits {
        past_27: 1,
        before: 1,
        accepted: 1,
        ..NONE
    };
    assert_eq!(counted_with(&[store_address(1), store_data(1)]), served);
}

#[test]
fn a_match_without_data_hides_28() {
    let hidden = Waits {
        past_27: 1,
        before: 1,
        no_data: 1,
        ..NONE
    };
    assert_eq!(counted_with(&[store_address(1)]), hidden);
}

#[test]
fn a_store_without_address_before_the_match_is_waited_for_as_before() {
    let waits = Waits {
        past_27: 1,
        now: 1,
        before: 1,
        ..NONE
    };
    assert_eq!(counted_with(&[]), waits);
    assert_eq!(counted_with(&[store_address(0), store_data(0)]), waits);
}

/// The store after the load has no address in any of these, and never counts.
#[test]
fn with_all_earlier_addresses_nothing_waited() {
    let past = Waits { past_27: 1, ..NONE };
    let addresses = [store_address(0), store_address(1)];
    assert_eq!(counted_with(&addresses), past); // 29
    let data = [&addresses[..], &[store_data(1)]].concat();
    assert_eq!(counted_with(&data), past); // 0
}

/// 25, 26 and 27, and the answers of other calls: 24, and 29 of a write.
#[test]
fn only_serves_past_27_are_counted() {
    assert_eq!(counted(&[SERVE, ACTIVATE, SERVE]), NONE);
    let others = [ACTIVATE, store_address(1), store_address(1)];
    let write = Event::Write { serial: 1 };
    assert_eq!(counted(&[&others[..], &[write]].concat()), NONE);
    let again = [store_address(1), store_data(1), SERVE];
    let once = counted_with(&again[..2]);
    assert_eq!(counted_with(&again), once);
}

/// One trace in which a load gets 28, then 29, and is then served.
#[test]
fn a_trace_adds_up() {
    let waits = counted_with(&[SERVE, store_address(1), SERVE, SERVE, store_data(1)]);
    let all = Waits {
        past_27: 4,
        now: 1,
        before: 4,
        accepted: 1,
        no_data: 2,
    };
    assert_eq!(waits, all);
}

/// After each call the load gets: 27, 28, 29, 0 that was 28, 0, and 26.
#[test]
fn every_queued_load_is_tried_after_each_call() {
    let arguments = [store_address(1), store_data(1), store_address(0)];
    let events = [&[ACTIVATE, LOAD_ADDRESS], &arguments[..], &[SERVE]].concat();
    let all = Waits {
        past_27: 4,
        now: 1,
        before: 3,
        accepted: 1,
        no_data: 1,
    };
    assert_eq!(workload(&events).waits_of_all_loads(), all);
}

/// Each workload, with the counts of its own serves and those of all loads.
fn workloads() -> Vec<(Workload, [Waits; 2])> {
    let names = [&MAIN[..], &BY_DEPTH, &BY_GROUPS].concat();
    let workload = |name: &str| named(name).expect("a workload of this name");
    let workloads = names.into_iter().map(workload);
    let counted = |workload: Workload| {
        let waits = [workload.waits, workload.waits_of_all_loads()];
        (workload, waits)
    };
    workloads.map(counted).collect()
}

#[test]
fn no_serve_waits_that_did_not_before() {
    for (Workload { title, .. }, both) in workloads() {
        for waits in both {
            let no_longer = waits.accepted + waits.no_data;
            assert!(waits.now <= waits.before, "{title}: {waits:?}");
            assert_eq!(waits.before, waits.now + no_longer, "{title}: {waits:?}");
            assert!(waits.before <= waits.past_27, "{title}: {waits:?}");
        }
    }
}

/// A port's addresses go to its oldest store first. So where all stores are of one port,
/// those without address are the nearest, and S-7 changes no answer; elsewhere it does.
#[test]
fn stores_of_one_port_are_waited_for_as_before() {
    for (Workload { title, table, .. }, both) in workloads() {
        let table = Table::read(&table).expect("a right table");
        let stores = table.groups.iter().map(|group| group.stores.len());
        let one_port = stores.sum::<usize>() == 1;
        for waits in both {
            let alike = waits.before == waits.now;
            assert_eq!(alike, one_port, "{title}: {waits:?}");
        }
    }
}
