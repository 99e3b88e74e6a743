//! Measures what check 40 costs: the same calls on a queue that tests every
//! record and on one that trusts it.

use std::hint::black_box;
use std::time::Instant;

use lsq_ref::event::Event;
use lsq_ref::gen::{self, Scenario};
use lsq_ref::queue::LoadStoreQueue;
use lsq_ref::rng::Rng;
use lsq_ref::{Counts, Header};

const SCENARIOS: u64 = 100;
const EVENTS: usize = 1000;
const REPEATS: usize = 9;

/// Any table, the deepest queue, and many calls.
fn scenario(seed: u64) -> Scenario {
    let mut rng = Rng::new(seed);
    let table = gen::table(&mut rng);
    let header = Header {
        load_depth: 64,
        store_depth: 64,
        first_serial: u32::MAX - 100,
        memory_length: 64,
    };
    let events = gen::events(&mut rng, &table, header, EVENTS);
    Scenario {
        table,
        header,
        events,
    }
}

/// Plays a scenario and gives the nanoseconds of its calls alone.
fn time_calls<const CHECKED: bool>(scenario: &Scenario) -> u128 {
    let opened = LoadStoreQueue::<CHECKED>::open(scenario.table.clone(), scenario.header);
    let mut queue = opened.expect("a header that opens");
    let mut memory = vec![0; scenario.header.memory_length as usize];
    let mut counts = Counts::default();
    let start = Instant::now();
    for event in &scenario.events {
        let _ = black_box(queue.apply(black_box::<&Event>(event), &mut memory, &mut counts));
    }
    start.elapsed().as_nanos()
}

/// Nanoseconds per call, the best of some repeats.
fn per_call<const CHECKED: bool>(scenarios: &[Scenario]) -> f64 {
    let total = || scenarios.iter().map(time_calls::<CHECKED>).sum::<u128>();
    let best = (0..REPEATS).map(|_| total()).min().unwrap_or(0);
    best as f64 / (scenarios.len() * EVENTS) as f64
}

fn main() {
    let scenarios: Vec<Scenario> = (0..SCENARIOS).map(scenario).collect();
    let checked = per_call::<true>(&scenarios);
    let trusting = per_call::<false>(&scenarios);
    println!("with check 40:    {checked:.1} ns per call");
    println!("without check 40: {trusting:.1} ns per call");
    println!("check 40 alone:   {:.1} ns per call", checked - trusting);
}
