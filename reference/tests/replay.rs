//! A whole trace in one call: what is told first, what lent buffers keep, and
//! what a lent record is left with.

mod common;

use common::{k1_trace, K1_TABLE, K1_TRACE};
use lsq_ref::gen::{self, Scenario};
use lsq_ref::replay::{
    event_count, memory_length, replay, replay_recorded, replay_recorded_watched, replay_watched,
    table_fault, trace_fault, Lent,
};
use lsq_ref::rng::Rng;
use lsq_ref::{Event, ShiftRecord};

/// Buffers with something in each place.
#[derive(Clone, Debug, PartialEq, Eq)]
struct Buffers {
    memory: Vec<u32>,
    counts: Vec<u32>,
    answers: Vec<u8>,
    given: Vec<u8>,
    values: Vec<u32>,
}

impl Buffers {
    fn new([memory, counts, answers, given, values]: [usize; 5]) -> Self {
        Self {
            memory: vec![7; memory],
            counts: vec![5; counts],
            answers: vec![99; answers],
            given: vec![88; given],
            values: vec![77; values],
        }
    }

    fn lent(&mut self) -> Lent<'_> {
        Lent {
            memory: &mut self.memory,
            counts: &mut self.counts,
            answers: &mut self.answers,
            given: &mut self.given,
            values: &mut self.values,
        }
    }
}

/// The refusal of a replay, with the buffers found unchanged.
fn refusal(table: &[u8], trace: &[u8], mut buffers: Buffers) -> u8 {
    let before = buffers.clone();
    let refused = replay::<true>(table, trace, buffers.lent()).expect_err("a refusal");
    assert_eq!(buffers, before);
    refused
}

#[test]
fn k1_in_longer_buffers() {
    let mut buffers = Buffers::new([4, 3, 13, 14, 15]);
    let played = replay::<true>(&K1_TABLE, &K1_TRACE, buffers.lent());
    assert_eq!(played, Ok(()));
    assert_eq!(buffers.memory, [7, 7, 7, 1]);
    assert_eq!(buffers.counts, [7, 6, 5]);
    assert_eq!(buffers.answers, [0, 0, 0, 0, 28, 0, 0, 0, 0, 0, 0, 0, 99]);
    assert_eq!(buffers.given, [0, 0, 0, 0, 0, 1, 1, 0, 0, 1, 0, 1, 88, 88]);
    let first = [0, 0, 0, 0, 0, 7, 7];
    let rest = [0, 0, 1, 0, 1, 77, 77, 77];
    assert_eq!(buffers.values, [&first[..], &rest[..]].concat());
}

#[test]
fn counts_of_a_trace() {
    let counts = |trace: &[u8]| {
        (
            event_count(&K1_TABLE, trace),
            memory_length(&K1_TABLE, trace),
        )
    };
    assert_eq!(counts(&K1_TRACE), (12, 4));
    assert_eq!(counts(&k1_trace(0, &[])), (0, 4));
    assert_eq!(counts(&K1_TRACE[..43]), (0, 0));
    assert_eq!(counts(&k1_trace(12, &[7])), (0, 0));
    assert_eq!(counts(&k1_trace(12, &[6, 0x80, 0x00])), (0, 0));
    assert_eq!(counts(&K1_TRACE[..7]), (0, 0));
    assert_eq!(counts(&[65, 2, 0, 4]), (0, 0));
    assert_eq!(event_count(&[3], &K1_TRACE), 0);
    assert_eq!(memory_length(&[3], &K1_TRACE), 0);
}

#[test]
fn faults_come_in_order() {
    assert_eq!(table_fault(&K1_TABLE), 0);
    assert_eq!(table_fault(&[3]), 3);
    assert_eq!(trace_fault(&[3], &[]), 3);
    assert_eq!(trace_fault(&K1_TABLE, &[]), 1);
    assert_eq!(trace_fault(&K1_TABLE, &[65, 65, 0, 0, 7]), 11);
    assert_eq!(trace_fault(&K1_TABLE, &k1_trace(3, &[7])), 35);
    assert_eq!(trace_fault(&K1_TABLE, &K1_TRACE), 0);
    let none = Buffers::new([0; 5]);
    let counts_alone = Buffers::new([0, 2, 0, 0, 0]);
    assert_eq!(refusal(&[3], &K1_TRACE, none.clone()), 3);
    assert_eq!(refusal(&K1_TABLE, &k1_trace(3, &[7]), none), 10);
    assert_eq!(
        refusal(&K1_TABLE, &k1_trace(3, &[7]), counts_alone.clone()),
        35
    );
    assert_eq!(refusal(&K1_TABLE, &K1_TRACE, counts_alone), 30);
}

/// 42 is the table's or the trace's, and comes where their other faults do.
#[test]
fn padding_comes_in_the_order_of_faults() {
    let table = [&[0x82, 0x00], &K1_TABLE[1..]].concat();
    let trace = k1_trace(3, &[0x80, 0x00, 0x00]);
    let none = Buffers::new([0; 5]);
    let counts_alone = Buffers::new([0, 2, 0, 0, 0]);
    assert_eq!(table_fault(&table), 42);
    assert_eq!(trace_fault(&table, &K1_TRACE), 42);
    assert_eq!(trace_fault(&K1_TABLE, &trace), 42);
    assert_eq!(refusal(&table, &K1_TRACE, none.clone()), 42);
    assert_eq!(refusal(&K1_TABLE, &trace, none.clone()), 10);
    assert_eq!(refusal(&K1_TABLE, &trace, counts_alone.clone()), 42);
    assert_eq!(recorded_refusal(&table, &K1_TRACE, none.clone()), 42);
    assert_eq!(recorded_refusal(&K1_TABLE, &trace, none), 10);
    assert_eq!(recorded_refusal(&K1_TABLE, &trace, counts_alone), 42);
}

#[test]
fn lengths_are_tested() {
    let refusal = |buffers| refusal(&K1_TABLE, &K1_TRACE, buffers);
    assert_eq!(refusal(Buffers::new([3, 2, 12, 12, 12])), 30);
    assert_eq!(refusal(Buffers::new([5, 2, 0, 0, 0])), 30);
    assert_eq!(refusal(Buffers::new([5, 1, 12, 12, 12])), 10);
    assert_eq!(refusal(Buffers::new([4, 2, 11, 12, 12])), 10);
    assert_eq!(refusal(Buffers::new([4, 2, 12, 11, 12])), 10);
    assert_eq!(refusal(Buffers::new([4, 2, 12, 12, 11])), 10);
    let mut exact = Buffers::new([4, 2, 12, 12, 12]);
    assert!(replay::<true>(&K1_TABLE, &K1_TRACE, exact.lent()).is_ok());
}

/// On queues that an opening leads to, check 40 changes nothing.
#[test]
fn the_trusting_queue_plays_alike() {
    for seed in 0..200 {
        let scenario = Scenario::random(&mut Rng::new(seed));
        let (table, trace) = scenario.bytes();
        let events = scenario.events.len();
        let length = scenario.header.memory_length as usize;
        let mut checked = Buffers::new([length, 2, events, events, events]);
        let mut trusting = checked.clone();
        let mut watched = 0;
        let watch = |_: &_, event: &_, _| {
            assert_eq!(*event, scenario.events[watched]);
            watched += 1;
        };
        assert!(replay_watched::<true>(&table, &trace, checked.lent(), watch).is_ok());
        assert!(replay::<false>(&table, &trace, trusting.lent()).is_ok());
        assert_eq!(checked, trusting);
        assert_eq!(watched, events);
    }
}

// With a lent record.

/// A record with something in each place.
fn some_record() -> ShiftRecord {
    ShiftRecord {
        takes: [66; 32],
        values: [55; 32],
    }
}

/// The refusal of a replay with a record, everything lent found unchanged.
fn recorded_refusal(table: &[u8], trace: &[u8], mut buffers: Buffers) -> u8 {
    let before = buffers.clone();
    let mut record = some_record();
    let played = replay_recorded::<true>(table, trace, buffers.lent(), &mut record);
    assert_eq!((buffers, record), (before, some_record()));
    played.expect_err("a refusal")
}

#[test]
fn k1_with_a_record() {
    let mut buffers = Buffers::new([4, 3, 13, 14, 15]);
    let mut without = buffers.clone();
    let mut record = some_record();
    let played = replay_recorded::<true>(&K1_TABLE, &K1_TRACE, buffers.lent(), &mut record);
    assert_eq!(played, Ok(()));
    let mut after = some_record();
    (after.takes[0], after.values[0]) = (68, 1);
    assert_eq!(record, after);
    assert!(replay::<true>(&K1_TABLE, &K1_TRACE, without.lent()).is_ok());
    assert_eq!(buffers, without);
}

#[test]
fn a_refused_replay_leaves_the_record() {
    let wrong = k1_trace(3, &[7]);
    let none = || Buffers::new([0; 5]);
    let counts_alone = || Buffers::new([0, 2, 0, 0, 0]);
    assert_eq!(recorded_refusal(&[3], &wrong, none()), 3);
    assert_eq!(recorded_refusal(&K1_TABLE, &wrong, none()), 10);
    assert_eq!(recorded_refusal(&K1_TABLE, &wrong, counts_alone()), 35);
    assert_eq!(recorded_refusal(&K1_TABLE, &K1_TRACE, counts_alone()), 30);
    for short in [[4, 2, 11, 12, 12], [4, 2, 12, 11, 12], [4, 2, 12, 12, 11]] {
        let short = Buffers::new(short);
        assert_eq!(recorded_refusal(&K1_TABLE, &K1_TRACE, short), 10);
    }
}

/// The record is that of the takes which the answers and values tell; all else
/// is as without a record, on both kinds of queue.
#[test]
fn a_record_follows_the_answers() {
    for seed in 0..200 {
        let mut rng = Rng::new(seed);
        let scenario = Scenario::random(&mut rng);
        let (table, trace) = scenario.bytes();
        let events = scenario.events.len();
        let length = scenario.header.memory_length as usize;
        let mut without = Buffers::new([length, 2, events, events, events]);
        let (mut checked, mut trusting) = (without.clone(), without.clone());
        assert!(replay::<true>(&table, &trace, without.lent()).is_ok());
        let mut expected = gen::shift_record(&mut rng);
        let (mut record, mut other) = (expected, expected);
        let mut watched = 0;
        let watch = |_: &_, event: &_, _| {
            assert_eq!(*event, scenario.events[watched]);
            watched += 1;
        };
        let played =
            replay_recorded_watched::<true>(&table, &trace, checked.lent(), &mut record, watch);
        assert_eq!((played, watched), (Ok(()), events));
        let played = replay_recorded::<false>(&table, &trace, trusting.lent(), &mut other);
        assert_eq!(played, Ok(()));
        assert_eq!((&checked, &trusting), (&without, &without));
        for (i, event) in scenario.events.iter().enumerate() {
            if let (Event::Take { port }, 0) = (event, without.answers[i]) {
                let port = *port as usize;
                expected.takes[port] = expected.takes[port].saturating_add(1);
                expected.values[port] = without.values[i];
            }
        }
        assert_eq!((record, other), (expected, expected));
    }
}
