//! Timing of the proved queue and of the reference on one workload.

use std::hint::black_box;
use std::time::Duration;

use lsq::direct;
use lsq_ref::ordering::order;
use lsq_ref::replay::{replay, trace_fault, Lent};
use lsq_ref::{Counts, Queue, Table};

use crate::clock::processor_time;
use crate::live::subject;
use crate::orders::OrderCase;
use crate::workloads::Workload;

/// What is measured.
#[derive(Clone, Copy, Debug, PartialEq, Eq)]
pub enum Implementation {
    /// The static library's replay.
    Proved,
    /// The same with the shift record kept.
    Recorded,
    /// A replay on the in-place Rust queue that makes check 40 on every call.
    Checked,
    /// The same without that check.
    Unchecked,
    /// The static library's live calls, made one by one through the Rust
    /// wrapper from events that were read before.
    Live,
    /// The same calls on the in-place Rust queue with check 40.
    InPlace,
}

use Implementation::*;

/// Replays, in this order.
pub const REPLAYS: [Implementation; 3] = [Proved, Checked, Unchecked];

/// The library's replays, with the shift record and without.
pub const RECORDS: [Implementation; 2] = [Recorded, Proved];

/// Calls one by one, in this order.
pub const CALLS: [Implementation; 2] = [Live, InPlace];

/// Buffers of just the right lengths.
#[derive(Clone, Debug, PartialEq, Eq)]
pub struct Run {
    memory: Vec<u32>,
    counts: [u32; 2],
    answers: Vec<u8>,
    given: Vec<u8>,
    values: Vec<u32>,
}

impl Run {
    /// Buffers for this workload.
    #[must_use]
    pub fn new(workload: &Workload) -> Self {
        Self {
            memory: vec![0; workload.memory_length],
            counts: [0; 2],
            answers: vec![0; workload.calls],
            given: vec![0; workload.calls],
            values: vec![0; workload.calls],
        }
    }

    /// Plays the workload once: opens the queue, and for each event decodes it
    /// (in a replay), makes the call, and stores answer and value.
    ///
    /// # Panics
    /// When the workload is refused.
    pub fn play(&mut self, implementation: Implementation, workload: &Workload) {
        let Workload { table, trace, .. } = workload;
        // Counts that reach the last number would stop, and cost less.
        self.counts = [0; 2];
        let answer = match implementation {
            Proved => direct::replay(table, trace, self.lend_to_library()),
            Recorded => self.play_recorded(table, trace),
            Checked => refusal(replay::<true>(table, trace, self.lend())),
            Unchecked => refusal(replay::<false>(table, trace, self.lend())),
            Live => self.play_live(workload),
            InPlace => self.play_in_place(workload),
        };
        assert_eq!(answer, 0, "the workload was refused");
        black_box(&self.values);
    }

    fn play_recorded(&mut self, table: &[u8], trace: &[u8]) -> u32 {
        let none = lsq::ShiftRecord::default();
        let replayed = direct::replay_recorded(table, trace, self.lend_to_library(), none);
        black_box(&replayed.kept);
        replayed.answer
    }

    fn play_live(&mut self, workload: &Workload) -> u32 {
        let mut queue = match subject::open(&workload.table, &workload.header) {
            Ok(queue) => queue,
            Err(refusal) => return refusal.0,
        };
        let mut counts = lsq::Counts::default();
        for (place, event) in workload.events.iter().enumerate() {
            let made = subject::apply(&mut queue, &mut self.memory, &mut counts, event);
            self.note(place, made.map_err(|refusal| refusal.0 as u8));
        }
        self.counts = [counts.loads, counts.forwarded];
        0
    }

    fn play_in_place(&mut self, workload: &Workload) -> u32 {
        let table = Table::read(&workload.table);
        let mut queue = match table.and_then(|table| Queue::open(table, workload.header)) {
            Ok(queue) => queue,
            Err(refusal) => return refusal.into(),
        };
        let mut counts = Counts::default();
        for (place, event) in workload.events.iter().enumerate() {
            let made = queue.apply(event, &mut self.memory, &mut counts);
            self.note(place, made);
        }
        self.counts = [counts.loads, counts.forwarded];
        0
    }

    #[inline]
    fn note(&mut self, place: usize, outcome: Result<Option<u32>, u8>) {
        let value = outcome.ok().flatten();
        self.answers[place] = outcome.err().unwrap_or(0);
        self.given[place] = value.is_some().into();
        self.values[place] = value.unwrap_or(0);
    }

    fn lend(&mut self) -> Lent<'_> {
        Lent {
            memory: &mut self.memory,
            counts: &mut self.counts,
            answers: &mut self.answers,
            given: &mut self.given,
            values: &mut self.values,
        }
    }

    fn lend_to_library(&mut self) -> lsq::Lent<'_> {
        lsq::Lent {
            memory: &mut self.memory,
            counts: &mut self.counts,
            answers: &mut self.answers,
            given: &mut self.given,
            values: &mut self.values,
        }
    }
}

fn refusal(played: Result<(), u8>) -> u32 {
    u32::from(played.err().unwrap_or(0))
}

/// Whether all implementations give the same answers, values, memory and
/// counts.
#[must_use]
pub fn agree(workload: &Workload) -> bool {
    let played = |implementation| {
        let mut run = Run::new(workload);
        run.play(implementation, workload);
        run
    };
    let proved = played(Proved);
    let others = [Recorded, Checked, Unchecked, Live, InPlace];
    others.into_iter().all(|other| played(other) == proved)
}

/// Nanoseconds per event of a workload played `repeats` times.
fn per_event(time: Duration, repeats: usize, workload: &Workload) -> f64 {
    time.as_nanos() as f64 / (repeats * workload.calls) as f64
}

/// Nanoseconds per call of each of some implementations, round by round.
#[must_use]
pub fn rounds<const N: usize>(
    implementations: [Implementation; N],
    workload: &Workload,
    count: usize,
    sample: Duration,
) -> Vec<[f64; N]> {
    let mut run = Run::new(workload);
    let repeats = repeats(&mut run, workload, sample);
    let round = |_| {
        implementations.map(|implementation| {
            let start = processor_time();
            (0..repeats).for_each(|_| run.play(implementation, workload));
            per_event(processor_time() - start, repeats, workload)
        })
    };
    (0..count).map(round).collect()
}

/// How often a workload is played so that the checked Rust queue takes about
/// as long as a sample is to last.
fn repeats(run: &mut Run, workload: &Workload, sample: Duration) -> usize {
    let start = processor_time();
    let mut count = 0;
    while processor_time() - start < sample {
        run.play(Checked, workload);
        count += 1;
    }
    count
}

/// Nanoseconds per event that reading table and trace takes, without a call:
/// the library's and the reference's, the best of some.
#[must_use]
pub fn reading(workload: &Workload) -> [f64; 2] {
    let Workload { table, trace, .. } = workload;
    let best = |read: &dyn Fn() -> u32| {
        let once = || {
            let start = processor_time();
            (0..20).for_each(|_| assert_eq!(black_box(read()), 0));
            per_event(processor_time() - start, 20, workload)
        };
        (0..9).map(|_| once()).fold(f64::INFINITY, f64::min)
    };
    let proved = || direct::trace_fault(black_box(table), black_box(trace));
    let reference = || u32::from(trace_fault(black_box(table), black_box(trace)));
    [best(&proved), best(&reference)]
}

/// Nanoseconds that an order from pairs takes, round by round: the library's and
/// the reference's. Both are handed what was made before.
#[must_use]
pub fn ordering(case: &OrderCase, count: usize, sample: Duration) -> Vec<[f64; 2]> {
    let (accesses, held) = (case.accesses, case.held());
    let proved = || {
        black_box(direct::order(black_box(accesses), *black_box(&case.pairs)));
    };
    let reference = || {
        let _ = black_box(order(black_box(accesses), black_box(&held)));
    };
    let calls: [&dyn Fn(); 2] = [&proved, &reference];
    let round = |_| calls.map(|call| per_call(call, sample));
    (0..count).map(round).collect()
}

/// Nanoseconds per call, of as many as a sample lasts.
fn per_call(call: &dyn Fn(), sample: Duration) -> f64 {
    const AT_ONCE: u32 = 1_000;
    let start = processor_time();
    let mut calls = 0;
    while processor_time() - start < sample {
        (0..AT_ONCE).for_each(|_| call());
        calls += AT_ONCE;
    }
    (processor_time() - start).as_nanos() as f64 / f64::from(calls)
}

/// The middle, the least and the greatest of some figures.
#[derive(Clone, Copy, Debug, PartialEq)]
pub struct Spread {
    /// The middle one.
    pub middle: f64,
    /// The least one.
    pub least: f64,
    /// The greatest one.
    pub greatest: f64,
}

impl Spread {
    /// The spread of these figures, which are not none.
    #[must_use]
    pub fn of(figures: impl Iterator<Item = f64>) -> Self {
        let mut figures: Vec<f64> = figures.collect();
        figures.sort_by(f64::total_cmp);
        Self {
            middle: figures[figures.len() / 2],
            least: figures[0],
            greatest: figures[figures.len() - 1],
        }
    }
}
