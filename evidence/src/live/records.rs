//! Every live call on one record.

use lsq_ref::gen;
use lsq_ref::number::{byte_count, write_numbers};
use lsq_ref::queue::MAX_DEPTH;
use lsq_ref::rng::Rng;
use lsq_ref::shift::PAGE_BYTES;
use lsq_ref::{Event, Header, Queue};

use super::cases::RecordCase;
use super::compare::{Checker, Lent, State};
use super::record::held_table;
use super::subject::{Live, Ready};
use crate::buffers::Guarded;
use crate::compare::Difference;

/// Compares every call on the record of a case, each from that record.
///
/// # Errors
/// The first difference.
pub fn compare<S: Live>(checker: &mut Checker<S>, case: &RecordCase) -> Result<(), Difference> {
    let mut rng = Rng::new(!case.seed);
    let state = State::new(case.record.clone());
    let aim = state.queue.as_ref().unwrap_or(&case.made_from);
    let lent = lent_for(&mut rng, aim);
    checker.sound(&state)?;
    for ready in [Ready::Loads, Ready::Stores] {
        let run = run_for(&mut rng, &state, ready);
        checker.ready(&state, ready, &run)?;
    }
    for kind in 0..7 {
        let event = gen::call_of_kind(&mut rng, aim, kind);
        checker.call(&mut state.clone(), &mut lent.clone(), &event)?;
        if let Event::Take { port } = event {
            checker.take_recorded(&state, &mut gen::shift_record(&mut rng), port)?;
        }
    }
    write_and_read(checker, case, &mut rng)?;
    shift_record(checker, &mut rng)
}

/// A take that is recorded at any port of any record, and the page of it.
fn shift_record<S: Live>(checker: &mut Checker<S>, rng: &mut Rng) -> Result<(), Difference> {
    let record = gen::shift_record(rng);
    let inside = rng.between(0, 31);
    let any = any_number(rng);
    let port = rng.pick(&[inside, inside, inside, 31, 32, any]);
    checker.recorded(&record, port, any_number(rng))?;
    checker.page(&record, &page_buffer(rng))
}

/// A buffer that is just long enough for a page, longer, or too short.
#[must_use]
pub fn page_buffer(rng: &mut Rng) -> Guarded<u8> {
    let near = length_near(rng, PAGE_BYTES);
    let any = rng.below(2 * PAGE_BYTES);
    let length = rng.pick(&[near, near, near, 0, any]);
    Guarded::new(length, || rng.word() as u8)
}

/// A memory and counts for calls on this queue.
#[must_use]
pub fn lent_for(rng: &mut Rng, queue: &Queue) -> Lent {
    let memory = gen::memory_for(rng, queue);
    let mut words = memory.iter().copied();
    Lent {
        memory: Guarded::new(memory.len(), || words.next().unwrap_or(7)),
        counts: gen::counts(rng),
    }
}

/// A run of numbers that is just long enough for a ready call, longer, or too
/// short.
#[must_use]
pub fn run_for(rng: &mut Rng, state: &State, ready: Ready) -> Guarded<u32> {
    let mut all = [0; MAX_DEPTH as usize];
    let listed = match (&state.queue, ready) {
        (None, _) => Ok(&mut all[..0]),
        (Some(queue), Ready::Loads) => queue.ready_loads(&mut all),
        (Some(queue), Ready::Stores) => queue.ready_stores(&mut all),
    };
    let needed = listed.map_or(0, |front| front.len());
    let length = length_near(rng, needed);
    Guarded::new(length, || rng.word())
}

fn length_near(rng: &mut Rng, needed: usize) -> usize {
    let shorter = needed.saturating_sub(1);
    rng.pick(&[shorter, needed, needed, needed + 1, needed + 30])
}

fn buffer_near(rng: &mut Rng, needed: usize) -> Guarded<u8> {
    let length = length_near(rng, needed);
    Guarded::new(length, || rng.word() as u8)
}

/// The writers on numbers of the record and any others; then the table's bytes,
/// damaged or not, are read and opened.
fn write_and_read<S: Live>(
    checker: &mut Checker<S>,
    case: &RecordCase,
    rng: &mut Rng,
) -> Result<(), Difference> {
    let table = case.record.frame.table;
    let numbers = held_table(&table.parts()).numbers();
    let mut bytes = spelled(&numbers);
    checker.write_table(table, &buffer_near(rng, bytes.len()))?;
    let [first, second] = [any_number(rng), any_number(rng)];
    checker.write_number(first, &buffer_near(rng, byte_count(first)))?;
    let kind = rng.pick(&[0, 1, 2, 3, 4, 5, 6, 7, u32::MAX]);
    let needed = 1 + byte_count(first) + byte_count(second);
    checker.write_event([kind, first, second], &buffer_near(rng, needed))?;
    if rng.chance(1, 2) {
        gen::damage(rng, &mut bytes);
    }
    checker.read_table(&bytes)?;
    checker.open(&bytes, &any_header(rng, case)).map(|_| ())
}

fn spelled(numbers: &[u32]) -> Vec<u8> {
    let mut bytes = vec![0; 5 * numbers.len()];
    let count = write_numbers(numbers, &mut bytes).expect("five bytes for each number");
    bytes.truncate(count);
    bytes
}

/// A number of any length.
fn any_number(rng: &mut Rng) -> u32 {
    let bits = rng.below(32);
    rng.word() >> bits
}

/// The record's own depths and length, now and then spoiled.
fn any_header(rng: &mut Rng, case: &RecordCase) -> Header {
    let frame = &case.record.frame;
    let mut header = Header {
        load_depth: frame.loads.depth.max(1).into(),
        store_depth: frame.stores.depth.max(1).into(),
        first_serial: frame.loads.next,
        memory_length: frame.memory_length.into(),
    };
    if rng.chance(1, 4) {
        gen::spoil_header(rng, &mut header);
    }
    header
}
