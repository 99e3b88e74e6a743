//! A whole trace played in one call, on memory, counts, buffers and a shift
//! record that the caller lends; what a library for other languages offers.

use crate::counts::Counts;
use crate::event::{read_header, Event, EventReader, Step};
use crate::queue::LoadStoreQueue;
use crate::refusal;
use crate::shift::ShiftRecord;
use crate::table::Table;

/// What a replay is lent.
#[derive(Debug)]
pub struct Lent<'a> {
    /// As many words as the trace's fourth leading number says.
    pub memory: &'a mut [u32],
    /// Loads, forwarded; more places keep their contents.
    pub counts: &'a mut [u32],
    /// A place or more for each event.
    pub answers: &'a mut [u8],
    /// A place or more for each event: 1 where it gave a value, else 0.
    pub given: &'a mut [u8],
    /// A place or more for each event: the value, or 0.
    pub values: &'a mut [u32],
}

/// 0 where the bytes spell a right table, else 1 to 9 or 42.
#[must_use]
pub fn table_fault(table: &[u8]) -> u8 {
    Table::read(table).err().unwrap_or(refusal::ACCEPTED)
}

/// 0, or the table's fault, or else the trace's: "a fault in the trace's four
/// leading numbers, then in opening, then in any event".
#[must_use]
pub fn trace_fault(table: &[u8], trace: &[u8]) -> u8 {
    let opened = open::<true>(table, trace);
    opened.err().unwrap_or(refusal::ACCEPTED)
}

/// How many events the trace has; 0 where [`trace_fault`] is not 0.
#[must_use]
pub fn event_count(table: &[u8], trace: &[u8]) -> u64 {
    open::<true>(table, trace).map_or(0, |opened| opened.count as u64)
}

/// The memory length that the trace asks for; 0 where [`trace_fault`] is not 0.
#[must_use]
pub fn memory_length(table: &[u8], trace: &[u8]) -> u32 {
    open::<true>(table, trace).map_or(0, |opened| opened.queue.memory_length)
}

/// Plays every event of the trace from a fresh opening. Answers, whether a
/// value was given, and values stand at the front of their buffers.
///
/// # Errors
/// The table's; 10 where counts are fewer than two; the trace's; 30 where the
/// lent memory has another length than the trace says; 10 where a buffer is
/// shorter than the events. Everything lent then keeps its contents.
pub fn replay<const CHECKED: bool>(table: &[u8], trace: &[u8], lent: Lent) -> Result<(), u8> {
    replay_watched::<CHECKED>(table, trace, lent, |_, _, _| {})
}

/// [`replay`], with a look at the queue, the event and its outcome after each
/// call.
///
/// # Errors
/// Those of [`replay`].
pub fn replay_watched<const CHECKED: bool>(
    table: &[u8],
    trace: &[u8],
    lent: Lent,
    mut watch: impl FnMut(&LoadStoreQueue<CHECKED>, &Event, Result<Option<u32>, u8>),
) -> Result<(), u8> {
    let table = Table::read(table)?;
    let opened = open_lent::<CHECKED>(table, trace, &lent)?;
    play(opened, lent, |queue, event, memory, counts| {
        let outcome = queue.apply(event, memory, counts);
        watch(queue, event, outcome);
        outcome
    });
    Ok(())
}

/// [`replay`] with a lent record, which "each accepted take updates" from what
/// it holds.
///
/// # Errors
/// Those of [`replay`]. The record too then keeps its contents.
pub fn replay_recorded<const CHECKED: bool>(
    table: &[u8],
    trace: &[u8],
    lent: Lent,
    record: &mut ShiftRecord,
) -> Result<(), u8> {
    replay_recorded_watched::<CHECKED>(table, trace, lent, record, |_, _, _| {})
}

/// [`replay_recorded`], with the look of [`replay_watched`].
///
/// # Errors
/// Those of [`replay_recorded`].
pub fn replay_recorded_watched<const CHECKED: bool>(
    table: &[u8],
    trace: &[u8],
    lent: Lent,
    record: &mut ShiftRecord,
    mut watch: impl FnMut(&LoadStoreQueue<CHECKED>, &Event, Result<Option<u32>, u8>),
) -> Result<(), u8> {
    let table = Table::read(table)?;
    let opened = open_lent::<CHECKED>(table, trace, &lent)?;
    play(opened, lent, |queue, event, memory, counts| {
        let outcome = queue.apply_recorded(event, memory, counts, record);
        watch(queue, event, outcome);
        outcome
    });
    Ok(())
}

/// A fresh queue for what is lent: the checks that follow the table's.
fn open_lent<'a, const CHECKED: bool>(
    table: Table,
    trace: &'a [u8],
    lent: &Lent,
) -> Result<Opened<'a, CHECKED>, u8> {
    if lent.counts.len() < 2 {
        return Err(refusal::TOO_SHORT);
    }
    let opened = open_on::<CHECKED>(table, trace)?;
    if lent.memory.len() != opened.queue.memory_length as usize {
        return Err(refusal::OTHER_MEMORY);
    }
    let room = lent.answers.len().min(lent.given.len());
    if room.min(lent.values.len()) < opened.count {
        return Err(refusal::TOO_SHORT);
    }
    Ok(opened)
}

/// A fresh queue and its events, which can all be read.
struct Opened<'a, const CHECKED: bool> {
    queue: LoadStoreQueue<CHECKED>,
    events: EventReader<'a>,
    count: usize,
}

fn open<'a, const CHECKED: bool>(table: &[u8], trace: &'a [u8]) -> Result<Opened<'a, CHECKED>, u8> {
    open_on(Table::read(table)?, trace)
}

fn open_on<const CHECKED: bool>(table: Table, trace: &[u8]) -> Result<Opened<'_, CHECKED>, u8> {
    let (header, at) = read_header(trace)?;
    let queue = LoadStoreQueue::open(table, header)?;
    let count = count_events(trace, at)?;
    let events = EventReader { bytes: trace, at };
    Ok(Opened {
        queue,
        events,
        count,
    })
}

fn count_events(bytes: &[u8], at: usize) -> Result<usize, u8> {
    let mut events = EventReader { bytes, at };
    let mut count = 0;
    loop {
        match events.step() {
            Step::End => return Ok(count),
            Step::Event(..) => count += 1,
            Step::Refused(refusal) => return Err(refusal),
        }
    }
}

/// Has each event's call made by `call`, lent memory and counts.
fn play<const CHECKED: bool>(
    opened: Opened<CHECKED>,
    lent: Lent,
    mut call: impl FnMut(
        &mut LoadStoreQueue<CHECKED>,
        &Event,
        &mut [u32],
        &mut Counts,
    ) -> Result<Option<u32>, u8>,
) {
    let (mut queue, mut events) = (opened.queue, opened.events);
    let mut counts = Counts {
        loads: lent.counts[0],
        forwarded: lent.counts[1],
    };
    let mut places = lent.answers.iter_mut().zip(lent.given).zip(lent.values);
    while let Step::Event(event, _) = events.step() {
        let outcome = call(&mut queue, &event, lent.memory, &mut counts);
        if let Some(((answer, given), word)) = places.next() {
            let value = outcome.ok().flatten();
            *answer = outcome.err().unwrap_or(refusal::ACCEPTED);
            *given = u8::from(value.is_some());
            *word = value.unwrap_or(0);
        }
    }
    lent.counts[0] = counts.loads;
    lent.counts[1] = counts.forwarded;
}
