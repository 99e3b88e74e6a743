//! One live call on both sides, and the first difference.

use std::fmt::Debug;

use lsq::record::{Counts, Frame, Side, Table, TableRead};
use lsq_ref::event::write_event;
use lsq_ref::number::write_number;
use lsq_ref::queue::Side as HeldSide;
use lsq_ref::refusal::{KIND, UNSOUND};
use lsq_ref::{
    Counts as HeldCounts, Event, Header, Queue, ShiftRecord as HeldShiftRecord, Table as HeldTable,
};

use super::record::{held_table, table_of, Record};
use super::subject::{Live, Made, Ready};
use super::tally::{LiveTally, Place};
use crate::buffers::Guarded;
use crate::compare::{same, same_run, same_shown, Difference};
use crate::shift::{library_record, same_record};

/// A record, and the queue that the reference takes it for.
#[derive(Clone, Debug)]
pub struct State {
    /// What the subject is handed.
    pub record: Record,
    /// What the reference is handed: none where a run has another length than
    /// 64, which is 40.
    pub queue: Option<Queue>,
}

impl State {
    /// The state of a record.
    #[must_use]
    pub fn new(record: Record) -> Self {
        let queue = record.held();
        Self { record, queue }
    }
}

/// What calls are lent besides.
#[derive(Clone, Debug)]
pub struct Lent {
    /// The memory.
    pub memory: Guarded<u32>,
    /// The counts.
    pub counts: HeldCounts,
}

/// Makes live calls on both sides.
pub struct Checker<'a, S> {
    /// Who is held to the reference.
    pub subject: &'a S,
    /// Where answers are counted.
    pub tally: &'a mut LiveTally,
}

impl<S: Live> Checker<'_, S> {
    /// Makes a call; the state and what is lent are then what follows.
    ///
    /// # Errors
    /// The first difference.
    pub fn call(
        &mut self,
        state: &mut State,
        lent: &mut Lent,
        event: &Event,
    ) -> Result<(), Difference> {
        let before = state.record.clone();
        let mut memory = lent.memory.clone();
        let counts = library_counts(lent.counts);
        let made = self
            .subject
            .call(&mut state.record, memory.lend(), counts, event);
        let outcome = match &mut state.queue {
            Some(queue) => queue.apply(event, lent.memory.lend(), &mut lent.counts),
            None => Err(UNSOUND),
        };
        let answer = outcome.err().unwrap_or(0);
        self.tally.note(Place::of(event), answer);
        if let (0, Some(queue)) = (answer, &state.queue) {
            self.tally.accepted(queue, event);
        }
        if answer == 0 && matches!(event, Event::Write { .. } | Event::Take { .. }) {
            self.tally
                .left(gone(before.frame.loads, state.record.frame.loads));
            self.tally
                .left(gone(before.frame.stores, state.record.frame.stores));
        }
        same_made(outcome, lent.counts, &made)
            .and_then(|()| same_run("left", "memory", &lent.memory, &memory))
            .and_then(|()| left(answer, &before, state))
            .map_err(|Difference(words)| Difference(format!("{event:?}, {words}")))
    }

    /// Takes from a copy of the state, and keeps the record of it, which is then
    /// what follows.
    ///
    /// # Errors
    /// The first difference.
    pub fn take_recorded(
        &mut self,
        state: &State,
        record: &mut HeldShiftRecord,
        port: u32,
    ) -> Result<(), Difference> {
        let (before, mut state) = (&state.record, state.clone());
        let handed = *record;
        let mut found = library_record(&handed);
        let made = self
            .subject
            .take_recorded(&mut state.record, &mut found, port);
        let outcome = match &mut state.queue {
            Some(queue) => queue.take_recorded(record, port),
            None => Err(UNSOUND),
        };
        let answer = outcome.err().unwrap_or(0);
        self.tally.note(Place::TakeRecorded, answer);
        if answer == 0 {
            self.tally.recorded(&handed, port);
        }
        same_made(outcome.map(Some), HeldCounts::default(), &made)
            .and_then(|()| left(answer, before, &state))
            .and_then(|()| same_record("record", record, &found))
            .map_err(|Difference(words)| Difference(format!("TakeRecorded of {port}, {words}")))
    }

    /// Compares a record once a value was taken at a port, which may be any.
    ///
    /// # Errors
    /// The difference.
    pub fn recorded(
        &mut self,
        record: &HeldShiftRecord,
        port: u32,
        value: u32,
    ) -> Result<(), Difference> {
        let mut expected = *record;
        expected.recorded(port, value);
        self.tally.note(Place::Recorded, 0);
        self.tally.recorded(record, port);
        let found = self.subject.recorded(library_record(record), port, value);
        same_record(&format!("Recorded at {port}"), &expected, &found)
    }

    /// Compares the page of a record in a buffer that it may be too long for.
    ///
    /// # Errors
    /// The first difference.
    pub fn page(&mut self, record: &HeldShiftRecord, out: &Guarded<u8>) -> Result<(), Difference> {
        let (mut expected, mut found) = (out.clone(), out.clone());
        let outcome = record.write_page(expected.lend());
        let written = self.subject.page(library_record(record), found.lend());
        self.tally.paged(record, out.length());
        self.answered(Place::Page, outcome, written.answer, written.count)?;
        same_run("Page", "out", &expected, &found)
    }

    /// Compares a ready call with a run of numbers that it may be too short for.
    ///
    /// # Errors
    /// The first difference.
    pub fn ready(
        &mut self,
        state: &State,
        ready: Ready,
        run: &Guarded<u32>,
    ) -> Result<(), Difference> {
        let (mut expected, mut found) = (run.clone(), run.clone());
        let listed = self.subject.ready(&state.record, ready, found.lend());
        let outcome = match (&state.queue, ready) {
            (None, _) => Err(UNSOUND),
            (Some(queue), Ready::Loads) => queue.ready_loads(expected.lend()),
            (Some(queue), Ready::Stores) => queue.ready_stores(expected.lend()),
        };
        let outcome = outcome.map(|front| front.len());
        let place = Place::of_ready(ready);
        if let Ok(count) = outcome {
            self.tally.listed(count);
        }
        self.answered(place, outcome, listed.answer, listed.count)?;
        same_run(&format!("{place:?}"), "out", &expected, &found)
    }

    /// Compares whether the record is sound.
    ///
    /// # Errors
    /// The difference.
    pub fn sound(&mut self, state: &State) -> Result<(), Difference> {
        let sound = state.queue.as_ref().is_some_and(Queue::sound);
        self.tally
            .note(Place::Sound, if sound { 0 } else { UNSOUND });
        same("Sound", u32::from(sound), self.subject.sound(&state.record))
    }

    /// Compares an opening, and gives its frame where it is accepted.
    ///
    /// # Errors
    /// The first difference.
    pub fn open(&mut self, table: &[u8], header: &Header) -> Result<Option<Frame>, Difference> {
        let opened = self.subject.open(table, header);
        let queue = HeldTable::read(table).and_then(|table| Queue::open(table, *header));
        let answer = queue.as_ref().err().copied().unwrap_or(0);
        self.tally.note(Place::Open, answer);
        same("Open", u32::from(answer), opened.answer)?;
        let frame = queue.as_ref().map_or(Frame::default(), fresh_frame);
        same_shown("Open, frame", &frame, &opened.frame)?;
        Ok(queue.ok().map(|_| frame))
    }

    /// Compares the reading of a table.
    ///
    /// # Errors
    /// The first difference.
    pub fn read_table(&mut self, bytes: &[u8]) -> Result<(), Difference> {
        let read = HeldTable::read(bytes);
        let answer = read.as_ref().err().copied().unwrap_or(0);
        self.tally.note(Place::ReadTable, answer);
        let expected = TableRead {
            answer: answer.into(),
            table: read.map_or(Table::default(), |table| Table::new(table_of(&table))),
        };
        same_shown("ReadTable", &expected, &self.subject.read_table(bytes))
    }

    /// Compares the writing of a table's record, whatever it holds, into a
    /// buffer that it may be too long for.
    ///
    /// # Errors
    /// The first difference.
    pub fn write_table(&mut self, table: Table, out: &Guarded<u8>) -> Result<(), Difference> {
        let held = held_table(&table.parts());
        let (mut expected, mut found) = (out.clone(), out.clone());
        let outcome = held.write(expected.lend());
        let written = self.subject.write_table(table, found.lend());
        self.answered(Place::WriteTable, outcome, written.answer, written.count)?;
        same_run("WriteTable", "out", &expected, &found)
    }

    /// Compares the writing of a number.
    ///
    /// # Errors
    /// The first difference.
    pub fn write_number(&mut self, value: u32, out: &Guarded<u8>) -> Result<(), Difference> {
        let (mut expected, mut found) = (out.clone(), out.clone());
        let outcome = write_number(value, expected.lend());
        let written = self.subject.write_number(value, found.lend());
        self.answered(Place::WriteNumber, outcome, written.answer, written.count)?;
        same_run("WriteNumber", "out", &expected, &found)
    }

    /// Compares the writing of an event from its kind and numbers.
    ///
    /// # Errors
    /// The first difference.
    pub fn write_event(&mut self, numbers: [u32; 3], out: &Guarded<u8>) -> Result<(), Difference> {
        let [kind, first, second] = numbers;
        let (mut expected, mut found) = (out.clone(), out.clone());
        let outcome = match event_of(kind, first, second) {
            Some(event) => write_event(&event, expected.lend()),
            None => Err(KIND),
        };
        let written = self.subject.write_event(kind, first, second, found.lend());
        self.answered(Place::WriteEvent, outcome, written.answer, written.count)?;
        same_run("WriteEvent", "out", &expected, &found)
    }

    /// Compares the answer and the count of a call that fills a front.
    fn answered(
        &mut self,
        place: Place,
        outcome: Result<usize, u8>,
        answer: u32,
        count: u64,
    ) -> Result<(), Difference> {
        let number = outcome.err().unwrap_or(0);
        self.tally.note(place, number);
        same(&format!("{place:?}"), u32::from(number), answer)?;
        let expected = outcome.unwrap_or(0) as u64;
        same(&format!("{place:?}, count"), expected, count)
    }
}

fn library_counts(HeldCounts { loads, forwarded }: HeldCounts) -> Counts {
    Counts { loads, forwarded }
}

/// The frame of a queue that holds no entry.
fn fresh_frame(queue: &Queue) -> Frame {
    let side = |depth: u32, next| Side {
        depth: depth as u8,
        count: 0,
        next,
    };
    Frame {
        table: Table::new(table_of(&queue.table)),
        memory_length: queue.memory_length as u16,
        loads: side(queue.load_depth, queue.loads.next_serial),
        stores: side(queue.store_depth, queue.stores.next_serial),
    }
}

fn event_of(kind: u32, first: u32, second: u32) -> Option<Event> {
    let event = match kind {
        0 => Event::Activate { group: first },
        1 => Event::LoadAddress {
            port: first,
            address: second,
        },
        2 => Event::StoreAddress {
            port: first,
            address: second,
        },
        3 => Event::StoreData {
            port: first,
            word: second,
        },
        4 => Event::Serve { serial: first },
        5 => Event::Write { serial: first },
        6 => Event::Take { port: first },
        _ => return None,
    };
    Some(event)
}

/// How many entries a side has lost.
fn gone(before: Side, after: Side) -> usize {
    before.count.saturating_sub(after.count).into()
}

fn same_made(
    outcome: Result<Option<u32>, u8>,
    counts: HeldCounts,
    made: &Made,
) -> Result<(), Difference> {
    same("answer", outcome.err().unwrap_or(0).into(), made.answer)?;
    let value = outcome.ok().flatten();
    same("given", value.is_some().into(), made.given)?;
    same("value", value.unwrap_or(0), made.value)?;
    same_shown("counts", &library_counts(counts), &made.counts)
}

/// What a call must leave of the record.
fn left(answer: u8, before: &Record, state: &State) -> Result<(), Difference> {
    match answer {
        0 => followed(before, state),
        _ => kept(before, &state.record),
    }
}

/// "Everything handed in or lent keeps its contents."
fn kept(before: &Record, after: &Record) -> Result<(), Difference> {
    same_shown("refused, frame", &before.frame, &after.frame)?;
    same_run("refused", "loads", &before.loads, &after.loads)?;
    same_run("refused", "stores", &before.stores, &after.stores)
}

/// The record holds what the rules give, and nothing beside the runs changed.
fn followed(before: &Record, state: &State) -> Result<(), Difference> {
    let after = &state.record;
    match (&state.queue, after.held()) {
        (Some(expected), Some(found)) => same_queue(expected, &found)?,
        (expected, found) => same_shown("queue", expected, &found)?,
    }
    let loads_kept = before.loads.same_margins(&after.loads);
    let stores_kept = before.stores.same_margins(&after.stores);
    same("margins kept", true, loads_kept && stores_kept)
}

fn same_queue(expected: &Queue, found: &Queue) -> Result<(), Difference> {
    same_shown("table", &expected.table, &found.table)?;
    same("load depth", expected.load_depth, found.load_depth)?;
    same("store depth", expected.store_depth, found.store_depth)?;
    same("memory length", expected.memory_length, found.memory_length)?;
    same_side("loads", &expected.loads, &found.loads)?;
    same_side("stores", &expected.stores, &found.stores)
}

fn same_side<E: PartialEq + Debug>(
    name: &str,
    expected: &HeldSide<E>,
    found: &HeldSide<E>,
) -> Result<(), Difference> {
    if expected == found {
        return Ok(());
    }
    same_shown(
        &format!("next serial of {name}"),
        &expected.next_serial,
        &found.next_serial,
    )?;
    let (mine, others) = (&expected.entries, &found.entries);
    same(&format!("{name} held"), mine.len(), others.len())?;
    let differ = |&place: &usize| mine[place] != others[place];
    let place = (0..mine.len()).find(differ).unwrap_or(0);
    same_shown(&format!("{name}[{place}]"), &mine[place], &others[place])
}
