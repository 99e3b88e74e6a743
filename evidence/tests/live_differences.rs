//! The comparison of live calls finds what it looks for: subjects that are right
//! but for one thing, and the record or the list in which that shows.

use std::cell::Cell;

use evidence::buffers::Guarded;
use evidence::cases::Case;
use evidence::compare::Difference;
use evidence::live::cases::{blank, RecordCase};
use evidence::live::compare::Checker;
use evidence::live::record::{held_table, table_of, Record};
use evidence::live::subject::{Live, Made, Ready};
use evidence::live::tally::{LiveTally, IN_LISTS, IN_RECORDS};
use evidence::live::{lists, records};
use evidence::shift::{held_record, library_record};
use evidence::tally::activates_empty;
use lsq::record::{Counts, Frame, Listed, Opened, ShiftRecord, Table, TableRead, Written};
use lsq_ref::number::{write_number, write_numbers};
use lsq_ref::rng::Rng;
use lsq_ref::shift::PAGE_BYTES;
use lsq_ref::{Event, Header, Queue, Table as HeldTable};

/// What a subject does wrong.
#[derive(Clone, Copy, Debug, PartialEq, Eq)]
enum Fault {
    Right,
    Answer,
    Given,
    Value,
    Loads,
    Forwarded,
    Word,
    WordWhenRefused,
    LoadEntry,
    StoreEntry,
    Remembered,
    Count,
    NextSerial,
    EmptyWhenFull,
    Depth,
    TableLost,
    LoadsWhenRefused,
    StoresWhenRefused,
    FrameWhenRefused,
    LongRuns,
    NeverUnsound,
    OpenAnswer,
    OpenFrame,
    OpenFrameWhenRefused,
    ReadyAnswer,
    ReadyCount,
    ReadySerial,
    ReadyBehind,
    ReadyWhenShort,
    ReadPlaceBehind,
    ReadWhenRefused,
    TableCount,
    TableBehind,
    TableWhenShort,
    NumberWhenShort,
    EventWhenShort,
    EventSecond,
    EventKind,
    TakenAnswer,
    TakenValue,
    TakenEntry,
    TakenRecord,
    TakenRecordLeft,
    TakenWhenRefused,
    TakenRecordWhenRefused,
    RecordedPastStop,
    RecordedValue,
    RecordedOther,
    RecordedAbove,
    PageAnswer,
    PageCount,
    PageLastByte,
    PageNoTake,
    PageBehind,
    PageWhenShort,
}

use Fault::*;

const OF_CALLS: [Fault; 18] = [
    Answer,
    Given,
    Value,
    Loads,
    Forwarded,
    Word,
    WordWhenRefused,
    LoadEntry,
    StoreEntry,
    Remembered,
    Count,
    NextSerial,
    EmptyWhenFull,
    Depth,
    TableLost,
    LoadsWhenRefused,
    StoresWhenRefused,
    FrameWhenRefused,
];

/// With a record, in lists too.
const OF_TAKES: [Fault; 13] = [
    TakenAnswer,
    TakenValue,
    TakenEntry,
    TakenRecord,
    TakenRecordLeft,
    TakenWhenRefused,
    TakenRecordWhenRefused,
    PageAnswer,
    PageCount,
    PageLastByte,
    PageNoTake,
    PageBehind,
    PageWhenShort,
];

const BESIDE_CALLS: [Fault; 23] = [
    LongRuns,
    NeverUnsound,
    OpenAnswer,
    OpenFrame,
    OpenFrameWhenRefused,
    ReadyAnswer,
    ReadyCount,
    ReadySerial,
    ReadyBehind,
    ReadyWhenShort,
    ReadPlaceBehind,
    ReadWhenRefused,
    TableCount,
    TableBehind,
    TableWhenShort,
    NumberWhenShort,
    EventWhenShort,
    EventSecond,
    EventKind,
    RecordedPastStop,
    RecordedValue,
    RecordedOther,
    RecordedAbove,
];

/// The reference on records, but for a fault. It notes whether it did the wrong
/// thing.
struct Broken {
    fault: Fault,
    shown: Cell<bool>,
}

impl Broken {
    fn new(fault: Fault) -> Self {
        let shown = Cell::new(false);
        Self { fault, shown }
    }

    /// Whether to do the wrong thing now.
    fn does(&self, fault: Fault, possible: bool) -> bool {
        let does = self.fault == fault && possible;
        self.shown.set(self.shown.get() || does);
        does
    }

    fn spoil_accepted(&self, record: &mut Record, memory: &mut [u32], event: &Event) {
        let Frame { loads, stores, .. } = &mut record.frame;
        let (load, store) = (&mut record.loads.lend()[0], &mut record.stores.lend()[0]);
        let filled = |entry: u64| entry >> 6 & 1 == 1;
        if self.does(LoadEntry, loads.count > 0 && filled(*load)) {
            *load ^= 1 << 40;
        }
        if self.does(StoreEntry, stores.count > 0) {
            *store ^= 1 << 5;
        }
        let leaves = matches!(event, Event::Write { .. } | Event::Take { .. });
        if self.does(Remembered, leaves && stores.count > 0) {
            *store ^= 1 << 8;
        }
        if self.does(Count, loads.count > 1) {
            loads.count -= 1;
        }
        if self.does(NextSerial, matches!(event, Event::Activate { .. })) {
            stores.next ^= 1;
        }
        if self.does(Depth, leaves) {
            stores.depth ^= 1;
        }
        if self.does(TableLost, leaves) {
            record.frame.table = Table::default();
        }
        if self.does(Word, leaves && !memory.is_empty()) {
            memory[0] ^= 1;
        }
    }

    fn spoil_refused(&self, record: &mut Record, memory: &mut [u32], answer: u32) {
        if self.does(WordWhenRefused, !memory.is_empty()) {
            memory[0] ^= 1;
        }
        // Beyond the counts too a refused call keeps what it was lent.
        let last = |run: &mut [u64]| run.iter_mut().next_back().map_or((), |last| *last ^= 1);
        if self.does(LoadsWhenRefused, answer == 24) {
            last(record.loads.lend());
        }
        if self.does(StoresWhenRefused, answer == 25) {
            last(record.stores.lend());
        }
        if self.does(FrameWhenRefused, answer == 21) {
            record.frame.stores.next ^= 1;
        }
    }

    fn spoil_made(&self, made: &mut Made, event: &Event) {
        if self.does(Answer, made.answer == 28) {
            made.answer = 29;
        }
        if self.does(Given, made.given == 1) {
            made.given = 0;
        }
        if self.does(Value, made.given == 1 && made.value > 0) {
            made.value -= 1;
        }
        let served = made.answer == 0 && matches!(event, Event::Serve { .. });
        if self.does(Loads, served) {
            made.counts.loads ^= 1;
        }
        if self.does(Forwarded, served) {
            made.counts.forwarded ^= 1;
        }
    }

    /// The queue of a record, where its lengths are right.
    fn held(&self, record: &Record) -> Option<Queue> {
        let long = record.loads.length() > 64 && record.stores.length() == 64;
        if !long {
            return record.held();
        }
        let mut cut = record.clone();
        cut.loads = Guarded::new(64, || 0);
        cut.loads.lend().copy_from_slice(&record.loads.run()[..64]);
        // Where it is unsound too, the answer is 40 either way.
        let queue = cut.held().filter(Queue::sound);
        queue.filter(|_| self.does(LongRuns, true))
    }

    fn written(&self, outcome: Result<usize, u8>, out: &mut [u8], when_short: Fault) -> Written {
        if self.does(when_short, outcome == Err(10) && !out.is_empty()) {
            out[0] ^= 1;
        }
        Written {
            answer: outcome.err().unwrap_or(0).into(),
            count: outcome.unwrap_or(0) as u64,
        }
    }
}

impl Live for Broken {
    fn open(&self, table: &[u8], header: &Header) -> Opened {
        let queue = HeldTable::read(table).and_then(|table| Queue::open(table, *header));
        let mut record = blank(&mut Rng::new(0));
        if let Ok(queue) = &queue {
            record.hold(queue);
        }
        let answer = u32::from(queue.err().unwrap_or(0));
        if self.does(OpenFrame, answer == 0) {
            record.frame.loads.next ^= 1;
        }
        if self.does(OpenFrameWhenRefused, answer == 14) {
            record.frame.memory_length = 1;
        }
        Opened {
            answer: answer + u32::from(self.does(OpenAnswer, answer == 12)),
            frame: record.frame,
        }
    }

    fn sound(&self, record: &Record) -> u32 {
        let sound = self.held(record).is_some_and(|queue| queue.sound());
        u32::from(sound || self.does(NeverUnsound, !sound))
    }

    fn call(&self, record: &mut Record, memory: &mut [u32], counts: Counts, event: &Event) -> Made {
        let Counts { loads, forwarded } = counts;
        let mut counts = lsq_ref::Counts { loads, forwarded };
        let outcome = match self.held(record) {
            None => Err(40),
            Some(mut queue) => {
                let outcome = queue.apply(event, memory, &mut counts);
                if outcome.is_ok() {
                    record.hold_calls(&queue);
                }
                let (_, when_full) = activates_empty(&queue, event);
                match self.does(EmptyWhenFull, outcome.is_ok() && when_full) {
                    true => Err(21),
                    false => outcome,
                }
            }
        };
        let answer = u32::from(outcome.err().unwrap_or(0));
        match answer {
            0 => self.spoil_accepted(record, memory, event),
            _ => self.spoil_refused(record, memory, answer),
        }
        let value = outcome.ok().flatten();
        let lsq_ref::Counts { loads, forwarded } = counts;
        let mut made = Made {
            answer,
            given: value.is_some().into(),
            value: value.unwrap_or(0),
            counts: Counts { loads, forwarded },
        };
        self.spoil_made(&mut made, event);
        made
    }

    fn ready(&self, record: &Record, ready: Ready, out: &mut [u32]) -> Listed {
        let queue = self.held(record);
        let listed = match (&queue, ready) {
            (None, _) => Err(40),
            (Some(queue), Ready::Loads) => queue.ready_loads(out),
            (Some(queue), Ready::Stores) => queue.ready_stores(out),
        };
        let outcome = listed.map(|front| front.len());
        let (answer, count) = (outcome.err().unwrap_or(0), outcome.unwrap_or(0));
        if self.does(ReadySerial, count > 2) {
            out.swap(0, 1);
        }
        if self.does(ReadyBehind, answer == 0 && out.len() > count) {
            out[count] ^= 1;
        }
        if self.does(ReadyWhenShort, answer == 10 && !out.is_empty()) {
            out[0] ^= 1;
        }
        Listed {
            answer: u32::from(answer) + u32::from(self.does(ReadyAnswer, answer == 10)),
            count: count as u64 + u64::from(self.does(ReadyCount, count > 0)),
        }
    }

    fn read_table(&self, bytes: &[u8]) -> TableRead {
        let read = HeldTable::read(bytes);
        let mut parts = read.as_ref().map(table_of).unwrap_or_default();
        if self.does(ReadPlaceBehind, read.is_ok() && parts.count < 16) {
            parts.groups[15].loads = 1;
        }
        if self.does(ReadWhenRefused, read == Err(9)) {
            parts.count = 1;
        }
        TableRead {
            answer: read.err().unwrap_or(0).into(),
            table: Table::new(parts),
        }
    }

    fn write_table(&self, table: Table, out: &mut [u8]) -> Written {
        let outcome = held_table(&table.parts()).write(out);
        let mut written = self.written(outcome, out, TableWhenShort);
        let behind = written.count as usize;
        if self.does(TableBehind, behind > 0 && behind < out.len()) {
            out[behind] ^= 1;
        }
        written.count += u64::from(self.does(TableCount, behind > 20));
        written
    }

    fn write_number(&self, value: u32, out: &mut [u8]) -> Written {
        self.written(write_number(value, out), out, NumberWhenShort)
    }

    fn write_event(&self, kind: u32, first: u32, second: u32, out: &mut [u8]) -> Written {
        let one = kind == 0 || kind > 3;
        let numbers: &[u32] = match one && !self.does(EventSecond, kind < 7) {
            true => &[kind, first],
            false => &[kind, first, second],
        };
        let outcome = match kind > 6 && !self.does(EventKind, kind == 7) {
            true => Err(35),
            false => write_numbers(numbers, out),
        };
        self.written(outcome, out, EventWhenShort)
    }

    fn take_recorded(&self, record: &mut Record, kept: &mut ShiftRecord, port: u32) -> Made {
        let counts = Counts::default();
        let mut made = self.call(record, &mut [], counts, &Event::Take { port });
        match made.answer {
            0 => self.spoil_taken(record, &mut made, kept, port),
            _ => self.spoil_untaken(record, kept, &mut made.answer),
        }
        made
    }

    fn recorded(&self, kept: ShiftRecord, port: u32, value: u32) -> ShiftRecord {
        let mut after = held_record(&kept);
        after.recorded(port, value);
        let mut after = library_record(&after);
        let Some(place) = kept.takes.get(port as usize) else {
            if self.does(RecordedAbove, port == 32) {
                after.values[31] ^= 1;
            }
            return after;
        };
        if self.does(RecordedPastStop, *place == u32::MAX) {
            after.takes[port as usize] = 0;
        }
        if self.does(RecordedValue, *place == u32::MAX) {
            after.values[port as usize] ^= 1;
        }
        if self.does(RecordedOther, port < 31) {
            after.takes[port as usize + 1] ^= 1;
        }
        after
    }

    fn page(&self, kept: ShiftRecord, out: &mut [u8]) -> Written {
        let record = held_record(&kept);
        let outcome = record.write_page(out);
        let mut written = Written {
            answer: outcome.err().unwrap_or(0).into(),
            count: outcome.unwrap_or(0) as u64,
        };
        self.spoil_page(&kept, &mut written, out);
        written
    }
}

/// What it does wrong with records and pages.
impl Broken {
    fn spoil_taken(&self, record: &mut Record, made: &mut Made, kept: &mut ShiftRecord, port: u32) {
        let before = *kept;
        *kept = self.recorded(before, port, made.value);
        if self.does(TakenRecord, before.takes[port as usize] > 0) {
            kept.takes[port as usize] ^= 1;
        }
        if self.does(TakenRecordLeft, *kept != before) {
            *kept = before;
        }
        if self.does(TakenValue, made.value > 0) {
            made.value -= 1;
        }
        if self.does(TakenEntry, record.frame.stores.count > 0) {
            record.stores.lend()[0] ^= 1 << 5;
        }
    }

    fn spoil_untaken(&self, record: &mut Record, kept: &mut ShiftRecord, answer: &mut u32) {
        if self.does(TakenWhenRefused, *answer == 33) {
            record.frame.loads.next ^= 1;
        }
        if self.does(TakenRecordWhenRefused, *answer == 34) {
            kept.takes[31] ^= 1;
        }
        if self.does(TakenAnswer, *answer == 22) {
            *answer = 33;
        }
    }

    fn spoil_page(&self, kept: &ShiftRecord, written: &mut Written, out: &mut [u8]) {
        let written_all = written.answer == 0;
        // The last port's value ends before the line feed and the footer.
        let (digit, last) = (PAGE_BYTES - 43, PAGE_BYTES - 1);
        let ones = (kept.values[31] % 10) as u8;
        if self.does(PageNoTake, written_all && kept.takes[31] == 0 && ones > 0) {
            out[digit] = b'0' + ones;
        }
        if self.does(PageLastByte, written_all) {
            out[last] = b' ';
        }
        if self.does(PageBehind, out.len() > PAGE_BYTES) {
            out[PAGE_BYTES] ^= 1;
        }
        if self.does(PageWhenShort, !written_all && !out.is_empty()) {
            out[0] ^= 1;
        }
        written.count += u64::from(self.does(PageCount, written_all));
        if self.does(PageAnswer, written.answer == 41) {
            written.answer = 10;
        }
    }
}

/// The first difference in what is compared from one seed on, and whether the
/// subject did the wrong thing there and never before.
fn first_difference(
    fault: Fault,
    seeds: u64,
    compare: impl Fn(&Broken, u64) -> Result<(), Difference>,
) -> Option<(u64, Difference, bool)> {
    let subject = Broken::new(fault);
    for seed in 0..seeds {
        let before = subject.shown.get();
        if let Err(difference) = compare(&subject, seed) {
            return Some((seed, difference, !before && subject.shown.get()));
        }
    }
    None
}

fn in_records(fault: Fault) -> Option<(u64, Difference, bool)> {
    first_difference(fault, 4_000, |subject, seed| {
        let tally = &mut LiveTally::new(IN_RECORDS);
        records::compare(&mut Checker { subject, tally }, &RecordCase::new(seed))
    })
}

fn in_lists(fault: Fault) -> Option<(u64, Difference, bool)> {
    first_difference(fault, 200, |subject, seed| {
        let tally = &mut LiveTally::new(IN_LISTS);
        lists::compare(&mut Checker { subject, tally }, &Case::new(seed))
    })
}

fn assert_found(fault: Fault, found: Option<(u64, Difference, bool)>) {
    let (seed, difference, at_once) = found.unwrap_or_else(|| panic!("{fault:?} not found"));
    assert!(at_once, "{fault:?} found late, seed {seed}: {difference:?}");
}

#[test]
fn the_reference_does_not_differ_from_itself() {
    assert_eq!(in_records(Right), None);
    assert_eq!(in_lists(Right), None);
}

#[test]
fn every_fault_is_found_on_the_record_where_it_first_shows() {
    for fault in OF_CALLS.into_iter().chain(OF_TAKES).chain(BESIDE_CALLS) {
        assert_found(fault, in_records(fault));
    }
}

#[test]
fn every_fault_of_a_call_is_found_in_the_list_where_it_first_shows() {
    for fault in OF_CALLS.into_iter().chain(OF_TAKES) {
        assert_found(fault, in_lists(fault));
    }
}

#[test]
fn the_same_seed_shows_it_again() {
    let (seed, difference, _) = in_records(Value).expect("a difference");
    let tally = &mut LiveTally::new(IN_RECORDS);
    let subject = &Broken::new(Value);
    let again = records::compare(&mut Checker { subject, tally }, &RecordCase::new(seed));
    assert_eq!(again, Err(difference));
}

#[test]
fn what_was_never_answered_is_told() {
    let tally = &mut LiveTally::new(IN_RECORDS);
    let nothing = tally.missing().len();
    let subject = &Broken::new(Right);
    for seed in 0..40 {
        let case = RecordCase::new(seed);
        let compared = records::compare(&mut Checker { subject, tally }, &case);
        assert_eq!(compared, Ok(()));
    }
    let some = tally.missing();
    assert!(!some.is_empty() && some.len() < nothing, "{some:?}");
}
