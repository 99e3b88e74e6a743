//! The comparison finds what it looks for: subjects that are right but for one
//! thing, and the case in which that shows.

use std::cell::Cell;

use evidence::cases::Case;
use evidence::compare::{Comparer, Difference};
use evidence::shift::{held_record, library_record};
use evidence::subject::Subject;
use evidence::tally::{from_half, Tally};
use lsq::record::{Replayed, ShiftRecord};
use lsq::TEXT_BYTES;
use lsq_ref::play::play;
use lsq_ref::replay::{self, Lent};
use lsq_ref::table::Group;
use lsq_ref::{Counts, Table};

/// What a subject does wrong.
#[derive(Clone, Copy, Debug, PartialEq, Eq)]
enum Fault {
    Right,
    WrongTable,
    EmptyGroup,
    PaddedTable,
    PaddedTrace,
    WrongTrace,
    EventCount,
    MemoryLength,
    ReplayAnswer,
    CountsLast,
    Answer,
    Given,
    Value,
    Word,
    Count,
    AnswerBehind,
    GivenBehind,
    ValueBehind,
    CountBehind,
    WordWhenRefused,
    RecordedAnswer,
    RecordedWord,
    RecordedTakes,
    RecordedValue,
    RecordFromZero,
    RecordWhenRefused,
    Share,
    ShareHalfUp,
    ShareHalfDown,
    TextLength,
    TextLastByte,
    TextBehind,
    ShortText,
}

use Fault::*;

const FAULTS: [Fault; 32] = [
    WrongTable,
    EmptyGroup,
    PaddedTable,
    PaddedTrace,
    WrongTrace,
    EventCount,
    MemoryLength,
    ReplayAnswer,
    CountsLast,
    Answer,
    Given,
    Value,
    Word,
    Count,
    AnswerBehind,
    GivenBehind,
    ValueBehind,
    CountBehind,
    WordWhenRefused,
    RecordedAnswer,
    RecordedWord,
    RecordedTakes,
    RecordedValue,
    RecordFromZero,
    RecordWhenRefused,
    Share,
    ShareHalfUp,
    ShareHalfDown,
    TextLength,
    TextLastByte,
    TextBehind,
    ShortText,
];

/// The reference, but for a fault. It notes whether it did the wrong thing.
struct Broken {
    fault: Fault,
    shown: Cell<bool>,
}

impl Broken {
    fn new(fault: Fault) -> Self {
        let shown = Cell::new(false);
        Self { fault, shown }
    }

    /// Whether to do the wrong thing now.
    fn does(&self, fault: Fault, possible: bool) -> bool {
        let does = self.fault == fault && possible;
        self.shown.set(self.shown.get() || does);
        does
    }

    fn spoil_played(&self, lent: Lent, events: usize) {
        let Lent {
            memory,
            counts,
            answers,
            given,
            values,
        } = lent;
        if self.does(Answer, events > 300) {
            answers[300] ^= 1;
        }
        if self.does(Given, events > 300) {
            given[300] ^= 1;
        }
        if self.does(Value, events > 300) {
            values[300] ^= 1;
        }
        if self.does(Word, memory.len() > 4_000) {
            memory[4_000] ^= 1;
        }
        if self.does(Count, counts[1] > 20) {
            counts[1] -= 1;
        }
        if self.does(AnswerBehind, answers.len() > events) {
            answers[events] ^= 1;
        }
        if self.does(GivenBehind, given.len() > events) {
            given[events] ^= 1;
        }
        if self.does(ValueBehind, values.len() > events) {
            values[events] ^= 1;
        }
        if self.does(CountBehind, counts.len() > 2) {
            counts[2] ^= 1;
        }
    }
}

/// What it does wrong with the record of a replay.
impl Broken {
    fn spoil_record(&self, before: &ShiftRecord, after: &mut ShiftRecord, answer: u32) {
        let taken = before.takes[31] != after.takes[31];
        if self.does(RecordedTakes, taken) {
            after.takes[31] ^= 1;
        }
        if self.does(RecordedValue, taken && after.values[31] > 0) {
            after.values[31] -= 1;
        }
        let some = before.takes[30] > 0 && before.takes == after.takes;
        if self.does(RecordFromZero, answer == 0 && some) {
            after.takes[30] = 0;
        }
        if self.does(RecordWhenRefused, answer == 30) {
            after.values[0] ^= 1;
        }
    }
}

impl Subject for Broken {
    fn table_fault(&self, table: &[u8]) -> u32 {
        let fault = u32::from(replay::table_fault(table));
        let read = Table::read(table);
        let empty = read.is_ok_and(|table| table.groups.iter().any(Group::is_empty));
        if self.does(EmptyGroup, empty) {
            return 5;
        }
        if self.does(PaddedTable, fault == 42) {
            return 0;
        }
        fault + u32::from(self.does(WrongTable, fault == 7))
    }

    fn trace_fault(&self, table: &[u8], trace: &[u8]) -> u32 {
        let fault = u32::from(replay::trace_fault(table, trace));
        if self.does(PaddedTrace, fault == 42 && replay::table_fault(table) == 0) {
            return 0;
        }
        fault + u32::from(self.does(WrongTrace, fault == 12))
    }

    fn event_count(&self, table: &[u8], trace: &[u8]) -> u64 {
        let count = replay::event_count(table, trace);
        count + u64::from(self.does(EventCount, count > 1_000))
    }

    fn memory_length(&self, table: &[u8], trace: &[u8]) -> u32 {
        let length = replay::memory_length(table, trace);
        length + u32::from(self.does(MemoryLength, length == 0))
    }

    fn replay(&self, table: &[u8], trace: &[u8], lent: Lent) -> u32 {
        let Lent {
            memory,
            counts,
            answers,
            given,
            values,
        } = lent;
        let again = Lent {
            memory: &mut *memory,
            counts: &mut *counts,
            answers: &mut *answers,
            given: &mut *given,
            values: &mut *values,
        };
        let refused = replay::replay::<true>(table, trace, again).err();
        let fault = u32::from(replay::trace_fault(table, trace));
        if self.does(CountsLast, refused == Some(10) && fault != 0) {
            return fault;
        }
        if refused.is_none() {
            let events = replay::event_count(table, trace) as usize;
            let lent = Lent {
                memory,
                counts,
                answers,
                given,
                values,
            };
            self.spoil_played(lent, events);
        } else if self.does(WordWhenRefused, !memory.is_empty()) {
            memory[0] ^= 1;
        }
        let answer = u32::from(refused.unwrap_or(0));
        answer + u32::from(self.does(ReplayAnswer, answer == 10))
    }

    fn replay_recorded(
        &self,
        table: &[u8],
        trace: &[u8],
        lent: Lent,
        kept: ShiftRecord,
    ) -> Replayed {
        let Lent {
            memory,
            counts,
            answers,
            given,
            values,
        } = lent;
        let again = Lent {
            memory: &mut *memory,
            counts,
            answers,
            given,
            values,
        };
        let mut after = held_record(&kept);
        let played = replay::replay_recorded::<true>(table, trace, again, &mut after);
        if self.does(RecordedWord, played.is_ok() && memory.len() > 4_000) {
            memory[4_000] ^= 1;
        }
        let answer = u32::from(played.err().unwrap_or(0));
        let mut after = library_record(&after);
        self.spoil_record(&kept, &mut after, answer);
        Replayed {
            answer: answer + u32::from(self.does(RecordedAnswer, answer == 10)),
            kept: after,
        }
    }

    fn share(&self, loads: u32, forwarded: u32) -> u64 {
        let counts = Counts { loads, forwarded };
        let share = counts.share();
        let (down, up) = from_half(&counts, share);
        if self.does(ShareHalfUp, down) || self.does(Share, loads == 16) {
            return share + 1;
        }
        share - u64::from(self.does(ShareHalfDown, up))
    }

    fn text(&self, table: &[u8], trace: &[u8], out: &mut [u8]) -> u64 {
        if out.len() < TEXT_BYTES {
            if self.does(ShortText, true) {
                out[TEXT_BYTES - 2] ^= 1;
            }
            return 0;
        }
        let text = play(Some(table), Some(trace));
        out[..text.len()].copy_from_slice(text.as_bytes());
        if self.does(TextLastByte, text.len() > 500) {
            out[text.len() - 1] ^= 1;
        }
        if self.does(TextBehind, text.len() > 500) {
            out[TEXT_BYTES - 1] ^= 1;
        }
        text.len() as u64 + u64::from(self.does(TextLength, text.len() > 500))
    }
}

/// The first difference in some hundred cases, and whether the subject did the
/// wrong thing in that very case and in none before.
fn first_difference(fault: Fault) -> Option<(u64, Difference, bool)> {
    let subject = Broken::new(fault);
    let mut comparer = Comparer::new(&subject);
    let mut tally = Tally::default();
    for seed in 0..400 {
        let before = subject.shown.get();
        if let Err(difference) = comparer.case(&Case::new(seed), &mut tally) {
            return Some((seed, difference, !before && subject.shown.get()));
        }
    }
    None
}

#[test]
fn the_reference_does_not_differ_from_itself() {
    assert_eq!(first_difference(Right), None);
}

#[test]
fn every_fault_is_found_where_it_first_shows() {
    for fault in FAULTS {
        let found = first_difference(fault);
        let (seed, difference, at_once) = found.unwrap_or_else(|| panic!("{fault:?} not found"));
        assert!(at_once, "{fault:?} found late, seed {seed}: {difference:?}");
    }
}

#[test]
fn the_same_seed_shows_it_again() {
    let (seed, difference, _) = first_difference(Answer).expect("a difference");
    let subject = Broken::new(Answer);
    let mut tally = Tally::default();
    let again = Comparer::new(&subject).case(&Case::new(seed), &mut tally);
    assert_eq!(again, Err(difference));
}

#[test]
fn what_never_occurred_is_told() {
    let subject = Broken::new(Right);
    let mut comparer = Comparer::new(&subject);
    let mut tally = Tally::default();
    let nothing = tally.missing().len();
    for seed in 0..64 {
        assert_eq!(comparer.case(&Case::new(seed), &mut tally), Ok(()));
    }
    let some = tally.missing();
    assert!(!some.is_empty() && some.len() < nothing, "{some:?}");
}
