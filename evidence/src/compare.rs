//! One case on both sides, and the first difference.

use std::fmt::{Debug, Display};

use lsq::{Buffer, Error, TEXT_BYTES};
use lsq_ref::gen;
use lsq_ref::play::play;
use lsq_ref::replay::{self, replay_recorded_watched, replay_watched};
use lsq_ref::rng::Rng;
use lsq_ref::Counts;

use crate::buffers::{Buffers, Guarded};
use crate::cases::{Case, Kind};
use crate::shift::{library_record, same_record};
use crate::subject::Subject;
use crate::tally::{Takes, Tally};

/// What differs, in words.
#[derive(Clone, Debug, PartialEq, Eq)]
pub struct Difference(pub String);

/// Damaged copies of each case, and the longest trace that is copied.
const DAMAGED_COPIES: usize = 16;
const DAMAGED_BYTES: usize = 2_000;

/// Stands in the text buffer wherever no text is.
const FILLER: u8 = 0xA5;

/// Compares cases, and keeps a text buffer from one to the next.
pub struct Comparer<'a, S> {
    subject: &'a S,
    out: Guarded<u8>,
    short_out: Guarded<u8>,
}

impl<'a, S: Subject> Comparer<'a, S> {
    /// A comparer of this subject with the reference.
    pub fn new(subject: &'a S) -> Self {
        Self {
            subject,
            out: Guarded::new(TEXT_BYTES, || FILLER),
            short_out: Guarded::new(TEXT_BYTES - 1, || FILLER),
        }
    }

    /// Compares every function on one case.
    ///
    /// # Errors
    /// The first difference.
    pub fn case(&mut self, case: &Case, tally: &mut Tally) -> Result<(), Difference> {
        self.faults(&case.table, &case.trace)?;
        self.damaged(case, tally)?;
        let played = self.replay(case, tally)?;
        self.replay_recorded(case, tally)?;
        self.shares(case, &played, tally)?;
        self.text(case, tally)
    }

    fn faults(&self, table: &[u8], trace: &[u8]) -> Result<(), Difference> {
        let subject = self.subject;
        let expected = u32::from(replay::table_fault(table));
        same("lsq_table_fault", expected, subject.table_fault(table))?;
        let expected = u32::from(replay::trace_fault(table, trace));
        let found = subject.trace_fault(table, trace);
        same("lsq_trace_fault", expected, found)?;
        let expected = replay::event_count(table, trace);
        let found = subject.event_count(table, trace);
        same("lsq_event_count", expected, found)?;
        let expected = replay::memory_length(table, trace);
        let found = subject.memory_length(table, trace);
        same("lsq_memory_length", expected, found)
    }

    /// Compares the faults alone on damaged copies of the bytes.
    fn damaged(&self, case: &Case, tally: &mut Tally) -> Result<(), Difference> {
        if case.trace.len() > DAMAGED_BYTES {
            return Ok(());
        }
        let mut rng = Rng::new(!case.seed);
        for copy in 0..DAMAGED_COPIES {
            let (mut table, mut trace) = (case.table.clone(), case.trace.clone());
            let bytes = if copy % 2 == 0 {
                &mut table
            } else {
                &mut trace
            };
            gen::damage(&mut rng, bytes);
            tally.damaged += 1;
            let named = |Difference(words)| {
                let spelled = format!("table {table:02X?}, trace {trace:02X?}");
                Difference(format!("{words}, on a damaged copy: {spelled}"))
            };
            self.faults(&table, &trace).map_err(named)?;
        }
        Ok(())
    }

    /// Gives the buffers that the replay leaves.
    fn replay(&self, case: &Case, tally: &mut Tally) -> Result<Buffers, Difference> {
        let Case { table, trace, .. } = case;
        let mut expected = case.buffers.clone();
        let watch = tally.watch(case);
        let played = replay_watched::<true>(table, trace, expected.lend(), watch);
        let answer = played.err().unwrap_or(0);
        tally.replayed(case, answer, &expected);
        let mut buffers = case.buffers.clone();
        let found = self.subject.replay(table, trace, buffers.lend());
        same("lsq_replay", u32::from(answer), found)?;
        same_buffers("lsq_replay", &expected, &buffers)?;
        Ok(expected)
    }

    /// The same with a record, which a refused replay hands back as it is.
    fn replay_recorded(&self, case: &Case, tally: &mut Tally) -> Result<(), Difference> {
        let Case { table, trace, .. } = case;
        let (mut expected, mut kept) = (case.buffers.clone(), case.kept);
        let mut takes = Takes::default();
        let watch = |_: &_, event: &_, outcome: Result<_, _>| takes.note(event, outcome.is_ok());
        let lent = expected.lend();
        let played = replay_recorded_watched::<true>(table, trace, lent, &mut kept, watch);
        tally.recorded(case, played.is_ok(), &takes);
        let mut buffers = case.buffers.clone();
        let lent = buffers.lend();
        let handed = library_record(&case.kept);
        let found = self.subject.replay_recorded(table, trace, lent, handed);
        let answer = played.err().unwrap_or(0);
        same("lsq_replay_recorded", u32::from(answer), found.answer)?;
        same_buffers("lsq_replay_recorded", &expected, &buffers)?;
        same_record("lsq_replay_recorded", &kept, &found.kept)
    }

    /// Compares the share of what the replay counted, of few and of many loads,
    /// of an exact half, and of the counts next to that.
    fn shares(&self, case: &Case, played: &Buffers, tally: &mut Tally) -> Result<(), Difference> {
        let mut rng = Rng::new(case.seed);
        let counts = played.counts.run();
        let ended = counts.iter().zip(counts.iter().skip(1)).next();
        let (loads, forwarded) = ended.unwrap_or((&0, &0));
        self.share(*loads, *forwarded, tally)?;
        self.share(rng.between(0, 40), rng.between(0, 40), tally)?;
        self.share(rng.word(), rng.word(), tally)?;
        let (loads, forwarded) = exact_half(&mut rng);
        self.share(loads, forwarded, tally)?;
        self.share(loads - 1, forwarded, tally)?;
        self.share(loads.saturating_add(1), forwarded, tally)?;
        self.share(loads, forwarded - 1, tally)?;
        self.share(loads, forwarded.saturating_add(1), tally)
    }

    fn share(&self, loads: u32, forwarded: u32, tally: &mut Tally) -> Result<(), Difference> {
        let counts = Counts { loads, forwarded };
        let expected = counts.share();
        tally.shared(&counts, expected);
        let found = self.subject.share(loads, forwarded);
        same(
            &format!("lsq_share of {loads} and {forwarded}"),
            expected,
            found,
        )
    }

    fn text(&mut self, case: &Case, tally: &mut Tally) -> Result<(), Difference> {
        if case.short_text {
            return self.short_text(case, tally);
        }
        let expected = play(Some(&case.table), Some(&case.trace));
        tally.printed(&expected);
        let found = self.subject.text(&case.table, &case.trace, self.out.lend());
        same("the length of lsq_text", expected.len() as u64, found)?;
        same_text(expected.as_bytes(), self.out.run())?;
        // Only the front is restored: what stands behind it is compared below.
        self.out.lend()[..expected.len()].fill(FILLER);
        untouched("the rest of lsq_text's buffer", &self.out)
    }

    fn short_text(&mut self, case: &Case, tally: &mut Tally) -> Result<(), Difference> {
        tally.short_text();
        let lent = self.short_out.lend();
        let found = self.subject.text(&case.table, &case.trace, lent);
        same("lsq_text into a short buffer", 0, found)?;
        untouched("lsq_text's short buffer", &self.short_out)
    }
}

/// Loads and forwarded whose share lies halfway between two numbers: in
/// thousandths 1 in 16, 80, 400 or 2,000 is 62.5, 12.5, 2.5 or 0.5, and an odd
/// number of these ends in a half too.
fn exact_half(rng: &mut Rng) -> (u32, u32) {
    let unit = rng.pick(&[16, 80, 400, 2_000]);
    let most = rng.pick(&[1, 40, u32::MAX / unit]);
    let times = rng.between(1, most);
    let fits = (u32::MAX / times - 1) / 2;
    let most = rng.pick(&[unit / 2 - 1, fits]).min(fits);
    (unit * times, (2 * rng.between(0, most) + 1) * times)
}

/// Compares what the Rust wrapper gives, on copies of the buffers.
///
/// # Errors
/// The first difference.
pub fn wrapper(case: &Case) -> Result<(), Difference> {
    let Case { table, trace, .. } = case;
    let mut expected = case.buffers.clone();
    let played = replay::replay::<true>(table, trace, expected.lend());
    let mut found = case.buffers.clone();
    let result = lsq::replay(table, trace, found.lend_to_wrapper());
    let outcome = match played {
        Ok(()) => Ok(replay::event_count(table, trace) as usize),
        Err(30 | 10) => Err(wrong_length(case)),
        Err(refusal) => Err(Error::Refused(refusal.into())),
    };
    same_shown("the wrapper's replay", &outcome, &result)?;
    same_buffers("the wrapper's replay", &expected, &found)?;
    wrapper_recorded(case, &outcome)
}

/// The same of the replay that keeps the record.
fn wrapper_recorded(case: &Case, outcome: &Result<usize, Error>) -> Result<(), Difference> {
    let Case { table, trace, .. } = case;
    let (mut expected, mut kept) = (case.buffers.clone(), case.kept);
    // Its answer is that of the replay without a record, which was compared.
    let _ = replay::replay_recorded::<true>(table, trace, expected.lend(), &mut kept);
    let (mut found, mut record) = (case.buffers.clone(), library_record(&case.kept));
    let result = lsq::replay_recorded(table, trace, found.lend_to_wrapper(), &mut record);
    let what = "the wrapper's replay with a record";
    same_shown(what, outcome, &result)?;
    same_buffers(what, &expected, &found)?;
    same_record(what, &kept, &record)
}

/// The wrong length that the wrapper names first.
fn wrong_length(case: &Case) -> Error {
    let Case { table, trace, .. } = case;
    let events = replay::event_count(table, trace) as usize;
    let words = replay::memory_length(table, trace) as usize;
    let Buffers {
        memory,
        counts,
        answers,
        given,
        values,
    } = &case.buffers;
    let error = |buffer, lent, needed| Error::Length {
        buffer,
        lent,
        needed,
    };
    if counts.length() < 2 {
        return error(Buffer::Counts, counts.length(), 2);
    }
    if memory.length() != words {
        return error(Buffer::Memory, memory.length(), words);
    }
    if answers.length() < events {
        return error(Buffer::Answers, answers.length(), events);
    }
    if given.length() < events {
        return error(Buffer::Given, given.length(), events);
    }
    error(Buffer::Values, values.length(), events)
}

/// Whether the wrapper is compared on this case: wherever lengths are wrong,
/// and on some of the others.
#[must_use]
pub fn tries_wrapper(case: &Case) -> bool {
    case.kind == Kind::Lengths || (case.seed / 3).is_multiple_of(8)
}

pub(crate) fn same<T: PartialEq + Display>(
    what: &str,
    expected: T,
    found: T,
) -> Result<(), Difference> {
    if expected == found {
        return Ok(());
    }
    let words = format!("{what}: reference {expected}, library {found}");
    Err(Difference(words))
}

pub(crate) fn same_shown<T: PartialEq + Debug>(
    what: &str,
    expected: &T,
    found: &T,
) -> Result<(), Difference> {
    if expected == found {
        return Ok(());
    }
    let words = format!("{what}: reference {expected:?}, library {found:?}");
    Err(Difference(words))
}

fn same_buffers(what: &str, expected: &Buffers, found: &Buffers) -> Result<(), Difference> {
    same_run(what, "answers", &expected.answers, &found.answers)?;
    same_run(what, "given", &expected.given, &found.given)?;
    same_run(what, "values", &expected.values, &found.values)?;
    same_run(what, "memory", &expected.memory, &found.memory)?;
    same_run(what, "counts", &expected.counts, &found.counts)
}

pub(crate) fn same_run<T: Copy + PartialEq + Display>(
    what: &str,
    name: &str,
    expected: &Guarded<T>,
    found: &Guarded<T>,
) -> Result<(), Difference> {
    let Some((place, mine, others)) = expected.difference(found) else {
        return Ok(());
    };
    let length = expected.length();
    let words = format!("{what}, {name}[{place}] of {length}: reference {mine}, library {others}");
    Err(Difference(words))
}

fn same_text(expected: &[u8], out: &[u8]) -> Result<(), Difference> {
    let found = &out[..expected.len()];
    if expected == found {
        return Ok(());
    }
    let mut lines = expected
        .split(|&b| b == b'\n')
        .zip(found.split(|&b| b == b'\n'));
    let line = lines.position(|(mine, others)| mine != others).unwrap_or(0);
    let nth = |text: &[u8]| {
        let line = text.split(|&b| b == b'\n').nth(line).unwrap_or_default();
        String::from_utf8_lossy(line).into_owned()
    };
    let (mine, others) = (nth(expected), nth(found));
    let words = format!(
        "line {} of the text: reference {mine:?}, library {others:?}",
        line + 1
    );
    Err(Difference(words))
}

fn untouched(what: &str, out: &Guarded<u8>) -> Result<(), Difference> {
    let filler = out.is_all(FILLER);
    let words = || Difference(format!("{what} was changed"));
    filler.then_some(()).ok_or_else(words)
}
