//! A list of live calls from an opening, one behind the other.

use lsq_ref::event::{read_header, EventReader, Step};
use lsq_ref::rng::Rng;
use lsq_ref::{gen, Event, Header};

use super::cases::blank;
use super::compare::{Checker, Lent, State};
use super::records::{page_buffer, run_for};
use super::subject::{Live, Ready};
use crate::buffers::Guarded;
use crate::cases::Case;
use crate::compare::Difference;

/// How often in this many calls a call of another kind is put in between.
const SELDOM: usize = 16;

/// Opens the case's table with the leading numbers of its trace and makes the
/// call of each event that can be read. A record of the takes is kept all along,
/// and its page is written at the end.
///
/// # Errors
/// The first difference.
pub fn compare<S: Live>(checker: &mut Checker<S>, case: &Case) -> Result<(), Difference> {
    let Ok((header, at)) = read_header(&case.trace) else {
        return Ok(());
    };
    let Some(frame) = checker.open(&case.table, &header)? else {
        return Ok(());
    };
    let mut rng = Rng::new(!case.seed);
    let mut record = blank(&mut rng);
    record.frame = frame;
    let mut state = State::new(record);
    let mut lent = lent(&mut rng, &header);
    let mut kept = gen::shift_record(&mut rng);
    let bytes = &case.trace;
    let mut events = EventReader { bytes, at };
    while let Step::Event(event, _) = events.step() {
        if rng.chance(1, SELDOM) {
            look(checker, &mut state, &mut rng)?;
            elsewhere(checker, &mut state, &mut rng, &event)?;
        }
        if let Event::Take { port } = event {
            checker.take_recorded(&state, &mut kept, port)?;
        }
        checker.call(&mut state, &mut lent, &event)?;
    }
    checker.page(&kept, &page_buffer(&mut rng))
}

fn lent(rng: &mut Rng, header: &Header) -> Lent {
    Lent {
        memory: Guarded::new(header.memory_length as usize, || rng.word()),
        counts: gen::counts(rng),
    }
}

/// The calls that leave the queue as it is.
fn look<S: Live>(
    checker: &mut Checker<S>,
    state: &mut State,
    rng: &mut Rng,
) -> Result<(), Difference> {
    checker.sound(state)?;
    for ready in [Ready::Loads, Ready::Stores] {
        let run = run_for(rng, state, ready);
        checker.ready(state, ready, &run)?;
    }
    Ok(())
}

/// A serve or a write with a memory of another length, which is refused.
fn elsewhere<S: Live>(
    checker: &mut Checker<S>,
    state: &mut State,
    rng: &mut Rng,
    event: &Event,
) -> Result<(), Difference> {
    if !matches!(event, Event::Serve { .. } | Event::Write { .. }) {
        return Ok(());
    }
    let memory = Guarded::new(rng.pick(&[0, 4097]), || 7);
    let counts = gen::counts(rng);
    checker.call(state, &mut Lent { memory, counts }, event)
}
