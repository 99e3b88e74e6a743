//! What was tried: cases, calls, refusals of each number, states of the queue.

use std::collections::BTreeMap;
use std::fmt;

use lsq_ref::event::{read_header, Event};
use lsq_ref::queue::MAX_DEPTH;
use lsq_ref::replay::{event_count, trace_fault};
use lsq_ref::shift::PORTS;
use lsq_ref::table::Group;
use lsq_ref::{Counts, Queue, Table};

use crate::buffers::Buffers;
use crate::cases::Case;

/// Where a number is answered.
const TABLE: &str = "table";
const LEADING: &str = "leading numbers";
const OPENING: &str = "opening";
const EVENT: &str = "reading an event";
const MEMORY: &str = "lent memory";
const COUNTS: &str = "lent counts";
const COUNTS_FIRST: &str = "lent counts, before a fault of the trace";
const ANSWERS: &str = "lent answers";
const GIVEN: &str = "lent given";
const VALUES: &str = "lent values";
const ACTIVATE: &str = "activate";
const LOAD_ADDRESS: &str = "load address";
const STORE_ADDRESS: &str = "store address";
const STORE_DATA: &str = "store data";
const SERVE: &str = "serve load";
const WRITE: &str = "write store";
const TAKE: &str = "take";
const TEXT_TABLE: &str = "text, table";
const TEXT_TRACE: &str = "text, trace";

/// The places in which each number can occur; a run that leaves one out fails.
const CAN_OCCUR: [(&str, &[u8]); 19] = [
    (TABLE, &[1, 2, 3, 4, 5, 6, 7, 8, 9, 42]),
    (LEADING, &[1, 2, 42]),
    (OPENING, &[11, 12, 13, 14]),
    (EVENT, &[1, 2, 35, 42]),
    (MEMORY, &[30]),
    (COUNTS, &[10]),
    (COUNTS_FIRST, &[10]),
    (ANSWERS, &[10]),
    (GIVEN, &[10]),
    (VALUES, &[10]),
    (ACTIVATE, &[0, 20, 21]),
    (LOAD_ADDRESS, &[0, 22, 23, 24]),
    (STORE_ADDRESS, &[0, 22, 23, 24]),
    (STORE_DATA, &[0, 22, 24]),
    (SERVE, &[0, 25, 26, 27, 28, 29]),
    (WRITE, &[0, 25, 26, 27, 29, 31, 32]),
    (TAKE, &[0, 22, 33, 34]),
    (TEXT_TABLE, &[1, 2, 3, 4, 5, 6, 7, 8, 9, 36, 42]),
    (TEXT_TRACE, &[1, 2, 11, 12, 13, 14, 35, 36, 42]),
];

/// What a run must come by besides.
const LONG: &str = "traces of 10,000 events and more";
const HUGE: &str = "traces of more than 65,535 events";
const EMPTY: &str = "traces of no event";
const GROUPS_16: &str = "tables of 16 groups";
const NO_ACCESS: &str = "tables of empty groups alone";
const LOADS_1: &str = "load depth 1";
const STORES_1: &str = "store depth 1";
const LOADS_64: &str = "load depth 64";
const STORES_64: &str = "store depth 64";
const TURNED: &str = "traces whose serials pass 4294967295";
const STOPPED: &str = "traces whose counts stop at 4294967295";
const FULL_LOADS: &str = "calls that leave the load side full";
const FULL_STORES: &str = "calls that leave the store side full";
const FULL_64: &str = "calls that leave 64 entries on both sides";
/// Live calls reach these too.
pub(crate) const EMPTY_GROUP: &str = "empty groups activated";
pub(crate) const EMPTY_WHEN_FULL: &str = "empty groups activated with a side full";
const FORWARDED: &str = "loads that were counted as forwarded";
const FROM_MEMORY: &str = "loads that were counted and came from memory";
const HALF_DOWN: &str = "shares of an exact half that goes down";
const HALF_UP: &str = "shares of an exact half that goes up";
const HALF_WIDE: &str = "shares of an exact half beyond 32 bits";
const TEXT_PLAYED: &str = "texts of a played trace";
const TEXT_SHORT: &str = "text buffers one byte short";
const RECORD_KEPT: &str = "refused replays that hand back the record";
const RECORDED: &str = "replays that changed a record";
const RECORDED_31: &str = "replays that took at port 31";
const TAKES_STOPPED: &str = "replays whose takes of a port stop at 4294967295";

const STATES: [&str; 27] = [
    LONG,
    HUGE,
    EMPTY,
    GROUPS_16,
    NO_ACCESS,
    LOADS_1,
    STORES_1,
    LOADS_64,
    STORES_64,
    TURNED,
    STOPPED,
    FULL_LOADS,
    FULL_STORES,
    FULL_64,
    EMPTY_GROUP,
    EMPTY_WHEN_FULL,
    FORWARDED,
    FROM_MEMORY,
    HALF_DOWN,
    HALF_UP,
    HALF_WIDE,
    TEXT_PLAYED,
    TEXT_SHORT,
    RECORD_KEPT,
    RECORDED,
    RECORDED_31,
    TAKES_STOPPED,
];

/// Accepted takes of a replay, by their ports.
#[derive(Clone, Debug, Default)]
pub struct Takes([u64; PORTS]);

impl Takes {
    /// Counts an event, if it is an accepted take.
    pub fn note(&mut self, event: &Event, accepted: bool) {
        if let (Event::Take { port }, true) = (event, accepted) {
            self.0[*port as usize] += 1;
        }
    }
}

/// How often each thing occurred.
#[derive(Clone, Debug, Default)]
pub struct Tally {
    /// Calls on a queue that were compared.
    pub calls: u64,
    /// Those of them that were refused.
    pub refused: u64,
    /// Cases.
    pub cases: u64,
    /// Cases on which the wrapper was compared too.
    pub wrapped: u64,
    /// Damaged copies of which the faults alone were compared.
    pub damaged: u64,
    /// Calls on a queue that were compared through text.
    pub text_calls: u64,
    longest_text: usize,
    kinds: BTreeMap<String, u64>,
    numbers: BTreeMap<(&'static str, u8), u64>,
    states: BTreeMap<&'static str, u64>,
}

fn add<K: Ord>(counts: &mut BTreeMap<K, u64>, key: K) {
    *counts.entry(key).or_default() += 1;
}

fn place_of(event: &Event) -> &'static str {
    match event {
        Event::Activate { .. } => ACTIVATE,
        Event::LoadAddress { .. } => LOAD_ADDRESS,
        Event::StoreAddress { .. } => STORE_ADDRESS,
        Event::StoreData { .. } => STORE_DATA,
        Event::Serve { .. } => SERVE,
        Event::Write { .. } => WRITE,
        Event::Take { .. } => TAKE,
    }
}

/// Whether an accepted event activates an empty group, and whether it does so
/// with a side full: the queue that follows is the one before.
#[must_use]
pub fn activates_empty(queue: &Queue, event: &Event) -> (bool, bool) {
    let Event::Activate { group } = event else {
        return (false, false);
    };
    let group = queue.table.groups.get(*group as usize);
    let empty = group.is_some_and(Group::is_empty);
    let full = queue.loads.entries.len() == queue.load_depth as usize
        || queue.stores.entries.len() == queue.store_depth as usize;
    (empty, empty && full)
}

/// Whether a share is rounded down from an exact half, and whether up from one.
#[must_use]
pub fn from_half(counts: &Counts, share: u64) -> (bool, bool) {
    let loads = u64::from(counts.loads);
    let (exact, rounded) = (2_000 * u64::from(counts.forwarded), 2 * share * loads);
    let half = loads > 0 && exact.abs_diff(rounded) == loads;
    (half && rounded < exact, half && rounded > exact)
}

/// Counting.
impl Tally {
    /// Counts a case, and gives what looks at each of its calls.
    pub fn watch(
        &mut self,
        case: &Case,
    ) -> impl FnMut(&Queue, &Event, Result<Option<u32>, u8>) + '_ {
        self.cases += 1;
        add(&mut self.kinds, format!("{:?}", case.kind));
        let first = read_header(&case.trace).map_or(0, |(header, _)| header.first_serial);
        let mut turned = false;
        move |queue, event, outcome| {
            self.called(queue, event, outcome);
            let past = queue.loads.next_serial < first || queue.stores.next_serial < first;
            if past && !turned {
                add(&mut self.states, TURNED);
            }
            turned |= past;
        }
    }

    fn called(&mut self, queue: &Queue, event: &Event, outcome: Result<Option<u32>, u8>) {
        self.calls += 1;
        let answer = outcome.err().unwrap_or(0);
        self.refused += u64::from(answer != 0);
        add(&mut self.numbers, (place_of(event), answer));
        let loads = queue.loads.entries.len();
        let stores = queue.stores.entries.len();
        let deep = MAX_DEPTH as usize;
        let (empty, when_full) = activates_empty(queue, event);
        self.reach(&[
            (loads == queue.load_depth as usize, FULL_LOADS),
            (stores == queue.store_depth as usize, FULL_STORES),
            (loads == deep && stores == deep, FULL_64),
            (answer == 0 && empty, EMPTY_GROUP),
            (answer == 0 && when_full, EMPTY_WHEN_FULL),
        ]);
    }

    fn reach(&mut self, states: &[(bool, &'static str)]) {
        for (_, state) in states.iter().filter(|(reached, _)| *reached) {
            add(&mut self.states, *state);
        }
    }

    /// Counts how a replay was answered, with the buffers that it left.
    pub fn replayed(&mut self, case: &Case, answer: u8, left: &Buffers) {
        match answer {
            0 => self.played(case, left),
            _ => add(&mut self.numbers, (refused_for(case, answer), answer)),
        }
    }

    fn played(&mut self, case: &Case, left: &Buffers) {
        let groups = Table::read(&case.table).map_or(Vec::new(), |table| table.groups);
        let (loads, stores) = read_header(&case.trace).map_or((0, 0), |(header, _)| {
            (header.load_depth, header.store_depth)
        });
        let events = event_count(&case.table, &case.trace);
        let counts = &left.counts.run()[..2];
        self.reach(&[
            (events >= 10_000, LONG),
            (events > 65_535, HUGE),
            (events == 0, EMPTY),
            (groups.len() == 16, GROUPS_16),
            (groups.iter().all(Group::is_empty), NO_ACCESS),
            (loads == 1, LOADS_1),
            (stores == 1, STORES_1),
            (loads == 64, LOADS_64),
            (stores == 64, STORES_64),
            (counts.contains(&u32::MAX), STOPPED),
        ]);
        self.served(case.buffers.counts.run(), counts);
    }

    /// Loads served, as far as the counts tell: once they stop they don't.
    fn served(&mut self, before: &[u32], after: &[u32]) {
        let loads = u64::from(after[0].wrapping_sub(before[0]));
        let forwarded = u64::from(after[1].wrapping_sub(before[1]));
        *self.states.entry(FORWARDED).or_default() += forwarded;
        *self.states.entry(FROM_MEMORY).or_default() += loads - forwarded;
    }

    /// Counts a replay with a record, by the takes that it made.
    pub fn recorded(&mut self, case: &Case, accepted: bool, Takes(takes): &Takes) {
        let mut counts = case.kept.takes.iter().zip(takes);
        let stops = |(&before, &more): (&u32, &u64)| {
            more > 0 && u64::from(before) + more > u64::from(u32::MAX)
        };
        let stopped = counts.any(stops);
        self.reach(&[
            (!accepted, RECORD_KEPT),
            (takes.iter().any(|&more| more > 0), RECORDED),
            (takes.last().is_some_and(|&more| more > 0), RECORDED_31),
            (stopped, TAKES_STOPPED),
        ]);
    }

    /// Counts a share, if it is rounded from an exact half.
    pub fn shared(&mut self, counts: &Counts, share: u64) {
        let (down, up) = from_half(counts, share);
        let wide = share > u64::from(u32::MAX);
        self.reach(&[
            (down, HALF_DOWN),
            (up, HALF_UP),
            ((down || up) && wide, HALF_WIDE),
        ]);
    }

    /// Counts a text.
    pub fn printed(&mut self, text: &str) {
        let number = |line: &str| line.trim_end().parse().unwrap_or(0);
        if let Some(fault) = text.strip_prefix("table ") {
            return add(&mut self.numbers, (TEXT_TABLE, number(fault)));
        }
        if let Some(fault) = text.strip_prefix("trace ") {
            return add(&mut self.numbers, (TEXT_TRACE, number(fault)));
        }
        add(&mut self.states, TEXT_PLAYED);
        self.longest_text = self.longest_text.max(text.len());
        let is_event = |line: &&str| line.starts_with(|c: char| c.is_ascii_digit());
        self.text_calls += text.lines().filter(is_event).count() as u64;
    }

    /// Counts a text buffer that was too short.
    pub fn short_text(&mut self) {
        add(&mut self.states, TEXT_SHORT);
    }
}

/// The place in which a replay was refused.
fn refused_for(case: &Case, answer: u8) -> &'static str {
    match answer {
        30 => return MEMORY,
        10 => return short_buffer(case),
        _ => {}
    }
    let Ok(table) = Table::read(&case.table) else {
        return TABLE;
    };
    let Ok((header, _)) = read_header(&case.trace) else {
        return LEADING;
    };
    match Queue::open(table, header) {
        Ok(_) => EVENT,
        Err(_) => OPENING,
    }
}

/// The first lent buffer that is too short.
fn short_buffer(case: &Case) -> &'static str {
    let Case { table, trace, .. } = case;
    let events = event_count(table, trace) as usize;
    if case.buffers.counts.length() < 2 {
        return match trace_fault(table, trace) {
            0 => COUNTS,
            _ => COUNTS_FIRST,
        };
    }
    if case.buffers.answers.length() < events {
        return ANSWERS;
    }
    if case.buffers.given.length() < events {
        return GIVEN;
    }
    VALUES
}

/// Reporting.
impl Tally {
    /// The things that can occur and did not.
    #[must_use]
    pub fn missing(&self) -> Vec<String> {
        let numbers = CAN_OCCUR.iter().flat_map(each_number);
        let numbers = numbers.filter(|key| !self.numbers.contains_key(key));
        let numbers = numbers.map(|(place, number)| format!("{number} ({place})"));
        let states = STATES.iter().filter(|&state| self.states(state) == 0);
        let besides = [
            (self.wrapped, "replays through the wrapper"),
            (self.damaged, "damaged copies"),
        ];
        let besides = besides.iter().filter(|(count, _)| *count == 0);
        let besides = besides.map(|(_, what)| what.to_string());
        let states = states.map(|state| state.to_string());
        numbers.chain(states).chain(besides).collect()
    }

    fn states(&self, state: &str) -> u64 {
        self.states.get(state).copied().unwrap_or(0)
    }

    fn numbers(&self, place: &'static str, number: u8) -> u64 {
        self.numbers.get(&(place, number)).copied().unwrap_or(0)
    }
}

fn each_number(
    &(place, numbers): &(&'static str, &'static [u8]),
) -> impl Iterator<Item = (&'static str, u8)> {
    numbers.iter().map(move |&number| (place, number))
}

/// What the report says of numbers that it does not count.
const CANNOT_OCCUR: &str = concat!(
    "        -   30 serve, write: a replay tests the memory's length first\n",
    "        -   40 cannot occur through replay: no opening leads to such a record",
);

impl fmt::Display for Tally {
    fn fmt(&self, f: &mut fmt::Formatter) -> fmt::Result {
        let row = |count: u64, what: String| format!("{count:>9} {what}\n");
        let wrapped = format!("cases, {} of them through the wrapper too", self.wrapped);
        let kinds = self.kinds.iter();
        let kinds = kinds.map(|(kind, &count)| row(count, format!("  {kind}")));
        let numbers = CAN_OCCUR
            .iter()
            .flat_map(each_number)
            .map(|(place, number)| {
                let count = self.numbers(place, number);
                row(count, format!("  {number:>2} {place}"))
            });
        let states = STATES.iter();
        let states = states.map(|state| row(self.states(state), format!("  {state}")));
        let damaged = "damaged copies, for their faults alone".into();
        let refused = format!("calls through replay, {} refused", self.refused);
        let longest = self.longest_text;
        let texts = format!("calls through text, the longest of {longest} bytes");
        f.write_str(&row(self.cases, wrapped))?;
        f.write_str(&kinds.collect::<String>())?;
        f.write_str(&row(self.damaged, damaged))?;
        f.write_str(&row(self.calls, refused))?;
        f.write_str(&row(self.text_calls, texts))?;
        writeln!(f, "How often each number was answered, and where:")?;
        f.write_str(&numbers.collect::<String>())?;
        writeln!(f, "{CANNOT_OCCUR}")?;
        writeln!(f, "What was reached:")?;
        f.write_str(&states.collect::<String>())
    }
}
