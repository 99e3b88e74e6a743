//! How often each live call answered each number.

use std::collections::BTreeMap;
use std::fmt;

use lsq_ref::shift::PORTS;
use lsq_ref::{Event, Queue, ShiftRecord};

use super::subject::Ready;
use crate::tally::{activates_empty, EMPTY_GROUP, EMPTY_WHEN_FULL};

/// The numbers that can be answered are below this.
const NUMBERS: usize = 43;

/// A function of the library.
#[derive(Clone, Copy, Debug, PartialEq, Eq)]
pub enum Place {
    /// `lsq_open_in`.
    Open,
    /// `lsq_activate_in`.
    Activate,
    /// `lsq_load_address_in`.
    LoadAddress,
    /// `lsq_store_address_in`.
    StoreAddress,
    /// `lsq_store_data_in`.
    StoreData,
    /// `lsq_serve_in`.
    Serve,
    /// `lsq_write_in`.
    Write,
    /// `lsq_take_in`.
    Take,
    /// The same, and `lsq_recorded` where it is accepted.
    TakeRecorded,
    /// `lsq_ready_loads_in`.
    ReadyLoads,
    /// `lsq_ready_stores_in`.
    ReadyStores,
    /// `lsq_sound_in`, with 40 for 0 and 0 for 1.
    Sound,
    /// `lsq_read_table`.
    ReadTable,
    /// `lsq_write_table`.
    WriteTable,
    /// `lsq_write_number`.
    WriteNumber,
    /// `lsq_write_event`.
    WriteEvent,
    /// `lsq_recorded`, which refuses nothing.
    Recorded,
    /// `lsq_page`.
    Page,
}

use Place::*;

const PLACES: usize = Page as usize + 1;

/// What is reached with shift records.
const PORT_31: &str = "takes recorded at port 31";
const PORT_ABOVE: &str = "takes recorded at a port above 31";
const STOPPED: &str = "takes recorded where the count stays at 4294967295";
const NO_TAKE: &str = "pages of a record with a value at a port of no take";
const NO_BYTE: &str = "page buffers of no byte";

impl Place {
    /// That of the call that an event stands for.
    #[must_use]
    pub fn of(event: &Event) -> Self {
        match event {
            Event::Activate { .. } => Activate,
            Event::LoadAddress { .. } => LoadAddress,
            Event::StoreAddress { .. } => StoreAddress,
            Event::StoreData { .. } => StoreData,
            Event::Serve { .. } => Serve,
            Event::Write { .. } => Write,
            Event::Take { .. } => Take,
        }
    }

    /// That of a ready call.
    #[must_use]
    pub fn of_ready(ready: Ready) -> Self {
        match ready {
            Ready::Loads => ReadyLoads,
            Ready::Stores => ReadyStores,
        }
    }
}

/// What a run must come by.
#[derive(Clone, Copy, Debug)]
pub struct CanOccur {
    /// The numbers that are answered, and where.
    numbers: &'static [(Place, &'static [u8])],
    /// Ready lists of all lengths up to this one, and as many entries that
    /// leave a side at once.
    most: usize,
    /// What is reached besides.
    states: &'static [&'static str],
}

/// In lists of calls from an opening: no such list leads to 40.
pub const IN_LISTS: CanOccur = CanOccur {
    numbers: &[
        (Open, &[0, 1, 2, 3, 4, 5, 6, 7, 8, 9, 11, 12, 13, 14, 42]),
        (Activate, &[0, 20, 21]),
        (LoadAddress, &[0, 22, 23, 24]),
        (StoreAddress, &[0, 22, 23, 24]),
        (StoreData, &[0, 22, 24]),
        (Serve, &[0, 25, 26, 27, 28, 29, 30]),
        (Write, &[0, 25, 26, 27, 29, 30, 31, 32]),
        (Take, &[0, 22, 33, 34]),
        (TakeRecorded, &[0, 22, 33, 34]),
        (ReadyLoads, &[0, 10]),
        (ReadyStores, &[0, 10]),
        (Sound, &[0]),
        (Page, &[0, 41]),
    ],
    most: 16,
    states: &[EMPTY_GROUP, EMPTY_WHEN_FULL, PORT_31, STOPPED, NO_TAKE],
};

/// On records from anywhere.
pub const IN_RECORDS: CanOccur = CanOccur {
    numbers: &[
        (Open, &[0, 1, 2, 3, 4, 5, 6, 7, 8, 9, 11, 12, 13, 14, 42]),
        (Activate, &[0, 20, 21, 40]),
        (LoadAddress, &[0, 22, 23, 24, 40]),
        (StoreAddress, &[0, 22, 23, 24, 40]),
        (StoreData, &[0, 22, 24, 40]),
        (Serve, &[0, 25, 26, 27, 28, 29, 30, 40]),
        (Write, &[0, 25, 26, 27, 29, 30, 31, 32, 40]),
        (Take, &[0, 22, 33, 34, 40]),
        (TakeRecorded, &[0, 22, 33, 34, 40]),
        (ReadyLoads, &[0, 10, 40]),
        (ReadyStores, &[0, 10, 40]),
        (Sound, &[0, 40]),
        (ReadTable, &[0, 1, 2, 3, 4, 5, 6, 7, 8, 9, 42]),
        (WriteTable, &[0, 4, 5, 6, 7, 8, 10]),
        (WriteNumber, &[0, 10]),
        (WriteEvent, &[0, 10, 35]),
        (Recorded, &[0]),
        (Page, &[0, 41]),
    ],
    most: 64,
    states: &[
        EMPTY_GROUP,
        EMPTY_WHEN_FULL,
        PORT_31,
        PORT_ABOVE,
        STOPPED,
        NO_TAKE,
        NO_BYTE,
    ],
};

/// Sizes are counted together up to each of these.
const SIZES: [usize; 6] = [0, 1, 4, 16, 63, 64];

/// How often each size occurred.
#[derive(Clone, Copy, Debug, Default)]
struct Sizes([u64; SIZES.len()]);

impl Sizes {
    fn note(&mut self, size: usize) {
        let place = SIZES.iter().position(|&most| size <= most);
        self.0[place.unwrap_or(SIZES.len() - 1)] += 1;
    }

    /// The sizes up to one that never occurred.
    fn missing(&self, most: usize) -> impl Iterator<Item = usize> + '_ {
        let sizes = SIZES.into_iter().zip(self.0);
        sizes
            .filter(move |&(size, count)| size <= most && count == 0)
            .map(|(size, _)| size)
    }
}

impl fmt::Display for Sizes {
    fn fmt(&self, f: &mut fmt::Formatter) -> fmt::Result {
        let sizes = SIZES.iter().zip(self.0);
        let shown = sizes.map(|(most, count)| format!("up to {most}: {count}"));
        f.write_str(&shown.collect::<Vec<_>>().join(", "))
    }
}

/// How often each number was answered.
#[derive(Clone, Debug)]
pub struct LiveTally {
    can_occur: CanOccur,
    answers: [[u64; NUMBERS]; PLACES],
    lists: Sizes,
    leaving: Sizes,
    states: BTreeMap<&'static str, u64>,
}

impl LiveTally {
    /// Nothing yet, of a run that must come by these.
    #[must_use]
    pub fn new(can_occur: CanOccur) -> Self {
        Self {
            can_occur,
            answers: [[0; NUMBERS]; PLACES],
            lists: Sizes::default(),
            leaving: Sizes::default(),
            states: BTreeMap::new(),
        }
    }

    /// Counts an answer.
    pub fn note(&mut self, place: Place, answer: u8) {
        self.answers[place as usize][usize::from(answer)] += 1;
    }

    /// Counts an accepted call by the queue that follows.
    pub fn accepted(&mut self, queue: &Queue, event: &Event) {
        let (empty, when_full) = activates_empty(queue, event);
        self.reach(empty, EMPTY_GROUP);
        self.reach(when_full, EMPTY_WHEN_FULL);
    }

    /// Counts the length of a ready list.
    pub fn listed(&mut self, length: usize) {
        self.lists.note(length);
    }

    /// Counts the entries that left a side at once.
    pub fn left(&mut self, entries: usize) {
        self.leaving.note(entries);
    }

    /// Counts a value that is recorded at a port, which may be any.
    pub fn recorded(&mut self, before: &ShiftRecord, port: u32) {
        let takes = before.takes.get(port as usize);
        self.reach(port as usize == PORTS - 1, PORT_31);
        self.reach(takes.is_none(), PORT_ABOVE);
        self.reach(takes == Some(&u32::MAX), STOPPED);
    }

    /// Counts a page in a buffer of this length.
    pub fn paged(&mut self, record: &ShiftRecord, length: usize) {
        let mut ports = record.takes.iter().zip(&record.values);
        let beside = ports.any(|(&takes, &value)| takes == 0 && value != 0);
        self.reach(beside, NO_TAKE);
        self.reach(length == 0, NO_BYTE);
    }

    fn reach(&mut self, reached: bool, state: &'static str) {
        *self.states.entry(state).or_default() += u64::from(reached);
    }

    fn states(&self) -> impl Iterator<Item = (&'static str, u64)> + '_ {
        let count = |state: &&'static str| self.states.get(state).copied().unwrap_or(0);
        let states = self.can_occur.states.iter();
        states.map(move |state| (*state, count(state)))
    }

    /// Calls that were compared.
    #[must_use]
    pub fn calls(&self) -> u64 {
        self.answers.iter().flatten().sum()
    }

    /// What can occur and did not.
    #[must_use]
    pub fn missing(&self) -> Vec<String> {
        let places = self.can_occur.numbers.iter();
        let each = places.flat_map(|&(place, numbers)| numbers.iter().map(move |&n| (place, n)));
        let missing =
            each.filter(|&(place, number)| self.answers[place as usize][usize::from(number)] == 0);
        let numbers = missing.map(|(place, number)| format!("{number} ({place:?})"));
        let most = self.can_occur.most;
        let lists = self.lists.missing(most);
        let lists = lists.map(|size| format!("ready lists of up to {size}"));
        let leaving = self.leaving.missing(most);
        let leaving = leaving.map(|size| format!("up to {size} that leave at once"));
        let states = self.states().filter(|&(_, count)| count == 0);
        let states = states.map(|(state, _)| state.to_string());
        numbers.chain(lists).chain(leaving).chain(states).collect()
    }
}

impl fmt::Display for LiveTally {
    fn fmt(&self, f: &mut fmt::Formatter) -> fmt::Result {
        writeln!(
            f,
            "{:>9} live calls; how often each number was answered, and where:",
            self.calls()
        )?;
        for number in 0..NUMBERS {
            let places = self.can_occur.numbers.iter().map(|&(place, _)| place);
            let answered = places.map(|place| (place, self.answers[place as usize][number]));
            let some: Vec<_> = answered.filter(|&(_, count)| count > 0).collect();
            if some.is_empty() {
                continue;
            }
            let total: u64 = some.iter().map(|(_, count)| count).sum();
            let places = some
                .iter()
                .map(|(place, count)| format!("{place:?} {count}"));
            let places = places.collect::<Vec<_>>().join(", ");
            writeln!(f, "{total:>9}   {number:>2} {places}")?;
        }
        writeln!(f, "Lengths of ready lists, {}", self.lists)?;
        writeln!(f, "Entries that left a side at once, {}", self.leaving)?;
        let mut states = self.states();
        states.try_for_each(|(state, count)| writeln!(f, "{count:>9} {state}"))
    }
}
