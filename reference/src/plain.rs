//! The one-after-another run on which demand 3 is measured. It "is fed the
//! table, the opening memory, the list's calls, and which of them were
//! answered 0; nothing of the queue's record". It also tells the source of each
//! load, by which S-7 says when a serve gets 28.

use std::collections::{BTreeMap, VecDeque};

use crate::event::Event;
use crate::refusal;
use crate::table::{Access, Table};

/// A call of the list with its answer. Ready calls "do nothing" here and are
/// left out of the list.
#[derive(Clone, Copy, Debug, PartialEq, Eq)]
pub struct Call {
    /// The call.
    pub event: Event,
    /// What the queue answered.
    pub answer: u8,
}

/// "Where a row has run out, any address below the memory length, or any word,
/// is filled in, each chosen freely."
pub trait Fill {
    /// An address below `memory_length`, for a load.
    fn load_address(&mut self, memory_length: u32) -> u32;
    /// An address below `memory_length`, for a store.
    fn store_address(&mut self, memory_length: u32) -> u32;
    /// Any word, for a store's data.
    fn store_data(&mut self) -> u32;
}

/// Numbers for each port, from the list's beginning.
pub type Row = BTreeMap<u32, VecDeque<u32>>;

/// "Accepted addresses for each load port, accepted addresses and accepted
/// data for each store port."
#[derive(Clone, Debug, Default, PartialEq, Eq)]
pub struct Rows {
    /// Accepted addresses of load ports.
    pub load_addresses: Row,
    /// Accepted addresses of store ports.
    pub store_addresses: Row,
    /// Accepted data of store ports.
    pub store_data: Row,
}

fn next(row: &mut Row, port: u32) -> Option<u32> {
    row.get_mut(&port)?.pop_front()
}

impl Rows {
    /// "First it gathers rows in list order."
    #[must_use]
    pub fn gather(calls: &[Call]) -> Self {
        let mut rows = Self::default();
        for call in calls.iter().filter(|c| c.answer == refusal::ACCEPTED) {
            let (row, port, number) = match call.event {
                Event::LoadAddress { port, address } => (&mut rows.load_addresses, port, address),
                Event::StoreAddress { port, address } => (&mut rows.store_addresses, port, address),
                Event::StoreData { port, word } => (&mut rows.store_data, port, word),
                _ => continue,
            };
            row.entry(port).or_default().push_back(number);
        }
        rows
    }
}

/// Where a load's word comes from, "a source being a particular store or the
/// opening word" (S-7).
#[derive(Clone, Copy, Debug, PartialEq, Eq, PartialOrd, Ord)]
pub enum Source {
    /// The opening word: no store before the load goes to its address.
    Opening,
    /// The last store before the load that goes to its address, by its number from
    /// 0 among all accesses of the accepted activations, in program order. Whether
    /// it is queued, or was written and has left, is not known here.
    Store(usize),
}

/// What the run ends with.
#[derive(Clone, Debug, PartialEq, Eq)]
pub struct Run {
    /// The memory.
    pub memory: Vec<u32>,
    /// The values that each load port loads, in their order.
    pub loaded: BTreeMap<u32, Vec<u32>>,
    /// The source of each load, in program order.
    pub sources: Vec<Source>,
    /// The number of the last store to each address that has one.
    last_stores: BTreeMap<u32, usize>,
    rows: Rows,
}

impl Run {
    fn load(&mut self, port: u32, fill: &mut impl Fill) {
        let length = self.memory.len() as u32;
        let address = next(&mut self.rows.load_addresses, port);
        let address = address.unwrap_or_else(|| fill.load_address(length));
        let value = self.memory[address as usize];
        self.loaded.entry(port).or_default().push(value);
        let store = self.last_stores.get(&address).copied();
        self.sources
            .push(store.map_or(Source::Opening, Source::Store));
    }

    fn store(&mut self, number: usize, port: u32, fill: &mut impl Fill) {
        let length = self.memory.len() as u32;
        let address = next(&mut self.rows.store_addresses, port);
        let address = address.unwrap_or_else(|| fill.store_address(length));
        let data = next(&mut self.rows.store_data, port);
        self.memory[address as usize] = data.unwrap_or_else(|| fill.store_data());
        self.last_stores.insert(address, number);
    }
}

/// The groups of the accepted activations, in list order.
pub fn activations(calls: &[Call]) -> impl Iterator<Item = u32> + '_ {
    let accepted = calls.iter().filter(|c| c.answer == refusal::ACCEPTED);
    accepted.filter_map(|call| match call.event {
        Event::Activate { group } => Some(group),
        _ => None,
    })
}

/// The accesses of the accepted activations: these "in list order", and "each
/// group's accesses in program order". An empty group has none: the run "passes
/// over it" (S-2).
///
/// # Panics
/// When an accepted call names a group that the table lacks, which no queue
/// accepts.
pub fn accesses<'a>(table: &'a Table, calls: &'a [Call]) -> impl Iterator<Item = Access> + 'a {
    activations(calls).flat_map(|group| table.groups[group as usize].program_order())
}

/// Goes through the [`accesses`] one after another.
///
/// # Panics
/// When an accepted call names a group that the table lacks or an address that
/// the memory lacks, which no queue accepts.
pub fn run(table: &Table, opening_memory: &[u32], calls: &[Call], fill: &mut impl Fill) -> Run {
    let mut run = Run {
        memory: opening_memory.to_vec(),
        loaded: BTreeMap::new(),
        sources: Vec::new(),
        last_stores: BTreeMap::new(),
        rows: Rows::gather(calls),
    };
    for (number, access) in accesses(table, calls).enumerate() {
        match access {
            Access::Load(port) => run.load(port, fill),
            Access::Store(port) => run.store(number, port, fill),
        }
    }
    run
}
