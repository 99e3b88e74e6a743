//! The table of a group in an order, held to the reference: of orders from pairs,
//! and of records that are no order or hold more than one says.

use std::collections::BTreeMap;
use std::fmt;

use lsq::record::{Accesses, Ordered, Table, TableParts, ACCESSES};
use lsq_ref::ordering::group;
use lsq_ref::rng::Rng;
use lsq_ref::table::{Access, MAX_ACCESSES};
use lsq_ref::Table as HeldTable;

use crate::compare::{same, same_shown, Difference};
use crate::live::record::table_of;
use crate::orders::Orders;

/// An order, or any record, and accesses.
#[derive(Clone, Debug)]
pub struct TableCase {
    /// The order that the subject is handed.
    pub order: Ordered,
    /// The accesses that the subject is handed.
    pub accesses: Accesses,
}

impl TableCase {
    /// This order, with the accesses of a seed.
    #[must_use]
    pub fn new(seed: u64, order: Ordered) -> Self {
        let accesses = random_accesses(&mut Rng::new(!seed));
        Self { order, accesses }
    }

    /// The record of this seed, which may be no order and may name an access
    /// twice. Beyond the count stands anything.
    #[must_use]
    pub fn foreign(seed: u64) -> Self {
        let mut rng = Rng::new(!seed);
        let accesses = random_accesses(&mut rng);
        let any = rng.word() as u8;
        let most = ACCESSES as u8;
        let order = Ordered {
            answer: rng.pick(&[0, 0, 0, 0, 0, 0, 0, 43, 44, any]),
            count: match rng.below(8) {
                0 => rng.pick(&[most, most + 1, u8::MAX]),
                1 => any,
                _ => rng.below(ACCESSES + 1) as u8,
            },
            accesses: random_numbers(&mut rng),
        };
        Self { order, accesses }
    }

    /// The numbers of the accesses in order, or none where the record is no
    /// order: "a refusal, a count above LSQ_ACCESSES, or an access above 31 among
    /// the first `count`".
    #[must_use]
    pub fn numbers(&self) -> Option<&[u8]> {
        let Ordered {
            answer,
            count,
            accesses,
        } = &self.order;
        let front = accesses.get(..usize::from(*count))?;
        let named = front.iter().all(|&access| usize::from(access) < ACCESSES);
        (*answer == 0 && named).then_some(front)
    }

    /// The table that the reference gives.
    #[must_use]
    pub fn held(&self) -> HeldTable {
        let held: Vec<Access> = (0..ACCESSES).map(|number| self.access(number)).collect();
        let groups = self.numbers().map(|numbers| group(numbers, &held));
        HeldTable {
            groups: groups.into_iter().collect(),
        }
    }

    /// Its record: one group at the front, all other places blank.
    #[must_use]
    pub fn expected(&self) -> Table {
        Table::new(table_of(&self.held()))
    }

    /// An access, "kind 0 is a load, and any other a store".
    fn access(&self, number: usize) -> Access {
        let port = self.accesses.ports[number].into();
        match self.accesses.kinds[number] {
            0 => Access::Load(port),
            _ => Access::Store(port),
        }
    }
}

/// Kinds: any byte, loads and stores about as often, or a few of one kind. Ports:
/// any byte, any that may be, or each once.
fn random_accesses(rng: &mut Rng) -> Accesses {
    let loads = rng.pick(&[0, 1, 8, 16, 16, 16, 24, 31, 32]);
    let store = rng.pick(&[0, 1, 1]);
    let kind = |rng: &mut Rng| match (rng.chance(loads, ACCESSES), store) {
        (true, _) => 0,
        (false, 0) => rng.word() as u8,
        (false, one) => one,
    };
    let kinds = std::array::from_fn(|_| kind(rng));
    let mut ports: [u8; ACCESSES] = std::array::from_fn(|port| port as u8);
    rng.shuffle(&mut ports);
    match rng.below(4) {
        0 => ports = std::array::from_fn(|_| rng.word() as u8),
        1 => ports = std::array::from_fn(|_| rng.below(ACCESSES) as u8),
        2 => ports[rng.below(ACCESSES)] = rng.pick(&[0, 31, 32, 33, 64, u8::MAX]),
        _ => (),
    }
    Accesses { kinds, ports }
}

/// Numbers of accesses: each once, any that may be, now and then one above, or
/// any bytes.
fn random_numbers(rng: &mut Rng) -> [u8; ACCESSES] {
    let mut numbers: [u8; ACCESSES] = std::array::from_fn(|number| number as u8);
    rng.shuffle(&mut numbers);
    match rng.below(8) {
        0 => numbers = std::array::from_fn(|_| rng.word() as u8),
        1 | 2 => numbers = std::array::from_fn(|_| rng.below(ACCESSES) as u8),
        3 | 4 => numbers[rng.below(ACCESSES)] = rng.pick(&[32, 33, 64, 128, u8::MAX]),
        _ => (),
    }
    numbers
}

/// Compares the whole record that a subject gives with what is expected, and says
/// whether it gave one.
///
/// # Errors
/// The first difference.
pub fn compare_table(subject: &dyn Orders, case: &TableCase) -> Result<bool, Difference> {
    let Some(found) = subject.table(case.order, case.accesses) else {
        return Ok(false);
    };
    let expected = case.expected();
    same_parts(&expected.parts(), &found.parts())?;
    same_shown("table", &expected, &found)?;
    Ok(true)
}

fn same_parts(expected: &TableParts, found: &TableParts) -> Result<(), Difference> {
    same("count", expected.count, found.count)?;
    for (place, mine) in expected.groups.iter().enumerate() {
        same_shown(&format!("groups[{place}]"), mine, &found.groups[place])?;
    }
    for (place, mine) in expected.loads.iter().enumerate() {
        same_shown(&format!("loads[{place}]"), mine, &found.loads[place])?;
    }
    for (place, mine) in expected.stores.iter().enumerate() {
        same_shown(&format!("stores[{place}]"), mine, &found.stores[place])?;
    }
    Ok(())
}

/// What a check of the tables must come by; an offset is never wrong.
const IN_TABLES: &[u8] = &[0, 4, 5, 6, 7];

/// What a run must reach besides.
const STATES: [&str; 13] = [
    NO_ACCESS,
    FULL,
    ALL_LOADS,
    ALL_STORES,
    MOST_OF_BOTH,
    LATE_LOAD,
    OTHER_KIND,
    TWICE,
    BEYOND,
    REFUSED,
    ONE_MORE,
    GREATEST_COUNT,
    HIGH_ACCESS,
];

const NO_ACCESS: &str = "groups of no access";
const FULL: &str = "groups of 32 accesses, of both kinds";
const ALL_LOADS: &str = "groups of 32 loads";
const ALL_STORES: &str = "groups of 32 stores";
const MOST_OF_BOTH: &str = "right tables of 16 loads and 16 stores";
const LATE_LOAD: &str = "right tables with a load behind a store and a store behind a load";
const OTHER_KIND: &str = "stores of a kind that ends in the bits of 0";
const TWICE: &str = "groups that have an access twice";
const BEYOND: &str = "orders with an access above 31 beyond the count";
const REFUSED: &str = "refusals that would else be an order of accesses";
const ONE_MORE: &str = "a count of 33 and nothing else wrong";
const GREATEST_COUNT: &str = "a count of 255 and nothing else wrong";
const HIGH_ACCESS: &str = "an access above 31 and nothing else wrong";

/// How often a check of the table gives each number, and what was reached.
#[derive(Clone, Debug, Default)]
pub struct TableTally {
    checks: BTreeMap<u8, u64>,
    states: BTreeMap<&'static str, u64>,
}

impl TableTally {
    /// Counts a case by what the reference gives.
    pub fn note(&mut self, case: &TableCase) {
        let held = case.held();
        let check = held.check();
        *self.checks.entry(check).or_default() += 1;
        match case.numbers() {
            Some(numbers) => self.grouped(case, numbers, &held, check == 0),
            None => self.no_order(case),
        }
    }

    fn grouped(&mut self, case: &TableCase, numbers: &[u8], held: &HeldTable, right: bool) {
        let group = &held.groups[0];
        let (loads, stores) = (group.loads.len(), group.stores.len());
        let full = numbers.len() == ACCESSES;
        self.reach(numbers.is_empty(), NO_ACCESS);
        self.reach(full && loads > 0 && stores > 0, FULL);
        self.reach(full && stores == 0, ALL_LOADS);
        self.reach(full && loads == 0, ALL_STORES);
        let most = loads == MAX_ACCESSES && stores == MAX_ACCESSES;
        self.reach(right && most, MOST_OF_BOTH);
        let late_load = group.loads.iter().any(|load| load.offset > 0);
        let late_store = group.stores.iter().any(|store| store.offset > 0);
        self.reach(right && late_load && late_store, LATE_LOAD);
        let kind = |&number: &u8| case.accesses.kinds[usize::from(number)];
        let other = |kind: u8| kind != 0 && (kind & 1 == 0 || kind & 15 == 0);
        self.reach(numbers.iter().map(kind).any(other), OTHER_KIND);
        let again = |i: usize| numbers[..i].contains(&numbers[i]);
        self.reach((1..numbers.len()).any(again), TWICE);
        let mut beyond = case.order.accesses[numbers.len()..].iter();
        self.reach(beyond.any(|&access| is_high(access)), BEYOND);
    }

    fn no_order(&mut self, case: &TableCase) {
        let Ordered {
            answer,
            count,
            accesses,
        } = case.order;
        let fits = usize::from(count) <= ACCESSES;
        let front = &accesses[..usize::from(count).min(ACCESSES)];
        let named = !front.iter().any(|&access| is_high(access));
        self.reach(answer != 0 && count > 0 && fits && named, REFUSED);
        let counted = answer == 0 && named;
        self.reach(counted && usize::from(count) == ACCESSES + 1, ONE_MORE);
        self.reach(counted && count == u8::MAX, GREATEST_COUNT);
        self.reach(answer == 0 && fits && !named, HIGH_ACCESS);
    }

    fn reach(&mut self, reached: bool, state: &'static str) {
        *self.states.entry(state).or_default() += u64::from(reached);
    }

    fn states(&self) -> impl Iterator<Item = (&'static str, u64)> + '_ {
        let count = |state| self.states.get(state).copied().unwrap_or(0);
        STATES.into_iter().map(move |state| (state, count(state)))
    }

    /// What can occur and did not.
    #[must_use]
    pub fn missing(&self) -> Vec<String> {
        let never = |number: &&u8| !self.checks.contains_key(number);
        let numbers = IN_TABLES.iter().filter(never);
        let numbers = numbers.map(|number| format!("tables that get {number}"));
        let states = self.states().filter(|&(_, count)| count == 0);
        let states = states.map(|(state, _)| state.to_string());
        numbers.chain(states).collect()
    }
}

/// Whether an access is none that can be ordered.
fn is_high(access: u8) -> bool {
    usize::from(access) >= ACCESSES
}

impl fmt::Display for TableTally {
    fn fmt(&self, f: &mut fmt::Formatter) -> fmt::Result {
        writeln!(f, "What a check of each table gives, and of what cases:")?;
        for (number, count) in &self.checks {
            writeln!(f, "{count:>9}   {number:>2}")?;
        }
        let mut states = self.states();
        states.try_for_each(|(state, count)| writeln!(f, "{count:>9} {state}"))
    }
}
