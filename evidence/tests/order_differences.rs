//! The comparison of orders, and of tables in an order, finds what it looks for:
//! subjects that are right but for one thing, and the case in which that shows.

use std::cell::Cell;

use evidence::compare::Difference;
use evidence::orders::{compare, recorded, OrderCase, OrderTally, Orders, SETS};
use evidence::tables::{compare_table, TableCase, TableTally};
use lsq::record::{Accesses, Ordered, Precedences, Table, ACCESSES, PAIRS};
use lsq_ref::ordering::{order, Precedence};

/// What a subject does wrong.
#[derive(Clone, Copy, Debug, PartialEq, Eq)]
enum Fault {
    Right,
    Answer,
    CircleFirst,
    SelfPairAllowed,
    Count,
    CountWhenRefused,
    Swapped,
    LastSwapped,
    NotTheFirst,
    PlaceBeyond,
    PlaceWhenRefused,
    LooksBeyond,
    LastPairMissed,
    CountCut,
    AccessesCut,
    OneAccessMore,
    OnePairMore,
    FirstUnlisted,
    SecondUnlisted,
    NoAccess,
    StoreIsOne,
    OrderIgnored,
    OffsetsOfOwnKind,
    PortCut,
    RefusalIgnored,
    HighCountAllowed,
    HighAccessAllowed,
    LooksBeyondOrder,
    EmptyIsNone,
    FaultyIsNone,
    BlankAccess,
}

use Fault::*;

const ALL: [Fault; 19] = [
    Answer,
    CircleFirst,
    SelfPairAllowed,
    Count,
    CountWhenRefused,
    Swapped,
    LastSwapped,
    NotTheFirst,
    PlaceBeyond,
    PlaceWhenRefused,
    LooksBeyond,
    LastPairMissed,
    CountCut,
    AccessesCut,
    OneAccessMore,
    OnePairMore,
    FirstUnlisted,
    SecondUnlisted,
    NoAccess,
];

/// Those that a set of pairs of 4 accesses can show.
const IN_SETS: [Fault; 8] = [
    SelfPairAllowed,
    Count,
    CountWhenRefused,
    Swapped,
    NotTheFirst,
    PlaceBeyond,
    PlaceWhenRefused,
    LooksBeyond,
];

/// Those of tables.
const IN_TABLES: [Fault; 11] = [
    StoreIsOne,
    OrderIgnored,
    OffsetsOfOwnKind,
    PortCut,
    RefusalIgnored,
    HighCountAllowed,
    HighAccessAllowed,
    LooksBeyondOrder,
    EmptyIsNone,
    FaultyIsNone,
    BlankAccess,
];

/// The reference, but for a fault. It notes whether it did the wrong thing.
struct Broken {
    fault: Fault,
    shown: Cell<bool>,
}

/// An order, or the refusal number.
type Outcome = Result<Vec<u8>, u8>;

impl Broken {
    fn new(fault: Fault) -> Self {
        let shown = Cell::new(false);
        Self { fault, shown }
    }

    /// Whether to do the wrong thing now.
    fn does(&self, fault: Fault, possible: bool) -> bool {
        let does = self.fault == fault && possible;
        self.shown.set(self.shown.get() || does);
        does
    }

    /// The outcome, and of a fault that changes it the other one.
    fn outcome(&self, accesses: u32, count: usize, places: &[Precedence]) -> Outcome {
        let of = |accesses, count: usize, keep: &dyn Fn(&Precedence) -> bool| -> Outcome {
            let pairs = places.iter().cycle().take(count.min(PAIRS + 1)).copied();
            order(accesses, &pairs.filter(keep).collect::<Vec<_>>())
        };
        let all = &|_: &Precedence| true;
        let right = of(accesses, count, all);
        let listed = |access: u32| access < accesses;
        let other = match self.fault {
            CircleFirst if count <= PAIRS => {
                match of(accesses, count, &|p| listed(p.first) && listed(p.second)) {
                    Err(44) => Err(44),
                    _ => right.clone(),
                }
            }
            SelfPairAllowed => of(accesses, count, &|p| {
                p.first != p.second || !listed(p.first)
            }),
            LooksBeyond => of(accesses, count.max(PAIRS), all),
            LastPairMissed if count == PAIRS => of(accesses, count - 1, all),
            CountCut => of(accesses, count % 256, all),
            AccessesCut => of(accesses % 256, count, all),
            OneAccessMore if accesses == 33 => of(32, count, all),
            OnePairMore if count == PAIRS + 1 => of(accesses, PAIRS, all),
            FirstUnlisted => of(accesses, count, &|p| listed(p.first) || !listed(p.second)),
            SecondUnlisted => of(accesses, count, &|p| listed(p.second) || !listed(p.first)),
            NotTheFirst => right.clone().map(|_| reversed(accesses, &places[..count])),
            NoAccess if accesses == 0 => Err(43),
            _ => right.clone(),
        };
        match self.does(self.fault, other != right) {
            true => other,
            false => right,
        }
    }

    fn spoil(&self, given: &mut Ordered) {
        let count = usize::from(given.count);
        if self.does(Answer, given.answer == 44) {
            given.answer = 43;
        }
        if self.does(Count, count > 1) {
            given.count -= 1;
        }
        if self.does(CountWhenRefused, given.answer != 0) {
            given.count = 1;
        }
        if self.does(Swapped, count > 1) {
            given.accesses.swap(0, 1);
        }
        if self.does(LastSwapped, count == ACCESSES) {
            given.accesses.swap(30, 31);
        }
        if self.does(PlaceBeyond, count > 0 && count < ACCESSES) {
            given.accesses[count] = 1;
        }
        if self.does(PlaceWhenRefused, given.answer != 0) {
            given.accesses[ACCESSES - 1] = 1;
        }
    }

    /// The table, of other things or spoilt, that a fault gives.
    fn other_table(&self, case: &TableCase) -> Table {
        let mut other = case.clone();
        let TableCase { order, accesses } = &mut other;
        let count = usize::from(order.count).min(ACCESSES);
        match self.fault {
            StoreIsOne => accesses.kinds = accesses.kinds.map(|kind| u8::from(kind == 1)),
            OrderIgnored => order.accesses[..count].sort_unstable(),
            PortCut => accesses.ports = accesses.ports.map(|port| port % 32),
            RefusalIgnored => order.answer = 0,
            HighCountAllowed => order.count = count as u8,
            HighAccessAllowed => order.accesses = order.accesses.map(|access| access % 32),
            LooksBeyondOrder if order.accesses.iter().any(|&access| access > 31) => {
                order.answer = 1
            }
            EmptyIsNone if count == 0 => order.answer = 1,
            FaultyIsNone if case.held().check() != 0 => order.answer = 1,
            _ => (),
        }
        let mut parts = other.expected().parts();
        let [loads, stores] = [parts.groups[0].loads, parts.groups[0].stores].map(usize::from);
        match self.fault {
            OffsetsOfOwnKind => {
                let fronts = [&mut parts.loads[..loads], &mut parts.stores[..stores]];
                fronts.into_iter().for_each(|front| {
                    let offsets = front.iter_mut().enumerate();
                    offsets.for_each(|(place, pair)| pair.offset = place as u8);
                });
            }
            BlankAccess if loads < ACCESSES => parts.loads[loads].port = 1,
            _ => (),
        }
        Table::new(parts)
    }
}

/// The first order by access number from the right.
fn reversed(accesses: u32, pairs: &[Precedence]) -> Vec<u8> {
    let other = |access: u32| accesses - 1 - access;
    let turned = pairs.iter().map(|pair| Precedence {
        first: other(pair.first),
        second: other(pair.second),
    });
    let given = order(accesses, &turned.collect::<Vec<_>>()).expect("an order");
    given
        .iter()
        .map(|&access| other(access.into()) as u8)
        .collect()
}

impl Orders for Broken {
    fn order(&self, accesses: u32, pairs: Precedences) -> Ordered {
        let held = pairs.pairs.map(|pair| Precedence {
            first: pair.first,
            second: pair.second,
        });
        let outcome = self.outcome(accesses, pairs.count as usize, &held);
        let mut given = recorded(outcome.as_deref().map_err(|&number| number));
        self.spoil(&mut given);
        given
    }

    fn table(&self, order: Ordered, accesses: Accesses) -> Option<Table> {
        let case = TableCase { order, accesses };
        let (right, other) = (case.expected(), self.other_table(&case));
        match self.does(self.fault, other != right) {
            true => Some(other),
            false => Some(right),
        }
    }
}

/// The first difference, and whether the subject did the wrong thing there and
/// never before.
fn first_difference(
    fault: Fault,
    cases: u64,
    compare: impl Fn(&Broken, u64) -> Result<(), Difference>,
) -> Option<(u64, Difference, bool)> {
    let subject = Broken::new(fault);
    for number in 0..cases {
        let before = subject.shown.get();
        if let Err(difference) = compare(&subject, number) {
            return Some((number, difference, !before && subject.shown.get()));
        }
    }
    None
}

fn in_cases(fault: Fault) -> Option<(u64, Difference, bool)> {
    first_difference(fault, 4_000, |subject, seed| {
        let case = OrderCase::new(seed);
        compare(subject, &case, &case.expected())
    })
}

fn in_sets(fault: Fault) -> Option<(u64, Difference, bool)> {
    first_difference(fault, SETS.into(), |subject, set| {
        let case = OrderCase::of_set(set as u32);
        compare(subject, &case, &case.tried())
    })
}

/// The table of each order, and of each record from anywhere.
fn in_tables(fault: Fault) -> Option<(u64, Difference, bool)> {
    first_difference(fault, 4_000, |subject, seed| {
        let outcome = OrderCase::new(seed).expected();
        let order = recorded(outcome.as_deref().map_err(|&number| number));
        assert!(compare_table(subject, &TableCase::new(seed, order))?);
        assert!(compare_table(subject, &TableCase::foreign(seed))?);
        Ok(())
    })
}

fn assert_found(fault: Fault, found: Option<(u64, Difference, bool)>) {
    let (number, difference, at_once) = found.unwrap_or_else(|| panic!("{fault:?} not found"));
    assert!(at_once, "{fault:?} found late, {number}: {difference:?}");
}

#[test]
fn the_reference_does_not_differ_from_itself() {
    assert_eq!(in_cases(Right), None);
    assert_eq!(in_sets(Right), None);
    assert_eq!(in_tables(Right), None);
}

#[test]
fn every_fault_is_found_in_the_case_where_it_first_shows() {
    for fault in ALL {
        assert_found(fault, in_cases(fault));
    }
}

#[test]
fn a_fault_is_found_in_the_set_where_it_first_shows() {
    for fault in IN_SETS {
        assert_found(fault, in_sets(fault));
    }
}

#[test]
fn a_fault_of_a_table_is_found_where_it_first_shows() {
    for fault in IN_TABLES {
        assert_found(fault, in_tables(fault));
    }
}

#[test]
fn the_same_seed_shows_it_again() {
    let (seed, difference, _) = in_cases(LooksBeyond).expect("a difference");
    let case = OrderCase::new(seed);
    let again = compare(&Broken::new(LooksBeyond), &case, &case.expected());
    assert_eq!(again, Err(difference));
}

#[test]
fn what_was_never_reached_is_told() {
    let mut tally = OrderTally::default();
    let nothing = tally.missing().len();
    for seed in 0..40 {
        let case = OrderCase::new(seed);
        tally.note(&case, &case.expected());
    }
    let some = tally.missing();
    assert!(!some.is_empty() && some.len() < nothing, "{some:?}");
    let mut tally = TableTally::default();
    let nothing = tally.missing().len();
    (0..10).for_each(|seed| tally.note(&TableCase::foreign(seed)));
    let some = tally.missing();
    assert!(!some.is_empty() && some.len() < nothing, "{some:?}");
}
