//! `orders [SEED [CASES]]` compares a group's order from pairs with the reference
//! on the cases of a seed, and with the order found by trying on every set of
//! pairs of 4 accesses; from the library, and through the Rust wrapper and C. So
//! it does the table of the group in each order, and in a record from anywhere
//! for each case. Cases of different seeds are different. `orders case NUMBER` and
//! `orders set NUMBER` compare one of either again. Exit status 1: a difference;
//! 2: none, but something that can occur never did, or bad arguments.

use std::env;
use std::process::ExitCode;
use std::time::Instant;

use evidence::compare::Difference;
use evidence::live::header::Header;
use evidence::live::subject::{Library, Wrapper};
use evidence::orders::{
    compare, recorded, OrderCase, OrderTally, Orders, Outcome, SETS, SET_ACCESSES,
};
use evidence::tables::{compare_table, TableCase, TableTally};

const SEED: u64 = 1;
const CASES: u64 = 1_000_000;

/// Who is held to the reference.
const SUBJECTS: [(&str, &dyn Orders); 3] = [
    ("the library", &Library),
    ("the Rust wrapper", &Wrapper),
    ("C", &Header),
];

/// What was compared.
#[derive(Default)]
struct Tally {
    orders: OrderTally,
    tables: TableTally,
    /// Tables from each subject.
    given: [u64; SUBJECTS.len()],
}

fn main() -> ExitCode {
    let args: Vec<String> = env::args().skip(1).collect();
    let numbers: Vec<Option<u64>> = args.iter().map(|arg| arg.parse().ok()).collect();
    match numbers[..] {
        [] => all(SEED, CASES),
        [Some(seed)] => all(seed, CASES),
        [Some(seed), Some(cases)] => all(seed, cases),
        [None, Some(number)] if args[0] == "case" => {
            one(case(number, &mut Tally::default()), "case", number)
        }
        [None, Some(number)] if args[0] == "set" && number < SETS.into() => {
            let compared = set(number as u32, &mut Tally::default());
            one(compared, "set", number)
        }
        _ => {
            eprintln!("usage: orders [SEED [CASES]] | case NUMBER | set NUMBER (below {SETS})");
            ExitCode::from(2)
        }
    }
}

fn all(seed: u64, cases: u64) -> ExitCode {
    let start = Instant::now();
    let mut tally = Tally::default();
    let first = seed.wrapping_mul(1 << 32);
    let mut compared = (first..first + cases).try_for_each(|number| case(number, &mut tally));
    compared = compared.and_then(|()| (0..SETS).try_for_each(|number| set(number, &mut tally)));
    if let Err(report) = compared {
        println!("{report}");
        return ExitCode::from(1);
    }
    println!("{cases:>9} cases, and {SETS} sets of pairs of {SET_ACCESSES} accesses");
    for ((name, _), tables) in SUBJECTS.into_iter().zip(tally.given) {
        let orders = cases + u64::from(SETS);
        println!("{orders:>9} orders and {tables} tables from {name}");
    }
    print!("{}{}", tally.orders, tally.tables);
    let seconds = start.elapsed().as_secs_f64();
    println!("seed {seed}: no difference in {seconds:.1} s");
    let missing = [tally.orders.missing(), tally.tables.missing()].concat();
    if missing.is_empty() {
        return ExitCode::SUCCESS;
    }
    println!("but never tried, in so few cases: {}", missing.join("; "));
    ExitCode::from(2)
}

fn one(compared: Result<(), String>, what: &str, number: u64) -> ExitCode {
    match compared {
        Ok(()) => println!("{what} {number}: no difference"),
        Err(report) => {
            println!("{report}");
            return ExitCode::from(1);
        }
    }
    ExitCode::SUCCESS
}

fn case(number: u64, tally: &mut Tally) -> Result<(), String> {
    let what = format!("case {number}");
    let case = OrderCase::new(number);
    let expected = case.expected();
    tally.orders.note(&case, &expected);
    held(&case, &expected, &what)?;
    held_table(&in_order(number, &expected), tally, &what)?;
    held_table(&TableCase::foreign(number), tally, &what)
}

fn set(number: u32, tally: &mut Tally) -> Result<(), String> {
    let what = format!("set {number}");
    let case = OrderCase::of_set(number);
    let expected = case.tried();
    held(&case, &expected, &what)?;
    held_table(&in_order(number.into(), &expected), tally, &what)
}

/// The table of the order that a case gives, or of its refusal.
fn in_order(number: u64, expected: &Outcome) -> TableCase {
    let order = recorded(expected.as_deref().map_err(|&number| number));
    TableCase::new(number, order)
}

/// Compares a case, and says what differs and how to see it again.
fn held(case: &OrderCase, expected: &Outcome, what: &str) -> Result<(), String> {
    SUBJECTS.into_iter().try_for_each(|(name, subject)| {
        compare(subject, case, expected).map_err(|difference| report(name, what, &difference))
    })
}

/// The same of a table.
fn held_table(case: &TableCase, tally: &mut Tally, what: &str) -> Result<(), String> {
    tally.tables.note(case);
    for ((name, subject), given) in SUBJECTS.into_iter().zip(&mut tally.given) {
        let compared = compare_table(subject, case);
        let compared = compared.map_err(|difference| report(name, what, &difference))?;
        *given += u64::from(compared);
    }
    Ok(())
}

fn report(name: &str, what: &str, Difference(words): &Difference) -> String {
    format!(
        "DIFFERENCE of {name} in {what}: {words}\n\
         again: evidence/run orders {what}"
    )
}
