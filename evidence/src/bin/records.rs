//! `records [SEED [RECORDS]]` compares every live call with the reference on
//! the records of a seed: hand-made and damaged ones, and runs of entries of
//! other lengths than 64. Records of different seeds are different. `records
//! case NUMBER` compares one record again. Exit status 1: a difference; 2: none,
//! but something that can occur never did, or bad arguments.

use std::collections::BTreeMap;
use std::env;
use std::process::ExitCode;
use std::time::Instant;

use evidence::compare::Difference;
use evidence::live::cases::RecordCase;
use evidence::live::compare::Checker;
use evidence::live::header::Header;
use evidence::live::records::compare;
use evidence::live::subject::{is_whole, Library, Live, Wrapper};
use evidence::live::tally::{LiveTally, IN_RECORDS};

const SEED: u64 = 1;
const RECORDS: u64 = 1_000_000;
/// One record in so many is also handed to the Rust wrapper and to the C
/// header's inline functions, where its runs have 64 numbers.
const OVER_LIBRARY_EVERY: u64 = 9;

fn main() -> ExitCode {
    let args: Vec<String> = env::args().skip(1).collect();
    let numbers: Vec<Option<u64>> = args.iter().map(|arg| arg.parse().ok()).collect();
    match numbers[..] {
        [] => all(SEED, RECORDS),
        [Some(seed)] => all(seed, RECORDS),
        [Some(seed), Some(records)] => all(seed, records),
        [None, Some(number)] if args[0] == "case" => one(number),
        _ => {
            eprintln!("usage: records [SEED [RECORDS]] | case NUMBER");
            ExitCode::from(2)
        }
    }
}

fn all(seed: u64, records: u64) -> ExitCode {
    let start = Instant::now();
    let mut run = Run::new();
    let first = seed.wrapping_mul(1 << 32);
    for number in first..first + records {
        if let Err(report) = run.case(number) {
            println!("{report}");
            return ExitCode::from(1);
        }
    }
    run.print(records);
    let seconds = start.elapsed().as_secs_f64();
    println!("seed {seed}: no difference in {seconds:.1} s");
    let missing = run.missing();
    if missing.is_empty() {
        return ExitCode::SUCCESS;
    }
    println!("but never tried, on so few records: {}", missing.join("; "));
    ExitCode::from(2)
}

fn one(number: u64) -> ExitCode {
    match Run::new().case(number) {
        Ok(()) => println!("record {number}: no difference"),
        Err(report) => {
            println!("{report}");
            return ExitCode::from(1);
        }
    }
    ExitCode::SUCCESS
}

/// What was compared.
struct Run {
    library: LiveTally,
    through_wrapper: LiveTally,
    through_header: LiveTally,
    kinds: BTreeMap<String, u64>,
}

impl Run {
    fn new() -> Self {
        Self {
            library: LiveTally::new(IN_RECORDS),
            through_wrapper: LiveTally::new(IN_RECORDS),
            through_header: LiveTally::new(IN_RECORDS),
            kinds: BTreeMap::new(),
        }
    }

    fn case(&mut self, number: u64) -> Result<(), String> {
        let case = RecordCase::new(number);
        *self.kinds.entry(format!("{:?}", case.kind)).or_default() += 1;
        held(&Library, "the library", &case, &mut self.library)?;
        if number.is_multiple_of(OVER_LIBRARY_EVERY) && is_whole(&case.record) {
            let tally = &mut self.through_wrapper;
            held(&Wrapper, "the Rust wrapper", &case, tally)?;
            held(&Header, "the C header", &case, &mut self.through_header)?;
        }
        Ok(())
    }

    fn print(&self, records: u64) {
        println!("{records:>9} records");
        for (kind, count) in &self.kinds {
            println!("{count:>9}   {kind}");
        }
        for (calls, through) in self.through() {
            println!("{calls:>9} calls through {through}");
        }
        print!("{}", self.library);
    }

    fn through(&self) -> [(u64, &'static str); 2] {
        [
            (self.through_wrapper.calls(), "the Rust wrapper"),
            (self.through_header.calls(), "the C header"),
        ]
    }

    fn missing(&self) -> Vec<String> {
        let mut missing = self.library.missing();
        let through = self.through().into_iter().filter(|(calls, _)| *calls == 0);
        missing.extend(through.map(|(_, through)| format!("calls through {through}")));
        missing
    }
}

/// Compares a record, and says what differs and how to see it again.
fn held(
    subject: &impl Live,
    name: &str,
    case: &RecordCase,
    tally: &mut LiveTally,
) -> Result<(), String> {
    let compared = compare(&mut Checker { subject, tally }, case);
    let RecordCase { seed, kind, .. } = case;
    compared.map_err(|Difference(words)| {
        format!(
            "DIFFERENCE of {name} on record {seed} ({kind:?}): {words}\n\
             again: evidence/run records case {seed}"
        )
    })
}
