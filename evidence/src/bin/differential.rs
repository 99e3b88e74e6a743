//! `differential [SEED [CALLS]]` compares the static library with the
//! reference on the cases of a seed, one after another, until CALLS calls were
//! made: each trace is replayed, and then its calls are made live, one by one.
//! Then the programs `play` and `page` are run on the files of some cases.
//! Cases of different seeds are different. `differential case NUMBER`
//! compares one case again, without the programs. Exit status 1: a difference;
//! 2: none, but something that can occur never did, or a program is missing, or
//! bad arguments.
//!
//! With LSQ_SHOW_CASES set it prints each case's number before it is played, so
//! that a crash can be traced to one.

use std::path::{Path, PathBuf};
use std::process::ExitCode;
use std::time::Instant;
use std::{env, fs};

use evidence::cases::Case;
use evidence::compare::{tries_wrapper, wrapper, Comparer, Difference};
use evidence::live::compare::Checker;
use evidence::live::header::Header;
use evidence::live::tally::{LiveTally, IN_LISTS};
use evidence::live::{lists, subject};
use evidence::program::{self, Program, PAGE, PLAY};
use evidence::subject::Library;
use evidence::tally::Tally;

const SEED: u64 = 1;
const CALLS: u64 = 1_000_000;
/// Cases whose files each program is run on, as they are and damaged.
const PROGRAM_CASES: u64 = 1_000;

fn main() -> ExitCode {
    let args: Vec<String> = env::args().skip(1).collect();
    let numbers: Vec<Option<u64>> = args.iter().map(|arg| arg.parse().ok()).collect();
    match numbers[..] {
        [] => all(SEED, CALLS),
        [Some(seed)] => all(seed, CALLS),
        [Some(seed), Some(calls)] => all(seed, calls),
        [None, Some(number)] if args[0] == "case" => one(number),
        _ => {
            eprintln!("usage: differential [SEED [CALLS]] | case NUMBER");
            ExitCode::from(2)
        }
    }
}

/// The number of a seed's first case.
fn first_case(seed: u64) -> u64 {
    seed.wrapping_mul(1 << 32)
}

fn all(seed: u64, calls: u64) -> ExitCode {
    let start = Instant::now();
    // First of all: what is missing is told before minutes have passed.
    let programs = match built() {
        Ok(programs) => programs,
        Err(missing) => {
            eprintln!("nothing was compared: {missing}");
            return ExitCode::from(2);
        }
    };
    let mut run = Run::new();
    let compared = run.cases(first_case(seed), calls);
    run.print();
    let mut programs = programs.iter();
    let end = compared.and_then(|()| {
        programs.try_for_each(|(program, path)| run_program(program, path, first_case(seed)))
    });
    if let Err(report) = end {
        println!("{report}");
        return ExitCode::from(1);
    }
    let seconds = start.elapsed().as_secs_f64();
    println!("seed {seed}: no difference in {seconds:.1} s");
    let missing = run.missing();
    if missing.is_empty() {
        return ExitCode::SUCCESS;
    }
    println!("but never tried, in so few calls: {}", missing.join("; "));
    ExitCode::from(2)
}

/// Both programs, with where they are.
fn built() -> Result<[(Program, PathBuf); 2], String> {
    let (play, page) = (PLAY.built()?, PAGE.built()?);
    Ok([(PLAY, play), (PAGE, page)])
}

fn one(number: u64) -> ExitCode {
    match Run::new().cases(number, 0) {
        Ok(()) => println!("case {number}: no difference"),
        Err(report) => {
            println!("{report}");
            return ExitCode::from(1);
        }
    }
    ExitCode::SUCCESS
}

/// What was compared.
struct Run {
    replayed: Tally,
    live: LiveTally,
    through_wrapper: LiveTally,
    through_header: LiveTally,
}

impl Run {
    fn new() -> Self {
        Self {
            replayed: Tally::default(),
            live: LiveTally::new(IN_LISTS),
            through_wrapper: LiveTally::new(IN_LISTS),
            through_header: LiveTally::new(IN_LISTS),
        }
    }

    /// Goes through the cases from this one on, at least one; a difference ends
    /// the run and is reported.
    fn cases(&mut self, first: u64, calls: u64) -> Result<(), String> {
        let show = env::var_os("LSQ_SHOW_CASES").is_some();
        let mut comparer = Comparer::new(&Library);
        for number in first.. {
            if show {
                eprintln!("case {number}");
            }
            let case = Case::new(number);
            let compared = self.case(&mut comparer, &case);
            compared.map_err(|difference| report(&case, &difference))?;
            if self.replayed.calls >= calls {
                break;
            }
        }
        Ok(())
    }

    fn case(&mut self, comparer: &mut Comparer<Library>, case: &Case) -> Result<(), Difference> {
        comparer.case(case, &mut self.replayed)?;
        held("the library", &subject::Library, case, &mut self.live)?;
        if !tries_wrapper(case) {
            return Ok(());
        }
        self.replayed.wrapped += 1;
        wrapper(case)?;
        let tally = &mut self.through_wrapper;
        held("the Rust wrapper", &subject::Wrapper, case, tally)?;
        held("the C header", &Header, case, &mut self.through_header)
    }

    fn print(&self) {
        println!("{}", self.replayed);
        println!("Lists of live calls from an opening:");
        println!("{}", self.live);
        for (calls, through) in self.through() {
            println!("{calls:>9} live calls through {through}");
        }
    }

    fn through(&self) -> [(u64, &'static str); 2] {
        [
            (self.through_wrapper.calls(), "the Rust wrapper"),
            (self.through_header.calls(), "the C header"),
        ]
    }

    fn missing(&self) -> Vec<String> {
        let mut missing = self.replayed.missing();
        let live = self.live.missing().into_iter();
        missing.extend(live.map(|missing| format!("{missing}, live")));
        let through = self.through().into_iter().filter(|(calls, _)| *calls == 0);
        missing.extend(through.map(|(_, through)| format!("live calls through {through}")));
        missing
    }
}

/// Makes the case's calls live.
fn held(
    name: &str,
    subject: &impl subject::Live,
    case: &Case,
    tally: &mut LiveTally,
) -> Result<(), Difference> {
    let compared = lists::compare(&mut Checker { subject, tally }, case);
    compared.map_err(|Difference(words)| Difference(format!("live calls of {name}: {words}")))
}

fn run_program(program: &Program, path: &Path, first: u64) -> Result<(), String> {
    let shown = path.display();
    let compared = program::compare(program, path, first, PROGRAM_CASES);
    let differs = |Difference(words)| format!("DIFFERENCE of {shown} in {words}");
    let runs = compared.map_err(differs)?;
    println!("{runs:>9} pairs of files printed by {shown}");
    Ok(())
}

/// Says what differs and how to see it again, and keeps the two files.
fn report(case: &Case, Difference(words): &Difference) -> String {
    let Case { seed, kind, .. } = case;
    let folder = Path::new(env!("CARGO_MANIFEST_DIR")).join("target/difference");
    let kept = fs::create_dir_all(&folder)
        .and_then(|()| fs::write(folder.join("table.bin"), &case.table))
        .and_then(|()| fs::write(folder.join("trace.bin"), &case.trace));
    let files = match kept {
        Ok(()) => folder.display().to_string(),
        Err(error) => format!("not kept, {error}"),
    };
    format!(
        "DIFFERENCE in case {seed} ({kind:?}): {words}\n\
         again: evidence/run differential case {seed}\n\
         its table.bin and trace.bin: {files}"
    )
}
