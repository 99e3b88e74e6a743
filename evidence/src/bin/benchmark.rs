//! `benchmark` measures the static library against the in-place Rust queue,
//! with and without check 40, and prints tables in Markdown.
//! `benchmark only WORKLOAD IMPLEMENTATION SECONDS` plays one thing over and
//! over, for a profiler; WORKLOAD is a, b, c1, c16, depthN or groupsN, and
//! IMPLEMENTATION is proved, recorded, checked, unchecked, live or inplace.
//! `benchmark orders` measures orders from pairs alone.
//! `benchmark waits` counts alone the serves that no longer wait for a store's address
//! (S-7); nothing is timed.
//! `benchmark files FOLDER` writes each workload's title, table and trace to a folder of
//! its name in FOLDER, for a program in another language.

use std::ops::Range;
use std::path::Path;
use std::process::ExitCode;
use std::time::Duration;
use std::{env, fs, io};

use evidence::clock::processor_time;
use evidence::compare::Difference;
use evidence::live::subject::Library;
use evidence::orders::{compare, OrderCase};
use evidence::timing::{
    agree, ordering, reading, rounds, Implementation, Run, Spread, CALLS, RECORDS, REPLAYS,
};
use evidence::workloads::{named, Waits, Workload, BY_DEPTH, BY_GROUPS, MAIN};

const ROUNDS: usize = 15;
const SAMPLE: Duration = Duration::from_millis(60);
/// The growth tables have many rows.
const GROWTH_ROUNDS: usize = 5;
const GROWTH_SAMPLE: Duration = Duration::from_millis(30);
/// At most so many times the in-place Rust queue that makes the same check 40,
/// on each of the main workloads.
const TARGET: f64 = 1.2;

const DEPTH: &str = "Depth (one group of 1 load and 1 store)";
const GROUPS: &str = "Groups (of 2 loads and 2 stores, depth 8)";

fn main() -> ExitCode {
    let args: Vec<String> = env::args().skip(1).collect();
    let args: Vec<&str> = args.iter().map(String::as_str).collect();
    match args[..] {
        [] => all(),
        ["orders"] => print_orders(),
        ["waits"] => waits(),
        ["files", folder] => match write_files(Path::new(folder)) {
            Ok(()) => ExitCode::SUCCESS,
            Err(error) => {
                eprintln!("{folder}: {error}");
                ExitCode::from(2)
            }
        },
        ["only", workload, implementation, seconds] => {
            let seconds = seconds.parse().map(Duration::from_secs_f64);
            match (named(workload), implementation_of(implementation), seconds) {
                (Some(workload), Some(implementation), Ok(time)) => {
                    only(&workload, implementation, time)
                }
                _ => usage(),
            }
        }
        _ => usage(),
    }
}

fn usage() -> ExitCode {
    eprintln!(
        "usage: benchmark [only WORKLOAD IMPLEMENTATION SECONDS | orders | waits | files FOLDER]"
    );
    ExitCode::from(2)
}

fn implementation_of(name: &str) -> Option<Implementation> {
    match name {
        "proved" => Some(Implementation::Proved),
        "recorded" => Some(Implementation::Recorded),
        "checked" => Some(Implementation::Checked),
        "unchecked" => Some(Implementation::Unchecked),
        "live" => Some(Implementation::Live),
        "inplace" => Some(Implementation::InPlace),
        _ => None,
    }
}

fn only(workload: &Workload, implementation: Implementation, time: Duration) -> ExitCode {
    let mut run = Run::new(workload);
    let start = processor_time();
    let mut plays = 0;
    while plays == 0 || processor_time() - start < time {
        run.play(implementation, workload);
        plays += 1;
    }
    let calls = plays * workload.calls;
    let nanoseconds = (processor_time() - start).as_nanos() as f64 / calls as f64;
    println!("{calls} calls, {nanoseconds:.1} ns a call");
    ExitCode::SUCCESS
}

fn write_files(folder: &Path) -> io::Result<()> {
    for name in [&MAIN[..], &BY_DEPTH, &BY_GROUPS].concat() {
        let workload = named(name).expect("a workload of this name");
        let folder = folder.join(name);
        fs::create_dir_all(&folder)?;
        fs::write(folder.join("title"), &workload.title)?;
        fs::write(folder.join("table.bin"), &workload.table)?;
        fs::write(folder.join("trace.bin"), &workload.trace)?;
    }
    Ok(())
}

fn all_of(names: &[&str]) -> Vec<Workload> {
    let one = |name: &&str| named(name).expect("a workload of this name");
    names.iter().map(one).collect()
}

/// Whether all implementations agree on each of these; where they do not, it says so.
fn all_agree<'a>(workloads: impl IntoIterator<Item = &'a Workload>) -> bool {
    let mut workloads = workloads.into_iter();
    let differing = workloads.find(|workload| !agree(workload));
    if let Some(workload) = differing {
        println!("{}: the implementations differ", workload.title);
    }
    differing.is_none()
}

fn all() -> ExitCode {
    let workloads = all_of(&MAIN);
    let growth = [all_of(&BY_DEPTH), all_of(&BY_GROUPS)];
    if !all_agree(workloads.iter().chain(growth.iter().flatten())) {
        return ExitCode::FAILURE;
    }
    print_workloads(&workloads);
    print_ratios(&workloads);
    let [depth, groups] = growth;
    print_growth(DEPTH, &depth);
    print_growth(GROUPS, &groups);
    print_reading(&workloads);
    print_recorded(&workloads);
    println!("Live calls from Rust, one by one, of events that were read before:");
    println!();
    print_live("Workload", &workloads);
    print_live(DEPTH, &depth);
    print_live(GROUPS, &groups);
    print_waits(&workloads);
    print_orders()
}

fn waits() -> ExitCode {
    let workloads = all_of(&MAIN);
    if !all_agree(&workloads) {
        return ExitCode::FAILURE;
    }
    print_waits(&workloads);
    ExitCode::SUCCESS
}

/// 32 accesses and 64 pairs. In a falling chain the one access that is ready stands
/// behind all others that wait, so that each search is the longest; a circle of the
/// two highest is found last.
fn orders() -> [(&'static str, OrderCase); 3] {
    let rising = |accesses: Range<u32>| accesses.collect::<Vec<u32>>();
    let falling = |accesses: Range<u32>| accesses.rev().collect::<Vec<u32>>();
    [
        ("a falling chain of all", vec![falling(0..32)]),
        ("a rising chain of all", vec![rising(0..32)]),
        (
            "a circle of 30 and 31, a falling chain of the others",
            vec![falling(0..30), vec![30, 31, 30]],
        ),
    ]
    .map(|(title, chains)| (title, OrderCase::of_chains(&chains)))
}

fn print_orders() -> ExitCode {
    println!("| Order of 32 accesses by 64 pairs | Answer | Proved, ns a call | Rust, ns a call | Time to Rust |");
    println!("|---|---|---|---|---|");
    for (title, case) in orders() {
        if let Err(Difference(words)) = compare(&Library, &case, &case.expected()) {
            println!("{title}: {words}");
            return ExitCode::FAILURE;
        }
        let rounds = ordering(&case, GROWTH_ROUNDS, GROWTH_SAMPLE);
        let time = |place: usize| Spread::of(rounds.iter().map(|round| round[place]));
        let ratio = Spread::of(rounds.iter().map(|round| round[0] / round[1]));
        let [proved, reference] = [0, 1].map(|place| whole(time(place)));
        let answer = case.expected().err().unwrap_or(0);
        let ratio = times(ratio);
        println!("| {title} | {answer} | {proved} | {reference} | {ratio} |");
    }
    println!();
    ExitCode::SUCCESS
}

fn whole(spread: Spread) -> String {
    let Spread {
        middle,
        least,
        greatest,
    } = spread;
    format!("{middle:.0} ({least:.0} to {greatest:.0})")
}

fn print_workloads(workloads: &[Workload]) {
    println!("| Workload | Calls | Accepted | Forwarded | Loads held | Stores held |");
    println!("|---|---|---|---|---|---|");
    for workload in workloads {
        let Workload { title, calls, .. } = workload;
        let accepted = 100.0 * workload.accepted as f64 / *calls as f64;
        let share = workload.counts.share() as f64 / 10.0;
        let [loads, stores] = workload.held;
        println!("| {title} | {calls} | {accepted:.0}% | {share:.0}% of loads | {loads:.1} | {stores:.1} |");
    }
    println!();
}

fn print_ratios(workloads: &[Workload]) {
    println!("Medians of {ROUNDS} rounds of processor time; in brackets the least and the greatest. The target is at most {TARGET} times Rust with check 40 on each workload, by the least times: what disturbs a round only adds to it.");
    println!();
    println!("| Workload | Proved, calls/s | Rust with 40, calls/s | Rust without, calls/s | Time to Rust with 40 | Time to Rust without | Least time to Rust's least with 40 | Target: at most {TARGET} |");
    println!("|---|---|---|---|---|---|---|---|");
    for workload in workloads {
        let rounds = rounds(REPLAYS, workload, ROUNDS, SAMPLE);
        let speed = |place: usize| Spread::of(rounds.iter().map(|round| 1e9 / round[place]));
        let ratio = |place: usize| Spread::of(rounds.iter().map(|round| round[0] / round[place]));
        let speeds = [0, 1, 2].map(|place| millions(speed(place)));
        let ratios = [1, 2].map(ratio);
        let least = |place: usize| Spread::of(rounds.iter().map(|round| round[place])).least;
        let best = least(0) / least(1);
        let met = if best <= TARGET { "met" } else { "missed" };
        let [with, without] = ratios.map(times);
        println!(
            "| {} | {} | {with} | {without} | {best:.2} | {met} |",
            workload.title,
            speeds.join(" | ")
        );
    }
    println!();
}

fn millions(spread: Spread) -> String {
    let [middle, least, greatest] = [spread.middle, spread.least, spread.greatest];
    let [middle, least, greatest] = [middle, least, greatest].map(|figure| figure / 1e6);
    format!("{middle:.2} M ({least:.2} to {greatest:.2})")
}

fn times(spread: Spread) -> String {
    let Spread {
        middle,
        least,
        greatest,
    } = spread;
    format!("{middle:.2} ({least:.2} to {greatest:.2})")
}

fn print_growth(title: &str, workloads: &[Workload]) {
    println!("| {title} | Loads and stores held | Proved, ns a call | Rust with 40, ns a call | Rust without, ns a call | Time to Rust with 40 |");
    println!("|---|---|---|---|---|---|");
    for workload in workloads {
        let rounds = rounds(REPLAYS, workload, GROWTH_ROUNDS, GROWTH_SAMPLE);
        let time = |place: usize| Spread::of(rounds.iter().map(|round| round[place])).middle;
        let ratio = Spread::of(rounds.iter().map(|round| round[0] / round[1]));
        let [proved, with, without] = [0, 1, 2].map(time);
        let [loads, stores] = workload.held;
        println!(
            "| {} | {loads:.1}, {stores:.1} | {proved:.0} | {with:.0} | {without:.0} | {} |",
            workload.title,
            times(ratio)
        );
    }
    println!();
}

/// First the serves of the traces. Those are chosen: most are of loads that are ready
/// by the rule of now. So the same is counted of all loads too.
fn print_waits(workloads: &[Workload]) {
    println!("Serves that no longer wait. A serve past 27 is answered 0, 28 or 29; before S-7 it got 28 if any earlier store had no address.");
    println!();
    println!("The serves of the traces, most of them of loads that are ready now:");
    println!();
    print_waits_by(workloads, |workload| workload.waits);
    println!("Every queued load tried after each call, ready or not:");
    println!();
    print_waits_by(workloads, Workload::waits_of_all_loads);
}

fn print_waits_by(workloads: &[Workload], counted: impl Fn(&Workload) -> Waits) {
    println!("| Workload | Serves past 27 | 28 before S-7 | 28 now | No longer 28, of those before | Of these accepted | Of these 29 |");
    println!("|---|---|---|---|---|---|---|");
    for workload in workloads {
        let waits = counted(workload);
        let Waits {
            past_27,
            accepted,
            no_data,
            ..
        } = waits;
        println!(
            "| {} | {past_27} | {} | {} | {} | {accepted} | {no_data} |",
            workload.title,
            with_share(waits.before, past_27),
            with_share(waits.now, past_27),
            with_share(accepted + no_data, waits.before),
        );
    }
    println!();
}

/// A count, and in brackets its share of another one, if that is not 0.
fn with_share(count: usize, of: usize) -> String {
    match of {
        0 => format!("{count}"),
        _ => format!("{count} ({:.1}%)", 100.0 * count as f64 / of as f64),
    }
}

fn print_reading(workloads: &[Workload]) {
    println!("| Reading alone (table, leading numbers, every event; no call) | Proved, ns an event | Rust, ns an event |");
    println!("|---|---|---|");
    for workload in workloads {
        let [proved, reference] = reading(workload);
        println!("| {} | {proved:.1} | {reference:.1} |", workload.title);
    }
    println!();
}

fn print_recorded(workloads: &[Workload]) {
    println!("| Replay with the shift record kept | ns an event | Without, ns an event | Time to without |");
    println!("|---|---|---|---|");
    for workload in workloads {
        let rounds = rounds(RECORDS, workload, GROWTH_ROUNDS, GROWTH_SAMPLE);
        let time = |place: usize| Spread::of(rounds.iter().map(|round| round[place])).middle;
        let ratio = Spread::of(rounds.iter().map(|round| round[0] / round[1]));
        let [kept, without] = [0, 1].map(time);
        println!(
            "| {} | {kept:.0} | {without:.0} | {} |",
            workload.title,
            times(ratio)
        );
    }
    println!();
}

fn print_live(title: &str, workloads: &[Workload]) {
    println!("| {title} | Live, ns a call | Rust with 40, ns a call | Time to Rust with 40 | Least time to Rust's least |");
    println!("|---|---|---|---|---|");
    for workload in workloads {
        let rounds = rounds(CALLS, workload, GROWTH_ROUNDS, GROWTH_SAMPLE);
        let time = |place: usize| Spread::of(rounds.iter().map(|round| round[place]));
        let ratio = Spread::of(rounds.iter().map(|round| round[0] / round[1]));
        let [live, in_place] = [0, 1].map(time);
        println!(
            "| {} | {:.0} | {:.0} | {} | {:.2} |",
            workload.title,
            live.middle,
            in_place.middle,
            times(ratio),
            live.least / in_place.least
        );
    }
    println!();
}
