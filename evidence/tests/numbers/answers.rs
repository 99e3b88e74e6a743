//! The answers of each call, in the order that comments give: those of `lsq.h`,
//! of the Rust wrapper, of the crate `live` and of `docs/FORMATS.md`, and those that the runs of
//! `evidence/` must come by.

use std::collections::{BTreeMap, BTreeSet};
use std::ops::Range;

use crate::check::Check;
use crate::source::{Source, Sources};

const HEADER: &str = "bindings/c/lsq.h";
const DIRECT: &str = "bindings/rust/src/direct.rs";
const LIVE: &str = "bindings/rust/src/live.rs";
const BYTES: &str = "bindings/rust/src/bytes.rs";
const SHIFT: &str = "bindings/rust/src/shift.rs";
const ORDERING: &str = "bindings/rust/src/ordering.rs";
const CRATE: [&str; 4] = [
    "crates/live/src/calls.rt",
    "crates/live/src/bytes.rt",
    "crates/live/src/order.rt",
    "crates/live/src/page.rt",
];
const TALLY: &str = "evidence/src/live/tally.rs";
const ORDERS: &str = "evidence/src/orders.rs";
const FORMATS: &str = "docs/FORMATS.md";
pub const PATHS: [&str; 13] = [
    HEADER, DIRECT, LIVE, BYTES, SHIFT, ORDERING, CRATE[0], CRATE[1], CRATE[2], CRATE[3], TALLY,
    ORDERS, FORMATS,
];

/// The one says the same of 40 the other way round, the other refuses nothing.
const NO_ORDER: [&str; 2] = ["Sound", "Recorded"];

/// A function's name without `lsq_`, and a comment's part that gives answers.
type Told = (String, Range<usize>);

pub fn read(check: &mut Check, sources: &Sources) {
    let mut orders = BTreeMap::new();
    let mut tell = |path: &str, told: Vec<Told>| {
        let source = sources.get(path);
        for (name, part) in told.into_iter().filter(|(name, _)| is_call(name)) {
            let name = without_record(&name);
            let order = order(check, source, &part);
            if order.is_empty() {
                continue;
            }
            check.say(
                &format!("answers of {name}"),
                source.place(part.start),
                shown(&order),
            );
            orders
                .entry(name)
                .or_insert((source.place(part.start), order));
        }
    };
    tell(HEADER, in_header(sources.get(HEADER)));
    tell(
        DIRECT,
        first_sentences(sources.get(DIRECT), "///", "pub fn "),
    );
    for path in CRATE {
        tell(path, in_crate(sources.get(path)));
    }
    tell(BYTES, errors(sources.get(BYTES), ""));
    tell(SHIFT, errors(sources.get(SHIFT), ""));
    tell(ORDERING, errors(sources.get(ORDERING), ""));
    tell(LIVE, errors(sources.get(LIVE), "_in"));
    tell(FORMATS, in_rows(sources.get(FORMATS)));
    come_by(check, sources.get(TALLY), &orders);
    orders_come_by(check, sources.get(ORDERS), &orders);
}

/// The calls that go by answers alone; a replay's are among the places.
fn is_call(name: &str) -> bool {
    name.ends_with("_in")
        || name.starts_with("read_")
        || name.starts_with("write_")
        || name == "table_fault"
        || name == "page"
        || name == "order"
}

/// A take that keeps a record answers as one without.
fn without_record(name: &str) -> String {
    name.replace("take_recorded", "take")
}

/// The numbers of a part, each range spelled out. A limit, "above 6", is none.
fn order(check: &mut Check, source: &Source, part: &Range<usize>) -> Vec<u64> {
    let flat = &source.flat;
    let mut order: Vec<u64> = Vec::new();
    let mut end = 0;
    for numeral in source.numerals_in(part) {
        let found = &source.numerals[numeral];
        let before = &flat[..found.flat.start];
        if before.ends_with("above ") {
            continue;
        }
        check.mark(source, numeral);
        match order.last() {
            Some(&last) if &flat[end..found.flat.start] == " to " => {
                order.extend(last + 1..=found.value)
            }
            _ => order.push(found.value),
        }
        end = found.flat.end;
    }
    order
}

fn shown(order: &[u64]) -> String {
    let numbers = order.iter().map(u64::to_string);
    numbers.collect::<Vec<_>>().join(", ")
}

/// The first sentence of the comment before each declaration of `lsq.h`.
fn in_header(source: &Source) -> Vec<Told> {
    let mut comment = 0..0;
    let mut told = Vec::new();
    for (range, line) in source.lines() {
        if line.starts_with("/*") {
            comment = range.start..source.text.len();
        }
        if line.starts_with("#define LSQ_QUEUE_BYTES") {
            break;
        }
        let declared = line.split_once(" lsq_").and_then(|(kind, rest)| {
            let is_type = kind.chars().all(|c| c.is_ascii_alphanumeric() || c == '_');
            rest.split_once('(').filter(|_| is_type)
        });
        if let Some((name, _)) = declared {
            told.push((name.to_string(), first_sentence(source, &comment)));
        }
    }
    told
}

/// The first sentence of the comment before each function of the crate.
fn in_crate(source: &Source) -> Vec<Told> {
    let mut told = first_sentences(source, "//", "pub extern \"C\" fn lsq_");
    // It says the same of 40 the other way round.
    told.retain(|(name, _)| name != "sound_in");
    told
}

/// The rows `| load address, store address | 40, 22, 23, 24 |` of the calls on a
/// queue, and the rows of a page and of an order.
fn in_rows(source: &Source) -> Vec<Told> {
    let lines = source.lines();
    let rows = lines.skip_while(|(_, line)| !line.starts_with("| activate |"));
    let mut told = Vec::new();
    for (range, line) in rows.take_while(|(_, line)| !line.contains("replay")) {
        let calls = line.trim_start_matches("| ").split(" |").next();
        let calls = calls
            .expect("a first cell")
            .replace("ready", "ready loads, ready stores");
        for call in calls.split(", ") {
            let name = match call {
                "writing a page" => "page".into(),
                "ordering a group" => "order".into(),
                _ => call.replace(' ', "_") + "_in",
            };
            told.push((name, range.clone()));
        }
    }
    told
}

/// A part up to the first full stop with a blank behind it.
fn first_sentence(source: &Source, part: &Range<usize>) -> Range<usize> {
    let text = &source.text[part.clone()];
    let length = [". ", ".\n"]
        .iter()
        .filter_map(|stop| text.find(stop))
        .min();
    part.start..part.start + length.unwrap_or(text.len())
}

fn first_sentences(source: &Source, mark: &str, head: &str) -> Vec<Told> {
    let told = commented(source, mark, head).into_iter();
    told.map(|(name, part)| (name, first_sentence(source, &part)))
        .collect()
}

/// What stands under `# Errors` before each function.
fn errors(source: &Source, ending: &str) -> Vec<Told> {
    let part = |(name, part): Told| {
        let start = source.text[part.clone()].find("# Errors")?;
        Some((name + ending, part.start + start..part.end))
    };
    commented(source, "///", "pub fn ")
        .into_iter()
        .filter_map(part)
        .collect()
}

/// The comment before each function.
fn commented(source: &Source, mark: &str, head: &str) -> Vec<Told> {
    let mut comment: Option<Range<usize>> = None;
    let mut told = Vec::new();
    for (range, line) in source.lines() {
        let line = line.trim_start();
        if line.starts_with(mark) {
            let start = comment.map_or(range.start, |comment| comment.start);
            comment = Some(start..range.end);
            continue;
        }
        if line.starts_with("#[") {
            continue;
        }
        let comment = comment.take();
        if let (Some(part), Some(rest)) = (comment, line.strip_prefix(head)) {
            let name = rest.split(['(', '<']).next().unwrap_or(rest);
            told.push((name.to_string(), part));
        }
    }
    told
}

/// What comments give as the answers of each call, and where.
type Orders = BTreeMap<String, (String, Vec<u64>)>;

/// The answers that runs on records must come by, and that comments give.
fn come_by(check: &mut Check, source: &Source, orders: &Orders) {
    let lines = source
        .lines()
        .skip_while(|(_, line)| !line.starts_with("pub const IN_RECORDS"));
    for (range, line) in lines.take_while(|(_, line)| !line.starts_with("};")) {
        let Some((name, _)) = line
            .trim()
            .strip_prefix('(')
            .and_then(|rest| rest.split_once(", &["))
        else {
            continue;
        };
        if NO_ORDER.contains(&name) {
            continue;
        }
        let name = without_record(&snake(name));
        comes_by(check, source, &range, &name, orders);
    }
}

/// Those that runs on pairs must come by.
fn orders_come_by(check: &mut Check, source: &Source, orders: &Orders) {
    let head = "const IN_ORDERS";
    match source.lines().find(|(_, line)| line.starts_with(head)) {
        Some((range, _)) => comes_by(check, source, &range, "order", orders),
        None => check.fault(format!("{}: no `{head}`", source.path)),
    }
}

/// The answers of a call that stand in a line.
fn comes_by(check: &mut Check, source: &Source, range: &Range<usize>, name: &str, orders: &Orders) {
    let Some((place, order)) = orders
        .get(&format!("{name}_in"))
        .or_else(|| orders.get(name))
    else {
        return check.fault(format!(
            "{}: no comment gives its answers",
            source.place(range.start)
        ));
    };
    let number = format!("answers of {name}, 0 among them, by size");
    let given: BTreeSet<u64> = order.iter().copied().chain([0]).collect();
    check.say(
        &number,
        place.clone(),
        shown(&given.into_iter().collect::<Vec<_>>()),
    );
    let numerals = source.numerals_in(range);
    let numbers: Vec<u64> = numerals.iter().map(|&n| source.numerals[n].value).collect();
    numerals.iter().for_each(|&n| check.mark(source, n));
    check.say(&number, source.place(range.start), shown(&numbers));
}

/// `LoadAddress` as `load_address`.
fn snake(name: &str) -> String {
    let letter = |c: char| match c.is_ascii_uppercase() {
        true => format!("_{}", c.to_ascii_lowercase()),
        false => c.to_string(),
    };
    name.chars()
        .map(letter)
        .collect::<String>()
        .trim_start_matches('_')
        .into()
}
