//! Sizes of records and places of their fields: what `lsq.h` and the Rust wrapper
//! assert, and what the fields of the crates' records add up to.

use crate::check::Check;
use crate::source::{Source, Sources};

/// The crates' records that go to C, and their names there.
const RECORDS: [(&str, &str, &str); 17] = [
    ("crates/table/src/lib.rt", "Table", "lsq_table"),
    ("crates/queue/src/lib.rt", "Side", "lsq_side"),
    ("crates/queue/src/lib.rt", "Frame", "lsq_frame"),
    ("crates/counts/src/lib.rt", "Counts", "lsq_counts"),
    ("crates/queue/src/lib.rt", "Queue", "lsq_queue"),
    ("crates/live/src/bytes.rt", "TableFound", "lsq_table_read"),
    ("crates/live/src/bytes.rt", "LiveWritten", "lsq_written"),
    ("crates/live/src/calls.rt", "LiveOpened", "lsq_opened"),
    ("crates/live/src/calls.rt", "LiveStep", "lsq_step"),
    ("crates/live/src/calls.rt", "LiveService", "lsq_service"),
    ("crates/live/src/calls.rt", "LiveReady", "lsq_listed"),
    ("crates/ordering/src/lib.rt", "Precedence", "lsq_precedence"),
    (
        "crates/ordering/src/lib.rt",
        "Precedences",
        "lsq_precedences",
    ),
    ("crates/ordering/src/lib.rt", "Ordered", "lsq_ordered"),
    ("crates/grouping/src/lib.rt", "Accesses", "lsq_accesses"),
    ("crates/shift/src/lib.rt", "ShiftRecord", "lsq_shift_record"),
    ("crates/exports/src/lib.rt", "LentRecorded", "lsq_replayed"),
];

pub const PATHS: [&str; 12] = [
    "bindings/c/lsq.h",
    "bindings/rust/src/record.rs",
    "bindings/rust/src/live.rs",
    "crates/table/src/lib.rt",
    "crates/counts/src/lib.rt",
    "crates/queue/src/lib.rt",
    "crates/live/src/bytes.rt",
    "crates/live/src/calls.rt",
    "crates/ordering/src/lib.rt",
    "crates/grouping/src/lib.rt",
    "crates/shift/src/lib.rt",
    "crates/exports/src/lib.rt",
];

pub fn read(check: &mut Check, sources: &Sources) {
    for path in &PATHS[..3] {
        asserted(check, sources.get(path));
    }
    for (path, name, in_c) in RECORDS {
        added_up(check, sources, sources.get(path), name, in_c);
    }
}

/// `LSQ_HOLDS(sizeof(lsq_side) == 8);` and `assert!(size_of::<Side>() == 8);`,
/// and the same of a field's place.
fn asserted(check: &mut Check, source: &Source) {
    for (range, line) in source.lines() {
        let held = line.trim().strip_prefix("LSQ_HOLDS(");
        let held = held.or_else(|| line.trim().strip_prefix("assert!("));
        let (Some((what, _)), Some(&numeral)) = (
            held.and_then(|held| held.split_once(") == ")),
            source.numerals_in(&range).last(),
        ) else {
            continue;
        };
        let what = what.replace("size_of::<", "sizeof(").replace(">(", "");
        let what = what.replace("offset_of!(", "offsetof(");
        let (kind, of) = what
            .split_once('(')
            .expect("an assertion of one or the other");
        let (record, field) = of.split_once(", ").unwrap_or((of, ""));
        let number = match kind {
            "sizeof" => format!("size of {}", c_name(record)),
            _ => format!("place of {field} in {}", c_name(record)),
        };
        check.say_numeral(&number, source, numeral, source.numerals[numeral].value);
    }
}

/// `TableRead` as `lsq_table_read`.
fn c_name(name: &str) -> String {
    if name.starts_with("lsq_") || name == "size_t" {
        return name.into();
    }
    if name == "usize" {
        return "size_t".into();
    }
    let letter = |c: char| match c.is_ascii_uppercase() {
        true => format!("_{}", c.to_ascii_lowercase()),
        false => c.to_string(),
    };
    format!("lsq{}", name.chars().map(letter).collect::<String>())
}

/// What the fields of a crate's record add up to, as C lays them out.
fn added_up(check: &mut Check, sources: &Sources, source: &Source, name: &str, in_c: &str) {
    let Some((place, fields)) = fields(source, name) else {
        return check.fault(format!("{}: no record {name}", source.path));
    };
    let (mut end, mut align) = (0, 1);
    for (field, kind) in fields {
        let (size, aligned) = size_of(sources, source, &kind);
        let start = up_to(end, aligned);
        let field = field
            .replace("load_entries", "loads")
            .replace("store_entries", "stores");
        let number = format!("place of {field} in {in_c}");
        if check.is_said(&number) {
            check.say(&number, place.clone(), start);
        }
        (end, align) = (start + size, align.max(aligned));
    }
    check.say(&format!("size of {in_c}"), place, up_to(end, align));
}

fn up_to(at: u64, align: u64) -> u64 {
    at.div_ceil(align) * align
}

/// A record's place, and its fields with their types.
fn fields(source: &Source, name: &str) -> Option<(String, Vec<(String, String)>)> {
    let head = format!("pub struct {name} {{\n");
    let start = source.text.find(&head)?;
    let body = source.text[start + head.len()..].split('}').next()?;
    let lines = body
        .lines()
        .filter_map(|line| line.trim().strip_prefix("pub "));
    let field = |line: &str| {
        let (field, kind) = line.trim_end_matches(',').split_once(": ")?;
        Some((field.to_string(), kind.to_string()))
    };
    Some((source.place(start), lines.filter_map(field).collect()))
}

/// The size of a type that a source names, and the places that it may stand at.
fn size_of(sources: &Sources, source: &Source, kind: &str) -> (u64, u64) {
    if let Some(bits) = kind
        .strip_prefix('u')
        .and_then(|bits| bits.parse::<u64>().ok())
    {
        return (bits / 8, bits / 8);
    }
    if let Some(array) = kind.strip_prefix('[') {
        let (element, length) = array
            .trim_end_matches(']')
            .split_once("; ")
            .expect("an array");
        let (size, align) = size_of(sources, source, element);
        return (size * length_of(sources, source, length), align);
    }
    let record = RECORDS.iter().find(|(_, name, _)| *name == kind);
    let (path, name, _) = record.unwrap_or_else(|| panic!("no record {kind}"));
    let source = sources.get(path);
    let (_, fields) = fields(source, name).unwrap_or_else(|| panic!("no record {kind}"));
    let (end, align) = fields.iter().fold((0, 1), |(end, align), (_, kind)| {
        let (size, aligned) = size_of(sources, source, kind);
        (up_to(end, aligned) + size, align.max(aligned))
    });
    (up_to(end, align), align)
}

/// An array's length: a number, or a constant, of the source or of the crate that
/// it is taken from.
fn length_of(sources: &Sources, source: &Source, length: &str) -> u64 {
    let mut uses = source.text.lines();
    if let Some(name) = uses.find_map(|line| taken_from(line, length)) {
        let path = format!("crates/{name}/src/lib.rt");
        return length_of(sources, sources.get(&path), length);
    }
    let head = format!("pub const {length}: usize = ");
    let mut lines = source.text.lines();
    let constant = lines.find_map(|line| line.strip_prefix(&head)?.strip_suffix(';'));
    let number = constant.unwrap_or(length).parse();
    number.unwrap_or_else(|_| panic!("{}: no length {length}", source.path))
}

/// The crate that a line `use CRATE::NAME;` or `use CRATE::{NAME, ..};` takes a
/// name from.
fn taken_from<'a>(line: &'a str, name: &str) -> Option<&'a str> {
    let (from, names) = line
        .strip_prefix("use ")?
        .strip_suffix(';')?
        .split_once("::")?;
    let mut names = names.trim_matches(['{', '}']).split(", ");
    names.any(|taken| taken == name).then_some(from)
}
