//! The refusal numbers: the enum of `lsq.h`, the names of the Rust wrapper and of
//! the reference, and the enum and the definitions of the crates.

use std::collections::{BTreeMap, BTreeSet};

use crate::check::Check;
use crate::source::{Source, Sources};

pub const PATHS: [&str; 6] = [
    "bindings/c/lsq.h",
    "bindings/rust/src/refusal.rs",
    "reference/src/refusal.rs",
    "crates/number/src/refusal.rt",
    "crates/number/specs/Refusal.antt",
    "docs/FORMATS.md",
];

/// The enum of the crates, and what gives its number to each case of it.
const CRATES_ENUM: (&str, &str) = ("crates/number/src/refusal.rt", "pub enum Refusal {\n");
const NUMBERED: (&str, &str) = ("crates/number/specs/Refusal.antt", "refusal_number ");

/// Names of the crates that differ from those of `lsq.h`.
const CRATES_NAMES: [(&str, &str); 16] = [
    ("ENDED", "BYTES_END"),
    ("TOO_LARGE", "FIFTH_BYTE"),
    ("BAD_FIELDS", "FIELDS"),
    ("BAD_GROUP_COUNT", "GROUP_COUNT"),
    ("BAD_COUNTS", "ACCESS_COUNTS"),
    ("BAD_PORT", "PORT_RANGE"),
    ("BAD_OFFSET", "OFFSET"),
    ("BAD_LOAD_DEPTH", "LOAD_DEPTH"),
    ("BAD_STORE_DEPTH", "STORE_DEPTH"),
    ("BAD_MEMORY_LENGTH", "MEMORY_LENGTH"),
    ("BAD_ADDRESS", "ADDRESS_RANGE"),
    ("EARLIER_STORE_UNKNOWN", "EARLIER_STORE_ADDRESS"),
    ("WRONG_MEMORY", "OTHER_MEMORY"),
    ("LOAD_CONFLICT", "LOAD_CONFLICT"),
    ("STORE_CONFLICT", "STORE_CONFLICT"),
    ("BAD_KIND", "KIND"),
];

/// Names that a kind of source need not have: 0 is no refusal.
const ABSENT: [(&str, &str); 4] = [
    ("ACCEPTED", "bindings/rust"),
    ("ACCEPTED", "src/refusal.rt"),
    ("ACCEPTED", "specs/Refusal.antt"),
    ("ACCEPTED", "docs/FORMATS.md"),
];
const KINDS: [&str; 6] = [
    "bindings/c",
    "bindings/rust",
    "reference",
    "src/refusal.rt",
    "specs/Refusal.antt",
    "docs/FORMATS.md",
];

pub fn read(check: &mut Check, sources: &Sources) {
    cases(check, sources);
    let mut having: BTreeMap<String, Vec<&str>> = BTreeMap::new();
    for path in PATHS {
        let source = sources.get(path);
        for (name, numeral) in named(source) {
            let value = source.numerals[numeral].value;
            check.say_numeral(&format!("refusal {name}"), source, numeral, value);
            having.entry(name).or_default().push(path);
        }
    }
    for (name, paths) in having {
        for kind in KINDS {
            let has = paths.iter().any(|path| path.contains(kind));
            if !has && !ABSENT.contains(&(name.as_str(), kind)) {
                check.fault(format!("refusal {name}: {paths:?} have it, no {kind} has"));
            }
        }
    }
}

/// Each case of the crates' enum has a number beside it, and the definition of its own
/// name, as in `refusal_number NoGroup = no_group`; no other case is numbered.
fn cases(check: &mut Check, sources: &Sources) {
    let (path, head) = CRATES_ENUM;
    let text = &sources.get(path).text;
    let body = text
        .split_once(head)
        .and_then(|(_, rest)| rest.split('}').next());
    let lines = body.unwrap_or_default().lines().map(str::trim);
    let mut named = BTreeSet::new();
    for line in lines.filter(|line| !line.is_empty() && !line.starts_with("//")) {
        match line.split_once(" = ") {
            Some((case, _)) => drop(named.insert(case)),
            None => check.fault(format!("{path}: `{line}` has no number beside it")),
        }
    }
    let (path, head) = NUMBERED;
    let lines = sources.get(path).text.lines();
    let pairs = lines.filter_map(|line| line.strip_prefix(head)?.split_once(" = "));
    let mut numbered = BTreeSet::new();
    for (case, definition) in pairs {
        numbered.insert(case);
        if upper(case) != upper(definition) {
            check.fault(format!("{path}: {case} is numbered as {definition}"));
        }
    }
    if named.is_empty() || named != numbered {
        let both = format!("{named:?}, and numbered are {numbered:?}");
        check.fault(format!("{path}: the cases are {both}"));
    }
}

/// The names that a source gives to numbers, one in a line.
fn named(source: &Source) -> Vec<(String, usize)> {
    let mut found = Vec::new();
    for (range, line) in source.lines() {
        let Some((name, value)) = line.split_once(" = ").or_else(|| in_row(line)) else {
            continue;
        };
        let numerals = source.numerals_in(&range);
        let starts = value.starts_with(|c: char| c.is_ascii_digit());
        if let (Some(&numeral), true) = (numerals.first(), starts) {
            found.extend(name_of(name).map(|name| (name, numeral)));
        }
    }
    found
}

/// The name and the number of a row ``| 1 | `LSQ_BYTES_END` | .. |``.
fn in_row(line: &str) -> Option<(&str, &str)> {
    let (number, rest) = line.strip_prefix("| ")?.split_once(" | `LSQ_")?;
    let (name, _) = rest.split_once('`')?;
    Some((name, number))
}

/// The name of `lsq.h`, without its `LSQ_`, for what stands before the `=`.
fn name_of(before: &str) -> Option<String> {
    let word = before.trim().trim_start_matches("pub const ");
    let word = word.trim_end_matches(": u8").trim_start_matches("LSQ_");
    let is_name = word.chars().all(|c| c.is_ascii_alphabetic() || c == '_');
    let name = upper(word);
    let other = CRATES_NAMES.iter().find(|(crates, _)| *crates == name);
    let name = other.map_or(name, |(_, lsq)| lsq.to_string());
    is_name.then_some(name)
}

/// `NoGroup`, or `no_group`, as `NO_GROUP`.
fn upper(name: &str) -> String {
    let mut upper = String::new();
    let mut low = false;
    for letter in name.chars() {
        if low && letter.is_ascii_uppercase() {
            upper.push('_');
        }
        low = letter.is_ascii_lowercase();
        upper.push(letter.to_ascii_uppercase());
    }
    upper
}
