//! Every number that stands in more than one source (`lsq.h`, the Rust wrapper,
//! the crates' code and definitions, the reference, `docs/FORMATS.md`) is the same
//! in all of them; where one is changed, the test names it and every other place.

mod answers;
mod check;
mod layout;
mod places;
mod refusals;
mod source;

use check::Check;
use source::Sources;

const TEXT_SPECS: &str = "crates/printed/specs/Outcome.antt";
const VERSIONS: [(&str, &str); 2] = [
    ("bindings/c/lsq.h", "#define LSQ_VERSION \""),
    ("bindings/rust/Cargo.toml", "version = \""),
];

/// The sources of which every number must be compared with another's: `lsq.h`
/// and all of the wrapper.
fn whole() -> Vec<String> {
    let mut paths = source::listed("bindings/rust/src");
    paths.push("bindings/c/lsq.h".into());
    paths
}

/// The crates' sources, of which every constant must be.
fn crates() -> Vec<String> {
    let libraries = [
        "counts", "table", "ordering", "grouping", "queue", "shift", "replay", "printed", "paged",
        "exports", "live", "program",
    ];
    let folders = libraries.map(|name| format!("crates/{name}/src"));
    folders
        .iter()
        .flat_map(|folder| source::listed(folder))
        .collect()
}

fn sources() -> Sources {
    let places = places::all();
    let paths = places.iter().map(|place| place.path);
    let paths = paths.chain(refusals::PATHS).chain(layout::PATHS);
    let paths = paths.chain(answers::PATHS).chain([TEXT_SPECS]);
    let paths = paths.chain(VERSIONS.map(|(path, _)| path));
    let paths = paths.map(String::from).chain(whole()).chain(crates());
    Sources::read(paths)
}

fn checked(sources: &Sources) -> Check {
    let mut check = Check::default();
    places::read(&mut check, sources);
    refusals::read(&mut check, sources);
    layout::read(&mut check, sources);
    answers::read(&mut check, sources);
    longest_text(&mut check, sources);
    versions(&mut check, sources);
    let compiled = "bindings/rust/src/saved.rs, as compiled,".into();
    check.say("bytes of a saved queue", compiled, lsq::QUEUE_BYTES);
    check
}

/// `most_text = 63 * most_bytes + 47 * 4096 + 85`.
fn longest_text(check: &mut Check, sources: &Sources) {
    let source = sources.get(TEXT_SPECS);
    let line = source
        .lines()
        .find(|(_, line)| line.starts_with("most_text = "));
    let numerals = line.map_or(Vec::new(), |(range, _)| source.numerals_in(&range));
    let file = check.first("bytes of the longest file");
    let ([event, word, words, last], Some(file)) = (&numerals[..], file) else {
        return check.fault(format!("{TEXT_SPECS}: no most_text as a sum"));
    };
    let value = |&numeral: &usize| source.numerals[numeral].value;
    let sum = value(event) * file + value(word) * value(words) + value(last);
    check.say("bytes of the longest text", source.place_of(*event), sum);
    check.say_numeral("words of memory", source, *words, value(words));
    [event, word, last]
        .iter()
        .for_each(|&&numeral| check.mark(source, numeral));
}

/// The version of `lsq.h` and of the wrapper.
fn versions(check: &mut Check, sources: &Sources) {
    for (path, head) in VERSIONS {
        let source = sources.get(path);
        let line = source.lines().find(|(_, line)| line.starts_with(head));
        let Some((range, line)) = line else {
            check.fault(format!("{path}: nothing like `{head}`"));
            continue;
        };
        let version = line[head.len()..].trim_end().trim_end_matches('"');
        check.say("version", source.place(range.start), version);
        for numeral in source.numerals_in(&range) {
            check.mark(source, numeral);
        }
    }
}

#[test]
fn numbers_are_the_same_in_all_sources() {
    let faults = checked(&sources()).faults();
    assert!(faults.is_empty(), "\n{}", faults.join("\n"));
}

/// A number that is new to `lsq.h` or to the wrapper is compared, or found here.
#[test]
fn every_number_of_the_bindings_is_compared() {
    let sources = sources();
    let check = checked(&sources);
    let of = |path: &String| {
        let source = sources.get(path);
        check.left_out(source, &(0..source.text.len()))
    };
    let left: Vec<String> = whole().iter().flat_map(of).collect();
    assert!(
        left.is_empty(),
        "held to no other source:\n{}",
        left.join("\n")
    );
}

/// So is a constant that is new to a crate.
#[test]
fn every_constant_of_the_crates_is_compared() {
    let sources = sources();
    let check = checked(&sources);
    let of = |path: &String| {
        let source = sources.get(path);
        let lines = source.lines().filter(|(_, line)| line.contains("const "));
        let left = lines.flat_map(|(range, _)| check.left_out(source, &range));
        left.collect::<Vec<_>>()
    };
    let left: Vec<String> = crates().iter().flat_map(of).collect();
    assert!(
        left.is_empty(),
        "held to no other source:\n{}",
        left.join("\n")
    );
}

/// Each number that is compared, changed by one: the test finds it, and names
/// its source and another place.
#[test]
fn a_changed_number_is_found_and_named() {
    let sources = sources();
    let check = checked(&sources);
    assert_eq!(check.faults(), Vec::<String>::new());
    let mut tried = 0;
    for source in sources.all() {
        for numeral in check.compared(source) {
            let changed = sources.with(source.with_one_more(numeral));
            let faults = checked(&changed).faults().join("\n");
            let places: Vec<&str> = faults
                .lines()
                .filter_map(|l| l.strip_prefix("    "))
                .collect();
            let named = places.iter().any(|place| place.starts_with(&source.path));
            let place = source.place_of(numeral);
            assert!(named && places.len() > 1, "{place}, changed: {faults}");
            tried += 1;
        }
    }
    assert!(tried > 400, "only {tried} numbers were changed");
    println!("{tried} numbers changed, one at a time");
}
