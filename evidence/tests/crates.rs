//! `evidence/run` builds a library or a program again where a source of it is
//! newer. The crates that it names for each are all that stand beneath it in
//! `crates.txt`, and no others.

use std::collections::{BTreeMap, BTreeSet};
use std::fs;
use std::path::Path;

/// How `evidence/run` begins the list of crates of each.
const LISTS: [(&str, &str); 4] = [
    ("exports", "if stale exports/out/libexports.a "),
    ("live", "if stale live/out/liblive.a "),
    ("play", "LSQ_PLAY=$(program play \"${LSQ_PLAY:-}\" "),
    ("page", "LSQ_PAGE=$(program page \"${LSQ_PAGE:-}\" "),
];

fn read(path: &str) -> String {
    let root = Path::new(env!("CARGO_MANIFEST_DIR")).join("..");
    fs::read_to_string(root.join(path)).unwrap_or_else(|error| panic!("{path}: {error}"))
}

/// The crates that each crate names. Behind its own name a crate may be marked as
/// a static library.
fn named() -> BTreeMap<String, Vec<String>> {
    let text = read("crates.txt");
    let lines = text.lines().filter(|line| !line.starts_with('#'));
    let crates = lines.filter_map(|line| line.split_once(':'));
    let words = |names: &str| names.split_whitespace().map(String::from).collect();
    let own = |head: &str| head.split_whitespace().next().map(String::from);
    crates
        .filter_map(|(head, names)| Some((own(head)?, words(names))))
        .collect()
}

fn add_beneath(named: &BTreeMap<String, Vec<String>>, name: &str, found: &mut BTreeSet<String>) {
    let Some(names) = named.get(name) else {
        return;
    };
    if found.insert(name.to_string()) {
        names
            .iter()
            .for_each(|name| add_beneath(named, name, found));
    }
}

/// The crates that `evidence/run` names behind these words.
fn listed(script: &str, head: &str) -> BTreeSet<String> {
    let mut lists = script.lines().filter_map(|line| line.split_once(head));
    let (_, rest) = lists.next().unwrap_or_else(|| panic!("no `{head}`"));
    let names = rest.split([';', ')']).next().unwrap_or(rest);
    names.split_whitespace().map(String::from).collect()
}

#[test]
fn the_script_names_the_crates_of_each() {
    let (script, named) = (read("evidence/run"), named());
    for (name, head) in LISTS {
        let mut beneath = BTreeSet::new();
        add_beneath(&named, name, &mut beneath);
        let mut listed = listed(&script, head);
        // The script adds a program's own crate.
        if head.contains("program") {
            listed.insert(name.into());
        }
        assert!(beneath.len() > 5, "{name}: {beneath:?}");
        assert_eq!(listed, beneath, "{name}");
    }
}
