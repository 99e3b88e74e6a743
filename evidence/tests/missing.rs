//! What is missing ends a run and is named: nothing is left out of a comparison
//! in silence.

use std::path::Path;
use std::process::{Command, Output};

const NOWHERE: &str = "/nowhere/that/is";

/// How `evidence/run differential` ends, where a variable names a place that is
/// not there.
fn run_with(variable: &str, place: &str) -> Output {
    let script = Path::new(env!("CARGO_MANIFEST_DIR")).join("run");
    let mut command = Command::new(script);
    // What is not tried stands where it is, so that nothing is built.
    for program in ["LSQ_PLAY", "LSQ_PAGE"] {
        command.env(program, env!("CARGO_BIN_EXE_differential"));
    }
    command
        .env(variable, place)
        .args(["differential", "1", "1"]);
    command.output().expect("evidence/run")
}

fn assert_names(ended: &Output, status: i32, words: &str) {
    let told = String::from_utf8_lossy(&ended.stderr);
    assert_eq!(ended.status.code(), Some(status), "{told}");
    assert!(told.contains(words), "{told}");
    let printed = String::from_utf8_lossy(&ended.stdout);
    assert!(!printed.contains("no difference"), "{printed}");
}

#[test]
fn a_differential_run_needs_both_programs() {
    for (variable, name) in [("LSQ_PLAY", "play"), ("LSQ_PAGE", "page")] {
        let place = format!("{NOWHERE}/{name}");
        let mut command = Command::new(env!("CARGO_BIN_EXE_differential"));
        for program in ["LSQ_PLAY", "LSQ_PAGE"] {
            command.env(program, env!("CARGO_BIN_EXE_differential"));
        }
        command.env(variable, &place).args(["1", "1"]);
        let ended = command.output().expect("differential");
        let words = format!("nothing was compared: {place} is missing");
        assert_names(&ended, 2, &words);
    }
}

#[test]
fn the_script_names_a_missing_program() {
    for (variable, name) in [("LSQ_PLAY", "play"), ("LSQ_PAGE", "page")] {
        let place = format!("{NOWHERE}/{name}");
        let words = format!("{place} is missing");
        assert_names(&run_with(variable, &place), 1, &words);
    }
}

#[test]
fn the_script_names_a_missing_library() {
    let words = format!("{NOWHERE}/libexports.a is missing");
    assert_names(&run_with("LSQ_LIB_DIR", NOWHERE), 1, &words);
}

/// No record gives no difference, and no success either.
#[test]
fn too_few_records_are_no_success() {
    let mut command = Command::new(env!("CARGO_BIN_EXE_records"));
    let ended = command.args(["1", "0"]).output().expect("records");
    let printed = String::from_utf8_lossy(&ended.stdout);
    assert_eq!(ended.status.code(), Some(2), "{printed}");
    assert!(printed.contains("but never tried"), "{printed}");
    assert!(printed.contains("calls through the C header"), "{printed}");
}

/// Nor have no cases of pairs.
#[test]
fn too_few_orders_are_no_success() {
    let mut command = Command::new(env!("CARGO_BIN_EXE_orders"));
    let ended = command.args(["1", "0"]).output().expect("orders");
    let printed = String::from_utf8_lossy(&ended.stdout);
    assert_eq!(ended.status.code(), Some(2), "{printed}");
    assert!(printed.contains("but never tried"), "{printed}");
    assert!(printed.contains("a count of 4294967295"), "{printed}");
}
