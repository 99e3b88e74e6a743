//! The comparison of the programs finds what it looks for: scripts that print
//! what is right for some pairs of files and wrong for others.

use std::os::unix::fs::PermissionsExt;
use std::path::{Path, PathBuf};
use std::{env, fs};

use evidence::compare::Difference;
use evidence::program::{compare, Program, PAGE, PLAY};

/// A script of this name with this body.
fn script(name: &str, body: &str) -> PathBuf {
    let path = Path::new(env!("CARGO_TARGET_TMPDIR")).join(name);
    fs::write(&path, format!("#!/bin/sh\n{body}\n")).expect("a script");
    let may_run = fs::Permissions::from_mode(0o755);
    fs::set_permissions(&path, may_run).expect("a script that may run");
    path
}

fn difference(program: &Program, body: &str) -> String {
    let path = script(&format!("{}-script", program.name), body);
    let compared = compare(program, &path, 1, 4);
    // The pair that differs was kept there.
    let kept = format!("lsq-{}-{}", program.name, std::process::id());
    let _ = fs::remove_dir_all(env::temp_dir().join(kept));
    let Err(Difference(words)) = compared else {
        panic!("no difference of {}: {body}", program.name);
    };
    words
}

/// Each pair of files that is tried first has no table, whose fault is 1; a
/// right table comes behind.
fn finds_differences(program: &Program) {
    let name = program.name;
    let nothing = difference(program, "");
    assert!(nothing.contains(&format!("{name} on a table (none)")));
    assert!(nothing.contains("from byte 0 on"), "{nothing}");
    let table_1 = difference(program, "echo table 1");
    assert!(!table_1.contains("a table (none)"), "{table_1}");
    let more = difference(program, "echo table 1; echo");
    assert!(more.contains("from byte 8 on"), "{more}");
    let ended = difference(program, "echo table 1; exit 3");
    assert!(ended.contains("exit status"), "{ended}");
}

#[test]
fn a_program_that_differs_from_play_is_found() {
    finds_differences(&PLAY);
}

#[test]
fn a_program_that_differs_from_page_is_found() {
    finds_differences(&PAGE);
}
