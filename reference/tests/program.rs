//! The programs `play_ref` and `gen_ref`, run as such in a folder of their own.

mod common;

use std::fs;
use std::path::Path;
use std::process::Command;

use common::{k1_trace, text_in, Folder, K1_TABLE, K1_TRACE};
use lsq_ref::gen;
use lsq_ref::play::play;

fn play_in(folder: &Path) -> String {
    text_in(folder, env!("CARGO_BIN_EXE_play_ref"))
}

#[test]
fn files_are_read_from_the_current_folder() {
    let folder = Folder::new("files");
    let (table, trace) = (folder.0.join("table.bin"), folder.0.join("trace.bin"));
    assert_eq!(play_in(&folder.0), "table 1\n");
    fs::write(&table, K1_TABLE).unwrap();
    assert_eq!(play_in(&folder.0), "trace 1\n");
    fs::write(&trace, K1_TRACE).unwrap();
    assert_eq!(play_in(&folder.0), play(Some(&K1_TABLE), Some(&K1_TRACE)));
    fs::write(&trace, k1_trace(12, &[0x86, 0x00, 0x00])).unwrap();
    assert_eq!(play_in(&folder.0), "trace 42\n");
    fs::write(&trace, vec![0; 16_385]).unwrap();
    assert_eq!(play_in(&folder.0), "trace 36\n");
    fs::write(&table, [0x80, 0x00]).unwrap();
    assert_eq!(play_in(&folder.0), "table 42\n");
    fs::write(&table, vec![0; 100_000]).unwrap();
    assert_eq!(play_in(&folder.0), "table 36\n");
}

#[test]
fn a_folder_in_a_files_place_counts_as_empty() {
    let folder = Folder::new("folder");
    fs::create_dir(folder.0.join("table.bin")).unwrap();
    assert_eq!(play_in(&folder.0), "table 1\n");
}

#[test]
fn generated_files_are_the_generators() {
    let folder = Folder::new("gen");
    for seed in [0u64, 7, u64::MAX] {
        let mut command = Command::new(env!("CARGO_BIN_EXE_gen_ref"));
        let status = command.arg(seed.to_string()).arg(&folder.0).status();
        assert!(status.expect("gen_ref").success());
        let (table, trace) = gen::pair(seed);
        assert_eq!(fs::read(folder.0.join("table.bin")).unwrap(), table);
        assert_eq!(fs::read(folder.0.join("trace.bin")).unwrap(), trace);
        assert_eq!(play_in(&folder.0), play(Some(&table), Some(&trace)));
    }
}
