//! `gen_ref SEED [FOLDER]` writes the seed's `table.bin` and `trace.bin` into
//! the folder, the current one if none is named.

use std::path::PathBuf;
use std::process::ExitCode;
use std::{env, fs};

use lsq_ref::gen;

fn main() -> ExitCode {
    let mut args = env::args().skip(1);
    let Some(Ok(seed)) = args.next().map(|seed| seed.parse()) else {
        eprintln!("usage: gen_ref SEED [FOLDER]");
        return ExitCode::from(2);
    };
    let folder = PathBuf::from(args.next().unwrap_or_else(|| ".".into()));
    let (table, trace) = gen::pair(seed);
    let written = fs::write(folder.join("table.bin"), table)
        .and_then(|()| fs::write(folder.join("trace.bin"), trace));
    match written {
        Ok(()) => ExitCode::SUCCESS,
        Err(error) => {
            eprintln!("gen_ref: {error}");
            ExitCode::FAILURE
        }
    }
}
