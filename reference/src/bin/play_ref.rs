//! Reads `table.bin` and `trace.bin` in the current folder and prints the run.

use std::io;

use lsq_ref::play::{play, print_files};

fn main() -> io::Result<()> {
    print_files(play)
}
