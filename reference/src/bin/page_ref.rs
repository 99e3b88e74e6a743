//! Reads `table.bin` and `trace.bin` in the current folder and prints the shift
//! page after the run.

use std::io;

use lsq_ref::play::{page, print_files};

fn main() -> io::Result<()> {
    print_files(page)
}
