//! The printed run, and the shift page after it.

use std::fmt::Write as _;
use std::fs::File;
use std::io::{self, Read, Write as _};

use crate::counts::Counts;
use crate::event::{read_header, Event, EventReader};
use crate::queue::Queue;
use crate::refusal;
use crate::shift::ShiftRecord;
use crate::table::Table;

/// `table.bin` and `trace.bin` are "each at most 16,384 bytes".
pub const MAX_FILE: usize = 16_384;

/// What `play` prints for the bytes of `table.bin` and `trace.bin`; `None`
/// stands for "a file that can't be opened", which "counts as empty".
#[must_use]
pub fn play(table: Option<&[u8]>, trace: Option<&[u8]>) -> String {
    match opened(table, trace) {
        Ok((queue, events)) => print_run(queue, &events),
        Err(line) => line,
    }
}

/// The shift page after the run of these files, from a record of no takes, or
/// the line that [`play`] prints for a fault of theirs.
#[must_use]
pub fn page(table: Option<&[u8]>, trace: Option<&[u8]>) -> Vec<u8> {
    match opened(table, trace) {
        Ok((queue, events)) => record_run(queue, &events).page(),
        Err(line) => line.into_bytes(),
    }
}

/// Prints the `text` of `table.bin` and `trace.bin` in the current folder.
///
/// # Errors
/// When it can't be printed.
pub fn print_files<T: AsRef<[u8]>>(
    text: impl Fn(Option<&[u8]>, Option<&[u8]>) -> T,
) -> io::Result<()> {
    let table = bytes_of("table.bin");
    let trace = bytes_of("trace.bin");
    let text = text(table.as_deref(), trace.as_deref());
    io::stdout().write_all(text.as_ref())
}

/// The file's bytes, at most one more than are allowed. "A file that can't be
/// opened counts as empty"; here that goes for one that can't be read too.
fn bytes_of(name: &str) -> Option<Vec<u8>> {
    let file = File::open(name).ok()?;
    let mut bytes = Vec::new();
    let limit = MAX_FILE as u64 + 1;
    file.take(limit).read_to_end(&mut bytes).ok()?;
    Some(bytes)
}

/// A fresh queue and the events to play on it, or the one line of a fault:
/// `table N` or `trace N`.
fn opened(table: Option<&[u8]>, trace: Option<&[u8]>) -> Result<(Queue, Vec<Event>), String> {
    let table = read_table(table.unwrap_or_default());
    let table = table.map_err(|refusal| format!("table {refusal}\n"))?;
    let opened = read_trace(table, trace.unwrap_or_default());
    opened.map_err(|refusal| format!("trace {refusal}\n"))
}

/// "Else 36, checked first for that file."
fn check_length(file: &[u8]) -> Result<(), u8> {
    let fits = file.len() <= MAX_FILE;
    fits.then_some(()).ok_or(refusal::FILE_TOO_LONG)
}

fn read_table(file: &[u8]) -> Result<Table, u8> {
    check_length(file)?;
    Table::read(file)
}

/// "A fault in the trace's four leading numbers, then in opening, then in any
/// event, found before one is played."
fn read_trace(table: Table, file: &[u8]) -> Result<(Queue, Vec<Event>), u8> {
    check_length(file)?;
    let (header, at) = read_header(file)?;
    let queue = Queue::open(table, header)?;
    let events = EventReader { bytes: file, at }.rest()?;
    Ok((queue, events))
}

/// "One line per event", then the words that are not 0, then the counts.
fn print_run(mut queue: Queue, events: &[Event]) -> String {
    let mut memory = vec![0; queue.memory_length as usize];
    let mut counts = Counts::default();
    let mut text = String::new();
    for (i, event) in events.iter().enumerate() {
        let answer = queue.apply(event, &mut memory, &mut counts);
        print_answer(&mut text, i + 1, answer);
    }
    print_end(&mut text, &memory, &counts);
    text
}

/// The record of the run's takes.
fn record_run(mut queue: Queue, events: &[Event]) -> ShiftRecord {
    let mut memory = vec![0; queue.memory_length as usize];
    let mut counts = Counts::default();
    let mut record = ShiftRecord::default();
    for event in events {
        let _ = queue.apply_recorded(event, &mut memory, &mut counts, &mut record);
    }
    record
}

/// "Its number from 1, the answer, and the value of an accepted serve or take,
/// else `-`."
fn print_answer(text: &mut String, number: usize, answer: Result<Option<u32>, u8>) {
    let _ = match answer {
        Ok(Some(value)) => writeln!(text, "{number} 0 {value}"),
        Ok(None) => writeln!(text, "{number} 0 -"),
        Err(refusal) => writeln!(text, "{number} {refusal} -"),
    };
}

fn print_end(text: &mut String, memory: &[u32], counts: &Counts) {
    for (address, word) in memory.iter().enumerate().filter(|(_, &word)| word != 0) {
        let _ = writeln!(text, "word {address} {word}");
    }
    let Counts { loads, forwarded } = counts;
    let share = counts.share();
    let _ = writeln!(text, "loads {loads} forwarded {forwarded} share {share}");
}
