//! The shift page: its lines and its buffer, what takes change in the record,
//! and the program that prints it.

mod common;

use std::fs;
use std::path::Path;

use common::{header, k1_trace, open, text_in, Folder, K1_TABLE, K1_TRACE};
use lsq_ref::gen::{self, Scenario};
use lsq_ref::play::{page, play};
use lsq_ref::queue::{LoadStoreQueue, TrustingQueue};
use lsq_ref::rng::Rng;
use lsq_ref::table::Access::{Load, Store};
use lsq_ref::{Counts, Event, Queue, ShiftRecord};

const MAX: u32 = u32::MAX;

/// The page of a record without takes.
const NO_TAKES: [&str; 34] = [
    "LOAD PORTS                              ",
    " 0             0                       0",
    " 1             0                       0",
    " 2             0                       0",
    " 3             0                       0",
    " 4             0                       0",
    " 5             0                       0",
    " 6             0                       0",
    " 7             0                       0",
    " 8             0                       0",
    " 9             0                       0",
    "10             0                       0",
    "11             0                       0",
    "12             0                       0",
    "13             0                       0",
    "14             0                       0",
    "15             0                       0",
    "16             0                       0",
    "17             0                       0",
    "18             0                       0",
    "19             0                       0",
    "20             0                       0",
    "21             0                       0",
    "22             0                       0",
    "23             0                       0",
    "24             0                       0",
    "25             0                       0",
    "26             0                       0",
    "27             0                       0",
    "28             0                       0",
    "29             0                       0",
    "30             0                       0",
    "31             0                       0",
    "END                                     ",
];

/// The page of the small run below.
const SMALL_RUN: [&str; 34] = [
    "LOAD PORTS                              ",
    " 0             1              4000000000",
    " 1             0                       0",
    " 2             0                       0",
    " 3             0                       0",
    " 4             0                       0",
    " 5             0                       0",
    " 6             0                       0",
    " 7             0                       0",
    " 8             0                       0",
    " 9             1                   65535",
    "10             0                       0",
    "11             0                       0",
    "12             0                       0",
    "13             0                       0",
    "14             0                       0",
    "15             0                       0",
    "16             0                       0",
    "17             0                       0",
    "18             0                       0",
    "19             0                       0",
    "20             0                       0",
    "21             0                       0",
    "22             0                       0",
    "23             0                       0",
    "24             0                       0",
    "25             0                       0",
    "26             0                       0",
    "27             0                       0",
    "28             0                       0",
    "29             0                       0",
    "30             0                       0",
    "31             2                       7",
    "END                                     ",
];

/// The page that has these lines.
fn text_of(lines: &[&str]) -> String {
    lines.iter().map(|line| format!("{line}\n")).collect()
}

/// The page without takes but for the lines of some ports.
fn text_with(ports: &[(usize, &str)]) -> String {
    let mut lines = NO_TAKES;
    for &(port, line) in ports {
        lines[port + 1] = line;
    }
    text_of(&lines)
}

fn text(record: &ShiftRecord) -> String {
    String::from_utf8(record.page()).expect("text")
}

/// A record with numbers for some ports: port, takes, last value.
fn record(ports: &[(usize, u32, u32)]) -> ShiftRecord {
    let mut record = ShiftRecord::default();
    for &(port, takes, value) in ports {
        record.takes[port] = takes;
        record.values[port] = value;
    }
    record
}

// The page, written out.

#[test]
fn a_record_without_takes() {
    assert_eq!(text(&ShiftRecord::default()), text_of(&NO_TAKES));
    assert_eq!(ShiftRecord::default(), record(&[]));
}

#[test]
fn a_small_run() {
    let order = [Store(4), Load(0), Load(9), Load(31)];
    let mut queue = open(&order, header(6, 2, MAX, 4));
    let memory = [7, 65_535, 7, 7];
    let mut counts = Counts::default();
    let mut record = ShiftRecord::default();
    assert_eq!(queue.activate(0), Ok(()));
    assert_eq!(queue.store_address(4, 2), Ok(()));
    assert_eq!(queue.store_data(4, 4_000_000_000), Ok(()));
    for (port, address, serial) in [(0, 2, MAX), (9, 1, 0), (31, 2, 1)] {
        assert_eq!(queue.load_address(port, address), Ok(()));
        assert!(queue.serve(serial, &memory, &mut counts).is_ok());
    }
    assert_eq!(queue.take_recorded(&mut record, 9), Ok(65_535));
    assert_eq!(queue.take_recorded(&mut record, 31), Ok(4_000_000_000));
    assert_eq!(queue.take_recorded(&mut record, 0), Ok(4_000_000_000));
    assert_eq!(queue.activate(0), Ok(()));
    assert_eq!(queue.store_address(4, 3), Ok(()));
    assert_eq!(queue.load_address(31, 0), Ok(()));
    assert_eq!(queue.serve(4, &memory, &mut counts), Ok(7));
    assert_eq!(queue.take_recorded(&mut record, 31), Ok(7));
    assert_eq!(queue.take_recorded(&mut record, 0), Err(34));
    assert_eq!(queue.take_recorded(&mut record, 31), Err(33));
    assert_eq!(queue.take_recorded(&mut record, 4), Err(22));
    assert_eq!(text(&record), text_of(&SMALL_RUN));
}

/// The page after K1's trace up to and with event `count`.
fn k1_page(count: usize) -> String {
    let page = page(Some(&K1_TABLE), Some(&k1_trace(count, &[])));
    String::from_utf8(page).expect("text")
}

#[test]
fn k1_has_two_takes() {
    assert_eq!(k1_page(6), text_of(&NO_TAKES));
    let once = " 0             1                       0";
    assert_eq!(k1_page(7), text_with(&[(0, once)]));
    assert_eq!(k1_page(11), text_with(&[(0, once)]));
    let twice = " 0             2                       1";
    assert_eq!(k1_page(12), text_with(&[(0, twice)]));
}

#[test]
fn no_take_and_a_take_of_0() {
    let mut record = ShiftRecord::default();
    record.recorded(5, 0);
    let line = " 5             1                       0";
    assert_eq!(text(&record), text_with(&[(5, line)]));
}

#[test]
fn ten_digits_fill_their_columns() {
    let record = record(&[(0, MAX, MAX), (10, MAX, 1), (31, 1, 1_000_000_000)]);
    let lines = [
        (0, " 0    4294967295              4294967295"),
        (10, "10    4294967295                       1"),
        (31, "31             1              1000000000"),
    ];
    assert_eq!(text(&record), text_with(&lines));
}

#[test]
fn a_port_without_takes_shows_0_whatever_its_value_is() {
    let mut record = record(&[(3, 0, 12)]);
    assert_eq!(text(&record), text_of(&NO_TAKES));
    record.recorded(3, 12);
    let line = " 3             1                      12";
    assert_eq!(text(&record), text_with(&[(3, line)]));
}

/// The number in the columns from `first` to `last`, right-aligned in them.
fn number_in(line: &str, first: usize, last: usize) -> u32 {
    let columns = &line[first - 1..last];
    let digits = columns.trim_start_matches(' ');
    let number: u32 = digits.parse().expect("a number");
    assert_eq!(number.to_string(), digits);
    number
}

/// The record that a page shows, with a test of all its other columns.
fn read_page(page: &str) -> ShiftRecord {
    let lines: Vec<&str> = page.split('\n').collect();
    assert_eq!(lines.len(), 35);
    assert_eq!((page.len(), lines[34]), (1_394, ""));
    assert!(lines[..34].iter().all(|line| line.len() == 40));
    assert_eq!((lines[0], lines[33]), (NO_TAKES[0], NO_TAKES[33]));
    let mut record = ShiftRecord::default();
    for (port, line) in lines[1..33].iter().enumerate() {
        assert_eq!(number_in(line, 1, 2), port as u32);
        assert_eq!((&line[2..6], &line[16..30]), ("    ", "              "));
        record.takes[port] = number_in(line, 7, 16);
        record.values[port] = number_in(line, 31, 40);
    }
    record
}

#[test]
fn a_page_reads_back() {
    for seed in 0..2000 {
        let record = gen::shift_record(&mut Rng::new(seed));
        let mut shown = record;
        for port in (0..32).filter(|&port| record.takes[port] == 0) {
            shown.values[port] = 0;
        }
        assert_eq!(read_page(&text(&record)), shown);
    }
}

// The buffer.

#[test]
fn a_buffer_under_1394_bytes_keeps_its_contents() {
    let record = record(&[(31, MAX, 6)]);
    for length in [0, 1, 41, 1_393] {
        let mut out = vec![0xA5; length];
        assert_eq!(record.write_page(&mut out), Err(41));
        assert_eq!(out, vec![0xA5; length]);
    }
}

#[test]
fn bytes_beyond_the_page_keep_their_contents() {
    let record = record(&[(31, MAX, 6)]);
    for beyond in [0, 1, 700] {
        let mut out = vec![0xA5; 1_394 + beyond];
        assert_eq!(record.write_page(&mut out), Ok(1_394));
        assert_eq!(out, [record.page(), vec![0xA5; beyond]].concat());
    }
}

// What a take changes.

#[test]
fn port_31_is_the_last() {
    let mut kept = ShiftRecord::default();
    kept.recorded(31, 8);
    assert_eq!(kept, record(&[(31, 1, 8)]));
    for port in [32, 33, 63, 64, 256, 1 << 31, MAX] {
        kept.recorded(port, 9);
        assert_eq!(kept, record(&[(31, 1, 8)]), "port {port}");
    }
}

#[test]
fn the_count_stops_and_the_value_does_not() {
    let mut kept = record(&[(2, MAX - 1, 5), (3, MAX, 5)]);
    kept.recorded(2, 6);
    assert_eq!(kept, record(&[(2, MAX, 6), (3, MAX, 5)]));
    kept.recorded(2, 7);
    kept.recorded(3, 0);
    assert_eq!(kept, record(&[(2, MAX, 7), (3, MAX, 0)]));
}

/// A queue of one load of port 1 that waits to be taken, its value 6.
fn served<const CHECKED: bool>() -> LoadStoreQueue<CHECKED> {
    let table = common::table_of(&[Load(1)]);
    let opened = LoadStoreQueue::open(table, header(1, 1, 0, 4));
    let mut queue: LoadStoreQueue<CHECKED> = opened.expect("an opening");
    assert_eq!(queue.activate(0), Ok(()));
    assert_eq!(queue.load_address(1, 0), Ok(()));
    let value = queue.serve(0, &[6; 4], &mut Counts::default());
    assert_eq!(value, Ok(6));
    queue
}

#[test]
fn a_record_handed_in_at_the_stop() {
    let mut kept = record(&[(0, 4, 4), (1, MAX, 5)]);
    assert_eq!(served::<true>().take_recorded(&mut kept, 1), Ok(6));
    assert_eq!(kept, record(&[(0, 4, 4), (1, MAX, 6)]));
    let mut kept = record(&[(0, 4, 4), (1, MAX - 1, 5)]);
    assert_eq!(served::<false>().take_recorded(&mut kept, 1), Ok(6));
    assert_eq!(kept, record(&[(0, 4, 4), (1, MAX, 6)]));
}

fn refused_takes<const CHECKED: bool>(before: ShiftRecord) {
    let mut kept = before;
    let mut queue = served::<CHECKED>();
    assert_eq!(queue.take_recorded(&mut kept, 0), Err(22));
    assert_eq!(queue.take_recorded(&mut kept, 32), Err(22));
    assert_eq!(queue.take_recorded(&mut kept, MAX), Err(22));
    assert_eq!(queue.take(1), Ok(6));
    assert_eq!(queue.take_recorded(&mut kept, 1), Err(33));
    assert_eq!(queue.activate(0), Ok(()));
    assert_eq!(queue.take_recorded(&mut kept, 1), Err(34));
    assert_eq!(kept, before);
}

#[test]
fn refused_takes_change_nothing() {
    for seed in 0..50 {
        let before = gen::shift_record(&mut Rng::new(seed));
        refused_takes::<true>(before);
        refused_takes::<false>(before);
        let mut kept = before;
        let mut unsound: Queue = served();
        unsound.load_depth = 65;
        let held = unsound.clone();
        assert_eq!(unsound.take_recorded(&mut kept, 1), Err(40));
        assert_eq!((unsound, kept), (held, before));
    }
}

/// Records of queues from anywhere: a take with a shift record answers and
/// leaves the queue as one without.
#[test]
fn a_recorded_take_is_a_take() {
    let mut answers = [0; 41];
    for seed in 0..6000 {
        let mut rng = Rng::new(seed);
        let mut queue = gen::record(&mut rng);
        let mut plain = queue.clone();
        let mut kept = gen::shift_record(&mut rng);
        let before = kept;
        let Event::Take { port } = gen::call_of_kind(&mut rng, &queue, 6) else {
            unreachable!("kind 6 is take");
        };
        let answer = queue.take_recorded(&mut kept, port);
        assert_eq!(answer, plain.take(port));
        assert_eq!(queue, plain);
        let mut after = before;
        if let Ok(value) = answer {
            let place = port as usize;
            after.takes[place] = before.takes[place].saturating_add(1);
            after.values[place] = value;
        }
        assert_eq!(kept, after);
        answers[usize::from(answer.err().unwrap_or(0))] += 1;
    }
    for number in [0, 22, 33, 34, 40] {
        assert!(answers[number] > 100, "{number}: {}", answers[number]);
    }
}

/// The values that the accepted takes of `port` gave.
fn values_of(port: u32, takes: &[(u32, u32)]) -> Vec<u32> {
    let of_port = takes.iter().filter(|take| take.0 == port);
    of_port.map(|take| take.1).collect()
}

/// Plays a list with a record and tests what is left in it: the number of
/// accepted takes more, up to the stop, and the last value.
fn play_list<const CHECKED: bool>(scenario: &Scenario, before: ShiftRecord) -> usize {
    let opened = LoadStoreQueue::open(scenario.table.clone(), scenario.header);
    let mut queue: LoadStoreQueue<CHECKED> = opened.expect("an opening");
    let mut memory = vec![3; scenario.header.memory_length as usize];
    let mut counts = Counts::default();
    let mut kept = before;
    let mut takes = Vec::new();
    for event in &scenario.events {
        let outcome = queue.apply_recorded(event, &mut memory, &mut counts, &mut kept);
        if let (Event::Take { port }, Ok(Some(value))) = (event, outcome) {
            takes.push((*port, value));
        }
    }
    for port in 0..32 {
        let values = values_of(port, &takes);
        let place = port as usize;
        let all = u64::from(before.takes[place]) + values.len() as u64;
        assert_eq!(u64::from(kept.takes[place]), all.min(4_294_967_295));
        let last = values.last().unwrap_or(&before.values[place]);
        assert_eq!(kept.values[place], *last);
    }
    takes.len()
}

#[test]
fn a_list_leaves_its_takes_and_last_values() {
    let mut takes = 0;
    for seed in 0..600 {
        let mut rng = Rng::new(seed);
        let scenario = Scenario::random(&mut rng);
        let before = gen::shift_record(&mut rng);
        takes += play_list::<true>(&scenario, before);
        takes += play_list::<false>(&scenario, ShiftRecord::default());
    }
    assert!(takes > 5000, "only {takes} takes");
}

#[test]
fn other_calls_are_made_as_without_a_record() {
    for seed in 0..200 {
        let mut rng = Rng::new(seed);
        let scenario = Scenario::random(&mut rng);
        let mut kept = gen::shift_record(&mut rng);
        let opened = TrustingQueue::open(scenario.table, scenario.header);
        let mut queue = opened.expect("an opening");
        let mut plain = queue.clone();
        let mut memory = vec![3; scenario.header.memory_length as usize];
        let mut words = memory.clone();
        let mut counts = gen::counts(&mut rng);
        let mut tally = counts;
        for event in &scenario.events {
            let before = kept;
            let outcome = queue.apply_recorded(event, &mut memory, &mut counts, &mut kept);
            assert_eq!(plain.apply(event, &mut words, &mut tally), outcome);
            let taken = matches!(event, Event::Take { .. }) && outcome.is_ok();
            assert!(taken || kept == before);
        }
        assert_eq!((queue, memory, counts), (plain, words, tally));
    }
}

// The page after a run, and the program.

/// The record that the text of `play` tells, with the events beside it.
fn told(text: &str, trace: &[u8]) -> ShiftRecord {
    let (_, at) = lsq_ref::event::read_header(trace).expect("a header");
    let events = lsq_ref::event::EventReader { bytes: trace, at }.rest();
    let mut record = ShiftRecord::default();
    for (event, line) in events.expect("events").iter().zip(text.lines()) {
        let fields: Vec<&str> = line.split(' ').collect();
        if let (Event::Take { port }, "0") = (event, fields[1]) {
            record.takes[*port as usize] += 1;
            record.values[*port as usize] = fields[2].parse().expect("a value");
        }
    }
    record
}

#[test]
fn the_page_follows_the_printed_run() {
    let mut pages = 0;
    for seed in 0..3000 {
        let (table, trace) = gen::pair(seed);
        let run = play(Some(&table), Some(&trace));
        let page = page(Some(&table), Some(&trace));
        let page = String::from_utf8(page).expect("text");
        if run.starts_with('t') {
            assert_eq!(page, run); // one line, of the table or of the trace
        } else {
            assert_eq!(read_page(&page), told(&run, &trace));
            pages += 1;
        }
    }
    assert!(pages > 1500, "only {pages} pages");
}

/// What `page_ref` prints; where it is a fault, `play_ref` prints the same.
fn page_in(folder: &Path) -> String {
    let page = text_in(folder, env!("CARGO_BIN_EXE_page_ref"));
    if page.len() < 1_394 {
        let run = text_in(folder, env!("CARGO_BIN_EXE_play_ref"));
        assert_eq!(page, run);
    }
    page
}

#[test]
fn the_program_prints_k1s_page() {
    let folder = Folder::new("page_k1");
    fs::write(folder.0.join("table.bin"), K1_TABLE).unwrap();
    fs::write(folder.0.join("trace.bin"), K1_TRACE).unwrap();
    let twice = " 0             2                       1";
    assert_eq!(page_in(&folder.0), text_with(&[(0, twice)]));
}

#[test]
fn the_program_prints_one_line_for_a_fault() {
    let folder = Folder::new("page_faults");
    let (table, trace) = (folder.0.join("table.bin"), folder.0.join("trace.bin"));
    assert_eq!(page_in(&folder.0), "table 1\n");
    fs::write(&table, [3]).unwrap();
    assert_eq!(page_in(&folder.0), "table 3\n");
    fs::write(&table, vec![0; 16_385]).unwrap();
    assert_eq!(page_in(&folder.0), "table 36\n");
    fs::write(&table, K1_TABLE).unwrap();
    assert_eq!(page_in(&folder.0), "trace 1\n");
    let faults: [(Vec<u8>, &str); 6] = [
        (vec![65, 2, 0, 4], "trace 11\n"),
        (vec![2, 2, 0, 0], "trace 13\n"),
        (k1_trace(7, &[7]), "trace 35\n"), // behind a take, and nothing is played
        (k1_trace(12, &[6]), "trace 1\n"),
        (k1_trace(7, &[6, 0x80, 0x00]), "trace 42\n"),
        (vec![0; 100_000], "trace 36\n"),
    ];
    for (bytes, line) in faults {
        fs::write(&trace, bytes).unwrap();
        assert_eq!(page_in(&folder.0), line);
    }
}
