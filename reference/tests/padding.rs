//! Padding refused (S-4): which numbers get 42, what is told before it and what
//! behind it, and that an accepted file is exactly what the writer gives.

mod common;

use std::collections::{BTreeMap, BTreeSet};

use common::{k1_trace, K1_TABLE};
use lsq_ref::event::{read_event, read_header, EventReader, Step};
use lsq_ref::gen::{self, trace_bytes, Scenario};
use lsq_ref::number::{byte_count, read_number, write_number, NumberReader};
use lsq_ref::play::{page, play};
use lsq_ref::replay::{event_count, memory_length, table_fault, trace_fault};
use lsq_ref::rng::Rng;
use lsq_ref::{Event, Header, Table};

/// The number in so many bytes, padded where these are more than the fewest.
fn spelled(number: u32, count: usize) -> Vec<u8> {
    let mut bytes = Vec::new();
    let mut rest = number;
    for _ in 1..count {
        bytes.push((rest % 128) as u8 + 128);
        rest /= 128;
    }
    bytes.push(rest as u8);
    bytes
}

/// Numbers one behind the other, the one at this place in so many bytes.
fn with_padded(numbers: &[u32], place: usize, count: usize) -> Vec<u8> {
    let count_at = |i: usize| match i == place {
        true => count,
        false => byte_count(numbers[i]),
    };
    let bytes = (0..numbers.len()).flat_map(|i| spelled(numbers[i], count_at(i)));
    bytes.collect()
}

/// The bytes of these numbers with one of them padded, in each way that five
/// bytes allow, and the place of that one.
fn paddings(numbers: &[u32]) -> Vec<(usize, Vec<u8>)> {
    let counts = |place: usize| byte_count(numbers[place]) + 1..=5;
    let at = |place: usize| counts(place).map(move |count| (place, count));
    let padded = |(place, count)| (place, with_padded(numbers, place, count));
    (0..numbers.len()).flat_map(at).map(padded).collect()
}

/// The numbers that bytes hold, padded or not, by bit 7 alone.
fn numbers_in(bytes: &[u8]) -> Vec<u32> {
    let groups = bytes.split_inclusive(|byte| byte & 0x80 == 0);
    let number = |groups: &[u8]| {
        let groups = groups.iter().rev().map(|&byte| u32::from(byte % 128));
        groups.fold(0, |number, group| number * 128 + group)
    };
    groups.map(number).collect()
}

/// Every run of so many of these bytes.
fn runs(bytes: &[u8], length: usize) -> impl Iterator<Item = Vec<u8>> + '_ {
    let run = move |mut rest: usize| {
        let mut next = || {
            let byte = bytes[rest % bytes.len()];
            rest /= bytes.len();
            byte
        };
        (0..length).map(|_| next()).collect()
    };
    (0..bytes.len().pow(length as u32)).map(run)
}

/// How often each answer was met.
#[derive(Debug, Default)]
struct Met(BTreeMap<u8, usize>);

impl Met {
    fn note(&mut self, answer: u8) {
        *self.0.entry(answer).or_default() += 1;
    }

    /// These answers and no others were met, each so often at least.
    fn assert_each(&self, answers: &[u8], least: usize) {
        assert!(self.0.keys().eq(answers), "{self:?}");
        assert!(self.0.values().all(|&count| count >= least), "{self:?}");
    }
}

// Single numbers.

#[test]
fn padded_numbers_get_42() {
    let edges = (0..32).flat_map(|bit| [1u32 << bit, (1 << bit) - 1, !(1 << bit)]);
    let mut padded = 0;
    for number in edges {
        let fewest = byte_count(number);
        assert_eq!(
            read_number(&spelled(number, fewest), 0),
            Ok((number, fewest))
        );
        for (_, bytes) in paddings(&[number]) {
            padded += 1;
            assert_eq!(bytes.last(), Some(&0));
            assert_eq!(read_number(&bytes, 0), Err(42), "{bytes:02X?}");
            // Whatever stands before and behind it.
            let among = [&[0xFF], &bytes[..], &[0xFF, 0x01]].concat();
            assert_eq!(read_number(&among, 1), Err(42), "{among:02X?}");
        }
    }
    assert!(padded > 100, "{padded} padded numbers");
}

#[test]
fn five_bytes_are_padded_by_a_fifth_of_00() {
    let with_fifth = |fifth| read_number(&[0x80, 0x80, 0x80, 0x80, fifth], 0);
    assert_eq!(with_fifth(0x00), Err(42));
    assert_eq!(with_fifth(0x01), Ok((1 << 28, 5)));
    assert_eq!(with_fifth(0x0F), Ok((15 << 28, 5)));
    assert_eq!(with_fifth(0x10), Err(2));
    assert_eq!(with_fifth(0x80), Err(2)); // above 0F, whatever follows
    assert_eq!(
        read_number(&[0x80, 0x80, 0x80, 0x80, 0x80, 0x00], 0),
        Err(2)
    );
    assert_eq!(read_number(&[0xFF, 0xFF, 0xFF, 0xFF, 0x00], 0), Err(42));
}

#[test]
fn the_end_of_the_bytes_is_told_before_padding() {
    for count in 0..=4 {
        assert_eq!(read_number(&vec![0x80; count], 0), Err(1), "{count} bytes");
    }
    assert_eq!(read_number(&[0x80, 0x00], 2), Err(1));
}

#[test]
fn a_byte_of_00_that_is_not_the_last_of_more_pads_nothing() {
    assert_eq!(read_number(&[0x00], 0), Ok((0, 1)));
    assert_eq!(read_number(&[0x00, 0x00], 0), Ok((0, 1)));
    assert_eq!(read_number(&[0x05, 0x00], 0), Ok((5, 1)));
    assert_eq!(read_number(&[0x80, 0x01, 0x00], 0), Ok((128, 2)));
    // A group of zeros in the middle has bit 7 set.
    assert_eq!(read_number(&[0x80, 0x80, 0x01], 0), Ok((1 << 14, 3)));
    // Bytes before the place are none of the number.
    assert_eq!(read_number(&[0x80, 0x00], 1), Ok((0, 2)));
}

#[test]
fn a_refused_reader_stays_before_the_padded_number() {
    let bytes = [0x01, 0x80, 0x00, 0x02];
    let mut reader = NumberReader::new(&bytes, 0);
    assert_eq!(reader.number(), Ok(1));
    assert_eq!((reader.number(), reader.at), (Err(42), 1));
    assert_eq!((reader.number(), reader.at), (Err(42), 1));
}

/// The rules of reading a number in another order of looking: first where it
/// ends, then its fifth byte, then its last.
fn second_statement(bytes: &[u8]) -> Result<(u32, usize), u8> {
    let ends = |&last: &usize| last < 4 || last == 4 && bytes[4] <= 0x0F;
    let last = bytes.iter().position(|byte| byte & 0x80 == 0);
    match last.filter(ends) {
        None if bytes.len() < 5 => Err(1),
        None => Err(2),
        Some(last) if last > 0 && bytes[last] == 0 => Err(42),
        Some(last) => Ok((numbers_in(&bytes[..=last])[0], last + 1)),
    }
}

/// What the reader answers, which for an accepted number is what the writer
/// gives.
fn answer_to_number(bytes: &[u8]) -> u8 {
    let read = read_number(bytes, 0);
    assert_eq!(read, second_statement(bytes), "{bytes:02X?}");
    if let Ok((number, count)) = read {
        let mut buffer = [0xEE; 5];
        assert_eq!(write_number(number, &mut buffer), Ok(count));
        assert_eq!(buffer[..count], bytes[..count]);
    }
    read.err().unwrap_or(0)
}

#[test]
fn every_run_of_edge_bytes_goes_by_the_rules() {
    let edges = [0x00, 0x01, 0x0F, 0x10, 0x7F, 0x80, 0x81, 0xFF];
    let mut met = Met::default();
    for bytes in (0..=6).flat_map(|length| runs(&edges, length)) {
        met.note(answer_to_number(&bytes));
    }
    met.assert_each(&[0, 1, 2, 42], 100);
}

#[test]
fn random_numbers_go_by_the_rules() {
    let mut met = Met::default();
    for seed in 0..20_000 {
        met.note(answer_to_number(&gen::number_bytes(&mut Rng::new(seed))));
    }
    met.assert_each(&[0, 1, 2, 42], 500);
    let accepted = met.0[&0];
    assert!(accepted > 15_000, "{accepted} accepted numbers");
}

// Tables.

/// The fault of a table, told alike by all that read one.
fn table_answer(bytes: &[u8]) -> u8 {
    let answer = Table::read(bytes).err().unwrap_or(0);
    assert_eq!(table_fault(bytes), answer);
    if answer != 0 {
        let line = format!("table {answer}\n");
        assert_eq!(trace_fault(bytes, &[0x80, 0x00]), answer);
        assert_eq!(play(Some(bytes), Some(&[0x80, 0x00])), line);
        assert_eq!(page(Some(bytes), None), line.as_bytes());
    }
    answer
}

/// K5's group, an empty one, a lone store, a lone load.
const FOUR_GROUPS: [u32; 22] = [
    2, 4, 2, 2, 0, 4, 2, 5, 1, 3, 1, 4, 0, 0, 0, 1, 0, 31, 1, 0, 0, 31,
];

#[test]
fn every_number_of_a_table_gets_42_when_padded() {
    let whole: Vec<u8> = FOUR_GROUPS.iter().map(|&number| number as u8).collect();
    assert_eq!(table_answer(&whole), 0);
    let padded = paddings(&FOUR_GROUPS);
    assert_eq!(padded.len(), 22 * 4);
    for (place, bytes) in padded {
        assert_eq!(table_answer(&bytes), 42, "number {place} of {bytes:02X?}");
    }
}

/// Tables with padding, another fault or both, and what is told of them.
const TABLES: [(&[u8], u8); 50] = [
    // Fields: 42 and not 3, behind 1 and 2.
    (&[0x80, 0x00], 42),
    (&[0x82, 0x00], 42),
    (&[0x83, 0x00], 42),
    (&[0x80], 1),
    (&[0x80, 0x80, 0x80, 0x80, 0x00], 42),
    (&[0x80, 0x80, 0x80, 0x80, 0x80], 2),
    (&[0x80, 0x80, 0x80, 0x80, 0x10], 2),
    (&[3, 0x80, 0x00], 3), // 3 before the next number
    // Number of groups.
    (&[2, 0x80, 0x00], 42),
    (&[2, 0x91, 0x00], 42),
    (&[2, 0x80], 1),
    (&[2, 0, 0x80, 0x00], 4),
    (&[0x82, 0x00, 0xFF, 0xFF, 0xFF, 0xFF, 0x10], 42), // before 2 of the next
    (&[2, 0xFF, 0xFF, 0xFF, 0xFF, 0x10, 0x80, 0x00], 2),
    // Counts: 5 waits for both.
    (&[2, 1, 0x91, 0x00], 42),
    (&[2, 1, 0x91, 0x00, 0], 42),
    (&[2, 1, 17, 0x80, 0x00], 42),
    (&[2, 1, 0xFF, 0xFF, 0xFF, 0xFF, 0x0F, 0x80, 0x00], 42),
    (&[2, 1, 17, 0x80], 1),
    (&[2, 1, 0, 0x91, 0x00], 42),
    (&[2, 1, 17, 0, 0x80, 0x00], 5),
    (&[2, 2, 0, 0, 17, 0, 0x80, 0x00], 5),
    (&[2, 2, 0, 0, 0x80, 0x00, 17], 42),
    // The pair of a load: 8 waits for the whole pair.
    (&[2, 1, 1, 1, 0x80, 0x00], 42), // and its port cut short
    (&[2, 1, 1, 1, 0x80, 0x00, 0x80], 42),
    (&[2, 1, 1, 1, 0x82, 0x00, 0], 42),
    (&[2, 1, 1, 1, 2, 0x80, 0x00], 42), // a wrong offset in the same pair
    (&[2, 1, 1, 1, 17, 0x80, 0x00], 42),
    (&[2, 1, 1, 1, 0xFF, 0xFF, 0xFF, 0xFF, 0x0F, 0x80, 0x00], 42),
    (&[2, 1, 2, 1, 1, 0, 0, 0x81, 0x00], 42), // below the load before
    (&[2, 1, 1, 1, 2, 0x80], 1),
    (&[2, 1, 1, 1, 0, 0xA0, 0x00], 42),       // not 6
    (&[2, 1, 1, 1, 2, 0xA0, 0x00], 42),       // neither 8 nor 6
    (&[2, 1, 2, 0, 0, 9, 0, 0x89, 0x00], 42), // not 7
    (&[2, 1, 1, 1, 2, 0, 0x80, 0x00, 0], 8),  // padding in the next pair
    (&[2, 1, 2, 0, 0, 32, 0x80, 0x00, 1], 6),
    (&[2, 1, 3, 0, 0, 9, 0, 9, 0x80, 0x00, 1], 7),
    // The pair of a store.
    (&[2, 1, 1, 1, 0, 0, 0x81, 0x00], 42),
    (&[2, 1, 1, 1, 0, 0, 0x80, 0x00, 0], 42),
    (&[2, 1, 1, 1, 0, 0, 0, 0x80, 0x00], 42), // disagreeing
    (&[2, 1, 1, 1, 0, 0, 17, 0x80, 0x00], 42),
    (&[2, 1, 1, 1, 0, 0, 0, 0x80], 1),
    (&[2, 1, 0, 1, 0, 0xA0, 0x00], 42),
    (&[2, 1, 0, 2, 0, 9, 0, 0x89, 0x00], 42),
    (&[2, 1, 0, 2, 1, 9, 0, 0x80, 0x00], 8),
    (&[2, 1, 0, 2, 0, 32, 0, 0x80, 0x00], 6),
    (&[2, 2, 0, 1, 0, 32, 0x80, 0x00], 6), // in the next group
    // Bytes left over are not read.
    (&[2, 1, 0, 0, 0x80, 0x00], 9),
    (&[2, 1, 0, 0x80, 0x00, 0], 42),
    (&[2, 1, 0, 0, 0x80], 9),
];

#[test]
fn padding_in_tables_is_told_in_its_place() {
    for (bytes, answer) in TABLES {
        assert_eq!(table_answer(bytes), answer, "{bytes:02X?}");
    }
}

// Traces.

/// The fault of a trace with K1's table, told alike by all that read one.
fn trace_answer(trace: &[u8]) -> u8 {
    let answer = trace_fault(&K1_TABLE, trace);
    if answer != 0 {
        let line = format!("trace {answer}\n");
        assert_eq!(play(Some(&K1_TABLE), Some(trace)), line);
        assert_eq!(page(Some(&K1_TABLE), Some(trace)), line.as_bytes());
        let counted = event_count(&K1_TABLE, trace);
        assert_eq!((counted, memory_length(&K1_TABLE, trace)), (0, 0));
    }
    answer
}

#[test]
fn every_number_of_a_trace_gets_42_when_padded() {
    let numbers = numbers_in(&k1_trace(12, &[]));
    assert_eq!(trace_answer(&k1_trace(12, &[])), 0);
    let padded = paddings(&numbers);
    let places: BTreeSet<usize> = padded.iter().map(|&(place, _)| place).collect();
    // Only 4294967295 has no room: the first serial, a serve, a write.
    assert_eq!(places.len(), numbers.len() - 3);
    for (place, bytes) in padded {
        assert_eq!(trace_answer(&bytes), 42, "number {place} of {bytes:02X?}");
        let header = read_header(&bytes);
        assert_eq!(header.err(), (place < 4).then_some(42), "{bytes:02X?}");
    }
}

/// Traces with padding, another fault or both, and what is told of them. Leading
/// numbers of 2, 2, 0, 1 are right.
const TRACES: [(&[u8], u8); 36] = [
    // Leading numbers, behind 1 and 2 and before 11 to 13.
    (&[0x80, 0x00, 0, 0, 0], 42),
    (&[0xC1, 0x00, 2, 0, 1], 42),
    (&[0, 0x80, 0x00, 0, 0], 42),
    (&[0, 0, 0x80, 0x00, 0], 42),
    (&[0, 0, 0, 0x80, 0x00], 42),
    (&[2, 2, 0, 0x81, 0xA0, 0x00], 42), // 4097
    (&[0x80, 0x00], 42),
    (&[0x80], 1),
    (&[0, 0x80], 1),
    (&[0x80, 0x80, 0x80, 0x80, 0x00], 42),
    (&[0x80, 0x80, 0x80, 0x80, 0x80], 2),
    (&[2, 2, 0x80, 0x80, 0x80, 0x80, 0x00, 1], 42),
    (&[0x82, 0x00, 0xFF, 0xFF, 0xFF, 0xFF, 0x10], 42),
    (&[0xFF, 0xFF, 0xFF, 0xFF, 0x10, 0x80, 0x00], 2),
    // Opening before the events.
    (&[0, 2, 0, 1, 0x80, 0x00], 11),
    (&[2, 0, 0, 1, 0x80, 0x00], 12),
    (&[2, 2, 0, 0, 0x80, 0x00], 13),
    // A kind: 42 and not 35.
    (&[2, 2, 0, 1, 0x80, 0x00], 42),
    (&[2, 2, 0, 1, 0x80, 0x00, 0], 42),
    (&[2, 2, 0, 1, 0x87, 0x00], 42),
    (&[2, 2, 0, 1, 0xFF, 0xFF, 0xFF, 0x00], 42),
    (&[2, 2, 0, 1, 0xFF, 0xFF, 0xFF, 0xFF, 0x00], 42),
    (&[2, 2, 0, 1, 0x80], 1),
    (&[2, 2, 0, 1, 0x80, 0x80, 0x80, 0x80, 0x80], 2),
    (&[2, 2, 0, 1, 7, 0x80, 0x00], 35), // 35 before the rest
    // The rest of an event.
    (&[2, 2, 0, 1, 0, 0x80, 0x00], 42),
    (&[2, 2, 0, 1, 1, 0x80, 0x00], 42), // and its address cut short
    (&[2, 2, 0, 1, 1, 0x80, 0x00, 0x80], 42),
    (&[2, 2, 0, 1, 1, 0x80], 1),
    (&[2, 2, 0, 1, 1, 0, 0x80, 0x00], 42),
    (&[2, 2, 0, 1, 1, 0, 0x80], 1),
    (&[2, 2, 0, 1, 3, 0, 0xFF, 0xFF, 0xFF, 0xFF, 0x00], 42),
    // One event after another.
    (&[2, 2, 0, 1, 9, 0, 0x80, 0x00], 35),
    (&[2, 2, 0, 1, 6, 0x80, 0x00, 7], 42),
    (&[2, 2, 0, 1, 6, 0x80, 0x00, 6], 42),
    (&[2, 2, 0, 1, 6, 0x80, 0x01, 6, 0], 0), // port 128, not padded
];

#[test]
fn padding_in_traces_is_told_in_its_place() {
    for (trace, answer) in TRACES {
        assert_eq!(trace_answer(trace), answer, "{trace:02X?}");
    }
}

#[test]
fn every_number_of_an_event_gets_42_when_padded() {
    for kind in 0..7 {
        let numbers = match kind {
            1..=3 => vec![kind, 5, 300],
            _ => vec![kind, 300],
        };
        for (place, bytes) in paddings(&numbers) {
            let behind = numbers[place + 1..].iter();
            let end = bytes.len() - behind.map(|&number| byte_count(number)).sum::<usize>();
            for cut in 1..=bytes.len() {
                let answer = if cut < end { 1 } else { 42 };
                let step = read_event(&bytes[..cut], 0);
                assert_eq!(step, Step::Refused(answer), "{cut} of {bytes:02X?}");
            }
        }
    }
}

#[test]
fn an_event_reader_stays_before_a_padded_event() {
    let bytes = [6, 1, 6, 0x81, 0x00, 6, 1];
    let mut reader = EventReader {
        bytes: &bytes,
        at: 0,
    };
    assert_eq!(reader.step(), Step::Event(Event::Take { port: 1 }, 2));
    assert_eq!((reader.step(), reader.at), (Step::Refused(42), 2));
    assert_eq!((reader.step(), reader.at), (Step::Refused(42), 2));
    assert_eq!(reader.rest(), Err(42));
    let at = 5; // behind it
    let step = EventReader { bytes: &bytes, at }.step();
    assert_eq!(step, Step::Event(Event::Take { port: 1 }, 7));
}

#[test]
fn a_long_file_is_told_before_its_padding() {
    let mut long = vec![0x80, 0x00];
    long.resize(16_384, 0);
    assert_eq!(play(Some(&long), None), "table 42\n");
    assert_eq!(play(Some(&K1_TABLE), Some(&long)), "trace 42\n");
    long.push(0);
    assert_eq!(play(Some(&long), None), "table 36\n");
    assert_eq!(play(Some(&K1_TABLE), Some(&long)), "trace 36\n");
}

// Afterwards an accepted file is exactly what the writer gives for its meaning.

/// What a table's reader answers; an accepted table is what its writer gives.
fn table_as_written(bytes: &[u8]) -> u8 {
    let table = match Table::read(bytes) {
        Ok(table) => table,
        Err(refusal) => return refusal,
    };
    let mut buffer = [0xEE; 512];
    let count = table.write(&mut buffer).expect("room");
    assert_eq!(buffer[..count], *bytes);
    0
}

fn read_trace(bytes: &[u8]) -> Result<(Header, Vec<Event>), u8> {
    let (header, at) = read_header(bytes)?;
    let events = EventReader { bytes, at }.rest()?;
    Ok((header, events))
}

/// The same of a trace, which is written as its header and its events.
fn trace_as_written(bytes: &[u8]) -> u8 {
    match read_trace(bytes) {
        Ok((header, events)) => assert_eq!(trace_bytes(&header, &events), bytes),
        Err(refusal) => return refusal,
    }
    0
}

/// How many damaged copies of each file are read.
const COPIES: usize = 16;

/// Reads a right file, the same padded and damaged. The padded one means the
/// same and gets 42; what the damaged ones are answered is noted.
fn read_copies(rng: &mut Rng, right: &[u8], answer: fn(&[u8]) -> u8, met: &mut Met) {
    assert_eq!(answer(right), 0, "{right:02X?}");
    let mut padded = right.to_vec();
    gen::pad_several(rng, &mut padded);
    assert_ne!(padded, right);
    assert_eq!(numbers_in(&padded), numbers_in(right));
    assert_eq!(answer(&padded), 42, "{padded:02X?}");
    for _ in 0..COPIES {
        let mut damaged = right.to_vec();
        gen::damage(rng, &mut damaged);
        // One in eight is padded besides.
        if rng.chance(1, 8) {
            gen::pad_several(rng, &mut damaged);
        }
        // Damage that changed nothing shows nothing.
        if damaged != right {
            met.note(answer(&damaged));
        }
    }
}

#[test]
fn accepted_tables_are_what_the_writer_gives() {
    let mut met = Met::default();
    for seed in 0..2_000 {
        let mut rng = Rng::new(seed);
        let (table, _) = Scenario::of_length(&mut rng, 0).bytes();
        read_copies(&mut rng, &table, table_as_written, &mut met);
    }
    met.assert_each(&[0, 1, 2, 3, 4, 5, 6, 7, 8, 9, 42], 50);
    let (accepted, padded) = (met.0[&0], met.0[&42]);
    assert!(accepted > 500, "{accepted} damaged tables accepted");
    assert!(padded > 1_000, "{padded} damaged tables padded");
}

#[test]
fn accepted_traces_are_what_the_writer_gives() {
    let mut met = Met::default();
    for seed in 0..2_000 {
        let mut rng = Rng::new(seed);
        let count = rng.below(20);
        let (_, trace) = Scenario::of_length(&mut rng, count).bytes();
        read_copies(&mut rng, &trace, trace_as_written, &mut met);
    }
    met.assert_each(&[0, 1, 2, 35, 42], 500);
    let (accepted, padded) = (met.0[&0], met.0[&42]);
    assert!(accepted > 1_000, "{accepted} damaged traces accepted");
    assert!(padded > 1_000, "{padded} damaged traces padded");
}

/// "Equal meanings have equal bytes": over all short runs of some bytes, no
/// meaning is read twice, and each is what the writer gives.
#[test]
fn no_table_has_two_names() {
    let mut meanings = BTreeSet::new();
    let mut met = Met::default();
    let bytes = [0x00, 0x01, 0x02, 0x80, 0x81, 0x82];
    for run in (0..=8).flat_map(|length| runs(&bytes, length)) {
        met.note(table_as_written(&run));
        if let Ok(table) = Table::read(&run) {
            assert!(meanings.insert(table.numbers()), "{run:02X?} is the second");
        }
    }
    assert_eq!(met.0[&0], meanings.len());
    assert!(meanings.len() >= 30, "{} tables", meanings.len());
    assert!(met.0[&42] > 1_000, "{met:?}");
}

#[test]
fn no_trace_has_two_names() {
    let mut meanings = BTreeSet::new();
    let mut met = Met::default();
    let bytes = [0x00, 0x01, 0x06, 0x80, 0x81];
    for run in (0..=7).flat_map(|length| runs(&bytes, length)) {
        met.note(trace_as_written(&run));
        if let Ok(meaning) = read_trace(&run) {
            let meaning = format!("{meaning:?}");
            assert!(meanings.insert(meaning), "{run:02X?} is the second");
        }
    }
    assert_eq!(met.0[&0], meanings.len());
    assert!(meanings.len() > 1_000, "{} traces", meanings.len());
    assert!(met.0[&42] > 1_000, "{met:?}");
}
