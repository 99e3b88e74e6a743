//! The shift record and its page: what takes change in it, live and replayed,
//! and what a buffer keeps.

use lsq::record::PORTS;
use lsq::{replay, replay_recorded, Buffer, Counts, Error, Lent, Queue};
use lsq::{Refusal, ShiftRecord, PAGE_BYTES};

const K1: [u8; 8] = [0x02, 0x01, 0x01, 0x01, 0x00, 0x00, 0x01, 0x00];

/// Memory of three words; activate, load address 1, serve, take, take.
const TRACE: [u8; 15] = [1, 1, 9, 3, 0, 0, 1, 0, 1, 4, 9, 6, 0, 6, 0];

/// A record with another number in each place.
fn some_record() -> ShiftRecord {
    let mut kept = ShiftRecord::default();
    for port in 0..PORTS {
        kept.takes[port] = 100 + port as u32;
        kept.values[port] = 4_000_000_000 + port as u32;
    }
    kept
}

fn page_of(kept: &ShiftRecord) -> String {
    let mut out = [0; PAGE_BYTES];
    assert_eq!(kept.page(&mut out), Ok(PAGE_BYTES));
    String::from_utf8(out.to_vec()).expect("a page is text")
}

#[test]
fn a_take_changes_two_numbers() {
    let kept = some_record().recorded(31, 7);
    let mut expected = some_record();
    (expected.takes[31], expected.values[31]) = (132, 7);
    assert_eq!(kept, expected);
    assert_eq!(kept.recorded(32, 9), kept);
    assert_eq!(kept.recorded(u32::MAX, 9), kept);
}

#[test]
fn a_count_stops_and_the_value_does_not() {
    let mut kept = some_record();
    kept.takes[5] = u32::MAX - 1;
    let kept = kept.recorded(5, 1).recorded(5, 2).recorded(5, 3);
    assert_eq!((kept.takes[5], kept.values[5]), (u32::MAX, 3));
}

#[test]
fn a_page_has_34_lines_of_40_characters() {
    let mut kept = some_record();
    (kept.takes[0], kept.values[0]) = (0, 77);
    (kept.takes[31], kept.values[31]) = (u32::MAX, 0);
    let page = page_of(&kept);
    let lines: Vec<&str> = page.split_terminator('\n').collect();
    assert_eq!(lines.len(), 34);
    assert!(lines.iter().all(|line| line.len() == 40));
    assert_eq!(lines[0].trim_end(), "LOAD PORTS");
    assert_eq!(lines[1], " 0             0                       0");
    assert_eq!(lines[2], " 1           101              4000000001");
    assert_eq!(lines[32], "31    4294967295                       0");
    assert_eq!(lines[33].trim_end(), "END");
}

#[test]
fn a_page_needs_room_and_keeps_the_rest() {
    let kept = some_record();
    for short in [0, 1, PAGE_BYTES - 1] {
        let mut out = vec![9; short];
        assert_eq!(kept.page(&mut out), Err(Refusal::PAGE_TOO_SHORT));
        assert_eq!(out, vec![9; short]);
    }
    let mut out = [9; PAGE_BYTES + 3];
    assert_eq!(kept.page(&mut out), Ok(PAGE_BYTES));
    assert_eq!(&out[..PAGE_BYTES], page_of(&kept).as_bytes());
    assert_eq!(out[PAGE_BYTES..], [9; 3]);
}

#[test]
fn live_takes_are_recorded() {
    let (memory, mut counts) = ([0, 8, 0, 0], Counts::default());
    let mut queue = Queue::open(&K1, 2, 2, 0, 4).expect("K1 opens");
    let mut kept = some_record();
    assert_eq!(queue.activate(0), Ok(()));
    let before = queue;
    assert_eq!(queue.take_recorded(&mut kept, 0), Err(Refusal::NOT_SERVED));
    assert_eq!(queue.take_recorded(&mut kept, 7), Err(Refusal::NO_PORT));
    assert_eq!((queue, kept), (before, some_record()));
    assert_eq!(queue.load_address(0, 1), Ok(()));
    assert_eq!(queue.serve(&memory, &mut counts, 0), Ok(8));
    assert_eq!(queue.take_recorded(&mut kept, 0), Ok(8));
    assert_eq!(kept, some_record().recorded(0, 8));
    let refused = queue.take_recorded(&mut kept, 0);
    assert_eq!(refused, Err(Refusal::NONE_UNTAKEN));
    assert_eq!(kept, some_record().recorded(0, 8));
}

#[test]
fn an_unsound_queue_leaves_the_record() {
    let mut queue = Queue::open(&K1, 2, 2, 0, 4).expect("K1 opens");
    queue.frame.loads.count = 3;
    let (before, mut kept) = (queue, some_record());
    assert_eq!(queue.take_recorded(&mut kept, 0), Err(Refusal::UNSOUND));
    assert_eq!((queue, kept), (before, some_record()));
}

/// Replays on fives with this many places for answers.
fn replayed(places: usize, kept: &mut ShiftRecord) -> Result<usize, Error> {
    let (mut memory, mut counts) = ([5; 3], [5; 2]);
    let (mut answers, mut given, mut values) = (vec![5; places], [5; 5], [5; 5]);
    let lent = Lent {
        memory: &mut memory,
        counts: &mut counts,
        answers: &mut answers,
        given: &mut given,
        values: &mut values,
    };
    replay_recorded(&K1, &TRACE, lent, kept)
}

#[test]
fn a_replay_keeps_the_record() {
    let mut kept = some_record();
    assert_eq!(replayed(5, &mut kept), Ok(5));
    assert_eq!(kept, some_record().recorded(0, 5));
    let short = Error::Length {
        buffer: Buffer::Answers,
        lent: 4,
        needed: 5,
    };
    let mut kept = some_record();
    assert_eq!(replayed(4, &mut kept), Err(short));
    assert_eq!(kept, some_record());
}

/// The buffers are left as by a replay without a record.
#[test]
fn a_record_changes_nothing_else() {
    let mut left = Vec::new();
    for recorded in [false, true] {
        let (mut memory, mut counts) = ([5; 3], [5; 3]);
        let (mut answers, mut given, mut values) = ([5; 6], [5; 6], [5; 6]);
        let lent = Lent {
            memory: &mut memory,
            counts: &mut counts,
            answers: &mut answers,
            given: &mut given,
            values: &mut values,
        };
        let played = match recorded {
            false => replay(&K1, &TRACE, lent),
            true => replay_recorded(&K1, &TRACE, lent, &mut some_record()),
        };
        assert_eq!(played, Ok(5));
        left.push((memory, counts, answers, given, values));
    }
    assert_eq!(left[0], left[1]);
}
