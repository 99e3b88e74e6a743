//! The wrapper: which length is found wrong, and that nothing is changed then.

use lsq::{replay, text, Buffer, Error, Lent, TEXT_BYTES};

const TABLE: [u8; 8] = [0x02, 0x01, 0x01, 0x01, 0x00, 0x00, 0x01, 0x00];

/// Memory of three words; activate, load address 1, serve, take.
const TRACE: [u8; 13] = [1, 1, 9, 3, 0, 0, 1, 0, 1, 4, 9, 6, 0];

struct Buffers {
    memory: Vec<u32>,
    counts: Vec<u32>,
    answers: Vec<u8>,
    given: Vec<u8>,
    values: Vec<u32>,
}

/// Replays on buffers of these lengths, full of fives, and gives them back.
fn replayed(trace: &[u8], lengths: [usize; 5]) -> (Result<usize, Error>, Buffers) {
    let [memory, counts, answers, given, values] = lengths;
    let mut buffers = Buffers {
        memory: vec![5; memory],
        counts: vec![5; counts],
        answers: vec![5; answers],
        given: vec![5; given],
        values: vec![5; values],
    };
    let lent = Lent {
        memory: &mut buffers.memory,
        counts: &mut buffers.counts,
        answers: &mut buffers.answers,
        given: &mut buffers.given,
        values: &mut buffers.values,
    };
    (replay(&TABLE, trace, lent), buffers)
}

fn length(buffer: Buffer, lent: usize, needed: usize) -> Error {
    Error::Length {
        buffer,
        lent,
        needed,
    }
}

#[test]
fn exact_and_longer_buffers() {
    let (result, exact) = replayed(&TRACE, [3, 2, 4, 4, 4]);
    assert_eq!(result, Ok(4));
    assert_eq!(exact.memory, [5, 5, 5]);
    assert_eq!(exact.counts, [6, 5]);
    assert_eq!(exact.answers, [0, 0, 0, 0]);
    assert_eq!(exact.given, [0, 0, 1, 1]);
    assert_eq!(exact.values, [0, 0, 5, 5]);
    let (result, longer) = replayed(&TRACE, [3, 3, 5, 6, 7]);
    assert_eq!(result, Ok(4));
    assert_eq!(longer.counts, [6, 5, 5]);
    assert_eq!(longer.answers, [0, 0, 0, 0, 5]);
    assert_eq!(longer.given, [0, 0, 1, 1, 5, 5]);
    assert_eq!(longer.values, [0, 0, 5, 5, 5, 5, 5]);
}

fn assert_kept(buffers: &Buffers) {
    let words = [&buffers.memory, &buffers.counts, &buffers.values];
    assert!(words.iter().all(|run| run.iter().all(|&word| word == 5)));
    let bytes = [&buffers.answers, &buffers.given];
    assert!(bytes.iter().all(|run| run.iter().all(|&byte| byte == 5)));
}

#[test]
fn wrong_lengths_are_named() {
    let cases = [
        ([2, 2, 4, 4, 4], length(Buffer::Memory, 2, 3)),
        ([4, 2, 0, 0, 0], length(Buffer::Memory, 4, 3)),
        ([4, 1, 4, 4, 4], length(Buffer::Counts, 1, 2)),
        ([3, 2, 3, 3, 3], length(Buffer::Answers, 3, 4)),
        ([3, 2, 4, 3, 3], length(Buffer::Given, 3, 4)),
        ([3, 2, 4, 4, 3], length(Buffer::Values, 3, 4)),
    ];
    for (lengths, error) in cases {
        let (result, kept) = replayed(&TRACE, lengths);
        assert_eq!(result, Err(error));
        assert_kept(&kept);
    }
}

/// A kind above 6 is told behind short counts and before another length.
#[test]
fn a_fault_of_the_trace_stands_between() {
    let trace = [&TRACE[..], &[7]].concat();
    let (result, kept) = replayed(&trace, [2, 1, 4, 4, 4]);
    assert_eq!(result, Err(length(Buffer::Counts, 1, 2)));
    assert_kept(&kept);
    let (result, kept) = replayed(&trace, [2, 2, 3, 3, 3]);
    assert_eq!(result, Err(Error::Refused(35)));
    assert_kept(&kept);
}

#[test]
fn a_short_text_buffer_is_named() {
    let mut out = vec![7; TEXT_BYTES - 1];
    let error = length(Buffer::Text, TEXT_BYTES - 1, TEXT_BYTES);
    assert_eq!(text(&TABLE, &TRACE, &mut out), Err(error));
    assert!(out.iter().all(|&byte| byte == 7));
    let mut out = vec![7; TEXT_BYTES];
    let printed = text(&TABLE, &TRACE, &mut out).map(<[u8]>::len);
    assert!(printed.is_ok_and(|length| length > 0));
}

#[test]
fn errors_can_be_read() {
    let short = length(Buffer::Answers, 3, 4).to_string();
    assert_eq!(short, "Answers has length 3 and needs 4");
    assert_eq!(Error::Refused(9).to_string(), "refused with 9");
}
