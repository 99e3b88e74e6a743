//! The printed run: which fault is told first, and what is printed.

mod common;

use common::{k1_trace, K1_TABLE, K1_TRACE};
use lsq_ref::play::play;

const GETS_2: [u8; 5] = [0xFF, 0xFF, 0xFF, 0xFF, 0x10];

#[test]
fn missing_and_empty_files_are_alike() {
    assert_eq!(play(None, None), "table 1\n");
    assert_eq!(play(Some(&[]), Some(&K1_TRACE)), "table 1\n");
    assert_eq!(play(Some(&K1_TABLE), None), "trace 1\n");
    assert_eq!(play(Some(&K1_TABLE), Some(&[])), "trace 1\n");
}

#[test]
fn table_is_told_before_the_trace() {
    let long = vec![0; 16_385];
    assert_eq!(play(Some(&[3]), Some(&long)), "table 3\n");
    assert_eq!(play(Some(&long), Some(&long)), "table 36\n");
    assert_eq!(play(Some(&K1_TABLE), Some(&long)), "trace 36\n");
}

#[test]
fn a_file_may_have_16384_bytes() {
    let mut table = K1_TABLE.to_vec();
    table.resize(16_384, 0);
    assert_eq!(play(Some(&table), None), "table 9\n");
    let mut trace = K1_TRACE.to_vec();
    while trace.len() < 16_384 {
        trace.extend([0x06, 0x00]);
    }
    let text = play(Some(&K1_TABLE), Some(&trace));
    assert_eq!(text.lines().count(), 12 + (16_384 - 44) / 2 + 2);
    trace.push(0x06);
    assert_eq!(play(Some(&K1_TABLE), Some(&trace)), "trace 36\n");
}

#[test]
fn faults_of_a_trace_in_order() {
    let cases: [(&[u8], u8); 9] = [
        (&[0, 0, 0], 1),        // a leading number before opening
        (&[0, 0, 0, 0, 7], 11), // opening before an event
        (&[2, 0, 0, 0, 7], 12),
        (&[2, 2, 0, 0, 7], 13),
        (&[2, 2, 0, 0x81, 0x20, 7], 13), // 4097
        (&[65, 2, 0, 1], 11),
        (&[2, 2, 0, 1, 7], 35),
        (&[2, 2, 0, 1, 0, 0, 6], 1), // the last event is cut short
        (&[2, 2, 0, 1, 0, 0, 6, 0, 9, 1], 35), // nothing is played
    ];
    for (trace, fault) in cases {
        let text = play(Some(&K1_TABLE), Some(trace));
        assert_eq!(text, format!("trace {fault}\n"), "{trace:?}");
    }
    let trace = [&[2, 2], &GETS_2[..]].concat();
    assert_eq!(play(Some(&K1_TABLE), Some(&trace)), "trace 2\n");
    let trace = k1_trace(12, &GETS_2);
    assert_eq!(play(Some(&K1_TABLE), Some(&trace)), "trace 2\n");
}

#[test]
fn group_above_depth_is_a_fault_of_the_trace() {
    let table = [2, 1, 2, 0, 0, 0, 0, 1];
    assert_eq!(play(Some(&table), Some(&[1, 1, 0, 1])), "trace 14\n");
}

#[test]
fn no_events_print_the_counts_alone() {
    let text = play(Some(&K1_TABLE), Some(&[1, 1, 0, 1]));
    assert_eq!(text, "loads 0 forwarded 0 share 0\n");
}

#[test]
fn empty_groups_alone_print_their_activations() {
    let trace = [
        1, 1, 0, 1, //
        0, 0, // accepted, and again
        0, 0, //
        0, 1, // no such group
        1, 0, 0, // no port is in the table
        2, 0, 0, //
        3, 0, 0, //
        4, 0, // no serial is in the queue
        5, 0, //
        6, 0, //
    ];
    let text = "1 0 -\n2 0 -\n3 20 -\n4 22 -\n5 22 -\n6 22 -\n7 25 -\n8 25 -\n9 22 -\n\
                loads 0 forwarded 0 share 0\n";
    assert_eq!(play(Some(&[2, 1, 0, 0]), Some(&trace)), text);
}

#[test]
fn words_are_printed_by_address() {
    let table = [2, 1, 0, 2, 0, 0, 0, 1];
    let trace = [
        1, 2, 0, 0x80, 0x20, // 4096 words
        0, 0, // activate
        2, 0, 0xFF, 0x1F, // address 4095
        3, 0, 0xFF, 0xFF, 0xFF, 0xFF, 0x0F, // 4294967295
        2, 1, 0, // address 0
        3, 1, 5, //
        5, 1, // write the younger first
        5, 0, //
    ];
    let text = "1 0 -\n2 0 -\n3 0 -\n4 0 -\n5 0 -\n6 0 -\n7 0 -\n\
                word 0 5\nword 4095 4294967295\nloads 0 forwarded 0 share 0\n";
    assert_eq!(play(Some(&table), Some(&trace)), text);
}
