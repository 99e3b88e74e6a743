//! The paper's cases K1 to K10, the last as S-3 has it.

mod common;

use common::{header, k1_trace, k5_group, K1_TABLE, K1_TRACE};
use lsq_ref::number::{read_number, write_number};
use lsq_ref::play::play;
use lsq_ref::table::{Access, Table};
use lsq_ref::{Counts, Queue};

const K1_TEXT: &str = "\
1 0 -
2 0 -
3 0 -
4 0 -
5 28 -
6 0 0
7 0 0
8 0 -
9 0 -
10 0 1
11 0 -
12 0 1
word 3 1
loads 2 forwarded 1 share 500
";

const K5_GROUP: [u8; 10] = [2, 2, 0, 4, 2, 5, 1, 3, 1, 4];

fn table_bytes(group: &[u8]) -> Vec<u8> {
    [&[2, 1], group].concat()
}

/// The last event's line when K1 is played to event `count` and then `more`.
fn line_after(count: usize, more: &[u8]) -> String {
    let text = play(Some(&K1_TABLE), Some(&k1_trace(count, more)));
    let line = text.lines().nth(count).expect("a line for the event");
    line.to_string()
}

#[test]
fn k1_printed_run() {
    assert_eq!(play(Some(&K1_TABLE), Some(&K1_TRACE)), K1_TEXT);
}

#[test]
fn k2_127_is_one_byte() {
    let mut buffer = [0xEE; 6];
    assert_eq!(write_number(127, &mut buffer), Ok(1));
    assert_eq!(buffer, [0x7F, 0xEE, 0xEE, 0xEE, 0xEE, 0xEE]);
    assert_eq!(read_number(&[0x7F], 0), Ok((127, 1)));
}

#[test]
fn k3_128_is_two_bytes() {
    let mut buffer = [0xEE; 6];
    assert_eq!(write_number(128, &mut buffer), Ok(2));
    assert_eq!(buffer, [0x80, 0x01, 0xEE, 0xEE, 0xEE, 0xEE]);
    assert_eq!(read_number(&[0x80, 0x01], 0), Ok((128, 2)));
}

#[test]
fn k4_fifth_byte_above_0f() {
    assert_eq!(read_number(&[0xFF, 0xFF, 0xFF, 0xFF, 0x10], 0), Err(2));
}

#[test]
fn k5_program_order() {
    let table = Table::read(&table_bytes(&K5_GROUP)).expect("a valid table");
    let order = [
        Access::Load(4),
        Access::Store(3),
        Access::Store(4),
        Access::Load(5),
    ];
    assert_eq!(table.groups[0].program_order(), order);
    assert_eq!(table.groups, [k5_group()]);
}

#[test]
fn k6_disagreeing_store_offset() {
    let mut group = K5_GROUP;
    group[6] = 0;
    assert_eq!(Table::read(&table_bytes(&group)), Err(8));
}

#[test]
fn k7_group_above_load_depth() {
    let table = Table {
        groups: vec![k5_group()],
    };
    assert_eq!(Queue::open(table, header(1, 2, 0, 4)), Err(14));
}

#[test]
fn k8_third_activation() {
    assert_eq!(line_after(2, &[0x00, 0x00]), "3 21 -");
    assert_eq!(line_after(7, &[0x00, 0x00]), "8 21 -");
}

#[test]
fn k9_address_4() {
    assert_eq!(line_after(2, &[0x01, 0x00, 0x04]), "3 23 -");
    assert_eq!(line_after(2, &[0x02, 0x00, 0x04]), "3 23 -");
}

#[test]
fn k10_half_goes_to_even() {
    let counts = Counts {
        loads: 16,
        forwarded: 1,
    };
    assert_eq!(counts.share(), 62);
}
