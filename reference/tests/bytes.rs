//! Numbers, tables, events and headers as bytes: refusals 1 to 10, 35
//! and 42, the order of checking, what buffers keep, and the byte count (S-5)
//! against the lengths of document 01. More of 42 is in `padding.rs`.

mod common;

use common::{header, k5_group, K1_TABLE};
use lsq_ref::event::{
    read_event, read_header, write_event, write_header, Event, EventReader, Step,
};
use lsq_ref::number::{byte_count, read_number, write_number};
use lsq_ref::table::{Access, Group, Pair, Table};

// Numbers.

/// The least and the greatest number of each count of significant bits, 0 to 32.
fn least_and_greatest() -> impl Iterator<Item = (u32, u32)> {
    (0..=32).flat_map(|bits| {
        let beyond = 1u64 << bits;
        [beyond / 2, beyond - 1].map(|number| (bits, number as u32))
    })
}

/// Document 01's own list, "1 for 0 to 7, then 2 to 14, 3 to 21, 4 to 28, 5 to
/// 32": S-5 replaces it in the crate, and here it says what the formula is to give.
fn listed_length(significant_bits: u32) -> usize {
    match significant_bits {
        0..=7 => 1,
        8..=14 => 2,
        15..=21 => 3,
        22..=28 => 4,
        29..=32 => 5,
        _ => panic!("{significant_bits} bits are more than a number has"),
    }
}

/// The groups of seven bits, taken off one by one until nothing is left; 0 has
/// one as well.
fn groups_of_seven(number: u32) -> usize {
    let mut count = 1;
    let mut rest = number / 128;
    while rest > 0 {
        count += 1;
        rest /= 128;
    }
    count
}

#[test]
fn byte_counts_follow_significant_bits() {
    for (bits, number) in least_and_greatest() {
        let count = byte_count(number);
        assert_eq!(count, listed_length(bits), "{number} of {bits} bits");
        assert_eq!(count, groups_of_seven(number), "{number} of {bits} bits");
    }
}

/// The least numbers, those on both sides of each step of the byte count and the
/// greatest, with their bytes worked out by hand. 127 and 128, the first step, are
/// K2 and K3 in `known.rs`.
const STEPS: [(u32, &[u8]); 9] = [
    (0, &[0x00]),
    (1, &[0x01]),
    (16_383, &[0xFF, 0x7F]),
    (16_384, &[0x80, 0x80, 0x01]),
    (2_097_151, &[0xFF, 0xFF, 0x7F]),                 // 2^21 - 1
    (2_097_152, &[0x80, 0x80, 0x80, 0x01]),           // 2^21
    (268_435_455, &[0xFF, 0xFF, 0xFF, 0x7F]),         // 2^28 - 1
    (268_435_456, &[0x80, 0x80, 0x80, 0x80, 0x01]),   // 2^28
    (4_294_967_295, &[0xFF, 0xFF, 0xFF, 0xFF, 0x0F]), // 2^32 - 1
];

#[test]
fn numbers_at_the_steps_of_the_byte_count() {
    for (number, bytes) in STEPS {
        let count = bytes.len();
        assert_eq!(byte_count(number), count, "{number}");
        let mut buffer = [0xEE; 6];
        assert_eq!(write_number(number, &mut buffer), Ok(count), "{number}");
        assert_eq!(buffer[..count], *bytes, "{number}");
        assert_eq!(buffer[count..], [0xEE; 6][count..], "{number}");
    }
}

#[test]
fn numbers_come_back() {
    let edges = (0..32).flat_map(|bit| [1u32 << bit, (1 << bit) - 1, !(1 << bit)]);
    for number in edges.chain([u32::MAX]) {
        let mut buffer = [0; 5];
        let count = write_number(number, &mut buffer).expect("room");
        assert_eq!(read_number(&buffer[..count], 0), Ok((number, count)));
        assert_eq!(read_number(&buffer[..count - 1], 0), Err(1));
    }
}

#[test]
fn reader_refuses_padding() {
    assert_eq!(read_number(&[0x80, 0x00], 0), Err(42));
    assert_eq!(read_number(&[0xFF, 0x80, 0x80, 0x80, 0x00], 0), Err(42));
}

#[test]
fn number_refusals() {
    assert_eq!(read_number(&[], 0), Err(1));
    assert_eq!(read_number(&[0x01], 1), Err(1));
    assert_eq!(read_number(&[0x01], 2), Err(1));
    assert_eq!(read_number(&[0x01], usize::MAX), Err(1));
    assert_eq!(read_number(&[0x80; 4], 0), Err(1));
    assert_eq!(read_number(&[0x80; 5], 0), Err(2));
    assert_eq!(
        read_number(&[0x80, 0x80, 0x80, 0x80, 0x8F, 0x00], 0),
        Err(2)
    );
    assert_eq!(
        read_number(&[0xFF, 0xFF, 0xFF, 0xFF, 0x0F], 0),
        Ok((u32::MAX, 5))
    );
}

#[test]
fn short_number_buffer_keeps_its_contents() {
    for (bits, number) in least_and_greatest() {
        let count = listed_length(bits);
        let mut short = vec![0xEE; count - 1];
        assert_eq!(write_number(number, &mut short), Err(10), "{number}");
        assert_eq!(short, vec![0xEE; count - 1], "{number}");
        // One byte more is enough.
        let mut exact = vec![0xEE; count];
        assert_eq!(write_number(number, &mut exact), Ok(count), "{number}");
    }
}

// Tables.

const GETS_2: [u8; 5] = [0xFF, 0xFF, 0xFF, 0xFF, 0x10];

fn read(bytes: &[u8]) -> Result<Table, u8> {
    Table::read(bytes)
}

#[test]
fn every_cut_of_a_table_gets_1() {
    let bytes = [2, 2, 2, 2, 0, 4, 2, 5, 1, 3, 1, 4, 0, 1, 0, 31];
    assert!(read(&bytes).is_ok());
    for count in 0..bytes.len() {
        assert_eq!(read(&bytes[..count]), Err(1), "{count} bytes");
    }
}

#[test]
fn fifth_byte_gets_2_at_every_number_of_a_table() {
    for at in 0..K1_TABLE.len() {
        let bytes = [&K1_TABLE[..at], &GETS_2].concat();
        assert_eq!(read(&bytes), Err(2), "number {at}");
    }
}

#[test]
fn table_refusals() {
    let cases: [(&[u8], u8); 22] = [
        (&[3], 3),
        (&[0, 0], 3),
        (&[2, 0], 4),
        (&[2, 17], 4),
        (&[2, 1, 17, 0], 5),
        (&[2, 1, 0, 17], 5),
        (&[2, 2, 0, 0, 17, 0], 5),            // behind an empty group
        (&[2, 1, 17], 1),                     // 5 waits for both counts
        (&[2, 1, 1, 1, 2], 1),                // 8 waits for the whole pair
        (&[2, 1, 1, 1, 2, 32], 8),            // above the store count
        (&[2, 1, 2, 1, 1, 0, 0, 32], 8),      // below the load before
        (&[2, 1, 2, 1, 1, 0, 0, 0], 8),       // 8 before 7
        (&[2, 1, 1, 0, 0, 32], 6),            //
        (&[2, 1, 0, 1, 0, 32], 6),            //
        (&[2, 1, 2, 0, 0, 9, 0, 9], 7),       //
        (&[2, 1, 0, 2, 0, 9, 0, 9], 7),       //
        (&[2, 2, 1, 0, 0, 9, 1, 0, 0, 9], 7), // in another group
        (&[2, 2, 0, 1, 0, 9, 0, 1, 0, 9], 7),
        (&[2, 1, 1, 1, 0, 0, 0, 32], 8), // load 0 is before store 0
        (&[2, 1, 1, 1, 1, 0, 1, 0], 8),  // load 0 is behind store 0
        (&[2, 1, 1, 0, 0, 0, 0], 9),
        (&[2, 1, 1, 0, 0, 32, 0], 6), // 6 before 9
    ];
    for (bytes, refusal) in cases {
        assert_eq!(read(bytes), Err(refusal), "{bytes:?}");
    }
}

#[test]
fn load_and_store_ports_are_two_series() {
    assert!(read(&[2, 1, 1, 1, 0, 31, 1, 31]).is_ok());
}

#[test]
fn offset_may_equal_the_store_count() {
    let table = read(&[2, 1, 1, 1, 1, 0, 0, 0]).expect("a valid table");
    let order = [Access::Store(0), Access::Load(0)];
    assert_eq!(table.groups[0].program_order(), order);
}

#[test]
fn padded_table_is_refused() {
    let bytes = [0x82, 0x00, 0x81, 0x80, 0x00, 1, 0, 0x80, 0x00, 7];
    assert_eq!(read(&bytes), Err(42));
    let table = read(&[2, 1, 1, 0, 0, 7]).expect("a valid table");
    assert_eq!(table.groups[0].loads, [pair(0, 7)]);
}

#[test]
fn table_comes_back_and_short_buffer_keeps_its_contents() {
    let lone_load = Group::from_order(&[Access::Load(0)]);
    let table = Table {
        groups: vec![k5_group(), lone_load],
    };
    let mut buffer = [0xEE; 20];
    assert_eq!(table.write(&mut buffer), Ok(16));
    assert_eq!(buffer[16..], [0xEE; 4]);
    assert_eq!(read(&buffer[..16]), Ok(table.clone()));
    for count in 0..16 {
        let mut short = vec![0xEE; count];
        assert_eq!(table.write(&mut short), Err(10));
        assert_eq!(short, vec![0xEE; count]);
    }
}

fn pair(offset: u32, port: u32) -> Pair {
    Pair { offset, port }
}

fn group(loads: &[Pair], stores: &[Pair]) -> Group {
    Group {
        loads: loads.to_vec(),
        stores: stores.to_vec(),
    }
}

#[test]
fn wrong_tables_are_named_in_the_order_of_reading() {
    let good = group(&[pair(0, 0)], &[pair(1, 0)]);
    let seen = good.clone();
    let empty = group(&[], &[]);
    let long = group(&[pair(9, 99); 17], &[]);
    let long_stores = group(&[], &[pair(9, 99); 17]);
    let range = group(&[pair(0, 32)], &[]);
    let offset = group(&[pair(1, 32)], &[]);
    let cases = [
        (vec![], 4),
        (vec![long.clone(); 17], 4),
        (vec![empty.clone(); 17], 4),
        (vec![good.clone(), long.clone()], 5),
        (vec![empty.clone(), long_stores], 5),
        (vec![offset.clone(), long.clone()], 8),
        (vec![range.clone(), offset], 6),
        (vec![good.clone(), seen, long], 7),
        (vec![good.clone(), empty.clone(), range], 6),
        (vec![good, empty], 0),
    ];
    for (groups, answer) in cases {
        let table = Table { groups };
        assert_eq!(table.check(), answer, "{table:?}");
        if answer != 0 {
            assert_eq!(table.write(&mut []), Err(answer), "{table:?}");
        }
    }
}

// Events.

#[test]
fn events_come_back() {
    let n = u32::MAX;
    let events = [
        Event::Activate { group: n },
        Event::LoadAddress {
            port: 1,
            address: n,
        },
        Event::StoreAddress {
            port: 2,
            address: n,
        },
        Event::StoreData { port: 3, word: n },
        Event::Serve { serial: n },
        Event::Write { serial: n },
        Event::Take { port: n },
    ];
    for (kind, event) in events.iter().enumerate() {
        let mut buffer = [0xEE; 16];
        let count = write_event(event, &mut buffer).expect("room");
        assert_eq!(usize::from(buffer[0]), kind);
        assert_eq!(buffer[count..], [0xEE; 16][count..]);
        assert_eq!(read_event(&buffer, 0), Step::Event(*event, count));
        for cut in 1..count {
            assert_eq!(read_event(&buffer[..cut], 0), Step::Refused(1));
            let mut short = vec![0xEE; cut];
            assert_eq!(write_event(event, &mut short), Err(10));
            assert_eq!(short, vec![0xEE; cut]);
        }
    }
}

#[test]
fn event_refusals() {
    assert_eq!(read_event(&[7], 0), Step::Refused(35));
    assert_eq!(
        read_event(&[0xFF, 0xFF, 0xFF, 0xFF, 0x0F], 0),
        Step::Refused(35)
    );
    assert_eq!(read_event(&GETS_2, 0), Step::Refused(2));
    assert_eq!(read_event(&[0x80], 0), Step::Refused(1));
    assert_eq!(read_event(&[1, 0], 0), Step::Refused(1));
    assert_eq!(
        read_event(&[&[1, 0], &GETS_2[..]].concat(), 0),
        Step::Refused(2)
    );
    assert_eq!(
        read_event(&[&[1], &GETS_2[..]].concat(), 0),
        Step::Refused(2)
    );
}

#[test]
fn a_place_past_the_end_is_the_end() {
    for at in [2, 3, usize::MAX] {
        assert_eq!(read_event(&[0, 0], at), Step::End);
    }
}

#[test]
fn reader_steps_event_by_event() {
    let bytes = [6, 1, 0, 0x80, 0x01, 7];
    let mut reader = EventReader {
        bytes: &bytes,
        at: 0,
    };
    assert_eq!(reader.step(), Step::Event(Event::Take { port: 1 }, 2));
    let activate = Event::Activate { group: 128 };
    assert_eq!(reader.step(), Step::Event(activate, 5));
    assert_eq!(reader.step(), Step::Refused(35));
    assert_eq!(reader.at, 5);
    assert_eq!(reader.rest(), Err(35));
}

#[test]
fn headers_come_back() {
    let header = header(64, 1, u32::MAX, 4096);
    let mut buffer = [0xEE; 12];
    let count = write_header(&header, &mut buffer).expect("room");
    assert_eq!(count, 9);
    assert_eq!(read_header(&buffer), Ok((header, 9)));
    assert_eq!(read_header(&buffer[..8]), Err(1));
    assert_eq!(write_header(&header, &mut [0; 8]), Err(10));
}
