//! The live queue: the paper's cases K1, K5, K7, K8 and K9 call by call, what
//! refusals leave, saved queues, and records that are no queue.

use lsq::record::{Pair, Span, Table, ENTRIES};
use lsq::{
    read_table, write_event, write_number, write_table, Counts, Queue, Refusal, QUEUE_BYTES,
};

const K1: [u8; 8] = [0x02, 0x01, 0x01, 0x01, 0x00, 0x00, 0x01, 0x00];
const K5: [u8; 12] = [2, 1, 2, 2, 0, 4, 2, 5, 1, 3, 1, 4];

fn refused<T>(number: u32) -> Result<T, Refusal> {
    Err(Refusal(number))
}

/// K1's queue after two activations.
fn activated() -> Queue {
    let mut queue = Queue::open(&K1, 2, 2, u32::MAX, 4).expect("K1 opens");
    assert_eq!(queue.activate(0), Ok(()));
    assert_eq!(queue.activate(0), Ok(()));
    queue
}

#[test]
fn k1_call_by_call() {
    let (mut memory, mut counts) = ([0; 4], Counts::default());
    let mut queue = activated();
    assert_eq!(queue.activate(0), refused(21));
    assert_eq!(queue.load_address(0, 4), refused(23));
    assert_eq!(queue.load_address(0, 3), Ok(()));
    assert_eq!(queue.load_address(0, 3), Ok(()));
    assert_eq!(queue.serve(&memory, &mut counts, 0), refused(28));
    assert_eq!(queue.serve(&memory, &mut counts, u32::MAX), Ok(0));
    assert_eq!(queue.take(0), Ok(0));
    assert_eq!(queue.activate(0), refused(21));
    assert_eq!(queue.store_address(0, 3), Ok(()));
    assert_eq!(queue.store_data(0, 1), Ok(()));
    assert_eq!(queue.serve(&memory, &mut counts, 0), Ok(1));
    assert_eq!(queue.write(&mut memory, u32::MAX), Ok(()));
    assert_eq!(queue.take(0), Ok(1));
    assert_eq!(memory, [0, 0, 0, 1]);
    let (loads, forwarded) = (2, 1);
    assert_eq!(counts, Counts { loads, forwarded });
    assert!(queue.sound());
}

#[test]
fn openings() {
    assert_eq!(Queue::open(&K5, 1, 2, 0, 4), refused(14));
    assert_eq!(Queue::open(&K5[..11], 2, 2, 0, 4), refused(1));
    assert_eq!(Queue::open(&K5, 0, 2, 0, 4), refused(11));
    assert_eq!(Queue::open(&K5, 2, 65, 0, 4), refused(12));
    assert_eq!(Queue::open(&K5, 2, 2, 0, 4097), refused(13));
    let queue = Queue::open(&K5, 2, 2, 7, 4).expect("K5 opens");
    let side = queue.frame.loads;
    assert_eq!((side.depth, side.count, side.next), (2, 0, 7));
    assert_eq!((queue.loads, queue.stores), ([0; ENTRIES], [0; ENTRIES]));
}

#[test]
fn a_refusal_leaves_everything() {
    let (mut memory, mut counts) = ([6; 4], Counts::default());
    let mut queue = activated();
    let before = queue;
    assert_eq!(queue.activate(1), refused(20));
    assert_eq!(queue.load_address(1, 0), refused(22));
    assert_eq!(queue.store_address(0, 4), refused(23));
    assert_eq!(queue.store_data(1, 0), refused(22));
    assert_eq!(queue.serve(&memory, &mut counts, 7), refused(25));
    assert_eq!(queue.serve(&memory[1..], &mut counts, 0), refused(30));
    assert_eq!(queue.write(&mut memory, 0), refused(27));
    assert_eq!(queue.take(0), refused(34));
    assert_eq!(queue, before);
    assert_eq!((memory, counts), ([6; 4], Counts::default()));
}

#[test]
fn ready_serials_stand_at_the_front() {
    let mut queue = activated();
    let mut out = [9; 3];
    assert_eq!(queue.ready_loads(&mut out), Ok(&mut [][..]));
    assert_eq!(queue.load_address(0, 1), Ok(()));
    assert_eq!(queue.ready_loads(&mut out), Ok(&mut [u32::MAX][..]));
    assert_eq!(out, [u32::MAX, 9, 9]);
    assert_eq!(queue.ready_loads(&mut []), refused(10));
    assert_eq!(queue.ready_stores(&mut []), Ok(&mut [][..]));
    assert_eq!(queue.store_address(0, 2), Ok(()));
    assert_eq!(queue.store_data(0, 5), Ok(()));
    assert_eq!(queue.ready_stores(&mut out), Ok(&mut [u32::MAX][..]));
}

#[test]
fn a_saved_queue_goes_on() {
    let mut queue = activated();
    assert_eq!(queue.load_address(0, 3), Ok(()));
    let mut again = Queue::from_bytes(&queue.to_bytes());
    assert_eq!(again, queue);
    let (memory, mut counts) = ([8; 4], Counts::default());
    assert_eq!(again.serve(&memory, &mut counts, u32::MAX), Ok(8));
    assert_ne!(again, queue);
}

/// Bytes that tell every place apart come back the same.
#[test]
fn any_bytes_are_a_record() {
    let mut bytes = [0; QUEUE_BYTES];
    for (place, byte) in bytes.iter_mut().enumerate() {
        *byte = (place * 7 + place / 256) as u8;
    }
    let queue = Queue::from_bytes(&bytes);
    assert_eq!(queue.to_bytes(), bytes);
    assert!(!queue.sound());
}

#[test]
fn a_record_that_is_no_queue_is_refused() {
    let (mut memory, mut counts) = ([0; 4], Counts::default());
    let mut queue = activated();
    queue.frame.loads.count = 3;
    let before = queue;
    assert!(!queue.sound());
    assert_eq!(queue.activate(0), refused(40));
    assert_eq!(queue.load_address(0, 0), refused(40));
    assert_eq!(queue.store_address(0, 0), refused(40));
    assert_eq!(queue.store_data(0, 0), refused(40));
    assert_eq!(queue.serve(&memory, &mut counts, 0), refused(40));
    assert_eq!(queue.write(&mut memory, 0), refused(40));
    assert_eq!(queue.take(0), refused(40));
    assert_eq!(queue.ready_loads(&mut memory), refused(40));
    assert_eq!(queue.ready_stores(&mut memory), refused(40));
    assert_eq!(queue, before);
}

#[test]
fn tables_are_read_and_written() {
    let table = read_table(&K5).expect("K5 is right");
    let parts = table.parts();
    assert_eq!(parts.count, 1);
    let (first_load, first_store) = (0, 0);
    let group = Span {
        first_load,
        loads: 2,
        first_store,
        stores: 2,
    };
    assert_eq!(parts.groups[0], group);
    let pair = |offset, port| Pair { offset, port };
    assert_eq!(parts.loads[..2], [pair(0, 4), pair(2, 5)]);
    assert_eq!(parts.stores[..2], [pair(1, 3), pair(1, 4)]);
    assert_eq!(Table::new(parts), table);
    let mut out = [9; 13];
    assert_eq!(write_table(&table, &mut out[..11]), refused(10));
    assert_eq!(out, [9; 13]);
    assert_eq!(write_table(&table, &mut out), Ok(12));
    assert_eq!((&out[..12], out[12]), (&K5[..], 9));
    let mut wrong = parts;
    wrong.stores[0].offset = 0;
    assert_eq!(write_table(&Table::new(wrong), &mut out), refused(8));
    assert_eq!(read_table(&[2, 0]), refused(4));
    assert_eq!(read_table(&[2, 0x80, 0]), refused(42));
}

#[test]
fn numbers_and_events_are_written() {
    let mut out = [9; 8];
    assert_eq!(write_number(127, &mut out), Ok(1));
    assert_eq!(out[..2], [0x7F, 9]);
    assert_eq!(write_number(128, &mut out), Ok(2));
    assert_eq!(out[..3], [0x80, 0x01, 9]);
    assert_eq!(write_number(128, &mut out[..1]), refused(10));
    assert_eq!(write_event(3, 0, 128, &mut out), Ok(4));
    assert_eq!(out[..5], [3, 0, 0x80, 0x01, 9]);
    assert_eq!(write_event(6, 31, 128, &mut out[..2]), Ok(2));
    assert_eq!(out[..3], [6, 31, 0x80]);
    assert_eq!(write_event(7, 0, 0, &mut out), refused(35));
    assert_eq!(write_event(0, 0, 0, &mut out[..1]), refused(10));
}

#[test]
fn refusals_can_be_read() {
    let words = Refusal(28).to_string();
    assert_eq!(
        words,
        "refused with 28: an earlier store has no address, and no nearer one has the load's"
    );
    assert_eq!(Refusal::EARLIER_STORE_ADDRESS, Refusal(28));
    let words = Refusal::PAGE_TOO_SHORT.to_string();
    assert!(words.ends_with("41: a page buffer has fewer than 1394 bytes"));
    let words = Refusal::PADDED_NUMBER.to_string();
    assert!(words.ends_with("42: the last of a number's several bytes is 00"));
    let words = Refusal::UNLISTED.to_string();
    assert!(words.starts_with("refused with 43: more than 32 accesses or 64 pairs, or"));
    let words = Refusal::CIRCLE.to_string();
    assert!(words.ends_with("44: a circle of pairs"));
    assert_eq!(Refusal(45).meaning(), "no number of the paper's");
}
