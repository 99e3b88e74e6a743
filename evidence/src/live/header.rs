//! The inline functions of `bindings/c/lsq.h`, compiled by `evidence/c/header.c`.

#![allow(unsafe_code)]

use lsq::record::{
    Accesses, Counts, Frame, Listed, Opened, Ordered, Precedences, Side, Table, TableRead, Written,
    ENTRIES,
};
use lsq::{Queue, ShiftRecord, QUEUE_BYTES};
use lsq_ref::{Event, Header as Opening};

use super::record::Record;
use super::subject::{put_back, whole, Library, Live, Made, Ready};
use crate::orders::Orders;

unsafe extern "C" {
    fn header_open(
        queue: *mut Queue,
        table: *const u8,
        table_len: usize,
        load_depth: u32,
        store_depth: u32,
        first: u32,
        memory_length: u32,
    ) -> u32;
    fn header_sound(queue: *const Queue) -> u32;
    fn header_activate(queue: *mut Queue, group: u32) -> u32;
    fn header_load_address(queue: *mut Queue, port: u32, address: u32) -> u32;
    fn header_store_address(queue: *mut Queue, port: u32, address: u32) -> u32;
    fn header_store_data(queue: *mut Queue, port: u32, word: u32) -> u32;
    fn header_serve(
        queue: *mut Queue,
        memory: *const u32,
        memory_len: usize,
        counts: *mut Counts,
        serial: u32,
        value: *mut u32,
    ) -> u32;
    fn header_write(queue: *mut Queue, memory: *mut u32, memory_len: usize, serial: u32) -> u32;
    fn header_take(queue: *mut Queue, port: u32, value: *mut u32) -> u32;
    fn header_take_recorded(
        queue: *mut Queue,
        kept: *mut ShiftRecord,
        port: u32,
        value: *mut u32,
    ) -> u32;
    fn header_order(accesses: u32, pairs: Precedences) -> Ordered;
    fn header_table_in_order(order: Ordered, accesses: Accesses) -> Table;
    fn header_recorded(kept: ShiftRecord, port: u32, value: u32) -> ShiftRecord;
    fn header_page(kept: ShiftRecord, out: *mut u8, out_len: usize) -> Written;
    fn header_ready_loads(
        queue: *const Queue,
        out: *mut u32,
        out_len: usize,
        count: *mut usize,
    ) -> u32;
    fn header_ready_stores(
        queue: *const Queue,
        out: *mut u32,
        out_len: usize,
        count: *mut usize,
    ) -> u32;
    fn header_save(queue: *const Queue, out: *mut u8);
    fn header_restore(queue: *mut Queue, bytes: *const u8);
}

/// Stands in what a call gives by a pointer; a refused call must leave it.
const FILLER: u32 = 0xA5A5_A5A5;

/// A queue that a refused opening must leave as it is.
fn filled() -> Queue {
    let side = Side {
        depth: 0xA5,
        count: 0xA5,
        next: FILLER,
    };
    Queue {
        frame: Frame {
            memory_length: 0xA5A5,
            loads: side,
            stores: side,
            ..Frame::default()
        },
        loads: [u64::MAX; ENTRIES],
        stores: [u64::MAX; ENTRIES],
    }
}

// In all blocks below pointers come from references and slices that live on and
// do not overlap, and `Queue`, `Counts` and the records that go by value are laid
// out as their C types.

/// The queue that C saves and restores; both must be as the Rust wrapper has it.
fn restored(queue: &Queue) -> Queue {
    let mut bytes = [0; QUEUE_BYTES];
    let mut again = filled();
    unsafe { header_save(queue, bytes.as_mut_ptr()) };
    assert_eq!(bytes, queue.to_bytes(), "lsq_save differs from to_bytes");
    unsafe { header_restore(&mut again, bytes.as_ptr()) };
    assert_eq!(again, *queue, "lsq_restore gives another queue");
    again
}

/// The header's inline functions, on whole records.
pub struct Header;

impl Live for Header {
    fn open(&self, table: &[u8], header: &Opening) -> Opened {
        let mut queue = filled();
        let answer = unsafe {
            header_open(
                &mut queue,
                table.as_ptr(),
                table.len(),
                header.load_depth,
                header.store_depth,
                header.first_serial,
                header.memory_length,
            )
        };
        if answer != 0 {
            assert_eq!(queue, filled(), "lsq_open, a refused one");
            queue = Queue {
                frame: Frame::default(),
                loads: [0; ENTRIES],
                stores: [0; ENTRIES],
            };
        }
        let entries = [queue.loads, queue.stores];
        assert_eq!(entries, [[0; ENTRIES]; 2], "lsq_open, entries");
        Opened {
            answer,
            frame: queue.frame,
        }
    }

    fn sound(&self, record: &Record) -> u32 {
        let queue = whole(record);
        unsafe { header_sound(&queue) }
    }

    fn call(&self, record: &mut Record, memory: &mut [u32], counts: Counts, event: &Event) -> Made {
        let mut queue = restored(&whole(record));
        let (mut counts, mut value) = (counts, FILLER);
        let (q, length) = (&raw mut queue, memory.len());
        let answer = unsafe {
            match *event {
                Event::Activate { group } => header_activate(q, group),
                Event::LoadAddress { port, address } => header_load_address(q, port, address),
                Event::StoreAddress { port, address } => header_store_address(q, port, address),
                Event::StoreData { port, word } => header_store_data(q, port, word),
                Event::Serve { serial } => {
                    let words = memory.as_ptr();
                    header_serve(q, words, length, &mut counts, serial, &mut value)
                }
                Event::Write { serial } => header_write(q, memory.as_mut_ptr(), length, serial),
                Event::Take { port } => header_take(q, port, &mut value),
            }
        };
        put_back(record, &queue);
        made(answer, value, counts, event)
    }

    fn take_recorded(&self, record: &mut Record, kept: &mut ShiftRecord, port: u32) -> Made {
        let (mut queue, mut value) = (whole(record), FILLER);
        let answer = unsafe { header_take_recorded(&mut queue, kept, port, &mut value) };
        put_back(record, &queue);
        made(answer, value, Counts::default(), &Event::Take { port })
    }

    fn ready(&self, record: &Record, ready: Ready, out: &mut [u32]) -> Listed {
        let queue = whole(record);
        let mut count = usize::MAX;
        let call = match ready {
            Ready::Loads => header_ready_loads,
            Ready::Stores => header_ready_stores,
        };
        let answer = unsafe { call(&queue, out.as_mut_ptr(), out.len(), &mut count) };
        let left = answer != 0 && count == usize::MAX;
        Listed {
            answer,
            count: if left { 0 } else { count as u64 },
        }
    }

    fn recorded(&self, kept: ShiftRecord, port: u32, value: u32) -> ShiftRecord {
        unsafe { header_recorded(kept, port, value) }
    }

    fn page(&self, kept: ShiftRecord, out: &mut [u8]) -> Written {
        unsafe { header_page(kept, out.as_mut_ptr(), out.len()) }
    }

    // The header adds nothing to these.

    fn read_table(&self, bytes: &[u8]) -> TableRead {
        Library.read_table(bytes)
    }

    fn write_table(&self, table: Table, out: &mut [u8]) -> Written {
        Library.write_table(table, out)
    }

    fn write_number(&self, value: u32, out: &mut [u8]) -> Written {
        Library.write_number(value, out)
    }

    fn write_event(&self, kind: u32, first: u32, second: u32, out: &mut [u8]) -> Written {
        Library.write_event(kind, first, second, out)
    }
}

/// C hands the pairs over and gets the order back, and so the order and the table,
/// all by value.
impl Orders for Header {
    fn order(&self, accesses: u32, pairs: Precedences) -> Ordered {
        unsafe { header_order(accesses, pairs) }
    }

    fn table(&self, order: Ordered, accesses: Accesses) -> Option<Table> {
        Some(unsafe { header_table_in_order(order, accesses) })
    }
}

/// What a call gave. A refused one, and one of a kind that gives no value, must
/// leave the value's place: what it puts there is shown.
fn made(answer: u32, value: u32, counts: Counts, event: &Event) -> Made {
    let gives = matches!(event, Event::Serve { .. } | Event::Take { .. });
    let given = answer == 0 && gives;
    let left = !given && value == FILLER;
    Made {
        answer,
        given: given.into(),
        value: if left { 0 } else { value },
        counts,
    }
}
