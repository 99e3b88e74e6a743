//! Who makes the live calls.

use lsq::record::{
    Counts, Frame, Listed, Opened, Service, Step, Table, TableRead, Written, ENTRIES,
};
use lsq::{direct, Queue, Refusal, ShiftRecord};
use lsq_ref::{Event, Header};

use super::record::Record;

/// What a call gives beside the record and the memory that it leaves.
#[derive(Clone, Copy, Debug, PartialEq, Eq)]
pub struct Made {
    /// 0, or the refusal number.
    pub answer: u32,
    /// Whether there is a value.
    pub given: u32,
    /// The value, or 0.
    pub value: u32,
    /// The counts that follow.
    pub counts: Counts,
}

/// What a ready call lists.
#[derive(Clone, Copy, Debug, PartialEq, Eq)]
pub enum Ready {
    /// Loads that serve would accept.
    Loads,
    /// Stores that write would accept.
    Stores,
}

/// The live functions of `bindings/c/lsq.h`.
pub trait Live {
    /// `lsq_open_in`.
    fn open(&self, table: &[u8], header: &Header) -> Opened;
    /// `lsq_sound_in`.
    fn sound(&self, record: &Record) -> u32;
    /// The call that the event stands for, whose frame is put in place.
    fn call(&self, record: &mut Record, memory: &mut [u32], counts: Counts, event: &Event) -> Made;
    /// A take whose value is recorded, where it is accepted.
    fn take_recorded(&self, record: &mut Record, kept: &mut ShiftRecord, port: u32) -> Made {
        let made = self.call(record, &mut [], Counts::default(), &Event::Take { port });
        if made.answer == 0 {
            *kept = self.recorded(*kept, port, made.value);
        }
        made
    }
    /// `lsq_ready_loads_in` and `lsq_ready_stores_in`.
    fn ready(&self, record: &Record, ready: Ready, out: &mut [u32]) -> Listed;
    /// `lsq_read_table`.
    fn read_table(&self, bytes: &[u8]) -> TableRead;
    /// `lsq_write_table`.
    fn write_table(&self, table: Table, out: &mut [u8]) -> Written;
    /// `lsq_write_number`.
    fn write_number(&self, value: u32, out: &mut [u8]) -> Written;
    /// `lsq_write_event`.
    fn write_event(&self, kind: u32, first: u32, second: u32, out: &mut [u8]) -> Written;
    /// `lsq_recorded`.
    fn recorded(&self, kept: ShiftRecord, port: u32, value: u32) -> ShiftRecord;
    /// `lsq_page`.
    fn page(&self, kept: ShiftRecord, out: &mut [u8]) -> Written;
}

/// The static library.
pub struct Library;

impl Live for Library {
    fn open(&self, table: &[u8], header: &Header) -> Opened {
        let Header {
            load_depth,
            store_depth,
            first_serial,
            memory_length,
        } = *header;
        direct::open_in(table, load_depth, store_depth, first_serial, memory_length)
    }

    fn sound(&self, record: &Record) -> u32 {
        direct::sound_in(record.frame, record.loads.run(), record.stores.run())
    }

    fn call(&self, record: &mut Record, memory: &mut [u32], counts: Counts, event: &Event) -> Made {
        let frame = record.frame;
        let (loads, stores) = (record.loads.lend(), record.stores.lend());
        let (step, counts) = match *event {
            Event::Activate { group } => (direct::activate_in(frame, loads, stores, group), counts),
            Event::LoadAddress { port, address } => {
                let answer = direct::load_address_in(frame, loads, stores, port, address);
                (still(frame, answer), counts)
            }
            Event::StoreAddress { port, address } => {
                let answer = direct::store_address_in(frame, loads, stores, port, address);
                (still(frame, answer), counts)
            }
            Event::StoreData { port, word } => {
                let answer = direct::store_data_in(frame, loads, stores, port, word);
                (still(frame, answer), counts)
            }
            Event::Serve { serial } => served(
                frame,
                direct::serve_in(frame, loads, stores, memory, counts, serial),
            ),
            Event::Write { serial } => (
                direct::write_in(frame, loads, stores, memory, serial),
                counts,
            ),
            Event::Take { port } => (direct::take_in(frame, loads, stores, port), counts),
        };
        record.frame.loads = step.loads;
        record.frame.stores = step.stores;
        Made {
            answer: step.answer,
            given: step.given,
            value: step.value,
            counts,
        }
    }

    fn ready(&self, record: &Record, ready: Ready, out: &mut [u32]) -> Listed {
        let Record {
            frame,
            loads,
            stores,
        } = record;
        match ready {
            Ready::Loads => direct::ready_loads_in(*frame, loads.run(), stores.run(), out),
            Ready::Stores => direct::ready_stores_in(*frame, loads.run(), stores.run(), out),
        }
    }

    fn read_table(&self, bytes: &[u8]) -> TableRead {
        direct::read_table(bytes)
    }

    fn write_table(&self, table: Table, out: &mut [u8]) -> Written {
        direct::write_table(table, out)
    }

    fn write_number(&self, value: u32, out: &mut [u8]) -> Written {
        direct::write_number(value, out)
    }

    fn write_event(&self, kind: u32, first: u32, second: u32, out: &mut [u8]) -> Written {
        direct::write_event(kind, first, second, out)
    }

    fn recorded(&self, kept: ShiftRecord, port: u32, value: u32) -> ShiftRecord {
        direct::recorded(kept, port, value)
    }

    fn page(&self, kept: ShiftRecord, out: &mut [u8]) -> Written {
        direct::page(kept, out)
    }
}

/// The step of a call that gives no value and moves neither side.
fn still(frame: Frame, answer: u32) -> Step {
    Step {
        answer,
        given: 0,
        value: 0,
        loads: frame.loads,
        stores: frame.stores,
    }
}

fn served(frame: Frame, service: Service) -> (Step, Counts) {
    let step = Step {
        answer: service.answer,
        given: service.given,
        value: service.value,
        loads: frame.loads,
        stores: frame.stores,
    };
    (step, service.counts)
}

/// Whether both runs have 64 numbers: what stands over the library's calls has
/// no other queues.
#[must_use]
pub fn is_whole(record: &Record) -> bool {
    record.loads.length() == ENTRIES && record.stores.length() == ENTRIES
}

/// The queue of such a record in one piece.
pub(super) fn whole(record: &Record) -> Queue {
    let entries = |run: &[u64]| <[u64; ENTRIES]>::try_from(run).expect("a whole record");
    Queue {
        frame: record.frame,
        loads: entries(record.loads.run()),
        stores: entries(record.stores.run()),
    }
}

/// Puts a queue back into the record that it is of.
pub(super) fn put_back(record: &mut Record, queue: &Queue) {
    record.frame = queue.frame;
    record.loads.lend().copy_from_slice(&queue.loads);
    record.stores.lend().copy_from_slice(&queue.stores);
}

/// Opens a queue through the Rust wrapper.
///
/// # Errors
/// Those of opening.
pub fn open(table: &[u8], header: &Header) -> Result<Queue, Refusal> {
    let Header {
        load_depth,
        store_depth,
        first_serial,
        memory_length,
    } = *header;
    Queue::open(table, load_depth, store_depth, first_serial, memory_length)
}

/// Makes the call that an event stands for through the Rust wrapper; the value
/// is that of an accepted serve or take.
///
/// # Errors
/// Those of the call.
#[inline]
pub fn apply(
    queue: &mut Queue,
    memory: &mut [u32],
    counts: &mut Counts,
    event: &Event,
) -> Result<Option<u32>, Refusal> {
    let nothing = |()| None;
    match *event {
        Event::Activate { group } => queue.activate(group).map(nothing),
        Event::LoadAddress { port, address } => queue.load_address(port, address).map(nothing),
        Event::StoreAddress { port, address } => queue.store_address(port, address).map(nothing),
        Event::StoreData { port, word } => queue.store_data(port, word).map(nothing),
        Event::Serve { serial } => queue.serve(memory, counts, serial).map(Some),
        Event::Write { serial } => queue.write(memory, serial).map(nothing),
        Event::Take { port } => queue.take(port).map(Some),
    }
}

/// The Rust wrapper, on whole records: a queue is also saved and restored before
/// each call.
pub struct Wrapper;

impl Live for Wrapper {
    fn open(&self, table: &[u8], header: &Header) -> Opened {
        let opened = open(table, header);
        Opened {
            answer: number(&opened),
            frame: opened.map_or(Frame::default(), |queue| queue.frame),
        }
    }

    fn sound(&self, record: &Record) -> u32 {
        whole(record).sound().into()
    }

    fn call(&self, record: &mut Record, memory: &mut [u32], counts: Counts, event: &Event) -> Made {
        let mut queue = Queue::from_bytes(&whole(record).to_bytes());
        let mut counts = counts;
        let value = apply(&mut queue, memory, &mut counts, event);
        put_back(record, &queue);
        let given = value.ok().flatten();
        Made {
            answer: number(&value),
            given: given.is_some().into(),
            value: given.unwrap_or(0),
            counts,
        }
    }

    fn take_recorded(&self, record: &mut Record, kept: &mut ShiftRecord, port: u32) -> Made {
        let mut queue = whole(record);
        let value = queue.take_recorded(kept, port);
        put_back(record, &queue);
        Made {
            answer: number(&value),
            given: value.is_ok().into(),
            value: value.unwrap_or(0),
            counts: Counts::default(),
        }
    }

    fn ready(&self, record: &Record, ready: Ready, out: &mut [u32]) -> Listed {
        let queue = whole(record);
        let front = match ready {
            Ready::Loads => queue.ready_loads(out),
            Ready::Stores => queue.ready_stores(out),
        };
        Listed {
            answer: number(&front),
            count: front.map_or(0, |front| front.len() as u64),
        }
    }

    fn read_table(&self, bytes: &[u8]) -> TableRead {
        let read = lsq::read_table(bytes);
        TableRead {
            answer: number(&read),
            table: read.unwrap_or_default(),
        }
    }

    fn write_table(&self, table: Table, out: &mut [u8]) -> Written {
        written(lsq::write_table(&table, out))
    }

    fn write_number(&self, value: u32, out: &mut [u8]) -> Written {
        written(lsq::write_number(value, out))
    }

    fn write_event(&self, kind: u32, first: u32, second: u32, out: &mut [u8]) -> Written {
        written(lsq::write_event(kind, first, second, out))
    }

    fn recorded(&self, kept: ShiftRecord, port: u32, value: u32) -> ShiftRecord {
        kept.recorded(port, value)
    }

    fn page(&self, kept: ShiftRecord, out: &mut [u8]) -> Written {
        written(kept.page(out))
    }
}

fn number<T>(result: &Result<T, Refusal>) -> u32 {
    result.as_ref().err().map_or(0, |refusal| refusal.0)
}

fn written(result: Result<usize, Refusal>) -> Written {
    Written {
        answer: number(&result),
        count: result.unwrap_or(0) as u64,
    }
}
