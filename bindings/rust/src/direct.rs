//! The library's functions as they are, on slices. They are total and test all
//! lengths themselves, so nothing is asked of a caller; the crate's root has
//! the same calls with errors that can be read.

use crate::ffi;
use crate::record::{
    Accesses, Counts, Frame, Listed, Opened, Ordered, Precedences, Replayed, Service, ShiftRecord,
    Step, Table, TableRead, Written,
};
use crate::Lent;

// A slice's pointer and length are what each function asks for: the pointer is
// never null, and no slice that is written overlaps another. A struct that goes
// by value has the library's layout (the assertions of `record`). That is the
// whole reason why the blocks below are sound.

/// 0 where the bytes are a right table, else 1 to 9 or 42.
#[must_use]
pub fn table_fault(table: &[u8]) -> u32 {
    unsafe { ffi::lsq_table_fault(table.as_ptr(), table.len()) }
}

/// The table's fault, else the trace's, else 0.
#[must_use]
pub fn trace_fault(table: &[u8], trace: &[u8]) -> u32 {
    unsafe { ffi::lsq_trace_fault(table.as_ptr(), table.len(), trace.as_ptr(), trace.len()) }
}

/// How many events the trace has; 0 where [`trace_fault`] is not 0.
#[must_use]
pub fn event_count(table: &[u8], trace: &[u8]) -> u64 {
    unsafe { ffi::lsq_event_count(table.as_ptr(), table.len(), trace.as_ptr(), trace.len()) }
}

/// The memory length that the trace asks for; 0 where [`trace_fault`] is not 0.
#[must_use]
pub fn memory_length(table: &[u8], trace: &[u8]) -> u32 {
    unsafe { ffi::lsq_memory_length(table.as_ptr(), table.len(), trace.as_ptr(), trace.len()) }
}

/// Plays the trace; 0, or the fault, or 30, or 10, in the order that `lsq.h`
/// says.
#[must_use]
pub fn replay(table: &[u8], trace: &[u8], lent: Lent) -> u32 {
    let Lent {
        memory,
        counts,
        answers,
        given,
        values,
    } = lent;
    unsafe {
        ffi::lsq_replay(
            table.as_ptr(),
            table.len(),
            trace.as_ptr(),
            trace.len(),
            memory.as_mut_ptr(),
            memory.len(),
            counts.as_mut_ptr(),
            counts.len(),
            answers.as_mut_ptr(),
            answers.len(),
            given.as_mut_ptr(),
            given.len(),
            values.as_mut_ptr(),
            values.len(),
        )
    }
}

/// Plays the trace as [`replay`] does, and keeps the record of what it takes; a
/// refused replay hands back the very record.
#[must_use]
pub fn replay_recorded(table: &[u8], trace: &[u8], lent: Lent, kept: ShiftRecord) -> Replayed {
    let Lent {
        memory,
        counts,
        answers,
        given,
        values,
    } = lent;
    unsafe {
        ffi::lsq_replay_recorded(
            table.as_ptr(),
            table.len(),
            trace.as_ptr(),
            trace.len(),
            memory.as_mut_ptr(),
            memory.len(),
            counts.as_mut_ptr(),
            counts.len(),
            answers.as_mut_ptr(),
            answers.len(),
            given.as_mut_ptr(),
            given.len(),
            values.as_mut_ptr(),
            values.len(),
            kept,
        )
    }
}

/// Thousandths of the loads that were forwarded, to the nearest, an exact half
/// to the even neighbour; 0 for no loads.
#[must_use]
pub fn share(loads: u32, forwarded: u32) -> u64 {
    unsafe { ffi::lsq_share(loads, forwarded) }
}

/// Writes what `play` prints at the front of `out` and gives its length; 0
/// where `out` is shorter than [`crate::TEXT_BYTES`].
#[must_use]
pub fn text(table: &[u8], trace: &[u8], out: &mut [u8]) -> u64 {
    unsafe {
        ffi::lsq_text(
            table.as_ptr(),
            table.len(),
            trace.as_ptr(),
            trace.len(),
            out.as_mut_ptr(),
            out.len(),
        )
    }
}

/// Reads a table that takes up all of `bytes`.
#[must_use]
pub fn read_table(bytes: &[u8]) -> TableRead {
    unsafe { ffi::lsq_read_table(bytes.as_ptr(), bytes.len()) }
}

/// Writes a table: 4, 5, 8, 6, 7, then 10.
#[must_use]
pub fn write_table(table: Table, out: &mut [u8]) -> Written {
    unsafe { ffi::lsq_write_table(table, out.as_mut_ptr(), out.len()) }
}

/// Writes a number in the fewest bytes: 10.
#[must_use]
pub fn write_number(value: u32, out: &mut [u8]) -> Written {
    unsafe { ffi::lsq_write_number(value, out.as_mut_ptr(), out.len()) }
}

/// Writes an event: 35, then 10.
#[must_use]
pub fn write_event(kind: u32, first: u32, second: u32, out: &mut [u8]) -> Written {
    unsafe { ffi::lsq_write_event(kind, first, second, out.as_mut_ptr(), out.len()) }
}

/// The order of accesses that respects all pairs and is first when orders are
/// compared by access number from the left: 43, then 44.
#[must_use]
pub fn order(accesses: u32, pairs: Precedences) -> Ordered {
    unsafe { ffi::lsq_order(accesses, pairs) }
}

/// The table whose one group has the accesses in this order; the table of no
/// groups, which is 0 in every field, where the record is no order.
#[must_use]
pub fn table_in_order(order: Ordered, accesses: Accesses) -> Table {
    unsafe { ffi::lsq_table_in_order(order, accesses) }
}

/// The record once this value was taken at this port. A port above 31 changes
/// nothing.
#[must_use]
pub fn recorded(kept: ShiftRecord, port: u32, value: u32) -> ShiftRecord {
    unsafe { ffi::lsq_recorded(kept, port, value) }
}

/// Writes the page of a record: 41.
#[must_use]
pub fn page(kept: ShiftRecord, out: &mut [u8]) -> Written {
    unsafe { ffi::lsq_page(kept, out.as_mut_ptr(), out.len()) }
}

/// Opens a queue on a table's bytes: 1 to 9 or 42 of the table, then 11 to 14.
#[must_use]
pub fn open_in(table: &[u8], load_depth: u32, store_depth: u32, first: u32, memory_length: u32) -> Opened {
    let (bytes, length) = (table.as_ptr(), table.len());
    unsafe { ffi::lsq_open_in(bytes, length, load_depth, store_depth, first, memory_length) }
}

/// 0 where a call with these parts would answer 40, else 1.
#[must_use]
pub fn sound_in(frame: Frame, loads: &[u64], stores: &[u64]) -> u32 {
    unsafe {
        ffi::lsq_sound_in(
            frame,
            loads.as_ptr(),
            loads.len(),
            stores.as_ptr(),
            stores.len(),
        )
    }
}

/// Queues a group's accesses: 40, 20, 21.
#[must_use]
pub fn activate_in(frame: Frame, loads: &mut [u64], stores: &mut [u64], group: u32) -> Step {
    unsafe {
        ffi::lsq_activate_in(
            frame,
            loads.as_mut_ptr(),
            loads.len(),
            stores.as_mut_ptr(),
            stores.len(),
            group,
        )
    }
}

/// Gives an address to the port's oldest load that has none: 40, 22, 23, 24.
#[must_use]
pub fn load_address_in(
    frame: Frame,
    loads: &mut [u64],
    stores: &[u64],
    port: u32,
    address: u32,
) -> u32 {
    unsafe {
        ffi::lsq_load_address_in(
            frame,
            loads.as_mut_ptr(),
            loads.len(),
            stores.as_ptr(),
            stores.len(),
            port,
            address,
        )
    }
}

/// Gives an address to the port's oldest store that has none: 40, 22, 23, 24.
#[must_use]
pub fn store_address_in(
    frame: Frame,
    loads: &[u64],
    stores: &mut [u64],
    port: u32,
    address: u32,
) -> u32 {
    unsafe {
        ffi::lsq_store_address_in(
            frame,
            loads.as_ptr(),
            loads.len(),
            stores.as_mut_ptr(),
            stores.len(),
            port,
            address,
        )
    }
}

/// Gives data to the port's oldest store that has none: 40, 22, 24.
#[must_use]
pub fn store_data_in(frame: Frame, loads: &[u64], stores: &mut [u64], port: u32, word: u32) -> u32 {
    unsafe {
        ffi::lsq_store_data_in(
            frame,
            loads.as_ptr(),
            loads.len(),
            stores.as_mut_ptr(),
            stores.len(),
            port,
            word,
        )
    }
}

/// Serves the load with this serial and counts it: 40, 30, 25 to 29.
#[must_use]
pub fn serve_in(
    frame: Frame,
    loads: &mut [u64],
    stores: &[u64],
    memory: &[u32],
    counts: Counts,
    serial: u32,
) -> Service {
    unsafe {
        ffi::lsq_serve_in(
            frame,
            loads.as_mut_ptr(),
            loads.len(),
            stores.as_ptr(),
            stores.len(),
            memory.as_ptr(),
            memory.len(),
            counts,
            serial,
        )
    }
}

/// Writes the store with this serial to memory: 40, 30, 25, 26, 27, 29, 31, 32.
#[must_use]
pub fn write_in(
    frame: Frame,
    loads: &mut [u64],
    stores: &mut [u64],
    memory: &mut [u32],
    serial: u32,
) -> Step {
    unsafe {
        ffi::lsq_write_in(
            frame,
            loads.as_mut_ptr(),
            loads.len(),
            stores.as_mut_ptr(),
            stores.len(),
            memory.as_mut_ptr(),
            memory.len(),
            serial,
        )
    }
}

/// Takes the value of the port's oldest untaken load: 40, 22, 33, 34.
#[must_use]
pub fn take_in(frame: Frame, loads: &mut [u64], stores: &mut [u64], port: u32) -> Step {
    unsafe {
        ffi::lsq_take_in(
            frame,
            loads.as_mut_ptr(),
            loads.len(),
            stores.as_mut_ptr(),
            stores.len(),
            port,
        )
    }
}

/// Puts the serials that serve would now accept at the front of `out`: 40, 10.
#[must_use]
pub fn ready_loads_in(frame: Frame, loads: &[u64], stores: &[u64], out: &mut [u32]) -> Listed {
    unsafe {
        ffi::lsq_ready_loads_in(
            frame,
            loads.as_ptr(),
            loads.len(),
            stores.as_ptr(),
            stores.len(),
            out.as_mut_ptr(),
            out.len(),
        )
    }
}

/// Puts the serials that write would now accept at the front of `out`: 40, 10.
#[must_use]
pub fn ready_stores_in(frame: Frame, loads: &[u64], stores: &[u64], out: &mut [u32]) -> Listed {
    unsafe {
        ffi::lsq_ready_stores_in(
            frame,
            loads.as_ptr(),
            loads.len(),
            stores.as_ptr(),
            stores.len(),
            out.as_mut_ptr(),
            out.len(),
        )
    }
}
