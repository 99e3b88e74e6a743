//! The declarations of `bindings/c/lsq.h`.

use crate::record::{
    Accesses, Counts, Frame, Listed, Opened, Ordered, Precedences, Replayed, Service, ShiftRecord,
    Step, Table, TableRead, Written,
};

unsafe extern "C" {
    pub fn lsq_table_fault(table: *const u8, table_len: usize) -> u32;
    pub fn lsq_trace_fault(
        table: *const u8,
        table_len: usize,
        trace: *const u8,
        trace_len: usize,
    ) -> u32;
    pub fn lsq_event_count(
        table: *const u8,
        table_len: usize,
        trace: *const u8,
        trace_len: usize,
    ) -> u64;
    pub fn lsq_memory_length(
        table: *const u8,
        table_len: usize,
        trace: *const u8,
        trace_len: usize,
    ) -> u32;
    pub fn lsq_replay(
        table: *const u8,
        table_len: usize,
        trace: *const u8,
        trace_len: usize,
        memory: *mut u32,
        memory_len: usize,
        counts: *mut u32,
        counts_len: usize,
        answers: *mut u8,
        answers_len: usize,
        given: *mut u8,
        given_len: usize,
        values: *mut u32,
        values_len: usize,
    ) -> u32;
    pub fn lsq_replay_recorded(
        table: *const u8,
        table_len: usize,
        trace: *const u8,
        trace_len: usize,
        memory: *mut u32,
        memory_len: usize,
        counts: *mut u32,
        counts_len: usize,
        answers: *mut u8,
        answers_len: usize,
        given: *mut u8,
        given_len: usize,
        values: *mut u32,
        values_len: usize,
        kept: ShiftRecord,
    ) -> Replayed;
    pub fn lsq_share(loads: u32, forwarded: u32) -> u64;
    pub fn lsq_text(
        table: *const u8,
        table_len: usize,
        trace: *const u8,
        trace_len: usize,
        out: *mut u8,
        out_len: usize,
    ) -> u64;
    pub fn lsq_read_table(bytes: *const u8, bytes_len: usize) -> TableRead;
    pub fn lsq_write_table(table: Table, out: *mut u8, out_len: usize) -> Written;
    pub fn lsq_write_number(value: u32, out: *mut u8, out_len: usize) -> Written;
    pub fn lsq_write_event(
        kind: u32,
        first: u32,
        second: u32,
        out: *mut u8,
        out_len: usize,
    ) -> Written;
    pub fn lsq_order(accesses: u32, pairs: Precedences) -> Ordered;
    pub fn lsq_table_in_order(order: Ordered, accesses: Accesses) -> Table;
    pub fn lsq_recorded(kept: ShiftRecord, port: u32, value: u32) -> ShiftRecord;
    pub fn lsq_page(kept: ShiftRecord, out: *mut u8, out_len: usize) -> Written;
    pub fn lsq_open_in(
        table: *const u8,
        table_len: usize,
        load_depth: u32,
        store_depth: u32,
        first: u32,
        memory_length: u32,
    ) -> Opened;
    pub fn lsq_sound_in(
        frame: Frame,
        loads: *const u64,
        loads_len: usize,
        stores: *const u64,
        stores_len: usize,
    ) -> u32;
    pub fn lsq_activate_in(
        frame: Frame,
        loads: *mut u64,
        loads_len: usize,
        stores: *mut u64,
        stores_len: usize,
        group: u32,
    ) -> Step;
    pub fn lsq_load_address_in(
        frame: Frame,
        loads: *mut u64,
        loads_len: usize,
        stores: *const u64,
        stores_len: usize,
        port: u32,
        address: u32,
    ) -> u32;
    pub fn lsq_store_address_in(
        frame: Frame,
        loads: *const u64,
        loads_len: usize,
        stores: *mut u64,
        stores_len: usize,
        port: u32,
        address: u32,
    ) -> u32;
    pub fn lsq_store_data_in(
        frame: Frame,
        loads: *const u64,
        loads_len: usize,
        stores: *mut u64,
        stores_len: usize,
        port: u32,
        word: u32,
    ) -> u32;
    pub fn lsq_serve_in(
        frame: Frame,
        loads: *mut u64,
        loads_len: usize,
        stores: *const u64,
        stores_len: usize,
        memory: *const u32,
        memory_len: usize,
        counts: Counts,
        serial: u32,
    ) -> Service;
    pub fn lsq_write_in(
        frame: Frame,
        loads: *mut u64,
        loads_len: usize,
        stores: *mut u64,
        stores_len: usize,
        memory: *mut u32,
        memory_len: usize,
        serial: u32,
    ) -> Step;
    pub fn lsq_take_in(
        frame: Frame,
        loads: *mut u64,
        loads_len: usize,
        stores: *mut u64,
        stores_len: usize,
        port: u32,
    ) -> Step;
    pub fn lsq_ready_loads_in(
        frame: Frame,
        loads: *const u64,
        loads_len: usize,
        stores: *const u64,
        stores_len: usize,
        out: *mut u32,
        out_len: usize,
    ) -> Listed;
    pub fn lsq_ready_stores_in(
        frame: Frame,
        loads: *const u64,
        loads_len: usize,
        stores: *const u64,
        stores_len: usize,
        out: *mut u32,
        out_len: usize,
    ) -> Listed;
}
