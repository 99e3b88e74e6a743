//! What is held to the reference.

use lsq::direct;
use lsq::record::{Replayed, ShiftRecord};
use lsq_ref::replay::Lent;

/// The functions of `bindings/c/lsq.h`.
pub trait Subject {
    /// `lsq_table_fault`.
    fn table_fault(&self, table: &[u8]) -> u32;
    /// `lsq_trace_fault`.
    fn trace_fault(&self, table: &[u8], trace: &[u8]) -> u32;
    /// `lsq_event_count`.
    fn event_count(&self, table: &[u8], trace: &[u8]) -> u64;
    /// `lsq_memory_length`.
    fn memory_length(&self, table: &[u8], trace: &[u8]) -> u32;
    /// `lsq_replay`.
    fn replay(&self, table: &[u8], trace: &[u8], lent: Lent) -> u32;
    /// `lsq_replay_recorded`.
    fn replay_recorded(
        &self,
        table: &[u8],
        trace: &[u8],
        lent: Lent,
        kept: ShiftRecord,
    ) -> Replayed;
    /// `lsq_share`.
    fn share(&self, loads: u32, forwarded: u32) -> u64;
    /// `lsq_text`.
    fn text(&self, table: &[u8], trace: &[u8], out: &mut [u8]) -> u64;
}

/// The static library.
pub struct Library;

impl Subject for Library {
    fn table_fault(&self, table: &[u8]) -> u32 {
        direct::table_fault(table)
    }

    fn trace_fault(&self, table: &[u8], trace: &[u8]) -> u32 {
        direct::trace_fault(table, trace)
    }

    fn event_count(&self, table: &[u8], trace: &[u8]) -> u64 {
        direct::event_count(table, trace)
    }

    fn memory_length(&self, table: &[u8], trace: &[u8]) -> u32 {
        direct::memory_length(table, trace)
    }

    fn replay(&self, table: &[u8], trace: &[u8], lent: Lent) -> u32 {
        direct::replay(table, trace, lent_to_library(lent))
    }

    fn replay_recorded(
        &self,
        table: &[u8],
        trace: &[u8],
        lent: Lent,
        kept: ShiftRecord,
    ) -> Replayed {
        direct::replay_recorded(table, trace, lent_to_library(lent), kept)
    }

    fn share(&self, loads: u32, forwarded: u32) -> u64 {
        direct::share(loads, forwarded)
    }

    fn text(&self, table: &[u8], trace: &[u8], out: &mut [u8]) -> u64 {
        direct::text(table, trace, out)
    }
}

fn lent_to_library(lent: Lent) -> lsq::Lent {
    let Lent {
        memory,
        counts,
        answers,
        given,
        values,
    } = lent;
    lsq::Lent {
        memory,
        counts,
        answers,
        given,
        values,
    }
}
