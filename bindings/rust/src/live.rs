//! A live queue: calls are made one by one, as their arguments arrive.

use std::mem::{offset_of, size_of};

use crate::direct;
use crate::record::{Counts, Frame, Listed, ShiftRecord, Step, ENTRIES};
use crate::refusal::{accepted, Refusal};

/// A queue. It is plain data with no reference inside: it may be copied, saved
/// ([`Queue::to_bytes`]) and sent elsewhere, and it may hold anything: a record
/// that is no right queue is refused with 40 by every call.
///
/// Places beyond a side's count mean nothing; `==` looks at them too. It is laid
/// out as `lsq_queue` of `lsq.h`.
#[repr(C)]
#[derive(Clone, Copy, Debug, PartialEq, Eq)]
pub struct Queue {
    /// The table, the memory length and both sides' numbers.
    pub frame: Frame,
    /// The loads from the oldest, packed as `lsq.h` says.
    pub loads: [u64; ENTRIES],
    /// The stores from the oldest, packed likewise.
    pub stores: [u64; ENTRIES],
}

const _: () = {
    assert!(size_of::<Queue>() == 1240);
    assert!(offset_of!(Queue, loads) == 216);
    assert!(offset_of!(Queue, stores) == 728);
};

/// A refused call leaves the queue and all that it was lent as they were.
impl Queue {
    /// Opens a queue on a table's bytes. Both series of serials begin at
    /// `first`; `memory_length` is the length of the memory that will be lent.
    ///
    /// # Errors
    /// 1 to 9 or 42 of the table, then 11 load depth, 12 store depth, 13
    /// memory length, 14 some group is larger than a depth.
    pub fn open(
        table: &[u8],
        load_depth: u32,
        store_depth: u32,
        first: u32,
        memory_length: u32,
    ) -> Result<Self, Refusal> {
        let opened = direct::open_in(table, load_depth, store_depth, first, memory_length);
        accepted(opened.answer)?;
        Ok(Self {
            frame: opened.frame,
            loads: [0; ENTRIES],
            stores: [0; ENTRIES],
        })
    }

    /// Whether no call is refused with 40.
    #[must_use]
    pub fn sound(&self) -> bool {
        direct::sound_in(self.frame, &self.loads, &self.stores) == 1
    }

    /// Queues a group's accesses. An empty group, with no load and no store,
    /// takes no place: a full queue accepts it.
    ///
    /// # Errors
    /// 40; 20 no such group; 21 too few free places on either side.
    pub fn activate(&mut self, group: u32) -> Result<(), Refusal> {
        let step = direct::activate_in(self.frame, &mut self.loads, &mut self.stores, group);
        self.follow(step).map(|_| ())
    }

    /// Gives an address to the port's oldest load that has none.
    ///
    /// # Errors
    /// 40; 22 port not in the table; 23 address not below the memory length; 24
    /// no load waits for it.
    pub fn load_address(&mut self, port: u32, address: u32) -> Result<(), Refusal> {
        let (loads, stores) = (&mut self.loads, &self.stores);
        accepted(direct::load_address_in(
            self.frame, loads, stores, port, address,
        ))
    }

    /// Gives an address to the port's oldest store that has none.
    ///
    /// # Errors
    /// 40, 22, 23, 24 as [`Queue::load_address`].
    pub fn store_address(&mut self, port: u32, address: u32) -> Result<(), Refusal> {
        let (loads, stores) = (&self.loads, &mut self.stores);
        accepted(direct::store_address_in(
            self.frame, loads, stores, port, address,
        ))
    }

    /// Gives data to the port's oldest store that has none.
    ///
    /// # Errors
    /// 40, 22, 24.
    pub fn store_data(&mut self, port: u32, word: u32) -> Result<(), Refusal> {
        let (loads, stores) = (&self.loads, &mut self.stores);
        accepted(direct::store_data_in(self.frame, loads, stores, port, word))
    }

    /// Serves the load with this serial, counts it and gives its value.
    ///
    /// # Errors
    /// 40; 30 the memory has another length; 25 serial not in the queue; 26
    /// already served; 27 no address; 28 an earlier store has no address, and
    /// no nearer one has the load's; 29 the store to forward from has no data.
    /// Of the last two it is the one that the walk back over the stores meets
    /// first.
    pub fn serve(
        &mut self,
        memory: &[u32],
        counts: &mut Counts,
        serial: u32,
    ) -> Result<u32, Refusal> {
        let (loads, stores) = (&mut self.loads, &self.stores);
        let service = direct::serve_in(self.frame, loads, stores, memory, *counts, serial);
        accepted(service.answer)?;
        *counts = service.counts;
        Ok(service.value)
    }

    /// Writes the store with this serial to memory.
    ///
    /// # Errors
    /// 40; 30; 25; 26 already written; 27; 29 no data; 31 an earlier load is in
    /// the way; 32 an earlier store is.
    pub fn write(&mut self, memory: &mut [u32], serial: u32) -> Result<(), Refusal> {
        let (loads, stores) = (&mut self.loads, &mut self.stores);
        let step = direct::write_in(self.frame, loads, stores, memory, serial);
        self.follow(step).map(|_| ())
    }

    /// Takes the value of the port's oldest untaken load.
    ///
    /// # Errors
    /// 40; 22; 33 no untaken load of the port is queued; 34 the oldest is not
    /// served.
    pub fn take(&mut self, port: u32) -> Result<u32, Refusal> {
        let step = direct::take_in(self.frame, &mut self.loads, &mut self.stores, port);
        self.follow(step)
    }

    /// [`Queue::take`], and keeps the record of it: an accepted take changes the
    /// port's two numbers there, and no others.
    ///
    /// # Errors
    /// 40, 22, 33, 34 as [`Queue::take`].
    pub fn take_recorded(&mut self, kept: &mut ShiftRecord, port: u32) -> Result<u32, Refusal> {
        let value = self.take(port)?;
        *kept = kept.recorded(port, value);
        Ok(value)
    }

    /// Puts the serials that [`Queue::serve`] would now accept, oldest first, at
    /// the front of `out` and gives back that part; the rest keeps its contents.
    ///
    /// # Errors
    /// 40; 10 `out` is too short, which it never is with [`ENTRIES`] places.
    pub fn ready_loads<'a>(&self, out: &'a mut [u32]) -> Result<&'a mut [u32], Refusal> {
        let listed = direct::ready_loads_in(self.frame, &self.loads, &self.stores, out);
        front(listed, out)
    }

    /// The same for the serials that [`Queue::write`] would now accept.
    ///
    /// # Errors
    /// 40, 10 as [`Queue::ready_loads`].
    pub fn ready_stores<'a>(&self, out: &'a mut [u32]) -> Result<&'a mut [u32], Refusal> {
        let listed = direct::ready_stores_in(self.frame, &self.loads, &self.stores, out);
        front(listed, out)
    }

    /// Puts both sides of an accepted step in place and gives the step's value.
    fn follow(&mut self, step: Step) -> Result<u32, Refusal> {
        accepted(step.answer)?;
        self.frame.loads = step.loads;
        self.frame.stores = step.stores;
        Ok(step.value)
    }
}

fn front(listed: Listed, out: &mut [u32]) -> Result<&mut [u32], Refusal> {
    accepted(listed.answer)?;
    Ok(&mut out[..listed.count as usize])
}
