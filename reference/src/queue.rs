//! The load-store queue.

use std::collections::VecDeque;

use crate::counts::Counts;
use crate::event::{Event, Header};
use crate::refusal;
use crate::shift::ShiftRecord;
use crate::table::{Group, Table};

/// "Depths are 1 to 64 entries each."
pub const MAX_DEPTH: u32 = 64;
/// "Memory is 1 to 4,096 words of 32 bits."
pub const MAX_MEMORY: u32 = 4096;

/// "A load entry holds port, address or none, served or not, value, taken or
/// not", and "remembers how many queued entries of the other kind come before
/// it".
#[derive(Clone, Copy, Debug, Default, PartialEq, Eq)]
pub struct LoadEntry {
    /// The load port.
    pub port: u32,
    /// "Address or none."
    pub address: Option<u32>,
    /// Whether `value` was loaded.
    pub served: bool,
    /// The value loaded; 0 until the load is served.
    pub value: u32,
    /// Whether the value was taken, which finishes the load.
    pub taken: bool,
    /// The queued stores that come before this load.
    pub stores_before: usize,
}

/// "A store entry holds port, address or none, data or none, written or not",
/// and remembers the queued loads before it.
#[derive(Clone, Copy, Debug, Default, PartialEq, Eq)]
pub struct StoreEntry {
    /// The store port.
    pub port: u32,
    /// "Address or none."
    pub address: Option<u32>,
    /// "Data or none."
    pub data: Option<u32>,
    /// Whether the data is in memory, which finishes the store.
    pub written: bool,
    /// The queued loads that come before this store.
    pub loads_before: usize,
}

/// "For each side the next serial and the entries from the oldest, whose
/// serials run without a gap up to that next one."
#[derive(Clone, Debug, PartialEq, Eq)]
pub struct Side<E> {
    /// The serial of the next entry.
    pub next_serial: u32,
    /// The entries, oldest first.
    pub entries: VecDeque<E>,
}

impl<E> Side<E> {
    fn new(first_serial: u32) -> Self {
        Self {
            next_serial: first_serial,
            entries: VecDeque::new(),
        }
    }

    /// The oldest entry's serial, or the next one when there is no entry.
    #[must_use]
    pub fn oldest_serial(&self) -> u32 {
        self.next_serial.wrapping_sub(self.entries.len() as u32)
    }

    /// The serial of the entry at `index`; "0 follows 4294967295".
    #[must_use]
    pub fn serial_at(&self, index: usize) -> u32 {
        self.oldest_serial().wrapping_add(index as u32)
    }

    /// The place of the entry with this serial; "age is judged by distance
    /// from the oldest entry".
    #[must_use]
    pub fn index_of(&self, serial: u32) -> Option<usize> {
        let distance = serial.wrapping_sub(self.oldest_serial()) as usize;
        (distance < self.entries.len()).then_some(distance)
    }

    fn push(&mut self, entry: E) {
        self.entries.push_back(entry);
        self.next_serial = self.next_serial.wrapping_add(1);
    }

    /// The serials of the entries at the places that pass `test`, oldest first.
    fn serials_where(&self, test: impl Fn(usize) -> bool) -> Vec<u32> {
        let places = (0..self.entries.len()).filter(|&index| test(index));
        places.map(|index| self.serial_at(index)).collect()
    }

    /// Lets finished entries leave "from its oldest end until an unfinished
    /// one is oldest", and gives their number.
    fn retire(&mut self, finished: impl Fn(&E) -> bool) -> usize {
        let leaving = self.entries.iter().take_while(|e| finished(e)).count();
        self.entries.drain(..leaving);
        leaving
    }
}

/// Where a load's value comes from.
#[derive(Clone, Copy, Debug, PartialEq, Eq)]
enum Source {
    /// The data of an unwritten store to its address.
    Forwarded(u32),
    /// The memory word at this address.
    Memory(u32),
}

/// A queue's record. `CHECKED` says whether every call tests for 40 first;
/// without that test a call with an unsound record may panic or answer
/// anything, and nothing else differs.
#[derive(Clone, Debug, PartialEq, Eq)]
pub struct LoadStoreQueue<const CHECKED: bool> {
    /// The groups that can be activated.
    pub table: Table,
    /// Most loads queued at a time.
    pub load_depth: u32,
    /// Most stores queued at a time.
    pub store_depth: u32,
    /// Words of memory.
    pub memory_length: u32,
    /// The queued loads.
    pub loads: Side<LoadEntry>,
    /// The queued stores.
    pub stores: Side<StoreEntry>,
}

/// The queue of the paper.
pub type Queue = LoadStoreQueue<true>;
/// The queue without refusal 40, by which the cost of that test is measured.
pub type TrustingQueue = LoadStoreQueue<false>;

fn is_depth(depth: u32) -> bool {
    (1..=MAX_DEPTH).contains(&depth)
}

fn is_memory_length(length: u32) -> bool {
    (1..=MAX_MEMORY).contains(&length)
}

fn require(condition: bool, refusal: u8) -> Result<(), u8> {
    condition.then_some(()).ok_or(refusal)
}

/// Copies `serials` to the front of `run` and gives back that front part.
fn fill_front<'a>(run: &'a mut [u32], serials: &[u32]) -> Result<&'a mut [u32], u8> {
    let front = run.get_mut(..serials.len()).ok_or(refusal::TOO_SHORT)?;
    front.copy_from_slice(serials);
    Ok(front)
}

/// Opening, and the calls on a queue.
impl<const CHECKED: bool> LoadStoreQueue<CHECKED> {
    /// Opens an empty queue; "both series begin at the first serial".
    ///
    /// # Errors
    /// "4 to 8 as above, 11 load depth, 12 store depth, 13 memory length, 14
    /// some group has more loads or stores than its depth."
    pub fn open(table: Table, header: Header) -> Result<Self, u8> {
        table.checked()?;
        require(is_depth(header.load_depth), refusal::LOAD_DEPTH)?;
        require(is_depth(header.store_depth), refusal::STORE_DEPTH)?;
        let length = header.memory_length;
        require(is_memory_length(length), refusal::MEMORY_LENGTH)?;
        let queue = Self {
            table,
            load_depth: header.load_depth,
            store_depth: header.store_depth,
            memory_length: length,
            loads: Side::new(header.first_serial),
            stores: Side::new(header.first_serial),
        };
        let all_fit = queue.table.groups.iter().all(|group| queue.fits(group));
        require(all_fit, refusal::GROUP_TOO_LARGE)?;
        Ok(queue)
    }

    /// Queues a group: it "gives the group's loads the next load serials and
    /// its stores the next store serials". An empty group (S-2) "takes no place
    /// and is always accepted unless 40 or 20 applies": no side of a record that
    /// is past 40 holds more than its depth, so 21 is not met.
    ///
    /// # Errors
    /// 40; "20 no such group; 21 too few free places on either side."
    pub fn activate(&mut self, group: u32) -> Result<(), u8> {
        self.guard()?;
        let group = self.table.groups.get(group as usize);
        let group = group.ok_or(refusal::NO_GROUP)?;
        require(self.fits(group), refusal::NO_PLACE)?;
        let loads_before = self.loads.entries.len();
        let stores_before = self.stores.entries.len();
        for load in &group.loads {
            self.loads.push(LoadEntry {
                port: load.port,
                stores_before: stores_before + load.offset as usize,
                ..LoadEntry::default()
            });
        }
        for store in &group.stores {
            self.stores.push(StoreEntry {
                port: store.port,
                loads_before: loads_before + store.offset as usize,
                ..StoreEntry::default()
            });
        }
        Ok(())
    }

    /// Gives an address to its load "port's oldest entry that lacks it".
    ///
    /// # Errors
    /// 40; "22 port not in the table; 23 address not below memory length; 24
    /// no entry waits for it."
    pub fn load_address(&mut self, port: u32, address: u32) -> Result<(), u8> {
        self.guard()?;
        require(self.table.has_load_port(port), refusal::NO_PORT)?;
        require(address < self.memory_length, refusal::ADDRESS_RANGE)?;
        let mut loads = self.loads.entries.iter_mut();
        let waiting = loads.find(|load| load.port == port && load.address.is_none());
        waiting.ok_or(refusal::NONE_WAITS)?.address = Some(address);
        Ok(())
    }

    /// Gives an address to its store "port's oldest entry that lacks it".
    ///
    /// # Errors
    /// 40; 22, 23, 24 as [`Self::load_address`].
    pub fn store_address(&mut self, port: u32, address: u32) -> Result<(), u8> {
        self.guard()?;
        require(self.table.has_store_port(port), refusal::NO_PORT)?;
        require(address < self.memory_length, refusal::ADDRESS_RANGE)?;
        let mut stores = self.stores.entries.iter_mut();
        let waiting = stores.find(|store| store.port == port && store.address.is_none());
        waiting.ok_or(refusal::NONE_WAITS)?.address = Some(address);
        Ok(())
    }

    /// Gives data to its store "port's oldest entry that lacks it".
    ///
    /// # Errors
    /// 40; "22, 24."
    pub fn store_data(&mut self, port: u32, word: u32) -> Result<(), u8> {
        self.guard()?;
        require(self.table.has_store_port(port), refusal::NO_PORT)?;
        let mut stores = self.stores.entries.iter_mut();
        let waiting = stores.find(|store| store.port == port && store.data.is_none());
        waiting.ok_or(refusal::NONE_WAITS)?.data = Some(word);
        Ok(())
    }

    /// Serves a load and gives its value, by the walk of S-7 "back over the
    /// queued earlier stores, nearest first": an unwritten store "to the load's
    /// address supplies the data", "a written one to that address sends the load
    /// to memory", and so does a walk that finds neither.
    ///
    /// # Errors
    /// 40; "30 lent memory has another length than at opening; 25 serial not
    /// in the queue; 26 already served; 27 no address"; then whichever the walk
    /// meets first: 28 for "a store without address", 29 for an unwritten one to
    /// the load's address that has no data.
    pub fn serve(&mut self, serial: u32, memory: &[u32], counts: &mut Counts) -> Result<u32, u8> {
        self.guard()?;
        self.check_memory(memory)?;
        let index = self.loads.index_of(serial).ok_or(refusal::NO_SERIAL)?;
        let (value, forwarded) = match self.load_source(index)? {
            Source::Forwarded(data) => (data, true),
            Source::Memory(address) => (memory[address as usize], false),
        };
        let load = &mut self.loads.entries[index];
        load.served = true;
        load.value = value;
        counts.record(forwarded);
        Ok(value)
    }

    /// Writes a store: it "puts its data in memory". Finished entries then
    /// leave both sides.
    ///
    /// # Errors
    /// 40; "30; 25; 26 already written; 27; 29 no data; 31 an earlier unserved
    /// load has no address or the same one; 32 an earlier unwritten store has
    /// no address or the same one."
    pub fn write(&mut self, serial: u32, memory: &mut [u32]) -> Result<(), u8> {
        self.guard()?;
        self.check_memory(memory)?;
        let index = self.stores.index_of(serial).ok_or(refusal::NO_SERIAL)?;
        let (address, data) = self.store_effect(index)?;
        memory[address as usize] = data;
        self.stores.entries[index].written = true;
        self.retire();
        Ok(())
    }

    /// Takes "the value of the port's oldest untaken load". Finished entries
    /// then leave both sides.
    ///
    /// # Errors
    /// 40; "22; 33 no untaken load of the port is queued; 34 the oldest is not
    /// served."
    pub fn take(&mut self, port: u32) -> Result<u32, u8> {
        self.guard()?;
        require(self.table.has_load_port(port), refusal::NO_PORT)?;
        let mut loads = self.loads.entries.iter_mut();
        let untaken = loads.find(|load| load.port == port && !load.taken);
        let load = untaken.ok_or(refusal::NONE_UNTAKEN)?;
        require(load.served, refusal::NOT_SERVED)?;
        load.taken = true;
        let value = load.value;
        self.retire();
        Ok(value)
    }

    /// [`Self::take`], lent the record that "each accepted take updates": the
    /// port's two numbers there and no others. A refused take leaves it as it
    /// was.
    ///
    /// # Errors
    /// Those of [`Self::take`].
    pub fn take_recorded(&mut self, record: &mut ShiftRecord, port: u32) -> Result<u32, u8> {
        let value = self.take(port)?;
        record.recorded(port, value);
        Ok(value)
    }

    /// Puts "the serials that serve would now accept with memory of the right
    /// length, oldest first, at the front of a lent run of numbers" and gives
    /// back that front part; "the rest keeps its contents".
    ///
    /// # Errors
    /// 40; 10 when the run is shorter than the list of serials.
    pub fn ready_loads<'a>(&self, run: &'a mut [u32]) -> Result<&'a mut [u32], u8> {
        self.guard()?;
        let ready = |index| self.load_source(index).is_ok();
        fill_front(run, &self.loads.serials_where(ready))
    }

    /// As [`Self::ready_loads`], for the serials that write would now accept.
    ///
    /// # Errors
    /// 40; 10 when the run is shorter than the list of serials.
    pub fn ready_stores<'a>(&self, run: &'a mut [u32]) -> Result<&'a mut [u32], u8> {
        self.guard()?;
        let ready = |index| self.store_effect(index).is_ok();
        fill_front(run, &self.stores.serials_where(ready))
    }

    /// Makes the call that `event` stands for; the value is that of an
    /// accepted serve or take.
    ///
    /// # Errors
    /// Those of the call.
    pub fn apply(
        &mut self,
        event: &Event,
        memory: &mut [u32],
        counts: &mut Counts,
    ) -> Result<Option<u32>, u8> {
        match *event {
            Event::Activate { group } => self.activate(group).map(|()| None),
            Event::LoadAddress { port, address } => self.load_address(port, address).map(|()| None),
            Event::StoreAddress { port, address } => {
                self.store_address(port, address).map(|()| None)
            }
            Event::StoreData { port, word } => self.store_data(port, word).map(|()| None),
            Event::Serve { serial } => self.serve(serial, memory, counts).map(Some),
            Event::Write { serial } => self.write(serial, memory).map(|()| None),
            Event::Take { port } => self.take(port).map(Some),
        }
    }

    /// [`Self::apply`] with a record that is lent to each take.
    ///
    /// # Errors
    /// Those of the call.
    pub fn apply_recorded(
        &mut self,
        event: &Event,
        memory: &mut [u32],
        counts: &mut Counts,
        record: &mut ShiftRecord,
    ) -> Result<Option<u32>, u8> {
        match *event {
            Event::Take { port } => self.take_recorded(record, port).map(Some),
            _ => self.apply(event, memory, counts),
        }
    }
}

/// Check 40.
impl<const CHECKED: bool> LoadStoreQueue<CHECKED> {
    fn guard(&self) -> Result<(), u8> {
        require(!CHECKED || self.sound(), refusal::UNSOUND)
    }

    /// Whether the record is free of all that 40 lists: "a depth or memory
    /// length is outside its limits, a side holds more entries than its depth,
    /// an entry remembers more of the other kind than are held, a filled-in
    /// address is not below the memory length, or the table meets one of 4 to
    /// 8". Nothing else about a record is tested.
    #[must_use]
    pub fn sound(&self) -> bool {
        is_depth(self.load_depth)
            && is_depth(self.store_depth)
            && is_memory_length(self.memory_length)
            && self.loads.entries.len() <= self.load_depth as usize
            && self.stores.entries.len() <= self.store_depth as usize
            && self.loads.entries.iter().all(|load| self.sound_load(load))
            && self.stores.entries.iter().all(|s| self.sound_store(s))
            && self.table.check() == refusal::ACCEPTED
    }

    fn sound_load(&self, load: &LoadEntry) -> bool {
        load.stores_before <= self.stores.entries.len() && self.sound_address(load.address)
    }

    fn sound_store(&self, store: &StoreEntry) -> bool {
        store.loads_before <= self.loads.entries.len() && self.sound_address(store.address)
    }

    fn sound_address(&self, address: Option<u32>) -> bool {
        address.is_none_or(|address| address < self.memory_length)
    }
}

/// The rules behind the calls.
impl<const CHECKED: bool> LoadStoreQueue<CHECKED> {
    /// Whether both sides have free places for the group.
    fn fits(&self, group: &Group) -> bool {
        self.loads.entries.len() + group.loads.len() <= self.load_depth as usize
            && self.stores.entries.len() + group.stores.len() <= self.store_depth as usize
    }

    /// "30 lent memory has another length than at opening."
    fn check_memory(&self, memory: &[u32]) -> Result<(), u8> {
        let same = memory.len() == self.memory_length as usize;
        require(same, refusal::OTHER_MEMORY)
    }

    /// What serving the load at `index` would load from, or 26 to 29. The walk of
    /// S-7 goes "back over the queued earlier stores, nearest first", which are as
    /// many of the oldest as the load remembers. It ends at the first store that
    /// has the load's address or none; no store behind that one is looked at.
    fn load_source(&self, index: usize) -> Result<Source, u8> {
        let load = &self.loads.entries[index];
        require(!load.served, refusal::ALREADY_DONE)?;
        let address = load.address.ok_or(refusal::NO_ADDRESS)?;
        let mut walk = self.stores.entries.range(..load.stores_before).rev();
        let decides = |store: &&StoreEntry| store.address.is_none_or(|known| known == address);
        match walk.find(decides) {
            None => Ok(Source::Memory(address)),
            Some(store) if store.address.is_none() => Err(refusal::EARLIER_STORE_ADDRESS),
            Some(store) if store.written => Ok(Source::Memory(address)),
            Some(store) => store.data.map(Source::Forwarded).ok_or(refusal::NO_DATA),
        }
    }

    /// The address and data that writing the store at `index` would put in
    /// memory, or 26, 27, 29, 31, 32. Earlier loads are as many of the oldest
    /// as the store remembers; earlier stores are the older ones.
    fn store_effect(&self, index: usize) -> Result<(u32, u32), u8> {
        let store = &self.stores.entries[index];
        require(!store.written, refusal::ALREADY_DONE)?;
        let address = store.address.ok_or(refusal::NO_ADDRESS)?;
        let data = store.data.ok_or(refusal::NO_DATA)?;
        let clashes = |other: Option<u32>| other.is_none_or(|other| other == address);
        let mut loads = self.loads.entries.range(..store.loads_before);
        let load_waits = loads.any(|load| !load.served && clashes(load.address));
        require(!load_waits, refusal::LOAD_CONFLICT)?;
        let mut stores = self.stores.entries.range(..index);
        let store_waits = stores.any(|older| !older.written && clashes(older.address));
        require(!store_waits, refusal::STORE_CONFLICT)?;
        Ok((address, data))
    }

    /// "After each write or take, finished entries (stores written, loads
    /// taken) leave each side"; the remembered number "falls as those leave
    /// and then stays 0".
    fn retire(&mut self) {
        let loads_left = self.loads.retire(|load| load.taken);
        let stores_left = self.stores.retire(|store| store.written);
        for load in &mut self.loads.entries {
            load.stores_before = load.stores_before.saturating_sub(stores_left);
        }
        for store in &mut self.stores.entries {
            store.loads_before = store.loads_before.saturating_sub(loads_left);
        }
    }
}
