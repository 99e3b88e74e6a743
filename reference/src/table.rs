//! Group tables: which loads and stores a group has, on which ports, and in
//! which order.

use crate::number::{write_numbers, NumberReader};
use crate::refusal;

/// "Fields per access (always 2)."
pub const FIELDS_PER_ACCESS: u32 = 2;
/// Most groups of a table.
pub const MAX_GROUPS: usize = 16;
/// Most loads of a group, and most stores.
pub const MAX_ACCESSES: usize = 16;
/// "Load ports are 0 to 31, store ports 0 to 31, two separate series."
pub const MAX_PORT: u32 = 31;

/// "A pair is offset, port."
#[derive(Clone, Copy, Debug, PartialEq, Eq)]
pub struct Pair {
    /// "A load's offset counts the group's stores before it; a store's counts
    /// the loads before it."
    pub offset: u32,
    /// The port whose arguments and results belong to this access.
    pub port: u32,
}

/// A group's accesses, loads and stores apart. It may have "no load and no
/// store" (S-2); such a group is called empty.
#[derive(Clone, Debug, Default, PartialEq, Eq)]
pub struct Group {
    /// The loads in program order.
    pub loads: Vec<Pair>,
    /// The stores in program order.
    pub stores: Vec<Pair>,
}

/// A table; one that breaks the rules can be represented too, and
/// [`Table::check`] names its first fault.
#[derive(Clone, Debug, Default, PartialEq, Eq)]
pub struct Table {
    /// The groups, numbered from 0.
    pub groups: Vec<Group>,
}

/// One access of a group, by its port.
#[derive(Clone, Copy, Debug, PartialEq, Eq)]
pub enum Access {
    /// A load of this load port.
    Load(u32),
    /// A store of this store port.
    Store(u32),
}

impl Group {
    /// The accesses in program order: "load i is before store j (both from 0)
    /// when its offset is at most j".
    #[must_use]
    pub fn program_order(&self) -> Vec<Access> {
        let mut order = Vec::with_capacity(self.loads.len() + self.stores.len());
        let mut loads = self.loads.iter().peekable();
        for (j, store) in self.stores.iter().enumerate() {
            while let Some(load) = loads.next_if(|load| load.offset as usize <= j) {
                order.push(Access::Load(load.port));
            }
            order.push(Access::Store(store.port));
        }
        order.extend(loads.map(|load| Access::Load(load.port)));
        order
    }

    /// The group whose accesses come in this order; the reverse of
    /// [`Group::program_order`].
    #[must_use]
    pub fn from_order(order: &[Access]) -> Self {
        let mut group = Self::default();
        for access in order {
            match *access {
                Access::Load(port) => group.loads.push(Pair {
                    offset: group.stores.len() as u32,
                    port,
                }),
                Access::Store(port) => group.stores.push(Pair {
                    offset: group.loads.len() as u32,
                    port,
                }),
            }
        }
        group
    }

    /// Whether the group has no access.
    #[must_use]
    pub fn is_empty(&self) -> bool {
        self.loads.is_empty() && self.stores.is_empty()
    }

    /// The loads before store `j`, by the load offsets, which never fall.
    fn loads_before(&self, j: usize) -> usize {
        self.loads.partition_point(|load| load.offset as usize <= j)
    }
}

/// The ports met so far, one bit each.
#[derive(Default)]
struct SeenPorts {
    loads: u32,
    stores: u32,
}

/// "Each 0 to 16"; both may be 0 since S-2, "5 being left for a count above 16".
fn check_counts(loads: usize, stores: usize) -> Result<(), u8> {
    let fits = loads <= MAX_ACCESSES && stores <= MAX_ACCESSES;
    fits.then_some(()).ok_or(refusal::ACCESS_COUNTS)
}

/// "6 port above 31, 7 port seen."
fn check_port(port: u32, seen: &mut u32) -> Result<(), u8> {
    if port > MAX_PORT {
        return Err(refusal::PORT_RANGE);
    }
    if *seen >> port & 1 == 1 {
        return Err(refusal::PORT_SEEN);
    }
    *seen |= 1 << port;
    Ok(())
}

/// "8 offset (load: above the store count or below the load before), 6 port
/// above 31, 7 port seen", where `before` is the offset of the load before.
fn check_load(load: Pair, before: u32, stores: usize, seen: &mut SeenPorts) -> Result<(), u8> {
    if load.offset as usize > stores || load.offset < before {
        return Err(refusal::OFFSET);
    }
    check_port(load.port, &mut seen.loads)
}

/// "8 offset (store: disagreeing), 6 port above 31, 7 port seen."
fn check_store(store: Pair, loads_before: usize, seen: &mut SeenPorts) -> Result<(), u8> {
    if store.offset as usize != loads_before {
        return Err(refusal::OFFSET);
    }
    check_port(store.port, &mut seen.stores)
}

fn check_group(group: &Group, seen: &mut SeenPorts) -> Result<(), u8> {
    check_counts(group.loads.len(), group.stores.len())?;
    let mut before = 0;
    for &load in &group.loads {
        check_load(load, before, group.stores.len(), seen)?;
        before = load.offset;
    }
    for (j, &store) in group.stores.iter().enumerate() {
        check_store(store, group.loads_before(j), seen)?;
    }
    Ok(())
}

fn check_group_count(count: usize) -> Result<(), u8> {
    let fits = (1..=MAX_GROUPS).contains(&count);
    fits.then_some(()).ok_or(refusal::GROUP_COUNT)
}

fn read_pair(reader: &mut NumberReader) -> Result<Pair, u8> {
    let offset = reader.number()?;
    let port = reader.number()?;
    Ok(Pair { offset, port })
}

fn read_group(reader: &mut NumberReader, seen: &mut SeenPorts) -> Result<Group, u8> {
    let loads = reader.number()? as usize;
    let stores = reader.number()? as usize;
    check_counts(loads, stores)?;
    let mut group = Group::default();
    for _ in 0..loads {
        let load = read_pair(reader)?;
        let before = group.loads.last().map_or(0, |last| last.offset);
        check_load(load, before, stores, seen)?;
        group.loads.push(load);
    }
    for j in 0..stores {
        let store = read_pair(reader)?;
        check_store(store, group.loads_before(j), seen)?;
        group.stores.push(store);
    }
    Ok(group)
}

impl Table {
    /// 0, or the first fault in the order of reading: 4; then for each group
    /// 5, and for each of its pairs 8, 6, 7.
    #[must_use]
    pub fn check(&self) -> u8 {
        self.checked().err().unwrap_or(refusal::ACCEPTED)
    }

    /// [`Table::check`] as a result.
    ///
    /// # Errors
    /// 4, 5, 8, 6, 7.
    pub fn checked(&self) -> Result<(), u8> {
        check_group_count(self.groups.len())?;
        let mut seen = SeenPorts::default();
        self.groups
            .iter()
            .try_for_each(|group| check_group(group, &mut seen))
    }

    /// Reads a table that takes up all of `bytes`.
    ///
    /// # Errors
    /// "Number by number: 1 or 2 for the number; 3 fields not 2; 4 group
    /// count; after both counts of a group, 5 counts; for each pair, read
    /// whole, 8, 6, 7; at the end 9 bytes left over." 42 is "checked after 1
    /// and 2 of that number", so before the check of its field. Bytes left over
    /// are not read as numbers.
    pub fn read(bytes: &[u8]) -> Result<Self, u8> {
        let mut reader = NumberReader::new(bytes, 0);
        if reader.number()? != FIELDS_PER_ACCESS {
            return Err(refusal::FIELDS);
        }
        let count = reader.number()? as usize;
        check_group_count(count)?;
        let mut seen = SeenPorts::default();
        let groups = (0..count)
            .map(|_| read_group(&mut reader, &mut seen))
            .collect::<Result<_, _>>()?;
        if !reader.at_end() {
            return Err(refusal::LEFT_OVER);
        }
        Ok(Self { groups })
    }

    /// Writes the table at the front of `buffer` and gives the byte count.
    ///
    /// # Errors
    /// "4, 5, 8, 6, 7 in the same order, then 10 the buffer is too short."
    pub fn write(&self, buffer: &mut [u8]) -> Result<usize, u8> {
        self.checked()?;
        write_numbers(&self.numbers(), buffer)
    }

    /// The numbers that stand for the table; "loads come first here".
    #[must_use]
    pub fn numbers(&self) -> Vec<u32> {
        let mut numbers = vec![FIELDS_PER_ACCESS, self.groups.len() as u32];
        for group in &self.groups {
            numbers.extend([group.loads.len() as u32, group.stores.len() as u32]);
            let pairs = group.loads.iter().chain(&group.stores);
            numbers.extend(pairs.flat_map(|pair| [pair.offset, pair.port]));
        }
        numbers
    }

    /// Whether some group has a load of `port`.
    #[must_use]
    pub fn has_load_port(&self, port: u32) -> bool {
        let mut loads = self.groups.iter().flat_map(|group| &group.loads);
        loads.any(|load| load.port == port)
    }

    /// Whether some group has a store of `port`.
    #[must_use]
    pub fn has_store_port(&self, port: u32) -> bool {
        let mut stores = self.groups.iter().flat_map(|group| &group.stores);
        stores.any(|store| store.port == port)
    }
}
