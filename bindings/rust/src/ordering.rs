//! A group's order from pairs, which of its accesses comes before which, and the
//! table of the group.

use crate::direct;
use crate::record::{Accesses, Ordered, Precedence, Precedences, Table};
use crate::refusal::{accepted, Refusal};
use crate::{wrong_length, Buffer, Error};

/// An access of a group, by its port.
#[derive(Clone, Copy, Debug, PartialEq, Eq)]
pub enum Access {
    /// A load of this load port.
    Load(u8),
    /// A store of this store port.
    Store(u8),
}

impl Access {
    /// 0 a load, 1 a store.
    fn kind(self) -> u8 {
        match self {
            Self::Load(_) => 0,
            Self::Store(_) => 1,
        }
    }

    fn port(self) -> u8 {
        match self {
            Self::Load(port) | Self::Store(port) => port,
        }
    }
}

/// The order of a group's accesses.
#[derive(Clone, Copy, Debug, PartialEq, Eq)]
pub struct Order(Ordered);

impl Order {
    /// The accesses, from the first to the last.
    #[must_use]
    pub fn accesses(&self) -> &[u8] {
        &self.0.accesses[..usize::from(self.0.count)]
    }

    /// The table whose one group has these accesses, each at the place of its
    /// number, in this order; offsets are counted. It is right just where there
    /// are at most 16 of each kind and the ports are 0 to 31, each once among its
    /// kind. No table is refused here: where it is not right, [`write_table`] says
    /// which of 5, 6, 7 it is.
    ///
    /// # Errors
    /// [`Error::Length`] where there are fewer accesses than the order has, or
    /// more: none is made up, and none left out.
    ///
    /// [`write_table`]: crate::write_table
    pub fn table(&self, accesses: &[Access]) -> Result<Table, Error> {
        let needed = usize::from(self.0.count);
        if accesses.len() != needed {
            return Err(wrong_length(Buffer::Accesses, accesses.len(), needed));
        }
        let mut handed = Accesses::default();
        for (place, access) in accesses.iter().enumerate() {
            handed.kinds[place] = access.kind();
            handed.ports[place] = access.port();
        }
        Ok(direct::table_in_order(self.0, handed))
    }
}

/// Orders the accesses below `accesses`: of the orders that respect all pairs it
/// is the first, compared by access number from the left. No accesses have the
/// empty order. A repeated pair asks no more than one does, but each counts
/// towards [`PAIRS`].
///
/// # Errors
/// 43 more than [`ACCESSES`] or [`PAIRS`], or a pair names an access that is not
/// listed; 44 a circle of pairs, which an access paired with itself is.
///
/// [`ACCESSES`]: crate::record::ACCESSES
/// [`PAIRS`]: crate::record::PAIRS
pub fn order(accesses: u32, pairs: &[Precedence]) -> Result<Order, Refusal> {
    let ordered = direct::order(accesses, Precedences::new(pairs));
    accepted(ordered.answer.into())?;
    Ok(Order(ordered))
}
