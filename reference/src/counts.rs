//! Loads served and loads forwarded.

use std::cmp::Ordering;

/// "The counts record is lent to each serve and updated there: loads served,
/// and loads forwarded." It may hold anything, forwarded above loads too.
#[derive(Clone, Copy, Debug, Default, PartialEq, Eq)]
pub struct Counts {
    /// Loads served.
    pub loads: u32,
    /// Loads served that got a queued store's data.
    pub forwarded: u32,
}

impl Counts {
    /// Counts one served load. "When either stands at 4294967295 both stop."
    pub fn record(&mut self, forwarded: bool) {
        if self.loads == u32::MAX || self.forwarded == u32::MAX {
            return;
        }
        self.loads += 1;
        self.forwarded += u32::from(forwarded);
    }

    /// "The share is thousandths of loads that were forwarded, to the nearest";
    /// "it is 0 for no loads". S-3 "rounds an exact half to the even neighbour",
    /// where half went up before. At most 4294967295000.
    #[must_use]
    pub fn share(&self) -> u64 {
        if self.loads == 0 {
            return 0;
        }
        let loads = u64::from(self.loads);
        let thousandths = 1000 * u64::from(self.forwarded);
        let (whole, rest) = (thousandths / loads, thousandths % loads);
        match (2 * rest).cmp(&loads) {
            Ordering::Less => whole,
            Ordering::Greater => whole + 1,
            Ordering::Equal if whole % 2 == 0 => whole,
            Ordering::Equal => whole + 1,
        }
    }
}
