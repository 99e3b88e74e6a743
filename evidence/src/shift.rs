//! The shift record on both sides.

use lsq::ShiftRecord;
use lsq_ref::ShiftRecord as HeldShiftRecord;

use crate::compare::{same, Difference};

/// A record of the reference as the library holds it.
#[must_use]
pub fn library_record(kept: &HeldShiftRecord) -> ShiftRecord {
    ShiftRecord {
        takes: kept.takes,
        values: kept.values,
    }
}

/// A record of the library as the reference holds it.
#[must_use]
pub fn held_record(kept: &ShiftRecord) -> HeldShiftRecord {
    HeldShiftRecord {
        takes: kept.takes,
        values: kept.values,
    }
}

/// Compares every number of two records.
pub(crate) fn same_record(
    what: &str,
    expected: &HeldShiftRecord,
    found: &ShiftRecord,
) -> Result<(), Difference> {
    same_numbers(&format!("{what}, takes"), &expected.takes, &found.takes)?;
    same_numbers(&format!("{what}, values"), &expected.values, &found.values)
}

fn same_numbers(what: &str, expected: &[u32], found: &[u32]) -> Result<(), Difference> {
    let mut ports = expected.iter().zip(found).enumerate();
    ports.try_for_each(|(port, (mine, others))| same(&format!("{what}[{port}]"), mine, others))
}
