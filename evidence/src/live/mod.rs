//! The live calls, held to the reference: lists of calls from an opening
//! ([`lists`]), and records from anywhere ([`records`]).

pub mod cases;
pub mod compare;
pub mod header;
pub mod lists;
pub mod record;
pub mod records;
pub mod subject;
pub mod tally;
