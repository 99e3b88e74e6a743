//! The static library of the proved queue, held to the independent
//! implementation in `reference/` (`differential`, `records`, `orders`) and
//! measured against it (`benchmark`).

#![deny(unsafe_code)]
#![warn(missing_docs)]

pub mod buffers;
pub mod cases;
pub mod clock;
pub mod compare;
pub mod live;
pub mod orders;
pub mod program;
pub mod shift;
pub mod subject;
pub mod tables;
pub mod tally;
pub mod timing;
pub mod workloads;
