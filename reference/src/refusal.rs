//! The papers' refusal numbers. "Accepted is 0. A refusal returns its number
//! and no value; everything handed in or lent keeps its contents."

/// The call was accepted.
pub const ACCEPTED: u8 = 0;
/// "The bytes end inside it or before it."
pub const BYTES_END: u8 = 1;
/// "A fifth byte above 0F."
pub const FIFTH_BYTE: u8 = 2;
/// "Fields not 2."
pub const FIELDS: u8 = 3;
/// The number of groups is not 1 to 16.
pub const GROUP_COUNT: u8 = 4;
/// A group's counts are not 0 to 16 each; both may be 0.
pub const ACCESS_COUNTS: u8 = 5;
/// "Port above 31."
pub const PORT_RANGE: u8 = 6;
/// "Port seen."
pub const PORT_SEEN: u8 = 7;
/// "Load: above the store count or below the load before; store: disagreeing."
pub const OFFSET: u8 = 8;
/// "Bytes left over."
pub const LEFT_OVER: u8 = 9;
/// The lent buffer or run of numbers is too short.
pub const TOO_SHORT: u8 = 10;
/// The load depth is not 1 to 64.
pub const LOAD_DEPTH: u8 = 11;
/// The store depth is not 1 to 64.
pub const STORE_DEPTH: u8 = 12;
/// The memory length is not 1 to 4,096.
pub const MEMORY_LENGTH: u8 = 13;
/// "Some group has more loads or stores than its depth."
pub const GROUP_TOO_LARGE: u8 = 14;
/// "No such group."
pub const NO_GROUP: u8 = 20;
/// "Too few free places on either side."
pub const NO_PLACE: u8 = 21;
/// "Port not in the table."
pub const NO_PORT: u8 = 22;
/// "Address not below memory length."
pub const ADDRESS_RANGE: u8 = 23;
/// "No entry waits for it."
pub const NONE_WAITS: u8 = 24;
/// "Serial not in the queue."
pub const NO_SERIAL: u8 = 25;
/// "Already served" or "already written".
pub const ALREADY_DONE: u8 = 26;
/// "No address."
pub const NO_ADDRESS: u8 = 27;
/// An earlier store has no address, and the walk of S-7 comes to it.
pub const EARLIER_STORE_ADDRESS: u8 = 28;
/// The store, or the store to forward from, has no data.
pub const NO_DATA: u8 = 29;
/// "Lent memory has another length than at opening."
pub const OTHER_MEMORY: u8 = 30;
/// "An earlier unserved load has no address or the same one."
pub const LOAD_CONFLICT: u8 = 31;
/// "An earlier unwritten store has no address or the same one."
pub const STORE_CONFLICT: u8 = 32;
/// "No untaken load of the port is queued."
pub const NONE_UNTAKEN: u8 = 33;
/// "The oldest is not served."
pub const NOT_SERVED: u8 = 34;
/// "Kind above 6."
pub const KIND: u8 = 35;
/// A file of `play` is longer than 16,384 bytes.
pub const FILE_TOO_LONG: u8 = 36;
/// The record handed in is not one that the queue's rules speak about.
pub const UNSOUND: u8 = 40;
/// "Page buffer under 1,394 bytes."
pub const PAGE_TOO_SHORT: u8 = 41;
/// "Padded number."
pub const PADDED_NUMBER: u8 = 42;
/// "More than 32 accesses or 64 pairs, or a pair naming an access not listed."
pub const UNLISTED: u8 = 43;
/// "A circle."
pub const CIRCLE: u8 = 44;
