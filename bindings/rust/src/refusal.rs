//! Refusal numbers, with what they mean.

use std::fmt;

/// The paper's number for a call that was refused. Everything handed in or lent
/// then keeps its contents.
#[derive(Clone, Copy, Debug, PartialEq, Eq)]
pub struct Refusal(pub u32);

/// Names each number, under the names of `lsq.h`, and says what it means.
macro_rules! refusals {
    ($($name:ident = $number:literal, $meaning:literal;)*) => {
        impl Refusal {
            $(
                #[doc = concat!($meaning, ".")]
                pub const $name: Self = Self($number);
            )*

            /// What the number means, in a few words.
            #[must_use]
            pub fn meaning(self) -> &'static str {
                match self.0 {
                    $($number => $meaning,)*
                    _ => "no number of the paper's",
                }
            }
        }
    };
}

refusals! {
    BYTES_END = 1, "the bytes end inside or before a number";
    FIFTH_BYTE = 2, "a fifth byte above 0F";
    FIELDS = 3, "fields per access not 2";
    GROUP_COUNT = 4, "number of groups not 1 to 16";
    ACCESS_COUNTS = 5, "a group's loads or stores above 16";
    PORT_RANGE = 6, "port above 31";
    PORT_SEEN = 7, "port seen before";
    OFFSET = 8, "offset out of order or disagreeing";
    LEFT_OVER = 9, "bytes left over behind a table";
    TOO_SHORT = 10, "a lent buffer is too short";
    LOAD_DEPTH = 11, "load depth not 1 to 64";
    STORE_DEPTH = 12, "store depth not 1 to 64";
    MEMORY_LENGTH = 13, "memory length not 1 to 4096";
    GROUP_TOO_LARGE = 14, "a group has more accesses than a depth";
    NO_GROUP = 20, "no such group";
    NO_PLACE = 21, "too few free places on either side";
    NO_PORT = 22, "port not in the table";
    ADDRESS_RANGE = 23, "address not below the memory length";
    NONE_WAITS = 24, "no entry waits for the argument";
    NO_SERIAL = 25, "serial not in the queue";
    ALREADY_DONE = 26, "already served, or already written";
    NO_ADDRESS = 27, "the entry has no address";
    EARLIER_STORE_ADDRESS = 28, "an earlier store has no address, and no nearer one has the load's";
    NO_DATA = 29, "the store (to forward from) has no data";
    OTHER_MEMORY = 30, "lent memory has another length";
    LOAD_CONFLICT = 31, "an earlier unserved load has no address or the same one";
    STORE_CONFLICT = 32, "an earlier unwritten store has no address or the same one";
    NONE_UNTAKEN = 33, "no untaken load of the port is queued";
    NOT_SERVED = 34, "the port's oldest untaken load is unserved";
    KIND = 35, "an event's kind is above 6";
    FILE_TOO_LONG = 36, "a file has more than 16384 bytes";
    UNSOUND = 40, "no right queue";
    PAGE_TOO_SHORT = 41, "a page buffer has fewer than 1394 bytes";
    PADDED_NUMBER = 42, "the last of a number's several bytes is 00";
    UNLISTED = 43, "more than 32 accesses or 64 pairs, or a pair naming an access not listed";
    CIRCLE = 44, "a circle of pairs";
}

impl fmt::Display for Refusal {
    fn fmt(&self, f: &mut fmt::Formatter) -> fmt::Result {
        write!(f, "refused with {}: {}", self.0, self.meaning())
    }
}

impl std::error::Error for Refusal {}

/// Nothing for the answer 0, else the refusal.
pub(crate) fn accepted(answer: u32) -> Result<(), Refusal> {
    match answer {
        0 => Ok(()),
        number => Err(Refusal(number)),
    }
}
