//! Traces: "load depth, store depth, first serial, memory length, then events
//! to the end of the bytes."

use crate::number::{write_numbers, NumberReader};
use crate::refusal;

/// "An event is one of seven kinds with its own numbers."
#[derive(Clone, Copy, Debug, PartialEq, Eq)]
pub enum Event {
    /// Kind 0.
    Activate {
        /// The group's number in the table.
        group: u32,
    },
    /// Kind 1.
    LoadAddress {
        /// A load port.
        port: u32,
        /// A word's index.
        address: u32,
    },
    /// Kind 2.
    StoreAddress {
        /// A store port.
        port: u32,
        /// A word's index.
        address: u32,
    },
    /// Kind 3.
    StoreData {
        /// A store port.
        port: u32,
        /// The data.
        word: u32,
    },
    /// Kind 4.
    Serve {
        /// A load serial.
        serial: u32,
    },
    /// Kind 5.
    Write {
        /// A store serial.
        serial: u32,
    },
    /// Kind 6.
    Take {
        /// A load port.
        port: u32,
    },
}

/// What reading an event answers.
#[derive(Clone, Copy, Debug, PartialEq, Eq)]
pub enum Step {
    /// "At the end of the bytes it answers 'end'."
    End,
    /// An event, and the place behind it.
    Event(Event, usize),
    /// "1 or 2 for the kind, 35 kind above 6, 1 or 2 for the rest." 42 is
    /// "checked after 1 and 2 of that number", so before 35 and the next number.
    Refused(u8),
}

/// The four numbers that lead a trace.
#[derive(Clone, Copy, Debug, PartialEq, Eq)]
pub struct Header {
    /// Most loads queued at a time.
    pub load_depth: u32,
    /// Most stores queued at a time.
    pub store_depth: u32,
    /// "Both series begin at the first serial."
    pub first_serial: u32,
    /// Words of memory.
    pub memory_length: u32,
}

/// Reads the event at place `at`; "a place past the end counts as the end".
#[must_use]
pub fn read_event(bytes: &[u8], at: usize) -> Step {
    let mut reader = NumberReader::new(bytes, at);
    if reader.at_end() {
        return Step::End;
    }
    match event(&mut reader) {
        Ok(event) => Step::Event(event, reader.at),
        Err(refusal) => Step::Refused(refusal),
    }
}

fn event(reader: &mut NumberReader) -> Result<Event, u8> {
    let event = match reader.number()? {
        0 => Event::Activate {
            group: reader.number()?,
        },
        1 => Event::LoadAddress {
            port: reader.number()?,
            address: reader.number()?,
        },
        2 => Event::StoreAddress {
            port: reader.number()?,
            address: reader.number()?,
        },
        3 => Event::StoreData {
            port: reader.number()?,
            word: reader.number()?,
        },
        4 => Event::Serve {
            serial: reader.number()?,
        },
        5 => Event::Write {
            serial: reader.number()?,
        },
        6 => Event::Take {
            port: reader.number()?,
        },
        _ => return Err(refusal::KIND),
    };
    Ok(event)
}

/// Writes `event` at the front of `buffer` and gives the byte count.
///
/// # Errors
/// 10 when the buffer is too short; it then keeps its contents.
pub fn write_event(event: &Event, buffer: &mut [u8]) -> Result<usize, u8> {
    match *event {
        Event::Activate { group } => write_numbers(&[0, group], buffer),
        Event::LoadAddress { port, address } => write_numbers(&[1, port, address], buffer),
        Event::StoreAddress { port, address } => write_numbers(&[2, port, address], buffer),
        Event::StoreData { port, word } => write_numbers(&[3, port, word], buffer),
        Event::Serve { serial } => write_numbers(&[4, serial], buffer),
        Event::Write { serial } => write_numbers(&[5, serial], buffer),
        Event::Take { port } => write_numbers(&[6, port], buffer),
    }
}

/// Reads the four leading numbers of a trace and gives the place behind them.
///
/// # Errors
/// 1, 2 or 42 for the first number that cannot be read.
pub fn read_header(bytes: &[u8]) -> Result<(Header, usize), u8> {
    let mut reader = NumberReader::new(bytes, 0);
    let header = Header {
        load_depth: reader.number()?,
        store_depth: reader.number()?,
        first_serial: reader.number()?,
        memory_length: reader.number()?,
    };
    Ok((header, reader.at))
}

/// Writes the four leading numbers of a trace and gives the byte count.
///
/// # Errors
/// 10 when the buffer is too short; it then keeps its contents.
pub fn write_header(header: &Header, buffer: &mut [u8]) -> Result<usize, u8> {
    let numbers = [
        header.load_depth,
        header.store_depth,
        header.first_serial,
        header.memory_length,
    ];
    write_numbers(&numbers, buffer)
}

/// "A reader stays attached to the lent trace and yields one event per step."
#[derive(Clone, Copy, Debug)]
pub struct EventReader<'a> {
    /// The lent trace.
    pub bytes: &'a [u8],
    /// The place of the next event.
    pub at: usize,
}

impl EventReader<'_> {
    /// Reads the next event and moves behind it; at the end, or at a refusal,
    /// the place stays.
    pub fn step(&mut self) -> Step {
        let step = read_event(self.bytes, self.at);
        if let Step::Event(_, next) = step {
            self.at = next;
        }
        step
    }

    /// All events from here to the end.
    ///
    /// # Errors
    /// The refusal of the first event that cannot be read.
    pub fn rest(mut self) -> Result<Vec<Event>, u8> {
        let mut events = Vec::new();
        loop {
            match self.step() {
                Step::End => return Ok(events),
                Step::Event(event, _) => events.push(event),
                Step::Refused(refusal) => return Err(refusal),
            }
        }
    }
}
