//! The receiver: finds packets in a line with rubbish between them.

use crate::packet::{COUNT_WITHOUT_DATA, START};

/// Start bytes, count and checksum, which N does not count.
const NOT_COUNTED: usize = 4;

/// What the next byte may be.
#[derive(Clone, Copy, Debug, Default, PartialEq, Eq)]
enum Awaited {
    #[default]
    FirstOfStart,
    SecondOfStart,
    Count,
    /// One of so many that are missing, the checksum the last.
    Rest(usize),
}

/// Fed one byte at a time, it hunts for the start, gathers a packet and hands
/// it on.
#[derive(Clone, Debug, Default)]
pub struct Receiver {
    /// What is gathered, or the packet that the last byte completed.
    bytes: Vec<u8>,
    awaited: Awaited,
}

impl Receiver {
    /// One that took these bytes for the beginning of a packet, whatever stands
    /// where its start should. What is no beginning will be dropped.
    pub fn having(gathered: &[u8]) -> Receiver {
        let awaited = match *gathered {
            [] => Awaited::FirstOfStart,
            [_] => Awaited::SecondOfStart,
            [_, _] => Awaited::Count,
            [_, _, count, ..] => match missing(count, gathered.len()) {
                0 => return Receiver::default(),
                missing => Awaited::Rest(missing),
            },
        };
        Receiver {
            bytes: gathered.to_vec(),
            awaited,
        }
    }

    /// What is gathered, or the packet that the last byte completed.
    pub fn bytes(&self) -> &[u8] {
        &self.bytes
    }

    /// What is gathered of a packet that is not complete.
    pub fn gathered(&self) -> &[u8] {
        match self.awaited {
            Awaited::FirstOfStart => &[],
            _ => &self.bytes,
        }
    }

    /// Takes one byte and gives the packet that it completes.
    pub fn byte(&mut self, byte: u8) -> Option<&[u8]> {
        match self.awaited {
            Awaited::SecondOfStart if byte == START[1] => self.gather(byte, Awaited::Count),
            // a second 07 may itself begin the start
            Awaited::FirstOfStart | Awaited::SecondOfStart => self.hunt(byte),
            // so that the loader says 3
            Awaited::Count if usize::from(byte) < COUNT_WITHOUT_DATA => self.hand_on(byte),
            Awaited::Count => self.gather(byte, Awaited::Rest(missing(byte, 3))),
            Awaited::Rest(1) => self.hand_on(byte),
            Awaited::Rest(missing) => self.gather(byte, Awaited::Rest(missing - 1)),
        }
    }

    fn hunt(&mut self, byte: u8) -> Option<&[u8]> {
        self.bytes.clear();
        self.awaited = Awaited::FirstOfStart;
        if byte == START[0] {
            self.gather(byte, Awaited::SecondOfStart);
        }
        None
    }

    fn gather(&mut self, byte: u8, awaited: Awaited) -> Option<&[u8]> {
        self.bytes.push(byte);
        self.awaited = awaited;
        None
    }

    fn hand_on(&mut self, byte: u8) -> Option<&[u8]> {
        self.gather(byte, Awaited::FirstOfStart);
        Some(&self.bytes)
    }
}

/// How many bytes a packet with this count has more than so many.
fn missing(count: u8, gathered: usize) -> usize {
    (usize::from(count) + NOT_COUNTED).saturating_sub(gathered)
}
