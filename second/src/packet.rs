//! Packets: turned bytes, the builder and the reader.

use crate::refusal::Refusal;

pub const START: [u8; 2] = [0x07, 0x0E];
/// Start bytes, count, command and address.
pub const FRONT: usize = 8;
pub const LONGEST: usize = 259;
pub const PIECE: usize = 250;

/// N counts the command and the address too.
pub const COUNT_WITHOUT_DATA: usize = 5;

pub const OPEN: u8 = 0x00;
pub const ADD: u8 = 0x0F;
pub const CLOSE: u8 = 0x01;

#[derive(Clone, Copy, Debug, PartialEq, Eq)]
#[repr(u8)]
pub enum Command {
    Erase = b'E',
    Write = b'W',
    Verify = b'V',
    Protect = b'P',
    Run = b'R',
}

impl Command {
    pub fn from_byte(byte: u8) -> Option<Command> {
        match byte {
            b'E' => Some(Command::Erase),
            b'W' => Some(Command::Write),
            b'V' => Some(Command::Verify),
            b'P' => Some(Command::Protect),
            b'R' => Some(Command::Run),
            _ => None,
        }
    }

    pub fn byte(self) -> u8 {
        self as u8
    }

    /// Whether the table allows these bytes after the address.
    fn allows(self, data: &[u8]) -> bool {
        match self {
            Command::Erase => data.len() == 1,
            Command::Write | Command::Verify => (1..=PIECE).contains(&data.len()),
            Command::Protect => matches!(data, [OPEN | ADD | CLOSE]),
            Command::Run => data.is_empty(),
        }
    }
}

/// The byte as V sends it: original bits 4 3 2 1 0 7 6 5 from the top.
pub fn turned(byte: u8) -> u8 {
    byte.rotate_left(3)
}

pub fn restored(byte: u8) -> u8 {
    byte.rotate_right(3)
}

/// The byte that brings the sum of these bytes and itself to zero.
pub fn checksum(bytes: &[u8]) -> u8 {
    sum(bytes).wrapping_neg()
}

pub fn sum(bytes: &[u8]) -> u8 {
    bytes.iter().fold(0, |sum, byte| sum.wrapping_add(*byte))
}

/// Writes one packet and gives its length; V is given plain bytes.
pub fn build(buffer: &mut [u8], command: u8, address: u32, data: &[u8]) -> Result<usize, Refusal> {
    if buffer.len() < LONGEST {
        return Err(Refusal::Size);
    }
    let command = Command::from_byte(command).ok_or(Refusal::Command)?;
    if !command.allows(data) {
        return Err(Refusal::Shape);
    }
    let (front, rest) = buffer.split_at_mut(FRONT);
    front[..2].copy_from_slice(&START);
    front[2] = (COUNT_WITHOUT_DATA + data.len()) as u8;
    front[3] = command.byte();
    front[4..].copy_from_slice(&address.to_be_bytes());
    fill(&mut rest[..data.len()], command, data);
    let end = FRONT + data.len();
    buffer[end] = checksum(&buffer[2..end]);
    Ok(end + 1)
}

fn fill(place: &mut [u8], command: Command, data: &[u8]) {
    place.copy_from_slice(data);
    if command == Command::Verify {
        for byte in place {
            *byte = turned(*byte);
        }
    }
}

/// What a packet says; the data of V is still turned.
#[derive(Clone, Copy, Debug, PartialEq, Eq)]
pub struct Packet {
    pub command: Command,
    pub address: u32,
    pub place: usize,
    pub length: usize,
}

pub fn read(input: &[u8]) -> Result<Packet, Refusal> {
    if !input.starts_with(&START) {
        return Err(Refusal::StartBytes);
    }
    let count = usize::from(*input.get(2).ok_or(Refusal::PacketLength)?);
    if count < COUNT_WITHOUT_DATA {
        return Err(Refusal::CountSmall);
    }
    if input.len() != count + 4 {
        return Err(Refusal::PacketLength);
    }
    if sum(&input[2..]) != 0 {
        return Err(Refusal::PacketChecksum);
    }
    let command = Command::from_byte(input[3]).ok_or(Refusal::Command)?;
    let length = count - COUNT_WITHOUT_DATA;
    if !command.allows(&input[FRONT..FRONT + length]) {
        return Err(Refusal::Shape);
    }
    Ok(Packet {
        command,
        address: u32::from_be_bytes([input[4], input[5], input[6], input[7]]),
        place: FRONT,
        length,
    })
}
