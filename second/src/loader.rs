//! The loader: packets to answers, flash and protection.

use std::cmp::Ordering;
use std::ops::Range;

use crate::packet::{self, Command};
use crate::refusal::Refusal;
use crate::units::{Board, ByteAddress, Page, GREETING_BYTES};

pub const BACKSPACE: u8 = 0x08;
pub const ACK: u8 = 0x06;
pub const BEL: u8 = 0x07;
pub const NO_KEY: u32 = 0xFFFF_FFFF;

const ERASED: u8 = 0xFF;

#[derive(Clone, Copy, Debug, PartialEq, Eq)]
pub enum Condition {
    Waiting,
    Serving,
    Left,
}

#[derive(Clone, Copy, Debug, Default, PartialEq, Eq)]
pub struct Protection {
    /// One bit a group, group 0 the lowest.
    pub groups: u64,
    pub read: bool,
}

impl Protection {
    /// What a P packet of type 0x0F adds; read protection is addressed like a
    /// group behind the last.
    fn named_by(board: Board, address: u32) -> Result<Protection, Refusal> {
        let mut named = Protection::default();
        let group = ByteAddress(address).group().0;
        match group.cmp(&board.groups()) {
            Ordering::Less => named.groups = 1 << group,
            Ordering::Equal => named.read = true,
            Ordering::Greater => return Err(Refusal::Address),
        }
        Ok(named)
    }

    fn joined(self, other: Protection) -> Protection {
        Protection {
            groups: self.groups | other.groups,
            read: self.read || other.read,
        }
    }

    /// Whether a byte of this part of flash, which is not empty, is protected.
    fn forbids_changing(self, part: &Range<u32>) -> bool {
        let first = ByteAddress(part.start).group().0;
        let last = ByteAddress(part.end - 1).group().0;
        (first..=last).any(|group| self.groups >> group & 1 != 0)
    }
}

#[derive(Clone, Copy, Debug, PartialEq, Eq)]
pub struct Loader {
    pub condition: Condition,
    pub protection: Protection,
    pub key: u32,
    /// What an open protect sequence has added so far.
    pub sequence: Option<Protection>,
}

impl Loader {
    /// The loader as it leaves the factory.
    pub fn factory() -> Loader {
        Loader {
            condition: Condition::Waiting,
            protection: Protection::default(),
            key: NO_KEY,
            sequence: None,
        }
    }

    pub fn reset(&mut self) {
        self.condition = Condition::Waiting;
        self.sequence = None;
    }

    /// Takes one input on a board and gives the length of the answer written.
    /// An answered refusal has written the single BEL.
    pub fn take(
        &mut self,
        board: Board,
        input: &[u8],
        flash: &mut [u8],
        answer: &mut [u8],
    ) -> Result<usize, Refusal> {
        check_lent(board, flash, answer)?;
        match self.condition {
            Condition::Left => Err(Refusal::NotServing),
            Condition::Waiting => self.greet(board, input, answer),
            Condition::Serving => self.serve(board, input, flash, answer),
        }
    }

    fn greet(&mut self, board: Board, input: &[u8], answer: &mut [u8]) -> Result<usize, Refusal> {
        if input != [BACKSPACE] {
            return Err(Refusal::NotServing);
        }
        self.condition = Condition::Serving;
        answer[..GREETING_BYTES].copy_from_slice(board.greeting());
        Ok(GREETING_BYTES)
    }

    fn serve(
        &mut self,
        board: Board,
        input: &[u8],
        flash: &mut [u8],
        answer: &mut [u8],
    ) -> Result<usize, Refusal> {
        match self.obey(board, input, flash) {
            Ok(()) => {
                answer[0] = ACK;
                Ok(1)
            }
            Err(refusal) => {
                if refusal.answered() {
                    answer[0] = BEL;
                }
                Err(refusal)
            }
        }
    }

    fn obey(&mut self, board: Board, input: &[u8], flash: &mut [u8]) -> Result<(), Refusal> {
        let packet = packet::read(input)?;
        let data = &input[packet.place..packet.place + packet.length];
        self.check_sequence(packet.command, data)?;
        match packet.command {
            Command::Erase => self.erase(board, packet.address, data[0], flash),
            Command::Write => self.write(board, packet.address, data, flash),
            Command::Verify => self.verify(board, packet.address, data, flash),
            Command::Protect => self.protect(board, packet.address, data[0]),
            Command::Run => self.run(packet.address),
        }
    }

    /// Only P of type 0x0F or 0x01 belongs inside a sequence, and only there.
    fn check_sequence(&self, command: Command, data: &[u8]) -> Result<(), Refusal> {
        let inside = command == Command::Protect && data != [packet::OPEN];
        if inside == self.sequence.is_some() {
            Ok(())
        } else {
            Err(Refusal::Sequence)
        }
    }

    fn erase(
        &mut self,
        board: Board,
        address: u32,
        count: u8,
        flash: &mut [u8],
    ) -> Result<(), Refusal> {
        if address == 0 && count == 0 {
            self.mass_erase(flash);
            return Ok(());
        }
        let part = pages(board, address, count)?;
        self.check_change(&part)?;
        flash[indices(&part)].fill(ERASED);
        Ok(())
    }

    fn mass_erase(&mut self, flash: &mut [u8]) {
        flash.fill(ERASED);
        self.protection = Protection::default();
        self.key = NO_KEY;
    }

    fn write(
        &mut self,
        board: Board,
        address: u32,
        data: &[u8],
        flash: &mut [u8],
    ) -> Result<(), Refusal> {
        let part = bytes(board, address, data.len())?;
        self.check_change(&part)?;
        for (old, new) in flash[indices(&part)].iter_mut().zip(data) {
            *old &= new;
        }
        Ok(())
    }

    fn verify(&self, board: Board, address: u32, data: &[u8], flash: &[u8]) -> Result<(), Refusal> {
        let part = bytes(board, address, data.len())?;
        if self.protection.read {
            return Err(Refusal::Protected);
        }
        let sent = data.iter().map(|byte| packet::restored(*byte));
        if sent.eq(flash[indices(&part)].iter().copied()) {
            Ok(())
        } else {
            Err(Refusal::Differs)
        }
    }

    fn protect(&mut self, board: Board, address: u32, kind: u8) -> Result<(), Refusal> {
        self.sequence = match (self.sequence, kind) {
            (Some(added), packet::ADD) => Some(added.joined(Protection::named_by(board, address)?)),
            (Some(added), _) => {
                self.protection = self.protection.joined(added);
                self.key = address;
                None
            }
            (None, _) => Some(Protection::default()),
        };
        Ok(())
    }

    fn run(&mut self, address: u32) -> Result<(), Refusal> {
        if address > 1 {
            return Err(Refusal::Address);
        }
        self.condition = Condition::Left;
        Ok(())
    }

    fn check_change(&self, part: &Range<u32>) -> Result<(), Refusal> {
        if self.protection.forbids_changing(part) {
            Err(Refusal::Protected)
        } else {
            Ok(())
        }
    }
}

/// Flash is the board's, and the answer has room for the greeting.
pub fn check_lent(board: Board, flash: &[u8], answer: &[u8]) -> Result<(), Refusal> {
    if flash.len() != board.flash_bytes() || answer.len() < GREETING_BYTES {
        return Err(Refusal::Size);
    }
    Ok(())
}

/// How long the answer to an input is, the BEL of a refusal too.
pub fn answered(taken: Result<usize, Refusal>) -> usize {
    taken.unwrap_or_else(|refusal| refusal.answered().into())
}

/// The part of flash that E names.
fn pages(board: Board, address: u32, count: u8) -> Result<Range<u32>, Refusal> {
    let first = ByteAddress(address).page();
    let end = Page(first.0 + u32::from(count));
    if count == 0 || address >= board.flash_end() || end.0 > board.pages() {
        return Err(Refusal::Address);
    }
    Ok(first.start().0..end.start().0)
}

/// The part of flash that W or V names.
fn bytes(board: Board, address: u32, length: usize) -> Result<Range<u32>, Refusal> {
    let end = u64::from(address) + length as u64;
    if end > u64::from(board.flash_end()) {
        return Err(Refusal::Address);
    }
    Ok(address..end as u32)
}

fn indices(part: &Range<u32>) -> Range<usize> {
    part.start as usize..part.end as usize
}
