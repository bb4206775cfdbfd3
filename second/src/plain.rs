//! The plain session, the bench version: at each step it lists every packet of
//! the file afresh and picks the next by its number, to check the quick one by.

use std::ops::Range;

use crate::loader::{ACK, BACKSPACE, BEL};
use crate::map::Map;
use crate::packet::{self, Command};
use crate::refusal::Refusal;
use crate::session::{check_lent, is_greeting, Event, Host, Outcome, Run};
use crate::units::{Board, ByteAddress, Page};

/// How far a plain session is.
#[derive(Clone, Copy, Debug, PartialEq, Eq)]
pub enum Stage {
    /// It waits for the greeting.
    Waiting,
    /// It waits for the answer to the packet that has as many before it in the
    /// list as are acknowledged.
    UnderWay,
    Ended(Outcome),
}

/// A value the caller keeps; it says how many packets are acknowledged, and the
/// list which is next.
#[derive(Clone, Copy, Debug, PartialEq, Eq)]
pub struct Plain {
    pub board: Board,
    pub run: Run,
    pub stage: Stage,
    pub acknowledged: u32,
    pub total: u32,
    pub named: u32,
}

/// Named bytes side by side, at most as many as a packet takes.
#[derive(Clone, Copy)]
struct Piece {
    start: ByteAddress,
    length: u32,
}

#[derive(Clone, Copy)]
enum Packet {
    /// A first page and how many.
    Erase(Page, u8),
    Write(Piece),
    Verify(Piece),
    /// The address that R carries.
    Run(u32),
}

/// Every packet of a file in the order of the paper, and its named bytes.
struct List {
    packets: Vec<Packet>,
    named: u32,
}

impl Host for Plain {
    fn start(
        board: Board,
        run: Run,
        image: &[u8],
        map: &[u8],
        buffer: &mut [u8],
    ) -> Result<(Plain, usize), Refusal> {
        let list = List::of(board, run, check_lent(board, image, map, buffer)?);
        if list.named == 0 {
            return Err(Refusal::NoData);
        }
        buffer[0] = BACKSPACE;
        let plain = Plain {
            board,
            run,
            stage: Stage::Waiting,
            acknowledged: 0,
            total: list.total(),
            named: list.named,
        };
        Ok((plain, 1))
    }

    fn step(
        self,
        event: Event,
        image: &[u8],
        map: &[u8],
        buffer: &mut [u8],
    ) -> Result<(Plain, usize), Refusal> {
        let map = check_lent(self.board, image, map, buffer)?;
        if self.ended().is_some() {
            return Err(Refusal::SessionEnded);
        }
        let list = List::of(self.board, self.run, map);
        if !self.comes_of(&list) {
            return Err(Refusal::OtherFile);
        }
        match self.unexpected(event) {
            Some(outcome) => Ok((self.ending(outcome), 0)),
            None => self.go_on(&list, image, buffer),
        }
    }

    fn ended(&self) -> Option<Outcome> {
        match self.stage {
            Stage::Ended(outcome) => Some(outcome),
            Stage::Waiting | Stage::UnderWay => None,
        }
    }

    fn outcome(&self) -> Option<Outcome> {
        self.ended().filter(|outcome| self.run.ends_with(*outcome))
    }

    fn proved(&self, map: &[u8], address: u32) -> Result<bool, Refusal> {
        let list = List::of(self.board, self.run, Map::new(self.board, map)?);
        if !self.comes_of(&list) {
            return Err(Refusal::OtherFile);
        }
        let acknowledged = &list.packets[..self.acknowledged as usize];
        Ok(acknowledged.iter().any(|packet| packet.verifies(address)))
    }

    fn board(&self) -> Board {
        self.board
    }

    fn counts(&self) -> [u32; 3] {
        [self.acknowledged, self.total, self.named]
    }
}

impl Plain {
    /// Whether a start and events over a file that is listed so lead here.
    fn comes_of(&self, list: &List) -> bool {
        list.named > 0
            && (self.total, self.named) == (list.total(), list.named)
            && match self.stage {
                Stage::Waiting => self.acknowledged == 0,
                Stage::UnderWay => self.acknowledged < self.total,
                Stage::Ended(outcome) => self.can_have_ended(outcome),
            }
    }

    /// Whether some event ends so behind as many packets as are acknowledged.
    fn can_have_ended(&self, outcome: Outcome) -> bool {
        match outcome {
            Outcome::Valid | Outcome::Held => {
                self.run.ends_with(outcome) && self.acknowledged == self.total
            }
            Outcome::WrongGreeting => self.acknowledged == 0,
            Outcome::Silent | Outcome::Refused | Outcome::WrongAnswer => {
                self.acknowledged < self.total
            }
        }
    }

    /// How an event ends it; none for the answer that it waits for.
    fn unexpected(&self, event: Event) -> Option<Outcome> {
        let waiting = self.stage == Stage::Waiting;
        match event {
            Event::Silence => Some(Outcome::Silent),
            Event::Answer(answer) if waiting => {
                (!is_greeting(self.board, answer)).then_some(Outcome::WrongGreeting)
            }
            Event::Answer([ACK]) => None,
            Event::Answer([BEL]) => Some(Outcome::Refused),
            Event::Answer(_) => Some(Outcome::WrongAnswer),
        }
    }

    /// Picks the next packet by its number; behind the last is the end.
    fn go_on(
        self,
        list: &List,
        image: &[u8],
        buffer: &mut [u8],
    ) -> Result<(Plain, usize), Refusal> {
        // the greeting acknowledges no packet
        let acknowledged = match self.stage {
            Stage::Waiting => 0,
            _ => self.acknowledged + 1,
        };
        let next = Plain {
            stage: Stage::UnderWay,
            acknowledged,
            ..self
        };
        match list.packets.get(acknowledged as usize) {
            Some(packet) => Ok((next, packet.build(image, buffer)?)),
            None => Ok((next.ending(self.run.asked_end()), 0)),
        }
    }

    fn ending(self, outcome: Outcome) -> Plain {
        Plain {
            stage: Stage::Ended(outcome),
            ..self
        }
    }
}

impl List {
    /// Looks at every page and at every address.
    fn of(board: Board, run: Run, map: Map) -> List {
        let pieces = pieces(board, map);
        let mut packets = erases(board, map);
        packets.extend(pieces.iter().copied().map(Packet::Write));
        packets.extend(pieces.iter().copied().map(Packet::Verify));
        packets.extend(run.address().map(Packet::Run));
        List {
            packets,
            named: pieces.iter().map(|piece| piece.length).sum(),
        }
    }

    fn total(&self) -> u32 {
        self.packets.len() as u32
    }
}

impl Packet {
    fn build(self, image: &[u8], buffer: &mut [u8]) -> Result<usize, Refusal> {
        match self {
            Packet::Erase(first, count) => {
                packet::build(buffer, Command::Erase.byte(), first.start().0, &[count])
            }
            Packet::Write(piece) => piece.build(Command::Write, image, buffer),
            Packet::Verify(piece) => piece.build(Command::Verify, image, buffer),
            Packet::Run(address) => packet::build(buffer, Command::Run.byte(), address, &[]),
        }
    }

    /// Whether it is the V that holds this byte.
    fn verifies(&self, address: u32) -> bool {
        match self {
            Packet::Verify(piece) => piece.addresses().contains(&address),
            _ => false,
        }
    }
}

impl Piece {
    fn addresses(self) -> Range<u32> {
        self.start.0..self.start.0 + self.length
    }

    /// Whether this byte is its next, and there is room for it.
    fn takes(self, address: u32) -> bool {
        self.addresses().end == address && self.length < packet::PIECE as u32
    }

    fn build(self, command: Command, image: &[u8], buffer: &mut [u8]) -> Result<usize, Refusal> {
        let named = self.addresses();
        let data = &image[named.start as usize..named.end as usize];
        packet::build(buffer, command.byte(), self.start.0, data)
    }
}

/// One E for each maximal run of pages holding a named byte.
fn erases(board: Board, map: Map) -> Vec<Packet> {
    let mut erases = Vec::new();
    let mut run: Option<(Page, u8)> = None;
    for page in (0..board.pages()).map(Page) {
        if holds_named(map, page) {
            let (first, count) = run.unwrap_or((page, 0));
            run = Some((first, count + 1));
        } else if let Some((first, count)) = run.take() {
            erases.push(Packet::Erase(first, count));
        }
    }
    erases.extend(run.map(|(first, count)| Packet::Erase(first, count)));
    erases
}

fn holds_named(map: Map, page: Page) -> bool {
    let behind = Page(page.0 + 1);
    (page.start().0..behind.start().0).any(|address| map.names(address))
}

/// The pieces of each maximal run of named bytes, cut from the run's start.
fn pieces(board: Board, map: Map) -> Vec<Piece> {
    let mut pieces: Vec<Piece> = Vec::new();
    for address in (0..board.flash_end()).filter(|address| map.names(*address)) {
        match pieces.last_mut() {
            Some(last) if last.takes(address) => last.length += 1,
            _ => pieces.push(Piece {
                start: ByteAddress(address),
                length: 1,
            }),
        }
    }
    pieces
}
