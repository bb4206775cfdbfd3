//! The desk's buffers, what is lent of them, and what a call changed.

use std::ops::Range;

use crate::hex::RECORD_BUFFER;
use crate::packet;
use crate::stations::TABLE_BYTES;
use crate::units::{Board, GREETING_BYTES};

pub const CAPACITY: u32 = 131_072;
/// How many bytes are compared at a time.
const BLOCK: usize = 4096;

#[derive(Clone, Copy, Debug, PartialEq, Eq, PartialOrd, Ord)]
pub enum Buffer {
    Flash,
    Answer,
    Image,
    Map,
    Packet,
    Record,
    Log,
    Table,
    Input,
    Other,
    Spare,
}

impl Buffer {
    pub const ALL: [Buffer; 11] = [
        Buffer::Flash,
        Buffer::Answer,
        Buffer::Image,
        Buffer::Map,
        Buffer::Packet,
        Buffer::Record,
        Buffer::Log,
        Buffer::Table,
        Buffer::Input,
        Buffer::Other,
        Buffer::Spare,
    ];

    pub fn word(self) -> &'static str {
        match self {
            Buffer::Flash => "flash",
            Buffer::Answer => "answer",
            Buffer::Image => "image",
            Buffer::Map => "map",
            Buffer::Packet => "packet",
            Buffer::Record => "record",
            Buffer::Log => "log",
            Buffer::Table => "table",
            Buffer::Input => "input",
            Buffer::Other => "other",
            Buffer::Spare => "spare",
        }
    }

    pub fn from_word(word: &str) -> Option<Buffer> {
        Buffer::ALL.into_iter().find(|buffer| buffer.word() == word)
    }

    /// What it holds at first.
    fn at_first(self) -> Vec<u8> {
        let filling = match self {
            Buffer::Flash | Buffer::Image => 0xFF,
            Buffer::Map | Buffer::Table => 0x00,
            _ => 0xAA,
        };
        vec![filling; CAPACITY as usize]
    }

    /// How much of it a call is lent at first, by the short board; none of
    /// those that no call has a part for.
    fn lent_at_first(self) -> Option<u32> {
        let length = match self {
            Buffer::Flash | Buffer::Image => Board::Short.flash_bytes(),
            Buffer::Answer => GREETING_BYTES,
            Buffer::Map => Board::Short.map_bytes(),
            Buffer::Packet => packet::LONGEST,
            Buffer::Record => RECORD_BUFFER,
            Buffer::Log => Board::Short.log_bytes(),
            Buffer::Table => TABLE_BYTES,
            Buffer::Input | Buffer::Other | Buffer::Spare => return None,
        };
        Some(length as u32)
    }
}

/// Bytes of one buffer, or the null pointer.
#[derive(Clone, Copy, Debug, PartialEq, Eq)]
pub struct Part {
    buffer: Option<Buffer>,
    place: u32,
    length: u32,
}

impl Part {
    pub const NULL: Part = Part {
        buffer: None,
        place: 0,
        length: 0,
    };

    /// The caller keeps it inside the buffer.
    pub const fn new(buffer: Buffer, place: u32, length: u32) -> Part {
        Part {
            buffer: Some(buffer),
            place,
            length,
        }
    }

    /// None where it does not lie in the buffer.
    pub fn within(buffer: Buffer, place: u32, length: u32) -> Option<Part> {
        let fits = place <= CAPACITY && length <= CAPACITY - place;
        fits.then(|| Part::new(buffer, place, length))
    }

    /// The same place with another length.
    pub fn with_length(self, length: u32) -> Part {
        Part { length, ..self }
    }

    /// So many bytes that end where this part begins.
    pub fn before(self, length: u32) -> Part {
        let place = self.place - length;
        Part {
            place,
            length,
            ..self
        }
    }

    /// So many bytes that begin where this part ends.
    pub fn behind(self, length: u32) -> Part {
        let place = self.place + self.length;
        Part {
            place,
            length,
            ..self
        }
    }

    pub fn buffer(self) -> Option<Buffer> {
        self.buffer
    }

    pub fn place(self) -> u32 {
        self.place
    }

    pub fn length(self) -> u32 {
        self.length
    }

    fn range(self) -> Range<usize> {
        self.place as usize..(self.place + self.length) as usize
    }

    fn overlaps(self, other: Part) -> bool {
        let start = self.range().start.max(other.range().start);
        let end = self.range().end.min(other.range().end);
        self.buffer == other.buffer && start < end
    }
}

/// Places of one buffer, not none.
#[derive(Clone, Debug, PartialEq, Eq)]
pub struct Stretch {
    pub buffer: Buffer,
    pub places: Range<usize>,
}

impl Stretch {
    fn ends_at(&self, buffer: Buffer, place: usize) -> bool {
        self.buffer == buffer && self.places.end == place
    }

    /// What is left of it below and above a part.
    fn without(self, part: Part) -> impl Iterator<Item = Stretch> {
        let (buffer, places, gone) = (self.buffer, self.places, part.range());
        let left = match part.buffer == Some(buffer) {
            true => [
                places.start..places.end.min(gone.start),
                places.start.max(gone.end)..places.end,
            ],
            false => [places, 0..0],
        };
        let left = left.into_iter().filter(|places| !places.is_empty());
        left.map(move |places| Stretch { buffer, places })
    }
}

pub struct Buffers {
    /// One for each buffer.
    bytes: Vec<Vec<u8>>,
    /// What is lent for the part that has a buffer's name.
    lent: Vec<Option<Part>>,
    /// Where the bytes that lines bring are put.
    input: (Buffer, u32),
    /// Where bytes are not as before the last call.
    changed: Vec<Stretch>,
}

impl Buffers {
    pub fn new() -> Buffers {
        let all = Buffer::ALL.into_iter();
        let part = |buffer: Buffer| {
            let length = buffer.lent_at_first()?;
            Some(Part::new(buffer, 0, length))
        };
        Buffers {
            bytes: all.clone().map(Buffer::at_first).collect(),
            lent: all.map(part).collect(),
            input: (Buffer::Input, 0),
            changed: Vec::new(),
        }
    }

    /// The bytes of a part; the null pointer has none.
    pub fn look(&self, part: Part) -> &[u8] {
        match part.buffer {
            Some(buffer) => &self.bytes[buffer as usize][part.range()],
            None => &[],
        }
    }

    /// The bytes of a part to be set by a line, not by a call.
    pub fn set(&mut self, part: Part) -> &mut [u8] {
        let changed = std::mem::take(&mut self.changed).into_iter();
        self.changed = changed.flat_map(|stretch| stretch.without(part)).collect();
        match part.buffer {
            Some(buffer) => &mut self.bytes[buffer as usize][part.range()],
            None => &mut [],
        }
    }

    /// Lends another part from now on; none where calls have no such part.
    pub fn lend(&mut self, name: Buffer, part: Part) -> Option<()> {
        let lent = self.lent[name as usize].as_mut()?;
        *lent = part;
        Some(())
    }

    /// Puts what lines bring elsewhere from now on; none outside the buffer.
    pub fn lend_input(&mut self, buffer: Buffer, place: u32) -> Option<()> {
        Part::within(buffer, place, 0)?;
        self.input = (buffer, place);
        Some(())
    }

    /// What is lent under a name that calls have a part for.
    pub fn part(&self, name: Buffer) -> Part {
        self.lent[name as usize].expect("a part of calls")
    }

    pub fn lent(&self, name: Buffer) -> &[u8] {
        self.look(self.part(name))
    }

    /// Gets ready for a call that brings some bytes of its own, writes some
    /// parts and reads others. None where what it may write overlaps anything.
    pub fn call(&mut self, brought: &[u8], written: &[Buffer], read: &[Buffer]) -> Option<()> {
        let (buffer, place) = self.input;
        let input = Part::within(buffer, place, brought.len().try_into().ok()?)?;
        let written: Vec<Part> = written.iter().map(|name| self.part(*name)).collect();
        let read = read.iter().map(|name| self.part(*name));
        let read: Vec<Part> = read.chain([input]).collect();
        for (index, part) in written.iter().enumerate() {
            let mut others = written[index + 1..].iter().chain(&read);
            if others.any(|other| part.overlaps(*other)) {
                return None;
            }
        }
        self.changed.clear();
        self.set(input).copy_from_slice(brought);
        Some(())
    }

    /// Keeps what a call made of a part, and in mind where that is new.
    pub fn keep(&mut self, name: Buffer, now: &[u8]) {
        let part = self.part(name);
        let Some(buffer) = part.buffer else { return };
        let kept = &mut self.bytes[buffer as usize][part.range()];
        let blocks = kept.chunks_mut(BLOCK).zip(now.chunks(BLOCK));
        for (place, (old, new)) in part.range().step_by(BLOCK).zip(blocks) {
            if old != new {
                note(&mut self.changed, (buffer, place), old, new);
                old.copy_from_slice(new);
            }
        }
    }

    /// What the last call changed and no line has set since, in the order of
    /// the buffers, ascending.
    pub fn changed(&self) -> Vec<Stretch> {
        let mut pieces = self.changed.clone();
        pieces.sort_by_key(|piece| (piece.buffer, piece.places.start));
        let mut stretches: Vec<Stretch> = Vec::new();
        for piece in pieces {
            match stretches.last_mut() {
                // two parts that lie side by side
                Some(last) if last.ends_at(piece.buffer, piece.places.start) => {
                    last.places.end = piece.places.end;
                }
                _ => stretches.push(piece),
            }
        }
        stretches
    }

    pub fn bytes(&self, stretch: &Stretch) -> &[u8] {
        &self.bytes[stretch.buffer as usize][stretch.places.clone()]
    }
}

/// Notes the bytes of a block that are not as they were.
fn note(stretches: &mut Vec<Stretch>, (buffer, place): (Buffer, usize), old: &[u8], new: &[u8]) {
    let bytes = (place..).zip(old.iter().zip(new));
    for (place, _) in bytes.filter(|(_, (old, new))| old != new) {
        match stretches.last_mut() {
            Some(last) if last.ends_at(buffer, place) => last.places.end += 1,
            _ => stretches.push(Stretch {
                buffer,
                places: place..place + 1,
            }),
        }
    }
}
