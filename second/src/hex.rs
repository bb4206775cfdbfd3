//! Hex files: the reader and the writer.

use std::ops::Range;

use crate::map::{self, Map};
use crate::packet::{checksum, sum};
use crate::refusal::Refusal;
use crate::units::Board;

/// Colon, count, address, type and checksum.
const SHORTEST: usize = 11;
const LONGEST: usize = 521;
/// The colon's column.
const COLON: usize = 0;
/// Where count, address and type begin among a record's bytes.
const COUNT: usize = 0;
const ADDRESS: usize = 1;
const TYPE: usize = 3;
/// Count, address and type.
const HEAD: usize = 4;
/// The types that do something.
const DATA: u8 = 0x00;
const END: u8 = 0x01;
const SEGMENT: u8 = 0x02;
const LINEAR: u8 = 0x04;
/// The longest record the writer gives, with its line end.
pub const RECORD_BUFFER: usize = 44;
const CUT: u32 = 16;
const END_RECORD: &[u8] = b":00000001FF\n";
/// Addresses from one linear base to the next.
const LINEAR_STEP: u32 = 65_536;
/// The offsets of one segment.
const SEGMENT_BYTES: u64 = 65_536;
const UNNAMED: u8 = 0xFF;

/// A refusal of the reader and its column, counted from 0; 0 where it has none.
#[derive(Clone, Copy, Debug, PartialEq, Eq)]
pub struct HexRefusal {
    pub refusal: Refusal,
    pub column: usize,
}

impl From<Refusal> for HexRefusal {
    /// For a refusal that has no column; only 22 to 28 have one.
    fn from(refusal: Refusal) -> HexRefusal {
        refusal.at(0)
    }
}

impl Refusal {
    fn at(self, column: usize) -> HexRefusal {
        HexRefusal {
            refusal: self,
            column,
        }
    }
}

/// What the bases make of an offset, chosen when a file is opened.
#[derive(Clone, Copy, Debug, PartialEq, Eq)]
#[repr(u8)]
pub enum RuleSet {
    /// Both bases add up.
    One = 1,
    /// The latest of 02 and 04 governs alone, and 02 keeps to its segment.
    Two = 2,
}

impl RuleSet {
    const ALL: [RuleSet; 2] = [RuleSet::One, RuleSet::Two];

    pub fn number(self) -> u8 {
        self as u8
    }

    pub fn from_number(number: u8) -> Option<RuleSet> {
        RuleSet::ALL.into_iter().find(|set| set.number() == number)
    }
}

#[derive(Clone, Copy, Debug, PartialEq, Eq)]
pub struct Reader {
    pub board: Board,
    pub rules: RuleSet,
    pub linear: u32,
    pub segment: u32,
    /// Whether the latest of 02 and 04 was 02, in either rule set.
    pub segmented: bool,
    pub ended: bool,
    /// Whether a data byte was taken since the start.
    pub taken: bool,
}

impl Reader {
    pub fn start(
        board: Board,
        rules: RuleSet,
        image: &mut [u8],
        map: &mut [u8],
    ) -> Result<Reader, HexRefusal> {
        check_sizes(board, image, map)?;
        image.fill(UNNAMED);
        map.fill(0);
        Ok(Reader {
            board,
            rules,
            linear: 0,
            segment: 0,
            segmented: false,
            ended: false,
            taken: false,
        })
    }

    /// Takes one record, its line end removed.
    pub fn record(
        &mut self,
        text: &[u8],
        image: &mut [u8],
        map: &mut [u8],
    ) -> Result<(), HexRefusal> {
        check_sizes(self.board, image, map)?;
        if self.ended {
            return Err(Refusal::RecordAfterEnd.into());
        }
        let record = Record::decode(text)?;
        match record.kind() {
            DATA => self.data(&record, image, map)?,
            END => self.ended = true,
            SEGMENT => self.set_segment(record.value()),
            LINEAR => self.set_linear(record.value()),
            _ => {}
        }
        Ok(())
    }

    pub fn close(&self) -> Result<(), HexRefusal> {
        if !self.ended {
            return Err(Refusal::NoEndRecord.into());
        }
        if !self.taken {
            return Err(Refusal::NoData.into());
        }
        Ok(())
    }

    /// The linear base is kept, whether it governs or not.
    fn set_segment(&mut self, value: u16) {
        self.segment = u32::from(value) * 16;
        self.segmented = true;
    }

    /// The segment base is kept, whether it governs or not.
    fn set_linear(&mut self, value: u16) {
        self.linear = u32::from(value) * LINEAR_STEP;
        self.segmented = false;
    }

    /// 29 of any byte goes before 30 of any, and both before one is taken.
    fn data(&mut self, record: &Record, image: &mut [u8], map: &mut [u8]) -> Result<(), Refusal> {
        let end = u64::from(self.board.flash_end());
        let places = record.offsets().map(|offset| self.place(offset));
        if places.clone().any(|place| place >= end) {
            return Err(Refusal::Place);
        }
        // each lies on the board now and so is an address
        let places = places.map(|place| place as u32);
        let named = Map::new(self.board, map)?;
        if places.clone().any(|place| named.names(place)) {
            return Err(Refusal::NamedBefore);
        }
        for (place, byte) in places.zip(record.data()) {
            image[place as usize] = *byte;
            map::name(map, place);
        }
        // a record of count 0 is accepted but brings no byte
        self.taken |= record.count() > 0;
        Ok(())
    }

    /// The place of one byte, summed as whole numbers so that no sum wraps.
    fn place(&self, offset: u64) -> u64 {
        let (linear, segment) = (u64::from(self.linear), u64::from(self.segment));
        match (self.rules, self.segmented) {
            (RuleSet::One, _) => linear + segment + offset,
            (RuleSet::Two, true) => segment + offset % SEGMENT_BYTES,
            // under 04; before any 02 or 04 the linear base is 0
            (RuleSet::Two, false) => linear + offset,
        }
    }
}

/// The bytes of one sound record.
struct Record {
    bytes: [u8; LONGEST / 2],
    length: usize,
}

impl Record {
    fn decode(text: &[u8]) -> Result<Record, HexRefusal> {
        if !text.starts_with(b":") {
            return Err(Refusal::NoColon.at(COLON));
        }
        if text.len() < SHORTEST || text.len() > LONGEST || text.len().is_multiple_of(2) {
            return Err(Refusal::RecordLength.at(text.len()));
        }
        let mut record = Record {
            bytes: [0; LONGEST / 2],
            length: text.len() / 2,
        };
        for (index, byte) in record.bytes[..record.length].iter_mut().enumerate() {
            let column = first_digit(index);
            *byte = digit(text, column)? << 4 | digit(text, column + 1)?;
        }
        record.check(text.len())?;
        Ok(record)
    }

    fn check(&self, characters: usize) -> Result<(), HexRefusal> {
        if characters != SHORTEST + 2 * self.count() {
            return Err(Refusal::RecordCount.at(characters));
        }
        if sum(&self.bytes[..self.length]) != 0 {
            return Err(Refusal::RecordChecksum.at(first_digit(self.length - 1)));
        }
        if self.kind() > 5 {
            return Err(Refusal::RecordType.at(first_digit(TYPE)));
        }
        self.check_shape()
    }

    /// The count goes before the address where both are wrong.
    fn check_shape(&self) -> Result<(), HexRefusal> {
        let Some(count) = self.fixed_count() else {
            return Ok(());
        };
        if self.count() != count {
            return Err(Refusal::RecordShape.at(first_digit(COUNT)));
        }
        if self.address() != 0 {
            return Err(Refusal::RecordShape.at(first_digit(ADDRESS)));
        }
        Ok(())
    }

    /// The one count of the type; data has any count, at any address.
    fn fixed_count(&self) -> Option<usize> {
        match self.kind() {
            DATA => None,
            END => Some(0),
            SEGMENT | LINEAR => Some(2),
            // a start address has four bytes
            _ => Some(4),
        }
    }

    fn count(&self) -> usize {
        usize::from(self.bytes[COUNT])
    }

    fn address(&self) -> u16 {
        u16::from_be_bytes([self.bytes[ADDRESS], self.bytes[ADDRESS + 1]])
    }

    /// AAAA + index of each data byte, past 0xFFFF too.
    fn offsets(&self) -> Range<u64> {
        let first = u64::from(self.address());
        first..first + self.count() as u64
    }

    fn kind(&self) -> u8 {
        self.bytes[TYPE]
    }

    fn data(&self) -> &[u8] {
        &self.bytes[HEAD..self.length - 1]
    }

    /// The value of a record with two data bytes.
    fn value(&self) -> u16 {
        u16::from_be_bytes([self.bytes[HEAD], self.bytes[HEAD + 1]])
    }
}

/// The column of the first digit of a record's byte.
fn first_digit(index: usize) -> usize {
    COLON + 1 + 2 * index
}

/// The value of the digit in a column.
fn digit(text: &[u8], column: usize) -> Result<u8, HexRefusal> {
    match text[column] {
        character @ b'0'..=b'9' => Ok(character - b'0'),
        character @ b'A'..=b'F' => Ok(character - b'A' + 10),
        character @ b'a'..=b'f' => Ok(character - b'a' + 10),
        _ => Err(Refusal::NoDigit.at(column)),
    }
}

/// How many characters the writer wrote, and what to go on with.
#[derive(Clone, Copy, Debug, PartialEq, Eq)]
pub struct Written {
    pub length: usize,
    pub next: u32,
    /// The upper half of an address that the last 04 record set.
    pub upper: u16,
}

/// Writes the next record from an address, with the upper half last written.
pub fn write(
    board: Board,
    image: &[u8],
    map: &[u8],
    from: u32,
    upper: u16,
    buffer: &mut [u8],
) -> Result<Written, Refusal> {
    let map = check_sizes(board, image, map)?;
    if buffer.len() < RECORD_BUFFER {
        return Err(Refusal::RecordBuffer);
    }
    let Some(start) = map.next_named(from) else {
        return Ok(write_end(board, from, upper, buffer));
    };
    let half = (start / LINEAR_STEP) as u16;
    let set_half = half.to_be_bytes();
    let (next, address, kind, data) = if half == upper {
        let next = start + map.run_length(start, CUT - start % CUT);
        let data = &image[start as usize..next as usize];
        (next, start as u16, DATA, data)
    } else {
        // the address is kept, as its data is still to come
        (from, 0, LINEAR, &set_half[..])
    };
    Ok(Written {
        length: write_record(buffer, address, kind, data),
        next,
        upper: half,
    })
}

/// Writes the end record, or nothing from an address behind it.
fn write_end(board: Board, from: u32, upper: u16, buffer: &mut [u8]) -> Written {
    let end = board.flash_end();
    if from > end {
        return Written {
            length: 0,
            next: from,
            upper,
        };
    }
    buffer[..END_RECORD.len()].copy_from_slice(END_RECORD);
    Written {
        length: END_RECORD.len(),
        next: end + 1,
        upper,
    }
}

fn write_record(buffer: &mut [u8], address: u16, kind: u8, data: &[u8]) -> usize {
    let mut bytes = [0; HEAD + CUT as usize + 1];
    let end = HEAD + data.len();
    bytes[COUNT] = data.len() as u8;
    bytes[ADDRESS..TYPE].copy_from_slice(&address.to_be_bytes());
    bytes[TYPE] = kind;
    bytes[HEAD..end].copy_from_slice(data);
    bytes[end] = checksum(&bytes[..end]);
    buffer[0] = b':';
    for (pair, byte) in buffer[1..].chunks_exact_mut(2).zip(&bytes[..=end]) {
        pair[0] = upper_case(byte >> 4);
        pair[1] = upper_case(byte & 0x0F);
    }
    let line_end = 1 + 2 * (end + 1);
    buffer[line_end] = b'\n';
    line_end + 1
}

/// The upper-case digit of a value under 16.
pub fn upper_case(digit: u8) -> u8 {
    b"0123456789ABCDEF"[usize::from(digit)]
}

/// Image and map are of their board's size wherever they are lent; gives the
/// map.
pub fn check_sizes<'a>(board: Board, image: &[u8], map: &'a [u8]) -> Result<Map<'a>, Refusal> {
    if image.len() != board.flash_bytes() {
        return Err(Refusal::Size);
    }
    Map::new(board, map)
}
