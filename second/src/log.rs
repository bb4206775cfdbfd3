//! The service log record, in a version of its own for each board.

use crate::refusal::Refusal;
use crate::session::{Host, Outcome};
use crate::units::Board;

/// The shortest and the longest record.
const SHORTEST: usize = Board::Short.log_bytes();
pub const LONGEST: usize = Board::Long.log_bytes();
/// The length field, which does not count itself.
const LENGTH: usize = 2;
/// Where the version, the outcome and the first count stand.
const VERSION: usize = 2;
const OUTCOME: usize = 3;
const COUNTS: usize = 4;
/// One E, one W and one V.
const SMALLEST_TOTAL: u32 = 3;

impl Board {
    fn log_version(self) -> u8 {
        match self {
            Board::Short => 1,
            Board::Long => 2,
        }
    }

    /// How many bytes each of the three counts has.
    const fn count_bytes(self) -> usize {
        match self {
            Board::Short => 2,
            Board::Long => 4,
        }
    }

    pub const fn log_bytes(self) -> usize {
        COUNTS + 3 * self.count_bytes()
    }

    /// What the length field says.
    fn log_length(self) -> u16 {
        (self.log_bytes() - LENGTH) as u16
    }
}

#[derive(Clone, Copy, Debug, PartialEq, Eq)]
pub struct Entry {
    /// The board whose version the record has.
    pub board: Board,
    pub outcome: Outcome,
    pub acknowledged: u32,
    pub total: u32,
    pub named: u32,
}

impl Entry {
    pub fn version(&self) -> u8 {
        self.board.log_version()
    }

    /// What the end of a session of either kind says, if that makes a record.
    fn of(session: &impl Host) -> Option<Entry> {
        let [acknowledged, total, named] = session.counts();
        let entry = Entry {
            board: session.board(),
            outcome: session.outcome()?,
            acknowledged,
            total,
            named,
        };
        (entry.fits() && entry.is_true()).then_some(entry)
    }

    fn counts(&self) -> [u32; 3] {
        [self.acknowledged, self.total, self.named]
    }

    /// Whether its version has room for the counts.
    fn fits(&self) -> bool {
        let bits = 8 * self.board.count_bytes();
        let mut counts = self.counts().into_iter();
        counts.all(|count| u64::from(count) >> bits == 0)
    }

    /// Whether a load can have ended so.
    fn is_true(&self) -> bool {
        self.total >= self.smallest_total()
            && (1..=self.board.flash_end()).contains(&self.named)
            && self.acknowledged <= self.total
            && self.outcome.is_as_asked() == (self.acknowledged == self.total)
            && (self.outcome != Outcome::WrongGreeting || self.acknowledged == 0)
    }

    /// Valid is the answer to an R, which is one packet more.
    fn smallest_total(&self) -> u32 {
        SMALLEST_TOTAL + u32::from(self.outcome == Outcome::Valid)
    }
}

pub fn write(session: &impl Host, buffer: &mut [u8]) -> Result<usize, Refusal> {
    let entry = Entry::of(session).ok_or(Refusal::NoLog)?;
    let board = entry.board;
    let record = buffer.get_mut(..board.log_bytes()).ok_or(Refusal::Size)?;
    record[..LENGTH].copy_from_slice(&board.log_length().to_be_bytes());
    record[VERSION] = entry.version();
    record[OUTCOME] = entry.outcome.number();
    let places = record[COUNTS..].chunks_exact_mut(board.count_bytes());
    for (place, count) in places.zip(entry.counts()) {
        let bytes = count.to_be_bytes();
        place.copy_from_slice(&bytes[bytes.len() - place.len()..]);
    }
    Ok(board.log_bytes())
}

pub fn read(input: &[u8]) -> Result<Entry, Refusal> {
    let board = board_of(input)?;
    let count = |index: usize| {
        let at = COUNTS + index * board.count_bytes();
        number(&input[at..at + board.count_bytes()])
    };
    let entry = Entry {
        board,
        outcome: Outcome::from_number(input[OUTCOME]).ok_or(Refusal::LogFalse)?,
        acknowledged: count(0),
        total: count(1),
        named: count(2),
    };
    if entry.is_true() {
        Ok(entry)
    } else {
        Err(Refusal::LogFalse)
    }
}

/// The board of a whole record; its length field tells the version.
fn board_of(input: &[u8]) -> Result<Board, Refusal> {
    if input.len() < SHORTEST {
        return Err(Refusal::LogShort);
    }
    let length = number(&input[..LENGTH]);
    let told = |board: &Board| length == u32::from(board.log_length());
    let board = Board::ALL.into_iter().find(told);
    let board = board.filter(|board| input.len() == board.log_bytes());
    let board = board.ok_or(Refusal::LogLength)?;
    if input[VERSION] != board.log_version() {
        return Err(Refusal::LogVersion);
    }
    Ok(board)
}

/// A number of at most four bytes, most significant first.
fn number(bytes: &[u8]) -> u32 {
    bytes
        .iter()
        .fold(0, |number, byte| number << 8 | u32::from(*byte))
}
