//! Log records that are made on purpose, each with what the paper says of it.

use second::boundary::{PlainRecord, SessionRecord};
use second::units::Board;

use crate::random::Random;

/// From the lowest to the highest, both included.
type Span = (u32, u32);

const NONE: Span = (0, 0);

const UNKNOWN: &[u8] = &[2, 3, 39, 44, 45, 127, 128, 254, 255];
/// The ends that are asked for, and those that come early; 42 stands alone.
const ASKED: &[u8] = &[0, 1];
const EARLY: &[u8] = &[40, 41, 43];

/// How many packets were acknowledged, beside the total.
enum Acknowledged {
    Nothing,
    Several,
    Short,
    All,
    Above,
}
use Acknowledged::{Above, All, Nothing, Several, Short};

/// A record that is made on purpose: what its fields may be, and the number that
/// the paper gives for reading it.
pub struct Made {
    board: Board,
    pub name: &'static str,
    outcomes: &'static [u8],
    acknowledged: Acknowledged,
    total: Span,
    bytes: Span,
    pub number: u8,
}

/// The records of a board's version; one with 53 breaks the rule of its name
/// and no other.
pub fn made(board: Board) -> [Made; 28] {
    let most = most(board);
    let end = board.flash_end();
    let (totals, with_r, but_one) = ((3, most), (4, most), (3, most - 1));
    let (bytes, many) = ((1, end), (end + 1, most));
    let made = |name, outcomes, acknowledged, total, bytes, number| Made {
        board,
        name,
        outcomes,
        acknowledged,
        total,
        bytes,
        number,
    };
    [
        made("unknown outcome", UNKNOWN, Short, totals, bytes, 53),
        made("total under 3, asked", ASKED, All, (0, 2), bytes, 53),
        made("total under 3, early", EARLY, Short, (1, 2), bytes, 53),
        made("total under 3, 42", &[42], Nothing, (1, 2), bytes, 53),
        made("valid of 3", &[0], All, (3, 3), bytes, 53),
        made("no bytes, asked", ASKED, All, with_r, NONE, 53),
        made("no bytes, early", EARLY, Short, totals, NONE, 53),
        made("no bytes, 42", &[42], Nothing, totals, NONE, 53),
        made("too many bytes, asked", ASKED, All, with_r, many, 53),
        made("too many bytes, early", EARLY, Short, totals, many, 53),
        made("too many bytes, 42", &[42], Nothing, totals, many, 53),
        made("above its total", EARLY, Above, but_one, bytes, 53),
        made("valid short of total", &[0], Short, with_r, bytes, 53),
        made("held short of total", &[1], Short, totals, bytes, 53),
        made("40 at total", &[40], All, totals, bytes, 53),
        made("41 at total", &[41], All, totals, bytes, 53),
        made("43 at total", &[43], All, totals, bytes, 53),
        made("42 with some", &[42], Several, totals, bytes, 53),
        made("valid", &[0], All, with_r, bytes, 0),
        made("valid of 4", &[0], All, (4, 4), bytes, 0),
        made("held", &[1], All, totals, bytes, 0),
        made("held of 3", &[1], All, (3, 3), bytes, 0),
        made("ended early", EARLY, Short, totals, bytes, 0),
        made("40 of 3", &[40], Short, (3, 3), bytes, 0),
        made("41 of 3", &[41], Short, (3, 3), bytes, 0),
        made("42 of 3", &[42], Nothing, (3, 3), bytes, 0),
        made("43 of 3", &[43], Short, (3, 3), bytes, 0),
        made("no greeting", &[42], Nothing, totals, bytes, 0),
    ]
}

/// The highest count that the board's version has room for.
fn most(board: Board) -> u32 {
    match board {
        Board::Short => 0xFFFF,
        Board::Long => u32::MAX,
    }
}

/// What a record says.
#[derive(Clone, Copy, Debug)]
pub struct Entry {
    pub board: Board,
    pub outcome: u8,
    acknowledged: u32,
    total: u32,
    bytes: u32,
}

impl Made {
    /// One such record.
    pub fn entry(&self, random: &mut Random) -> Entry {
        let total = within(random, self.total);
        let acknowledged = match self.acknowledged {
            Nothing => 0,
            Several => within(random, (1, total - 1)),
            Short => within(random, (0, total - 1)),
            All => total,
            Above => within(random, (total + 1, most(self.board))),
        };
        Entry {
            board: self.board,
            outcome: random.pick(self.outcomes),
            acknowledged,
            total,
            bytes: within(random, self.bytes),
        }
    }
}

impl Entry {
    pub fn record(&self) -> Vec<u8> {
        let (length, version) = match self.board {
            Board::Short => (8, 1),
            Board::Long => (14, 2),
        };
        let mut record = vec![0, length, version, self.outcome];
        for count in [self.acknowledged, self.total, self.bytes] {
            let bytes = count.to_be_bytes();
            record.extend(match self.board {
                Board::Short => &bytes[2..],
                Board::Long => &bytes[..],
            });
        }
        record
    }

    /// A session of this run kind that ended so.
    pub fn session(&self, run: u32) -> SessionRecord {
        SessionRecord {
            board: self.board.pages(),
            run,
            phase: 5,
            outcome: self.outcome.into(),
            acknowledged: self.acknowledged,
            total: self.total,
            named: self.bytes,
            ..SessionRecord::default()
        }
    }

    /// A plain session of this run kind that ended so.
    pub fn plain(&self, run: u32) -> PlainRecord {
        PlainRecord {
            board: self.board.pages(),
            run,
            stage: 2,
            outcome: self.outcome.into(),
            acknowledged: self.acknowledged,
            total: self.total,
            named: self.bytes,
        }
    }
}

/// A number of the span, often its first or its last, or one whose low bytes
/// alone would be few.
fn within(random: &mut Random, (first, last): Span) -> u32 {
    let any = random.within(first, last);
    let (small, step) = (random.below(4), random.pick(&[1 << 8, 1 << 16, 1 << 24]));
    let low = (any / step * step + small).clamp(first, last);
    random.pick(&[first, last, any, low])
}
