//! The service log: records written from sessions of either kind, and read.

use second::boundary::{PlainRecord, SessionRecord};
use second::cases::{Buffer, Part};
use second::units::Board;

use crate::boards;
use crate::made::{made, Entry, Made};
use crate::pair::{Kept, Pair};
use crate::random::Random;
use crate::sessions::{hold, run};

/// How often each record of the table is made.
const ROUNDS: u32 = 120;

/// Sessions with an end that is another run kind's, of which there is no record.
const HOLD_VALID: &str = "valid of a hold session";
const OTHER_HELD: &str = "held of a reset or jump";

/// Length fields of both versions, and others near them or alike in a byte.
const LENGTHS: [u16; 16] = [
    0, 1, 6, 7, 8, 9, 10, 13, 14, 15, 16, 0x0108, 0x010E, 0x0800, 0x0E00, 0xFFFF,
];

/// Where a record is written.
fn record(board: Board) -> Part {
    Part::new(Buffer::Log, 61, bytes(board))
}

/// The length of a record.
fn bytes(board: Board) -> u32 {
    match board {
        Board::Short => 10,
        Board::Long => 16,
    }
}

/// The names of all that is made for a board, each with the numbers that it must
/// give: what is 53 for the reader is 45 for the writer.
pub fn numbers(board: Board) -> Vec<(&'static str, &'static [u8])> {
    let made = made(board).into_iter().map(|made| match made.number {
        0 => (made.name, &[0][..]),
        _ => (made.name, &[45, 53][..]),
    });
    made.chain([(HOLD_VALID, &[45][..]), (OTHER_HELD, &[45])])
        .collect()
}

pub fn compare(pair: &mut Pair) {
    let mut random = Random::new(5);
    for board in Board::ALL {
        compare_on(pair, &mut random, board);
    }
    for _ in 0..4000 {
        read_any(pair, &mut random);
    }
    pair.read_log(&[]);
}

fn compare_on(pair: &mut Pair, random: &mut Random, board: Board) {
    for made in made(board) {
        for _ in 0..ROUNDS {
            read_and_write(pair, random, &made);
        }
    }
    for _ in 0..4500 {
        write(pair, random, board);
    }
    for _ in 0..70 {
        read_damaged(pair, random, board);
    }
    read_each_length(pair, random, board);
}

/// Reads a made record and writes it; both sides must give what the table says.
fn read_and_write(pair: &mut Pair, random: &mut Random, made: &Made) {
    let entry = made.entry(random);
    let number = pair.read_log(&entry.record());
    assert_eq!(number, made.number, "{}: {entry:?}", made.name);
    pair.made(entry.board, made.name, number);
    write_made(pair, random, made, entry);
    write_of_other_kind(pair, random, entry);
}

/// Writes it from a session that ended so; 45 goes before 20.
fn write_made(pair: &mut Pair, random: &mut Random, made: &Made, entry: Entry) {
    let told = match entry.outcome {
        0 => random.below(2),
        1 => hold(random),
        _ => run(random),
    };
    write_ended(pair, made, entry, entry.session(told));
    write_ended(pair, made, entry, entry.plain(told));
}

fn write_ended(pair: &mut Pair, made: &Made, entry: Entry, state: impl Kept) {
    let (number, short, record_bytes) = match made.number {
        0 => (0, 20, entry.record()),
        _ => (45, 45, vec![]),
    };
    let what = format!("{}: {state:?}", made.name);
    let room = record(entry.board);
    assert_eq!(pair.log(state, room), (number, record_bytes), "{what}");
    let little = room.with_length(room.length() - 1);
    assert_eq!(pair.log(state, little).0, short, "{what}");
    pair.made(entry.board, made.name, number);
    pair.outcome(state);
}

/// The same end of another run kind is none, whatever its counts.
fn write_of_other_kind(pair: &mut Pair, random: &mut Random, entry: Entry) {
    let (name, told) = match entry.outcome {
        0 => (HOLD_VALID, hold(random)),
        1 => (OTHER_HELD, random.below(2)),
        _ => return,
    };
    write_no_end(pair, name, entry.board, entry.session(told));
    write_no_end(pair, name, entry.board, entry.plain(told));
}

fn write_no_end(pair: &mut Pair, name: &'static str, board: Board, state: impl Kept) {
    let (number, _) = pair.log(state, record(board));
    assert_eq!(number, 45, "{name}: {state:?}");
    assert_eq!(pair.outcome(state), None, "{name}: {state:?}");
    pair.made(board, name, number);
}

fn write(pair: &mut Pair, random: &mut Random, board: Board) {
    let state = session(random, board);
    let plain = as_plain(random, state);
    match random.once_in(4) {
        true => write_any(pair, random, board, plain),
        false => write_any(pair, random, board, state),
    }
}

/// A plain session with the counts of a session, ended or not.
fn as_plain(random: &mut Random, state: SessionRecord) -> PlainRecord {
    let any = random.word();
    PlainRecord {
        board: state.board,
        run: state.run,
        stage: random.pick(&[2, 2, 2, 2, 2, 2, 2, 0, 1, 3, any]),
        outcome: state.outcome,
        acknowledged: state.acknowledged,
        total: state.total,
        named: state.named,
    }
}

fn write_any(pair: &mut Pair, random: &mut Random, board: Board, state: impl Kept) {
    let room = bytes(board);
    let length = random.pick(&[0, 1, 3, 9, 10, 15, room - 1, room, room, room, room + 1, 30]);
    let buffer = match length {
        0 => Part::NULL,
        _ => record(board).with_length(length),
    };
    if random.once_in(8) {
        pair.move_input(random.below(64));
    }
    let (_, bytes) = pair.log(state, buffer);
    pair.outcome(state);
    if !bytes.is_empty() {
        pair.read_log(&bytes);
    }
}

/// A session that has mostly ended, with counts around each limit.
fn session(random: &mut Random, board: Board) -> SessionRecord {
    let (any, low) = (random.word(), random.below(140_000));
    let run = run(random);
    let asked = u32::from(run > 1);
    let total = random.pick(&[
        0, 2, 3, 3, 4, 5, 6, 510, 0xFFFF, 0x1_0000, 0x1_0004, low, any,
    ]);
    let acknowledged = match random.below(6) {
        0 => 0,
        1 => total.wrapping_sub(1),
        2 => total.wrapping_add(1),
        3 => any,
        _ => total,
    };
    let none = boards::unknown(random);
    let own = board.pages();
    SessionRecord {
        board: random.pick(&[own, own, own, own, own, own, own, own, own, none]),
        run,
        phase: random.pick(&[5, 5, 5, 5, 5, 5, 5, 0, 1, 4, 6, any]),
        page: if random.once_in(20) { any } else { 0 },
        address: if random.once_in(20) { any } else { 0 },
        outcome: random.pick(&[asked, asked, asked, 0, 1, 2, 40, 41, 42, 43, 44, 39, any]),
        acknowledged,
        total,
        named: named(random, low),
    }
}

/// A number of named bytes around the limits of both boards.
fn named(random: &mut Random, low: u32) -> u32 {
    let short = random.pick(&[0, 1, 2, 63_488, 63_489]);
    let long = random.pick(&[65_535, 65_536, 65_537, 126_976, 126_977]);
    random.pick(&[short, short, long, low])
}

/// A true record of a board's version.
fn true_record(random: &mut Random, board: Board) -> Vec<u8> {
    let made = made(board);
    let truths: Vec<&Made> = made.iter().filter(|made| made.number == 0).collect();
    random.pick(&truths).entry(random).record()
}

/// A true record, and it with each byte damaged and at each length.
fn read_damaged(pair: &mut Pair, random: &mut Random, board: Board) {
    let mut record = true_record(random, board);
    pair.read_log(&record);
    for place in 0..record.len() {
        for bit in 0..8 {
            let mut damaged = record.clone();
            damaged[place] ^= 1 << bit;
            pair.read_log(&damaged);
        }
        pair.read_log(&record[..place]);
    }
    record.extend(random.bytes(1));
    pair.read_log(&record);
}

/// The bytes of a true record under each length, each length field and each
/// version near those of both.
fn read_each_length(pair: &mut Pair, random: &mut Random, board: Board) {
    for length in (0..=18).chain([20, 32, 5000]) {
        for field in LENGTHS {
            for version in [0, 1, 2, 3, 0x81, 255] {
                let mut input = true_record(random, board);
                input[..2].copy_from_slice(&field.to_be_bytes());
                input[2] = version;
                input.resize(length, random.byte());
                let number = pair.read_log(&input);
                let told = told(length, field, version);
                assert!(told.is_none_or(|told| number == told), "{input:?}");
            }
        }
    }
}

/// What the paper says of a record by its length, its length field and its
/// version, if they are not those of one version.
fn told(length: usize, field: u16, version: u8) -> Option<u8> {
    let known = match field {
        0x0008 => length == 10,
        0x000E => length == 16,
        _ => false,
    };
    match (length, known, field, version) {
        (..10, ..) => Some(50),
        (_, false, ..) => Some(51),
        (_, _, 0x0008, 1) | (_, _, 0x000E, 2) => None,
        _ => Some(52),
    }
}

/// Bytes of any kind behind the head of either version.
fn read_any(pair: &mut Pair, random: &mut Random) {
    let (length, head) = random.pick(&[(10, [0, 0x08, 1]), (16, [0, 0x0E, 2])]);
    let length = random.pick(&[8, 9, 10, 16, length, length, length, length, 11, 15, 17, 20]);
    let mut bytes = random.bytes(length);
    bytes[..3].copy_from_slice(&head);
    bytes[3] = random.pick(&[0, 1, 40, 41, 42, 43, bytes[3]]);
    if random.once_in(2) {
        // counts that only their low bytes tell apart
        bytes[4..].iter_mut().step_by(2).for_each(|byte| *byte = 0);
    }
    pair.read_log(&bytes);
}
