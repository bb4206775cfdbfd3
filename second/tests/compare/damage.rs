//! Records damaged at each of their places, and lines of each length.

use second::boundary::ReaderRecord;

use crate::files::{self, encoded};
use crate::pair::Pair;
use crate::random::Random;
use crate::site::Site;

const DIGITS: &[u8] = b"0123456789ABCDEFabcdef";
/// Characters that are no digits, those next to the digits among them.
const BAD: &[u8] = b"\0\n\r /:@G`g\x7F\x80\xFF";
/// How often each place is damaged in each way, on each board.
const ROUNDS: u32 = 4;
const ROUNDS_OF_LONGEST: u32 = 2;
/// Past the longest record's length.
const LENGTHS: usize = 530;
const LONG_LENGTHS: [usize; 6] = [1000, 5000, 65_535, 65_536, 65_537, 70_000];

pub fn compare(pair: &mut Pair, random: &mut Random, site: Site, rules: u32) {
    let fresh = pair.open_file(site, rules);
    for record in short_records() {
        for _ in 0..ROUNDS {
            each_place(pair, random, site, fresh, &record);
        }
    }
    for _ in 0..ROUNDS_OF_LONGEST {
        let longest = encoded(0x1234, 0, &random.bytes(255));
        each_place(pair, random, site, fresh, &longest);
    }
    for length in (0..=LENGTHS).chain(LONG_LENGTHS) {
        each_filling(pair, site, fresh, length);
    }
    for count in 0..=255 {
        each_later_refusal(pair, site, fresh, &random.bytes(count));
    }
}

/// Sound records of each type.
fn short_records() -> [Vec<u8>; 10] {
    [
        encoded(0x1234, 0, &[]),
        encoded(0x1234, 0, &[0x5A]),
        encoded(0, 0, &[0x12, 0x34]),
        encoded(0xF7F0, 0, &[0xC3; 16]),
        encoded(0xFFF8, 0, &[0xC3; 16]),
        files::END.to_vec(),
        encoded(0, 2, &[0x00, 0x1F]),
        encoded(0, 3, &[0x00, 0x00, 0x08, 0x00]),
        encoded(0, 4, &[0x00, 0x01]),
        encoded(0, 5, &[0x80, 0x00, 0x08, 0x00]),
    ]
}

/// In a fresh file, and where a segment governs.
fn each_place(
    pair: &mut Pair,
    random: &mut Random,
    site: Site,
    fresh: ReaderRecord,
    record: &[u8],
) {
    for place in 0..record.len() {
        let state = ReaderRecord {
            segmented: random.pick(&[0, 1]),
            ..fresh
        };
        let bad = replaced(record, place, random.pick(BAD));
        let second = random.place(record);
        let two_bad = replaced(&bad, second, random.pick(BAD));
        let other = replaced(record, place, other_digit(random, record[place]));
        for text in [bad, two_bad, mended(&other), other] {
            alone(pair, site, state, &text);
        }
    }
}

/// Lines of one length, with a colon or none and good or bad characters.
fn each_filling(pair: &mut Pair, site: Site, fresh: ReaderRecord, length: usize) {
    let zeros = filled(length, b':', b'0');
    let mut lines = vec![
        filled(length, b'0', b'0'),
        filled(length, b':', b'F'),
        filled(length, b':', b'G'),
    ];
    if let Some(last) = length.checked_sub(1) {
        lines.push(replaced(&zeros, last, b'G'));
    }
    lines.push(zeros);
    for line in lines {
        alone(pair, site, fresh, &line);
    }
}

/// Records of these data bytes that are refused for their checksum, their
/// type and, but for an end record, their shape.
fn each_later_refusal(pair: &mut Pair, site: Site, fresh: ReaderRecord, data: &[u8]) {
    let sound = encoded(0, 0, data);
    for place in sound.len() - 2..sound.len() {
        let wrong = match sound[place] {
            b'0' => b'1',
            _ => b'0',
        };
        alone(pair, site, fresh, &replaced(&sound, place, wrong));
    }
    for (address, kind) in [(0, 6), (1, 0xFF), (0, 1), (1, 1)] {
        alone(pair, site, fresh, &encoded(address, kind, data));
    }
}

/// One record over a file that names nothing, and that stays so.
fn alone(pair: &mut Pair, site: Site, state: ReaderRecord, text: &[u8]) {
    let (number, _) = pair.record(state, text, site.image, site.map);
    if number == 0 {
        pair.open_file(site, state.rules);
    }
}

/// The line with another character at a place.
pub fn replaced(line: &[u8], place: usize, character: u8) -> Vec<u8> {
    let mut line = line.to_vec();
    line[place] = character;
    line
}

/// A line of this length: one character, then always another.
pub fn filled(length: usize, first: u8, others: u8) -> Vec<u8> {
    let mut line = vec![others; length];
    if let Some(start) = line.first_mut() {
        *start = first;
    }
    line
}

/// A digit of another value.
fn other_digit(random: &mut Random, character: u8) -> u8 {
    let others = DIGITS.iter().copied();
    let others = others.filter(|digit| !digit.eq_ignore_ascii_case(&character));
    random.pick(&others.collect::<Vec<u8>>())
}

/// The record with its colon and the checksum that its other digits ask for.
fn mended(record: &[u8]) -> Vec<u8> {
    let digits = &record[1..record.len() - 2];
    let bytes = digits.chunks_exact(2);
    files::summed(bytes.map(|pair| value(pair[0]) << 4 | value(pair[1])))
}

fn value(digit: u8) -> u8 {
    let value = char::from(digit).to_digit(16);
    value.expect("a digit") as u8
}
