//! Texts for `plan` in which one line is wrong on purpose, or longer than every
//! record.

use crate::damage::{filled, replaced};
use crate::files::{encoded, END};

/// A sound record without the digit 7.
const RECORD: &[u8] = b":020200001234B6";

/// What stands before the line: nothing, a record, or a whole file.
const BEFORE: [&[u8]; 3] = [
    b"",
    b":020200001234B6\r\n",
    b":020200001234B6\n:00000001FF\n",
];
const LINE_ENDS: [&[u8]; 5] = [b"\n", b"\r\n", b"\r\r\n", b"\r", b""];

/// Around the longest record's length, and around what may be read at a time.
const LENGTHS: [usize; 14] = [
    520, 521, 522, 523, 524, 1000, 4095, 4096, 4097, 5000, 65_535, 65_536, 65_537, 70_000,
];
const MILLIONS: usize = 10_000_000;

pub fn texts() -> Vec<Vec<u8>> {
    let mut texts = Vec::new();
    texts.extend(past_end());
    for line in damaged().into_iter().chain(wrong_records()) {
        texts.push(text(BEFORE[0], &line, b"\n"));
        texts.push(text(BEFORE[1], &line, b"\r\n"));
        texts.push(text(BEFORE[1], &line, b""));
    }
    for length in LENGTHS {
        for before in BEFORE {
            for line_end in LINE_ENDS {
                texts.push(text(before, &filled(length, b':', b'0'), line_end));
                texts.push(text(before, &filled(length, b'0', b'0'), line_end));
            }
        }
    }
    for line in [filled(1 + MILLIONS, b':', b'0'), vec![b'0'; MILLIONS]] {
        texts.push(text(BEFORE[0], &line, b""));
        texts.push(text(BEFORE[1], &line, b"\r\n"));
        texts.push(text(BEFORE[2], &line, b"\n"));
    }
    texts
}

/// Files with a byte that only the long board has, by linear base, by segment
/// base and by both; programs stay with the short one and with rule set 1.
fn past_end() -> Vec<Vec<u8>> {
    let far = [
        vec![encoded(0xF800, 0, &[0x5A])],
        vec![encoded(0, 4, &[0, 1]), encoded(0, 0, &[0x5A])],
        vec![encoded(0, 2, &[0x10, 0]), encoded(0, 0, &[0x5A])],
        vec![encoded(0, 4, &[0, 1]), encoded(0xEFFF, 0, &[0x5A])],
        vec![
            encoded(0, 4, &[0, 1]),
            encoded(0, 4, &[0, 0]),
            RECORD.to_vec(),
        ],
        vec![encoded(0xFFFF, 0, &[0x5A, 0x5A])],
        vec![
            encoded(0, 2, &[0x10, 0]),
            encoded(0, 4, &[0, 0]),
            RECORD.to_vec(),
        ],
        vec![
            encoded(0, 4, &[0, 1]),
            encoded(0, 2, &[0, 0]),
            RECORD.to_vec(),
        ],
        vec![encoded(0, 2, &[0, 0]), encoded(0xFFFF, 0, &[0x5A, 0x5A])],
    ];
    let text = |records: &Vec<Vec<u8>>| [&records.join(&b'\n')[..], b"\n", END, b"\n"].concat();
    far.iter().map(text).collect()
}

/// A text with this line; more lines follow where it has an end.
fn text(before: &[u8], line: &[u8], line_end: &[u8]) -> Vec<u8> {
    let after = match line_end.ends_with(b"\n") {
        true => END,
        false => b"",
    };
    [before, line, line_end, after].concat()
}

/// A record with a bad character at each place, with a second one at its end,
/// with another digit, and cut there.
fn damaged() -> Vec<Vec<u8>> {
    let places = 0..RECORD.len();
    let damaged = places.flat_map(|place| {
        let bad = replaced(RECORD, place, b'G');
        let two_bad = replaced(&bad, RECORD.len() - 1, b':');
        let digit = replaced(RECORD, place, b'7');
        [bad, two_bad, digit, RECORD[..place].to_vec()]
    });
    damaged.collect()
}

/// Each type that has a shape with a wrong count, a wrong address and both;
/// types that are none; wrong checksums.
fn wrong_records() -> Vec<Vec<u8>> {
    let mut lines = Vec::new();
    for (kind, right) in [(1, 0), (2, 2), (3, 4), (4, 2), (5, 4)] {
        for (count, address) in [(right + 1, 0), (right, 1), (right, 0x1000), (right + 1, 1)] {
            lines.push(encoded(address, kind, &vec![0x5A; count]));
        }
    }
    lines.extend([6, 7, 0x10, 0x60, 0xFF].map(|kind| encoded(0, kind, &[])));
    lines.extend([b":00000001FE", b":00000001EF"].map(|line| line.to_vec()));
    lines
}
