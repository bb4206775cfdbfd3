//! Lines of text: the plan of a hex file, and a log record.

use std::fmt::Write;

use crate::hex::{upper_case, HexRefusal, Reader, RuleSet};
use crate::loader::ACK;
use crate::log::{self, Entry};
use crate::packet::LONGEST;
use crate::refusal::Refusal;
use crate::session::{Event, Phase, Run, Session};
use crate::units::Board;

/// Programs stay with it.
const BOARD: Board = Board::Short;
/// The plan keeps to it.
const RULES: RuleSet = RuleSet::One;

/// A refusal with the line that brought it, 0 at closing.
struct Refused {
    line: usize,
    why: HexRefusal,
}

/// The packets a session sends for this hex text, or why it is refused.
pub fn plan(text: &[u8]) -> String {
    let mut image = vec![0; BOARD.flash_bytes()];
    let mut map = vec![0; BOARD.map_bytes()];
    match load(text, &mut image, &mut map).and_then(|()| steps(&image, &map).map_err(at_closing)) {
        Ok(listing) => listing,
        Err(Refused { line, why }) => {
            let (number, column) = (why.refusal.number(), why.column);
            format!("REFUSED {line} {number} {column}\n")
        }
    }
}

/// One log record in words, or why it is refused.
pub fn readlog(input: &[u8]) -> String {
    match log::read(input) {
        Ok(entry) => format!("{}\n", log_line(&entry)),
        Err(refusal) => format!("REFUSED {}\n", refusal.number()),
    }
}

pub fn log_line(entry: &Entry) -> String {
    format!(
        "VERSION {} OUTCOME {} ACKED {} TOTAL {} BYTES {}",
        entry.version(),
        entry.outcome.number(),
        entry.acknowledged,
        entry.total,
        entry.named
    )
}

pub fn hex_digits(bytes: &[u8]) -> String {
    let mut digits = String::with_capacity(2 * bytes.len());
    for byte in bytes {
        for digit in [byte >> 4, byte & 0x0F] {
            digits.push(char::from(upper_case(digit)));
        }
    }
    digits
}

/// The lines of a text with their 0A; what follows the last 0A is a line
/// unless it is empty.
pub fn lines(text: &[u8]) -> impl Iterator<Item = &[u8]> {
    text.split_inclusive(|byte| *byte == b'\n')
}

fn load(text: &[u8], image: &mut [u8], map: &mut [u8]) -> Result<(), Refused> {
    let mut reader = Reader::start(BOARD, RULES, image, map).map_err(at_closing)?;
    for (index, line) in lines(text).enumerate() {
        reader
            .record(without_end(line), image, map)
            .map_err(|why| Refused {
                line: index + 1,
                why,
            })?;
    }
    reader.close().map_err(at_closing)
}

/// Drops 0A and one 0D before it; a 0D with no 0A stays.
pub fn without_end(line: &[u8]) -> &[u8] {
    match line.strip_suffix(b"\n") {
        Some(ended) => ended.strip_suffix(b"\r").unwrap_or(ended),
        None => line,
    }
}

fn at_closing(refusal: impl Into<HexRefusal>) -> Refused {
    Refused {
        line: 0,
        why: refusal.into(),
    }
}

fn steps(image: &[u8], map: &[u8]) -> Result<String, Refusal> {
    let mut packet = [0; LONGEST];
    let mut listing = String::from("STEP KIND PACKET\n");
    // the plan asks for a reset and so lists R as well
    let (session, _) = Session::start(BOARD, Run::Reset, image, map, &mut packet)?;
    let greeted = Event::Answer(BOARD.greeting());
    let (mut session, mut length) = session.step(greeted, image, map, &mut packet)?;
    let mut number = 1;
    while !matches!(session.phase, Phase::Ended(_)) {
        let kind = char::from(packet[3]);
        let digits = hex_digits(&packet[..length]);
        writeln!(listing, "{number} {kind} {digits}").expect("a string takes all");
        let acknowledged = Event::Answer(&[ACK]);
        (session, length) = session.step(acknowledged, image, map, &mut packet)?;
        number += 1;
    }
    writeln!(listing, "TOTAL {}", session.total).expect("a string takes all");
    Ok(listing)
}
