//! Stored hex files, most of them written by other tools, read by both sides on
//! both boards and under both rule sets.

use std::fs;
use std::path::PathBuf;

use second::cases::Buffer;
use second::listing;

use crate::pair::Pair;
use crate::root;
use crate::rules::SETS;
use crate::sessions;
use crate::site::{Site, SITES};
use crate::srec;
use crate::tools;

/// How reading a file ends.
#[derive(Clone, Copy, Debug, PartialEq, Eq)]
pub enum Read {
    Named(u32),
    Refused { line: usize, number: u8 },
}

/// Each file with how it ends on the short board and on the long one, under set
/// 1 and set 2 on each.
const EXAMPLES: [(&str, [[Read; 2]; 2]); 13] = [
    ("aligned", [[Read::Named(96); 2]; 2]),
    ("unaligned", [[Read::Named(301); 2]; 2]),
    ("large", [[Read::Named(12_000); 2]; 2]),
    ("linear", [[Read::Named(301); 2]; 2]),
    ("segment", [[Read::Named(301); 2]; 2]),
    ("holes", [[Read::Named(192); 2]; 2]),
    ("past-end", [[refused(3, 29); 2], [Read::Named(96); 2]]),
    ("past-segment", [[refused(2, 29); 2]; 2]),
    ("past-linear", [[refused(2, 29); 2], [Read::Named(96); 2]]),
    ("start", [[Read::Named(96); 2]; 2]),
    ("start-linear", [[Read::Named(96); 2]; 2]),
    ("wrapped", [[refused(2, 29); 2], [Read::Named(32); 2]]),
    (
        "mixed",
        [
            [refused(3, 29), Read::Named(32)],
            [Read::Named(32), Read::Named(32)],
        ],
    ),
];

/// The example `aligned` with this start record before its end.
const WITH_START: [(&str, &[u8]); 2] = [
    ("start", b":0400000300000800F1"),
    ("start-linear", b":04000005800008006F"),
];

const fn refused(line: usize, number: u8) -> Read {
    Read::Refused { line, number }
}

/// Every example's text.
pub fn texts() -> impl Iterator<Item = Vec<u8>> {
    EXAMPLES.iter().map(|(name, ..)| text(name))
}

/// Files with a start record, each beside the same file without one.
pub fn started() -> impl Iterator<Item = (Vec<u8>, Vec<u8>)> {
    WITH_START.iter().map(|(name, record)| {
        let (with, without) = (text(name), text("aligned"));
        let (starts, rest): (Vec<&[u8]>, Vec<&[u8]>) =
            listing::lines(&with).partition(|line| listing::without_end(line) == *record);
        assert_eq!(starts.len(), 1, "{name}");
        assert_eq!(rest.concat(), without, "{name}");
        (with, without)
    })
}

pub fn compare(pair: &mut Pair) {
    for buffer in [Buffer::Image, Buffer::Map] {
        pair.fill_buffer(buffer, 0x5A);
    }
    for (name, expected) in EXAMPLES {
        let text = text(name);
        let ends = SITES.map(|site| SETS.map(|rules| read_and_walk(pair, site, rules, &text)));
        assert_eq!(ends, expected, "{name}");
    }
    tools::compare(pair);
    srec::compare(pair);
}

fn text(name: &str) -> Vec<u8> {
    let path: PathBuf = root::repository().join(format!("examples/{name}.hex"));
    fs::read(path).unwrap_or_else(|error| panic!("examples/{name}.hex: {error}"))
}

/// Reads a file, then walks its sessions.
fn read_and_walk(pair: &mut Pair, site: Site, rules: u32, text: &[u8]) -> Read {
    match read(pair, site, rules, text) {
        Ok(()) => Read::Named(sessions::walk(pair, site)),
        Err((line, number)) => refused(line, number),
    }
}

/// Reads a file to its end, or gives the line and the number of its first
/// refusal.
pub fn read(pair: &mut Pair, site: Site, rules: u32, text: &[u8]) -> Result<(), (usize, u8)> {
    let mut state = pair.open_file(site, rules);
    for (index, ended) in listing::lines(text).enumerate() {
        let record = listing::without_end(ended);
        let (number, next) = pair.record(state, record, site.image, site.map);
        if number != 0 {
            return Err((index + 1, number));
        }
        state = next;
    }
    assert_eq!(pair.close_file(state), 0);
    Ok(())
}
