//! Hex files read by `srec_cat` and under rule set 2 by both sides: the same
//! bytes at the same places, and no others. What it has read it gives as
//! S-records, whose addresses are plain places, so that a hole is one there too.

use std::collections::BTreeMap;
use std::fs;
use std::path::Path;
use std::process::{Command, Stdio};

use second::boundary::RULES_2;

use crate::examples;
use crate::files::END;
use crate::pair::Pair;
use crate::places::{self, Brought, Placed};
use crate::random::Random;
use crate::root;
use crate::site::{LONG, SITES};
use crate::tools;

const TOOL: &str = "srec_cat";
/// Hex files, each beside the S-records that `srec_cat` gave for it; the README
/// there says how they were made.
const STORED: &str = "second/tests/compare/files";
const NAMES: [&str; 7] = [
    "segments",
    "linear",
    "runs",
    "wraps",
    "mixed",
    "over",
    "over-linear",
];
/// How many files of each kind are made for `srec_cat` to read.
const MADE: u32 = 16;

/// The bytes of a file, each under its place.
pub type Bytes = BTreeMap<u32, u8>;

pub fn compare(pair: &mut Pair) {
    for name in NAMES {
        let [text, given] = ["hex", "srec"].map(|kind| stored(name, kind));
        check(pair, name, &text, &bytes_of(&given));
    }
    let place = tools::place("srec");
    compare_made(pair, &place);
    fs::remove_dir_all(place).expect("files of our own");
}

fn stored(name: &str, kind: &str) -> String {
    let path = format!("{STORED}/{name}.{kind}");
    let text = fs::read_to_string(root::repository().join(&path));
    text.unwrap_or_else(|error| panic!("{path}: {error}"))
}

/// Files with wraps and with both kinds of base, in which no place comes twice.
fn compare_made(pair: &mut Pair, place: &Path) {
    let mut random = Random::new(12);
    for _ in 0..MADE {
        let runs = places::runs(&mut random, LONG, RULES_2);
        let wraps = places::wraps(&mut random, LONG);
        for (what, file) in [("runs", runs), ("wraps", wraps)] {
            let (text, placed) = made(&file);
            let Some(given) = compare_text(pair, place, what, &text) else {
                println!("{TOOL} is not installed: it reads no file of ours");
                return;
            };
            assert_eq!(given, placed, "{TOOL}, {what}\n{text}");
        }
    }
}

/// Both sides read what `srec_cat` reads; gives that, or none where it is not
/// installed.
pub fn compare_text(pair: &mut Pair, place: &Path, what: &str, text: &str) -> Option<Bytes> {
    let given = bytes_of(&read_by_tool(place, text)?);
    check(pair, what, text, &given);
    Some(given)
}

/// The text of what is neither past the long board nor named before, and its
/// bytes.
fn made(file: &[Brought]) -> (String, Bytes) {
    let mut placed = Placed::nothing(LONG);
    let mut lines = Vec::new();
    let mut bytes = Bytes::new();
    for brought in file {
        if placed.expected(brought) == 0 {
            placed.add(brought);
            lines.extend(brought.records.iter().map(Vec::as_slice));
            bytes.extend(brought.bytes());
        }
    }
    lines.push(END);
    let lines = lines.into_iter().map(String::from_utf8_lossy);
    (lines.map(|line| format!("{line}\n")).collect(), bytes)
}

/// What `srec_cat` reads, as S-records; none where it is not installed.
fn read_by_tool(place: &Path, text: &str) -> Option<String> {
    let (from, to) = (place.join("text"), place.join("given"));
    fs::write(&from, text).expect("a place for files");
    let mut command = Command::new(TOOL);
    command.arg(&from).args(["-intel", "-o"]).arg(&to);
    command.args(["-motorola", "-disable=header"]);
    // it warns of data that do not ascend
    let status = command.stderr(Stdio::null()).status().ok()?;
    assert!(status.success(), "{TOOL}: {status}\n{text}");
    Some(fs::read_to_string(&to).expect("what the tool wrote"))
}

/// The bytes of S-records: S1, S2 and S3 have count, an address of 2, 3 or 4
/// bytes, data and a checksum; the others have no data.
fn bytes_of(records: &str) -> Bytes {
    let mut bytes = Bytes::new();
    for record in records.lines() {
        let width = match &record[..2] {
            "S1" => 2,
            "S2" => 3,
            "S3" => 4,
            _ => continue,
        };
        let fields = pairs(&record[2..]);
        let (address, rest) = fields[1..].split_at(width);
        let start = (address.iter()).fold(0, |sum, byte| sum << 8 | u32::from(*byte));
        let data = &rest[..rest.len() - 1];
        assert_eq!(usize::from(fields[0]), fields.len() - 1, "{record}");
        for (place, byte) in (start..).zip(data) {
            assert_eq!(bytes.insert(place, *byte), None, "{record}");
        }
    }
    bytes
}

/// The bytes of digits, two for each.
fn pairs(digits: &str) -> Vec<u8> {
    let pairs = digits.as_bytes().chunks_exact(2);
    let byte = |pair: &[u8]| u8::from_str_radix(&String::from_utf8_lossy(pair), 16);
    pairs.map(|pair| byte(pair).expect("digits")).collect()
}

/// Reads a file on both boards; it is 29 where it reaches past the board's end,
/// and else brings these bytes and no others.
fn check(pair: &mut Pair, what: &str, text: &str, bytes: &Bytes) {
    for site in SITES {
        let given = examples::read(pair, site, RULES_2, text.as_bytes());
        if bytes.keys().any(|place| *place >= site.end()) {
            let number = given.map_err(|(_, number)| number);
            assert_eq!(number, Err(29), "{what}\n{text}");
            continue;
        }
        assert_eq!(given, Ok(()), "{what}\n{text}");
        let mut placed = Placed::nothing(site);
        placed.put(bytes.iter().map(|(place, byte)| (*place, *byte)));
        placed.check(pair, what);
    }
}
