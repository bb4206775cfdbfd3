//! The product's programs on whole texts, byte for byte.

use std::io::{Read, Write};
use std::process::Stdio;
use std::thread;

use second::listing;
use second::units::Board;

use crate::damage;
use crate::examples;
use crate::files;
use crate::made::made;
use crate::plans;
use crate::random::Random;
use crate::root;
use crate::site::{LONG, SHORT};
use crate::tally::Tally;
use crate::wire;

const PLANS: u32 = 700;
const LOGS: u32 = 400;
/// How often each log record of the table is made, in each version.
const MADE_LOGS: u64 = 5;
/// How much of an input a message shows; a text may have millions of bytes.
const SHOWN: usize = 20_000;

/// What a program prints for an input.
fn printed(path: &str, input: &[u8]) -> Vec<u8> {
    let mut child = root::program(path)
        .stdin(Stdio::piped())
        .stdout(Stdio::piped())
        .spawn()
        .expect("the program starts");
    let mut stdin = child.stdin.take().expect("a pipe");
    let mut stdout = child.stdout.take().expect("a pipe");
    let mut output = Vec::new();
    thread::scope(|scope| {
        // a program may end before it has read everything
        scope.spawn(move || stdin.write_all(input).ok());
        stdout.read_to_end(&mut output).expect("its output");
    });
    let status = child.wait().expect("its status");
    assert!(status.success(), "{path}: {status}");
    output
}

fn alike(path: &str, input: &[u8], expected: &[u8]) {
    let given = printed(path, input);
    if given != expected {
        panic!(
            "{path} differs\ninput    {:?} of {} bytes\nexpected {:?}\ngiven    {:?}",
            wire::head(input, SHOWN),
            input.len(),
            wire::head(expected, SHOWN),
            wire::head(&given, SHOWN)
        );
    }
}

pub fn compare_plan() -> Tally {
    let mut random = Random::new(7);
    let fixed: [&[u8]; 4] = [b"", b"\n", b"\r\n", b":020200001234B6\n:00000001FF\n"];
    let mut texts: Vec<Vec<u8>> = fixed.map(<[u8]>::to_vec).into();
    texts.extend(examples::texts());
    texts.extend(plans::texts());
    texts.extend((0..PLANS).map(|_| plan_text(&mut random)));
    for (with, without) in examples::started() {
        // a start address changes nothing
        alike("target/bin/plan", &with, listing::plan(&without).as_bytes());
    }
    compare("plan", listing::plan, &texts)
}

pub fn compare_readlog() -> Tally {
    let mut random = Random::new(8);
    let inputs: Vec<Vec<u8>> = (0..LOGS).map(|_| log_input(&mut random)).collect();
    let mut tally = compare("readlog", listing::readlog, &inputs);
    for made in Board::ALL.into_iter().flat_map(made) {
        let record = |_| made.entry(&mut random).record();
        let records: Vec<Vec<u8>> = (0..MADE_LOGS).map(record).collect();
        let given = compare("readlog", listing::readlog, &records);
        // each of them gave the number of the table
        given.check(&[("readlog", &[made.number])], MADE_LOGS);
        tally.add(&given);
    }
    tally
}

/// Runs a program on each input and counts the numbers that it prints.
fn compare(name: &'static str, listing: fn(&[u8]) -> String, inputs: &[Vec<u8>]) -> Tally {
    let mut tally = Tally::default();
    for input in inputs {
        let expected = listing(input);
        alike(&format!("target/bin/{name}"), input, expected.as_bytes());
        count(&mut tally, name, &expected);
    }
    tally
}

/// Counts what was printed: behind `REFUSED` readlog has the number alone, plan
/// the line, the number and the column.
fn count(tally: &mut Tally, name: &'static str, printed: &str) {
    let Some(words) = printed.trim_end().strip_prefix("REFUSED ") else {
        return tally.count(name, 0);
    };
    let words = words.split(' ').map(|word| word.parse().expect("a number"));
    match words.collect::<Vec<usize>>()[..] {
        [number] => tally.count(name, number as u8),
        [_, number, column] => {
            tally.count(name, number as u8);
            tally.column(number as u8, column);
        }
        _ => panic!("{name} printed {printed}"),
    }
}

/// A hex file, right or wrong in some way, with line ends of some kind.
fn plan_text(random: &mut Random) -> Vec<u8> {
    if random.once_in(20) {
        let length = random.below(300);
        return random.bytes(length);
    }
    let mut records = match random.once_in(24) {
        true => vec![files::start_record(random)],
        false => data_records(random),
    };
    if random.once_in(2) {
        let place = random.below(records.len() as u32 + 1) as usize;
        records.insert(place, odd_record(random));
    }
    if !random.once_in(8) {
        records.push(files::END.to_vec());
    }
    if random.once_in(12) {
        records.push(odd_record(random));
    }
    if random.once_in(10) && !records.is_empty() {
        let again = records[random.below(records.len() as u32) as usize].clone();
        records.insert(0, again);
    }
    let style = match random.below(16) {
        0 => random.pick(&[&b"\r\r\n"[..], b"\r", b" \n"]),
        _ => random.pick(&[&b"\n"[..], b"\r\n"]),
    };
    let mixed = random.once_in(6);
    let mut text = Vec::new();
    for record in records {
        text.extend(record);
        let other = random.pick(&[&b"\n"[..], b"\r\n"]);
        text.extend(if mixed { other } else { style });
    }
    match random.below(6) {
        0 => drop(text.pop()),
        1 => text.extend(style),
        2 if random.once_in(2) => random.damage(&mut text),
        _ => {}
    }
    text
}

/// Data records that do not meet, in any order.
fn data_records(random: &mut Random) -> Vec<Vec<u8>> {
    let mut records = Vec::new();
    let mut address = random.below(0xF000);
    let count = random.below(24);
    for _ in 0..count {
        let longest = random.pick(&[1, 16, 16, 32, 255]);
        let length = random.within(1, longest);
        if address + length > 0xF800 {
            break;
        }
        let data = random.bytes(length);
        let place = random.below(records.len() as u32 + 1) as usize;
        records.insert(place, files::encoded(address as u16, 0, &data));
        let gap = random.pick(&[0, 0, 0, 1, 300, 2000]);
        address += length + gap;
    }
    records
}

/// Any record, at times for the other board, or a line longer than every record.
fn odd_record(random: &mut Random) -> Vec<u8> {
    if random.once_in(6) {
        let length = random.pick(&[521, 522, 523, 1000, 5000]);
        return damage::filled(length, b':', b'0');
    }
    let site = random.pick(&[SHORT, SHORT, LONG]);
    files::text(random, site)
}

/// A log record of either version with counts around each limit, often damaged.
fn log_input(random: &mut Random) -> Vec<u8> {
    let board = random.pick(&Board::ALL);
    let total: u32 = random.pick(&[4, 5, 6, 510, 0xFFFF, 3, 3, 2]);
    let acknowledged = random.pick(&[0, total - 1, total, total, total + 1]);
    let end = board.flash_end();
    let named = random.pick(&[1, 2, 300, end, end + 1, 0]);
    let outcome = match acknowledged == total {
        true => random.pick(&[0, 0, 1, 1, 40]),
        false => random.pick(&[40, 41, 42, 43, 0, 1, 2, 44]),
    };
    let mut input = match board {
        Board::Short => vec![0, 0x08, 1, outcome],
        Board::Long => vec![0, 0x0E, 2, outcome],
    };
    for count in [acknowledged, total, named] {
        let bytes = count.to_be_bytes();
        input.extend(match board {
            Board::Short => &bytes[2..],
            Board::Long => &bytes[..],
        });
    }
    match random.below(6) {
        0 | 1 => random.damage(&mut input),
        2 => {
            let length = random.pick(&[0, 1, 9, 10, 11, 15, 16, 17, 18, 5000]);
            let any = random.bytes(length);
            input = match random.once_in(2) {
                true => any,
                false => [&input[..3], &any].concat(),
            };
        }
        3 if random.once_in(2) => input[2] = random.pick(&[0, 1, 2, 3]),
        _ => {}
    }
    input
}
