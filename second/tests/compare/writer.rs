//! Hex files: the writer, and what is written read back under both rule sets.

use std::iter;

use second::cases::{Buffer, Part};

use crate::files::LINEAR;
use crate::maps;
use crate::pair::{Pair, Written};
use crate::random::Random;
use crate::rules::SETS;
use crate::site::{self, Site, SITES};

const RECORD: Part = Part::new(Buffer::Record, 101, 60);

pub fn compare(pair: &mut Pair) {
    let mut random = Random::new(3);
    for buffer in [Buffer::Image, Buffer::Map] {
        pair.fill_buffer(buffer, 0x5A);
    }
    for site in SITES {
        for _ in 0..16 {
            write(pair, &mut random, site);
        }
        for _ in 0..8 {
            write_and_read_back(pair, &mut random, site);
        }
    }
}

/// Records from all addresses and with all upper halves; image and map are only
/// read and may overlap.
fn write(pair: &mut Pair, random: &mut Random, site: Site) {
    let bytes = random.bytes(site.end());
    pair.set(site.image, &bytes);
    let map = maps::any(random, site.board);
    pair.set(site.map, &map);
    for _ in 0..150 {
        let (from, upper) = (any_address(random, site), any_upper(random));
        let file = match random.once_in(10) {
            true => (site.image, site.image.with_length(site.map.length())),
            false => site.lent(random),
        };
        let buffer = match random.below(8) {
            0 => RECORD.with_length(random.within(40, 44)),
            1 => RECORD.with_length(random.below(44)),
            2 if random.once_in(4) => Part::NULL,
            2 | 4 => site::behind(file.0, RECORD.with_length(44)),
            3 => site.map.before(44),
            _ => RECORD.with_length(random.within(44, 60)),
        };
        let told = site.told(random);
        pair.write(told, file, from, upper, buffer);
    }
}

/// An address to write from, often near a seam.
pub fn any_address(random: &mut Random, site: Site) -> u32 {
    let any = random.word();
    let near = random.within(site.end() - 0x20, site.end() + 4);
    let seam = random.within(LINEAR - 0x20, LINEAR + 0x10);
    let inside = random.below(site.end());
    random.pick(&[0, any, near, near, seam, inside, inside, inside])
}

/// An upper half of any value, mostly one that a board has.
pub fn any_upper(random: &mut Random) -> u16 {
    let any = random.word() as u16;
    random.pick(&[0, 0, 0, 1, 1, 1, 2, 0x100, 0xFFFF, any])
}

/// Writes all records of a file, then reads what was written.
fn write_and_read_back(pair: &mut Pair, random: &mut Random, site: Site) {
    let bytes = random.bytes(site.end());
    pair.set(site.image, &bytes);
    let map = maps::scattered(random, site.board);
    pair.set(site.map, &map);
    let lines = written(pair, site);
    let (data, linear) = records_of(&map);
    // the end record is the last
    assert_eq!(lines.len(), data + linear + 1, "records");
    let of_type = |kind: &str| lines.iter().filter(|line| &line[7..9] == kind).count();
    assert_eq!((of_type("00"), of_type("04")), (data, linear), "records");
    for rules in SETS {
        read_back(pair, site, rules, &lines);
        assert!(pair.look(site.map) == map, "the map that was written");
        for (place, byte) in pair.look(site.image).iter().enumerate() {
            let named = maps::names(&map, place as u32);
            assert_eq!(*byte, if named { bytes[place] } else { 0xFF });
        }
    }
}

fn read_back(pair: &mut Pair, site: Site, rules: u32, lines: &[String]) {
    let mut state = pair.open_file(site, rules);
    for text in lines {
        let (number, next) = pair.record(state, text.as_bytes(), site.image, site.map);
        assert_eq!(number, 0, "a record that was written");
        state = next;
    }
    assert_eq!(pair.close_file(state), 0);
}

/// Every record of a file, from address 0 and upper half 0 on.
fn written(pair: &mut Pair, site: Site) -> Vec<String> {
    let mut lines = Vec::new();
    let (mut from, mut half) = (0, 0);
    loop {
        let written = pair.write(site.pages(), site.file(), from, half, RECORD);
        let Written { text, next, upper } = written.expect("right sizes");
        if text.is_empty() {
            return lines;
        }
        lines.push(text);
        (from, half) = (next, upper);
    }
}

/// How many data records a map has, and how many that set the upper half: a
/// data record begins where a run does, and anew at each multiple of 16.
fn records_of(map: &[u8]) -> (usize, usize) {
    let addresses = 0..8 * map.len() as u32;
    let begins = |address: &u32| {
        let goes_on = !address.is_multiple_of(16) && maps::names(map, address - 1);
        maps::names(map, *address) && !goes_on
    };
    let starts: Vec<u32> = addresses.filter(begins).collect();
    let halves = iter::once(0).chain(starts.iter().map(|start| start / LINEAR));
    let halves: Vec<u32> = halves.collect();
    let changes = halves.windows(2).filter(|pair| pair[0] != pair[1]);
    (starts.len(), changes.count())
}
