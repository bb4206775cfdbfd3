//! Hex files: the reader, under either rule set.

use std::iter;

use second::boundary::ReaderRecord;
use second::cases::Buffer;
use second::listing::hex_digits;
use second::packet::checksum;

use crate::boards;
use crate::damage;
use crate::pair::Pair;
use crate::places;
use crate::random::Random;
use crate::rules;
use crate::site::{Site, SITES};
use crate::wraps::SEGMENT;

/// How many files are read on each board.
const FILES: u32 = 160;
pub const END: &[u8] = b":00000001FF";
/// Addresses from one linear base to the next, and from one segment base.
pub const LINEAR: u32 = 0x1_0000;
pub const PARAGRAPH: u32 = 16;

/// A rule set on both boards.
pub fn compare(pair: &mut Pair, rules: u32) {
    let mut random = Random::new(300 + u64::from(rules));
    for buffer in [Buffer::Image, Buffer::Map] {
        pair.fill_buffer(buffer, 0x5A);
    }
    for site in SITES {
        compare_on(pair, &mut random, site, rules);
    }
}

fn compare_on(pair: &mut Pair, random: &mut Random, site: Site, rules: u32) {
    shapes(pair, random, site, rules);
    damage::compare(pair, random, site, rules);
    for _ in 0..FILES {
        file(pair, random, site, rules);
    }
    places::compare(pair, random, site, rules);
    for _ in 0..600 {
        let state = made_up(random, site, rules);
        pair.close_file(state);
        let (board, set) = (site.told(random), rules::told(random, rules));
        let (image, map) = site.lent(random);
        pair.hex(board, set, image, map);
    }
    for _ in 0..60 {
        let (image, map) = (site.wrong_image(random), site.wrong_map(random));
        pair.hex(site.pages(), rules, image, site.map);
        pair.hex(site.pages(), rules, site.image, map);
    }
}

/// Each type that has a shape, with counts and addresses on each side of it,
/// and each type that is none.
fn shapes(pair: &mut Pair, random: &mut Random, site: Site, rules: u32) {
    let state = pair.open_file(site, rules);
    for kind in 1..=255 {
        let lengths = match kind {
            1..=5 => &[0, 1, 2, 3, 4, 5, 6, 16, 254, 255][..],
            _ => &[0, 2],
        };
        for length in lengths {
            for address in [0, 1, 0x10, 0x100, 0x1000, 0xFFFF] {
                let text = encoded(address, kind, &random.bytes(*length));
                pair.record(state, &text, site.image, site.map);
            }
        }
    }
}

/// One file from its start to its closing, records of all kinds between.
fn file(pair: &mut Pair, random: &mut Random, site: Site, rules: u32) {
    let mut state = pair.open_file(site, rules);
    let records = random.below(140);
    for _ in 0..records {
        let text = any_text(random, site);
        state = record(pair, random, site, state, &text);
        if random.once_in(10) {
            let made_up = made_up(random, site, rules);
            record(pair, random, site, made_up, &text);
        }
        if random.once_in(100) {
            pair.close_file(state);
        }
    }
    if !random.once_in(4) {
        (_, state) = pair.record(state, END, site.image, site.map);
        let after = random.below(4);
        for _ in 0..after {
            let text = any_text(random, site);
            state = record(pair, random, site, state, &text);
        }
    }
    pair.close_file(state);
}

fn record(
    pair: &mut Pair,
    random: &mut Random,
    site: Site,
    state: ReaderRecord,
    text: &[u8],
) -> ReaderRecord {
    if random.once_in(8) {
        pair.move_input(random.below(64));
    }
    let (image, map) = site.lent(random);
    pair.record(state, text, image, map).1
}

/// A reader of any values, mostly of this board and this rule set.
pub fn made_up(random: &mut Random, site: Site, rules: u32) -> ReaderRecord {
    let (low, any) = (random.below(0x800), random.word());
    // the last segment that ends on the board, and the next byte's
    let last = site.end().saturating_sub(SEGMENT);
    let near = site.end() - 0x10;
    let base = [
        0,
        0,
        low,
        near,
        last,
        last + 1,
        site.end(),
        LINEAR,
        0xFFFF_0000,
        u32::MAX,
        any,
    ];
    let flag = [0, 0, 0, 1, random.byte()];
    let none = boards::unknown(random);
    let (own, other) = (site.pages(), site.other().pages());
    ReaderRecord {
        board: random.pick(&[own, own, own, own, own, own, other, none]),
        rules: rules::told(random, rules),
        linear: random.pick(&base),
        segment: random.pick(&base),
        segmented: random.pick(&[0, 0, 1, 2, 255, flag[4]]),
        ended: random.pick(&flag),
        taken: random.pick(&flag),
    }
}

/// A record that sets a base.
pub fn base(kind: u8, value: u16) -> Vec<u8> {
    encoded(0, kind, &value.to_be_bytes())
}

/// As `any_text`, but on one line.
pub fn text(random: &mut Random, site: Site) -> Vec<u8> {
    let mut text = any_text(random, site);
    for character in text.iter_mut().filter(|character| **character == b'\n') {
        *character = b'\r';
    }
    text
}

/// A record's text, right or wrong in one of the table's ways.
fn any_text(random: &mut Random, site: Site) -> Vec<u8> {
    let text = sound(random, site);
    match random.below(24) {
        way @ 0..=8 => spoiled(random, text, way),
        9 => {
            let (length, type_byte) = (random.below(4), random.byte());
            encoded(0, type_byte, &random.bytes(length))
        }
        10 => {
            let length = random.below(6);
            let address = random.pick(&[0, 0, 1, 0x100]);
            let kind = random.within(1, 5) as u8;
            encoded(address, kind, &random.bytes(length))
        }
        11 => {
            let length = random.below(12);
            random.bytes(length)
        }
        _ => text,
    }
}

/// A record's text with its characters changed, cut or extended.
fn spoiled(random: &mut Random, mut text: Vec<u8>, way: u32) -> Vec<u8> {
    match way {
        0 => text[0] = random.byte(),
        1 => text.clear(),
        2 => drop(text.pop()),
        3 => {
            let more = random.below(600);
            text.extend(iter::repeat_n(b'0', more as usize));
        }
        4 => {
            let place = random.place(&text);
            text[place] = random.byte();
        }
        5 => {
            let place = random.place(&text);
            text[place] = random.pick(b"/:@G`gZ \r\0");
        }
        6 => text.extend(b"00"),
        7 => text.truncate(text.len() - 2),
        _ => {
            let place = random.within(1, text.len() as u32 - 1) as usize;
            text[place] = random.pick(b"0123456789ABCDEF");
        }
    }
    text
}

/// A record with the right sum; bases mostly lead back into flash.
fn sound(random: &mut Random, site: Site) -> Vec<u8> {
    let any = random.word() as u16;
    let mut text = match random.below(16) {
        0 => base(2, any_segment(random, site)),
        1 => base(4, any_linear(random, site)),
        2 => start_record(random),
        3 if random.once_in(20) => END.to_vec(),
        3 => base(2, 0),
        4 => base(4, 0),
        _ => {
            let length = match random.below(12) {
                0 => 0,
                1 => random.within(1, 255),
                _ => random.within(1, 20),
            };
            let near_end = (site.end() + random.below(0x20) - 0x10) as u16;
            // where a segment begins and ends
            let (first, last) = (any % 0x10, 0xFFFF - any % 0x10);
            let near = random.pick(&[any % 0x1000, any % 0x100, near_end]);
            let address = random.pick(&[any, any, near, near, near, first, last, last]);
            encoded(address, 0, &random.bytes(length))
        }
    };
    match random.below(3) {
        0 => text.make_ascii_lowercase(),
        1 => text.iter_mut().for_each(|digit| {
            if random.once_in(2) {
                digit.make_ascii_lowercase();
            }
        }),
        _ => {}
    }
    text
}

/// Past 64 KiB as often as not where the board has bytes there.
fn any_linear(random: &mut Random, site: Site) -> u16 {
    let (last, any) = ((site.end() / LINEAR) as u16, random.word() as u16);
    random.pick(&[0, last, last, 1, 0xFFFF, any])
}

/// Often one that ends on the long board, at its end or just past it.
fn any_segment(random: &mut Random, site: Site) -> u16 {
    let (end, any) = ((site.end() / PARAGRAPH) as u16, random.word() as u16);
    let last = (site.end().saturating_sub(SEGMENT) / PARAGRAPH) as u16;
    let inside = any % (last + 1);
    let near = random.pick(&[last, last + 1, end - 1, end]);
    random.pick(&[0, 0, 1, inside, inside, 0xFFF, 0x1000, near, near, any])
}

/// A start address, which names no byte.
pub fn start_record(random: &mut Random) -> Vec<u8> {
    encoded(0, random.pick(&[3, 5]), &random.word().to_be_bytes())
}

pub fn encoded(address: u16, kind: u8, data: &[u8]) -> Vec<u8> {
    let [high, low] = address.to_be_bytes();
    let head = [data.len() as u8, high, low, kind];
    summed(head.iter().chain(data).copied())
}

/// A record of these bytes and their checksum.
pub fn summed(bytes: impl Iterator<Item = u8>) -> Vec<u8> {
    let mut bytes: Vec<u8> = bytes.collect();
    bytes.push(checksum(&bytes));
    format!(":{}", hex_digits(&bytes)).into_bytes()
}
