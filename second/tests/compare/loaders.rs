//! The loader: long runs of mixed inputs over one flash.

use second::boundary::LoaderRecord;
use second::cases::{Buffer, Part};
use second::packet::{self, turned, ADD, CLOSE, OPEN};
use second::units::{GROUP_BYTES, PAGE_BYTES};

use crate::packets::seal;
use crate::pair::Pair;
use crate::random::Random;
use crate::site::{self, Site, SITES};

const ANSWER: Part = Part::new(Buffer::Answer, 503, 24);

/// How many runs there are on each board.
const RUNS: u32 = 8;
const INPUTS: u32 = 2200;

pub fn compare(pair: &mut Pair) {
    let mut random = Random::new(2);
    for filling in 0..=255 {
        pair.factory(filling);
    }
    for site in SITES {
        for run in 0..RUNS {
            let mut state = pair.factory(random.byte());
            if run % 2 == 0 {
                let bytes = random.bytes(site.end());
                pair.set(site.flash, &bytes);
            }
            for _ in 0..INPUTS {
                state = one_input(pair, &mut random, site, state);
            }
        }
    }
}

fn one_input(
    pair: &mut Pair,
    random: &mut Random,
    site: Site,
    state: LoaderRecord,
) -> LoaderRecord {
    let input = input(pair, random, site, state);
    if random.once_in(12) {
        let made_up = made_up(random, state);
        pair.take(site.pages(), made_up, &input, site.flash, ANSWER);
        pair.reset(made_up);
    }
    if random.once_in(8) {
        pair.move_input(random.below(64));
    }
    let told = site.told(random);
    let (flash, answer) = lent(pair, random, site, &input);
    let (_, next) = pair.take(told, state, &input, flash, answer);
    let leaves = next.condition == 2;
    if (leaves && random.once_in(2)) || random.once_in(150) {
        return pair.reset(next);
    }
    next
}

/// Flash and answer buffer, at times side by side or of a wrong size.
pub fn lent(pair: &Pair, random: &mut Random, site: Site, input: &[u8]) -> (Part, Part) {
    let flash = match random.below(15) {
        0 => site::wrong(random, site.flash, site.other().flash),
        _ => site.flash,
    };
    let length = match random.below(60) {
        0 => random.below(24),
        _ => random.within(24, 40),
    };
    let answer = match random.below(10) {
        0 if random.once_in(6) => Part::NULL,
        0..=2 => site::behind(flash, ANSWER.with_length(length)),
        3 => site.flash.before(length),
        4 => pair.behind_input(input, length),
        _ => ANSWER.with_length(length),
    };
    (flash, answer)
}

/// A state near this one, or nothing like it.
fn made_up(random: &mut Random, state: LoaderRecord) -> LoaderRecord {
    let other = any(random);
    match random.below(4) {
        0 => LoaderRecord {
            condition: other.condition,
            ..state
        },
        1 => LoaderRecord {
            opened: other.opened,
            added: other.added,
            added_read: other.added_read,
            ..state
        },
        _ => other,
    }
}

/// A state of any values, groups that no board has among them.
pub fn any(random: &mut Random) -> LoaderRecord {
    let past = random.pick(&[u64::MAX << 31, u64::MAX << 62, 1 << 61, 1 << 62]);
    let some = random.long() & random.long();
    LoaderRecord {
        groups: random.pick(&[some, some, past]),
        added: random.long() & random.long(),
        key: random.word(),
        condition: random.pick(&[0, 1, 1, 1, 1, 2, 3, 255]),
        read: flag(random),
        opened: flag(random),
        added_read: flag(random),
    }
}

fn flag(random: &mut Random) -> u8 {
    let any = random.byte();
    random.pick(&[0, 0, 0, 1, any])
}

pub fn input(pair: &Pair, random: &mut Random, site: Site, state: LoaderRecord) -> Vec<u8> {
    if state.condition == 0 && !random.once_in(4) {
        return vec![0x08];
    }
    let mut bytes = packet(pair, random, site, state);
    match random.below(40) {
        0 => random.damage(&mut bytes),
        1 => {
            random.damage(&mut bytes);
            seal(&mut bytes);
        }
        2 | 6 | 7 => bytes = outside_the_table(random, bytes),
        3 => {
            let length = random.below(8);
            bytes = random.bytes(length);
        }
        4 => bytes = vec![0x08],
        5 => bytes = vec![0x07, 0x0E, random.below(5) as u8],
        _ => {}
    }
    bytes
}

/// A sound packet with a command, a count or a type of no row.
fn outside_the_table(random: &mut Random, mut packet: Vec<u8>) -> Vec<u8> {
    match random.below(3) {
        0 => packet[3] = random.byte(),
        1 => packet[3] = random.pick(b"EPR"),
        _ => packet = built(b'E', random.word(), &[random.byte()]),
    }
    if random.once_in(2) {
        packet[3] = random.pick(b"PR");
    }
    seal(&mut packet);
    packet
}

/// A packet of the table, with an eye on an open sequence.
fn packet(pair: &Pair, random: &mut Random, site: Site, state: LoaderRecord) -> Vec<u8> {
    let address = address(random, site);
    if state.opened != 0 && !random.once_in(4) {
        let kind = random.pick(&[ADD, ADD, CLOSE, OPEN]);
        return built(b'P', address, &[kind]);
    }
    match random.below(20) {
        0 if random.once_in(8) => built(b'E', 0, &[0]),
        0..=3 => {
            let (pages, any) = (site.pages() as u8, random.byte());
            let left = pages.wrapping_sub((address / PAGE_BYTES) as u8);
            let count = random.pick(&[0, 1, 1, 2, 3, 5, pages - 1, pages, pages + 1, left, any]);
            let more = random.pick(&[count, left.wrapping_add(1), 123, 125]);
            built(b'E', address, &[random.pick(&[count, count, count, more])])
        }
        4..=9 => {
            let length = length(random);
            built(b'W', address, &random.bytes(length))
        }
        10..=16 => verify(pair, random, site, address),
        17 => built(b'P', address, &[OPEN]),
        18 => {
            let kind = random.pick(&[OPEN, ADD, CLOSE]);
            built(b'P', address, &[kind])
        }
        _ => {
            let run = random.pick(&[0, 1, 2, 3, 4, 5, address]);
            built(b'R', run, &[])
        }
    }
}

/// V of what flash holds, at times with one byte other than it is.
fn verify(pair: &Pair, random: &mut Random, site: Site, address: u32) -> Vec<u8> {
    let length = length(random);
    let end = u64::from(address) + u64::from(length);
    let mut plain = match end <= u64::from(site.end()) {
        true => pair.look(site.flash)[address as usize..end as usize].to_vec(),
        false => random.bytes(length),
    };
    if random.once_in(3) {
        let place = random.place(&plain);
        plain[place] ^= 1 << random.below(8);
    }
    if random.once_in(8) {
        plain.iter_mut().for_each(|byte| *byte = turned(*byte));
    }
    built(b'V', address, &plain)
}

fn length(random: &mut Random) -> u32 {
    match random.below(8) {
        0 => random.pick(&[249, 250]),
        1 => random.within(1, 250),
        2 | 3 => random.within(1, 70),
        _ => random.within(1, 9),
    }
}

/// Addresses of every kind: in flash, at the edges, past its end.
fn address(random: &mut Random, site: Site) -> u32 {
    let end = site.end();
    let groups = site.board.groups();
    match random.below(12) {
        0 => random.word(),
        1 => random.pick(&[0, 1, 2, 3, 16, 40]),
        2 => random.within(end - 260, end + 4),
        3 => random.below(end + GROUP_BYTES + 0x10),
        4 => random.within(1, groups) * GROUP_BYTES - random.below(4),
        5 => random.within(1, site.pages()) * PAGE_BYTES - random.below(4),
        6 => seam(random, site),
        _ => random.below(end),
    }
}

/// Near the end of the other board, of two bytes of an address, and of the
/// addresses of read protection.
fn seam(random: &mut Random, site: Site) -> u32 {
    let read = site.end() + GROUP_BYTES;
    let seam = random.pick(&[site.other().end(), 0x1_0000, site.end(), read]);
    seam + random.below(8) - 4
}

pub fn built(command: u8, address: u32, data: &[u8]) -> Vec<u8> {
    let mut buffer = [0; packet::LONGEST];
    let length = packet::build(&mut buffer, command, address, data).expect("of the table");
    buffer[..length].to_vec()
}
