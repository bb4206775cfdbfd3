//! Packets: turned bytes, the builder and the reader.

use second::cases::{Buffer, Part};
use second::packet::{self, ADD, CLOSE, OPEN};

use crate::pair::Pair;
use crate::random::Random;

const COMMANDS: [u8; 5] = *b"EWVPR";
const OUTPUT: Part = Part::new(Buffer::Packet, 777, 300);

pub fn compare(pair: &mut Pair) {
    let mut random = Random::new(1);
    for byte in 0..=255 {
        pair.turned(byte);
        pair.restored(byte);
    }
    build_each(pair, &mut random);
    build_any(pair, &mut random);
    read(pair, &mut random);
}

/// Every command, and those of the table with every length.
fn build_each(pair: &mut Pair, random: &mut Random) {
    for command in 0..=255 {
        for length in [0, 1, 2, 250, 251] {
            build(pair, random, OUTPUT.length(), command, length);
        }
    }
    for command in COMMANDS {
        for length in 0..=300 {
            build(pair, random, OUTPUT.length(), command, length);
        }
        for length in 0..=300 {
            let plain = random.within(0, 2);
            build(pair, random, length, command, plain);
        }
    }
    for kind in 0..=255 {
        pair.build(OUTPUT, b'P', random.word(), &[kind]);
    }
    pair.build(Part::NULL, b'R', 1, &[]);
    pair.build(OUTPUT, b'R', 1, &[]);
}

fn build_any(pair: &mut Pair, random: &mut Random) {
    for _ in 0..3000 {
        let output = random.within(250, 300);
        let command = random.pick(&COMMANDS);
        let length = random.within(0, 252);
        build(pair, random, output, command, length);
    }
}

/// Builds into a buffer of this length, which may lie right behind the data.
fn build(pair: &mut Pair, random: &mut Random, output: u32, command: u8, length: u32) {
    if random.once_in(8) {
        pair.move_input(random.below(64));
    }
    let mut plain = random.bytes(length);
    let output = random.pick(&[
        OUTPUT.with_length(output),
        pair.behind_input(&plain, output),
    ]);
    if command == b'P' && length == 1 {
        plain[0] = random.pick(&[OPEN, ADD, CLOSE, 0x02, 0x10]);
    }
    pair.build(output, command, random.word(), &plain);
}

fn read(pair: &mut Pair, random: &mut Random) {
    pair.read(&[]);
    for count in 0..=255 {
        for command in COMMANDS {
            pair.read(&raw(random, command, count));
            for _ in 0..8 {
                let mut input = raw(random, command, count);
                random.damage(&mut input);
                pair.read(&input);
            }
        }
        for length in 0..=12 {
            let mut input = raw(random, b'W', count);
            input.truncate(length);
            pair.read(&input);
        }
    }
    for command in 0..=255 {
        let count = random.within(5, 8) as u8;
        pair.read(&raw(random, command, count));
    }
    for kind in 0..=255 {
        let mut input = raw(random, b'P', 6);
        input[packet::FRONT] = kind;
        seal(&mut input);
        pair.read(&input);
    }
    for _ in 0..3000 {
        let length = random.within(0, 12);
        let mut input = random.bytes(length);
        for (byte, start) in input.iter_mut().zip([0x07, 0x0E]) {
            *byte = if random.once_in(8) { *byte } else { start };
        }
        pair.read(&input);
    }
}

/// A packet with this count, right in its sum if in nothing else.
fn raw(random: &mut Random, command: u8, count: u8) -> Vec<u8> {
    let mut packet = vec![0x07, 0x0E, count];
    packet.extend(random.bytes(u32::from(count) + 1));
    packet[3] = command;
    if command == b'P' && count == 6 {
        packet[packet::FRONT] = random.pick(&[OPEN, ADD, CLOSE]);
    }
    seal(&mut packet);
    packet
}

/// Makes the last byte the right checksum.
pub fn seal(packet: &mut [u8]) {
    if let [_, _, summed @ .., last] = packet {
        *last = packet::checksum(summed);
    }
}
