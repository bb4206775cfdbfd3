//! Bytes of a noisy line: rubbish, and packets that it could be taken for.

use crate::loaders::built;
use crate::packets::seal;
use crate::random::Random;

pub const START: [u8; 2] = [0x07, 0x0E];
pub const HELLO: u8 = 0x08;

/// A byte of rubbish, often one that a start, a short count or 08 is made of.
fn byte(random: &mut Random) -> u8 {
    let (count, any) = (random.below(7) as u8, random.byte());
    random.pick(&[0x07, 0x07, 0x0E, 0x0E, HELLO, count, any, any])
}

/// Rubbish of any kind.
pub fn any(random: &mut Random, length: usize) -> Vec<u8> {
    (0..length).map(|_| byte(random)).collect()
}

/// Rubbish with no 07 0E in it.
pub fn quiet(random: &mut Random, length: usize) -> Vec<u8> {
    let mut rubbish = any(random, length);
    for place in 1..rubbish.len() {
        if rubbish[place - 1..=place] == START {
            rubbish[place] = random.pick(&[0x07, 0x0D, 0x0F, HELLO]);
        }
    }
    rubbish
}

/// What may stand before a packet: rubbish, at times with 07 at its end, seldom
/// with a start in it.
pub fn before_packet(random: &mut Random) -> Vec<u8> {
    let length = random.pick(&[0, 0, 1, 2, 3, 6]);
    let mut rubbish = match random.below(12) {
        0 => any(random, length),
        _ => quiet(random, length),
    };
    if random.once_in(3) {
        rubbish.push(0x07);
    }
    rubbish
}

/// A start with a count below 5.
pub fn short_count(random: &mut Random) -> Vec<u8> {
    [&START[..], &[random.below(5) as u8]].concat()
}

/// A start with a count that takes what follows for data.
pub fn false_start(random: &mut Random) -> Vec<u8> {
    let any = random.within(5, 255) as u8;
    let count = random.pick(&[5, 6, 7, 8, 12, 12, 20, any]);
    [&START[..], &[count]].concat()
}

/// R, mostly one that is obeyed.
pub fn run(random: &mut Random) -> Vec<u8> {
    let address = random.pick(&[0, 1, 1, 2]);
    built(b'R', address, &[])
}

/// A packet with a command that is none.
pub fn unlisted(random: &mut Random) -> Vec<u8> {
    let mut packet = built(b'E', random.word(), &[random.byte()]);
    packet[3] = random.pick(&[0x00, 0x07, 0x0E, b'A', b'e', 0xFF]);
    seal(&mut packet);
    packet
}

/// W of one byte whose checksum is 07, and behind it what 07 would make an R.
pub fn last_07(random: &mut Random) -> Vec<u8> {
    let mut packet = built(b'W', random.below(0xF000), &[0]);
    // the byte makes up for what the checksum is short of
    packet[8] = packet[9].wrapping_sub(0x07);
    packet[9] = 0x07;
    [&packet[..], &built(b'R', 1, &[])[1..]].concat()
}

/// W whose data are a start, or a whole packet.
pub fn start_inside(random: &mut Random) -> Vec<u8> {
    let inside = match random.below(3) {
        0 => START.to_vec(),
        1 => short_count(random),
        _ => run(random),
    };
    let data = [any(random, 2), inside, any(random, 1)].concat();
    built(b'W', random.below(0xF000), &data)
}

/// A packet damaged in some way, at times with a sum that is right again.
pub fn damaged(random: &mut Random, mut packet: Vec<u8>) -> Vec<u8> {
    random.damage(&mut packet);
    if random.once_in(2) {
        seal(&mut packet);
    }
    packet
}
