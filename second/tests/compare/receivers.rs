//! The receiver and the port: streams of rubbish and packets, byte by byte, cut
//! anywhere and through a port; receivers of any values.

use second::boundary::LoaderRecord;
use second::cases::{Buffer, Part};
use second::packet::LONGEST;

use crate::loaders::{self, built};
use crate::noise::{self, START};
use crate::pair::{Pair, Ported, Receiver};
use crate::random::Random;
use crate::site::{Site, SITES};

const ANSWER: Part = Part::new(Buffer::Answer, 611, 24);

/// So many streams there are on each board, each of so many pieces.
const STREAMS: u32 = 130;
const PIECES: u32 = 10;
/// The inputs that a loader gets through a port, in so many runs on each board.
const RUNS: u32 = 4;
const INPUTS: u32 = 900;
/// Receivers of any values, on each board.
const MADE_UP: u32 = 700;

const SERVING: u8 = 1;
const LEFT: u8 = 2;

pub fn compare(pair: &mut Pair) {
    let mut random = Random::new(12);
    pair.fill_buffer(Buffer::Flash, 0xC3);
    for site in SITES {
        for _ in 0..STREAMS {
            one_stream(pair, &mut random, site);
        }
        for _ in 0..RUNS {
            one_run(pair, &mut random, site);
        }
        for _ in 0..MADE_UP {
            one_made_up(pair, &mut random, site);
        }
    }
}

/// Each packet that is handed on, and the place behind it.
type Handed = Vec<(usize, Vec<u8>)>;

/// What a loader gets, by the place behind it: the number and the answer.
type Inputs = Vec<(usize, u8, Vec<u8>)>;

/// One stream by each way, each packet at the same place.
fn one_stream(pair: &mut Pair, random: &mut Random, site: Site) {
    pair.fill(site.flash, random.byte());
    let loader = serving(random);
    let stream: Vec<u8> = (0..PIECES)
        .flat_map(|_| piece(pair, random, site, loader))
        .collect();
    let start = pair.hunt();
    let handed = cut_anywhere(pair, random, &start, &stream);
    note(pair, &stream, &handed);
    through_port(pair, random, site, (loader, &start), &stream, &handed);
}

/// A loader that serves, at times with a protect sequence open; its flags are as
/// answers have them.
fn serving(random: &mut Random) -> LoaderRecord {
    LoaderRecord {
        condition: SERVING,
        read: random.once_in(6).into(),
        opened: random.once_in(6).into(),
        added: 0,
        added_read: 0,
        ..loaders::any(random)
    }
}

/// Rubbish, and a packet or what could be taken for one.
fn piece(pair: &Pair, random: &mut Random, site: Site, loader: LoaderRecord) -> Vec<u8> {
    let packet = match random.below(16) {
        0..=3 => loaders::input(pair, random, site, loader),
        4 => {
            let packet = loaders::input(pair, random, site, loader);
            noise::damaged(random, packet)
        }
        5 => noise::false_start(random),
        6 | 7 => noise::last_07(random),
        8 | 9 => noise::start_inside(random),
        10 if random.once_in(4) => noise::run(random),
        10 => built(b'W', random.below(site.end()), &random.bytes(250)),
        _ => noise::short_count(random),
    };
    [noise::before_packet(random), packet].concat()
}

/// The packets of a stream, byte by byte and again in stretches.
fn cut_anywhere(pair: &mut Pair, random: &mut Random, start: &Receiver, stream: &[u8]) -> Handed {
    let handed = byte_by_byte(pair, start, stream);
    assert_eq!(in_stretches(pair, random, start, stream), handed);
    handed.0
}

fn byte_by_byte(pair: &mut Pair, start: &Receiver, stream: &[u8]) -> (Handed, Receiver) {
    let (mut handed, mut receiver) = (Handed::new(), start.clone());
    for (place, byte) in stream.iter().enumerate() {
        let packet;
        (packet, receiver) = pair.byte(&receiver, *byte);
        if !packet.is_empty() {
            handed.push((place + 1, packet));
        }
    }
    (handed, receiver)
}

fn in_stretches(
    pair: &mut Pair,
    random: &mut Random,
    start: &Receiver,
    stream: &[u8],
) -> (Handed, Receiver) {
    let (mut handed, mut receiver) = (Handed::new(), start.clone());
    let mut place = 0;
    while place < stream.len() {
        let stretch = stretch(random, &stream[place..]);
        let (taken, packet);
        (taken, packet, receiver) = pair.bytes(&receiver, stretch);
        place += taken;
        if packet.is_empty() {
            assert_eq!(taken, stretch.len(), "a stretch without a packet");
        } else {
            handed.push((place, packet));
        }
    }
    (handed, receiver)
}

/// The next bytes of a line, at times none or all of them.
fn stretch<'a>(random: &mut Random, rest: &'a [u8]) -> &'a [u8] {
    let length = match random.below(8) {
        0 => rest.len(),
        1 => random.pick(&[0, 1, 2]),
        _ => random.below(30) as usize,
    };
    &rest[..length.min(rest.len())]
}

/// Counts what was handed on, and what it was handed on from.
fn note(pair: &mut Pair, stream: &[u8], handed: &Handed) {
    let mut before = 0;
    for (end, packet) in handed {
        let start = end - packet.len();
        match packet[..] {
            [.., count] if packet.len() == 3 => pair.note_boardless("short count", count),
            _ => pair.note_boardless("handed on", 0),
        }
        if packet.len() == LONGEST {
            pair.note_boardless("handed on, the longest", 0);
        }
        if packet.windows(2).skip(2).any(|pair| pair == START) {
            pair.note_boardless("start inside a packet", 0);
        }
        if start > before && stream[start - 1] == 0x07 {
            pair.note_boardless("07 before a packet", 0);
        }
        if packet.ends_with(&[0x07]) && stream.get(*end) == Some(&0x0E) {
            pair.note_boardless("07 at the end, then 0E", 0);
        }
        before = *end;
    }
}

/// The packets taken by a loader one by one, and the stream through a port: the
/// same numbers and answers, and the same loader and flash at the end.
fn through_port(
    pair: &mut Pair,
    random: &mut Random,
    site: Site,
    (loader, receiver): (LoaderRecord, &Receiver),
    stream: &[u8],
    handed: &Handed,
) {
    let filling = random.byte();
    pair.fill(site.flash, filling);
    let taken = one_by_one(pair, site, loader, handed);
    let flash = pair.look(site.flash).to_vec();
    pair.fill(site.flash, filling);
    let ported = in_turn(pair, random, site, (loader, receiver), stream);
    assert_eq!(ported, taken);
    assert!(pair.look(site.flash) == flash, "the flash after a stream");
}

/// Each packet as an input, up to an R that is obeyed.
fn one_by_one(
    pair: &mut Pair,
    site: Site,
    mut loader: LoaderRecord,
    handed: &Handed,
) -> (Inputs, LoaderRecord) {
    let mut inputs = Inputs::new();
    for (end, packet) in handed {
        let answered;
        (answered, loader) = pair.take(site.pages(), loader, packet, site.flash, ANSWER);
        let answer = pair.look(ANSWER.with_length(answered)).to_vec();
        inputs.push((*end, pair.number(), answer));
        if loader.condition == LEFT {
            break;
        }
    }
    (inputs, loader)
}

/// The stream through a port, up to an R that is obeyed; what follows is 11.
fn in_turn(
    pair: &mut Pair,
    random: &mut Random,
    site: Site,
    (mut loader, receiver): (LoaderRecord, &Receiver),
    stream: &[u8],
) -> (Inputs, LoaderRecord) {
    let (mut inputs, mut receiver) = (Inputs::new(), receiver.clone());
    let mut place = 0;
    while place < stream.len() && loader.condition != LEFT {
        let stretch = stretch(random, &stream[place..]);
        let port = (loader, &receiver);
        let ported = pair.port(site.pages(), port, stretch, site.flash, ANSWER);
        place += ported.taken;
        if ported.number != 0 || !ported.answer.is_empty() {
            inputs.push((place, ported.number, ported.answer));
        } else {
            assert_eq!(ported.taken, stretch.len(), "a stretch without an input");
        }
        (loader, receiver) = (ported.loader, ported.receiver);
    }
    if loader.condition == LEFT {
        after_r(pair, site, (loader, &receiver), &stream[place..]);
    }
    (inputs, loader)
}

/// Nothing is fed after R: each byte is 11 by itself.
fn after_r(pair: &mut Pair, site: Site, port: (LoaderRecord, &Receiver), rest: &[u8]) {
    for place in 0..rest.len().min(2) {
        let ported = pair.port(site.pages(), port, &rest[place..], site.flash, ANSWER);
        assert_eq!((ported.number, ported.taken), (11, 1), "a byte after R");
        assert_eq!((ported.loader, &ported.receiver), port, "a port after R");
    }
}

/// Inputs of all kinds through a port, with rubbish between them, at times with
/// buffers of a wrong size or on another board.
fn one_run(pair: &mut Pair, random: &mut Random, site: Site) {
    let mut port = (pair.factory(random.byte()), pair.hunt());
    let bytes = random.bytes(site.end());
    pair.set(site.flash, &bytes);
    for _ in 0..INPUTS {
        let line = line(pair, random, site, port.0);
        port = feed(pair, random, site, port, &line);
        let leaves = port.0.condition == LEFT;
        if (leaves && random.once_in(2)) || random.once_in(150) {
            port.0 = pair.reset(port.0);
        }
    }
}

/// What a loader gets next: rubbish and an input while it serves, else a byte or
/// two.
fn line(pair: &Pair, random: &mut Random, site: Site, loader: LoaderRecord) -> Vec<u8> {
    let mut input = match random.below(24) {
        0 | 1 if loader.condition == SERVING => noise::run(random),
        2 => noise::unlisted(random),
        _ => loaders::input(pair, random, site, loader),
    };
    if loader.condition == SERVING {
        return [noise::before_packet(random), input].concat();
    }
    input.truncate(2);
    input
}

/// Feeds bytes to a port until all are taken.
fn feed(
    pair: &mut Pair,
    random: &mut Random,
    site: Site,
    (mut loader, mut receiver): (LoaderRecord, Receiver),
    mut rest: &[u8],
) -> (LoaderRecord, Receiver) {
    while !rest.is_empty() {
        if random.once_in(8) {
            pair.move_input(random.below(64));
        }
        let stretch = match random.once_in(4) {
            true => stretch(random, rest),
            false => rest,
        };
        let told = site.told(random);
        let (flash, answer) = loaders::lent(pair, random, site, stretch);
        let ported = pair.port(told, (loader, &receiver), stretch, flash, answer);
        if let 20 | 65 = ported.number {
            assert_eq!((ported.loader, &ported.receiver), (loader, &receiver));
            assert_eq!(ported.taken, 0, "a refusal with no byte taken");
        }
        if ported.loader.condition != loader.condition {
            pair.note(told, "led to by a port", ported.loader.condition);
        }
        rest = &rest[ported.taken..];
        (loader, receiver) = (ported.loader, ported.receiver);
    }
    (loader, receiver)
}

/// A receiver of any values, fed by each way.
fn one_made_up(pair: &mut Pair, random: &mut Random, site: Site) {
    let made_up = made_up(random);
    let mut stream = noise::any(random, 6);
    if random.once_in(2) {
        stream.extend(noise::short_count(random));
    }
    note_made_up(pair, &made_up);
    let handed = cut_anywhere(pair, random, &made_up, &stream);
    let port = (serving(random), &made_up);
    through_port(pair, random, site, port, &stream, &handed);
    let any = loaders::any(random);
    let stretch = stretch(random, &stream);
    let ported = pair.port(site.pages(), (any, &made_up), stretch, site.flash, ANSWER);
    if any.condition != SERVING && !stretch.is_empty() {
        as_it_came(&made_up, &ported);
    }
}

/// A receiver next to what a stream leads to, or nothing like it.
fn made_up(random: &mut Random) -> Receiver {
    let any = random.byte();
    let count = random.pick(&[0, 1, 4, 5, 6, 7, 12, 254, 255, any]);
    let (first, second) = random.pick(&[(0x07, 0x0E), (0x07, 0x0E), (any, 0x0E), (0, any)]);
    let behind = random.pick(&[0, 4, u32::from(count), 256]);
    let mut bytes = [&[first, second, count], &random.bytes(behind)[..]].concat();
    bytes.truncate(bytes.len() - bytes.iter().rev().take_while(|byte| **byte == 0).count());
    let whole = u64::from(count) + 4;
    let low = random.within(0, 4).into();
    let near = whole - u64::from(random.below(4));
    let large = random.pick(&[258, 259, 260, 1 << 16, 1 << 32, 1 << 63, u64::MAX]);
    let length = random.pick(&[low, near, near, near, whole + 1, large, large]);
    Receiver { bytes, length }
}

fn note_made_up(pair: &mut Pair, made_up: &Receiver) {
    let gathered = made_up.length.min(LONGEST as u64);
    let count = made_up.bytes.get(2).copied().unwrap_or(0);
    if gathered > 2 && gathered > u64::from(count) + 3 {
        pair.note_boardless("dropped", 0);
    }
    if made_up.length > LONGEST as u64 {
        pair.note_boardless("longer than there is", 0);
    }
}

/// While the loader does not serve it gets the first byte alone, and the receiver
/// has then gathered nothing.
fn as_it_came(receiver: &Receiver, ported: &Ported) {
    assert_eq!(ported.taken, 1, "a byte as it came");
    assert_eq!(ported.receiver.bytes, receiver.bytes, "its bytes");
    assert_eq!(ported.receiver.length, 0, "its length");
}
