//! Whole loads with rubbish on the line.

use second::boundary::LoaderRecord;
use second::cases::{Buffer, Part};

use crate::loaders;
use crate::noise::{self, HELLO, START};
use crate::pair::{Noise, Pair};
use crate::random::Random;
use crate::rehearsals::{self, last_exchange};
use crate::sessions::{asked_end, hold, lend_file, run};
use crate::site::{Site, SITES};

/// The files on each board.
const FILES: u32 = 14;
/// Loads of a file with rubbish that has no start in it, and with any, by each run
/// kind.
const QUIET_LOADS: u32 = 12;
const LOADS: u32 = 40;
/// Loads that are refused, on each board.
const REFUSED: u32 = 110;

const LEFT: u8 = 2;

pub fn compare(pair: &mut Pair) {
    let mut random = Random::new(13);
    for buffer in [Buffer::Flash, Buffer::Image, Buffer::Map] {
        pair.fill_buffer(buffer, 0xC3);
    }
    for site in SITES {
        for _ in 0..FILES {
            one_file(pair, &mut random, site);
        }
        refused(pair, &mut random, site);
    }
}

fn one_file(pair: &mut Pair, random: &mut Random, site: Site) {
    let map = rehearsals::small(random, site);
    let loading = lend_file(pair, random, site, &map);
    for told in [0, 1, hold(random)] {
        let last = last_exchange(told, loading) as usize;
        whole(pair, random, site, told, last);
        for _ in 0..QUIET_LOADS {
            lossy(pair, random, site, told, last);
            opened(pair, random, site, told, last);
        }
        for _ in 0..LOADS {
            loud(pair, random, site, told, last);
        }
    }
}

/// Nothing lost, nothing protected and no start in the rubbish: it ends as asked.
fn whole(pair: &mut Pair, random: &mut Random, site: Site, told: u32, last: usize) {
    let open = LoaderRecord {
        groups: 0,
        read: 0,
        ..rehearsals::loader(random, site)
    };
    let noise = quiet(random, last, vec![]);
    let outcome = as_without(pair, random, site, told, open, &[], &noise);
    assert_eq!(outcome, asked_end(told));
}

/// Any loader, at times with a loss, and no start in the rubbish.
fn lossy(pair: &mut Pair, random: &mut Random, site: Site, told: u32, last: usize) {
    let any = protected(random, site);
    let losses = losses(random, last);
    let noise = quiet(random, last, losses.clone());
    as_without(pair, random, site, told, any, &losses, &noise);
}

/// The opening byte lost, and another in the rubbish: as if none were.
fn opened(pair: &mut Pair, random: &mut Random, site: Site, told: u32, last: usize) {
    let any = protected(random, site);
    let mut losses = losses(random, last);
    losses[0] = 0;
    let mut noise = quiet(random, last, losses.clone());
    noise.losses[0] = 1;
    noise.each = random.within(1, 9).into();
    noise.rubbish.insert(0, HELLO);
    let outcome = as_without(pair, random, site, told, any, &losses, &noise);
    if outcome == asked_end(told) {
        pair.note(site.pages(), "opened by rubbish", HELLO);
    }
}

/// Any loader, often with read protection in the way.
fn protected(random: &mut Random, site: Site) -> LoaderRecord {
    LoaderRecord {
        read: random.once_in(3).into(),
        ..rehearsals::loader(random, site)
    }
}

/// A loss in some exchange, at times none, or one behind the last.
fn losses(random: &mut Random, last: usize) -> Vec<u8> {
    let mut losses = vec![0; random.below(last as u32 + 2) as usize];
    losses.push(random.pick(&[0, 0, 0, 0, 1, 2, 2, 255]));
    losses
}

/// Rubbish with no start in it before each packet, at times before the first
/// alone; where the opening byte is lost, none that opens the board in its place.
fn quiet(random: &mut Random, last: usize, losses: Vec<u8>) -> Noise {
    let each = random.pick(&[0, 1, 2, 3, 9, 9, 20]);
    let length = random.below(each * (last as u32 + 2) + 3) as usize;
    let mut rubbish = noise::quiet(random, length);
    if losses.first() == Some(&1) {
        // without 08 a 0E might come to stand behind 07
        rubbish.retain(|byte| *byte != HELLO && *byte != START[1]);
    }
    let each = match random.below(10) {
        0 => random.pick(&[u64::MAX, 1 << 63, 1 << 62, 1 << 32]),
        _ => each.into(),
    };
    Noise {
        losses,
        each,
        rubbish,
    }
}

/// One load with these losses and no rubbish, and again with noise, which must end
/// alike; gives its outcome.
fn as_without(
    pair: &mut Pair,
    random: &mut Random,
    site: Site,
    told: u32,
    loader: LoaderRecord,
    losses: &[u8],
    noise: &Noise,
) -> u8 {
    let filling = random.byte();
    let (board, file) = (site.pages(), site.file());
    pair.fill(site.flash, filling);
    let plain = pair.rehearse(board, told, loader, losses, file, site.flash);
    let flash = pair.look(site.flash).to_vec();
    pair.fill(site.flash, filling);
    let noisy = pair.noisy(board, told, loader, noise, file, site.flash);
    assert_eq!(noisy, plain, "{noise:?}");
    assert!(pair.look(site.flash) == flash, "the flash after {noise:?}");
    let session = noisy.2;
    let outcome = session.outcome.try_into().expect("an outcome");
    pair.note(board, "ended as without rubbish", outcome);
    if outcome == asked_end(told) && ends_in_07(noise, session.acknowledged as usize) {
        pair.note(board, "07 before a packet", 0x07);
    }
    outcome
}

/// Whether the rubbish before one of so many packets ends in 07.
fn ends_in_07(noise: &Noise, packets: usize) -> bool {
    let each = noise.each as usize;
    let rubbish = match each {
        0 => [].chunks_exact(1),
        _ => noise.rubbish.chunks_exact(each),
    };
    // the first stands before the opening byte
    rubbish
        .skip(1)
        .take(packets)
        .any(|part| part.ends_with(&[0x07]))
}

/// Any rubbish, most of it in one exchange.
fn loud(pair: &mut Pair, random: &mut Random, site: Site, told: u32, last: usize) {
    let place = random.pick(&[0, 0, 1, 1, 1, 2, 2, last / 2, last]);
    let piece = piece(pair, random, site, place);
    let each = piece.len() + random.below(3) as usize;
    let mut rubbish = noise::quiet(random, place * each);
    rubbish.extend(noise::quiet(random, each - piece.len()));
    rubbish.extend(piece);
    let more = random.below(4) as usize;
    rubbish.extend(noise::any(random, more));
    let mut losses = vec![0; place];
    losses.push(random.pick(&[0, 0, 0, 1, 1, 2]));
    let noise = Noise {
        losses,
        each: each as u64,
        rubbish,
    };
    pair.fill(site.flash, random.byte());
    let loader = rehearsals::loader(random, site);
    let board = site.pages();
    let (_, after, _) = pair.noisy(board, told, loader, &noise, site.file(), site.flash);
    if told > 1 && after.condition == LEFT {
        // a hold session sends no R
        pair.note(board, "R out of rubbish", LEFT);
    }
}

/// What is more than rubbish: a short count, packets, or a start that takes the
/// packet for data; before the greeting, behind a byte that opens the board.
fn piece(pair: &Pair, random: &mut Random, site: Site, place: usize) -> Vec<u8> {
    let serving = LoaderRecord {
        condition: 1,
        ..loaders::any(random)
    };
    let mut piece = match random.below(10) {
        0..=2 => noise::short_count(random),
        3 | 4 => noise::run(random),
        5 => noise::false_start(random),
        6 => START.to_vec(),
        7 => noise::any(random, 12),
        8 if place == 0 => vec![],
        8 => loaders::input(pair, random, site, serving),
        _ => [noise::short_count(random), noise::run(random)].concat(),
    };
    if place == 0 && !random.once_in(4) {
        piece.insert(0, HELLO);
    }
    piece
}

/// Loads with buffers of wrong sizes, the other board's among them, and of a file
/// that names nothing.
fn refused(pair: &mut Pair, random: &mut Random, site: Site) {
    for _ in 0..REFUSED {
        let flash = match random.once_in(2) {
            true => random.pick(&[site.other().flash, Part::NULL]),
            false => site.flash.with_length(site.end() - 1),
        };
        refuse(pair, random, site, site.file(), flash);
        let file = match random.once_in(2) {
            true => (site.wrong_image(random), site.map),
            false => (site.image, site.wrong_map(random)),
        };
        refuse(pair, random, site, file, site.flash);
    }
    pair.fill(site.map, 0);
    for _ in 0..REFUSED {
        refuse(pair, random, site, site.file(), site.flash);
    }
}

fn refuse(pair: &mut Pair, random: &mut Random, site: Site, file: (Part, Part), flash: Part) {
    let loader = rehearsals::loader(random, site);
    let losses = losses(random, 2);
    let rubbish = noise::any(random, 6);
    let noise = Noise {
        losses,
        each: 2,
        rubbish,
    };
    let told = run(random);
    let (number, ..) = pair.noisy(site.pages(), told, loader, &noise, file, flash);
    assert_ne!(number, 0, "a load that is refused");
}
