//! Numbers of pages that no board has, in every call that is told a board or
//! given a record that carries one; and records changed to the other board.

use second::boundary::{self, PlainRecord, ReaderRecord, SessionRecord};
use second::cases::{Buffer, Part};

use crate::files;
use crate::loaders;
use crate::maps;
use crate::noise;
use crate::pair::{Kept, Noise, Pair, Receiver};
use crate::random::Random;
use crate::rules::{self, SETS};
use crate::sessions::{self, PACKET};
use crate::site::{self, Site, SITES};
use crate::writer;

/// Rounds with every number that no board has, and with nothing lent at all.
const ROUNDS: u32 = 2;
const NULL_ROUNDS: u32 = 10;
/// Readers that are changed to the other board, on each.
const CHANGED: u32 = 40;

/// Next to a board's number, a multiple or a part of it, alike in some of its
/// bytes, or its number of something else.
const UNKNOWN: [u32; 28] = [
    0,
    1,
    2,
    31,
    61,
    62,
    63,
    123,
    125,
    186,
    247,
    249,
    255,
    256,
    372,
    496,
    124 + 0x100,
    248 + 0x100,
    124 + 0x1_0000,
    248 + 0x1_0000,
    124 << 8,
    124 << 24,
    248 << 24 | 248,
    7_936,
    63_488,
    126_976,
    124_u32.wrapping_neg(),
    u32::MAX,
];

/// A number of pages that no board has.
pub fn unknown(random: &mut Random) -> u32 {
    let any = random.word();
    let listed = random.pick(&UNKNOWN);
    match boundary::board(any) {
        Err(_) => random.pick(&[listed, listed, any]),
        Ok(_) => listed,
    }
}

/// What calls are lent.
#[derive(Clone, Copy)]
struct Lent {
    flash: Part,
    answer: Part,
    image: Part,
    map: Part,
    record: Part,
    packet: Part,
    log: Part,
}

impl Lent {
    const NULL: Lent = Lent {
        flash: Part::NULL,
        answer: Part::NULL,
        image: Part::NULL,
        map: Part::NULL,
        record: Part::NULL,
        packet: Part::NULL,
        log: Part::NULL,
    };

    /// All of a board's sizes.
    fn right(site: Site) -> Lent {
        Lent {
            flash: site.flash,
            answer: Part::new(Buffer::Answer, 77, 24),
            image: site.image,
            map: site.map,
            record: Part::new(Buffer::Record, 55, 44),
            packet: PACKET,
            log: Part::new(Buffer::Log, 33, 16),
        }
    }

    /// All of wrong sizes.
    fn wrong(random: &mut Random, site: Site) -> Lent {
        let right = Lent::right(site);
        let mut short = |part: Part| part.with_length(random.below(part.length()));
        Lent {
            answer: short(right.answer),
            record: short(right.record),
            packet: short(right.packet),
            log: short(right.log),
            flash: site::wrong(random, site.flash, site.other().flash),
            image: site.wrong_image(random),
            map: site.wrong_map(random),
        }
    }
}

pub fn compare(pair: &mut Pair) {
    let mut random = Random::new(9);
    for buffer in [Buffer::Flash, Buffer::Image, Buffer::Map] {
        pair.fill_buffer(buffer, 0x5A);
    }
    for site in SITES {
        let map = maps::few(&mut random, site.board);
        sessions::lend_file(pair, &mut random, site, &map);
        for _ in 0..ROUNDS {
            unknown_boards(pair, &mut random, site);
        }
        for _ in 0..NULL_ROUNDS {
            let none = unknown(&mut random);
            every_call(pair, &mut random, site, Lent::NULL, none);
        }
        for _ in 0..CHANGED {
            changed_reader(pair, &mut random, site);
        }
    }
}

/// Every number that no board has, in every call, with right sizes and wrong.
fn unknown_boards(pair: &mut Pair, random: &mut Random, site: Site) {
    for none in UNKNOWN {
        every_call(pair, random, site, Lent::right(site), none);
        let wrong = Lent::wrong(random, site);
        every_call(pair, random, site, wrong, none);
    }
}

fn every_call(pair: &mut Pair, random: &mut Random, site: Site, lent: Lent, board: u32) {
    told(pair, random, site, lent, board);
    read(pair, random, site, lent, board);
    let session = session(random, board);
    step(pair, random, site, lent, session);
    let plain = plain(random, board);
    step(pair, random, site, lent, plain);
}

/// The calls that are told a board.
fn told(pair: &mut Pair, random: &mut Random, site: Site, lent: Lent, board: u32) {
    let file = (lent.image, lent.map);
    let loader = loaders::any(random);
    let (any, mass_erase) = (random.bytes(9), loaders::built(b'E', 0, &[0]));
    let input = random.pick(&[&[][..], &[0x08], &mass_erase, &any]);
    pair.take(board, loader, input, lent.flash, lent.answer);
    let receiver = Receiver {
        bytes: noise::START.to_vec(),
        length: random.below(3).into(),
    };
    let port = (loader, &receiver);
    pair.port(board, port, input, lent.flash, lent.answer);
    let set = random.pick(&SETS);
    pair.hex(board, rules::told(random, set), lent.image, lent.map);
    let from = writer::any_address(random, site);
    pair.write(board, file, from, writer::any_upper(random), lent.record);
    let run = sessions::run(random);
    pair.start(board, run, lent.image, lent.map, lent.packet);
    pair.plain_start(board, run, lent.image, lent.map, lent.packet);
    let losses = random.pick(&[&[][..], &[1], &[0, 2]]);
    pair.rehearse(board, run, loader, losses, file, lent.flash);
    let noise = Noise {
        losses: losses.to_vec(),
        each: 2,
        rubbish: noise::any(random, 5),
    };
    pair.noisy(board, run, loader, &noise, file, lent.flash);
}

/// The calls that are given a reader.
fn read(pair: &mut Pair, random: &mut Random, site: Site, lent: Lent, board: u32) {
    let set = random.pick(&SETS);
    let state = ReaderRecord {
        board,
        ..files::made_up(random, site, set)
    };
    let text = files::text(random, site);
    pair.record(state, &text, lent.image, lent.map);
    pair.close_file(state);
}

/// A session of any values, of this board.
fn session(random: &mut Random, board: u32) -> SessionRecord {
    let any = random.word();
    SessionRecord {
        board,
        run: sessions::run(random),
        phase: random.pick(&[0, 1, 2, 3, 4, 5, 5, 5, 6, any]),
        outcome: random.pick(&[0, 0, 1, 40, 43, any]),
        acknowledged: random.pick(&[0, 3, 4, any]),
        total: random.pick(&[3, 4, any]),
        named: random.pick(&[1, 2, any]),
        ..SessionRecord::default()
    }
}

/// A plain one.
fn plain(random: &mut Random, board: u32) -> PlainRecord {
    let any = random.word();
    PlainRecord {
        board,
        run: sessions::run(random),
        stage: random.pick(&[0, 1, 2, 2, 3, any]),
        outcome: random.pick(&[0, 0, 1, 40, 43, any]),
        acknowledged: random.pick(&[0, 3, 4, any]),
        total: random.pick(&[3, 4, any]),
        named: random.pick(&[1, 2, any]),
    }
}

/// The calls that are given a session of either kind.
fn step(pair: &mut Pair, random: &mut Random, site: Site, lent: Lent, state: impl Kept) {
    let heard = random.pick(&[&[0x06][..], &[], site.board.greeting()]);
    let silent = random.pick(&[0, 0, 1]);
    let file = (lent.image, lent.map);
    pair.step(state, silent, heard, file, lent.packet);
    pair.proved(state, lent.map, random.below(site.end()));
    pair.outcome(state);
    pair.log(state, lent.log);
}

/// A reader changed to the other board: 20 with the file that it had, and over
/// one of that board's size it goes on.
fn changed_reader(pair: &mut Pair, random: &mut Random, site: Site) {
    let other = site.other();
    let mut state = pair.open_file(site, random.pick(&SETS));
    for _ in 0..random.within(1, 8) {
        let text = files::text(random, site);
        (_, state) = pair.record(state, &text, site.image, site.map);
    }
    let mut changed = ReaderRecord {
        board: other.pages(),
        ..state
    };
    for _ in 0..3 {
        let text = files::text(random, other);
        let (number, same) = pair.record(changed, &text, site.image, site.map);
        assert_eq!((number, same), (20, changed), "the other board's file");
        (_, changed) = pair.record(changed, &text, other.image, other.map);
    }
    pair.close_file(changed);
}
