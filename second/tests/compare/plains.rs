//! The plain session: starts, steps, made-up plain sessions and marks; and both
//! sessions side by side, told the same events over the same files. What both
//! sides of the pair give is alike, so what is said here of one holds for the
//! product too.

use second::boundary::{PlainRecord, SessionRecord};
use second::cases::{Buffer, Part};
use second::loader::{ACK, BEL};

use crate::boards;
use crate::maps;
use crate::pair::{Kept, Pair};
use crate::random::Random;
use crate::sessions::{self, asked_end, hold, run, PACKET};
use crate::site::{Site, SITES};

/// Where both sessions write their log records.
const LOG: Part = Part::new(Buffer::Log, 43, 16);

/// So many files there are on each board: a step of the product lists a whole
/// file, so that there are few steps to each.
const FILES: u32 = 110;
/// So many events at most are told to both sessions from their start on.
const EVENTS: u32 = 12;
/// So many plain sessions are made up for each file.
const MADE_UP: u32 = 4;
/// The file whose plain sessions are looked at on both sides of each limit.
const BOUNDS: u32 = 9;
/// So many packets have the sessions whose states are all at hand.
const MANY: u32 = 2000;

/// Stages with an outcome: each that is listed, and what is next to them.
const STAGES: [(u32, u32); 17] = [
    (0, 0),
    (0, 40),
    (1, 0),
    (1, 1),
    (1, 40),
    (2, 0),
    (2, 1),
    (2, 40),
    (2, 41),
    (2, 42),
    (2, 43),
    (2, 2),
    (2, 39),
    (2, 44),
    (2, 296),
    (3, 0),
    (u32::MAX, 0),
];

pub fn compare(pair: &mut Pair) {
    let mut random = Random::new(16);
    for buffer in [Buffer::Image, Buffer::Map] {
        pair.fill_buffer(buffer, 0x5A);
    }
    for site in SITES {
        for kind in 0..FILES {
            let map = sessions::map(&mut random, site, kind);
            sessions::lend_file(pair, &mut random, site, &map);
            let other = sessions::other_map(&mut random, site, &map);
            pair.set(sessions::like_map(site), &other);
            file(pair, &mut random, site, kind);
        }
        pair.fill(site.map, 0);
        for _ in 0..100 {
            let told = run(&mut random);
            pair.plain_start(site.pages(), told, site.image, site.map, PACKET);
        }
        refused_over_an_empty_map(pair, &mut random, site);
    }
}

fn file(pair: &mut Pair, random: &mut Random, site: Site, kind: u32) {
    for _ in 0..2 {
        let (image, map) = site.lent(random);
        let (board, told) = (site.told(random), run(random));
        let buffer = sessions::buffer(random, site, image);
        pair.plain_start(board, told, image, map, buffer);
    }
    refused_start(pair, random, site, kind);
    for told in [0, 1, hold(random)] {
        let Some(start) = Both::start(pair, site, told) else {
            return;
        };
        each_end(pair, random, site, start);
        if told.min(2) == kind % 3 {
            series(pair, random, site, start);
            let near = any_state(pair, random, site, start);
            look_near(pair, random, site, near.plain);
        }
        // jump has the limits of reset
        if kind == BOUNDS && told != 1 {
            bounds(pair, random, site, start.plain);
        }
    }
}

/// A start with one part of a wrong size, another for each file.
fn refused_start(pair: &mut Pair, random: &mut Random, site: Site, kind: u32) {
    let (image, map, length) = match kind % 3 {
        0 => (site.wrong_image(random), site.map, 259),
        1 => (site.image, site.wrong_map(random), 259),
        _ => (site.image, site.map, random.below(259)),
    };
    let buffer = PACKET.with_length(length);
    pair.plain_start(site.pages(), run(random), image, map, buffer);
}

/// No start leads to a plain session over an empty map.
fn refused_over_an_empty_map(pair: &mut Pair, random: &mut Random, site: Site) {
    for (stage, outcome) in STAGES {
        for total in [0, 1, 3] {
            let state = PlainRecord {
                board: site.pages(),
                run: run(random),
                stage,
                outcome,
                acknowledged: random.pick(&[0, total]),
                total,
                named: 0,
            };
            step_right(pair, site, state);
            pair.proved(state, site.map, random.below(site.end()));
        }
    }
}

/// The session and the plain one that were told the same.
#[derive(Clone, Copy, Debug)]
struct Both {
    quick: SessionRecord,
    plain: PlainRecord,
}

/// The flag and the bytes of an event.
type Heard<'a> = (u8, &'a [u8]);

impl Both {
    /// Starts both; none where both are refused.
    fn start(pair: &mut Pair, site: Site, told: u32) -> Option<Both> {
        pair.fill(PACKET, 0x5A);
        let (number, quick) = pair.start(site.pages(), told, site.image, site.map, PACKET);
        let sent = pair.look(PACKET).to_vec();
        pair.fill(PACKET, 0x5A);
        let (same, plain) = pair.plain_start(site.pages(), told, site.image, site.map, PACKET);
        assert_eq!((number, &sent[..]), (same, pair.look(PACKET)));
        (number == 0).then(|| Both::of(quick, plain))
    }

    /// Their records must tell the same.
    fn of(quick: SessionRecord, plain: PlainRecord) -> Both {
        assert_eq!(plain_of(quick), plain);
        Both { quick, plain }
    }

    /// Tells both one event; number, packet and ending must be the same.
    fn step(self, pair: &mut Pair, heard: Heard, file: (Part, Part), buffer: Part) -> Both {
        let (quick, sent) = stepped(pair, self.quick, heard, file, buffer);
        let (plain, same) = stepped(pair, self.plain, heard, file, buffer);
        assert_eq!(sent, same, "{self:?} {heard:?}");
        Both::of(quick, plain)
    }

    /// The same over the file and with room for the packet.
    fn step_over(self, pair: &mut Pair, site: Site, heard: Heard) -> Both {
        self.step(pair, heard, site.file(), PACKET)
    }

    /// Outcome and log record must be the same.
    fn look_at_end(self, pair: &mut Pair) {
        let ended = pair.outcome(self.quick);
        assert_eq!(ended, pair.outcome(self.plain), "{self:?}");
        if let Some(outcome) = ended {
            pair.note(self.plain.board, "ended side by side", outcome);
        }
        for length in [LOG.length(), 15, 10, 9] {
            let buffer = LOG.with_length(length);
            let record = logged(pair, self.quick, buffer);
            assert_eq!(record, logged(pair, self.plain, buffer), "{self:?}");
        }
    }

    /// The mark of a byte must be the same.
    fn mark(self, pair: &mut Pair, map: Part, address: u32) -> Option<u8> {
        let quick = pair.proved(self.quick, map, address);
        let number = pair.number();
        let plain = pair.proved(self.plain, map, address);
        assert_eq!((number, quick), (pair.number(), plain), "{self:?}");
        plain
    }
}

/// The plain session that the same events lead to.
fn plain_of(quick: SessionRecord) -> PlainRecord {
    PlainRecord {
        board: quick.board,
        run: quick.run,
        stage: match quick.phase {
            0 => 0,
            5 => 2,
            _ => 1,
        },
        outcome: quick.outcome,
        acknowledged: quick.acknowledged,
        total: quick.total,
        named: quick.named,
    }
}

/// The next state; the number, and all that then stands in the buffer.
fn stepped<S: Kept>(
    pair: &mut Pair,
    state: S,
    (silent, bytes): Heard,
    file: (Part, Part),
    buffer: Part,
) -> (S, (u8, u32, Vec<u8>)) {
    // what the other has written does not count
    if buffer != Part::NULL {
        pair.fill(buffer, 0x5A);
    }
    let (length, next) = pair.step(state, silent, bytes, file, buffer);
    let written = pair.look(buffer).to_vec();
    (next, (pair.number(), length, written))
}

/// The number of a log record, and its bytes in a buffer.
fn logged(pair: &mut Pair, state: impl Kept, buffer: Part) -> (u8, Vec<u8>) {
    pair.fill(LOG, 0x5A);
    let (number, _) = pair.log(state, buffer);
    (number, pair.look(LOG).to_vec())
}

/// What the state waits for.
fn answer(site: Site, state: PlainRecord) -> &'static [u8] {
    match state.stage {
        0 => site.board.greeting(),
        _ => &[ACK],
    }
}

/// Both from their start on: mostly the answers that they wait for.
fn series(pair: &mut Pair, random: &mut Random, site: Site, start: Both) {
    let mut both = start;
    for _ in 0..EVENTS {
        let right = answer(site, both.plain);
        both = match random.once_in(8) {
            true => {
                let (silent, bytes) = sessions::any_event(random, right);
                let (file, buffer) = sessions::any_lent(pair, random, site, &bytes);
                both.step(pair, (silent, &bytes), file, buffer)
            }
            false => both.step_over(pair, site, (0, right)),
        };
        if random.once_in(3) {
            let named = sessions::named(pair, random, site, site.map);
            both.mark(pair, site.map, named);
        }
        if both.plain.stage == 2 {
            break;
        }
    }
    both.look_at_end(pair);
    both.step_over(pair, site, (0, &[ACK]));
}

/// Each kind of end: without the greeting, on the way and behind the last packet.
fn each_end(pair: &mut Pair, random: &mut Random, site: Site, start: Both) {
    let other = site.other().board.greeting();
    let early = random.pick(&[&[ACK], &[BEL]]);
    let waiting = random.pick(&[(0, &other[..]), (0, other), (0, early), (1, other)]);
    let under_way = any_state(pair, random, site, start);
    let (any, bel) = (random.bytes(2), &[BEL][..]);
    let wrong = random.pick(&[&[][..], &[ACK, ACK], &any, site.board.greeting()]);
    let last = last_state(pair, site, start);
    for (both, heard) in [
        (start, waiting),
        (under_way, random.pick(&[(0, bel), (0, wrong), (1, &[ACK])])),
        (last, (0, random.pick(&[bel, wrong]))),
        (last, (0, &[ACK])),
    ] {
        let ended = both.step_over(pair, site, heard);
        ended.look_at_end(pair);
        // the last of them is as asked, and has every byte proved
        if ended.plain.outcome == asked_end(start.plain.run).into() {
            let named = last_piece(pair, site);
            assert_eq!(ended.mark(pair, site.map, named), Some(1), "{ended:?}");
            ended.step_over(pair, site, heard);
        }
    }
}

/// Some state on the way; of a session of very many packets, one of its first.
fn any_state(pair: &mut Pair, random: &mut Random, site: Site, start: Both) -> Both {
    if start.plain.total > MANY {
        let greeted = start.step_over(pair, site, (0, site.board.greeting()));
        return greeted.step_over(pair, site, (0, &[ACK]));
    }
    let states = sessions::states(pair, site, start.quick);
    let place = 1 + random.below(start.plain.total) as usize;
    Both::of(states[place], plain_of(states[place]))
}

/// The wait for the answer to the last packet.
fn last_state(pair: &Pair, site: Site, start: Both) -> Both {
    let SessionRecord { run, total, .. } = start.quick;
    let quick = SessionRecord {
        acknowledged: total - 1,
        ..start.quick
    };
    let quick = match run {
        0 | 1 => SessionRecord { phase: 4, ..quick },
        _ => SessionRecord {
            phase: 3,
            address: last_piece(pair, site),
            ..quick
        },
    };
    Both::of(quick, plain_of(quick))
}

/// Where the last piece of the file starts.
fn last_piece(pair: &Pair, site: Site) -> u32 {
    let map = pair.look(site.map);
    let names = |address: &u32| maps::names(map, *address);
    let mut down = (0..site.end()).rev().skip_while(|address| !names(address));
    let last = down.next().expect("a named byte");
    let first = last - down.take_while(names).count() as u32;
    last - (last - first) % 250
}

/// What is near a state: made-up ones, other boards and other files.
fn look_near(pair: &mut Pair, random: &mut Random, site: Site, state: PlainRecord) {
    for _ in 0..MADE_UP {
        let made_up = made_up(random, state);
        let right = answer(site, made_up);
        let (silent, bytes) = sessions::any_event(random, right);
        pair.step(made_up, silent, &bytes, site.file(), PACKET);
        pair.outcome(made_up);
        pair.log(made_up, LOG);
        mark(pair, random, site, made_up);
    }
    let (other, like) = (site.other(), sessions::like_map(site));
    pair.step(state, 0, &[ACK], (site.image, like), PACKET);
    pair.proved(state, like, sessions::named(pair, random, site, like));
    let changed = PlainRecord {
        board: other.pages(),
        ..state
    };
    for file in [site.file(), other.file()] {
        pair.step(changed, 0, &[ACK], file, PACKET);
        pair.proved(changed, file.1, random.below(site.end()));
    }
    let wrong = site.wrong_map(random);
    pair.proved(state, wrong, random.below(site.end()));
    pair.step(
        state,
        0,
        &[ACK],
        (site.wrong_image(random), site.map),
        PACKET,
    );
}

/// The mark of a named byte or of any address, over the file's own map.
fn mark(pair: &mut Pair, random: &mut Random, site: Site, state: PlainRecord) {
    let (any, near) = (random.word(), random.within(site.end() - 2, site.end() + 2));
    let named = sessions::named(pair, random, site, site.map);
    let address = random.pick(&[named, named, named, named + 1, near, any]);
    pair.proved(state, site.map, address);
}

/// A plain session off by a little, or with fields of any value.
fn made_up(random: &mut Random, state: PlainRecord) -> PlainRecord {
    let mut made_up = state;
    let changes = random.pick(&[1, 1, 1, 2, 3, 6]);
    for _ in 0..changes {
        if random.once_in(24) {
            made_up.board = boards::unknown(random);
        }
        let field = match random.below(6) {
            0 => &mut made_up.run,
            1 => &mut made_up.stage,
            2 => &mut made_up.outcome,
            3 => &mut made_up.acknowledged,
            4 => &mut made_up.total,
            _ => &mut made_up.named,
        };
        *field = sessions::off(random, *field);
    }
    made_up
}

/// Records on both sides of each limit, over the file's own map.
fn bounds(pair: &mut Pair, random: &mut Random, site: Site, start: PlainRecord) {
    let PlainRecord { total, named, .. } = start;
    for (stage, outcome) in STAGES {
        for acknowledged in [0, 1, total - 1, total, total + 1, u32::MAX] {
            let state = PlainRecord {
                stage,
                outcome,
                acknowledged,
                ..start
            };
            look_at_bound(pair, random, site, state);
        }
        for (total, named) in [
            (total + 1, named),
            (total - 1, named),
            (total, named + 1),
            (total, named - 1),
        ] {
            let state = PlainRecord {
                stage,
                outcome,
                acknowledged: random.pick(&[0, total - 1, total]),
                total,
                named,
                ..start
            };
            look_at_bound(pair, random, site, state);
        }
    }
}

fn look_at_bound(pair: &mut Pair, random: &mut Random, site: Site, state: PlainRecord) {
    step_right(pair, site, state);
    pair.outcome(state);
    pair.log(state, LOG);
    mark(pair, random, site, state);
}

fn step_right(pair: &mut Pair, site: Site, state: PlainRecord) {
    pair.step(state, 0, answer(site, state), site.file(), PACKET);
}
