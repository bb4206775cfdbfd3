//! The host session: starts, steps, made-up sessions and marks.

use second::boundary::SessionRecord;
use second::cases::{Buffer, Part};
use second::loader::{ACK, BEL};
use second::map::Map;
use second::session::{Event, Phase};
use second::units::PAGE_BYTES;

use crate::boards;
use crate::maps;
use crate::pair::Pair;
use crate::random::Random;
use crate::site::{self, Site, SITES};

pub const PACKET: Part = Part::new(Buffer::Packet, 501, 259);

/// So many files there are on each board.
const FILES: u32 = 40;
/// So many states of a file are looked at.
const STATES: u32 = 40;

/// Phases with page, address and outcome: each end, those that use none of
/// them, and records next to them that mean no session.
const ENDS_AND_PLACELESS: [(u32, u32, u32, u32); 21] = [
    (5, 0, 0, 0),
    (5, 0, 0, 1),
    (5, 0, 0, 40),
    (5, 0, 0, 41),
    (5, 0, 0, 42),
    (5, 0, 0, 43),
    (5, 0, 0, 2),
    (5, 0, 0, 39),
    (5, 0, 0, 44),
    (5, 0, 0, u32::MAX),
    (5, 1, 0, 40),
    (5, 0, 1, 40),
    (0, 0, 0, 0),
    (0, 1, 0, 0),
    (0, 0, 1, 0),
    (0, 0, 0, 40),
    (4, 0, 0, 0),
    (4, 0, 1, 0),
    (6, 0, 0, 0),
    (6, 0, 0, 40),
    (u32::MAX, 0, 0, 0),
];

pub fn compare(pair: &mut Pair) {
    let mut random = Random::new(4);
    for buffer in [Buffer::Image, Buffer::Map] {
        pair.fill_buffer(buffer, 0x5A);
    }
    for site in SITES {
        for kind in 0..FILES {
            let map = map(&mut random, site, kind);
            lend_file(pair, &mut random, site, &map);
            let other = other_map(&mut random, site, &map);
            pair.set(like_map(site), &other);
            pair.set(any_map(site), &maps::any(&mut random, site.board));
            // not in step with the maps, so that each run kind meets each
            let told = match kind % 3 {
                0 => hold(&mut random),
                run => run - 1,
            };
            file(pair, &mut random, site, told);
        }
        pair.fill(site.map, 0);
        for _ in 0..100 {
            let told = run(&mut random);
            pair.start(site.pages(), told, site.image, site.map, PACKET);
            refused_over_an_empty_map(pair, &mut random, site);
        }
    }
}

/// Where the map of another file over the same image stands, much like the
/// session's.
pub fn like_map(site: Site) -> Part {
    Part::new(Buffer::Other, 77, site.map.length())
}

/// Where a map of any kind stands.
fn any_map(site: Site) -> Part {
    Part::new(Buffer::Other, 20_000, site.map.length())
}

/// Lends a file of random bytes and gives how many packets load it, without R.
pub fn lend_file(pair: &mut Pair, random: &mut Random, site: Site, map: &[u8]) -> u32 {
    let bytes = random.bytes(site.end());
    pair.set(site.image, &bytes);
    pair.set(site.map, map);
    let map = Map::new(site.board, map).expect("a map");
    map.survey(None).loading()
}

/// A map of one of so many kinds.
pub fn map(random: &mut Random, site: Site, kind: u32) -> Vec<u8> {
    let (board, end) = (site.board, site.end());
    match kind {
        0 => vec![0xFF; site.map_bytes()],
        1 => vec![0x55; site.map_bytes()],
        2 => random.bytes(site.map_bytes() as u32),
        3 => maps::of_runs(board, &[(end - 1, 1)]),
        4..=8 => maps::of_runs(board, &[(end - kind * kind / 2, end)]),
        9 => maps::of_runs(board, &[(0xF7FF, 2), (0xFFFF, 2), (end - 1, 1)]),
        _ => match kind % 4 {
            0 => maps::few(random, board),
            1 => maps::pieces(random, board),
            2 => maps::scattered(random, board),
            _ => maps::any(random, board),
        },
    }
}

/// A map much like this one, often with the same counts.
pub fn other_map(random: &mut Random, site: Site, map: &[u8]) -> Vec<u8> {
    let mut other = map.to_vec();
    match random.below(4) {
        0 => other.rotate_right(64),
        1 => other.rotate_right(random.place(map)),
        2 => {
            let place = random.place(map);
            other[place] ^= 1 << random.below(8);
        }
        _ => other = maps::any(random, site.board),
    }
    other
}

/// A file under this run kind, and what is near its sessions of all kinds.
fn file(pair: &mut Pair, random: &mut Random, site: Site, told: u32) {
    for _ in 0..15 {
        let (image, map) = site.lent(random);
        let (board, any) = (site.told(random), run(random));
        let buffer = buffer(random, site, image);
        pair.start(board, any, image, map, buffer);
    }
    refused_starts(pair, random, site);
    let (number, start) = pair.start(site.pages(), told, site.image, site.map, PACKET);
    if number != 0 {
        refused_over_an_empty_map(pair, random, site);
        return;
    }
    greetings(pair, random, site, start);
    bounds(pair, random, site, start);
    last_records(pair, random, site, start);
    let states = states(pair, site, start);
    if states.len() <= STATES as usize {
        for state in &states {
            look_at(pair, random, site, *state);
        }
    } else {
        for _ in 0..STATES {
            let place = random.below(states.len() as u32) as usize;
            look_at(pair, random, site, states[place]);
        }
        for state in states.iter().rev().take(3) {
            look_at(pair, random, site, *state);
        }
    }
}

/// Starts with each part of a wrong size.
fn refused_starts(pair: &mut Pair, random: &mut Random, site: Site) {
    let (image, map) = (site.wrong_image(random), site.wrong_map(random));
    for (image, map, length) in [
        (image, site.map, 259),
        (site.image, map, 259),
        (site.image, site.map, random.below(259)),
    ] {
        let buffer = PACKET.with_length(length);
        pair.start(site.pages(), run(random), image, map, buffer);
    }
}

/// No start leads to a session over an empty map.
fn refused_over_an_empty_map(pair: &mut Pair, random: &mut Random, site: Site) {
    for phase in 0..7 {
        for total in [0, 1, 3, 4] {
            let place = random.pick(&[0, 0, 0, 1, 40, 42]);
            let state = SessionRecord {
                run: run(random),
                acknowledged: random.pick(&[0, 1, total]),
                total,
                ..placed(site, phase, place)
            };
            step_right(pair, site, state);
            pair.proved(state, site.map, random.below(site.end()));
        }
    }
}

/// A phase with a value in the field that goes with it.
fn placed(site: Site, phase: u32, value: u32) -> SessionRecord {
    let mut record = SessionRecord {
        board: site.pages(),
        phase,
        ..SessionRecord::default()
    };
    match phase {
        1 => record.page = value,
        2 | 3 => record.address = value,
        _ => record.outcome = value,
    }
    record
}

/// The other board's greeting, and ones with one byte other than it is, free or
/// not.
fn greetings(pair: &mut Pair, random: &mut Random, site: Site, start: SessionRecord) {
    let other = site.other().board.greeting();
    let (_, next) = pair.step(start, 0, other, site.file(), PACKET);
    assert_eq!(pair.outcome(next), Some(42), "the other board's greeting");
    for _ in 0..4 {
        let mut greeting = *site.board.greeting();
        let place = random.place(&greeting);
        greeting[place] ^= 1 << random.below(8);
        pair.step(start, 0, &greeting, site.file(), PACKET);
    }
}

/// Marks of records on both sides of each bound, over the file's own map.
fn bounds(pair: &mut Pair, random: &mut Random, site: Site, start: SessionRecord) {
    let SessionRecord { total, named, .. } = start;
    let counts = [
        (total, named),
        (total + 1, named),
        (total - 1, named),
        (total, named + 1),
        (total, named - 1),
    ];
    for (phase, page, address, outcome) in ENDS_AND_PLACELESS {
        for acknowledged in [0, 1, total - 1, total, total + 1, u32::MAX] {
            for (total, named) in counts {
                let other = run(random);
                let state = SessionRecord {
                    board: start.board,
                    run: random.pick(&[start.run, start.run, other]),
                    phase,
                    page,
                    address,
                    outcome,
                    acknowledged,
                    total,
                    named,
                };
                mark(pair, random, site, state);
            }
        }
    }
}

/// R's phase and each kind of end under each run kind, with the total of either
/// and all counts next to it, over the file's own map.
fn last_records(pair: &mut Pair, random: &mut Random, site: Site, start: SessionRecord) {
    let loading = loading(start);
    for told in [0, 1, hold(random)] {
        for (phase, outcome) in [(4, 0), (5, 0), (5, 1), (5, 40)] {
            for total in [loading, loading + 1] {
                for acknowledged in [loading - 1, loading, loading + 1] {
                    let state = SessionRecord {
                        run: told,
                        acknowledged,
                        total,
                        named: start.named,
                        ..placed(site, phase, outcome)
                    };
                    let next = step_right(pair, site, state);
                    pair.outcome(next);
                    mark(pair, random, site, state);
                }
            }
        }
    }
}

/// The packets of the file without R: all that hold sends.
fn loading(state: SessionRecord) -> u32 {
    state.total - u32::from(state.run < 2)
}

/// The mark of a named byte over the file's own map.
fn mark(pair: &mut Pair, random: &mut Random, site: Site, state: SessionRecord) {
    let address = named(pair, random, site, site.map);
    pair.proved(state, site.map, address);
}

/// A named address of a map of the board.
pub fn named(pair: &Pair, random: &mut Random, site: Site, map: Part) -> u32 {
    maps::named_from(site.board, pair.look(map), random.below(site.end()))
}

/// Each state that a start and acknowledgements lead to, the end that was asked
/// for last.
pub fn states(pair: &Pair, site: Site, start: SessionRecord) -> Vec<SessionRecord> {
    let (image, map) = (pair.look(site.image), pair.look(site.map));
    let mut buffer = [0; 259];
    let mut session = start.meaning().expect("a known board");
    let mut states = vec![start];
    while !matches!(session.phase, Phase::Ended(_)) {
        let event = Event::Answer(expected(site, session.phase));
        let stepped = session.step(event, image, map, &mut buffer);
        (session, _) = stepped.expect("a step");
        states.push(session.into());
    }
    states
}

fn expected(site: Site, phase: Phase) -> &'static [u8] {
    match phase {
        Phase::Greeting => site.board.greeting(),
        _ => &[ACK],
    }
}

/// Goes through the file's whole session of each run kind and gives its named
/// bytes.
pub fn walk(pair: &mut Pair, site: Site) -> u32 {
    let mut named = 0;
    for told in 0..3 {
        let (_, mut state) = pair.start(site.pages(), told, site.image, site.map, PACKET);
        while state.phase != 5 {
            state = step_right(pair, site, state);
        }
        assert_eq!(pair.outcome(state), Some(asked_end(told)));
        named = state.named;
    }
    named
}

/// How a session of this run kind ends that got every answer.
pub fn asked_end(told: u32) -> u8 {
    u8::from(told > 1)
}

/// One state of the file: what it answers to, and what is near it.
fn look_at(pair: &mut Pair, random: &mut Random, site: Site, state: SessionRecord) {
    pair.outcome(state);
    let next = step_right(pair, site, state);
    pair.outcome(next);
    under_each_kind(pair, random, site, state);
    on_other_board(pair, random, site, state);
    for _ in 0..3 {
        let next = step_any(pair, random, site, state);
        pair.outcome(next);
        if next != state && random.once_in(4) {
            step_any(pair, random, site, next);
        }
        marks(pair, random, site, next);
    }
    for _ in 0..4 {
        let made_up = made_up(random, state);
        step_right(pair, site, made_up);
        pair.outcome(made_up);
    }
    let made_up = made_up(random, state);
    step_any(pair, random, site, made_up);
    marks(pair, random, site, made_up);
    let ended = said_to_have_ended(random, state);
    step_any(pair, random, site, ended);
    pair.outcome(ended);
    marks(pair, random, site, ended);
    let other_file = (site.image, like_map(site));
    pair.step(state, 0, answer(site, state), other_file, PACKET);
    marks(pair, random, site, state);
}

/// The state under each run kind, with the total of either.
fn under_each_kind(pair: &mut Pair, random: &mut Random, site: Site, state: SessionRecord) {
    let loading = loading(state);
    for told in [0, 1, hold(random)] {
        for total in [loading, loading + 1] {
            let changed = SessionRecord {
                run: told,
                total,
                ..state
            };
            step_right(pair, site, changed);
            mark(pair, random, site, changed);
        }
    }
}

/// The state changed to the other board, with the old file and with one of that
/// board's size.
fn on_other_board(pair: &mut Pair, random: &mut Random, site: Site, state: SessionRecord) {
    let other = site.other();
    let changed = SessionRecord {
        board: other.pages(),
        ..state
    };
    for file in [site.file(), other.file()] {
        let heard = random.pick(&[answer(site, state), answer(other, state)]);
        let (_, next) = pair.step(changed, 0, heard, file, PACKET);
        pair.proved(changed, file.1, random.below(site.end()));
        let goes_on = next != changed;
        assert!(!goes_on || file == other.file(), "{changed:?}");
    }
    pair.outcome(changed);
}

/// What the state waits for; of one that means nothing, any answer.
fn answer(site: Site, state: SessionRecord) -> &'static [u8] {
    let phase = state.meaning().map(|session| session.phase);
    expected(site, phase.unwrap_or(Phase::Greeting))
}

fn step_right(pair: &mut Pair, site: Site, state: SessionRecord) -> SessionRecord {
    let answer = answer(site, state);
    pair.step(state, 0, answer, site.file(), PACKET).1
}

/// A step with any answer, silence and buffers of wrong sizes among them.
fn step_any(
    pair: &mut Pair,
    random: &mut Random,
    site: Site,
    state: SessionRecord,
) -> SessionRecord {
    let (silent, bytes) = any_event(random, answer(site, state));
    let (file, buffer) = any_lent(pair, random, site, &bytes);
    pair.step(state, silent, &bytes, file, buffer).1
}

/// The flag and the bytes of an event, often the answer that is waited for.
pub fn any_event(random: &mut Random, right: &[u8]) -> (u8, Vec<u8>) {
    let mut bytes = match random.below(4) {
        0 => vec![BEL],
        1 => vec![ACK],
        _ => right.to_vec(),
    };
    match random.below(6) {
        0 => random.damage(&mut bytes),
        1 => bytes.clear(),
        2 => bytes.extend_from_within(..),
        3 => bytes = vec![random.byte()],
        _ => {}
    }
    (random.pick(&[0, 0, 0, 0, 1, 0x80]), bytes)
}

/// File and packet buffer, at times of a wrong size; the buffer at times right
/// behind the bytes that the line brings.
pub fn any_lent(
    pair: &mut Pair,
    random: &mut Random,
    site: Site,
    brought: &[u8],
) -> ((Part, Part), Part) {
    let file = site.lent(random);
    let buffer = match random.once_in(8) {
        true => {
            pair.move_input(random.below(64));
            pair.behind_input(brought, 259)
        }
        false => buffer(random, site, file.0),
    };
    (file, buffer)
}

/// A run kind by its number, each kind as often.
pub fn run(random: &mut Random) -> u32 {
    let hold = hold(random);
    random.pick(&[0, 1, hold])
}

/// Hold by any of its numbers.
pub fn hold(random: &mut Random) -> u32 {
    let any = random.within(3, u32::MAX);
    random.pick(&[2, 2, 3, u32::MAX, any])
}

/// A packet buffer, at times of a wrong size or next to the file.
pub fn buffer(random: &mut Random, site: Site, image: Part) -> Part {
    match random.below(30) {
        0 => PACKET.with_length(258),
        1 => PACKET.with_length(random.below(259)),
        2 => Part::NULL,
        3..=6 => site::behind(image, PACKET),
        7 => site.map.before(259),
        _ => PACKET.with_length(random.within(259, 300)),
    }
}

/// A session off by a little, or with fields of any value.
fn made_up(random: &mut Random, state: SessionRecord) -> SessionRecord {
    let mut made_up = state;
    let changes = random.pick(&[1, 1, 1, 2, 3, 8]);
    for _ in 0..changes {
        if random.once_in(24) {
            made_up.board = boards::unknown(random);
        }
        let field = match random.below(8) {
            0 => &mut made_up.run,
            1 => &mut made_up.phase,
            2 => &mut made_up.page,
            3 => &mut made_up.address,
            4 => &mut made_up.outcome,
            5 => &mut made_up.acknowledged,
            6 => &mut made_up.total,
            _ => &mut made_up.named,
        };
        *field = off(random, *field);
    }
    made_up
}

/// A field's value off by a little, one of another field, or any.
pub fn off(random: &mut Random, value: u32) -> u32 {
    let any = random.word();
    let small = random.below(8);
    let step = random.pick(&[1, 2, 250, 512, 0x1_0000, any]);
    match random.below(5) {
        0 => value.wrapping_add(step),
        1 => value.wrapping_sub(step),
        2 => random.pick(&[0, 1, 2, 40, 41, 42, 43, 44]),
        3 => any,
        _ => small,
    }
}

/// A record of an end, its counts mostly the file's and else next to them.
fn said_to_have_ended(random: &mut Random, state: SessionRecord) -> SessionRecord {
    let SessionRecord { total, named, .. } = state;
    let reached = state.acknowledged;
    let other = run(random);
    SessionRecord {
        board: state.board,
        run: random.pick(&[state.run, state.run, other]),
        phase: 5,
        page: 0,
        address: 0,
        outcome: random.pick(&[0, 0, 1, 1, 40, 41, 42, 43, 44]),
        acknowledged: random.pick(&[0, 1, reached, reached, total - 1, total, total + 1]),
        total: random.pick(&[total, total, total, total, total + 1, total - 1]),
        named: random.pick(&[named, named, named, named, named + 1, named - 1]),
    }
}

/// Marks of bytes of every kind, over the session's own map and over others,
/// which are refused unless they lead to the session too.
fn marks(pair: &mut Pair, random: &mut Random, site: Site, state: SessionRecord) {
    // where the packet that is waited on begins
    let sent = match state.phase {
        1 => state.page.wrapping_mul(PAGE_BYTES),
        _ => state.address,
    };
    for _ in 0..5 {
        let map = random.pick(&[site.map, site.map, like_map(site), any_map(site)]);
        let any = random.word();
        let inside = random.below(site.end());
        let near = random.within(site.end() - 2, site.end() + 2);
        let from = sent.wrapping_add(random.below(256));
        let before = sent.wrapping_sub(random.below(256));
        let wrapped = sent ^ 0x1_0000;
        let named = named(pair, random, site, map);
        let address = random.pick(&[any, inside, near, from, before, wrapped, named, named]);
        let lent = match random.below(32) {
            0 => map.with_length(map.length() - 1),
            1 => map.with_length(map.length() + 1),
            2 => map.with_length(site.other().map.length()),
            3 => Part::NULL,
            _ => map,
        };
        pair.proved(state, lent, address);
    }
}
