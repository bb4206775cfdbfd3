//! Whole loads: the product's session and loader joined, with losses.

use second::boundary::{LoaderRecord, SessionRecord};
use second::cases::{Buffer, Part};
use second::line::Exchange;

use crate::maps;
use crate::pair::Pair;
use crate::random::Random;
use crate::sessions::{self, asked_end, hold, lend_file, run, PACKET};
use crate::site::{Site, SITES};

const ANSWER: Part = Part::new(Buffer::Answer, 41, 24);
const LOG: Part = Part::new(Buffer::Log, 9, 16);

const LOSSES: [Exchange; 2] = [Exchange::PacketLost, Exchange::AnswerLost];

/// The files on which a loss goes through all places, on each board.
const FILES: u32 = 8;
/// The files that are only loaded whole, by each run kind.
const WHOLE_FILES: u32 = 64;
/// The files of more packets, the one that names every byte among them.
const LARGE_FILES: u32 = 4;
/// So many packets have sessions that are looked at in every step.
const FEW: u32 = 50;

pub fn compare(pair: &mut Pair) {
    let mut random = Random::new(6);
    for buffer in [Buffer::Flash, Buffer::Image, Buffer::Map] {
        pair.fill_buffer(buffer, 0xC3);
    }
    for site in SITES {
        compare_on(pair, &mut random, site);
    }
}

fn compare_on(pair: &mut Pair, random: &mut Random, site: Site) {
    for _ in 0..FILES {
        let map = small(random, site);
        let loading = lend_file(pair, random, site, &map);
        whole(pair, random, site);
        for told in [0, 1, hold(random)] {
            each_loss(pair, random, site, told, loading);
        }
        refused(pair, random, site);
    }
    for _ in 0..WHOLE_FILES {
        let map = small(random, site);
        lend_file(pair, random, site, &map);
        whole(pair, random, site);
    }
    for kind in 0..LARGE_FILES {
        let map = match kind {
            0 => vec![0xFF; site.map_bytes()],
            _ => maps::scattered(random, site.board),
        };
        let loading = lend_file(pair, random, site, &map);
        whole(pair, random, site);
        for _ in 0..3 {
            let told = run(random);
            let place = random.below(last_exchange(told, loading) + 1);
            let lost = random.pick(&LOSSES);
            loss(pair, random, site, told, place, lost);
        }
    }
}

/// A file of few packets.
pub fn small(random: &mut Random, site: Site) -> Vec<u8> {
    match random.below(2) {
        0 => maps::few(random, site.board),
        _ => maps::pieces(random, site.board),
    }
}

/// A load by each run kind with nothing lost and nothing protected.
fn whole(pair: &mut Pair, random: &mut Random, site: Site) {
    for told in [0, 1, hold(random)] {
        let open = LoaderRecord {
            groups: 0,
            read: 0,
            ..loader(random, site)
        };
        let outcome = rehearse(pair, random, site, told, open, &[]);
        assert_eq!(outcome, asked_end(told).into());
    }
}

/// Loads with a loss in each exchange, and with one behind the last, where there
/// is nothing to lose.
fn each_loss(pair: &mut Pair, random: &mut Random, site: Site, told: u32, loading: u32) {
    for place in 0..=last_exchange(told, loading) {
        for lost in LOSSES {
            let outcome = loss(pair, random, site, told, place, lost);
            // silence ends neither valid nor held
            assert!(outcome >= 40, "{lost:?} at {place}");
        }
    }
    for lost in LOSSES {
        let behind = last_exchange(told, loading) + 1;
        loss(pair, random, site, told, behind, lost);
    }
}

/// The place of the last exchange: 08 comes first, and R last where it is sent.
pub fn last_exchange(told: u32, loading: u32) -> u32 {
    loading + u32::from(told < 2)
}

/// A load by any loader with this loss; gives its outcome.
fn loss(
    pair: &mut Pair,
    random: &mut Random,
    site: Site,
    told: u32,
    place: u32,
    lost: Exchange,
) -> u32 {
    let losses = lost_at(random, place as usize, lost);
    let any = loader(random, site);
    rehearse(pair, random, site, told, any, &losses)
}

/// Everything arrives but the exchange at this place.
fn lost_at(random: &mut Random, place: usize, lost: Exchange) -> Vec<u8> {
    let any = random.within(2, 255) as u8;
    let mut losses = vec![0; place];
    losses.push(match lost {
        Exchange::Whole => 0,
        Exchange::PacketLost => 1,
        Exchange::AnswerLost => random.pick(&[2, 2, any]),
    });
    losses
}

/// Loads with buffers of wrong sizes, the other board's among them, on boards
/// that are another or none, and of a file that names nothing.
fn refused(pair: &mut Pair, random: &mut Random, site: Site) {
    let wrong = [
        site.flash.with_length(site.end() - 1),
        site.flash.with_length(site.end() + 1),
        site.other().flash,
        Part::NULL,
    ];
    for flash in wrong.into_iter().chain([site.flash; 4]) {
        let loader = loader(random, site);
        pair.rehearse(site.pages(), run(random), loader, &[], site.file(), flash);
        let (told, file) = (site.told(random), site.lent(random));
        pair.rehearse(told, run(random), loader, &[], file, flash);
        let file = (site.wrong_image(random), site.map);
        pair.rehearse(site.pages(), run(random), loader, &[], file, flash);
    }
    pair.fill(site.map, 0);
    for flash in wrong.into_iter().chain([site.flash; 13]) {
        let loader = loader(random, site);
        pair.rehearse(site.pages(), run(random), loader, &[], site.file(), flash);
    }
}

/// One load as a whole, and again exchange by exchange; gives its outcome.
fn rehearse(
    pair: &mut Pair,
    random: &mut Random,
    site: Site,
    told: u32,
    loader: LoaderRecord,
    losses: &[u8],
) -> u32 {
    let filling = random.byte();
    pair.fill(site.flash, filling);
    let (board, file) = (site.pages(), site.file());
    let whole = pair.rehearse(board, told, loader, losses, file, site.flash);
    let flash = pair.look(site.flash).to_vec();
    pair.fill(site.flash, filling);
    let (state, session) = exchange_by_exchange(pair, random, site, told, loader, losses);
    assert_eq!((0, state, session), whole);
    assert!(pair.look(site.flash) == flash, "the flash after a load");
    session.outcome
}

/// The product's session and loader joined, compared after each exchange.
fn exchange_by_exchange(
    pair: &mut Pair,
    random: &mut Random,
    site: Site,
    told: u32,
    loader: LoaderRecord,
    losses: &[u8],
) -> (LoaderRecord, SessionRecord) {
    let (_, mut session) = pair.start(site.pages(), told, site.image, site.map, PACKET);
    let mut state = pair.reset(loader);
    let mut length = 1;
    let mut losses = losses.iter();
    while session.phase != 5 {
        let loss = losses.next().copied().unwrap_or(0);
        let mut heard = Vec::new();
        if loss != 1 {
            let packet = pair.look(PACKET.with_length(length)).to_vec();
            let (answered, next) = pair.take(site.pages(), state, &packet, site.flash, ANSWER);
            state = next;
            if loss == 0 {
                heard = pair.look(ANSWER.with_length(answered)).to_vec();
            }
        }
        let silent = u8::from(heard.is_empty());
        (length, session) = pair.step(session, silent, &heard, site.file(), PACKET);
        // of a long session some steps tell as much as all
        if session.total < FEW || random.once_in(8) {
            look_at(pair, random, site, session);
        }
    }
    pair.outcome(session);
    (state, session)
}

/// The log record and some marks of a session.
fn look_at(pair: &mut Pair, random: &mut Random, site: Site, session: SessionRecord) {
    pair.log(session, LOG);
    for _ in 0..2 {
        let named = sessions::named(pair, random, site, site.map);
        pair.proved(session, site.map, named);
    }
}

/// Any loader, at times with protection that refuses some packets.
pub fn loader(random: &mut Random, site: Site) -> LoaderRecord {
    let some = 1 << random.below(site.board.groups());
    LoaderRecord {
        groups: random.pick(&[0, 0, 0, some]),
        added: 0,
        key: random.word(),
        condition: random.below(3) as u8,
        read: random.once_in(8).into(),
        opened: random.once_in(4).into(),
        added_read: 0,
    }
}
