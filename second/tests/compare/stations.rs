//! Stations: records read and written, tables, and files and sessions for a
//! station.

use second::boundary::{SessionRecord, StationRecord};
use second::cases::{Buffer, Part};
use second::loader::ACK;

use crate::boards;
use crate::files;
use crate::maps;
use crate::pair::Pair;
use crate::random::Random;
use crate::sessions::{self, PACKET};
use crate::site::{self, Site, SHORT};
use crate::tables::{self, PLACES};

const TABLE: Part = Part::new(Buffer::Table, 2003, 1024);
const RECORD: Part = Part::new(Buffer::Record, 91, 9);

/// So many records are read, and so many stations written.
const RECORDS: u32 = 1500;
/// So many tables of each kind are asked, and so often each.
const TABLES: u32 = 25;
const CALLS: u32 = 40;
/// So many files there are, and so many starts for each.
const FILES: u32 = 45;
const STARTS: u32 = 36;
/// So often a start has no file.
const NOTHING_NAMED: u32 = 250;
/// So many files are opened.
const OPENED: u32 = 650;
/// So many events at most are told to a session for a station.
const EVENTS: u32 = 5;

/// The station that files are opened and sessions are started for; numbers of
/// made-up tables are mostly others.
const NUMBER: u32 = 40_000;

pub fn compare(pair: &mut Pair) {
    let mut random = Random::new(17);
    for buffer in [Buffer::Table, Buffer::Record, Buffer::Image, Buffer::Map] {
        pair.fill_buffer(buffer, 0x5A);
    }
    for _ in 0..RECORDS {
        read(pair, &mut random);
        write(pair, &mut random);
    }
    for kind in 0..tables::KINDS {
        for _ in 0..TABLES {
            pair.set(TABLE, &tables::table(&mut random, kind));
            table(pair, &mut random);
        }
    }
    for _ in 0..OPENED {
        open(pair, &mut random, SHORT);
    }
    for kind in 0..FILES {
        let map = sessions::map(&mut random, SHORT, kind);
        sessions::lend_file(pair, &mut random, SHORT, &map);
        for _ in 0..STARTS {
            start(pair, &mut random, SHORT);
        }
    }
    pair.fill(SHORT.map, 0);
    for _ in 0..NOTHING_NAMED {
        start(pair, &mut random, SHORT);
    }
}

/// Records that read and such that need not; what was read is written with the
/// same bytes.
fn read(pair: &mut Pair, random: &mut Random) {
    let record = tables::record(random);
    let station = pair.read_station(&record).expect("a record that reads");
    assert_eq!(pair.write_station(station, RECORD), (0, record));
    pair.read_station(&tables::broken(random));
    let length = random.below(12);
    let mut any = random.bytes(length);
    if let Some(version) = any.get_mut(2) {
        *version = random.within(0, 3) as u8;
    }
    pair.read_station(&any);
}

/// Stations of any values, with room and without; what is written reads back.
fn write(pair: &mut Pair, random: &mut Random) {
    let station = tables::made_up(random);
    let room = random.pick(&[0, 1, 7, 8, 8, 9, 9, 9, 9, 12]);
    let buffer = match random.once_in(30) {
        true => Part::NULL,
        false => RECORD.with_length(room),
    };
    let (number, record) = pair.write_station(station, buffer);
    if number == 0 {
        let back = pair.read_station(&record).expect("a record that reads");
        let kept = match record.len() {
            8 => station,
            _ => StationRecord {
                version: 2,
                ..station
            },
        };
        assert_eq!(back, kept);
    }
}

/// A table in which stations come and go.
fn table(pair: &mut Pair, random: &mut Random) {
    for place in [0, 31, PLACES - 1] {
        pair.list(TABLE, place);
        pair.place(TABLE, place);
    }
    for _ in 0..CALLS {
        call(pair, random);
    }
    pair.empty(wrong(random));
    let number = pair.empty(TABLE);
    assert_eq!((number, pair.look(TABLE)), (0, &[0; 1024][..]));
}

fn call(pair: &mut Pair, random: &mut Random) {
    let lent = lent(random);
    let number = held(pair, random);
    let place = place(random);
    match random.below(12) {
        0 | 1 => {
            pair.find(lent, number);
        }
        2 => {
            pair.list(lent, place);
        }
        3 => {
            pair.place(lent, place);
        }
        4..=6 => store(pair, &tables::record(random)),
        7 => {
            pair.store(lent, &tables::broken(random));
        }
        8 => {
            pair.store(lent, &tables::record(random));
        }
        9 => store_side_by_side(pair, random),
        10 => delete(pair, number),
        _ => free(pair, place),
    }
    if random.once_in(8) {
        pair.delete(lent, number);
        pair.free(lent, place);
    }
}

/// The table, at times of a wrong size.
fn lent(random: &mut Random) -> Part {
    match random.once_in(6) {
        true => wrong(random),
        false => TABLE,
    }
}

/// The table of a wrong size.
fn wrong(random: &mut Random) -> Part {
    let twice = TABLE.with_length(2 * TABLE.length());
    site::wrong(random, TABLE, twice)
}

/// A place of the table, at times past it.
fn place(random: &mut Random) -> u32 {
    let (inside, any) = (random.below(PLACES), random.word());
    let near = random.pick(&[0, PLACES - 1, PLACES, PLACES + 1, inside + 0x100, any]);
    random.pick(&[inside, inside, inside, inside, near])
}

/// Mostly a number that stands in the table.
fn held(pair: &Pair, random: &mut Random) -> u32 {
    let place = 16 * random.below(PLACES) as usize;
    let bytes = &pair.look(TABLE)[place..];
    let stored = u16::from_be_bytes([bytes[3], bytes[4]]).into();
    let any = tables::number(random);
    random.pick(&[stored, stored, stored, any])
}

/// A record that reads is found again and stands in one place alone, with 00
/// behind it.
fn store(pair: &mut Pair, record: &[u8]) {
    let mut expected = pair.look(TABLE).to_vec();
    let held = pair.find(TABLE, number_of(record)).is_some();
    if let Some(place) = pair.store(TABLE, record) {
        pair.note_boardless("stored over another", u8::from(held));
        let start = 16 * place as usize;
        expected[start..start + 16].copy_from_slice(&tables::placed(record));
        assert_eq!(pair.list(TABLE, place), pair.find(TABLE, number_of(record)));
    } else {
        assert!(!held, "a full table takes a number that it holds");
    }
    assert_eq!(pair.look(TABLE), expected);
}

fn number_of(record: &[u8]) -> u32 {
    u16::from_be_bytes([record[3], record[4]]).into()
}

/// A store into a table that stands right behind the record.
fn store_side_by_side(pair: &mut Pair, random: &mut Random) {
    let record = random.pick(&[tables::record, tables::broken])(random);
    pair.move_input(random.below(64));
    let table = pair.look(TABLE).to_vec();
    let behind = pair.behind_input(&record, TABLE.length());
    pair.set(behind, &table);
    pair.store(behind, &record);
}

/// No place has the number then, and what had another stays.
fn delete(pair: &mut Pair, number: u32) {
    let before = pair.look(TABLE).to_vec();
    let done = pair.delete(TABLE, number) == 0;
    assert!(pair.find(TABLE, number).is_none());
    let places = before.chunks(16).zip(pair.look(TABLE).chunks(16));
    for (old, new) in places {
        let freed = done && number_of(old) == number && new == [0; 16];
        assert!(new == old || freed);
    }
}

/// The place alone is free then.
fn free(pair: &mut Pair, place: u32) {
    let mut expected = pair.look(TABLE).to_vec();
    if pair.free(TABLE, place) == 0 {
        expected[16 * place as usize..][..16].fill(0);
        assert_eq!(pair.place(TABLE, place), Some(0));
    }
    assert_eq!(pair.look(TABLE), expected);
}

/// Puts a station with these settings into some place of a table of any kind.
fn settle(pair: &mut Pair, random: &mut Random, station: &StationRecord) {
    let kind = random.below(tables::KINDS);
    let mut table = tables::table(random, kind);
    let place = 16 * random.below(PLACES) as usize;
    table[place..place + 16].copy_from_slice(&tables::placed(&tables::encoded(station)));
    pair.set(TABLE, &table);
}

/// The station's number, at times another.
fn wanted(random: &mut Random) -> u32 {
    let other = tables::number(random);
    match random.below(8) {
        0 => random.pick(&[NUMBER + 1, NUMBER + 0x1_0000, other]),
        _ => NUMBER,
    }
}

/// Any board or none: what calls are told does not matter.
fn told(random: &mut Random) -> u32 {
    let none = boards::unknown(random);
    random.pick(&[124, 124, 248, none])
}

/// Opens a file for a station; a reader is the one of its rule set.
fn open(pair: &mut Pair, random: &mut Random, site: Site) {
    let station = tables::station(random, NUMBER);
    settle(pair, random, &station);
    let (image, map) = match random.below(5) {
        0 => (site.wrong_image(random), site.map),
        1 => (site.image, site.wrong_map(random)),
        _ => site.file(),
    };
    let (table, wanted) = (lent(random), wanted(random));
    let (number, reader) = pair.station_open(told(random), (table, wanted), image, map);
    if number != 0 {
        return;
    }
    let station = pair.find(TABLE, wanted).expect("a station");
    let by_hand = pair.open_file(site, station.rules);
    assert_eq!(by_hand, reader, "{station:?}");
    let mut reader = reader;
    for _ in 0..4 {
        let text = files::text(random, site);
        (_, reader) = pair.record(reader, &text, site.image, site.map);
    }
}

/// Starts a session for a station whose bounds lie around the file's pages; it
/// is the one of its run kind.
fn start(pair: &mut Pair, random: &mut Random, site: Site) {
    let station = around(pair, random, site);
    settle(pair, random, &station);
    let (image, map) = site.lent(random);
    let buffer = sessions::buffer(random, site, image);
    let (table, wanted) = (lent(random), wanted(random));
    let lent = (image, map, buffer);
    let (number, state) = pair.station_start(told(random), (table, wanted), lent);
    let Some(station) = pair.find(TABLE, wanted) else {
        return;
    };
    match number {
        0 => {
            let (image, map) = site.file();
            let by_hand = pair.start(site.pages(), station.run, image, map, PACKET);
            assert_eq!(by_hand, (0, state), "{station:?}");
            events(pair, random, site, state);
        }
        64 => note_side(pair, site, &station),
        _ => {}
    }
}

/// Counts on which side of the bounds alone a page lies.
fn note_side(pair: &mut Pair, site: Site, station: &StationRecord) {
    let (lowest, highest) = touched(pair, site);
    match (lowest < station.first, highest > station.last) {
        (true, false) => pair.note_boardless("outside the bounds", 0),
        (false, true) => pair.note_boardless("outside the bounds", 1),
        (below, _) => assert!(below, "{station:?}"),
    }
}

/// A few events, mostly the answers that the session waits for.
fn events(pair: &mut Pair, random: &mut Random, site: Site, started: SessionRecord) {
    let mut state = started;
    for _ in 0..EVENTS {
        let right = match state.phase {
            0 => &site.board.greeting()[..],
            _ => &[ACK],
        };
        let (silent, heard) = match random.once_in(6) {
            true => sessions::any_event(random, right),
            false => (0, right.to_vec()),
        };
        (_, state) = pair.step(state, silent, &heard, site.file(), PACKET);
    }
}

/// A station with bounds at the file's first and last page, or next to them.
fn around(pair: &Pair, random: &mut Random, site: Site) -> StationRecord {
    let (lowest, highest) = touched(pair, site);
    let first = near(random, lowest);
    let last = near(random, highest).max(first);
    let any = tables::station(random, NUMBER);
    let (version, last) = random.pick(&[(1, 123), (2, last), (2, last), (2, last)]);
    match random.once_in(8) {
        true => any,
        false => StationRecord {
            version,
            first,
            last,
            ..any
        },
    }
}

/// A page or one next to it, as far as the board has it.
fn near(random: &mut Random, page: u32) -> u32 {
    let (below, above) = (page.saturating_sub(1), (page + 1).min(123));
    random.pick(&[page, page, page, below, above])
}

/// The lowest and the highest page that hold a named byte, any where there is
/// none.
fn touched(pair: &Pair, site: Site) -> (u32, u32) {
    let map = pair.look(site.map);
    let mut named = (0..site.end()).filter(|address| maps::names(map, *address));
    let lowest = named.next().unwrap_or(0);
    let highest = named.next_back().unwrap_or(lowest);
    (lowest / 512, highest / 512)
}
