//! Made-up stations, records of them, and tables.

use second::boundary::StationRecord;

use crate::random::Random;
use crate::sessions;

pub const PLACES: u32 = 64;
/// So many kinds of tables are made up.
pub const KINDS: u32 = 8;

const PLACE_BYTES: usize = 16;
/// Few, so that they meet in a table, and some alike in a byte.
const NUMBERS: [u32; 8] = [0, 1, 7, 8, 255, 256, 0x0700, 65_535];

/// A number that tables are made of, or any other.
pub fn number(random: &mut Random) -> u32 {
    let (any, small) = (random.word(), random.below(0x1_0000));
    let known = random.pick(&NUMBERS);
    random.pick(&[known, known, known, known, known + 0x1_0000, small, any])
}

/// A number that a record can have.
fn small_number(random: &mut Random) -> u32 {
    let any = random.below(0x1_0000);
    let known = random.pick(&NUMBERS);
    random.pick(&[known, known, known, any])
}

/// Any settings that are in range.
pub fn station(random: &mut Random, number: u32) -> StationRecord {
    let (one, other) = (page(random), page(random));
    let version = random.within(1, 2);
    StationRecord {
        version,
        station: number,
        run: random.below(3),
        rules: random.within(1, 2),
        first: one.min(other),
        last: match version {
            1 => 123,
            _ => one.max(other),
        },
    }
}

fn page(random: &mut Random) -> u32 {
    let any = random.below(124);
    random.pick(&[0, 1, 122, 123, any, any, any])
}

/// Settings off by a little, or with fields of any value.
pub fn made_up(random: &mut Random) -> StationRecord {
    let number = small_number(random);
    let mut made_up = station(random, number);
    let changes = random.pick(&[0, 1, 1, 1, 2, 6]);
    for _ in 0..changes {
        let field = match random.below(6) {
            0 => &mut made_up.version,
            1 => &mut made_up.station,
            2 => &mut made_up.run,
            3 => &mut made_up.rules,
            4 => &mut made_up.first,
            _ => &mut made_up.last,
        };
        let limits = random.pick(&[0, 1, 2, 3, 122, 123, 124, 65_535, 65_536]);
        let wide = *field + random.pick(&[0x100, 0x1_0000, 0x100_0000]);
        let off = sessions::off(random, *field);
        *field = random.pick(&[limits, limits, wide, off]);
    }
    made_up
}

/// The record of such settings.
pub fn encoded(station: &StationRecord) -> Vec<u8> {
    let [high, low] = (station.station as u16).to_be_bytes();
    let settings = [station.run, station.rules, station.first].map(|field| field as u8);
    let (head, last): (&[u8], &[u8]) = match station.version {
        1 => (&[0, 6, 1], &[]),
        _ => (&[0, 7, 2], &[station.last as u8]),
    };
    [head, &[high, low], &settings, last].concat()
}

/// A record that reads.
pub fn record(random: &mut Random) -> Vec<u8> {
    let number = small_number(random);
    encoded(&station(random, number))
}

/// A record that is changed in one way.
pub fn broken(random: &mut Random) -> Vec<u8> {
    let mut record = record(random);
    let any = random.byte();
    match random.below(8) {
        0 => record[2] = random.pick(&[0, 3, 3, 4, 0x81, 0xFF, any]),
        1 => {
            let length = random.pick(&[0, 5, 6, 7, 8, 14, 0x0106, 0x0107, 0x0600, 0x0700]);
            record[..2].copy_from_slice(&u16::to_be_bytes(length));
        }
        2 => {
            let length = random.place(&record);
            record.truncate(length);
        }
        3 => record.extend([random.pick(&[0, 123, any])]),
        4 => record[5] = random.pick(&[2, 3, 4, 0xFF, any]),
        5 => record[6] = random.pick(&[0, 2, 3, 4, 0xFF, any]),
        6 => record[7] = random.pick(&[123, 124, 125, 0xFF, any]),
        _ => {
            if let Some(last) = record.get_mut(8) {
                *last = random.pick(&[0, 123, 124, 125, 0xFF, any]);
            } else {
                random.damage(&mut record);
            }
        }
    }
    record
}

/// A table of one of so many kinds: empty, full of stations, full of damage, of
/// any bytes, full with numbers that meet, full of both, all but full, and a
/// mixture.
pub fn table(random: &mut Random, kind: u32) -> Vec<u8> {
    let base = random.below(0x1_0000 - PLACES);
    let places = (0..PLACES).map(|index| {
        let own = base + index;
        match kind {
            0 => free(),
            1 => readable(random, own),
            2 => damaged(random),
            3 => random.bytes(PLACE_BYTES as u32),
            4 => any_readable(random),
            5 if random.once_in(4) => damaged(random),
            6 if random.once_in(30) => free(),
            5 | 6 => readable(random, own),
            _ => match random.below(3) {
                0 => free(),
                1 => damaged(random),
                _ => any_readable(random),
            },
        }
    });
    places.collect::<Vec<Vec<u8>>>().concat()
}

fn free() -> Vec<u8> {
    vec![0; PLACE_BYTES]
}

fn readable(random: &mut Random, number: u32) -> Vec<u8> {
    placed(&encoded(&station(random, number)))
}

fn any_readable(random: &mut Random) -> Vec<u8> {
    placed(&record(random))
}

/// A place with this record, as far as it has room.
pub fn placed(record: &[u8]) -> Vec<u8> {
    let mut place = record.to_vec();
    place.resize(PLACE_BYTES, 0);
    place
}

/// A place that is neither free nor has a station, or is but a bit away.
fn damaged(random: &mut Random) -> Vec<u8> {
    let mut place = any_readable(random);
    match random.below(6) {
        0 => place.fill(0xFF),
        1 => place = placed(&broken(random)),
        2 => place[2] = random.pick(&[0, 3, 4, 0xFF]),
        3 => {
            let behind = random.within(9, 15) as usize;
            place[behind] = random.within(1, 255) as u8;
        }
        4 => {
            place.fill(0);
            let lone = random.place(&place);
            place[lone] = 1 << random.below(8);
        }
        _ => {
            let bit = random.place(&place);
            place[bit] ^= 1 << random.below(8);
        }
    }
    place
}
