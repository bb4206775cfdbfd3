//! Bytes that are brought to known places, by the bases and the wrap of a rule
//! set; what is read must be what was placed.

use second::boundary::{ReaderRecord, RULES_1, RULES_2};
use second::map;

use crate::files::{self, base, encoded, LINEAR, PARAGRAPH};
use crate::maps;
use crate::pair::Pair;
use crate::random::Random;
use crate::site::Site;
use crate::wraps::SEGMENT;

/// How many files of each kind are read, on each board.
const FILES: u32 = 24;
/// How many data records a file has at most, and one of wraps.
const RUNS: usize = 30;
const WRAPS: u32 = 40;

/// The records that bring bytes to their places; the last has the data.
pub struct Brought {
    pub records: Vec<Vec<u8>>,
    places: Vec<u32>,
    data: Vec<u8>,
}

impl Brought {
    /// Each byte with its place.
    pub fn bytes(&self) -> impl Iterator<Item = (u32, u8)> + '_ {
        let places = self.places.iter().copied();
        places.zip(self.data.iter().copied())
    }
}

/// What a file has named so far.
pub struct Placed {
    site: Site,
    bytes: Vec<u8>,
    map: Vec<u8>,
}

impl Placed {
    pub fn nothing(site: Site) -> Placed {
        Placed {
            site,
            bytes: vec![0xFF; site.end() as usize],
            map: maps::of_runs(site.board, &[]),
        }
    }

    /// The paper's number for the data record; a byte past the board comes first.
    pub fn expected(&self, brought: &Brought) -> u8 {
        let places = &brought.places;
        if places.iter().any(|place| *place >= self.site.end()) {
            29
        } else if places.iter().any(|place| maps::names(&self.map, *place)) {
            30
        } else {
            0
        }
    }

    pub fn add(&mut self, brought: &Brought) {
        self.put(brought.bytes());
    }

    pub fn put(&mut self, bytes: impl Iterator<Item = (u32, u8)>) {
        for (place, byte) in bytes {
            self.bytes[place as usize] = byte;
            map::name(&mut self.map, place);
        }
    }

    /// Image and map hold what was placed and nothing else.
    pub fn check(&self, pair: &Pair, what: &str) {
        assert!(pair.look(self.site.image) == self.bytes, "{what}: bytes");
        assert!(pair.look(self.site.map) == self.map, "{what}: map");
    }
}

pub fn compare(pair: &mut Pair, random: &mut Random, site: Site, rules: u32) {
    for _ in 0..FILES {
        let file = runs(random, site, rules);
        read(pair, random, site, rules, &file);
    }
    if rules == RULES_2 {
        for _ in 0..FILES {
            let file = wraps(random, site);
            read(pair, random, site, rules, &file);
        }
    }
}

/// Reads a file, then a byte past the end and one at a place of each record
/// again; each gives the paper's number, and image and map are as placed.
fn read(pair: &mut Pair, random: &mut Random, site: Site, rules: u32, file: &[Brought]) {
    let mut placed = Placed::nothing(site);
    let mut state = pair.open_file(site, rules);
    let mut more = vec![brought(random, rules, site.end() - 1, vec![0; 2])];
    for earlier in file {
        let place = random.pick(&earlier.places);
        more.push(brought(random, rules, place, vec![0]));
    }
    for brought in file.iter().chain(&more) {
        let expected = placed.expected(brought);
        let number;
        (number, state) = take(pair, site, state, brought);
        assert_eq!(number, expected, "{:x?}", brought.places);
        if number == 0 {
            placed.add(brought);
        }
    }
    (_, state) = pair.record(state, files::END, site.image, site.map);
    assert_eq!(pair.close_file(state), 0);
    placed.check(pair, "placed");
}

/// Takes bases and data; gives the number of the data record.
fn take(
    pair: &mut Pair,
    site: Site,
    mut state: ReaderRecord,
    brought: &Brought,
) -> (u8, ReaderRecord) {
    let mut number = 0;
    for text in &brought.records {
        assert_eq!(number, 0, "a base");
        (number, state) = pair.record(state, text, site.image, site.map);
    }
    (number, state)
}

/// Runs that do not meet, in any order, mostly near a seam.
pub fn runs(random: &mut Random, site: Site, rules: u32) -> Vec<Brought> {
    let mut runs = Vec::new();
    let (low, near) = (random.below(site.end()), site.end() - 0x1200);
    let mut start = random.pick(&[low, near, 0xF000, 0xFD00.min(near)]);
    while start < site.end() && runs.len() < RUNS {
        let longest = random.pick(&[1, 16, 16, 32, 255]);
        let length = random.within(1, longest).min(site.end() - start);
        let data = random.bytes(length);
        let index = random.below(runs.len() as u32 + 1) as usize;
        runs.insert(index, brought(random, rules, start, data));
        start += length + random.pick(&[0, 0, 1, 90, 300, 0x2000]);
    }
    runs
}

/// A run by the bases of a rule set, each set anew.
pub fn brought(random: &mut Random, rules: u32, start: u32, data: Vec<u8>) -> Brought {
    let end = start + data.len() as u32;
    let (mut records, address) = match rules {
        RULES_1 => summed(random, start),
        _ if random.once_in(2) => (by_linear(random, start), start % LINEAR),
        _ => by_segment(random, start, end),
    };
    records.push(encoded(address as u16, 0, &data));
    Brought {
        records,
        places: (start..end).collect(),
        data,
    }
}

/// Bases whose sum leads to an address, in either order; gives the offset too.
fn summed(random: &mut Random, start: u32) -> (Vec<Vec<u8>>, u32) {
    let linear = match random.below(3) {
        0 => 0,
        _ => random.below(start / LINEAR + 1),
    };
    let rest = start - linear * LINEAR;
    let least = rest.saturating_sub(0xFFFF).div_ceil(PARAGRAPH);
    let segment = some_segment(random, least, rest / PARAGRAPH);
    let mut bases = vec![base(2, segment as u16), base(4, linear as u16)];
    if random.once_in(2) {
        bases.reverse();
    }
    (bases, rest - segment * PARAGRAPH)
}

/// A linear base that governs alone, at times behind any segment.
fn by_linear(random: &mut Random, start: u32) -> Vec<Vec<u8>> {
    let governing = base(4, (start / LINEAR) as u16);
    behind_any(random, 2, governing)
}

/// A segment that holds a run without a wrap and governs alone; gives the
/// offset too.
fn by_segment(random: &mut Random, start: u32, end: u32) -> (Vec<Vec<u8>>, u32) {
    let least = end.saturating_sub(SEGMENT).div_ceil(PARAGRAPH);
    let segment = some_segment(random, least, start / PARAGRAPH);
    let bases = behind_any(random, 4, base(2, segment as u16));
    (bases, start - segment * PARAGRAPH)
}

/// As much by the segment as must be, as can be, or any.
fn some_segment(random: &mut Random, least: u32, most: u32) -> u32 {
    let any = random.within(least, most);
    random.pick(&[least, most, any])
}

/// A base that governs, at times behind one of the other kind that does not.
fn behind_any(random: &mut Random, other: u8, governing: Vec<u8>) -> Vec<Vec<u8>> {
    let any = random.word() as u16;
    match random.once_in(2) {
        true => vec![base(other, random.pick(&[0, 1, any])), governing],
        false => vec![governing],
    }
}

/// A record over a segment's end, so many bytes on either side of it.
fn wrapped(random: &mut Random, first: u32, before: u32, behind: u32) -> Brought {
    let data = random.bytes(before + behind);
    let mut records = behind_any(random, 4, base(2, (first / PARAGRAPH) as u16));
    records.push(encoded((SEGMENT - before) as u16, 0, &data));
    let end = first + SEGMENT;
    Brought {
        records,
        places: (end - before..end).chain(first..first + behind).collect(),
        data,
    }
}

/// Records over the ends of segments, each at times behind a single byte that it
/// meets before the wrap or behind it.
pub fn wraps(random: &mut Random, site: Site) -> Vec<Brought> {
    let mut file = Vec::new();
    for _ in 0..WRAPS {
        let first = first_of_segment(random, site);
        let most = random.pick(&[1, 4, 16, 40, 127]);
        let (before, behind) = (random.within(1, most), random.within(1, most));
        let single = match random.below(3) {
            0 => Some(first + SEGMENT - 1 - random.below(before)),
            1 => Some(first + random.below(behind)),
            _ => None,
        };
        if let Some(place) = single {
            let byte = random.bytes(1);
            file.push(brought(random, RULES_2, place, byte));
        }
        file.push(wrapped(random, first, before, behind));
    }
    file
}

/// Where a segment begins: mostly one that ends on the long board, at times
/// right at its end or just past it.
fn first_of_segment(random: &mut Random, site: Site) -> u32 {
    let last = site.end().saturating_sub(SEGMENT);
    let inside = random.below(last / PARAGRAPH + 1) * PARAGRAPH;
    let past = last + random.within(1, 40) * PARAGRAPH;
    let edge = random.pick(&[0, PARAGRAPH, last, past]);
    random.pick(&[inside, inside, edge])
}
