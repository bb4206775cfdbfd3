//! Station settings: their records, a table of them, and files and sessions for
//! a station.

use std::ops::RangeInclusive;

use crate::hex::{HexRefusal, Reader, RuleSet};
use crate::map::Map;
use crate::refusal::Refusal;
use crate::session::{check_lent, Run, Session};
use crate::units::{Board, ByteAddress, Page};

/// Stations are of one board.
const BOARD: Board = Board::Short;
/// The last allowed page of a record that does not say it.
const LAST_PAGE: Page = Page(BOARD.pages() - 1);

/// The length field, which does not count itself.
const LENGTH: usize = 2;
const PLACES: usize = 64;
const PLACE_BYTES: usize = 16;
pub const TABLE_BYTES: usize = PLACES * PLACE_BYTES;

#[derive(Clone, Copy, Debug, PartialEq, Eq)]
#[repr(u8)]
pub enum Version {
    One = 1,
    /// Adds the last allowed page.
    Two = 2,
}

impl Version {
    const ALL: [Version; 2] = [Version::One, Version::Two];

    pub fn number(self) -> u8 {
        self as u8
    }

    pub fn from_number(number: u8) -> Option<Version> {
        let mut all = Version::ALL.into_iter();
        all.find(|version| version.number() == number)
    }

    /// What the length field says.
    fn length(self) -> u16 {
        match self {
            Version::One => 6,
            Version::Two => 7,
        }
    }

    pub fn record_bytes(self) -> usize {
        LENGTH + usize::from(self.length())
    }

    /// The version that a station of this one is written in: the old one has no
    /// last page, so it stays as long as that is as the old one has it.
    pub fn written(self, last: Page) -> Version {
        match (self, last) {
            (Version::One, LAST_PAGE) => Version::One,
            _ => Version::Two,
        }
    }
}

#[derive(Clone, Copy, Debug, PartialEq, Eq)]
pub struct Station {
    /// Of the record that it was read from.
    pub version: Version,
    pub number: u16,
    pub run: Run,
    pub rules: RuleSet,
    /// The first and the last page that a session may touch.
    pub first: Page,
    pub last: Page,
}

impl Station {
    /// The station with number, run kind, rule set, first and last page in this
    /// order; none where one is out of range.
    pub fn of(version: Version, fields: [u32; 5]) -> Option<Station> {
        let [number, run, rules, first, last] = fields;
        let station = Station {
            version,
            number: number.try_into().ok()?,
            run: Run::from_number(run.try_into().ok()?)?,
            rules: RuleSet::from_number(rules.try_into().ok()?)?,
            first: Page(first),
            last: Page(last),
        };
        (station.first <= station.last && station.last <= LAST_PAGE).then_some(station)
    }

    pub fn record(&self) -> Vec<u8> {
        let version = self.version.written(self.last);
        let mut record = version.length().to_be_bytes().to_vec();
        record.push(version.number());
        record.extend(self.number.to_be_bytes());
        record.extend([self.run.number(), self.rules.number(), self.first.0 as u8]);
        if version == Version::Two {
            record.push(self.last.0 as u8);
        }
        record
    }

    fn bounds(&self) -> RangeInclusive<Page> {
        self.first..=self.last
    }
}

pub fn read(record: &[u8]) -> Result<Station, Refusal> {
    let [high, low, version, fields @ ..] = record else {
        return Err(Refusal::StationRecord);
    };
    let version = Version::from_number(*version).ok_or(Refusal::StationVersion)?;
    let length = u16::from_be_bytes([*high, *low]);
    if length != version.length() || record.len() != version.record_bytes() {
        return Err(Refusal::StationRecord);
    }
    station_of(version, fields).ok_or(Refusal::StationRecord)
}

/// The station that the bytes behind the version say.
fn station_of(version: Version, fields: &[u8]) -> Option<Station> {
    let &[high, low, run, rules, first, ref last @ ..] = fields else {
        return None;
    };
    let number = u16::from_be_bytes([high, low]).into();
    let last = last.first().map_or(LAST_PAGE.0, |last| (*last).into());
    let fields = [number, run.into(), rules.into(), first.into(), last];
    Station::of(version, fields)
}

/// What is at a place of a table.
#[derive(Clone, Copy, Debug, PartialEq, Eq)]
pub enum Place {
    Free,
    Station(Station),
    /// No station and not free, the record of a later version for one.
    Damaged,
}

impl Place {
    fn of(bytes: &[u8]) -> Place {
        if is_empty(bytes) {
            return Place::Free;
        }
        let readable = Version::ALL.into_iter().find_map(|version| {
            let (record, rest) = bytes.split_at(version.record_bytes());
            read(record).ok().filter(|_| is_empty(rest))
        });
        readable.map_or(Place::Damaged, Place::Station)
    }

    fn station(self) -> Option<Station> {
        match self {
            Place::Station(station) => Some(station),
            Place::Free | Place::Damaged => None,
        }
    }

    /// Whether it has a station of this number.
    fn has(self, number: u32) -> bool {
        self.station()
            .is_some_and(|station| u32::from(station.number) == number)
    }
}

fn is_empty(bytes: &[u8]) -> bool {
    bytes.iter().all(|byte| *byte == 0)
}

/// What is at each place; none for a table of another size.
fn places(table: &[u8]) -> Option<Vec<Place>> {
    let places = table.chunks_exact(PLACE_BYTES).map(Place::of);
    (table.len() == TABLE_BYTES).then(|| places.collect())
}

/// A table of another size holds no station.
fn places_asked(table: &[u8]) -> Result<Vec<Place>, Refusal> {
    places(table).ok_or(Refusal::NoStation)
}

/// The bytes of a place; the caller keeps it inside the table.
fn bytes_at(table: &mut [u8], place: usize) -> &mut [u8] {
    &mut table[place * PLACE_BYTES..(place + 1) * PLACE_BYTES]
}

pub fn empty(table: &mut [u8]) -> Result<(), Refusal> {
    if table.len() != TABLE_BYTES {
        return Err(Refusal::Size);
    }
    table.fill(0);
    Ok(())
}

/// The station that holds a number: the lowest that has it.
pub fn find(table: &[u8], number: u32) -> Result<Station, Refusal> {
    let mut places = places_asked(table)?.into_iter();
    let holder = places.find(|place| place.has(number));
    holder.and_then(Place::station).ok_or(Refusal::NoStation)
}

/// What is at a place.
pub fn at(table: &[u8], place: u32) -> Result<Place, Refusal> {
    let places = places_asked(table)?;
    let found = places.get(place as usize).copied();
    found.ok_or(Refusal::NoStation)
}

/// The station at a place.
pub fn list(table: &[u8], place: u32) -> Result<Station, Refusal> {
    at(table, place)?.station().ok_or(Refusal::NoStation)
}

/// Stores a record and gives its place: the one that holds its number, else the
/// lowest free one.
pub fn store(table: &mut [u8], record: &[u8]) -> Result<u32, Refusal> {
    let places = places(table).ok_or(Refusal::Size)?;
    let number = read(record)?.number.into();
    let holder = places.iter().position(|place| place.has(number));
    let free = || places.iter().position(|place| *place == Place::Free);
    let place = holder.or_else(free).ok_or(Refusal::TableFull)?;
    let bytes = bytes_at(table, place);
    bytes.fill(0);
    bytes[..record.len()].copy_from_slice(record);
    Ok(place as u32)
}

/// Frees every place that has a station of this number.
pub fn delete(table: &mut [u8], number: u32) -> Result<(), Refusal> {
    let places = (0..).zip(places_asked(table)?);
    let having: Vec<usize> = places
        .filter_map(|(index, place)| place.has(number).then_some(index))
        .collect();
    for place in &having {
        bytes_at(table, *place).fill(0);
    }
    if having.is_empty() {
        return Err(Refusal::NoStation);
    }
    Ok(())
}

/// Frees a place that has a station or is damaged.
pub fn free(table: &mut [u8], place: u32) -> Result<(), Refusal> {
    if at(table, place)? == Place::Free {
        return Err(Refusal::NoStation);
    }
    bytes_at(table, place as usize).fill(0);
    Ok(())
}

/// Opens a file under the rule set of the station that holds a number.
pub fn open(
    table: &[u8],
    number: u32,
    image: &mut [u8],
    map: &mut [u8],
) -> Result<Reader, HexRefusal> {
    Reader::start(BOARD, find(table, number)?.rules, image, map)
}

/// Starts a session of the run kind of the station that holds a number, unless
/// the file touches a page outside its bounds.
pub fn start(
    table: &[u8],
    number: u32,
    image: &[u8],
    map: &[u8],
    buffer: &mut [u8],
) -> Result<(Session, usize), Refusal> {
    let station = find(table, number)?;
    let touched = touched(check_lent(BOARD, image, map, buffer)?);
    // a file that names nothing touches no page; the session says 32
    if !touched.iter().all(|page| station.bounds().contains(page)) {
        return Err(Refusal::PageOutside);
    }
    Session::start(BOARD, station.run, image, map, buffer)
}

/// The pages that hold a named byte, ascending.
fn touched(map: Map) -> Vec<Page> {
    let pages = (0..BOARD.pages()).map(Page);
    let next_after = |page: &Page| map.next_named(page.start().0).map(ByteAddress);
    pages
        .filter(|page| next_after(page).is_some_and(|named| named.page() == *page))
        .collect()
}
