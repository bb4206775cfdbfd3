//! Case lines of stations and of tables of them.

use super::buffers::Buffer;
use super::{shown, words, Answer, Desk};
use crate::boundary::StationRecord;
use crate::listing::hex_digits;
use crate::refusal::Refusal;
use crate::session::Session;
use crate::stations::{self, Place, Station};

/// What a start for a station only reads.
const TABLE_AND_FILE: [Buffer; 3] = [Buffer::Table, Buffer::Image, Buffer::Map];

impl Desk {
    /// Asks one station for something.
    pub(super) fn ask_station(&mut self, name: &str, words: &[&str]) -> Option<Answer> {
        match (name, words) {
            ("read", [record]) => self.read_station(&words::bytes(record)?),
            ("write", fields) => {
                let fields = words::numbers(fields)?;
                self.write_station(StationRecord::of_fields(&fields)?)
            }
            ("open", [number]) => self.open_for(words::number(number)?),
            ("start", [number]) => self.start_for(words::number(number)?),
            _ => None,
        }
    }

    /// Asks the table for something.
    pub(super) fn ask_table(&mut self, name: &str, words: &[&str]) -> Option<Answer> {
        match (name, words) {
            ("empty", []) => self.change_table(stations::empty),
            ("find", [number]) => {
                let number = words::number(number)?;
                self.in_table(|table| stations::find(table, number))
            }
            ("list", [place]) => {
                let place = words::number(place)?;
                self.in_table(|table| stations::list(table, place))
            }
            ("place", [place]) => self.show_place(words::number(place)?),
            ("store", [record]) => self.store(&words::bytes(record)?),
            ("delete", [number]) => {
                let number = words::number(number)?;
                self.change_table(|table| stations::delete(table, number))
            }
            ("free", [place]) => {
                let place = words::number(place)?;
                self.change_table(|table| stations::free(table, place))
            }
            _ => None,
        }
    }

    fn read_station(&mut self, record: &[u8]) -> Option<Answer> {
        self.buffers.call(record, &[], &[])?;
        Some(shown_station(stations::read(record)))
    }

    fn write_station(&mut self, station: StationRecord) -> Option<Answer> {
        self.buffers.call(&[], &[Buffer::Record], &[])?;
        let mut record = self.buffers.lent(Buffer::Record).to_vec();
        let written = station.write(&mut record);
        self.buffers.keep(Buffer::Record, &record);
        let shown = written.map(|length| vec![hex_digits(&record[..length])]);
        Some(Answer::of(shown))
    }

    /// Makes a call that gives a station out of the table.
    fn in_table(&mut self, call: impl FnOnce(&[u8]) -> Result<Station, Refusal>) -> Option<Answer> {
        self.buffers.call(&[], &[], &[Buffer::Table])?;
        Some(shown_station(call(self.buffers.lent(Buffer::Table))))
    }

    fn show_place(&mut self, place: u32) -> Option<Answer> {
        self.buffers.call(&[], &[], &[Buffer::Table])?;
        let found = stations::at(self.buffers.lent(Buffer::Table), place);
        Some(Answer::of(found.map(|place| {
            let condition = match place {
                Place::Free => 0,
                Place::Station(_) => 1,
                Place::Damaged => 2,
            };
            vec![condition.to_string()]
        })))
    }

    fn store(&mut self, record: &[u8]) -> Option<Answer> {
        self.over_table(record, |table| {
            stations::store(table, record).map(|place| vec![place.to_string()])
        })
    }

    /// Makes a call that changes the table and gives nothing.
    fn change_table(
        &mut self,
        call: impl FnOnce(&mut [u8]) -> Result<(), Refusal>,
    ) -> Option<Answer> {
        self.over_table(&[], |table| call(table).map(|()| vec![]))
    }

    /// Makes a call that may write the table.
    fn over_table(
        &mut self,
        brought: &[u8],
        call: impl FnOnce(&mut [u8]) -> Result<Vec<String>, Refusal>,
    ) -> Option<Answer> {
        self.buffers.call(brought, &[Buffer::Table], &[])?;
        let mut table = self.buffers.lent(Buffer::Table).to_vec();
        let done = call(&mut table);
        self.buffers.keep(Buffer::Table, &table);
        Some(Answer::of(done))
    }

    fn open_for(&mut self, number: u32) -> Option<Answer> {
        let table = self.buffers.lent(Buffer::Table).to_vec();
        self.over_file(&[], &[Buffer::Table], |image, map| {
            stations::open(&table, number, image, map)
        })
    }

    fn start_for(&mut self, number: u32) -> Option<Answer> {
        let table = self.buffers.lent(Buffer::Table).to_vec();
        self.send::<Session>(&[], &TABLE_AND_FILE, |image, map, packet| {
            stations::start(&table, number, image, map, packet)
        })
    }
}

/// The fields of a station.
fn shown_station(given: Result<Station, Refusal>) -> Answer {
    match given {
        Ok(station) => shown(&StationRecord::from(station).fields()),
        Err(refusal) => Answer::of(Err(refusal)),
    }
}
