//! Records as a C caller keeps them, with any value in any field, and what
//! they mean.

use crate::hex::{check_sizes, HexRefusal, Reader, RuleSet};
use crate::loader::{self, Condition, Loader, Protection};
use crate::packet::LONGEST;
use crate::plain::{Plain, Stage};
use crate::port::Port;
use crate::receiver::Receiver;
use crate::refusal::Refusal;
use crate::session::{Outcome, Phase, Run, Session};
use crate::stations::{Station, Version};
use crate::units::{Board, ByteAddress, Page};

/// What a record that came from no start counts as: the wait for the erase of
/// a page that no board has.
const NOWHERE: Phase = Phase::Erase(Page(u32::MAX));

/// The same of a plain session: the wait for the greeting with more packets
/// acknowledged than any file has.
const NEVER: (Stage, u32) = (Stage::Waiting, u32::MAX);

/// The numbers of the rule sets.
pub const RULES_1: u32 = RuleSet::One as u32;
pub const RULES_2: u32 = RuleSet::Two as u32;

#[derive(Clone, Copy, Debug, PartialEq, Eq)]
pub struct LoaderRecord {
    pub groups: u64,
    pub added: u64,
    pub key: u32,
    pub condition: u8,
    pub read: u8,
    pub opened: u8,
    pub added_read: u8,
}

impl LoaderRecord {
    pub fn fields(&self) -> [u64; 7] {
        [
            self.groups,
            self.added,
            self.key.into(),
            self.condition.into(),
            self.read.into(),
            self.opened.into(),
            self.added_read.into(),
        ]
    }

    /// None where there are more or fewer fields, or one is too large.
    pub fn of_fields(fields: &[u64]) -> Option<LoaderRecord> {
        let [groups, added, key, condition, read, opened, added_read] = *fields else {
            return None;
        };
        Some(LoaderRecord {
            groups,
            added,
            key: key.try_into().ok()?,
            condition: condition.try_into().ok()?,
            read: read.try_into().ok()?,
            opened: opened.try_into().ok()?,
            added_read: added_read.try_into().ok()?,
        })
    }

    pub fn meaning(&self) -> Loader {
        let added = Protection {
            groups: self.added,
            read: self.added_read != 0,
        };
        Loader {
            condition: match self.condition {
                0 => Condition::Waiting,
                1 => Condition::Serving,
                _ => Condition::Left,
            },
            protection: Protection {
                groups: self.groups,
                read: self.read != 0,
            },
            key: self.key,
            sequence: (self.opened != 0).then_some(added),
        }
    }

    /// The record after a call that was not refused. What is said to be added
    /// with no sequence open has no meaning and stays.
    pub fn followed_by(&self, next: Loader) -> LoaderRecord {
        let after = LoaderRecord::from(next);
        if self.opened != 0 || after.opened != 0 {
            return after;
        }
        LoaderRecord {
            added: self.added,
            added_read: (self.added_read != 0).into(),
            ..after
        }
    }
}

impl From<Loader> for LoaderRecord {
    fn from(loader: Loader) -> LoaderRecord {
        let added = loader.sequence.unwrap_or_default();
        LoaderRecord {
            groups: loader.protection.groups,
            added: added.groups,
            key: loader.key,
            condition: match loader.condition {
                Condition::Waiting => 0,
                Condition::Serving => 1,
                Condition::Left => 2,
            },
            read: loader.protection.read.into(),
            opened: loader.sequence.is_some().into(),
            added_read: added.read.into(),
        }
    }
}

#[derive(Clone, Copy, Debug, PartialEq, Eq)]
pub struct ReceiverRecord {
    pub bytes: [u8; LONGEST],
    pub length: u64,
}

impl ReceiverRecord {
    /// One that has gathered nothing.
    pub fn hunting() -> ReceiverRecord {
        ReceiverRecord {
            bytes: [0; LONGEST],
            length: 0,
        }
    }

    /// With these bytes first and 00 behind them; none where they are too many.
    pub fn of_bytes(bytes: &[u8], length: u64) -> Option<ReceiverRecord> {
        let mut record = ReceiverRecord {
            length,
            ..ReceiverRecord::hunting()
        };
        record.bytes.get_mut(..bytes.len())?.copy_from_slice(bytes);
        Some(record)
    }

    /// All bytes are gathered where the length is larger than there are.
    pub fn meaning(&self) -> Receiver {
        let length = usize::try_from(self.length).unwrap_or(LONGEST);
        Receiver::having(&self.bytes[..length.min(LONGEST)])
    }

    /// The record after a byte; what stands behind the bytes gathered, or behind
    /// the packet handed on, stays.
    pub fn followed_by(&self, next: &Receiver) -> ReceiverRecord {
        let mut bytes = self.bytes;
        bytes[..next.bytes().len()].copy_from_slice(next.bytes());
        ReceiverRecord {
            bytes,
            length: next.gathered().len() as u64,
        }
    }

    /// Feeds one byte; gives the packet that it completes.
    pub fn byte(&mut self, byte: u8) -> Option<&[u8]> {
        let mut receiver = self.meaning();
        let packet = receiver.byte(byte).map(<[u8]>::len);
        *self = self.followed_by(&receiver);
        packet.map(|length| &self.bytes[..length])
    }

    /// Feeds bytes up to and with the one that completes a packet; gives how
    /// many were taken, and the packet.
    pub fn feed(&mut self, bytes: &[u8]) -> (usize, Option<&[u8]>) {
        for (before, byte) in bytes.iter().enumerate() {
            if let Some(length) = self.byte(*byte).map(<[u8]>::len) {
                return (before + 1, Some(&self.bytes[..length]));
            }
        }
        (bytes.len(), None)
    }
}

#[derive(Clone, Copy, Debug, PartialEq, Eq)]
pub struct PortRecord {
    pub loader: LoaderRecord,
    pub receiver: ReceiverRecord,
}

impl PortRecord {
    pub fn meaning(&self) -> Port {
        Port {
            loader: self.loader.meaning(),
            receiver: self.receiver.meaning(),
        }
    }

    /// Takes bytes up to and with the one that brings the loader an input; gives
    /// how many were taken, and the length of the answer.
    pub fn take(
        &mut self,
        pages: u32,
        bytes: &[u8],
        flash: &mut [u8],
        answer: &mut [u8],
    ) -> (usize, Result<usize, Refusal>) {
        let board = match board_of_flash(pages, flash, answer) {
            Ok(board) => board,
            Err(refusal) => return (0, Err(refusal)),
        };
        for (before, byte) in bytes.iter().enumerate() {
            let mut port = self.meaning();
            let brought = port.byte(board, *byte, flash, answer);
            self.receiver = self.receiver.followed_by(&port.receiver);
            if let Some(taken) = brought {
                if taken.is_ok() {
                    self.loader = self.loader.followed_by(port.loader);
                }
                return (before + 1, taken);
            }
        }
        // an answer has its flags 0 or 1, without an input too
        self.loader = self.loader.followed_by(self.loader.meaning());
        (bytes.len(), Ok(0))
    }
}

#[derive(Clone, Copy, Debug, Default, PartialEq, Eq)]
pub struct ReaderRecord {
    pub board: u32,
    pub rules: u32,
    pub linear: u32,
    pub segment: u32,
    pub segmented: u8,
    pub ended: u8,
    pub taken: u8,
}

impl ReaderRecord {
    /// The record as after a start for a board under rule set 1.
    pub fn started(board: Board) -> ReaderRecord {
        ReaderRecord {
            board: board.pages(),
            rules: RULES_1,
            ..ReaderRecord::default()
        }
    }

    pub fn fields(&self) -> [u64; 7] {
        [
            self.board.into(),
            self.rules.into(),
            self.linear.into(),
            self.segment.into(),
            self.segmented.into(),
            self.ended.into(),
            self.taken.into(),
        ]
    }

    pub fn of_fields(fields: &[u64]) -> Option<ReaderRecord> {
        let [board, rules, linear, segment, segmented, ended, taken] = *fields else {
            return None;
        };
        Some(ReaderRecord {
            board: board.try_into().ok()?,
            rules: rules.try_into().ok()?,
            linear: linear.try_into().ok()?,
            segment: segment.try_into().ok()?,
            segmented: segmented.try_into().ok()?,
            ended: ended.try_into().ok()?,
            taken: taken.try_into().ok()?,
        })
    }

    /// What it means, if its board is known, then its rule set.
    pub fn meaning(&self) -> Result<Reader, Refusal> {
        Ok(Reader {
            board: board(self.board)?,
            rules: rule_set(self.rules)?,
            linear: self.linear,
            segment: self.segment,
            segmented: self.segmented != 0,
            ended: self.ended != 0,
            taken: self.taken != 0,
        })
    }

    /// The same over a file, whose sizes go between the board and the rule set.
    pub fn meaning_over(&self, image: &[u8], map: &[u8]) -> Result<Reader, Refusal> {
        check_sizes(board(self.board)?, image, map)?;
        self.meaning()
    }
}

impl From<Reader> for ReaderRecord {
    fn from(reader: Reader) -> ReaderRecord {
        ReaderRecord {
            board: reader.board.pages(),
            rules: reader.rules.number().into(),
            linear: reader.linear,
            segment: reader.segment,
            segmented: reader.segmented.into(),
            ended: reader.ended.into(),
            taken: reader.taken.into(),
        }
    }
}

#[derive(Clone, Copy, Debug, Default, PartialEq, Eq)]
pub struct SessionRecord {
    pub board: u32,
    pub run: u32,
    pub phase: u32,
    pub page: u32,
    pub address: u32,
    pub outcome: u32,
    pub acknowledged: u32,
    pub total: u32,
    pub named: u32,
}

impl SessionRecord {
    pub fn fields(&self) -> [u64; 9] {
        [
            self.board,
            self.run,
            self.phase,
            self.page,
            self.address,
            self.outcome,
            self.acknowledged,
            self.total,
            self.named,
        ]
        .map(u64::from)
    }

    pub fn of_fields(fields: &[u64]) -> Option<SessionRecord> {
        let [board, run, phase, page, address, outcome, acknowledged, total, named] =
            words(fields)?[..]
        else {
            return None;
        };
        Some(SessionRecord {
            board,
            run,
            phase,
            page,
            address,
            outcome,
            acknowledged,
            total,
            named,
        })
    }

    /// What it means, if its board is known. A field that the phase does not use
    /// must be 0.
    pub fn meaning(&self) -> Result<Session, Refusal> {
        let phase = match (self.phase, self.page, self.address, self.outcome) {
            (0, 0, 0, 0) => Phase::Greeting,
            (1, page, 0, 0) => Phase::Erase(Page(page)),
            (2, 0, address, 0) => Phase::Write(ByteAddress(address)),
            (3, 0, address, 0) => Phase::Verify(ByteAddress(address)),
            (4, 0, 0, 0) => Phase::Run,
            (5, 0, 0, number) => outcome(number).map_or(NOWHERE, Phase::Ended),
            _ => NOWHERE,
        };
        Ok(Session {
            board: board(self.board)?,
            run: run(self.run),
            phase,
            acknowledged: self.acknowledged,
            total: self.total,
            named: self.named,
        })
    }
}

impl From<Session> for SessionRecord {
    fn from(session: Session) -> SessionRecord {
        let record = SessionRecord {
            board: session.board.pages(),
            run: session.run.number().into(),
            acknowledged: session.acknowledged,
            total: session.total,
            named: session.named,
            ..SessionRecord::default()
        };
        let (phase, page, address, outcome) = match session.phase {
            Phase::Greeting => (0, 0, 0, 0),
            Phase::Erase(first) => (1, first.0, 0, 0),
            Phase::Write(start) => (2, 0, start.0, 0),
            Phase::Verify(start) => (3, 0, start.0, 0),
            Phase::Run => (4, 0, 0, 0),
            Phase::Ended(outcome) => (5, 0, 0, outcome.number().into()),
        };
        SessionRecord {
            phase,
            page,
            address,
            outcome,
            ..record
        }
    }
}

#[derive(Clone, Copy, Debug, Default, PartialEq, Eq)]
pub struct PlainRecord {
    pub board: u32,
    pub run: u32,
    pub stage: u32,
    pub outcome: u32,
    pub acknowledged: u32,
    pub total: u32,
    pub named: u32,
}

impl PlainRecord {
    pub fn fields(&self) -> [u64; 7] {
        [
            self.board,
            self.run,
            self.stage,
            self.outcome,
            self.acknowledged,
            self.total,
            self.named,
        ]
        .map(u64::from)
    }

    pub fn of_fields(fields: &[u64]) -> Option<PlainRecord> {
        let [board, run, stage, outcome, acknowledged, total, named] = words(fields)?[..] else {
            return None;
        };
        Some(PlainRecord {
            board,
            run,
            stage,
            outcome,
            acknowledged,
            total,
            named,
        })
    }

    /// What it means, if its board is known. Before the end its outcome must be
    /// 0.
    pub fn meaning(&self) -> Result<Plain, Refusal> {
        let stage = match (self.stage, self.outcome) {
            (0, 0) => Some(Stage::Waiting),
            (1, 0) => Some(Stage::UnderWay),
            (2, number) => outcome(number).map(Stage::Ended),
            _ => None,
        };
        let (stage, acknowledged) = stage.map_or(NEVER, |stage| (stage, self.acknowledged));
        Ok(Plain {
            board: board(self.board)?,
            run: run(self.run),
            stage,
            acknowledged,
            total: self.total,
            named: self.named,
        })
    }
}

impl From<Plain> for PlainRecord {
    fn from(plain: Plain) -> PlainRecord {
        let (stage, outcome) = match plain.stage {
            Stage::Waiting => (0, 0),
            Stage::UnderWay => (1, 0),
            Stage::Ended(outcome) => (2, outcome.number().into()),
        };
        PlainRecord {
            board: plain.board.pages(),
            run: plain.run.number().into(),
            stage,
            outcome,
            acknowledged: plain.acknowledged,
            total: plain.total,
            named: plain.named,
        }
    }
}

#[derive(Clone, Copy, Debug, Default, PartialEq, Eq)]
pub struct StationRecord {
    pub version: u32,
    pub station: u32,
    pub run: u32,
    pub rules: u32,
    pub first: u32,
    pub last: u32,
}

impl StationRecord {
    pub fn fields(&self) -> [u64; 6] {
        [
            self.version,
            self.station,
            self.run,
            self.rules,
            self.first,
            self.last,
        ]
        .map(u64::from)
    }

    pub fn of_fields(fields: &[u64]) -> Option<StationRecord> {
        let [version, station, run, rules, first, last] = words(fields)?[..] else {
            return None;
        };
        Some(StationRecord {
            version,
            station,
            run,
            rules,
            first,
            last,
        })
    }

    /// What it means, if its version is known, then its fields in range.
    pub fn meaning(&self) -> Result<Station, Refusal> {
        let version = version(self.version).ok_or(Refusal::StationVersion)?;
        let fields = [self.station, self.run, self.rules, self.first, self.last];
        Station::of(version, fields).ok_or(Refusal::StationRecord)
    }

    /// How many bytes its record has; where its version is unknown, as many as
    /// the longest.
    fn record_bytes(&self) -> usize {
        let version = version(self.version).unwrap_or(Version::Two);
        version.written(Page(self.last)).record_bytes()
    }

    /// Writes its record; the room for it goes before what it means.
    pub fn write(&self, buffer: &mut [u8]) -> Result<usize, Refusal> {
        let room = buffer.get_mut(..self.record_bytes());
        let room = room.ok_or(Refusal::Size)?;
        room.copy_from_slice(&self.meaning()?.record());
        Ok(room.len())
    }
}

impl From<Station> for StationRecord {
    fn from(station: Station) -> StationRecord {
        StationRecord {
            version: station.version.number().into(),
            station: station.number.into(),
            run: station.run.number().into(),
            rules: station.rules.number().into(),
            first: station.first.0,
            last: station.last.0,
        }
    }
}

/// Fields of 32 bits; none where one is too large.
fn words(fields: &[u64]) -> Option<Vec<u32>> {
    let fields = fields.iter().map(|field| (*field).try_into().ok());
    fields.collect()
}

/// The board that has so many pages.
pub fn board(pages: u32) -> Result<Board, Refusal> {
    let mut all = Board::ALL.into_iter();
    let board = all.find(|board| board.pages() == pages);
    board.ok_or(Refusal::UnknownBoard)
}

/// The same, if what the loader is lent is that board's.
fn board_of_flash(pages: u32, flash: &[u8], answer: &[u8]) -> Result<Board, Refusal> {
    let board = board(pages)?;
    loader::check_lent(board, flash, answer)?;
    Ok(board)
}

/// The rule set under its number.
pub fn rule_set(number: u32) -> Result<RuleSet, Refusal> {
    let set = u8::try_from(number).ok().and_then(RuleSet::from_number);
    set.ok_or(Refusal::UnknownRuleSet)
}

/// Opens a file for a number of pages under the number of a rule set.
pub fn start_hex(
    pages: u32,
    rules: u32,
    image: &mut [u8],
    map: &mut [u8],
) -> Result<Reader, HexRefusal> {
    let board = board(pages)?;
    // sizes go before the rule set
    check_sizes(board, image, map)?;
    Reader::start(board, rule_set(rules)?, image, map)
}

/// The run kind under its number; any other is the default.
pub fn run(number: u32) -> Run {
    let run = u8::try_from(number).ok().and_then(Run::from_number);
    run.unwrap_or_default()
}

/// The version of a station's record under its number.
fn version(number: u32) -> Option<Version> {
    u8::try_from(number).ok().and_then(Version::from_number)
}

fn outcome(number: u32) -> Option<Outcome> {
    u8::try_from(number).ok().and_then(Outcome::from_number)
}

#[cfg(test)]
mod tests {
    use std::fmt::Debug;

    use super::*;
    use crate::map;
    use crate::packet::LONGEST;
    use crate::session::{Event, Host};

    fn waiting_for(phase: u32, page: u32, address: u32, outcome: u32) -> SessionRecord {
        SessionRecord {
            board: 124,
            phase,
            page,
            address,
            outcome,
            total: 4,
            named: 1,
            ..SessionRecord::default()
        }
    }

    fn at(stage: u32, outcome: u32) -> PlainRecord {
        PlainRecord {
            board: 124,
            stage,
            outcome,
            total: 4,
            named: 1,
            ..PlainRecord::default()
        }
    }

    /// Neither a step nor a mark is given of what no call hands out.
    fn check_refused(session: impl Host + Debug) {
        let mut map = vec![0; session.board().map_bytes()];
        map::name(&mut map, 0);
        let image = vec![0; session.board().flash_bytes()];
        let stepped = session.step(Event::Silence, &image, &map, &mut [0; LONGEST]);
        assert_eq!(stepped.err(), Some(Refusal::OtherFile), "{session:?}");
        let proved = session.proved(&map, 0);
        assert_eq!(proved, Err(Refusal::OtherFile), "{session:?}");
        assert_eq!(session.outcome(), None, "{session:?}");
    }

    #[test]
    fn what_means_no_session_is_refused() {
        for (phase, page, address, outcome) in [
            (0, 1, 0, 0),
            (0, 0, 1, 0),
            (0, 0, 0, 40),
            (1, 0, 1, 0),
            (1, 0, 0, 40),
            (2, 1, 0, 0),
            (2, 0, 0, 1),
            (3, 1, 0, 0),
            (3, 0, 0, 1),
            (4, 1, 0, 0),
            (4, 0, 1, 0),
            (4, 0, 0, 40),
            (5, 1, 0, 40),
            (5, 0, 1, 40),
            (5, 0, 0, 2),
            (5, 0, 0, 39),
            (5, 0, 0, 44),
            (5, 0, 0, 256),
            (5, 0, 0, u32::MAX),
            (6, 0, 0, 0),
            (u32::MAX, 0, 0, 0),
        ] {
            for acknowledged in [0, 1, 2, 3, 4, u32::MAX] {
                for board in [124, 248] {
                    let record = SessionRecord {
                        board,
                        acknowledged,
                        ..waiting_for(phase, page, address, outcome)
                    };
                    check_refused(record.meaning().unwrap());
                }
            }
        }
    }

    #[test]
    fn what_means_no_plain_session_is_refused() {
        for (stage, outcome) in [
            (0, 1),
            (0, 40),
            (0, u32::MAX),
            (1, 1),
            (1, 40),
            (1, 256),
            (2, 2),
            (2, 39),
            (2, 44),
            (2, 45),
            (2, 256),
            (2, 296),
            (2, u32::MAX),
            (3, 0),
            (3, 40),
            (256, 0),
            (257, 0),
            (u32::MAX, 0),
        ] {
            for acknowledged in [0, 1, 2, 3, 4, u32::MAX] {
                for board in [124, 248] {
                    let record = PlainRecord {
                        board,
                        acknowledged,
                        ..at(stage, outcome)
                    };
                    check_refused(record.meaning().unwrap());
                }
            }
        }
    }

    #[test]
    fn a_plain_session_is_what_its_record_means() {
        for (stage, outcome) in [(0, 0), (1, 0), (2, 0), (2, 1), (2, 40), (2, 43)] {
            for (board, run) in [(124, 0), (124, 1), (124, 2), (248, 0), (248, 2)] {
                for acknowledged in [0, 3, u32::MAX] {
                    let record = PlainRecord {
                        board,
                        run,
                        acknowledged,
                        ..at(stage, outcome)
                    };
                    assert_eq!(record.meaning().map(PlainRecord::from), Ok(record));
                    assert_eq!(PlainRecord::of_fields(&record.fields()), Some(record));
                }
            }
        }
    }

    #[test]
    fn a_session_is_what_its_record_means() {
        for (phase, page, address, outcome) in [
            (0, 0, 0, 0),
            (1, 7, 0, 0),
            (2, 0, 7, 0),
            (3, 0, 7, 0),
            (4, 0, 0, 0),
            (5, 0, 0, 0),
            (5, 0, 0, 1),
            (5, 0, 0, 43),
        ] {
            for (board, run) in [(124, 0), (124, 1), (124, 2), (248, 0), (248, 2)] {
                let record = SessionRecord {
                    board,
                    run,
                    ..waiting_for(phase, page, address, outcome)
                };
                assert_eq!(record.meaning().map(SessionRecord::from), Ok(record));
            }
        }
    }

    /// A record that is handed back gives hold its own number.
    #[test]
    fn a_run_kind_without_a_number_is_hold() {
        assert_eq!([0, 1, 2].map(run), [Run::Reset, Run::Jump, Run::Hold]);
        for number in [3, 255, 256, u32::MAX] {
            assert_eq!(run(number), Run::Hold);
            let record = SessionRecord {
                run: number,
                ..waiting_for(0, 0, 0, 0)
            };
            assert_eq!(SessionRecord::from(record.meaning().unwrap()).run, 2);
            let record = PlainRecord {
                run: number,
                ..at(0, 0)
            };
            assert_eq!(PlainRecord::from(record.meaning().unwrap()).run, 2);
        }
    }

    #[test]
    fn a_reader_is_what_its_record_means() {
        for board in Board::ALL {
            for (rules, segmented) in [(1, 0), (1, 1), (2, 0), (2, 1)] {
                let record = ReaderRecord {
                    rules,
                    linear: 0x1_0000,
                    segment: 0x10,
                    segmented,
                    ended: 1,
                    taken: 1,
                    ..ReaderRecord::started(board)
                };
                assert_eq!(record.meaning().map(ReaderRecord::from), Ok(record));
            }
        }
    }

    /// No number counts as the set that its low bits name.
    #[test]
    fn a_number_that_no_rule_set_has_is_refused() {
        assert_eq!([1, 2].map(rule_set), [Ok(RuleSet::One), Ok(RuleSet::Two)]);
        for rules in [0, 3, 4, 257, 258, 0x1_0001, 0x1_0002, u32::MAX] {
            assert_eq!(rule_set(rules), Err(Refusal::UnknownRuleSet));
            let reader = ReaderRecord {
                rules,
                ..ReaderRecord::started(Board::Short)
            };
            assert_eq!(reader.meaning(), Err(Refusal::UnknownRuleSet));
        }
    }

    #[test]
    fn a_station_is_what_its_record_means() {
        for (version, last) in [(1, 123), (1, 0), (2, 123), (2, 50)] {
            for (station, run, rules) in [(0, 0, 1), (7, 1, 2), (65_535, 2, 1)] {
                for first in [0, last] {
                    let record = StationRecord {
                        version,
                        station,
                        run,
                        rules,
                        first,
                        last,
                    };
                    assert_eq!(record.meaning().map(StationRecord::from), Ok(record));
                    assert_eq!(StationRecord::of_fields(&record.fields()), Some(record));
                }
            }
        }
    }

    /// No number counts as what its low bits say; the version goes first.
    #[test]
    fn what_means_no_station_is_refused() {
        for fields in [
            [1, 65_536, 0, 1, 0, 123],
            [1, 7, 256, 1, 0, 123],
            [1, 7, 0, 257, 0, 123],
            [2, 7, 0, 1, 256, 123],
            [2, 7, 0, 1, 0, 256 + 123],
        ] {
            let record = StationRecord::of_fields(&fields).unwrap();
            assert_eq!(record.meaning(), Err(Refusal::StationRecord));
            for version in [0, 3, 257, 258, u32::MAX] {
                let record = StationRecord { version, ..record };
                assert_eq!(record.meaning(), Err(Refusal::StationVersion));
            }
        }
    }

    /// Of a record with an unknown board nothing else is asked.
    #[test]
    fn a_number_of_pages_that_no_board_has_is_refused() {
        assert_eq!(board(124), Ok(Board::Short));
        assert_eq!(board(248), Ok(Board::Long));
        for pages in [0, 1, 31, 62, 123, 125, 247, 249, 380, 504, u32::MAX] {
            assert_eq!(board(pages), Err(Refusal::UnknownBoard));
            for rules in [0, 1, 2] {
                let reader = ReaderRecord {
                    board: pages,
                    rules,
                    ..ReaderRecord::default()
                };
                assert_eq!(reader.meaning(), Err(Refusal::UnknownBoard));
            }
            let session = SessionRecord {
                board: pages,
                ..waiting_for(6, 0, 0, 0)
            };
            assert_eq!(session.meaning(), Err(Refusal::UnknownBoard));
            let plain = PlainRecord {
                board: pages,
                ..at(3, 0)
            };
            assert_eq!(plain.meaning(), Err(Refusal::UnknownBoard));
        }
    }
}
