//! The paper's refusals, each under its number.

#[derive(Clone, Copy, Debug, PartialEq, Eq)]
#[repr(u8)]
pub enum Refusal {
    /// The first two bytes are absent or not 07 0E.
    StartBytes = 1,
    /// No count byte, or the length is not N + 4.
    PacketLength = 2,
    /// N below 5.
    CountSmall = 3,
    PacketChecksum = 4,
    /// A command that is not in the table.
    Command = 5,
    /// N, a data length or a P type that is not in the table.
    Shape = 6,
    Address = 7,
    Protected = 8,
    Sequence = 9,
    /// V found other bytes in flash.
    Differs = 10,
    /// Left, or waiting and the input is not the single 08.
    NotServing = 11,
    /// A lent buffer of the wrong size.
    Size = 20,
    RecordAfterEnd = 21,
    NoColon = 22,
    RecordLength = 23,
    NoDigit = 24,
    RecordCount = 25,
    RecordChecksum = 26,
    RecordType = 27,
    /// BB or AAAA wrong for the type.
    RecordShape = 28,
    /// Data that would reach past the flash.
    Place = 29,
    NamedBefore = 30,
    NoEndRecord = 31,
    /// No data byte.
    NoData = 32,
    /// A record buffer under 44 bytes.
    RecordBuffer = 33,
    UnknownRuleSet = 34,
    /// An event after the end.
    SessionEnded = 44,
    /// A session that has no log record.
    NoLog = 45,
    /// A file that is not the session's, or a session that no start leads to.
    OtherFile = 46,
    LogShort = 50,
    LogLength = 51,
    LogVersion = 52,
    /// A false log record.
    LogFalse = 53,
    /// No station holds the number, or none is at the place.
    NoStation = 60,
    TableFull = 61,
    StationVersion = 62,
    /// A station's record of a wrong length, or with a field out of range.
    StationRecord = 63,
    /// A touched page outside a station's bounds.
    PageOutside = 64,
    /// A number of pages that no board has.
    UnknownBoard = 65,
}

impl Refusal {
    pub fn number(self) -> u8 {
        self as u8
    }

    /// Whether the loader answers this refusal with BEL rather than nothing.
    pub fn answered(self) -> bool {
        matches!(self.number(), 3..=10)
    }
}
