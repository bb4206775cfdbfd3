//! What was compared, on each board: how many calls, how often each function
//! gave each number, how often each hex refusal had each column, and how often
//! each record that was made on purpose gave what the paper says.

use std::collections::BTreeMap;
use std::fmt::Display;

use second::boundary;
use second::units::Board;

/// Where a call was made: on the board that it was told or whose record it was
/// given, or without any.
#[derive(Clone, Copy, Debug, PartialEq, Eq, PartialOrd, Ord)]
pub enum On {
    Nothing,
    Known(u32),
    Unknown,
}

impl On {
    pub fn of(pages: u32) -> On {
        match boundary::board(pages) {
            Ok(_) => On::Known(pages),
            Err(_) => On::Unknown,
        }
    }

    pub const fn board(board: Board) -> On {
        On::Known(board.pages())
    }

    /// The board whose version a log record has by its lengths.
    pub fn of_log(input: &[u8]) -> On {
        match (input.len(), input) {
            (10, [0, 0x08, ..]) => On::board(Board::Short),
            (16, [0, 0x0E, ..]) => On::board(Board::Long),
            _ => On::Nothing,
        }
    }

    pub fn name(self) -> String {
        match self {
            On::Nothing => String::from("no board"),
            On::Known(pages) => format!("{pages} pages"),
            On::Unknown => String::from("unknown"),
        }
    }
}

/// Each function that knows of no board and the numbers that it can give, 0
/// where it was done; a log that is 50 or 51 is no board's. What a receiver hands
/// on: short counts by their count, and packets by what they stand in or hold; and
/// receivers that were made up. Stations have one board, so their calls are told
/// none: the versions of records that were written, what is at places, whether a
/// store was over another record, the rule sets of files that were opened, the run
/// kinds of sessions that were started, and on which side of the bounds alone the
/// pages were that stopped one, 0 below and 1 above.
pub const ON_NOTHING: [(&str, &[u8]); 35] = [
    ("turned", &[0]),
    ("restored", &[0]),
    ("build", &[0, 5, 6, 20]),
    ("read", &[0, 1, 2, 3, 4, 5, 6]),
    ("factory", &[0]),
    ("reset", &[0]),
    ("hunt", &[0]),
    ("byte", &[0]),
    ("bytes", &[0]),
    ("handed on", &[0]),
    ("handed on, the longest", &[0]),
    ("short count", &[0, 1, 2, 3, 4]),
    ("start inside a packet", &[0]),
    ("07 before a packet", &[0]),
    ("07 at the end, then 0E", &[0]),
    ("dropped", &[0]),
    ("longer than there is", &[0]),
    ("logread", &[50, 51]),
    ("station read", &[0, 62, 63]),
    ("station write", &[0, 20, 62, 63]),
    ("station written", &[1, 2]),
    ("stations empty", &[0, 20]),
    ("stations find", &[0, 60]),
    ("stations list", &[0, 60]),
    ("stations place", &[0, 60]),
    ("at a place", &[0, 1, 2]),
    ("stations store", &[0, 20, 61, 62, 63]),
    ("stored over another", &[0, 1]),
    ("stations delete", &[0, 60]),
    ("stations free", &[0, 60]),
    ("station open", &[0, 20, 60]),
    ("opened for a station", &[1, 2]),
    ("station start", &[0, 20, 32, 60, 64]),
    ("started for a station", &[0, 1, 2]),
    ("outside the bounds", &[0, 1]),
];

/// The same of the others, on either board; the endings that steps give and
/// those that are read off; the marks; the run kinds of sessions that were
/// started, and that ended as asked by steps and in rehearsals; all that of plain
/// sessions too, and how the two ended side by side; the hex reader under each
/// rule set too; the conditions that ports lead to; how loads with rubbish end,
/// and that it did what the session did not.
pub const ON_EACH: [(&str, &[u8]); 43] = [
    ("take", &[0, 1, 2, 3, 4, 5, 6, 7, 8, 9, 10, 11, 20]),
    ("port", &[0, 1, 3, 4, 5, 6, 7, 8, 9, 10, 11, 20]),
    ("led to by a port", &[1, 2]),
    ("hex", &[0, 20, 34]),
    ("hex, set 1", &[0, 20]),
    ("hex, set 2", &[0, 20]),
    (
        "record",
        &[0, 20, 34, 21, 22, 23, 24, 25, 26, 27, 28, 29, 30],
    ),
    ("record, set 1", RECORD),
    ("record, set 2", RECORD),
    ("close", &[0, 34, 31, 32]),
    ("close, set 1", &[0, 31, 32]),
    ("close, set 2", &[0, 31, 32]),
    ("write", &[0, 20, 33]),
    ("start", &[0, 20, 32]),
    ("started", &[0, 1, 2]),
    ("step", &[0, 20, 44, 46]),
    ("ending", &[0, 1, 40, 41, 42, 43]),
    ("ended as asked", &[0, 1, 2]),
    ("proved", &[0, 20, 46]),
    ("mark", &[0, 1]),
    ("outcome", &[0, 45]),
    ("ended", &[0, 1, 40, 41, 42, 43]),
    ("log", &[0, 20, 45]),
    ("plain start", &[0, 20, 32]),
    ("plain started", &[0, 1, 2]),
    ("plain step", &[0, 20, 44, 46]),
    ("plain ending", &[0, 1, 40, 41, 42, 43]),
    ("plain ended as asked", &[0, 1, 2]),
    ("plain proved", &[0, 20, 46]),
    ("plain mark", &[0, 1]),
    ("plain outcome", &[0, 45]),
    ("plain ended", &[0, 1, 40, 41, 42, 43]),
    ("plain log", &[0, 20, 45]),
    ("ended side by side", &[0, 1, 40, 41, 42, 43]),
    ("logread", &[0, 52, 53]),
    ("rehearse", &[0, 20, 32]),
    ("rehearsed as asked", &[0, 1, 2]),
    ("noisy", &[0, 20, 32]),
    ("noisy ending", &[0, 1, 40, 41, 42, 43]),
    ("ended as without rubbish", &[0, 1, 40, 41]),
    ("07 before a packet", &[7]),
    ("opened by rubbish", &[8]),
    ("R out of rubbish", &[2]),
];

const RECORD: &[u8] = &[0, 20, 21, 22, 23, 24, 25, 26, 27, 28, 29, 30];

/// What comes of records that wrap; on the short board each has a byte past the
/// end.
pub fn wrapped(board: Board) -> &'static [(&'static str, &'static [u8])] {
    match board {
        Board::Short => &[("wrapped", &[29])],
        Board::Long => &[
            ("wrapped", &[0, 29]),
            ("wrapped, named before it", &[30]),
            ("wrapped, named behind it", &[30]),
        ],
    }
}

/// What each of them gives on a board that is none.
pub const ON_UNKNOWN: [(&str, &[u8]); 18] = [
    ("take", &[65]),
    ("port", &[65]),
    ("hex", &[65]),
    ("record", &[65]),
    ("close", &[65]),
    ("write", &[65]),
    ("start", &[65]),
    ("step", &[65]),
    ("proved", &[65]),
    ("outcome", &[45]),
    ("log", &[65]),
    ("plain start", &[65]),
    ("plain step", &[65]),
    ("plain proved", &[65]),
    ("plain outcome", &[45]),
    ("plain log", &[65]),
    ("rehearse", &[65]),
    ("noisy", &[65]),
];

/// The numbers that the programs print.
pub const PLAN: [(&str, &[u8]); 1] =
    [("plan", &[0, 21, 22, 23, 24, 25, 26, 27, 28, 29, 30, 31, 32])];
pub const READLOG: [(&str, &[u8]); 1] = [("readlog", &[0, 50, 51, 52, 53])];

/// The columns of the refusals that have the same in every line.
pub const FIXED_COLUMNS: [(u8, &[usize]); 3] = [(22, &[0]), (27, &[7]), (28, &[1, 3])];
/// Some columns of the others, the lowest and the highest that a record's line
/// can have among them.
pub const RECORD_COLUMNS: [(u8, &[usize]); 4] = [
    (23, &[1, 2, 9, 10, 12, 518, 520, 522, 523, 530, 70_000]),
    (24, &[1, 2, 3, 6, 7, 8, 9, 10, 14, 518, 519, 520]),
    (25, &[11, 13, 15, 519, 521]),
    (26, &[9, 11, 13, 517, 519]),
];
/// The same for `plan`.
pub const PLAN_COLUMNS: [(u8, &[usize]); 4] = [
    (23, &[1, 10, 522, 523, 524, 1000, 5000, 70_000, 10_000_001]),
    (24, &[1, 2, 3, 6, 7, 8, 9, 13, 14]),
    (25, &[11, 13, 15, 521]),
    (26, &[9, 13]),
];

#[derive(Clone, Debug, Default)]
pub struct Tally {
    pub compared: u64,
    calls: Counts<(&'static str, u8)>,
    notes: Counts<(&'static str, u8)>,
    /// Under a made record's name and what it gave.
    made: Counts<(&'static str, u8)>,
    /// Under a refusal's number and its column.
    columns: Counts<(u8, usize)>,
}

type Counts<Key> = BTreeMap<Key, u64>;

/// A tally for each place where calls were made.
#[derive(Clone, Debug, Default)]
pub struct Tallies(BTreeMap<On, Tally>);

impl Tallies {
    pub fn on(&mut self, on: On) -> &mut Tally {
        self.0.entry(on).or_default()
    }

    pub fn each(&self) -> impl Iterator<Item = (On, &Tally)> {
        self.0.iter().map(|(on, tally)| (*on, tally))
    }

    pub fn compared(&self) -> u64 {
        self.0.values().map(|tally| tally.compared).sum()
    }

    pub fn add(&mut self, other: &Tallies) {
        for (on, tally) in other.each() {
            self.on(on).add(tally);
        }
    }
}

impl Tally {
    /// Counts one comparison of a function that gave this number.
    pub fn count(&mut self, function: &'static str, number: u8) {
        self.compared += 1;
        add(&mut self.calls, (function, number), 1);
    }

    /// Counts a value that came out beside the number.
    pub fn note(&mut self, what: &'static str, value: u8) {
        add(&mut self.notes, (what, value), 1);
    }

    /// Counts what a record gave that was made on purpose.
    pub fn made(&mut self, name: &'static str, number: u8) {
        add(&mut self.made, (name, number), 1);
    }

    /// Counts the column of a hex refusal.
    pub fn column(&mut self, number: u8, column: usize) {
        add(&mut self.columns, (number, column), 1);
    }

    pub fn add(&mut self, other: &Tally) {
        self.compared += other.compared;
        join(&mut self.calls, &other.calls);
        join(&mut self.notes, &other.notes);
        join(&mut self.made, &other.made);
        join(&mut self.columns, &other.columns);
    }

    /// How often each number was seen, then each other value, then how many
    /// columns each refusal had, in one line.
    pub fn line(&self) -> String {
        let (mut numbers, mut columns) = (Counts::new(), Counts::new());
        for ((_, number), often) in &self.calls {
            add(&mut numbers, number, *often);
        }
        for (number, _) in self.columns.keys() {
            add(&mut columns, number, 1);
        }
        let numbers = numbers.into_iter();
        let numbers = numbers.map(|(number, often)| format!(" {number}:{often}"));
        let notes = listed(&self.notes);
        let columns = columns.into_iter();
        let columns = columns.map(|(number, many)| format!(" columns {number}:{many}"));
        numbers.chain(notes).chain(columns).collect()
    }

    /// How often each made record gave what, in one line.
    pub fn made_line(&self) -> String {
        listed(&self.made).collect::<Vec<String>>().join(";")
    }

    /// Each of these must have been seen so often, and nothing else.
    pub fn check(&self, expected: &[(&'static str, &[u8])], often: u64) {
        check("gave", expected, often, |key| {
            self.calls.get(key).or(self.notes.get(key))
        });
        for (what, value) in self.calls.keys().chain(self.notes.keys()) {
            let mut listed = expected.iter();
            let listed = listed.any(|(name, values)| name == what && values.contains(value));
            assert!(listed, "{what} gave {value}");
        }
    }

    /// Each made record must have given each of its numbers so often.
    pub fn check_made(&self, expected: &[(&'static str, &[u8])], often: u64) {
        check("gave", expected, often, |key| self.made.get(key));
    }

    /// Each of these columns must have been seen so often.
    pub fn check_columns(&self, expected: &[(u8, &[usize])], often: u64) {
        check("had column", expected, often, |key| self.columns.get(key));
    }
}

/// Each value under what it is of, and how often it was seen.
fn listed<'a>(counts: &'a Counts<(&'static str, u8)>) -> impl Iterator<Item = String> + 'a {
    let counts = counts.iter();
    counts.map(|((what, value), often)| format!(" {what} {value}:{often}"))
}

fn add<Key: Ord>(counts: &mut Counts<Key>, key: Key, often: u64) {
    *counts.entry(key).or_default() += often;
}

fn join<Key: Copy + Ord>(counts: &mut Counts<Key>, more: &Counts<Key>) {
    for (key, often) in more {
        add(counts, *key, *often);
    }
}

fn check<'a, What, Value>(
    verb: &str,
    expected: &[(What, &[Value])],
    often: u64,
    seen: impl Fn(&(What, Value)) -> Option<&'a u64>,
) where
    What: Copy + Display,
    Value: Copy + Display,
{
    let mut rare = Vec::new();
    for (what, values) in expected {
        for value in *values {
            let seen = seen(&(*what, *value)).copied().unwrap_or(0);
            if seen < often {
                rare.push(format!("{what} {verb} {value} {seen} times"));
            }
        }
    }
    assert!(rare.is_empty(), "{}", rare.join(", "));
}
