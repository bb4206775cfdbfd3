//! The product and the second program side by side: each line is asked of
//! both, and the second program says what must come out.

use std::fmt::Debug;

use second::boundary::{
    self, LoaderRecord, PlainRecord, ReaderRecord, SessionRecord, StationRecord, RULES_1,
};
use second::cases::{self, Answer, Buffer, Desk, Part, CAPACITY};
use second::hex::RuleSet;
use second::listing::hex_digits;
use second::units::Board;

use crate::site::Site;
use crate::tally::{On, Tallies};
use crate::wire::Wire;
use crate::wraps::Wrap;

pub struct Pair {
    desk: Desk,
    /// None once a difference was found.
    wire: Option<Wire>,
    /// Where lines put in `input` what they bring.
    brought: u32,
    /// Of the hex reader's last answer, 0 where it has none.
    column: usize,
    /// Of the last call.
    number: u8,
    receiver: Receiver,
    tallies: Tallies,
}

/// A receiver's bytes, without the 00s at their end, and its length.
#[derive(Clone, Debug, Default, PartialEq, Eq)]
pub struct Receiver {
    pub bytes: Vec<u8>,
    pub length: u64,
}

/// What is lost of a load, and so many bytes of rubbish before each packet.
#[derive(Clone, Debug)]
pub struct Noise {
    pub losses: Vec<u8>,
    pub each: u64,
    pub rubbish: Vec<u8>,
}

/// What a port gave, the loader and the receiver that are kept after it.
#[derive(Clone, Debug, PartialEq, Eq)]
pub struct Ported {
    pub number: u8,
    pub taken: usize,
    pub answer: Vec<u8>,
    pub loader: LoaderRecord,
    pub receiver: Receiver,
}

/// What the writer wrote without its line end, and what to go on with.
#[derive(Clone, Debug, PartialEq, Eq)]
pub struct Written {
    pub text: String,
    pub next: u32,
    pub upper: u16,
}

/// The record of a session of either kind that a desk keeps.
pub trait Kept: Copy + Debug + Default + PartialEq {
    const NAMES: Names;

    fn kept(desk: &Desk) -> Option<Self>;

    /// Its fields.
    fn numbers(&self) -> Vec<u64>;

    fn board(&self) -> u32;

    fn run(&self) -> u32;
}

/// The words of one kind of session, and what its calls and what comes of them
/// are counted as.
pub struct Names {
    record: &'static str,
    /// What stands before the words of its lines.
    before: &'static str,
    start: &'static str,
    started: &'static str,
    step: &'static str,
    ending: &'static str,
    ended_as_asked: &'static str,
    proved: &'static str,
    mark: &'static str,
    outcome: &'static str,
    ended: &'static str,
    log: &'static str,
}

impl Kept for SessionRecord {
    const NAMES: Names = Names {
        record: "session",
        before: "",
        start: "start",
        started: "started",
        step: "step",
        ending: "ending",
        ended_as_asked: "ended as asked",
        proved: "proved",
        mark: "mark",
        outcome: "outcome",
        ended: "ended",
        log: "log",
    };

    fn kept(desk: &Desk) -> Option<SessionRecord> {
        desk.session()
    }

    fn numbers(&self) -> Vec<u64> {
        self.fields().to_vec()
    }

    fn board(&self) -> u32 {
        self.board
    }

    fn run(&self) -> u32 {
        self.run
    }
}

impl Kept for PlainRecord {
    const NAMES: Names = Names {
        record: "plain",
        before: "plain ",
        start: "plain start",
        started: "plain started",
        step: "plain step",
        ending: "plain ending",
        ended_as_asked: "plain ended as asked",
        proved: "plain proved",
        mark: "plain mark",
        outcome: "plain outcome",
        ended: "plain ended",
        log: "plain log",
    };

    fn kept(desk: &Desk) -> Option<PlainRecord> {
        desk.plain()
    }

    fn numbers(&self) -> Vec<u64> {
        self.fields().to_vec()
    }

    fn board(&self) -> u32 {
        self.board
    }

    fn run(&self) -> u32 {
        self.run
    }
}

impl Pair {
    pub fn open() -> Pair {
        Pair {
            desk: Desk::new(),
            wire: Some(Wire::open()),
            brought: 0,
            column: 0,
            number: 0,
            receiver: Receiver::default(),
            tallies: Tallies::default(),
        }
    }

    /// Waits for all lines; a difference ends the test.
    pub fn close(mut self) -> Tallies {
        self.settle();
        self.tallies
    }

    fn settle(&mut self) {
        if let Some(wire) = self.wire.take() {
            wire.close();
        }
    }

    /// The bytes that both sides hold.
    pub fn look(&self, part: Part) -> &[u8] {
        self.desk.look(part)
    }

    pub fn set(&mut self, part: Part, bytes: &[u8]) {
        let (buffer, place) = place(part);
        self.ask(format!("put {buffer} {place:08X} {}", hex_digits(bytes)));
    }

    pub fn fill(&mut self, part: Part, byte: u8) {
        let (buffer, place) = place(part);
        let length = part.length();
        self.ask(format!("fill {buffer} {place:08X} {length} {byte:02X}"));
    }

    /// Fills a whole buffer, so that the bytes around a part are known.
    pub fn fill_buffer(&mut self, buffer: Buffer, byte: u8) {
        self.fill(Part::new(buffer, 0, CAPACITY), byte);
    }

    /// Asks a line of both sides.
    fn ask(&mut self, line: impl Into<Vec<u8>>) -> Answer {
        let line = line.into();
        let answer = self.desk.line(&line);
        let expected = cases::printed(&line, answer.as_ref());
        let wire = self.wire.as_mut().expect("an open wire");
        if !wire.send(&line, expected) {
            self.settle();
        }
        answer.unwrap_or_else(|| panic!("no case line: {}", String::from_utf8_lossy(&line)))
    }

    /// Makes a call on both sides and looks at what it changed.
    fn call(&mut self, on: On, function: &'static str, line: impl Into<Vec<u8>>) -> Answer {
        let answer = self.ask(line);
        self.ask("changed");
        self.tallies.on(on).count(function, answer.number);
        self.number = answer.number;
        answer
    }

    /// The number of the last call.
    pub fn number(&self) -> u8 {
        self.number
    }

    /// Shows a record that a call has given.
    fn given(&mut self, answer: &Answer, record: &str) {
        if answer.number == 0 {
            self.ask(record);
        }
    }

    fn lend(&mut self, name: Buffer, part: Part) {
        if self.desk.lent(name) == part {
            return;
        }
        let (word, length) = (name.word(), part.length());
        self.ask(match part.buffer() {
            None => format!("lend {word} null"),
            Some(own) if own == name && part.place() == 0 => format!("lend {word} {length}"),
            Some(_) => {
                let (buffer, place) = place(part);
                format!("lend {word} {buffer} {place:08X} {length}")
            }
        });
    }

    /// Lines put what they bring at this place of `input` from now on.
    pub fn move_input(&mut self, place: u32) {
        self.ask(format!("lend input input {place:08X}"));
        self.brought = place;
    }

    /// So many bytes right behind what a line brings.
    pub fn behind_input(&self, brought: &[u8], length: u32) -> Part {
        let place = self.brought + brought.len() as u32;
        Part::new(Buffer::Input, place, length)
    }

    fn lend_file(&mut self, image: Part, map: Part) {
        self.lend(Buffer::Image, image);
        self.lend(Buffer::Map, map);
    }

    fn set_board(&mut self, pages: u32) {
        if self.desk.board() != pages {
            self.ask(format!("board {pages}"));
        }
    }

    fn set_loader(&mut self, record: LoaderRecord) {
        if self.desk.loader() != record {
            self.ask(setting("loader", &record.fields()));
        }
    }

    fn set_receiver(&mut self, record: &Receiver) {
        if self.receiver != *record {
            let (bytes, length) = (hex_digits(&record.bytes), record.length);
            self.ask(format!("receiver {bytes} {length}"));
            self.receiver = record.clone();
        }
    }

    /// Shows the receiver that is kept, and keeps it in mind.
    fn show_receiver(&mut self) -> Receiver {
        let shown = self.ask("receiver");
        let (length, bytes) = shown.values.split_last().expect("a length");
        self.receiver = Receiver {
            bytes: bytes_in(bytes.first()),
            length: length.parse().expect("a length"),
        };
        self.receiver.clone()
    }

    fn set_reader(&mut self, record: ReaderRecord) {
        if self.desk.reader() != record {
            self.ask(setting("reader", &record.fields()));
        }
    }

    fn set_session<S: Kept>(&mut self, record: S) {
        if S::kept(&self.desk) != Some(record) {
            self.ask(setting(S::NAMES.record, &record.numbers()));
        }
    }

    /// The session of one kind that is kept; all 0 where there is none.
    fn session<S: Kept>(&self) -> S {
        S::kept(&self.desk).unwrap_or_default()
    }

    pub fn turned(&mut self, byte: u8) {
        self.call(On::Nothing, "turned", format!("turned {byte:02X}"));
    }

    pub fn restored(&mut self, byte: u8) {
        self.call(On::Nothing, "restored", format!("restored {byte:02X}"));
    }

    pub fn build(&mut self, buffer: Part, command: u8, address: u32, plain: &[u8]) {
        self.lend(Buffer::Packet, buffer);
        let plain = hex_digits(plain);
        let line = format!("build {command:02X} {address:08X} {plain}");
        self.call(On::Nothing, "build", line);
    }

    pub fn read(&mut self, input: &[u8]) {
        self.call(On::Nothing, "read", format!("read {}", hex_digits(input)));
    }

    pub fn factory(&mut self, filling: u8) -> LoaderRecord {
        let answer = self.call(On::Nothing, "factory", format!("factory {filling:02X}"));
        self.given(&answer, "loader");
        self.desk.loader()
    }

    pub fn reset(&mut self, record: LoaderRecord) -> LoaderRecord {
        self.set_loader(record);
        let answer = self.call(On::Nothing, "reset", "reset");
        self.given(&answer, "loader");
        self.desk.loader()
    }

    /// How many bytes were answered, and the next loader.
    pub fn take(
        &mut self,
        board: u32,
        record: LoaderRecord,
        input: &[u8],
        flash: Part,
        answer: Part,
    ) -> (u32, LoaderRecord) {
        self.set_board(board);
        self.set_loader(record);
        self.lend(Buffer::Flash, flash);
        self.lend(Buffer::Answer, answer);
        let line = format!("take {}", hex_digits(input));
        let taken = self.call(On::of(board), "take", line);
        self.given(&taken, "loader");
        (bytes_of(&taken), self.desk.loader())
    }

    /// A receiver that has gathered nothing.
    pub fn hunt(&mut self) -> Receiver {
        self.call(On::Nothing, "hunt", "hunt");
        self.show_receiver()
    }

    /// The packet that is handed on, empty where none is, and the next receiver.
    pub fn byte(&mut self, record: &Receiver, byte: u8) -> (Vec<u8>, Receiver) {
        self.set_receiver(record);
        let answer = self.call(On::Nothing, "byte", format!("byte {byte:02X}"));
        (bytes_in(answer.values.first()), self.show_receiver())
    }

    /// How many bytes were taken, the packet, and the next receiver.
    pub fn bytes(&mut self, record: &Receiver, bytes: &[u8]) -> (usize, Vec<u8>, Receiver) {
        self.set_receiver(record);
        let line = format!("bytes {}", hex_digits(bytes));
        let answer = self.call(On::Nothing, "bytes", line);
        let packet = bytes_in(answer.values.get(1));
        (taken(&answer), packet, self.show_receiver())
    }

    pub fn port(
        &mut self,
        board: u32,
        (loader, receiver): (LoaderRecord, &Receiver),
        bytes: &[u8],
        flash: Part,
        answer: Part,
    ) -> Ported {
        self.set_board(board);
        self.set_loader(loader);
        self.set_receiver(receiver);
        self.lend(Buffer::Flash, flash);
        self.lend(Buffer::Answer, answer);
        let line = format!("port {}", hex_digits(bytes));
        let given = self.call(On::of(board), "port", line);
        self.given(&given, "loader");
        Ported {
            number: given.number,
            taken: taken(&given),
            answer: bytes_in(given.values.get(1)),
            loader: self.desk.loader(),
            receiver: self.show_receiver(),
        }
    }

    /// Calls the hex reader for a board and a rule set and gives the number; the
    /// only value of a refusal is its column.
    fn read_hex(
        &mut self,
        (board, rules): (u32, u32),
        function: &'static str,
        line: impl Into<Vec<u8>>,
    ) -> u8 {
        let on = On::of(board);
        let answer = self.call(on, function, line);
        self.given(&answer, "reader");
        self.column = 0;
        if let [column] = &answer.values[..] {
            self.column = column.parse().expect("a column");
            self.tallies.on(on).column(answer.number, self.column);
        }
        if let (On::Known(_), Some(what)) = (on, under(function, rules)) {
            self.note(board, what, answer.number);
        }
        answer.number
    }

    /// The column of the hex reader's last answer, 0 where it has none.
    pub fn column(&self) -> usize {
        self.column
    }

    /// The number and the reader that is kept.
    pub fn hex(&mut self, board: u32, rules: u32, image: Part, map: Part) -> (u8, ReaderRecord) {
        self.set_board(board);
        self.lend_file(image, map);
        let line = match rules {
            RULES_1 => String::from("hex"),
            _ => format!("hex {rules}"),
        };
        let number = self.read_hex((board, rules), "hex", line);
        (number, self.desk.reader())
    }

    /// Opens a file of the right sizes under a known set.
    pub fn open_file(&mut self, site: Site, rules: u32) -> ReaderRecord {
        let (number, opened) = self.hex(site.pages(), rules, site.image, site.map);
        assert_eq!(number, 0, "opening under {rules}");
        opened
    }

    pub fn record(
        &mut self,
        record: ReaderRecord,
        text: &[u8],
        image: Part,
        map: Part,
    ) -> (u8, ReaderRecord) {
        self.set_reader(record);
        self.lend_file(image, map);
        let line = match text.contains(&b'\n') {
            true => format!("line {}", hex_digits(text)).into_bytes(),
            false => [b"record ", text].concat(),
        };
        let number = self.read_hex((record.board, record.rules), "record", line);
        if let Some(wrap) = Wrap::of(&record, text) {
            self.note_wrap(record.board, &wrap, map, number);
        }
        (number, self.desk.reader())
    }

    /// Counts what came of a record that wraps; of 30, on which side of the wrap
    /// alone a place was named before.
    fn note_wrap(&mut self, board: u32, wrap: &Wrap, map: Part, number: u8) {
        match number {
            0 | 29 => self.note(board, "wrapped", number),
            30 => match wrap.met(self.look(map)) {
                (true, false) => self.note(board, "wrapped, named before it", number),
                (false, true) => self.note(board, "wrapped, named behind it", number),
                _ => {}
            },
            _ => {}
        }
    }

    pub fn close_file(&mut self, record: ReaderRecord) -> u8 {
        self.set_reader(record);
        self.read_hex((record.board, record.rules), "close", "close")
    }

    /// Nothing after a refusal.
    pub fn write(
        &mut self,
        board: u32,
        (image, map): (Part, Part),
        from: u32,
        upper: u16,
        buffer: Part,
    ) -> Option<Written> {
        self.set_board(board);
        self.lend_file(image, map);
        self.lend(Buffer::Record, buffer);
        let line = format!("write {from:08X} {upper:04X}");
        let answer = self.call(On::of(board), "write", line);
        let [text, next, upper] = &answer.values[..] else {
            return None;
        };
        Some(Written {
            text: text.clone(),
            next: u32::from_str_radix(next, 16).expect("an address"),
            upper: u16::from_str_radix(upper, 16).expect("an upper half"),
        })
    }

    /// The number and the session that is kept.
    pub fn start(
        &mut self,
        board: u32,
        told: u32,
        image: Part,
        map: Part,
        buffer: Part,
    ) -> (u8, SessionRecord) {
        self.start_one(board, told, image, map, buffer)
    }

    /// The number and the plain session that is kept.
    pub fn plain_start(
        &mut self,
        board: u32,
        told: u32,
        image: Part,
        map: Part,
        buffer: Part,
    ) -> (u8, PlainRecord) {
        self.start_one(board, told, image, map, buffer)
    }

    fn start_one<S: Kept>(
        &mut self,
        board: u32,
        told: u32,
        image: Part,
        map: Part,
        buffer: Part,
    ) -> (u8, S) {
        self.set_board(board);
        self.lend_file(image, map);
        self.lend(Buffer::Packet, buffer);
        let line = format!("{}start {}", S::NAMES.before, run(told));
        let answer = self.call(On::of(board), S::NAMES.start, line);
        self.given(&answer, S::NAMES.record);
        if answer.number == 0 {
            self.note_kind::<S>(S::NAMES.started);
        }
        (answer.number, self.session())
    }

    /// How many bytes the packet has, and the next session.
    pub fn step<S: Kept>(
        &mut self,
        record: S,
        silent: u8,
        heard: &[u8],
        (image, map): (Part, Part),
        buffer: Part,
    ) -> (u32, S) {
        self.set_session(record);
        self.lend_file(image, map);
        self.lend(Buffer::Packet, buffer);
        let digits = hex_digits(heard);
        let event = match (silent, heard) {
            (0, _) => format!("answer {digits}"),
            (1, []) => String::from("silence"),
            _ => format!("event {silent} {digits}"),
        };
        let line = format!("{}{event}", S::NAMES.before);
        let answer = self.call(On::of(record.board()), S::NAMES.step, line);
        self.given(&answer, S::NAMES.record);
        match ending(&answer) {
            Some(number) => {
                self.note(record.board(), S::NAMES.ending, number);
                if is_as_asked(number) {
                    self.note_kind::<S>(S::NAMES.ended_as_asked);
                }
                (0, self.session())
            }
            None => (bytes_of(&answer), self.session()),
        }
    }

    /// Counts what came of a call that no board was told of.
    pub fn note_boardless(&mut self, what: &'static str, value: u8) {
        self.tallies.on(On::Nothing).note(what, value);
    }

    /// Counts a value that came out on a board.
    pub fn note(&mut self, board: u32, what: &'static str, value: u8) {
        self.tallies.on(On::of(board)).note(what, value);
    }

    /// Counts the run kind of the session that is kept.
    fn note_kind<S: Kept>(&mut self, what: &'static str) {
        let session: S = self.session();
        let kind = session.run().try_into().expect("a run kind's number");
        self.note(session.board(), what, kind);
    }

    /// The mark; none where that is refused.
    pub fn proved<S: Kept>(&mut self, record: S, map: Part, address: u32) -> Option<u8> {
        self.set_session(record);
        self.lend(Buffer::Map, map);
        let line = format!("{}proved {address:08X}", S::NAMES.before);
        let answer = self.call(On::of(record.board()), S::NAMES.proved, line);
        let [mark] = &answer.values[..] else {
            return None;
        };
        let mark = mark.parse().expect("a mark");
        self.note(record.board(), S::NAMES.mark, mark);
        Some(mark)
    }

    /// How it ended; none where that is refused.
    pub fn outcome<S: Kept>(&mut self, record: S) -> Option<u8> {
        self.set_session(record);
        let line = format!("{}outcome", S::NAMES.before);
        let answer = self.call(On::of(record.board()), S::NAMES.outcome, line);
        let ended = ending(&answer);
        if let Some(number) = ended {
            self.note(record.board(), S::NAMES.ended, number);
        }
        ended
    }

    /// The number and the record's bytes, none after a refusal.
    pub fn log<S: Kept>(&mut self, record: S, buffer: Part) -> (u8, Vec<u8>) {
        self.set_session(record);
        self.lend(Buffer::Log, buffer);
        let line = format!("{}log", S::NAMES.before);
        let answer = self.call(On::of(record.board()), S::NAMES.log, line);
        let written = self.look(buffer.with_length(bytes_of(&answer)));
        (answer.number, written.to_vec())
    }

    pub fn read_log(&mut self, input: &[u8]) -> u8 {
        let line = format!("logread {}", hex_digits(input));
        let answer = self.call(On::of_log(input), "logread", line);
        answer.number
    }

    /// Counts a record that was made on purpose for a board, under its name.
    pub fn made(&mut self, board: Board, name: &'static str, number: u8) {
        self.tallies.on(On::board(board)).made(name, number);
    }

    /// The number and what the load left.
    pub fn rehearse(
        &mut self,
        board: u32,
        told: u32,
        record: LoaderRecord,
        losses: &[u8],
        (image, map): (Part, Part),
        flash: Part,
    ) -> (u8, LoaderRecord, SessionRecord) {
        self.set_board(board);
        self.set_loader(record);
        self.lend_file(image, map);
        self.lend(Buffer::Flash, flash);
        let losses = hex_digits(losses);
        let line = format!("rehearse {} {losses}", run(told));
        let answer = self.call(On::of(board), "rehearse", line);
        self.given(&answer, "loader");
        self.given(&answer, "session");
        if ending(&answer).is_some_and(is_as_asked) {
            self.note_kind::<SessionRecord>("rehearsed as asked");
        }
        (answer.number, self.desk.loader(), self.session())
    }

    /// The same with rubbish on the line.
    pub fn noisy(
        &mut self,
        board: u32,
        told: u32,
        record: LoaderRecord,
        noise: &Noise,
        (image, map): (Part, Part),
        flash: Part,
    ) -> (u8, LoaderRecord, SessionRecord) {
        self.set_board(board);
        self.set_loader(record);
        self.lend_file(image, map);
        self.lend(Buffer::Flash, flash);
        let (run, each) = (run(told), noise.each);
        let (losses, rubbish) = (hex_digits(&noise.losses), hex_digits(&noise.rubbish));
        let line = format!("noisy {run} {each} {losses} {rubbish}");
        let answer = self.call(On::of(board), "noisy", line);
        self.given(&answer, "loader");
        self.given(&answer, "session");
        if let Some(number) = ending(&answer) {
            self.note(board, "noisy ending", number);
        }
        (answer.number, self.desk.loader(), self.session())
    }
}

/// A table that is lent, and the number of the station that is asked for.
pub type Wanted = (Part, u32);

/// Calls of stations.
impl Pair {
    /// What a record says; none where it is refused.
    pub fn read_station(&mut self, record: &[u8]) -> Option<StationRecord> {
        let line = format!("station read {}", hex_digits(record));
        let answer = self.call(On::Nothing, "station read", line);
        station_in(&answer)
    }

    /// The number and the record's bytes, none after a refusal.
    pub fn write_station(&mut self, station: StationRecord, buffer: Part) -> (u8, Vec<u8>) {
        self.lend(Buffer::Record, buffer);
        let line = setting("station write", &station.fields());
        let answer = self.call(On::Nothing, "station write", line);
        let record = bytes_in(answer.values.first());
        if let Some(version) = record.get(2) {
            self.note_boardless("station written", *version);
        }
        (answer.number, record)
    }

    pub fn empty(&mut self, table: Part) -> u8 {
        self.ask_table(table, "stations empty", "stations empty".into())
            .number
    }

    /// The station that holds a number; none where that is refused.
    pub fn find(&mut self, table: Part, number: u32) -> Option<StationRecord> {
        let line = format!("stations find {number}");
        station_in(&self.ask_table(table, "stations find", line))
    }

    /// The station at a place; none where that is refused.
    pub fn list(&mut self, table: Part, place: u32) -> Option<StationRecord> {
        let line = format!("stations list {place}");
        station_in(&self.ask_table(table, "stations list", line))
    }

    /// What is at a place; none where that is refused.
    pub fn place(&mut self, table: Part, place: u32) -> Option<u8> {
        let line = format!("stations place {place}");
        let answer = self.ask_table(table, "stations place", line);
        let condition = answer.values.first()?.parse().expect("a condition");
        self.note_boardless("at a place", condition);
        Some(condition)
    }

    /// The place where a record is stored; none where that is refused.
    pub fn store(&mut self, table: Part, record: &[u8]) -> Option<u32> {
        let line = format!("stations store {}", hex_digits(record));
        let answer = self.ask_table(table, "stations store", line);
        Some(answer.values.first()?.parse().expect("a place"))
    }

    pub fn delete(&mut self, table: Part, number: u32) -> u8 {
        let line = format!("stations delete {number}");
        self.ask_table(table, "stations delete", line).number
    }

    pub fn free(&mut self, table: Part, place: u32) -> u8 {
        let line = format!("stations free {place}");
        self.ask_table(table, "stations free", line).number
    }

    fn ask_table(&mut self, table: Part, function: &'static str, line: String) -> Answer {
        self.lend(Buffer::Table, table);
        self.call(On::Nothing, function, line)
    }

    /// The number and the reader that is kept, whatever board calls are told.
    pub fn station_open(
        &mut self,
        board: u32,
        (table, number): Wanted,
        image: Part,
        map: Part,
    ) -> (u8, ReaderRecord) {
        self.set_board(board);
        self.lend_file(image, map);
        let line = format!("station open {number}");
        let answer = self.ask_table(table, "station open", line);
        self.given(&answer, "reader");
        let reader = self.desk.reader();
        if answer.number == 0 {
            let rules = reader.rules.try_into().expect("a rule set's number");
            self.note_boardless("opened for a station", rules);
        }
        (answer.number, reader)
    }

    /// The number and the session that is kept, whatever board calls are told.
    pub fn station_start(
        &mut self,
        board: u32,
        (table, number): Wanted,
        (image, map, buffer): (Part, Part, Part),
    ) -> (u8, SessionRecord) {
        self.set_board(board);
        self.lend_file(image, map);
        self.lend(Buffer::Packet, buffer);
        let line = format!("station start {number}");
        let answer = self.ask_table(table, "station start", line);
        self.given(&answer, "session");
        let session: SessionRecord = self.session();
        if answer.number == 0 {
            let kind = session.run.try_into().expect("a run kind's number");
            self.note_boardless("started for a station", kind);
        }
        (answer.number, session)
    }
}

/// The station that an answer gives, if it does.
fn station_in(answer: &Answer) -> Option<StationRecord> {
    let fields = answer.values.iter().map(|field| field.parse());
    let fields: Result<Vec<u64>, _> = fields.collect();
    StationRecord::of_fields(&fields.expect("numbers"))
}

/// What the numbers of a function under a rule set are counted as; nothing for
/// a set that is none.
fn under(function: &str, rules: u32) -> Option<&'static str> {
    Some(match (boundary::rule_set(rules).ok()?, function) {
        (RuleSet::One, "hex") => "hex, set 1",
        (RuleSet::One, "record") => "record, set 1",
        (RuleSet::One, _) => "close, set 1",
        (RuleSet::Two, "hex") => "hex, set 2",
        (RuleSet::Two, "record") => "record, set 2",
        (RuleSet::Two, _) => "close, set 2",
    })
}

/// The buffer and the place of a part that is not null.
fn place(part: Part) -> (&'static str, u32) {
    let buffer = part.buffer().expect("bytes of a buffer");
    (buffer.word(), part.place())
}

fn setting(record: &str, fields: &[u64]) -> String {
    let fields: String = fields.iter().map(|field| format!(" {field}")).collect();
    format!("{record}{fields}")
}

fn run(told: u32) -> String {
    match told {
        0 => String::from("reset"),
        1 => String::from("jump"),
        2 => String::from("hold"),
        _ => told.to_string(),
    }
}

/// How many bytes the only value has.
fn bytes_of(answer: &Answer) -> u32 {
    match &answer.values[..] {
        [digits] => digits.len() as u32 / 2,
        _ => 0,
    }
}

/// The bytes of a value, none where there is none.
fn bytes_in(digits: Option<&String>) -> Vec<u8> {
    let digits = digits.map_or("", String::as_str);
    let pairs = (0..digits.len()).step_by(2);
    let byte = |at: usize| u8::from_str_radix(&digits[at..at + 2], 16).expect("digits");
    pairs.map(byte).collect()
}

/// How many bytes a receiver or a port took: the first value.
fn taken(answer: &Answer) -> usize {
    let taken = answer.values.first().expect("how many were taken");
    taken.parse().expect("a number")
}

fn ending(answer: &Answer) -> Option<u8> {
    let number = answer.values.first()?.strip_prefix("ended ")?;
    Some(number.parse().expect("a number"))
}

/// Valid, or held.
fn is_as_asked(ending: u8) -> bool {
    ending <= 1
}
