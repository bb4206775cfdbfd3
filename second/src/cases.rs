//! Case lines: each line is printed again with what came out.

mod buffers;
mod stations;
mod words;

use std::fmt;
use std::io::{self, BufRead, Write};

use crate::boundary::{
    self, LoaderRecord, PlainRecord, PortRecord, ReaderRecord, ReceiverRecord, SessionRecord,
};
use crate::hex::{self, HexRefusal, Reader};
use crate::line::{self, Exchange, Noise};
use crate::listing::{hex_digits, log_line};
use crate::loader::{self, Loader};
use crate::log;
use crate::packet;
use crate::plain::Plain;
use crate::refusal::Refusal;
use crate::session::{Event, Host, Outcome, Run, Session};
use crate::units::Board;

pub use buffers::{Buffer, Part, CAPACITY};
use buffers::{Buffers, Stretch};

/// What is lent of a file.
const FILE: [Buffer; 2] = [Buffer::Image, Buffer::Map];
const REMARK: &[u8] = b"#";
const ARROW: &str = " -> ";

/// Answers each line of the input.
pub fn run(mut input: impl BufRead, output: &mut impl Write) -> io::Result<()> {
    let mut desk = Desk::new();
    let mut line = Vec::new();
    while input.read_until(b'\n', &mut line)? > 0 {
        line.pop_if(|last| *last == b'\n');
        let answer = desk.line(&line);
        output.write_all(&printed(&line, answer.as_ref()))?;
        output.write_all(b"\n")?;
        line.clear();
    }
    Ok(())
}

/// A line again with what came out; a remark as it is.
pub fn printed(line: &[u8], answer: Option<&Answer>) -> Vec<u8> {
    let mut printed = line.to_vec();
    if !line.starts_with(REMARK) {
        let result = answer.map_or_else(|| String::from("?"), Answer::to_string);
        printed.extend(ARROW.bytes().chain(result.bytes()));
    }
    printed
}

/// The line that was asked, of one that was printed.
pub fn asked(printed: &str) -> &str {
    match printed.split_once(ARROW) {
        Some((line, _)) if !line.as_bytes().starts_with(REMARK) => line,
        _ => printed,
    }
}

/// What came out of a line.
#[derive(Clone, Debug, PartialEq, Eq)]
pub struct Answer {
    /// That of the refusal, 0 when it was done.
    pub number: u8,
    pub values: Vec<String>,
}

impl Answer {
    fn done(values: Vec<String>) -> Answer {
        Answer { number: 0, values }
    }

    fn one(value: String) -> Answer {
        Answer::done(vec![value])
    }

    fn nothing() -> Answer {
        Answer::done(vec![])
    }

    fn of(done: Result<Vec<String>, Refusal>) -> Answer {
        match done {
            Ok(values) => Answer::done(values),
            Err(refusal) => Answer {
                number: refusal.number(),
                values: vec![],
            },
        }
    }
}

/// The number, then each value that is not empty behind a single space.
impl fmt::Display for Answer {
    fn fmt(&self, out: &mut fmt::Formatter) -> fmt::Result {
        write!(out, "{}", self.number)?;
        let mut shown = self.values.iter().filter(|value| !value.is_empty());
        shown.try_for_each(|value| write!(out, " {value}"))
    }
}

/// What is kept from line to line.
pub struct Desk {
    buffers: Buffers,
    /// A number of pages, whether a board has so many or not.
    board: u32,
    loader: LoaderRecord,
    receiver: ReceiverRecord,
    reader: ReaderRecord,
    session: Option<SessionRecord>,
    plain: Option<PlainRecord>,
}

/// A session of one kind, as the desk keeps it.
trait Kept: Host {
    /// What the record means; none where there is no session of its kind.
    fn kept(desk: &Desk) -> Option<Result<Self, Refusal>>;

    fn keep(self, desk: &mut Desk);
}

impl Kept for Session {
    fn kept(desk: &Desk) -> Option<Result<Session, Refusal>> {
        desk.session.map(|record| record.meaning())
    }

    fn keep(self, desk: &mut Desk) {
        desk.session = Some(self.into());
    }
}

impl Kept for Plain {
    fn kept(desk: &Desk) -> Option<Result<Plain, Refusal>> {
        desk.plain.map(|record| record.meaning())
    }

    fn keep(self, desk: &mut Desk) {
        desk.plain = Some(self.into());
    }
}

impl Default for Desk {
    fn default() -> Desk {
        Desk::new()
    }
}

impl Desk {
    pub fn new() -> Desk {
        Desk {
            buffers: Buffers::new(),
            board: Board::Short.pages(),
            loader: Loader::factory().into(),
            receiver: ReceiverRecord::hunting(),
            reader: ReaderRecord::started(Board::Short),
            session: None,
            plain: None,
        }
    }

    pub fn board(&self) -> u32 {
        self.board
    }

    pub fn loader(&self) -> LoaderRecord {
        self.loader
    }

    pub fn receiver(&self) -> ReceiverRecord {
        self.receiver
    }

    pub fn reader(&self) -> ReaderRecord {
        self.reader
    }

    pub fn session(&self) -> Option<SessionRecord> {
        self.session
    }

    pub fn plain(&self) -> Option<PlainRecord> {
        self.plain
    }

    /// The bytes of a part as they stand.
    pub fn look(&self, part: Part) -> &[u8] {
        self.buffers.look(part)
    }

    /// What is lent under a name.
    pub fn lent(&self, name: Buffer) -> Part {
        self.buffers.part(name)
    }

    /// Does one line; a line that is no case gives nothing.
    pub fn line(&mut self, line: &[u8]) -> Option<Answer> {
        let mut parts = line.splitn(2, |byte| *byte == b' ');
        let (name, rest) = (parts.next()?, parts.next());
        if name == b"record" {
            return self.take_record(rest?);
        }
        let words: Vec<&str> = match rest {
            Some(rest) => std::str::from_utf8(rest).ok()?.split(' ').collect(),
            None => vec![],
        };
        match (name, &words[..]) {
            (b"lend", ["input", buffer, place]) => {
                let (buffer, place) = (Buffer::from_word(buffer)?, words::address(place)?);
                self.buffers.lend_input(buffer, place)?;
                Some(Answer::nothing())
            }
            (b"lend", [name, part @ ..]) => self.lend(name, part),
            (b"fill", [buffer, place, length, byte]) => {
                self.fill(part(buffer, place, length)?, words::byte(byte)?)
            }
            (b"put", [buffer, place, bytes]) => self.put(buffer, place, &words::bytes(bytes)?),
            (b"look", [buffer, place, length]) => {
                let part = part(buffer, place, length)?;
                Some(Answer::one(hex_digits(self.look(part))))
            }
            (b"changed", []) => Some(self.changed()),
            (b"board", [pages]) => {
                self.board = words::number(pages)?;
                Some(Answer::nothing())
            }
            (b"receiver", []) => Some(self.show_receiver()),
            (b"receiver", [bytes, length]) => {
                let (bytes, length) = (words::bytes(bytes)?, words::number(length)?);
                self.receiver = ReceiverRecord::of_bytes(&bytes, length)?;
                Some(Answer::nothing())
            }
            (b"loader", []) => Some(shown(&self.loader.fields())),
            (b"reader", []) => Some(shown(&self.reader.fields())),
            (b"session", []) => Some(shown(&self.session?.fields())),
            (b"plain", []) => Some(shown(&self.plain?.fields())),
            (b"loader" | b"reader" | b"session", fields) => self.set_record(name, fields),
            (b"plain", [first, ..]) if words::number::<u64>(first).is_some() => {
                self.set_record(name, &words)
            }
            (name, words) => self.ask(name, words),
        }
    }

    fn lend(&mut self, name: &str, words: &[&str]) -> Option<Answer> {
        let name = Buffer::from_word(name)?;
        let part = match words {
            ["null"] => Part::NULL,
            [length] => Part::within(name, 0, words::number(length)?)?,
            [buffer, place, length] => part(buffer, place, length)?,
            _ => return None,
        };
        self.buffers.lend(name, part)?;
        Some(Answer::nothing())
    }

    fn fill(&mut self, part: Part, byte: u8) -> Option<Answer> {
        self.buffers.set(part).fill(byte);
        Some(Answer::nothing())
    }

    fn put(&mut self, buffer: &str, place: &str, bytes: &[u8]) -> Option<Answer> {
        let (buffer, place) = (Buffer::from_word(buffer)?, words::address(place)?);
        let part = Part::within(buffer, place, bytes.len().try_into().ok()?)?;
        self.buffers.set(part).copy_from_slice(bytes);
        Some(Answer::nothing())
    }

    fn changed(&self) -> Answer {
        let words = |stretch: &Stretch| {
            let buffer = stretch.buffer.word().to_string();
            let place = format!("{:08X}", stretch.places.start);
            [buffer, place, hex_digits(self.buffers.bytes(stretch))]
        };
        let stretches = self.buffers.changed();
        Answer::done(stretches.iter().flat_map(words).collect())
    }

    /// The receiver's bytes without the 00s at their end, and its length.
    fn show_receiver(&self) -> Answer {
        let bytes = &self.receiver.bytes;
        let last = bytes.iter().rposition(|byte| *byte != 0);
        let shown = &bytes[..last.map_or(0, |place| place + 1)];
        Answer::done(vec![hex_digits(shown), self.receiver.length.to_string()])
    }

    fn set_record(&mut self, name: &[u8], fields: &[&str]) -> Option<Answer> {
        let fields = words::numbers(fields)?;
        match name {
            b"loader" => self.loader = LoaderRecord::of_fields(&fields)?,
            b"reader" => self.reader = ReaderRecord::of_fields(&fields)?,
            b"session" => self.session = Some(SessionRecord::of_fields(&fields)?),
            _ => self.plain = Some(PlainRecord::of_fields(&fields)?),
        }
        Some(Answer::nothing())
    }

    /// Asks one part for something.
    fn ask(&mut self, name: &[u8], words: &[&str]) -> Option<Answer> {
        match (name, words) {
            (b"turned", [byte]) => self.turn(packet::turned, words::byte(byte)?),
            (b"restored", [byte]) => self.turn(packet::restored, words::byte(byte)?),
            (b"build", [command, at, data]) => {
                let (command, at) = (words::byte(command)?, words::address(at)?);
                self.build(command, at, &words::bytes(data)?)
            }
            (b"read", [input]) => self.read(&words::bytes(input)?),
            (b"factory", [byte]) => self.factory(words::byte(byte)?),
            (b"reset", []) => self.reset(),
            (b"take", [input]) => self.take(&words::bytes(input)?),
            (b"hunt", []) => self.hunt(),
            (b"byte", [byte]) => self.feed_byte(words::byte(byte)?),
            (b"bytes", [bytes]) => self.feed_bytes(&words::bytes(bytes)?),
            (b"port", [bytes]) => self.take_bytes(&words::bytes(bytes)?),
            (b"hex", []) => self.start_hex(boundary::RULES_1),
            (b"hex", [rules]) => self.start_hex(words::number(rules)?),
            (b"line", [bytes]) => self.take_record(&words::bytes(bytes)?),
            (b"close", []) => self.close(),
            (b"write", [from, upper]) => self.write(words::address(from)?, words::half(upper)?),
            (b"logread", [input]) => self.read_log(&words::bytes(input)?),
            (b"rehearse", [run, losses]) => self.rehearse(words::run(run)?, &words::bytes(losses)?),
            (b"noisy", [run, each, losses, rubbish]) => {
                let (run, each) = (words::run(run)?, words::number(each)?);
                self.rehearse_noisy(run, each, &words::bytes(losses)?, &words::bytes(rubbish)?)
            }
            (b"station", [name, words @ ..]) => self.ask_station(name, words),
            (b"stations", [name, words @ ..]) => self.ask_table(name, words),
            (b"plain", [name, words @ ..]) => self.ask_session::<Plain>(name.as_bytes(), words),
            _ => self.ask_session::<Session>(name, words),
        }
    }

    /// Asks the session of one kind for something.
    fn ask_session<S: Kept>(&mut self, name: &[u8], words: &[&str]) -> Option<Answer> {
        match (name, words) {
            (b"start", [run]) => self.start::<S>(words::run(run)?),
            (b"answer", [answer]) => self.step::<S>(0, &words::bytes(answer)?),
            (b"silence", []) => self.step::<S>(1, &[]),
            (b"event", [silent, answer]) => {
                self.step::<S>(words::number(silent)?, &words::bytes(answer)?)
            }
            (b"proved", [at]) => self.proved::<S>(words::address(at)?),
            (b"outcome", []) => self.outcome::<S>(),
            (b"log", []) => self.write_log::<S>(),
            _ => None,
        }
    }

    fn turn(&mut self, turn: fn(u8) -> u8, byte: u8) -> Option<Answer> {
        self.buffers.call(&[], &[], &[])?;
        Some(Answer::one(hex_digits(&[turn(byte)])))
    }

    fn build(&mut self, command: u8, at: u32, data: &[u8]) -> Option<Answer> {
        self.buffers.call(data, &[Buffer::Packet], &[])?;
        let mut packet = self.buffers.lent(Buffer::Packet).to_vec();
        let built = packet::build(&mut packet, command, at, data);
        self.buffers.keep(Buffer::Packet, &packet);
        let shown = built.map(|length| vec![hex_digits(&packet[..length])]);
        Some(Answer::of(shown))
    }

    fn read(&mut self, input: &[u8]) -> Option<Answer> {
        self.buffers.call(input, &[], &[])?;
        Some(Answer::of(packet::read(input).map(|packet| {
            vec![
                hex_digits(&[packet.command.byte()]),
                format!("{:08X}", packet.address),
                packet.place.to_string(),
                packet.length.to_string(),
            ]
        })))
    }

    fn factory(&mut self, filling: u8) -> Option<Answer> {
        self.buffers.call(&[], &[], &[])?;
        self.loader = Loader::factory().into();
        self.fill(Part::new(Buffer::Flash, 0, CAPACITY), filling)
    }

    fn reset(&mut self) -> Option<Answer> {
        self.buffers.call(&[], &[], &[])?;
        let mut loader = self.loader.meaning();
        loader.reset();
        self.loader = loader.into();
        Some(Answer::nothing())
    }

    fn take(&mut self, input: &[u8]) -> Option<Answer> {
        let (board, mut loader) = (boundary::board(self.board), self.loader.meaning());
        let shown = self.over_flash(input, |flash, answer| {
            loader.take(board?, input, flash, answer)
        })?;
        if shown.number == 0 {
            self.loader = self.loader.followed_by(loader);
        }
        Some(shown)
    }

    fn hunt(&mut self) -> Option<Answer> {
        self.buffers.call(&[], &[], &[])?;
        self.receiver = ReceiverRecord::hunting();
        Some(Answer::nothing())
    }

    fn feed_byte(&mut self, byte: u8) -> Option<Answer> {
        self.buffers.call(&[], &[], &[])?;
        let packet = self.receiver.byte(byte).unwrap_or_default();
        Some(Answer::one(hex_digits(packet)))
    }

    fn feed_bytes(&mut self, bytes: &[u8]) -> Option<Answer> {
        self.buffers.call(bytes, &[], &[])?;
        let (taken, packet) = self.receiver.feed(bytes);
        let packet = hex_digits(packet.unwrap_or_default());
        Some(Answer::done(vec![taken.to_string(), packet]))
    }

    fn take_bytes(&mut self, bytes: &[u8]) -> Option<Answer> {
        let (pages, mut count) = (self.board, 0);
        let mut port = PortRecord {
            loader: self.loader,
            receiver: self.receiver,
        };
        let mut shown = self.over_flash(bytes, |flash, answer| {
            let (before, taken) = port.take(pages, bytes, flash, answer);
            count = before;
            taken
        })?;
        (self.loader, self.receiver) = (port.loader, port.receiver);
        shown.values.insert(0, count.to_string());
        Some(shown)
    }

    /// Makes a call that may write flash and an answer, which is shown on
    /// refusals too.
    fn over_flash(
        &mut self,
        brought: &[u8],
        call: impl FnOnce(&mut [u8], &mut [u8]) -> Result<usize, Refusal>,
    ) -> Option<Answer> {
        self.buffers
            .call(brought, &[Buffer::Flash, Buffer::Answer], &[])?;
        let mut flash = self.buffers.lent(Buffer::Flash).to_vec();
        let mut answer = self.buffers.lent(Buffer::Answer).to_vec();
        let taken = call(&mut flash, &mut answer);
        self.buffers.keep(Buffer::Flash, &flash);
        self.buffers.keep(Buffer::Answer, &answer);
        Some(Answer {
            number: taken.map_or_else(Refusal::number, |_| 0),
            values: vec![hex_digits(&answer[..loader::answered(taken)])],
        })
    }

    fn start_hex(&mut self, rules: u32) -> Option<Answer> {
        let pages = self.board;
        self.over_file(&[], &[], |image, map| {
            boundary::start_hex(pages, rules, image, map)
        })
    }

    fn take_record(&mut self, text: &[u8]) -> Option<Answer> {
        let record = self.reader;
        self.over_file(text, &[], |image, map| {
            let mut reader = record.meaning_over(image, map)?;
            reader.record(text, image, map).map(|()| reader)
        })
    }

    /// Makes a call that gives a reader, reads some parts and may write image
    /// and map.
    fn over_file(
        &mut self,
        brought: &[u8],
        read: &[Buffer],
        call: impl Fn(&mut [u8], &mut [u8]) -> Result<Reader, HexRefusal>,
    ) -> Option<Answer> {
        self.buffers
            .call(brought, &[Buffer::Image, Buffer::Map], read)?;
        let mut image = self.buffers.lent(Buffer::Image).to_vec();
        let mut map = self.buffers.lent(Buffer::Map).to_vec();
        let given = call(&mut image, &mut map);
        self.buffers.keep(Buffer::Image, &image);
        self.buffers.keep(Buffer::Map, &map);
        Some(self.read_on(given))
    }

    fn close(&mut self) -> Option<Answer> {
        self.buffers.call(&[], &[], &[])?;
        let reader = self.reader.meaning().map_err(HexRefusal::from);
        let closed = reader.and_then(|reader| reader.close().map(|()| reader));
        Some(self.read_on(closed))
    }

    /// What a call of the hex reader gave; a refusal shows its column.
    fn read_on(&mut self, given: Result<Reader, HexRefusal>) -> Answer {
        match given {
            Ok(reader) => {
                self.reader = reader.into();
                Answer::nothing()
            }
            Err(HexRefusal { refusal, column }) => Answer {
                number: refusal.number(),
                values: vec![column.to_string()],
            },
        }
    }

    fn write(&mut self, from: u32, upper: u16) -> Option<Answer> {
        self.buffers.call(&[], &[Buffer::Record], &FILE)?;
        let mut record = self.buffers.lent(Buffer::Record).to_vec();
        let (image, map) = self.file();
        let written = boundary::board(self.board)
            .and_then(|board| hex::write(board, image, map, from, upper, &mut record));
        self.buffers.keep(Buffer::Record, &record);
        Some(Answer::of(written.map(|written| {
            let text = record[..written.length].strip_suffix(b"\n");
            let text = text.unwrap_or_default().iter();
            let text = text.map(|byte| char::from(*byte)).collect();
            let (next, upper) = (written.next, written.upper);
            vec![text, format!("{next:08X}"), format!("{upper:04X}")]
        })))
    }

    fn start<S: Kept>(&mut self, run: Run) -> Option<Answer> {
        let board = boundary::board(self.board);
        self.send(&[], &FILE, |image, map, packet| {
            S::start(board?, run, image, map, packet)
        })
    }

    /// A step; the flag goes above the answer.
    fn step<S: Kept>(&mut self, silent: u8, answer: &[u8]) -> Option<Answer> {
        let session = S::kept(self)?;
        let event = match silent {
            0 => Event::Answer(answer),
            _ => Event::Silence,
        };
        self.send(answer, &FILE, |image, map, packet| {
            session?.step(event, image, map, packet)
        })
    }

    /// Makes a call that gives a session, reads the file and may write a packet.
    fn send<S: Kept>(
        &mut self,
        brought: &[u8],
        read: &[Buffer],
        call: impl Fn(&[u8], &[u8], &mut [u8]) -> Result<(S, usize), Refusal>,
    ) -> Option<Answer> {
        self.buffers.call(brought, &[Buffer::Packet], read)?;
        let mut packet = self.buffers.lent(Buffer::Packet).to_vec();
        let (image, map) = self.file();
        let given = call(image, map, &mut packet);
        self.buffers.keep(Buffer::Packet, &packet);
        Some(Answer::of(given.map(|(session, length)| {
            session.keep(self);
            match session.ended() {
                Some(outcome) => vec![ended(outcome)],
                None => vec![hex_digits(&packet[..length])],
            }
        })))
    }

    fn proved<S: Kept>(&mut self, at: u32) -> Option<Answer> {
        let session = S::kept(self)?;
        self.buffers.call(&[], &[], &[Buffer::Map])?;
        let map = self.buffers.lent(Buffer::Map);
        let proved = session.and_then(|session| session.proved(map, at));
        let shown = proved.map(|proved| vec![u8::from(proved).to_string()]);
        Some(Answer::of(shown))
    }

    fn outcome<S: Kept>(&mut self) -> Option<Answer> {
        let session = S::kept(self)?;
        self.buffers.call(&[], &[], &[])?;
        // a session of an unknown board has not ended either
        let outcome = session.ok().and_then(|session| session.outcome());
        let shown = outcome.map(|outcome| vec![ended(outcome)]);
        Some(Answer::of(shown.ok_or(Refusal::NoLog)))
    }

    fn write_log<S: Kept>(&mut self) -> Option<Answer> {
        let session = S::kept(self)?;
        self.buffers.call(&[], &[Buffer::Log], &[])?;
        let mut record = self.buffers.lent(Buffer::Log).to_vec();
        let written = session.and_then(|session| log::write(&session, &mut record));
        self.buffers.keep(Buffer::Log, &record);
        let shown = written.map(|length| vec![hex_digits(&record[..length])]);
        Some(Answer::of(shown))
    }

    fn read_log(&mut self, input: &[u8]) -> Option<Answer> {
        self.buffers.call(input, &[], &[])?;
        let shown = log::read(input).map(|entry| vec![log_line(&entry)]);
        Some(Answer::of(shown))
    }

    fn rehearse(&mut self, run: Run, losses: &[u8]) -> Option<Answer> {
        let exchanges: Vec<Exchange> = losses.iter().map(exchange).collect();
        self.load(losses, |board, (image, map), loader, flash| {
            line::rehearse(board, run, image, map, loader, flash, &exchanges)
        })
    }

    fn rehearse_noisy(
        &mut self,
        run: Run,
        each: usize,
        losses: &[u8],
        rubbish: &[u8],
    ) -> Option<Answer> {
        let exchanges: Vec<Exchange> = losses.iter().map(exchange).collect();
        let noise = Noise {
            exchanges: &exchanges,
            rubbish,
            each,
        };
        let brought = [losses, rubbish].concat();
        self.load(&brought, |board, (image, map), loader, flash| {
            line::rehearse_noisy(board, run, image, map, loader, flash, &noise)
        })
    }

    /// Makes a call that loads the file into flash.
    fn load(
        &mut self,
        brought: &[u8],
        call: impl FnOnce(Board, (&[u8], &[u8]), &mut Loader, &mut [u8]) -> Result<Session, Refusal>,
    ) -> Option<Answer> {
        self.buffers.call(brought, &[Buffer::Flash], &FILE)?;
        let mut loader = self.loader.meaning();
        let mut flash = self.buffers.lent(Buffer::Flash).to_vec();
        let given = boundary::board(self.board)
            .and_then(|board| call(board, self.file(), &mut loader, &mut flash));
        self.buffers.keep(Buffer::Flash, &flash);
        Some(Answer::of(given.map(|session| {
            self.loader = loader.into();
            session.keep(self);
            let acknowledged = session.acknowledged.to_string();
            match session.ended() {
                Some(outcome) => vec![ended(outcome), acknowledged],
                None => vec![acknowledged],
            }
        })))
    }

    /// Image and map as they are lent.
    fn file(&self) -> (&[u8], &[u8]) {
        let lent = &self.buffers;
        (lent.lent(Buffer::Image), lent.lent(Buffer::Map))
    }
}

/// So many bytes from a place of a buffer on, which must lie in it.
fn part(buffer: &str, place: &str, length: &str) -> Option<Part> {
    let (buffer, place) = (Buffer::from_word(buffer)?, words::address(place)?);
    Part::within(buffer, place, words::number(length)?)
}

fn shown(fields: &[u64]) -> Answer {
    Answer::done(fields.iter().map(u64::to_string).collect())
}

fn ended(outcome: Outcome) -> String {
    format!("ended {}", outcome.number())
}

fn exchange(loss: &u8) -> Exchange {
    match loss {
        0 => Exchange::Whole,
        1 => Exchange::PacketLost,
        _ => Exchange::AnswerLost,
    }
}
