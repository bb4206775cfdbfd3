//! One job so many times, as the product's `bench` has them, over the same
//! bytes: `second bench JOB TIMES`.

use std::hint::black_box;
use std::time::Instant;

use crate::hex::{self, Reader, RuleSet, RECORD_BUFFER};
use crate::listing::hex_digits;
use crate::loader::{Loader, ACK, BACKSPACE};
use crate::packet::{self, LONGEST, PIECE};
use crate::receiver::Receiver;
use crate::session::{Event, Outcome, Phase, Run, Session};
use crate::units::{Board, ByteAddress, GREETING_BYTES};

const FULL_MAP: u8 = 0xFF;
/// Every second byte.
const WORST_MAP: u8 = 0x55;
/// Where W and V of one packet go.
const PLACE: usize = 0x1234;
const GOOD: &str = "the bytes are sound";
/// From a segment's first byte to behind its last, and from one base to the next.
const SEGMENT: usize = 0x1_0000;
const PARAGRAPH: usize = 16;
/// The rubbish before each packet of the stream.
const RUBBISH: usize = 8;
/// Each record that wraps has so many bytes on either side of its segment's end.
const HALF: usize = 8;

/// What the turns gave in bytes, a sum over all buffers or over all that was
/// received, and the time.
pub struct Done {
    pub given: u64,
    pub sum: u64,
    pub nanoseconds: u128,
}

/// Everything that jobs work on.
struct Bench {
    board: Board,
    image: Vec<u8>,
    map: Vec<u8>,
    flash: Vec<u8>,
    packet: [u8; LONGEST],
    answer: [u8; GREETING_BYTES],
    lines: Vec<[u8; RECORD_BUFFER]>,
    lengths: Vec<usize>,
    /// The data bytes of all lines.
    data_bytes: usize,
    loader: Loader,
    begun: Option<Session>,
    /// Packets with rubbish before each.
    stream: Vec<u8>,
    /// The sum of all bytes received, in the job that receives.
    received: Option<u64>,
}

type Prepare = fn(&mut Bench);
type Turn = fn(&mut Bench, u64) -> u64;

/// The board, what is named in the map, what goes before the turns, and a turn.
type Job = (Board, u8, Prepare, Turn);

fn job(name: &str) -> Option<Job> {
    use Board::{Long, Short};
    let job: Job = match name {
        "read" => (Short, FULL_MAP, Bench::prepare_records, Bench::read_1),
        "read-long" => (Long, FULL_MAP, Bench::prepare_records, Bench::read_1),
        "read-2" => (Short, FULL_MAP, Bench::prepare_records, Bench::read_2),
        "read-2-long" => (Long, FULL_MAP, Bench::prepare_records, Bench::read_2),
        "read-wraps-long" => (Long, FULL_MAP, Bench::prepare_wraps, Bench::read_2),
        "write" => (Short, FULL_MAP, Bench::prepare_records, Bench::write),
        "write-long" => (Long, FULL_MAP, Bench::prepare_records, Bench::write),
        "w" => (
            Short,
            FULL_MAP,
            |bench| bench.prepare_board(b'W'),
            Bench::take,
        ),
        "v" => (
            Short,
            FULL_MAP,
            |bench| bench.prepare_board(b'V'),
            Bench::take,
        ),
        "receive" => (Short, FULL_MAP, Bench::prepare_stream, Bench::receive),
        "step-full" => (Short, FULL_MAP, Bench::prepare_session, Bench::step_full),
        "step-full-long" => (Long, FULL_MAP, Bench::prepare_session, Bench::step_full),
        "step-worst" => (Short, WORST_MAP, Bench::prepare_session, Bench::step_worst),
        "step-worst-long" => (Long, WORST_MAP, Bench::prepare_session, Bench::step_worst),
        "full" => (Short, FULL_MAP, Bench::prepare_session, Bench::session),
        "worst" => (Short, WORST_MAP, Bench::prepare_session, Bench::session),
        _ => return None,
    };
    Some(job)
}

/// None for a job that is not listed.
pub fn run(name: &str, times: u64) -> Option<Done> {
    let (board, map, prepare, turn) = job(name)?;
    let mut bench = Bench::new(board, map);
    prepare(&mut bench);
    let mut given = 0;
    let began = Instant::now();
    for k in 0..times {
        given += black_box(turn)(&mut bench, k);
    }
    Some(Done {
        given,
        nanoseconds: began.elapsed().as_nanos(),
        sum: bench.sum(),
    })
}

/// The full hex file of a board.
pub fn full_file(board: Board) -> Vec<u8> {
    let mut bench = Bench::new(board, FULL_MAP);
    bench.prepare_records();
    bench.records().flatten().copied().collect()
}

impl Bench {
    fn new(board: Board, map: u8) -> Bench {
        let byte = |i: usize| (i * 167 + i / 256 * 13) as u8;
        let records = records_of_full_file(board);
        Bench {
            board,
            image: (0..board.flash_bytes()).map(byte).collect(),
            map: vec![map; board.map_bytes()],
            flash: vec![0; board.flash_bytes()],
            packet: [0; LONGEST],
            answer: [0; GREETING_BYTES],
            lines: vec![[0; RECORD_BUFFER]; records],
            lengths: vec![0; records],
            data_bytes: 0,
            loader: Loader::factory(),
            begun: None,
            stream: Vec::new(),
            received: None,
        }
    }

    fn sum(&self) -> u64 {
        let buffers = summed(&self.image) + summed(&self.flash) + summed(&self.packet);
        self.received.unwrap_or(buffers)
    }

    fn records(&self) -> impl Iterator<Item = &[u8]> {
        let lines = self.lines.iter().zip(&self.lengths);
        lines.map(|(line, length)| &line[..*length])
    }

    fn prepare_records(&mut self) {
        self.write(0);
        self.data_bytes = self.image.len();
    }

    /// In each segment that ends on the board a record over its end.
    fn prepare_wraps(&mut self) {
        self.lines.clear();
        self.lengths.clear();
        for base in (0..=self.image.len() - SEGMENT).step_by(PARAGRAPH) {
            let end = base + SEGMENT;
            let value = (base / PARAGRAPH) as u16;
            let data = [&self.image[end - HALF..end], &self.image[base..base + HALF]].concat();
            self.push_line(0, 0x02, &value.to_be_bytes());
            self.push_line((SEGMENT - HALF) as u16, 0x00, &data);
            self.data_bytes += data.len();
        }
        self.push_line(0, 0x01, &[]);
    }

    /// One more line, of a record.
    fn push_line(&mut self, address: u16, kind: u8, data: &[u8]) {
        let [high, low] = address.to_be_bytes();
        let mut bytes = [&[data.len() as u8, high, low, kind], data].concat();
        bytes.push(packet::checksum(&bytes));
        let text = format!(":{}\n", hex_digits(&bytes));
        let mut line = [0; RECORD_BUFFER];
        line[..text.len()].copy_from_slice(text.as_bytes());
        self.lines.push(line);
        self.lengths.push(text.len());
    }

    /// A board that serves, and holds the bytes that V asks for.
    fn prepare_board(&mut self, command: u8) {
        let data = &self.image[PLACE..PLACE + PIECE];
        packet::build(&mut self.packet, command, PLACE as u32, data).expect(GOOD);
        self.flash.copy_from_slice(&self.image);
        let (flash, answer) = (&mut self.flash, &mut self.answer);
        let greeted = self.loader.take(self.board, &[BACKSPACE], flash, answer);
        greeted.expect(GOOD);
    }

    /// Each W of the full file, with rubbish before it.
    fn prepare_stream(&mut self) {
        let mut buffer = [0; LONGEST];
        for (i, piece) in self.image.chunks(PIECE).enumerate() {
            let rubbish = (i..i + RUBBISH).map(|k| b'0' + (k % 10) as u8);
            let built = packet::build(&mut buffer, b'W', (i * PIECE) as u32, piece);
            self.stream.extend(rubbish);
            self.stream.extend(&buffer[..built.expect(GOOD)]);
        }
        self.received = Some(0);
    }

    fn prepare_session(&mut self) {
        self.begun = Some(self.start().0);
    }

    fn read_1(&mut self, _: u64) -> u64 {
        self.read(RuleSet::One)
    }

    fn read_2(&mut self, _: u64) -> u64 {
        self.read(RuleSet::Two)
    }

    fn read(&mut self, rules: RuleSet) -> u64 {
        let (image, map) = (&mut self.image, &mut self.map);
        let mut reader = Reader::start(self.board, rules, image, map).expect(GOOD);
        for (line, length) in self.lines.iter().zip(&self.lengths) {
            reader.record(&line[..length - 1], image, map).expect(GOOD);
        }
        reader.close().expect(GOOD);
        self.data_bytes as u64
    }

    fn write(&mut self, _: u64) -> u64 {
        let (mut characters, mut from, mut half) = (0, 0, 0);
        for (line, length) in self.lines.iter_mut().zip(&mut self.lengths) {
            let written = hex::write(self.board, &self.image, &self.map, from, half, line);
            let written = written.expect(GOOD);
            (*length, from, half) = (written.length, written.next, written.upper);
            characters += *length as u64;
        }
        characters
    }

    fn take(&mut self, _: u64) -> u64 {
        let (flash, answer) = (&mut self.flash, &mut self.answer);
        let taken = self.loader.take(self.board, &self.packet, flash, answer);
        taken.expect(GOOD) as u64
    }

    fn receive(&mut self, _: u64) -> u64 {
        let mut receiver = Receiver::default();
        let (mut count, mut sum) = (0, 0u64);
        for byte in &self.stream {
            if let Some(packet) = receiver.byte(*byte) {
                count += packet.len();
                sum += packet.iter().map(|byte| u64::from(*byte)).sum::<u64>();
            }
        }
        let rubbish = self.image.len().div_ceil(PIECE) * RUBBISH;
        assert_eq!(count + rubbish, self.stream.len());
        self.received = self.received.map(|before| before.wrapping_add(sum));
        self.stream.len() as u64
    }

    fn start(&mut self) -> (Session, usize) {
        let (image, map) = (&self.image, &self.map);
        let started = Session::start(self.board, Run::Reset, image, map, &mut self.packet);
        started.expect(GOOD)
    }

    fn step(&mut self, session: Session, answer: &[u8]) -> (Session, usize) {
        let event = Event::Answer(answer);
        let stepped = session.step(event, &self.image, &self.map, &mut self.packet);
        stepped.expect(GOOD)
    }

    fn step_full(&mut self, k: u64) -> u64 {
        let pieces = self.board.flash_bytes().div_ceil(PIECE);
        self.step_spread(k, pieces as u32, PIECE as u32)
    }

    fn step_worst(&mut self, k: u64) -> u64 {
        self.step_spread(k, self.board.flash_end() / 2, 2)
    }

    /// Step k of so many: two of W, two of V; a factor that shares no divisor
    /// with the pieces brings each in turn.
    fn step_spread(&mut self, k: u64, pieces: u32, apart: u32) -> u64 {
        let piece = (k * 12289 % u64::from(pieces)) as u32;
        let place = ByteAddress(piece * apart);
        let (phase, written) = match k & 2 {
            0 => (Phase::Write(place), 0),
            _ => (Phase::Verify(place), pieces),
        };
        let session = Session {
            phase,
            acknowledged: 1 + piece + written,
            ..self.begun.expect("a session has begun")
        };
        self.step(session, &[ACK]).1 as u64
    }

    /// A whole session; gives the bytes that went over the line, both ways.
    fn session(&mut self, _: u64) -> u64 {
        let (session, length) = self.start();
        let mut bytes = length + GREETING_BYTES;
        let (mut session, mut length) = self.step(session, self.board.greeting());
        while length > 0 {
            bytes += length + 1;
            (session, length) = self.step(session, &[ACK]);
        }
        assert_eq!(session.phase, Phase::Ended(Outcome::Valid));
        bytes as u64
    }
}

/// Data records, a 04 record for each upper half but 0, and the end record.
fn records_of_full_file(board: Board) -> usize {
    let last = board.flash_bytes() - 1;
    board.flash_bytes() / 16 + last / 0x1_0000 + 1
}

/// Each byte added to 31 times what was before.
fn summed(bytes: &[u8]) -> u64 {
    let add = |sum: u64, byte: &u8| (sum * 31 + u64::from(*byte)) & 0xFFFF_FFFF;
    bytes.iter().fold(0, add)
}
