//! Case lines: the stored list, and random ones.

use std::fs;

use second::cases::{self, Desk};
use second::hex;
use second::listing::hex_digits;
use second::packet::{self, ADD, CLOSE, OPEN};
use second::stations::TABLE_BYTES;
use second::units::{Board, GREETING_BYTES};

use crate::boards;
use crate::files;
use crate::loaders::built;
use crate::noise;
use crate::random::Random;
use crate::root;
use crate::rules;
use crate::site::{Site, SITES};
use crate::tables::{self, KINDS, PLACES};
use crate::wire::Wire;
use crate::writer;

const LIST: &str = "tests/cases.txt";
const SCRIPTS: u64 = 12;
const EPISODES: u32 = 12;

/// A part that calls lend, with how long it is for a board.
type Lent = (&'static str, u32);

const ANSWER: Lent = ("answer", GREETING_BYTES as u32);
const PACKET: Lent = ("packet", packet::LONGEST as u32);
const RECORD: Lent = ("record", hex::RECORD_BUFFER as u32);
const TABLE: Lent = ("table", TABLE_BYTES as u32);

fn flash(site: Site) -> Lent {
    ("flash", site.end())
}

fn image(site: Site) -> Lent {
    ("image", site.end())
}

fn map(site: Site) -> Lent {
    ("map", site.map.length())
}

fn log(site: Site) -> Lent {
    ("log", site.board.log_bytes() as u32)
}

const BUFFERS: [&str; 11] = [
    "flash", "answer", "image", "map", "packet", "record", "log", "table", "input", "other",
    "spare",
];

/// Lines that are no case, and a remark or two.
const JUNK: [&str; 71] = [
    "",
    " ",
    "#",
    "# -> ?",
    " # reset",
    "turned",
    "take",
    "record",
    "rehearse reset",
    "rehearse hold",
    "start Hold",
    "start held",
    "turned 1",
    "turned 0g",
    "reset ",
    "Reset",
    "lend log 131073",
    "lend input 1",
    "start -1",
    "start 4294967296",
    "hex ",
    "hex 01",
    "hex -1",
    "hex 1 2",
    "hex 4294967296",
    "board",
    "board 0124",
    "board 4294967296",
    "write 00000000",
    "write 00000000 000",
    "write 00000000 0000 0",
    "hunt ",
    "byte",
    "byte 7",
    "byte 070E",
    "bytes",
    "bytes 7",
    "port",
    "port 08 08",
    "receiver 07",
    "receiver 07 01",
    "receiver 07 18446744073709551616",
    "noisy reset 1 00",
    "noisy reset 1 00 0",
    "noisy reset 18446744073709551616  ",
    "plain ",
    "plain start",
    "plain start held",
    "plain start 4294967296",
    "plain answer",
    "plain answer 06 06",
    "plain event 256 06",
    "plain proved 200",
    "plain log ",
    "plain plain",
    "plain session",
    "session start hold",
    "station",
    "station ",
    "station read",
    "station read 0",
    "station write 1 7 0 1 0",
    "station write 1 7 0 1 0 123 0",
    "station write 1 7 0 1 0 4294967296",
    "station open 07",
    "station start 4294967296",
    "stations",
    "stations empty ",
    "stations find 4294967296",
    "stations store",
    "stations store 00 00",
];

/// Compares the stored list and gives its number of lines.
pub fn compare_list() -> usize {
    let path = root::repository().join(LIST);
    let list = fs::read_to_string(path).unwrap_or_else(|error| panic!("{LIST}: {error}"));
    compare(list.lines().map(|line| {
        let asked = cases::asked(line);
        (asked.to_string(), line.as_bytes().to_vec())
    }))
}

/// Compares random lines and gives their number.
pub fn compare_random() -> usize {
    let scripts = (0..SCRIPTS).map(|seed| script(&mut Random::new(1000 + seed)));
    let compared = scripts.map(|script| {
        let mut desk = Desk::new();
        compare(script.into_iter().map(|line| {
            let answer = desk.line(line.as_bytes());
            let expected = cases::printed(line.as_bytes(), answer.as_ref());
            (line, expected)
        }))
    });
    compared.sum()
}

/// Compares lines, each with what must be printed, and gives their number.
fn compare(lines: impl Iterator<Item = (String, Vec<u8>)>) -> usize {
    let mut wire = Wire::open();
    let sent = lines.take_while(|(line, expected)| wire.send(line.as_bytes(), expected.clone()));
    let count = sent.count();
    wire.close();
    count
}

/// A file, a session over it and a loader, again and again.
fn script(random: &mut Random) -> Vec<String> {
    let mut lines = Vec::new();
    for line in [
        "# no session yet",
        "changed",
        "session",
        "answer 06",
        "event 1 06",
        "silence",
        "outcome",
        "log",
        "proved 00000000",
        "start reset",
        "start hold",
        "plain",
        "plain answer 06",
        "plain event 1 06",
        "plain silence",
        "plain outcome",
        "plain log",
        "plain proved 00000000",
        "plain start hold",
    ] {
        lines.push(line.to_string());
    }
    for _ in 0..EPISODES {
        let site = random.pick(&SITES);
        lend_for(site, &mut lines);
        bytes_and_packets(random, &mut lines);
        let named = file(random, &mut lines, site);
        session(random, &mut lines, site, named, SESSION);
        session(random, &mut lines, site, named, PLAIN);
        loader(random, &mut lines, site);
        receiver(random, &mut lines, site);
        rehearsals(random, &mut lines, site);
        stations(random, &mut lines, site);
        desk(random, &mut lines);
    }
    lines
}

/// Calls are told a board and lent what it asks for from now on.
fn lend_for(site: Site, lines: &mut Vec<String>) {
    lines.push(format!("board {}", site.pages()));
    for (part, length) in [flash(site), image(site), map(site), log(site)] {
        lines.push(format!("lend {part} {length}"));
    }
}

/// One line with calls told another board, or none.
fn wrongly_told(random: &mut Random, lines: &mut Vec<String>, site: Site, line: &str) {
    let none = boards::unknown(random);
    let board = random.pick(&[site.other().pages(), none, none]);
    lines.push(format!("board {board}"));
    lines.push(line.to_string());
    lines.push("changed".to_string());
    lines.push(format!("board {}", site.pages()));
}

fn bytes_and_packets(random: &mut Random, lines: &mut Vec<String>) {
    for _ in 0..4 {
        lines.push(format!("turned {:02X}", random.byte()));
        lines.push(format!("restored {:02X}", random.byte()));
        let length = random.pick(&[0, 1, 1, 2, 250, 251]);
        let data = hex_digits(&random.bytes(length));
        let command = random.pick(b"EWVPRQ");
        lines.push(format!("build {command:02X} {:08X} {data}", random.word()));
        lines.push("changed".to_string());
        let site = random.pick(&SITES);
        let mut packet = packet(random, site);
        if random.once_in(2) {
            random.damage(&mut packet);
        }
        lines.push(format!("read {}", hex_digits(&packet)));
    }
    wrongly_lent(random, lines, PACKET, "build 52 00000001 ");
}

/// One line with a part lent otherwise, which is then lent whole again.
fn wrongly_lent(random: &mut Random, lines: &mut Vec<String>, (part, whole): Lent, line: &str) {
    let any = random.below(whole);
    let length = random.pick(&[whole - 1, whole, whole + 1, whole / 2, any]);
    let buffer = random.pick(&BUFFERS);
    let place = random.pick(&[0, 1, 0xF800, 0xF801, 0x1_0000, 0x1_F000, any]);
    lines.push(match random.below(6) {
        0 => format!("lend {part} null"),
        1 | 2 => format!("lend {part} {length}"),
        _ => format!("lend {part} {buffer} {place:08X} {length}"),
    });
    lines.push(line.to_string());
    lines.push("changed".to_string());
    lines.push(format!("lend {part} {whole}"));
}

/// Reads a file and gives the address of a byte that it names.
fn file(random: &mut Random, lines: &mut Vec<String>, site: Site) -> u32 {
    let past = site.end() + 0x100;
    let none = rules::unknown(random);
    lines.push(random.pick(&["hex", "hex 1", "hex 2", "hex 2"]).to_string());
    lines.push(format!("hex {none}"));
    wrongly_told(random, lines, site, "hex");
    let line = random.pick(&["hex 1", "hex 2", "hex 3"]);
    wrongly_told(random, lines, site, line);
    // the session before has lost its file
    lines.push(format!("proved {:08X}", random.below(past)));
    let named = first_byte(random, lines, site);
    let records = random.within(1, 30);
    for _ in 0..records {
        let text = files::text(random, site);
        if text.iter().all(|byte| (b' '..0x7F).contains(byte)) {
            lines.push(format!("record {}", String::from_utf8_lossy(&text)));
        }
        if random.once_in(6) {
            lines.push(random.pick(&["changed", "reader"]).to_string());
        }
    }
    let part = random.pick(&[image(site), map(site), RECORD]);
    wrongly_lent(random, lines, part, "write 00000000 0000");
    wrongly_told(random, lines, site, "write 00000000 0001");
    lines.push(format!("proved {:08X}", random.below(past)));
    let part = random.pick(&[image(site), map(site)]);
    wrongly_lent(random, lines, part, "record :00000001FF");
    lines.push("record :00000001FF".to_string());
    lines.push("close".to_string());
    for _ in 0..4 {
        let from = writer::any_address(random, site);
        let upper = writer::any_upper(random);
        lines.push(format!("write {from:08X} {upper:04X}"));
        look(random, lines, site, "image");
        look(random, lines, site, "map");
    }
    named
}

/// Names three bytes of the board and gives the address of the first.
fn first_byte(random: &mut Random, lines: &mut Vec<String>, site: Site) -> u32 {
    let named = random.below(site.end() - 0x100);
    let upper = (named >> 16) as u16;
    let base = files::encoded(0, 4, &upper.to_be_bytes());
    let first = files::encoded(named as u16, 0, &random.bytes(3));
    for text in [base, first] {
        lines.push(format!("record {}", String::from_utf8_lossy(&text)));
    }
    named
}

fn look(random: &mut Random, lines: &mut Vec<String>, site: Site, buffer: &str) {
    let place = random.below(site.end());
    let place = random.pick(&[place, place % site.map.length(), 131_070]);
    lines.push(format!("look {buffer} {place:08X} {}", random.below(40)));
}

/// A run kind by its word or a number, each kind as often.
fn run(random: &mut Random) -> String {
    let any = random.within(3, u32::MAX).to_string();
    let hold = random.pick(&["hold", "2", "3", &any]);
    random.pick(&["reset", "0", "jump", "1", hold, hold]).into()
}

/// One kind of session: its record's word, what stands before its other words,
/// and at most how many steps are taken at a time.
#[derive(Clone, Copy)]
struct Kind {
    record: &'static str,
    before: &'static str,
    steps: u32,
}

const SESSION: Kind = Kind {
    record: "session",
    before: "",
    steps: 60,
};

/// A step of the product lists a whole file, so there are fewer.
const PLAIN: Kind = Kind {
    record: "plain",
    before: "plain ",
    steps: 14,
};

fn session(random: &mut Random, lines: &mut Vec<String>, site: Site, named: u32, kind: Kind) {
    let Kind { record, before, .. } = kind;
    lines.push(format!("{before}start {}", run(random)));
    let line = format!("{before}start {}", run(random));
    wrongly_told(random, lines, site, &line);
    let greeting = hex_digits(site.board.greeting());
    let wrong = hex_digits(site.other().board.greeting());
    let answer = random.pick(&[
        &greeting[..],
        &greeting,
        &greeting,
        &greeting,
        &wrong,
        "",
        "06",
    ]);
    lines.push(format!("{before}answer {answer}"));
    let steps = random.within(1, kind.steps);
    for _ in 0..steps {
        let line = match random.below(80) {
            0 => "silence",
            1 => random.pick(&["answer 07", "answer ", "answer 0606", "answer 00"]),
            2 => random.pick(&["event 0 07", "event 1 06", "event 255 ", "event 256 06"]),
            3..8 => "event 0 06",
            _ => "answer 06",
        };
        lines.push(format!("{before}{line}"));
        if random.once_in(8) {
            let any = random.below(site.end() + 0x100);
            let address = random.pick(&[named, any]);
            lines.push(format!("{before}proved {address:08X}"));
            let outcome = format!("{before}outcome");
            let more = random.pick(&[record, &outcome, "changed", "look packet 00000000 9"]);
            lines.push(more.to_string());
        }
    }
    after_steps(random, lines, site, named, kind);
}

/// Marks, outcome and log record of the session as it stands.
fn after_steps(random: &mut Random, lines: &mut Vec<String>, site: Site, named: u32, kind: Kind) {
    let before = kind.before;
    let part = random.pick(&[image(site), map(site), PACKET]);
    wrongly_lent(random, lines, part, &format!("{before}answer 06"));
    let proved = format!("{before}proved {named:08X}");
    wrongly_lent(random, lines, map(site), &proved);
    lines.push(proved);
    lines.push(format!("{before}outcome"));
    let written = format!("{before}log");
    wrongly_lent(random, lines, log(site), &written);
    lines.push(written);
    let mut record = log_record(random);
    random.damage(&mut record);
    lines.push(format!("logread {}", hex_digits(&record)));
}

/// A true record of either version.
fn log_record(random: &mut Random) -> Vec<u8> {
    let (outcome, count) = random.pick(&[(0, 4), (1, 3)]);
    match random.pick(&Board::ALL) {
        Board::Short => vec![0, 8, 1, outcome, 0, count, 0, count, 0, 2],
        Board::Long => {
            let counts = [0, 0, 0, count, 0, 0, 0, count, 0, 1, 0, 2];
            [&[0, 14, 2, outcome], &counts[..]].concat()
        }
    }
}

fn loader(random: &mut Random, lines: &mut Vec<String>, site: Site) {
    if random.once_in(3) {
        lines.push(format!("factory {:02X}", random.byte()));
    }
    lines.push("reset".to_string());
    wrongly_told(random, lines, site, "take 08");
    lines.push("take 08".to_string());
    for _ in 0..20 {
        let mut packet = packet(random, site);
        if random.once_in(6) {
            random.damage(&mut packet);
        }
        lines.push(format!("take {}", hex_digits(&packet)));
        match random.below(6) {
            0 => look(random, lines, site, "flash"),
            1 => lines.push("loader".to_string()),
            2 => lines.push("changed".to_string()),
            _ => {}
        }
    }
    let part = random.pick(&[flash(site), ANSWER]);
    wrongly_lent(random, lines, part, "take 08");
}

/// Rubbish and packets in stretches, to the receiver alone and through a port.
fn receiver(random: &mut Random, lines: &mut Vec<String>, site: Site) {
    lines.push(random.pick(&["hunt", "receiver"]).to_string());
    lines.push(random.pick(&["reset", "loader"]).to_string());
    wrongly_told(random, lines, site, "port 08");
    for line in [
        "port 08", "port 07", "port ", "bytes ", "byte 07", "receiver",
    ] {
        lines.push(line.to_string());
    }
    for _ in 0..20 {
        let packet = packet(random, site);
        let mut bytes = [noise::before_packet(random), packet].concat();
        if random.once_in(6) {
            random.damage(&mut bytes);
        }
        let bytes = hex_digits(&bytes);
        lines.push(match random.below(4) {
            0 => format!("bytes {bytes}"),
            1 => format!("byte {}", hex_digits(&noise::any(random, 1))),
            _ => format!("port {bytes}"),
        });
        match random.below(4) {
            0 => lines.push(random.pick(&["loader", "changed"]).to_string()),
            1 => lines.push("receiver".to_string()),
            _ => {}
        }
    }
    let part = random.pick(&[flash(site), ANSWER]);
    wrongly_lent(random, lines, part, "port 070E04");
    made_up_receiver(random, lines);
}

/// A receiver of any values, at times of too many, and a few bytes for it.
fn made_up_receiver(random: &mut Random, lines: &mut Vec<String>) {
    let some = random.below(12);
    let count = random.pick(&[0, 3, 9, some, 258, 259, 260]);
    let mut bytes = random.bytes(count);
    for (byte, front) in bytes.iter_mut().zip([0x07, 0x0E, some as u8]) {
        *byte = random.pick(&[*byte, front, front]);
    }
    let any = random.long();
    let length = random.pick(&[0, 1, 2, 3, u64::from(some) + 3, 259, 260, any]);
    lines.push(format!("receiver {} {length}", hex_digits(&bytes)));
    for line in ["byte 07", "bytes 0E04", "port 070E03", "port ", "byte 5A"] {
        lines.push(line.to_string());
        lines.push("receiver".to_string());
    }
}

/// A packet of the table around the first groups, or around some others.
fn packet(random: &mut Random, site: Site) -> Vec<u8> {
    let any = random.word();
    let near = random.below(0x1200);
    let (last, far) = (site.end() - 1, 0xF000 + near);
    let address = random.pick(&[0, 1, near, near, near, far, far, last, last + near, any]);
    match random.below(8) {
        0 => built(b'E', address, &[random.below(3) as u8]),
        1 | 2 => built(b'W', address, &random.bytes(2)),
        3 => built(b'V', address, &[0xFF]),
        4 | 5 => built(b'P', address, &[random.pick(&[OPEN, ADD, CLOSE])]),
        6 => built(b'P', address, &[CLOSE]),
        _ => built(b'R', address, &[]),
    }
}

fn rehearsals(random: &mut Random, lines: &mut Vec<String>, site: Site) {
    let whole = vec![0; random.below(12) as usize];
    let any = format!("{:02X}", random.byte());
    for lost in ["", "01", &any] {
        let (run, whole) = (run(random), hex_digits(&whole));
        lines.push(format!("rehearse {run} {whole}{lost}"));
        lines.push(random.pick(&["session", "loader", "changed"]).to_string());
        look(random, lines, site, "flash");
    }
    for lost in ["", "01", &any] {
        let run = run(random);
        let (whole, each) = (hex_digits(&whole), random.below(12));
        let rubbish = hex_digits(&noise::any(random, 24));
        lines.push(format!("noisy {run} {each} {whole}{lost} {rubbish}"));
        lines.push(random.pick(&["session", "loader", "changed"]).to_string());
        look(random, lines, site, "flash");
    }
    let run = run(random);
    for line in [format!("rehearse {run} "), format!("noisy {run} 3  0E0808")] {
        wrongly_lent(random, lines, flash(site), &line);
        wrongly_told(random, lines, site, &line);
    }
}

/// A table of any kind, with calls for the file that was read before.
fn stations(random: &mut Random, lines: &mut Vec<String>, site: Site) {
    let kind = random.below(KINDS);
    let table = hex_digits(&tables::table(random, kind));
    lines.push(format!("put table 00000000 {table}"));
    for _ in 0..20 {
        let line = station_line(random);
        match random.once_in(5) {
            true => wrongly_lent(random, lines, TABLE, &line),
            false => lines.push(line),
        }
        let more = random.pick(&["changed", "reader", "session", "look table 00000000 64"]);
        lines.push(more.to_string());
    }
    let number = tables::number(random);
    let part = random.pick(&[image(site), map(site), PACKET, TABLE]);
    wrongly_lent(random, lines, part, &format!("station start {number}"));
    wrongly_told(random, lines, site, &format!("station start {number}"));
    let part = random.pick(&[image(site), map(site), TABLE]);
    wrongly_lent(random, lines, part, &format!("station open {number}"));
    wrongly_told(random, lines, site, &format!("station open {number}"));
}

/// One call of stations.
fn station_line(random: &mut Random) -> String {
    let (number, place) = (tables::number(random), random.below(PLACES + 2));
    let record = random.pick(&[tables::record, tables::record, tables::broken])(random);
    let record = hex_digits(&record);
    match random.below(11) {
        0 => format!("station read {record}"),
        1 => {
            let fields = tables::made_up(random).fields();
            let fields: String = fields.iter().map(|field| format!(" {field}")).collect();
            format!("station write{fields}")
        }
        2 => format!("stations find {number}"),
        3 => format!("stations list {place}"),
        4 => format!("stations place {place}"),
        5 | 6 => format!("stations store {record}"),
        7 => format!("stations delete {number}"),
        8 => format!("stations free {place}"),
        9 => format!("station start {number}"),
        _ => random.pick(&["stations empty", "stations find 7"]).into(),
    }
}

/// Lines about what is kept, right and wrong.
fn desk(random: &mut Random, lines: &mut Vec<String>) {
    for _ in 0..4 {
        let buffer = random.pick(&BUFFERS);
        let place = random.pick(&[0, 1, 100, 131_071, 131_072, 131_073, u32::MAX]);
        let length = random.below(3);
        let bytes = hex_digits(&random.bytes(length));
        lines.push(format!("put {buffer} {place:08X} {bytes}"));
        lines.push(format!("look {buffer} {place:08X} {}", random.below(3)));
        let byte = random.byte();
        lines.push(format!("fill {buffer} {place:08X} {length} {byte:02X}"));
        lines.push("changed".to_string());
    }
    let record = random.pick(&[
        ("loader", 7),
        ("reader", 7),
        ("reader", 7),
        ("session", 9),
        ("plain", 7),
    ]);
    made_up(random, lines, record);
    lines.push(random.pick(&JUNK).to_string());
}

/// A record of any values, at times one field too few, too many or too large.
fn made_up(random: &mut Random, lines: &mut Vec<String>, (name, fields): (&str, u32)) {
    let fields = random.pick(&[fields, fields, fields, fields, fields - 1, fields + 1]);
    let values: String = (0..fields)
        .map(|field| {
            let any = random.word().into();
            let large = random.pick(&[256, 1 << 32, u64::MAX]);
            let value = match random.below(40) {
                0 => large,
                1 => any,
                // the board's, where the record has one
                _ if field == 0 => random.pick(&[124, 124, 248, 248, 0]),
                _ => random.pick(&[0, 0, 1, 1, 2, 5, 40]),
            };
            format!(" {value}")
        })
        .collect();
    lines.push(format!("{name}{values}"));
    lines.push(name.to_string());
    for line in [
        "reset",
        "take 08",
        "record :02FFFF001234BA",
        "record :020000021000EC",
        "record :00000001FF",
        "close",
        "outcome",
        "log",
        "silence",
        "proved 00000000",
        "plain outcome",
        "plain log",
        "plain silence",
        "plain proved 00000000",
    ] {
        lines.push(line.to_string());
        lines.push(name.to_string());
    }
}
