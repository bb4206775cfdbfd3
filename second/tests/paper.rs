//! The paper's printed cases and limits.

use second::bench;
use second::boundary::{PortRecord, ReceiverRecord, StationRecord};
use second::cases;
use second::hex::{self, HexRefusal, Reader, RuleSet};
use second::line::{rehearse, rehearse_noisy, Exchange, Noise};
use second::listing;
use second::loader::{Condition, Loader, Protection, NO_KEY};
use second::log;
use second::packet::{self, Command};
use second::plain::{Plain, Stage};
use second::port::Port;
use second::receiver::Receiver;
use second::session::{Event, Host, Outcome, Phase, Run, Session};
use second::stations::{self, Place, Station};
use second::units::{Board, ByteAddress, Page};
use second::Refusal;

fn built(command: Command, address: u32, data: &[u8]) -> Vec<u8> {
    let mut buffer = [0; packet::LONGEST];
    let length = packet::build(&mut buffer, command.byte(), address, data).unwrap();
    buffer[..length].to_vec()
}

#[test]
fn boards_are_as_long_as_the_paper_says() {
    for (board, pages, bytes, map, groups) in [
        (Board::Short, 124, 63_488, 7_936, 31),
        (Board::Long, 248, 126_976, 15_872, 62),
    ] {
        assert_eq!(board.pages(), pages);
        assert_eq!(board.flash_bytes(), bytes);
        assert_eq!(board.flash_end() as usize, bytes);
        assert_eq!(board.map_bytes(), map);
        assert_eq!(board.groups(), groups);
    }
    assert_eq!(Board::ALL, [Board::Short, Board::Long]);
    assert_eq!(Board::Short.flash_end(), 0xF800);
    assert_eq!(Board::Long.flash_end(), 0x1_F000);
}

fn other(board: Board) -> Board {
    match board {
        Board::Short => Board::Long,
        Board::Long => Board::Short,
    }
}

/// A loader that serves on a board, with its flash.
struct Served {
    board: Board,
    loader: Loader,
    flash: Vec<u8>,
}

impl Served {
    fn new(board: Board, filling: u8) -> Served {
        let mut served = Served {
            board,
            loader: Loader::factory(),
            flash: vec![filling; board.flash_bytes()],
        };
        assert_eq!(served.input(&[0x08]), Ok(board.greeting().to_vec()));
        served
    }

    /// Takes an input, and sees that refusals leave everything as it stood.
    fn input(&mut self, input: &[u8]) -> Result<Vec<u8>, u8> {
        let mut answer = [0xAA; 30];
        let (loader, flash) = (self.loader, self.flash.clone());
        let taken = self
            .loader
            .take(self.board, input, &mut self.flash, &mut answer);
        match taken {
            Ok(length) => {
                assert!(answer[length..].iter().all(|byte| *byte == 0xAA));
                Ok(answer[..length].to_vec())
            }
            Err(refusal) => {
                let written = usize::from(refusal.answered());
                assert!(answer[..written].iter().all(|byte| *byte == 0x07));
                assert!(answer[written..].iter().all(|byte| *byte == 0xAA));
                assert!(self.loader == loader && self.flash == flash);
                Err(refusal.number())
            }
        }
    }

    fn give(&mut self, command: Command, address: u32, data: &[u8]) -> Result<Vec<u8>, u8> {
        self.input(&built(command, address, data))
    }
}

fn protection(groups: u64, read: bool) -> Protection {
    Protection { groups, read }
}

fn ack() -> Result<Vec<u8>, u8> {
    Ok(vec![0x06])
}

#[test]
fn bytes_are_turned_as_table_5_says() {
    assert_eq!(packet::turned(0x81), 0x0C);
    assert_eq!(packet::turned(0x12), 0x90);
    assert_eq!(packet::turned(0x34), 0xA1);
    for byte in 0..=255u8 {
        let product = u32::from(byte) * 8 % 256 + u32::from(byte) / 32;
        assert_eq!(u32::from(packet::turned(byte)), product);
        assert_eq!(packet::restored(packet::turned(byte)), byte);
    }
}

#[test]
fn printed_packet_checksums() {
    let last = |bytes: Vec<u8>| *bytes.last().unwrap();
    assert_eq!(last(built(Command::Run, 1, &[])), 0xA8);
    assert_eq!(last(built(Command::Protect, 0x1234_5678, &[1])), 0x95);
    assert_eq!(last(built(Command::Protect, 0xF800, &[0x0F])), 0xA3);
    assert_eq!(last(built(Command::Protect, 0x800, &[0x0F])), 0x93);
}

#[test]
fn builder_refuses_in_order_and_leaves_the_buffer() {
    let refused = |length: usize, command: u8, data: &[u8]| {
        let mut buffer = vec![0xAA; length];
        let refusal = packet::build(&mut buffer, command, 0, data).unwrap_err();
        assert!(buffer.iter().all(|byte| *byte == 0xAA));
        refusal
    };
    assert_eq!(refused(258, 0x00, &[0; 251]), Refusal::Size);
    assert_eq!(refused(259, 0x00, &[0; 251]), Refusal::Command);
    for (command, data) in [
        (b'E', &[][..]),
        (b'E', &[1, 1]),
        (b'W', &[]),
        (b'W', &[0; 251]),
        (b'V', &[]),
        (b'V', &[0; 251]),
        (b'P', &[]),
        (b'P', &[2]),
        (b'P', &[0, 0]),
        (b'R', &[0]),
    ] {
        assert_eq!(refused(259, command, data), Refusal::Shape);
    }
}

#[test]
fn builder_touches_nothing_past_the_packet() {
    let mut buffer = [0xAA; 300];
    let length = packet::build(&mut buffer, b'V', 0xFFFF_FFFF, &[0x12; 250]).unwrap();
    assert_eq!(length, 259);
    assert!(buffer[8..258].iter().all(|byte| *byte == 0x90));
    assert!(buffer[259..].iter().all(|byte| *byte == 0xAA));
}

#[test]
fn reader_refuses_in_order() {
    let number = |input: &[u8]| packet::read(input).unwrap_err().number();
    assert_eq!(number(&[]), 1);
    assert_eq!(number(&[0x07]), 1);
    assert_eq!(number(&[0x07, 0x0F, 4]), 1);
    assert_eq!(number(&[0x07, 0x0E]), 2);
    assert_eq!(number(&[0x07, 0x0E, 4]), 3);
    assert_eq!(number(&[0x07, 0x0E, 5]), 2);
    assert_eq!(number(&[0x07, 0x0E, 5, 0, 0, 0, 0, 0, 0]), 4);
    assert_eq!(number(&[0x07, 0x0E, 5, 0, 0, 0, 0, 0, 0xFB]), 5);
    assert_eq!(number(&[0x07, 0x0E, 5, b'E', 0, 0, 0, 0, 0xB6]), 6);
}

#[test]
fn greetings() {
    for (board, length) in [(Board::Short, &b"-62 "[..]), (Board::Long, b"-124")] {
        let mut answer = [0xAA; 25];
        let mut flash = vec![0; board_bytes(board)];
        let taken = Loader::factory().take(board, &[0x08], &mut flash, &mut answer);
        assert_eq!(taken, Ok(24));
        let end = [0x20, 0x20, 0x20, 0x20, 0x0A, 0x0D, 0xAA];
        let expected = [b"ADuC702x", &b"   "[..], length, b"I31", &end].concat();
        assert_eq!(answer[..], expected);
    }
}

/// Flash as the paper counts it.
fn board_bytes(board: Board) -> usize {
    match board {
        Board::Short => 63_488,
        Board::Long => 126_976,
    }
}

#[test]
fn loader_refuses_20_then_11() {
    for board in Board::ALL {
        let bytes = board_bytes(board);
        let mut loader = Loader::factory();
        let mut take = |input: &[u8], flash: usize, answer: usize| {
            let (mut flash, mut answer) = (vec![0; flash], vec![0; answer]);
            loader.take(board, input, &mut flash, &mut answer)
        };
        for wrong in [0, bytes - 1, bytes + 1, board_bytes(other(board))] {
            assert_eq!(take(&[], wrong, 24), Err(Refusal::Size));
            assert_eq!(take(&[8], wrong, 24), Err(Refusal::Size));
        }
        assert_eq!(take(&[], bytes, 23), Err(Refusal::Size));
        assert_eq!(take(&[], bytes, 24), Err(Refusal::NotServing));
        assert_eq!(take(&[8, 8], bytes, 24), Err(Refusal::NotServing));
        assert_eq!(take(&[8], bytes, 100), Ok(24));
    }
}

#[test]
fn erase_limits() {
    for (board, last, end, pages) in [
        (Board::Short, 0xF600, 0xF800, 124),
        (Board::Long, 0x1_EE00, 0x1_F000, 248),
    ] {
        let mut served = Served::new(board, 0x00);
        assert_eq!(served.give(Command::Erase, 0x01FF, &[1]), ack());
        assert!(served.flash[..512].iter().all(|byte| *byte == 0xFF));
        assert!(served.flash[512..].iter().all(|byte| *byte == 0x00));
        assert_eq!(served.give(Command::Erase, last, &[2]), Err(7));
        assert_eq!(served.give(Command::Erase, last, &[1]), ack());
        assert_eq!(served.give(Command::Erase, 1, &[0]), Err(7));
        assert_eq!(served.give(Command::Erase, end, &[1]), Err(7));
        assert_eq!(served.give(Command::Erase, 0xFFFF_FFFF, &[255]), Err(7));
        assert_eq!(served.give(Command::Erase, 0, &[pages + 1]), Err(7));
        assert_eq!(served.give(Command::Erase, 0x200, &[pages]), Err(7));
        assert_eq!(served.give(Command::Erase, 0, &[pages]), ack());
        assert!(served.flash.iter().all(|byte| *byte == 0xFF));
    }
}

#[test]
fn mass_erase_clears_the_whole_board() {
    for board in Board::ALL {
        let mut served = Served::new(board, 0x00);
        served.loader.protection = protection(u64::MAX, true);
        served.loader.key = 6;
        assert_eq!(served.give(Command::Erase, 0, &[0]), ack());
        assert!(served.flash.iter().all(|byte| *byte == 0xFF));
        assert_eq!(served.loader.protection, Protection::default());
        assert_eq!(served.loader.key, NO_KEY);
    }
}

#[test]
fn erase_past_the_short_board() {
    let mut served = Served::new(Board::Long, 0x00);
    for (address, count, pages) in [(0xF7FF, 2, 123..125), (0xFFFF, 2, 127..129)] {
        served.flash.fill(0x00);
        assert_eq!(served.give(Command::Erase, address, &[count]), ack());
        for (page, bytes) in served.flash.chunks(512).enumerate() {
            let byte = if pages.contains(&page) { 0xFF } else { 0x00 };
            assert!(bytes.iter().all(|found| *found == byte));
        }
    }
}

#[test]
fn write_and_verify_limits() {
    for (board, last) in [(Board::Short, 0xF7FF), (Board::Long, 0x1_EFFF)] {
        let mut served = Served::new(board, 0xF0);
        for command in [Command::Write, Command::Verify] {
            assert_eq!(served.give(command, last, &[0, 0]), Err(7));
            assert_eq!(served.give(command, last + 1, &[0]), Err(7));
            assert_eq!(served.give(command, last - 248, &[0; 250]), Err(7));
            assert_eq!(served.give(command, 0xFFFF_FFFF, &[0; 250]), Err(7));
        }
        assert_eq!(served.give(Command::Write, last, &[0x0F]), ack());
        assert_eq!(served.flash[last as usize], 0x00);
        assert_eq!(served.give(Command::Verify, last, &[0x0F]), Err(10));
        assert_eq!(served.give(Command::Verify, last - 1, &[0xF0, 0x00]), ack());
        assert_eq!(
            served.give(Command::Verify, last - 249, &[0xF0; 249]),
            ack()
        );
    }
}

#[test]
fn write_and_verify_past_the_short_board() {
    let mut served = Served::new(Board::Long, 0xFF);
    for address in [0xF7FF, 0xF800, 0xFFFF, 0x1_0000] {
        assert_eq!(served.give(Command::Write, address, &[0x12, 0x34]), ack());
        assert_eq!(served.give(Command::Verify, address, &[0x12, 0x34]), ack());
        assert_eq!(
            served.give(Command::Verify, address, &[0x12, 0x35]),
            Err(10)
        );
        let at = address as usize;
        assert_eq!(served.flash[at - 1..at + 3], [0xFF, 0x12, 0x34, 0xFF]);
        served.flash.fill(0xFF);
    }
}

/// What type 0x0F adds by itself; None where it is 7.
fn added_by(board: Board, address: u32) -> Option<Protection> {
    let mut served = Served::new(board, 0xFF);
    assert_eq!(served.give(Command::Protect, 0, &[0x00]), ack());
    match served.give(Command::Protect, address, &[0x0F]) {
        Ok(_) => assert_eq!(served.give(Command::Protect, 0, &[0x01]), ack()),
        Err(number) => {
            assert_eq!(number, 7);
            return None;
        }
    }
    Some(served.loader.protection)
}

#[test]
fn addresses_of_groups_and_of_read_protection() {
    let group = |number: u32| Some(protection(1 << number, false));
    let read = Some(protection(0, true));
    for (board, address, added) in [
        (Board::Short, 0x200, group(0)),
        (Board::Short, 0x800, group(1)),
        (Board::Short, 0xF7FF, group(30)),
        (Board::Short, 0xF800, read),
        (Board::Short, 0xFFFF, read),
        (Board::Short, 0x1_0000, None),
        (Board::Short, 0x1_F000, None),
        (Board::Short, 0xFFFF_FFFF, None),
        (Board::Long, 0x200, group(0)),
        (Board::Long, 0x800, group(1)),
        (Board::Long, 0xF7FF, group(30)),
        (Board::Long, 0xF800, group(31)),
        (Board::Long, 0xFFFF, group(31)),
        (Board::Long, 0x1_0000, group(32)),
        (Board::Long, 0x1_EFFF, group(61)),
        (Board::Long, 0x1_F000, read),
        (Board::Long, 0x1_F7FF, read),
        (Board::Long, 0x1_F800, None),
        (Board::Long, 0x2_0000, None),
        (Board::Long, 0xFFFF_FFFF, None),
    ] {
        assert_eq!(added_by(board, address), added, "{board:?} {address:X}");
    }
}

/// Each group guards its own four pages, and no others.
#[test]
fn each_group_is_protected_by_itself() {
    for (board, groups) in [(Board::Short, 31), (Board::Long, 62)] {
        let mut served = Served::new(board, 0xFF);
        for protected in 0..groups {
            served.loader.protection = protection(1 << protected, false);
            for group in 0..groups {
                let given = if group == protected { Err(8) } else { ack() };
                let first = group * 0x800;
                for place in [first, first + 0x7FF] {
                    assert_eq!(served.give(Command::Write, place, &[0xFF]), given);
                    assert_eq!(served.give(Command::Verify, place, &[0xFF]), ack());
                    assert_eq!(served.give(Command::Erase, place, &[1]), given);
                }
                assert_eq!(served.give(Command::Erase, first, &[4]), given);
            }
        }
    }
}

#[test]
fn nothing_of_a_sequence_takes_effect_before_its_end() {
    for board in Board::ALL {
        let mut served = Served::new(board, 0xFF);
        assert_eq!(served.give(Command::Protect, 0, &[0x0F]), Err(9));
        assert_eq!(served.give(Command::Protect, 0, &[0x01]), Err(9));
        assert_eq!(served.give(Command::Protect, 7, &[0x00]), ack());
        assert_eq!(served.give(Command::Protect, 7, &[0x00]), Err(9));
        assert_eq!(served.give(Command::Erase, 0, &[0]), Err(9));
        assert_eq!(served.give(Command::Write, 0x1_F000, &[0]), Err(9));
        assert_eq!(served.give(Command::Verify, 0, &[0xFF]), Err(9));
        assert_eq!(served.give(Command::Run, 0, &[]), Err(9));
        assert_eq!(served.give(Command::Protect, 0x200, &[0x0F]), ack());
        assert_eq!(served.give(Command::Protect, 0x1_F800, &[0x0F]), Err(7));
        assert_eq!(served.loader.protection, Protection::default());
        assert_eq!(served.give(Command::Protect, 0x1234_5678, &[0x01]), ack());
        assert_eq!(served.loader.key, 0x1234_5678);
        assert_eq!(served.loader.protection, protection(1, false));
    }
}

#[test]
fn protection_takes_effect_at_the_closing_packet() {
    for (board, last, read, groups, free) in [
        (Board::Short, 0xF7FF, 0xFFFF, 0x4000_0001, 116),
        (Board::Long, 0x1_EFFF, 0x1_F7FF, 0x2000_0000_0000_0001, 240),
    ] {
        let mut served = Served::new(board, 0xFF);
        assert_eq!(served.give(Command::Protect, 0, &[0x00]), ack());
        for address in [0x200, last, read] {
            assert_eq!(served.give(Command::Protect, address, &[0x0F]), ack());
        }
        assert_eq!(served.give(Command::Protect, 6, &[0x01]), ack());
        assert_eq!(served.loader.protection, protection(groups, true));
        assert_eq!(served.give(Command::Write, 0x7FF, &[0]), Err(8));
        assert_eq!(served.give(Command::Write, last, &[0]), Err(8));
        assert_eq!(served.give(Command::Write, 0x800, &[0xFF]), ack());
        assert_eq!(served.give(Command::Erase, 0x600, &[1]), Err(8));
        assert_eq!(served.give(Command::Erase, 0x800, &[free + 1]), Err(8));
        assert_eq!(served.give(Command::Erase, 0x800, &[free]), ack());
        assert_eq!(served.give(Command::Verify, 0x800, &[0x00]), Err(8));
        assert_eq!(served.give(Command::Erase, 0, &[0]), ack());
        assert_eq!(served.loader.protection, Protection::default());
        assert_eq!(served.loader.key, NO_KEY);
    }
}

#[test]
fn reset_drops_a_sequence_and_keeps_protection() {
    let mut served = Served::new(Board::Long, 0xFF);
    served.loader.protection = protection(5, false);
    served.loader.key = 6;
    assert_eq!(served.give(Command::Protect, 0, &[0x00]), ack());
    served.loader.reset();
    let expected = Loader {
        condition: Condition::Waiting,
        protection: protection(5, false),
        key: 6,
        sequence: None,
    };
    assert_eq!(served.loader, expected);
}

#[test]
fn run_leaves() {
    for board in Board::ALL {
        let mut served = Served::new(board, 0xFF);
        assert_eq!(served.give(Command::Run, 2, &[]), Err(7));
        assert_eq!(served.give(Command::Run, 1, &[]), ack());
        assert_eq!(served.give(Command::Run, 1, &[]), Err(11));
        assert_eq!(served.input(&[0x08]), Err(11));
        served.loader.reset();
        assert_eq!(served.input(&[0x08]), Ok(board.greeting().to_vec()));
        assert_eq!(served.give(Command::Run, 0, &[]), ack());
    }
}

/// R with address 1.
const RESET: [u8; 9] = [0x07, 0x0E, 0x05, 0x52, 0x00, 0x00, 0x00, 0x01, 0xA8];
/// E of page 0, whose checksum is 07.
const ENDS_IN_07: [u8; 10] = [0x07, 0x0E, 0x06, 0x45, 0x00, 0x00, 0x00, 0xAD, 0x01, 0x07];
/// W of 07 0E 04 at 0.
const HOLDS_A_START: [u8; 12] = [
    0x07, 0x0E, 0x08, 0x57, 0x00, 0x00, 0x00, 0x00, 0x07, 0x0E, 0x04, 0x88,
];

/// The packets that a new receiver hands on, and what it has gathered then.
fn received(bytes: &[u8]) -> (Vec<Vec<u8>>, Vec<u8>) {
    let mut receiver = Receiver::default();
    let mut packets = Vec::new();
    for byte in bytes {
        packets.extend(receiver.byte(*byte).map(<[u8]>::to_vec));
    }
    (packets, receiver.gathered().to_vec())
}

fn check_received(bytes: &[u8], packets: &[&[u8]], gathered: &[u8]) {
    let (found, left) = received(bytes);
    assert_eq!(found, packets, "{bytes:02X?}");
    assert_eq!(left, gathered, "{bytes:02X?}");
}

#[test]
fn receiver_finds_packets_between_rubbish() {
    check_received(&[], &[], &[]);
    check_received(&RESET, &[&RESET], &[]);
    let stream = [&[0x00, 0x0E, 0x55, 0x08], &RESET[..], &[0xFF], &ENDS_IN_07].concat();
    check_received(&stream, &[&RESET, &ENDS_IN_07], &[]);
    check_received(&[&RESET[..], &RESET].concat(), &[&RESET, &RESET], &[]);
}

/// What is not complete is kept, and hands nothing on.
#[test]
fn receiver_hands_on_with_the_last_byte_and_not_before() {
    for packet in [&RESET[..], &ENDS_IN_07, &HOLDS_A_START] {
        for length in 0..packet.len() {
            check_received(&packet[..length], &[], &packet[..length]);
        }
    }
}

/// No other byte begins a start, and none but 0E goes on with it.
#[test]
fn receiver_hunts_for_07_0e_alone() {
    for byte in 0..=255u8 {
        let begun: &[u8] = if byte == 0x07 { &[0x07] } else { &[] };
        check_received(&[byte], &[], begun);
        match byte {
            0x0E => check_received(&[0x07, byte], &[], &[0x07, 0x0E]),
            _ => check_received(&[0x07, byte], &[], begun),
        }
    }
    check_received(&[&[0x07, 0x55], &RESET[1..]].concat(), &[], &[]);
    check_received(&[&[0x0E, 0x07], &RESET[2..]].concat(), &[], &[]);
}

#[test]
fn second_07_may_itself_begin_the_start() {
    for count in 1..5 {
        let stream = [&vec![0x07; count], &RESET[..]].concat();
        check_received(&stream, &[&RESET], &[]);
    }
    check_received(&[0x07, 0x07], &[], &[0x07]);
    check_received(&[0x07, 0x07, 0x0E], &[], &[0x07, 0x0E]);
    check_received(&[&[0x07, 0x55, 0x07], &RESET[..]].concat(), &[&RESET], &[]);
}

#[test]
fn checksum_07_is_not_the_start_of_what_follows() {
    assert_eq!(built(Command::Erase, 0xAD, &[1]), ENDS_IN_07);
    let stream = [&ENDS_IN_07[..], &RESET[1..]].concat();
    check_received(&stream, &[&ENDS_IN_07], &[]);
    let stream = [&ENDS_IN_07[..], &[0x0E], &RESET].concat();
    check_received(&stream, &[&ENDS_IN_07, &RESET], &[]);
}

#[test]
fn start_inside_data_is_no_start() {
    assert_eq!(built(Command::Write, 0, &[0x07, 0x0E, 0x04]), HOLDS_A_START);
    check_received(&HOLDS_A_START, &[&HOLDS_A_START], &[]);
    let whole = built(Command::Write, 0x070E, &RESET);
    check_received(&whole, &[&whole], &[]);
}

/// A start in the rubbish takes a packet for its data: 07 is its count.
#[test]
fn start_in_rubbish_swallows_what_follows() {
    let stream = [&[0x07, 0x0E], &RESET[..]].concat();
    check_received(&stream, &[&stream], &[]);
    let twice = [&stream[..], &RESET].concat();
    check_received(&twice, &[&stream, &RESET], &[]);
    let mut wired = Wired::serving(Board::Short, 0x00);
    assert_eq!(wired.hear(&twice), [(4, vec![0x07]), (0, vec![0x06])]);
}

#[test]
fn count_below_5_is_handed_on_as_three_bytes() {
    for count in 0..=4 {
        let three = [0x07, 0x0E, count];
        check_received(&three, &[&three], &[]);
        check_received(&[&three[..], &RESET].concat(), &[&three, &RESET], &[]);
        check_received(&[&three[..], &RESET[1..]].concat(), &[&three], &[]);
        check_received(&[three, three].concat(), &[&three, &three], &[]);
        let mut wired = Wired::serving(Board::Long, 0x00);
        assert_eq!(wired.hear(&three), [(3, vec![0x07])]);
    }
}

/// A 07 that is the count begins nothing.
#[test]
fn hunt_begins_again_behind_a_count_below_5() {
    check_received(
        &[0x07, 0x0E, 0x04, 0x07, 0x0E, 0x03],
        &[&[0x07, 0x0E, 0x04], &[0x07, 0x0E, 0x03]],
        &[],
    );
    check_received(
        &[0x07, 0x07, 0x0E, 0x00, 0x07],
        &[&[0x07, 0x0E, 0x00]],
        &[0x07],
    );
    check_received(&[0x07, 0x0E, 0x07, 0x0E], &[], &[0x07, 0x0E, 0x07, 0x0E]);
}

#[test]
fn every_count_from_5_gathers_n_and_4_bytes() {
    for count in 5..=255u8 {
        let length = usize::from(count) + 4;
        let mut packet = vec![0x07; length];
        packet[1] = 0x0E;
        packet[2] = count;
        check_received(&packet[..length - 1], &[], &packet[..length - 1]);
        check_received(&packet, &[&packet], &[]);
        check_received(&[&packet[..], &[0x0E]].concat(), &[&packet], &[]);
    }
}

#[test]
fn shortest_and_longest_packet_are_handed_on() {
    let longest = built(Command::Write, 0, &[0x07; 250]);
    assert_eq!((longest.len(), longest[2], longest[258]), (259, 255, 0xD4));
    let stream = [&RESET[..], &longest, &RESET].concat();
    check_received(&stream, &[&RESET, &longest, &RESET], &[]);
}

/// The checksum is the loader's to judge.
#[test]
fn wrong_packets_are_handed_on() {
    let mut wrong = RESET;
    wrong[8] = 0xA9;
    check_received(&wrong, &[&wrong], &[]);
    let unknown = [0x07, 0x0E, 0x05, 0x00, 0x00, 0x00, 0x00, 0x00, 0xFB];
    check_received(&unknown, &[&unknown], &[]);
    let mut wired = Wired::serving(Board::Short, 0x00);
    let answers = wired.hear(&[&wrong[..], &unknown, &RESET].concat());
    let bel = vec![0x07];
    assert_eq!(answers, [(4, bel.clone()), (5, bel), (0, vec![0x06])]);
}

/// A board with a receiver at its end of the line.
struct Wired {
    board: Board,
    port: Port,
    flash: Vec<u8>,
}

impl Wired {
    fn new(board: Board, filling: u8) -> Wired {
        Wired {
            board,
            port: Port {
                loader: Loader::factory(),
                receiver: Receiver::default(),
            },
            flash: vec![filling; board.flash_bytes()],
        }
    }

    fn serving(board: Board, filling: u8) -> Wired {
        let mut wired = Wired::new(board, filling);
        assert_eq!(wired.hear(&[0x08]), [greets(board)]);
        wired
    }

    /// The number and the answer of each input that these bytes bring.
    fn hear(&mut self, bytes: &[u8]) -> Vec<(u8, Vec<u8>)> {
        let mut inputs = Vec::new();
        for byte in bytes {
            let mut answer = [0xAA; 30];
            let flash = &mut self.flash;
            let taken = self.port.byte(self.board, *byte, flash, &mut answer);
            let written = answer.iter().position(|byte| *byte == 0xAA).unwrap();
            let number = taken.map(|taken| taken.map_or_else(Refusal::number, |_| 0));
            inputs.extend(number.map(|number| (number, answer[..written].to_vec())));
        }
        inputs
    }
}

fn greets(board: Board) -> (u8, Vec<u8>) {
    (0, board.greeting().to_vec())
}

fn unheard() -> (u8, Vec<u8>) {
    (11, vec![])
}

/// Each byte is an input of its own while the loader waits.
#[test]
fn single_08_in_rubbish_opens_the_board() {
    for board in Board::ALL {
        let mut wired = Wired::new(board, 0x00);
        let opened = wired.hear(&[0x55, 0x07, 0x0E, 0x08, 0x08, 0x00]);
        assert_eq!(opened, [unheard(), unheard(), unheard(), greets(board)]);
        assert_eq!(wired.port.loader.condition, Condition::Serving);
        assert_eq!(wired.hear(&RESET), [(0, vec![0x06])]);
    }
}

#[test]
fn receiver_is_fed_after_the_greeting() {
    for board in Board::ALL {
        let mut wired = Wired::new(board, 0x00);
        assert_eq!(wired.hear(&RESET[..2]), [unheard(), unheard()]);
        assert_eq!(wired.hear(&[0x08]), [greets(board)]);
        assert_eq!(wired.port.receiver.gathered(), []);
        assert_eq!(wired.hear(&RESET[2..]), []);
        assert_eq!(wired.port.loader.condition, Condition::Serving);
        // 08 is no input any more
        assert_eq!(wired.hear(&[0x08, 0x08]), []);
        assert_eq!(wired.hear(&RESET), [(0, vec![0x06])]);
    }
}

#[test]
fn receiver_is_not_fed_after_r() {
    for board in Board::ALL {
        let mut wired = Wired::serving(board, 0x00);
        assert_eq!(wired.hear(&RESET), [(0, vec![0x06])]);
        assert_eq!(wired.hear(&ENDS_IN_07), vec![unheard(); 10]);
        assert_eq!(wired.hear(&[0x08]), [unheard()]);
        assert_eq!(wired.port.receiver.gathered(), []);
        assert_eq!(wired.port.loader.condition, Condition::Left);
        assert!(wired.flash.iter().all(|byte| *byte == 0x00));
    }
}

#[test]
fn what_was_begun_before_a_reset_is_dropped() {
    let mut wired = Wired::serving(Board::Short, 0x00);
    assert_eq!(wired.hear(&RESET[..5]), []);
    wired.port.loader.reset();
    assert_eq!(wired.hear(&[0x08]), [greets(Board::Short)]);
    assert_eq!(wired.port.receiver.gathered(), []);
    assert_eq!(wired.hear(&RESET[5..]), []);
    assert_eq!(wired.port.loader.condition, Condition::Serving);
}

/// The R that begins with the checksum of E is none.
#[test]
fn loader_takes_only_what_the_receiver_hands_on() {
    let mut wired = Wired::serving(Board::Short, 0x00);
    let stream = [&ENDS_IN_07[..], &RESET[1..], &HOLDS_A_START].concat();
    let ack = (0, vec![0x06]);
    assert_eq!(wired.hear(&stream), [ack.clone(), ack]);
    assert_eq!(wired.port.loader.condition, Condition::Serving);
    assert_eq!(wired.flash[..4], [0x07, 0x0E, 0x04, 0xFF]);
    assert!(wired.flash[4..512].iter().all(|byte| *byte == 0xFF));
    assert!(wired.flash[512..].iter().all(|byte| *byte == 0x00));
}

/// Rubbish with packets in it: what is handed on, and what is left.
fn noisy_stream() -> (Vec<u8>, Vec<Vec<u8>>, Vec<u8>) {
    let three = [0x07, 0x0E, 0x04];
    let stream = [
        &[0x55, 0x07][..],
        &ENDS_IN_07,
        &[0x0E, 0x07, 0x07],
        &three,
        &HOLDS_A_START,
        &[0x07],
    ];
    let packets = [&ENDS_IN_07[..], &three, &HOLDS_A_START];
    let packets = packets.map(<[u8]>::to_vec).to_vec();
    (stream.concat(), packets, vec![0x07])
}

/// Feeds all of these bytes, call by call, and gives the packets.
fn fed(record: &mut ReceiverRecord, mut bytes: &[u8]) -> Vec<Vec<u8>> {
    let mut packets = Vec::new();
    while !bytes.is_empty() {
        let (taken, packet) = record.feed(bytes);
        packets.extend(packet.map(<[u8]>::to_vec));
        bytes = &bytes[taken..];
    }
    packets
}

#[test]
fn cutting_the_bytes_elsewhere_changes_nothing() {
    let (stream, packets, gathered) = noisy_stream();
    let mut whole = ReceiverRecord::hunting();
    assert_eq!(fed(&mut whole, &stream), packets);
    assert_eq!(whole.length, 1);
    for first in 0..=stream.len() {
        for second in first..=stream.len() {
            let mut record = ReceiverRecord::hunting();
            let mut found = fed(&mut record, &stream[..first]);
            found.extend(fed(&mut record, &stream[first..second]));
            found.extend(fed(&mut record, &stream[second..]));
            assert_eq!(found, packets);
            assert_eq!(record, whole);
        }
    }
    let packets: Vec<&[u8]> = packets.iter().map(Vec::as_slice).collect();
    check_received(&stream, &packets, &gathered);
}

/// Takes all of these bytes, call by call, and gives the number and the answer
/// of each input that is answered.
fn ported(port: &mut PortRecord, mut bytes: &[u8], flash: &mut [u8]) -> Vec<(u8, Vec<u8>)> {
    let mut inputs = Vec::new();
    while !bytes.is_empty() {
        let mut answer = [0xAA; 24];
        let (taken, given) = port.take(124, bytes, flash, &mut answer);
        let number = given.map_or_else(Refusal::number, |_| 0);
        let answered = answer.iter().position(|byte| *byte == 0xAA).unwrap_or(24);
        if answered > 0 {
            inputs.push((number, answer[..answered].to_vec()));
        }
        bytes = &bytes[taken..];
    }
    inputs
}

#[test]
fn cutting_the_bytes_to_a_port_changes_nothing() {
    let (noise, _, _) = noisy_stream();
    let stream = [&[0x07, 0x08][..], &noise, &RESET[1..], &[0x08]].concat();
    let ack = (0, vec![0x06]);
    let bel = (3, vec![0x07]);
    let answers = [greets(Board::Short), ack.clone(), bel, ack.clone(), ack];
    for cut in 0..=stream.len() {
        let mut flash = vec![0x00; 63_488];
        let mut port = PortRecord {
            loader: Loader::factory().into(),
            receiver: ReceiverRecord::hunting(),
        };
        let mut found = ported(&mut port, &stream[..cut], &mut flash);
        found.extend(ported(&mut port, &stream[cut..], &mut flash));
        assert_eq!(found, answers);
        assert_eq!(port.loader.condition, 2);
        assert_eq!(port.receiver.length, 0);
        assert_eq!(flash[..4], [0x07, 0x0E, 0x04, 0xFF]);
    }
}

/// The number and the column of a refusal of the hex reader; both 0 for none.
fn told<T>(given: Result<T, HexRefusal>) -> (u8, usize) {
    match given {
        Ok(_) => (0, 0),
        Err(HexRefusal { refusal, column }) => (refusal.number(), column),
    }
}

const RULE_SETS: [RuleSet; 2] = [RuleSet::One, RuleSet::Two];

/// A reader with its image and map.
#[derive(Clone, PartialEq, Debug)]
struct Reading {
    reader: Reader,
    image: Vec<u8>,
    map: Vec<u8>,
}

impl Reading {
    /// Under rule set 1, as what follows a file does not depend on its set.
    fn new(board: Board) -> Reading {
        Reading::under(RuleSet::One, board, &[])
    }

    fn of(board: Board, records: &[&str]) -> Reading {
        Reading::under(RuleSet::One, board, records)
    }

    fn under(rules: RuleSet, board: Board, records: &[&str]) -> Reading {
        let mut image = vec![0; board.flash_bytes()];
        let mut map = vec![1; board.map_bytes()];
        let reader = Reader::start(board, rules, &mut image, &mut map).unwrap();
        assert!(image.iter().all(|byte| *byte == 0xFF) && map.iter().all(|byte| *byte == 0));
        let mut reading = Reading { reader, image, map };
        for record in records {
            assert_eq!(reading.record(record), 0, "{record}");
        }
        reading
    }

    fn names(&self, at: usize) -> bool {
        self.map[at / 8] >> (at % 8) & 1 != 0
    }

    /// The named bytes with their places, ascending; all others are 0xFF.
    fn named(&self) -> Vec<(usize, u8)> {
        let (named, others): (Vec<usize>, Vec<usize>) =
            (0..self.image.len()).partition(|at| self.names(*at));
        assert!(others.iter().all(|at| self.image[*at] == 0xFF));
        named.into_iter().map(|at| (at, self.image[at])).collect()
    }

    fn board(&self) -> Board {
        self.reader.board
    }

    /// What comes of a record; refusals leave everything as it stood.
    fn take(&mut self, text: &[u8]) -> (u8, usize) {
        let before = self.clone();
        let taken = self.reader.record(text, &mut self.image, &mut self.map);
        if taken.is_err() {
            assert_eq!(*self, before);
        }
        told(taken)
    }

    /// The number alone.
    fn record(&mut self, text: &str) -> u8 {
        self.take(text.as_bytes()).0
    }

    fn close(&self) -> (u8, usize) {
        told(self.reader.close())
    }

    fn session(&self, run: Run) -> Session {
        self.started(run)
    }

    fn plain(&self, run: Run) -> Plain {
        self.started(run)
    }

    fn started<H: Host>(&self, run: Run) -> H {
        let mut packet = [0xAA; packet::LONGEST];
        let (image, map) = (&self.image, &self.map);
        let started = H::start(self.board(), run, image, map, &mut packet);
        let (session, length) = started.unwrap_or_else(|refusal| panic!("{refusal:?}"));
        assert_eq!((length, packet[0], packet[1]), (1, 0x08, 0xAA));
        session
    }

    fn step<H: Host>(&self, session: H, event: Event) -> Result<(H, Vec<u8>), u8> {
        let mut packet = [0xAA; 300];
        match session.step(event, &self.image, &self.map, &mut packet) {
            Ok((next, length)) => {
                assert!(packet[length..].iter().all(|byte| *byte == 0xAA));
                Ok((next, packet[..length].to_vec()))
            }
            Err(refusal) => Err(refusal.number()),
        }
    }

    /// Whether a byte is marked, asked with this file's map.
    fn mark(&self, session: impl Host, address: u32) -> Result<bool, u8> {
        session
            .proved(&self.map, address)
            .map_err(|refusal| refusal.number())
    }

    fn ending(&self, session: Session, event: Event) -> Phase {
        let (next, packet) = self.step(session, event).unwrap();
        assert!(packet.is_empty());
        next.phase
    }
}

#[test]
fn printed_records() {
    for board in Board::ALL {
        for (record, number) in [
            (":020000001234B8", 0),
            (":00000001FF", 0),
            (":020000040108EA", 26),
            (":020000040108F1", 0),
            (":0200000212FFBD", 26),
            (":0200000212FFEB", 0),
            (":0401000090FFAA5502", 26),
            (":0401000090FFAA556D", 0),
            (":0401000090ffaa556d", 0),
        ] {
            assert_eq!(Reading::new(board).record(record), number, "{record}");
        }
    }
}

#[test]
fn reader_starts_20_at_any_other_size() {
    for board in Board::ALL {
        let (bytes, map) = (board.flash_bytes(), board.map_bytes());
        let far = other(board);
        for (image, map) in [
            (bytes - 1, map),
            (bytes + 1, map),
            (bytes, map - 1),
            (bytes, map + 1),
            (far.flash_bytes(), map),
            (bytes, far.map_bytes()),
            (far.flash_bytes(), far.map_bytes()),
        ] {
            let (mut image, mut map) = (vec![0x5A; image], vec![0x5A; map]);
            for rules in RULE_SETS {
                let started = Reader::start(board, rules, &mut image, &mut map);
                assert_eq!(told(started), (20, 0));
                let new = Reading::under(rules, board, &[]).reader;
                let mut reader = new;
                let taken = reader.record(b":00000001FF", &mut image, &mut map);
                assert_eq!(told(taken), (20, 0));
                assert_eq!(reader, new);
                assert!(image.iter().chain(&map).all(|byte| *byte == 0x5A));
            }
        }
    }
}

#[test]
fn empty_data_is_accepted_anywhere() {
    for board in Board::ALL {
        let mut reading = Reading::new(board);
        assert_eq!(reading.record(":00FFFF0002"), 0);
        assert_eq!(reading, Reading::new(board));
        assert_eq!(reading.record(":00000001FF"), 0);
        assert_eq!(reading.close(), (32, 0));
    }
}

#[test]
fn record_refusals() {
    for board in Board::ALL {
        let mut reading = Reading::of(board, &[":020000001234B8"]);
        for (record, number, column) in [
            ("", 22, 0),
            ("020000001234B8", 22, 0),
            (":00000001F", 23, 10),
            (":0000000", 23, 8),
            (":000000G1FF", 24, 7),
            (":010000001234B8", 25, 15),
            (":020000001234B9", 26, 13),
            (":00000006FA", 27, 7),
            (":0100000100FE", 28, 1),
            (":00000101FE", 28, 3),
            (":0100000200FD", 28, 1),
            (":020001020000FB", 28, 3),
            (":020000030000FB", 28, 1),
            (":02000005FFFFFB", 28, 1),
            (":010001000AF4", 30, 0),
        ] {
            let taken = reading.take(record.as_bytes());
            assert_eq!(taken, (number, column), "{record}");
        }
        assert_eq!(reading.record(":01F7FF000009"), 0);
        assert_eq!(reading.record(":0400000300000000F9"), 0);
        assert_eq!(reading.record(":04000005FFFFFFFFFB"), 0);
        assert_eq!(reading.close(), (31, 0));
        assert_eq!(reading.record(":00000001FF"), 0);
        assert_eq!(reading.record(""), 21);
        assert_eq!(reading.close(), (0, 0));
    }
}

/// The record of these bytes, with the checksum that brings all to zero.
fn hex_record(kind: u8, address: u16, data: &[u8]) -> String {
    let [high, low] = address.to_be_bytes();
    let mut bytes = vec![data.len() as u8, high, low, kind];
    bytes.extend(data);
    let sum: u32 = bytes.iter().map(|byte| u32::from(*byte)).sum();
    bytes.push(((256 - sum % 256) % 256) as u8);
    format!(":{}", listing::hex_digits(&bytes))
}

/// Sets the segment base to 16 times this.
fn segment(value: u16) -> String {
    hex_record(2, 0, &value.to_be_bytes())
}

/// Sets the linear base to 65,536 times this.
fn linear(value: u16) -> String {
    hex_record(4, 0, &value.to_be_bytes())
}

/// Records to be taken as they stand.
fn texts(records: &[String]) -> Vec<&str> {
    records.iter().map(String::as_str).collect()
}

#[test]
fn made_records_are_the_printed_ones() {
    assert_eq!(hex_record(0, 0, &[0x12, 0x34]), ":020000001234B8");
    assert_eq!(hex_record(1, 0, &[]), ":00000001FF");
    assert_eq!(segment(0x12FF), ":0200000212FFEB");
    assert_eq!(linear(0x0108), ":020000040108F1");
}

#[test]
fn data_past_the_short_board_is_29() {
    let mut reading = Reading::of(Board::Short, &[":01F7FE005AB0"]);
    for record in [
        ":02F7FF00000008",
        ":01F800000007",
        ":01FFFF000001",
        ":02FFFF001234BA",
    ] {
        assert_eq!(reading.take(record.as_bytes()), (29, 0), "{record}");
    }
    assert_eq!(reading.record(":02F7FE00000009"), 30);
    assert_eq!(reading.record(":01F7FF000009"), 0);
    assert_eq!(reading.record(&linear(1)), 0);
    assert_eq!(reading.record(":0100000000FF"), 29);
}

/// The last byte is named by the linear base, by the segment base and by both.
#[test]
fn data_past_the_long_board_is_29() {
    for (bases, offset) in [
        (vec![linear(1)], 0xEFFF),
        (vec![segment(0x1EFF)], 0x000F),
        (vec![segment(0x1000)], 0xEFFF),
        (vec![linear(1), segment(0x0EFF)], 0x000F),
    ] {
        let mut reading = Reading::new(Board::Long);
        for base in bases {
            assert_eq!(reading.record(&base), 0);
        }
        assert_eq!(reading.record(&hex_record(0, offset, &[1, 2])), 29);
        assert_eq!(reading.record(&hex_record(0, offset + 1, &[1])), 29);
        assert_eq!(reading.record(&hex_record(0, offset + 1, &[])), 0);
        assert_eq!(reading.record(&hex_record(0, offset, &[0x5A])), 0);
        assert_eq!(reading.record(&hex_record(0, offset, &[0x5A])), 30);
        assert_eq!(reading.image[0x1_EFFE..], [0xFF, 0x5A]);
        assert_eq!(reading.map[15_870..], [0, 0x80]);
    }
    let mut far = Reading::of(Board::Long, &[&linear(2)]);
    assert_eq!(far.record(&hex_record(0, 0, &[0])), 29);
    let mut far = Reading::of(Board::Long, &[&linear(0xFFFF), &segment(0xFFFF)]);
    assert_eq!(far.record(&hex_record(0, 0xFFFF, &[0])), 29);
}

/// The base stays, so that a place past 64 KiB is no place below it.
#[test]
fn data_of_the_long_board_runs_over_64_kib() {
    let mut reading = Reading::new(Board::Long);
    assert_eq!(reading.record(":02FFFF001234BA"), 0);
    assert_eq!(reading.image[0xFFFE..0x1_0002], [0xFF, 0x12, 0x34, 0xFF]);
    assert_eq!(reading.image[..2], [0xFF, 0xFF]);
    assert_eq!(reading.map[0x1FFF..0x2001], [0x80, 0x01]);
    for base in [linear(1), segment(0x1000)] {
        let mut reading = reading.clone();
        assert_eq!(reading.record(&base), 0);
        assert_eq!(reading.record(&hex_record(0, 0, &[0x56])), 30);
        assert_eq!(reading.record(&hex_record(0, 1, &[0x56])), 0);
        assert_eq!(reading.image[0xFFFF..0x1_0002], [0x12, 0x34, 0x56]);
        assert_eq!(reading.image[..2], [0xFF, 0xFF]);
    }
}

#[test]
fn one_file_by_04_and_by_02() {
    let bytes: Vec<u8> = (1..=250).collect();
    let data = hex_record(0, 0x2345, &bytes);
    let by_04 = Reading::of(Board::Long, &[&linear(1), &data]);
    let by_02 = Reading::of(Board::Long, &[&segment(0x1000), &data]);
    assert_eq!(by_04.image[0x1_2345..0x1_2345 + 250], bytes);
    assert!(by_04.image == by_02.image && by_04.map == by_02.map);
    assert_eq!((by_04.reader.linear, by_04.reader.segment), (0x1_0000, 0));
    assert_eq!((by_02.reader.linear, by_02.reader.segment), (0, 0x1_0000));
    // the two bases add up
    let mut both = Reading::of(Board::Long, &[&linear(1), &segment(0x1000)]);
    assert_eq!(both.record(&data), 29);
}

#[test]
fn bases_add_without_wrap() {
    for board in Board::ALL {
        let mut reading = Reading::of(board, &[":02000002F7FF06"]);
        assert_eq!(reading.reader.segment, 0xF7FF0);
        assert_eq!(reading.record(":0100000000FF"), 29);
        assert_eq!(reading.record(":02000002001FDD"), 0);
        assert_eq!(reading.record(":020010001234A8"), 0);
        assert_eq!(reading.image[0x200..0x202], [0x12, 0x34]);
        assert_eq!(reading.map[0x40], 3);
        reading.reader.linear = 0xFFFF_FFFF;
        reading.reader.segment = 1;
        assert_eq!(reading.record(":0100000000FF"), 29);
        assert_eq!(reading.record(":0000000000"), 0);
    }
}

/// The data of records whose bytes are followed one by one.
const BYTES: [u8; 4] = [0x11, 0x22, 0x33, 0x44];

/// Where each byte of a data record goes behind some bases, under rule set 1
/// and under rule set 2; no places where the record is 29.
fn check_places(board: Board, bases: &[String], offset: u16, count: usize, places: [&[usize]; 2]) {
    for (rules, places) in RULE_SETS.into_iter().zip(places) {
        let mut reading = Reading::under(rules, board, &texts(bases));
        let number = reading.record(&hex_record(0, offset, &BYTES[..count]));
        let expected = if places.is_empty() { 29 } else { 0 };
        assert_eq!(number, expected, "{rules:?} {bases:?}");
        let mut named: Vec<(usize, u8)> = places.iter().copied().zip(BYTES).collect();
        named.sort_unstable();
        assert_eq!(reading.named(), named, "{rules:?} {bases:?}");
        assert_eq!(reading.reader.taken, !places.is_empty());
    }
}

/// Two bytes at offset 0x0234: where the first goes under set 1 and set 2.
#[test]
fn places_by_02_by_04_by_both_and_by_neither() {
    for (bases, set_1, set_2) in [
        (vec![], 0x0234, 0x0234),
        (vec![segment(0x0100)], 0x1234, 0x1234),
        (vec![segment(0x0100), segment(0x0200)], 0x2234, 0x2234),
        (vec![linear(1)], 0x1_0234, 0x1_0234),
        (vec![linear(1), linear(0)], 0x0234, 0x0234),
        (vec![segment(0x0100), linear(1)], 0x1_1234, 0x1_0234),
        (vec![linear(1), segment(0x0100)], 0x1_1234, 0x1234),
        (
            vec![segment(0x0100), linear(1), segment(0x0200)],
            0x1_2234,
            0x2234,
        ),
        (vec![linear(1), segment(0x0100), linear(0)], 0x1234, 0x0234),
    ] {
        let places = [&[set_1, set_1 + 1][..], &[set_2, set_2 + 1]];
        check_places(Board::Long, &bases, 0x0234, 2, places);
    }
}

/// A base of 0 puts the other one aside as any base does.
#[test]
fn a_base_of_0_governs_too() {
    let (low, high) = (&[0x0234, 0x0235][..], &[0x1_0234, 0x1_0235][..]);
    for bases in [[linear(1), segment(0)], [segment(0x1000), linear(0)]] {
        check_places(Board::Long, &bases, 0x0234, 2, [high, low]);
        check_places(Board::Short, &bases, 0x0234, 2, [&[], low]);
    }
}

/// A base that is put aside takes no part in 29 either.
#[test]
fn a_far_base_counts_under_set_2_only_while_it_governs() {
    for board in Board::ALL {
        let taken = &[0x1234, 0x1235][..];
        let bases = [linear(0xFFFF), segment(0x0100)];
        check_places(board, &bases, 0x0234, 2, [&[], taken]);
        let bases = [segment(0xFFFF), linear(0)];
        check_places(board, &bases, 0x1234, 2, [&[], taken]);
        for bases in [
            [segment(0x0100), linear(2)],
            [linear(0), segment(0x1F00)],
            [segment(0xFFFF), linear(0xFFFF)],
            [linear(0xFFFF), segment(0xFFFF)],
        ] {
            check_places(board, &bases, 0x0234, 2, [&[], &[]]);
        }
    }
}

/// The board's last byte is taken and the next is 29, by either base.
#[test]
fn the_end_of_the_board_under_both_sets() {
    for (board, bases, offset, last) in [
        (Board::Short, vec![], 0xF7FF, 0xF7FF),
        (Board::Short, vec![linear(0)], 0xF7FF, 0xF7FF),
        (Board::Short, vec![segment(0x0F00)], 0x07FF, 0xF7FF),
        (Board::Long, vec![linear(1)], 0xEFFF, 0x1_EFFF),
        (Board::Long, vec![segment(0x1000)], 0xEFFF, 0x1_EFFF),
        (Board::Long, vec![segment(0x1EFF)], 0x000F, 0x1_EFFF),
    ] {
        check_places(board, &bases, offset, 1, [&[last], &[last]]);
        check_places(board, &bases, offset, 2, [&[], &[]]);
        check_places(board, &bases, offset + 1, 1, [&[], &[]]);
    }
}

/// The high part lies at the top of the segment, the low part at its start.
#[test]
fn record_under_02_wraps_inside_its_segment() {
    let long = Board::Long;
    let bases = [segment(0x0080)];
    check_places(
        long,
        &bases,
        0xFFFE,
        4,
        [
            &[0x1_07FE, 0x1_07FF, 0x1_0800, 0x1_0801],
            &[0x1_07FE, 0x1_07FF, 0x0800, 0x0801],
        ],
    );
    let split = [&[0x1_07FF, 0x1_0800][..], &[0x1_07FF, 0x0800]];
    check_places(long, &bases, 0xFFFF, 2, split);
    // offset 0xFFFF is the last that does not wrap
    let whole = &[0x1_07FE, 0x1_07FF][..];
    check_places(long, &bases, 0xFFFE, 2, [whole, whole]);
    let start = &[0x0800, 0x0801][..];
    check_places(long, &bases, 0, 2, [start, start]);
}

/// 255 bytes from offset 0xFF80: 128 at the top, 127 at the start.
#[test]
fn longest_record_that_wraps() {
    let bytes: Vec<u8> = (1..=255).collect();
    let data = hex_record(0, 0xFF80, &bytes);
    let reading = Reading::under(RuleSet::Two, Board::Long, &[&segment(0x0080), &data]);
    assert_eq!(reading.image[0x1_0780..0x1_0800], bytes[..128]);
    assert_eq!(reading.image[0x0800..0x087F], bytes[128..]);
    assert_eq!(reading.named().len(), 255);
    let reading = Reading::under(RuleSet::One, Board::Long, &[&segment(0x0080), &data]);
    assert_eq!(reading.image[0x1_0780..0x1_087F], bytes);
    assert_eq!(reading.named().len(), 255);
}

#[test]
fn record_under_02_of_value_0_wraps() {
    let (over, wrapped) = (&[0xFFFF, 0x1_0000][..], &[0xFFFF, 0x0000][..]);
    check_places(Board::Long, &[segment(0)], 0xFFFF, 2, [over, wrapped]);
    let bases = [linear(0), segment(0)];
    check_places(Board::Long, &bases, 0xFFFF, 2, [over, wrapped]);
    let bases = [linear(1), segment(0)];
    check_places(Board::Long, &bases, 0xFFFF, 2, [&[], wrapped]);
}

#[test]
fn nothing_wraps_under_04_or_before_any_02_or_04() {
    let over = &[0xFFFF, 0x1_0000][..];
    for bases in [vec![], vec![linear(0)], vec![segment(0), linear(0)]] {
        check_places(Board::Long, &bases, 0xFFFF, 2, [over, over]);
        check_places(Board::Short, &bases, 0xFFFF, 2, [&[], &[]]);
    }
    let bases = [segment(0x0080), linear(0)];
    let places = [&[0x1_07FF, 0x1_0800][..], over];
    check_places(Board::Long, &bases, 0xFFFF, 2, places);
    for bases in [vec![linear(1)], vec![linear(0xFFFF)]] {
        // 65,536 times 0xFFFF and the offset 0x10000 make 2 to the 32nd
        for board in Board::ALL {
            check_places(board, &bases, 0xFFFF, 2, [&[], &[]]);
        }
    }
}

/// The segment's last byte lies on the board up to segment base 0xF000.
#[test]
fn high_part_past_the_board_is_29() {
    let long = Board::Long;
    let places = &[0x1_EFFF, 0xF000][..];
    check_places(long, &[segment(0x0F00)], 0xFFFF, 2, [&[], places]);
    for value in [0x0F01, 0x1000, 0x1EFF, 0x1F00, 0xFFFF] {
        check_places(long, &[segment(value)], 0xFFFF, 2, [&[], &[]]);
        check_places(long, &[segment(value)], 0xFFFD, 4, [&[], &[]]);
    }
}

/// From 0x1EFFF over the board's end to 0xF010: the bytes between are past it.
#[test]
fn record_that_begins_and_ends_on_the_board_is_29_by_its_middle() {
    let data = hex_record(0, 0xFFEF, &[0; 18]);
    let mut reading = Reading::under(RuleSet::Two, Board::Long, &[&segment(0x0F01)]);
    assert_eq!(reading.take(data.as_bytes()), (29, 0));
    // 29 goes before 30 at either end
    for (offset, place) in [(0xFFEF, 0x1_EFFF), (0x0000, 0xF010)] {
        let mut reading = reading.clone();
        assert_eq!(reading.record(&hex_record(0, offset, &[0x5A])), 0);
        assert_eq!(reading.named(), [(place, 0x5A)]);
        assert_eq!(reading.take(data.as_bytes()), (29, 0));
    }
    // each end alone is taken
    let ends = [hex_record(0, 0xFFEF, &[1]), hex_record(0, 0, &[2])];
    for end in ends {
        assert_eq!(reading.record(&end), 0);
    }
    assert_eq!(reading.named(), [(0xF010, 2), (0x1_EFFF, 1)]);
}

/// A segment is longer than the board, so that offset 0xFFFF is past its end.
#[test]
fn record_that_wraps_is_29_on_the_short_board() {
    for value in [0, 1, 0x0080, 0x0F00, 0x0F80, 0x1000, 0xF000, 0xFFFF] {
        let bases = [segment(value)];
        for (offset, count) in [(0xFFFF, 2), (0xFFFF, 4), (0xFFFE, 3), (0xFFFD, 4)] {
            check_places(Board::Short, &bases, offset, count, [&[], &[]]);
        }
        // the last of 255 bytes alone wraps
        let longest = hex_record(0, 0xFF02, &[0; 255]);
        for rules in RULE_SETS {
            let mut reading = Reading::under(rules, Board::Short, &texts(&bases));
            assert_eq!(reading.take(longest.as_bytes()), (29, 0));
        }
    }
}

/// Four bytes from offset 0xFFFE under segment base 0x0800, behind a file that
/// names one byte: 30 under set 1, 30 under set 2.
#[test]
fn place_named_before_is_30_before_the_wrap_and_behind_it() {
    let data = hex_record(0, 0xFFFE, &BYTES);
    for (place, by_set) in [
        (0x0000, [0, 0]),
        (0x07FF, [0, 0]),
        (0x0800, [0, 30]),
        (0x0801, [0, 30]),
        (0x0802, [0, 0]),
        (0xFFFE, [0, 0]),
        (0x1_07FD, [0, 0]),
        (0x1_07FE, [30, 30]),
        (0x1_07FF, [30, 30]),
        (0x1_0800, [30, 0]),
        (0x1_0801, [30, 0]),
        (0x1_0802, [0, 0]),
    ] {
        let upper = linear((place >> 16) as u16);
        let named = hex_record(0, place as u16, &[0x5A]);
        let before = [upper, named, linear(0), segment(0x0080)];
        for (rules, number) in RULE_SETS.into_iter().zip(by_set) {
            let mut reading = Reading::under(rules, Board::Long, &texts(&before));
            assert_eq!(reading.take(data.as_bytes()), (number, 0), "{place:X}");
            assert_eq!(reading.image[place as usize], 0x5A);
            let bytes = if number == 0 { 5 } else { 1 };
            assert_eq!(reading.named().len(), bytes, "{rules:?} {place:X}");
        }
    }
}

/// Whether all of it or only a part comes again, from either end.
#[test]
fn record_that_wraps_is_30_again() {
    let data = hex_record(0, 0xFFFE, &BYTES);
    let taken = Reading::under(RuleSet::Two, Board::Long, &[&segment(0x0080), &data]);
    for (offset, count, number) in [
        (0xFFFE, 4, 30),
        (0xFFFE, 1, 30),
        (0xFFFF, 2, 30),
        (0xFFFD, 2, 30),
        (0x0000, 1, 30),
        (0x0001, 1, 30),
        (0x0001, 4, 30),
        (0xFFFD, 1, 0),
        (0x0002, 4, 0),
    ] {
        let mut reading = taken.clone();
        let again = hex_record(0, offset, &BYTES[..count]);
        assert_eq!(reading.take(again.as_bytes()), (number, 0), "{offset:X}");
    }
    // by 04 the low part is the same place
    let mut reading = taken;
    assert_eq!(reading.record(&linear(0)), 0);
    assert_eq!(reading.record(&hex_record(0, 0x0801, &[0])), 30);
    assert_eq!(reading.record(&hex_record(0, 0x0802, &[0])), 0);
}

/// Linear base, segment base, and whether the latest of 02 and 04 was 02.
#[test]
fn bases_are_kept_under_both_sets() {
    for board in Board::ALL {
        for rules in RULE_SETS {
            let mut reading = Reading::under(rules, board, &[]);
            for (record, linear, segment, segmented) in [
                (hex_record(0, 0, &[1]), 0, 0, false),
                (segment(0x0080), 0, 0x0800, true),
                (hex_record(0, 0, &[2]), 0, 0x0800, true),
                (linear(0x0001), 0x1_0000, 0x0800, false),
                (START_RECORDS[1].to_string(), 0x1_0000, 0x0800, false),
                (linear(0xFFFF), 0xFFFF_0000, 0x0800, false),
                (segment(0xFFFF), 0xFFFF_0000, 0xF_FFF0, true),
                (START_RECORDS[4].to_string(), 0xFFFF_0000, 0xF_FFF0, true),
                (hex_record(0, 0xFFFF, &[]), 0xFFFF_0000, 0xF_FFF0, true),
                (segment(0), 0xFFFF_0000, 0, true),
                (linear(0), 0, 0, false),
                (segment(0), 0, 0, true),
                (hex_record(1, 0, &[]), 0, 0, true),
            ] {
                assert_eq!(reading.record(&record), 0, "{record}");
                let reader = reading.reader;
                let bases = (reader.linear, reader.segment, reader.segmented);
                assert_eq!(bases, (linear, segment, segmented), "{record}");
                assert_eq!((reader.board, reader.rules), (board, rules));
            }
            assert_eq!(reading.close(), (0, 0));
        }
    }
}

/// 02 and 04 records that are refused, and the number of the refusal.
fn refused_bases() -> [(String, u8); 12] {
    [
        (String::from("0200000200807C"), 22),
        (String::from(":0200000200807C0"), 23),
        (String::from(":020000020080G7"), 24),
        (String::from(":0300000200807C"), 25),
        (String::from(":0200000200807D"), 26),
        (String::from(":020000040001F8"), 26),
        (hex_record(2, 0, &[0x80]), 28),
        (hex_record(2, 0, &[0, 0x80, 0]), 28),
        (hex_record(2, 1, &[0, 0x80]), 28),
        (hex_record(4, 0, &[1]), 28),
        (hex_record(4, 0, &[0, 1, 0, 0]), 28),
        (hex_record(4, 0x0100, &[0, 1]), 28),
    ]
}

/// Neither its base nor which of the two was the latest.
#[test]
fn refused_02_or_04_changes_nothing() {
    for (bases, set_1, set_2) in [
        (vec![], 0x1_0000, 0x1_0000),
        (vec![linear(0)], 0x1_0000, 0x1_0000),
        (vec![segment(0x0020)], 0x1_0200, 0x0200),
        (vec![linear(0), segment(0x0020)], 0x1_0200, 0x0200),
        (vec![segment(0x0020), linear(0)], 0x1_0200, 0x1_0000),
    ] {
        for (rules, second) in RULE_SETS.into_iter().zip([set_1, set_2]) {
            let stood = Reading::under(rules, Board::Long, &texts(&bases));
            for (record, number) in refused_bases() {
                let mut reading = stood.clone();
                assert_eq!(reading.record(&record), number, "{record}");
                assert_eq!(reading, stood, "{record}");
                assert_eq!(reading.record(&hex_record(0, 0xFFFF, &[1, 2])), 0);
                assert_eq!(reading.image[second], 2, "{rules:?} {record}");
            }
        }
    }
}

#[test]
fn base_after_the_end_changes_nothing() {
    for rules in RULE_SETS {
        for latest in [segment(0x0020), linear(0)] {
            let mut reading = Reading::under(rules, Board::Long, &[&latest, ":00000001FF"]);
            let stood = reading.clone();
            for record in [segment(0x0080), segment(0), linear(1), linear(0)] {
                assert_eq!(reading.take(record.as_bytes()), (21, 0));
                assert_eq!(reading, stood);
            }
        }
    }
}

/// Past the board and at the end of a segment; nothing is changed.
fn check_count_0(board: Board, rules: RuleSet, bases: &[String]) {
    let mut reading = Reading::under(rules, board, &texts(bases));
    let stood = reading.clone();
    for offset in [0, 1, 0xF7FF, 0xF800, 0xFFFE, 0xFFFF] {
        assert_eq!(reading.record(&hex_record(0, offset, &[])), 0);
        assert_eq!(reading, stood);
    }
    assert_eq!(reading.record(":00000001FF"), 0);
    assert_eq!(reading.close(), (32, 0));
}

#[test]
fn record_of_count_0_is_accepted_anywhere_under_both_sets() {
    for bases in [
        vec![],
        vec![segment(0)],
        vec![segment(0xFFFF)],
        vec![linear(1)],
        vec![linear(0xFFFF)],
        vec![segment(0xFFFF), linear(0xFFFF)],
        vec![linear(0xFFFF), segment(0xFFFF)],
    ] {
        for board in Board::ALL {
            for rules in RULE_SETS {
                check_count_0(board, rules, &bases);
            }
        }
    }
}

/// On a named place it is accepted too, and names no more.
#[test]
fn record_of_count_0_on_a_named_place() {
    for board in Board::ALL {
        for rules in RULE_SETS {
            let mut reading = Reading::under(rules, board, &[&segment(0), ":020000001234B8"]);
            let stood = reading.clone();
            assert_eq!(reading.record(":0000000000"), 0);
            assert_eq!(reading.record(":00FFFF0002"), 0);
            assert_eq!(reading, stood);
        }
    }
}

/// Bases that no record sets: sums that pass 2 to the 32nd stay far.
#[test]
fn made_up_bases_under_set_2() {
    for (linear, segment, segmented, offset, places) in [
        (0, 1, true, 0xFFFF, &[0x1_0000, 0x0001][..]),
        (0, 0xF000, true, 0xFFFF, &[0x1_EFFF, 0xF000]),
        (0, 0xF001, true, 0xFFFF, &[]),
        (0, 0x1_EFFE, true, 0, &[0x1_EFFE, 0x1_EFFF]),
        (0, 0x1_EFFF, true, 0, &[]),
        (0, u32::MAX, true, 0, &[]),
        (0, u32::MAX, true, 1, &[]),
        (0, 0xFFFF_0001, true, 0xFFFF, &[]),
        (u32::MAX, 1, true, 0, &[0x0001, 0x0002]),
        (1, 0, false, 0xFFFF, &[0x1_0000, 0x1_0001]),
        (0x1_EFFE, 0, false, 0, &[0x1_EFFE, 0x1_EFFF]),
        (0x1_EFFF, 0, false, 0, &[]),
        (u32::MAX, 0, false, 1, &[]),
        (0xFFFF_0001, 0, false, 0xFFFF, &[]),
        (1, u32::MAX, false, 0, &[0x0001, 0x0002]),
    ] {
        let mut reading = Reading::under(RuleSet::Two, Board::Long, &[]);
        (reading.reader.linear, reading.reader.segment) = (linear, segment);
        reading.reader.segmented = segmented;
        let number = reading.record(&hex_record(0, offset, &BYTES[..2]));
        assert_eq!(number, if places.is_empty() { 29 } else { 0 });
        let mut named: Vec<(usize, u8)> = places.iter().copied().zip(BYTES).collect();
        named.sort_unstable();
        assert_eq!(reading.named(), named, "{linear:X} {segment:X}");
    }
}

/// Set 1 adds both bases, whichever was the latest.
#[test]
fn made_up_bases_under_set_1() {
    for segmented in [false, true] {
        for (linear, segment, offset, places) in [
            (1, 2, 3, &[0x0006, 0x0007][..]),
            (0, 1, 0xFFFF, &[0x1_0000, 0x1_0001]),
            (0xF000, 0xFFFE, 0, &[0x1_EFFE, 0x1_EFFF]),
            (0xF000, 0xFFFF, 0, &[]),
            (u32::MAX, 1, 0, &[]),
            (1, u32::MAX, 0, &[]),
            (u32::MAX, u32::MAX, 2, &[]),
        ] {
            let mut reading = Reading::new(Board::Long);
            (reading.reader.linear, reading.reader.segment) = (linear, segment);
            reading.reader.segmented = segmented;
            let number = reading.record(&hex_record(0, offset, &BYTES[..2]));
            assert_eq!(number, if places.is_empty() { 29 } else { 0 });
            let named: Vec<(usize, u8)> = places.iter().copied().zip(BYTES).collect();
            assert_eq!(reading.named(), named, "{linear:X} {segment:X}");
        }
    }
}

/// What both rule sets leave of records, each with its number on either board.
fn check_alike(board: Board, records: &[(&str, u8)]) {
    let [mut one, mut two] = RULE_SETS.map(|rules| Reading::under(rules, board, &[]));
    for (record, number) in records {
        let (by_one, by_two) = (one.take(record.as_bytes()), two.take(record.as_bytes()));
        assert_eq!((by_one.0, by_two), (*number, by_one), "{record}");
        assert_eq!(one.close(), two.close());
    }
    assert_eq!(two.reader.rules, RuleSet::Two);
    two.reader.rules = RuleSet::One;
    assert!(one == two);
}

/// A record that runs past offset 0xFFFF reads alike as well.
#[test]
fn file_without_02_reads_alike_under_both_sets() {
    for board in Board::ALL {
        let far = |number| if board == Board::Long { number } else { 29 };
        check_alike(
            board,
            &[
                (":020000001234B8", 0),
                (":01F7FF005AAF", 0),
                (":02F7FE00000009", 30),
                (":01F800000007", far(0)),
                (":02FFFF001234BA", far(0)),
                (":02FFFF001234BA", far(30)),
                (":010001000AF4", 30),
                (":00FFFF0002", 0),
                (START_RECORDS[1], 0),
                (&linear(1), 0),
                (":0100000000FF", far(30)),
                (":010001000AF4", far(0)),
                (&hex_record(0, 0xEFFF, &[1, 2]), 29),
                (&hex_record(0, 0xFFFF, &[1, 2]), 29),
                (&linear(0xFFFF), 0),
                (&hex_record(0, 0xFFFF, &[1, 2]), 29),
                (&linear(0), 0),
                (&hex_record(0, 2, &[1, 2]), 0),
                (START_RECORDS[4], 0),
                (":00000001FF", 0),
                (":0000000000", 21),
            ],
        );
        for file in [full_file(board), most_pieces(board)] {
            let records = written(&file);
            let records: Vec<(&str, u8)> = records.iter().map(|text| (&text[..], 0)).collect();
            check_alike(board, &records);
        }
    }
}

/// What a new reader says to each record under either rule set, with the column.
fn check_records(cases: &[(&str, u8, usize)]) {
    for board in Board::ALL {
        for rules in RULE_SETS {
            let new = Reading::under(rules, board, &[]);
            for (record, number, column) in cases {
                let taken = new.clone().take(record.as_bytes());
                assert_eq!(taken, (*number, *column), "{record}");
            }
        }
    }
}

/// Sound start records, among them values that would move data as a base.
const START_RECORDS: [&str; 6] = [
    ":0400000300000000F9",
    ":0400000300010001F7",
    ":04000003FFFFFFFFFD",
    ":0400000500000000F7",
    ":0400000500010001F5",
    ":04000005FFFFFFFFFB",
];

#[test]
fn start_records_have_four_bytes() {
    check_records(&[
        (":00000003FD", 28, 1),
        (":0100000312EA", 28, 1),
        (":020000031234B5", 28, 1),
        (":030000031234565E", 28, 1),
        (":0400000312345678E5", 0, 0),
        (":05000003123456789A4A", 28, 1),
        (":00000005FB", 28, 1),
        (":0100000512E8", 28, 1),
        (":020000051234B3", 28, 1),
        (":030000051234565C", 28, 1),
        (":0400000512345678E3", 0, 0),
        (":05000005123456789A48", 28, 1),
    ]);
}

#[test]
fn start_records_have_address_0() {
    check_records(&[
        (":0400010300000000F8", 28, 3),
        (":0401000300000000F8", 28, 3),
        (":0401010300000000F7", 28, 3),
        (":0400010500000000F6", 28, 3),
        (":0401000500000000F6", 28, 3),
        (":0401010500000000F5", 28, 3),
    ]);
}

#[test]
fn start_records_wrong_in_count_and_address() {
    check_records(&[
        (":020001030000FA", 28, 1),
        (":020100030000FA", 28, 1),
        (":020001050000F8", 28, 1),
        (":020100050000F8", 28, 1),
    ]);
}

#[test]
fn other_records_keep_their_count() {
    check_records(&[
        (":00000001FF", 0, 0),
        (":020000010000FD", 28, 1),
        (":0400000100000000FB", 28, 1),
        (":00000002FE", 28, 1),
        (":0100000200FD", 28, 1),
        (":020000020000FC", 0, 0),
        (":03000002000000FB", 28, 1),
        (":0400000200000000FA", 28, 1),
        (":00000004FC", 28, 1),
        (":0100000400FB", 28, 1),
        (":020000040000FA", 0, 0),
        (":03000004000000F9", 28, 1),
        (":0400000400000000F8", 28, 1),
    ]);
}

#[test]
fn length_and_checksum_of_a_start_record_go_before_its_shape() {
    check_records(&[
        (":040000030000FB", 25, 15),
        (":0200000500000000F9", 25, 19),
        (":020000030000FC", 26, 13),
        (":020000050000FA", 26, 13),
        (":0400010300000000F9", 26, 17),
        (":0400010500000000F7", 26, 17),
        (":0400000300000000FA", 26, 17),
        (":0400000500000000F8", 26, 17),
    ]);
}

#[test]
fn start_record_after_the_end() {
    for board in Board::ALL {
        let mut reading = Reading::of(board, &[":020000001234B8", ":00000001FF"]);
        for record in START_RECORDS {
            assert_eq!(reading.record(record), 21);
        }
        assert_eq!(reading.record(":020000030000FB"), 21);
        assert_eq!(reading.record(":020000050000F9"), 21);
    }
}

#[test]
fn start_record_changes_nothing() {
    let before: [&[&str]; 3] = [
        &[],
        &[":020000001234B8"],
        &[":020000001234B8", ":02000002001FDD", ":020000040001F9"],
    ];
    for board in Board::ALL {
        for records in before {
            let stood = Reading::of(board, records);
            for record in START_RECORDS {
                let mut reading = stood.clone();
                assert_eq!(reading.record(record), 0);
                assert_eq!(reading, stood, "{record}");
            }
        }
    }
}

#[test]
fn start_record_is_no_data() {
    for board in Board::ALL {
        for record in START_RECORDS {
            let mut reading = Reading::of(board, &[record]);
            assert_eq!(reading.close(), (31, 0));
            assert_eq!(reading.record(":00000001FF"), 0);
            assert_eq!(reading.close(), (32, 0));
        }
    }
}

#[test]
fn start_record_is_no_base() {
    for board in Board::ALL {
        for record in START_RECORDS {
            let reading = Reading::of(board, &[record, ":020000001234B8"]);
            assert_eq!(reading.image[..3], [0x12, 0x34, 0xFF]);
            assert_eq!(reading.map[..3], [3, 0, 0]);
            // nor does it clear one
            let reading = Reading::of(board, &[":02000002001FDD", record, ":020010001234A8"]);
            assert_eq!(reading.image[0x200..0x203], [0x12, 0x34, 0xFF]);
            assert_eq!(reading.map[0x40], 3);
            let mut reading = Reading::of(board, &[":020000040002F8", record]);
            assert_eq!(reading.record(":0100000000FF"), 29);
        }
    }
}

#[test]
fn longest_record() {
    let zeros = "0".repeat(510);
    check_records(&[
        (&format!(":FF000000{zeros}01"), 0, 0),
        (&format!(":FF000000{zeros}0001"), 23, 523),
    ]);
}

/// 510 digits between a head and an end; the longest record's are nine
/// characters and two.
fn long_line(head: &str, end: &str) -> String {
    format!("{head}{}{end}", "0".repeat(510))
}

#[test]
fn column_of_22_is_the_place_of_the_colon() {
    check_records(&[
        ("", 22, 0),
        ("0", 22, 0),
        ("\0", 22, 0),
        ("\r", 22, 0),
        ("00000001FF", 22, 0),
        (";00000001FF", 22, 0),
        (" :00000001FF", 22, 0),
        ("0:00000001FF", 22, 0),
        ("G0000000:FF", 22, 0),
        (&long_line("0FF000000", "01"), 22, 0),
        (&"0".repeat(600), 22, 0),
    ]);
}

#[test]
fn column_of_23_is_the_length_of_the_line() {
    check_records(&[
        (":", 23, 1),
        ("::", 23, 2),
        (":0000", 23, 5),
        (":GGGG", 23, 5),
        (":00000001F", 23, 10),
        (":00000001FF0", 23, 12),
        (":00000001FF\r", 23, 12),
        (":0000 0001FF", 23, 12),
        (&long_line(":FF0000000", "01"), 23, 522),
        (&long_line(":FF00000000", "01"), 23, 523),
    ]);
}

#[test]
fn each_wrong_length_is_a_column_of_23() {
    let even = (12..=520).step_by(2);
    for length in (1..=10).chain(even).chain(522..=530).chain([1000, 70_000]) {
        // 24 and 25 come later
        for filling in ["0", "F", "G", ":", "\0"] {
            let line = format!(":{}", filling.repeat(length - 1));
            check_records(&[(&line, 23, length)]);
        }
    }
}

#[test]
fn column_of_24_is_the_first_bad_character() {
    check_records(&[
        (":G0000001FF", 24, 1),
        (":0G000001FF", 24, 2),
        (":00G00001FF", 24, 3),
        (":00000G01FF", 24, 6),
        (":000000G1FF", 24, 7),
        (":0000000GFF", 24, 8),
        (":00000001GF", 24, 9),
        (":00000001FG", 24, 10),
        (": 0000001FF", 24, 1),
        (":00000001F ", 24, 10),
        (":00000001F\r", 24, 10),
    ]);
}

#[test]
fn column_of_24_is_the_first_of_several() {
    check_records(&[
        (":GG000001FF", 24, 1),
        (":0GG00001FF", 24, 2),
        (":0G00000GFF", 24, 2),
        (":G0000001FG", 24, 1),
        (":00000001GG", 24, 9),
        (":GGGGGGGGGG", 24, 1),
        (":000\r0\n01FF", 24, 4),
    ]);
}

#[test]
fn column_of_24_at_a_colon_and_at_a_nul() {
    check_records(&[
        ("::0000001FF", 24, 1),
        (":0000:001FF", 24, 5),
        (":00000001F:", 24, 10),
        ("::00000001FFF", 24, 1),
        (":\x000000001FF", 24, 1),
        (":000\x000001FF", 24, 4),
        (":00000001F\0", 24, 10),
        (":0000\0:01FF", 24, 5),
        (":0000:\x0001FF", 24, 5),
    ]);
}

#[test]
fn column_of_24_before_count_checksum_type_and_shape() {
    check_records(&[
        (":01000001FG", 24, 10),
        (":FG00000001", 24, 2),
        (":000000G6FF", 24, 7),
        (":0000010/FE", 24, 8),
        (&long_line(":FF00000g", "01"), 24, 8),
        (&long_line(":FF000000", "G1"), 24, 519),
        (&long_line(":FF000000", "0G"), 24, 520),
    ]);
}

#[test]
fn each_character_that_is_no_digit_is_a_column_of_24() {
    let mut reading = Reading::new(Board::Short);
    for place in 1..=10 {
        let others = (0..=255u8).filter(|character| !character.is_ascii_hexdigit());
        for character in others {
            let mut line = *b":00000001FF";
            line[place] = character;
            assert_eq!(reading.take(&line), (24, place), "{character:02X}");
        }
    }
}

#[test]
fn column_of_25_is_the_length_of_the_line() {
    check_records(&[
        (":01000000FF", 25, 11),
        (":FF00000001", 25, 11),
        (":02000006FF", 25, 11),
        (":00000001FFFF", 25, 13),
        (":010000001234B8", 25, 15),
        (":030000001234B7", 25, 15),
        (&long_line(":00000000", "00"), 25, 521),
        (&long_line(":FE000000", "02"), 25, 521),
        (&long_line(":FF0000", "01"), 25, 519),
    ]);
}

#[test]
fn column_of_26_is_the_first_digit_of_the_checksum() {
    check_records(&[
        (":00000001FE", 26, 9),
        (":00000001EF", 26, 9),
        (":0100000012EC", 26, 11),
        (":020000001234B9", 26, 13),
        (":020000040108EA", 26, 13),
        (":0200000212FFBD", 26, 13),
        (":0401000090FFAA5502", 26, 17),
        (&long_line(":FF000000", "02"), 26, 519),
    ]);
}

#[test]
fn column_of_26_wherever_the_wrong_digit_stands() {
    check_records(&[
        (":020000001235B8", 26, 13),
        (":020000002234B8", 26, 13),
        (":020100001234B8", 26, 13),
        (":00000000FF", 26, 9),
        (":00000006FF", 26, 9),
        (":00000101FF", 26, 9),
        (":0100000100FF", 26, 11),
    ]);
}

#[test]
fn column_of_27_is_the_first_digit_of_the_type() {
    check_records(&[
        (":00000006FA", 27, 7),
        (":00000010F0", 27, 7),
        (":000000FF01", 27, 7),
        (":000000ff01", 27, 7),
        (":00123406B4", 27, 7),
        (":0100000600F9", 27, 7),
        (":020000061234B2", 27, 7),
        (&long_line(":FF000006", "FB"), 27, 7),
    ]);
}

#[test]
fn column_of_28_is_the_first_digit_of_the_count() {
    check_records(&[
        (":0100000100FE", 28, 1),
        (":0100000200FD", 28, 1),
        (":020000030000FB", 28, 1),
        (":0100000400FB", 28, 1),
        (":00000005FB", 28, 1),
        (&long_line(":FF000001", "00"), 28, 1),
    ]);
}

#[test]
fn column_of_28_is_the_first_digit_of_the_address() {
    check_records(&[
        (":00000101FE", 28, 3),
        (":00001001EF", 28, 3),
        (":00010001FE", 28, 3),
        (":00100001EF", 28, 3),
        (":00FFFF0101", 28, 3),
        (":020001020000FB", 28, 3),
        (":0400010300000000F8", 28, 3),
        (":021000040000EA", 28, 3),
        (":0400010500000000F6", 28, 3),
    ]);
}

#[test]
fn column_of_28_is_that_of_the_count_where_both_are_wrong() {
    check_records(&[
        (":0100010100FD", 28, 1),
        (":00100002EE", 28, 1),
        (":0100010200FC", 28, 1),
        (":020001030000FA", 28, 1),
        (":03000104000000F8", 28, 1),
        (":020001050000F8", 28, 1),
        (&long_line(":FF000101", "FF"), 28, 1),
    ]);
}

#[test]
fn other_refusals_have_column_0() {
    let lines = [
        "",
        ":0000",
        ":0000000GFF",
        ":01000000FF",
        ":00000001FE",
        ":00000006FA",
        ":00000101FE",
        ":00000001FF",
    ];
    let shorten: [fn(&mut Reading) -> Option<u8>; 2] =
        [|reading| reading.image.pop(), |reading| reading.map.pop()];
    for board in Board::ALL {
        for shorten in shorten {
            let mut reading = Reading::new(board);
            shorten(&mut reading);
            let (image, map) = (&mut reading.image, &mut reading.map);
            let started = Reader::start(board, RuleSet::One, image, map);
            assert_eq!(told(started), (20, 0));
            for line in lines {
                assert_eq!(reading.take(line.as_bytes()), (20, 0), "{line}");
            }
        }
        let mut ended = Reading::of(board, &[":00000001FF"]);
        for line in lines {
            assert_eq!(ended.take(line.as_bytes()), (21, 0), "{line}");
        }
        assert_eq!(ended.close(), (32, 0));
        let mut reading = Reading::of(board, &[":020000001234B8"]);
        assert_eq!(reading.take(b":010001000AF4"), (30, 0));
        assert_eq!(reading.record(&linear(2)), 0);
        assert_eq!(reading.take(b":010001000AF4"), (29, 0));
        assert_eq!(reading.close(), (31, 0));
    }
}

/// What the writer gives: the record without its line end, the address and the
/// upper half to go on with.
fn write(reading: &Reading, from: u32, upper: u16) -> (String, u32, u16) {
    let mut buffer = [0xAA; 50];
    let (image, map) = (&reading.image, &reading.map);
    let given = hex::write(reading.board(), image, map, from, upper, &mut buffer).unwrap();
    let (text, rest) = buffer.split_at(given.length);
    assert!(rest.iter().all(|byte| *byte == 0xAA));
    let text = std::str::from_utf8(text).unwrap();
    assert_eq!(text.matches('\n').count(), usize::from(!text.is_empty()));
    let record = text.strip_suffix('\n').unwrap_or_default();
    (record.to_string(), given.next, given.upper)
}

/// A whole file: from address 0 and upper half 0 until nothing is written.
fn written(reading: &Reading) -> Vec<String> {
    let mut records = Vec::new();
    let (mut from, mut upper) = (0, 0);
    loop {
        let (record, next, half) = write(reading, from, upper);
        if record.is_empty() {
            let behind = board_bytes(reading.board()) as u32 + 1;
            assert_eq!((from, next, half), (behind, behind, upper));
            return records;
        }
        records.push(record);
        (from, upper) = (next, half);
    }
}

/// A file of these bytes, each 0x5A.
fn naming(board: Board, places: &[u32]) -> Reading {
    let mut reading = Reading::new(board);
    for place in places {
        let at = *place as usize;
        reading.image[at] = 0x5A;
        reading.map[at / 8] |= 1 << (at % 8);
    }
    reading
}

fn check_reads_back(reading: &Reading) {
    let records = written(reading);
    for rules in RULE_SETS {
        let again = Reading::under(rules, reading.board(), &texts(&records));
        assert!(again.map == reading.map);
        let mut places = (0..reading.image.len()).filter(|at| reading.names(*at));
        assert!(places.all(|at| again.image[at] == reading.image[at]));
        assert_eq!(again.close(), (0, 0));
    }
}

#[test]
fn written_file_reads_back() {
    let zeros = "0".repeat(510);
    let first = format!(":FF000E00{zeros}F3");
    for board in Board::ALL {
        let reading = Reading::of(board, &[&first, ":01F7FF005AAF", ":00000001FF"]);
        let records = written(&reading);
        assert_eq!(records[0], ":02000E000000F0");
        assert_eq!(records.len(), 1 + 15 + 1 + 1 + 1);
        assert_eq!(records[16], ":0D01000000000000000000000000000000F2");
        assert_eq!(records[17], ":01F7FF005AAF");
        assert_eq!(records[18], ":00000001FF");
        assert_eq!(Reading::of(board, &texts(&records)), reading);
    }
}

#[test]
fn files_of_all_kinds_read_back() {
    for board in Board::ALL {
        let last = board.flash_end() - 1;
        for places in [
            &[0][..],
            &[last],
            &[0, last],
            &[0xF7FE, 0xF7FF],
            &[0x0F, 0x10, 0x11, 0x1F, 0x20, last - 1],
        ] {
            check_reads_back(&naming(board, places));
        }
        check_reads_back(&full_file(board));
        check_reads_back(&most_pieces(board));
    }
    for places in [
        &[0xFFFF, 0x1_0000][..],
        &[0xF7FF, 0xF800, 0xFFFE, 0x1_0001],
        &[0x1_0000],
        &[0x1_2345, 0x1_EFFF],
    ] {
        check_reads_back(&naming(Board::Long, places));
    }
}

#[test]
fn writer_refuses_20_then_33() {
    for board in Board::ALL {
        let reading = full_file(board);
        let far = full_file(other(board));
        let refused = |image: &[u8], map: &[u8], from, upper, length: usize| {
            let mut buffer = vec![0xAA; length];
            let refusal = hex::write(board, image, map, from, upper, &mut buffer).unwrap_err();
            assert!(buffer.iter().all(|byte| *byte == 0xAA));
            refusal
        };
        let (image, map) = (&reading.image[..], &reading.map[..]);
        for (from, upper) in [(0, 0), (0, 1), (0x1_0000, 0), (0x1_F000, 0), (u32::MAX, 1)] {
            for (image, map) in [
                (&image[1..], map),
                (image, &map[1..]),
                (&far.image, map),
                (image, &far.map),
                (&far.image, &far.map),
            ] {
                assert_eq!(refused(image, map, from, upper, 43), Refusal::Size);
                assert_eq!(refused(image, map, from, upper, 44), Refusal::Size);
            }
            for length in [0, 12, 16, 43] {
                let refusal = refused(image, map, from, upper, length);
                assert_eq!(refusal, Refusal::RecordBuffer);
            }
        }
    }
}

fn gives(record: &str, next: u32, upper: u16) -> (String, u32, u16) {
    (record.to_string(), next, upper)
}

#[test]
fn upper_half_is_written_where_it_changes() {
    let reading = naming(Board::Long, &[0xFFFE, 0xFFFF, 0x1_0000, 0x1_0001]);
    for (from, upper, given) in [
        (0, 0, gives(":02FFFE005A5A4D", 0x1_0000, 0)),
        (0x1_0000, 0, gives(":020000040001F9", 0x1_0000, 1)),
        (0x1_0000, 1, gives(":020000005A5A4A", 0x1_0002, 1)),
        (0x1_0002, 1, gives(":00000001FF", 0x1_F001, 1)),
        (0x1_F001, 1, gives("", 0x1_F001, 1)),
    ] {
        assert_eq!(write(&reading, from, upper), given);
    }
    let records = written(&reading);
    assert_eq!(records.len(), 4);
    check_reads_back(&reading);
}

/// Not the lowest named one above it.
#[test]
fn upper_half_is_written_with_the_address_kept() {
    let reading = naming(Board::Long, &[0x1_2345]);
    for from in [0, 1, 0x100, 0xFFFF, 0x1_0000, 0x1_2344, 0x1_2345] {
        for upper in [0, 2, 0x0100, 0xFFFF] {
            let given = gives(":020000040001F9", from, 1);
            assert_eq!(write(&reading, from, upper), given);
        }
        let given = gives(":012345005A3D", 0x1_2346, 1);
        assert_eq!(write(&reading, from, 1), given);
    }
}

#[test]
fn upper_half_goes_back_to_0_too() {
    for board in Board::ALL {
        let reading = naming(board, &[0x1234, 0xF7FF]);
        for upper in [1, 2, 0x0100, 0xFFFF] {
            for from in [0, 0x1234, 0x1235, 0xF7FF] {
                let given = gives(":020000040000FA", from, 0);
                assert_eq!(write(&reading, from, upper), given);
            }
        }
        assert_eq!(write(&reading, 0, 0), gives(":011234005A5F", 0x1235, 0));
        assert_eq!(
            write(&reading, 0x1235, 0),
            gives(":01F7FF005AAF", 0xF800, 0)
        );
    }
}

/// No data record follows, so that the upper half does not matter.
#[test]
fn no_upper_half_is_written_before_the_end_record() {
    for (board, end) in [(Board::Short, 0xF800), (Board::Long, 0x1_F000)] {
        let reading = naming(board, &[0x1234]);
        for upper in [0, 1, 2, 0xFFFF] {
            for from in [0x1235, 0xF7FF, end - 1, end] {
                let given = gives(":00000001FF", end + 1, upper);
                assert_eq!(write(&reading, from, upper), given);
            }
            for from in [end + 1, end + 2, 0x2_0000, u32::MAX] {
                assert_eq!(write(&reading, from, upper), gives("", from, upper));
            }
            let empty = Reading::new(board);
            let given = gives(":00000001FF", end + 1, upper);
            assert_eq!(write(&empty, 0, upper), given);
        }
    }
}

#[test]
fn written_file_of_a_full_board() {
    let records = written(&full_file(Board::Short));
    assert_eq!(records.len(), 3_968 + 1);
    assert!(records.iter().all(|record| record[7..9] != *"04"));
    let records = written(&full_file(Board::Long));
    assert_eq!(records.len(), 4_096 + 1 + 3_840 + 1);
    let zeros = "0".repeat(32);
    assert_eq!(records[4_095], format!(":10FFF000{zeros}01"));
    assert_eq!(records[4_096], ":020000040001F9");
    assert_eq!(records[4_097], format!(":10000000{zeros}F0"));
    assert_eq!(records[7_936], format!(":10EFF000{zeros}11"));
    assert_eq!(records[7_937], ":00000001FF");
}

const ACK: Event = Event::Answer(&[0x06]);

const RUNS: [Run; 3] = [Run::Reset, Run::Jump, Run::Hold];

/// Events that end a session wherever it waits for the answer to a packet.
const UNEXPECTED: [(Event, Outcome); 8] = [
    (Event::Silence, Outcome::Silent),
    (Event::Answer(&[0x07]), Outcome::Refused),
    (Event::Answer(&[]), Outcome::WrongAnswer),
    (Event::Answer(&[0x06, 0x06]), Outcome::WrongAnswer),
    (Event::Answer(&[0x07, 0x07]), Outcome::WrongAnswer),
    (Event::Answer(&[0x08]), Outcome::WrongAnswer),
    (Event::Answer(Board::Short.greeting()), Outcome::WrongAnswer),
    (Event::Answer(Board::Long.greeting()), Outcome::WrongAnswer),
];

/// These files on each board.
fn files<const N: usize>(made: [fn(Board) -> Reading; N]) -> impl Iterator<Item = Reading> {
    let boards = Board::ALL.into_iter();
    boards.flat_map(move |board| made.map(|made| made(board)))
}

fn plan_file(board: Board) -> Reading {
    Reading::of(board, &[":020200001234B6", ":00000001FF"])
}

fn greeted(reading: &Reading, run: Run) -> Session {
    let session = reading.session(run);
    let mut greeting = *reading.board().greeting();
    greeting[15..22].fill(0);
    reading.step(session, Event::Answer(&greeting)).unwrap().0
}

#[test]
fn full_file_is_one_erase() {
    for (board, pieces, named, pages) in [
        (Board::Short, 254, 63_488, 124),
        (Board::Long, 508, 126_976, 248),
    ] {
        let reading = full_file(board);
        let session = reading.session(Run::Reset);
        assert_eq!((session.total, session.named), (1 + 2 * pieces + 1, named));
        let greeting = Event::Answer(board.greeting());
        let (_, erase) = reading.step(session, greeting).unwrap();
        assert_eq!(erase, built(Command::Erase, 0, &[pages]));
    }
}

#[test]
fn file_with_the_most_packets() {
    for (board, pieces) in [(Board::Short, 31_744), (Board::Long, 63_488)] {
        let reading = most_pieces(board);
        for (run, total) in [
            (Run::Reset, 1 + 2 * pieces + 1),
            (Run::Jump, 1 + 2 * pieces + 1),
            (Run::Hold, 1 + 2 * pieces),
        ] {
            let session = reading.session(run);
            assert_eq!((session.total, session.named), (total, pieces));
        }
    }
}

#[test]
fn start_refusals() {
    for board in Board::ALL {
        let (reading, far) = (Reading::new(board), Reading::new(other(board)));
        let start = |image: &[u8], map: &[u8], length: usize| {
            let mut packet = vec![0xAA; length];
            let refusal = Session::start(board, Run::Reset, image, map, &mut packet).unwrap_err();
            assert!(packet.iter().all(|byte| *byte == 0xAA));
            refusal
        };
        for (image, map) in [
            (&reading.image[1..], &reading.map[..]),
            (&reading.image, &reading.map[1..]),
            (&far.image, &reading.map),
            (&reading.image, &far.map),
            (&far.image, &far.map),
        ] {
            assert_eq!(start(image, map, 259), Refusal::Size);
        }
        assert_eq!(start(&reading.image, &reading.map, 258), Refusal::Size);
        assert_eq!(start(&reading.image, &reading.map, 259), Refusal::NoData);
    }
}

#[test]
fn greeting_is_exact_where_the_paper_says() {
    for board in Board::ALL {
        let reading = plan_file(board);
        let session = reading.session(Run::Reset);
        for place in 0..24 {
            let mut greeting = *board.greeting();
            greeting[place] ^= 1;
            let (next, _) = reading.step(session, Event::Answer(&greeting)).unwrap();
            let free = (15..22).contains(&place);
            let expected = match free {
                true => Phase::Erase(Page(1)),
                false => Phase::Ended(Outcome::WrongGreeting),
            };
            assert_eq!(next.phase, expected);
        }
        for answer in [&[][..], &[0x06], &board.greeting()[..23], &[0; 25]] {
            let phase = reading.ending(session, Event::Answer(answer));
            assert_eq!(phase, Phase::Ended(Outcome::WrongGreeting));
        }
    }
}

#[test]
fn greeting_of_the_other_board_ends_with_42() {
    for board in Board::ALL {
        let reading = plan_file(board);
        for run in RUNS {
            let start = reading.session(run);
            let mut greeting = *other(board).greeting();
            // whatever stands in the bytes that are free
            for free in [None, Some(0x00), Some(0x20)] {
                if let Some(free) = free {
                    greeting[15..22].fill(free);
                }
                let ended = Session {
                    phase: Phase::Ended(Outcome::WrongGreeting),
                    ..start
                };
                let stepped = reading.step(start, Event::Answer(&greeting));
                assert_eq!(stepped, Ok((ended, vec![])));
            }
        }
    }
}

#[test]
fn endings_while_packets_are_sent() {
    for reading in files([plan_file]) {
        for run in RUNS {
            let session = greeted(&reading, run);
            for (event, outcome) in UNEXPECTED {
                assert_eq!(reading.ending(session, event), Phase::Ended(outcome));
            }
        }
    }
}

fn check_end_after_r(reading: &Reading, run: Run, address: u32) {
    let mut session = greeted(reading, run);
    let mut last = Vec::new();
    for _ in 0..3 {
        assert_eq!(reading.mark(session, 0x200), Ok(false));
        (session, last) = reading.step(session, ACK).unwrap();
    }
    assert_eq!(last, built(Command::Run, address, &[]));
    assert_eq!(reading.mark(session, 0x201), Ok(true));
    assert_eq!(reading.mark(session, 0x202), Ok(false));
    assert_eq!(reading.ending(session, ACK), Phase::Ended(Outcome::Valid));
    for (event, outcome) in UNEXPECTED {
        assert_eq!(reading.ending(session, event), Phase::Ended(outcome));
    }
}

#[test]
fn reset_and_jump_end_valid_after_r() {
    for reading in files([plan_file]) {
        check_end_after_r(&reading, Run::Reset, 1);
        check_end_after_r(&reading, Run::Jump, 0);
    }
}

#[test]
fn hold_is_the_default() {
    assert_eq!(Run::default(), Run::Hold);
    for reading in files([plan_file]) {
        let total = |run| reading.session(run).total;
        assert_eq!(total(Run::default()), 3);
        assert_eq!([Run::Reset, Run::Jump].map(total), [4, 4]);
    }
}

/// What is written at the greeting and at each ACK; nothing at the end.
fn packets(reading: &Reading, run: Run) -> Vec<Vec<u8>> {
    let greeting = Event::Answer(reading.board().greeting());
    let (mut session, first) = reading.step(reading.session(run), greeting).unwrap();
    let mut packets = vec![first];
    while is_open(&session) {
        let (next, packet) = reading.step(session, ACK).unwrap();
        packets.push(packet);
        session = next;
    }
    packets
}

#[test]
fn packets_of_the_plan_under_each_run_kind() {
    let loading = [
        "070E06450000020001B2",
        "070E07570000020012345A",
        "070E07560000020090A170",
    ];
    for (run, r) in [
        (Run::Reset, Some("070E055200000001A8")),
        (Run::Jump, Some("070E055200000000A9")),
        (Run::Hold, None),
    ] {
        for reading in files([plan_file]) {
            let sent = packets(&reading, run);
            let digits: Vec<String> = sent.iter().map(|sent| listing::hex_digits(sent)).collect();
            let expected: Vec<&str> = loading.into_iter().chain(r).chain([""]).collect();
            assert_eq!(digits, expected);
        }
    }
}

#[test]
fn hold_session_is_e_and_2w_packets() {
    for reading in files([three_pieces]) {
        assert_eq!(reading.session(Run::Hold).total, 2 + 2 * 3);
        let (low, high) = runs_of(reading.board());
        let expected = [
            built(Command::Erase, low - 0x1FF, &[2]),
            built(Command::Erase, high, &[1]),
            built(Command::Write, low, &[0; 250]),
            built(Command::Write, low + 250, &[0; 5]),
            built(Command::Write, high, &[0]),
            built(Command::Verify, low, &[0; 250]),
            built(Command::Verify, low + 250, &[0; 5]),
            built(Command::Verify, high, &[0]),
            vec![],
        ];
        assert_eq!(packets(&reading, Run::Hold), expected);
    }
}

#[test]
fn hold_session_of_the_full_file() {
    for (board, pieces) in [(Board::Short, 254), (Board::Long, 508)] {
        let reading = full_file(board);
        let mut sent = packets(&reading, Run::Hold);
        assert_eq!(sent.len(), 1 + 2 * pieces + 1);
        assert_eq!(sent.pop(), Some(vec![]));
        let commands: Vec<u8> = sent.iter().map(|packet| packet[3]).collect();
        let (writes, verifies) = (vec![b'W'; pieces], vec![b'V'; pieces]);
        assert_eq!(commands, [vec![b'E'], writes, verifies].concat());
    }
}

/// A run that goes over 64 KiB is cut from its own start.
#[test]
fn pieces_of_the_full_long_file() {
    let sent = packets(&full_file(Board::Long), Run::Hold);
    for (index, packet) in sent[1..=508].iter().enumerate() {
        let start = index * 250;
        let data = vec![0; 250.min(126_976 - start)];
        assert_eq!(*packet, built(Command::Write, start as u32, &data));
    }
    assert_eq!(sent[508].len(), 9 + 226);
}

#[test]
fn hold_session_ends_with_the_last_v() {
    for reading in files([plan_file, three_pieces, full_file]) {
        let states = whole_session(&reading, Run::Hold);
        let [.., last, end] = states[..] else {
            panic!("a session has several states");
        };
        assert!(matches!(last.phase, Phase::Verify(_)));
        assert_eq!(last.acknowledged, last.total - 1);
        let held = Session {
            phase: Phase::Ended(Outcome::Held),
            acknowledged: last.total,
            ..last
        };
        assert_eq!(end, held);
        for (event, outcome) in UNEXPECTED {
            let ended = Session {
                phase: Phase::Ended(outcome),
                ..last
            };
            assert_eq!(reading.step(last, event), Ok((ended, vec![])));
        }
    }
}

#[test]
fn step_refuses_20_then_44() {
    for board in Board::ALL {
        let (reading, far) = (plan_file(board), plan_file(other(board)));
        let session = greeted(&reading, Run::Reset);
        let ended = Session {
            phase: Phase::Ended(Outcome::Valid),
            ..session
        };
        for session in [session, ended] {
            let mut short = [0; 258];
            let refusal = session.step(ACK, &reading.image, &reading.map, &mut short);
            assert_eq!(refusal, Err(Refusal::Size));
            for (image, map) in [
                (&far.image, &reading.map),
                (&reading.image, &far.map),
                (&far.image, &far.map),
            ] {
                let refusal = session.step(ACK, image, map, &mut [0; 259]);
                assert_eq!(refusal, Err(Refusal::Size));
            }
        }
        assert_eq!(reading.step(ended, ACK), Err(44));
    }
}

#[test]
fn step_refuses_a_session_of_another_file() {
    for reading in files([plan_file]) {
        let session = greeted(&reading, Run::Reset);
        let made_up = |change: fn(&mut Session)| {
            let mut session = session;
            change(&mut session);
            reading.step(session, ACK).map(|_| ())
        };
        assert_eq!(made_up(|s| s.total = 5), Err(46));
        assert_eq!(made_up(|s| s.named = 3), Err(46));
        assert_eq!(made_up(|s| s.acknowledged = 4), Err(46));
        assert_eq!(made_up(|s| s.acknowledged = u32::MAX), Err(46));
        assert_eq!(made_up(|s| s.acknowledged = 1), Err(46));
        for page in [0, 2, 129, u32::MAX] {
            let session = Session {
                phase: Phase::Erase(Page(page)),
                ..session
            };
            assert_eq!(reading.step(session, ACK), Err(46));
        }
        let wrong_greeting = |s: &mut Session| (s.phase, s.acknowledged) = (Phase::Greeting, 1);
        assert_eq!(made_up(wrong_greeting), Err(46));
        let empty = Session {
            total: 1,
            named: 0,
            ..session
        };
        assert_eq!(Reading::new(reading.board()).step(empty, ACK), Err(46));
    }
}

#[test]
fn step_refuses_a_place_that_no_acknowledgements_lead_to() {
    for reading in files([plan_file]) {
        let session = greeted(&reading, Run::Reset);
        let at = |phase: fn(ByteAddress) -> Phase, start, acknowledged| {
            let session = Session {
                phase: phase(ByteAddress(start)),
                acknowledged,
                ..session
            };
            reading.step(session, ACK).map(|_| ())
        };
        assert_eq!(at(Phase::Write, 0x200, 1), Ok(()));
        assert_eq!(at(Phase::Write, 0x200, 2), Err(46));
        assert_eq!(at(Phase::Write, 0x201, 1), Err(46));
        assert_eq!(at(Phase::Write, 0x1_0200, 1), Err(46));
        assert_eq!(at(Phase::Verify, 0x200, 2), Ok(()));
        assert_eq!(at(Phase::Verify, 0x200, 1), Err(46));
        assert_eq!(at(|_| Phase::Run, 0, 3), Ok(()));
        assert_eq!(at(|_| Phase::Run, 0, 2), Err(46));
    }
}

/// Where `three_pieces` has its two runs; the first begins with the last byte
/// of a page. On the long board it goes over 64 KiB.
fn runs_of(board: Board) -> (u32, u32) {
    match board {
        Board::Short => (0x1FF, 0xF000),
        Board::Long => (0xFFFF, 0x1_EE00),
    }
}

/// Two runs of pages and three pieces: 250 bytes from the first run on, 5 behind
/// them and one in the second run.
fn three_pieces(board: Board) -> Reading {
    let (low, high) = runs_of(board);
    let [upper, lower] = [high / 0x1_0000, high % 0x1_0000].map(|half| half as u16);
    let first = hex_record(0, low as u16, &[0; 255]);
    Reading::of(
        board,
        &[&first, &linear(upper), &hex_record(0, lower, &[0])],
    )
}

/// Bytes around these pieces, each with the number of the V that holds it: the
/// packets are two E, three W, the V numbers 6 to 8, and R if asked for.
fn held_by(board: Board) -> [(u32, Option<u32>); 12] {
    let (low, high) = runs_of(board);
    [
        (0, None),
        (low - 1, None),
        (low, Some(6)),
        (low + 249, Some(6)),
        (low + 250, Some(7)),
        (low + 254, Some(7)),
        (low + 255, None),
        (high - 1, None),
        (high, Some(8)),
        (high + 1, None),
        (board.flash_end(), None),
        (u32::MAX, None),
    ]
}

/// The file of this map, all its bytes 0.
fn mapped(board: Board, map: u8) -> Reading {
    Reading {
        image: vec![0x00; board.flash_bytes()],
        map: vec![map; board.map_bytes()],
        ..Reading::new(board)
    }
}

fn full_file(board: Board) -> Reading {
    mapped(board, 0xFF)
}

/// Every second byte, so that no file has more pieces.
fn most_pieces(board: Board) -> Reading {
    mapped(board, 0x55)
}

/// The start and every state that expected answers lead to, the end last.
fn whole_session(reading: &Reading, run: Run) -> Vec<Session> {
    let mut states = vec![reading.session(run), greeted(reading, run)];
    while let Some(last) = states.last().copied() {
        match last.phase {
            Phase::Ended(_) => break,
            _ => states.push(reading.step(last, ACK).unwrap().0),
        }
    }
    states
}

/// How a whole session of each kind ends.
fn asked_end(run: Run) -> Outcome {
    match run {
        Run::Reset | Run::Jump => Outcome::Valid,
        Run::Hold => Outcome::Held,
    }
}

/// The last state of a file's whole session.
fn whole_end(reading: &Reading, run: Run) -> Session {
    let end = whole_session(reading, run).pop().unwrap();
    assert_eq!(end.phase, Phase::Ended(asked_end(run)));
    end
}

fn is_open(session: &Session) -> bool {
    !matches!(session.phase, Phase::Ended(_))
}

#[test]
fn session_keeps_its_board() {
    for reading in files([plan_file, three_pieces]) {
        for session in RUNS.into_iter().flat_map(|run| states(&reading, run)) {
            assert_eq!(session.board, reading.board());
        }
    }
}

fn check_marks(reading: &Reading, session: Session) {
    for (address, held_by) in held_by(reading.board()) {
        let proved = held_by.is_some_and(|number| number <= session.acknowledged);
        assert_eq!(reading.mark(session, address), Ok(proved), "{session:?}");
    }
}

fn check_marks_of_states(reading: &Reading, run: Run, packets: usize) {
    let states = whole_session(reading, run);
    assert_eq!(states.len(), 1 + packets + 1);
    for state in &states {
        check_marks(reading, *state);
    }
    for state in states.into_iter().filter(is_open) {
        for event in [Event::Silence, Event::Answer(&[7]), Event::Answer(&[])] {
            let (ended, _) = reading.step(state, event).unwrap();
            assert!(!is_open(&ended));
            check_marks(reading, ended);
        }
    }
}

#[test]
fn marks_stand_in_every_state_and_after_every_ending() {
    for reading in files([three_pieces]) {
        for (run, packets) in [(Run::Reset, 9), (Run::Jump, 9), (Run::Hold, 8)] {
            check_marks_of_states(&reading, run, packets);
        }
    }
}

#[test]
fn marks_are_refused_over_a_foreign_map() {
    for board in Board::ALL {
        let (large, small) = (full_file(board), plan_file(board));
        let (last, behind) = (board.flash_end() - 1, board.flash_end());
        for run in RUNS {
            let ended = whole_end(&large, run);
            for address in [0x200, 0x201, 0, behind] {
                assert_eq!(small.mark(ended, address), Err(46));
            }
            assert_eq!(large.mark(ended, last), Ok(true));
            assert_eq!(large.mark(ended, behind), Ok(false));
            for state in whole_session(&small, run) {
                assert_eq!(large.mark(state, 0x200), Err(46));
                assert_eq!(three_pieces(board).mark(state, 0x200), Err(46));
            }
        }
    }
}

/// What an empty file would lead to if a start did not refuse it: R alone, or
/// no packet at all.
fn sessions_over_nothing(board: Board) -> Vec<Session> {
    let over_nothing = |(run, phase, total, acknowledged)| Session {
        board,
        run,
        phase,
        acknowledged,
        total,
        named: 0,
    };
    [
        (Run::Reset, Phase::Greeting, 1, 0),
        (Run::Reset, Phase::Run, 1, 0),
        (Run::Reset, Phase::Ended(Outcome::Valid), 1, 1),
        (Run::Reset, Phase::Ended(Outcome::Silent), 1, 0),
        (Run::Reset, Phase::Ended(Outcome::WrongGreeting), 1, 0),
        (Run::Hold, Phase::Greeting, 0, 0),
        (Run::Hold, Phase::Ended(Outcome::Held), 0, 0),
        (Run::Hold, Phase::Ended(Outcome::Silent), 0, 0),
        (Run::Hold, Phase::Ended(Outcome::WrongGreeting), 0, 0),
    ]
    .map(over_nothing)
    .to_vec()
}

#[test]
fn marks_are_refused_20_then_46() {
    for board in Board::ALL {
        let (reading, empty) = (plan_file(board), Reading::new(board));
        let far = plan_file(other(board));
        let mut longer = reading.map.clone();
        longer.push(0);
        let own = RUNS
            .into_iter()
            .flat_map(|run| whole_session(&reading, run));
        for session in own.chain(sessions_over_nothing(board)) {
            let shorter = [&[], &reading.map[1..], &empty.map[1..]];
            for wrong in shorter.into_iter().chain([&longer[..], &far.map]) {
                assert_eq!(session.proved(wrong, 0x200), Err(Refusal::Size));
            }
            assert_eq!(empty.mark(session, 0x200), Err(46));
        }
        for session in sessions_over_nothing(board) {
            assert_eq!(reading.mark(session, 0x200), Err(46));
        }
        for session in sessions_over_nothing(board).into_iter().filter(is_open) {
            assert_eq!(empty.step(session, ACK), Err(46));
        }
    }
}

/// The ends that events bring to a session, and those that none does.
fn check_ends(reading: &Reading, run: Run) {
    let start = reading.session(run);
    let total = start.total;
    let counts = (0..12).chain(total - 2..total + 2).chain([u32::MAX]);
    for acknowledged in counts {
        let all = acknowledged == total;
        for (outcome, comes) in [
            (Outcome::Valid, all && run != Run::Hold),
            (Outcome::Held, all && run == Run::Hold),
            (Outcome::Silent, acknowledged < total),
            (Outcome::Refused, acknowledged < total),
            (Outcome::WrongGreeting, acknowledged == 0),
            (Outcome::WrongAnswer, acknowledged < total),
        ] {
            let ended = Session {
                phase: Phase::Ended(outcome),
                acknowledged,
                ..start
            };
            let told = reading.mark(ended, 0).map(|_| ());
            assert_eq!(told, if comes { Ok(()) } else { Err(46) }, "{ended:?}");
        }
    }
}

#[test]
fn marks_are_refused_of_an_end_that_no_event_brings() {
    for reading in files([plan_file, three_pieces, full_file, most_pieces]) {
        for run in RUNS {
            check_ends(&reading, run);
        }
    }
}

/// A whole session, and what a silence makes of each of its open states.
fn states(reading: &Reading, run: Run) -> Vec<Session> {
    let mut states = whole_session(reading, run);
    let open = states.clone().into_iter().filter(is_open);
    states.extend(open.map(|state| reading.step(state, Event::Silence).unwrap().0));
    states
}

#[test]
fn marks_are_refused_where_a_count_is_not_the_files() {
    let changes: [fn(&mut Session); 6] = [
        |s| s.total += 1,
        |s| s.total -= 1,
        |s| s.total = u32::MAX,
        |s| s.named += 1,
        |s| s.named -= 1,
        |s| s.named = u32::MAX,
    ];
    for reading in files([three_pieces]) {
        for state in RUNS.into_iter().flat_map(|run| states(&reading, run)) {
            for change in changes {
                let mut made_up = state;
                change(&mut made_up);
                assert_eq!(reading.mark(made_up, 0x1FF), Err(46), "{made_up:?}");
            }
        }
    }
}

/// The file of the other board has other sizes.
#[test]
fn sessions_changed_to_the_other_board_are_refused() {
    for board in Board::ALL {
        let (reading, far) = (plan_file(board), plan_file(other(board)));
        for state in RUNS.into_iter().flat_map(|run| states(&reading, run)) {
            let changed = Session {
                board: other(board),
                ..state
            };
            assert_eq!(reading.mark(changed, 0x200), Err(20));
            assert_eq!(reading.step(changed, ACK), Err(20));
            // over a file with the same map both go on alike
            assert_eq!(far.mark(changed, 0x200), reading.mark(state, 0x200));
        }
    }
}

#[test]
fn sessions_changed_to_or_from_hold_are_refused() {
    for reading in files([plan_file, three_pieces]) {
        for (run, other) in [
            (Run::Reset, Run::Hold),
            (Run::Jump, Run::Hold),
            (Run::Hold, Run::Reset),
            (Run::Hold, Run::Jump),
        ] {
            for state in states(&reading, run) {
                let changed = Session {
                    run: other,
                    ..state
                };
                assert_eq!(reading.mark(changed, 0x200), Err(46), "{changed:?}");
                let number = if is_open(&state) { 46 } else { 44 };
                assert_eq!(reading.step(changed, ACK), Err(number), "{changed:?}");
            }
        }
    }
}

#[test]
fn hold_session_never_waits_for_the_answer_to_r() {
    for reading in files([plan_file]) {
        for (acknowledged, total) in [(2, 3), (3, 3), (3, 4), (4, 4)] {
            let session = Session {
                phase: Phase::Run,
                acknowledged,
                total,
                ..reading.session(Run::Hold)
            };
            for event in [ACK, Event::Silence] {
                assert_eq!(reading.step(session, event), Err(46));
            }
            assert_eq!(reading.mark(session, 0x200), Err(46));
            assert_eq!(log::write(&session, &mut [0; 16]), Err(Refusal::NoLog));
        }
    }
}

/// Hold that ended 0, or reset or jump that ended 1, all acknowledged.
#[test]
fn an_end_that_is_another_run_kinds_is_none() {
    for reading in files([plan_file, three_pieces]) {
        for (run, other) in [
            (Run::Reset, Outcome::Held),
            (Run::Jump, Outcome::Held),
            (Run::Hold, Outcome::Valid),
        ] {
            let end = whole_end(&reading, run);
            assert_eq!(end.outcome(), Some(asked_end(run)));
            let mixed = Session {
                phase: Phase::Ended(other),
                ..end
            };
            assert_eq!(mixed.outcome(), None);
            assert_eq!(reading.mark(mixed, 0x200), Err(46));
            for event in [ACK, Event::Silence] {
                assert_eq!(reading.step(mixed, event), Err(44));
            }
            let mut buffer = [0xAA; 16];
            assert_eq!(log::write(&mixed, &mut buffer), Err(Refusal::NoLog));
            assert_eq!(buffer, [0xAA; 16]);
        }
    }
}

/// The packets of `three_pieces`, each with how many go before it; the last is
/// not sent by hold.
fn sent(board: Board) -> [(Phase, u32); 9] {
    let (low, high) = runs_of(board);
    let [first, second, third] = [low, low + 250, high].map(ByteAddress);
    [
        (Phase::Erase(Page(low / 512)), 0),
        (Phase::Erase(Page(high / 512)), 1),
        (Phase::Write(first), 2),
        (Phase::Write(second), 3),
        (Phase::Write(third), 4),
        (Phase::Verify(first), 5),
        (Phase::Verify(second), 6),
        (Phase::Verify(third), 7),
        (Phase::Run, 8),
    ]
}

/// Open phases of all kinds, among them pages and addresses past the last.
fn open_phases(board: Board) -> Vec<Phase> {
    let mut phases = vec![Phase::Greeting, Phase::Run];
    let pages = (0..260).chain([u32::MAX]);
    phases.extend(pages.map(|page| Phase::Erase(Page(page))));
    let (low, high) = runs_of(board);
    let near = [low, low + 250, high].map(|start| start - 1..start + 2);
    let places = near.into_iter().flatten();
    let others = [0, low + 249, low + 255, 0xF800, 0x1_F000, u32::MAX];
    for place in places.chain(others) {
        phases.push(Phase::Write(ByteAddress(place)));
        phases.push(Phase::Verify(ByteAddress(place)));
    }
    phases
}

fn check_open_phases(reading: &Reading, run: Run, sent: &[(Phase, u32)]) {
    let start = reading.session(run);
    for phase in open_phases(reading.board()) {
        for acknowledged in (0..11).chain([u32::MAX]) {
            let session = Session {
                phase,
                acknowledged,
                ..start
            };
            let comes = session == start || sent.contains(&(phase, acknowledged));
            let expected = if comes { Ok(()) } else { Err(46) };
            assert_eq!(reading.mark(session, 0).map(|_| ()), expected);
            assert_eq!(reading.step(session, ACK).map(|_| ()), expected);
        }
    }
}

#[test]
fn marks_are_refused_of_open_sessions_where_steps_are() {
    for reading in files([three_pieces]) {
        let sent = sent(reading.board());
        check_open_phases(&reading, Run::Jump, &sent);
        check_open_phases(&reading, Run::Hold, &sent[..8]);
    }
}

/// A record holds counts and no bytes: what another file with the same counts
/// would have led to as well cannot be refused, and its map then decides.
#[test]
fn files_with_equal_counts_are_not_told_apart() {
    for reading in files([plan_file]) {
        let other = Reading::of(reading.board(), &[":020400001234B4", ":00000001FF"]);
        for run in RUNS {
            let ended = whole_end(&reading, run);
            assert_eq!(ended, whole_end(&other, run));
            assert_eq!(reading.mark(ended, 0x200), Ok(true));
            assert_eq!(other.mark(ended, 0x400), Ok(true));
            assert_eq!(other.mark(ended, 0x200), Ok(false));
            // the place of a packet tells them apart
            let sent = whole_session(&reading, run);
            for state in &sent[1..4] {
                assert_eq!(other.mark(*state, 0x400), Err(46));
            }
        }
    }
}

fn check_verdict(reading: &Reading, run: Run, total: u32) {
    let mut session = greeted(reading, run);
    assert_eq!(session.total, total);
    assert_eq!(session.named, 256);
    let mut events = 1;
    while is_open(&session) {
        (session, _) = reading.step(session, ACK).unwrap();
        events += 1;
    }
    assert_eq!(session.phase, Phase::Ended(asked_end(run)));
    assert_eq!(events, total + 1);
}

#[test]
fn verdict_comes_within_the_packets_and_one_event() {
    for reading in files([three_pieces]) {
        check_verdict(&reading, Run::Reset, 2 + 2 * 3 + 1);
        check_verdict(&reading, Run::Jump, 2 + 2 * 3 + 1);
        check_verdict(&reading, Run::Hold, 2 + 2 * 3);
    }
}

/// The record of these fields in the version of a board.
fn log_record(board: Board, outcome: u8, counts: [u32; 3]) -> Vec<u8> {
    match board {
        Board::Short => {
            let counts = counts.map(|count| u16::try_from(count).unwrap().to_be_bytes());
            [&[0, 8, 1, outcome][..], &counts.concat()].concat()
        }
        Board::Long => {
            let counts = counts.map(u32::to_be_bytes);
            [&[0, 0x0E, 2, outcome][..], &counts.concat()].concat()
        }
    }
}

#[test]
fn made_log_records() {
    let made = |board| log_record(board, 41, [1, 0x0304, 2]);
    assert_eq!(made(Board::Short), [0, 8, 1, 41, 0, 1, 3, 4, 0, 2]);
    let long = [0, 14, 2, 41, 0, 0, 0, 1, 0, 0, 3, 4, 0, 0, 0, 2];
    assert_eq!(made(Board::Long), long);
}

/// The size of a log record.
fn log_bytes(board: Board) -> usize {
    match board {
        Board::Short => 10,
        Board::Long => 16,
    }
}

/// A session of two bytes that ended as asked by reset.
fn valid(board: Board) -> Session {
    Session {
        board,
        run: Run::Reset,
        phase: Phase::Ended(Outcome::Valid),
        acknowledged: 4,
        total: 4,
        named: 2,
    }
}

#[test]
fn log_of_the_plan() {
    let mut buffer = [0xAA; 11];
    assert_eq!(log::write(&valid(Board::Short), &mut buffer), Ok(10));
    assert_eq!(buffer, [0, 8, 1, 0, 0, 4, 0, 4, 0, 2, 0xAA]);
    let mut buffer = [0xAA; 17];
    assert_eq!(log::write(&valid(Board::Long), &mut buffer), Ok(16));
    let record = [0, 14, 2, 0, 0, 0, 0, 4, 0, 0, 0, 4, 0, 0, 0, 2, 0xAA];
    assert_eq!(buffer, record);
    assert_eq!(
        whole_end(&plan_file(Board::Long), Run::Reset),
        valid(Board::Long)
    );
}

/// What comes of a session with a change, into a buffer that is too short.
fn log_refused(board: Board, change: fn(&mut Session)) -> Refusal {
    let mut session = valid(board);
    change(&mut session);
    let mut refusals = (0..log_bytes(board)).map(|length| {
        let mut buffer = vec![0xAA; length];
        let refusal = log::write(&session, &mut buffer).unwrap_err();
        assert!(buffer.iter().all(|byte| *byte == 0xAA));
        refusal
    });
    let refusal = refusals.next().unwrap();
    assert!(refusals.all(|other| other == refusal));
    refusal
}

#[test]
fn log_write_refuses_45_then_20() {
    let all_45: [fn(&mut Session); 11] = [
        |s| s.run = Run::Hold,
        |s| s.phase = Phase::Run,
        |s| s.phase = Phase::Ended(Outcome::Held),
        |s| s.phase = Phase::Ended(Outcome::Silent),
        |s| s.acknowledged = 3,
        |s| s.acknowledged = 5,
        |s| (s.acknowledged, s.total) = (3, 3),
        |s| s.named = 0,
        |s| s.named = 126_977,
        |s| s.named = u32::MAX,
        |s| (s.phase, s.acknowledged) = (Phase::Ended(Outcome::WrongGreeting), 1),
    ];
    for board in Board::ALL {
        assert_eq!(log_refused(board, |_| ()), Refusal::Size);
        for change in all_45 {
            assert_eq!(log_refused(board, change), Refusal::NoLog);
        }
    }
}

#[test]
fn counts_that_only_version_2_holds() {
    let changes: [fn(&mut Session); 7] = [
        |s| (s.acknowledged, s.total) = (65_536, 65_536),
        |s| (s.acknowledged, s.total) = (126_978, 126_978),
        |s| (s.acknowledged, s.total) = (u32::MAX, u32::MAX),
        |s| (s.phase, s.total) = (Phase::Ended(Outcome::Silent), 65_536),
        |s| s.named = 63_489,
        |s| s.named = 65_536,
        |s| s.named = 126_976,
    ];
    for change in changes {
        assert_eq!(log_refused(Board::Short, change), Refusal::NoLog);
        assert_eq!(log_refused(Board::Long, change), Refusal::Size);
        let mut session = valid(Board::Long);
        change(&mut session);
        let counts = [session.acknowledged, session.total, session.named];
        let outcome = session.outcome().unwrap().number();
        assert_eq!(logged(&session), log_record(Board::Long, outcome, counts));
    }
}

/// The number of a log record, 0 where it is true.
fn log_number(input: &[u8]) -> u8 {
    log::read(input).map_or_else(Refusal::number, |_| 0)
}

#[test]
fn log_read_refusals() {
    assert_eq!(log_number(&[0, 8, 1, 0, 0, 4, 0, 4, 0, 2]), 0);
    assert_eq!(log_number(&[0, 9, 2, 0, 0, 4, 0, 4, 0]), 50);
    assert_eq!(log_number(&[0, 9, 2, 0, 0, 4, 0, 4, 0, 2]), 51);
    assert_eq!(log_number(&[0, 8, 1, 0, 0, 4, 0, 4, 0, 2, 0]), 51);
    assert_eq!(log_number(&[0, 8, 2, 9, 0, 4, 0, 4, 0, 2]), 52);
    let long = [0, 14, 2, 0, 0, 0, 0, 4, 0, 0, 0, 4, 0, 0, 0, 2];
    assert_eq!(log_number(&long), 0);
    for board in Board::ALL {
        let most = board_bytes(board) as u32;
        for (outcome, acknowledged, total, named) in [
            (2, 4, 4, 2),
            (39, 3, 4, 2),
            (44, 3, 4, 2),
            (1, 2, 2, 2),
            (0, 3, 3, 2),
            (0, 4, 4, 0),
            (0, 4, 4, most + 1),
            (1, 3, 3, 0),
            (1, 3, 3, most + 1),
            (40, 5, 4, 2),
            (0, 3, 4, 2),
            (1, 2, 3, 2),
            (1, 3, 4, 2),
            (41, 4, 4, 2),
            (40, 3, 3, 2),
            (42, 1, 4, 2),
        ] {
            let record = log_record(board, outcome, [acknowledged, total, named]);
            assert_eq!(log_number(&record), 53, "{record:?}");
        }
    }
}

/// Inputs of each length that begin like a record of each board.
#[test]
fn log_of_any_other_length_is_50_or_51() {
    for board in Board::ALL {
        let record = log_record(board, 0, [4, 4, 2]);
        for length in 0..40 {
            let mut input = record.clone();
            input.resize(length, 0);
            let number = match length {
                0..=9 => 50,
                _ if length == log_bytes(board) => 0,
                _ => 51,
            };
            assert_eq!(log_number(&input), number, "{board:?} {length}");
        }
    }
}

/// Whatever the version says, and whatever stands behind it.
#[test]
fn log_with_any_other_length_field_is_51() {
    let near = (0..0x20).chain([0x0108, 0x010E, 0x0800, 0x0E00, 0xFFFF]);
    for field in near.filter(|field: &u16| ![8, 14].contains(field)) {
        let told = field.to_be_bytes();
        for board in Board::ALL {
            for version in [0, 1, 2, 3] {
                let mut record = log_record(board, 99, [4, 4, 2]);
                record[..2].copy_from_slice(&told);
                record[2] = version;
                assert_eq!(log_number(&record), 51, "{field}");
            }
        }
        // an input of the length that the field tells
        let input = [&told[..], &vec![1; field.into()]].concat();
        let number = if input.len() < 10 { 50 } else { 51 };
        assert_eq!(log_number(&input), number, "{field}");
    }
}

#[test]
fn log_of_another_version_than_its_length_tells_is_52() {
    for (board, own) in [(Board::Short, 1), (Board::Long, 2)] {
        for version in (0..=255).filter(|version| *version != own) {
            // 53 comes later
            for outcome in [0, 99] {
                let mut record = log_record(board, outcome, [4, 4, 2]);
                record[2] = version;
                assert_eq!(log_number(&record), 52, "{version}");
            }
        }
    }
}

fn check_outcomes(board: Board, acknowledged: u32, total: u32, outcomes: &[u8]) {
    for named in [1, 63_488, board_bytes(board) as u32] {
        let counts = [acknowledged, total, named];
        let read = |outcome: &u8| log::read(&log_record(board, *outcome, counts)).is_ok();
        let taken: Vec<u8> = (0..=255).filter(read).collect();
        assert_eq!(taken, outcomes, "{acknowledged} of {total}");
    }
}

#[test]
fn outcomes_that_a_log_can_have() {
    for (acknowledged, total, outcomes) in [
        (0, 0, &[][..]),
        (0, 2, &[]),
        (1, 2, &[]),
        (2, 2, &[]),
        (0, 3, &[40, 41, 42, 43]),
        (1, 3, &[40, 41, 43]),
        (2, 3, &[40, 41, 43]),
        (3, 3, &[1]),
        (4, 3, &[]),
        (0, 4, &[40, 41, 42, 43]),
        (3, 4, &[40, 41, 43]),
        (4, 4, &[0, 1]),
        (5, 4, &[]),
        (65_534, 65_535, &[40, 41, 43]),
        (65_535, 65_535, &[0, 1]),
    ] {
        check_outcomes(Board::Short, acknowledged, total, outcomes);
        check_outcomes(Board::Long, acknowledged, total, outcomes);
    }
    for (acknowledged, total, outcomes) in [
        (0, 65_536, &[40, 41, 42, 43][..]),
        (65_536, 65_536, &[0, 1]),
        (65_537, 65_536, &[]),
        (126_977, 126_978, &[40, 41, 43]),
        (126_978, 126_978, &[0, 1]),
        (u32::MAX, u32::MAX, &[0, 1]),
    ] {
        check_outcomes(Board::Long, acknowledged, total, outcomes);
    }
}

fn logged(session: &impl Host) -> Vec<u8> {
    let length = log_bytes(session.board());
    let mut buffer = vec![0xAA; length + 1];
    assert_eq!(log::write(session, &mut buffer), Ok(length));
    assert_eq!(buffer.pop(), Some(0xAA));
    buffer
}

fn check_log(session: impl Host, record: &[u8]) {
    assert_eq!(logged(&session), record);
    let entry = log::read(record).unwrap();
    assert_eq!(entry.version(), record[2]);
    assert_eq!(Some(entry.outcome), session.outcome());
    let counts = [entry.acknowledged, entry.total, entry.named];
    assert_eq!(counts, session.counts());
}

fn one_byte(board: Board) -> Reading {
    Reading::of(board, &[":010000005AA5", ":00000001FF"])
}

#[test]
fn log_of_a_hold_session_reads_back() {
    let held = |reading: Reading| whole_end(&reading, Run::Hold);
    for (made, record) in [
        (
            one_byte as fn(Board) -> Reading,
            [0, 8, 1, 1, 0, 3, 0, 3, 0, 1],
        ),
        (plan_file, [0, 8, 1, 1, 0, 3, 0, 3, 0, 2]),
        (three_pieces, [0, 8, 1, 1, 0, 8, 0, 8, 1, 0]),
        (full_file, [0, 8, 1, 1, 1, 0xFD, 1, 0xFD, 0xF8, 0]),
    ] {
        check_log(held(made(Board::Short)), &record);
    }
    for (made, counts) in [
        (
            one_byte as fn(Board) -> Reading,
            [0, 0, 0, 3, 0, 0, 0, 3, 0, 0, 0, 1],
        ),
        (plan_file, [0, 0, 0, 3, 0, 0, 0, 3, 0, 0, 0, 2]),
        (three_pieces, [0, 0, 0, 8, 0, 0, 0, 8, 0, 0, 1, 0]),
        (full_file, [0, 0, 3, 0xF9, 0, 0, 3, 0xF9, 0, 1, 0xF0, 0]),
    ] {
        let record = [&[0, 14, 2, 1][..], &counts].concat();
        check_log(held(made(Board::Long)), &record);
    }
}

/// Its counts are the largest that a session has, and too large for version 1.
#[test]
fn log_of_the_long_file_with_the_most_packets() {
    let reading = most_pieces(Board::Long);
    for (run, outcome, total) in [
        (Run::Reset, Outcome::Valid, 126_978),
        (Run::Hold, Outcome::Held, 126_977),
    ] {
        let ended = Session {
            phase: Phase::Ended(outcome),
            acknowledged: total,
            ..reading.session(run)
        };
        assert_eq!(ended.total, total);
        assert_eq!(reading.mark(ended, 0x1_EFFE), Ok(true));
        let counts = [total, total, 63_488];
        check_log(ended, &log_record(Board::Long, outcome.number(), counts));
    }
}

#[test]
fn log_of_a_hold_session_that_ended_otherwise() {
    for reading in files([plan_file]) {
        let states = whole_session(&reading, Run::Hold);
        for (acknowledged, state) in [
            (0, states[0]),
            (0, states[1]),
            (1, states[2]),
            (2, states[3]),
        ] {
            let (ended, _) = reading.step(state, Event::Silence).unwrap();
            let record = log_record(reading.board(), 40, [acknowledged, 3, 2]);
            check_log(ended, &record);
            assert_eq!(log::write(&state, &mut [0; 16]), Err(Refusal::NoLog));
        }
    }
}

/// The bytes 12 and 34 over the end of page 0 and 56 in page 3; on the long
/// board the same 64 KiB further on.
fn two_runs(board: Board) -> Reading {
    let upper = u16::from(board == Board::Long);
    Reading::of(board, &[&linear(upper), ":0201FF001234B8", ":0106000056A3"])
}

/// Where its three bytes are.
fn bytes_of_two_runs(board: Board) -> [u32; 3] {
    let base = u32::from(board == Board::Long) << 16;
    [base + 0x1FF, base + 0x200, base + 0x600]
}

/// Its packets without R, numbered from 0: two E, two W and two V.
fn list_of_two_runs(board: Board) -> [&'static str; 6] {
    match board {
        Board::Short => [
            "070E06450000000002B3",
            "070E06450000060001AE",
            "070E0757000001FF12345C",
            "070E0657000006005647",
            "070E0756000001FF90A172",
            "070E065600000600B2EC",
        ],
        Board::Long => [
            "070E06450001000002B2",
            "070E06450001060001AD",
            "070E0757000101FF12345B",
            "070E0657000106005646",
            "070E0756000101FF90A171",
            "070E065600010600B2EB",
        ],
    }
}

/// Each run kind with the R that it sends, and how its session ends.
const ENDS: [(Run, Option<&str>, Outcome); 3] = [
    (Run::Reset, Some("070E055200000001A8"), Outcome::Valid),
    (Run::Jump, Some("070E055200000000A9"), Outcome::Valid),
    (Run::Hold, None, Outcome::Held),
];

/// A plain session over `two_runs` as the paper has it.
fn plain_of_two_runs(board: Board, run: Run, stage: Stage, acknowledged: u32) -> Plain {
    Plain {
        board,
        run,
        stage,
        acknowledged,
        total: if run == Run::Hold { 6 } else { 7 },
        named: 3,
    }
}

/// What a step wrote, in digits, and the next state.
fn step_digits<H: Host>(reading: &Reading, session: H, event: Event) -> Result<(H, String), u8> {
    let (next, packet) = reading.step(session, event)?;
    Ok((next, listing::hex_digits(&packet)))
}

#[test]
fn plain_session_picks_each_packet_by_its_number() {
    for reading in files([two_runs]) {
        let board = reading.board();
        for (run, r, outcome) in ENDS {
            let at = |stage, number| plain_of_two_runs(board, run, stage, number);
            let mut plain = at(Stage::Waiting, 0);
            assert_eq!(reading.plain(run), plain);
            let mut event = Event::Answer(board.greeting());
            for (number, packet) in (0..).zip(list_of_two_runs(board).into_iter().chain(r)) {
                let next = at(Stage::UnderWay, number);
                let stepped = step_digits(&reading, plain, event);
                assert_eq!(stepped, Ok((next, packet.to_string())));
                (plain, event) = (next, ACK);
            }
            let ended = at(Stage::Ended(outcome), plain.total);
            assert_eq!(reading.step(plain, ACK), Ok((ended, vec![])));
            assert_eq!(ended.outcome(), Some(outcome));
        }
    }
}

/// Every state of a whole plain session over `two_runs`.
fn plain_states(board: Board, run: Run) -> Vec<Plain> {
    let at = |stage, acknowledged| plain_of_two_runs(board, run, stage, acknowledged);
    let total = at(Stage::Waiting, 0).total;
    let mut states = vec![at(Stage::Waiting, 0)];
    states.extend((0..total).map(|number| at(Stage::UnderWay, number)));
    states.push(at(Stage::Ended(asked_end(run)), total));
    states
}

#[test]
fn plain_session_marks_a_byte_by_the_ack_to_its_v() {
    for reading in files([two_runs]) {
        let board = reading.board();
        let [first, second, third] = bytes_of_two_runs(board);
        for state in RUNS.into_iter().flat_map(|run| plain_states(board, run)) {
            // the V numbered 4 holds two bytes, the V numbered 5 the third
            let marked = [state.acknowledged > 4, state.acknowledged > 5];
            assert_eq!(reading.mark(state, first), Ok(marked[0]), "{state:?}");
            assert_eq!(reading.mark(state, second), Ok(marked[0]), "{state:?}");
            assert_eq!(reading.mark(state, third), Ok(marked[1]), "{state:?}");
            for other in [
                first - 1,
                second + 1,
                third - 1,
                third + 1,
                first ^ 0x1_0000,
            ] {
                assert_eq!(reading.mark(state, other), Ok(false), "{state:?}");
            }
            for other in [board.flash_end(), u32::MAX] {
                assert_eq!(reading.mark(state, other), Ok(false), "{state:?}");
            }
        }
    }
}

#[test]
fn plain_session_ends_as_its_events_say() {
    for reading in files([two_runs]) {
        let board = reading.board();
        for state in RUNS.into_iter().flat_map(|run| plain_states(board, run)) {
            for (event, outcome) in UNEXPECTED {
                let expected = match (state.stage, event) {
                    (Stage::Ended(_), _) => Err(44),
                    (Stage::Waiting, Event::Answer(_)) => Ok(Outcome::WrongGreeting),
                    _ => Ok(outcome),
                };
                if state.stage == Stage::Waiting && event == Event::Answer(board.greeting()) {
                    continue;
                }
                let ended = expected.map(|outcome| Plain {
                    stage: Stage::Ended(outcome),
                    ..state
                });
                let stepped = reading.step(state, event);
                assert_eq!(stepped, ended.map(|ended| (ended, vec![])));
            }
        }
    }
}

#[test]
fn plain_session_takes_the_greeting_that_is_exact_where_the_paper_says() {
    for reading in files([two_runs]) {
        let board = reading.board();
        for run in RUNS {
            let start = reading.plain(run);
            for place in 0..24 {
                let mut greeting = *board.greeting();
                greeting[place] ^= 1;
                let (next, _) = reading.step(start, Event::Answer(&greeting)).unwrap();
                let expected = match (15..22).contains(&place) {
                    true => Stage::UnderWay,
                    false => Stage::Ended(Outcome::WrongGreeting),
                };
                assert_eq!((next.stage, next.acknowledged), (expected, 0));
            }
            for answer in [&[][..], &[0x06], &board.greeting()[..23], &[0; 25]] {
                let (next, packet) = reading.step(start, Event::Answer(answer)).unwrap();
                assert_eq!(next.outcome(), Some(Outcome::WrongGreeting));
                assert!(packet.is_empty());
            }
        }
    }
}

#[test]
fn plain_start_refuses_20_then_32() {
    for board in Board::ALL {
        let (empty, far) = (Reading::new(board), two_runs(other(board)));
        let start = |image: &[u8], map: &[u8], length: usize| {
            let mut packet = vec![0xAA; length];
            let refusal = Plain::start(board, Run::Hold, image, map, &mut packet).unwrap_err();
            assert!(packet.iter().all(|byte| *byte == 0xAA));
            refusal
        };
        for (image, map, length) in [
            (&empty.image[1..], &empty.map[..], 259),
            (&empty.image, &empty.map[1..], 259),
            (&far.image, &empty.map, 259),
            (&empty.image, &far.map, 259),
            (&far.image, &far.map, 259),
            (&empty.image, &empty.map, 258),
            (&empty.image, &empty.map, 0),
        ] {
            assert_eq!(start(image, map, length), Refusal::Size);
        }
        assert_eq!(start(&empty.image, &empty.map, 259), Refusal::NoData);
    }
}

/// Whatever else is wrong with it, and with each part of a wrong size.
#[test]
fn plain_step_refuses_20_then_44_then_46() {
    for board in Board::ALL {
        let (reading, far) = (two_runs(board), two_runs(other(board)));
        let empty = Reading::new(board);
        for state in RUNS.into_iter().flat_map(|run| plain_states(board, run)) {
            let foreign = Plain { total: 8, ..state };
            for state in [state, foreign] {
                let size = Err(Refusal::Size);
                let short = &mut [0; 258];
                assert_eq!(state.step(ACK, &reading.image, &reading.map, short), size);
                for (image, map) in [
                    (&far.image, &reading.map),
                    (&reading.image, &far.map),
                    (&far.image, &far.map),
                ] {
                    assert_eq!(state.step(ACK, image, map, &mut [0; 259]), size);
                }
                for wrong in [&[], &reading.map[1..], &far.map] {
                    assert_eq!(state.proved(wrong, 0), Err(Refusal::Size));
                }
            }
            let number = match state.stage {
                Stage::Ended(_) => 44,
                _ => 46,
            };
            assert_eq!(reading.step(foreign, ACK), Err(number));
            assert_eq!(empty.step(state, ACK), Err(number));
            assert_eq!(reading.mark(foreign, 0), Err(46));
            assert_eq!(empty.mark(state, 0), Err(46));
        }
    }
}

#[test]
fn plain_session_of_another_file_is_refused() {
    let changes: [fn(&mut Plain); 8] = [
        |s| s.total += 1,
        |s| s.total -= 1,
        |s| s.total = 0,
        |s| s.total = u32::MAX,
        |s| s.named += 1,
        |s| s.named -= 1,
        |s| s.named = 0,
        |s| s.named = u32::MAX,
    ];
    for reading in files([two_runs]) {
        let board = reading.board();
        for state in RUNS.into_iter().flat_map(|run| plain_states(board, run)) {
            for change in changes {
                let mut made_up = state;
                change(&mut made_up);
                assert_eq!(reading.mark(made_up, 0x1FF), Err(46), "{made_up:?}");
                let number = if state.ended().is_some() { 44 } else { 46 };
                assert_eq!(reading.step(made_up, ACK), Err(number), "{made_up:?}");
            }
        }
    }
}

/// What an empty file would lead to if a start did not refuse it.
#[test]
fn plain_session_over_nothing_is_refused() {
    for board in Board::ALL {
        let empty = Reading::new(board);
        for session in sessions_over_nothing(board) {
            let plain = Plain {
                board,
                run: session.run,
                stage: match session.phase {
                    Phase::Greeting => Stage::Waiting,
                    Phase::Ended(outcome) => Stage::Ended(outcome),
                    _ => Stage::UnderWay,
                },
                acknowledged: session.acknowledged,
                total: session.total,
                named: 0,
            };
            let number = if is_open(&session) { 46 } else { 44 };
            assert_eq!(empty.step(plain, ACK), Err(number), "{plain:?}");
            assert_eq!(empty.mark(plain, 0), Err(46), "{plain:?}");
            assert_eq!(log::write(&plain, &mut [0; 16]), Err(Refusal::NoLog));
        }
    }
}

/// No packet is acknowledged before the greeting, and none is waited for behind
/// the last.
#[test]
fn plain_session_with_a_number_that_no_events_lead_to_is_refused() {
    for reading in files([two_runs]) {
        for run in RUNS {
            let at = |stage, number| plain_of_two_runs(reading.board(), run, stage, number);
            let total = reading.plain(run).total;
            for number in (0..10).chain([u32::MAX]) {
                for (stage, comes) in [
                    (Stage::Waiting, number == 0),
                    (Stage::UnderWay, number < total),
                ] {
                    let expected = if comes { Ok(()) } else { Err(46) };
                    let state = at(stage, number);
                    assert_eq!(reading.mark(state, 0).map(|_| ()), expected);
                    assert_eq!(reading.step(state, ACK).map(|_| ()), expected);
                    assert_eq!(state.outcome(), None);
                    assert_eq!(log::write(&state, &mut [0; 16]), Err(Refusal::NoLog));
                }
            }
        }
    }
}

/// The ends that so many acknowledgements allow, and those that they do not.
#[test]
fn plain_marks_are_refused_of_an_end_that_no_event_brings() {
    for reading in files([two_runs]) {
        for run in RUNS {
            let total = reading.plain(run).total;
            for number in (0..10).chain([u32::MAX]) {
                let all = number == total;
                for (outcome, comes) in [
                    (Outcome::Valid, all && run != Run::Hold),
                    (Outcome::Held, all && run == Run::Hold),
                    (Outcome::Silent, number < total),
                    (Outcome::Refused, number < total),
                    (Outcome::WrongGreeting, number == 0),
                    (Outcome::WrongAnswer, number < total),
                ] {
                    let stage = Stage::Ended(outcome);
                    let ended = plain_of_two_runs(reading.board(), run, stage, number);
                    let told = reading.mark(ended, 0).map(|_| ());
                    assert_eq!(told, if comes { Ok(()) } else { Err(46) }, "{ended:?}");
                    assert_eq!(reading.step(ended, ACK), Err(44));
                }
            }
        }
    }
}

#[test]
fn plain_session_changed_to_or_from_hold_is_refused() {
    for reading in files([two_runs]) {
        for (run, other) in [
            (Run::Reset, Run::Hold),
            (Run::Jump, Run::Hold),
            (Run::Hold, Run::Reset),
            (Run::Hold, Run::Jump),
        ] {
            for state in plain_states(reading.board(), run) {
                let changed = Plain {
                    run: other,
                    ..state
                };
                assert_eq!(reading.mark(changed, 0), Err(46), "{changed:?}");
                let number = if state.ended().is_some() { 44 } else { 46 };
                assert_eq!(reading.step(changed, ACK), Err(number), "{changed:?}");
            }
        }
    }
}

/// Valid is no end of hold, and held none of reset or jump.
#[test]
fn plain_end_that_is_another_run_kinds_is_none() {
    for reading in files([two_runs]) {
        for (run, outcome) in [
            (Run::Reset, Outcome::Held),
            (Run::Jump, Outcome::Held),
            (Run::Hold, Outcome::Valid),
        ] {
            let total = reading.plain(run).total;
            let stage = Stage::Ended(outcome);
            let mixed = plain_of_two_runs(reading.board(), run, stage, total);
            assert_eq!((mixed.ended(), mixed.outcome()), (Some(outcome), None));
            assert_eq!(reading.mark(mixed, 0), Err(46));
            assert_eq!(reading.step(mixed, ACK), Err(44));
            let mut buffer = [0xAA; 16];
            assert_eq!(log::write(&mixed, &mut buffer), Err(Refusal::NoLog));
            assert_eq!(buffer, [0xAA; 16]);
        }
    }
}

#[test]
fn plain_log_records() {
    let valid = |board| plain_of_two_runs(board, Run::Jump, Stage::Ended(Outcome::Valid), 7);
    let held = |board| plain_of_two_runs(board, Run::Hold, Stage::Ended(Outcome::Held), 6);
    check_log(valid(Board::Short), &[0, 8, 1, 0, 0, 7, 0, 7, 0, 3]);
    check_log(held(Board::Short), &[0, 8, 1, 1, 0, 6, 0, 6, 0, 3]);
    let long = |outcome, count| {
        let counts = [0, 0, 0, count, 0, 0, 0, count, 0, 0, 0, 3];
        [&[0, 14, 2, outcome][..], &counts].concat()
    };
    check_log(valid(Board::Long), &long(0, 7));
    check_log(held(Board::Long), &long(1, 6));
    for board in Board::ALL {
        for (outcome, acknowledged) in [
            (Outcome::Silent, 6),
            (Outcome::Refused, 0),
            (Outcome::WrongGreeting, 0),
            (Outcome::WrongAnswer, 3),
        ] {
            let ended = plain_of_two_runs(board, Run::Reset, Stage::Ended(outcome), acknowledged);
            let record = log_record(board, outcome.number(), [acknowledged, 7, 3]);
            check_log(ended, &record);
        }
    }
}

/// Of an end whose counts make no record 45, also into a buffer that is too short.
#[test]
fn plain_log_refuses_45_then_20() {
    let all_45: [fn(&mut Plain); 11] = [
        |s| s.run = Run::Hold,
        |s| s.stage = Stage::UnderWay,
        |s| s.stage = Stage::Waiting,
        |s| s.stage = Stage::Ended(Outcome::Held),
        |s| s.stage = Stage::Ended(Outcome::Silent),
        |s| s.acknowledged = 6,
        |s| s.acknowledged = 8,
        |s| (s.acknowledged, s.total) = (3, 3),
        |s| s.named = 0,
        |s| s.named = 126_977,
        |s| (s.stage, s.acknowledged) = (Stage::Ended(Outcome::WrongGreeting), 1),
    ];
    for board in Board::ALL {
        let valid = plain_of_two_runs(board, Run::Reset, Stage::Ended(Outcome::Valid), 7);
        for length in [0, 1, log_bytes(board) - 1] {
            let written = log::write(&valid, &mut vec![0; length]);
            assert_eq!(written, Err(Refusal::Size));
        }
        for change in all_45 {
            let mut made_up = valid;
            change(&mut made_up);
            for length in [0, log_bytes(board) - 1, 16] {
                let written = log::write(&made_up, &mut vec![0; length]);
                assert_eq!(written, Err(Refusal::NoLog), "{made_up:?}");
            }
        }
    }
}

/// The record has counts alone: over another map with the same ones it goes on
/// with that map's packets.
#[test]
fn plain_session_does_not_tell_maps_with_equal_counts_apart() {
    for reading in files([plan_file]) {
        let other = Reading::of(reading.board(), &[":020400001234B4"]);
        let (plain, _) = reading
            .step(reading.plain(Run::Reset), greeting_of(&reading))
            .unwrap();
        let (next, packet) = other.step(plain, ACK).unwrap();
        assert_eq!(packet, built(Command::Write, 0x400, &[0x12, 0x34]));
        let (next, packet) = reading.step(next, ACK).unwrap();
        assert_eq!(packet, built(Command::Verify, 0x200, &[0x12, 0x34]));
        let (next, _) = other.step(next, ACK).unwrap();
        assert_eq!(other.mark(next, 0x400), Ok(true));
        assert_eq!(reading.mark(next, 0x200), Ok(true));
        assert_eq!(reading.mark(next, 0x400), Ok(false));
    }
}

fn greeting_of(reading: &Reading) -> Event<'static> {
    Event::Answer(reading.board().greeting())
}

#[test]
fn plain_session_of_the_full_file_and_of_the_most_packets() {
    for (board, pieces, most) in [(Board::Short, 254, 31_744), (Board::Long, 508, 63_488)] {
        for (run, r) in [(Run::Reset, 1), (Run::Jump, 1), (Run::Hold, 0)] {
            let plain = full_file(board).plain(run);
            assert_eq!(plain.counts(), [0, 1 + 2 * pieces + r, board.flash_end()]);
            let plain = most_pieces(board).plain(run);
            assert_eq!(plain.counts(), [0, 1 + 2 * most + r, most]);
        }
    }
}

/// The quick session and the plain one after the same events.
type Both = (Session, Plain);

fn start_both(reading: &Reading, run: Run) -> Both {
    let both = (reading.session(run), reading.plain(run));
    check_both(both);
    both
}

/// Tells both the same event and sees that they do the same.
fn step_both(reading: &Reading, (quick, plain): Both, event: Event) -> Both {
    let (quick, sent) = reading.step(quick, event).unwrap();
    let (plain, same) = reading.step(plain, event).unwrap();
    assert_eq!(sent, same, "{quick:?} {plain:?}");
    check_both((quick, plain));
    (quick, plain)
}

/// Endings, counts and log records.
fn check_both((quick, plain): Both) {
    assert_eq!(quick.ended(), plain.ended());
    assert_eq!(quick.outcome(), plain.outcome());
    assert_eq!(quick.counts(), plain.counts());
    let mut records = [[0xAA; 16]; 2];
    let [first, second] = &mut records;
    let written = [log::write(&quick, first), log::write(&plain, second)];
    assert_eq!(written[0], written[1]);
    assert_eq!(records[0], records[1]);
}

fn check_marks_alike(reading: &Reading, (quick, plain): Both, addresses: &[u32]) {
    for address in addresses {
        let marks = [reading.mark(quick, *address), reading.mark(plain, *address)];
        assert_eq!(marks[0], marks[1], "{address:X} {quick:?} {plain:?}");
    }
}

/// Goes through a file; at each state, one in so many, all events and marks.
fn check_walk_alike(reading: &Reading, run: Run, stride: u32) {
    let end = reading.board().flash_end();
    let (low, high) = runs_of(reading.board());
    let addresses = [
        0,
        0x1FF,
        0x200,
        low,
        low + 250,
        high,
        end - 1,
        end,
        u32::MAX,
    ];
    let mut both = start_both(reading, run);
    let mut event = greeting_of(reading);
    while both.0.ended().is_none() {
        if both.0.acknowledged.is_multiple_of(stride) {
            check_marks_alike(reading, both, &addresses);
            for (unexpected, _) in UNEXPECTED {
                let ended = step_both(reading, both, unexpected);
                check_marks_alike(reading, ended, &addresses[..2]);
            }
        }
        both = step_both(reading, both, event);
        event = ACK;
    }
    check_marks_alike(reading, both, &addresses);
    let after = [
        reading.step(both.0, ACK).err(),
        reading.step(both.1, ACK).err(),
    ];
    assert_eq!(after, [Some(44); 2]);
}

#[test]
fn plain_session_does_what_the_quick_one_does() {
    for reading in files([one_byte, plan_file, two_runs, three_pieces]) {
        for run in RUNS {
            check_walk_alike(&reading, run, 1);
        }
    }
    for reading in files([full_file]) {
        check_walk_alike(&reading, Run::Hold, 97);
    }
}

/// A file of runs with gaps, other ones for each seed.
fn scattered(board: Board, seed: u32) -> Reading {
    let mut reading = mapped(board, 0);
    let mut state = seed;
    let mut place = 0;
    loop {
        state = state.wrapping_mul(1_664_525).wrapping_add(1_013_904_223);
        let (gap, length) = (1 + (state >> 20), (state >> 8) % 700);
        if place + gap + length > board.flash_end() {
            return reading;
        }
        for at in (place + gap) as usize..(place + gap + length) as usize {
            reading.map[at / 8] |= 1 << (at % 8);
            reading.image[at] = (at as u32 ^ state) as u8;
        }
        place += gap + length;
    }
}

#[test]
fn plain_session_does_what_the_quick_one_does_over_scattered_runs() {
    for board in Board::ALL {
        for (seed, run) in (1..).zip([Run::Reset, Run::Jump, Run::Hold, Run::Hold]) {
            check_walk_alike(&scattered(board, seed), run, 11);
        }
    }
}

/// Every second byte is a piece of its own, so the packets' numbers are known.
#[test]
fn plain_session_does_what_the_quick_one_does_with_the_most_packets() {
    for reading in files([most_pieces]) {
        let pieces = reading.board().flash_end() / 2;
        for index in [0, 1, pieces / 2, pieces - 2, pieces - 1] {
            let start = ByteAddress(2 * index);
            for (phase, number) in [
                (Phase::Write(start), 1 + index),
                (Phase::Verify(start), 1 + pieces + index),
            ] {
                for run in RUNS {
                    let (mut quick, mut plain) = start_both(&reading, run);
                    (quick.phase, quick.acknowledged) = (phase, number);
                    (plain.stage, plain.acknowledged) = (Stage::UnderWay, number);
                    step_both(&reading, (quick, plain), ACK);
                    let ended = step_both(&reading, (quick, plain), Event::Silence);
                    let near = [2 * index, 2 * index + 1, 0];
                    check_marks_alike(&reading, ended, &near);
                }
            }
        }
    }
}

/// A rehearsal over a flash of zeros.
fn load(reading: &Reading, run: Run, exchanges: &[Exchange]) -> (Session, Loader, Vec<u8>) {
    let board = reading.board();
    let mut loader = Loader::factory();
    let mut flash = vec![0x00; board.flash_bytes()];
    let (image, map) = (&reading.image, &reading.map);
    let ended = rehearse(board, run, image, map, &mut loader, &mut flash, exchanges).unwrap();
    (ended, loader, flash)
}

#[test]
fn whole_rehearsal_ends_as_asked() {
    for (run, acknowledged, condition) in [
        (Run::Reset, 4, Condition::Left),
        (Run::Jump, 4, Condition::Left),
        (Run::Hold, 3, Condition::Serving),
    ] {
        for reading in files([plan_file]) {
            let (ended, loader, flash) = load(&reading, run, &[]);
            assert_eq!(ended.phase, Phase::Ended(asked_end(run)));
            assert_eq!(ended.acknowledged, acknowledged);
            assert_eq!(loader.condition, condition);
            assert!(flash[..0x200].iter().all(|byte| *byte == 0x00));
            assert_eq!(flash[0x200..0x202], [0x12, 0x34]);
            assert!(flash[0x202..0x400].iter().all(|byte| *byte == 0xFF));
            assert!(flash[0x400..].iter().all(|byte| *byte == 0x00));
        }
    }
}

#[test]
fn whole_rehearsal_of_a_full_board() {
    for board in Board::ALL {
        let mut reading = full_file(board);
        for (at, byte) in reading.image.iter_mut().enumerate() {
            *byte = (at % 251) as u8;
        }
        let (ended, _, flash) = load(&reading, Run::Hold, &[]);
        assert_eq!(ended.phase, Phase::Ended(Outcome::Held));
        assert!(flash == reading.image);
    }
}

/// An exchange with a loss, and all before it whole.
fn loss_at(place: usize, lost: Exchange) -> Vec<Exchange> {
    let mut exchanges = vec![Exchange::Whole; place];
    exchanges.push(lost);
    exchanges
}

fn check_losses(reading: &Reading, run: Run, lost: Exchange) {
    let total = reading.session(run).total as usize;
    for place in 0..=total {
        let (ended, _, _) = load(reading, run, &loss_at(place, lost));
        assert_eq!(ended.phase, Phase::Ended(Outcome::Silent));
        assert_eq!(ended.acknowledged as usize, place.saturating_sub(1));
    }
    // past the last exchange nothing is left to lose
    let (ended, _, _) = load(reading, run, &loss_at(total + 1, lost));
    assert_eq!(ended.phase, Phase::Ended(asked_end(run)));
}

#[test]
fn rehearsal_with_a_loss_ends_silent() {
    for reading in files([plan_file, three_pieces]) {
        for run in RUNS {
            check_losses(&reading, run, Exchange::PacketLost);
            check_losses(&reading, run, Exchange::AnswerLost);
        }
    }
}

/// A flash of zeros with `three_pieces` loaded.
fn loaded_pieces(board: Board) -> Vec<u8> {
    let (low, high) = runs_of(board);
    let mut flash = Vec::new();
    for (end, byte) in [
        (low - 0x1FF, 0x00),
        (low, 0xFF),
        (low + 255, 0x00),
        (low + 0x201, 0xFF),
        (high + 1, 0x00),
        (high + 0x200, 0xFF),
        (board.flash_end(), 0x00),
    ] {
        flash.resize(end as usize, byte);
    }
    flash
}

#[test]
fn rehearsal_by_hold_never_sends_r() {
    for reading in files([three_pieces]) {
        let (ended, loader, flash) = load(&reading, Run::Hold, &[]);
        assert_eq!(ended.phase, Phase::Ended(Outcome::Held));
        assert_eq!(loader.condition, Condition::Serving);
        assert!(flash == loaded_pieces(reading.board()));
        for place in 0..=8 {
            for lost in [Exchange::PacketLost, Exchange::AnswerLost] {
                let (_, loader, _) = load(&reading, Run::Hold, &loss_at(place, lost));
                assert_ne!(loader.condition, Condition::Left);
            }
        }
    }
}

/// The second E is refused, so that the session ends with 41.
#[test]
fn rehearsal_stops_at_a_protected_group() {
    for (board, group) in [(Board::Short, 30), (Board::Long, 61)] {
        let reading = naming(board, &[0, board.flash_end() - 1]);
        let mut loader = Loader::factory();
        loader.protection = protection(1 << group, false);
        let mut flash = vec![0x00; board.flash_bytes()];
        let (image, map) = (&reading.image, &reading.map);
        let ended = rehearse(board, Run::Hold, image, map, &mut loader, &mut flash, &[]).unwrap();
        assert_eq!(ended.phase, Phase::Ended(Outcome::Refused));
        assert_eq!(ended.acknowledged, 1);
        assert!(flash[..512].iter().all(|byte| *byte == 0xFF));
        assert!(flash[512..].iter().all(|byte| *byte == 0x00));
    }
}

/// What comes of a rehearsal over a flash of so many bytes.
fn rehearsal_refused(board: Board, reading: &Reading, flash: usize) -> Refusal {
    let mut loader = Served::new(board, 0x00).loader;
    let mut flash = vec![0x00; flash];
    let (image, map) = (&reading.image, &reading.map);
    let given = rehearse(board, Run::Reset, image, map, &mut loader, &mut flash, &[]);
    assert_eq!(loader.condition, Condition::Serving);
    assert!(flash.iter().all(|byte| *byte == 0x00));
    given.unwrap_err()
}

#[test]
fn rehearsal_refuses_20_then_32_and_sends_nothing() {
    for board in Board::ALL {
        let (bytes, far) = (board_bytes(board), other(board));
        let refused = |reading: &Reading, flash| rehearsal_refused(board, reading, flash);
        for wrong in [0, bytes - 1, bytes + 1, board_bytes(far)] {
            assert_eq!(refused(&plan_file(board), wrong), Refusal::Size);
            assert_eq!(refused(&Reading::new(board), wrong), Refusal::Size);
        }
        assert_eq!(refused(&plan_file(far), bytes), Refusal::Size);
        assert_eq!(refused(&plan_file(far), board_bytes(far)), Refusal::Size);
        assert_eq!(refused(&Reading::new(board), bytes), Refusal::NoData);
    }
}

/// A rehearsal on a noisy line, over a flash of zeros.
fn load_noisy(reading: &Reading, run: Run, noise: &Noise) -> (Session, Loader, Vec<u8>) {
    let board = reading.board();
    let mut loader = Loader::factory();
    let mut flash = vec![0x00; board.flash_bytes()];
    let (image, map) = (&reading.image, &reading.map);
    let ended = rehearse_noisy(board, run, image, map, &mut loader, &mut flash, noise).unwrap();
    (ended, loader, flash)
}

/// With so much rubbish before each, all is as on a quiet line.
fn check_as_quiet(reading: &Reading, run: Run, exchanges: &[Exchange], rubbish: &[u8]) {
    let quiet = load(reading, run, exchanges);
    for each in [0, 1, 7, 8, 9, rubbish.len(), usize::MAX] {
        let noise = Noise {
            exchanges,
            rubbish,
            each,
        };
        assert!(load_noisy(reading, run, &noise) == quiet, "{each}");
    }
}

/// Every byte but 07 and 08.
fn harmless() -> Vec<u8> {
    (0..=255u8)
        .filter(|byte| ![0x07, 0x08].contains(byte))
        .collect()
}

#[test]
fn rubbish_without_07_and_08_changes_no_rehearsal() {
    for reading in files([plan_file, three_pieces]) {
        for run in RUNS {
            let total = reading.session(run).total as usize;
            for lost in [Exchange::PacketLost, Exchange::AnswerLost] {
                for place in 0..=total + 1 {
                    check_as_quiet(&reading, run, &loss_at(place, lost), &harmless());
                }
            }
            check_as_quiet(&reading, run, &[], &[]);
        }
    }
}

#[test]
fn noisy_rehearsal_of_a_full_board() {
    for board in Board::ALL {
        let mut reading = full_file(board);
        for (at, byte) in reading.image.iter_mut().enumerate() {
            *byte = [0x07, 0x0E, 0x04][at % 3];
        }
        // each packet but the first has a lone 07 before it
        let noise = Noise {
            exchanges: &[],
            rubbish: &[0x55, 0x07].repeat(2000),
            each: 2,
        };
        let (ended, loader, flash) = load_noisy(&reading, Run::Reset, &noise);
        assert_eq!(ended.phase, Phase::Ended(Outcome::Valid));
        assert_eq!(ended.acknowledged, ended.total);
        assert_eq!(loader.condition, Condition::Left);
        assert!(flash == reading.image);
    }
}

/// How a load of the plan by reset ends with this rubbish before its E; before
/// 08 there are as many 00s.
fn check_rubbish(rubbish: &[u8], lost: Exchange, outcome: Outcome, acknowledged: u32) {
    for reading in files([plan_file]) {
        let before = [&vec![0x00; rubbish.len()], rubbish].concat();
        let noise = Noise {
            exchanges: &[Exchange::Whole, lost],
            rubbish: &before,
            each: rubbish.len(),
        };
        let (ended, _, _) = load_noisy(&reading, Run::Reset, &noise);
        assert_eq!(ended.phase, Phase::Ended(outcome), "{rubbish:02X?}");
        assert_eq!(ended.acknowledged, acknowledged, "{rubbish:02X?}");
    }
}

#[test]
fn answers_of_an_exchange_are_heard_as_one() {
    let three = [0x07, 0x0E, 0x04];
    check_rubbish(&three, Exchange::Whole, Outcome::WrongAnswer, 0);
    check_rubbish(&three, Exchange::PacketLost, Outcome::Refused, 0);
    check_rubbish(&three, Exchange::AnswerLost, Outcome::Silent, 0);
    let twice = [three, three].concat();
    check_rubbish(&twice, Exchange::PacketLost, Outcome::WrongAnswer, 0);
    // E of another page is acknowledged too
    check_rubbish(&ENDS_IN_07, Exchange::Whole, Outcome::WrongAnswer, 0);
}

/// The ACK to E of page 0 passes for that of the E that is lost, so that W goes
/// to a page of zeros and V differs.
#[test]
fn rubbish_before_a_lost_packet_arrives() {
    check_rubbish(&ENDS_IN_07, Exchange::PacketLost, Outcome::Refused, 2);
    check_rubbish(&[0x07], Exchange::PacketLost, Outcome::Silent, 0);
}

/// 11 bytes are wanted behind the count, and E has 10.
#[test]
fn rubbish_that_swallows_a_packet_is_silence() {
    let start = [0x07, 0x0E, 0x0A];
    check_rubbish(&start, Exchange::Whole, Outcome::Silent, 0);
    // with 10 wanted the packet completes what was begun
    let start = [0x07, 0x0E, 0x09];
    check_rubbish(&start, Exchange::Whole, Outcome::Refused, 0);
}

/// After an R in the rubbish nothing of E is heard, and W is silence.
#[test]
fn rubbish_that_is_r_leaves() {
    check_rubbish(&RESET, Exchange::Whole, Outcome::Silent, 1);
}

/// The same with the rubbish before 08 and none later.
fn check_before_08(rubbish: &[u8], lost: Exchange, outcome: Outcome, acknowledged: u32) {
    for reading in files([plan_file]) {
        let noise = Noise {
            exchanges: &[lost],
            rubbish,
            each: rubbish.len(),
        };
        let (ended, _, _) = load_noisy(&reading, Run::Reset, &noise);
        assert_eq!(ended.phase, Phase::Ended(outcome), "{rubbish:02X?}");
        assert_eq!(ended.acknowledged, acknowledged, "{rubbish:02X?}");
    }
}

#[test]
fn rubbish_before_the_greeting() {
    // nothing is fed before 08
    check_before_08(&[0x07, 0x0E], Exchange::Whole, Outcome::Valid, 4);
    // an 08 in the rubbish is as good
    check_before_08(&[0x55, 0x08], Exchange::Whole, Outcome::Valid, 4);
    check_before_08(&[0x55, 0x08], Exchange::PacketLost, Outcome::Valid, 4);
    check_before_08(&[0x55, 0x08], Exchange::AnswerLost, Outcome::Silent, 0);
    check_before_08(&[0x55, 0x07], Exchange::PacketLost, Outcome::Silent, 0);
    // the session's own 08 is then the count of a packet
    check_before_08(&[0x08, 0x07, 0x0E], Exchange::Whole, Outcome::Refused, 0);
    // a BEL behind the greeting
    let three = [0x08, 0x07, 0x0E, 0x04];
    check_before_08(&three, Exchange::Whole, Outcome::WrongGreeting, 0);
}

#[test]
fn noisy_rehearsal_refuses_20_then_32_and_sends_nothing() {
    for board in Board::ALL {
        let bytes = board_bytes(board);
        for (reading, flash, refusal) in [
            (plan_file(board), bytes - 1, Refusal::Size),
            (plan_file(board), board_bytes(other(board)), Refusal::Size),
            (plan_file(other(board)), bytes, Refusal::Size),
            (Reading::new(board), bytes + 1, Refusal::Size),
            (Reading::new(board), bytes, Refusal::NoData),
        ] {
            let noise = Noise {
                exchanges: &[],
                rubbish: &RESET,
                each: 9,
            };
            let mut loader = Served::new(board, 0x00).loader;
            let mut flash = vec![0x00; flash];
            let (image, map) = (&reading.image, &reading.map);
            let run = Run::Reset;
            let given = rehearse_noisy(board, run, image, map, &mut loader, &mut flash, &noise);
            assert_eq!(given, Err(refusal));
            assert_eq!(loader.condition, Condition::Serving);
            assert!(flash.iter().all(|byte| *byte == 0x00));
        }
    }
}

/// 253 pieces of 250 bytes and one of 238, each with 8 bytes before its packet.
#[test]
fn stream_of_the_bench_is_received() {
    let image = (0..63_488usize).map(|i| (i * 167 + i / 256 * 13) as u8);
    let image: Vec<u8> = image.collect();
    let mut sum = 0;
    for (i, piece) in image.chunks(250).enumerate() {
        let packet = built(Command::Write, i as u32 * 250, piece);
        sum += packet.iter().map(|byte| u64::from(*byte)).sum::<u64>();
    }
    for times in 0..3 {
        let done = bench::run("receive", times).unwrap();
        assert_eq!(done.given, times * (253 * (259 + 8) + 247 + 8));
        assert_eq!(done.sum, times * sum);
    }
}

#[test]
fn printed_listings() {
    let plan = "STEP KIND PACKET\n\
                1 E 070E06450000020001B2\n\
                2 W 070E07570000020012345A\n\
                3 V 070E07560000020090A170\n\
                4 R 070E055200000001A8\n\
                TOTAL 4\n";
    assert_eq!(listing::plan(b":020200001234B6\n:00000001FF\n"), plan);
    assert_eq!(listing::plan(b":020200001234B6\r\n:00000001FF"), plan);
    assert_eq!(listing::plan(b""), "REFUSED 0 31 0\n");
    assert_eq!(listing::plan(b"\n"), "REFUSED 1 22 0\n");
    assert_eq!(listing::plan(b":00000001FF\n"), "REFUSED 0 32 0\n");
    assert_eq!(listing::plan(b":00000001FF\n\n"), "REFUSED 2 21 0\n");
    assert_eq!(listing::plan(b":00000001FF\r\r\n"), "REFUSED 1 23 12\n");
    assert_eq!(listing::plan(b":00000001FF\r"), "REFUSED 1 23 12\n");
    assert_eq!(
        listing::readlog(&[0, 8, 1, 0, 0, 4, 0, 4, 0, 2]),
        "VERSION 1 OUTCOME 0 ACKED 4 TOTAL 4 BYTES 2\n"
    );
    assert_eq!(
        listing::readlog(&[0, 8, 1, 1, 0, 3, 0, 3, 0, 2]),
        "VERSION 1 OUTCOME 1 ACKED 3 TOTAL 3 BYTES 2\n"
    );
    assert_eq!(
        listing::readlog(&[0, 8, 1, 0, 0, 3, 0, 3, 0, 2]),
        "REFUSED 53\n"
    );
    assert_eq!(listing::readlog(&[]), "REFUSED 50\n");
}

#[test]
fn listings_of_version_2() {
    let read = |outcome, counts| listing::readlog(&log_record(Board::Long, outcome, counts));
    assert_eq!(
        read(0, [4, 4, 2]),
        "VERSION 2 OUTCOME 0 ACKED 4 TOTAL 4 BYTES 2\n"
    );
    assert_eq!(
        read(1, [126_977, 126_977, 63_488]),
        "VERSION 2 OUTCOME 1 ACKED 126977 TOTAL 126977 BYTES 63488\n"
    );
    assert_eq!(
        read(40, [0, u32::MAX, 126_976]),
        "VERSION 2 OUTCOME 40 ACKED 0 TOTAL 4294967295 BYTES 126976\n"
    );
    assert_eq!(read(0, [4, 4, 126_977]), "REFUSED 53\n");
    let record = log_record(Board::Long, 0, [4, 4, 2]);
    assert_eq!(listing::readlog(&record[..9]), "REFUSED 50\n");
    for length in 10..16 {
        assert_eq!(listing::readlog(&record[..length]), "REFUSED 51\n");
    }
    let longer = [&record[..], &[0]].concat();
    assert_eq!(listing::readlog(&longer), "REFUSED 51\n");
}

/// Programs stay with the short board.
#[test]
fn plan_is_of_the_short_board() {
    check_plans(&[
        (":01F800000007\n", "REFUSED 1 29 0"),
        (":02FFFF001234BA\n", "REFUSED 1 29 0"),
        (":020000040001F9\n:0100000000FF\n", "REFUSED 2 29 0"),
        (":020000021000EC\n:0100000000FF\n", "REFUSED 2 29 0"),
    ]);
    let records = written(&full_file(Board::Short)).join("\n");
    let planned = listing::plan(records.as_bytes());
    let lines: Vec<&str> = planned.lines().collect();
    assert_eq!(lines[1], "1 E 070E0645000000007C39");
    assert_eq!(lines[510], "510 R 070E055200000001A8");
    assert_eq!(lines[511..], ["TOTAL 510"]);
    let records = written(&full_file(Board::Long)).join("\n");
    let planned = listing::plan(records.as_bytes());
    assert_eq!(planned, "REFUSED 3969 29 0\n");
}

#[test]
fn plan_keeps_rule_set_1() {
    let plan = listing::plan(b":020200001234B6\n:00000001FF\n");
    // 16 times 0x0020 is added though 04 is the latest
    let text = ":020000020020DC\n:020000040000FA\n:020000001234B8\n:00000001FF\n";
    assert_eq!(listing::plan(text.as_bytes()), plan);
    check_plans(&[(
        ":020000040001F9\n:020000020020DC\n:020000001234B8\n",
        "REFUSED 3 29 0",
    )]);
}

/// Asks each line again and compares all.
fn check_lines(printed: &str) {
    let asked: String = printed
        .lines()
        .map(|line| format!("{}\n", cases::asked(line)))
        .collect();
    let mut output = Vec::new();
    cases::run(asked.as_bytes(), &mut output).unwrap();
    assert_eq!(String::from_utf8(output).unwrap(), printed);
}

/// Lines that lend each part as long as a board has it.
fn lent(board: Board) -> &'static str {
    match board {
        Board::Short => {
            "lend flash 63488 -> 0\nlend image 63488 -> 0\nlend map 7936 -> 0\nlend log 10 -> 0\n"
        }
        Board::Long => {
            "lend flash 126976 -> 0\nlend image 126976 -> 0\nlend map 15872 -> 0\nlend log 16 -> 0\n"
        }
    }
}

/// The same on a board, behind a file of two bytes.
fn check_cases(board: Board, printed: &str) {
    let (pages, lent) = (board.pages(), lent(board));
    let file = "hex -> 0\nrecord :020200001234B6 -> 0\nrecord :00000001FF -> 0\n";
    check_lines(&format!("board {pages} -> 0\n{lent}{file}{printed}"));
}

/// On each board, whose number of pages stands for `BOARD`, and what it greets
/// with for `GREETING`.
fn check_cases_of_both(printed: &str) {
    for (board, pages, length) in [
        (Board::Short, "124", "2D363220"),
        (Board::Long, "248", "2D313234"),
    ] {
        let greeting = format!("4144754337303278202020{length}493331202020200A0D");
        let printed = printed.replace("BOARD", pages);
        check_cases(board, &printed.replace("GREETING", &greeting));
    }
}

#[test]
fn case_lines_of_a_hold_session() {
    for (board, pages, greeting, record) in [
        (Board::Short, 124, "2D363220", "00080101000300030002"),
        (
            Board::Long,
            248,
            "2D313234",
            "000E0201000000030000000300000002",
        ),
    ] {
        check_cases(
            board,
            &format!(
                "start hold -> 0 08\n\
                 session -> 0 {pages} 2 0 0 0 0 0 3 2\n\
                 answer 4144754337303278202020{greeting}493331202020200A0D -> 0 070E06450000020001B2\n\
                 answer 06 -> 0 070E07570000020012345A\n\
                 answer 06 -> 0 070E07560000020090A170\n\
                 session -> 0 {pages} 2 3 0 512 0 2 3 2\n\
                 outcome -> 45\n\
                 proved 00000200 -> 0 0\n\
                 answer 06 -> 0 ended 1\n\
                 session -> 0 {pages} 2 5 0 0 1 3 3 2\n\
                 outcome -> 0 ended 1\n\
                 proved 00000200 -> 0 1\n\
                 log -> 0 {record}\n\
                 silence -> 44\n"
            ),
        );
    }
}

#[test]
fn case_lines_with_run_kinds_by_word_and_number() {
    for (word, number, total) in [
        ("reset", 0, 4),
        ("jump", 1, 4),
        ("hold", 2, 3),
        ("0", 0, 4),
        ("1", 1, 4),
        ("2", 2, 3),
        ("3", 2, 3),
        ("4294967295", 2, 3),
    ] {
        check_cases_of_both(&format!(
            "start {word} -> 0 08\nsession -> 0 BOARD {number} 0 0 0 0 0 {total} 2\n"
        ));
    }
    check_cases_of_both("start held -> ?\nstart  -> ?\nstart 4294967296 -> ?\n");
}

#[test]
fn case_lines_of_rehearsals_by_hold() {
    check_cases_of_both(
        "factory 00 -> 0\n\
         rehearse hold  -> 0 ended 1 3\n\
         session -> 0 BOARD 2 5 0 0 1 3 3 2\n\
         loader -> 0 0 0 4294967295 1 0 0 0\n\
         look flash 000001FF 4 -> 0 001234FF\n\
         rehearse hold 01 -> 0 ended 40 0\n\
         rehearse hold 00000001 -> 0 ended 40 2\n\
         rehearse hold 00000002 -> 0 ended 40 2\n\
         rehearse hold 0000000001 -> 0 ended 1 3\n\
         rehearse 2  -> 0 ended 1 3\n\
         rehearse 7  -> 0 ended 1 3\n\
         session -> 0 BOARD 2 5 0 0 1 3 3 2\n\
         rehearse reset  -> 0 ended 0 4\n\
         loader -> 0 0 0 4294967295 2 0 0 0\n",
    );
}

/// A record under any other number is hold's, and stays as it is if refused.
#[test]
fn case_lines_of_records_under_hold() {
    check_cases_of_both(
        "session BOARD 7 3 0 512 0 2 3 2 -> 0\n\
         proved 00000200 -> 0 0\n\
         answer 06 -> 0 ended 1\n\
         session -> 0 BOARD 2 5 0 0 1 3 3 2\n\
         session BOARD 7 3 0 512 0 2 4 2 -> 0\n\
         answer 06 -> 46\n\
         proved 00000200 -> 46\n\
         session -> 0 BOARD 7 3 0 512 0 2 4 2\n\
         session BOARD 0 3 0 512 0 2 3 2 -> 0\n\
         answer 06 -> 46\n\
         session BOARD 2 4 0 0 0 3 3 2 -> 0\n\
         answer 06 -> 46\n\
         proved 00000200 -> 46\n\
         outcome -> 45\n\
         log -> 45\n",
    );
}

#[test]
fn case_lines_of_ends_that_are_another_run_kinds() {
    for record in ["2 5 0 0 0 3 3 2", "0 5 0 0 1 4 4 2", "1 5 0 0 1 4 4 2"] {
        check_cases_of_both(&format!(
            "session BOARD {record} -> 0\n\
             outcome -> 45\n\
             log -> 45\n\
             proved 00000200 -> 46\n\
             answer 06 -> 44\n\
             silence -> 44\n\
             session -> 0 BOARD {record}\n"
        ));
    }
}

#[test]
fn case_lines_of_the_receiver() {
    check_lines(
        "receiver -> 0 0\n\
         byte 55 -> 0\n\
         byte 07 -> 0\n\
         receiver -> 0 07 1\n\
         byte 07 -> 0\n\
         receiver -> 0 07 1\n\
         byte 0E -> 0\n\
         byte 05 -> 0\n\
         bytes 520000 -> 0 3\n\
         receiver -> 0 070E0552 6\n\
         bytes  -> 0 0\n\
         bytes 0001A80700 -> 0 3 070E055200000001A8\n\
         receiver -> 0 070E055200000001A8 0\n\
         bytes 55070E04FF -> 0 4 070E04\n\
         receiver -> 0 070E045200000001A8 0\n\
         byte 07 -> 0\n\
         byte 0E -> 0\n\
         byte 00 -> 0 070E00\n\
         receiver -> 0 070E005200000001A8 0\n\
         hunt -> 0\n\
         receiver -> 0 0\n",
    );
}

/// What stands behind the bytes gathered, or behind the packet, stays.
#[test]
fn case_lines_of_a_receiver_with_bytes_behind() {
    check_lines(
        "receiver 1122334455667788 0 -> 0\n\
         byte 55 -> 0\n\
         receiver -> 0 1122334455667788 0\n\
         byte 07 -> 0\n\
         receiver -> 0 0722334455667788 1\n\
         byte 55 -> 0\n\
         receiver -> 0 0722334455667788 0\n\
         bytes 070E -> 0 2\n\
         receiver -> 0 070E334455667788 2\n\
         byte 04 -> 0 070E04\n\
         receiver -> 0 070E044455667788 0\n\
         bytes 070700 -> 0 3\n\
         receiver -> 0 070E044455667788 0\n",
    );
}

/// What stands third is N; what stands before it is taken for the start.
#[test]
fn case_lines_of_receivers_that_were_made_up() {
    for (bytes, length, byte, packet, after, left) in [
        ("55", 1, "0E", "", "550E", 2),
        ("55", 1, "07", "", "07", 1),
        ("55", 1, "55", "", "55", 0),
        ("", 1, "0E", "", "000E", 2),
        ("1122", 2, "05", "", "112205", 3),
        ("1122", 2, "04", " 112204", "112204", 0),
        ("", 2, "FF", "", "0000FF", 3),
        ("112200", 3, "77", " 11220077", "11220077", 0),
        ("112201", 3, "77", "", "11220177", 4),
        ("11220133", 4, "77", " 1122013377", "1122013377", 0),
        ("11220033", 4, "07", "", "07220033", 1),
        ("11220033", 4, "77", "", "11220033", 0),
        (
            "112205",
            8,
            "77",
            " 112205000000000077",
            "112205000000000077",
            0,
        ),
        ("112205", 9, "77", "", "112205", 0),
        ("112205", 9, "07", "", "072205", 1),
        ("1122FF", 259, "07", "", "0722FF", 1),
        ("1122FF", 260, "77", "", "1122FF", 0),
        ("1122FF", u64::MAX, "07", "", "0722FF", 1),
    ] {
        check_lines(&format!(
            "receiver {bytes} {length} -> 0\n\
             byte {byte} -> 0{packet}\n\
             receiver -> 0 {after} {left}\n\
             receiver {bytes} {length} -> 0\n\
             bytes {byte} -> 0 1{packet}\n\
             receiver -> 0 {after} {left}\n"
        ));
    }
}

#[test]
fn case_lines_of_the_longest_packet() {
    let front = format!("070EFF{}", "5A".repeat(255));
    check_lines(&format!(
        "bytes {front} -> 0 258\n\
         receiver -> 0 {front} 258\n\
         byte 07 -> 0 {front}07\n\
         receiver -> 0 {front}07 0\n\
         byte 0E -> 0\n\
         receiver -> 0 {front}07 0\n\
         receiver {front} 258 -> 0\n\
         bytes 070E -> 0 1 {front}07\n\
         receiver {front}0707 0 -> ?\n\
         receiver -> 0 {front}07 0\n"
    ));
}

/// A length that no bytes have been fed to stays, even where it is too large.
#[test]
fn case_lines_that_are_no_receiver() {
    check_lines(
        "receiver 07 300 -> 0\n\
         receiver  -> ?\n\
         receiver 07 -> ?\n\
         receiver 7 1 -> ?\n\
         receiver 0e 1 -> ?\n\
         receiver 07 01 -> ?\n\
         receiver 07 -1 -> ?\n\
         receiver 07 1 1 -> ?\n\
         receiver 07 18446744073709551616 -> ?\n\
         hunt  -> ?\n\
         byte -> ?\n\
         byte  -> ?\n\
         byte 7 -> ?\n\
         byte 070E -> ?\n\
         bytes -> ?\n\
         bytes 0 -> ?\n\
         bytes 07 0E -> ?\n\
         port -> ?\n\
         port 8 -> ?\n\
         port 08 08 -> ?\n\
         bytes  -> 0 0\n\
         port  -> 0 0\n\
         receiver -> 0 07 300\n\
         receiver  18446744073709551615 -> 0\n\
         receiver -> 0 18446744073709551615\n",
    );
}

#[test]
fn case_lines_of_a_port() {
    check_cases_of_both(
        "factory 00 -> 0\n\
         bytes 1107 -> 0 2\n\
         port  -> 0 0\n\
         receiver -> 0 07 1\n\
         port 070E08 -> 11 1\n\
         receiver -> 0 07 0\n\
         lend answer 25 -> 0\n\
         port 08070E -> 0 1 GREETING\n\
         port 08070E -> 0 3\n\
         receiver -> 0 070E 2\n\
         port 04070E -> 3 1 07\n\
         receiver -> 0 070E04 0\n\
         port 55070E06450000020001B2FF -> 0 11 06\n\
         look flash 000001FF 2 -> 0 00FF\n\
         port 070E055200000002A7 -> 7 9 07\n\
         port 070E055200000001A9 -> 4 9 07\n\
         receiver -> 0 070E055200000001A9B2 0\n\
         loader -> 0 0 0 4294967295 1 0 0 0\n\
         port 070E055200000001A8 -> 0 9 06\n\
         loader -> 0 0 0 4294967295 2 0 0 0\n\
         byte 07 -> 0\n\
         port 08 -> 11 1\n\
         receiver -> 0 070E055200000001A8B2 0\n\
         port  -> 0 0\n",
    );
}

/// 65, then 20, with no byte taken, whatever the receiver and the loader.
#[test]
fn case_lines_of_a_port_that_takes_nothing() {
    for condition in [0, 1, 2] {
        check_cases_of_both(&format!(
            "loader 0 0 0 {condition} 2 0 3 -> 0\n\
             receiver 070E04 2 -> 0\n\
             lend answer 23 -> 0\n\
             port  -> 20 0\n\
             port 04 -> 20 0\n\
             lend answer 24 -> 0\n\
             lend flash 63487 -> 0\n\
             port  -> 20 0\n\
             port 08 -> 20 0\n\
             board 125 -> 0\n\
             port  -> 65 0\n\
             port 08 -> 65 0\n\
             receiver -> 0 070E04 2\n\
             loader -> 0 0 0 0 {condition} 2 0 3\n"
        ));
    }
}

/// A refusal hands the loader back as it was; else its flags are 0 or 1.
#[test]
fn case_lines_of_a_port_with_any_loader() {
    check_lines(
        "loader 5 6 7 1 2 0 3 -> 0\n\
         port 070E04 -> 3 3 07\n\
         loader -> 0 5 6 7 1 2 0 3\n\
         port 07 -> 0 1\n\
         loader -> 0 5 6 7 1 1 0 1\n\
         loader 5 6 7 9 2 4 3 -> 0\n\
         port 08 -> 11 1\n\
         loader -> 0 5 6 7 9 2 4 3\n\
         receiver -> 0 070E04 0\n\
         loader 5 6 7 1 2 4 3 -> 0\n\
         port 070E065000000000018B -> 4 10 07\n\
         port 070E0650000000010 -> ?\n\
         port 070E06500000000001A9 -> 0 10 06\n\
         loader -> 0 7 0 0 1 1 0 0\n",
    );
}

/// Where the start was made up the loader says 1, and gives no answer.
#[test]
fn case_lines_of_a_port_with_any_receiver() {
    check_lines(
        "loader 0 0 0 1 0 0 0 -> 0\n\
         receiver 5566 2 -> 0\n\
         port 0455 -> 1 1\n\
         receiver -> 0 556604 0\n\
         receiver 070E00 3 -> 0\n\
         port 0455 -> 3 1 07\n\
         receiver -> 0 070E0004 0\n\
         receiver 070E05 9 -> 0\n\
         port 07 -> 0 1\n\
         receiver -> 0 070E05 1\n",
    );
}

#[test]
fn case_lines_of_noisy_rehearsals() {
    check_cases_of_both(
        "factory 00 -> 0\n\
         receiver 0711 1 -> 0\n\
         noisy reset 0   -> 0 ended 0 4\n\
         loader -> 0 0 0 4294967295 2 0 0 0\n\
         session -> 0 BOARD 0 5 0 0 0 4 4 2\n\
         look flash 000001FF 4 -> 0 001234FF\n\
         noisy hold 3  0102030405060708 -> 0 ended 1 3\n\
         loader -> 0 0 0 4294967295 1 0 0 0\n\
         noisy 7 3  080808 -> 0 ended 1 3\n\
         session -> 0 BOARD 2 5 0 0 1 3 3 2\n\
         noisy jump 1 01 08 -> 0 ended 0 4\n\
         noisy jump 1 01 07 -> 0 ended 40 0\n\
         noisy jump 3 0000 000000070E04 -> 0 ended 43 0\n\
         noisy jump 3 0001 000000070E04 -> 0 ended 41 0\n\
         noisy jump 3 0002 000000070E04 -> 0 ended 40 0\n\
         noisy jump 3 00FF 000000070E04 -> 0 ended 40 0\n\
         noisy jump 3  00000007 -> 0 ended 0 4\n\
         noisy jump 18446744073709551615  5508070E -> 0 ended 41 0\n\
         noisy jump 9223372036854775808  55 -> 0 ended 0 4\n\
         receiver -> 0 0711 1\n\
         noisy jump 18446744073709551616  55 -> ?\n\
         noisy held 0   -> ?\n\
         noisy jump 0  -> ?\n\
         noisy jump   -> ?\n\
         noisy jump 0 0  -> ?\n\
         noisy jump 0  0 -> ?\n\
         noisy jump 01   -> ?\n\
         noisy 4294967296 0   -> ?\n\
         session -> 0 BOARD 1 5 0 0 0 4 4 2\n",
    );
}

#[test]
fn case_lines_of_refused_noisy_rehearsals() {
    check_lines(
        "noisy reset 1  08 -> 32\n\
         session -> ?\n\
         lend map 7935 -> 0\n\
         noisy reset 1  08 -> 20\n\
         lend map 7936 -> 0\n\
         lend flash null -> 0\n\
         noisy reset 1  08 -> 20\n\
         board 125 -> 0\n\
         noisy reset 1  08 -> 65\n\
         session -> ?\n\
         loader -> 0 0 0 4294967295 0 0 0 0\n",
    );
}

/// What lines bring is lent, and what their calls may write must not overlap it.
#[test]
fn case_lines_of_bytes_from_the_line() {
    check_cases(
        Board::Short,
        "fill input 00000000 5 AA -> 0\n\
         noisy reset 1 0000 5566 -> 0 ended 0 4\n\
         look input 00000000 5 -> 0 00005566AA\n\
         changed -> 0 flash 00000200 1234\n\
         bytes 07 -> 0 1\n\
         look input 00000000 2 -> 0 0700\n\
         changed -> 0\n\
         factory 00 -> 0\n\
         port 08 -> 0 1 41447543373032782020202D363220493331202020200A0D\n\
         changed -> 0 answer 00000000 41447543373032782020202D363220493331202020200A0D\n\
         port 070E -> 0 2\n\
         changed -> 0\n\
         port 04 -> 3 1 07\n\
         changed -> 0 answer 00000000 07\n\
         hunt -> 0\n\
         changed -> 0\n\
         port 070E03 -> 3 3 07\n\
         changed -> 0\n\
         lend input flash 0000F7FF -> 0\n\
         port 07 -> ?\n\
         port  -> 0 0\n\
         noisy reset 0 00  -> ?\n\
         noisy reset 0  00 -> ?\n\
         bytes 07 -> 0 1\n\
         look flash 0000F7FF 1 -> 0 07\n\
         lend input flash 0000F7FE -> 0\n\
         noisy reset 0 00 00 -> ?\n\
         lend input flash 0000F800 -> 0\n\
         noisy reset 0 00 00 -> 0 ended 0 4\n\
         lend input answer 00000017 -> 0\n\
         port 07 -> ?\n\
         noisy reset 0  00 -> 0 ended 0 4\n\
         lend input spare 0001FFFF -> 0\n\
         bytes 0707 -> ?\n\
         port 0707 -> ?\n\
         noisy reset 0 00 00 -> ?\n\
         byte 0E -> 0\n\
         noisy reset 0  00 -> 0 ended 0 4\n\
         lend flash image 00000000 63488 -> 0\n\
         noisy reset 0   -> ?\n\
         port 55 -> 11 1\n\
         lend answer image 00000000 24 -> 0\n\
         port 55 -> ?\n\
         byte 55 -> 0\n\
         bytes 55 -> 0 1\n",
    );
}

/// The short board's sizes are lent until a line lends others.
#[test]
fn case_lines_begin_with_the_short_board() {
    check_lines(
        "reader -> 0 124 1 0 0 0 0 0\n\
         session -> ?\n\
         take 08 -> 0 41447543373032782020202D363220493331202020200A0D\n\
         hex -> 0\n\
         write 00000000 0000 -> 0 :00000001FF 0000F801 0000\n\
         board 248 -> 0\n\
         take 08 -> 20\n\
         hex -> 20 0\n\
         write 00000000 0000 -> 20\n\
         start hold -> 20\n\
         rehearse hold  -> 20\n\
         reader -> 0 124 1 0 0 0 0 0\n\
         record :010000005AA5 -> 0\n\
         board 124 -> 0\n\
         write 00000000 0000 -> 0 :010000005AA5 00000001 0000\n",
    );
}

#[test]
fn case_lines_that_are_no_board() {
    check_lines(
        "board -> ?\n\
         board  -> ?\n\
         board 0124 -> ?\n\
         board 7C -> ?\n\
         board short -> ?\n\
         board 124 248 -> ?\n\
         board 4294967296 -> ?\n\
         take 08 -> 0 41447543373032782020202D363220493331202020200A0D\n\
         board 4294967295 -> 0\n\
         board 0 -> 0\n\
         take  -> 65\n",
    );
}

#[test]
fn case_lines_of_the_writer() {
    let lines = "put image 0000FFFF 1234 -> 0\n\
                 put map 00001FFF 8001 -> 0\n\
                 write 00000000 0000 -> 0 :01FFFF0012EF 00010000 0000\n\
                 fill record 00000000 44 AA -> 0\n\
                 write 00010000 0000 -> 0 :020000040001F9 00010000 0001\n\
                 changed -> 0 record 00000000 3A30323030303030343030303146390A\n\
                 write 00010000 0001 -> 0 :0100000034CB 00010001 0001\n\
                 write 00010001 0001 -> 0 :00000001FF 0001F001 0001\n\
                 write 0001F001 0001 -> 0 0001F001 0001\n\
                 write 00000000 FFFF -> 0 :020000040000FA 00000000 0000\n\
                 write 00000000 -> ?\n\
                 write 00000000 000 -> ?\n\
                 write 00000000 00000 -> ?\n\
                 write 00000000 000a -> ?\n\
                 write 00000000 00000000 -> ?\n\
                 write 0000 0000 -> ?\n\
                 lend record 43 -> 0\n\
                 write 00010000 0000 -> 33\n\
                 lend map 7936 -> 0\n\
                 write 00010000 0000 -> 20\n";
    check_lines(&format!("board 248 -> 0\n{}{lines}", lent(Board::Long)));
}

/// They keep it, whatever board calls are told later.
#[test]
fn reader_and_session_carry_their_board() {
    check_lines(&format!(
        "board 248 -> 0\n\
         {}\
         hex -> 0\n\
         board 0 -> 0\n\
         record :020000040001F9 -> 0\n\
         record :01EFFF005AB7 -> 0\n\
         record :00000001FF -> 0\n\
         close -> 0\n\
         reader -> 0 248 1 65536 0 0 1 1\n\
         board 248 -> 0\n\
         start hold -> 0 08\n\
         board 124 -> 0\n\
         answer 41447543373032782020202D313234493331202020200A0D -> 0 070E06450001EE0001C5\n\
         answer 06 -> 0 070E06570001EFFF5A5A\n\
         answer 06 -> 0 070E06560001EFFFD2E3\n\
         answer 06 -> 0 ended 1\n\
         proved 0001EFFF -> 0 1\n\
         log -> 0 000E0201000000030000000300000001\n\
         session -> 0 248 2 5 0 0 1 3 3 1\n",
        lent(Board::Long)
    ));
}

#[test]
fn case_lines_with_records_of_too_few_or_too_many_fields() {
    check_lines(
        "reader 124 1 0 0 0 -> ?\n\
         reader 124 1 0 0 0 0 -> ?\n\
         reader 124 1 0 0 0 0 0 0 -> ?\n\
         reader 4294967296 1 0 0 0 0 0 -> ?\n\
         reader 124 4294967296 0 0 0 0 0 -> ?\n\
         reader 124 1 4294967296 0 0 0 0 -> ?\n\
         reader 124 1 0 4294967296 0 0 0 -> ?\n\
         reader 124 1 0 0 256 0 0 -> ?\n\
         reader 124 1 0 0 0 256 0 -> ?\n\
         reader 124 1 0 0 0 0 256 -> ?\n\
         reader -> 0 124 1 0 0 0 0 0\n\
         reader 248 7 2 3 4 5 6 -> 0\n\
         reader -> 0 248 7 2 3 4 5 6\n\
         session 2 5 0 0 1 3 3 2 -> ?\n\
         session 124 2 5 0 0 1 3 3 2 0 -> ?\n\
         session 4294967296 2 5 0 0 1 3 3 2 -> ?\n\
         session -> ?\n\
         session 0 2 5 0 0 1 3 3 2 -> 0\n\
         session -> 0 0 2 5 0 0 1 3 3 2\n",
    );
}

#[test]
fn case_lines_of_both_versions_of_the_log() {
    check_lines(
        "logread 00080100000400040002 -> 0 VERSION 1 OUTCOME 0 ACKED 4 TOTAL 4 BYTES 2\n\
         logread 000E0200000000040000000400000002 -> 0 VERSION 2 OUTCOME 0 ACKED 4 TOTAL 4 BYTES 2\n\
         logread 000E02 -> 50\n\
         logread 000E0200000400040002 -> 51\n\
         logread 00080100000000040000000400000002 -> 51\n\
         logread 00080200000400040002 -> 52\n\
         logread 000E0100000000040000000400000002 -> 52\n\
         logread 000E020000000004000000040001F001 -> 53\n\
         session 248 0 5 0 0 0 4 4 2 -> 0\n\
         log -> 20\n\
         lend log 15 -> 0\n\
         log -> 20\n\
         lend log 16 -> 0\n\
         log -> 0 000E0200000000040000000400000002\n\
         session 124 0 5 0 0 0 4 4 2 -> 0\n\
         log -> 0 00080100000400040002\n",
    );
}

/// Numbers of pages that no board has.
const NO_BOARDS: [u32; 9] = [0, 1, 62, 123, 125, 247, 249, 372, u32::MAX];

/// Whatever is lent, brought or kept, and nothing is written.
#[test]
fn unknown_board_is_65_before_all_else() {
    let lines = "factory 00 -> 0\n\
                 put map 00000000 FF -> 0\n\
                 board BOARD -> 0\n\
                 take 08 -> 65\n\
                 take 00 -> 65\n\
                 take  -> 65\n\
                 hex -> 65 0\n\
                 write 00000000 0000 -> 65\n\
                 write FFFFFFFF FFFF -> 65\n\
                 start hold -> 65\n\
                 rehearse hold  -> 65\n\
                 changed -> 0\n\
                 session -> ?\n\
                 loader -> 0 0 0 4294967295 0 0 0 0\n\
                 reader -> 0 124 1 0 0 0 0 0\n\
                 look answer 00000000 4 -> 0 AAAAAAAA\n\
                 look packet 00000000 4 -> 0 AAAAAAAA\n\
                 look record 00000000 4 -> 0 AAAAAAAA\n\
                 look map 00000000 2 -> 0 FF00\n";
    let wrong = "lend flash null -> 0\n\
                 lend answer null -> 0\n\
                 lend image null -> 0\n\
                 lend map null -> 0\n\
                 lend packet null -> 0\n\
                 lend record null -> 0\n";
    for pages in NO_BOARDS {
        let lines = lines.replace("BOARD", &pages.to_string());
        for lent in [wrong, lent(Board::Short), lent(Board::Long)] {
            check_lines(&format!("{lent}{lines}"));
        }
    }
}

#[test]
fn reader_of_an_unknown_board_is_65() {
    let lines = "reader BOARD RULES 0 0 0 ENDED 0 -> 0\n\
                 record :020000001234B8 -> 65 0\n\
                 record :0000 -> 65 0\n\
                 record  -> 65 0\n\
                 line 00 -> 65 0\n\
                 close -> 65 0\n\
                 changed -> 0\n\
                 lend image null -> 0\n\
                 record :020000001234B8 -> 65 0\n\
                 reader -> 0 BOARD RULES 0 0 0 ENDED 0\n";
    for pages in NO_BOARDS {
        for (rules, ended) in [("1", "0"), ("1", "1"), ("2", "0"), ("3", "1")] {
            let lines = lines.replace("BOARD", &pages.to_string());
            let lines = lines.replace("RULES", rules);
            check_lines(&lines.replace("ENDED", ended));
        }
    }
}

/// Numbers that no rule set has, among them 1 and 2 in their low bits alone.
const NO_RULE_SETS: [u32; 8] = [0, 3, 4, 257, 258, 65_537, 65_538, u32::MAX];

#[test]
fn case_lines_open_under_a_rule_set() {
    check_cases_of_both(
        "hex 2 -> 0\n\
         reader -> 0 BOARD 2 0 0 0 0 0\n\
         look image 00000200 2 -> 0 FFFF\n\
         look map 00000040 1 -> 0 00\n\
         hex 1 -> 0\n\
         reader -> 0 BOARD 1 0 0 0 0 0\n\
         hex 2 -> 0\n\
         record :020000001234B8 -> 0\n\
         record :00000001FF -> 0\n\
         close -> 0\n\
         reader -> 0 BOARD 2 0 0 0 1 1\n\
         hex -> 0\n\
         reader -> 0 BOARD 1 0 0 0 0 0\n\
         look image 00000000 2 -> 0 FFFF\n\
         hex  -> ?\n\
         hex 02 -> ?\n\
         hex -1 -> ?\n\
         hex two -> ?\n\
         hex 1 2 -> ?\n\
         hex 2  -> ?\n\
         hex 4294967296 -> ?\n\
         hex 4294967298 -> ?\n\
         reader -> 0 BOARD 1 0 0 0 0 0\n",
    );
}

#[test]
fn case_lines_of_a_record_that_wraps() {
    check_cases(
        Board::Long,
        "hex 2 -> 0\n\
         record :0200000200807C -> 0\n\
         reader -> 0 248 2 0 2048 1 0 0\n\
         record :04FFFE001122334455 -> 0\n\
         changed -> 0 image 00000800 3344 image 000107FE 1122 map 00000100 03 map 000020FF C0\n\
         reader -> 0 248 2 0 2048 1 0 1\n\
         record :04FFFE001122334455 -> 30 0\n\
         changed -> 0\n\
         record :020000040001F9 -> 0\n\
         reader -> 0 248 2 65536 2048 0 0 1\n\
         record :04FFFE001122334455 -> 29 0\n\
         changed -> 0\n\
         hex -> 0\n\
         record :0200000200807C -> 0\n\
         reader -> 0 248 1 0 2048 1 0 0\n\
         record :04FFFE001122334455 -> 0\n\
         changed -> 0 image 000107FE 11223344 map 000020FF C003\n\
         record :020000040001F9 -> 0\n\
         reader -> 0 248 1 65536 2048 0 0 1\n",
    );
}

/// Any value but 0 is a flag that is set, and an answer has 1 for it.
#[test]
fn case_lines_of_readers_with_any_flag() {
    let set = "reader 248 RULES 0 2048 FLAG 0 0 -> 0\n\
               record :04FFFE001122334466 -> 26 17\n\
               reader -> 0 248 RULES 0 2048 FLAG 0 0\n\
               record :04FFFE001122334455 -> 0\n";
    for flag in ["1", "2", "128", "255"] {
        for (rules, changed) in [
            ("1", "image 000107FE 11223344 map 000020FF C003"),
            (
                "2",
                "image 00000800 3344 image 000107FE 1122 map 00000100 03 map 000020FF C0",
            ),
        ] {
            let set = set.replace("RULES", rules).replace("FLAG", flag);
            check_cases(
                Board::Long,
                &format!(
                    "{set}changed -> 0 {changed}\n\
                     reader -> 0 248 {rules} 0 2048 1 0 1\n\
                     reader 248 {rules} 0 2048 {flag} 9 7 -> 0\n\
                     close -> 0\n\
                     reader -> 0 248 {rules} 0 2048 1 1 1\n"
                ),
            );
        }
    }
}

/// Behind 65 and 20, and neither file nor reader is another then.
#[test]
fn opening_under_an_unknown_rule_set_is_34() {
    for rules in NO_RULE_SETS {
        for (board, pages) in [(Board::Short, 124), (Board::Long, 248)] {
            let lent = lent(board);
            check_cases(
                board,
                &format!(
                    "board 0 -> 0\n\
                     hex {rules} -> 65 0\n\
                     lend map null -> 0\n\
                     hex {rules} -> 65 0\n\
                     board {pages} -> 0\n\
                     hex {rules} -> 20 0\n\
                     {lent}\
                     lend image 63487 -> 0\n\
                     hex {rules} -> 20 0\n\
                     {lent}\
                     hex {rules} -> 34 0\n\
                     changed -> 0\n\
                     look image 000001FF 4 -> 0 FF1234FF\n\
                     look map 00000040 1 -> 0 03\n\
                     reader -> 0 {pages} 1 0 0 0 1 1\n\
                     close -> 0\n"
                ),
            );
        }
    }
}

/// Behind 65 and 20, before 21 and all that a line can be refused for.
#[test]
fn record_under_an_unknown_rule_set_is_34() {
    let lines = "reader 0 RULES 65536 2048 7 ENDED 9 -> 0\n\
                 record :020000001234B8 -> 65 0\n\
                 reader BOARD RULES 65536 2048 7 ENDED 9 -> 0\n\
                 lend map null -> 0\n\
                 record :020000001234B8 -> 20 0\n\
                 record  -> 20 0\n\
                 LENT\
                 record :020000001234B8 -> 34 0\n\
                 record :0000000000 -> 34 0\n\
                 record :00000001FF -> 34 0\n\
                 record :020000040001F9 -> 34 0\n\
                 record :0200000200807C -> 34 0\n\
                 record  -> 34 0\n\
                 line 00 -> 34 0\n\
                 record :0000 -> 34 0\n\
                 record :0000000GFF -> 34 0\n\
                 record :01000000FF -> 34 0\n\
                 record :00000001FE -> 34 0\n\
                 record :00000006FA -> 34 0\n\
                 record :0100000100FE -> 34 0\n\
                 record :01FFFF000001 -> 34 0\n\
                 record :020200001234B6 -> 34 0\n\
                 changed -> 0\n\
                 look image 000001FF 4 -> 0 FF1234FF\n\
                 look map 00000040 1 -> 0 03\n\
                 reader -> 0 BOARD RULES 65536 2048 7 ENDED 9\n";
    for rules in NO_RULE_SETS {
        let lines = lines.replace("RULES", &rules.to_string());
        for board in Board::ALL {
            let lines = lines.replace("LENT", lent(board));
            let lines = lines.replace("BOARD", &board.pages().to_string());
            for ended in ["0", "1", "255"] {
                check_cases(board, &lines.replace("ENDED", ended));
            }
        }
    }
}

/// Behind 65, before 31 and 32; a file that could be closed is no other.
#[test]
fn closing_under_an_unknown_rule_set_is_34() {
    for rules in NO_RULE_SETS {
        for flags in [
            "0 0 0", "1 0 0", "0 1 0", "0 0 1", "255 9 0", "0 1 1", "1 255 7",
        ] {
            check_cases_of_both(&format!(
                "reader 0 {rules} 65536 2048 {flags} -> 0\n\
                 close -> 65 0\n\
                 reader BOARD {rules} 65536 2048 {flags} -> 0\n\
                 close -> 34 0\n\
                 lend image null -> 0\n\
                 lend map null -> 0\n\
                 close -> 34 0\n\
                 changed -> 0\n\
                 reader -> 0 BOARD {rules} 65536 2048 {flags}\n"
            ));
        }
    }
    for rules in [1, 2] {
        check_cases_of_both(&format!(
            "reader BOARD {rules} 0 0 0 0 0 -> 0\n\
             close -> 31 0\n\
             reader BOARD {rules} 0 0 0 1 0 -> 0\n\
             close -> 32 0\n\
             reader BOARD {rules} 0 0 0 1 1 -> 0\n\
             close -> 0\n"
        ));
    }
}

/// Of one that has ended too, and of one that came from no start.
#[test]
fn session_of_an_unknown_board_is_65_and_its_outcome_45() {
    let lines = "session BOARD FIELDS -> 0\n\
                 answer 06 -> 65\n\
                 silence -> 65\n\
                 proved 00000200 -> 65\n\
                 outcome -> 45\n\
                 log -> 65\n\
                 changed -> 0\n\
                 lend map null -> 0\n\
                 lend log null -> 0\n\
                 answer 06 -> 65\n\
                 proved 00000200 -> 65\n\
                 log -> 65\n\
                 session -> 0 BOARD FIELDS\n";
    for pages in NO_BOARDS {
        let lines = lines.replace("BOARD", &pages.to_string());
        for fields in [
            "2 0 0 0 0 0 3 2",
            "2 3 0 512 0 2 3 2",
            "2 5 0 0 1 3 3 2",
            "7 6 5 4 3 2 1 0",
        ] {
            check_cases(Board::Long, &lines.replace("FIELDS", fields));
        }
    }
}

#[test]
fn case_lines_of_a_plain_session() {
    for (board, pages, greeting, record) in [
        (Board::Short, 124, "2D363220", "00080100000400040002"),
        (
            Board::Long,
            248,
            "2D313234",
            "000E0200000000040000000400000002",
        ),
    ] {
        let greeting = format!("4144754337303278202020{greeting}493331202020200A0D");
        check_cases(
            board,
            &format!(
                "plain -> ?\n\
                 plain log -> ?\n\
                 plain start reset -> 0 08\n\
                 plain -> 0 {pages} 0 0 0 0 4 2\n\
                 session -> ?\n\
                 plain answer {greeting} -> 0 070E06450000020001B2\n\
                 plain -> 0 {pages} 0 1 0 0 4 2\n\
                 plain answer 06 -> 0 070E07570000020012345A\n\
                 plain event 0 06 -> 0 070E07560000020090A170\n\
                 plain outcome -> 45\n\
                 plain proved 00000200 -> 0 0\n\
                 plain answer 06 -> 0 070E055200000001A8\n\
                 plain proved 00000200 -> 0 1\n\
                 plain -> 0 {pages} 0 1 0 3 4 2\n\
                 plain answer 06 -> 0 ended 0\n\
                 changed -> 0\n\
                 plain -> 0 {pages} 0 2 0 4 4 2\n\
                 plain outcome -> 0 ended 0\n\
                 plain log -> 0 {record}\n\
                 plain silence -> 44\n\
                 outcome -> ?\n"
            ),
        );
    }
}

#[test]
fn case_lines_of_plain_records() {
    check_cases_of_both(
        "plain BOARD 7 1 0 2 3 2 -> 0\n\
         plain answer 06 -> 0 ended 1\n\
         plain -> 0 BOARD 2 2 1 3 3 2\n\
         plain BOARD 7 1 0 2 4 2 -> 0\n\
         plain answer 06 -> 46\n\
         plain proved 00000200 -> 46\n\
         plain -> 0 BOARD 7 1 0 2 4 2\n\
         plain BOARD 0 0 0 1 4 2 -> 0\n\
         plain answer GREETING -> 46\n\
         plain BOARD 0 3 0 1 4 2 -> 0\n\
         plain silence -> 46\n\
         plain outcome -> 45\n\
         plain BOARD 0 1 40 1 4 2 -> 0\n\
         plain event 1 06 -> 46\n\
         plain BOARD 0 2 1 4 4 2 -> 0\n\
         plain silence -> 44\n\
         plain proved 00000200 -> 46\n\
         plain outcome -> 45\n\
         plain log -> 45\n\
         plain BOARD 0 1 0 -> ?\n\
         plain BOARD 0 1 0 0 4 2 0 -> ?\n\
         plain start -> ?\n\
         plain session -> ?\n\
         plain -> 0 BOARD 0 2 1 4 4 2\n",
    );
}

#[test]
fn plain_session_of_an_unknown_board_is_65_and_its_outcome_45() {
    let lines = "plain BOARD FIELDS -> 0\n\
                 plain answer 06 -> 65\n\
                 plain silence -> 65\n\
                 plain proved 00000200 -> 65\n\
                 plain outcome -> 45\n\
                 plain log -> 65\n\
                 lend map null -> 0\n\
                 lend log null -> 0\n\
                 plain answer 06 -> 65\n\
                 plain proved 00000200 -> 65\n\
                 plain log -> 65\n\
                 board BOARD -> 0\n\
                 plain start hold -> 65\n\
                 changed -> 0\n\
                 plain -> 0 BOARD FIELDS\n";
    for pages in NO_BOARDS {
        let lines = lines.replace("BOARD", &pages.to_string());
        for fields in ["2 0 0 0 3 2", "2 1 0 2 3 2", "2 2 1 3 3 2", "7 6 5 4 3 2"] {
            check_cases(Board::Long, &lines.replace("FIELDS", fields));
        }
    }
}

fn check_plans(cases: &[(&str, &str)]) {
    for (text, printed) in cases {
        let planned = listing::plan(text.as_bytes());
        let head: String = text.chars().take(60).collect();
        assert_eq!(planned, format!("{printed}\n"), "{head:?}");
    }
}

#[test]
fn plan_prints_the_column() {
    check_plans(&[
        ("x\n", "REFUSED 1 22 0"),
        (":020200001234B6\n:0000\n", "REFUSED 2 23 5"),
        (":020200001234B6\r\n:0000000GFF\r\n", "REFUSED 2 24 8"),
        (":0000000\0FF\n", "REFUSED 1 24 8"),
        (":010000001234B8\n:00000001FF\n", "REFUSED 1 25 15"),
        (":020000001234B9\n", "REFUSED 1 26 13"),
        (":0000000000\n:00000006FA\n", "REFUSED 2 27 7"),
        (":0100000100FE\n", "REFUSED 1 28 1"),
        (":00000101FE\n", "REFUSED 1 28 3"),
        (":0100010100FD\n", "REFUSED 1 28 1"),
    ]);
}

#[test]
fn plan_prints_column_0_for_other_refusals() {
    check_plans(&[
        (":00000001FF\n:0000\n", "REFUSED 2 21 0"),
        (
            ":020000001234B8\n:0000000000\n:02F7FF00000008\n",
            "REFUSED 3 29 0",
        ),
        (":020000001234B8\n:010001000AF4\n", "REFUSED 2 30 0"),
        (":020000001234B8\n", "REFUSED 0 31 0"),
        (":00000001FF", "REFUSED 0 32 0"),
    ]);
}

#[test]
fn plan_drops_one_0d_and_only_before_0a() {
    check_plans(&[
        (":00000001F\n", "REFUSED 1 23 10"),
        (":00000001F\r\n", "REFUSED 1 23 10"),
        (":00000001F\r\r\n", "REFUSED 1 24 10"),
        (":00000001F\r", "REFUSED 1 24 10"),
        (":00000001FF\r\r\n", "REFUSED 1 23 12"),
        (":00000001FF\r\r\r\n", "REFUSED 1 24 11"),
        (":00000001FF\r", "REFUSED 1 23 12"),
        (":00000001FF\r\r", "REFUSED 1 24 11"),
        (":00000001FF\r0\n", "REFUSED 1 24 11"),
        (":00000001FF\r:00000001FF\n", "REFUSED 1 24 11"),
    ]);
}

#[test]
fn plan_of_empty_lines_and_of_a_colon_alone() {
    check_plans(&[
        ("\n", "REFUSED 1 22 0"),
        ("\r\n", "REFUSED 1 22 0"),
        ("\r\r\n", "REFUSED 1 22 0"),
        ("\r", "REFUSED 1 22 0"),
        (":020200001234B6\n\n", "REFUSED 2 22 0"),
        (":", "REFUSED 1 23 1"),
        (":\n", "REFUSED 1 23 1"),
        (":\r\n", "REFUSED 1 23 1"),
        (":\r\r\n", "REFUSED 1 23 2"),
        (":\r", "REFUSED 1 23 2"),
    ]);
}

/// Line ends, each with how many characters of it are the line's.
const LINE_ENDS: [(&str, usize); 7] = [
    ("\n", 0),
    ("\r\n", 0),
    ("\r\r\n", 1),
    ("\r\r\r\n", 2),
    ("", 0),
    ("\r", 1),
    ("\r\r", 2),
];

#[test]
fn plan_counts_the_whole_of_a_long_line() {
    for length in [522, 523, 524, 525, 600, 1000, 5000, 65_536, 70_000] {
        let digits = "0".repeat(length - 1);
        for (end, more) in LINE_ENDS {
            let (line, column) = (format!(":{digits}{end}"), length + more);
            check_plans(&[
                (&line, &format!("REFUSED 1 23 {column}")),
                (
                    &format!(":020200001234B6\r\n{line}"),
                    &format!("REFUSED 2 23 {column}"),
                ),
                (
                    &format!(":020200001234B6\n:00000001FF\n{line}"),
                    "REFUSED 3 21 0",
                ),
                (&format!("0{digits}{end}"), "REFUSED 1 22 0"),
            ]);
        }
    }
}

#[test]
fn plan_of_a_line_of_521_characters() {
    let line = long_line(":FE000000", "02");
    for (end, more) in LINE_ENDS {
        let printed = match more {
            0 => "REFUSED 1 25 521",
            1 => "REFUSED 1 23 522",
            _ => "REFUSED 1 23 523",
        };
        check_plans(&[(&format!("{line}{end}"), printed)]);
    }
}

#[test]
fn plan_of_ten_million_digits() {
    let digits = "0".repeat(10_000_000);
    check_plans(&[
        (&format!(":{digits}"), "REFUSED 1 23 10000001"),
        (&format!(":{digits}\r\n"), "REFUSED 1 23 10000001"),
        (&digits, "REFUSED 1 22 0"),
    ]);
}

/// What a record says as the six numbers of a station, in the order of the
/// header.
fn station_read(record: &[u8]) -> Result<[u64; 6], u8> {
    numbers(stations::read(record))
}

fn numbers(given: Result<Station, Refusal>) -> Result<[u64; 6], u8> {
    given
        .map(|station| StationRecord::from(station).fields())
        .map_err(Refusal::number)
}

/// The record of the station with these numbers, written into so many bytes; a
/// refusal leaves them, and bytes past the record stay.
fn station_written(fields: [u64; 6], room: usize) -> Result<Vec<u8>, u8> {
    let mut buffer = vec![0xAA; room];
    let station = StationRecord::of_fields(&fields).unwrap();
    let written = station.write(&mut buffer);
    let length = written.unwrap_or(0);
    assert!(buffer[length..].iter().all(|byte| *byte == 0xAA));
    written
        .map(|length| buffer[..length].to_vec())
        .map_err(Refusal::number)
}

const STATION_7: [u8; 8] = [0, 6, 1, 0, 7, 0, 1, 0];

#[test]
fn record_of_a_station_reads_by_its_version() {
    for (record, fields) in [
        (&STATION_7[..], [1, 7, 0, 1, 0, 123]),
        (&[0, 6, 1, 0x12, 0x34, 1, 2, 10], [1, 0x1234, 1, 2, 10, 123]),
        (
            &[0, 6, 1, 0xFF, 0xFF, 2, 1, 123],
            [1, 65_535, 2, 1, 123, 123],
        ),
        (&[0, 7, 2, 0, 7, 0, 1, 0, 50], [2, 7, 0, 1, 0, 50]),
        (&[0, 7, 2, 0, 7, 0, 1, 0, 123], [2, 7, 0, 1, 0, 123]),
        (&[0, 7, 2, 0, 0, 2, 2, 50, 50], [2, 0, 2, 2, 50, 50]),
    ] {
        assert_eq!(station_read(record), Ok(fields), "{record:?}");
        let station = stations::read(record).unwrap();
        assert_eq!(station.record(), record);
    }
}

/// 63 under three bytes, then 62, then 63 for each length but the version's.
#[test]
fn lengths_of_a_stations_record() {
    for length in 0..=20 {
        let numbers: Vec<Result<[u64; 6], u8>> = [(6, 0), (6, 1), (7, 2), (7, 3)]
            .into_iter()
            .map(|(field, version)| {
                let mut record = vec![0, field, version, 0, 7, 0, 1, 0, 123];
                record.resize(length, 0);
                station_read(&record)
            })
            .collect();
        let expected = match length {
            ..3 => [Err(63); 4],
            8 => [Err(62), Ok([1, 7, 0, 1, 0, 123]), Err(63), Err(62)],
            9 => [Err(62), Err(63), Ok([2, 7, 0, 1, 0, 123]), Err(62)],
            _ => [Err(62), Err(63), Err(63), Err(62)],
        };
        assert_eq!(numbers, expected, "{length} bytes");
    }
}

#[test]
fn every_version_but_1_and_2_is_62() {
    for version in (0..=0).chain(3..=255) {
        for record in [
            &[0, 6, version, 0, 7, 0, 1, 0][..],
            &[0, 7, version, 0, 7, 0, 1, 0, 50],
            &[0, 7, version, 0, 7, 3, 3, 124, 124],
            &[0xFF, 0xFF, version],
            &[0, 6, version, 0, 7],
        ] {
            assert_eq!(station_read(record), Err(62), "{record:?}");
        }
    }
}

#[test]
fn length_field_must_be_the_versions() {
    for field in 0..=0xFFFF_u16 {
        let [high, low] = field.to_be_bytes();
        let first = station_read(&[high, low, 1, 0, 7, 0, 1, 0]);
        assert_eq!(first.is_ok(), field == 6, "{field}");
        let second = station_read(&[high, low, 2, 0, 7, 0, 1, 0, 50]);
        assert_eq!(second.is_ok(), field == 7, "{field}");
        assert_eq!([first, second].iter().find_map(|read| read.err()), Some(63));
    }
}

#[test]
fn run_kind_and_rule_set_of_a_record() {
    for value in 0..=255 {
        let run = station_read(&[0, 6, 1, 0, 7, value, 1, 0]);
        let expected = [1, 7, value.into(), 1, 0, 123];
        assert_eq!(run, (value <= 2).then_some(expected).ok_or(63));
        let rules = station_read(&[0, 7, 2, 0, 7, 0, value, 0, 50]);
        let expected = [2, 7, 0, value.into(), 0, 50];
        let known = value == 1 || value == 2;
        assert_eq!(rules, known.then_some(expected).ok_or(63));
    }
}

#[test]
fn pages_of_a_record() {
    for first in 0..=255 {
        let read = station_read(&[0, 6, 1, 0, 7, 0, 1, first]);
        let expected = [1, 7, 0, 1, first.into(), 123];
        assert_eq!(read, (first <= 123).then_some(expected).ok_or(63));
        for last in 0..=255 {
            let read = station_read(&[0, 7, 2, 0, 7, 0, 1, first, last]);
            let expected = [2, 7, 0, 1, first.into(), last.into()];
            let within = first <= last && last <= 123;
            assert_eq!(read, within.then_some(expected).ok_or(63));
        }
    }
}

#[test]
fn version_1_is_written_back_if_only_old_fields_changed() {
    for (fields, record) in [
        ([1, 7, 0, 1, 0, 123], STATION_7),
        ([1, 8, 0, 1, 0, 123], [0, 6, 1, 0, 8, 0, 1, 0]),
        ([1, 0x1234, 0, 1, 0, 123], [0, 6, 1, 0x12, 0x34, 0, 1, 0]),
        ([1, 7, 2, 1, 0, 123], [0, 6, 1, 0, 7, 2, 1, 0]),
        ([1, 7, 0, 2, 0, 123], [0, 6, 1, 0, 7, 0, 2, 0]),
        ([1, 7, 0, 1, 123, 123], [0, 6, 1, 0, 7, 0, 1, 123]),
    ] {
        assert_eq!(station_written(fields, 8), Ok(record.to_vec()));
        assert_eq!(station_written(fields, 30), Ok(record.to_vec()));
    }
}

/// A changed last page makes version 2, and so does version 2 by itself.
#[test]
fn version_2_is_written_with_its_last_page() {
    for last in 0..=123 {
        let record = vec![0, 7, 2, 0, 7, 0, 1, 0, last];
        let fields = [2, 7, 0, 1, 0, last.into()];
        assert_eq!(station_written(fields, 9), Ok(record.clone()));
        assert_eq!(station_read(&record), Ok(fields));
        if last != 123 {
            let changed = [1, 7, 0, 1, 0, last.into()];
            assert_eq!(station_written(changed, 9), Ok(record));
        }
    }
}

#[test]
fn writing_a_station_refuses_20_then_62_then_63() {
    for (fields, rooms) in [
        ([1, 7, 0, 1, 0, 123], [20, 0, 0]),
        ([1, 7, 0, 1, 0, 122], [20, 20, 0]),
        ([2, 7, 0, 1, 0, 123], [20, 20, 0]),
        ([1, 7, 3, 1, 0, 123], [20, 63, 63]),
        ([1, 7, 3, 1, 0, 122], [20, 20, 63]),
        ([1, 7, 0, 1, 0, 124], [20, 20, 63]),
        ([2, 7, 3, 1, 0, 123], [20, 20, 63]),
        ([0, 7, 0, 1, 0, 123], [20, 20, 62]),
        ([3, 65_536, 3, 0, 124, 124], [20, 20, 62]),
        ([257, 7, 0, 1, 0, 123], [20, 20, 62]),
    ] {
        for (room, number) in (7..).zip(rooms) {
            let written = station_written(fields, room);
            assert_eq!(written.err().unwrap_or(0), number, "{fields:?} in {room}");
        }
    }
}

#[test]
fn made_up_station_with_a_field_out_of_range_is_63() {
    for fields in [
        [1, 65_536, 0, 1, 0, 123],
        [2, 65_543, 0, 1, 0, 123],
        [1, 7, 3, 1, 0, 123],
        [1, 7, 256, 1, 0, 123],
        [1, 7, 0, 0, 0, 123],
        [1, 7, 0, 3, 0, 123],
        [2, 7, 0, 257, 0, 123],
        [1, 7, 0, 1, 124, 123],
        [1, 7, 0, 1, 0, 124],
        [2, 7, 0, 1, 124, 124],
        [2, 7, 0, 1, 51, 50],
        [1, 7, 0, 1, 51, 50],
        [2, 7, 0, 1, 256, 123],
        [2, 7, 0, 1, 0, 379],
        [2, 0xFFFF_FFFF, 0xFFFF_FFFF, 0xFFFF_FFFF, 0, 0xFFFF_FFFF],
    ] {
        assert_eq!(station_written(fields, 9), Err(63), "{fields:?}");
    }
}

/// A table of stations, with what comes of calls as numbers.
struct Table(Vec<u8>);

impl Table {
    fn new() -> Table {
        let mut bytes = vec![0xAA; 1024];
        stations::empty(&mut bytes).unwrap();
        assert_eq!(bytes, [0; 1024]);
        Table(bytes)
    }

    /// One with these bytes at the start of some places.
    fn with(places: &[(usize, &[u8])]) -> Table {
        let mut table = Table::new();
        for (place, bytes) in places {
            table.0[16 * place..][..bytes.len()].copy_from_slice(bytes);
        }
        table
    }

    /// Refusals change no byte.
    fn change<T>(&mut self, call: impl Fn(&mut [u8]) -> Result<T, Refusal>) -> Result<T, u8> {
        let before = self.0.clone();
        let done = call(&mut self.0);
        assert!(done.is_ok() || self.0 == before);
        done.map_err(Refusal::number)
    }

    fn store(&mut self, record: &[u8]) -> Result<u32, u8> {
        self.change(|table| stations::store(table, record))
    }

    fn delete(&mut self, number: u32) -> Result<(), u8> {
        self.change(|table| stations::delete(table, number))
    }

    fn free(&mut self, place: u32) -> Result<(), u8> {
        self.change(|table| stations::free(table, place))
    }

    fn find(&self, number: u32) -> Result<[u64; 6], u8> {
        numbers(stations::find(&self.0, number))
    }

    fn list(&self, place: u32) -> Result<[u64; 6], u8> {
        numbers(stations::list(&self.0, place))
    }

    fn at(&self, place: u32) -> Result<Place, u8> {
        stations::at(&self.0, place).map_err(Refusal::number)
    }

    fn bytes(&self, place: usize) -> &[u8] {
        &self.0[16 * place..16 * (place + 1)]
    }
}

/// A version 1 record of a station.
fn record_of(number: u16) -> Vec<u8> {
    let [high, low] = number.to_be_bytes();
    vec![0, 6, 1, high, low, 0, 1, 0]
}

#[test]
fn empty_table_has_64_free_places_and_no_station() {
    let mut table = Table::new();
    for place in 0..64 {
        assert_eq!(table.at(place), Ok(Place::Free));
        assert_eq!(table.list(place), Err(60));
        assert_eq!(table.free(place), Err(60));
    }
    for place in [64, 65, 256, u32::MAX] {
        assert_eq!(table.at(place), Err(60));
        assert_eq!(table.list(place), Err(60));
        assert_eq!(table.free(place), Err(60));
    }
    assert_eq!((table.find(0), table.delete(0)), (Err(60), Err(60)));
}

#[test]
fn record_is_stored_in_the_lowest_free_place_with_00_behind_it() {
    let mut table = Table::new();
    assert_eq!(table.store(&STATION_7), Ok(0));
    assert_eq!(table.store(&[0, 7, 2, 0, 8, 2, 2, 10, 20]), Ok(1));
    let first = [0, 6, 1, 0, 7, 0, 1, 0, 0, 0, 0, 0, 0, 0, 0, 0];
    let second = [0, 7, 2, 0, 8, 2, 2, 10, 20, 0, 0, 0, 0, 0, 0, 0];
    assert_eq!((table.bytes(0), table.bytes(1)), (&first[..], &second[..]));
    assert!(table.0[32..].iter().all(|byte| *byte == 0));
    assert_eq!(table.find(7), Ok([1, 7, 0, 1, 0, 123]));
    assert_eq!(table.find(8), Ok([2, 8, 2, 2, 10, 20]));
    assert_eq!(table.list(1), table.find(8));
    assert_eq!(table.find(0), Err(60));
}

#[test]
fn storing_a_number_already_held_replaces_its_record() {
    let mut table = Table::new();
    assert_eq!(table.store(&record_of(6)), Ok(0));
    assert_eq!(table.store(&[0, 7, 2, 0, 7, 1, 2, 122, 123]), Ok(1));
    assert_eq!(table.store(&record_of(8)), Ok(2));
    assert_eq!(table.store(&STATION_7), Ok(1));
    let alone = [0, 6, 1, 0, 7, 0, 1, 0, 0, 0, 0, 0, 0, 0, 0, 0];
    assert_eq!(table.bytes(1), alone);
    assert_eq!(table.at(3), Ok(Place::Free));
    // the lower place that is free then does not draw it away
    assert_eq!(table.delete(6), Ok(()));
    assert_eq!(table.store(&[0, 6, 1, 0, 7, 2, 1, 0]), Ok(1));
    assert_eq!(table.at(0), Ok(Place::Free));
}

#[test]
fn deleted_place_is_used_again() {
    let mut table = Table::new();
    for number in 0..5 {
        assert_eq!(table.store(&record_of(number)), Ok(number.into()));
    }
    assert_eq!((table.delete(3), table.delete(1)), (Ok(()), Ok(())));
    assert_eq!((table.find(1), table.delete(1)), (Err(60), Err(60)));
    assert_eq!(table.bytes(1), [0; 16]);
    assert_eq!(table.store(&record_of(9)), Ok(1));
    assert_eq!(table.store(&record_of(10)), Ok(3));
    assert_eq!(table.store(&record_of(11)), Ok(5));
}

#[test]
fn full_table_is_61_unless_it_holds_the_number() {
    let mut table = Table::new();
    for number in 0..64 {
        assert_eq!(table.store(&record_of(number)), Ok(number.into()));
    }
    assert_eq!(table.store(&record_of(64)), Err(61));
    for number in [0, 31, 63] {
        let replaced = [0, 7, 2, 0, number, 2, 2, 5, 10];
        assert_eq!(table.store(&replaced), Ok(number.into()));
        let fields = [2, number.into(), 2, 2, 5, 10];
        assert_eq!(table.find(number.into()), Ok(fields));
    }
    for (record, number) in [
        (&[][..], 63),
        (&[0, 6], 63),
        (&[0, 6, 3], 62),
        (&[0, 6, 1, 0, 64, 0, 1], 63),
        (&[0, 6, 1, 0, 64, 3, 1, 0], 63),
        (&[0, 7, 2, 0, 64, 0, 1, 51, 50], 63),
    ] {
        assert_eq!(table.store(record), Err(number), "{record:?}");
    }
    assert_eq!(table.delete(40), Ok(()));
    assert_eq!(table.store(&record_of(64)), Ok(40));
    assert_eq!(table.store(&record_of(40)), Err(61));
}

#[test]
fn table_of_another_size_holds_no_station() {
    for size in [0, 1, 16, 1008, 1023, 1025, 1040, 2048] {
        let mut table = Table(Table::with(&[(0, &STATION_7)]).0.repeat(2));
        table.0.truncate(size);
        assert_eq!((table.find(7), table.list(0)), (Err(60), Err(60)));
        assert_eq!(table.at(0), Err(60));
        assert_eq!((table.delete(7), table.free(0)), (Err(60), Err(60)));
        for record in [&[][..], &[0, 6, 3], &STATION_7] {
            assert_eq!(table.store(record), Err(20));
        }
        assert_eq!(table.change(stations::empty), Err(20));
    }
}

#[test]
fn number_above_65535_is_held_by_no_place() {
    let mut table = Table::new();
    for number in [0, 7, 65_535] {
        table.store(&record_of(number)).unwrap();
    }
    assert_eq!(table.find(65_535), Ok([1, 65_535, 0, 1, 0, 123]));
    for number in [65_536, 65_543, 131_071, u32::MAX] {
        assert_eq!(table.find(number), Err(60));
        assert_eq!(table.delete(number), Err(60));
    }
    assert_eq!((table.delete(65_535), table.delete(0)), (Ok(()), Ok(())));
}

/// Places that are neither free nor have a station.
const DAMAGED: [&[u8]; 12] = [
    // later versions
    &[0, 6, 3, 0, 7, 0, 1, 0],
    &[0, 8, 3, 0, 7, 0, 1, 0, 50, 1],
    // a byte behind a record
    &[0, 6, 1, 0, 7, 0, 1, 0, 1],
    &[0, 6, 1, 0, 7, 0, 1, 0, 0, 0, 0, 0, 0, 0, 0, 1],
    &[0, 7, 2, 0, 7, 0, 1, 0, 50, 0, 0, 0, 0, 0, 0, 1],
    // records cut short
    &[0, 6, 1, 0, 7],
    &[0, 7, 2, 0, 7, 0, 1, 1],
    // a length that is not the version's
    &[0, 7, 1, 0, 7, 0, 1, 0, 123],
    &[0, 6, 2, 0, 7, 0, 1, 0],
    // a field out of range
    &[0, 6, 1, 0, 7, 0, 1, 124],
    &[0xFF; 16],
    &[0, 0, 0, 0, 0, 0, 0, 0, 0, 0, 0, 0, 0, 0, 0, 1],
];

#[test]
fn damaged_place_is_no_station_and_no_store_takes_it() {
    for damaged in DAMAGED {
        let mut table = Table::with(&[(0, damaged)]);
        let before = table.bytes(0).to_vec();
        assert_eq!(table.at(0), Ok(Place::Damaged), "{damaged:?}");
        assert_eq!((table.list(0), table.find(7)), (Err(60), Err(60)));
        assert_eq!(table.delete(7), Err(60));
        assert_eq!(table.store(&STATION_7), Ok(1));
        assert_eq!(table.find(7), Ok([1, 7, 0, 1, 0, 123]));
        assert_eq!(table.delete(7), Ok(()));
        assert_eq!(table.bytes(0), before);
    }
}

#[test]
fn damaged_place_is_freed_by_its_place_alone() {
    let places: Vec<(usize, &[u8])> = (0..).zip(DAMAGED.into_iter().cycle().take(64)).collect();
    let mut table = Table::with(&places);
    assert_eq!(table.store(&STATION_7), Err(61));
    assert_eq!(table.store(&[0, 6, 3]), Err(62));
    assert_eq!(table.free(64), Err(60));
    for (number, place) in (100..).zip([63, 5, 40]) {
        assert_eq!(table.free(place), Ok(()));
        assert_eq!(table.at(place), Ok(Place::Free));
        assert_eq!(table.free(place), Err(60));
        assert_eq!(table.store(&record_of(number)), Ok(place));
        assert_eq!(table.store(&record_of(99)), Err(61));
    }
}

#[test]
fn lowest_readable_place_holds_a_number() {
    let record = |run| [0, 6, 1, 0, 7, run, 1, 0];
    let mut table = Table::with(&[
        (1, DAMAGED[2]),
        (3, &record(0)),
        (6, &record(1)),
        (63, &record(2)),
    ]);
    assert_eq!(table.find(7), Ok([1, 7, 0, 1, 0, 123]));
    assert_eq!(table.store(&[0, 6, 1, 0, 7, 0, 2, 9]), Ok(3));
    assert_eq!(table.list(6), Ok([1, 7, 1, 1, 0, 123]));
    assert_eq!(table.free(3), Ok(()));
    assert_eq!(table.find(7), Ok([1, 7, 1, 1, 0, 123]));
    assert_eq!(table.store(&record(0)), Ok(6));
    assert_eq!(table.at(3), Ok(Place::Free));
}

#[test]
fn deleting_frees_every_readable_place_with_the_number() {
    let mut table = Table::with(&[
        (0, DAMAGED[2]),
        (1, &record_of(8)),
        (2, &STATION_7),
        (30, &[0, 7, 2, 0, 7, 2, 2, 1, 2]),
        (63, &STATION_7),
    ]);
    let left = Table::with(&[(0, DAMAGED[2]), (1, &record_of(8))]);
    assert_eq!(table.delete(7), Ok(()));
    assert_eq!(table.0, left.0);
    assert_eq!(table.delete(7), Err(60));
}

/// Which values of one byte of a place leave it readable.
#[test]
fn place_with_one_byte_changed() {
    let base = Table::with(&[(0, &[0, 6, 1, 0, 7, 0, 1, 10]), (1, &record_of(8))]);
    for index in 0..16 {
        for byte in 0..=255 {
            let mut table = Table(base.0.clone());
            table.0[index] = byte;
            let readable = match index {
                3 | 4 => true,
                5 => byte <= 2,
                6 => byte == 1 || byte == 2,
                7 => byte <= 123,
                _ => byte == base.0[index],
            };
            let found = matches!(table.at(0), Ok(Place::Station(_)));
            assert_eq!(found, readable, "{byte} at {index}");
            assert!(readable || table.at(0) == Ok(Place::Damaged));
            assert!(table.find(8).is_ok());
        }
    }
}

/// A table with the station 7 of this run kind and these bounds.
fn bounded(run: Run, first: u8, last: u8) -> Table {
    Table::with(&[(0, &[0, 7, 2, 0, 7, run.number(), 1, first, last])])
}

/// Starts a session for a station; a refusal writes nothing.
fn start_for(table: &Table, number: u32, reading: &Reading) -> Result<Session, u8> {
    let mut packet = [0xAA; 300];
    let (image, map) = (&reading.image, &reading.map);
    let started = stations::start(&table.0, number, image, map, &mut packet);
    let length = started.map_or(0, |(_, length)| length);
    assert_eq!(packet[..length], [0x08][..length]);
    assert!(packet[length..].iter().all(|byte| *byte == 0xAA));
    started.map(|(session, _)| session).map_err(Refusal::number)
}

/// Pages 10, 15 and 20, each by one byte.
fn three_pages() -> Reading {
    let records = [0x1400, 0x1E00, 0x29FF].map(|at| hex_record(0, at, &[0x11]));
    Reading::of(Board::Short, &texts(&records))
}

#[test]
fn session_starts_within_the_bounds_of_its_station() {
    let reading = three_pages();
    for first in 0..=123 {
        for last in first..=123 {
            let table = bounded(Run::Reset, first, last);
            let started = start_for(&table, 7, &reading);
            let within = first <= 10 && last >= 20;
            let expected = within.then(|| reading.session(Run::Reset)).ok_or(64);
            assert_eq!(started, expected, "{first} to {last}");
        }
    }
}

#[test]
fn each_page_is_allowed_by_bounds_that_reach_it() {
    for page in [0, 1, 2, 60, 122, 123] {
        for at in [512 * page, 512 * page + 511] {
            let record = hex_record(0, at, &[0x11]);
            let reading = Reading::of(Board::Short, &[&record]);
            let page = page as u8;
            for (first, last) in [(0, page), (page, page), (page, 123)] {
                let table = bounded(Run::Hold, first, last);
                let session = reading.session(Run::Hold);
                assert_eq!(start_for(&table, 7, &reading), Ok(session));
            }
            if page > 0 {
                let below = bounded(Run::Hold, 0, page - 1);
                assert_eq!(start_for(&below, 7, &reading), Err(64));
            }
            if page < 123 {
                let above = bounded(Run::Hold, page + 1, 123);
                assert_eq!(start_for(&above, 7, &reading), Err(64));
            }
        }
    }
}

#[test]
fn start_for_a_station_refuses_60_20_32_64() {
    let (outside, within) = (bounded(Run::Reset, 11, 20), bounded(Run::Reset, 10, 20));
    let (file, nothing) = (three_pages(), Reading::new(Board::Short));
    let mut wrong = Table(within.0.clone());
    wrong.0.pop();
    let started = |table: &Table, number, reading: &Reading, room: usize| {
        let mut packet = vec![0xAA; room];
        let (image, map) = (&reading.image, &reading.map);
        let given = stations::start(&table.0, number, image, map, &mut packet);
        assert!(given.is_ok() || packet.iter().all(|byte| *byte == 0xAA));
        given.map_or_else(Refusal::number, |_| 0)
    };
    for (table, number, reading, room, expected) in [
        (&within, 8, &nothing, 258, 60),
        (&wrong, 7, &nothing, 258, 60),
        (&within, 65_543, &file, 259, 60),
        (&outside, 7, &nothing, 258, 20),
        (&outside, 7, &file, 258, 20),
        (&outside, 7, &nothing, 259, 32),
        (&within, 7, &nothing, 259, 32),
        (&outside, 7, &file, 259, 64),
        (&within, 7, &file, 259, 0),
    ] {
        assert_eq!(started(table, number, reading, room), expected);
    }
    let long = Reading::of(Board::Long, &[&hex_record(0, 0x1400, &[0x11])]);
    assert_eq!(started(&within, 7, &long, 259), 20);
    assert_eq!(started(&within, 8, &long, 259), 60);
}

/// From its start to its end a session for a station is that of its run kind.
#[test]
fn session_for_a_station_has_its_run_kind() {
    let reading = Reading::of(Board::Short, &[":020200001234B6"]);
    for (run, packets, outcome) in [
        (Run::Reset, 4, Outcome::Valid),
        (Run::Jump, 4, Outcome::Valid),
        (Run::Hold, 3, Outcome::Held),
    ] {
        let table = bounded(run, 1, 1);
        let mut session = start_for(&table, 7, &reading).unwrap();
        assert_eq!(session, reading.session(run));
        assert_eq!((session.run, session.total), (run, packets));
        let greeting = Event::Answer(Board::Short.greeting());
        (session, _) = reading.step(session, greeting).unwrap();
        for _ in 0..packets {
            let stepped = reading.step(session, Event::Answer(&[0x06]));
            (session, _) = stepped.unwrap();
        }
        assert_eq!(session.outcome(), Some(outcome));
        assert_eq!(reading.mark(session, 0x201), Ok(true));
    }
}

#[test]
fn file_is_opened_under_the_rule_set_of_a_station() {
    let table = Table::with(&[(0, &STATION_7), (1, &[0, 7, 2, 0, 8, 0, 2, 123, 123])]);
    let file = [segment(0x0100), linear(0), hex_record(0, 0, &[0x12])];
    for (number, rules, place) in [(7, RuleSet::One, 0x1000), (8, RuleSet::Two, 0)] {
        let mut reading = three_pages();
        let opened = stations::open(&table.0, number, &mut reading.image, &mut reading.map);
        reading.reader = opened.unwrap();
        assert_eq!(reading, Reading::under(rules, Board::Short, &[]));
        for record in &file {
            assert_eq!(reading.record(record), 0);
        }
        assert_eq!(reading.named(), [(place, 0x12)]);
    }
}

#[test]
fn opening_for_a_station_refuses_60_then_20() {
    let table = Table::with(&[(0, &STATION_7)]);
    let (image, map) = (Board::Short.flash_bytes(), Board::Short.map_bytes());
    for (bytes, number, image, map, expected) in [
        (&table.0[..], 8, image, map, 60),
        (&table.0, 65_543, image, map, 60),
        (&table.0, 8, 0, map, 60),
        (&table.0[1..], 7, image, 0, 60),
        (&table.0, 7, image - 1, map, 20),
        (&table.0, 7, image, map + 1, 20),
        (&table.0, 7, 2 * image, 2 * map, 20),
        (&table.0, 7, image, map, 0),
    ] {
        let (mut image, mut map) = (vec![0xAA; image], vec![0xAA; map]);
        let opened = stations::open(bytes, number, &mut image, &mut map);
        let refused = opened.is_err();
        assert_eq!(told(opened), (expected, 0));
        let mut lent = image.iter().chain(&map);
        assert!(!refused || lent.all(|byte| *byte == 0xAA));
    }
}

/// Stations stay with the short board, whatever calls are told.
#[test]
fn case_lines_of_stations() {
    check_lines(
        "stations store 000702000702020114 -> 0 0\n\
         stations find 7 -> 0 2 7 2 2 1 20\n\
         stations place 0 -> 0 1\n\
         board 248 -> 0\n\
         station start 7 -> 32\n\
         session -> ?\n\
         station open 7 -> 0\n\
         reader -> 0 124 2 0 0 0 0 0\n\
         record :020200001234B6 -> 0\n\
         station start 7 -> 0 08\n\
         session -> 0 124 2 0 0 0 0 0 3 2\n\
         station start 8 -> 60\n\
         station open 8 -> 60 0\n\
         stations free 0 -> 0\n\
         stations free 0 -> 60\n\
         station start 7 -> 60\n\
         session -> 0 124 2 0 0 0 0 0 3 2\n\
         lend input table 000003FF -> 0\n\
         stations store 0006010007000100 -> ?\n\
         lend table null -> 0\n\
         stations store 0006010007000100 -> 20\n\
         stations find 4294967296 -> ?\n\
         stations find -> ?\n",
    );
}
