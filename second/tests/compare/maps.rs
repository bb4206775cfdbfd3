//! Random maps of named bytes.

use second::map::{self, Map};
use second::units::{Board, PAGE_BYTES};

use crate::random::Random;

/// A map of any kind, the empty one among them.
pub fn any(random: &mut Random, board: Board) -> Vec<u8> {
    let bytes = board.map_bytes();
    match random.below(8) {
        0 => vec![0; bytes],
        1 => vec![0xFF; bytes],
        2 => random.bytes(bytes as u32),
        3 => vec![0x55; bytes],
        4 => few(random, board),
        5 => pieces(random, board),
        _ => scattered(random, board),
    }
}

/// A few single bytes.
pub fn few(random: &mut Random, board: Board) -> Vec<u8> {
    let count = random.within(1, 4);
    let runs: Vec<(u32, u32)> = (0..count).map(|_| (place(random, board), 1)).collect();
    of_runs(board, &runs)
}

/// Runs of all lengths, at least one.
pub fn scattered(random: &mut Random, board: Board) -> Vec<u8> {
    let count = random.within(1, 30);
    let runs: Vec<(u32, u32)> = (0..count)
        .map(|_| {
            let longest = random.pick(&[1, 3, 20, 300, 1500]);
            (edge(random, board), random.within(1, longest))
        })
        .collect();
    of_runs(board, &runs)
}

/// A run whose length is near a multiple of a piece, and its neighbour.
pub fn pieces(random: &mut Random, board: Board) -> Vec<u8> {
    let length = 250 * random.within(1, 3) - 2 + random.below(5);
    let start = edge(random, board).min(board.flash_end() - 1600);
    let gap = random.within(1, 3);
    let more = random.within(1, 600);
    of_runs(board, &[(start, length), (start + length + gap, more)])
}

/// An address, often at a page's edge, at flash's or below a seam.
fn edge(random: &mut Random, board: Board) -> u32 {
    let end = board.flash_end();
    match random.below(5) {
        0 => random.within(1, board.pages()) * PAGE_BYTES - random.within(1, 3),
        1 => random.pick(&[0, 1, end - 1, end - 250]),
        2 => seam(random, board) - random.within(1, 600),
        _ => random.below(end),
    }
}

/// Any address, at times next to a seam.
fn place(random: &mut Random, board: Board) -> u32 {
    match random.once_in(4) {
        true => seam(random, board) - random.within(1, 2),
        false => random.below(board.flash_end()),
    }
}

/// Where one board ends, or two bytes of an address do, as far as the board
/// reaches.
fn seam(random: &mut Random, board: Board) -> u32 {
    let seams = [Board::Short.flash_end(), 0x1_0000, board.flash_end()];
    random.pick(&seams).min(board.flash_end())
}

/// The runs' bytes named, as far as they lie in flash.
pub fn of_runs(board: Board, runs: &[(u32, u32)]) -> Vec<u8> {
    let mut bytes = vec![0; board.map_bytes()];
    for (start, length) in runs {
        for address in *start..start.saturating_add(*length).min(board.flash_end()) {
            map::name(&mut bytes, address);
        }
    }
    bytes
}

/// Whether a map names an address of its board.
pub fn names(map: &[u8], address: u32) -> bool {
    map[address as usize / 8] >> (address % 8) & 1 != 0
}

/// The next named address, or this one where there is none.
pub fn named_from(board: Board, map: &[u8], address: u32) -> u32 {
    let map = Map::new(board, map).expect("a map");
    map.next_named(address).unwrap_or(address)
}
