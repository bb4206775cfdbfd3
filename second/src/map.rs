//! The map of named bytes, one bit an address, read a word at a time.

use std::iter;

use crate::packet::PIECE;
use crate::refusal::Refusal;
use crate::units::{Board, ByteAddress, Page};

const WORD_BITS: u32 = u64::BITS;
const PIECE_BITS: u32 = PIECE as u32;

/// A map of its board's size.
#[derive(Clone, Copy)]
pub struct Map<'a>(&'a [u8]);

/// What a file makes a session send.
#[derive(Clone, Copy, Debug, PartialEq, Eq)]
pub struct Survey {
    pub named: u32,
    pub pieces: u32,
    pub pages: Pages,
    /// The lowest named address, the end of flash where there is none.
    pub first: u32,
    pub sought: Sought,
}

impl Survey {
    pub fn erases(&self) -> u32 {
        self.pages.runs()
    }

    /// Every E, W and V.
    pub fn loading(&self) -> u32 {
        self.erases() + 2 * self.pieces
    }
}

/// What a survey found of the piece that it was sent to look for.
#[derive(Clone, Copy, Debug, Default, PartialEq, Eq)]
pub struct Sought {
    /// Its index, counted from 0, if a piece starts there.
    pub index: Option<u32>,
    /// The start of the next piece above.
    pub next: Option<u32>,
}

impl Sought {
    /// Looks at the piece starts of one word, of which so many went before.
    fn look(&mut self, address: u32, base: u32, starts: u64, before: u32) {
        let mut above = starts;
        if address >= base {
            let Some(bit) = bit_in_word(address, base) else {
                return;
            };
            let below = bit - 1;
            if starts & bit != 0 {
                self.index = Some(before + (starts & below).count_ones());
            }
            above = starts & !(below | bit);
        }
        if above != 0 {
            self.next = Some(base + above.trailing_zeros());
        }
    }
}

fn bit_in_word(address: u32, base: u32) -> Option<u64> {
    (address - base < WORD_BITS).then(|| 1 << (address - base))
}

/// The set bits of a word, ascending.
fn bits(word: u64) -> impl Iterator<Item = u32> {
    let words = iter::successors(Some(word), |rest| Some(rest & rest.wrapping_sub(1)));
    let left = words.take_while(|rest| *rest != 0);
    left.map(u64::trailing_zeros)
}

/// The pages that hold a named byte, one bit a page, in two halves; no board
/// has a page for the last bit.
#[derive(Clone, Copy, Debug, Default, PartialEq, Eq)]
pub struct Pages([u128; 2]);

const HALF_BITS: u32 = u128::BITS;

impl Pages {
    fn runs(self) -> u32 {
        self.starts().count()
    }

    /// The first page of the lowest run.
    pub fn first(self) -> Option<Page> {
        self.lowest_from(Page(0))
    }

    /// The index, counted from 0, of the maximal run that starts here.
    pub fn run_index(self, first: Page) -> Option<u32> {
        let starts = self.starts();
        starts.holds(first).then(|| starts.below(first).count())
    }

    /// The first page of each run, ascending.
    pub fn run_starts(self) -> impl Iterator<Item = Page> {
        iter::successors(self.first(), move |first| self.run_after(*first))
    }

    /// The first page of the next run above.
    pub fn run_after(self, first: Page) -> Option<Page> {
        self.starts().lowest_from(Page(first.0 + 1))
    }

    pub fn run_length(self, first: Page) -> u8 {
        let gap = Pages(self.0.map(|half| !half)).lowest_from(first);
        gap.map_or(0, |gap| (gap.0 - first.0) as u8)
    }

    fn starts(self) -> Pages {
        let [low, high] = self.0;
        let carried = low >> (HALF_BITS - 1);
        Pages([low & !(low << 1), high & !(high << 1 | carried)])
    }

    fn count(self) -> u32 {
        self.0.iter().map(|half| half.count_ones()).sum()
    }

    fn add(&mut self, page: Page) {
        self.0[(page.0 / HALF_BITS) as usize] |= 1 << (page.0 % HALF_BITS);
    }

    fn holds(self, page: Page) -> bool {
        let half = self.0.get((page.0 / HALF_BITS) as usize);
        half.is_some_and(|half| half >> (page.0 % HALF_BITS) & 1 != 0)
    }

    fn below(self, page: Page) -> Pages {
        let [low, high] = self.0;
        let above = |start: u32| match page.0.checked_sub(start) {
            Some(bits) => u128::MAX.checked_shl(bits).unwrap_or(0),
            None => u128::MAX,
        };
        Pages([low & !above(0), high & !above(HALF_BITS)])
    }

    /// The lowest of them from here on.
    fn lowest_from(self, page: Page) -> Option<Page> {
        let below = self.below(page);
        match [self.0[0] ^ below.0[0], self.0[1] ^ below.0[1]] {
            [0, 0] => None,
            [0, high] => Some(Page(HALF_BITS + high.trailing_zeros())),
            [low, _] => Some(Page(low.trailing_zeros())),
        }
    }
}

impl<'a> Map<'a> {
    pub fn new(board: Board, bytes: &'a [u8]) -> Result<Map<'a>, Refusal> {
        if bytes.len() == board.map_bytes() {
            Ok(Map(bytes))
        } else {
            Err(Refusal::Size)
        }
    }

    /// The first address that has no bit.
    fn end(self) -> u32 {
        self.0.len() as u32 * u8::BITS
    }

    pub fn names(self, address: u32) -> bool {
        let byte = self.0.get(address as usize / 8);
        byte.is_some_and(|byte| byte >> (address % 8) & 1 != 0)
    }

    /// The lowest named address from here on.
    #[inline]
    pub fn next_named(self, from: u32) -> Option<u32> {
        self.next_where(from, self.end(), |word| word)
    }

    /// How many bytes from here on are named without a gap, up to a limit.
    #[inline]
    pub fn run_length(self, start: u32, limit: u32) -> u32 {
        let end = self.end().min(start + limit);
        self.next_where(start, end, |word| !word).unwrap_or(end) - start
    }

    /// One pass over the map; it looks for the piece at an address on its way.
    pub fn survey(self, sought: Option<ByteAddress>) -> Survey {
        let mut survey = Survey {
            named: 0,
            pieces: 0,
            pages: Pages::default(),
            first: self.end(),
            sought: Sought::default(),
        };
        let mut sweep = Sweep::default();
        for word in self.words() {
            let base = sweep.base;
            let starts = sweep.piece_starts(word);
            if word == 0 {
                continue;
            }
            if survey.named == 0 {
                survey.first = base + word.trailing_zeros();
            }
            if let (Some(address), None) = (sought, survey.sought.next) {
                survey.sought.look(address.0, base, starts, survey.pieces);
            }
            survey.named += word.count_ones();
            survey.pieces += starts.count_ones();
            survey.pages.add(ByteAddress(base).page());
        }
        survey
    }

    /// Where each piece starts, ascending.
    pub fn piece_starts(self) -> impl Iterator<Item = ByteAddress> + 'a {
        let mut sweep = Sweep::default();
        self.words().flat_map(move |word| {
            let base = sweep.base;
            let starts = bits(sweep.piece_starts(word));
            starts.map(move |bit| ByteAddress(base + bit))
        })
    }

    fn words(self) -> impl Iterator<Item = u64> + 'a {
        self.0
            .chunks_exact(8)
            .map(|chunk| u64::from_le_bytes(chunk.try_into().expect("eight bytes")))
    }

    fn word(self, index: u32) -> u64 {
        let at = index as usize * 8;
        u64::from_le_bytes(self.0[at..at + 8].try_into().expect("eight bytes"))
    }

    /// The lowest address from here on whose bit is set in the word as seen.
    #[inline]
    fn next_where(self, from: u32, end: u32, seen: impl Fn(u64) -> u64) -> Option<u32> {
        if from >= end {
            return None;
        }
        let first = from / WORD_BITS;
        let mut word = seen(self.word(first)) & (u64::MAX << (from % WORD_BITS));
        for index in first..end.div_ceil(WORD_BITS) {
            if index > first {
                word = seen(self.word(index));
            }
            if word != 0 {
                let place = index * WORD_BITS + word.trailing_zeros();
                return Some(place).filter(|place| *place < end);
            }
        }
        None
    }
}

/// Names one address; the caller keeps it inside the map.
pub fn name(map: &mut [u8], address: u32) {
    map[address as usize / 8] |= 1 << (address % 8);
}

/// An upward pass over the map's words.
#[derive(Default)]
struct Sweep {
    /// Address of the next word's lowest bit.
    base: u32,
    /// Start of the run that reaches up to the next word.
    open: Option<u32>,
}

impl Sweep {
    /// The bits of the next word at which a piece starts.
    fn piece_starts(&mut self, word: u64) -> u64 {
        let carried = u64::from(self.open.is_some());
        let begun = word & !(word << 1 | carried);
        let starts = begun | self.cut(word);
        self.pass(word);
        starts
    }

    /// The bit at which the open run is cut; a word is too short for two cuts.
    fn cut(&self, word: u64) -> u64 {
        let Some(start) = self.open else { return 0 };
        let past = (self.base - start) % PIECE_BITS;
        let ahead = if past == 0 { 0 } else { PIECE_BITS - past };
        if ahead < word.trailing_ones() {
            1 << ahead
        } else {
            0
        }
    }

    fn pass(&mut self, word: u64) {
        let reaching = word.leading_ones();
        let end = self.base + WORD_BITS;
        self.open = match reaching {
            0 => None,
            WORD_BITS => self.open.or(Some(self.base)),
            _ => Some(end - reaching),
        };
        self.base = end;
    }
}

#[cfg(test)]
mod tests {
    use super::*;

    struct Piece {
        start: u32,
        length: u32,
    }

    /// Runs of named bytes found one address at a time.
    fn pieces_one_by_one(board: Board, map: Map) -> Vec<Piece> {
        let mut pieces: Vec<Piece> = Vec::new();
        for address in (0..board.flash_end()).filter(|address| map.names(*address)) {
            match pieces.last_mut() {
                Some(last) if last.start + last.length == address && last.length < PIECE_BITS => {
                    last.length += 1
                }
                _ => pieces.push(Piece {
                    start: address,
                    length: 1,
                }),
            }
        }
        pieces
    }

    fn check(board: Board, bytes: &[u8]) {
        check_each(board, bytes, 1);
    }

    /// Looks closer at one piece in so many.
    fn check_each(board: Board, bytes: &[u8], stride: usize) {
        let map = Map::new(board, bytes).unwrap();
        let expected = pieces_one_by_one(board, map);
        let survey = map.survey(None);
        assert_eq!(survey.pieces as usize, expected.len());
        let named: u32 = expected.iter().map(|piece| piece.length).sum();
        assert_eq!(survey.named, named);
        let first = expected.first().map(|piece| piece.start);
        assert_eq!(survey.first, first.unwrap_or(board.flash_end()));
        let starts = expected.iter().map(|piece| ByteAddress(piece.start));
        assert!(map.piece_starts().eq(starts));
        for (index, piece) in expected.iter().enumerate().step_by(stride) {
            let (start, last) = (piece.start, piece.start + piece.length - 1);
            let sought = |address| map.survey(Some(ByteAddress(address))).sought;
            let next = expected.get(index + 1).map(|piece| piece.start);
            let index = Some(index as u32);
            assert_eq!(sought(start), Sought { index, next });
            if start < last {
                assert_eq!(sought(last), Sought { index: None, next });
            }
            assert_eq!(map.run_length(start, PIECE_BITS), piece.length);
        }
        assert_eq!(map.survey(Some(ByteAddress(u32::MAX))).sought.index, None);
    }

    fn map_of_runs(board: Board, runs: &[(u32, u32)]) -> Vec<u8> {
        let mut bytes = vec![0; board.map_bytes()];
        for (start, length) in runs {
            for address in *start..start + length {
                name(&mut bytes, address);
            }
        }
        bytes
    }

    #[test]
    fn pieces_are_those_found_one_by_one() {
        for board in Board::ALL {
            let check_runs = |runs: &[(u32, u32)]| check(board, &map_of_runs(board, runs));
            check_runs(&[]);
            check_runs(&[(0, board.flash_end())]);
            check_runs(&[(board.flash_end() - 1, 1)]);
            for start in [0, 1, 6, 63, 64, 65, 511] {
                for length in [1, 63, 64, 65, 249, 250, 251, 500, 501, 1000] {
                    check_runs(&[(start, length), (start + length + 1, 260)]);
                }
            }
            check_each(board, &vec![0x55; board.map_bytes()], 101);
        }
    }

    /// Past 64 KiB, and over the page where the second half begins.
    #[test]
    fn pieces_of_the_long_board_alone() {
        let board = Board::Long;
        for start in [0xF7FF, 0xF800, 0xFFFF, 0x1_0000, 0x1_0001, 0x1_EB00] {
            for length in [1, 2, 250, 251, 1000] {
                check(board, &map_of_runs(board, &[(start, length)]));
            }
        }
    }

    /// Runs with gaps from page 0 to the end of flash.
    fn scattered_runs(board: Board, seed: &mut u32) -> Vec<(u32, u32)> {
        let mut runs = Vec::new();
        let mut start = 0;
        loop {
            *seed = seed.wrapping_mul(1_664_525).wrapping_add(1_013_904_223);
            let (gap, length) = (*seed >> 24, (*seed >> 8) % 700);
            if start + gap + length > board.flash_end() {
                return runs;
            }
            runs.push((start + gap, length));
            start += gap + length;
        }
    }

    #[test]
    fn pieces_of_scattered_runs() {
        let mut seed = 1;
        for board in Board::ALL {
            for _ in 0..20 {
                let runs = scattered_runs(board, &mut seed);
                check(board, &map_of_runs(board, &runs));
            }
        }
    }

    /// The pages of a file, and its runs of pages by first page and length.
    fn check_page_runs(board: Board, named: &[(u32, u32)], runs: &[(u32, u8)]) {
        let bytes = map_of_runs(board, named);
        let pages = Map::new(board, &bytes).unwrap().survey(None).pages;
        assert_eq!(pages.runs() as usize, runs.len());
        let starts: Vec<Page> = runs.iter().map(|(first, _)| Page(*first)).collect();
        assert_eq!(pages.first(), starts.first().copied());
        assert!(pages.run_starts().eq(starts.iter().copied()));
        for (index, (first, length)) in runs.iter().enumerate() {
            let next = starts.get(index + 1).copied();
            assert_eq!(pages.run_length(Page(*first)), *length);
            assert_eq!(pages.run_after(Page(*first)), next);
        }
        for page in (0..300).chain([511, u32::MAX]).map(Page) {
            let index = starts.iter().position(|start| *start == page);
            assert_eq!(pages.run_index(page), index.map(|index| index as u32));
        }
    }

    #[test]
    fn page_runs_are_maximal() {
        for board in Board::ALL {
            check_page_runs(board, &[], &[]);
            let all = board.pages() as u8;
            check_page_runs(board, &[(0, board.flash_end())], &[(0, all)]);
            let named = [(0, 1), (512, 1), (0x7FF, 2), (0xF600, 1)];
            check_page_runs(board, &named, &[(0, 2), (3, 2), (123, 1)]);
            let last = board.pages() - 1;
            check_page_runs(board, &[(board.flash_end() - 1, 1)], &[(last, 1)]);
        }
    }

    /// Pages 127 and 128 are side by side like any other two.
    #[test]
    fn page_runs_over_64_kib() {
        let check = |named: &[(u32, u32)], runs: &[(u32, u8)]| {
            check_page_runs(Board::Long, named, runs);
        };
        check(&[(0xFFFF, 1)], &[(127, 1)]);
        check(&[(0x1_0000, 1)], &[(128, 1)]);
        check(&[(0xFFFF, 2)], &[(127, 2)]);
        check(&[(0xFDFF, 1), (0x1_0000, 1)], &[(126, 1), (128, 1)]);
        check(&[(0, 0x1_0000)], &[(0, 128)]);
        check(&[(0x1_0000, 0xF000)], &[(128, 120)]);
        check(&[(0xFE00, 513), (0x1_0400, 1)], &[(127, 2), (130, 1)]);
    }
}
