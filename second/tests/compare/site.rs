//! A board, and where what is lent for it stands.

use second::cases::{Buffer, Part};
use second::units::Board;

use crate::boards;
use crate::random::Random;

#[derive(Clone, Copy, Debug)]
pub struct Site {
    pub board: Board,
    pub image: Part,
    pub map: Part,
    pub flash: Part,
}

pub const SHORT: Site = Site::of(Board::Short);
pub const LONG: Site = Site::of(Board::Long);
pub const SITES: [Site; 2] = [SHORT, LONG];

impl Site {
    const fn of(board: Board) -> Site {
        Site {
            board,
            image: Part::new(Buffer::Image, 333, board.flash_end()),
            map: Part::new(Buffer::Map, 4001, board.map_bytes() as u32),
            flash: Part::new(Buffer::Flash, 1001, board.flash_end()),
        }
    }

    pub fn pages(self) -> u32 {
        self.board.pages()
    }

    /// The first address behind flash.
    pub fn end(self) -> u32 {
        self.board.flash_end()
    }

    pub fn map_bytes(self) -> usize {
        self.board.map_bytes()
    }

    pub fn other(self) -> Site {
        match self.board {
            Board::Short => LONG,
            Board::Long => SHORT,
        }
    }

    pub fn file(self) -> (Part, Part) {
        (self.image, self.map)
    }

    /// The board's number, at times the other's or that of none.
    pub fn told(self, random: &mut Random) -> u32 {
        match random.below(60) {
            0 => boards::unknown(random),
            1 => self.other().pages(),
            _ => self.pages(),
        }
    }

    /// Image and map, at times of a wrong size.
    pub fn lent(self, random: &mut Random) -> (Part, Part) {
        match random.below(80) {
            0 => (self.wrong_image(random), self.map),
            1 => (self.image, self.wrong_map(random)),
            2 => (self.wrong_image(random), self.wrong_map(random)),
            3 => self.other().file(),
            _ => self.file(),
        }
    }

    pub fn wrong_image(self, random: &mut Random) -> Part {
        wrong(random, self.image, self.other().image)
    }

    pub fn wrong_map(self, random: &mut Random) -> Part {
        wrong(random, self.map, self.other().map)
    }
}

/// A part of a wrong size, at times of the other board's.
pub fn wrong(random: &mut Random, part: Part, other: Part) -> Part {
    let length = part.length();
    match random.below(5) {
        0 => part.with_length(length - 1),
        1 => part.with_length(length + 1),
        2 => part.with_length(random.below(length)),
        3 => other,
        _ => Part::NULL,
    }
}

/// A part as long as this buffer, right behind another that is lent; the buffer
/// itself where that is null.
pub fn behind(lent: Part, buffer: Part) -> Part {
    match lent.buffer() {
        Some(_) => lent.behind(buffer.length()),
        None => buffer,
    }
}
