//! Boards with their sizes, and the three kinds of number that are never mixed.

pub const PAGE_BYTES: u32 = 512;
pub const GROUP_BYTES: u32 = 0x800;
pub const GREETING_BYTES: usize = 24;

/// A controller; every limit follows from its number of pages.
#[derive(Clone, Copy, Debug, PartialEq, Eq)]
pub enum Board {
    Short,
    Long,
}

impl Board {
    pub const ALL: [Board; 2] = [Board::Short, Board::Long];

    pub const fn pages(self) -> u32 {
        match self {
            Board::Short => 124,
            Board::Long => 248,
        }
    }

    /// The first address behind flash.
    pub const fn flash_end(self) -> u32 {
        self.pages() * PAGE_BYTES
    }

    /// The size of flash, and of an image.
    pub const fn flash_bytes(self) -> usize {
        self.flash_end() as usize
    }

    /// The size of a map, one bit an address.
    pub const fn map_bytes(self) -> usize {
        self.flash_bytes() / 8
    }

    pub const fn groups(self) -> u32 {
        self.flash_end() / GROUP_BYTES
    }

    pub const fn greeting(self) -> &'static [u8; GREETING_BYTES] {
        match self {
            Board::Short => b"ADuC702x   -62 I31    \n\r",
            Board::Long => b"ADuC702x   -124I31    \n\r",
        }
    }
}

#[derive(Clone, Copy, Debug, PartialEq, Eq, PartialOrd, Ord)]
pub struct ByteAddress(pub u32);

#[derive(Clone, Copy, Debug, PartialEq, Eq, PartialOrd, Ord)]
pub struct Page(pub u32);

#[derive(Clone, Copy, Debug, PartialEq, Eq, PartialOrd, Ord)]
pub struct Group(pub u32);

impl ByteAddress {
    pub fn page(self) -> Page {
        Page(self.0 / PAGE_BYTES)
    }

    pub fn group(self) -> Group {
        Group(self.0 / GROUP_BYTES)
    }
}

impl Page {
    pub fn start(self) -> ByteAddress {
        ByteAddress(self.0 * PAGE_BYTES)
    }
}
