//! Random numbers that are the same in every run.

/// The generator known as splitmix64.
pub struct Random(u64);

impl Random {
    pub fn new(seed: u64) -> Random {
        Random(seed)
    }

    pub fn long(&mut self) -> u64 {
        self.0 = self.0.wrapping_add(0x9E37_79B9_7F4A_7C15);
        let mut mixed = self.0;
        mixed = (mixed ^ mixed >> 30).wrapping_mul(0xBF58_476D_1CE4_E5B9);
        mixed = (mixed ^ mixed >> 27).wrapping_mul(0x94D0_49BB_1331_11EB);
        mixed ^ mixed >> 31
    }

    pub fn word(&mut self) -> u32 {
        self.long() as u32
    }

    pub fn byte(&mut self) -> u8 {
        self.long() as u8
    }

    pub fn below(&mut self, limit: u32) -> u32 {
        (self.long() % u64::from(limit)) as u32
    }

    /// A number from the first to the last, both included.
    pub fn within(&mut self, first: u32, last: u32) -> u32 {
        first + self.below(last - first + 1)
    }

    /// True once in so many times.
    pub fn once_in(&mut self, times: u32) -> bool {
        self.below(times) == 0
    }

    pub fn pick<T: Copy>(&mut self, choices: &[T]) -> T {
        choices[self.below(choices.len() as u32) as usize]
    }

    pub fn bytes(&mut self, length: u32) -> Vec<u8> {
        (0..length).map(|_| self.byte()).collect()
    }

    /// A place in bytes that are not empty.
    pub fn place(&mut self, bytes: &[u8]) -> usize {
        self.below(bytes.len() as u32) as usize
    }

    /// Damages bytes in one way: a byte other than it was, cut, or extended.
    pub fn damage(&mut self, bytes: &mut Vec<u8>) {
        match self.below(4) {
            0 => {
                let length = self.below(bytes.len() as u32 + 1);
                bytes.truncate(length as usize);
            }
            1 => {
                let more = self.within(1, 3);
                bytes.extend(self.bytes(more));
            }
            _ if bytes.is_empty() => {}
            _ => {
                let place = self.place(bytes);
                bytes[place] ^= self.within(1, 255) as u8;
            }
        }
    }
}
