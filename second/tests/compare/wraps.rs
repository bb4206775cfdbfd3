//! Data records that wrap inside their segment, as rule set 2 has it.

use std::ops::Range;

use second::boundary::{ReaderRecord, RULES_2};

use crate::maps;

/// Offsets of a segment.
pub const SEGMENT: u32 = 0x1_0000;

/// The places of a record's bytes before the wrap and behind it.
pub struct Wrap {
    before: Range<u64>,
    behind: Range<u64>,
}

impl Wrap {
    /// None for a line that is no data record, or one that does not wrap.
    pub fn of(reader: &ReaderRecord, text: &[u8]) -> Option<Wrap> {
        let is_data = text.get(7..9) == Some(b"00");
        if reader.rules != RULES_2 || reader.segmented == 0 || !is_data {
            return None;
        }
        let (count, address) = (value(&text[1..3])?, value(&text[3..7])?);
        let behind = (address + count).checked_sub(SEGMENT)?;
        let (base, end) = (u64::from(reader.segment), u64::from(SEGMENT));
        (behind > 0).then_some(Wrap {
            before: base + u64::from(address)..base + end,
            behind: base..base + u64::from(behind),
        })
    }

    /// Whether a map names a place before the wrap, and one behind it; all of
    /// them lie on its board.
    pub fn met(&self, map: &[u8]) -> (bool, bool) {
        let named = |places: &Range<u64>| places.clone().any(|at| maps::names(map, at as u32));
        (named(&self.before), named(&self.behind))
    }
}

fn value(digits: &[u8]) -> Option<u32> {
    u32::from_str_radix(std::str::from_utf8(digits).ok()?, 16).ok()
}
