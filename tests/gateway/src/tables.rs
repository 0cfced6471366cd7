//! Live tables as scans and polls are lent them.

use std::fmt;

use model::machine::BOOLEAN_BYTES;
use model::points::TABLE_BYTES;
use reader::random::Random;
use reader::texts::live_table;

/// A live table as it is lent, of any length.
#[derive(Clone, PartialEq, Eq)]
pub struct Table(pub Vec<u8>);

impl fmt::Debug for Table {
    fn fmt(&self, f: &mut fmt::Formatter) -> fmt::Result {
        write!(f, "{} bytes from {:02x?}", self.0.len(), &self.0[..self.0.len().min(BOOLEAN_BYTES)])
    }
}

/// One in 24 is not the length that a live table has: none, a byte less or more, right only when cut to 16 bits, or any.
pub fn any_length(random: &mut Random) -> usize {
    const OTHERS: [usize; 7] = [0, 1, BOOLEAN_BYTES, TABLE_BYTES - 1, TABLE_BYTES + 1, 2 * TABLE_BYTES, 65_536 + TABLE_BYTES];
    match random.below(192) {
        0 => random.below(3_000) as usize,
        1..=7 => OTHERS[random.below(7) as usize],
        _ => TABLE_BYTES,
    }
}

/// Each byte is another than the 250 before it.
const PATTERN: [u8; TABLE_BYTES] = {
    let (mut bytes, mut place) = ([0; TABLE_BYTES], 0);
    while place < TABLE_BYTES {
        bytes[place] = ((place * 37 + 11) % 251) as u8;
        place += 1;
    }
    bytes
};

impl Table {
    /// Random bytes with texts of every sort, now and then too many bytes or too few.
    pub fn random(random: &mut Random) -> Table {
        match any_length(random) {
            TABLE_BYTES => Table(live_table(random)),
            other => Table(random.bytes(other)),
        }
    }

    /// A live table that tells places apart.
    pub fn patterned() -> Table {
        Table(PATTERN.to_vec())
    }

    /// One that differs from it in every bit.
    pub fn inverted() -> Table {
        Table(PATTERN.map(|byte| !byte).to_vec())
    }
}
