//! Random live tables whose texts are of every sort that the rule of clean text tells apart.

use model::points::{ROWS, TABLE_BYTES};
use model::texts::is_clean;

use crate::random::Random;

/// The bytes at which the rule changes, the first and the last one, and 3F hex itself.
const EDGES: [u8; 9] = [0x00, 0x01, 0x1F, 0x20, 0x3F, 0x7E, 0x7F, 0x80, 0xFF];

fn edge(random: &mut Random) -> u8 {
    EDGES[random.below(EDGES.len() as u64) as usize]
}

/// One of 20 to 7E hex.
pub fn printable(random: &mut Random) -> u8 {
    0x20 + random.below(0x7F - 0x20) as u8
}

/// A byte that is captured as 3F hex.
pub fn unclean(random: &mut Random) -> u8 {
    loop {
        let byte = random.next() as u8;
        if !is_clean(byte) {
            return byte;
        }
    }
}

/// Any bytes; edges only; one edge all over; bytes only that are not clean; printable ones, with edges among them or not, or filled
/// up with 00; or those and a 00, with what an older and longer text has left behind it.
fn fill_text(random: &mut Random, text: &mut [u8]) {
    let (sort, all_over) = (random.below(8), edge(random));
    let end = random.below(text.len() as u64 + 1) as usize;
    for (place, byte) in text.iter_mut().enumerate() {
        *byte = match sort {
            0 => random.next() as u8,
            1 => edge(random),
            2 => all_over,
            3 => unclean(random),
            4 if random.chance(4) => edge(random),
            5 if place >= end => 0,
            6 if place == end => 0,
            6 if place > end => random.next() as u8,
            _ => printable(random),
        };
    }
}

/// A live table of random bytes with such texts.
pub fn live_table(random: &mut Random) -> Vec<u8> {
    let mut table = random.bytes(TABLE_BYTES);
    for row in ROWS.iter().filter(|row| row.kind.is_text()) {
        let texts = table[row.in_table()].chunks_exact_mut(row.point_bits / 8);
        texts.for_each(|text| fill_text(random, text));
    }
    table
}
