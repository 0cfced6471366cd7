//! The live table that calls are timed over.

use model::points::{ROWS, TABLE_BYTES};
use reader::random::Random;
use reader::texts::{printable, unclean};

/// Random bytes. Those of texts are half clean, half not: each is by an even chance printable or one that is captured as 3F hex,
/// so that no byte can be guessed from the ones before it.
pub fn half_clean_table() -> Vec<u8> {
    let mut random = Random::new(2);
    let mut table = random.bytes(TABLE_BYTES);
    for row in ROWS.iter().filter(|row| row.kind.is_text()) {
        for byte in &mut table[row.in_table()] {
            *byte = if random.chance(2) { printable(&mut random) } else { unclean(&mut random) };
        }
    }
    table
}
