//! What the programs that compare the libraries with the model share: arguments, and seeds that they print.

use std::process::exit;

/// The seed of every run; the gate makes another run from a seed of its own.
pub const SEED: u64 = 20261115;

/// Neighbouring seeds make lists that have nothing in common.
pub fn spread(seed: u64) -> u64 {
    let a = seed.wrapping_add(0x9E37_79B9_7F4A_7C15).wrapping_mul(0xBF58_476D_1CE4_E5B9);
    (a ^ (a >> 31)).wrapping_mul(0x94D0_49BB_1331_11EB) << 1
}

/// The number that stands at a place of the command line, or what it is by default.
pub fn argument(place: usize, default: u64, usage: &str) -> u64 {
    match std::env::args().nth(place) {
        None => default,
        Some(text) => text.parse().unwrap_or_else(|_| {
            eprintln!("usage: {usage}");
            exit(2)
        }),
    }
}
