//! Prints the live table, by the model's rows, that holds a value of its
//! own in every point, as lines of 16 bytes in hexadecimal digits, for
//! comparison with what tests/c/points.c puts through the C accessors; then
//! the sizes of records with one group and an int16, or 0 for a bad group.

use model::points::{group_of, groups_from_first_place, record_size};
use model::points::{Group, Kind, ROWS, TABLE_BYTES};

/// The last eight floats are patterns: -0.0, the largest and the smallest
/// number, infinities, and NaNs quiet and signalling.
const PATTERNS: [u32; 8] = [
    0x8000_0000,
    0x7F7F_FFFF,
    0x0000_0001,
    0x7F80_0000,
    0xFF80_0000,
    0x7FC0_0001,
    0xFFC1_2345,
    0x7FA0_0002,
];

/// Boolean 1801 + i is bit i mod 8 of byte i / 8, lowest bit first.
fn is_on(i: usize) -> bool {
    i % 3 == 0 || i % 7 == 2
}

fn float_bits(i: usize) -> u32 {
    if i < 120 {
        (i as f32 * 0.25 - 20.25).to_bits()
    } else {
        PATTERNS[i - 120]
    }
}

/// A text of `length` characters, filled up with zeros to `size` bytes.
fn text(i: usize, length: usize, size: usize) -> Vec<u8> {
    let mut bytes: Vec<u8> = (0..length).map(|k| (33 + (8 * i + k) % 94) as u8).collect();
    bytes.resize(size, 0);
    bytes
}

/// The bytes of the i-th point of a row that is not Boolean.
fn value(kind: Kind, i: usize) -> Vec<u8> {
    match kind {
        Kind::Boolean => unreachable!("a Boolean takes one bit"),
        Kind::Int16 => ((i as i32 * 1031 - 32_768) as i16).to_be_bytes().to_vec(),
        Kind::Int32 => ((i as i64 * 68_174_084 - 2_147_483_648) as i32)
            .to_be_bytes()
            .to_vec(),
        Kind::Float => float_bits(i).to_be_bytes().to_vec(),
        Kind::Text8 if i == 31 => text(i, 0, 8),
        Kind::Text8 => text(i, 1 + i % 8, 8),
        Kind::Text16 => text(i, 16 - i, 16),
    }
}

const FIRSTS: [u16; 20] = [
    0, 1, 1800, 1801, 1928, 1929, 3000, 3001, 3064, 4001, 4032, 5101, 5164, 7101, 7228, 7229, 14001,
    14016, 14017, 65535,
];
const COUNTS: [u16; 12] = [0, 1, 2, 7, 8, 9, 16, 17, 61, 128, 129, 65535];

fn print_sizes() {
    for first in FIRSTS {
        for count in COUNTS {
            let size = match group_of(first, count) {
                Group::Bad => 0,
                _ => record_size(&groups_from_first_place(&[(first, count), (3001, 1)])),
            };
            println!("({first}, {count}): {size}");
        }
    }
}

fn main() {
    let mut table = vec![0; TABLE_BYTES];
    for row in &ROWS {
        for point in row.first..=row.last {
            let i = usize::from(point - row.first);
            if row.kind == Kind::Boolean {
                table[i / 8] |= u8::from(is_on(i)) << (i % 8);
            } else {
                let (from, bytes) = (row.place_in_table(point), value(row.kind, i));
                table[from..from + bytes.len()].copy_from_slice(&bytes);
            }
        }
    }
    for line in table.chunks(16) {
        let digits: String = line.iter().map(|byte| format!("{byte:02x}")).collect();
        println!("{digits}");
    }
    print_sizes();
}
