//! Random definitions, stamps and bytes, from a seed that a test prints.

use model::points::ROWS;
use model::record::Stamp;

use crate::dates::date;

/// xorshift64*: enough for tests, and the same on every machine.
pub struct Random(u64);

impl Random {
    pub fn new(seed: u64) -> Random {
        Random(seed | 1)
    }

    pub fn next(&mut self) -> u64 {
        self.0 ^= self.0 >> 12;
        self.0 ^= self.0 << 25;
        self.0 ^= self.0 >> 27;
        self.0.wrapping_mul(0x2545_F491_4F6C_DD1D)
    }

    /// A number below n.
    pub fn below(&mut self, n: u64) -> u64 {
        self.next() % n
    }

    pub fn chance(&mut self, one_in: u64) -> bool {
        self.below(one_in) == 0
    }

    pub fn bytes(&mut self, n: usize) -> Vec<u8> {
        (0..n).map(|_| self.next() as u8).collect()
    }
}

/// Groups that are mostly good and short, with unused places between, and now and then a bad group.
pub fn groups(random: &mut Random) -> [u16; 32] {
    let mut numbers = [0u16; 32];
    let mut left = 244i64;
    for place in 0..16 {
        if random.chance(3) {
            continue;
        }
        if random.chance(60) {
            numbers[2 * place] = random.next() as u16;
            numbers[2 * place + 1] = random.next() as u16;
            continue;
        }
        let row = &ROWS[random.below(6) as usize];
        let extent = u64::from(row.last - row.first) + 1;
        let skipped = random.below(extent);
        let mut points = 1 + random.below(extent - skipped);
        while row.bytes_of(points as u16) as i64 > left && points > 1 {
            points = 1 + points / 3;
        }
        if row.bytes_of(points as u16) as i64 > left && !random.chance(40) {
            continue;
        }
        left -= row.bytes_of(points as u16) as i64;
        numbers[2 * place] = row.first + skipped as u16;
        numbers[2 * place + 1] = points as u16;
    }
    numbers
}

/// A stamp in range.
pub fn stamp(random: &mut Random) -> Stamp {
    let (month, day, year) = date(random);
    Stamp { month, day, year, hour: random.below(24) as u8, minute: random.below(60) as u8, second: random.below(60) as u8 }
}
