//! What Fresh is given: a firmware, a length and a unit, of which it may refuse any.

use gateway::states::{any_firmware, archive_length};
use reader::random::Random;

use crate::calls::wide;

/// All but the date order, of which there is no wrong one.
#[derive(Clone, Copy, Debug)]
pub struct Fresh {
    pub length: usize,
    pub unit: u32,
    pub firmware: u32,
}

/// About the least and the most of either firmware, and lengths that are too short only when they are cut to 16 bits.
const LENGTHS: [usize; 9] = [0, 3_299, 3_300, 10_999, 11_000, 65_536 + 3_000, 65_536 + 10_000, 1_048_576, 1_048_577];

/// One that is not in use: next to those that are, of zeros or ones, a depth, wrong in one bit, or right only when it is cut.
fn other_firmware(random: &mut Random) -> u32 {
    const OTHERS: [u32; 7] = [0, 72, 75, 150, 500, 65_535, u32::MAX];
    let good = any_firmware(random).into();
    match random.below(4) {
        0 => OTHERS[random.below(7) as usize],
        1 => good ^ (1 << random.below(32)),
        2 => wide(random, good, 8),
        _ => wide(random, good, 16),
    }
}

/// One that is no gateway's, or only when it is cut to 8 bits.
fn other_unit(random: &mut Random, good: u32) -> u32 {
    if random.chance(2) {
        [0, 248, 249, 255][random.below(4) as usize]
    } else {
        wide(random, good, 8)
    }
}

impl Fresh {
    /// A gateway with this firmware.
    pub fn of(firmware: u16, unit: u32, length: usize) -> Fresh {
        Fresh { length, unit, firmware: firmware.into() }
    }

    /// Each is wrong, or about its edges, one time in so many.
    pub fn any(random: &mut Random, one_in: u64) -> Fresh {
        let (firmware, unit) = (any_firmware(random), [1, 247, 17, 128][random.below(4) as usize]);
        let length = archive_length(random, firmware);
        Fresh {
            length: if random.chance(one_in) { LENGTHS[random.below(9) as usize] } else { length },
            unit: if random.chance(one_in) { other_unit(random, unit) } else { unit },
            firmware: if random.chance(one_in) { other_firmware(random) } else { firmware.into() },
        }
    }
}
