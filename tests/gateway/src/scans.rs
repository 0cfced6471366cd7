//! Random scans: live tables that raise and drop the points that a state names, and stamps; now and then one that is refused.

use gateway::ffi::State;
use gateway::tables::Table;
use model::machine::BOOLEAN_BYTES;
use model::record::Stamp;
use reader::dates::on_impossible_day;
use reader::random::{self, Random};

/// The Booleans of a live table, or those remembered from one, as a word: 1801 is its lowest bit.
pub fn booleans(bytes: &[u8]) -> u128 {
    u128::from_le_bytes(bytes[..BOOLEAN_BYTES].try_into().unwrap())
}

/// The bit of a Boolean point in that word; none for 0.
pub fn bit(point: u16) -> u128 {
    if point == 0 {
        0
    } else {
        1 << (point - 1801)
    }
}

/// The points that triggers and alarm slots name. A damaged state may name what is no Boolean; that adds nothing.
fn named(s: &State) -> u128 {
    let points = s.settings.triggers.iter().copied().chain(s.settings.slots.iter().map(|slot| slot.point));
    points.filter(|point| (1801..=1928).contains(point)).fold(0, |word, point| word | bit(point))
}

fn any_booleans(random: &mut Random) -> u128 {
    (u128::from(random.next()) << 64) | u128::from(random.next())
}

/// The Booleans of the next scan: no change, any, all that is named on or off, one changed, or all or some of what is named changed,
/// so that some of it falls while some rises.
fn next_booleans(random: &mut Random, s: &State) -> u128 {
    let (before, named) = (booleans(&s.seen.booleans), named(s));
    match random.below(11) {
        0 => before,
        1 => any_booleans(random),
        2 => before | named,
        3 => before & !named,
        4 => before ^ (1 << random.below(128)),
        5 => before ^ named,
        _ => before ^ (named & any_booleans(random)),
    }
}

/// The live table of the next scan; one in 24 has another length.
pub fn table(random: &mut Random, s: &State) -> Table {
    let Table(mut bytes) = Table::random(random);
    let booleans = next_booleans(random, s).to_le_bytes();
    let head = bytes.len().min(BOOLEAN_BYTES);
    bytes[..head].copy_from_slice(&booleans[..head]);
    Table(bytes)
}

/// A stamp; one in 24 is out of range, and one in 12 is the first or the last there is.
pub fn stamp(random: &mut Random) -> Stamp {
    let good = random::stamp(random);
    match random.below(24) {
        0 => out_of_range(random, good),
        1 => Stamp { month: 1, day: 1, year: 0, hour: 0, minute: 0, second: 0 },
        2 => Stamp { month: 12, day: 31, year: 99, hour: 23, minute: 59, second: 59 },
        _ => good,
    }
}

/// One field out of its range, or a day that its month lacks.
fn out_of_range(random: &mut Random, good: Stamp) -> Stamp {
    let over = |random: &mut Random, most: u8| if random.chance(2) { most + 1 } else { 255 };
    match random.below(12) {
        0 => Stamp { month: 0, ..good },
        1 => Stamp { month: over(random, 12), ..good },
        2 => Stamp { day: 0, ..good },
        3 => Stamp { day: over(random, 31), ..good },
        4 => Stamp { year: over(random, 99), ..good },
        5 => Stamp { hour: over(random, 23), ..good },
        6 => Stamp { minute: over(random, 59), ..good },
        7 => Stamp { second: over(random, 59), ..good },
        _ => on_impossible_day(random, good),
    }
}
