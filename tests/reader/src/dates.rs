//! Random dates that exist, and days that their months lack.

use model::record::{days_in, Stamp};

use crate::random::Random;

/// Month, day and year of a date that exists; one in 16 is 29 February, and one in eight the last day of its month.
pub fn date(random: &mut Random) -> (u8, u8, u8) {
    let (month, year) = (1 + random.below(12) as u8, random.below(100) as u8);
    let days = days_in(month, year);
    match random.below(16) {
        0 => (2, 29, year / 4 * 4),
        1 | 2 => (month, days, year),
        _ => (month, 1 + random.below(days.into()) as u8, year),
    }
}

pub fn is_leap_day(stamp: &Stamp) -> bool {
    (stamp.month, stamp.day) == (2, 29)
}

/// The stamp moved to a day, up to the 31st, that its month lacks.
pub fn on_impossible_day(random: &mut Random, stamp: Stamp) -> Stamp {
    let common_year = stamp.year / 4 * 4 + 1 + random.below(3) as u8;
    let short_month = [4, 6, 9, 11][random.below(4) as usize];
    match random.below(4) {
        0 => Stamp { month: 2, day: 30, ..stamp },
        1 => Stamp { month: 2, day: 31, ..stamp },
        2 => Stamp { month: 2, day: 29, year: common_year, ..stamp },
        _ => Stamp { month: short_month, day: 31, ..stamp },
    }
}

/// Whether a stamp is out of range for nothing but a day, 1 to 31, that its month lacks.
pub fn is_impossible_day(stamp: &Stamp) -> bool {
    (1..=31).contains(&stamp.day) && !stamp.in_range() && Stamp { day: 1, ..*stamp }.in_range()
}
