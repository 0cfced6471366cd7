//! What Fresh, a pending Start and the alarm file do by firmware. All of it is
//! worked out by hand from the rules, for the model and the library.

use crate::record::{Stamp, AUGUST};

/// The firmwares in use, with the depth of their alarm files.
pub const DEPTHS: [(u16, u16); 2] = [(73, 150), (74, 500)];

/// Some that are not in use, as a state may hold them. 329 is 73, and 330 is
/// 74, with 256 more.
pub const OTHER_FIRMWARES: [u16; 10] = [0, 1, 72, 75, 150, 329, 330, 500, 32_841, 65_535];

/// What Fresh is given, firmware, length and unit, with the number that it
/// answers: 2 for the firmware, then 1 for the length, then 2 for the unit.
#[rustfmt::skip]
pub const FRESHES: [(u32, usize, u32, u8); 36] = [
    (72, 0, 0, 2), (72, 0, 1, 2), (72, 11_000, 0, 2), (72, 11_000, 1, 2),
    (75, 1_048_577, 248, 2), (75, 1_048_577, 1, 2), (75, 1_048_576, 248, 2), (75, 1_048_576, 247, 2),
    (0, 3_300, 1, 2), (329, 3_300, 1, 2), (65_609, 3_300, 1, 2), (65_610, 11_000, 1, 2), (u32::MAX, 11_000, 1, 2),
    (73, 0, 0, 1), (73, 0, 1, 1), (73, 3_299, 0, 1), (73, 3_299, 1, 1),
    (73, 3_300, 0, 2), (73, 3_300, 248, 2), (73, 3_300, 257, 2), (73, 3_300, 1, 0), (73, 10_999, 247, 0), (73, 11_000, 1, 0),
    (73, 1_048_576, 0, 2), (73, 1_048_576, 247, 0), (73, 1_048_577, 0, 1), (73, 1_048_577, 1, 1),
    (74, 0, 0, 1), (74, 3_300, 1, 1), (74, 10_999, 0, 1), (74, 10_999, 1, 1),
    (74, 11_000, 0, 2), (74, 11_000, 1, 0),
    (74, 1_048_576, 247, 0), (74, 1_048_577, 0, 1), (74, 1_048_577, 1, 1),
];

/// Firmware, archive length and the n of one file of bare stamps, with the
/// number that a pending Start answers. The first two are the marked cases,
/// which "are for 74", and the next two their likes for 73. 1,283 stamps take
/// 7,698 bytes.
#[rustfmt::skip]
pub const STARTS: [(u16, usize, u16, u8); 11] = [
    (74, 11_006, 1, 0), (74, 11_005, 1, 11),
    (73, 3_306, 1, 0), (73, 3_305, 1, 11),
    (73, 10_998, 1_283, 0), (73, 10_997, 1_283, 11),
    (73, 11_000, 1_283, 0), (73, 11_000, 1_284, 11), (74, 11_000, 1_283, 11),
    (74, 18_698, 1_283, 0), (74, 18_697, 1_283, 11),
];

/// Numbers of records, with the alarms that they hold.
pub type Held = &'static [(u16, u16)];

/// Firmware and alarms logged, with the pointer and some of the records: the
/// ring goes round after 150, or after 500.
#[rustfmt::skip]
pub const RINGS: [(u16, u16, u16, Held); 10] = [
    (73, 149, 149, &[(1, 1), (149, 149)]),
    (73, 150, 150, &[(1, 1), (149, 149), (150, 150)]),
    (73, 151, 1, &[(1, 151), (2, 2), (150, 150)]),
    (73, 153, 3, &[(1, 151), (2, 152), (3, 153), (4, 4), (149, 149), (150, 150)]),
    (73, 300, 150, &[(1, 151), (149, 299), (150, 300)]),
    (73, 503, 53, &[(1, 451), (53, 503), (54, 354), (150, 450)]),
    (74, 150, 150, &[(1, 1), (150, 150)]),
    (74, 153, 153, &[(1, 1), (150, 150), (151, 151), (153, 153)]),
    (74, 500, 500, &[(1, 1), (151, 151), (500, 500)]),
    (74, 503, 3, &[(1, 501), (3, 503), (4, 4), (150, 150), (500, 500)]),
];

/// A stamp that has an alarm's number as its minute and second.
pub fn stamp_of(alarm: u16) -> Stamp {
    Stamp {
        minute: (alarm / 60) as u8,
        second: (alarm % 60) as u8,
        ..AUGUST
    }
}

/// The number of the alarm with which a record, or its stamp alone, was logged.
pub fn alarm_of(record: &[u8]) -> u16 {
    60 * u16::from(record[4]) + u16::from(record[5])
}
