//! What Freshes were given and what they answered, counted, so that a run shows that each was refused by each cause that there is, and
//! by each before the next: the firmware, then the memory, then the unit.

use model::card::{DONE, FOREIGN, MEMORY};
use model::foreign::{firmware_is_in_use, unit_is_ours};
use model::layout::{FIRMWARES, FIRMWARE_73, FIRMWARE_74};
use model::machine::{least_archive, MOST_ARCHIVE};

use crate::fresh::Fresh;

/// How often each is to be seen.
const OFTEN_ENOUGH: usize = 5;

impl Fresh {
    fn is_with(&self, firmware: u16) -> bool {
        self.firmware == firmware.into()
    }

    /// Whether a gateway with this firmware takes the length.
    fn has_room_for(&self, firmware: u16) -> bool {
        (least_archive(firmware)..=MOST_ARCHIVE).contains(&self.length)
    }

    /// Whether a firmware that is not in use would be, were it cut to so many bits, with all else taken.
    fn is_taken_if_cut_to(&self, bits: u32) -> bool {
        let cut = self.firmware & ((1 << bits) - 1);
        let is_taken = |&firmware: &u16| u32::from(firmware) == cut && self.has_room_for(firmware);
        cut != self.firmware && unit_is_ours(self.unit) && FIRMWARES.iter().any(is_taken)
    }

    pub fn is_refused_for_a_wide_firmware(&self) -> bool {
        self.is_taken_if_cut_to(8) || self.is_taken_if_cut_to(16)
    }

    pub fn is_refused_for_a_wide_unit(&self) -> bool {
        let is_taken = |&firmware: &u16| self.is_with(firmware) && self.has_room_for(firmware);
        self.unit > 255 && unit_is_ours(self.unit & 0xFF) && FIRMWARES.iter().any(is_taken)
    }
}

/// A Fresh: what it was given, and the card's number.
struct Sight<'a> {
    given: &'a Fresh,
    number: u8,
}

impl Sight<'_> {
    fn is_done(&self, firmware: u16, is_such: impl Fn(usize) -> bool) -> bool {
        self.number == DONE && self.given.is_with(firmware) && is_such(self.given.length)
    }

    /// Whether it is refused for its memory, with a unit that is ours or not.
    fn is_memory(&self, firmware: u16, has_our_unit: bool, is_such: impl Fn(usize) -> bool) -> bool {
        let is_with = self.given.is_with(firmware) && unit_is_ours(self.given.unit) == has_our_unit;
        self.number == MEMORY && is_with && is_such(self.given.length)
    }

    fn is_foreign_by_unit(&self, firmware: u16) -> bool {
        self.number == FOREIGN && self.given.is_with(firmware) && !unit_is_ours(self.given.unit)
    }

    /// Whether it is refused for its firmware, with a unit that is ours or not and a length such as this.
    fn is_foreign_by_firmware(&self, has_our_unit: bool, is_such: impl Fn(usize) -> bool) -> bool {
        let is_other = !firmware_is_in_use(self.given.firmware) && unit_is_ours(self.given.unit) == has_our_unit;
        self.number == FOREIGN && is_other && is_such(self.given.length)
    }
}

/// Whether a length is taken with either firmware, is too short for both, or too long.
fn is_enough(length: usize) -> bool {
    (11_000..=1_048_576).contains(&length)
}

fn is_too_short(length: usize) -> bool {
    length < 3_300
}

fn is_too_long(length: usize) -> bool {
    length > 1_048_576
}

/// A name, and whether one Fresh shows it.
type Shown = (&'static str, fn(&Sight) -> bool);

/// Everything that the Freshes of a whole run must have shown.
const SHOWN: [Shown; 26] = [
    ("73 done in 3,300 bytes", |f| f.is_done(FIRMWARE_73, |length| length == 3_300)),
    ("73 done in bytes that 74 does not take", |f| f.is_done(FIRMWARE_73, |length| length < 11_000)),
    ("73 done in bytes that 74 takes", |f| f.is_done(FIRMWARE_73, is_enough)),
    ("73 done in 1,048,576 bytes", |f| f.is_done(FIRMWARE_73, |length| length == 1_048_576)),
    ("74 done in 11,000 bytes", |f| f.is_done(FIRMWARE_74, |length| length == 11_000)),
    ("74 done in more bytes", |f| f.is_done(FIRMWARE_74, |length| length > 11_000)),
    ("74 done in 1,048,576 bytes", |f| f.is_done(FIRMWARE_74, |length| length == 1_048_576)),
    ("73 refused for 3,299 bytes", |f| f.is_memory(FIRMWARE_73, true, |length| length == 3_299)),
    ("73 refused for too many bytes", |f| f.is_memory(FIRMWARE_73, true, is_too_long)),
    ("73 refused for too few bytes, with a Foreign unit", |f| f.is_memory(FIRMWARE_73, false, is_too_short)),
    ("73 refused for too many bytes, with a Foreign unit", |f| f.is_memory(FIRMWARE_73, false, is_too_long)),
    ("74 refused for 10,999 bytes", |f| f.is_memory(FIRMWARE_74, true, |length| length == 10_999)),
    ("74 refused for bytes that 73 takes", |f| f.is_memory(FIRMWARE_74, true, |length| (3_300..11_000).contains(&length))),
    ("74 refused for too few bytes for 73 too", |f| f.is_memory(FIRMWARE_74, true, is_too_short)),
    ("74 refused for too many bytes", |f| f.is_memory(FIRMWARE_74, true, is_too_long)),
    ("74 refused for too few bytes, with a Foreign unit", |f| f.is_memory(FIRMWARE_74, false, |length| length < 11_000)),
    ("74 refused for too many bytes, with a Foreign unit", |f| f.is_memory(FIRMWARE_74, false, is_too_long)),
    ("73 refused for its unit", |f| f.is_foreign_by_unit(FIRMWARE_73)),
    ("74 refused for its unit", |f| f.is_foreign_by_unit(FIRMWARE_74)),
    ("refused for the firmware alone", |f| f.is_foreign_by_firmware(true, is_enough)),
    ("refused for the firmware, with too few bytes", |f| f.is_foreign_by_firmware(true, is_too_short)),
    ("refused for the firmware, with too many bytes", |f| f.is_foreign_by_firmware(true, is_too_long)),
    ("refused for the firmware, with a Foreign unit", |f| f.is_foreign_by_firmware(false, is_enough)),
    ("refused for the firmware, with another length and a Foreign unit", |f| {
        f.is_foreign_by_firmware(false, |length| is_too_short(length) || is_too_long(length))
    }),
    ("refused for a firmware that is in use only when cut to 8 bits", |f| {
        f.is_foreign_by_firmware(true, |_| f.given.is_taken_if_cut_to(8))
    }),
    ("refused for a firmware that is in use only when cut to 16 bits", |f| {
        f.is_foreign_by_firmware(true, |_| f.given.is_taken_if_cut_to(16))
    }),
];

/// How often Freshes showed each.
#[derive(Default)]
pub struct FreshTally([usize; SHOWN.len()]);

impl FreshTally {
    pub fn count(&mut self, given: &Fresh, number: u8) {
        for (seen, (_, is_shown)) in self.0.iter_mut().zip(SHOWN) {
            *seen += usize::from(is_shown(&Sight { given, number }));
        }
    }

    /// Each thing, how often it was seen, and how often it should be.
    pub fn seen(&self) -> Vec<(String, usize, usize)> {
        SHOWN.iter().zip(self.0).map(|((name, _), n)| (format!("Fresh: {name}"), n, OFTEN_ENOUGH)).collect()
    }
}
