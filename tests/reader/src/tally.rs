//! What a run has seen, and what it should have.

use reader::read_back::{Points, KINDS};

use crate::faults::FAULTS;

/// The numbers that the reading end answers: for record and stamp, and for stretch and point.
const OF_RECORDS: [usize; 5] = [0, 7, 8, 14, 15];
const OF_POINTS: [usize; 6] = [0, 7, 8, 14, 15, 16];
/// How often each of them is to be seen.
const OFTEN_ENOUGH: u32 = 100;

#[derive(Default)]
pub struct Tally {
    /// How often each number was answered.
    pub records: [u32; 17],
    pub stretches: [u32; 17],
    pub points: [u32; 17],
    /// The points that were read back from a capture.
    pub points_read_back: Points,
    /// How often such a capture was of 29 February.
    pub leap_days: u32,
    /// How often each fault was told by its number.
    pub faults: [u32; FAULTS.len()],
    /// Lists of more than 32 numbers, and of fewer, whose first ones fit the frame.
    pub long_lists: u32,
    pub short_lists: u32,
    /// How often the CRC was compared of no bytes, of as many as a frame may have, and of more.
    pub crcs: [u32; 3],
}

impl Tally {
    /// What was seen how often, of all that a whole run should see.
    fn seen(&self) -> Vec<(String, u32)> {
        let mut seen: Vec<(String, u32)> = Vec::new();
        seen.extend(OF_RECORDS.map(|number| (format!("record answering {number}"), self.records[number])));
        seen.extend(OF_POINTS.map(|number| (format!("stretch answering {number}"), self.stretches[number])));
        seen.extend(OF_POINTS.map(|number| (format!("point answering {number}"), self.points[number])));
        let Points { kinds, cleaned, not_cleaned } = &self.points_read_back;
        seen.extend((1..KINDS.len()).map(|kind| (format!("{} read back", KINDS[kind]), kinds[kind])));
        seen.push(("text that was cleaned read back".to_string(), *cleaned));
        seen.push(("text of an old record that is not clean read back".to_string(), *not_cleaned));
        seen.push(("29 February read back".to_string(), self.leap_days));
        seen.extend(FAULTS.iter().zip(self.faults).map(|(fault, n)| (format!("{}, told by {}", fault.name, fault.number), n)));
        seen.push(("a list of more than 32 numbers".to_string(), self.long_lists));
        seen.push(("a list of fewer than 32 numbers".to_string(), self.short_lists));
        let crcs = ["CRC of no bytes", "CRC of up to 256 bytes", "CRC of over 256 bytes"].map(str::to_string);
        seen.extend(crcs.into_iter().zip(self.crcs));
        seen
    }

    pub fn hardly_seen(&self) -> Vec<String> {
        self.seen().into_iter().filter(|(_, n)| *n < OFTEN_ENOUGH).map(|(name, _)| name).collect()
    }

    pub fn print(&self) {
        for (name, n) in self.seen() {
            println!("{name}: {n}");
        }
    }
}
