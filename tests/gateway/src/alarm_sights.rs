//! What the alarm records of accepted scans were seen to be: those of falls and then those of rises. All is to be seen with either
//! firmware, which decides where the file ends.

use model::layout::{alarm_records, FIRMWARES};
use model::machine::SLOTS;

/// The first of the upper 64 points.
const UPPER_WORD: u16 = 1865;

/// The records that a scan logs, by their points in the order of slots, and where they go.
pub struct Alarms {
    /// Those with new bit 0.
    pub cleared: Vec<u16>,
    /// Those with new bit 1.
    pub raised: Vec<u16>,
    /// The falls that slots do not log, being of type 1 or 3.
    pub not_logged: Vec<u16>,
    /// The alarm file's pointer before the scan.
    pub pointer: u16,
    pub firmware: u16,
}

impl Alarms {
    fn are_both(&self) -> bool {
        !self.cleared.is_empty() && !self.raised.is_empty()
    }

    fn all(&self) -> usize {
        self.cleared.len() + self.raised.len()
    }

    /// Whether a cleared point is above a raised one, so that it would come behind it by point alone.
    fn are_not_by_point_alone(&self) -> bool {
        self.cleared.iter().any(|cleared| self.raised.iter().any(|raised| cleared > raised))
    }

    /// Whether a falling point has slots that log it and slots that do not.
    fn are_of_some_slots(&self) -> bool {
        self.cleared.iter().any(|point| self.not_logged.contains(point))
    }

    /// How many of them go before the end of the file, if others go to its first records.
    fn before_the_end(&self) -> Option<usize> {
        let room = usize::from(alarm_records(self.firmware) - self.pointer);
        (0 < room && room < self.all()).then_some(room)
    }

    /// Whether cleared and raised ones go across the end of the file, with such a number before it beside that of the cleared.
    fn go_across_the_end(&self, is_such: fn(usize, usize) -> bool) -> bool {
        self.are_both() && self.before_the_end().is_some_and(|before_it| is_such(before_it, self.cleared.len()))
    }
}

/// Whether a point is there twice.
pub fn has_twins(points: &[u16]) -> bool {
    let mut points = points.to_vec();
    points.sort_unstable();
    points.windows(2).any(|pair| pair[0] == pair[1])
}

/// A name, how often it is to be seen, and whether the alarms of one scan show it.
type Shown = (&'static str, usize, fn(&Alarms) -> bool);

/// Everything that the alarms of a whole run must have shown.
const SHOWN: [Shown; 15] = [
    ("scans with cleared and raised alarms", 1_000, |a| a.are_both()),
    ("scans with a cleared alarm above a raised one", 1_000, |a| a.are_not_by_point_alone()),
    ("scans with cleared alarms, and raised ones above them only", 100, |a| a.are_both() && !a.are_not_by_point_alone()),
    ("scans with an alarm cleared in the upper 64 points and one raised in the lower", 1_000, |a| {
        a.cleared.iter().any(|&point| point >= UPPER_WORD) && a.raised.iter().any(|&point| point < UPPER_WORD)
    }),
    ("scans with raised alarms, and cleared ones not in the order of slots", 1_000, |a| a.are_both() && !a.cleared.is_sorted()),
    ("scans with cleared alarms, and raised ones not in the order of slots", 1_000, |a| a.are_both() && !a.raised.is_sorted()),
    ("scans with raised alarms, and several cleared ones of one point", 1_000, |a| a.are_both() && has_twins(&a.cleared)),
    ("scans with cleared alarms, and several raised ones of one point", 1_000, |a| a.are_both() && has_twins(&a.raised)),
    ("scans in which some slots of a falling point log and some do not", 1_000, |a| a.are_of_some_slots()),
    ("scans with raised alarms, and falls that no slot logs", 100, |a| {
        a.cleared.is_empty() && !a.not_logged.is_empty() && !a.raised.is_empty()
    }),
    ("scans with cleared and raised alarms, the file's end among the cleared", 10, |a| {
        a.go_across_the_end(|before_it, cleared| before_it < cleared)
    }),
    ("scans with cleared and raised alarms, the file's end among the raised", 10, |a| {
        a.go_across_the_end(|before_it, cleared| before_it > cleared)
    }),
    ("scans with cleared and raised alarms, the file's end between them", 10, |a| {
        a.go_across_the_end(|before_it, cleared| before_it == cleared)
    }),
    ("scans with 32 raised alarms", 10, |a| a.raised.len() == SLOTS),
    ("scans with 32 cleared and raised alarms", 10, |a| a.are_both() && a.all() == SLOTS),
];

/// How often the alarms of a scan showed each, with each of FIRMWARES.
#[derive(Default)]
pub struct AlarmTally([[usize; FIRMWARES.len()]; SHOWN.len()]);

impl AlarmTally {
    pub fn logged(&mut self, alarms: &Alarms) {
        for (seen, (_, _, is_shown)) in self.0.iter_mut().zip(SHOWN) {
            for (seen, firmware) in seen.iter_mut().zip(FIRMWARES) {
                *seen += usize::from(firmware == alarms.firmware && is_shown(alarms));
            }
        }
    }

    /// Each thing, how often it was seen with the firmware that showed it least, and how often it should be.
    pub fn seen(&self) -> Vec<(String, usize, usize)> {
        let mut all = Vec::new();
        for ((name, often_enough, _), seen) in SHOWN.iter().zip(&self.0) {
            let least = seen.iter().copied().min().unwrap_or(0);
            all.push((format!("{name}, with the firmware that had fewest"), least, *often_enough));
        }
        all
    }
}
