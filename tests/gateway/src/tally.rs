//! What a run has seen, and what it should have.

use gateway::states::CLAUSES;
use model::card::{CLOCK, DONE, FOREIGN, MEMORY, TABLE};
use reader::dates::is_impossible_day;

use crate::alarm_sights::AlarmTally;
use crate::calls::{Call, FRESH, NAMES, WIDE, WIDE_FIRMWARE, WIDE_UNIT};
use crate::compare::Wanted;
use crate::firmware_sights::FirmwareTally;
use crate::fresh::Fresh;
use crate::fresh_sights::FreshTally;
use crate::lent::Lent;
use crate::poll_sights::PollSight;
use crate::poll_tally::PollTally;
use crate::refused_sights::Refused;
use crate::sights::{Sight, SIGHTS};
use crate::text_sights::{TextTally, Way};

/// The numbers that each call of NAMES is to answer.
const NUMBERS: [&[usize]; NAMES.len()] = [
    &[0, 1, 2, 10],
    &[0, 1, 2],
    &[0, 1, 2],
    &[0, 1, 2, 11],
    &[0, 1, 2, 5, 6, 7, 8],
    &[0, 1, 2, 5, 9],
    &[0, 1, 2, 12],
    &[0, 1, 2, 3, 4],
    &[0, 1, 2, 3, 13],
    &[0, 1, 2],
];

/// How often each of SIGHTS is to be seen, and a file is to go round in one list.
const OFTEN_ENOUGH: usize = 5;
const MANY_ROUNDS: usize = 200;

#[derive(Default)]
pub struct Tally {
    /// How often each call answered each number.
    pub answers: [[u32; 17]; NAMES.len()],
    /// How often each clause by itself was Foreign, and was not.
    pub clauses: [[u32; 2]; CLAUSES.len()],
    /// Of the Foreign states: handed in with another length too, and to a call that had a refusal of its own.
    foreign_and_memory: u32,
    foreign_and_bad: u32,
    /// Scans with a table of another length and a stamp out of range.
    table_and_clock: u32,
    /// Scans refused for nothing but a day that its month lacks.
    impossible_days: u32,
    zeroed: u32,
    /// How often each argument of WIDE alone was what a call was refused for.
    pub wide: [u32; WIDE.len()],
    sights: [usize; SIGHTS.len()],
    /// How often the file that went round most in one list did so.
    pub most_rounds: usize,
    freshes: FreshTally,
    pub firmwares: FirmwareTally,
    pub alarms: AlarmTally,
    pub texts: TextTally,
    pub polls: PollTally,
    /// The polls, the scans with alarms and the texts that were tried one after the other, which are in no other count.
    pub polls_in_turn: usize,
    pub alarm_scans_in_turn: usize,
    pub texts_in_turn: usize,
}

impl Tally {
    pub fn count_fresh(&mut self, given: &Fresh, number: u8) {
        self.answers[FRESH][number as usize] += 1;
        self.wide[WIDE_UNIT] += u32::from(given.is_refused_for_a_wide_unit());
        self.wide[WIDE_FIRMWARE] += u32::from(given.is_refused_for_a_wide_firmware());
        self.freshes.count(given, number);
    }

    pub fn count(&mut self, call: &Call, wanted: &Wanted, lent: &Lent) {
        let number = wanted.told.number;
        self.answers[call.kind()][number as usize] += 1;
        self.firmwares.count(call, &wanted.state, number);
        if let Some(argument) = call.wide_argument().filter(|_| number > FOREIGN) {
            self.wide[argument] += 1;
        }
        match call {
            Call::Start => self.zeroed += u32::from(wanted.lent.archive != lent.archive),
            Call::Scan { stamp, .. } => {
                self.table_and_clock += u32::from(number == TABLE && !stamp.in_range());
                self.impossible_days += u32::from(number == CLOCK && is_impossible_day(stamp));
            }
            Call::Poll { table, frame, room } if number != DONE => {
                self.polls.refused(&Refused { number, table: &table.0, frame: &frame.0, room: *room });
            }
            _ => {}
        }
    }

    /// A call on a damaged state that is Foreign, and what the call answers on the state before the damage.
    pub fn count_foreign(&mut self, wanted: &Wanted, undamaged: &Wanted) {
        self.foreign_and_memory += u32::from(wanted.told.number == MEMORY);
        self.foreign_and_bad += u32::from(wanted.told.number == FOREIGN && undamaged.told.number > FOREIGN);
    }

    pub fn scanned(&mut self, sight: &Sight) {
        for (seen, (_, how_often)) in self.sights.iter_mut().zip(SIGHTS) {
            *seen += how_often(sight);
        }
        self.firmwares.scanned(sight);
        self.alarms.logged(&sight.alarms());
        for (first, points) in sight.captured_groups() {
            self.texts.read(Way::Captured, sight.table, first, points);
        }
    }

    /// A poll that was not refused.
    pub fn polled(&mut self, sight: &PollSight) {
        self.polls.polled(sight);
        self.firmwares.polled(sight);
        if let Some(run) = sight.run().filter(|_| sight.is_live_reply()) {
            self.texts.read(Way::Polled, sight.table, run.first, run.quantity);
        }
    }

    /// What Freshes, firmwares, the alarms, the texts and the polls have shown.
    fn shown(&self) -> impl Iterator<Item = (String, usize, usize)> {
        let firmwares = self.freshes.seen().into_iter().chain(self.firmwares.seen());
        firmwares.chain(self.alarms.seen()).chain(self.texts.seen()).chain(self.polls.seen())
    }

    /// What was hardly seen, of all that a whole run should see.
    pub fn hardly_seen(&self) -> Vec<String> {
        let mut seldom = Vec::new();
        for (kind, numbers) in NUMBERS.iter().enumerate() {
            for &number in numbers.iter().filter(|&&number| self.answers[kind][number] < 20) {
                seldom.push(format!("{} answering {number}", NAMES[kind]));
            }
        }
        let clauses = CLAUSES.iter().zip(&self.clauses).filter(|(_, seen)| seen[0] < 100);
        seldom.extend(clauses.map(|(name, _)| format!("Foreign by {name}")));
        let cut = WIDE.iter().zip(&self.wide).filter(|(_, &seen)| seen < 20);
        seldom.extend(cut.map(|(name, _)| format!("refused for a {name} that would be taken if it were cut")));
        let counted = [
            ("Foreign with another length", self.foreign_and_memory),
            ("Foreign with a bad argument", self.foreign_and_bad),
            ("Table with a stamp out of range", self.table_and_clock),
            ("Clock for a day that its month lacks", self.impossible_days),
            ("a Start that zeroes bytes", self.zeroed),
        ];
        seldom.extend(counted.iter().filter(|(_, seen)| *seen < 100).map(|(name, _)| name.to_string()));
        let sights = SIGHTS.iter().zip(&self.sights).filter(|(_, &seen)| seen < OFTEN_ENOUGH);
        seldom.extend(sights.map(|((name, _), _)| name.to_string()));
        if self.most_rounds < MANY_ROUNDS {
            seldom.push("a file that goes round many times".to_string());
        }
        seldom.extend(self.shown().filter(|(_, n, least)| n < least).map(|(name, ..)| name));
        seldom
    }

    pub fn print(&self) {
        for (name, seen) in NAMES.iter().zip(&self.answers) {
            let numbers: Vec<String> =
                seen.iter().enumerate().filter(|(_, &n)| n > 0).map(|(number, n)| format!("{number}: {n}")).collect();
            println!("{name} answered {}", numbers.join(", "));
        }
        for (name, seen) in CLAUSES.iter().zip(&self.clauses) {
            println!("{name}: Foreign {}, not {}", seen[0], seen[1]);
        }
        for (name, seen) in WIDE.iter().zip(&self.wide) {
            println!("refused for a {name} that would be taken if it were cut: {seen}");
        }
        println!("Foreign with another length {}, with a bad argument {}", self.foreign_and_memory, self.foreign_and_bad);
        println!("Table with a stamp out of range {}; Starts that zeroed bytes {}", self.table_and_clock, self.zeroed);
        println!("Clock for a day that its month lacks {}", self.impossible_days);
        for ((name, _), seen) in SIGHTS.iter().zip(&self.sights) {
            println!("{name}: {seen}");
        }
        println!("one file went round {} times in one list", self.most_rounds);
        for (name, n, _) in self.shown() {
            println!("{name}: {n}");
        }
    }
}

/// What was not seen at all, of what there was to be seen.
pub fn unseen(seen: Vec<(String, usize, usize)>) -> Vec<String> {
    seen.into_iter().filter(|(_, n, _)| *n == 0).map(|(name, ..)| name).collect()
}
