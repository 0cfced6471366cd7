//! The scan that each record was captured from, so that the reply to a poll can be decoded by the reading end and held against what
//! was scanned: stamp and points against stamp and live table, and no record's bytes against other bytes.

use std::rc::Rc;

use gateway::ffi::State;
use gateway::rows::{groups_of, is_read_reply, limit_of, Asked, Request};
use model::card::EMPTY;
use model::layout::ALARM_FILE;
use model::machine::Machine;
use model::record::Stamp;
use reader::dates::is_leap_day;
use reader::ffi;
use reader::read_back::{read_back, same, Given, Points, Texts};

use crate::sights::Captured;

const BARE_STAMP: [u16; 32] = [0; 32];

pub struct Scan {
    pub table: Vec<u8>,
    pub stamp: Stamp,
}

/// What archive memory held when the list began, or when the files were last emptied.
pub enum Stood {
    Zeros,
    AnyBytes,
    /// In each slot of files 1 to 10 a record of this scan, from before texts were cleaned.
    OldRecords(Rc<Scan>),
}

/// What is known of a record.
enum Origin<'a> {
    Captured(&'a Scan, Texts),
    NotYet,
    Unknown,
}

/// How often the reading end gave back what was scanned.
#[derive(Default)]
pub struct ReadBack {
    pub records: usize,
    pub stamps: usize,
    pub empty: usize,
    /// Of the records, those from before texts were cleaned.
    pub old_records: usize,
    /// Of the records and stamps, those of 29 February.
    pub leap_days: usize,
    pub points: Points,
}

impl ReadBack {
    fn count(&mut self, is_stamp: bool, scan: &Scan, texts: Texts) {
        *(if is_stamp { &mut self.stamps } else { &mut self.records }) += 1;
        self.old_records += usize::from(!is_stamp && matches!(texts, Texts::AsTheyStood));
        self.leap_days += usize::from(is_leap_day(&scan.stamp));
    }
}

/// For each file the scans of its captures since it was emptied, oldest first; none for a capture from before the list began.
pub struct Origins {
    scans: [Vec<Option<Rc<Scan>>>; ALARM_FILE],
    stood: Stood,
}

impl Origins {
    pub fn of_empty_files() -> Origins {
        Origins { scans: Default::default(), stood: Stood::Zeros }
    }

    /// The machine's captures so far are what it was taken with.
    pub fn of_standing(machine: &Machine, stood: Stood) -> Origins {
        let before_the_list = |index: usize| vec![None; machine.captures(index + 1).len()];
        Origins { scans: std::array::from_fn(before_the_list), stood }
    }

    /// Takes note of a scan that captured so many records of each file.
    pub fn note(&mut self, table: &[u8], stamp: Stamp, captured: &Captured) {
        let scan = Rc::new(Scan { table: table.to_vec(), stamp });
        for (scans, &records) in self.scans.iter_mut().zip(captured) {
            scans.extend(std::iter::repeat_n(Some(scan.clone()), records));
        }
    }

    /// Record k is the greatest capture j with j - k divisible by n: looked for, and not worked out as the model does.
    fn of(&self, s: &State, file: usize, k: u16) -> Origin<'_> {
        let (scans, n) = (&self.scans[file - 1], usize::from(limit_of(s, file)));
        let newest = (1..=scans.len()).rev().find(|j| j.abs_diff(k.into()).is_multiple_of(n));
        match newest.and_then(|j| scans[j - 1].as_ref()) {
            Some(scan) => Origin::Captured(scan, Texts::Clean),
            None => self.before_the_list(file),
        }
    }

    /// What is known of a record that no scan of the list has captured.
    fn before_the_list(&self, file: usize) -> Origin<'_> {
        match &self.stood {
            Stood::Zeros => Origin::NotYet,
            Stood::OldRecords(scan) if file != ALARM_FILE => Origin::Captured(scan, Texts::AsTheyStood),
            Stood::OldRecords(_) | Stood::AnyBytes => Origin::Unknown,
        }
    }

    /// The reply to a poll of a record or a stamp, decoded: what was scanned, with clean texts but in an old record, or Empty where
    /// nothing was captured. Alarm records have no groups, so of them only stamps are decoded.
    pub fn read_back(&self, seen: &mut ReadBack, s: &State, frame: &[u8], reply: &[u8]) -> Result<(), String> {
        let request = Request::of(frame).filter(|_| is_read_reply(reply));
        let Some(Asked { file, k, is_stamp }) = request.and_then(|request| request.record(s)) else { return Ok(()) };
        let groups = match (is_stamp, file) {
            (true, _) => &BARE_STAMP,
            (false, ALARM_FILE) => return Ok(()),
            (false, _) => groups_of(s, file),
        };
        let given = Given { groups, day_first: s.site.day_first, frame: reply };
        match self.of(s, file, k) {
            Origin::Unknown => Ok(()),
            Origin::NotYet => {
                seen.empty += 1;
                same("a record not captured", EMPTY.into(), ffi::record(groups, given.day_first, reply).number)
            }
            Origin::Captured(scan, texts) => {
                seen.count(is_stamp, scan, texts);
                read_back(&mut seen.points, &given, &scan.table, texts, scan.stamp.into())
            }
        }
    }
}
