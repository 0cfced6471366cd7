//! What calls on gateways of either firmware were seen to do, counted, so that a run shows that nothing which goes by the alarm file's
//! depth was left out. What goes before, at Fresh, is in `fresh_sights`.

use std::ops::RangeInclusive;

use gateway::ffi::{Definitions, State};
use gateway::rows::{is_read_reply, Row};
use gateway::states::{definitions_of, laid_out_bytes, raw_of};
use model::card::{DONE, FOREIGN, MEMORY, ROOM};
use model::foreign::{firmware_is_in_use, foreign};
use model::frames::ILLEGAL_VALUE;
use model::layout::{layout_bytes, ALARM_FILE, FIRMWARES, FIRMWARE_73, FIRMWARE_74};

use crate::calls::{Call, FRESH};
use crate::poll_sights::PollSight;
use crate::sights::Sight;

/// How often each is to be seen.
const OFTEN_ENOUGH: usize = 20;

const ALARMS: usize = ALARM_FILE - 1;
/// The register that has the alarm file's n.
const N_OF_ALARMS: u16 = 3731;

/// A call that was refused, with the state that it was given.
struct Refused<'a> {
    s: &'a State,
    number: u8,
}

impl Refused<'_> {
    /// Whether the state is Foreign, and with one thing mended it would not be.
    fn is_foreign_only_until(&self, mend: impl Fn(&mut State)) -> bool {
        let mut mended = *self.s;
        mend(&mut mended);
        foreign(&raw_of(self.s)) && !foreign(&raw_of(&mended))
    }

    /// Whether the firmware alone makes it Foreign, with this number told of it.
    fn is_foreign_by(&self, firmwares: RangeInclusive<u16>, number: u8) -> bool {
        let firmware = self.s.site.firmware;
        self.number == number
            && firmwares.contains(&firmware)
            && !firmware_is_in_use(firmware.into())
            && FIRMWARES.iter().any(|&other| self.is_foreign_only_until(|s| s.site.firmware = other))
    }

    /// Whether a number of the alarm file alone does, which it may have with firmware 74.
    fn is_foreign_by_number(&self, number_of: impl Fn(&mut State) -> &mut u16) -> bool {
        let number = *number_of(&mut self.s.clone());
        self.number == FOREIGN
            && self.s.site.firmware == FIRMWARE_73
            && (151..=500).contains(&number)
            && self.is_foreign_only_until(|s| *number_of(s) = 150)
    }

    /// Whether the layout alone does, which would not be over memory with firmware 73.
    fn is_foreign_by_depth(&self) -> bool {
        let with_73 = layout_bytes(&definitions_of(&self.s.files.layout), FIRMWARE_73);
        self.number == FOREIGN
            && self.s.site.firmware == FIRMWARE_74
            && with_73 <= self.s.site.archive_length.into()
            && self.is_foreign_only_until(|s| s.site.archive_length = laid_out_bytes(s) as u32)
    }
}

/// A name, and whether one refused call shows it.
type ShownOfRefused = (&'static str, fn(&Refused) -> bool);

const REFUSED: [ShownOfRefused; 9] = [
    ("Foreign only by firmware 0", |r| r.is_foreign_by(0..=0, FOREIGN)),
    ("Foreign only by firmware 72", |r| r.is_foreign_by(72..=72, FOREIGN)),
    ("Foreign only by firmware 75", |r| r.is_foreign_by(75..=75, FOREIGN)),
    ("Foreign only by a firmware that is in use when cut to 8 bits", |r| r.is_foreign_by(329..=330, FOREIGN)),
    ("Foreign only by firmware 65,535", |r| r.is_foreign_by(65_535..=65_535, FOREIGN)),
    ("Memory with a state that is Foreign only by its firmware", |r| r.is_foreign_by(0..=65_535, MEMORY)),
    ("Foreign only by an alarm pointer of 151 to 500 with firmware 73", |r| {
        r.is_foreign_by_number(|s| &mut s.files.pointers[ALARMS])
    }),
    ("Foreign only by a requested alarm of 151 to 500 with firmware 73", |r| {
        r.is_foreign_by_number(|s| &mut s.line.requested[ALARMS])
    }),
    ("Foreign only by a layout with firmware 74 that would fit with 73", |r| r.is_foreign_by_depth()),
];

/// A Start: the card's number, and the state that it left.
struct Start<'a> {
    s: &'a State,
    number: u8,
}

impl Start<'_> {
    fn is_told(&self, firmware: u16, number: u8) -> bool {
        self.s.site.firmware == firmware && self.number == number
    }

    /// Whether the draft, or the layout, fits with this firmware.
    fn fits(&self, files: &Definitions, firmware: u16) -> bool {
        layout_bytes(&definitions_of(files), firmware) <= self.s.site.archive_length.into()
    }

    /// Whether there are files, and with the alarm file they fill the archive.
    fn leaves_no_byte(&self) -> bool {
        self.s.files.layout.limits != [0; 10] && laid_out_bytes(self.s) == self.s.site.archive_length.into()
    }
}

/// A name, and whether one Start shows it.
type ShownOfStart = (&'static str, fn(&Start) -> bool);

const STARTS: [ShownOfStart; 5] = [
    ("Room with firmware 73", |start| start.is_told(FIRMWARE_73, ROOM)),
    ("Room with firmware 74 for a layout that would fit with 73", |start| {
        start.is_told(FIRMWARE_74, ROOM) && start.fits(&start.s.settings.draft, FIRMWARE_73)
    }),
    ("a Start with firmware 73 of a layout that would not fit with 74", |start| {
        start.is_told(FIRMWARE_73, DONE) && !start.fits(&start.s.files.layout, FIRMWARE_74)
    }),
    ("a Start with firmware 73 that leaves no byte", |start| start.is_told(FIRMWARE_73, DONE) && start.leaves_no_byte()),
    ("a Start with firmware 74 that leaves no byte", |start| start.is_told(FIRMWARE_74, DONE) && start.leaves_no_byte()),
];

/// A name, the firmware of the scans that show it, and whether one of them does.
type ShownOfScan = (&'static str, u16, fn(&Sight) -> bool);

/// Whether a scan logs an alarm next after this record of the alarm file, be it its last one.
fn goes_past(scan: &Sight, record: usize) -> bool {
    let [before, after] = scan.alarm_pointers();
    before <= record && record < after
}

/// Whether it logs one into this record and one next after it.
fn goes_across(scan: &Sight, record: usize) -> bool {
    let [before, _] = scan.alarm_pointers();
    before < record && goes_past(scan, record)
}

const SCANS: [ShownOfScan; 8] = [
    ("scans that captured with firmware 73", FIRMWARE_73, |scan| scan.files() > 0),
    ("scans that captured with firmware 74", FIRMWARE_74, |scan| scan.files() > 0),
    ("alarm files of 150 that went round", FIRMWARE_73, |scan| goes_past(scan, 150)),
    ("alarm files of 150 that wrapped inside one scan", FIRMWARE_73, |scan| goes_across(scan, 150)),
    ("alarm files of 500 that went on after record 150", FIRMWARE_74, |scan| goes_past(scan, 150)),
    ("alarm files of 500 that went across record 150 inside one scan", FIRMWARE_74, |scan| goes_across(scan, 150)),
    ("alarm files of 500 that went round", FIRMWARE_74, |scan| goes_past(scan, 500)),
    ("alarm files of 500 that wrapped inside one scan", FIRMWARE_74, |scan| goes_across(scan, 500)),
];

/// The rows of the alarm file on which a number is read or set, by how they are polled. On the first three a poll names the number
/// itself.
const ROWS: [Row; 5] = [Row::RecordNumbered, Row::StampNumbered, Row::SetRequested, Row::RecordRequested, Row::StampRequested];

/// A name, a firmware, numbers of alarm records, and whether they are to be done or refused with exception 03.
type Numbers = (&'static str, u16, RangeInclusive<u16>, Outcome);

#[derive(Clone, Copy)]
enum Outcome {
    Done,
    Refused,
}

impl Outcome {
    fn is_of(self, p: &PollSight) -> bool {
        match self {
            Outcome::Done => p.reply.len() > 5,
            Outcome::Refused => p.is_exception(ILLEGAL_VALUE),
        }
    }

    /// On how many of ROWS there is such an outcome. A requested number is one that the file has, so none is refused.
    fn rows(self) -> usize {
        match self {
            Outcome::Done => 5,
            Outcome::Refused => 3,
        }
    }
}

const NUMBERS: [Numbers; 6] = [
    ("alarm 150 done with firmware 73", FIRMWARE_73, 150..=150, Outcome::Done),
    ("alarm 151 refused with firmware 73", FIRMWARE_73, 151..=151, Outcome::Refused),
    ("alarms 152 to 500 refused with firmware 73", FIRMWARE_73, 152..=500, Outcome::Refused),
    ("alarms 151 to 499 done with firmware 74", FIRMWARE_74, 151..=499, Outcome::Done),
    ("alarm 500 done with firmware 74", FIRMWARE_74, 500..=500, Outcome::Done),
    ("alarm 501 refused with firmware 74", FIRMWARE_74, 501..=501, Outcome::Refused),
];

/// The row and the number of a poll of the alarm file's records.
fn asked(p: &PollSight) -> Option<(Row, u16)> {
    let request = p.request()?;
    let (row, _) = request.row().filter(|&(_, file)| file == ALARM_FILE)?;
    match row {
        Row::Registers => None,
        Row::RecordRequested | Row::StampRequested => Some((row, p.before.line.requested[ALARMS])),
        Row::RecordNumbered | Row::StampNumbered | Row::SetRequested => Some((row, request.number)),
    }
}

/// Whether the reply carries the alarm file's n, among other registers or alone.
fn reads_n(p: &PollSight) -> bool {
    let is_run_over_n = |start: u16, quantity: u16| start <= N_OF_ALARMS && N_OF_ALARMS - start < quantity;
    let is_on_registers = |(row, _)| row == Row::Registers;
    is_read_reply(p.reply)
        && p.request().is_some_and(|r| r.row().is_some_and(is_on_registers) && is_run_over_n(r.address, r.number))
}

#[derive(Default)]
pub struct FirmwareTally {
    /// How often each kind of call but Fresh, which is the last, was done with each of FIRMWARES.
    done: [[usize; FRESH]; FIRMWARES.len()],
    refused: [usize; REFUSED.len()],
    starts: [usize; STARTS.len()],
    scans: [usize; SCANS.len()],
    /// How often each of NUMBERS was polled on each of ROWS.
    numbers: [[usize; ROWS.len()]; NUMBERS.len()],
    /// How often the alarm file's n was polled with each of FIRMWARES.
    depths: [usize; FIRMWARES.len()],
}

/// The place of a state's firmware in FIRMWARES, if it is in use.
fn place(s: &State) -> Option<usize> {
    FIRMWARES.iter().position(|&firmware| firmware == s.site.firmware)
}

impl FirmwareTally {
    /// A call that answered this number, and the state that it left.
    pub fn count(&mut self, call: &Call, s: &State, number: u8) {
        if let Some(place) = place(s).filter(|_| number == DONE) {
            self.done[place][call.kind()] += 1;
        }
        if [MEMORY, FOREIGN].contains(&number) {
            for (seen, (_, is_shown)) in self.refused.iter_mut().zip(REFUSED) {
                *seen += usize::from(is_shown(&Refused { s, number }));
            }
        }
        if *call == Call::Start {
            for (seen, (_, is_shown)) in self.starts.iter_mut().zip(STARTS) {
                *seen += usize::from(is_shown(&Start { s, number }));
            }
        }
    }

    /// An accepted scan.
    pub fn scanned(&mut self, scan: &Sight) {
        for (seen, (_, firmware, is_shown)) in self.scans.iter_mut().zip(SCANS) {
            *seen += usize::from(scan.firmware() == firmware && is_shown(scan));
        }
    }

    /// A poll that was not refused.
    pub fn polled(&mut self, p: &PollSight) {
        if let Some(place) = place(p.before).filter(|_| reads_n(p)) {
            self.depths[place] += 1;
        }
        let Some((row, number)) = asked(p) else { return };
        for (seen, (_, firmware, numbers, outcome)) in self.numbers.iter_mut().zip(NUMBERS) {
            let is_shown = p.before.site.firmware == firmware && numbers.contains(&number) && outcome.is_of(p);
            for (seen, _) in seen.iter_mut().zip(ROWS).filter(|(_, other)| *other == row) {
                *seen += usize::from(is_shown);
            }
        }
    }

    /// Each thing that polls can show, how often they did, and how often they should.
    pub fn polls_seen(&self) -> Vec<(String, usize, usize)> {
        let mut seen = Vec::new();
        for ((name, .., outcome), rows) in NUMBERS.iter().zip(&self.numbers) {
            let least = rows[..outcome.rows()].iter().copied().min().unwrap_or(0);
            seen.push((format!("{name}, on the row that had fewest"), least, OFTEN_ENOUGH));
        }
        for (firmware, n) in FIRMWARES.iter().zip(self.depths) {
            seen.push((format!("n of the alarm file polled with firmware {firmware}"), n, OFTEN_ENOUGH));
        }
        seen
    }

    /// All that calls can show.
    pub fn seen(&self) -> Vec<(String, usize, usize)> {
        let mut seen = Vec::new();
        for (firmware, calls) in FIRMWARES.iter().zip(&self.done) {
            let least = calls.iter().copied().min().unwrap_or(0);
            seen.push((format!("calls done with firmware {firmware}, of the kind that had fewest"), least, OFTEN_ENOUGH));
        }
        seen.extend(REFUSED.iter().zip(self.refused).map(|((name, _), n)| (name.to_string(), n, OFTEN_ENOUGH)));
        seen.extend(STARTS.iter().zip(self.starts).map(|((name, _), n)| (name.to_string(), n, OFTEN_ENOUGH)));
        seen.extend(SCANS.iter().zip(self.scans).map(|((name, ..), n)| (name.to_string(), n, OFTEN_ENOUGH)));
        seen.extend(self.polls_seen());
        seen
    }
}
