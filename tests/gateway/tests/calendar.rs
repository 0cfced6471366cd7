//! The calendar: every date that exists and those next to them, in both date orders, on the libraries and on the model: as the
//! stamp of a scan, in an old record that is polled, and in a reply that is read.

use std::collections::BTreeMap;

use gateway::ffi::{self, Site, Slot, State};
use gateway::states::{differences, raw_of, remembered_of, state_of, ZEROS};
use model::card::{CLOCK, DONE, EMPTY, GARBLED};
use model::frames::{read_reply, request, READ};
use model::layout::FIRMWARE_74;
use model::machine::{least_archive, Machine, LEAST_REPLY, NUMBERED_RECORD};
use model::points::{STAMP_BYTES, TABLE_BYTES};
use model::reader as model_reader;
use model::record::{every_date, Stamp};
use reader::answers::{part, stamped};

/// Months 0 to 13, days 0 to 32 and years 0 to 100.
const DATES: usize = 14 * 33 * 101;
/// 100 years of 365 days, and 25 leap days.
const EXISTING: usize = 36_525;

const UNIT: u8 = 17;
/// A stamp and a 16-bit point.
const RECORD: usize = STAMP_BYTES + 2;
const ARCHIVE: usize = least_archive(FIRMWARE_74) + 2 * RECORD;
/// What archive memory holds before a scan, and a reply buffer as it is lent.
const JUNK: u8 = 0xEE;
/// The group numbers of a record that is a stamp only.
const BARE_STAMP: [u16; 32] = [0; 32];

/// A running gateway that remembers Booleans which are all off. File 1 has two records, captured at a rise of 1801; slot 1 logs it.
fn watching(day_first: bool) -> State {
    let mut s = ZEROS;
    s.site = Site { archive_length: ARCHIVE as u32, unit: UNIT, day_first, firmware: FIRMWARE_74 };
    s.flags.running = true;
    s.seen.scanned = true;
    s.files.layout.groups[..2].copy_from_slice(&[3001, 1]);
    s.files.layout.limits[0] = 2;
    s.settings.draft = s.files.layout;
    s.settings.triggers[0] = 1801;
    s.settings.slots[0] = Slot { point: 1801, transducer: 0, kind: 0 };
    s
}

fn machine_of(s: &State, archive: &[u8]) -> Machine {
    Machine::standing(&raw_of(s), remembered_of(s), archive)
}

/// The state and archive memory that a call left are the machine's.
fn assert_left(machine: &Machine, given: &State, got: &State, archive: &[u8], date: Stamp) {
    let wanted = state_of(&machine.raw_state(), machine.remembered(), given);
    assert!(*got == wanted, "{date:?}: the state differs:{}", differences(&wanted, got));
    assert!(archive == machine.archive_memory(), "{date:?}: archive memory differs");
}

/// A scan in which the trigger rises; one that is taken captures a record and logs an alarm.
fn scan(s: &State, date: Stamp) -> u8 {
    let mut archive = vec![JUNK; ARCHIVE];
    let mut table = vec![0; TABLE_BYTES];
    table[0] = 1;
    let mut machine = machine_of(s, &archive);
    let told = machine.scan(ARCHIVE, &table, date);
    let got = ffi::scan(*s, &mut archive, &mut table, date.into());
    assert_eq!((got.number, got.carried), (told.number.into(), told.carried.into()), "{date:?}");
    assert_left(&machine, s, &got.state, &archive, date);
    let is_captured = archive.starts_with(&date.bytes(s.site.day_first));
    assert_eq!(is_captured, told.is_done(), "{date:?}");
    told.number
}

/// A poll of an old record: its bytes come as they stand, whatever the date.
fn poll(s: &State, date: Stamp) -> u8 {
    let mut archive = vec![JUNK; ARCHIVE];
    archive[..STAMP_BYTES].copy_from_slice(&date.bytes(s.site.day_first));
    let stands = read_reply(UNIT, &archive[..RECORD]);
    let (mut table, mut frame) = (vec![JUNK; TABLE_BYTES], request(UNIT, READ, NUMBERED_RECORD + 1, 1));
    let (mut reply, mut wanted) = ([JUNK; LEAST_REPLY], [JUNK; LEAST_REPLY]);
    let mut machine = machine_of(s, &archive);
    let (told, length) = machine.poll(ARCHIVE, &table, &frame, &mut wanted);
    let got = ffi::poll(*s, &mut archive, &mut table, &mut frame, &mut reply);
    assert_eq!((got.number, got.length as usize, reply), (told.number.into(), length, wanted), "{date:?}");
    assert_eq!(reply[..length], stands, "{date:?}");
    assert_left(&machine, s, &got.state, &archive, date);
    told.number
}

/// A right reply with a bare stamp through the reading end.
fn read(day_first: bool, date: Stamp) -> u8 {
    let frame = read_reply(UNIT, &date.bytes(day_first));
    let record = model_reader::record(&BARE_STAMP, day_first, &frame);
    let stamp = model_reader::stamp(&BARE_STAMP, day_first, &frame);
    assert_eq!(reader::ffi::record(&BARE_STAMP, day_first, &frame), part(record), "{date:?}");
    assert_eq!(reader::ffi::stamp(&BARE_STAMP, day_first, &frame), stamped(stamp), "{date:?}");
    stamp.map_or_else(|refusal| refusal.number, |_| DONE)
}

/// How many dates are answered with each of the card's numbers.
fn answers(number_of: impl Fn(Stamp) -> u8) -> BTreeMap<u8, usize> {
    let mut answers = BTreeMap::new();
    for date in every_date() {
        *answers.entry(number_of(date)).or_default() += 1;
    }
    answers
}

#[test]
fn scans_are_taken_on_every_date_that_exists() {
    for day_first in [false, true] {
        let s = watching(day_first);
        assert_eq!(answers(|date| scan(&s, date)), BTreeMap::from([(DONE, EXISTING), (CLOCK, DATES - EXISTING)]));
    }
}

#[test]
fn old_records_of_every_date_are_polled_as_they_stand() {
    for day_first in [false, true] {
        let s = watching(day_first);
        assert_eq!(answers(|date| poll(&s, date)), BTreeMap::from([(DONE, DATES)]));
    }
}

/// Midnight of no day, month and year is a record of zeros.
#[test]
fn records_are_read_of_every_date_that_exists() {
    let wanted = BTreeMap::from([(DONE, EXISTING), (GARBLED, DATES - EXISTING - 1), (EMPTY, 1)]);
    for day_first in [false, true] {
        assert_eq!(answers(|date| read(day_first, date)), wanted);
    }
}
