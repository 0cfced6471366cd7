//! The alarm records of one scan on libgateway.a, those with new bit 0 first, with either firmware. What is wanted is worked out by
//! hand.

use gateway::ffi::{self, Answer, State};
use model::alarm_orders::{logged, numbered_table, transducer_of, Case, ABOUT_THE_END, CASES, EDGES_FALL_AND_RISE};
use model::layout::{ALARM_FILE, ALARM_RECORD_BYTES};
use model::record::AUGUST;

/// Enough for either firmware, and a few bytes behind the alarm file.
const ARCHIVE: usize = 11_050;
/// What archive memory holds where nothing of ours was ever written.
const JUNK: u8 = 0xEE;

fn done(answer: Answer) -> State {
    assert_eq!((answer.number, answer.carried), (0, 0));
    answer.state
}

/// A running gateway with a case's slots and the Booleans before its scan; all its files but the alarm file are idle.
fn watching(case: &Case, firmware: u16, archive: &mut [u8]) -> State {
    let mut s = done(ffi::fresh(false, 17, firmware.into(), archive));
    for &(slot, point, kind) in case.slots {
        s = done(ffi::alarm(s, archive, slot.into(), point.into(), kind.into(), transducer_of(slot).into()));
    }
    s = done(ffi::start(s, archive));
    done(ffi::scan(s, archive, &mut numbered_table(case.before), AUGUST.into()))
}

fn scanned(case: &Case, s: State, archive: &mut [u8]) -> State {
    done(ffi::scan(s, archive, &mut numbered_table(case.now), AUGUST.into()))
}

#[test]
fn cases_worked_out_by_hand() {
    for (case, firmware) in CASES.iter().flat_map(|case| [(case, 73), (case, 74)]) {
        let mut archive = vec![JUNK; ARCHIVE];
        let s = watching(case, firmware, &mut archive);
        assert!(archive.iter().all(|&byte| byte == 0), "{}, before", case.what);
        let s = scanned(case, s, &mut archive);
        let (records, rest) = archive.split_at(case.logged.len() * ALARM_RECORD_BYTES);
        assert_eq!(logged(records), case.logged, "{}", case.what);
        assert!(rest.iter().all(|&byte| byte == 0), "{}", case.what);
        assert_eq!(usize::from(s.files.pointers[ALARM_FILE - 1]), case.logged.len(), "{}", case.what);
    }
}

#[test]
fn cleared_and_raised_ones_go_across_the_end_of_the_file() {
    let case = &EDGES_FALL_AND_RISE;
    for (firmware, pointer, records) in ABOUT_THE_END {
        let mut archive = vec![0; ARCHIVE];
        let mut s = watching(case, firmware, &mut archive);
        s.files.pointers[ALARM_FILE - 1] = pointer;
        archive.fill(JUNK);
        let s = scanned(case, s, &mut archive);
        let from = format!("from {pointer} on, firmware {firmware}");
        assert_eq!(usize::from(s.files.pointers[ALARM_FILE - 1]), records[5], "{from}");
        let record = |k: usize| &archive[(k - 1) * ALARM_RECORD_BYTES..k * ALARM_RECORD_BYTES];
        assert_eq!(logged(&records.map(record).concat()), case.logged, "{from}");
        let mut others = (1..).zip(archive.chunks(ALARM_RECORD_BYTES)).filter(|(k, _)| !records.contains(k));
        assert!(others.all(|(_, bytes)| bytes.iter().all(|&byte| byte == JUNK)), "{from}");
    }
}
