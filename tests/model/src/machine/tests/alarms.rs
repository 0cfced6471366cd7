//! Among the alarm records of one scan those with new bit 0 come first, then
//! those with 1; within each by point, then slot.

use super::*;
use crate::alarm_orders::{
    logged, numbered_table, transducer_of, Logged, Set, ABOUT_THE_END, CASES, EDGES_FALL_AND_RISE,
};

/// A running machine with these slots, each with the transducer that tells its
/// records from others'.
fn with_slots(slots: &[Set]) -> Machine {
    with_slots_in(74, slots)
}

/// The same with this firmware.
fn with_slots_in(firmware: u16, slots: &[Set]) -> Machine {
    let mut machine = fresh_of(firmware);
    for &(slot, point, kind) in slots {
        let [point, kind, float] = [point, kind.into(), transducer_of(slot)].map(u32::from);
        done(machine.alarm(ARCHIVE, slot.into(), point, kind, float));
    }
    done(machine.start(ARCHIVE));
    machine
}

fn scan_numbered(machine: &mut Machine, on: &[u16]) {
    done(machine.scan(ARCHIVE, &numbered_table(on), AUGUST));
}

/// What was logged so far, oldest first.
fn history(machine: &Machine) -> Vec<Logged> {
    logged(&machine.captures(11).concat())
}

#[test]
fn cases_worked_out_by_hand() {
    for case in &CASES {
        let mut machine = with_slots(case.slots);
        scan_numbered(&mut machine, case.before);
        assert_eq!(history(&machine), [], "{}, before", case.what);
        scan_numbered(&mut machine, case.now);
        assert_eq!(history(&machine), case.logged, "{}", case.what);
    }
}

/// The request's reason: who reads only the newest alarm sees the failure.
#[test]
fn the_newest_alarm_of_a_recovery_and_a_failure_is_the_failure() {
    for (recovers, fails) in [(1928, 1801), (1801, 1928)] {
        let mut machine = with_slots(&[(1, 1801, 0), (2, 1928, 2)]);
        scan_numbered(&mut machine, &[recovers]);
        scan_numbered(&mut machine, &[fails]);
        assert_eq!(machine.pointer(11), 2);
        let newest = ask(&mut machine, UNIT, 3, 731, 2);
        let [high, low] = fails.to_be_bytes();
        assert_eq!(newest[3 + 6..3 + 8], [high, low]);
        assert_eq!(newest[3 + 9], 1);
    }
}

/// The history goes on from scan to scan: a later scan's cleared one is behind
/// an earlier scan's raised one.
#[test]
fn the_order_is_that_of_one_scan() {
    let mut machine = with_slots(&[(1, 1928, 0), (2, 1801, 0)]);
    for on in [[].as_slice(), &[1928], &[1801], &[1928]] {
        scan_numbered(&mut machine, on);
    }
    let in_order = [
        (1928, 0, 1, 1),
        (1928, 0, 0, 1),
        (1801, 0, 1, 2),
        (1801, 0, 0, 2),
        (1928, 0, 1, 1),
    ];
    assert_eq!(history(&machine), in_order);
}

#[test]
fn cleared_and_raised_ones_go_across_the_end_of_the_file() {
    let case = EDGES_FALL_AND_RISE;
    for (firmware, pointer, records) in ABOUT_THE_END {
        let mut raw = with_slots_in(firmware, case.slots).raw_state();
        raw.pointers[10] = pointer;
        let before = table_with(case.before)[..BOOLEAN_BYTES].try_into().ok();
        let mut machine = Machine::standing(&raw, before, &[JUNK; ARCHIVE]);
        scan_numbered(&mut machine, case.now);
        let written = records.map(|k| machine.record(11, k)).concat();
        assert_eq!(logged(&written), case.logged, "from {pointer} on");
        assert_eq!(usize::from(machine.pointer(11)), records[5]);
        let memory = machine.archive_memory();
        let slots = (1..).zip(memory.chunks(22));
        let mut others = slots.filter(|(k, _)| !records.contains(k));
        assert!(others.all(|(_, slot)| slot.iter().all(|&byte| byte == JUNK)));
    }
}

#[test]
fn alarms_go_by_point_then_slot() {
    let mut machine = with_slots(&[
        (1, 1928, 0),
        (2, 1801, 2),
        (3, 1850, 1),
        (31, 1801, 1),
        (32, 1801, 3),
    ]);
    scan_numbered(&mut machine, &[1850]);
    scan_numbered(&mut machine, &[1801, 1928]);
    let rises = vec![
        (1801, 2, 1, 2),
        (1801, 1, 1, 31),
        (1801, 3, 1, 32),
        (1928, 0, 1, 1),
    ];
    assert_eq!(history(&machine), rises);
    scan_numbered(&mut machine, &[]);
    let falls = [(1801, 2, 0, 2), (1928, 0, 0, 1)];
    assert_eq!(history(&machine)[4..], falls);
}
