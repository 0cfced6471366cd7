//! Scans, and the archive they make.

use super::*;

/// * n = 4, c = 5: pointer 1, record 1 is capture 5, record 2 capture 2.
///   c = 4: pointer 4.
#[test]
fn marked_four_records_and_five_captures() {
    assert_eq!(pointer_after(5, 4), 1);
    assert_eq!(newest_capture(1, 5, 4), Some(5));
    assert_eq!(newest_capture(2, 5, 4), Some(2));
    assert_eq!(pointer_after(4, 4), 4);

    let mut machine = running_with_file_1(4);
    capture(&mut machine, 5);
    assert_eq!(machine.pointer(1), 1);
    assert_eq!((second_of(&machine, 1), second_of(&machine, 2)), (5, 2));
    let mut machine = running_with_file_1(4);
    capture(&mut machine, 4);
    assert_eq!(machine.pointer(1), 4);
}

/// * n = 1, c = 7: pointer 1.
#[test]
fn marked_one_record_and_seven_captures() {
    assert_eq!(pointer_after(7, 1), 1);
    let mut machine = running_with_file_1(1);
    capture(&mut machine, 7);
    assert_eq!((machine.pointer(1), second_of(&machine, 1)), (1, 7));
}

/// * A trigger on in the first scan: no record.
#[test]
fn marked_a_trigger_on_in_the_first_scan() {
    let mut machine = running_with_file_1(4);
    scan(&mut machine, &[FLAG], 1);
    assert_eq!(machine.pointer(1), 0);
    assert_eq!(machine.archive_memory(), vec![0; ARCHIVE]);
}

/// Blunder: pointer naming the next free record.
#[test]
fn blunder_the_pointer_names_the_newest_record() {
    let mut machine = running_with_file_1(4);
    assert_eq!(machine.pointer(1), 0);
    for newest in 1..=4 {
        scan(&mut machine, &[], newest);
        scan(&mut machine, &[FLAG], newest);
        let pointer = machine.pointer(1);
        assert_eq!(pointer, u16::from(newest));
        assert_eq!(second_of(&machine, usize::from(pointer)), newest);
    }
}

/// Blunder: a flag raised while stopped captured at Start.
#[test]
fn blunder_a_flag_raised_while_stopped_is_not_captured() {
    let mut machine = running_with_file_1(4);
    done(machine.alarm(ARCHIVE, 1, FLAG.into(), 0, 0));
    scan(&mut machine, &[], 1);
    done(machine.stop(ARCHIVE));
    scan(&mut machine, &[FLAG], 2);
    done(machine.start(ARCHIVE));
    scan(&mut machine, &[FLAG], 3);
    assert_eq!((machine.pointer(1), machine.pointer(11)), (0, 0));
    scan(&mut machine, &[], 4);
    assert_eq!((machine.pointer(1), machine.pointer(11)), (0, 1));
    scan(&mut machine, &[FLAG], 5);
    assert_eq!((machine.pointer(1), machine.pointer(11)), (1, 2));
}

/// The closed form says what the rule says.
#[test]
fn the_newest_capture_is_the_newest_that_divides() {
    for n in 1..8 {
        for captures in 0..30 {
            for k in 1..=n {
                let by_rule = (1..=captures).rev().find(|j| j % n == k % n);
                assert_eq!(newest_capture(k, captures, n), by_rule);
            }
        }
    }
}

#[test]
fn a_steady_or_falling_trigger_captures_nothing() {
    let mut machine = running_with_file_1(4);
    for (second, on) in [(1, true), (2, true), (3, false), (4, false)] {
        let flags: &[u16] = if on { &[FLAG] } else { &[] };
        scan(&mut machine, flags, second);
    }
    assert_eq!(machine.pointer(1), 0);
}

#[test]
fn idle_files_and_files_without_a_trigger_capture_nothing() {
    let mut machine = fresh();
    done(machine.unlock(ARCHIVE));
    done(machine.define(ARCHIVE, 2, &[0; 32], 3));
    done(machine.trigger(ARCHIVE, 1, FLAG.into()));
    done(machine.start(ARCHIVE));
    capture(&mut machine, 2);
    assert!((1..=11).all(|file| machine.captures(file).is_empty()));
}

#[test]
fn archive_memory_holds_the_files_in_order() {
    let mut machine = fresh();
    done(machine.unlock(ARCHIVE));
    done(machine.define(ARCHIVE, 1, &groups_from_first_place(&[(3001, 1)]), 2));
    done(machine.define(ARCHIVE, 3, &[0; 32], 3));
    done(machine.trigger(ARCHIVE, 1, FLAG.into()));
    done(machine.trigger(ARCHIVE, 3, FLAG.into()));
    done(machine.alarm(ARCHIVE, 1, FLAG.into(), 1, 0));
    done(machine.start(ARCHIVE));
    capture(&mut machine, 3);
    let memory = machine.archive_memory();
    assert_eq!(memory[..8], [8, 29, 7, 11, 36, 3, 0, 0]);
    assert_eq!(memory[8..16], [8, 29, 7, 11, 36, 2, 0, 0]);
    assert_eq!(memory[16..22], [8, 29, 7, 11, 36, 1]);
    assert_eq!(memory[28..34], [8, 29, 7, 11, 36, 3]);
    assert_eq!(memory[34..44], [8, 29, 7, 11, 36, 1, 7, 11, 1, 1]);
    assert!(memory[34 + 3 * 22..].iter().all(|&byte| byte == 0));
    assert_eq!(memory.len(), ARCHIVE);
}

#[test]
fn scan_answers_the_lowest_that_applies_and_changes_nothing() {
    let mut machine = running_with_file_1(4);
    scan(&mut machine, &[], 1);
    let before = machine.clone();
    let raised = table_with(&[FLAG]);
    refused(machine.scan(ARCHIVE + 1, &[], at_second(60)), 1);
    refused(machine.scan(ARCHIVE, &raised[1..], at_second(60)), 3);
    refused(machine.scan(ARCHIVE, &raised, at_second(60)), 4);
    assert_eq!(machine, before);
}

/// A day must exist in its month.
#[test]
fn a_day_that_does_not_exist_is_refused_and_changes_nothing() {
    let mut machine = running_with_file_1(4);
    scan(&mut machine, &[], 1);
    let before = machine.clone();
    let raised = table_with(&[FLAG]);
    refused(machine.scan(ARCHIVE, &raised, february(30, 2024)), 4);
    refused(machine.scan(ARCHIVE, &raised, february(29, 2023)), 4);
    assert_eq!(machine, before);
    done(machine.scan(ARCHIVE, &raised, february(29, 2024)));
    assert_eq!(machine.record(1, 1)[..6], [2, 29, 24, 11, 36, 52]);
}

#[test]
fn a_clock_may_go_back() {
    let mut machine = running_with_file_1(4);
    for second in [9, 3] {
        scan(&mut machine, &[], second);
        scan(&mut machine, &[FLAG], second);
    }
    assert_eq!((second_of(&machine, 1), second_of(&machine, 2)), (9, 3));
}

#[test]
fn a_day_first_gateway_stamps_day_first() {
    let mut machine = Machine::fresh(ARCHIVE, true, UNIT.into(), 74).1;
    done(machine.alarm(ARCHIVE, 1, FLAG.into(), 1, 0));
    done(machine.start(ARCHIVE));
    capture(&mut machine, 1);
    assert_eq!(machine.record(11, 1)[..6], [29, 8, 7, 11, 36, 1]);
}
