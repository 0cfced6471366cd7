//! Fresh, Unlock, Lock, Stop, Start, Define, Trigger and Alarm.

use super::*;
use crate::depths::DEPTHS;

/// * Memory 11,006: one file of one bare stamp starts; 11,005: 11. That is for
///   firmware 74.
#[test]
fn marked_room_for_one_bare_stamp() {
    for (length, number) in [(11_006, 0), (11_005, 11)] {
        let mut machine = Machine::fresh(length, false, 1, 74).1;
        done(machine.unlock(length));
        done(machine.define(length, 1, &[0; 32], 1));
        let before = machine.clone();
        assert_eq!(machine.start(length).number, number);
        assert_eq!(machine == before, number != 0);
    }
}

/// Room told where the layout fits is shut out: Room needs pending.
#[test]
fn room_is_judged_of_the_draft_and_only_when_pending() {
    let mut machine = fresh();
    done(machine.unlock(ARCHIVE));
    done(machine.define(ARCHIVE, 10, &[0; 32], 1500));
    done(machine.start(ARCHIVE));
    done(machine.stop(ARCHIVE));
    done(machine.unlock(ARCHIVE));
    done(machine.define(ARCHIVE, 10, &[0; 32], 1501));
    refused(machine.start(ARCHIVE), 11);
    assert_eq!(machine.laid_out_n(10), 1500);
    done(machine.define(ARCHIVE, 10, &[0; 32], 1));
    done(machine.start(ARCHIVE));
    assert_eq!(machine.laid_out_n(10), 1);
}

#[test]
fn fresh_judges_length_then_unit() {
    for length in [0, 10_999, 1_048_577] {
        refused(Machine::fresh(length, false, 0, 74).0, 1);
    }
    for length in [11_000, 1_048_576] {
        done(Machine::fresh(length, true, 247, 74).0);
    }
    refused(Machine::fresh(11_000, false, 0, 74).0, 2);
    refused(Machine::fresh(11_000, false, 248, 74).0, 2);
    refused(Machine::fresh(11_000, false, 257, 74).0, 2);
}

#[test]
fn a_fresh_machine_is_all_off_and_zeros() {
    for (firmware, depth) in DEPTHS {
        let machine = fresh_of(firmware);
        assert!(!machine.running() && !machine.unlocked() && !machine.pending());
        assert_eq!(machine.archive_memory(), vec![0; ARCHIVE]);
        for file in 1..=11 {
            assert_eq!((machine.pointer(file), machine.requested(file)), (0, 0));
            let n = if file == 11 { depth } else { 0 };
            assert_eq!(machine.laid_out_n(file), n);
        }
    }
}

#[test]
fn the_zeros_of_a_refused_fresh_refuse_every_call() {
    let mut zeros = Machine::fresh(5, false, 1, 74).1;
    let before = zeros.clone();
    refused(zeros.unlock(0), 2);
    refused(zeros.lock(0), 2);
    refused(zeros.stop(0), 2);
    refused(zeros.start(ARCHIVE), 1);
    refused(zeros.start(0), 2);
    refused(zeros.define(0, 99, &[1; 32], 1), 2);
    refused(zeros.trigger(0, 99, 1), 2);
    refused(zeros.alarm(0, 99, 1, 9, 9), 2);
    refused(zeros.scan(0, &[], at_second(99)), 2);
    refused(zeros.poll(0, &[], &[], &mut []).0, 2);
    assert_eq!(zeros, before);
    assert!(zeros.archive_memory().is_empty());
}

/// "Archive length not the state's": the lowest number, at every call.
#[test]
fn another_length_is_memory_at_every_call() {
    let mut machine = fresh();
    let before = machine.clone();
    for length in [0, ARCHIVE - 1, ARCHIVE + 1] {
        refused(machine.unlock(length), 1);
        refused(machine.lock(length), 1);
        refused(machine.stop(length), 1);
        refused(machine.start(length), 1);
        refused(machine.define(length, 99, &[1; 32], 1), 1);
        refused(machine.trigger(length, 99, 1), 1);
        refused(machine.alarm(length, 99, 1, 9, 9), 1);
        refused(machine.scan(length, &[], at_second(99)), 1);
        refused(machine.poll(length, &[], &[], &mut []).0, 1);
    }
    assert_eq!(machine, before);
}

#[test]
fn flags() {
    let flags = |m: &Machine| (m.running(), m.unlocked(), m.pending());
    let mut machine = fresh();
    done(machine.unlock(ARCHIVE));
    assert_eq!(flags(&machine), (false, true, true));
    done(machine.lock(ARCHIVE));
    assert_eq!(flags(&machine), (false, false, true));
    done(machine.start(ARCHIVE));
    assert_eq!(flags(&machine), (true, false, false));
    refused(machine.unlock(ARCHIVE), 10);
    assert_eq!(flags(&machine), (true, false, false));
    done(machine.stop(ARCHIVE));
    assert_eq!(flags(&machine), (false, false, false));
}

#[test]
fn define_answers_the_lowest_that_applies() {
    let mut machine = fresh();
    let bad_second = groups_from_first_place(&[(3001, 1), (3001, 65)]);
    let long = groups_from_first_place(&[(7101, 62)]);
    refused(machine.define(ARCHIVE, 0, &bad_second, 1), 5);
    refused(machine.define(ARCHIVE, 11, &[0; 32], 1), 5);
    refused(machine.define(ARCHIVE, 1, &bad_second, 1), 6);
    done(machine.unlock(ARCHIVE));
    let before = machine.clone();
    let answer = machine.define(ARCHIVE, 1, &bad_second, 1);
    assert_eq!((answer.number, answer.carried), (7, 2));
    refused(machine.define(ARCHIVE, 1, &long, 1), 8);
    assert_eq!(machine, before);
    done(machine.define(ARCHIVE, 1, &[0; 32], 65_535));
    assert_eq!(machine.laid_out_n(1), 0, "a draft is not a layout");
}

#[test]
fn triggers() {
    let mut machine = fresh();
    refused(machine.trigger(ARCHIVE, 0, 1), 5);
    refused(machine.trigger(ARCHIVE, 11, 1801), 5);
    for point in [1, 1800, 1929, 3001, 65_536, 65_536 + 1801] {
        refused(machine.trigger(ARCHIVE, 10, point), 9);
    }
    for point in [1801, 1928, 0] {
        done(machine.trigger(ARCHIVE, 10, point));
        assert_eq!(u32::from(machine.raw_state().triggers[9]), point);
    }
}

#[test]
fn slots_are_checked_even_when_off() {
    let mut machine = fresh();
    let bad = [
        (0, 1801, 0, 0),
        (33, 1801, 0, 0),
        (1, 1800, 0, 0),
        (1, 7101, 0, 0),
        (1, 0, 4, 0),
        (1, 0, 256, 0),
        (1, 0, 65_536, 0),
        (1, 65_536 + 1801, 0, 0),
        (1, 0, 0, 65_536 + 7101),
        (1, 0, 0, 7100),
        (1, 0, 0, 1801),
    ];
    for (slot, point, kind, float) in bad {
        refused(machine.alarm(ARCHIVE, slot, point, kind, float), 12);
    }
    assert_eq!(machine, fresh());
    done(machine.alarm(ARCHIVE, 32, 1928, 3, 7228));
    done(machine.alarm(ARCHIVE, 1, 0, 3, 7101));
    let raw = machine.raw_state();
    let slot_32 = (raw.slot_point[31], raw.slot_kind[31], raw.slot_float[31]);
    assert_eq!(slot_32, (1928, 3, 7228));
    assert_eq!(raw.slot_float[0], 7101);
}

/// Blunder: emptying files on a trigger change or at Unlock.
#[test]
fn blunder_triggers_alarms_and_unlock_empty_nothing() {
    let mut machine = running_with_file_1(4);
    capture(&mut machine, 2);
    done(machine.stop(ARCHIVE));
    let filled = machine.archive_memory();
    done(machine.trigger(ARCHIVE, 1, 1810));
    done(machine.alarm(ARCHIVE, 1, 1810, 0, 0));
    done(machine.unlock(ARCHIVE));
    done(machine.define(ARCHIVE, 1, &[0; 32], 9));
    done(machine.lock(ARCHIVE));
    assert_eq!(machine.archive_memory(), filled);
    assert_eq!(machine.pointer(1), 2);
    done(machine.start(ARCHIVE));
    assert_eq!(machine.archive_memory(), vec![0; ARCHIVE]);
    assert_eq!((machine.pointer(1), machine.laid_out_n(1)), (0, 9));
}

#[test]
fn a_start_that_is_not_pending_keeps_everything() {
    let mut machine = running_with_file_1(4);
    capture(&mut machine, 2);
    ask(&mut machine, UNIT, 6, 3703, 2);
    let before = machine.clone();
    done(machine.stop(ARCHIVE));
    done(machine.start(ARCHIVE));
    assert_eq!(machine, before);
}

#[test]
fn a_pending_start_sets_every_requested_number_to_0() {
    let mut machine = running_with_file_1(4);
    ask(&mut machine, UNIT, 6, 3703, 2);
    ask(&mut machine, UNIT, 6, 3733, 500);
    assert_eq!((machine.requested(1), machine.requested(11)), (2, 500));
    done(machine.stop(ARCHIVE));
    done(machine.unlock(ARCHIVE));
    done(machine.start(ARCHIVE));
    assert_eq!((machine.requested(1), machine.requested(11)), (0, 0));
}
