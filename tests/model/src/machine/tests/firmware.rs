//! Alarm depth by firmware.

use super::*;
use crate::depths::{alarm_of, stamp_of, DEPTHS, FRESHES, OTHER_FIRMWARES, RINGS, STARTS};
use crate::frames::ILLEGAL_VALUE;

/// The point of the one alarm slot in these tests.
const ALARM: u16 = 1850;

#[test]
fn fresh_judges_firmware_then_length_then_unit() {
    for (firmware, length, unit, number) in FRESHES {
        let told = Machine::fresh(length, false, unit, firmware).0;
        let given = format!("firmware {firmware}, {length} bytes, unit {unit}");
        assert_eq!((told.number, told.carried), (number, 0), "{given}");
    }
}

/// None but 73 and 74: no other of 16 bits, none that is one of them in the
/// lower 8 or 16 bits only, and none that is wrong in one bit.
#[test]
fn a_firmware_is_judged_whole() {
    let told = |firmware| Machine::fresh(11_000, false, 1, firmware).0.number;
    let taken = (0..=70_000).filter(|&firmware| told(firmware) == 0);
    assert!(taken.eq([73, 74]));
    for (firmware, bit) in [73, 74]
        .into_iter()
        .flat_map(|f| (0..32).map(move |b| (f, b)))
    {
        let other = firmware ^ (1 << bit);
        assert_eq!(told(other), 2, "{other}");
    }
}

#[test]
fn the_firmware_is_kept() {
    for (firmware, _) in DEPTHS {
        let mut machine = fresh_of(firmware);
        done(machine.unlock(ARCHIVE));
        done(machine.define(ARCHIVE, 1, &[0; 32], 1));
        done(machine.start(ARCHIVE));
        scan(&mut machine, &[], 1);
        assert_eq!(machine.raw_state().firmware, firmware);
    }
}

/// Refused for its firmware, its length and its unit.
#[test]
fn a_refused_fresh_hands_back_zeros_without_a_firmware() {
    for (length, unit, firmware) in [(3_300, 1, 72), (3_299, 1, 73), (3_300, 0, 73)] {
        let (answer, zeros) = Machine::fresh(length, true, unit, firmware);
        assert!(!answer.is_done());
        let raw = zeros.raw_state();
        let site = (raw.archive_len, raw.unit, raw.day_first, raw.firmware);
        assert_eq!(site, (0, 0, false, 0));
    }
}

/// Memory still comes before Foreign at every call but Fresh.
#[test]
fn any_other_firmware_refuses_every_call_after_memory() {
    for firmware in OTHER_FIRMWARES {
        let mut machine = fresh();
        machine.firmware = firmware;
        assert!(foreign(&machine.raw_state()));
        for (length, number) in [(ARCHIVE, 2), (ARCHIVE + 1, 1), (0, 1)] {
            refused(machine.unlock(length), number);
            refused(machine.lock(length), number);
            refused(machine.stop(length), number);
            refused(machine.start(length), number);
            refused(machine.define(length, 99, &[1; 32], 1), number);
            refused(machine.trigger(length, 99, 1), number);
            refused(machine.alarm(length, 99, 1, 9, 9), number);
            refused(machine.scan(length, &[], at_second(99)), number);
            refused(machine.poll(length, &[], &[], &mut []).0, number);
        }
    }
}

#[test]
fn room_follows_the_depth() {
    for (firmware, length, n, number) in STARTS {
        let (answer, mut machine) = Machine::fresh(length, false, 1, firmware.into());
        done(answer);
        done(machine.unlock(length));
        done(machine.define(length, 10, &[0; 32], n));
        let told = machine.start(length).number;
        assert_eq!(told, number, "{n} in {length} bytes, firmware {firmware}");
        assert_eq!(machine.laid_out_n(10), if number == 0 { n } else { 0 });
    }
}

/// A layout that fits with 150 alarm records and not with 500 is taken as it
/// stands with 73; with 74 it is Foreign.
#[test]
fn a_layout_is_judged_by_the_depth_of_its_own_state() {
    let mut raw = fresh_of(73).raw_state();
    (raw.archive_len, raw.n[9]) = (11_000, 1_283);
    let mut machine = Machine::standing(&raw, None, &[JUNK; 11_000]);
    done(machine.lock(11_000));
    raw.firmware = 74;
    assert!(foreign(&raw));
}

/// 3731 is n of the alarm file: 150 is 96 hex, 500 is 1F4 hex.
#[test]
fn the_register_of_n_tells_the_depth() {
    for (firmware, n) in [(73, [0x00, 0x96]), (74, [0x01, 0xF4])] {
        let mut machine = fresh_of(firmware);
        assert_eq!(ask(&mut machine, UNIT, 3, 3731, 1), read_reply(&n));
        let three = [n[0], n[1], 0, 0, 0, 0];
        assert_eq!(ask(&mut machine, UNIT, 3, 3731, 3), read_reply(&three));
        let all = ask(&mut machine, UNIT, 3, 3701, 33);
        assert_eq!(all[3 + 60..3 + 62], n);
    }
}

/// By number and by requested number, whole and stamps only. Nothing was
/// logged, so that what is read is zeros.
#[test]
fn records_are_read_up_to_the_depth_and_refused_past_it() {
    for (firmware, depth) in DEPTHS {
        let mut machine = fresh_of(firmware);
        for number in (0..=1_100).chain([65_535]) {
            let is_one = (1..=depth).contains(&number);
            let wanted = |function: u8, reply: Vec<u8>| {
                if is_one {
                    reply
                } else {
                    exception(function, ILLEGAL_VALUE)
                }
            };
            let (record, stamp) = (read_reply(&[0; 22]), read_reply(&[0; 6]));
            machine.requested[10] = 0;
            let polls = [
                (3, 731, record.clone()),
                (3, 781, stamp.clone()),
                (6, 3733, request(UNIT, 6, 3733, number)),
                (3, 711, record),
                (3, 761, stamp),
            ];
            for (function, address, reply) in polls {
                let told = ask(&mut machine, UNIT, function, address, number);
                let on = format!("{number} on {address}, firmware {firmware}");
                assert_eq!(told, wanted(function, reply), "{on}");
            }
            assert_eq!(machine.requested(11), if is_one { number } else { 0 });
        }
    }
}

/// A 06 to unit 0 is judged by the depth too.
#[test]
fn a_broadcast_past_the_depth_sets_nothing() {
    for (firmware, value, set) in [(73, 150, 150), (73, 151, 0), (74, 500, 500), (74, 501, 0)] {
        let mut machine = fresh_of(firmware);
        assert!(ask(&mut machine, 0, 6, 3733, value).is_empty());
        assert_eq!(machine.requested(11), set);
    }
}

/// A running machine after so many alarms, each a change of one point.
fn after_alarms(firmware: u16, alarms: u16) -> Machine {
    let mut machine = fresh_of(firmware);
    done(machine.alarm(ARCHIVE, 1, ALARM.into(), 0, 0));
    done(machine.start(ARCHIVE));
    scan(&mut machine, &[], 0);
    for alarm in 1..=alarms {
        let on: &[u16] = if alarm % 2 == 1 { &[ALARM] } else { &[] };
        done(machine.scan(ARCHIVE, &table_with(on), stamp_of(alarm)));
    }
    machine
}

#[test]
fn the_ring_goes_round_at_the_depth() {
    for (firmware, alarms, pointer, records) in RINGS {
        let mut machine = after_alarms(firmware, alarms);
        let told = ask(&mut machine, UNIT, 3, 3732, 1);
        let after = format!("{alarms} alarms, firmware {firmware}");
        assert_eq!(told, read_reply(&pointer.to_be_bytes()), "{after}");
        for &(k, alarm) in records {
            ask(&mut machine, UNIT, 6, 3733, k);
            for (address, number) in [(731, k), (781, k), (711, 0), (761, 0)] {
                let reply = ask(&mut machine, UNIT, 3, address, number);
                assert_eq!(alarm_of(&reply[3..]), alarm, "{k} after {after}");
            }
        }
    }
}

/// With 73 nothing is written behind record 150, with 74 nothing behind 500.
#[test]
fn bytes_behind_the_last_record_stay() {
    for (firmware, bytes) in [(73, 3_300), (74, 11_000)] {
        let memory = after_alarms(firmware, 503).archive_memory();
        let (records, behind) = memory.split_at(bytes);
        assert!(records.chunks(22).all(|record| record[..2] == [8, 29]));
        assert!(behind.iter().all(|&byte| byte == 0));
    }
}

/// A running machine with two captures in file 1 and nine alarms.
fn with_few_alarms(firmware: u16) -> Machine {
    let mut machine = fresh_of(firmware);
    done(machine.unlock(ARCHIVE));
    done(machine.define(ARCHIVE, 1, &groups_from_first_place(&[(3001, 1)]), 2));
    done(machine.trigger(ARCHIVE, 1, FLAG.into()));
    for slot in 1..=3 {
        done(machine.alarm(ARCHIVE, slot, FLAG.into(), 0, 7101));
    }
    done(machine.start(ARCHIVE));
    capture(&mut machine, 2);
    machine
}

/// After the same calls all of memory is the same, and every address answers
/// alike but where it tells n of the alarm file.
#[test]
fn nothing_else_differs() {
    let mut old = with_few_alarms(73);
    let mut new = with_few_alarms(74);
    assert_eq!((old.pointer(1), old.pointer(11)), (2, 9));
    assert_eq!(old.archive_memory(), new.archive_memory());
    let mut differing = Vec::new();
    for address in 0..=65_535 {
        for (function, number) in [(1, 1), (3, 0), (3, 1), (3, 2), (6, 1), (6, 2)] {
            let told = ask(&mut old, UNIT, function, address, number);
            if told != ask(&mut new, UNIT, function, address, number) {
                differing.push((function, address, number));
            }
        }
    }
    assert_eq!(differing, [(3, 3730, 2), (3, 3731, 1), (3, 3731, 2)]);
    let mut wanted = new.raw_state();
    wanted.firmware = 73;
    assert_eq!(old.raw_state(), wanted);
}

/// The request's reason: a driver that was made for the older firmware reads
/// back from the newest record, and after record 1 goes on with 150.
#[test]
fn an_old_driver_reads_back_all_150() {
    let mut machine = after_alarms(73, 153);
    let backwards = (1..=3).rev().chain((4..=150).rev());
    let read = backwards.map(|k| alarm_of(&ask(&mut machine, UNIT, 3, 731, k)[3..]));
    assert!(read.eq((4..=153).rev()));
    let past_the_end = ask(&mut machine, UNIT, 3, 731, 151);
    assert_eq!(past_the_end, exception(3, ILLEGAL_VALUE));
}
