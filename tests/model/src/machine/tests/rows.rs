//! The address table, row by row, for every file.

use super::*;
use crate::frames::{ILLEGAL_ADDRESS, ILLEGAL_VALUE};

const STAMP_2: [u8; 6] = [8, 29, 7, 11, 36, 2];

/// A live table whose 16-bit row has bytes 1, 2, and so on.
fn numbered_table(on: &[u16]) -> Vec<u8> {
    let mut table = table_with(on);
    for (byte, number) in table[16..144].iter_mut().zip(1..) {
        *byte = number;
    }
    table
}

/// The n of file 1 to 11 in `eleven_files`.
fn n_of(file: u16) -> u16 {
    if file == 11 {
        500
    } else {
        file + 1
    }
}

/// File f, 1 to 10, has f 16-bit points; each of the eleven files has two
/// captures, stamped with seconds 1 and 2.
fn eleven_files() -> Machine {
    let mut machine = fresh();
    done(machine.unlock(ARCHIVE));
    for file in 1..=10 {
        let groups = groups_from_first_place(&[(3001, file)]);
        done(machine.define(ARCHIVE, file.into(), &groups, n_of(file)));
        done(machine.trigger(ARCHIVE, file.into(), FLAG.into()));
    }
    done(machine.alarm(ARCHIVE, 1, FLAG.into(), 1, 0));
    done(machine.start(ARCHIVE));
    for second in 1..=2 {
        scan(&mut machine, &[], second);
        done(machine.scan(ARCHIVE, &numbered_table(&[FLAG]), at_second(second)));
    }
    machine
}

/// Record 2 of file 1 to 11 in `eleven_files`.
fn record_2(file: u16) -> Vec<u8> {
    let mut record = STAMP_2.to_vec();
    if file == 11 {
        record.extend([0x07, 0x0B, 1, 1]);
        record.extend([0; 12]);
    } else {
        record.extend((1..=2 * file).map(|byte| byte as u8));
    }
    record
}

#[test]
fn records_and_stamps_by_number() {
    let mut machine = eleven_files();
    for file in 1..=11 {
        let whole = ask(&mut machine, UNIT, 3, 720 + file, 2);
        assert_eq!(whole, read_reply(&record_2(file)));
        let stamp = ask(&mut machine, UNIT, 3, 770 + file, 2);
        assert_eq!(stamp, read_reply(&STAMP_2));
    }
}

#[test]
fn records_and_stamps_by_requested_number() {
    let mut machine = eleven_files();
    for file in 1..=11 {
        for row in [700, 750] {
            let none_requested = ask(&mut machine, UNIT, 3, row + file, 2);
            assert_eq!(none_requested, exception(3, ILLEGAL_VALUE));
        }
        ask(&mut machine, UNIT, 6, 3700 + 3 * file, 2);
        let whole = ask(&mut machine, UNIT, 3, 700 + file, 1);
        assert_eq!(whole, read_reply(&record_2(file)));
        let stamp = ask(&mut machine, UNIT, 3, 750 + file, 1);
        assert_eq!(stamp, read_reply(&STAMP_2));
    }
}

#[test]
fn numbers_of_records_end_at_n() {
    let mut machine = eleven_files();
    for file in 1..=11 {
        for row in [720, 770] {
            for number in [0, n_of(file) + 1, 65_535] {
                let reply = ask(&mut machine, UNIT, 3, row + file, number);
                assert_eq!(reply, exception(3, ILLEGAL_VALUE));
            }
            let last = ask(&mut machine, UNIT, 3, row + file, n_of(file));
            assert_eq!(last[1], 3);
        }
    }
}

#[test]
fn a_06_sets_the_number_of_its_own_file() {
    let mut machine = eleven_files();
    for file in 1..=11 {
        let address = 3700 + 3 * file;
        let before = machine.clone();
        for value in [0, n_of(file) + 1, 65_535] {
            let reply = ask(&mut machine, UNIT, 6, address, value);
            assert_eq!(reply, exception(6, ILLEGAL_VALUE));
        }
        assert_eq!(machine, before);
        for value in [1, n_of(file)] {
            let reply = ask(&mut machine, UNIT, 6, address, value);
            assert_eq!(reply, request(UNIT, 6, address, value), "the echo");
            let mut wanted = before.clone();
            wanted.requested[usize::from(file) - 1] = value;
            assert_eq!(machine, wanted);
        }
    }
}

/// Each register is n, pointer or requested; a run is judged by its
/// quantity first, then by where it ends.
#[test]
fn every_run_of_registers() {
    let mut machine = eleven_files();
    let mut all = Vec::new();
    for file in 1..=11 {
        ask(&mut machine, UNIT, 6, 3700 + 3 * file, n_of(file) - 1);
        all.extend([n_of(file), 2, n_of(file) - 1]);
    }
    for from in 0..33u16 {
        for quantity in (0..=70).chain([65_535]) {
            let wanted = if quantity == 0 || quantity > 33 {
                exception(3, ILLEGAL_VALUE)
            } else if from + quantity > 33 {
                exception(3, ILLEGAL_ADDRESS)
            } else {
                let run = &all[usize::from(from)..usize::from(from + quantity)];
                let data: Vec<u8> = run.iter().flat_map(|r| r.to_be_bytes()).collect();
                read_reply(&data)
            };
            let reply = ask(&mut machine, UNIT, 3, 3701 + from, quantity);
            assert_eq!(reply, wanted, "{quantity} from {}", 3701 + from);
        }
    }
}

/// With number 1 every known address answers, the live table's too, so that
/// any exception is 02 and tells an unknown one.
#[test]
fn no_other_address_is_known() {
    let mut machine = eleven_files();
    for file in 1..=11 {
        ask(&mut machine, UNIT, 6, 3700 + 3 * file, 1);
    }
    for address in 0..=65_535 {
        let is_archive =
            matches!(address, 701..=711 | 721..=731 | 751..=761 | 771..=781 | 3701..=3733);
        let is_live = matches!(
            address,
            3001..=3064 | 4001..=4032 | 5101..=5164 | 7101..=7228 | 14001..=14016
        );
        let is_read = is_archive || is_live;
        let reply = ask(&mut machine, UNIT, 3, address, 1);
        assert_eq!(reply != exception(3, ILLEGAL_ADDRESS), is_read, "{address}");
        let is_flag = (1801..=1928).contains(&address);
        let reply = ask(&mut machine, UNIT, 1, address, 1);
        assert_eq!(reply != exception(1, ILLEGAL_ADDRESS), is_flag, "{address}");
        let is_set = (3703..=3733).contains(&address) && address % 3 == 3703 % 3;
        let reply = ask(&mut machine, UNIT, 6, address, 1);
        assert_eq!(reply != exception(6, ILLEGAL_ADDRESS), is_set, "{address}");
    }
}

#[test]
fn a_requested_record_that_is_overwritten_reads_as_the_newer_one() {
    let mut machine = running_with_file_1(2);
    capture(&mut machine, 2);
    ask(&mut machine, UNIT, 6, 3703, 1);
    let second = |reply: Vec<u8>| reply[3 + 5];
    assert_eq!(second(ask(&mut machine, UNIT, 3, 701, 0)), 1);
    scan(&mut machine, &[], 9);
    scan(&mut machine, &[FLAG], 9);
    assert_eq!(second(ask(&mut machine, UNIT, 3, 701, 0)), 9);
    assert_eq!(machine.requested(1), 1);
}
