//! The marked cases (*), inputs with what the rules give for them, and known
//! blunders that are about the machine, and the rules of each call; live
//! points, the order of alarms, clean text, and alarm depth by firmware.

use super::*;
use crate::alarm_orders::table_with;
use crate::crc;
use crate::frames::request;
use crate::layout::FIRMWARES;
use crate::points::{groups_from_first_place, TABLE_BYTES};
use crate::record::{february, Stamp, AUGUST};

mod alarms;
mod firmware;
mod frames;
mod live;
mod mixed_run;
mod rows;
mod scans;
mod settings;
mod standing;
mod texts;

const UNIT: u8 = 17;
const ARCHIVE: usize = 20_000;
/// The trigger of file 1 in these tests.
const FLAG: u16 = 1803;
/// What memory holds where nothing of ours was ever written.
const JUNK: u8 = 0xEE;

/// A stamp whose second tells scans apart.
fn at_second(second: u8) -> Stamp {
    Stamp { second, ..AUGUST }
}

fn fresh() -> Machine {
    fresh_of(74)
}

fn fresh_of(firmware: u16) -> Machine {
    let (answer, machine) = Machine::fresh(ARCHIVE, false, UNIT.into(), firmware.into());
    assert!(answer.is_done());
    machine
}

fn done(answer: Answer) {
    assert_eq!(answer, Answer::DONE);
}

fn refused(answer: Answer, number: u8) {
    assert_eq!(answer, Answer::from(Err(Refusal::plain(number))));
}

/// A running machine whose file 1 has n records of one 16-bit point.
fn running_with_file_1(n: u16) -> Machine {
    let mut machine = fresh();
    done(machine.unlock(ARCHIVE));
    done(machine.define(ARCHIVE, 1, &groups_from_first_place(&[(3001, 1)]), n));
    done(machine.trigger(ARCHIVE, 1, FLAG.into()));
    done(machine.start(ARCHIVE));
    machine
}

fn scan(machine: &mut Machine, on: &[u16], second: u8) {
    done(machine.scan(ARCHIVE, &table_with(on), at_second(second)));
}

/// The record that a machine captures from a table, FLAG being on in it, by
/// these groups.
fn captured_from(table: &[u8], groups: &[(u16, u16)]) -> Vec<u8> {
    let mut machine = fresh();
    done(machine.unlock(ARCHIVE));
    done(machine.define(ARCHIVE, 1, &groups_from_first_place(groups), 1));
    done(machine.trigger(ARCHIVE, 1, FLAG.into()));
    done(machine.start(ARCHIVE));
    scan(&mut machine, &[], 1);
    done(machine.scan(ARCHIVE, table, AUGUST));
    machine.record(1, 1)
}

/// So many captures of file 1, stamped with seconds 1, 2, and so on.
fn capture(machine: &mut Machine, times: u8) {
    for second in 1..=times {
        scan(machine, &[], second);
        scan(machine, &[FLAG], second);
    }
}

/// The second in the stamp of record k of file 1.
fn second_of(machine: &Machine, k: usize) -> u8 {
    machine.record(1, k)[5]
}

/// The reply to a request of 8 bytes.
fn ask(machine: &mut Machine, unit: u8, function: u8, address: u16, number: u16) -> Vec<u8> {
    send(machine, &request(unit, function, address, number))
}

/// The reply to a frame, over a live table of zeros.
fn send(machine: &mut Machine, frame: &[u8]) -> Vec<u8> {
    send_over(machine, &table_with(&[]), frame)
}

/// The reply to a frame, over this live table; the rest of the reply buffer
/// must stay as lent.
fn send_over(machine: &mut Machine, table: &[u8], frame: &[u8]) -> Vec<u8> {
    let mut reply = [0xAA; 300];
    let (answer, length) = machine.poll(ARCHIVE, table, frame, &mut reply);
    done(answer);
    assert!(reply[length..].iter().all(|&byte| byte == 0xAA));
    reply[..length].to_vec()
}

fn read_reply(data: &[u8]) -> Vec<u8> {
    crate::frames::read_reply(UNIT, data)
}

fn exception(function: u8, code: u8) -> Vec<u8> {
    crate::frames::exception(UNIT, function, code)
}
