//! Which frames are answered, exceptions in their order, and unit 0.

use super::*;
use crate::frames::{ILLEGAL_ADDRESS, ILLEGAL_FUNCTION, ILLEGAL_VALUE};

const RECORD_2: [u8; 8] = [8, 29, 7, 11, 36, 2, 0, 0];

fn with_three_captures() -> Machine {
    let mut machine = running_with_file_1(4);
    capture(&mut machine, 3);
    machine
}

/// A frame of this length with a right CRC where it has room for one: the
/// request cut short, or zeros behind its numbers.
fn of_length(request: &[u8], length: usize) -> Vec<u8> {
    let mut body = request[..6].to_vec();
    body.resize(length.saturating_sub(2), 0);
    let mut frame = crc::with_crc(body);
    frame.truncate(length);
    frame
}

#[test]
fn a_poll_by_requested_number_ignores_the_quantity() {
    let mut machine = with_three_captures();
    ask(&mut machine, UNIT, 6, 3703, 2);
    for quantity in [0, 1, 65_535] {
        let whole = ask(&mut machine, UNIT, 3, 701, quantity);
        assert_eq!(whole, read_reply(&RECORD_2));
        let stamp = ask(&mut machine, UNIT, 3, 751, quantity);
        assert_eq!(stamp, read_reply(&RECORD_2[..6]));
    }
}

#[test]
fn a_record_not_captured_yet_is_zeros() {
    let mut machine = with_three_captures();
    assert_eq!(ask(&mut machine, UNIT, 3, 721, 4), read_reply(&[0; 8]));
    assert_eq!(ask(&mut machine, UNIT, 3, 731, 500), read_reply(&[0; 22]));
}

#[test]
fn an_idle_file_has_no_record() {
    let mut machine = with_three_captures();
    for (function, address) in [(3, 702), (3, 722), (3, 752), (3, 772), (6, 3706)] {
        let reply = ask(&mut machine, UNIT, function, address, 1);
        assert_eq!(reply, exception(function, ILLEGAL_VALUE));
    }
}

/// Blunder: replies by the draft.
#[test]
fn blunder_replies_go_by_the_layout_not_the_draft() {
    let mut machine = with_three_captures();
    done(machine.stop(ARCHIVE));
    done(machine.unlock(ARCHIVE));
    done(machine.define(ARCHIVE, 1, &groups_from_first_place(&[(4001, 2)]), 2));
    assert_eq!(ask(&mut machine, UNIT, 3, 721, 2), read_reply(&RECORD_2));
    assert_eq!(ask(&mut machine, UNIT, 3, 721, 4), read_reply(&[0; 8]));
    let registers = read_reply(&[0, 4, 0, 3, 0, 0]);
    assert_eq!(ask(&mut machine, UNIT, 3, 3701, 3), registers);
}

/// Under 4 and over 256 bytes there is no reply; of the others only 8 is
/// the length of a request.
#[test]
fn lengths() {
    let mut machine = with_three_captures();
    for length in 0..=300 {
        let read = of_length(&request(UNIT, 3, 721, 2), length);
        let wanted = match length {
            0..=3 | 257.. => vec![],
            8 => read_reply(&RECORD_2),
            _ => exception(3, ILLEGAL_VALUE),
        };
        assert_eq!(send(&mut machine, &read), wanted, "{length} bytes");
        let before = machine.clone();
        send(&mut machine, &of_length(&request(UNIT, 6, 3703, 2), length));
        assert_eq!(machine != before, length == 8, "06 of {length} bytes");
    }
}

#[test]
fn wrong_crcs_get_no_reply_and_change_nothing() {
    let mut machine = with_three_captures();
    let before = machine.clone();
    let right = request(UNIT, 6, 3703, 2);
    for bit in 0..64 {
        let mut wrong = right.clone();
        wrong[bit / 8] ^= 1 << (bit % 8);
        assert!(send(&mut machine, &wrong).is_empty());
    }
    let mut high_byte_first = right;
    high_byte_first.swap(6, 7);
    assert!(send(&mut machine, &high_byte_first).is_empty());
    assert_eq!(machine, before);
}

#[test]
fn only_our_unit_is_answered() {
    let mut machine = with_three_captures();
    for unit in (0..=255).filter(|&unit| unit != UNIT) {
        let before = machine.clone();
        assert!(ask(&mut machine, unit, 3, 721, 2).is_empty());
        assert!(ask(&mut machine, unit, 4, 721, 2).is_empty());
        assert!(ask(&mut machine, unit, 6, 3703, 5).is_empty());
        assert!(ask(&mut machine, unit, 6, 3704, 2).is_empty());
        assert_eq!(machine, before, "unit {unit}");
    }
}

#[test]
fn a_06_to_unit_0_is_done_without_reply() {
    let mut machine = with_three_captures();
    let mut wanted = machine.clone();
    for (file, address, value) in [(1, 3703, 3), (11, 3733, 500)] {
        assert!(ask(&mut machine, 0, 6, address, value).is_empty());
        wanted.requested[file - 1] = value;
        assert_eq!(machine, wanted);
    }
    let no_request = of_length(&request(0, 6, 3703, 1), 9);
    assert!(send(&mut machine, &no_request).is_empty());
    assert_eq!(machine, wanted);
}

/// With a right CRC and for our unit. 81 hex stays 81 hex.
#[test]
fn other_functions_are_exception_01_whatever_their_length() {
    let mut machine = with_three_captures();
    for function in (0..=255).filter(|function| ![1, 3, 6].contains(function)) {
        for length in [4, 7, 8, 9, 256] {
            let frame = of_length(&request(UNIT, function, 721, 2), length);
            let reply = send(&mut machine, &frame);
            assert_eq!(reply, exception(function, ILLEGAL_FUNCTION));
        }
    }
    let reply = ask(&mut machine, UNIT, 0x82, 721, 2);
    assert_eq!(reply[..3], [UNIT, 0x82, 1]);
    assert_eq!(reply, ask(&mut machine, UNIT, 0x02, 721, 2));
    let reply = ask(&mut machine, UNIT, 0x81, 721, 2);
    assert_eq!(reply[..3], [UNIT, 0x81, 1]);
    assert_ne!(reply, ask(&mut machine, UNIT, 0x01, 721, 2), "01 is known");
}

/// Each frame has a fault that the line names and every later one that it
/// can have.
#[test]
fn exceptions_in_their_order() {
    let mut machine = with_three_captures();
    let nine = |function| of_length(&request(UNIT, function, 0, 0), 9);
    let eight = |function, address, number| request(UNIT, function, address, number);
    let lines = [
        ("function", nine(5), ILLEGAL_FUNCTION),
        ("length of a 03", nine(3), ILLEGAL_VALUE),
        ("address of a 03", eight(3, 3734, 0), ILLEGAL_ADDRESS),
        ("number", eight(3, 721, 0), ILLEGAL_VALUE),
        ("quantity 0", eight(3, 3701, 0), ILLEGAL_VALUE),
        ("quantity over 33", eight(3, 3733, 34), ILLEGAL_VALUE),
        ("past 3733", eight(3, 3733, 2), ILLEGAL_ADDRESS),
        ("length of a 06", nine(6), ILLEGAL_VALUE),
        ("address of a 06", eight(6, 3704, 0), ILLEGAL_ADDRESS),
        ("value", eight(6, 3703, 5), ILLEGAL_VALUE),
    ];
    let before = machine.clone();
    for (fault, frame, code) in lines {
        let reply = send(&mut machine, &frame);
        assert_eq!(reply, exception(frame[1], code), "{fault}");
    }
    assert_eq!(machine, before);
}

#[test]
fn a_record_of_250_bytes_fills_a_reply_of_255() {
    let mut machine = fresh();
    done(machine.unlock(ARCHIVE));
    done(machine.define(ARCHIVE, 10, &groups_from_first_place(&[(7101, 61)]), 1));
    done(machine.start(ARCHIVE));
    assert_eq!(ask(&mut machine, UNIT, 3, 730, 1), read_reply(&[0; 250]));
}

#[test]
fn a_poll_answers_the_lowest_that_applies() {
    let mut machine = with_three_captures();
    let before = machine.clone();
    let (table, poll) = (table_with(&[]), request(UNIT, 6, 3703, 1));
    let mut reply = [0xAA; 255];
    let (answer, length) = machine.poll(ARCHIVE, &table, &poll, &mut reply);
    refused(answer, 13);
    assert_eq!((length, reply), (0, [0xAA; 255]));
    refused(machine.poll(ARCHIVE - 1, &[], &poll, &mut reply).0, 1);
    refused(machine.poll(ARCHIVE, &[], &poll, &mut reply).0, 3);
    refused(machine.poll(ARCHIVE, &table, &[], &mut []).0, 13);
    assert_eq!((machine.clone(), reply), (before, [0xAA; 255]));
    let mut reply = [0xAA; 256];
    assert_eq!(machine.poll(ARCHIVE, &table, &poll, &mut reply).1, 8);
    assert_eq!(reply[..8], poll);
}
