//! Live points by poll.

use super::*;
use crate::frames::{data_reply, ILLEGAL_ADDRESS, ILLEGAL_FUNCTION, ILLEGAL_VALUE};
use crate::texts::captured_by_list;

/// The rows: the function that reads one, its first and last point, the bits
/// of a point and the byte at which it starts.
const ROWS: [(u8, u16, u16, usize, usize); 6] = [
    (1, 1801, 1928, 1, 0),
    (3, 3001, 3064, 16, 16),
    (3, 4001, 4032, 64, 144),
    (3, 5101, 5164, 32, 400),
    (3, 7101, 7228, 32, 656),
    (3, 14001, 14016, 128, 1168),
];

/// A live table whose bytes differ from those near them.
fn patterned() -> Vec<u8> {
    (0..TABLE_BYTES).map(|i| (i % 251) as u8 ^ 0xA5).collect()
}

fn with(place: usize, bytes: &[u8]) -> Vec<u8> {
    let mut table = patterned();
    table[place..place + bytes.len()].copy_from_slice(bytes);
    table
}

/// The reply of a fresh machine.
fn told(table: &[u8], function: u8, first: u16, quantity: u16) -> Vec<u8> {
    let poll = request(UNIT, function, first, quantity);
    send_over(&mut fresh(), table, &poll)
}

/// Whole frames, with CRCs worked out apart.
#[test]
fn frames_of_live_points() {
    let mut table = with(16, &[0xFF, 0xFB, 0x01, 0x02]);
    table[..2].copy_from_slice(&[0b1111_0000, 0b1111_1111]);
    let nine_booleans = [0x11, 0x01, 0x07, 0x0D, 0x00, 0x09, 0x6E, 0x2B];
    let reply = [0x11, 0x01, 0x02, 0xFF, 0x01, 0xF8, 0x0F];
    assert_eq!(send_over(&mut fresh(), &table, &nine_booleans), reply);
    let two_numbers = [0x11, 0x03, 0x0B, 0xB9, 0x00, 0x02, 0x15, 0x5A];
    let reply = [0x11, 0x03, 0x04, 0xFF, 0xFB, 0x01, 0x02, 0x2A, 0x46];
    assert_eq!(send_over(&mut fresh(), &table, &two_numbers), reply);
}

/// Eight to a byte from the first one asked, spare high bits 0.
#[test]
fn booleans_are_packed_from_the_first_one_asked() {
    let mut table = patterned();
    table[..2].copy_from_slice(&[0b1111_0000, 0b0111_1111]);
    table[15] = 0b1000_0000;
    let lines: [(u16, u16, &[u8]); 7] = [
        (1801, 8, &[0xF0]),
        (1801, 16, &[0xF0, 0x7F]),
        (1804, 4, &[0x0E]),
        (1805, 4, &[0x0F]),
        (1805, 9, &[0xFF, 0x01]),
        (1808, 9, &[0xFF, 0x00]),
        (1928, 1, &[0x01]),
    ];
    for (first, quantity, data) in lines {
        let wanted = data_reply(UNIT, 1, data);
        let reply = told(&table, 1, first, quantity);
        assert_eq!(reply, wanted, "{quantity} from {first}");
    }
}

/// The last points of the other rows: -5, a text, 70,000, a float that is no
/// number, and a text of 16.
#[test]
fn other_points_stand_as_in_the_table() {
    let lines: [(u16, usize, &[u8]); 5] = [
        (3064, 142, &[0xFF, 0xFB]),
        (4032, 392, b"Row 32\x00\x00"),
        (5164, 652, &[0x00, 0x01, 0x11, 0x70]),
        (7228, 1164, &[0x7F, 0xA0, 0x00, 0x02]),
        (14016, 1408, b"Windrow sixteen."),
    ];
    for (point, place, bytes) in lines {
        let reply = told(&with(place, bytes), 3, point, 1);
        assert_eq!(reply, read_reply(bytes), "{point}");
    }
}

/// What is wanted of every start and quantity, worked out from the table as
/// one number (Booleans), as plain bytes, or as texts by the list of clean ones.
fn wanted(table: &[u8], row: usize, first: u16, quantity: u16) -> Vec<u8> {
    let (function, row_first, last, bits, from_byte) = ROWS[row];
    let count = usize::from(quantity);
    let length = (count * bits).div_ceil(8);
    if quantity == 0 || length > 250 {
        return exception(function, ILLEGAL_VALUE);
    }
    if u32::from(first) + u32::from(quantity) > u32::from(last) + 1 {
        return exception(function, ILLEGAL_ADDRESS);
    }
    let before = usize::from(first - row_first);
    if bits > 1 {
        let from = from_byte + before * bits / 8;
        let bytes = &table[from..from + length];
        return if bits < 64 {
            read_reply(bytes)
        } else {
            read_reply(&captured_by_list(bytes))
        };
    }
    let booleans = u128::from_le_bytes(table[..16].try_into().unwrap());
    let run = booleans >> before & u128::MAX >> (128 - count);
    data_reply(UNIT, 1, &run.to_le_bytes()[..length])
}

/// To past every row's end, to past 250 bytes, and where the bytes would be 0
/// if they were cut to 16 bits.
#[test]
fn every_run_of_every_row() {
    let (table, mut machine) = (patterned(), fresh());
    let large = [250, 2000, 2001, 4096, 8192, 16_384, 32_768, 65_535];
    for (row, (function, first, last, ..)) in ROWS.into_iter().enumerate() {
        for start in first..=last {
            for quantity in (0..=140).chain(large) {
                let poll = request(UNIT, function, start, quantity);
                let reply = send_over(&mut machine, &table, &poll);
                let wanted = wanted(&table, row, start, quantity);
                assert_eq!(reply, wanted, "{quantity} from {start}");
            }
        }
    }
    assert_eq!(machine, fresh());
}

/// Quantities with the bytes of data that the reply has, or the exception.
type Outcomes = [(u16, Result<u8, u8>); 4];

/// Data over 250 bytes is judged on the quantity asked, before the row's end.
#[rustfmt::skip]
const EDGES: [(u8, u16, Outcomes); 13] = [
    (1, 1801, [(128, Ok(16)), (129, Err(2)), (2000, Err(2)), (2001, Err(3))]),
    (1, 1928, [(1, Ok(1)), (2, Err(2)), (2000, Err(2)), (2001, Err(3))]),
    (3, 3001, [(64, Ok(128)), (65, Err(2)), (125, Err(2)), (126, Err(3))]),
    (3, 3064, [(1, Ok(2)), (2, Err(2)), (125, Err(2)), (126, Err(3))]),
    (3, 4001, [(0, Err(3)), (31, Ok(248)), (32, Err(3)), (33, Err(3))]),
    (3, 4002, [(0, Err(3)), (31, Ok(248)), (32, Err(3)), (33, Err(3))]),
    (3, 4003, [(30, Ok(240)), (31, Err(2)), (32, Err(3)), (65_535, Err(3))]),
    (3, 5101, [(62, Ok(248)), (63, Err(3)), (64, Err(3)), (65, Err(3))]),
    (3, 5104, [(61, Ok(244)), (62, Err(2)), (63, Err(3)), (65_535, Err(3))]),
    (3, 7101, [(62, Ok(248)), (63, Err(3)), (128, Err(3)), (129, Err(3))]),
    (3, 7168, [(61, Ok(244)), (62, Err(2)), (63, Err(3)), (65_535, Err(3))]),
    (3, 14001, [(0, Err(3)), (15, Ok(240)), (16, Err(3)), (17, Err(3))]),
    (3, 14003, [(14, Ok(224)), (15, Err(2)), (16, Err(3)), (65_535, Err(3))]),
];

#[test]
fn lengths_of_runs_at_their_edges() {
    for (function, first, outcomes) in EDGES {
        for (quantity, outcome) in outcomes {
            let reply = told(&patterned(), function, first, quantity);
            match outcome {
                Ok(bytes) => assert_eq!(reply[..3], [UNIT, function, bytes]),
                Err(code) => assert_eq!(reply, exception(function, code)),
            }
        }
    }
}

/// Each frame has a fault that the line names and every later one that it
/// can have.
#[test]
fn exceptions_to_live_polls_in_their_order() {
    let nine = |function, address| {
        let mut frame = request(UNIT, function, address, 0);
        frame.truncate(6);
        frame.push(0);
        crc::with_crc(frame)
    };
    let eight = |function, address, quantity| request(UNIT, function, address, quantity);
    let lines = [
        ("function", nine(2, 1801), ILLEGAL_FUNCTION),
        ("length of a 01", nine(1, 0), ILLEGAL_VALUE),
        ("length of a 03", nine(3, 1801), ILLEGAL_VALUE),
        ("01 before the Booleans", eight(1, 1800, 0), ILLEGAL_ADDRESS),
        ("01 past the Booleans", eight(1, 1929, 0), ILLEGAL_ADDRESS),
        ("01 on another row", eight(1, 3001, 0), ILLEGAL_ADDRESS),
        ("01 on a record", eight(1, 701, 0), ILLEGAL_ADDRESS),
        ("01 on a register", eight(1, 3701, 0), ILLEGAL_ADDRESS),
        ("03 on a Boolean", eight(3, 1801, 0), ILLEGAL_ADDRESS),
        ("03 on Boolean 1928", eight(3, 1928, 0), ILLEGAL_ADDRESS),
        ("03 between two rows", eight(3, 3065, 0), ILLEGAL_ADDRESS),
        ("06 on a Boolean", eight(6, 1801, 0), ILLEGAL_ADDRESS),
        ("06 on a 16-bit point", eight(6, 3001, 0), ILLEGAL_ADDRESS),
        ("quantity 0", eight(1, 1928, 0), ILLEGAL_VALUE),
        ("over 250 bytes", eight(3, 3064, 126), ILLEGAL_VALUE),
        ("past its row", eight(3, 3064, 2), ILLEGAL_ADDRESS),
    ];
    for (fault, frame, code) in lines {
        let reply = send_over(&mut fresh(), &patterned(), &frame);
        assert_eq!(reply, exception(frame[1], code), "{fault}");
    }
}

/// No run goes on in another row, and none starts beside its own.
#[test]
fn rows_have_ends() {
    for (function, first, last, ..) in ROWS {
        for (start, quantity) in [(first - 1, 2), (first - 2, 1), (last, 2), (last + 1, 1)] {
            let reply = told(&patterned(), function, start, quantity);
            assert_eq!(reply, exception(function, ILLEGAL_ADDRESS), "{start}");
        }
    }
}

#[test]
fn live_polls_to_other_units_and_to_unit_0_are_ignored() {
    for unit in (0..=255).filter(|&unit| unit != UNIT) {
        for (function, point) in [(1, 1801), (3, 3001), (1, 0), (3, 1801)] {
            let poll = request(unit, function, point, 1);
            assert!(send_over(&mut fresh(), &patterned(), &poll).is_empty());
        }
    }
}

/// Live polls, polls of the archive, a 06 and frames without a reply.
#[test]
fn a_table_of_another_length_is_refused_whatever_the_frame_is() {
    let mut machine = running_with_file_1(4);
    let before = machine.clone();
    let to_us = |(function, address)| request(UNIT, function, address, 1);
    let answered = [(1, 1801), (3, 3001), (3, 721), (6, 3703), (2, 0)].map(to_us);
    let without_reply = [vec![], vec![UNIT; 8], vec![0; 300], request(0, 6, 3703, 1)];
    for frame in answered.iter().chain(&without_reply) {
        for length in [0, 1, 16, 1423, 1425, 2848, 65_536 + 1424] {
            let (table, mut reply) = (vec![0xFF; length], [0xAA; 256]);
            let (answer, sent) = machine.poll(ARCHIVE, &table, frame, &mut reply);
            refused(answer, 3);
            assert_eq!((sent, reply), (0, [0xAA; 256]));
            refused(machine.poll(ARCHIVE, &table, frame, &mut reply[..255]).0, 3);
            refused(machine.poll(ARCHIVE + 1, &table, frame, &mut reply).0, 1);
        }
    }
    assert_eq!(machine, before);
}

/// Neither a scan's table nor an earlier poll's.
#[test]
fn each_poll_reads_the_table_that_it_is_lent() {
    let mut machine = running_with_file_1(4);
    capture(&mut machine, 2);
    for byte in [0x00, 0xFF, 0x5A] {
        let table = [byte; TABLE_BYTES];
        let eight = send_over(&mut machine, &table, &request(UNIT, 1, 1801, 8));
        assert_eq!(eight, data_reply(UNIT, 1, &[byte]));
        let float = send_over(&mut machine, &table, &request(UNIT, 3, 7101, 1));
        assert_eq!(float, read_reply(&[byte; 4]));
    }
}

/// And a poll of the archive reads none.
#[test]
fn records_are_polled_as_before_whatever_the_table_has() {
    let mut machine = running_with_file_1(4);
    capture(&mut machine, 2);
    for table in [patterned(), vec![0xFF; TABLE_BYTES]] {
        let reply = send_over(&mut machine, &table, &request(UNIT, 3, 721, 2));
        assert_eq!(reply, read_reply(&[8, 29, 7, 11, 36, 2, 0, 0]));
    }
}

#[test]
fn a_run_has_the_bytes_of_a_captured_group() {
    let table = patterned();
    for (function, first, last, ..) in ROWS {
        for (start, quantity) in [(first, 1), (first + 3, 9), (last - 4, 5), (last, 1)] {
            let group = &captured_from(&table, &[(start, quantity)])[6..];
            let reply = told(&table, function, start, quantity);
            assert_eq!(reply, data_reply(UNIT, function, group), "{start}");
        }
    }
}
