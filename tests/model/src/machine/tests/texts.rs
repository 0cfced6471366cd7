//! Clean text, captured and polled live; what lies in archive memory is polled
//! as it stands.

use super::*;
use crate::frames::data_reply;
use crate::texts::{captured_by_list, TEXTS};

/// The text kinds: first point, how many there are, the bytes of one, and the
/// byte at which they start.
const KINDS: [(u16, usize, usize, usize); 2] = [(4001, 32, 8, 144), (14001, 16, 16, 1168)];

/// The last text of as many bytes, and where it stands.
fn last_text(bytes: usize) -> (u16, usize) {
    match bytes {
        8 => (4032, 392),
        _ => (14016, 1408),
    }
}

/// What is captured of points, and what a live poll of them has.
fn captured_and_polled(table: &[u8], first: u16, points: u16) -> [Vec<u8>; 2] {
    let record = captured_from(table, &[(first, points)]);
    assert_eq!(record[..6], [8, 29, 7, 11, 36, 52]);
    let poll = request(UNIT, 3, first, points);
    let reply = send_over(&mut fresh(), table, &poll);
    let data = reply[3..reply.len() - 2].to_vec();
    assert_eq!(reply, read_reply(&data));
    [record[6..].to_vec(), data]
}

#[test]
fn texts_worked_out_by_hand() {
    for (text, captured) in TEXTS {
        let (point, place) = last_text(text.len());
        let mut table = table_with(&[FLAG]);
        table[place..place + text.len()].copy_from_slice(text);
        let got = captured_and_polled(&table, point, 1);
        assert_eq!(got, [captured, captured], "{text:02X?}");
    }
}

/// The i-th text has a byte at place i, round its end, and else letters, 00 or
/// FF hex, so that the byte stands before each of these and behind it.
#[test]
fn every_byte_at_every_place() {
    for (first, texts, bytes, from) in KINDS {
        for (byte, others) in (0..=255).flat_map(|byte| [(byte, b'A'), (byte, 0), (byte, 0xFF)]) {
            let mut table = table_with(&[FLAG]);
            let row = &mut table[from..from + texts * bytes];
            row.fill(others);
            for (i, text) in row.chunks_exact_mut(bytes).enumerate() {
                text[i % bytes] = byte;
            }
            let wanted = captured_by_list(row);
            let (most, half) = (240, texts as u16 / 2);
            let from_first = captured_and_polled(&table, first, (most / bytes) as u16);
            assert_eq!(from_first, [&wanted[..most]; 2], "{byte:02X} hex");
            let from_middle = captured_and_polled(&table, first + half, half);
            assert_eq!(from_middle, [&wanted[128..]; 2], "{byte:02X} hex");
        }
    }
}

/// The last 16-bit point, 32-bit one and float of that byte only, and Booleans.
#[test]
fn other_points_keep_every_byte() {
    for byte in 0..=255 {
        let mut table = vec![byte; TABLE_BYTES];
        table[0] = table_with(&[FLAG])[0];
        for (point, bytes) in [(3064, 2), (5164, 4), (7228, 4)] {
            let wanted = vec![byte; bytes];
            let got = captured_and_polled(&table, point, 1);
            assert_eq!(got, [&wanted[..]; 2], "{byte:02X} hex at {point}");
        }
        assert_eq!(captured_from(&table, &[(1809, 8)])[6..], [byte]);
        let poll = request(UNIT, 1, 1809, 8);
        let reply = send_over(&mut fresh(), &table, &poll);
        assert_eq!(reply, data_reply(UNIT, 1, &[byte]));
    }
}

/// Texts between points of the other kinds, which keep their bytes.
#[test]
fn a_record_of_every_kind() {
    let mut table = vec![0xF0; TABLE_BYTES];
    table[0] = table_with(&[FLAG])[0];
    table[144..152].copy_from_slice(b"No.\x074\x00\x00\x1F");
    table[1168..1184].copy_from_slice(b"Leaves\x80\x00\x00\x00\x00\x00\x00\x00\x00\x7F");
    let groups = [
        (3001, 1),
        (4001, 1),
        (1809, 8),
        (14001, 1),
        (5101, 1),
        (7101, 1),
    ];
    let wanted = [
        &[8, 29, 7, 11, 36, 52, 0xF0, 0xF0][..],
        b"No.?4\x00\x00?\xF0",
        b"Leaves?\x00\x00\x00\x00\x00\x00\x00\x00?",
        &[0xF0; 8],
    ];
    assert_eq!(captured_from(&table, &groups), wanted.concat());
}

/// The stamp's bytes and the point's, the transducer and both counters.
#[test]
fn alarm_records_keep_every_byte() {
    for byte in 0..=255 {
        let mut machine = fresh();
        done(machine.alarm(ARCHIVE, 1, FLAG.into(), 1, 7101));
        done(machine.start(ARCHIVE));
        scan(&mut machine, &[], 1);
        let mut table = vec![byte; TABLE_BYTES];
        table[..BOOLEAN_BYTES].copy_from_slice(&table_with(&[FLAG])[..BOOLEAN_BYTES]);
        done(machine.scan(ARCHIVE, &table, AUGUST));
        let head = [8, 29, 7, 11, 36, 52, 0x07, 0x0B, 1, 1];
        assert_eq!(machine.record(11, 1), [&head[..], &[byte; 12]].concat());
    }
}

/// A running machine whose file 1 has two records of four texts of 8 and two of
/// 16. Record 1 is an old one; the next scan with FLAG on captures record 2.
fn with_old_record(record: &[u8]) -> Machine {
    let mut raw = running_with_file_1(2).raw_state();
    raw.groups[..32].copy_from_slice(&groups_from_first_place(&[(4001, 4), (14001, 2)]));
    (raw.pointers[0], raw.requested[0]) = (1, 1);
    let mut memory = [JUNK; ARCHIVE];
    memory[..record.len()].copy_from_slice(record);
    Machine::standing(&raw, Some([0; BOOLEAN_BYTES]), &memory)
}

#[test]
fn old_records_are_polled_as_they_stand_and_stay() {
    for first in 0..=255u8 {
        let texts: [u8; 64] = std::array::from_fn(|i| first.wrapping_add(i as u8));
        let old = [&[8, 29, 7, 11, 36, 9][..], &texts].concat();
        let mut machine = with_old_record(&old);
        let is_polled_as_it_stands = |machine: &mut Machine| {
            assert_eq!(ask(machine, UNIT, 3, 721, 1), read_reply(&old));
            assert_eq!(ask(machine, UNIT, 3, 701, 0), read_reply(&old));
        };
        is_polled_as_it_stands(&mut machine);
        let mut table = table_with(&[FLAG]);
        table[144..176].copy_from_slice(&texts[..32]);
        table[1168..1200].copy_from_slice(&texts[32..]);
        done(machine.scan(ARCHIVE, &table, AUGUST));
        is_polled_as_it_stands(&mut machine);
        assert_eq!(machine.archive_memory()[..70], old);
        assert_eq!(machine.record(1, 2)[6..], captured_by_list(&texts));
    }
}
