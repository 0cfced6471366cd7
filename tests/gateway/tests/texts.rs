//! Clean text: texts on libgateway.a, captured and polled live; old ones polled, and read by libreader.a, as they stand. What
//! is wanted is worked out by hand.

use gateway::ffi::{self, State};
use gateway::states::ZEROS;
use model::frames::{read_reply, request, READ};
use model::layout::FIRMWARE_74;
use model::machine::{least_archive, LEAST_REPLY, NUMBERED_RECORD};
use model::points::{groups_from_first_place, record_size, row_of_point, STAMP_BYTES, TABLE_BYTES};
use model::record::AUGUST;
use model::texts::{captured_by_list, TEXTS};
use reader::ffi::PointAnswer;

const UNIT: u8 = 17;
/// The bytes of the alarm file.
const ALARM_FILE: usize = least_archive(FIRMWARE_74);
/// What archive memory holds where nothing of ours was ever written.
const JUNK: u8 = 0xEE;
/// The first points of the text rows.
const TEXT_ROWS: [u16; 2] = [4001, 14001];

/// A running gateway that remembers Booleans which are all off. File 1 has one record of these groups, captured at a rise of 1801.
fn watching(groups: &[(u16, u16)]) -> (State, Vec<u8>) {
    let mut s = ZEROS;
    let groups = groups_from_first_place(groups);
    let length = record_size(&groups) + ALARM_FILE;
    (s.site.unit, s.site.firmware, s.site.archive_length) = (UNIT, FIRMWARE_74, length as u32);
    (s.flags.running, s.seen.scanned, s.settings.triggers[0]) = (true, true, 1801);
    s.files.layout.groups[..32].copy_from_slice(&groups);
    s.files.layout.limits[0] = 1;
    (s, vec![JUNK; length])
}

/// A live table of zeros in which 1801 is on.
fn rising() -> Vec<u8> {
    let mut table = vec![0; TABLE_BYTES];
    table[0] = 1;
    table
}

/// What a scan captures of these points. The table keeps its bytes.
fn captured(table: &[u8], first: u16, points: u16) -> Vec<u8> {
    let (s, mut archive) = watching(&[(first, points)]);
    let mut lent = table.to_vec();
    let answer = ffi::scan(s, &mut archive, &mut lent, AUGUST.into());
    assert_eq!((answer.number, answer.state.files.pointers[0]), (0, 1));
    assert!(lent == table, "the table was changed");
    let (record, behind) = archive.split_at(archive.len() - ALARM_FILE);
    assert!(behind.iter().all(|&byte| byte == JUNK), "more than the record was written");
    let (stamp, data) = record.split_at(STAMP_BYTES);
    assert_eq!(stamp, [8, 29, 7, 11, 36, 52]);
    data.to_vec()
}

/// The reply to a read. The table and the archive keep their bytes.
fn polled(s: State, archive: &[u8], table: &[u8], address: u16, number: u16) -> Vec<u8> {
    let (mut archive_lent, mut table_lent) = (archive.to_vec(), table.to_vec());
    let (mut frame, mut reply) = (request(UNIT, READ, address, number), vec![0; LEAST_REPLY]);
    let answer = ffi::poll(s, &mut archive_lent, &mut table_lent, &mut frame, &mut reply);
    assert_eq!((answer.number, answer.state), (0, s));
    assert!(archive_lent == archive && table_lent == table, "what is only read was changed");
    reply.truncate(answer.length as usize);
    reply
}

/// Points of one row are captured and polled live as these bytes.
fn assert_read_as(table: &[u8], first: u16, points: u16, wanted: &[u8]) {
    assert_eq!(captured(table, first, points), wanted, "{points} captured from {first}");
    let (s, archive) = watching(&[]);
    assert_eq!(polled(s, &archive, table, first, points), read_reply(UNIT, wanted), "{points} polled from {first}");
}

#[test]
fn texts_worked_out_by_hand() {
    for (text, wanted) in TEXTS {
        let (first, last) = if text.len() == 8 { (4001, 4032) } else { (14001, 14016) };
        for point in [first, last] {
            let mut table = rising();
            let place = row_of_point(point).unwrap().place_in_table(point);
            table[place..place + text.len()].copy_from_slice(text);
            assert_read_as(&table, point, 1, wanted);
        }
    }
}

/// The i-th text has a byte at place i, round its end, and else letters, 00 or FF hex.
#[test]
fn every_byte_at_every_place() {
    for (byte, others) in (0..=255).flat_map(|byte| [(byte, b'A'), (byte, 0), (byte, 0xFF)]) {
        for row in TEXT_ROWS.map(|first| row_of_point(first).unwrap()) {
            let mut table = rising();
            let (size, half) = (row.point_bits / 8, row.points() / 2);
            let texts = &mut table[row.in_table()];
            texts.fill(others);
            for (i, text) in texts.chunks_exact_mut(size).enumerate() {
                text[i % size] = byte;
            }
            let wanted = captured_by_list(texts);
            assert_read_as(&table, row.first, half, &wanted[..128]);
            assert_read_as(&table, row.first + half, half, &wanted[128..]);
        }
    }
}

#[test]
fn points_of_other_kinds_keep_every_byte() {
    for byte in 0..=255 {
        let mut table = vec![byte; TABLE_BYTES];
        table[0] = 1;
        for (first, size) in [(3001, 2), (5101, 4), (7101, 4)] {
            assert_read_as(&table, first, 60, &vec![byte; 60 * size]);
        }
        assert_eq!(captured(&table, 1809, 120), [byte; 15]);
    }
}

/// Record 1 lies in archive memory since before texts were cleaned. The reading end takes its texts where they are.
#[test]
fn old_records_are_polled_and_read_as_they_stand() {
    let groups = [(4001, 8), (3001, 1), (14001, 8)];
    for first in 0..=255u8 {
        let (s, mut archive) = watching(&groups);
        let record = &mut archive[..STAMP_BYTES + 194];
        record[..STAMP_BYTES].copy_from_slice(&AUGUST.bytes(false));
        for (i, byte) in record[STAMP_BYTES..].iter_mut().enumerate() {
            *byte = first.wrapping_add(i as u8);
        }
        let stands = read_reply(UNIT, record);
        let frame = polled(s, &archive, &rising(), NUMBERED_RECORD + 1, 1);
        assert_eq!(frame, stands);
        for e in 1..=8 {
            let text = |g| reader::ffi::point(&groups_from_first_place(&groups), false, &frame, g, e);
            let read = |place, length| PointAnswer { number: 0, carried: 0, kind: 5, bits: 0, place, length };
            assert_eq!([text(1), text(3)], [read(9 + 8 * (e - 1), 8), read(75 + 16 * (e - 1), 16)]);
        }
    }
}
