//! The reading end: what site software gets out of a reply frame.

use std::ops::Range;

use crate::card::{lowest, Refusal, BEYOND, EMPTY, GARBLED, GROUP};
use crate::crc;
use crate::foreign::unit_is_ours;
use crate::frames::READ;
use crate::points::{
    group_bytes, group_of, judge_definition, Group, Kind, Row, GROUP_NUMBERS, PLACES, STAMP_BYTES,
};
use crate::record::Stamp;

/// The record starts at byte 3 of the frame.
pub const RECORD_START: usize = 3;
/// A frame is its record and 5 bytes: unit, function, byte count, CRC.
const BYTES_AROUND: usize = 5;

/// The value of a point. A text's place counts the frame's bytes from 0.
#[derive(Clone, Copy, Debug, PartialEq, Eq)]
pub enum Value {
    Flag(bool),
    Int16(i16),
    Int32(i32),
    Float(u32),
    Text { place: usize, len: usize },
}

/// A list not of 32 numbers is Group (7) carrying 0.
fn thirty_two(groups: &[u16]) -> Result<&[u16; GROUP_NUMBERS], Refusal> {
    groups.try_into().map_err(|_| Refusal::plain(GROUP))
}

/// A 03 reply with right CRC, unit 1-247 and that record size.
fn is_reply_of_size(frame: &[u8], size: usize) -> bool {
    frame.len() == size + BYTES_AROUND
        && unit_is_ours(frame[0].into())
        && frame[1] == READ
        && usize::from(frame[2]) == size
        && crc::checks(frame)
}

/// The record, as a range of the frame's bytes.
pub fn record(groups: &[u16], day_first: bool, frame: &[u8]) -> Result<Range<usize>, Refusal> {
    let size = judge_definition(thirty_two(groups)?)?;
    if !is_reply_of_size(frame, size) {
        return Err(Refusal::plain(GARBLED));
    }
    let range = RECORD_START..RECORD_START + size;
    let bytes = &frame[range.clone()];
    let all_zeros = bytes.iter().all(|&byte| byte == 0);
    let stamp_good = Stamp::from_bytes(bytes, day_first).in_range();
    lowest(&[(GARBLED, !stamp_good && !all_zeros), (EMPTY, all_zeros)])?;
    Ok(range)
}

/// The record's stamp.
pub fn stamp(groups: &[u16], day_first: bool, frame: &[u8]) -> Result<Stamp, Refusal> {
    let range = record(groups, day_first, frame)?;
    Ok(Stamp::from_bytes(&frame[range], day_first))
}

/// The group at a place: its row, its points and its stretch of the frame.
struct Found {
    row: &'static Row,
    points: u16,
    stretch: Range<usize>,
}

/// The group at place g, counted from 1 with the unused ones. An unused
/// place names nothing. The groups have been judged.
fn group_at(groups: &[u16], g: usize) -> Result<Found, Refusal> {
    if !(1..=PLACES).contains(&g) {
        return Err(Refusal::plain(BEYOND));
    }
    let (before, from_g) = groups.split_at(2 * (g - 1));
    let (first, points) = (from_g[0], from_g[1]);
    let Group::Good(row) = group_of(first, points) else {
        return Err(Refusal::plain(BEYOND));
    };
    let bytes_before: usize = before.chunks(2).map(|p| group_bytes(p[0], p[1])).sum();
    let start = RECORD_START + STAMP_BYTES + bytes_before;
    let stretch = start..start + group_bytes(first, points);
    Ok(Found {
        row,
        points,
        stretch,
    })
}

/// The stretch of the group at place g, as a range of the frame's bytes.
pub fn stretch(
    groups: &[u16],
    day_first: bool,
    frame: &[u8],
    g: usize,
) -> Result<Range<usize>, Refusal> {
    record(groups, day_first, frame)?;
    Ok(group_at(groups, g)?.stretch)
}

/// The value of point e, counted from 1, of the group at place g.
pub fn value(
    groups: &[u16],
    day_first: bool,
    frame: &[u8],
    g: usize,
    e: usize,
) -> Result<Value, Refusal> {
    record(groups, day_first, frame)?;
    let group = group_at(groups, g)?;
    if !(1..=usize::from(group.points)).contains(&e) {
        return Err(Refusal::plain(BEYOND));
    }
    Ok(value_of_point(frame, &group, e - 1))
}

/// The value of the point with `index` points of its group before it.
fn value_of_point(frame: &[u8], group: &Found, index: usize) -> Value {
    let stretch = &frame[group.stretch.clone()];
    let len = group.row.point_bits / 8;
    let from = index * len;
    match group.row.kind {
        Kind::Boolean => Value::Flag(stretch[index / 8] >> (index % 8) & 1 == 1),
        Kind::Int16 => Value::Int16(i16::from_be_bytes([stretch[from], stretch[from + 1]])),
        Kind::Int32 => Value::Int32(i32::from_be_bytes(four_bytes(stretch, from))),
        Kind::Float => Value::Float(u32::from_be_bytes(four_bytes(stretch, from))),
        Kind::Text8 | Kind::Text16 => Value::Text {
            place: group.stretch.start + from,
            len,
        },
    }
}

fn four_bytes(bytes: &[u8], from: usize) -> [u8; 4] {
    [
        bytes[from],
        bytes[from + 1],
        bytes[from + 2],
        bytes[from + 3],
    ]
}

#[cfg(test)]
mod tests {
    use super::*;
    use crate::frames::read_reply;
    use crate::points::{groups_from_first_place, TABLE_BYTES};
    use crate::record::{captured_record, february, AUGUST};

    fn reply(record: &[u8]) -> Vec<u8> {
        read_reply(1, record)
    }

    /// One group of each kind, with unused places at 1 and 4.
    fn each_kind() -> [u16; 32] {
        groups_from_first_place(&[
            (0, 0),
            (1805, 9),
            (3001, 2),
            (0, 0),
            (4002, 1),
            (5101, 2),
            (7101, 1),
            (14003, 2),
        ])
    }

    fn table_with_values() -> Vec<u8> {
        let mut table = vec![0; TABLE_BYTES];
        table[0] = 0b0001_0000;
        table[1] = 0b0001_0000;
        table[18..20].copy_from_slice(&(-5i16).to_be_bytes());
        table[404..408].copy_from_slice(&(-70_000i32).to_be_bytes());
        table[656..660].copy_from_slice(&0x7FC0_0001u32.to_be_bytes());
        table
    }

    fn each_kind_frame() -> Vec<u8> {
        reply(&captured_record(
            &each_kind(),
            &table_with_values(),
            AUGUST,
            true,
        ))
    }

    fn refusal<T>(number: u8) -> Result<T, Refusal> {
        Err(Refusal::plain(number))
    }

    #[test]
    fn the_record_starts_at_byte_3_and_has_its_stamp() {
        let (groups, frame) = (each_kind(), each_kind_frame());
        assert_eq!(record(&groups, true, &frame), Ok(3..frame.len() - 2));
        assert_eq!(stamp(&groups, true, &frame), Ok(AUGUST));
    }

    #[test]
    fn places_count_the_unused_ones_too() {
        let (groups, frame) = (each_kind(), each_kind_frame());
        let of = |g| stretch(&groups, true, &frame, g);
        assert_eq!(of(2), Ok(9..11));
        assert_eq!(of(3), Ok(11..15));
        assert_eq!(of(5), Ok(15..23));
        assert_eq!(of(8), Ok(35..67));
        for names_nothing in [0, 1, 4, 9, 16, 17, usize::MAX] {
            assert_eq!(of(names_nothing), refusal(16));
        }
    }

    #[test]
    fn values_of_each_kind() {
        let (groups, frame) = (each_kind(), each_kind_frame());
        let of = |g, e| value(&groups, true, &frame, g, e);
        assert_eq!(of(2, 1), Ok(Value::Flag(true)));
        assert_eq!(of(2, 2), Ok(Value::Flag(false)));
        assert_eq!(of(2, 9), Ok(Value::Flag(true)));
        assert_eq!(of(3, 1), Ok(Value::Int16(0)));
        assert_eq!(of(3, 2), Ok(Value::Int16(-5)));
        assert_eq!(of(5, 1), Ok(Value::Text { place: 15, len: 8 }));
        assert_eq!(of(6, 2), Ok(Value::Int32(-70_000)));
        assert_eq!(of(7, 1), Ok(Value::Float(0x7FC0_0001)));
        assert_eq!(of(8, 2), Ok(Value::Text { place: 51, len: 16 }));
        for (g, e) in [(2, 0), (2, 10), (3, 3), (1, 1), (17, 1), (8, usize::MAX)] {
            assert_eq!(of(g, e), refusal(16));
        }
    }

    #[test]
    fn a_list_not_of_32_numbers_carries_0() {
        let frame = each_kind_frame();
        assert_eq!(record(&[], true, &frame), refusal(7));
        assert_eq!(record(&[9; 31], true, &frame), refusal(7));
        assert_eq!(record(&[0; 33], true, &frame), refusal(7));
    }

    #[test]
    fn a_bad_group_goes_before_a_garbled_frame_and_carries_its_place() {
        let groups = groups_from_first_place(&[(0, 0), (3001, 65)]);
        let bad_second = Refusal {
            number: 7,
            carried: 2,
        };
        assert_eq!(value(&groups, false, &[], 0, 0), Err(bad_second));
        let long = groups_from_first_place(&[(7101, 62)]);
        assert_eq!(value(&long, false, &[], 0, 0), refusal(8));
    }

    #[test]
    fn garbled_frames() {
        let (groups, frame) = (each_kind(), each_kind_frame());
        let body = &frame[..frame.len() - 2];
        let mut garbled = vec![vec![], frame[1..].to_vec(), body.to_vec()];
        for (index, byte) in [(0, 0), (0, 248), (1, 6), (1, 0x83), (2, 63), (2, 65)] {
            let mut changed = body.to_vec();
            changed[index] = byte;
            garbled.push(crc::with_crc(changed));
        }
        let mut wrong_crc = frame.clone();
        wrong_crc[20] ^= 1;
        garbled.push(wrong_crc);
        let mut longer = body.to_vec();
        longer.push(0);
        garbled.push(crc::with_crc(longer));
        for frame in garbled {
            assert_eq!(value(&groups, true, &frame, 0, 0), refusal(14));
        }
    }

    #[test]
    fn the_stamp_is_judged_by_date_order() {
        let (groups, frame) = (each_kind(), each_kind_frame());
        assert_eq!(stamp(&groups, false, &frame), refusal(14));
    }

    #[test]
    fn all_zeros_is_empty_and_anything_less_is_garbled() {
        let groups = groups_from_first_place(&[(3001, 1)]);
        let empty = reply(&[0; 8]);
        assert_eq!(record(&groups, false, &empty), refusal(15));
        assert_eq!(value(&groups, false, &empty, 0, 0), refusal(15));
        let stampless = reply(&[0, 0, 0, 0, 0, 0, 0, 1]);
        assert_eq!(record(&groups, false, &stampless), refusal(14));
    }

    /// An impossible day is Garbled. 29 February goes by the
    /// record's own year, and a record of zeros stays Empty.
    #[test]
    fn a_day_that_does_not_exist_is_garbled() {
        let bare_stamp = [0; 32];
        for day_first in [false, true] {
            let read = |date: Stamp| stamp(&bare_stamp, day_first, &reply(&date.bytes(day_first)));
            assert_eq!(read(february(30, 2024)), refusal(14));
            assert_eq!(read(february(29, 2023)), refusal(14));
            assert_eq!(read(february(29, 2024)), Ok(february(29, 2024)));
            let empty = reply(&[0; 6]);
            assert_eq!(stamp(&bare_stamp, day_first, &empty), refusal(15));
        }
    }

    /// Texts are cleaned when they are captured: a record from before that was
    /// so, or another gateway's, may hold any bytes, and is taken as it stands.
    #[test]
    fn texts_are_read_as_they_stand() {
        let groups = groups_from_first_place(&[(4001, 2), (3001, 1), (14001, 2)]);
        for first in 0..=255u8 {
            let bytes: [u8; 50] = std::array::from_fn(|i| first.wrapping_add(i as u8));
            let frame = reply(&[&AUGUST.bytes(false)[..], &bytes].concat());
            let read = |g, e| match value(&groups, false, &frame, g, e) {
                Ok(Value::Text { place, len }) => &frame[place..place + len],
                other => panic!("text {g}, {e}: {other:?}"),
            };
            assert_eq!([read(1, 1), read(1, 2)], [&bytes[..8], &bytes[8..16]]);
            assert_eq!([read(3, 1), read(3, 2)], [&bytes[18..34], &bytes[34..]]);
        }
    }

    /// A known blunder: Empty told of a filled record.
    #[test]
    fn a_stamp_over_zeros_is_a_filled_record() {
        let groups = groups_from_first_place(&[(3001, 1)]);
        let frame = reply(&[1, 1, 0, 0, 0, 0, 0, 0]);
        assert_eq!(record(&groups, false, &frame), Ok(3..11));
        assert_eq!(value(&groups, false, &frame, 1, 1), Ok(Value::Int16(0)));
    }
}
