//! The reading end's point: it checks the frame in each call, as ours does.

use reader::ffi::{PointAnswer, Stamp};

use super::crc::crc;
use super::points::{good_group, Kind, Row, LONGEST_RECORD, STAMP_BYTES};
use super::records::in_range;

/// A group of the definition: its row, its number of points, and where it starts in the frame.
struct Found {
    row: &'static Row,
    points: u32,
    at: u32,
}

/// The record's size and the group at place g, in one walk; or the card's number and what it carries.
fn walk(groups: &[u16], g: u32) -> Result<(u32, Option<Found>), (u32, u32)> {
    let groups: &[u16; 32] = groups.try_into().map_err(|_| (7, 0))?;
    let (mut size, mut found) = (STAMP_BYTES, None);
    for (place, pair) in (1..).zip(groups.chunks_exact(2)) {
        let (first, points) = (u32::from(pair[0]), u32::from(pair[1]));
        if first | points == 0 {
            continue;
        }
        let row = good_group(first, points).ok_or((7, place))?;
        if place == g {
            found = Some(Found { row, points, at: 3 + size });
        }
        size += row.bytes(points);
    }
    if size > LONGEST_RECORD {
        return Err((8, 0));
    }
    Ok((size, found))
}

/// The card's number of a frame that should carry a record of this size, 0 for none.
fn frame_number(frame: &[u8], size: usize, day_first: bool) -> u32 {
    let is_whole = frame.len() == size + 5 && frame[0].wrapping_sub(1) < 247 && frame[1] == 3 && usize::from(frame[2]) == size;
    if !is_whole || crc(&frame[..size + 3]) != u16::from_le_bytes([frame[size + 3], frame[size + 4]]) {
        return 14;
    }
    let record = &frame[3..size + 3];
    let (month, day) = if day_first { (record[1], record[0]) } else { (record[0], record[1]) };
    let [year, hour, minute, second] = [record[2], record[3], record[4], record[5]];
    if in_range(&Stamp { month, day, year, hour, minute, second }) {
        0
    } else if record.iter().all(|&byte| byte == 0) {
        15
    } else {
        14
    }
}

fn refused((number, carried): (u32, u32)) -> PointAnswer {
    PointAnswer { number, carried, kind: 0, bits: 0, place: 0, length: 0 }
}

fn value(frame: &[u8], group: &Found, index: u32) -> PointAnswer {
    let row = group.row;
    let place = (group.at + index * row.size) as usize;
    let plain = |kind, bits| PointAnswer { number: 0, carried: 0, kind, bits, place: 0, length: 0 };
    let four = || u32::from_be_bytes(frame[place..place + 4].try_into().unwrap());
    match row.kind {
        Kind::Boolean => plain(1, u32::from(frame[(group.at + index / 8) as usize] >> (index % 8) & 1)),
        Kind::Int16 => plain(2, i16::from_be_bytes([frame[place], frame[place + 1]]) as u32),
        Kind::Int32 => plain(3, four()),
        Kind::Float => plain(4, four()),
        Kind::Text => PointAnswer { place: place as u32, length: row.size, ..plain(5, 0) },
    }
}

pub fn point(groups: &[u16], day_first: bool, frame: &[u8], g: u32, e: u32) -> PointAnswer {
    let (size, found) = match walk(groups, g) {
        Ok(walked) => walked,
        Err(told) => return refused(told),
    };
    let number = frame_number(frame, size as usize, day_first);
    if number != 0 {
        return refused((number, 0));
    }
    match found {
        Some(group) if e.wrapping_sub(1) < group.points => value(frame, &group, e - 1),
        _ => refused((16, 0)),
    }
}
