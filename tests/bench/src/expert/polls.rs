//! A poll, over the library's own state, by reference: a record goes from its slot to the reply in one copy, and so do live points.

use ::gateway::ffi::State;

use super::crc::crc;
use super::gateway::{alarms, judge, Sizes, FILES};
use super::points::{Kind, Row};
use super::records::{write_points, Table, ALARM_BYTES};

const LEAST_REPLY: usize = 256;
const MOST_DATA: u32 = 250;
const STAMP_BYTES: usize = 6;
/// The data of a reply starts here.
const DATA: usize = 3;

/// What a poll may read: the archive with the record sizes of its layout, and the live table.
struct Lent<'a> {
    archive: &'a [u8],
    sizes: &'a Sizes,
    table: &'a Table,
}

/// The card's number, and the reply's length.
pub fn poll(s: &mut State, archive: &[u8], table: &[u8], frame: &[u8], reply: &mut [u8]) -> (u32, u32) {
    if archive.len() != s.site.archive_length as usize {
        return (1, 0);
    }
    let Some(sizes) = &judge(s) else { return (2, 0) };
    let Ok(table) = table.try_into() else { return (3, 0) };
    let Some(reply) = reply.first_chunk_mut() else { return (13, 0) };
    (0, answer(s, &Lent { archive, sizes, table }, frame, reply) as u32)
}

/// Answers a frame, if it is to be answered, and tells how long the reply is.
fn answer(s: &mut State, lent: &Lent, frame: &[u8], reply: &mut [u8; LEAST_REPLY]) -> usize {
    if !(4..=256).contains(&frame.len()) || (frame[0] != s.site.unit && frame[0] != 0) {
        return 0;
    }
    let (body, end) = frame.split_at(frame.len() - 2);
    if crc(body).to_le_bytes() != end {
        return 0;
    }
    let (unit, function) = (frame[0], frame[1]);
    if unit == 0 {
        if let (6, Some((address, number))) = (function, numbers(frame)) {
            // a broadcast has no reply, so none to a fault either
            let _ = set_requested(s, address, number);
        }
        return 0;
    }
    match serve(s, lent, frame, reply) {
        Ok(length) => length,
        Err(code) => {
            reply[..DATA].copy_from_slice(&[unit, function | 0x80, code]);
            seal(reply, DATA)
        }
    }
}

/// The address and the number of a request, if it is one by its length.
fn numbers(frame: &[u8]) -> Option<(u16, u16)> {
    let frame = <&[u8; 8]>::try_from(frame).ok()?;
    Some((u16::from_be_bytes([frame[2], frame[3]]), u16::from_be_bytes([frame[4], frame[5]])))
}

/// Puts the CRC behind so many bytes.
#[inline]
fn seal(reply: &mut [u8; LEAST_REPLY], length: usize) -> usize {
    let crc = crc(&reply[..length]);
    reply[length..length + 2].copy_from_slice(&crc.to_le_bytes());
    length + 2
}

fn serve(s: &mut State, lent: &Lent, frame: &[u8], reply: &mut [u8; LEAST_REPLY]) -> Result<usize, u8> {
    let function = frame[1];
    if ![1, 3, 6].contains(&function) {
        return Err(1);
    }
    let (address, number) = numbers(frame).ok_or(3)?;
    if function == 6 {
        set_requested(s, address, number)?;
        reply[..8].copy_from_slice(frame);
        return Ok(8);
    }
    let requested = |file: u16| s.line.requested[usize::from(file)];
    let length = match address {
        _ if function == 1 => live(lent.table, true, address, number, reply)?,
        701..=711 => record(s, lent, address - 701, requested(address - 701), false, reply)?,
        721..=731 => record(s, lent, address - 721, number, false, reply)?,
        751..=761 => record(s, lent, address - 751, requested(address - 751), true, reply)?,
        771..=781 => record(s, lent, address - 771, number, true, reply)?,
        3701..=3733 => registers(s, address - 3701, number, reply)?,
        _ => live(lent.table, false, address, number, reply)?,
    };
    reply[..DATA].copy_from_slice(&[s.site.unit, function, length as u8]);
    Ok(seal(reply, DATA + length))
}

/// Writes live points, Booleans or others, and tells how many bytes they take.
#[inline]
fn live(table: &Table, booleans: bool, first: u16, points: u16, reply: &mut [u8; LEAST_REPLY]) -> Result<usize, u8> {
    let (first, points) = (u32::from(first), u32::from(points));
    let row = Row::of(first).filter(|row| (row.kind == Kind::Boolean) == booleans).ok_or(2)?;
    let length = row.bytes(points);
    if length.wrapping_sub(1) >= MOST_DATA {
        return Err(3);
    }
    if first + points > row.last + 1 {
        return Err(2);
    }
    write_points(&mut reply[DATA..DATA + length as usize], table, row, first, points);
    Ok(length as usize)
}

fn limit(s: &State, file: usize) -> u16 {
    s.files.layout.limits.get(file).copied().unwrap_or_else(|| alarms(s))
}

/// Copies record k of a file, counted from 0, or its stamp, and tells its length.
#[inline]
fn record(s: &State, lent: &Lent, file: u16, k: u16, is_stamp: bool, reply: &mut [u8; LEAST_REPLY]) -> Result<usize, u8> {
    let file = usize::from(file);
    if k.wrapping_sub(1) >= limit(s, file) {
        return Err(3);
    }
    let base: usize = (0..file).map(|before| usize::from(s.files.layout.limits[before]) * lent.sizes[before] as usize).sum();
    let size = lent.sizes.get(file).map_or(ALARM_BYTES, |&size| size as usize);
    let length = if is_stamp { STAMP_BYTES } else { size };
    let at = base + usize::from(k - 1) * size;
    reply[DATA..DATA + length].copy_from_slice(&lent.archive[at..at + length]);
    Ok(length)
}

/// Writes registers from one of them, counted from 0, on, and tells how many bytes they take.
fn registers(s: &State, from: u16, quantity: u16, reply: &mut [u8; LEAST_REPLY]) -> Result<usize, u8> {
    if quantity.wrapping_sub(1) >= 33 {
        return Err(3);
    }
    if from + quantity > 33 {
        return Err(2);
    }
    let mut all = [0; 33];
    for (file, three) in all.chunks_exact_mut(3).enumerate() {
        three.copy_from_slice(&[limit(s, file), s.files.pointers[file], s.line.requested[file]]);
    }
    let asked = &all[usize::from(from)..usize::from(from + quantity)];
    for (bytes, register) in reply[DATA..].chunks_exact_mut(2).zip(asked) {
        bytes.copy_from_slice(&register.to_be_bytes());
    }
    Ok(2 * asked.len())
}

fn set_requested(s: &mut State, address: u16, value: u16) -> Result<(), u8> {
    let place = usize::from(address.wrapping_sub(3703));
    let file = place / 3;
    if place % 3 != 0 || file > FILES {
        return Err(2);
    }
    if value.wrapping_sub(1) >= limit(s, file) {
        return Err(3);
    }
    s.line.requested[file] = value;
    Ok(())
}
