//! Random frames for a poll: on every row of the address table and of the live table and beside it, with numbers about what a
//! state's files and the rows hold, and with all that can be wrong with a frame; lengths of reply buffers.

use std::fmt;

use model::crc::with_crc;
use model::frames::request;
use model::layout::ALARM_FILE;
use model::machine::{FIRST_REGISTER, LAST_REGISTER, LEAST_REPLY};
use reader::random::Random;

use crate::ffi::State;
use crate::live::any_run;
use crate::rows::{limit_of, requested_register, RECORD_ROWS};

/// A frame as it is lent, of any length.
#[derive(Clone, PartialEq, Eq)]
pub struct Frame(pub Vec<u8>);

impl fmt::Debug for Frame {
    fn fmt(&self, f: &mut fmt::Formatter) -> fmt::Result {
        write!(f, "{} bytes {:02x?}", self.0.len(), &self.0[..self.0.len().min(16)])
    }
}

fn one_of<T: Copy>(random: &mut Random, choices: &[T]) -> T {
    choices[random.below(choices.len() as u64) as usize]
}

/// Mostly as long as a reply buffer must be, now and then longer, or too short.
pub fn any_room(random: &mut Random) -> usize {
    match random.below(24) {
        0 => LEAST_REPLY - 1,
        1 => one_of(random, &[0, 1, 5, 8, 128, 254]),
        2..=4 => LEAST_REPLY + 1,
        5..=7 => LEAST_REPLY + random.below(300) as usize,
        8 => one_of(random, &[512, 1_000, 4_096]),
        _ => LEAST_REPLY,
    }
}

/// Mostly a right request to our unit; now and then another length, a wrong CRC or any bytes.
pub fn any_frame(random: &mut Random, s: &State) -> Frame {
    let (function, address, number) = asked(random, s);
    let right = request(unit(random, s), function, address, number);
    Frame(match random.below(24) {
        0 | 1 => of_another_length(random, &right),
        2 => with_wrong_crc(random, right),
        3 => any_bytes(random, s),
        _ => right,
    })
}

fn unit(random: &mut Random, s: &State) -> u8 {
    match random.below(24) {
        0..=2 => 0,
        3 => one_of(random, &[s.site.unit.wrapping_add(1), s.site.unit.wrapping_sub(1), 248, 255]),
        4 => random.next() as u8,
        _ => s.site.unit,
    }
}

/// Function, address, and quantity or value.
fn asked(random: &mut Random, s: &State) -> (u8, u16, u16) {
    match random.below(48) {
        0 => (other_function(random), record_address(random, s).0, 1),
        1 => (one_of(random, &[1, 3, 6]), random.next() as u16, random.below(4) as u16),
        2 => (1, record_address(random, s).0, random.below(4) as u16),
        3 => live_point_by_another_function(random),
        4..=18 => any_run(random),
        19..=25 => registers(random),
        26..=32 => set_requested(random, s),
        _ => {
            let (address, file) = record_address(random, s);
            (3, address, record_number(random, s, file))
        }
    }
}

fn other_function(random: &mut Random) -> u8 {
    const OTHERS: [u8; 13] = [0, 2, 4, 5, 7, 8, 15, 16, 0x80, 0x81, 0x83, 0x86, 0xFF];
    let function = if random.chance(3) { random.next() as u8 } else { one_of(random, &OTHERS) };
    if [1, 3, 6].contains(&function) {
        2
    } else {
        function
    }
}

/// A live point, or one beside a row, by a 06 or by a function that is not known.
fn live_point_by_another_function(random: &mut Random) -> (u8, u16, u16) {
    let function = if random.chance(2) { 6 } else { other_function(random) };
    (function, any_run(random).1, random.below(4) as u16)
}

/// Mostly a file that has records; now and then an idle one, or 0 or 12, which are beside a row.
fn file(random: &mut Random, s: &State) -> usize {
    if random.chance(10) {
        return random.below(ALARM_FILE as u64 + 2) as usize;
    }
    let filled: Vec<usize> = (1..=ALARM_FILE).filter(|&file| limit_of(s, file) > 0).collect();
    one_of(random, &filled)
}

fn record_address(random: &mut Random, s: &State) -> (u16, usize) {
    let file = file(random, s);
    (one_of(random, &RECORD_ROWS).0 + file as u16, file)
}

/// A record's number: mostly one of the file's, often the newest, the oldest, the first or the last; else one just past its ends, or
/// one that the alarm file has with one firmware and with the other has not, or next to those.
fn record_number(random: &mut Random, s: &State, file: usize) -> u16 {
    let n = limit_of(s, file);
    let pointer = if (1..=ALARM_FILE).contains(&file) { s.files.pointers[file - 1] } else { 0 };
    match random.below(18) {
        0 => 0,
        1 => n.wrapping_add(1),
        2 => random.next() as u16,
        3..=5 => pointer,
        6 | 7 => pointer.wrapping_add(1),
        8 => 1,
        9 => n,
        10 => 150 + random.below(352) as u16,
        11 => one_of(random, &[150, 151, 500, 501]),
        _ => 1 + random.below(u64::from(n.max(1))) as u16,
    }
}

/// A run of registers: mostly one that there is, often to the last register or one past it.
fn registers(random: &mut Random) -> (u8, u16, u16) {
    let start = FIRST_REGISTER - 1 + random.below(35) as u16;
    let to_the_end = LAST_REGISTER + 1 - start;
    let quantity = match random.below(12) {
        0 => 0,
        1 => 33,
        2 => 34 + random.below(40) as u16,
        3 => random.next() as u16,
        4 | 5 => to_the_end,
        6 => to_the_end + 1,
        _ => 1 + random.below(u64::from(to_the_end.max(1))) as u16,
    };
    (3, start, quantity)
}

/// A 06, mostly on a requested number; else on a register beside it or on a record's address.
fn set_requested(random: &mut Random, s: &State) -> (u8, u16, u16) {
    let file = file(random, s).clamp(1, ALARM_FILE);
    let register = requested_register(file as u16);
    let address = match random.below(12) {
        0 => register + 1,
        1 => register - 1,
        2 => record_address(random, s).0,
        _ => register,
    };
    (6, address, record_number(random, s, file))
}

/// The request cut short or with more behind it, and a right CRC: the length alone is wrong.
fn of_another_length(random: &mut Random, right: &[u8]) -> Vec<u8> {
    let length = match random.below(4) {
        0 => one_of(random, &[0, 1, 2, 3, 4, 7, 9, 255, 256, 257]),
        1 => random.below(9) as usize,
        _ => random.below(301) as usize,
    };
    resized(right, length, |more| random.bytes(more))
}

/// A frame of that length and a right CRC where it has room for one: the bytes of a request cut short, or with more behind them.
pub fn resized(request: &[u8], length: usize, more: impl FnOnce(usize) -> Vec<u8>) -> Vec<u8> {
    let body_length = length.saturating_sub(2);
    let mut body = request[..body_length.min(request.len() - 2)].to_vec();
    let missing = body_length - body.len();
    body.extend(more(missing));
    let mut frame = with_crc(body);
    frame.truncate(length);
    frame
}

fn with_wrong_crc(random: &mut Random, mut right: Vec<u8>) -> Vec<u8> {
    match random.below(3) {
        0 => right.swap(6, 7),
        1 => right[random.below(8) as usize] ^= 1 << random.below(8),
        _ => right[6..].copy_from_slice(&[0, 0]),
    }
    right
}

/// Bytes of any content and length, half of them to our unit and with a right CRC.
fn any_bytes(random: &mut Random, s: &State) -> Vec<u8> {
    let length = if random.chance(20) { 2_000 } else { random.below(301) as usize };
    let mut bytes = random.bytes(length);
    if random.chance(2) && length > 0 {
        bytes[0] = s.site.unit;
        bytes = with_crc(bytes);
    }
    bytes
}
