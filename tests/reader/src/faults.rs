//! Replies that have something wrong with them, or nearly, and lists of group numbers of another length than 32.

use model::card::{DONE, EMPTY, GARBLED};
use model::crc::with_crc;
use model::record::Stamp;
use reader::dates::on_impossible_day;
use reader::random::Random;
use reader::read_back::Given;

const RECORD: usize = 3;
const STAMP: usize = 6;

/// A change of a right reply, and the number by which the changed one is to be told, where the definition is good.
pub struct Fault {
    pub name: &'static str,
    pub number: u8,
    pub make: fn(&mut Random, &Given) -> Vec<u8>,
}

const fn fault(name: &'static str, number: u8, make: fn(&mut Random, &Given) -> Vec<u8>) -> Fault {
    Fault { name, number, make }
}

/// Each but the first three has a right CRC, so that the change itself is what is told.
pub const FAULTS: [Fault; 15] = [
    fault("cut short", GARBLED, |random, right| right.frame[..random.below(right.frame.len() as u64) as usize].to_vec()),
    fault("bytes behind the CRC", GARBLED, |random, right| [right.frame, &some_bytes(random)].concat()),
    fault("a wrong CRC", GARBLED, |random, right| {
        let mut copy = right.frame.to_vec();
        copy[right.frame.len() - 1 - random.below(2) as usize] ^= 1 << random.below(8);
        copy
    }),
    fault("longer than its record", GARBLED, |random, right| changed(right, |body| body.extend(some_bytes(random)))),
    fault("longer than its record by the byte count too", GARBLED, |random, right| {
        changed(right, |body| {
            body.extend(some_bytes(random));
            body[2] = (body.len() - RECORD) as u8;
        })
    }),
    fault("shorter than its record", GARBLED, |random, right| {
        changed(right, |body| body.truncate(body.len() - 1 - random.below(3) as usize))
    }),
    fault("another unit", GARBLED, |random, right| changed(right, |body| body[0] = one_of(random, [0, 248, 255]))),
    fault("another function", GARBLED, |random, right| changed(right, |body| body[1] = one_of(random, [4, 6, 0x83]))),
    fault("another byte count", GARBLED, |random, right| {
        changed(right, |body| body[2] = body[2].wrapping_add(1 + random.below(255) as u8))
    }),
    fault("a stamp out of range", GARBLED, |random, right| {
        const EDGES: [u8; 7] = [0, 13, 24, 32, 60, 100, 255];
        changed(right, |body| body[RECORD + random.below(STAMP as u64) as usize] = EDGES[random.below(7) as usize])
    }),
    fault("a day that its month lacks", GARBLED, |random, right| {
        changed(right, |body| {
            let stamp = &mut body[RECORD..RECORD + STAMP];
            let moved = on_impossible_day(random, Stamp::from_bytes(stamp, right.day_first));
            stamp.copy_from_slice(&moved.bytes(right.day_first));
        })
    }),
    fault("all zeros", EMPTY, |_, right| changed(right, |body| body[RECORD..].fill(0))),
    fault("zeros for the stamp only", GARBLED, |_, right| changed(right, |body| body[RECORD..RECORD + STAMP].fill(0))),
    fault("zeros but for one byte", GARBLED, |random, right| {
        changed(right, |body| {
            body[RECORD..].fill(0);
            let at =
                if random.chance(2) { body.len() - 1 } else { RECORD + random.below((body.len() - RECORD) as u64) as usize };
            body[at] = 1 + random.below(255) as u8;
        })
    }),
    fault("zeros behind the stamp", DONE, |_, right| changed(right, |body| body[RECORD + STAMP..].fill(0))),
];

fn one_of(random: &mut Random, bytes: [u8; 3]) -> u8 {
    bytes[random.below(3) as usize]
}

fn some_bytes(random: &mut Random) -> Vec<u8> {
    let length = 1 + random.below(7) as usize;
    random.bytes(length)
}

/// The frame with another body and a right CRC.
fn changed(right: &Given, change: impl FnOnce(&mut Vec<u8>)) -> Vec<u8> {
    let mut body = right.frame[..right.frame.len() - 2].to_vec();
    change(&mut body);
    with_crc(body)
}

/// The numbers cut short, or with more behind them: zeros, or anything.
pub fn other_length(random: &mut Random, numbers: &[u16; 32]) -> Vec<u16> {
    let mut list = numbers.to_vec();
    match random.below(3) {
        0 => list.truncate(random.below(32) as usize),
        1 => list.resize(33 + random.below(33) as usize, 0),
        _ => list.extend((0..1 + random.below(40)).map(|_| random.next() as u16).collect::<Vec<u16>>()),
    }
    list
}
