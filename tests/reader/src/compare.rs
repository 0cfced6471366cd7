//! The calls of the library beside the model's.

use model::crc::crc16;
use model::reader as model_reader;
use reader::answers::{part, stamped, valued};
use reader::ffi;
use reader::random::Random;
use reader::read_back::{same, Given};

use crate::tally::Tally;

/// The four calls on a frame agree with the model, at indices that go past both ends too. Answers the number that all begin with.
pub fn agree(random: &mut Random, tally: &mut Tally, given: &Given) -> Result<u32, String> {
    let Given { groups, day_first, frame } = *given;
    let record = part(model_reader::record(groups, day_first, frame));
    same("record", record, ffi::record(groups, day_first, frame))?;
    same("stamp", stamped(model_reader::stamp(groups, day_first, frame)), ffi::stamp(groups, day_first, frame))?;
    tally.records[record.number as usize] += 1;
    for _ in 0..4 {
        let g = if random.chance(20) { random.next() as u32 } else { random.below(18) as u32 };
        let e = if random.chance(20) { random.next() as u32 } else { random.below(20) as u32 };
        let stretch = part(model_reader::stretch(groups, day_first, frame, g as usize));
        same(&format!("stretch {g}"), stretch, ffi::stretch(groups, day_first, frame, g))?;
        let point = valued(model_reader::value(groups, day_first, frame, g as usize, e as usize));
        same(&format!("point {g}, {e}"), point, ffi::point(groups, day_first, frame, g, e))?;
        tally.stretches[stretch.number as usize] += 1;
        tally.points[point.number as usize] += 1;
    }
    Ok(record.number)
}

/// The CRC of 0 to 300 random bytes is the model's.
pub fn crcs_agree(random: &mut Random, tally: &mut Tally) -> Result<(), String> {
    let length = if random.chance(50) { 0 } else { random.below(301) as usize };
    let bytes = random.bytes(length);
    same("CRC", crc16(&bytes), ffi::crc(&bytes)).map_err(|text| format!("{text}\n{bytes:?}"))?;
    tally.crcs[usize::from(length > 0) + usize::from(length > 256)] += 1;
    Ok(())
}
