//! A file of 65,535 records, filled from its first record to its last and then over its first, with polls on the way.

use gateway::rows::{requested_register, RECORD_ROWS};
use gateway::states::any_firmware;
use gateway::tables::Table;
use model::machine::{least_archive, BOOLEAN_BYTES};
use model::points::{STAMP_BYTES, TABLE_BYTES};
use reader::random::{stamp, Random};

use crate::calls::Call;
use crate::fresh::Fresh;
use crate::lists::{List, NEVER};
use crate::scans::bit;
use crate::tally::Tally;

const UNIT: u32 = 17;
const DEPTH: u16 = 65_535;
const TRIGGER: u16 = 1815;
/// Captures over the file's first records, after the last.
const OVER: usize = 40;

/// Whether polls are made and all bytes compared after so many captures: now and then, about the ends, and where a number of 15
/// bits would go over.
fn is_looked_at(captures: usize) -> bool {
    let about = |place: usize| captures.abs_diff(place) <= 1;
    captures.is_multiple_of(9_000) || about(1) || about(32_767) || captures + 2 >= DEPTH.into()
}

fn scan(random: &mut Random, is_on: bool) -> Call {
    let mut table = vec![0; TABLE_BYTES];
    if is_on {
        table[..BOOLEAN_BYTES].copy_from_slice(&bit(TRIGGER).to_le_bytes());
    }
    Call::Scan { table: Table(table), stamp: stamp(random) }
}

/// A 06 and polls of the file's registers, and of records about its ends, its pointer and the largest number of 15 bits.
fn look(random: &mut Random, tally: &mut Tally, list: &mut List, file: u16) -> Result<(), String> {
    list.end()?;
    let (unit, pointer) = (list.state.site.unit, list.state.files.pointers[usize::from(file) - 1]);
    let requested = requested_register(file);
    for k in [1, 2, pointer, pointer.saturating_add(1), 32_767, 32_768, DEPTH - 1, DEPTH] {
        let mut polls = vec![Call::asking(unit, 6, requested, k), Call::asking(unit, 3, requested - 2, 3)];
        polls.extend(RECORD_ROWS.map(|(before, _)| Call::asking(unit, 3, before + file, k)));
        for poll in polls {
            list.call(random, tally, &poll, NEVER)?;
        }
    }
    Ok(())
}

pub fn deep_run(random: &mut Random, tally: &mut Tally) -> Result<(), String> {
    let (file, firmware) = (1 + random.below(10) as u16, any_firmware(random));
    let archive = STAMP_BYTES * usize::from(DEPTH) + least_archive(firmware);
    let mut list = List::fresh(random, tally, &Fresh::of(firmware, UNIT, archive))?;
    let laid_out = [
        Call::Unlock,
        Call::Define { file: file.into(), groups: [0; 32], limit: DEPTH },
        Call::Trigger { file: file.into(), point: TRIGGER.into() },
        Call::Start,
    ];
    for call in &laid_out {
        list.call(random, tally, call, NEVER)?;
    }
    for captures in 1..=usize::from(DEPTH) + OVER {
        for is_on in [false, true] {
            list.scan_by_answer(&scan(random, is_on)).map_err(|text| format!("capture {captures}: {text}"))?;
        }
        if is_looked_at(captures) {
            look(random, tally, &mut list, file).map_err(|text| format!("after {captures} captures: {text}"))?;
        }
    }
    list.end()
}
