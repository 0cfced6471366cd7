//! Long runs: thousands of scans and polls, with stops and starts, moved triggers and refused scans among them, on files that go
//! round many times.

use gateway::ffi::{Site, State};
use gateway::states::{any_firmware, boolean_or_none, float_or_none, good_groups, standing};
use model::layout::USER_FILES;
use model::machine::{least_archive, SLOTS};
use model::points::record_size;
use reader::random::Random;

use crate::calls::Call;
use crate::fresh::Fresh;
use crate::lists::{List, NEVER};
use crate::sights::{ALL_TYPES, LOG_FALLS};
use crate::tally::Tally;

/// The calls of a long run, but for those that lay out its files.
pub const CALLS: usize = 12_000;
/// The most bytes that files 1 to 10 are given.
const MOST_FOR_FILES: u64 = 12_000;
/// The calls between two layouts, on the average, in every other run; the rest keep theirs, so that small files go round hundreds
/// of times.
const CALLS_A_LAYOUT: u64 = 1_600;

/// A number of records that has room: mostly few, now and then all that there is room for, or none.
fn few_records(random: &mut Random, room: u64) -> u64 {
    let n = match random.below(20) {
        0..=1 => 0,
        2..=6 => 1,
        7..=9 => 2,
        10..=18 => 1 + random.below(9),
        _ => room,
    };
    n.min(room)
}

/// The bytes that the archive has for files 1 to 10.
fn for_files(site: &Site) -> u64 {
    u64::from(site.archive_length) - least_archive(site.firmware) as u64
}

/// The ten files defined, in what the archive has for them.
fn definitions(random: &mut Random, site: &Site) -> Vec<Call> {
    let mut left = for_files(site);
    let mut calls = Vec::new();
    for file in 1..=USER_FILES as u32 {
        let groups = good_groups(random);
        let size = record_size(&groups) as u64;
        let limit = few_records(random, (left / size).min(65_535));
        left -= limit * size;
        calls.push(Call::Define { file, groups, limit: limit as u16 });
    }
    calls
}

/// A slot on a point, of one of these types and any transducer.
fn alarm(random: &mut Random, slot: u32, point: u16, types: &[u16]) -> Call {
    let kind = types[random.below(types.len() as u64) as usize];
    Call::Alarm { slot, point: point.into(), kind: kind.into(), transducer: float_or_none(random).into() }
}

/// Triggers and alarm slots on a handful of points, so that several share one. One time in three all slots are on and log falls too,
/// so that one scan may have 32 alarms of both sorts.
fn settings(random: &mut Random) -> Vec<Call> {
    let points: [u16; 6] = std::array::from_fn(|_| boolean_or_none(random));
    let one_of = |random: &mut Random| points[random.below(6) as usize];
    let mut calls = Vec::new();
    for file in 1..=USER_FILES as u32 {
        calls.push(Call::Trigger { file, point: one_of(random).into() });
    }
    let (least, types): (u16, &[u16]) = if random.chance(3) { (1801, &LOG_FALLS) } else { (0, &ALL_TYPES) };
    for slot in 1..=SLOTS as u32 {
        let point = if random.chance(3) { boolean_or_none(random) } else { one_of(random) };
        calls.push(alarm(random, slot, point.max(least), types));
    }
    calls
}

/// Files laid out anew, with triggers and slots.
fn new_layout(random: &mut Random, site: &Site) -> Vec<Call> {
    let mut calls = vec![Call::Stop, Call::Unlock];
    calls.extend(definitions(random, site));
    calls.extend(settings(random));
    calls.push(Call::Start);
    calls
}

/// A file's trigger moved to another file's, or to any Boolean.
fn moved_trigger(random: &mut Random, s: &State) -> Call {
    let file = 1 + random.below(10) as u32;
    let point = if random.chance(2) { s.settings.triggers[random.below(10) as usize] } else { boolean_or_none(random) };
    Call::Trigger { file, point: point.into() }
}

fn changed_slot(random: &mut Random) -> Call {
    let (slot, point) = (1 + random.below(32) as u32, boolean_or_none(random));
    alarm(random, slot, point, &ALL_TYPES)
}

/// Mostly a scan or a poll. A gateway that was stopped is started again after about ten scans.
fn next_call(random: &mut Random, s: &State) -> Call {
    match random.below(80) {
        0 => moved_trigger(random, s),
        1 => changed_slot(random),
        2 => Call::Stop,
        3..=6 if !s.flags.running => Call::Start,
        7 => Call::Lock,
        8..=43 => Call::scan(random, s),
        _ => Call::poll(random, s),
    }
}

/// A state as small as those that `definitions` makes.
fn small_standing(random: &mut Random) -> State {
    loop {
        let state = standing(random);
        if for_files(&state.site) <= MOST_FOR_FILES {
            return state;
        }
    }
}

/// A run after Fresh, or one in four on a state that is not Foreign over random bytes or old records.
pub fn long_run(random: &mut Random, tally: &mut Tally) -> Result<(), String> {
    let (mut list, mut ahead) = if random.chance(4) {
        let state = small_standing(random);
        (List::any_standing(random, state), Vec::new())
    } else {
        let firmware = any_firmware(random);
        let archive = least_archive(firmware) + random.below(MOST_FOR_FILES + 1) as usize;
        let unit = 1 + random.below(247) as u32;
        let list = List::fresh(random, tally, &Fresh::of(firmware, unit, archive))?;
        let laid_out = new_layout(random, &list.state.site);
        (list, laid_out)
    };
    let calls_a_layout = if random.chance(2) { CALLS_A_LAYOUT } else { NEVER };
    for number in 1..=CALLS {
        if random.chance(calls_a_layout) {
            ahead = new_layout(random, &list.state.site);
        }
        for call in ahead.drain(..) {
            list.call(random, tally, &call, NEVER).map_err(|text| format!("laying out before call {number}: {text}"))?;
        }
        if random.chance(40) {
            list.try_damaged(random, tally).map_err(|text| format!("before call {number}: {text}"))?;
        }
        let call = next_call(random, &list.state);
        list.call(random, tally, &call, 64).map_err(|text| format!("call {number}: {text}"))?;
    }
    list.end()
}
