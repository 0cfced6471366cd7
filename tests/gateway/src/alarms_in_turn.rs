//! Scans in turn that log alarms, cleared before raised: every change of points at the edges of bytes and words, with slots arranged in
//! several ways; and every number of cleared and of raised ones, from every pointer near the end of the alarm file on. All of it is
//! tried with either firmware, by which the file ends after 150 records or after 500.

use gateway::ffi::Seen;
use gateway::tables::Table;
use model::layout::{alarm_records, ALARM_FILE, FIRMWARES};
use model::machine::{least_archive, BOOLEAN_BYTES, SLOTS};
use model::points::STAMP_BYTES;
use model::record::{Stamp, AUGUST};
use reader::random::Random;

use crate::calls::Call;
use crate::fresh::Fresh;
use crate::lists::{List, NEVER};
use crate::scans::bit;
use crate::tally::{unseen, Tally};

const UNIT: u32 = 17;
/// File 1, of bare stamps, lies before the alarm file, and a few bytes behind it.
const STAMPS: u16 = 2;
const BEHIND: usize = 50;

/// The first and the last point, and those on both sides of a byte's end and of a 64-bit word's.
const EDGES: [u16; 6] = [1801, 1808, 1809, 1864, 1865, 1928];

/// How slots are arranged: point and type of each, from slot 0 on. One that is off has a type too.
type Arrangement = fn(usize) -> (u16, usize);

/// Slots on the edges; past the last edge they are off.
const ARRANGEMENTS: [(&str, Arrangement); 8] = [
    ("the first slots, one for each point", |slot| (edge(slot), 0)),
    ("the last slots, one for each point", |slot| (edge((slot + EDGES.len()) % SLOTS), 2)),
    ("points falling, types in turn, the slots between them off", |slot| match slot % 4 {
        1 => (edge(7 - slot / 4), slot / 4 % 4),
        other => (0, other),
    }),
    ("every type of a point, points rising", |slot| (edge(slot / 4), slot % 4)),
    ("every point of a type, points and types falling", |slot| (edge(7 - slot % 8), 3 - slot / 8)),
    ("all slots, points rising, types in turn", |slot| (edge(slot * EDGES.len() / SLOTS), slot % 4)),
    ("all slots, points and types mixed", |slot| (edge((slot + slot / 6) % 6), (slot + slot / 4) % 4)),
    ("all slots, points falling again and again, types that log falls", |slot| (edge(5 - slot % 6), 2 * (slot / 6 % 2))),
];

/// A slot for each of 32 points, falling, that logs every change.
const SPREAD: Arrangement = |slot| (spread(SLOTS - 1 - slot), 2 * (slot % 2));

fn edge(place: usize) -> u16 {
    EDGES.get(place).copied().unwrap_or(0)
}

/// 32 points from the first to the last.
fn spread(place: usize) -> u16 {
    1801 + (127 * place / (SLOTS - 1)) as u16
}

/// A running gateway with these slots, each with a transducer of its own.
fn prepared(random: &mut Random, own: &mut Tally, firmware: u16, arrangement: Arrangement) -> Result<List, String> {
    let archive = usize::from(STAMPS) * STAMP_BYTES + least_archive(firmware) + BEHIND;
    let mut list = List::fresh(random, own, &Fresh::of(firmware, UNIT, archive))?;
    let mut calls = vec![
        Call::Unlock,
        Call::Define { file: 1, groups: [0; 32], limit: STAMPS },
        Call::Trigger { file: 1, point: EDGES[1].into() },
    ];
    for slot in 0..SLOTS {
        let (point, kind) = arrangement(slot);
        let [number, kind, transducer] = [slot + 1, kind, 7101 + slot].map(|number| number as u32);
        calls.push(Call::Alarm { slot: number, point: point.into(), kind, transducer });
    }
    calls.push(Call::Start);
    for call in &calls {
        list.call(random, own, call, NEVER)?;
    }
    Ok(list)
}

/// The scan of that number, with these Booleans; in all else a scan differs from the one before.
fn scan(number: usize, booleans: u128) -> Call {
    let Table(mut table) = if number.is_multiple_of(2) { Table::patterned() } else { Table::inverted() };
    table[..BOOLEAN_BYTES].copy_from_slice(&booleans.to_le_bytes());
    let stamp = Stamp { minute: (number / 60 % 60) as u8, second: (number % 60) as u8, ..AUGUST };
    Call::Scan { table: Table(table), stamp }
}

/// The edges that a number's bits choose, as a word of Booleans.
fn chosen(choice: usize) -> u128 {
    (0..EDGES.len()).filter(|place| choice >> place & 1 == 1).map(|place| bit(EDGES[place])).sum()
}

/// Scans from each choice of edges that are on to each. In every other scan all other points, which have no slot, rise or fall.
fn every_change(random: &mut Random, own: &mut Tally, firmware: u16, arrangement: Arrangement) -> Result<usize, String> {
    const CHOICES: usize = 1 << EDGES.len();
    let mut list = prepared(random, own, firmware, arrangement)?;
    let mut scans = 0;
    for (before, now) in (0..CHOICES).flat_map(|before| (0..CHOICES).map(move |now| (before, now))) {
        for choice in [before, now] {
            scans += 1;
            let others = if scans / 2 % 2 == 1 { !chosen(CHOICES - 1) } else { 0 };
            let call = scan(scans, chosen(choice) | others);
            list.call(random, own, &call, NEVER).map_err(|text| format!("scan {scans}: {text}"))?;
        }
    }
    Ok(scans)
}

/// The Booleans before and after so many of the 32 points fall and so many rise, evenly mixed. Of the rest every other one stays on.
fn mixed(cleared: usize, raised: usize) -> (u128, u128) {
    let changed = cleared + raised;
    let (mut before, mut now) = (0, 0);
    for place in 0..SLOTS {
        let point = bit(spread(place));
        let falls_below = |place: usize| place * cleared / changed;
        if place >= changed {
            let stays = if place % 2 == 0 { point } else { 0 };
            (before, now) = (before | stays, now | stays);
        } else if falls_below(place + 1) > falls_below(place) {
            before |= point;
        } else {
            now |= point;
        }
    }
    (before, now)
}

/// Scans that clear and raise up to 32 in all, from each pointer near the end of the file: they stay before it or go across it.
fn near_the_end(random: &mut Random, own: &mut Tally, firmware: u16) -> Result<usize, String> {
    let mut state = prepared(random, own, firmware, SPREAD)?.state;
    let (mut scans, depth) = (0, alarm_records(firmware));
    for (cleared, raised) in (0..=SLOTS).flat_map(|cleared| (0..=SLOTS - cleared).map(move |raised| (cleared, raised))) {
        let (before, now) = mixed(cleared, raised);
        state.seen = Seen { scanned: true, booleans: before.to_le_bytes() };
        for pointer in depth - 40..=depth {
            state.files.pointers[ALARM_FILE - 1] = pointer;
            scans += 1;
            let told = |text| format!("{cleared} cleared and {raised} raised after record {pointer}: {text}");
            List::standing(random, state).call(random, own, &scan(scans, now), NEVER).map_err(told)?;
        }
    }
    Ok(scans)
}

/// All that is tried with one firmware. Tells how many scans there were.
fn scans_in_turn(random: &mut Random, own: &mut Tally, firmware: u16) -> Result<usize, String> {
    let mut scans = near_the_end(random, own, firmware)?;
    for (name, arrangement) in ARRANGEMENTS {
        scans += every_change(random, own, firmware, arrangement).map_err(|text| format!("{name}, {text}"))?;
    }
    Ok(scans)
}

/// The scans count in a tally of their own: that the random lists see everything must not rest on them. They too see all that the
/// alarms of one scan can show.
pub fn alarms_in_turn(random: &mut Random, tally: &mut Tally) -> Result<(), String> {
    let mut own = Tally::default();
    for firmware in FIRMWARES {
        let told = |text| format!("firmware {firmware}, {text}");
        tally.alarm_scans_in_turn += scans_in_turn(random, &mut own, firmware).map_err(told)?;
    }
    let unseen = unseen(own.alarms.seen());
    if !unseen.is_empty() {
        return Err(format!("in turn there were no {}", unseen.join("; no ")));
    }
    Ok(())
}
