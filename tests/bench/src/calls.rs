//! Calls of one gateway with ten files of records of up to 250 bytes and 32 alarm slots. The library is handed the same saved state
//! by value each time, the expert's calls one state by reference, so that every call does the same work: it judges the whole state,
//! both sets of definitions, triggers, slots and pointers, then does what it is for.

use std::hint::black_box;

use ::gateway::ffi::{self, Answer, Slot, State};
use ::gateway::states::ZEROS;
use model::layout::FIRMWARE_74;
use model::machine::least_archive;
use model::points::groups_from_first_place;
use model::record::AUGUST;

use crate::expert::gateway;
use crate::texts::half_clean_table;
use crate::{best, report, Times};

pub const CALLS: u32 = 20_000;
const RECORDS_A_FILE: u16 = 10;
/// Ten files of 250-byte records, and the alarm file.
pub const ARCHIVE: usize = 10 * 250 * RECORDS_A_FILE as usize + least_archive(FIRMWARE_74);

/// The triggers of files 1 to 10 are the first ten Booleans, and the points of slots 32 to 1 are the last 32.
const TRIGGERS: u128 = 0x3FF;
const SLOT_POINTS: u128 = 0xFFFF_FFFF << 96;
/// Those whose slots log any change, every other one.
const CLEARING: u128 = 0xAAAA_AAAA << 96;

/// The group that a file's records are of: 244 bytes of floats, or 240 of texts.
pub const FLOATS: (u16, u16) = (7101, 61);
const TEXTS: (u16, u16) = (4001, 30);

/// A running gateway whose files have this group, and that remembers Booleans which are all off.
pub fn watching(group: (u16, u16)) -> State {
    let mut s = ZEROS;
    s.site.archive_length = ARCHIVE as u32;
    s.site.unit = 1;
    s.site.firmware = FIRMWARE_74;
    s.flags.running = true;
    s.seen.scanned = true;
    for file in 0..10 {
        s.files.layout.groups[32 * file..32 * file + 32].copy_from_slice(&groups_from_first_place(&[group]));
        s.files.layout.limits[file] = RECORDS_A_FILE;
        s.settings.triggers[file] = 1801 + file as u16;
    }
    s.settings.draft = s.files.layout;
    for (i, slot) in s.settings.slots.iter_mut().enumerate() {
        *slot = Slot { point: 1928 - i as u16, transducer: 7101 + i as u16, kind: i as u16 % 4 };
    }
    s
}

fn table(booleans: u128) -> Vec<u8> {
    let mut table = half_clean_table();
    table[..16].copy_from_slice(&booleans.to_le_bytes());
    table
}

/// The library and the expert do the same, and capture and log as many records as the row says.
fn agree(s: State, table: &mut [u8], files: usize, alarms: u16) {
    let (mut archive, mut plain_archive) = (vec![0; ARCHIVE], vec![0; ARCHIVE]);
    let proved = ffi::scan(s, &mut archive, table, AUGUST.into());
    let mut after = s;
    let number = gateway::scan(&mut after, &mut plain_archive, table, &AUGUST.into());
    assert_eq!((proved.number, number), (0, 0));
    assert_eq!(proved.state, after, "the two scans left different states");
    assert!(archive == plain_archive, "the two scans wrote different records");
    assert_eq!(after.files.pointers[..10].iter().filter(|&&pointer| pointer == 1).count(), files);
    assert_eq!(after.files.pointers[10], alarms);
}

fn scan(name: &str, group: (u16, u16), [before, now]: [u128; 2], files: usize, alarms: u16) {
    let (mut s, mut table) = (watching(group), table(now));
    s.seen.booleans = before.to_le_bytes();
    agree(s, &mut table, files, alarms);
    let mut archive = vec![0; ARCHIVE];
    let proved = best(|| {
        for _ in 0..CALLS {
            black_box(ffi::scan(black_box(s), black_box(&mut archive), &mut table, AUGUST.into()));
        }
    });
    let mut kept = s;
    let plain = best(|| {
        for _ in 0..CALLS {
            // what a scan changes is put back, so that the next one does the same work
            (kept.seen.booleans, kept.files.pointers) = (s.seen.booleans, s.files.pointers);
            black_box(gateway::scan(black_box(&mut kept), black_box(&mut archive), black_box(&table), &AUGUST.into()));
        }
    });
    report(name, CALLS, proved, plain);
}

fn lock() -> Times {
    let mut s = watching(FLOATS);
    let mut archive = vec![0; ARCHIVE];
    let proved = best(|| {
        for _ in 0..CALLS {
            black_box(ffi::lock(black_box(s), black_box(&mut archive)));
        }
    });
    let plain = best(|| {
        for _ in 0..CALLS {
            black_box(gateway::lock(black_box(&mut s), black_box(&archive)));
        }
    });
    Times { proved, plain }
}

/// A call by value that only hands the state back.
#[inline(never)]
extern "C" fn hand_back(s: State) -> Answer {
    Answer { number: 0, carried: 0, state: s }
}

/// What the state's way in and out costs every call of the library, and none of the expert's.
fn by_value() {
    let s = watching(FLOATS);
    let time = best(|| {
        for _ in 0..CALLS {
            black_box(hand_back(black_box(s)));
        }
    });
    println!("of which the state by value, in and out: {:.1} ns", time.as_secs_f64() * 1e9 / f64::from(CALLS));
}

/// Answers what the Lock took, most of which is judging the state.
pub fn calls() -> Times {
    let lock = lock();
    lock.report("a Lock", CALLS);
    by_value();
    scan("a scan with no change", FLOATS, [0, 0], 0, 0);
    scan("a scan that captures ten files of 250 bytes", FLOATS, [0, TRIGGERS], 10, 0);
    scan("a scan that captures ten files of 30 texts of 8", TEXTS, [0, TRIGGERS], 10, 0);
    scan("a scan that logs 32 alarms", FLOATS, [0, SLOT_POINTS], 0, 32);
    scan("a scan that clears 16 alarms and raises 16", FLOATS, [CLEARING, SLOT_POINTS ^ CLEARING], 0, 32);
    lock
}
