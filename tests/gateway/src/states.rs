//! States: the library's as the model's plain fields and back, random ones that are not Foreign, and damaged ones.

use model::foreign::{definitions, RawState};
use model::layout::{
    alarm_records, layout_bytes, record_bytes, Definition, Definitions, ALARM_FILE, ALARM_RECORD_BYTES, FIRMWARES, FIRMWARE_73,
    FIRMWARE_74, USER_FILES,
};
use model::machine::{least_archive, MOST_ARCHIVE};
use model::points::{groups_from_first_place, judge_definition};
use reader::random::{groups, Random};

use crate::ffi::{self, Files, Flags, Line, Seen, Settings, Site, Slot, State};
use crate::rows::limit_of;

const IDLE: ffi::Definitions = ffi::Definitions { groups: [0; 320], limits: [0; 10] };

/// The state of zeros that a refused Fresh hands back.
pub const ZEROS: State = State {
    site: Site { archive_length: 0, unit: 0, day_first: false, firmware: 0 },
    flags: Flags { running: false, unlocked: false, pending: false },
    seen: Seen { scanned: false, booleans: [0; 16] },
    settings: Settings { draft: IDLE, triggers: [0; 10], slots: [Slot { point: 0, transducer: 0, kind: 0 }; 32] },
    files: Files { layout: IDLE, pointers: [0; 11] },
    line: Line { requested: [0; 11] },
};

pub fn raw_of(s: &State) -> RawState {
    RawState {
        day_first: s.site.day_first,
        unit: s.site.unit,
        firmware: s.site.firmware,
        archive_len: s.site.archive_length,
        running: s.flags.running,
        unlocked: s.flags.unlocked,
        pending: s.flags.pending,
        draft_groups: s.settings.draft.groups,
        draft_n: s.settings.draft.limits,
        groups: s.files.layout.groups,
        n: s.files.layout.limits,
        triggers: s.settings.triggers,
        slot_point: s.settings.slots.map(|slot| slot.point),
        slot_kind: s.settings.slots.map(|slot| slot.kind),
        slot_float: s.settings.slots.map(|slot| slot.transducer),
        pointers: s.files.pointers,
        requested: s.line.requested,
    }
}

/// The Booleans of the latest accepted scan, if any.
pub fn remembered_of(s: &State) -> Option<[u8; 16]> {
    s.seen.scanned.then_some(s.seen.booleans)
}

/// The plain fields as the library's state. What means nothing stays as given: the bytes of `booleans` before a scan.
pub fn state_of(raw: &RawState, remembered: Option<[u8; 16]>, given: &State) -> State {
    let mut slots = ZEROS.settings.slots;
    for (i, slot) in slots.iter_mut().enumerate() {
        *slot = Slot { point: raw.slot_point[i], transducer: raw.slot_float[i], kind: raw.slot_kind[i] };
    }
    let draft = ffi::Definitions { groups: raw.draft_groups, limits: raw.draft_n };
    let layout = ffi::Definitions { groups: raw.groups, limits: raw.n };
    State {
        site: Site { archive_length: raw.archive_len, unit: raw.unit, day_first: raw.day_first, firmware: raw.firmware },
        flags: Flags { running: raw.running, unlocked: raw.unlocked, pending: raw.pending },
        seen: Seen { scanned: remembered.is_some(), booleans: remembered.unwrap_or(given.seen.booleans) },
        settings: Settings { draft, triggers: raw.triggers, slots },
        files: Files { layout, pointers: raw.pointers },
        line: Line { requested: raw.requested },
    }
}

/// The fields in which two states differ, with the wanted and the given content.
pub fn differences(wanted: &State, got: &State) -> String {
    let mut text = String::new();
    macro_rules! field {
        ($($name:ident).+) => {
            if wanted.$($name).+ != got.$($name).+ {
                text += &format!("\n  {}: wanted {:?}, got {:?}", stringify!($($name).+), wanted.$($name).+, got.$($name).+);
            }
        };
    }
    field!(site);
    field!(flags);
    field!(seen);
    field!(settings.draft.groups);
    field!(settings.draft.limits);
    field!(settings.triggers);
    field!(settings.slots);
    field!(files.layout.groups);
    field!(files.layout.limits);
    field!(files.pointers);
    field!(line);
    text
}

/// The draft, or the layout, as ten definitions.
pub fn definitions_of(files: &ffi::Definitions) -> Definitions {
    definitions(&files.groups, &files.limits)
}

/// The bytes of the layout, alarm file included.
pub fn laid_out_bytes(s: &State) -> u64 {
    layout_bytes(&definitions_of(&s.files.layout), s.site.firmware)
}

fn set_groups(files: &mut ffi::Definitions, file: usize, numbers: &[u16; 32]) {
    files.groups[32 * file..32 * file + 32].copy_from_slice(numbers);
}

/// One of those in use.
pub fn any_firmware(random: &mut Random) -> u16 {
    FIRMWARES[random.below(2) as usize]
}

/// Mostly up to 2,000 bytes more than a gateway with this firmware needs, or one with 74 does, now and then a large one.
pub fn archive_length(random: &mut Random, firmware: u16) -> usize {
    let least = least_archive(if random.chance(4) { FIRMWARE_74 } else { firmware });
    match random.below(40) {
        0 => least,
        1 => MOST_ARCHIVE,
        2 => least + random.below((MOST_ARCHIVE - least) as u64 + 1) as usize,
        _ => least + random.below(2_001) as usize,
    }
}

/// 0, or a point of the 128 from `first` on; often one of the ends.
fn one_of_128_or_none(random: &mut Random, first: u16) -> u16 {
    match random.below(6) {
        0 => 0,
        1 => first,
        2 => first + 127,
        _ => first + random.below(128) as u16,
    }
}

pub fn boolean_or_none(random: &mut Random) -> u16 {
    one_of_128_or_none(random, 1801)
}

pub fn float_or_none(random: &mut Random) -> u16 {
    one_of_128_or_none(random, 7101)
}

/// A point that is in another row, or in none; often one past an end.
pub fn other_point(random: &mut Random, not: impl Fn(u16) -> bool) -> u16 {
    const EDGES: [u16; 14] = [1, 1800, 1801, 1929, 3001, 4001, 5101, 7100, 7101, 7229, 14001, 14017, 65535, 257];
    loop {
        let point = if random.chance(3) { random.next() as u16 } else { EDGES[random.below(14) as usize] };
        if not(point) {
            return point;
        }
    }
}

pub fn no_boolean(random: &mut Random) -> u16 {
    other_point(random, |point| point != 0 && !(1801..=1928).contains(&point))
}

pub fn no_float(random: &mut Random) -> u16 {
    other_point(random, |point| point != 0 && !(7101..=7228).contains(&point))
}

/// Good groups: random ones, the longest record, or none at all.
pub fn good_groups(random: &mut Random) -> [u16; 32] {
    match random.below(8) {
        0 => [0; 32],
        1 => groups_from_first_place(&[(7101, 61)]),
        _ => loop {
            let numbers = groups(random);
            if judge_definition(&numbers).is_ok() {
                return numbers;
            }
        },
    }
}

/// Groups that are mostly good, and the edges of the marked cases.
pub fn any_groups(random: &mut Random) -> [u16; 32] {
    match random.below(10) {
        0 => groups_from_first_place(&[(7101, 61), (3001, 1)]),
        1 => groups_from_first_place(&[(7228, 2)]),
        2 => with_a_bad_group(random),
        3 => groups_from_first_place(&[(7228, 1)]),
        4 => [0; 32],
        _ => groups(random),
    }
}

/// Good groups with one or two bad ones among them.
fn with_a_bad_group(random: &mut Random) -> [u16; 32] {
    const BAD: [(u16, u16); 12] = [
        (0, 1),
        (1801, 0),
        (1801, 129),
        (1928, 2),
        (1800, 2),
        (3001, 65),
        (4032, 2),
        (5100, 1),
        (7101, 129),
        (14016, 2),
        (65535, 65535),
        (3001, 65535),
    ];
    let mut numbers = good_groups(random);
    for _ in 0..1 + random.below(2) {
        let place = random.below(16) as usize;
        let (first, points) = BAD[random.below(12) as usize];
        numbers[2 * place] = first;
        numbers[2 * place + 1] = points;
    }
    numbers
}

fn too_long(random: &mut Random) -> [u16; 32] {
    match random.below(3) {
        0 => groups_from_first_place(&[(7101, 61), (1801, 1)]),
        1 => groups_from_first_place(&[(14001, 15), (4001, 1)]),
        _ => groups_from_first_place(&[(7101, 128), (5101, 64)]),
    }
}

/// A number of records that fits what is left of the archive, exactly or with some to spare, or one record too many.
pub fn limit_near(random: &mut Random, files: &Definitions, file: usize, numbers: &[u16; 32], site: &Site) -> u16 {
    let mut others = *files;
    others[file] = Definition::IDLE;
    others[file].groups = *numbers;
    let left = u64::from(site.archive_length).saturating_sub(layout_bytes(&others, site.firmware));
    let most = left / record_bytes(&others, file + 1).max(6) as u64;
    let limit = match random.below(12) {
        0..=3 => random.below(3),
        4..=6 => random.below(most + 1),
        7..=8 => most,
        9 => most + 1,
        10 => 0,
        _ => random.below(65_536),
    };
    limit.min(65_535) as u16
}

/// A file laid out where there is room, drafted, and given a trigger.
fn any_file(random: &mut Random, s: &mut State, file: usize) {
    if random.chance(2) {
        let numbers = good_groups(random);
        set_groups(&mut s.files.layout, file, &numbers);
        let laid_out = definitions_of(&s.files.layout);
        s.files.layout.limits[file] = limit_near(random, &laid_out, file, &numbers, &s.site);
        if laid_out_bytes(s) > s.site.archive_length.into() {
            s.files.layout.limits[file] = 0;
        }
    }
    if random.chance(3) {
        set_groups(&mut s.settings.draft, file, &good_groups(random));
        s.settings.draft.limits[file] = if random.chance(8) { random.next() as u16 } else { random.below(3) as u16 };
    }
    s.settings.triggers[file] = boolean_or_none(random);
}

/// A state that is not Foreign, though no list of calls may leave it: every field as free as row 2 lets it be.
pub fn standing(random: &mut Random) -> State {
    let firmware = any_firmware(random);
    let archive = archive_length(random, firmware);
    let mut s = ZEROS;
    let unit = 1 + random.below(247) as u8;
    s.site = Site { archive_length: archive as u32, unit, day_first: random.chance(2), firmware };
    match random.below(3) {
        0 => s.flags.running = true,
        1 => s.flags.unlocked = true,
        _ => {}
    }
    s.flags.pending = random.chance(2);
    s.seen.scanned = random.chance(2);
    s.seen.booleans.copy_from_slice(&random.bytes(16));
    for file in 0..USER_FILES {
        any_file(random, &mut s, file);
    }
    if random.chance(3) {
        s.settings.draft = s.files.layout;
    }
    for slot in &mut s.settings.slots {
        *slot = Slot { point: boolean_or_none(random), transducer: float_or_none(random), kind: random.below(4) as u16 };
    }
    for file in 0..ALARM_FILE {
        let n = u64::from(limit_of(&s, file + 1));
        s.files.pointers[file] = if random.chance(4) { n as u16 } else { random.below(n + 1) as u16 };
        s.line.requested[file] = if random.chance(4) { n as u16 } else { random.below(n + 1) as u16 };
    }
    if random.chance(30) {
        deepen(random, &mut s);
    }
    s
}

/// One file of as many records as there can be, about to go round; the others idle.
fn deepen(random: &mut Random, s: &mut State) {
    let file = random.below(10) as usize;
    s.files.layout = ZEROS.files.layout;
    s.files.layout.limits[file] = 65_535;
    s.site.archive_length = laid_out_bytes(s) as u32 + random.below(20) as u32;
    s.files.pointers[..USER_FILES].fill(0);
    s.line.requested[..USER_FILES].fill(0);
    s.files.pointers[file] = 65_535 - random.below(3) as u16;
    s.settings.triggers[file] = 1801 + random.below(128) as u16;
    (s.flags.running, s.flags.unlocked, s.flags.pending, s.seen.scanned) = (true, false, false, true);
}

/// The clauses of Foreign, each with a name for the tally.
pub const CLAUSES: [&str; 19] = [
    "running and unlocked",
    "draft: bad group",
    "draft: long record",
    "layout: bad group",
    "layout: long record",
    "trigger",
    "slot point",
    "slot type",
    "slot transducer",
    "layout over memory by its n",
    "layout over memory by its length",
    "pointer over n",
    "requested over n",
    "unit",
    "layout one record more",
    "firmware",
    "alarm pointer over 150 and not over 500 with firmware 73",
    "requested alarm over 150 and not over 500 with firmware 73",
    "layout over memory with firmware 74 and not with 73",
];

/// What the alarm file takes more with firmware 74 than with 73.
const MORE_WITH_74: usize = (alarm_records(FIRMWARE_74) - alarm_records(FIRMWARE_73)) as usize * ALARM_RECORD_BYTES;

/// A number of a record that the alarm file has with firmware 74 only.
fn with_74_only(random: &mut Random) -> u16 {
    let [least, most] = FIRMWARES.map(alarm_records);
    least + 1 + random.below((most - least).into()) as u16
}

/// Damages one thing of a state, by the clause with that index. Some are on the allowed side of the edge: the model tells.
pub fn damage(random: &mut Random, s: &mut State, clause: usize) {
    let file = random.below(10) as usize;
    let slot = random.below(32) as usize;
    match clause {
        0 => (s.flags.running, s.flags.unlocked) = (true, true),
        1 => set_groups(&mut s.settings.draft, file, &with_a_bad_group(random)),
        2 => set_groups(&mut s.settings.draft, file, &too_long(random)),
        3 => set_groups(&mut s.files.layout, file, &with_a_bad_group(random)),
        4 => set_groups(&mut s.files.layout, file, &too_long(random)),
        5 => s.settings.triggers[file] = no_boolean(random),
        6 => s.settings.slots[slot].point = no_boolean(random),
        7 => s.settings.slots[slot].kind = [4, 5, 255, 256, 259, 65_535][random.below(6) as usize],
        8 => s.settings.slots[slot].transducer = no_float(random),
        9 => s.files.layout.limits[file] = s.files.layout.limits[file].max(65_535 - random.below(3) as u16),
        10 => {
            let bytes = laid_out_bytes(s) as u32;
            s.site.archive_length = match random.below(4) {
                0 => bytes,
                1 => random.below(u64::from(bytes)) as u32,
                _ => bytes - 1,
            };
        }
        11 | 12 => {
            let file = if random.chance(4) { 10 } else { file };
            let over = limit_of(s, file + 1).saturating_add(1 + if random.chance(3) { random.below(65_535) as u16 } else { 0 });
            let numbers = if clause == 11 { &mut s.files.pointers } else { &mut s.line.requested };
            numbers[file] = over;
        }
        13 => s.site.unit = [0, 248, 249, 255, 247, 1][random.below(6) as usize],
        14 => {
            let left = u64::from(s.site.archive_length).saturating_sub(laid_out_bytes(s));
            let size = record_bytes(&definitions_of(&s.files.layout), file + 1);
            let more = left / size.max(6) as u64 + u64::from(!random.chance(5));
            s.files.layout.limits[file] = (u64::from(s.files.layout.limits[file]) + more).min(65_535) as u16;
        }
        _ => damage_firmware(random, s, clause),
    }
}

/// Damages the firmware, or what is good with the other one only, by the clause with that index.
fn damage_firmware(random: &mut Random, s: &mut State, clause: usize) {
    match clause {
        15 => s.site.firmware = [0, 72, 75, 329, 330, 65_535, FIRMWARE_73, FIRMWARE_74][random.below(8) as usize],
        16 | 17 => {
            s.site.firmware = FIRMWARE_73;
            let (pointer, requested) = (&mut s.files.pointers[ALARM_FILE - 1], &mut s.line.requested[ALARM_FILE - 1]);
            let (over, other) = if clause == 16 { (pointer, requested) } else { (requested, pointer) };
            *over = with_74_only(random);
            *other = alarm_records(FIRMWARE_73).min(*other);
        }
        _ => {
            s.site.firmware = FIRMWARE_74;
            s.site.archive_length = laid_out_bytes(s) as u32 - 1 - random.below(MORE_WITH_74 as u64) as u32;
        }
    }
}
