//! Whether a stored state is Foreign (2). Any content of the fields may be
//! judged.

use crate::layout::{
    layout_bytes, most_records, Definition, Definitions, ALARM_FILE, FIRMWARES, USER_FILES,
};
use crate::points::{is_boolean_or_none, is_float_or_none, judge_definition, GROUP_NUMBERS};

/// The numbers of all ten files' groups, file after file.
pub const ALL_GROUP_NUMBERS: usize = USER_FILES * GROUP_NUMBERS;

/// A stored state as plain fields. Index 0 is file or slot 1.
#[derive(Clone, Debug, PartialEq, Eq)]
pub struct RawState {
    pub day_first: bool,
    pub unit: u8,
    pub firmware: u16,
    pub archive_len: u32,
    pub running: bool,
    pub unlocked: bool,
    pub pending: bool,
    pub draft_groups: [u16; ALL_GROUP_NUMBERS],
    pub draft_n: [u16; USER_FILES],
    pub groups: [u16; ALL_GROUP_NUMBERS],
    pub n: [u16; USER_FILES],
    pub triggers: [u16; USER_FILES],
    pub slot_point: [u16; 32],
    pub slot_kind: [u16; 32],
    pub slot_float: [u16; 32],
    pub pointers: [u16; ALARM_FILE],
    pub requested: [u16; ALARM_FILE],
}

/// Our unit is 1-247.
pub const LEAST_UNIT: u8 = 1;
pub const MOST_UNIT: u8 = 247;

/// Whether a unit is one that may be ours.
pub fn unit_is_ours(unit: u32) -> bool {
    (LEAST_UNIT.into()..=MOST_UNIT.into()).contains(&unit)
}

/// Whether a firmware is in use, 73 or 74; "any other is Foreign (2)".
pub fn firmware_is_in_use(firmware: u32) -> bool {
    FIRMWARES.map(u32::from).contains(&firmware)
}

/// A slot's entry: a Boolean point or 0, type 0-3, a float point or 0, each
/// checked even when the slot is off.
pub fn slot_entry_is_good(point: u32, kind: u32, float: u32) -> bool {
    is_boolean_or_none(point) && kind <= 3 && is_float_or_none(float)
}

/// The ten definitions held by flat lists.
pub fn definitions(groups: &[u16; ALL_GROUP_NUMBERS], n: &[u16; USER_FILES]) -> Definitions {
    let mut files = [Definition::IDLE; USER_FILES];
    for (index, file) in files.iter_mut().enumerate() {
        let from = index * GROUP_NUMBERS;
        file.groups
            .copy_from_slice(&groups[from..from + GROUP_NUMBERS]);
        file.n = n[index];
    }
    files
}

fn any_definition_is_bad(files: &Definitions) -> bool {
    files
        .iter()
        .any(|file| judge_definition(&file.groups).is_err())
}

fn any_slot_is_bad(raw: &RawState) -> bool {
    (0..32).any(|i| {
        let entry = [raw.slot_point[i], raw.slot_kind[i], raw.slot_float[i]];
        let [point, kind, float] = entry.map(u32::from);
        !slot_entry_is_good(point, kind, float)
    })
}

fn any_number_is_over_n(raw: &RawState, laid_out: &Definitions) -> bool {
    (1..=ALARM_FILE).any(|file| {
        let n = most_records(laid_out, raw.firmware, file);
        raw.pointers[file - 1] > n || raw.requested[file - 1] > n
    })
}

/// Whether row 2 of the service card applies. A draft may be larger than
/// memory: that is Room (11) at Start.
pub fn foreign(raw: &RawState) -> bool {
    let drafts = definitions(&raw.draft_groups, &raw.draft_n);
    let laid_out = definitions(&raw.groups, &raw.n);
    let both_on = raw.running && raw.unlocked;
    let bad_trigger = raw
        .triggers
        .iter()
        .any(|&point| !is_boolean_or_none(point.into()));
    both_on
        || any_definition_is_bad(&drafts)
        || any_definition_is_bad(&laid_out)
        || bad_trigger
        || any_slot_is_bad(raw)
        || layout_bytes(&laid_out, raw.firmware) > u64::from(raw.archive_len)
        || any_number_is_over_n(raw, &laid_out)
        || !unit_is_ours(raw.unit.into())
        || !firmware_is_in_use(raw.firmware.into())
}

#[cfg(test)]
mod tests {
    use super::*;
    use crate::depths::DEPTHS;
    use crate::machine::Machine;

    /// A fresh state, with room for one bare stamp.
    fn valid(firmware: u16) -> RawState {
        let length = if firmware == 73 { 3_306 } else { 11_006 };
        let (answer, machine) = Machine::fresh(length, false, 1, firmware.into());
        assert!(answer.is_done());
        machine.raw_state()
    }

    fn is_foreign_after(change: impl Fn(&mut RawState)) -> bool {
        is_foreign_in(74, change)
    }

    fn is_foreign_in(firmware: u16, change: impl Fn(&mut RawState)) -> bool {
        let mut raw = valid(firmware);
        change(&mut raw);
        foreign(&raw)
    }

    #[test]
    fn a_fresh_state_is_ours() {
        assert!(!foreign(&valid(73)));
        assert!(!foreign(&valid(74)));
    }

    #[test]
    fn a_state_of_zeros_is_foreign() {
        let (answer, zeros) = Machine::fresh(11_000, false, 0, 74);
        assert_eq!(answer.number, 2);
        assert!(foreign(&zeros.raw_state()));
    }

    /// Memory is enough for any depth.
    #[test]
    fn firmware() {
        let with = |firmware: u16| {
            is_foreign_after(|raw| {
                raw.archive_len = 1_048_576;
                raw.firmware = firmware;
            })
        };
        let ours = (0..=65_535).filter(|&firmware| !with(firmware));
        assert!(ours.eq([73, 74]));
    }

    #[test]
    fn flags() {
        assert!(is_foreign_after(|raw| {
            raw.running = true;
            raw.unlocked = true;
        }));
        assert!(!is_foreign_after(|raw| {
            raw.running = true;
            raw.pending = true;
        }));
        assert!(!is_foreign_after(|raw| raw.unlocked = true));
    }

    #[test]
    fn unit() {
        assert!(is_foreign_after(|raw| raw.unit = 0));
        assert!(is_foreign_after(|raw| raw.unit = 248));
        assert!(!is_foreign_after(|raw| raw.unit = 247));
    }

    #[test]
    fn definitions_of_idle_files_are_judged_too() {
        assert!(is_foreign_after(|raw| raw.draft_groups[318] = 3001));
        assert!(is_foreign_after(|raw| raw.groups[1] = 65_535));
        assert!(is_foreign_after(|raw| {
            raw.groups[0] = 7101;
            raw.groups[1] = 62;
        }));
        assert!(!is_foreign_after(|raw| {
            raw.groups[0] = 7101;
            raw.groups[1] = 61;
        }));
    }

    #[test]
    fn a_layout_over_memory_but_not_a_draft_over_memory() {
        assert!(!is_foreign_after(|raw| raw.n[0] = 1));
        assert!(is_foreign_after(|raw| raw.n[0] = 2));
        assert!(is_foreign_after(|raw| raw.n = [65_535; 10]));
        assert!(!is_foreign_after(|raw| raw.draft_n = [65_535; 10]));
        assert!(is_foreign_after(|raw| raw.archive_len = 10_999));
        assert!(!is_foreign_after(|raw| raw.archive_len = u32::MAX));
    }

    #[test]
    fn a_layout_over_memory_by_the_depth_of_its_firmware() {
        assert!(!is_foreign_in(73, |raw| raw.n[0] = 1));
        assert!(is_foreign_in(73, |raw| raw.n[0] = 2));
        assert!(!is_foreign_in(73, |raw| raw.archive_len = 3_300));
        assert!(is_foreign_in(73, |raw| raw.archive_len = 3_299));
        assert!(is_foreign_in(73, |raw| raw.firmware = 74));
        // 1,283 bare stamps fill 7,698 bytes
        let large = |raw: &mut RawState| (raw.archive_len, raw.n[0]) = (10_998, 1_283);
        assert!(!is_foreign_in(73, large));
        assert!(is_foreign_in(74, large));
        let enough = |raw: &mut RawState| (raw.archive_len, raw.n[0]) = (18_698, 1_283);
        assert!(!is_foreign_in(73, enough));
        assert!(!is_foreign_in(74, enough));
    }

    #[test]
    fn triggers_and_slots() {
        assert!(is_foreign_after(|raw| raw.triggers[9] = 1929));
        assert!(!is_foreign_after(|raw| raw.triggers[9] = 1928));
        assert!(is_foreign_after(|raw| raw.slot_point[31] = 3001));
        assert!(is_foreign_after(|raw| raw.slot_kind[31] = 4));
        assert!(is_foreign_after(|raw| raw.slot_kind[31] = 256));
        assert!(is_foreign_after(|raw| raw.slot_float[31] = 7229));
        assert!(!is_foreign_after(|raw| raw.slot_float[31] = 7228));
    }

    #[test]
    fn pointers_and_requested_numbers_over_n() {
        assert!(is_foreign_after(|raw| raw.pointers[0] = 1));
        assert!(is_foreign_after(|raw| raw.requested[0] = 1));
        assert!(!is_foreign_after(|raw| raw.pointers[10] = 500));
        assert!(is_foreign_after(|raw| raw.pointers[10] = 501));
        assert!(!is_foreign_after(|raw| raw.requested[10] = 500));
        assert!(is_foreign_after(|raw| raw.requested[10] = 501));
    }

    /// Those of the alarm file, with memory that is enough for any depth.
    #[test]
    fn alarm_numbers_over_the_depth_of_the_firmware() {
        for (firmware, depth) in DEPTHS {
            for number in (0..=502).chain([65_535]) {
                let is_over = number > depth;
                let with = |change: fn(&mut RawState, u16)| {
                    is_foreign_in(firmware, |raw| {
                        raw.archive_len = 11_006;
                        change(raw, number);
                    })
                };
                assert_eq!(with(|raw, number| raw.pointers[10] = number), is_over);
                assert_eq!(with(|raw, number| raw.requested[10] = number), is_over);
            }
        }
    }
}
