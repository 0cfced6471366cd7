//! The plain machine: the state and the calls that set it. Scans, polls and
//! the archive worked out from the lists are below `src/machine/`.
//!
//! Every call is lent archive memory and takes its length, so Memory (1)
//! applies to each. Numbers that the service card judges may be of any size;
//! what is taken fits its field.

mod archive;
mod poll;
mod scan;
#[cfg(test)]
mod tests;

pub use archive::{newest_capture, pointer_after};
pub use poll::{
    requested_register, FIRST_REGISTER, LAST_REGISTER, LEAST_REPLY, NUMBERED_RECORD,
    NUMBERED_STAMP, REGISTERS_A_FILE, REQUESTED_RECORD, REQUESTED_STAMP,
};

use crate::card::{self, lowest, Answer, Refusal};
use crate::foreign::{
    definitions, firmware_is_in_use, foreign, slot_entry_is_good, unit_is_ours, RawState,
    ALL_GROUP_NUMBERS,
};
use crate::layout::{
    layout_bytes, record_bytes, Definition, Definitions, ALARM_FILE, FIRMWARE_73, USER_FILES,
};
use crate::points::{is_boolean_or_none, judge_definition, GROUP_NUMBERS};
use crate::record::Slot;

/// The number of alarm slots.
pub const SLOTS: usize = 32;
/// The bytes of the 128 Booleans at the head of the live table.
pub const BOOLEAN_BYTES: usize = 16;
/// Fresh takes an archive of up to so many bytes.
pub const MOST_ARCHIVE: usize = 1_048_576;

/// And from so many on, the bytes of the alarm file: 11,000, but 3,300 for
/// firmware 73.
pub const fn least_archive(firmware: u16) -> usize {
    if firmware == FIRMWARE_73 {
        3_300
    } else {
        11_000
    }
}

const SLOT_OFF: Slot = Slot {
    point: 0,
    kind: 0,
    float: 0,
};

/// The machine's state. Files and slots count from 1 in the calls and from
/// 0 in the lists. `captures` has one list of records for each of 11 files;
/// `stood` is archive memory as it was when the lists began, zeros but for
/// a machine that was taken as it stood.
#[derive(Clone, Debug, PartialEq, Eq)]
pub struct Machine {
    day_first: bool,
    unit: u8,
    firmware: u16,
    archive_len: usize,
    running: bool,
    unlocked: bool,
    pending: bool,
    drafts: Definitions,
    layout: Definitions,
    triggers: [u16; USER_FILES],
    slots: [Slot; SLOTS],
    remembered: Option<[u8; BOOLEAN_BYTES]>,
    captures: Vec<Vec<Vec<u8>>>,
    stood: Vec<u8>,
    requested: [u16; ALARM_FILE],
}

/// What Fresh makes, whatever it was given.
fn all_off(archive_len: usize, day_first: bool, unit: u8, firmware: u16) -> Machine {
    Machine {
        day_first,
        unit,
        firmware,
        archive_len,
        running: false,
        unlocked: false,
        pending: false,
        drafts: [Definition::IDLE; USER_FILES],
        layout: [Definition::IDLE; USER_FILES],
        triggers: [0; USER_FILES],
        slots: [SLOT_OFF; SLOTS],
        remembered: None,
        captures: vec![Vec::new(); ALARM_FILE],
        stood: vec![0; archive_len],
        requested: [0; ALARM_FILE],
    }
}

/// Whether a file is one that a user defines.
fn is_user_file(file: usize) -> bool {
    (1..=USER_FILES).contains(&file)
}

/// What Fresh is refused for. A firmware that is not in use is "the one check
/// before Memory"; then the lowest that applies is answered.
fn judge_fresh(archive_len: usize, unit: u32, firmware: u32) -> Result<(), Refusal> {
    if !firmware_is_in_use(firmware) {
        return Err(Refusal::plain(card::FOREIGN));
    }
    let lengths = least_archive(firmware as u16)..=MOST_ARCHIVE;
    lowest(&[
        (card::MEMORY, !lengths.contains(&archive_len)),
        (card::FOREIGN, !unit_is_ours(unit)),
    ])
}

/// The calls.
impl Machine {
    /// Fresh. A refused Fresh hands back a state of zeros, which refuses
    /// every call.
    pub fn fresh(
        archive_len: usize,
        day_first: bool,
        unit: u32,
        firmware: u32,
    ) -> (Answer, Machine) {
        let checked = judge_fresh(archive_len, unit, firmware);
        let machine = match checked {
            Ok(()) => all_off(archive_len, day_first, unit as u8, firmware as u16),
            Err(_) => all_off(0, false, 0, 0),
        };
        (checked.into(), machine)
    }

    /// A state that is not Foreign and memory of its length, taken as they
    /// stand, though no list of calls may leave them: slots 1 to the pointer
    /// of each file are its captures so far, so that the next one fills the
    /// slot after the pointer, or slot 1 after the last.
    pub fn standing(
        raw: &RawState,
        remembered: Option<[u8; BOOLEAN_BYTES]>,
        memory: &[u8],
    ) -> Machine {
        assert!(!foreign(raw), "a Foreign state is not taken");
        let length = raw.archive_len as usize;
        assert_eq!(memory.len(), length, "another length");
        let mut machine = all_off(length, raw.day_first, raw.unit, raw.firmware);
        machine.running = raw.running;
        machine.unlocked = raw.unlocked;
        machine.pending = raw.pending;
        machine.drafts = definitions(&raw.draft_groups, &raw.draft_n);
        machine.layout = definitions(&raw.groups, &raw.n);
        machine.triggers = raw.triggers;
        for (i, slot) in machine.slots.iter_mut().enumerate() {
            slot.point = raw.slot_point[i];
            slot.kind = raw.slot_kind[i] as u8;
            slot.float = raw.slot_float[i];
        }
        machine.remembered = remembered;
        machine.stood.copy_from_slice(memory);
        for file in 1..=ALARM_FILE {
            let size = record_bytes(&machine.layout, file);
            let slots = machine.stood_from(file).chunks_exact(size);
            let so_far = slots.take(usize::from(raw.pointers[file - 1]));
            machine.captures[file - 1] = so_far.map(<[u8]>::to_vec).collect();
        }
        machine.requested = raw.requested;
        machine
    }

    /// Unlock: unlocked and pending on.
    pub fn unlock(&mut self, archive_len: usize) -> Answer {
        let checked = lowest(&[
            (card::MEMORY, archive_len != self.archive_len),
            (card::FOREIGN, self.is_foreign()),
            (card::RUNNING, self.running),
        ]);
        if checked.is_ok() {
            self.unlocked = true;
            self.pending = true;
        }
        checked.into()
    }

    /// Lock: unlocked off.
    pub fn lock(&mut self, archive_len: usize) -> Answer {
        let checked = lowest(&[
            (card::MEMORY, archive_len != self.archive_len),
            (card::FOREIGN, self.is_foreign()),
        ]);
        if checked.is_ok() {
            self.unlocked = false;
        }
        checked.into()
    }

    /// Stop: running off.
    pub fn stop(&mut self, archive_len: usize) -> Answer {
        let checked = lowest(&[
            (card::MEMORY, archive_len != self.archive_len),
            (card::FOREIGN, self.is_foreign()),
        ]);
        if checked.is_ok() {
            self.running = false;
        }
        checked.into()
    }

    /// Start: running on, unlocked off; if pending, the draft becomes the
    /// layout and every file is emptied.
    pub fn start(&mut self, archive_len: usize) -> Answer {
        let over_memory = layout_bytes(&self.drafts, self.firmware) > self.archive_len as u64;
        let checked = lowest(&[
            (card::MEMORY, archive_len != self.archive_len),
            (card::FOREIGN, self.is_foreign()),
            (card::ROOM, self.pending && over_memory),
        ]);
        if checked.is_ok() {
            self.running = true;
            self.unlocked = false;
            if self.pending {
                self.lay_out_draft();
            }
        }
        checked.into()
    }

    /// Define: replaces one file's draft.
    pub fn define(
        &mut self,
        archive_len: usize,
        file: usize,
        groups: &[u16; GROUP_NUMBERS],
        n: u16,
    ) -> Answer {
        let checked = lowest(&[
            (card::MEMORY, archive_len != self.archive_len),
            (card::FOREIGN, self.is_foreign()),
            (card::FILE, !is_user_file(file)),
            (card::LOCKED, !self.unlocked),
        ])
        .and_then(|()| judge_definition(groups).map(|_size| ()));
        if checked.is_ok() {
            self.drafts[file - 1] = Definition { groups: *groups, n };
        }
        checked.into()
    }

    /// Trigger: a Boolean, or 0 for none. Empties nothing.
    pub fn trigger(&mut self, archive_len: usize, file: usize, point: u32) -> Answer {
        let checked = lowest(&[
            (card::MEMORY, archive_len != self.archive_len),
            (card::FOREIGN, self.is_foreign()),
            (card::FILE, !is_user_file(file)),
            (card::TRIGGER, !is_boolean_or_none(point)),
        ]);
        if checked.is_ok() {
            self.triggers[file - 1] = point as u16;
        }
        checked.into()
    }

    /// Alarm: sets one slot. Empties nothing.
    pub fn alarm(
        &mut self,
        archive_len: usize,
        slot: usize,
        point: u32,
        kind: u32,
        float: u32,
    ) -> Answer {
        let slot_exists = (1..=SLOTS).contains(&slot);
        let good = slot_exists && slot_entry_is_good(point, kind, float);
        let checked = lowest(&[
            (card::MEMORY, archive_len != self.archive_len),
            (card::FOREIGN, self.is_foreign()),
            (card::ALARM, !good),
        ]);
        if checked.is_ok() {
            self.slots[slot - 1] = Slot {
                point: point as u16,
                kind: kind as u8,
                float: float as u16,
            };
        }
        checked.into()
    }
}

/// What the calls use.
impl Machine {
    /// The machine's own state is valid, but for the state of zeros that a
    /// refused Fresh hands back: its unit and its firmware are Foreign.
    fn is_foreign(&self) -> bool {
        !unit_is_ours(self.unit.into()) || !firmware_is_in_use(self.firmware.into())
    }

    fn lay_out_draft(&mut self) {
        self.layout = self.drafts;
        self.captures = vec![Vec::new(); ALARM_FILE];
        self.stood.fill(0);
        self.requested = [0; ALARM_FILE];
        self.pending = false;
    }
}

/// What is compared after a list of calls. Files are 1 to 11.
impl Machine {
    pub fn running(&self) -> bool {
        self.running
    }

    pub fn unlocked(&self) -> bool {
        self.unlocked
    }

    pub fn pending(&self) -> bool {
        self.pending
    }

    pub fn requested(&self, file: usize) -> u16 {
        self.requested[file - 1]
    }

    /// The captures of a file since it was last emptied, oldest first.
    pub fn captures(&self, file: usize) -> &[Vec<u8>] {
        &self.captures[file - 1]
    }

    /// The Booleans of the latest accepted scan, if any.
    pub fn remembered(&self) -> Option<[u8; BOOLEAN_BYTES]> {
        self.remembered
    }

    /// The state as plain fields.
    pub fn raw_state(&self) -> RawState {
        let mut pointers = [0; ALARM_FILE];
        for file in 1..=ALARM_FILE {
            pointers[file - 1] = self.pointer(file);
        }
        RawState {
            day_first: self.day_first,
            unit: self.unit,
            firmware: self.firmware,
            archive_len: self.archive_len as u32,
            running: self.running,
            unlocked: self.unlocked,
            pending: self.pending,
            draft_groups: flat_groups(&self.drafts),
            draft_n: self.drafts.map(|file| file.n),
            groups: flat_groups(&self.layout),
            n: self.layout.map(|file| file.n),
            triggers: self.triggers,
            slot_point: self.slots.map(|slot| slot.point),
            slot_kind: self.slots.map(|slot| slot.kind.into()),
            slot_float: self.slots.map(|slot| slot.float),
            pointers,
            requested: self.requested,
        }
    }
}

/// The group numbers of all ten files, file after file.
fn flat_groups(files: &Definitions) -> [u16; ALL_GROUP_NUMBERS] {
    let mut flat = [0; ALL_GROUP_NUMBERS];
    for (stretch, file) in flat.chunks_exact_mut(GROUP_NUMBERS).zip(files) {
        stretch.copy_from_slice(&file.groups);
    }
    flat
}
