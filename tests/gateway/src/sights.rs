//! What accepted scans were seen to do, counted, so that a run shows that nothing which a scan can meet was left out.

use gateway::ffi::{Slot, State};
use gateway::rows::{groups_of, limit_of};
use model::layout::{ALARM_FILE, USER_FILES};
use model::points::pairs;
use model::record::Stamp;
use reader::dates::is_leap_day;

use crate::alarm_sights::{has_twins, Alarms};
use crate::calls::Call;
use crate::scans::{bit, booleans};

/// How many records a scan appended to each of the 11 files.
pub type Captured = [usize; ALARM_FILE];

const ALARMS: usize = ALARM_FILE - 1;

/// What went before in a list of calls, as far as it makes a scan worth counting.
#[derive(Default)]
pub struct History {
    /// The list began with a state over random bytes, and no Start has emptied the files since.
    stands: bool,
    /// The stamp of the latest accepted scan.
    stamp: Option<Stamp>,
    /// Files whose trigger was set to another point while running.
    moved: [bool; USER_FILES],
    /// Points that the scans since the stop saw rise, and not fall again.
    raised_while_stopped: u128,
    /// Stopped and started since the files were last emptied.
    restarted: bool,
    /// How often each file has gone round since it was last emptied.
    rounds: Captured,
    /// How many records each file has captured since its requested number was last set.
    since_requested: Captured,
}

impl History {
    /// What goes before the first call on a state that was taken as it stands.
    pub fn of_standing() -> History {
        History { stands: true, ..History::default() }
    }

    /// Takes note of an accepted call.
    pub fn note(&mut self, before: &State, after: &State, call: &Call, captured: &Captured) {
        match call {
            Call::Start if before.flags.pending => {
                *self = History { stamp: self.stamp, raised_while_stopped: self.raised_while_stopped, ..History::default() }
            }
            Call::Start => self.restarted |= !before.flags.running,
            Call::Trigger { file, point } => {
                let file = *file as usize - 1;
                self.moved[file] |= before.flags.running && *point != u32::from(before.settings.triggers[file]);
            }
            Call::Scan { table, stamp } => {
                let now = booleans(&table.0);
                let raised = if before.seen.scanned { now & !booleans(&before.seen.booleans) } else { 0 };
                self.raised_while_stopped = if before.flags.running { 0 } else { (self.raised_while_stopped | raised) & now };
                self.stamp = Some(*stamp);
                for file in 0..ALARM_FILE {
                    self.rounds[file] += usize::from(goes_round(before, captured, file));
                    self.since_requested[file] += captured[file];
                }
            }
            Call::Poll { .. } => {
                for file in (0..ALARM_FILE).filter(|&file| after.line.requested[file] != before.line.requested[file]) {
                    self.since_requested[file] = 0;
                }
            }
            _ => {}
        }
    }

    /// Whether archive memory may have bytes that no call of the list has put there.
    pub fn stands(&self) -> bool {
        self.stands
    }

    pub fn rounds(&self, file: usize) -> usize {
        self.rounds[file - 1]
    }

    pub fn since_requested(&self, file: usize) -> usize {
        self.since_requested[file - 1]
    }

    /// How often the file that went round most has done so.
    pub fn most_rounds(&self) -> usize {
        self.rounds.iter().copied().max().unwrap_or(0)
    }
}

/// Whether a file of at least two records is captured past its last one.
fn goes_round(before: &State, captured: &Captured, file: usize) -> bool {
    let n = limit_of(before, file + 1);
    n > 1 && usize::from(before.files.pointers[file]) + captured[file] > usize::from(n)
}

/// An accepted scan: the state that it was given, its live table, Booleans and stamp, and what the model captured.
pub struct Sight<'a> {
    before: &'a State,
    pub table: &'a [u8],
    now: u128,
    stamp: Stamp,
    captured: Captured,
    history: &'a History,
}

impl<'a> Sight<'a> {
    pub fn new(before: &'a State, table: &'a [u8], stamp: Stamp, captured: Captured, history: &'a History) -> Sight<'a> {
        Sight { before, table, now: booleans(table), stamp, captured, history }
    }

    /// The points that went from 0 to 1, and from 1 to 0; before a first scan nothing was on or off.
    fn rises(&self) -> u128 {
        self.since_the_last_scan(|before, now| now & !before)
    }

    fn falls(&self) -> u128 {
        self.since_the_last_scan(|before, now| before & !now)
    }

    fn since_the_last_scan(&self, changes: fn(u128, u128) -> u128) -> u128 {
        if self.before.seen.scanned {
            changes(booleans(&self.before.seen.booleans), self.now)
        } else {
            0
        }
    }

    fn n(&self, file: usize) -> u16 {
        self.before.files.layout.limits[file]
    }

    fn pointer(&self, file: usize) -> u16 {
        self.before.files.pointers[file]
    }

    fn goes_round(&self, file: usize) -> bool {
        goes_round(self.before, &self.captured, file)
    }

    pub fn firmware(&self) -> u16 {
        self.before.site.firmware
    }

    /// The alarm file's pointer before the scan, and what it would be after it if the file had no end.
    pub fn alarm_pointers(&self) -> [usize; 2] {
        let pointer = usize::from(self.pointer(ALARMS));
        [pointer, pointer + self.captured[ALARMS]]
    }

    fn is_bare(&self, file: usize) -> bool {
        *groups_of(self.before, file + 1) == [0; 32]
    }

    /// The first point and the number of points of each group, unused ones too, of the files that captured.
    pub fn captured_groups(&self) -> impl Iterator<Item = (u16, u16)> + '_ {
        let files = (0..USER_FILES).filter(|&file| self.captured[file] > 0);
        files.flat_map(|file| pairs(groups_of(self.before, file + 1)))
    }

    fn clock_went_back(&self) -> bool {
        let in_order = |s: Stamp| [s.year, s.month, s.day, s.hour, s.minute, s.second];
        self.history.stamp.is_some_and(|last| in_order(self.stamp) < in_order(last))
    }

    /// How many of files 1 to 10 captured.
    pub fn files(&self) -> usize {
        self.files_where(|_| true)
    }

    fn files_where(&self, is_such: impl Fn(usize) -> bool) -> usize {
        (0..USER_FILES).filter(|&file| self.captured[file] > 0 && is_such(file)).count()
    }

    /// The largest number of files that one trigger captured.
    fn most_on_one_trigger(&self) -> usize {
        let triggers = self.before.settings.triggers;
        (0..USER_FILES).map(|file| self.files_where(|other| triggers[other] == triggers[file])).max().unwrap_or(0)
    }

    /// How many files have a trigger among these points, of those that are idle or of the others.
    fn triggers_on(&self, points: u128, idle: bool) -> usize {
        (0..USER_FILES)
            .filter(|&file| bit(self.before.settings.triggers[file]) & points != 0 && (self.n(file) == 0) == idle)
            .count()
    }

    /// The points of the slots of these types that are among these points, in the order of slots.
    fn slots_on(&self, points: u128, types: &[u16]) -> Vec<u16> {
        let is_such = |slot: &&Slot| bit(slot.point) & points != 0 && types.contains(&slot.kind);
        self.before.settings.slots.iter().filter(is_such).map(|slot| slot.point).collect()
    }

    /// What the scan is to log; nothing where it is stopped.
    pub fn alarms(&self) -> Alarms {
        let is_running = self.before.flags.running;
        let slots_on = |points, types| if is_running { self.slots_on(points, types) } else { Vec::new() };
        Alarms {
            cleared: slots_on(self.falls(), &LOG_FALLS),
            raised: slots_on(self.rises(), &ALL_TYPES),
            not_logged: slots_on(self.falls(), &LOG_RISES_ONLY),
            pointer: self.pointer(ALARMS),
            firmware: self.firmware(),
        }
    }

    fn while_running(&self, count: usize) -> usize {
        count * usize::from(self.before.flags.running)
    }

    fn while_stopped(&self, count: usize) -> usize {
        count * usize::from(!self.before.flags.running)
    }
}

/// The types of alarm slots; those that log falls too, and those that do not.
pub const ALL_TYPES: [u16; 4] = [0, 1, 2, 3];
pub const LOG_FALLS: [u16; 2] = [0, 2];
const LOG_RISES_ONLY: [u16; 2] = [1, 3];

/// A name, and how often one scan shows it.
type Shown = (&'static str, fn(&Sight) -> usize);

/// Everything that a whole run must have seen, but for what goes by the firmware.
pub const SIGHTS: [Shown; 30] = [
    ("records captured", |s| s.files()),
    ("records captured day first", |s| s.files_where(|_| s.before.site.day_first)),
    ("records captured month first", |s| s.files_where(|_| !s.before.site.day_first)),
    ("bare stamps captured", |s| s.files_where(|file| s.is_bare(file))),
    ("files that went round", |s| s.files_where(|file| s.goes_round(file))),
    ("files that went round after ten rounds", |s| s.files_where(|file| s.goes_round(file) && s.history.rounds[file] >= 10)),
    ("files of 65,535 records that went round", |s| s.files_where(|file| s.goes_round(file) && s.n(file) == 65_535)),
    ("records over the last one of a file of n 1", |s| s.files_where(|file| s.n(file) == 1 && s.pointer(file) == 1)),
    ("scans that captured several files on one trigger", |s| usize::from(s.most_on_one_trigger() > 1)),
    ("scans that captured at least eight files", |s| usize::from(s.files() >= 8)),
    ("records captured by a clock gone back", |s| s.files_where(|_| s.clock_went_back())),
    ("scans on 29 February", |s| usize::from(is_leap_day(&s.stamp))),
    ("records captured by a trigger moved while running", |s| s.files_where(|file| s.history.moved[file])),
    ("records captured after a stop and a start", |s| s.files_where(|_| s.history.restarted)),
    ("records captured over bytes at pointer 0", |s| s.files_where(|file| s.history.stands && s.pointer(file) == 0)),
    ("records captured over bytes at another pointer", |s| s.files_where(|file| s.history.stands && s.pointer(file) > 0)),
    ("records captured by a layout that is not the draft", |s| {
        s.files_where(|_| s.before.files.layout != s.before.settings.draft)
    }),
    ("rises of an idle file's trigger", |s| s.while_running(s.triggers_on(s.rises(), true))),
    ("scans while running with no change", |s| {
        s.while_running(usize::from(s.before.seen.scanned && s.rises() | s.falls() == 0))
    }),
    ("triggers on in a first scan while running", |s| {
        s.while_running(usize::from(!s.before.seen.scanned) * s.triggers_on(s.now, false))
    }),
    ("rises of a trigger while stopped", |s| s.while_stopped(s.triggers_on(s.rises(), false))),
    ("triggers raised while stopped and on after the start", |s| {
        s.while_running(s.triggers_on(s.history.raised_while_stopped & s.now, false))
    }),
    ("alarm records", |s| s.captured[ALARMS]),
    ("scans of at least 24 alarms", |s| usize::from(s.captured[ALARMS] >= 24)),
    ("scans with alarms and captures", |s| usize::from(s.files() > 0 && s.captured[ALARMS] > 0)),
    ("scans whose alarms are not in the order of slots", |s| {
        s.while_running(usize::from(!s.slots_on(s.rises(), &ALL_TYPES).is_sorted()))
    }),
    ("scans with several alarms of one point", |s| s.while_running(usize::from(has_twins(&s.slots_on(s.rises(), &ALL_TYPES))))),
    ("falls that types 0 and 2 log", |s| s.while_running(s.slots_on(s.falls(), &LOG_FALLS).len())),
    ("falls that types 1 and 3 do not log", |s| s.while_running(s.slots_on(s.falls(), &LOG_RISES_ONLY).len())),
    ("changes of an alarm point while stopped", |s| s.while_stopped(s.slots_on(s.rises() | s.falls(), &ALL_TYPES).len())),
];
