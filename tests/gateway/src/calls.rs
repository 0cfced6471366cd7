//! The calls after Fresh: random ones, on the library and on the model.

use gateway::ffi::{self, Answer, PollAnswer, State};
use gateway::frames::{any_frame, any_room, Frame};
use gateway::states::{any_groups, boolean_or_none, definitions_of, float_or_none, limit_near, no_boolean, no_float};
use gateway::tables::Table;
use model::card::Answer as Told;
use model::foreign::slot_entry_is_good;
use model::frames::request;
use model::machine::{Machine, LEAST_REPLY};
use model::points::is_boolean_or_none;
use model::record::Stamp;
use reader::random::Random;

use crate::lent::{Buffer, Lent};
use crate::scans;

#[derive(Clone, Debug, PartialEq, Eq)]
pub enum Call {
    Unlock,
    Lock,
    Stop,
    Start,
    Define {
        file: u32,
        groups: [u16; 32],
        limit: u16,
    },
    Trigger {
        file: u32,
        point: u32,
    },
    Alarm {
        slot: u32,
        point: u32,
        kind: u32,
        transducer: u32,
    },
    Scan {
        table: Table,
        stamp: Stamp,
    },
    /// `room` is the reply buffer's length.
    Poll {
        table: Table,
        frame: Frame,
        room: usize,
    },
}

/// The calls by their kinds, and Fresh, with which a list starts.
pub const NAMES: [&str; 10] = ["unlock", "lock", "stop", "start", "define", "trigger", "alarm", "scan", "poll", "fresh"];
pub const FRESH: usize = 9;

/// What the library answers: the card's number and what it carries, the length of a poll's reply, and the state.
pub struct Got {
    pub number: u32,
    pub carried: u32,
    pub length: u32,
    pub state: State,
}

impl From<Answer> for Got {
    fn from(a: Answer) -> Got {
        Got { number: a.number, carried: a.carried, length: 0, state: a.state }
    }
}

impl From<PollAnswer> for Got {
    fn from(a: PollAnswer) -> Got {
        Got { number: a.number, carried: 0, length: a.length, state: a.state }
    }
}

/// Mostly 1 to `most`, now and then a neighbour or a number that is in range only when cut to 8 or 16 bits.
fn index(random: &mut Random, most: u32) -> u32 {
    match random.below(24) {
        0 => 0,
        1 => most + 1,
        2 => [257, 65_537, 0x8000_0001, u32::MAX][random.below(4) as usize],
        _ => 1 + random.below(u64::from(most)) as u32,
    }
}

/// A number that is the good one only when it is cut to so many bits.
pub fn wide(random: &mut Random, good: u32, bits: u32) -> u32 {
    good + ((1 + random.below((1 << (32 - bits)) - 1) as u32) << bits)
}

/// Mostly a good point, now and then a bad one, or one that is good only when cut.
fn mostly(random: &mut Random, good: fn(&mut Random) -> u16, bad: fn(&mut Random) -> u16) -> u32 {
    let point = u32::from(good(random));
    match random.below(12) {
        0 => bad(random).into(),
        1 => wide(random, point, 16),
        _ => point,
    }
}

fn any_type(random: &mut Random) -> u32 {
    let good = random.below(4) as u32;
    match random.below(16) {
        0 => 4 + random.below(300) as u32,
        1 => wide(random, good, 8),
        _ => good,
    }
}

/// The arguments that could be cut.
pub const WIDE: [&str; 6] = ["unit", "trigger", "slot's point", "slot's type", "slot's transducer", "firmware"];
pub const WIDE_UNIT: usize = 0;
pub const WIDE_FIRMWARE: usize = 5;

impl Call {
    /// A random call; a definition's n is near what the state's archive holds.
    pub fn random(random: &mut Random, s: &State) -> Call {
        // an unlocked gateway is there to be defined
        let choice = if s.flags.unlocked && random.chance(3) { 9 } else { random.below(48) };
        match choice {
            0..=2 => Call::Unlock,
            3 => Call::Lock,
            4..=5 => Call::Stop,
            6..=8 => Call::Start,
            9..=14 => Call::define(random, s),
            15..=16 => Call::Trigger { file: index(random, 10), point: mostly(random, boolean_or_none, no_boolean) },
            17..=19 => Call::Alarm {
                slot: index(random, 32),
                point: mostly(random, boolean_or_none, no_boolean),
                kind: any_type(random),
                transducer: mostly(random, float_or_none, no_float),
            },
            20..=31 => Call::scan(random, s),
            _ => Call::poll(random, s),
        }
    }

    fn define(random: &mut Random, s: &State) -> Call {
        let file = index(random, 10);
        let groups = any_groups(random);
        let drafts = definitions_of(&s.settings.draft);
        let at = (file as usize).clamp(1, 10) - 1;
        let limit = if model::points::judge_definition(&groups).is_ok() {
            limit_near(random, &drafts, at, &groups, &s.site)
        } else {
            random.below(4) as u16
        };
        Call::Define { file, groups, limit }
    }

    /// A scan that the state may capture from.
    pub fn scan(random: &mut Random, s: &State) -> Call {
        Call::Scan { table: scans::table(random, s), stamp: scans::stamp(random) }
    }

    /// A poll of a gateway in this state.
    pub fn poll(random: &mut Random, s: &State) -> Call {
        Call::Poll { table: Table::random(random), frame: any_frame(random, s), room: any_room(random) }
    }

    /// The poll of a frame over a patterned table, with as short a reply buffer as may be.
    pub fn sending(frame: Vec<u8>) -> Call {
        Call::Poll { table: Table::patterned(), frame: Frame(frame), room: LEAST_REPLY }
    }

    /// The same of a right request.
    pub fn asking(unit: u8, function: u8, address: u16, number: u16) -> Call {
        Call::sending(request(unit, function, address, number))
    }

    /// The same over this table.
    pub fn asking_over(table: Table, unit: u8, function: u8, address: u16, number: u16) -> Call {
        Call::Poll { table, frame: Frame(request(unit, function, address, number)), room: LEAST_REPLY }
    }

    /// The call's place in NAMES.
    pub fn kind(&self) -> usize {
        match self {
            Call::Unlock => 0,
            Call::Lock => 1,
            Call::Stop => 2,
            Call::Start => 3,
            Call::Define { .. } => 4,
            Call::Trigger { .. } => 5,
            Call::Alarm { .. } => 6,
            Call::Scan { .. } => 7,
            Call::Poll { .. } => 8,
        }
    }

    /// The length of the reply buffer that the call is lent.
    pub fn room(&self) -> usize {
        match self {
            Call::Poll { room, .. } => *room,
            _ => 0,
        }
    }

    /// The one argument of WIDE for which a call is refused that would be taken were it cut to its field.
    pub fn wide_argument(&self) -> Option<usize> {
        let cut_point = |point: u32| point & 0xFFFF;
        match *self {
            Call::Trigger { file, point } => {
                let taken = (1..=10).contains(&file) && is_boolean_or_none(cut_point(point));
                (taken && point != cut_point(point)).then_some(1)
            }
            Call::Alarm { slot, point, kind, transducer } => {
                let cut = [cut_point(point), kind & 0xFF, cut_point(transducer)];
                let taken = (1..=32).contains(&slot) && slot_entry_is_good(cut[0], cut[1], cut[2]);
                let mut others = (0..3).filter(|&i| cut[i] != [point, kind, transducer][i]);
                others.next().filter(|_| taken && others.next().is_none()).map(|i| 2 + i)
            }
            _ => None,
        }
    }

    pub fn on_library(&mut self, s: State, lent: &mut Lent) -> Got {
        let archive = &mut lent.archive;
        match self {
            Call::Unlock => ffi::unlock(s, archive).into(),
            Call::Lock => ffi::lock(s, archive).into(),
            Call::Stop => ffi::stop(s, archive).into(),
            Call::Start => ffi::start(s, archive).into(),
            Call::Define { file, groups, limit } => ffi::define(s, archive, *file, groups, *limit).into(),
            Call::Trigger { file, point } => ffi::trigger(s, archive, *file, *point).into(),
            Call::Alarm { slot, point, kind, transducer } => ffi::alarm(s, archive, *slot, *point, *kind, *transducer).into(),
            Call::Scan { table, stamp } => ffi::scan(s, archive, &mut table.0, (*stamp).into()).into(),
            Call::Poll { table, frame, .. } => ffi::poll(s, archive, &mut table.0, &mut frame.0, lent.reply.lent_mut()).into(),
        }
    }

    /// What the model answers, with the length of a poll's reply.
    pub fn on_model(&self, machine: &mut Machine, archive_len: usize, reply: &mut Buffer) -> (Told, usize) {
        let told = match self {
            Call::Poll { table, frame, .. } => return machine.poll(archive_len, &table.0, &frame.0, reply.lent_mut()),
            Call::Unlock => machine.unlock(archive_len),
            Call::Lock => machine.lock(archive_len),
            Call::Stop => machine.stop(archive_len),
            Call::Start => machine.start(archive_len),
            Call::Define { file, groups, limit } => machine.define(archive_len, *file as usize, groups, *limit),
            Call::Trigger { file, point } => machine.trigger(archive_len, *file as usize, *point),
            Call::Alarm { slot, point, kind, transducer } => {
                machine.alarm(archive_len, *slot as usize, *point, *kind, *transducer)
            }
            Call::Scan { table, stamp } => machine.scan(archive_len, &table.0, *stamp),
        };
        (told, 0)
    }
}
