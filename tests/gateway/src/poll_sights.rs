//! What polls that were not refused were seen to do, counted, so that a run shows that no rule of frames was left out. Those of polls
//! of the live table are in `live_sights`.

use gateway::ffi::State;
use gateway::live::Run;
use gateway::rows::{groups_of, is_read_reply, limit_of, Asked, Request, Row};
use model::crc;
use model::frames::{ILLEGAL_ADDRESS, ILLEGAL_FUNCTION, ILLEGAL_VALUE, READ, READ_BOOLEANS, WRITE};
use model::layout::ALARM_FILE;
use model::machine::{FIRST_REGISTER, LAST_REGISTER, LEAST_REPLY};
use reader::old_records::{text_groups, TextGroup};

use crate::scans::booleans;
use crate::sights::History;
use crate::text_sights::has_unclean;

/// The addresses on either side of each row.
const BESIDE_ROWS: [u16; 10] = [700, 712, 720, 732, 750, 762, 770, 782, FIRST_REGISTER - 1, LAST_REGISTER + 1];

/// A poll that was not refused: the states before and after, the live table, the frame, the reply buffer's length, and the reply.
pub struct PollSight<'a> {
    pub before: &'a State,
    pub after: &'a State,
    pub table: &'a [u8],
    pub frame: &'a [u8],
    pub room: usize,
    pub reply: &'a [u8],
    pub history: &'a History,
}

impl PollSight<'_> {
    /// Whether the frame's first byte is this unit and its CRC is right.
    pub fn is_to(&self, unit: u8) -> bool {
        self.frame.first() == Some(&unit) && crc::checks(self.frame)
    }

    fn is_to_us(&self) -> bool {
        self.is_to(self.before.site.unit)
    }

    fn is_of_a_good_length(&self) -> bool {
        (4..=256).contains(&self.frame.len())
    }

    /// Whether a frame of a good length has a right CRC and another unit of this range.
    pub fn is_to_others(&self, units: std::ops::RangeInclusive<u8>) -> bool {
        let other = |unit: &u8| *unit != self.before.site.unit && units.contains(unit);
        self.is_of_a_good_length() && self.frame.first().is_some_and(other) && crc::checks(self.frame)
    }

    fn function(&self) -> u8 {
        self.frame.get(1).copied().unwrap_or(0)
    }

    /// Whether a frame of a good length to unit 0 has this function.
    fn is_broadcast(&self, function: u8) -> bool {
        self.is_of_a_good_length() && self.is_to(0) && self.function() == function
    }

    pub fn request(&self) -> Option<Request> {
        Request::of(self.frame)
    }

    fn row(&self) -> Option<Row> {
        self.request()?.row().map(|(row, _)| row)
    }

    /// The run of live points that is asked for, whoever is asked.
    pub fn run(&self) -> Option<Run> {
        Run::of(&self.request()?)
    }

    /// Whether a request's address is none that its function knows.
    fn is_on_an_unknown_address(&self) -> bool {
        self.request().is_some_and(|request| !request.is_known())
    }

    /// Whether a frame of over 8 bytes has such an address.
    pub fn begins_on_an_unknown_address(&self) -> bool {
        self.frame.len() > 8 && Request::of(&self.frame[..8]).is_some_and(|request| !request.is_known())
    }

    /// Whether the number of a request is this one.
    pub fn asks_for(&self, number: u16) -> bool {
        self.request().is_some_and(|request| request.number == number)
    }

    /// Whether the reply carries live points.
    pub fn is_live_reply(&self) -> bool {
        is_read_reply(self.reply) && self.run().is_some()
    }

    /// Whether a request is on this row, its number is 0, n + 1 or what else is asked for, and n is the file's.
    fn is_on(&self, rows: &[Row], is_such: impl Fn(u32, u32) -> bool) -> bool {
        self.request().is_some_and(|request| {
            request.row().is_some_and(|(row, file)| {
                rows.contains(&row) && is_such(request.number.into(), limit_of(self.before, file).into())
            })
        })
    }

    /// Whether the reply is this exception to this function.
    pub fn is_told(&self, function: u8, code: u8) -> bool {
        self.is_exception(code) && self.function() == function
    }

    pub fn is_exception(&self, code: u8) -> bool {
        self.reply.len() == 5 && self.reply[1] >= 0x80 && self.reply[2] == code
    }

    pub fn address_is(&self, is_such: impl Fn(u16) -> bool) -> bool {
        self.request().is_some_and(|request| is_such(request.address))
    }

    fn sets_a_number(&self) -> bool {
        self.after.line != self.before.line
    }

    /// The record, or stamp, that the reply carries.
    fn record(&self) -> Option<Asked> {
        self.request().filter(|_| is_read_reply(self.reply))?.record(self.before)
    }

    fn is_record(&self, is_such: impl Fn(&Asked) -> bool) -> bool {
        self.record().is_some_and(|asked| is_such(&asked))
    }

    /// Whether the reply carries a record of a file that has gone round, whose number and pointer are such.
    fn has_gone_round(&self, is_such: impl Fn(u16, u16) -> bool) -> bool {
        self.is_record(|asked| {
            self.history.rounds(asked.file) > 0 && is_such(asked.k, self.before.files.pointers[asked.file - 1])
        })
    }

    fn data(&self) -> &[u8] {
        &self.reply[3..self.reply.len() - 2]
    }

    fn is_data(&self, is_such: impl Fn(&[u8]) -> bool) -> bool {
        is_read_reply(self.reply) && is_such(self.data())
    }

    /// Whether a record of the reply has a text with a byte that no capture leaves.
    fn has_an_old_text(&self) -> bool {
        self.is_record(|asked| {
            let has_groups = asked.file != ALARM_FILE && !asked.is_stamp;
            let is_old = |group: TextGroup| has_unclean(&self.data()[group.in_record]);
            has_groups && text_groups(groups_of(self.before, asked.file)).into_iter().any(is_old)
        })
    }

    fn was_requested(&self) -> bool {
        matches!(self.row(), Some(Row::RecordRequested | Row::StampRequested))
    }
}

const NUMBERED: [Row; 2] = [Row::RecordNumbered, Row::StampNumbered];
const REGISTERS: [Row; 1] = [Row::Registers];
const SET: [Row; 1] = [Row::SetRequested];

/// A name, and whether one poll shows it.
pub type Shown = (&'static str, fn(&PollSight) -> bool);

/// No reply: each frame has one reason for it only.
pub const UNANSWERED: [Shown; 15] = [
    ("no reply to 0 bytes", |p| p.frame.is_empty()),
    ("no reply to 2 or 3 bytes with a right CRC", |p| p.frame.len() < 4 && crc::checks(p.frame)),
    ("no reply to 257 bytes to us", |p| p.frame.len() == 257 && p.is_to_us()),
    ("no reply to over 257 bytes to us", |p| p.frame.len() > 257 && p.is_to_us()),
    ("no reply to a wrong CRC", |p| p.is_of_a_good_length() && p.frame[0] == p.before.site.unit && !crc::checks(p.frame)),
    ("no reply to another unit, 1 to 247", |p| p.is_to_others(1..=247)),
    ("no reply to a unit of 248 to 255", |p| p.is_to_others(248..=255)),
    ("06 to unit 0 done", |p| p.is_broadcast(WRITE) && p.sets_a_number()),
    ("06 to unit 0 of a value not 1..n", |p| p.is_broadcast(WRITE) && p.is_on(&SET, |value, n| value == 0 || value > n)),
    ("06 to unit 0 on another address", |p| p.is_broadcast(WRITE) && p.is_on_an_unknown_address()),
    ("06 to unit 0 of another length", |p| p.is_broadcast(WRITE) && p.request().is_none()),
    ("03 to unit 0 that we would answer", |p| p.is_broadcast(READ) && p.is_on(&NUMBERED, |k, n| (1..=n).contains(&k))),
    ("03 to unit 0 of another length", |p| p.is_broadcast(READ) && p.request().is_none()),
    ("01 to unit 0 of another length", |p| p.is_broadcast(READ_BOOLEANS) && p.request().is_none()),
    ("another function to unit 0", |p| {
        p.is_to(0) && p.is_of_a_good_length() && ![READ_BOOLEANS, READ, WRITE].contains(&p.function())
    }),
];

/// Exceptions, by the check that each fails; where a later check could fail as well, it does in some.
pub const EXCEPTIONS: [Shown; 28] = [
    ("01 to 8 bytes", |p| p.is_exception(ILLEGAL_FUNCTION) && p.frame.len() == 8),
    ("01 to another length", |p| p.is_exception(ILLEGAL_FUNCTION) && p.frame.len() != 8),
    ("01 to a function with its highest bit set", |p| p.is_exception(ILLEGAL_FUNCTION) && p.function() >= 0x80),
    ("01 to 83 or 86 hex", |p| p.is_exception(ILLEGAL_FUNCTION) && [0x83, 0x86].contains(&p.function())),
    ("03 to a 03 under 8 bytes", |p| p.is_told(READ, ILLEGAL_VALUE) && p.frame.len() < 8),
    ("03 to a 03 over 8 bytes", |p| p.is_told(READ, ILLEGAL_VALUE) && p.frame.len() > 8),
    ("03 to a 06 under 8 bytes", |p| p.is_told(WRITE, ILLEGAL_VALUE) && p.frame.len() < 8),
    ("03 to a 06 over 8 bytes", |p| p.is_told(WRITE, ILLEGAL_VALUE) && p.frame.len() > 8),
    ("03 to over 8 bytes on an unknown address too", |p| p.is_exception(ILLEGAL_VALUE) && p.begins_on_an_unknown_address()),
    ("any to 4 bytes", |p| p.reply.len() == 5 && p.frame.len() == 4),
    ("any to 256 bytes", |p| p.reply.len() == 5 && p.frame.len() == 256),
    ("02 to a 03 beside a row", |p| p.is_told(READ, ILLEGAL_ADDRESS) && p.address_is(|a| BESIDE_ROWS.contains(&a))),
    ("02 to a 03 on another address", |p| p.is_told(READ, ILLEGAL_ADDRESS) && p.is_on_an_unknown_address()),
    ("02 to a 06 on n or a pointer", |p| {
        p.is_told(WRITE, ILLEGAL_ADDRESS) && p.address_is(|a| (FIRST_REGISTER..=LAST_REGISTER).contains(&a))
    }),
    ("02 to a 06 on a record", |p| p.is_told(WRITE, ILLEGAL_ADDRESS) && p.address_is(|a| (701..=781).contains(&a))),
    ("02 to a 06 whose value is 0 too", |p| p.is_told(WRITE, ILLEGAL_ADDRESS) && p.asks_for(0)),
    ("03 to record 0", |p| p.is_told(READ, ILLEGAL_VALUE) && p.is_on(&NUMBERED, |k, n| k == 0 && n > 0)),
    ("03 to record n + 1", |p| p.is_told(READ, ILLEGAL_VALUE) && p.is_on(&NUMBERED, |k, n| k == n + 1 && n > 0)),
    ("03 to a record past n + 1", |p| p.is_told(READ, ILLEGAL_VALUE) && p.is_on(&NUMBERED, |k, n| k > n + 1 && n > 0)),
    ("03 to a record of an idle file", |p| p.is_told(READ, ILLEGAL_VALUE) && p.is_on(&NUMBERED, |k, n| k > 0 && n == 0)),
    ("03 where no record was requested", |p| p.is_told(READ, ILLEGAL_VALUE) && p.was_requested()),
    ("03 to 0 registers", |p| p.is_told(READ, ILLEGAL_VALUE) && p.is_on(&REGISTERS, |quantity, _| quantity == 0)),
    ("03 to over 33 registers", |p| p.is_told(READ, ILLEGAL_VALUE) && p.is_on(&REGISTERS, |quantity, _| quantity > 33)),
    ("02 to registers past 3733", |p| p.is_told(READ, ILLEGAL_ADDRESS) && p.row() == Some(Row::Registers)),
    ("03 to a 06 of 0", |p| p.is_told(WRITE, ILLEGAL_VALUE) && p.is_on(&SET, |value, n| value == 0 && n > 0)),
    ("03 to a 06 of n + 1", |p| p.is_told(WRITE, ILLEGAL_VALUE) && p.is_on(&SET, |value, n| value == n + 1 && n > 0)),
    ("03 to a 06 past n + 1", |p| p.is_told(WRITE, ILLEGAL_VALUE) && p.is_on(&SET, |value, n| value > n + 1 && n > 0)),
    ("03 to a 06 of an idle file", |p| p.is_told(WRITE, ILLEGAL_VALUE) && p.is_on(&SET, |value, n| value > 0 && n == 0)),
];

/// Replies that carry what was asked for.
pub const REPLIES: [Shown; 29] = [
    ("33 registers", |p| p.is_on(&REGISTERS, |quantity, _| quantity == 33) && is_read_reply(p.reply)),
    ("the last register alone", |p| p.address_is(|a| a == LAST_REGISTER) && p.is_data(|data| data.len() == 2)),
    ("an echo of a 06", |p| p.reply == p.frame && p.sets_a_number()),
    ("a record of 250 bytes", |p| p.record().is_some() && p.is_data(|data| data.len() == 250)),
    ("a bare stamp as a record", |p| p.is_record(|asked| !asked.is_stamp) && p.is_data(|data| data.len() == 6)),
    ("an alarm record", |p| p.is_record(|asked| asked.file == 11 && !asked.is_stamp)),
    ("a record of zeros", |p| p.record().is_some() && p.is_data(|data| data.iter().all(|&byte| byte == 0))),
    ("a record that stood before the list", |p| p.history.stands() && p.record().is_some()),
    ("a record with a text that is not clean", |p| p.has_an_old_text()),
    ("the newest record of a file gone round", |p| p.has_gone_round(|k, pointer| k == pointer)),
    ("the oldest record of a file gone round", |p| p.has_gone_round(|k, pointer| k == pointer + 1)),
    ("record 1 of a file gone round", |p| p.has_gone_round(|k, pointer| k == 1 && pointer > 1)),
    ("a record of a file gone round a hundred times", |p| p.is_record(|asked| p.history.rounds(asked.file) >= 100)),
    ("record n of a file", |p| p.is_record(|asked| asked.k == limit_of(p.before, asked.file))),
    ("the one record of a file of n 1", |p| p.is_record(|asked| limit_of(p.before, asked.file) == 1)),
    ("record 65,535", |p| p.is_record(|asked| asked.k == 65_535)),
    ("a record over 32,767", |p| p.is_record(|asked| asked.k > 32_767)),
    ("a requested record overwritten since", |p| {
        let n = |asked: &Asked| usize::from(limit_of(p.before, asked.file));
        p.was_requested() && p.is_record(|asked| p.history.since_requested(asked.file) >= n(asked))
    }),
    ("a record by a layout that is not the draft", |p| {
        p.record().is_some() && p.before.files.layout != p.before.settings.draft
    }),
    ("a record while stopped", |p| p.record().is_some() && !p.before.flags.running),
    ("a record while unlocked", |p| p.record().is_some() && p.before.flags.unlocked),
    ("live points while running", |p| p.is_live_reply() && p.before.flags.running),
    ("live points while stopped", |p| p.is_live_reply() && !p.before.flags.running),
    ("live points while unlocked", |p| p.is_live_reply() && p.before.flags.unlocked),
    ("live points before the first scan", |p| p.is_live_reply() && !p.before.seen.scanned),
    ("Booleans that are not those scanned last", |p| {
        p.is_live_reply() && p.function() == READ_BOOLEANS && booleans(p.table) != booleans(&p.before.seen.booleans)
    }),
    ("a reply in 256 bytes", |p| !p.reply.is_empty() && p.room == LEAST_REPLY),
    ("a reply in 257 bytes", |p| !p.reply.is_empty() && p.room == LEAST_REPLY + 1),
    ("a reply of 255 bytes in over 256", |p| p.reply.len() == 255 && p.room > LEAST_REPLY),
];
