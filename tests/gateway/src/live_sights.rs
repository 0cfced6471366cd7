//! What polls of the live table were seen to do, counted, so that a run shows that no rule of them was left out: each thing in every
//! row, and what there is in some rows only.

use gateway::live::{most_points, Run};
use gateway::rows::Request;
use model::frames::{ILLEGAL_ADDRESS, ILLEGAL_FUNCTION, ILLEGAL_VALUE, READ, READ_BOOLEANS, WRITE};
use model::points::{row_of_point, Kind, ROWS};
use model::record::boolean;

use crate::poll_sights::{PollSight, Shown};

/// How often each is to be seen, in every row.
const OFTEN_ENOUGH: usize = 20;

/// A name, and whether one poll of a run shows it.
type ShownOfRun = (&'static str, fn(&PollSight, &Run) -> bool);

/// To be seen in every row, by the function that reads it.
const IN_EVERY_ROW: [ShownOfRun; 15] = [
    ("reply of one point", |p, run| p.is_live_reply() && run.quantity == 1),
    ("reply of several points", |p, run| p.is_live_reply() && run.quantity > 1),
    ("reply of the row's first point", |p, run| p.is_live_reply() && run.first == run.row().first),
    ("reply of the row's last point alone", |p, run| p.is_live_reply() && run.first == run.row().last),
    ("reply of several points to the row's end", |p, run| {
        p.is_live_reply() && run.quantity > 1 && run.quantity == run.to_the_end()
    }),
    ("exception 03 to no points", |p, run| p.is_exception(ILLEGAL_VALUE) && run.quantity == 0),
    ("exception 03 to a point more than 250 bytes hold", |p, run| {
        p.is_exception(ILLEGAL_VALUE) && run.quantity == most_points(run.row()) + 1
    }),
    ("exception 03 to over 250 bytes past the row too", |p, run| {
        p.is_exception(ILLEGAL_VALUE) && run.is_over_250_bytes() && run.past() > 0
    }),
    ("exception 03 to 65,535 points", |p, run| p.is_exception(ILLEGAL_VALUE) && run.quantity == u16::MAX),
    ("exception 02 to one point past the row", |p, run| p.is_exception(ILLEGAL_ADDRESS) && run.past() == 1),
    ("exception 02 to several points past the row", |p, run| p.is_exception(ILLEGAL_ADDRESS) && run.past() > 1),
    ("exception 02 to the row's last point and the next", |p, run| {
        p.is_exception(ILLEGAL_ADDRESS) && run.first == run.row().last && run.quantity == 2
    }),
    ("as many points as 250 bytes hold, replied to or past the row", |p, run| {
        (p.is_live_reply() || p.is_exception(ILLEGAL_ADDRESS)) && run.quantity == most_points(run.row())
    }),
    ("no reply to unit 0 of what we would answer", |p, run| p.reply.is_empty() && p.is_to(0) && run.is_answered()),
    ("no reply to another unit of what we would answer", |p, run| {
        p.reply.is_empty() && p.is_to_others(1..=247) && run.is_answered()
    }),
];

fn is_row(p: &PollSight, kind: Kind, is_such: impl Fn(&Run) -> bool) -> bool {
    p.run().is_some_and(|run| run.row().kind == kind && is_such(&run))
}

/// Whether the Booleans asked for leave spare bits, and the one after them is on in the table.
fn leaves_out_a_flag(p: &PollSight) -> bool {
    is_row(p, Kind::Boolean, |run| {
        let after = run.first + run.quantity;
        run.quantity % 8 != 0 && run.past() == 0 && run.to_the_end() > run.quantity && boolean(p.table, after)
    })
}

fn is_beside_a_row(address: u16) -> bool {
    ROWS.iter().any(|row| address == row.first - 1 || address == row.last + 1)
}

/// Whether the reply is 02 to this function, which reads no live points from an address such as this.
fn is_told_02_on(p: &PollSight, function: u8, is_such: impl Fn(u16) -> bool) -> bool {
    p.is_told(function, ILLEGAL_ADDRESS) && p.run().is_none() && p.address_is(is_such)
}

fn is_flag(address: u16) -> bool {
    row_of_point(address).is_some_and(|row| row.kind == Kind::Boolean)
}

fn is_other_point(address: u16) -> bool {
    row_of_point(address).is_some_and(|row| row.kind != Kind::Boolean)
}

/// Whether a 03 would be known on an address.
fn is_of_the_archive(address: u16) -> bool {
    Request { function: READ, address, number: 1 }.row().is_some()
}

/// To be seen in the rows that have it, or on an address that is none of the function's.
const IN_SOME_ROWS: [Shown; 27] = [
    ("reply of all 128 Booleans", |p| p.is_live_reply() && is_row(p, Kind::Boolean, |run| run.quantity == 128)),
    ("reply of all 64 16-bit points", |p| p.is_live_reply() && is_row(p, Kind::Int16, |run| run.quantity == 64)),
    ("reply of 248 bytes", |p| p.is_live_reply() && p.reply.len() == 253),
    ("reply of Booleans from within a byte", |p| {
        p.is_live_reply() && is_row(p, Kind::Boolean, |run| run.quantity > 8 && (run.first - 1801) % 8 != 0)
    }),
    ("reply that leaves out a Boolean that is on", |p| p.is_live_reply() && leaves_out_a_flag(p)),
    ("exception 02 to 129 Booleans", |p| {
        p.is_exception(ILLEGAL_ADDRESS) && is_row(p, Kind::Boolean, |run| run.quantity == 129)
    }),
    ("exception 02 to 2,000 Booleans", |p| {
        p.is_exception(ILLEGAL_ADDRESS) && is_row(p, Kind::Boolean, |run| run.quantity == 2_000)
    }),
    ("exception 03 to 2,001 Booleans", |p| {
        p.is_exception(ILLEGAL_VALUE) && is_row(p, Kind::Boolean, |run| run.quantity == 2_001)
    }),
    ("exception 02 to 125 16-bit points", |p| {
        p.is_exception(ILLEGAL_ADDRESS) && is_row(p, Kind::Int16, |run| run.quantity == 125)
    }),
    ("exception 03 to all 32 texts of 8", |p| {
        p.is_exception(ILLEGAL_VALUE) && is_row(p, Kind::Text8, |run| run.quantity == 32 && run.past() == 0)
    }),
    ("exception 03 to all 16 texts of 16", |p| {
        p.is_exception(ILLEGAL_VALUE) && is_row(p, Kind::Text16, |run| run.quantity == 16 && run.past() == 0)
    }),
    ("exception 03 to 32-bit points of over 250 bytes in their row", |p| {
        p.is_exception(ILLEGAL_VALUE) && is_row(p, Kind::Int32, |run| run.is_over_250_bytes() && run.past() == 0)
    }),
    ("exception 03 to floats of over 250 bytes in their row", |p| {
        p.is_exception(ILLEGAL_VALUE) && is_row(p, Kind::Float, |run| run.is_over_250_bytes() && run.past() == 0)
    }),
    ("exception 02 to a 01 before the Booleans", |p| is_told_02_on(p, READ_BOOLEANS, |address| address == 1800)),
    ("exception 02 to a 01 past the Booleans", |p| is_told_02_on(p, READ_BOOLEANS, |address| address == 1929)),
    ("exception 02 to a 01 on another row", |p| is_told_02_on(p, READ_BOOLEANS, is_other_point)),
    ("exception 02 to a 01 on an address of the archive", |p| is_told_02_on(p, READ_BOOLEANS, is_of_the_archive)),
    ("exception 02 to a 01 of no points too", |p| is_told_02_on(p, READ_BOOLEANS, |_| p.asks_for(0))),
    ("exception 02 to a 03 on a Boolean", |p| is_told_02_on(p, READ, is_flag)),
    ("exception 02 to a 03 on a Boolean, of no points too", |p| is_told_02_on(p, READ, |at| is_flag(at) && p.asks_for(0))),
    ("exception 02 to a 03 beside a row", |p| is_told_02_on(p, READ, is_beside_a_row)),
    ("exception 02 to a 06 on a live point", |p| is_told_02_on(p, WRITE, |address| row_of_point(address).is_some())),
    ("exception 01 to another function on a Boolean", |p| p.is_exception(ILLEGAL_FUNCTION) && p.address_is(is_flag)),
    ("exception 01 to another function on another point", |p| p.is_exception(ILLEGAL_FUNCTION) && p.address_is(is_other_point)),
    ("exception 03 to a 01 under 8 bytes", |p| p.is_told(READ_BOOLEANS, ILLEGAL_VALUE) && p.frame.len() < 8),
    ("exception 03 to a 01 over 8 bytes", |p| p.is_told(READ_BOOLEANS, ILLEGAL_VALUE) && p.frame.len() > 8),
    ("exception 03 to a 01 over 8 bytes on what is no Boolean too", |p| {
        p.is_told(READ_BOOLEANS, ILLEGAL_VALUE) && p.begins_on_an_unknown_address()
    }),
];

/// How often polls of the live table that were not refused showed each thing.
#[derive(Default)]
pub struct LiveTally {
    in_every_row: [[usize; ROWS.len()]; IN_EVERY_ROW.len()],
    in_some_rows: [usize; IN_SOME_ROWS.len()],
}

impl LiveTally {
    pub fn polled(&mut self, sight: &PollSight) {
        if let Some(run) = sight.run() {
            for (seen, (_, is_shown)) in self.in_every_row.iter_mut().zip(IN_EVERY_ROW) {
                seen[run.row] += usize::from(is_shown(sight, &run));
            }
        }
        for (seen, (_, is_shown)) in self.in_some_rows.iter_mut().zip(IN_SOME_ROWS) {
            *seen += usize::from(is_shown(sight));
        }
    }

    /// Each thing, how often it was seen, in every row by the one that showed it least, and how often it should be.
    pub fn seen(&self) -> Vec<(String, usize, usize)> {
        let mut seen = Vec::new();
        for ((name, _), rows) in IN_EVERY_ROW.iter().zip(&self.in_every_row) {
            let least = rows.iter().copied().min().unwrap_or(0);
            seen.push((format!("live {name}, in the row that had fewest"), least, OFTEN_ENOUGH));
        }
        let some = IN_SOME_ROWS.iter().zip(&self.in_some_rows);
        seen.extend(some.map(|((name, _), &n)| (format!("live {name}"), n, OFTEN_ENOUGH)));
        seen
    }
}
