//! What polls were refused for, and what they would have done, counted.

use gateway::live::Run;
use gateway::rows::{Request, Row};
use model::card::{FOREIGN, MEMORY, REPLY, TABLE};
use model::crc;
use model::machine::LEAST_REPLY;
use model::points::TABLE_BYTES;

/// A refused poll: the card's number, and what it was lent but for the archive.
pub struct Refused<'a> {
    pub number: u8,
    pub table: &'a [u8],
    pub frame: &'a [u8],
    pub room: usize,
}

impl Refused<'_> {
    /// The request, if the frame is one with a right CRC.
    fn request(&self) -> Option<Request> {
        Request::of(self.frame).filter(|_| crc::checks(self.frame))
    }

    fn is_on(&self, is_such: impl Fn(Row) -> bool) -> bool {
        self.request().and_then(|request| request.row()).is_some_and(|(row, _)| is_such(row))
    }

    fn is_live(&self) -> bool {
        self.request().and_then(|request| Run::of(&request)).is_some_and(|run| run.is_answered())
    }

    /// Refused with this number, and the table has another length.
    fn is_over_another_table(&self, number: u8) -> bool {
        self.number == number && self.table.len() != TABLE_BYTES
    }

    /// Refused with this number, and the reply buffer is too short.
    fn is_in_too_little_room(&self, number: u8) -> bool {
        self.number == number && self.room < LEAST_REPLY
    }
}

/// A name, and whether one refused poll shows it.
type Shown = (&'static str, fn(&Refused) -> bool);

/// What a refused poll can show; a 06 among them must not be done.
pub const REFUSED: [Shown; 15] = [
    ("13 to a 06", |p| p.number == REPLY && p.is_on(|row| row == Row::SetRequested)),
    ("13 to a poll of live points", |p| p.number == REPLY && p.is_live()),
    ("Memory with a short reply buffer", |p| p.is_in_too_little_room(MEMORY)),
    ("Foreign with a short reply buffer", |p| p.is_in_too_little_room(FOREIGN)),
    ("Table with a short reply buffer", |p| p.is_in_too_little_room(TABLE)),
    ("Memory with another table", |p| p.is_over_another_table(MEMORY)),
    ("Foreign with another table", |p| p.is_over_another_table(FOREIGN)),
    ("Table to a poll of live points", |p| p.number == TABLE && p.is_live()),
    ("Table to a poll of the archive", |p| p.number == TABLE && p.is_on(|row| row != Row::SetRequested)),
    ("Table to a 06", |p| p.number == TABLE && p.is_on(|row| row == Row::SetRequested)),
    ("Table to a frame with a wrong CRC or none", |p| p.number == TABLE && !crc::checks(p.frame)),
    ("Table of no bytes", |p| p.number == TABLE && p.table.is_empty()),
    ("Table of a byte less", |p| p.number == TABLE && p.table.len() == TABLE_BYTES - 1),
    ("Table of a byte more", |p| p.number == TABLE && p.table.len() == TABLE_BYTES + 1),
    ("Table of a length that is right when cut to 16 bits", |p| p.number == TABLE && p.table.len() == 65_536 + TABLE_BYTES),
];
