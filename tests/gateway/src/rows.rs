//! What a request asks for, by the address table; the rows of the live table are in `live`.

use model::frames::number_at;
use model::layout::{alarm_records, ALARM_FILE, USER_FILES};
use model::machine::{FIRST_REGISTER, LAST_REGISTER};

use crate::ffi::State;
use crate::live::Run;

/// A row of the address table.
#[derive(Clone, Copy, Debug, PartialEq, Eq)]
pub enum Row {
    RecordRequested,
    RecordNumbered,
    StampRequested,
    StampNumbered,
    Registers,
    SetRequested,
}

/// The four rows of records, each with the address before its file 1.
pub const RECORD_ROWS: [(u16, Row); 4] =
    [(700, Row::RecordRequested), (720, Row::RecordNumbered), (750, Row::StampRequested), (770, Row::StampNumbered)];

/// The address that sets a file's requested number, and reads it.
pub fn requested_register(file: u16) -> u16 {
    FIRST_REGISTER + 2 + 3 * (file - 1)
}

/// A request of 8 bytes, taken apart; its unit and CRC are judged elsewhere.
#[derive(Clone, Copy, Debug)]
pub struct Request {
    pub function: u8,
    pub address: u16,
    pub number: u16,
}

impl Request {
    pub fn of(frame: &[u8]) -> Option<Request> {
        let is_request = frame.len() == 8;
        is_request.then(|| Request { function: frame[1], address: number_at(frame, 2), number: number_at(frame, 4) })
    }

    /// The row of a 03 or 06, and the file, 1 to 11, that its address is of.
    pub fn row(&self) -> Option<(Row, usize)> {
        let files = 1..=ALARM_FILE as u16;
        match self.function {
            3 if (FIRST_REGISTER..=LAST_REGISTER).contains(&self.address) => {
                Some((Row::Registers, usize::from(self.address - FIRST_REGISTER) / 3 + 1))
            }
            3 => RECORD_ROWS.iter().find_map(|&(before, row)| {
                let file = self.address.checked_sub(before)?;
                files.contains(&file).then_some((row, usize::from(file)))
            }),
            6 => files
                .clone()
                .find(|&file| requested_register(file) == self.address)
                .map(|file| (Row::SetRequested, file.into())),
            _ => None,
        }
    }
}

impl Request {
    /// Whether the address is one that the function knows, of the archive or of the live table.
    pub fn is_known(&self) -> bool {
        self.row().is_some() || Run::of(self).is_some()
    }
}

/// A record that a 03 asks for, or its stamp alone.
pub struct Asked {
    pub file: usize,
    pub k: u16,
    pub is_stamp: bool,
}

impl Request {
    /// The record that is asked for, if any, of a gateway in this state.
    pub fn record(&self, s: &State) -> Option<Asked> {
        let (row, file) = self.row()?;
        let (k, is_stamp) = match row {
            Row::RecordRequested => (s.line.requested[file - 1], false),
            Row::RecordNumbered => (self.number, false),
            Row::StampRequested => (s.line.requested[file - 1], true),
            Row::StampNumbered => (self.number, true),
            Row::Registers | Row::SetRequested => return None,
        };
        Some(Asked { file, k, is_stamp })
    }
}

/// The laid-out n of file 1 to 11; of no other file is there a record.
pub fn limit_of(s: &State, file: usize) -> u16 {
    match file {
        1..=USER_FILES => s.files.layout.limits[file - 1],
        ALARM_FILE => alarm_records(s.site.firmware),
        _ => 0,
    }
}

/// The laid-out groups of file 1 to 10.
pub fn groups_of(s: &State, file: usize) -> &[u16; 32] {
    s.files.layout.groups[32 * (file - 1)..].first_chunk().expect("32 numbers a file")
}

/// Whether a reply to one of our polls carries data: an exception has 5 bytes, an echo function 06.
pub fn is_read_reply(reply: &[u8]) -> bool {
    reply.len() > 5 && [1, 3].contains(&reply[1])
}
