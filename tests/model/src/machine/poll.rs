//! The Modbus RTU answering end, for the archive and for the live table, of
//! which 01 reads the Booleans and 03 the other rows.

use super::Machine;
use crate::card::{self, lowest, Answer};
use crate::crc;
use crate::frames::{
    data_reply, exception, number_at, ILLEGAL_ADDRESS, ILLEGAL_FUNCTION, ILLEGAL_VALUE,
    LONGEST_FRAME, MOST_DATA, READ, READ_BOOLEANS, REQUEST_BYTES, SHORTEST_FRAME, WRITE,
};
use crate::layout::ALARM_FILE;
use crate::points::{group_of, row_of_point, Group, Kind, Row, STAMP_BYTES, TABLE_BYTES};
use crate::record::captured_group;

/// The least length of a lent reply buffer.
pub const LEAST_REPLY: usize = 256;

/// 03 on one of these + f: the record with the requested number, the record
/// whose number is the quantity, and likewise the stamp only.
pub const REQUESTED_RECORD: u16 = 700;
pub const NUMBERED_RECORD: u16 = 720;
pub const REQUESTED_STAMP: u16 = 750;
pub const NUMBERED_STAMP: u16 = 770;

/// The three registers a file: n, pointer, requested.
pub const FIRST_REGISTER: u16 = 3701;
pub const LAST_REGISTER: u16 = 3733;
pub const REGISTERS_A_FILE: u16 = 3;

/// The register of file f that 06 sets: 3703 + 3(f - 1).
pub fn requested_register(file: usize) -> u16 {
    3703 + REGISTERS_A_FILE * (file as u16 - 1)
}

/// The file f, 1 to 11, whose address is base + f.
fn file_past(base: u16, address: u16) -> Option<usize> {
    (1..=ALARM_FILE).find(|&f| usize::from(base) + f == usize::from(address))
}

/// The row of the live table that a function reads from an address on: 01
/// the Booleans, 03 any other.
fn live_row(function: u8, address: u16) -> Option<&'static Row> {
    let row = row_of_point(address)?;
    let reads_it = match row.kind {
        Kind::Boolean => READ_BOOLEANS,
        _ => READ,
    };
    (function == reads_it).then_some(row)
}

/// A run of points from one of this row on, as a captured group has them.
fn live_points(table: &[u8], row: &Row, first: u16, quantity: u16) -> Result<Vec<u8>, u8> {
    if quantity == 0 || row.bytes_of(quantity) > MOST_DATA {
        return Err(ILLEGAL_VALUE);
    }
    match group_of(first, quantity) {
        Group::Good(_) => Ok(captured_group(table, first, quantity)),
        _past_its_row => Err(ILLEGAL_ADDRESS),
    }
}

impl Machine {
    /// Poll. Answers as every call does, and the reply's length (0 for no
    /// reply). Reply bytes past that length are unchanged.
    pub fn poll(
        &mut self,
        archive_len: usize,
        table: &[u8],
        frame: &[u8],
        reply: &mut [u8],
    ) -> (Answer, usize) {
        let checked = lowest(&[
            (card::MEMORY, archive_len != self.archive_len),
            (card::FOREIGN, self.is_foreign()),
            (card::TABLE, table.len() != TABLE_BYTES),
            (card::REPLY, reply.len() < LEAST_REPLY),
        ]);
        if checked.is_err() {
            return (checked.into(), 0);
        }
        let bytes = self.reply_to(table, frame);
        reply[..bytes.len()].copy_from_slice(&bytes);
        (Answer::DONE, bytes.len())
    }

    /// The reply's bytes; none where there is no reply.
    fn reply_to(&mut self, table: &[u8], frame: &[u8]) -> Vec<u8> {
        let length_is_good = (SHORTEST_FRAME..=LONGEST_FRAME).contains(&frame.len());
        if !length_is_good || !crc::checks(frame) {
            return Vec::new();
        }
        let (unit, function) = (frame[0], frame[1]);
        if unit == 0 {
            if function == WRITE {
                let _no_reply_either_way = self.serve(table, frame);
            }
            return Vec::new();
        }
        if unit != self.unit {
            return Vec::new();
        }
        match self.serve(table, frame) {
            Ok(reply) => reply,
            Err(code) => exception(unit, function, code),
        }
    }

    /// The checks in their order, then the work: a reply or an exception.
    fn serve(&mut self, table: &[u8], frame: &[u8]) -> Result<Vec<u8>, u8> {
        let (unit, function) = (frame[0], frame[1]);
        if ![READ_BOOLEANS, READ, WRITE].contains(&function) {
            return Err(ILLEGAL_FUNCTION);
        }
        if frame.len() != REQUEST_BYTES {
            return Err(ILLEGAL_VALUE);
        }
        let (address, number) = (number_at(frame, 2), number_at(frame, 4));
        if function == WRITE {
            self.set_requested(address, number)?;
            return Ok(frame.to_vec());
        }
        let data = match live_row(function, address) {
            Some(row) => live_points(table, row, address, number)?,
            None if function == READ => self.read_archive(address, number)?,
            None => return Err(ILLEGAL_ADDRESS),
        };
        Ok(data_reply(unit, function, &data))
    }

    /// Function 03 on any address but the live table's: the data read.
    fn read_archive(&self, address: u16, quantity: u16) -> Result<Vec<u8>, u8> {
        if let Some(file) = file_past(REQUESTED_RECORD, address) {
            self.record_requested(file)
        } else if let Some(file) = file_past(NUMBERED_RECORD, address) {
            self.record_numbered(file, quantity)
        } else if let Some(file) = file_past(REQUESTED_STAMP, address) {
            self.record_requested(file).map(stamp_only)
        } else if let Some(file) = file_past(NUMBERED_STAMP, address) {
            self.record_numbered(file, quantity).map(stamp_only)
        } else if (FIRST_REGISTER..=LAST_REGISTER).contains(&address) {
            self.registers(address, quantity)
        } else {
            Err(ILLEGAL_ADDRESS)
        }
    }

    fn record_requested(&self, file: usize) -> Result<Vec<u8>, u8> {
        self.record_numbered(file, self.requested(file))
    }

    fn record_numbered(&self, file: usize, number: u16) -> Result<Vec<u8>, u8> {
        if !(1..=self.laid_out_n(file)).contains(&number) {
            return Err(ILLEGAL_VALUE);
        }
        Ok(self.record(file, usize::from(number)))
    }

    /// Registers from an address on, two bytes each.
    fn registers(&self, address: u16, quantity: u16) -> Result<Vec<u8>, u8> {
        if quantity == 0 || quantity > 33 {
            return Err(ILLEGAL_VALUE);
        }
        if address + quantity - 1 > LAST_REGISTER {
            return Err(ILLEGAL_ADDRESS);
        }
        let all = (1..=ALARM_FILE).flat_map(|file| {
            [
                self.laid_out_n(file),
                self.pointer(file),
                self.requested(file),
            ]
        });
        Ok(all
            .skip(usize::from(address - FIRST_REGISTER))
            .take(usize::from(quantity))
            .flat_map(u16::to_be_bytes)
            .collect())
    }

    /// Function 06 on 3703 + 3(f - 1).
    fn set_requested(&mut self, address: u16, value: u16) -> Result<(), u8> {
        let file = (1..=ALARM_FILE).find(|&f| requested_register(f) == address);
        let Some(file) = file else {
            return Err(ILLEGAL_ADDRESS);
        };
        if !(1..=self.laid_out_n(file)).contains(&value) {
            return Err(ILLEGAL_VALUE);
        }
        self.requested[file - 1] = value;
        Ok(())
    }
}

/// The stamp at the head of a record.
fn stamp_only(mut record: Vec<u8>) -> Vec<u8> {
    record.truncate(STAMP_BYTES);
    record
}
