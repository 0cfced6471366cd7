//! The exported functions of libgateway.a, as include/windrow_gateway.h declares them.

use reader::ffi::Stamp;

#[repr(C)]
#[derive(Clone, Copy, Debug, PartialEq, Eq)]
pub struct Site {
    pub archive_length: u32,
    pub unit: u8,
    pub day_first: bool,
    pub firmware: u16,
}

#[repr(C)]
#[derive(Clone, Copy, Debug, PartialEq, Eq)]
pub struct Flags {
    pub running: bool,
    pub unlocked: bool,
    pub pending: bool,
}

#[repr(C)]
#[derive(Clone, Copy, Debug, PartialEq, Eq)]
pub struct Seen {
    pub scanned: bool,
    pub booleans: [u8; 16],
}

#[repr(C)]
#[derive(Clone, Copy, Debug, PartialEq, Eq)]
pub struct Definitions {
    pub groups: [u16; 320],
    pub limits: [u16; 10],
}

/// An alarm slot; `kind` is C's `type`.
#[repr(C)]
#[derive(Clone, Copy, Debug, PartialEq, Eq)]
pub struct Slot {
    pub point: u16,
    pub transducer: u16,
    pub kind: u16,
}

#[repr(C)]
#[derive(Clone, Copy, Debug, PartialEq, Eq)]
pub struct Settings {
    pub draft: Definitions,
    pub triggers: [u16; 10],
    pub slots: [Slot; 32],
}

#[repr(C)]
#[derive(Clone, Copy, Debug, PartialEq, Eq)]
pub struct Files {
    pub layout: Definitions,
    pub pointers: [u16; 11],
}

#[repr(C)]
#[derive(Clone, Copy, Debug, PartialEq, Eq)]
pub struct Line {
    pub requested: [u16; 11],
}

#[repr(C)]
#[derive(Clone, Copy, Debug, PartialEq, Eq)]
pub struct State {
    pub site: Site,
    pub flags: Flags,
    pub seen: Seen,
    pub files: Files,
    pub line: Line,
    pub settings: Settings,
}

#[repr(C)]
#[derive(Clone, Copy, Debug, PartialEq, Eq)]
pub struct Answer {
    pub number: u32,
    pub carried: u32,
    pub state: State,
}

/// What a poll answers; `length` is the reply's, 0 for none.
#[repr(C)]
#[derive(Clone, Copy, Debug, PartialEq, Eq)]
pub struct PollAnswer {
    pub number: u32,
    pub length: u32,
    pub state: State,
}

#[link(name = "gateway", kind = "static")]
extern "C" {
    fn windrow_gateway_fresh(day_first: bool, unit: u32, firmware: u32, archive: *mut u8, len: usize) -> Answer;
    fn windrow_gateway_unlock(s: State, archive: *const u8, len: usize) -> Answer;
    fn windrow_gateway_lock(s: State, archive: *const u8, len: usize) -> Answer;
    fn windrow_gateway_stop(s: State, archive: *const u8, len: usize) -> Answer;
    fn windrow_gateway_start(s: State, archive: *mut u8, len: usize) -> Answer;
    fn windrow_gateway_define(s: State, archive: *const u8, len: usize, file: u32, groups: *const u16, limit: u16) -> Answer;
    fn windrow_gateway_trigger(s: State, archive: *const u8, len: usize, file: u32, point: u32) -> Answer;
    fn windrow_gateway_alarm(
        s: State,
        archive: *const u8,
        len: usize,
        slot: u32,
        point: u32,
        kind: u32,
        transducer: u32,
    ) -> Answer;
    fn windrow_gateway_scan(s: State, archive: *mut u8, len: usize, table: *const u8, table_len: usize, stamp: Stamp)
        -> Answer;
    fn windrow_gateway_poll(
        s: State,
        archive: *const u8,
        len: usize,
        table: *const u8,
        table_len: usize,
        frame: *const u8,
        frame_len: usize,
        reply: *mut u8,
        reply_len: usize,
    ) -> PollAnswer;
}

pub fn fresh(day_first: bool, unit: u32, firmware: u32, archive: &mut [u8]) -> Answer {
    unsafe { windrow_gateway_fresh(day_first, unit, firmware, archive.as_mut_ptr(), archive.len()) }
}

// What a call only reads, as the archive of most calls, the groups, the live table and the frame, it is lent to write as well, so
// that a byte written would be seen.

pub fn unlock(s: State, archive: &mut [u8]) -> Answer {
    unsafe { windrow_gateway_unlock(s, archive.as_mut_ptr(), archive.len()) }
}

pub fn lock(s: State, archive: &mut [u8]) -> Answer {
    unsafe { windrow_gateway_lock(s, archive.as_mut_ptr(), archive.len()) }
}

pub fn stop(s: State, archive: &mut [u8]) -> Answer {
    unsafe { windrow_gateway_stop(s, archive.as_mut_ptr(), archive.len()) }
}

pub fn start(s: State, archive: &mut [u8]) -> Answer {
    unsafe { windrow_gateway_start(s, archive.as_mut_ptr(), archive.len()) }
}

pub fn define(s: State, archive: &mut [u8], file: u32, groups: &mut [u16; 32], limit: u16) -> Answer {
    unsafe { windrow_gateway_define(s, archive.as_mut_ptr(), archive.len(), file, groups.as_mut_ptr(), limit) }
}

pub fn trigger(s: State, archive: &mut [u8], file: u32, point: u32) -> Answer {
    unsafe { windrow_gateway_trigger(s, archive.as_mut_ptr(), archive.len(), file, point) }
}

pub fn alarm(s: State, archive: &mut [u8], slot: u32, point: u32, kind: u32, transducer: u32) -> Answer {
    unsafe { windrow_gateway_alarm(s, archive.as_mut_ptr(), archive.len(), slot, point, kind, transducer) }
}

pub fn scan(s: State, archive: &mut [u8], table: &mut [u8], stamp: Stamp) -> Answer {
    unsafe { windrow_gateway_scan(s, archive.as_mut_ptr(), archive.len(), table.as_mut_ptr(), table.len(), stamp) }
}

pub fn poll(s: State, archive: &mut [u8], table: &mut [u8], frame: &mut [u8], reply: &mut [u8]) -> PollAnswer {
    let (archive_len, table_len, frame_len, reply_len) = (archive.len(), table.len(), frame.len(), reply.len());
    let (archive, table) = (archive.as_mut_ptr(), table.as_mut_ptr());
    let (frame, reply) = (frame.as_mut_ptr(), reply.as_mut_ptr());
    unsafe { windrow_gateway_poll(s, archive, archive_len, table, table_len, frame, frame_len, reply, reply_len) }
}
