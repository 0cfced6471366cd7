//! The five exported functions of libreader.a.

#[repr(C)]
#[derive(Clone, Copy, Debug, PartialEq, Eq)]
pub struct PartAnswer {
    pub number: u32,
    pub carried: u32,
    pub place: u32,
    pub length: u32,
}

#[repr(C)]
#[derive(Clone, Copy, Debug, PartialEq, Eq)]
pub struct Stamp {
    pub month: u8,
    pub day: u8,
    pub year: u8,
    pub hour: u8,
    pub minute: u8,
    pub second: u8,
}

impl From<model::record::Stamp> for Stamp {
    fn from(s: model::record::Stamp) -> Stamp {
        Stamp { month: s.month, day: s.day, year: s.year, hour: s.hour, minute: s.minute, second: s.second }
    }
}

#[repr(C)]
#[derive(Clone, Copy, Debug, PartialEq, Eq)]
pub struct StampAnswer {
    pub number: u32,
    pub carried: u32,
    pub stamp: Stamp,
}

#[repr(C)]
#[derive(Clone, Copy, Debug, PartialEq, Eq)]
pub struct PointAnswer {
    pub number: u32,
    pub carried: u32,
    pub kind: u32,
    pub bits: u32,
    pub place: u32,
    pub length: u32,
}

#[link(name = "reader", kind = "static")]
extern "C" {
    fn windrow_reader_record(groups: *const u16, n: usize, day_first: bool, frame: *const u8, len: usize) -> PartAnswer;
    fn windrow_reader_stamp(groups: *const u16, n: usize, day_first: bool, frame: *const u8, len: usize) -> StampAnswer;
    fn windrow_reader_stretch(
        groups: *const u16,
        n: usize,
        day_first: bool,
        frame: *const u8,
        len: usize,
        g: u32,
    ) -> PartAnswer;
    fn windrow_reader_point(
        groups: *const u16,
        n: usize,
        day_first: bool,
        frame: *const u8,
        len: usize,
        g: u32,
        e: u32,
    ) -> PointAnswer;
    fn windrow_reader_crc(bytes: *const u8, len: usize) -> u16;
}

pub fn record(groups: &[u16], day_first: bool, frame: &[u8]) -> PartAnswer {
    unsafe { windrow_reader_record(groups.as_ptr(), groups.len(), day_first, frame.as_ptr(), frame.len()) }
}

pub fn stamp(groups: &[u16], day_first: bool, frame: &[u8]) -> StampAnswer {
    unsafe { windrow_reader_stamp(groups.as_ptr(), groups.len(), day_first, frame.as_ptr(), frame.len()) }
}

pub fn stretch(groups: &[u16], day_first: bool, frame: &[u8], g: u32) -> PartAnswer {
    unsafe { windrow_reader_stretch(groups.as_ptr(), groups.len(), day_first, frame.as_ptr(), frame.len(), g) }
}

pub fn point(groups: &[u16], day_first: bool, frame: &[u8], g: u32, e: u32) -> PointAnswer {
    unsafe { windrow_reader_point(groups.as_ptr(), groups.len(), day_first, frame.as_ptr(), frame.len(), g, e) }
}

pub fn crc(bytes: &[u8]) -> u16 {
    unsafe { windrow_reader_crc(bytes.as_ptr(), bytes.len()) }
}
