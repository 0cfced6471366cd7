//! A reply of a record through the reading end, held against the live table and the stamp that the record was captured from.

use std::fmt::Debug;

use model::points::{row_of_point, Kind};
use model::record::boolean;
use model::texts::{captured_text_byte, is_clean};

use crate::ffi::{self, Stamp, StampAnswer};

/// What a call of the reading end is given but for its indices.
#[derive(Debug)]
pub struct Given<'a> {
    pub groups: &'a [u16],
    pub day_first: bool,
    pub frame: &'a [u8],
}

/// How a record has the texts of the live table: clean, or, as before texts were cleaned, as they stood.
#[derive(Clone, Copy)]
pub enum Texts {
    Clean,
    AsTheyStood,
}

impl Texts {
    /// The text that a record has of one that stood so in the table.
    fn of(self, stood: &[u8]) -> Vec<u8> {
        match self {
            Texts::Clean => stood.iter().map(|&byte| captured_text_byte(byte)).collect(),
            Texts::AsTheyStood => stood.to_vec(),
        }
    }
}

/// The kinds of point by their numbers in C.
pub const KINDS: [&str; 6] = ["none", "flag", "16-bit", "32-bit", "float", "text"];

/// How many points were read back.
#[derive(Default)]
pub struct Points {
    /// Of each kind.
    pub kinds: [u32; KINDS.len()],
    /// Texts that are not as the table had them.
    pub cleaned: u32,
    /// Texts as the table had them, with bytes that are not clean.
    pub not_cleaned: u32,
}

pub fn same<T: Debug + PartialEq>(call: &str, wanted: T, got: T) -> Result<(), String> {
    if got == wanted {
        Ok(())
    } else {
        Err(format!("{call}: wanted {wanted:?}, got {got:?}"))
    }
}

/// What a point of the live table is to be decoded as: the kind's number, the bits of a number and the bytes of a text.
fn in_table(table: &[u8], point: u16) -> (u32, u32, &[u8]) {
    let row = row_of_point(point).expect("a point of a good group");
    if row.kind == Kind::Boolean {
        return (1, boolean(table, point).into(), &[]);
    }
    let bytes = &table[row.place_in_table(point)..][..row.point_bits / 8];
    let number = bytes.iter().take(4).fold(0u32, |n, &byte| n << 8 | u32::from(byte));
    match row.kind {
        Kind::Int16 => (2, number as u16 as i16 as u32, &[]),
        Kind::Int32 => (3, number, &[]),
        Kind::Float => (4, number, &[]),
        _ => (5, 0, bytes),
    }
}

impl Points {
    fn count(&mut self, kind: u32, text: &[u8], stood: &[u8]) {
        self.kinds[kind as usize] += 1;
        self.cleaned += u32::from(text != stood);
        self.not_cleaned += u32::from(!text.iter().all(|&byte| is_clean(byte)));
    }
}

/// Every point of the reply is the live table's, of which the record was captured, and the stamp is the capture's.
pub fn read_back(seen: &mut Points, given: &Given, table: &[u8], texts: Texts, stamp: Stamp) -> Result<(), String> {
    let Given { groups, day_first, frame } = *given;
    same("stamp of a capture", StampAnswer { number: 0, carried: 0, stamp }, ffi::stamp(groups, day_first, frame))?;
    for (g, pair) in (1..).zip(groups.chunks_exact(2)) {
        for e in 1..=u32::from(pair[1]) {
            let got = ffi::point(groups, day_first, frame, g, e);
            let read = &frame[got.place as usize..][..got.length as usize];
            let (kind, bits, stood) = in_table(table, pair[0] + e as u16 - 1);
            let text = texts.of(stood);
            let wanted = (0, (kind, bits, text.as_slice()));
            same(&format!("point {g}, {e} of a capture"), wanted, (got.number, (got.kind, got.bits, read)))?;
            seen.count(kind, &text, stood);
        }
    }
    Ok(())
}
