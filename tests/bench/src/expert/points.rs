//! The rows of the live table, and one walk along a definition.

pub const STAMP_BYTES: u32 = 6;
pub const LONGEST_RECORD: u32 = 250;

#[derive(Clone, Copy, PartialEq, Eq)]
pub enum Kind {
    Boolean,
    Int16,
    Int32,
    Float,
    Text,
}

/// Points first to last, each of `size` bytes in the table, from `offset` on. Booleans take a bit each.
#[derive(Clone, Copy)]
pub struct Row {
    pub kind: Kind,
    pub first: u32,
    pub last: u32,
    pub size: u32,
    pub offset: u32,
}

const fn row(kind: Kind, first: u32, last: u32, size: u32, offset: u32) -> Row {
    Row { kind, first, last, size, offset }
}

static BOOLEANS: Row = row(Kind::Boolean, 1801, 1928, 0, 0);
static SHORTS: Row = row(Kind::Int16, 3001, 3064, 2, 16);
static TEXTS: Row = row(Kind::Text, 4001, 4032, 8, 144);
static LONGS: Row = row(Kind::Int32, 5101, 5164, 4, 400);
static FLOATS: Row = row(Kind::Float, 7101, 7228, 4, 656);
static LONG_TEXTS: Row = row(Kind::Text, 14001, 14016, 16, 1168);

impl Row {
    #[inline]
    pub fn of(point: u32) -> Option<&'static Row> {
        match point {
            1801..=1928 => Some(&BOOLEANS),
            3001..=3064 => Some(&SHORTS),
            4001..=4032 => Some(&TEXTS),
            5101..=5164 => Some(&LONGS),
            7101..=7228 => Some(&FLOATS),
            14001..=14016 => Some(&LONG_TEXTS),
            _ => None,
        }
    }

    /// The bytes of so many points in a record.
    #[inline]
    pub fn bytes(&self, points: u32) -> u32 {
        if self.kind == Kind::Boolean {
            points.div_ceil(8)
        } else {
            points * self.size
        }
    }

    /// Where a point stands in the table.
    #[inline]
    pub fn place(&self, point: u32) -> usize {
        (self.offset + (point - self.first) * self.size) as usize
    }
}

/// The row and the number of points of a group that is not (0, 0), if it is good.
#[inline]
pub fn good_group(first: u32, points: u32) -> Option<&'static Row> {
    let row = Row::of(first)?;
    (points > 0 && first + points <= row.last + 1).then_some(row)
}

/// The record's size, if all groups are good. Unused places are passed over four at a time.
#[inline]
pub fn record_size(groups: &[u16; 32]) -> Option<u32> {
    let mut size = STAMP_BYTES;
    for four in groups.chunks_exact(8).filter(|four| **four != [0; 8]) {
        for pair in four.chunks_exact(2) {
            let (first, points) = (u32::from(pair[0]), u32::from(pair[1]));
            if first | points != 0 {
                size += good_group(first, points)?.bytes(points);
            }
        }
    }
    Some(size)
}

#[inline]
pub fn is_boolean_or_none(point: u16) -> bool {
    (point == 0) | (point.wrapping_sub(1801) < 128)
}

#[inline]
pub fn is_float_or_none(point: u16) -> bool {
    (point == 0) | (point.wrapping_sub(7101) < 128)
}
