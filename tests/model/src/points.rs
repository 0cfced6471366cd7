//! The live table's rows, and the groups of records.

use std::ops::Range;

use crate::card::{Refusal, GROUP, LONG};

/// The length of the live table.
pub const TABLE_BYTES: usize = 1424;
/// The stamp at the head of every record.
pub const STAMP_BYTES: usize = 6;
/// The most bytes of a record, stamp included.
pub const LONGEST_RECORD: usize = 250;
/// The groups of a file: 16 places.
pub const PLACES: usize = 16;
/// The numbers of a file's groups: first point and number of points, 16 times.
pub const GROUP_NUMBERS: usize = 2 * PLACES;

/// The kinds of point.
#[derive(Clone, Copy, Debug, PartialEq, Eq)]
pub enum Kind {
    Boolean,
    Int16,
    Text8,
    Int32,
    Float,
    Text16,
}

impl Kind {
    /// Whether it is one of the two text kinds.
    pub fn is_text(self) -> bool {
        matches!(self, Kind::Text8 | Kind::Text16)
    }
}

/// One row of the live table. A Boolean takes one bit, any other point
/// `point_bits / 8` bytes.
#[derive(Debug, PartialEq, Eq)]
pub struct Row {
    pub kind: Kind,
    pub first: u16,
    pub last: u16,
    pub point_bits: usize,
    pub from_byte: usize,
}

const fn row(kind: Kind, first: u16, last: u16, point_bits: usize, from_byte: usize) -> Row {
    Row {
        kind,
        first,
        last,
        point_bits,
        from_byte,
    }
}

/// The six rows.
pub static ROWS: [Row; 6] = [
    row(Kind::Boolean, 1801, 1928, 1, 0),
    row(Kind::Int16, 3001, 3064, 16, 16),
    row(Kind::Text8, 4001, 4032, 64, 144),
    row(Kind::Int32, 5101, 5164, 32, 400),
    row(Kind::Float, 7101, 7228, 32, 656),
    row(Kind::Text16, 14001, 14016, 128, 1168),
];

impl Row {
    /// How many points the row has.
    pub fn points(&self) -> u16 {
        self.last + 1 - self.first
    }

    /// The row's bytes in the table.
    pub fn in_table(&self) -> Range<usize> {
        self.from_byte..self.from_byte + self.bytes_of(self.points())
    }

    /// Where a point of this row (not a Boolean one) starts in the table.
    pub fn place_in_table(&self, point: u16) -> usize {
        self.from_byte + usize::from(point - self.first) * self.point_bits / 8
    }

    /// The bytes that so many points of this row take in a record.
    pub fn bytes_of(&self, points: u16) -> usize {
        (usize::from(points) * self.point_bits).div_ceil(8)
    }
}

/// The row a point is in, if any.
pub fn row_of_point(point: u16) -> Option<&'static Row> {
    ROWS.iter()
        .find(|row| (row.first..=row.last).contains(&point))
}

/// Whether a point is in the row of a kind. A call may be given any number.
pub fn is_of_kind(point: u32, kind: Kind) -> bool {
    let row = u16::try_from(point).ok().and_then(row_of_point);
    row.is_some_and(|row| row.kind == kind)
}

/// What a first point and a number of points make.
#[derive(Clone, Copy, Debug, PartialEq, Eq)]
pub enum Group {
    Unused,
    Good(&'static Row),
    Bad,
}

/// (0, 0) is unused. Any other group needs at least one point, all in one row.
pub fn group_of(first: u16, points: u16) -> Group {
    if (first, points) == (0, 0) {
        return Group::Unused;
    }
    let past_last = u32::from(first) + u32::from(points);
    match row_of_point(first) {
        Some(row) if points > 0 && past_last <= u32::from(row.last) + 1 => Group::Good(row),
        _ => Group::Bad,
    }
}

/// The bytes a group adds to a record. A bad group has none.
pub fn group_bytes(first: u16, points: u16) -> usize {
    match group_of(first, points) {
        Group::Good(row) => row.bytes_of(points),
        Group::Unused | Group::Bad => 0,
    }
}

/// The (first point, number of points) pairs of a list of group numbers.
pub fn pairs(groups: &[u16; GROUP_NUMBERS]) -> impl Iterator<Item = (u16, u16)> + '_ {
    groups.chunks_exact(2).map(|pair| (pair[0], pair[1]))
}

/// The size of a record with these groups, none of which is bad.
pub fn record_size(groups: &[u16; GROUP_NUMBERS]) -> usize {
    let data: usize = pairs(groups).map(|(p, count)| group_bytes(p, count)).sum();
    STAMP_BYTES + data
}

/// The record size of a good definition; else Group (7) with the first bad
/// group's place, counted from 1, or Long (8).
pub fn judge_definition(groups: &[u16; GROUP_NUMBERS]) -> Result<usize, Refusal> {
    let first_bad = pairs(groups).position(|(p, count)| group_of(p, count) == Group::Bad);
    if let Some(index) = first_bad {
        return Err(Refusal {
            number: GROUP,
            carried: index as u16 + 1,
        });
    }
    let size = record_size(groups);
    if size > LONGEST_RECORD {
        return Err(Refusal::plain(LONG));
    }
    Ok(size)
}

/// A trigger or an alarm slot's point: 0 or a Boolean.
pub fn is_boolean_or_none(point: u32) -> bool {
    point == 0 || is_of_kind(point, Kind::Boolean)
}

/// An alarm slot's transducer: 0 or a float.
pub fn is_float_or_none(point: u32) -> bool {
    point == 0 || is_of_kind(point, Kind::Float)
}

/// A list of group numbers with these groups in the first places, the other
/// places unused.
pub fn groups_from_first_place(used: &[(u16, u16)]) -> [u16; GROUP_NUMBERS] {
    let mut groups = [0; GROUP_NUMBERS];
    for (place, &(first, points)) in used.iter().enumerate() {
        groups[2 * place] = first;
        groups[2 * place + 1] = points;
    }
    groups
}

#[cfg(test)]
mod tests {
    use super::*;

    fn judge(used: &[(u16, u16)]) -> Result<usize, Refusal> {
        judge_definition(&groups_from_first_place(used))
    }

    fn bad_group(place: u16) -> Result<usize, Refusal> {
        Err(Refusal {
            number: 7,
            carried: place,
        })
    }

    #[test]
    fn the_rows_fill_the_table_without_gaps() {
        let mut next = 0;
        for row in &ROWS {
            assert_eq!(row.in_table().start, next);
            next = row.in_table().end;
        }
        assert_eq!(next, TABLE_BYTES);
    }

    /// * Groups (7101,3), (5101,3): 30 bytes (the Omni bulletin's example).
    #[test]
    fn marked_the_bulletins_example_is_30_bytes() {
        assert_eq!(judge(&[(7101, 3), (5101, 3)]), Ok(30));
    }

    /// * (7101,61): 250, taken; with (3001,1) besides, 252: 8.
    #[test]
    fn marked_250_is_taken_and_252_is_long() {
        assert_eq!(judge(&[(7101, 61)]), Ok(250));
        let besides = [(7101, 61), (3001, 1)];
        assert_eq!(record_size(&groups_from_first_place(&besides)), 252);
        assert_eq!(judge(&besides), Err(Refusal::plain(8)));
    }

    /// * (7228,1) taken; (7228,2): 7.
    #[test]
    fn marked_a_group_may_not_leave_its_row() {
        assert_eq!(judge(&[(7228, 1)]), Ok(10));
        assert_eq!(judge(&[(7228, 2)]), bad_group(1));
    }

    #[test]
    fn no_groups_give_bare_stamps() {
        assert_eq!(judge(&[]), Ok(6));
    }

    #[test]
    fn unused_may_stand_anywhere_and_adds_nothing() {
        assert_eq!(judge(&[(0, 0), (3001, 1), (0, 0), (4001, 1)]), Ok(16));
    }

    #[test]
    fn the_first_bad_group_is_carried_and_goes_before_long() {
        let groups = [(7101, 128), (0, 0), (3001, 0), (1, 1)];
        assert_eq!(judge(&groups), bad_group(3));
        let mut last = [(0, 0); 16];
        last[15] = (0, 5);
        assert_eq!(judge(&last), bad_group(16));
    }

    #[test]
    fn numbers_are_free_and_do_not_overflow() {
        assert_eq!(group_of(65535, 65535), Group::Bad);
        assert_eq!(group_of(14016, 65535), Group::Bad);
        assert_eq!(group_of(0, 1), Group::Bad);
        assert_eq!(group_of(1801, 0), Group::Bad);
        assert_eq!(group_of(1800, 2), Group::Bad);
    }

    #[test]
    fn whole_rows_are_good() {
        for row in &ROWS {
            let all = row.points();
            assert_eq!(group_of(row.first, all), Group::Good(row));
            assert_eq!(group_of(row.first, all + 1), Group::Bad);
        }
    }

    #[test]
    fn a_number_is_judged_whole() {
        assert!(is_boolean_or_none(1801) && is_float_or_none(7228));
        assert!(!is_boolean_or_none(65_536) && !is_float_or_none(65_536));
        assert!(!is_boolean_or_none(65_536 + 1801));
        assert!(!is_float_or_none(0x7000_0000 + 7101));
    }

    #[test]
    fn booleans_take_eight_to_a_byte() {
        assert_eq!(group_bytes(1801, 8), 1);
        assert_eq!(group_bytes(1801, 9), 2);
        assert_eq!(group_bytes(1928, 1), 1);
    }
}
