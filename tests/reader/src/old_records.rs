//! Records as gateways captured them before texts were cleaned: with the bytes that their texts had in the live table. Archive memory
//! may still hold such ones.

use std::ops::Range;

use model::points::{group_bytes, pairs, row_of_point, STAMP_BYTES};
use model::record::{captured_record, Stamp};

/// A group of texts: its bytes in a record and in the live table.
pub struct TextGroup {
    pub in_record: Range<usize>,
    pub in_table: Range<usize>,
}

/// The groups of texts of a good definition.
pub fn text_groups(groups: &[u16; 32]) -> Vec<TextGroup> {
    let mut found = Vec::new();
    let mut at = STAMP_BYTES;
    for (first, points) in pairs(groups) {
        let bytes = group_bytes(first, points);
        if let Some(row) = row_of_point(first).filter(|row| row.kind.is_text()) {
            let from = row.place_in_table(first);
            found.push(TextGroup { in_record: at..at + bytes, in_table: from..from + bytes });
        }
        at += bytes;
    }
    found
}

/// The record that was captured of this table then.
pub fn old_record(groups: &[u16; 32], table: &[u8], stamp: Stamp, day_first: bool) -> Vec<u8> {
    let mut record = captured_record(groups, table, stamp, day_first);
    for TextGroup { in_record, in_table } in text_groups(groups) {
        record[in_record].copy_from_slice(&table[in_table]);
    }
    record
}
