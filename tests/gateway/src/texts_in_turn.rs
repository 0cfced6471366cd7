//! Texts in turn, which are to be cleaned: every byte with every other one behind it, at every place of a text of either kind, and the
//! same in points of the other kinds. Each is captured by a scan, polled live, polled out of the archive and read back. Beside it each
//! lies in archive memory in a record from before texts were cleaned, which is polled and read back as it stands.

use gateway::ffi::{Seen, Slot, State};
use gateway::live::{function_of, most_points};
use gateway::states::{any_firmware, laid_out_bytes, ZEROS};
use gateway::tables::Table;
use model::frames::READ;
use model::machine::{BOOLEAN_BYTES, NUMBERED_RECORD};
use model::points::{groups_from_first_place, Kind, Row, ROWS, TABLE_BYTES};
use model::record::{Stamp, AUGUST};
use reader::random::Random;

use crate::calls::Call;
use crate::lists::{List, NEVER};
use crate::origins::{ReadBack, Scan};
use crate::scans::booleans;
use crate::tally::{unseen, Tally};

const UNIT: u8 = 17;
/// A file has an old record, and room for one that is captured.
const LIMIT: u16 = 2;

/// All points of the live table, then texts among points of other kinds, and texts that are groups by themselves.
#[rustfmt::skip]
const FILES: [&[(u16, u16)]; 8] = [
    &[(4001, 30)],
    &[(4031, 2), (14001, 14)],
    &[(14015, 2), (1801, 128), (3001, 64)],
    &[(5101, 61)],
    &[(5162, 3), (7101, 58)],
    &[(7159, 61)],
    &[(7220, 9), (4032, 1), (1803, 9), (14016, 1), (0, 0), (3001, 1), (4001, 2), (5101, 1), (14001, 2), (3064, 1)],
    &[(4001, 1), (14001, 1), (4002, 1), (14002, 1), (0, 0), (4031, 1), (14015, 1), (4032, 1), (14016, 1), (4001, 1)],
];

/// Byte j of the i-th point of a row, i from 1 and j from 0 on, is first + (step + i) j, cut to 8 bits. The Booleans are as one
/// point; some are on, where the step is a multiple of 16.
fn stepped(first: u8, step: u8) -> Vec<u8> {
    let mut table = vec![0; TABLE_BYTES];
    for row in &ROWS {
        let size = if row.kind == Kind::Boolean { BOOLEAN_BYTES } else { row.point_bits / 8 };
        for (i, point) in (1..).zip(table[row.in_table()].chunks_exact_mut(size)) {
            for (j, byte) in (0..).zip(point) {
                *byte = first.wrapping_add(step.wrapping_add(i).wrapping_mul(j));
            }
        }
    }
    table
}

fn text_rows() -> impl Iterator<Item = &'static Row> {
    ROWS.iter().filter(|row| row.kind.is_text())
}

/// The table with 00 from place i on in the i-th text of a row, round the text's end.
fn filled_up(mut table: Vec<u8>) -> Vec<u8> {
    for row in text_rows() {
        let size = row.point_bits / 8;
        for (i, text) in (1..).zip(table[row.in_table()].chunks_exact_mut(size)) {
            text[i % size..].fill(0);
        }
    }
    table
}

/// From every first byte, by every 16th step: each row has 16 points or more that come by steps from there on, which makes every
/// step. Then texts that are filled up.
fn tables() -> impl Iterator<Item = Vec<u8>> {
    let steps = (0..=255).step_by(16).flat_map(|step| (0..=255).map(move |first| stepped(first, step)));
    steps.chain((0..=255).map(|first| filled_up(stepped(first, 0))))
}

/// A running gateway that remembers of every Boolean the other state than this table's: every trigger rises, and slots log falls
/// and rises with transducers from the first float to the last.
fn watching(table: &[u8], firmware: u16) -> State {
    let now = booleans(table);
    let mut s = ZEROS;
    (s.site.unit, s.site.firmware, s.flags.running) = (UNIT, firmware, true);
    s.seen = Seen { scanned: true, booleans: (!now).to_le_bytes() };
    for (file, groups) in FILES.iter().enumerate() {
        s.files.layout.groups[32 * file..][..32].copy_from_slice(&groups_from_first_place(groups));
        (s.files.layout.limits[file], s.files.pointers[file]) = (LIMIT, 1);
        s.settings.triggers[file] = 1801 + now.trailing_zeros() as u16;
    }
    s.settings.draft = s.files.layout;
    s.site.archive_length = laid_out_bytes(&s) as u32;
    for (place, slot) in (0..).zip(&mut s.settings.slots) {
        *slot = Slot { point: 1801 + 4 * place, transducer: 7101 + 127 * place / 31, kind: place % 4 };
    }
    s
}

/// Every record of the files, by number.
fn records() -> Vec<Call> {
    let files = 1..=FILES.len() as u16;
    files.flat_map(|file| (1..=LIMIT).map(move |k| Call::asking(UNIT, READ, NUMBERED_RECORD + file, k))).collect()
}

/// Every point of the live table, in as few polls as may be.
fn live_polls(table: &[u8]) -> Vec<Call> {
    let mut polls = Vec::new();
    for row in &ROWS {
        for first in (row.first..=row.last).step_by(most_points(row).into()) {
            let quantity = most_points(row).min(row.last + 1 - first);
            polls.push(Call::asking_over(Table(table.to_vec()), UNIT, function_of(row), first, quantity));
        }
    }
    polls
}

/// Tells how many texts the table has.
fn try_table(random: &mut Random, own: &mut Tally, table: Vec<u8>) -> Result<usize, String> {
    let before = Stamp { month: 2, day: 29, year: 4, ..AUGUST };
    let state = watching(&table, any_firmware(random));
    let mut list = List::over_old_records(random, state, Scan { table: table.clone(), stamp: before });
    let scan = Call::Scan { table: Table(table.clone()), stamp: AUGUST };
    for call in [scan].into_iter().chain(records()).chain(live_polls(&table)) {
        list.call(random, own, &call, NEVER)?;
    }
    Ok(text_rows().map(|row| usize::from(row.points())).sum())
}

/// What the tables together have not shown, of all that they should.
fn left_out(own: &Tally, tables: usize) -> Vec<String> {
    let mut left_out = unseen(own.texts.seen());
    let ReadBack { records, old_records, .. } = own.polls.read_back;
    if (records, old_records) != (2 * tables * FILES.len(), tables * FILES.len()) {
        left_out.push(format!("two records of every file of {tables} tables, but {records}, and {old_records} old ones"));
    }
    left_out
}

/// The texts count in a tally of their own: that the random lists see everything must not rest on them. They too see all that texts
/// can show.
pub fn texts_in_turn(random: &mut Random, tally: &mut Tally) -> Result<(), String> {
    let (mut own, mut tried) = (Tally::default(), 0);
    for table in tables() {
        tried += 1;
        let told = |text| format!("table {tried}: {text}");
        tally.texts_in_turn += try_table(random, &mut own, table).map_err(told)?;
    }
    let left_out = left_out(&own, tried);
    if !left_out.is_empty() {
        return Err(format!("in turn there were no {}", left_out.join("; no ")));
    }
    Ok(())
}
