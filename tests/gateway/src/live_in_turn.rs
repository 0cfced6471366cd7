//! Polls of the live table in turn: every start in each row and next to it with the quantities about its edges, by each function that
//! is known and some that are not; every run of each row; each row to every unit; and tables of every length.

use gateway::frames::Frame;
use gateway::live::{edges, function_of};
use gateway::tables::Table;
use model::frames::{request, READ, READ_BOOLEANS, WRITE};
use model::machine::LEAST_REPLY;
use model::points::{ROWS, TABLE_BYTES};

use crate::calls::Call;

const FUNCTIONS: [u8; 9] = [READ_BOOLEANS, READ, WRITE, 0, 2, 4, 5, 0x81, 0x83];
/// How far next to a row starts go, and past it quantities.
const BESIDE: u16 = 2;

/// Function, start and quantity.
fn asked() -> Vec<(u8, u16, u16)> {
    let mut asked = Vec::new();
    for row in &ROWS {
        for start in row.first - BESIDE..=row.last + BESIDE {
            for function in FUNCTIONS {
                asked.extend(edges(row, start).map(|quantity| (function, start, quantity)));
            }
            let every = 0..=(row.last + 1).saturating_sub(start) + BESIDE;
            asked.extend(every.map(|quantity| (function_of(row), start, quantity)));
        }
    }
    asked
}

/// Each over two tables that differ in every bit, so that no table is the one before.
pub fn runs(unit: u8) -> impl Iterator<Item = Call> {
    asked().into_iter().flat_map(move |(function, start, quantity)| {
        let frame = Frame(request(unit, function, start, quantity));
        let over = |table| Call::Poll { table, frame: frame.clone(), room: LEAST_REPLY };
        [Table::patterned(), Table::inverted()].map(over)
    })
}

/// The last point of each row and the one before it, to every unit.
pub fn units() -> impl Iterator<Item = Call> {
    (0..=255).flat_map(|unit| ROWS.iter().map(move |row| Call::asking(unit, function_of(row), row.last - 1, 2)))
}

/// Frames over tables of every length to a byte past the right one and of some that are longer, and in a short reply buffer too.
pub fn lengths_of_tables(frames: &[Vec<u8>]) -> impl Iterator<Item = Call> + '_ {
    let longer = [2 * TABLE_BYTES, 65_536, 65_536 + TABLE_BYTES];
    (0..=TABLE_BYTES + 1).chain(longer).flat_map(move |length| {
        let mut bytes = Table::patterned().0;
        bytes.resize(length, 0);
        let poll = move |(frame, room): (&Vec<u8>, usize)| {
            let (table, frame) = (Table(bytes.clone()), Frame(frame.clone()));
            Call::Poll { table, frame, room }
        };
        frames.iter().flat_map(|frame| [(frame, LEAST_REPLY), (frame, LEAST_REPLY - 1)]).map(poll)
    })
}
