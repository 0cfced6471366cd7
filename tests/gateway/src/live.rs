//! Runs of live points that a poll asks for: 01 reads Booleans, 03 a run in any other row.

use model::frames::{MOST_DATA, READ, READ_BOOLEANS};
use model::points::{Kind, Row, ROWS};
use reader::random::Random;

use crate::rows::Request;

/// A run of live points from a start of which the function reads the row, whether or not it is answered.
#[derive(Clone, Copy)]
pub struct Run {
    /// The row's place in ROWS.
    pub row: usize,
    pub first: u16,
    pub quantity: u16,
}

impl Run {
    pub fn of(request: &Request) -> Option<Run> {
        let Request { function, address, number } = *request;
        let reads = |row: &Row| function_of(row) == function && (row.first..=row.last).contains(&address);
        let row = ROWS.iter().position(reads)?;
        Some(Run { row, first: address, quantity: number })
    }

    pub fn row(&self) -> &'static Row {
        &ROWS[self.row]
    }

    /// How many points there are from the start to the row's end.
    pub fn to_the_end(&self) -> u16 {
        self.row().last + 1 - self.first
    }

    /// How many points the run goes past its row.
    pub fn past(&self) -> u16 {
        self.quantity.saturating_sub(self.to_the_end())
    }

    pub fn is_over_250_bytes(&self) -> bool {
        self.quantity > most_points(self.row())
    }

    pub fn is_answered(&self) -> bool {
        self.quantity > 0 && !self.is_over_250_bytes() && self.past() == 0
    }
}

/// The function that reads a row.
pub fn function_of(row: &Row) -> u8 {
    if row.kind == Kind::Boolean {
        READ_BOOLEANS
    } else {
        READ
    }
}

/// The most points of a row whose bytes are not over 250; the row may have fewer.
pub fn most_points(row: &Row) -> u16 {
    (8 * MOST_DATA / row.point_bits) as u16
}

/// The quantities at which points from a start on come to be judged otherwise: none, one, the row's end, all that a row has, 250
/// bytes, and the largest number; or would be if it were cut: by bytes that are 256 or 65,536, and by a last point past 65,535.
pub fn edges(row: &Row, start: u16) -> [u16; 17] {
    let to_the_end = (row.last + 1).saturating_sub(start);
    let (all, most) = (row.last + 1 - row.first, most_points(row));
    let of_bytes = |bytes: usize| (8 * bytes / row.point_bits).min(65_534) as u16;
    let (byte, word) = (of_bytes(256), of_bytes(65_536));
    [
        0,
        1,
        2,
        to_the_end.saturating_sub(1),
        to_the_end,
        to_the_end + 1,
        all,
        all + 1,
        most - 1,
        most,
        most + 1,
        byte,
        byte + 1,
        word,
        word + 1,
        start.wrapping_neg(),
        u16::MAX,
    ]
}

fn any_start(random: &mut Random, row: &Row) -> u16 {
    match random.below(8) {
        0 => row.first - 1 - random.below(2) as u16,
        1 => row.last + 1 + random.below(2) as u16,
        2 => row.first,
        3 | 4 => row.last,
        _ => row.first + random.below(u64::from(row.last - row.first) + 1) as u16,
    }
}

/// Function, start and quantity of a random run: mostly by the function that reads its row, and often about an edge.
pub fn any_run(random: &mut Random) -> (u8, u16, u16) {
    let row = &ROWS[random.below(ROWS.len() as u64) as usize];
    let start = any_start(random, row);
    let to_the_end = (row.last + 1).saturating_sub(start).max(1);
    let function = match random.below(10) {
        0 => READ_BOOLEANS,
        1 | 2 => READ,
        _ => function_of(row),
    };
    let quantity = match random.below(10) {
        0 => 0,
        1..=5 => edges(row, start)[random.below(17) as usize],
        6 => to_the_end,
        _ => 1 + random.below(to_the_end.min(most_points(row)).into()) as u16,
    };
    (function, start, quantity)
}
