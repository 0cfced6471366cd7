//! Scans with the alarm records that they log, in order, cleared before raised;
//! and where they go, by firmware. All of it is worked out by hand from the
//! rules, for the model and the library.

use crate::layout::ALARM_RECORD_BYTES;
use crate::points::{ROWS, TABLE_BYTES};

/// The place of the transducers' row in ROWS.
const FLOATS: usize = 4;

/// A slot that is on: number, point and type.
pub type Set = (u16, u16, u8);

/// A record: point, type, new bit and slot.
pub type Logged = (u16, u8, u8, u8);

/// A scan of a running gateway, after one that only set its Booleans.
pub struct Case {
    pub what: &'static str,
    pub slots: &'static [Set],
    /// The Booleans that are on in the scan before, and in this one.
    pub before: &'static [u16],
    pub now: &'static [u16],
    pub logged: &'static [Logged],
}

/// A live table of zeros with these Booleans on.
pub fn table_with(on: &[u16]) -> Vec<u8> {
    let mut table = vec![0; TABLE_BYTES];
    for point in on {
        let i = usize::from(point - 1801);
        table[i / 8] |= 1 << (i % 8);
    }
    table
}

/// A slot's transducer, by which its records are told from others'.
pub fn transducer_of(slot: u16) -> u16 {
    ROWS[FLOATS].first + slot - 1
}

/// A live table with these Booleans on, in which each slot's transducer has the
/// slot's number as its last byte.
pub fn numbered_table(on: &[u16]) -> Vec<u8> {
    let mut table = table_with(on);
    for slot in 1..=32 {
        table[ROWS[FLOATS].place_in_table(transducer_of(slot)) + 3] = slot as u8;
    }
    table
}

/// What alarm records that were logged over such a table say.
pub fn logged(records: &[u8]) -> Vec<Logged> {
    let records = records.chunks_exact(ALARM_RECORD_BYTES);
    records
        .map(|r| (u16::from_be_bytes([r[6], r[7]]), r[8], r[9], r[13]))
        .collect()
}

/// The first and last points, and those on both sides of a byte's end and of a
/// 64-bit word's, in slots that go down where the points go up.
const EDGES: &[Set] = &[
    (1, 1928, 0),
    (2, 1865, 2),
    (3, 1864, 0),
    (4, 1809, 2),
    (5, 1808, 0),
    (6, 1801, 2),
];

/// Three of them fall while the three others rise.
#[rustfmt::skip]
pub const EDGES_FALL_AND_RISE: Case = Case {
    what: "edges: three fall and three rise",
    slots: EDGES,
    before: &[1808, 1865, 1928],
    now: &[1801, 1809, 1864],
    logged: &[
        (1808, 0, 0, 5), (1865, 2, 0, 2), (1928, 0, 0, 1),
        (1801, 2, 1, 6), (1809, 2, 1, 4), (1864, 0, 1, 3),
    ],
};

/// The firmware, the alarm file's pointer before that scan, and the records into
/// which its six go: the file's end is behind them, anywhere among them, or
/// before. Where it ends with 73 it goes on with 74.
pub const ABOUT_THE_END: [(u16, u16, [usize; 6]); 16] = [
    (73, 144, [145, 146, 147, 148, 149, 150]),
    (73, 145, [146, 147, 148, 149, 150, 1]),
    (73, 146, [147, 148, 149, 150, 1, 2]),
    (73, 147, [148, 149, 150, 1, 2, 3]),
    (73, 148, [149, 150, 1, 2, 3, 4]),
    (73, 149, [150, 1, 2, 3, 4, 5]),
    (73, 150, [1, 2, 3, 4, 5, 6]),
    (74, 147, [148, 149, 150, 151, 152, 153]),
    (74, 150, [151, 152, 153, 154, 155, 156]),
    (74, 494, [495, 496, 497, 498, 499, 500]),
    (74, 495, [496, 497, 498, 499, 500, 1]),
    (74, 496, [497, 498, 499, 500, 1, 2]),
    (74, 497, [498, 499, 500, 1, 2, 3]),
    (74, 498, [499, 500, 1, 2, 3, 4]),
    (74, 499, [500, 1, 2, 3, 4, 5]),
    (74, 500, [1, 2, 3, 4, 5, 6]),
];

/// All slots in use, in turn on the last point and on the first.
#[rustfmt::skip]
const ALL_SLOTS: &[Set] = &[
    (1, 1928, 0), (2, 1801, 0), (3, 1928, 0), (4, 1801, 0),
    (5, 1928, 0), (6, 1801, 0), (7, 1928, 0), (8, 1801, 0),
    (9, 1928, 0), (10, 1801, 0), (11, 1928, 0), (12, 1801, 0),
    (13, 1928, 0), (14, 1801, 0), (15, 1928, 0), (16, 1801, 0),
    (17, 1928, 2), (18, 1801, 2), (19, 1928, 2), (20, 1801, 2),
    (21, 1928, 2), (22, 1801, 2), (23, 1928, 2), (24, 1801, 2),
    (25, 1928, 2), (26, 1801, 2), (27, 1928, 2), (28, 1801, 2),
    (29, 1928, 2), (30, 1801, 2), (31, 1928, 2), (32, 1801, 2),
];

/// Two neighbours in different bytes, with a slot of every type each.
#[rustfmt::skip]
const NEIGHBOURS: &[Set] = &[
    (1, 1808, 3), (2, 1809, 3), (3, 1808, 2), (4, 1809, 2),
    (5, 1808, 1), (6, 1809, 1), (7, 1808, 0), (8, 1809, 0),
];

#[rustfmt::skip]
pub const CASES: [Case; 16] = [
    Case {
        what: "a recovery above a failure",
        slots: &[(1, 1801, 0), (2, 1928, 0)],
        before: &[1928],
        now: &[1801],
        logged: &[(1928, 0, 0, 2), (1801, 0, 1, 1)],
    },
    Case {
        what: "a recovery below a failure",
        slots: &[(1, 1801, 0), (2, 1928, 0)],
        before: &[1801],
        now: &[1928],
        logged: &[(1801, 0, 0, 1), (1928, 0, 1, 2)],
    },
    Case {
        what: "a point of every type that rises",
        slots: &[(1, 1809, 0), (2, 1809, 1), (3, 1809, 2), (4, 1809, 3)],
        before: &[],
        now: &[1809],
        logged: &[(1809, 0, 1, 1), (1809, 1, 1, 2), (1809, 2, 1, 3), (1809, 3, 1, 4)],
    },
    Case {
        what: "a point of every type that falls",
        slots: &[(1, 1809, 0), (2, 1809, 1), (3, 1809, 2), (4, 1809, 3)],
        before: &[1809],
        now: &[],
        logged: &[(1809, 0, 0, 1), (1809, 2, 0, 3)],
    },
    Case {
        what: "every type: the upper point falls, the lower rises",
        slots: NEIGHBOURS,
        before: &[1809],
        now: &[1808],
        logged: &[
            (1809, 2, 0, 4), (1809, 0, 0, 8),
            (1808, 3, 1, 1), (1808, 2, 1, 3), (1808, 1, 1, 5), (1808, 0, 1, 7),
        ],
    },
    Case {
        what: "every type: the lower point falls, the upper rises",
        slots: NEIGHBOURS,
        before: &[1808],
        now: &[1809],
        logged: &[
            (1808, 2, 0, 3), (1808, 0, 0, 7),
            (1809, 3, 1, 2), (1809, 2, 1, 4), (1809, 1, 1, 6), (1809, 0, 1, 8),
        ],
    },
    Case {
        what: "a point in several slots, of which some log its fall",
        slots: &[
            (1, 1865, 3), (2, 1864, 1), (7, 1864, 0),
            (30, 1864, 3), (31, 1864, 2), (32, 1865, 1),
        ],
        before: &[1864],
        now: &[1865],
        logged: &[(1864, 0, 0, 7), (1864, 2, 0, 31), (1865, 3, 1, 1), (1865, 1, 1, 32)],
    },
    Case {
        what: "two points in several slots of one type",
        slots: &[(1, 1801, 2), (3, 1928, 2), (9, 1928, 2), (20, 1928, 2), (32, 1801, 2)],
        before: &[1928],
        now: &[1801],
        logged: &[
            (1928, 2, 0, 3), (1928, 2, 0, 9), (1928, 2, 0, 20),
            (1801, 2, 1, 1), (1801, 2, 1, 32),
        ],
    },
    EDGES_FALL_AND_RISE,
    Case {
        what: "edges: each goes the other way",
        slots: EDGES,
        before: &[1801, 1809, 1864],
        now: &[1808, 1865, 1928],
        logged: &[
            (1801, 2, 0, 6), (1809, 2, 0, 4), (1864, 0, 0, 3),
            (1808, 0, 1, 5), (1865, 2, 1, 2), (1928, 0, 1, 1),
        ],
    },
    Case {
        what: "edges: all fall",
        slots: EDGES,
        before: &[1801, 1808, 1809, 1864, 1865, 1928],
        now: &[],
        logged: &[
            (1801, 2, 0, 6), (1808, 0, 0, 5), (1809, 2, 0, 4),
            (1864, 0, 0, 3), (1865, 2, 0, 2), (1928, 0, 0, 1),
        ],
    },
    Case {
        what: "edges: all rise",
        slots: EDGES,
        before: &[],
        now: &[1801, 1808, 1809, 1864, 1865, 1928],
        logged: &[
            (1801, 2, 1, 6), (1808, 0, 1, 5), (1809, 2, 1, 4),
            (1864, 0, 1, 3), (1865, 2, 1, 2), (1928, 0, 1, 1),
        ],
    },
    Case {
        what: "types 1 and 3 log no fall",
        slots: &[(1, 1801, 1), (2, 1808, 3), (3, 1928, 1)],
        before: &[1801, 1808, 1928],
        now: &[],
        logged: &[],
    },
    Case {
        what: "types 1 and 3 log no fall beside a rise, and are not in the first part",
        slots: &[(1, 1928, 3), (2, 1801, 1), (3, 1864, 1), (4, 1865, 3), (5, 1809, 0)],
        before: &[1801, 1809, 1928],
        now: &[1864, 1865],
        logged: &[(1809, 0, 0, 5), (1864, 1, 1, 3), (1865, 3, 1, 4)],
    },
    Case {
        what: "points that stay, and points without a slot that change",
        slots: &[(1, 1801, 0), (2, 1808, 2), (3, 1864, 0), (4, 1928, 2)],
        before: &[1801, 1802, 1865, 1928],
        now: &[1801, 1809, 1864, 1866],
        logged: &[(1928, 2, 0, 4), (1864, 0, 1, 3)],
    },
    Case {
        what: "32 alarms: the last point falls, the first rises",
        slots: ALL_SLOTS,
        before: &[1928],
        now: &[1801],
        logged: &[
            (1928, 0, 0, 1), (1928, 0, 0, 3), (1928, 0, 0, 5), (1928, 0, 0, 7),
            (1928, 0, 0, 9), (1928, 0, 0, 11), (1928, 0, 0, 13), (1928, 0, 0, 15),
            (1928, 2, 0, 17), (1928, 2, 0, 19), (1928, 2, 0, 21), (1928, 2, 0, 23),
            (1928, 2, 0, 25), (1928, 2, 0, 27), (1928, 2, 0, 29), (1928, 2, 0, 31),
            (1801, 0, 1, 2), (1801, 0, 1, 4), (1801, 0, 1, 6), (1801, 0, 1, 8),
            (1801, 0, 1, 10), (1801, 0, 1, 12), (1801, 0, 1, 14), (1801, 0, 1, 16),
            (1801, 2, 1, 18), (1801, 2, 1, 20), (1801, 2, 1, 22), (1801, 2, 1, 24),
            (1801, 2, 1, 26), (1801, 2, 1, 28), (1801, 2, 1, 30), (1801, 2, 1, 32),
        ],
    },
];
