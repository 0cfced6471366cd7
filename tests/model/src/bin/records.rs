//! Prints records as lines of hexadecimal digits, for comparison with
//! another program's output.

use model::points::{groups_from_first_place, GROUP_NUMBERS, PLACES, TABLE_BYTES};
use model::record::{alarm_record, captured_record, Slot, AUGUST};

const MONTH_FIRST: bool = false;
const DAY_FIRST: bool = true;

const AT_LAST_PLACE: [(u16, u16); 10] = [
    (3001, 64),
    (4001, 30),
    (5101, 61),
    (7101, 61),
    (14001, 15),
    (3064, 1),
    (4032, 1),
    (5164, 1),
    (7228, 1),
    (14016, 1),
];

const MIXED: [(u16, u16); PLACES] = [
    (0, 0),
    (1805, 9),
    (0, 0),
    (3003, 2),
    (4002, 1),
    (0, 0),
    (5103, 1),
    (7110, 2),
    (14005, 1),
    (0, 0),
    (1901, 28),
    (0, 0),
    (0, 0),
    (3001, 1),
    (7228, 1),
    (0, 0),
];

/// Each alarm slot with the new bit of its point.
const ALARMS: [(Slot, bool); 3] = [
    (slot(1801, 0, 7101), true),
    (slot(1928, 3, 0), false),
    (slot(1850, 2, 7228), true),
];

const fn slot(point: u16, kind: u8, float: u16) -> Slot {
    Slot { point, kind, float }
}

fn live_table() -> Vec<u8> {
    (0..TABLE_BYTES)
        .map(|i| ((i * 37 + 11) % 251) as u8)
        .collect()
}

fn print_line(bytes: &[u8]) {
    let digits: String = bytes.iter().map(|byte| format!("{byte:02x}")).collect();
    println!("{digits}");
}

fn print_record(groups: &[u16; GROUP_NUMBERS], table: &[u8], day_first: bool) {
    print_line(&captured_record(groups, table, AUGUST, day_first));
}

fn print_boolean_groups(table: &[u8]) {
    for a in 0..8 {
        for n in 1..=(128 - a) {
            print_record(
                &groups_from_first_place(&[(1801 + a, n)]),
                table,
                MONTH_FIRST,
            );
        }
    }
    for a in 8..128 {
        let group = (1801 + a, 128 - a);
        print_record(&groups_from_first_place(&[group]), table, MONTH_FIRST);
    }
}

fn print_groups_at_last_place(table: &[u8]) {
    for group in AT_LAST_PLACE {
        let mut places = [(0, 0); PLACES];
        places[PLACES - 1] = group;
        print_record(&groups_from_first_place(&places), table, DAY_FIRST);
    }
}

fn main() {
    let table = live_table();
    print_boolean_groups(&table);
    print_groups_at_last_place(&table);
    for day_first in [MONTH_FIRST, DAY_FIRST] {
        print_record(&groups_from_first_place(&MIXED), &table, day_first);
    }
    for day_first in [MONTH_FIRST, DAY_FIRST] {
        print_record(&groups_from_first_place(&[]), &table, day_first);
    }
    for (slot, new_bit) in &ALARMS {
        for day_first in [MONTH_FIRST, DAY_FIRST] {
            print_line(&alarm_record(slot, *new_bit, &table, AUGUST, day_first));
        }
    }
}
