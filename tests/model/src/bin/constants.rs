//! Prints the numbers of the rules, the card's words and the rows of the live
//! table as lines, under the names that the C headers have for them, for comparison with what tests/c/constants.c
//! prints from the headers.

use std::mem::size_of_val;

use model::card::{self, word, CARD};
use model::foreign::{RawState, LEAST_UNIT, MOST_UNIT};
use model::frames::{
    exception_name, ILLEGAL_ADDRESS, ILLEGAL_FUNCTION, ILLEGAL_VALUE, LONGEST_FRAME, MOST_DATA,
    READ, READ_BOOLEANS, REQUEST_BYTES, WRITE,
};
use model::layout::{
    alarm_records, ALARM_FILE, ALARM_RECORD_BYTES, FIRMWARES, FIRMWARE_73, FIRMWARE_74,
    MOST_RECORDS, USER_FILES,
};
use model::machine::{
    least_archive, requested_register, Machine, BOOLEAN_BYTES, FIRST_REGISTER, LAST_REGISTER,
    LEAST_REPLY, MOST_ARCHIVE, NUMBERED_RECORD, NUMBERED_STAMP, REGISTERS_A_FILE, REQUESTED_RECORD,
    REQUESTED_STAMP, SLOTS,
};
use model::points::{
    row_of_point, Kind, GROUP_NUMBERS, LONGEST_RECORD, PLACES, ROWS, STAMP_BYTES, TABLE_BYTES,
};
use model::reader::RECORD_START;
use model::record::{CENTURY, LITRES_OF_WATER, TURNER_PASSES};

fn show(name: &str, value: impl TryInto<u64>) {
    let value = value.try_into().ok().expect("a number of 64 bits");
    println!("WINDROW_{name} {value}");
}

/// What is stored of the plain machine's state: a byte a flag, two bytes a
/// number but for the unit's one and the archive length's four, for each
/// file the pointer in place of its list, and whether there was a scan
/// before its Booleans.
fn state_bytes() -> usize {
    let RawState {
        day_first,
        unit,
        firmware,
        archive_len,
        running,
        unlocked,
        pending,
        draft_groups,
        draft_n,
        groups,
        n,
        triggers,
        slot_point,
        slot_kind,
        slot_float,
        pointers,
        requested,
    } = Machine::fresh(MOST_ARCHIVE, false, 1, FIRMWARE_74.into())
        .1
        .raw_state();
    let order_and_unit = size_of_val(&day_first) + size_of_val(&unit);
    let site = order_and_unit + size_of_val(&firmware) + size_of_val(&archive_len);
    let flags = size_of_val(&running) + size_of_val(&unlocked) + size_of_val(&pending);
    let drafts = size_of_val(&draft_groups) + size_of_val(&draft_n);
    let layout = size_of_val(&groups) + size_of_val(&n);
    let slots = size_of_val(&slot_point) + size_of_val(&slot_kind) + size_of_val(&slot_float);
    let files = size_of_val(&pointers) + size_of_val(&requested);
    let seen = 1 + BOOLEAN_BYTES;
    site + flags + seen + drafts + layout + size_of_val(&triggers) + slots + files
}

/// What a number is for each firmware in use.
fn show_by_firmware<T: TryInto<u64>>(name: &str, value: impl Fn(u16) -> T) {
    for firmware in FIRMWARES {
        show(&format!("{name} {firmware}"), value(firmware));
    }
}

fn limits() {
    show("PLACES", PLACES);
    show("GROUP_NUMBERS", GROUP_NUMBERS);
    show("FILES", USER_FILES);
    show("ALARM_FILE", ALARM_FILE);
    show("MOST_RECORDS", MOST_RECORDS);
    show("FIRMWARE_73", FIRMWARE_73);
    show("FIRMWARE_74", FIRMWARE_74);
    show_by_firmware("ALARM_RECORDS", alarm_records);
    show("ALARM_SLOTS", SLOTS);
    show("TABLE_BYTES", TABLE_BYTES);
    show("STAMP_BYTES", STAMP_BYTES);
    show("LONGEST_RECORD", LONGEST_RECORD);
    show("ALARM_BYTES", ALARM_RECORD_BYTES);
    show_by_firmware("LEAST_ARCHIVE", least_archive);
    show("MOST_ARCHIVE", MOST_ARCHIVE);
    show("CENTURY", CENTURY);
    show("STATE_BYTES", state_bytes());
}

fn lines() {
    show("LEAST_UNIT", LEAST_UNIT);
    show("MOST_UNIT", MOST_UNIT);
    show("REQUEST_BYTES", REQUEST_BYTES);
    show("LONGEST_FRAME", LONGEST_FRAME);
    show("LEAST_REPLY", LEAST_REPLY);
    show("MOST_DATA", MOST_DATA);
    show("RECORD_AT", RECORD_START);
    show("READ_FLAGS", READ_BOOLEANS);
    show("READ", READ);
    show("WRITE", WRITE);
    show("REQUESTED_RECORD", REQUESTED_RECORD);
    show("NUMBERED_RECORD", NUMBERED_RECORD);
    show("REQUESTED_STAMP", REQUESTED_STAMP);
    show("NUMBERED_STAMP", NUMBERED_STAMP);
    show("FIRST_REGISTER", FIRST_REGISTER);
    show("LAST_REGISTER", LAST_REGISTER);
    show("REGISTERS_A_FILE", REGISTERS_A_FILE);
    let mut register = FIRST_REGISTER..=LAST_REGISTER;
    for file in 1..=ALARM_FILE {
        for name in ["LIMIT", "POINTER"] {
            let address = register.next().expect("three registers a file");
            show(&format!("{name}_REGISTER {file}"), address);
        }
        let last_of_three = register.next();
        assert_eq!(last_of_three, Some(requested_register(file)));
        show(
            &format!("REQUESTED_REGISTER {file}"),
            requested_register(file),
        );
    }
}

fn points() {
    let names = ["FLAG", "INT16", "TEXT8", "INT32", "FLOAT", "TEXT16"];
    for (name, row) in names.iter().zip(&ROWS) {
        show(&format!("FIRST_{name}"), row.first);
        show(&format!("LAST_{name}"), row.last);
        show(&format!("{name}S_AT"), row.from_byte);
    }
    show("TURNER_PASSES", TURNER_PASSES);
    show("LITRES_OF_WATER", LITRES_OF_WATER);
}

/// The kinds that the reading end answers, counted in this order: flag, 16-bit,
/// 32-bit, float pattern, or the text's place and length. 0 stands for a
/// refusal.
const KINDS: [&str; 6] = ["NONE", "FLAG", "INT16", "INT32", "FLOAT", "TEXT"];

fn kind_number(kind: Kind) -> usize {
    let name = match kind {
        Kind::Boolean => "FLAG",
        Kind::Int16 => "INT16",
        Kind::Int32 => "INT32",
        Kind::Float => "FLOAT",
        Kind::Text8 | Kind::Text16 => "TEXT",
    };
    let place = KINDS.iter().position(|&kind| kind == name);
    place.expect("a kind of the list")
}

fn kinds_and_exceptions() {
    for (number, name) in KINDS.iter().enumerate() {
        show(name, number);
    }
    show("ILLEGAL_FUNCTION", ILLEGAL_FUNCTION);
    show("ILLEGAL_ADDRESS", ILLEGAL_ADDRESS);
    show("ILLEGAL_VALUE", ILLEGAL_VALUE);
    for code in 0..=4 {
        let name = exception_name(code).unwrap_or("UNKNOWN EXCEPTION");
        println!("exception {code} {}", name.to_lowercase());
    }
}

/// Done has the number 0 and no row of the card.
fn the_card() {
    show("DONE", card::DONE);
    for (number, word) in CARD {
        show(&word.to_uppercase(), number);
    }
    println!("word {} Done", card::DONE);
    for number in (1..=17).chain([u32::MAX]) {
        println!("word {number} {}", word(number).unwrap_or("Unknown"));
    }
}

fn print_row(point: u32) {
    let row = u16::try_from(point).ok().and_then(row_of_point);
    let (kind, first, last, bytes, from_byte) = match row {
        Some(row) => (
            kind_number(row.kind),
            row.first,
            row.last,
            row.point_bits / 8,
            row.from_byte,
        ),
        None => (0, 0, 0, 0, 0),
    };
    println!("row of {point}: {kind} {first} {last} {bytes} {from_byte}");
}

fn rows() {
    for row in &ROWS {
        let (first, last) = (u32::from(row.first), u32::from(row.last));
        for point in [first - 1, first, last, last + 1, 65_536 + first] {
            print_row(point);
        }
    }
    print_row(0);
    print_row(u32::MAX);
}

fn main() {
    limits();
    lines();
    points();
    kinds_and_exceptions();
    the_card();
    rows();
}
