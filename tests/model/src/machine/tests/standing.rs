//! States and memory that are taken as they stand.

use super::*;

/// The bytes of a record of `running_with_file_1`.
const SIZE: usize = 8;

/// A running machine whose file 1 has 4 records and this pointer, over junk;
/// the next scan with FLAG on captures.
fn over_junk(pointer: u16) -> Machine {
    let mut raw = running_with_file_1(4).raw_state();
    raw.pointers[0] = pointer;
    Machine::standing(&raw, Some([0; BOOLEAN_BYTES]), &[JUNK; ARCHIVE])
}

#[test]
fn state_and_memory_are_read_back_as_they_stand() {
    let mut machine = running_with_file_1(4);
    capture(&mut machine, 6);
    ask(&mut machine, UNIT, 6, 3703, 3);
    done(machine.alarm(ARCHIVE, 32, 1928, 3, 7228));
    let raw = machine.raw_state();
    let memory = machine.archive_memory();
    let mut standing = Machine::standing(&raw, machine.remembered(), &memory);
    assert_eq!(standing.raw_state(), raw);
    assert_eq!(standing.remembered(), machine.remembered());
    assert_eq!(standing.archive_memory(), memory);
    assert_eq!((standing.pointer(1), standing.requested(1)), (2, 3));
    done(standing.stop(ARCHIVE));
    done(standing.unlock(ARCHIVE));
    done(standing.start(ARCHIVE));
    assert_eq!((standing.pointer(1), standing.requested(1)), (0, 0));
    assert_eq!(standing.archive_memory(), vec![0; ARCHIVE]);
    assert_eq!(standing.remembered(), machine.remembered());
}

/// Slot 1 after the last; pointer 0 is before the first.
#[test]
fn a_capture_fills_the_slot_after_the_pointer_and_nothing_else() {
    for (pointer, next) in [(0, 1), (1, 2), (3, 4), (4, 1)] {
        let mut machine = over_junk(pointer);
        assert_eq!(machine.archive_memory(), [JUNK; ARCHIVE]);
        scan(&mut machine, &[FLAG], 9);
        assert_eq!(usize::from(machine.pointer(1)), next);
        let mut wanted = vec![JUNK; ARCHIVE];
        let from = (next - 1) * SIZE;
        wanted[from..from + SIZE].copy_from_slice(&[8, 29, 7, 11, 36, 9, 0, 0]);
        assert_eq!(machine.archive_memory(), wanted);
    }
}

#[test]
fn record_k_is_its_slots_bytes() {
    let mut machine = over_junk(2);
    let junk = read_reply(&[JUNK; SIZE]);
    for k in 1..=4 {
        assert_eq!(ask(&mut machine, UNIT, 3, 721, k), junk);
    }
    scan(&mut machine, &[FLAG], 9);
    let filled = read_reply(&[8, 29, 7, 11, 36, 9, 0, 0]);
    assert_eq!(ask(&mut machine, UNIT, 3, 721, 3), filled);
    assert_eq!(ask(&mut machine, UNIT, 3, 721, 4), junk);
}

/// An old record of a day that does not exist reads as Garbled, and is polled
/// as before.
#[test]
fn an_old_record_of_an_impossible_day_is_polled_as_it_stands() {
    let raw = running_with_file_1(4).raw_state();
    let mut memory = [JUNK; ARCHIVE];
    memory[..6].copy_from_slice(&february(30, 2024).bytes(false));
    let mut machine = Machine::standing(&raw, None, &memory);
    let record = read_reply(&[2, 30, 24, 11, 36, 52, JUNK, JUNK]);
    assert_eq!(ask(&mut machine, UNIT, 3, 721, 1), record);
    let stamp = read_reply(&[2, 30, 24, 11, 36, 52]);
    assert_eq!(ask(&mut machine, UNIT, 3, 771, 1), stamp);
}

#[test]
fn an_alarm_file_wraps_inside_one_scan() {
    for (firmware, last) in [(73, 150), (74, 500)] {
        let mut raw = fresh_of(firmware).raw_state();
        raw.running = true;
        raw.pointers[10] = last as u16 - 1;
        raw.slot_point[..3].copy_from_slice(&[1803, 1802, 1801]);
        let mut machine = Machine::standing(&raw, Some([0; BOOLEAN_BYTES]), &[JUNK; ARCHIVE]);
        scan(&mut machine, &[1801, 1802, 1803], 9);
        assert_eq!(machine.pointer(11), 2);
        let memory = machine.archive_memory();
        let low_byte_of_point = |k: usize| memory[(k - 1) * 22 + 7];
        assert_eq!([last, 1, 2].map(low_byte_of_point), [0x09, 0x0A, 0x0B]);
        let between = &memory[2 * 22..(last - 1) * 22];
        let behind = &memory[last * 22..];
        assert!([between, behind].concat().iter().all(|&byte| byte == JUNK));
    }
}

#[test]
#[should_panic(expected = "Foreign")]
fn a_foreign_state_does_not_stand() {
    let mut raw = fresh().raw_state();
    raw.pointers[0] = 1;
    Machine::standing(&raw, None, &[0; ARCHIVE]);
}
