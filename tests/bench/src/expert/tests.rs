//! The yardstick does what the library does, on random states, damaged ones, and random frames; its calendar is the model's.

use ::gateway::ffi::{self, Answer, State};
use ::gateway::frames::{any_frame, any_room};
use ::gateway::rows::limit_of;
use ::gateway::states::{damage, definitions_of, standing, CLAUSES};
use ::gateway::tables::Table;
use model::frames::read_reply;
use model::layout::{file_start, ALARM_FILE, ALARM_RECORD_BYTES, FIRMWARES};
use model::points::{row_of_point, STAMP_BYTES};
use model::record::{captured_record, every_date, Stamp, AUGUST};
use reader::random::{groups, stamp, Random};
use reader::texts::live_table;

use super::records::in_range;
use super::{gateway, polls, reader as plain_reader};
use crate::calls::{watching, ARCHIVE};

const ROUNDS: usize = 2_000;

/// A random state, one in three damaged.
fn any_state(random: &mut Random) -> State {
    let mut s = standing(random);
    if random.chance(3) {
        let clause = random.below(CLAUSES.len() as u64) as usize;
        damage(random, &mut s, clause);
    }
    s
}

/// A scan by the library and by the expert, over the same archive: they answer the same number and leave the same. The library's.
fn scan_both(s: State, archive: &mut [u8], table: &mut [u8], at: Stamp) -> Answer {
    let (mut plain, mut plain_archive) = (s, archive.to_vec());
    let number = gateway::scan(&mut plain, &mut plain_archive, table, &at.into());
    let wanted = ffi::scan(s, archive, table, at.into());
    assert_eq!((number, plain), (wanted.number, wanted.state));
    assert!(archive == plain_archive, "other bytes");
    wanted
}

#[test]
fn lock_and_scan_are_the_librarys() {
    let mut random = Random::new(1);
    let mut seen = [0; 5];
    for _ in 0..ROUNDS {
        let s = any_state(&mut random);
        let length = s.site.archive_length as usize + usize::from(random.chance(20));
        let mut archive = random.bytes(length);
        let mut locked = s;
        let number = gateway::lock(&mut locked, &archive);
        let wanted = ffi::lock(s, &mut archive);
        assert_eq!((number, locked), (wanted.number, wanted.state));

        let mut table = live_table(&mut random);
        table.truncate(if random.chance(20) { 1423 } else { 1424 });
        let mut at = stamp(&mut random);
        at.month += u8::from(random.chance(20)) * 12;
        let wanted = scan_both(s, &mut archive, &mut table, at);
        seen[wanted.number as usize] += 1;
    }
    assert!(seen.iter().all(|&n| n > 10), "numbers of scans {seen:?}");
}

/// The new bits of the first and the last alarm record that a scan logged, if it logged any.
fn first_and_last_bit(before: &State, after: &State, archive: &[u8]) -> Option<[u8; 2]> {
    let file = file_start(&definitions_of(&before.files.layout), ALARM_FILE) as usize;
    let bit = |k: u16| archive[file + usize::from(k - 1) * ALARM_RECORD_BYTES + 9];
    let [old, new] = [before, after].map(alarm_pointer);
    (old != new).then(|| [old % limit_of(before, ALARM_FILE) + 1, new].map(bit))
}

fn alarm_pointer(s: &State) -> u16 {
    s.files.pointers[ALARM_FILE - 1]
}

/// Random Booleans: of most states some slots' points fall while others rise, and the falls are logged first. With either firmware
/// some files go round.
#[test]
fn alarms_are_the_librarys() {
    let mut random = Random::new(4);
    let (mut cleared_and_raised, mut gone_round) = (0, [0; FIRMWARES.len()]);
    for _ in 0..ROUNDS {
        let mut s = standing(&mut random);
        (s.flags.running, s.flags.unlocked, s.seen.scanned) = (true, false, true);
        let mut archive = random.bytes(s.site.archive_length as usize);
        let wanted = scan_both(s, &mut archive, &mut live_table(&mut random), AUGUST);
        let bits = first_and_last_bit(&s, &wanted.state, &archive);
        cleared_and_raised += usize::from(bits == Some([0, 1]));
        for (seen, firmware) in gone_round.iter_mut().zip(FIRMWARES) {
            *seen += usize::from(s.site.firmware == firmware && alarm_pointer(&wanted.state) < alarm_pointer(&s));
        }
    }
    assert!(cleared_and_raised > ROUNDS / 2, "{cleared_and_raised} scans that cleared and raised alarms");
    assert!(gone_round.iter().all(|&files| files > ROUNDS / 20), "{gone_round:?} alarm files that went round");
}

/// A random run of texts in one of their rows, of up to 240 bytes.
fn any_texts(random: &mut Random) -> (u16, u16) {
    let (first, texts, most) = if random.chance(2) { (4001, 32, 30) } else { (14001, 16, 15) };
    let skipped = random.below(texts);
    (first + skipped as u16, 1 + random.below((texts - skipped).min(most)) as u16)
}

/// All triggers of `watching` rise. Most runs have texts that are cleaned.
#[test]
fn texts_are_the_librarys() {
    let mut random = Random::new(5);
    let mut cleaned = 0;
    for _ in 0..ROUNDS {
        let (first, points) = any_texts(&mut random);
        let (mut archive, mut table) = (random.bytes(ARCHIVE), live_table(&mut random));
        table[..2].fill(0xFF);
        scan_both(watching((first, points)), &mut archive, &mut table, AUGUST);
        let row = row_of_point(first).unwrap();
        let stood = &table[row.place_in_table(first)..][..row.bytes_of(points)];
        cleaned += usize::from(archive[STAMP_BYTES..][..stood.len()] != *stood);
    }
    assert!(cleaned > ROUNDS / 2, "{cleaned} captures that were cleaned");
}

/// Each state is polled with frames of every kind, and goes on with what an answered one left.
#[test]
fn a_poll_is_the_librarys() {
    let mut random = Random::new(3);
    let (mut numbers, mut lengths) = ([0; 14], [0; 256]);
    for _ in 0..ROUNDS {
        let mut s = any_state(&mut random);
        let length = s.site.archive_length as usize + usize::from(random.chance(20));
        let mut archive = random.bytes(length);
        for _ in 0..20 {
            let (mut frame, room) = (any_frame(&mut random, &s).0, any_room(&mut random));
            let (Table(mut table), mut reply) = (Table::random(&mut random), random.bytes(room));
            let (mut after, mut plain_reply) = (s, reply.clone());
            let plain = polls::poll(&mut after, &archive, &table, &frame, &mut plain_reply);
            let wanted = ffi::poll(s, &mut archive, &mut table, &mut frame, &mut reply);
            assert_eq!((plain, after), ((wanted.number, wanted.length), wanted.state), "{frame:02x?}");
            assert_eq!(plain_reply, reply, "{frame:02x?}");
            numbers[wanted.number as usize] += 1;
            lengths[wanted.length as usize] += 1;
            s = after;
        }
    }
    assert!([0, 1, 2, 3, 13].iter().all(|&number| numbers[number] > 10), "numbers of polls {numbers:?}");
    // of live points, the shortest reply has 6 bytes, and the longest 253
    assert!([0, 5, 6, 8, 11, 27, 253, 255].iter().all(|&length| lengths[length] > 10), "lengths of replies {lengths:?}");
}

#[test]
fn a_point_is_the_librarys() {
    let mut random = Random::new(2);
    let mut seen = [0; 17];
    for _ in 0..ROUNDS {
        let numbers = groups(&mut random);
        let table = random.bytes(1424);
        let day_first = random.chance(2);
        let mut record = captured_record(&numbers, &table, stamp(&mut random), day_first);
        match random.below(8) {
            0 => record.fill(0),
            1 => record[random.below(6) as usize] = random.next() as u8,
            _ => {}
        }
        let mut frame = read_reply(random.next() as u8, &record);
        let at = random.below(frame.len() as u64) as usize;
        frame[at] ^= u8::from(random.chance(8));
        for _ in 0..20 {
            let (g, e) = (random.below(18) as u32, random.below(12) as u32);
            let wanted = reader::ffi::point(&numbers, day_first, &frame, g, e);
            assert_eq!(plain_reader::point(&numbers, day_first, &frame, g, e), wanted);
            seen[wanted.number as usize] += 1;
        }
    }
    assert!([0, 7, 8, 14, 15, 16].iter().all(|&number| seen[number] > 10), "numbers of points {seen:?}");
}

#[test]
fn the_calendar_is_the_models() {
    for date in every_date() {
        assert_eq!(in_range(&date.into()), date.in_range(), "{date:?}");
    }
}
