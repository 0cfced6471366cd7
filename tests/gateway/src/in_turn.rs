//! Polls in turn on a gateway of either firmware: every address, run of registers, run of live points, record, length of frame,
//! function, unit, length of live table and length of reply buffer, and frames with each bit wrong.

use gateway::frames::{resized, Frame};
use gateway::rows::{limit_of, requested_register, RECORD_ROWS};
use gateway::states::good_groups;
use gateway::tables::Table;
use model::frames::{request, READ, READ_BOOLEANS, WRITE};
use model::layout::{alarm_records, ALARM_FILE, FIRMWARES, FIRMWARE_74, USER_FILES};
use model::machine::{least_archive, FIRST_REGISTER, LAST_REGISTER};
use model::points::LONGEST_RECORD;
use reader::random::Random;

use crate::calls::Call;
use crate::fresh::Fresh;
use crate::lists::{List, NEVER};
use crate::live_in_turn::{self, lengths_of_tables, runs};
use crate::tally::{unseen, Tally};

/// The n of files 1 to 10.
const LIMITS: [u16; USER_FILES] = [3, 1, 0, 2, 9, 5, 4, 7, 6, 8];
const FOR_FILES: usize = 45 * LONGEST_RECORD;
const UNIT: u8 = 17;
const SCANS: usize = 400;

/// A running gateway whose files have all gone round, but for the idle one.
fn prepared(random: &mut Random, tally: &mut Tally, firmware: u16) -> Result<List, String> {
    let archive = least_archive(firmware) + FOR_FILES;
    let mut list = List::fresh(random, tally, &Fresh::of(firmware, UNIT.into(), archive))?;
    let mut calls = vec![Call::Unlock];
    for (file, limit) in (1..).zip(LIMITS) {
        calls.push(Call::Define { file, groups: good_groups(random), limit });
        calls.push(Call::Trigger { file, point: 1801 + 7 * file });
        calls.push(Call::Alarm { slot: file, point: 1801 + 7 * file, kind: file % 4, transducer: 7101 + file });
    }
    calls.push(Call::Start);
    for call in &calls {
        list.call(random, tally, call, NEVER)?;
    }
    for _ in 0..SCANS {
        let scan = Call::scan(random, &list.state);
        list.call(random, tally, &scan, NEVER)?;
    }
    for file in 1..=ALARM_FILE as u16 {
        list.call(random, tally, &Call::asking(UNIT, WRITE, requested_register(file), 1), NEVER)?;
    }
    Ok(list)
}

/// Every address with 0, a number that most files have, one that few have, and one that none has.
fn addresses() -> impl Iterator<Item = Call> {
    (0..=u16::MAX).flat_map(|address| {
        [READ_BOOLEANS, READ, WRITE]
            .into_iter()
            .flat_map(move |function| [0, 1, 3, 9, u16::MAX].map(|number| Call::asking(UNIT, function, address, number)))
    })
}

fn registers() -> impl Iterator<Item = Call> {
    (FIRST_REGISTER - 3..=LAST_REGISTER + 3)
        .flat_map(|start| (0..=70).chain([u16::MAX]).map(move |quantity| Call::asking(UNIT, READ, start, quantity)))
}

/// The n of file 1 to 10; of the alarm file the most that it has with any firmware.
fn most_records(list: &List, file: usize) -> u16 {
    if file == ALARM_FILE {
        alarm_records(FIRMWARE_74)
    } else {
        limit_of(&list.state, file)
    }
}

/// Every record of every file by number, and by requested number after the 06 that sets it, from 0 to past n.
fn records(list: &List) -> Vec<Call> {
    let mut polls = Vec::new();
    for file in 1..=ALARM_FILE as u16 {
        for k in 0..=most_records(list, file.into()) + 2 {
            polls.push(Call::asking(UNIT, WRITE, requested_register(file), k));
            polls.extend(RECORD_ROWS.map(|(before, _)| Call::asking(UNIT, READ, before + file, k)));
        }
    }
    polls
}

/// The frames that lengths, units, bits, live tables and reply buffers are tried on: a read, a 06 and reads of live points that are
/// answered, the same on an address that is unknown or the other read's, and two other functions.
fn samples(unit: u8, number: u16) -> [Vec<u8>; 10] {
    let register = requested_register(1);
    let asked = [
        (READ, 721),
        (WRITE, register),
        (READ_BOOLEANS, 1803),
        (READ, 7102),
        (READ, 0),
        (WRITE, 0),
        (READ_BOOLEANS, 7102),
        (READ, 1803),
        (2, 721),
        (0x86, register),
    ];
    asked.map(|(function, address)| request(unit, function, address, number))
}

/// Frames without a reply: one of no bytes, one with a wrong CRC, a 06 to unit 0 and a read of another unit.
fn unanswered(number: u16) -> [Vec<u8>; 4] {
    let read = request(UNIT, READ, 721, number);
    let wrong_crc = [&read[..6], &[0, 0]].concat();
    let (broadcast, other) = (request(0, WRITE, requested_register(1), number), request(UNIT + 1, READ, 721, number));
    [vec![], wrong_crc, broadcast, other]
}

fn lengths() -> impl Iterator<Item = Call> {
    // each unit asks for another record, so that a 06 which is done is seen
    [(UNIT, 1), (0, 2), (UNIT + 1, 3)]
        .into_iter()
        .flat_map(|(unit, number)| samples(unit, number))
        .flat_map(|sample| (0..=300).map(move |length| Call::sending(resized(&sample, length, |more| vec![0; more]))))
}

fn functions() -> impl Iterator<Item = Call> {
    (0..=255)
        .flat_map(|function| [721, 1803, 3002].map(|address| request(UNIT, function, address, 2)))
        .flat_map(|right| [4, 7, 8, 9, 256].map(|length| Call::sending(resized(&right, length, |more| vec![0; more]))))
}

fn units() -> impl Iterator<Item = Call> {
    (0..=255).flat_map(|unit| samples(unit, 1 + u16::from(unit % 3))).map(Call::sending)
}

fn wrong_bits() -> impl Iterator<Item = Call> {
    samples(UNIT, 3).into_iter().flat_map(|sample| {
        (0..8 * sample.len()).map(move |bit| {
            let mut frame = sample.clone();
            frame[bit / 8] ^= 1 << (bit % 8);
            Call::sending(frame)
        })
    })
}

fn rooms() -> impl Iterator<Item = Call> {
    (0..=300).flat_map(|room| {
        samples(UNIT, 1 + room as u16 % 3).map(|frame| Call::Poll { table: Table::patterned(), frame: Frame(frame), room })
    })
}

/// All polls on a gateway with one firmware. Tells how many there were.
fn polls_with(random: &mut Random, own: &mut Tally, firmware: u16) -> Result<usize, String> {
    let mut list = prepared(random, own, firmware)?;
    let captures = list.captures();
    let n = |file: usize| usize::from(limit_of(&list.state, file));
    if let Some(file) = (1..=ALARM_FILE).find(|&file| n(file) > 0 && captures[file - 1] <= n(file)) {
        return Err(format!("file {file} of the gateway has not gone round"));
    }
    let records = records(&list);
    let sent: Vec<Vec<u8>> = samples(UNIT, 2).into_iter().chain(unanswered(3)).collect();
    let live = runs(UNIT).chain(live_in_turn::units()).chain(lengths_of_tables(&sent));
    let others = registers().chain(lengths()).chain(functions()).chain(units()).chain(wrong_bits()).chain(rooms());
    let mut polls = 0;
    for poll in records.into_iter().chain(live).chain(others).chain(addresses()) {
        list.call(random, own, &poll, NEVER)?;
        polls += 1;
    }
    list.end()?;
    Ok(polls)
}

/// The polls count in a tally of their own: that the random lists see everything must not rest on them. They too see all that polls
/// of the live table, and of the alarm file about the depths that it has, can show.
pub fn polls_in_turn(random: &mut Random, tally: &mut Tally) -> Result<(), String> {
    let mut own = Tally::default();
    for firmware in FIRMWARES {
        let told = |text| format!("firmware {firmware}, {text}");
        tally.polls_in_turn += polls_with(random, &mut own, firmware).map_err(told)?;
    }
    let seen = own.polls.live.seen().into_iter().chain(own.firmwares.polls_seen());
    let unseen = unseen(seen.collect());
    if !unseen.is_empty() {
        return Err(format!("in turn no poll has shown: {}", unseen.join("; ")));
    }
    Ok(())
}
