//! Alarm depth by firmware, on libgateway.a. What is wanted is worked out by hand.

use gateway::ffi::{self, Answer, Site, State};
use gateway::states::ZEROS;
use model::alarm_orders::table_with;
use model::depths::{alarm_of, stamp_of, DEPTHS, FRESHES, OTHER_FIRMWARES, RINGS, STARTS};
use model::frames::{exception, read_reply, request, ILLEGAL_VALUE, READ, WRITE};
use model::machine::LEAST_REPLY;
use model::points::TABLE_BYTES;
use model::record::AUGUST;

const UNIT: u8 = 17;
/// Enough for either firmware, and a few bytes behind the alarm file.
const ARCHIVE: usize = 11_050;
/// The alarm file's place among pointers and requested numbers.
const ALARMS: usize = 10;
/// The point of the one alarm slot in these tests.
const ALARM: u16 = 1850;
/// What archive memory holds where nothing of ours was ever written, and a reply buffer as it is lent.
const JUNK: u8 = 0xEE;

fn done(answer: Answer) -> State {
    assert_eq!((answer.number, answer.carried), (0, 0));
    answer.state
}

/// What Fresh makes.
fn made(day_first: bool, unit: u8, firmware: u16, length: usize) -> State {
    State { site: Site { archive_length: length as u32, unit, day_first, firmware }, ..ZEROS }
}

/// A refused Fresh hands back a state of zeros, firmware too, and leaves memory as it is.
#[test]
fn fresh_judges_firmware_then_length_then_unit() {
    for ((firmware, length, unit, number), day_first) in FRESHES.into_iter().flat_map(|fresh| [(fresh, false), (fresh, true)]) {
        let mut archive = vec![JUNK; length];
        let answer = ffi::fresh(day_first, unit, firmware, &mut archive);
        let (state, byte) = match number {
            0 => (made(day_first, unit as u8, firmware as u16, length), 0),
            _ => (ZEROS, JUNK),
        };
        let given = format!("firmware {firmware}, {length} bytes, unit {unit}");
        assert_eq!(answer, Answer { number: number.into(), carried: 0, state }, "{given}");
        assert!(archive.iter().all(|&left| left == byte), "{given}");
    }
}

/// None but 73 and 74, which is no other number of 18 bits, and none that is wrong in one bit.
#[test]
fn a_firmware_is_judged_whole() {
    let mut archive = vec![0; ARCHIVE];
    let mut told = |firmware| ffi::fresh(false, 1, firmware, &mut archive).number;
    for firmware in 0..1 << 18 {
        let wanted = if [73, 74].contains(&firmware) { 0 } else { 2 };
        assert_eq!(told(firmware), wanted, "{firmware}");
    }
    for other in [73, 74].into_iter().flat_map(|firmware| (0..32).map(move |bit| firmware ^ (1 << bit))) {
        assert_eq!(told(other), 2, "{other}");
    }
}

/// The number of a Lock, which judges the state and no more.
fn judged(s: State, length: usize) -> u32 {
    let answer = ffi::lock(s, &mut vec![JUNK; length]);
    assert_eq!(answer.state, s);
    answer.number
}

#[test]
fn every_stored_firmware_is_judged() {
    for firmware in 0..=65_535 {
        let s = made(false, UNIT, firmware, ARCHIVE);
        let wanted = if [73, 74].contains(&firmware) { 0 } else { 2 };
        assert_eq!(judged(s, ARCHIVE), wanted, "{firmware}");
        assert_eq!(judged(s, ARCHIVE + 1), 1, "{firmware}");
    }
}

/// Every call but Fresh on a state and an archive, with arguments that it refuses too: the number, and that all stays as it was.
fn refused_by_all(s: State, archive: &mut [u8], number: u32) {
    let (stood, mut reply) = (archive.to_vec(), [JUNK; 5]);
    let out_of_range = reader::ffi::Stamp { month: 13, ..AUGUST.into() };
    let poll = ffi::poll(s, archive, &mut [], &mut request(UNIT, WRITE, 3733, 1), &mut reply);
    assert_eq!((poll.number, poll.length, poll.state, reply), (number, 0, s, [JUNK; 5]));
    let answers = [
        ffi::unlock(s, archive),
        ffi::lock(s, archive),
        ffi::stop(s, archive),
        ffi::start(s, archive),
        ffi::define(s, archive, 99, &mut [1; 32], 1),
        ffi::trigger(s, archive, 99, 1),
        ffi::alarm(s, archive, 99, 1, 9, 9),
        ffi::scan(s, archive, &mut [], out_of_range),
    ];
    assert_eq!(answers, [Answer { number, carried: 0, state: s }; 8]);
    assert!(archive == stood, "archive memory was changed");
}

/// At every call but Fresh 1 still comes before 2.
#[test]
fn any_other_firmware_refuses_every_call_after_memory() {
    for firmware in OTHER_FIRMWARES {
        let s = made(false, UNIT, firmware, ARCHIVE);
        refused_by_all(s, &mut [JUNK; ARCHIVE], 2);
        refused_by_all(s, &mut [JUNK; ARCHIVE - 1], 1);
    }
    refused_by_all(ZEROS, &mut [], 2);
    refused_by_all(ZEROS, &mut [JUNK; 1], 1);
}

#[test]
fn alarm_numbers_of_a_state_are_judged_by_its_depth() {
    for ((firmware, depth), number) in DEPTHS.into_iter().flat_map(|depth| (0..=700).map(move |number| (depth, number))) {
        let wanted = if number > depth { 2 } else { 0 };
        let mut s = made(false, UNIT, firmware, ARCHIVE);
        s.files.pointers[ALARMS] = number;
        assert_eq!(judged(s, ARCHIVE), wanted, "pointer {number}, firmware {firmware}");
        let mut s = made(false, UNIT, firmware, ARCHIVE);
        s.line.requested[ALARMS] = number;
        assert_eq!(judged(s, ARCHIVE), wanted, "requested {number}, firmware {firmware}");
    }
}

/// 1,283 bare stamps take 7,698 bytes.
#[test]
fn a_layout_is_judged_by_the_depth_of_its_own_state() {
    for (firmware, length, wanted) in [(73, 10_998, 0), (73, 10_997, 2), (74, 10_998, 2), (74, 18_697, 2), (74, 18_698, 0)] {
        let mut s = made(false, UNIT, firmware, length);
        s.files.layout.limits[9] = 1_283;
        assert_eq!(judged(s, length), wanted, "{length} bytes, firmware {firmware}");
    }
}

#[test]
fn room_follows_the_depth() {
    for (firmware, length, n, number) in STARTS {
        let mut archive = vec![JUNK; length];
        let s = done(ffi::fresh(false, UNIT.into(), firmware.into(), &mut archive));
        let s = done(ffi::unlock(s, &mut archive));
        let s = done(ffi::define(s, &mut archive, 10, &mut [0; 32], n));
        let answer = ffi::start(s, &mut archive);
        assert_eq!(answer.number, number.into(), "{n} in {length} bytes, firmware {firmware}");
        assert_eq!(answer.state.files.layout.limits[9], if number == 0 { n } else { 0 });
    }
}

/// A gateway with its archive.
struct Gateway {
    s: State,
    archive: Vec<u8>,
}

impl Gateway {
    /// A running one, whose slot 1 logs every change of ALARM, after a scan in which it is off.
    fn watching(firmware: u16) -> Gateway {
        let mut archive = vec![JUNK; ARCHIVE];
        let s = done(ffi::fresh(false, UNIT.into(), firmware.into(), &mut archive));
        let s = done(ffi::alarm(s, &mut archive, 1, ALARM.into(), 0, 0));
        let s = done(ffi::start(s, &mut archive));
        let s = done(ffi::scan(s, &mut archive, &mut table_with(&[]), AUGUST.into()));
        Gateway { s, archive }
    }

    /// The same after so many alarms.
    fn after_alarms(firmware: u16, alarms: u16) -> Gateway {
        let mut gateway = Gateway::watching(firmware);
        for alarm in 1..=alarms {
            let mut table = if alarm % 2 == 1 { table_with(&[ALARM]) } else { table_with(&[]) };
            gateway.s = done(ffi::scan(gateway.s, &mut gateway.archive, &mut table, stamp_of(alarm).into()));
        }
        gateway
    }

    /// The reply to a request. The rest of the buffer and the archive stay as they were.
    fn ask(&mut self, function: u8, address: u16, number: u16) -> Vec<u8> {
        let (mut archive, mut reply) = (self.archive.clone(), [JUNK; LEAST_REPLY]);
        let mut frame = request(UNIT, function, address, number);
        let answer = ffi::poll(self.s, &mut archive, &mut [0; TABLE_BYTES], &mut frame, &mut reply);
        assert_eq!(answer.number, 0);
        assert!(archive == self.archive, "the archive was changed");
        let (sent, rest) = reply.split_at(answer.length as usize);
        assert!(rest.iter().all(|&byte| byte == JUNK), "more than the reply was written");
        self.s = answer.state;
        sent.to_vec()
    }

    fn register(&mut self, address: u16) -> u16 {
        let reply = self.ask(READ, address, 1);
        u16::from_be_bytes([reply[3], reply[4]])
    }
}

fn not_there(function: u8) -> Vec<u8> {
    exception(UNIT, function, ILLEGAL_VALUE)
}

/// By number and by requested number, whole and stamps only. Nothing was logged, so that what is read is zeros.
#[test]
fn records_are_read_up_to_the_depth_and_refused_past_it() {
    for (firmware, depth) in DEPTHS {
        let mut gateway = Gateway::watching(firmware);
        assert_eq!(gateway.register(3731), depth);
        for number in (0..=1_100).chain([65_535]) {
            let (record, stamp) = (read_reply(UNIT, &[0; 22]), read_reply(UNIT, &[0; 6]));
            let echo = request(UNIT, WRITE, 3733, number);
            gateway.s.line.requested[ALARMS] = 0;
            let polls =
                [(READ, 731, &record), (READ, 781, &stamp), (WRITE, 3733, &echo), (READ, 711, &record), (READ, 761, &stamp)];
            let is_one = (1..=depth).contains(&number);
            for (function, address, reply) in polls {
                let wanted = if is_one { reply.clone() } else { not_there(function) };
                assert_eq!(gateway.ask(function, address, number), wanted, "{number} on {address}, firmware {firmware}");
            }
            assert_eq!(gateway.register(3733), if is_one { number } else { 0 });
        }
    }
}

#[test]
fn the_ring_goes_round_at_the_depth() {
    for (firmware, alarms, pointer, records) in RINGS {
        let mut gateway = Gateway::after_alarms(firmware, alarms);
        let after = format!("{alarms} alarms, firmware {firmware}");
        assert_eq!(gateway.register(3732), pointer, "{after}");
        for &(k, alarm) in records {
            gateway.ask(WRITE, 3733, k);
            for (address, number) in [(731, k), (781, k), (711, 0), (761, 0)] {
                let reply = gateway.ask(READ, address, number);
                assert_eq!(alarm_of(&reply[3..]), alarm, "record {k} on {address} after {after}");
            }
        }
    }
}

/// With 73 nothing is written behind record 150, with 74 nothing behind 500.
#[test]
fn bytes_behind_the_last_record_stay() {
    for (firmware, bytes) in [(73, 3_300), (74, 11_000)] {
        let archive = Gateway::after_alarms(firmware, 503).archive;
        let (records, behind) = archive.split_at(bytes);
        assert!(records.chunks(22).all(|record| record[..2] == [8, 29]), "firmware {firmware}");
        assert!(behind.iter().all(|&byte| byte == 0), "firmware {firmware}");
    }
}

/// A driver that knows the depth reads all records back from the newest one, and after record 1 goes on with the last. Tells the
/// alarms that it finds.
fn read_back(gateway: &mut Gateway, depth: u16) -> Vec<u16> {
    let pointer = gateway.register(3732);
    let backwards = (1..=pointer).rev().chain((pointer + 1..=depth).rev());
    backwards.map(|k| alarm_of(&gateway.ask(READ, 731, k)[3..])).collect()
}

/// Why the depth goes by the firmware. A driver that was made for firmware 73 finds the newest 150 there, and where it reads past the
/// end it is told so. With 74, as with every gateway before 3.0, what it takes for the alarm before 501 is one from long ago.
#[test]
fn an_old_driver_finds_the_newest_150_with_firmware_73_only() {
    let mut old = Gateway::after_alarms(73, 503);
    assert!(read_back(&mut old, 150).into_iter().eq((354..=503).rev()));
    assert_eq!(old.ask(READ, 731, 151), not_there(READ));
    assert_eq!(old.ask(READ, 781, 151), not_there(READ));
    assert_eq!(old.ask(WRITE, 3733, 151), not_there(WRITE));
    let mut new = Gateway::after_alarms(74, 503);
    assert_eq!(read_back(&mut new, 150)[..5], [503, 502, 501, 150, 149]);
    assert!(read_back(&mut new, 500).into_iter().eq((4..=503).rev()));
    assert_eq!(new.ask(READ, 731, 501), not_there(READ));
}
