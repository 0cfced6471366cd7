//! Polls of the gateway that `calls` has, beside the expert's. Both sides judge the whole state before they look at the frame. Each
//! row is printed whole and without the judging, and that in two ways, since it cannot be timed by itself: less a poll that is
//! refused for its reply buffer (13), and less a Lock. Both take off the state's way by value as well. The refused poll takes off all
//! that polls do besides answering a frame, the Lock only what every call does.

use std::hint::black_box;

use ::gateway::ffi::{self, State};
use model::frames::request;
use reader::random::Random;

use crate::calls::{watching, ARCHIVE, CALLS, FLOATS};
use crate::expert::polls::poll as expert_poll;
use crate::texts::half_clean_table;
use crate::{best, Times};

const UNIT: u8 = 1;
const ROOM: usize = 256;

/// Both sides give the same answer, state and bytes: this number and a reply of this length.
fn agree(s: State, archive: &mut [u8], table: &mut [u8], frame: &mut [u8], room: usize, wanted: (u32, u32)) {
    let (mut reply, mut plain_reply) = (vec![0xAA; room], vec![0xAA; room]);
    let proved = ffi::poll(s, archive, table, frame, &mut reply);
    let mut after = s;
    let plain = expert_poll(&mut after, archive, table, frame, &mut plain_reply);
    assert_eq!(((proved.number, proved.length), plain), (wanted, wanted));
    assert_eq!(proved.state, after, "the two polls left different states");
    assert!(reply == plain_reply, "the two polls wrote different replies");
}

fn times(mut s: State, frame: &mut [u8], room: usize, wanted: (u32, u32)) -> Times {
    let (mut archive, mut table) = (Random::new(3).bytes(ARCHIVE), half_clean_table());
    agree(s, &mut archive, &mut table, frame, room, wanted);
    let mut reply = vec![0; room];
    let proved = best(|| {
        for _ in 0..CALLS {
            let (archive, table) = (black_box(&mut archive), black_box(&mut table));
            black_box(ffi::poll(black_box(s), archive, table, black_box(frame), black_box(&mut reply)));
        }
    });
    let plain = best(|| {
        for _ in 0..CALLS {
            let (archive, table) = (black_box(&archive), black_box(&table));
            black_box(expert_poll(black_box(&mut s), archive, table, black_box(frame), black_box(&mut reply)));
        }
    });
    Times { proved, plain }
}

/// A gateway whose file 10 has record 7 requested: nine files lie before it.
fn requested() -> State {
    let mut s = watching(FLOATS);
    s.line.requested[9] = 7;
    s
}

pub fn polls(lock: &Times) {
    let s = requested();
    let refused = times(s, &mut request(UNIT, 3, 730, 7), ROOM - 1, (13, 0));
    refused.report("a poll refused for its reply buffer", CALLS);
    let rows = [
        ("a poll of a 250-byte record by number", request(UNIT, 3, 730, 7), 255),
        ("a poll of a 250-byte record requested", request(UNIT, 3, 710, 0), 255),
        ("a poll of 33 registers", request(UNIT, 3, 3701, 33), 71),
        ("a 06", request(UNIT, 6, 3730, 7), 8),
        ("a poll of 62 live floats", request(UNIT, 3, 7101, 62), 253),
        ("a poll of 31 live texts of 8", request(UNIT, 3, 4001, 31), 253),
        ("a poll of 127 live Booleans from 1802", request(UNIT, 1, 1802, 127), 21),
    ];
    for (name, mut frame, length) in rows {
        let whole = times(s, &mut frame, ROOM, (0, length));
        whole.report(name, CALLS);
        whole.less(&refused).report(&format!("{name}, less a refused poll"), CALLS);
        whole.less(lock).report(&format!("{name}, less a Lock"), CALLS);
    }
}
