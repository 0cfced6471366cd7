//! Times the proved code beside an expert's plain Rust, both built for release, in one run, and prints ratios. docs/PERFORMANCE.md
//! has the figures and the command.
//!
//!     bench [frame_check]
//!
//! With the word only the frame check is timed. The status is 1 where that takes longer than it may: frame_check.rs has the limit.

mod calls;
mod expert;
mod frame_check;
mod polls;
mod texts;

use std::env;
use std::hint::black_box;
use std::io::Write;
use std::process::{exit, Command, Stdio};
use std::time::{Duration, Instant};

use expert::records::{stamp_bytes, write_record};
use model::frames::read_reply;
use model::points::{groups_from_first_place, record_size};
use model::record::{captured_record, AUGUST};
use reader::{ffi, random};

/// The Rattle program.
const RECORD_SPEED: &str = "crates/record_speed/out/record_speed";
/// As many as crates/record_speed writes.
const RECORDS: u32 = 2_000_000;
const DECODES: u32 = 2_000;
/// Each is timed this often, and the best time counts.
const TRIES: usize = 15;

fn best(mut once: impl FnMut()) -> Duration {
    (0..TRIES)
        .map(|_| {
            let start = Instant::now();
            once();
            start.elapsed()
        })
        .min()
        .unwrap()
}

/// The Rattle program is handed its case on standard input; the time is that of the whole process.
fn proved_records(case: &str) -> (Duration, u64) {
    let mut sum = 0;
    let time = best(|| {
        let mut child = Command::new(RECORD_SPEED)
            .stdin(Stdio::piped())
            .stdout(Stdio::piped())
            .spawn()
            .unwrap_or_else(|error| panic!("{RECORD_SPEED}: {error}: `rt ci` makes it"));
        child.stdin.take().unwrap().write_all(case.as_bytes()).unwrap();
        let output = child.wait_with_output().unwrap().stdout;
        sum = String::from_utf8(output).unwrap().trim().parse().unwrap();
    });
    (time, sum)
}

/// The same loop over the expert's writer.
fn plain_records(groups: &[u16; 32]) -> (Duration, u64) {
    let mut total = 0;
    let time = best(|| {
        let mut table = [0u8; 1424];
        let mut part = vec![0u8; record_size(groups)];
        let size = part.len();
        let mut sum = 0u64;
        for i in 0..RECORDS {
            table[1] = i as u8;
            table[700] = i as u8;
            let stamp = stamp_bytes(&black_box(AUGUST).into(), black_box(false));
            write_record(black_box(&mut part), &stamp, black_box(&table), black_box(groups));
            sum = (sum + u64::from(part[i as usize % size])) % (1 << 32);
        }
        total = sum;
    });
    (time, total)
}

fn records(name: &str, case: &str, groups: [u16; 32]) {
    let (proved, proved_sum) = proved_records(case);
    let (plain, plain_sum) = plain_records(&groups);
    assert_eq!(proved_sum, plain_sum, "the two writers wrote different records");
    report(name, RECORDS, proved, plain);
}

/// What so many calls took, the library's and the expert's.
struct Times {
    proved: Duration,
    plain: Duration,
}

impl Times {
    /// What is left on either side when that much is taken off.
    fn less(&self, part: &Times) -> Times {
        Times { proved: self.proved.saturating_sub(part.proved), plain: self.plain.saturating_sub(part.plain) }
    }

    fn report(&self, name: &str, calls: u32) {
        report(name, calls, self.proved, self.plain);
    }
}

/// Prints a row: the time of one of so many calls on either side, and the ratio.
fn report(name: &str, calls: u32, proved: Duration, plain: Duration) {
    let nanoseconds = |time: Duration| time.as_secs_f64() * 1e9 / f64::from(calls);
    let (proved, plain) = (nanoseconds(proved), nanoseconds(plain));
    println!("{name}: proved {proved:.1} ns, expert {plain:.1} ns, ratio {:.2}", proved / plain);
}

/// Every point of a 250-byte record of floats, each by a call of its own.
fn decoding() {
    let groups = groups_from_first_place(&[(7101, 61)]);
    let table = random::Random::new(1).bytes(1424);
    let frame = read_reply(1, &captured_record(&groups, &table, AUGUST, false));
    let proved = best(|| {
        for _ in 0..DECODES {
            for e in 1..=61 {
                black_box(ffi::point(black_box(&groups), false, black_box(&frame), 1, e));
            }
        }
    });
    let plain = best(|| {
        for _ in 0..DECODES {
            for e in 1..=61 {
                black_box(expert::reader::point(black_box(&groups), false, black_box(&frame), 1, e));
            }
        }
    });
    report("61 points of a 250-byte record decoded", DECODES, proved, plain);
}

/// All but the frame check.
fn rows() {
    records("250-byte record of 61 floats written", "f", groups_from_first_place(&[(7101, 61)]));
    records("record of 127 Booleans from 1802 written", "b", groups_from_first_place(&[(1802, 127)]));
    decoding();
    let lock = calls::calls();
    polls::polls(&lock);
}

fn main() {
    let words: Vec<String> = env::args().skip(1).collect();
    match words.iter().map(String::as_str).collect::<Vec<_>>()[..] {
        [] => rows(),
        ["frame_check"] => (),
        _ => {
            eprintln!("bench [frame_check]");
            exit(2);
        }
    }
    if !frame_check::frame_check() {
        exit(1);
    }
}
