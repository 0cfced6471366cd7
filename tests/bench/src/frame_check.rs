//! The frame check over 64 KiB of frames: whether each ends in its CRC, by the library's table of 256 steps and by two of the expert's,
//! which go by such a table too. The three are timed in turn, run after run.

use std::hint::black_box;
use std::time::Instant;

use model::crc::with_crc;
use reader::ffi;
use reader::random::Random;

use crate::expert::crc::{crc, wide_crc};

const BYTES: usize = 65_536;
const RUNS: usize = 31;
/// How often a run goes over all the frames.
const PASSES: u32 = 8;
/// The library may take so many times the time of the faster of the expert's.
const LIMIT: f64 = 1.5;

/// The length of the frames, and whether the limit is held. It is not held for short frames, where filling the table is most of the
/// work (docs/PERFORMANCE.md).
const ROWS: [(&str, usize, bool); 3] =
    [("as 256 frames of 256 bytes", 256, true), ("as 8,192 frames of 8 bytes", 8, false), ("as one list", BYTES, true)];

/// 64 KiB of frames of so many bytes, one behind the other.
fn frames(length: usize) -> Vec<u8> {
    let mut random = Random::new(4);
    (0..BYTES / length).flat_map(|_| with_crc(random.bytes(length - 2))).collect()
}

/// How many of the frames end in their CRC.
#[inline]
fn right(bytes: &[u8], length: usize, crc: impl Fn(&[u8]) -> u16) -> usize {
    let ends_in_crc = |frame: &&[u8]| {
        let (body, end) = frame.split_at(length - 2);
        crc(body).to_le_bytes() == end
    };
    bytes.chunks_exact(length).filter(ends_in_crc).count()
}

/// The microseconds that 64 KiB take.
fn time(bytes: &[u8], length: usize, crc: impl Fn(&[u8]) -> u16) -> f64 {
    let start = Instant::now();
    for _ in 0..PASSES {
        assert_eq!(right(black_box(bytes), length, &crc), BYTES / length);
    }
    start.elapsed().as_secs_f64() * 1e6 / f64::from(PASSES)
}

/// All find every frame right, and none once a bit of each is flipped.
fn agree(bytes: &[u8], length: usize) {
    let mut damaged = bytes.to_vec();
    for frame in damaged.chunks_exact_mut(length) {
        frame[length / 2] ^= 0x10;
    }
    for (bytes, wanted) in [(bytes, BYTES / length), (&damaged, 0)] {
        let found = [right(bytes, length, ffi::crc), right(bytes, length, crc), right(bytes, length, wide_crc)];
        assert_eq!(found, [wanted; 3]);
    }
}

/// The least, the median and the greatest of a figure over all runs.
fn spread(runs: &[[f64; 3]], figure: impl Fn(&[f64; 3]) -> f64) -> [f64; 3] {
    let mut all: Vec<f64> = runs.iter().map(figure).collect();
    all.sort_by(f64::total_cmp);
    [all[0], all[RUNS / 2], all[RUNS - 1]]
}

/// Prints what 64 KiB of frames take on each side, the best with the range of all runs, and the ratios to the expert's two: of the
/// best, and the median of the runs with their range. Answers whether the best is within the limit.
fn row(name: &str, length: usize) -> bool {
    let bytes = frames(length);
    agree(&bytes, length);
    let run = |_| [time(&bytes, length, ffi::crc), time(&bytes, length, crc), time(&bytes, length, wide_crc)];
    let runs: Vec<[f64; 3]> = (0..RUNS).map(run).collect();
    let [proved, plain, wide] = [0, 1, 2].map(|side| spread(&runs, |run| run[side]));
    println!("64 KiB {name}, {RUNS} runs: proved {:.1} us (to {:.1})", proved[0], proved[2]);
    for (yardstick, side, times) in [("expert", 1, plain), ("expert with a sum of 32 bits", 2, wide)] {
        let [least, median, greatest] = spread(&runs, |run| run[0] / run[side]);
        let ratio = proved[0] / times[0];
        println!("  {yardstick} {:.1} us (to {:.1}), ratio {ratio:.2}; {median:.2} ({least:.2}-{greatest:.2})", times[0], times[2]);
    }
    proved[0] <= LIMIT * plain[0].min(wide[0])
}

/// Prints all rows, and in how many the limit is held and kept. Answers whether it is kept wherever it is held.
pub fn frame_check() -> bool {
    let rows = ROWS.map(|(name, length, is_held)| (is_held, row(name, length)));
    let held = rows.iter().filter(|(is_held, _)| *is_held).count();
    let kept = rows.iter().filter(|(is_held, is_within)| *is_held && *is_within).count();
    println!("{kept} of {held} within {LIMIT} times the faster expert's time");
    kept == held
}
