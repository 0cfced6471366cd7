//! The library's CRC, by a table of 256 steps, beside the model's, by the bit rule.

use model::crc::crc16;
use reader::ffi;
use reader::random::Random;

/// Two bytes lead to every sum that there is, so that a third one takes every step of the table from each of them.
#[test]
fn every_step_from_every_sum() {
    let mut sums = vec![false; 1 << 16];
    for [high, low] in (0..=u16::MAX).map(u16::to_be_bytes) {
        sums[usize::from(crc16(&[high, low]))] = true;
        for last in 0..=u8::MAX {
            let bytes = [high, low, last];
            assert_eq!(ffi::crc(&bytes), crc16(&bytes), "{bytes:02X?}");
        }
    }
    assert!(sums.iter().all(|&is_seen| is_seen));
}

/// Random bytes of each length; then a bit of the first byte is flipped, one of a byte in the middle, and one of the last.
#[test]
fn every_length_up_to_600_and_one_of_64_kib() {
    let mut random = Random::new(7);
    for length in (0..=600).chain([65_535, 65_536]) {
        let mut bytes = random.bytes(length);
        assert_eq!(ffi::crc(&bytes), crc16(&bytes), "{length} bytes");
        for place in [0, length / 2, length.saturating_sub(1)].into_iter().filter(|&place| place < length) {
            let before = ffi::crc(&bytes);
            bytes[place] ^= 1 << random.below(8);
            assert_eq!(ffi::crc(&bytes), crc16(&bytes), "{length} bytes, changed at {place}");
            assert_ne!(ffi::crc(&bytes), before, "{length} bytes, changed at {place}");
        }
    }
}
