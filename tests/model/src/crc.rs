//! The CRC of frames by the bit rule.

/// Starts at FFFF hex; each byte is exclusive-ored in, then eight times a
/// shift right and, if the bit lost was 1, exclusive-or A001 hex.
pub fn crc16(bytes: &[u8]) -> u16 {
    let mut crc = 0xFFFF;
    for &byte in bytes {
        crc ^= u16::from(byte);
        for _ in 0..8 {
            let lost = crc & 1;
            crc >>= 1;
            if lost == 1 {
                crc ^= 0xA001;
            }
        }
    }
    crc
}

/// The bytes followed by their CRC, low byte first.
pub fn with_crc(mut bytes: Vec<u8>) -> Vec<u8> {
    let crc = crc16(&bytes);
    bytes.extend(crc.to_le_bytes());
    bytes
}

/// Whether a frame ends in the CRC of what stands before it.
pub fn checks(frame: &[u8]) -> bool {
    if frame.len() < 2 {
        return false;
    }
    let (body, end) = frame.split_at(frame.len() - 2);
    crc16(body).to_le_bytes() == end
}

#[cfg(test)]
mod tests {
    use super::*;

    #[test]
    fn published_check_value() {
        assert_eq!(crc16(b"123456789"), 0x4B37);
    }

    #[test]
    fn published_frames() {
        assert!(checks(&[0x11, 0x03, 0x00, 0x6B, 0x00, 0x03, 0x76, 0x87]));
        assert!(checks(&[0x11, 0x06, 0x00, 0x01, 0x00, 0x03, 0x9A, 0x9B]));
        assert!(checks(&[0x01, 0x03, 0x00, 0x00, 0x00, 0x0A, 0xC5, 0xCD]));
    }

    #[test]
    fn a_changed_bit_or_swapped_crc_is_told() {
        assert!(!checks(&[0x11, 0x03, 0x00, 0x6B, 0x00, 0x02, 0x76, 0x87]));
        assert!(!checks(&[0x11, 0x03, 0x00, 0x6B, 0x00, 0x03, 0x87, 0x76]));
    }

    #[test]
    fn at_least_two_bytes_are_needed() {
        assert!(!checks(&[]));
        assert!(!checks(&[0xFF]));
        assert!(checks(&[0xFF, 0xFF]));
    }

    #[test]
    fn what_is_given_a_crc_checks() {
        assert!(checks(&with_crc(vec![1, 0x83, 2])));
        assert_eq!(with_crc(vec![]), [0xFF, 0xFF]);
    }
}
