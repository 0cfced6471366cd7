//! What requests, read replies and exceptions look like on the line. Numbers
//! go high byte first, but for the CRC.

use crate::crc::with_crc;

/// The functions that are known: 01 reads live Booleans, 03 all else that is
/// read, 06 writes.
pub const READ_BOOLEANS: u8 = 1;
pub const READ: u8 = 3;
pub const WRITE: u8 = 6;

/// Unit, function, address (2), quantity or value (2), CRC (2).
pub const REQUEST_BYTES: usize = 8;
/// A frame under 4 or over 256 bytes has no reply.
pub const SHORTEST_FRAME: usize = 4;
pub const LONGEST_FRAME: usize = 256;
/// The most bytes of data that a reply carries.
pub const MOST_DATA: usize = 250;

/// Exception codes.
pub const ILLEGAL_FUNCTION: u8 = 1;
pub const ILLEGAL_ADDRESS: u8 = 2;
pub const ILLEGAL_VALUE: u8 = 3;

/// The names of those codes in the MODBUS Application Protocol
/// Specification V1.1b3, section 7.
pub fn exception_name(code: u8) -> Option<&'static str> {
    match code {
        ILLEGAL_FUNCTION => Some("ILLEGAL FUNCTION"),
        ILLEGAL_ADDRESS => Some("ILLEGAL DATA ADDRESS"),
        ILLEGAL_VALUE => Some("ILLEGAL DATA VALUE"),
        _ => None,
    }
}

/// A request: unit, function, address, quantity or value, CRC.
pub fn request(unit: u8, function: u8, address: u16, number: u16) -> Vec<u8> {
    let mut body = vec![unit, function];
    body.extend(address.to_be_bytes());
    body.extend(number.to_be_bytes());
    with_crc(body)
}

/// A read reply: unit, 03, byte count, bytes, CRC.
pub fn read_reply(unit: u8, data: &[u8]) -> Vec<u8> {
    data_reply(unit, READ, data)
}

/// A reply with data; one to 01 carries 01 where a read has 03.
pub fn data_reply(unit: u8, function: u8, data: &[u8]) -> Vec<u8> {
    let mut body = vec![unit, function, data.len() as u8];
    body.extend(data);
    with_crc(body)
}

/// An exception: unit, function with its highest bit set, code, CRC.
pub fn exception(unit: u8, function: u8, code: u8) -> Vec<u8> {
    with_crc(vec![unit, function | 0x80, code])
}

/// The number that stands at a place of a frame, high byte first.
pub fn number_at(frame: &[u8], place: usize) -> u16 {
    u16::from_be_bytes([frame[place], frame[place + 1]])
}

#[cfg(test)]
mod tests {
    use super::*;

    /// The frames of the published examples, built from their numbers.
    #[test]
    fn shapes_are_the_published_ones() {
        let read = [0x11, 0x03, 0x00, 0x6B, 0x00, 0x03, 0x76, 0x87];
        assert_eq!(request(17, 3, 107, 3), read);
        let write = [0x11, 0x06, 0x00, 0x01, 0x00, 0x03, 0x9A, 0x9B];
        assert_eq!(request(17, 6, 1, 3), write);
        let data = [0xAE, 0x41, 0x56, 0x52, 0x43, 0x40];
        let reply = [&[0x11, 0x03, 0x06], &data[..], &[0x49, 0xAD]].concat();
        assert_eq!(read_reply(17, &data), reply);
        let coils = [0xCD, 0x6B, 0xB2, 0x0E, 0x1B];
        let reply = [&[0x11, 0x01, 0x05], &coils[..], &[0x45, 0xE6]].concat();
        assert_eq!(data_reply(17, READ_BOOLEANS, &coils), reply);
        let told = [0x0A, 0x81, 0x02, 0xB0, 0x53];
        assert_eq!(exception(10, 1, ILLEGAL_ADDRESS), told);
        assert_eq!(exception(10, 0x81, ILLEGAL_ADDRESS), told);
    }

    #[test]
    fn a_number_is_read_where_a_request_has_it() {
        let frame = request(17, 6, 3703, 500);
        assert_eq!((number_at(&frame, 2), number_at(&frame, 4)), (3703, 500));
    }
}
