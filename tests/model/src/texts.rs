//! Clean text. The rule, and texts with what is captured of them, worked out
//! by hand from it, for the model and the library.

/// A text byte that is neither 00 nor 20 to 7E hex is captured as 3F hex, in
/// both text kinds, and is so in a poll of live text. Each byte goes by itself,
/// also behind a 00.
pub fn captured_text_byte(byte: u8) -> u8 {
    match byte {
        0x00 | 0x20..=0x7E => byte,
        _ => 0x3F,
    }
}

/// Whether a byte of text is captured as it is.
pub fn is_clean(byte: u8) -> bool {
    captured_text_byte(byte) == byte
}

/// What the bytes 00 to FF hex of a text are captured as, in lines of 16.
pub const CAPTURED: &[u8; 256] = b"\
    \x00???????????????\
    ????????????????\
    \x20!\"#$%&'()*+,-./\
    0123456789:;<=>?\
    @ABCDEFGHIJKLMNO\
    PQRSTUVWXYZ[\\]^_\
    `abcdefghijklmno\
    pqrstuvwxyz{|}~?\
    ????????????????\
    ????????????????\
    ????????????????\
    ????????????????\
    ????????????????\
    ????????????????\
    ????????????????\
    ????????????????";

/// A text as it is captured, by that list and not by the rule.
pub fn captured_by_list(text: &[u8]) -> Vec<u8> {
    text.iter()
        .map(|&byte| CAPTURED[usize::from(byte)])
        .collect()
}

/// Texts of 8 and of 16 as they stand in the live table, and as they are
/// captured.
pub const TEXTS: [(&[u8], &[u8]); 14] = [
    (b"Windrow1", b"Windrow1"),
    (b"Row 7\x00\x00\x00", b"Row 7\x00\x00\x00"),
    (b"Row\x00\x7F\xFF\x80\x01", b"Row\x00????"),
    (b"\x1F \x7E\x7F\x1F !}", b"? ~?? !}"),
    (b"\x00\x01\x00\x1F\x00 \x00\x7F", b"\x00?\x00?\x00 \x00?"),
    (b"H\xF6he\xB2\x0D\x0A?", b"H?he????"),
    (b"\x80\x81\x9F\xA0\xC0\xE1\xFE\xFF", b"????????"),
    (&[0; 8], &[0; 8]),
    (b"Windrow sixteen.", b"Windrow sixteen."),
    (
        b"\x00\x01\x1F !?@~\x7F\x80\xFF\x00\x02\x7Ez\x00",
        b"\x00?? !?@~???\x00?~z\x00",
    ),
    (
        b"Pile 3\x00old\xE9\x00\x1Bx\x09\x00",
        b"Pile 3\x00old?\x00?x?\x00",
    ),
    (b"Green\xA0waste \x96 40", b"Green?waste ? 40"),
    (b"~~~~~~~~        ", b"~~~~~~~~        "),
    (&[0x7F; 16], b"????????????????"),
];

#[cfg(test)]
mod tests {
    use super::*;

    #[test]
    fn every_byte() {
        for byte in 0..=255 {
            let wanted = CAPTURED[usize::from(byte)];
            assert_eq!(captured_text_byte(byte), wanted, "{byte:02X} hex");
            assert_eq!(is_clean(byte), wanted == byte, "{byte:02X} hex");
        }
    }

    #[test]
    fn the_edges() {
        let lines = [
            (0x00, 0x00),
            (0x01, 0x3F),
            (0x1F, 0x3F),
            (0x20, 0x20),
            (0x3F, 0x3F),
            (0x7E, 0x7E),
            (0x7F, 0x3F),
            (0x80, 0x3F),
            (0xFF, 0x3F),
        ];
        for (byte, captured) in lines {
            assert_eq!(captured_text_byte(byte), captured, "{byte:02X} hex");
        }
    }

    /// 20 to 7E hex are 95 bytes, and 00 one more.
    #[test]
    fn ninety_six_bytes_are_clean() {
        assert_eq!((0..=255).filter(|&byte| is_clean(byte)).count(), 96);
    }
}
