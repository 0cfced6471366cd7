//! The CRC by a table of 256 steps.

const fn crc_steps() -> [u16; 256] {
    let mut steps = [0; 256];
    let mut byte = 0;
    while byte < 256 {
        let (mut crc, mut turn) = (byte as u16, 0);
        while turn < 8 {
            crc = if crc & 1 == 1 { crc >> 1 ^ 0xA001 } else { crc >> 1 };
            turn += 1;
        }
        steps[byte] = crc;
        byte += 1;
    }
    steps
}

static CRC_STEPS: [u16; 256] = crc_steps();

#[inline]
pub fn crc(bytes: &[u8]) -> u16 {
    bytes.iter().fold(0xFFFF, |crc, &byte| crc >> 8 ^ CRC_STEPS[usize::from(crc as u8 ^ byte)])
}

/// The same in a whole register. A sum of 16 bits starts by writing the low 16 bits of a register, and the processor waits for the rest
/// of it, which the CRC before leaves.
#[inline]
pub fn wide_crc(bytes: &[u8]) -> u16 {
    bytes.iter().fold(0xFFFF_u32, |crc, &byte| crc >> 8 ^ u32::from(CRC_STEPS[usize::from(crc as u8 ^ byte)])) as u16
}
