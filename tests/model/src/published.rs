//! Published Modbus frames with their CRCs, and what the rules make of each as
//! a poll, of the archive or of live points. Where a source has a request only,
//! the reply is written from the rules and its CRC was worked out by the bit
//! rule in Python.

use crate::foreign::RawState;
use crate::machine::{least_archive, Machine};
use crate::points::{ROWS, TABLE_BYTES};

/// MODBUS over Serial Line, Specification and Implementation Guide V1.02.
const SERIAL_LINE: &str = "MODBUS over Serial Line V1.02, 6.2.2";
/// MODBUS Application Protocol Specification V1.1b3, whose frames have no
/// CRC.
const APPLICATION: &str = "MODBUS Application Protocol V1.1b3, 6.3";
const APPLICATION_COILS: &str = "MODBUS Application Protocol V1.1b3, 6.1";
const CATALOGUE: &str = "CRC catalogue, CRC-16/MODBUS, check 4B37";

/// The data of the published reply to a read of three registers (Simply
/// Modbus, FC03).
const THREE_REGISTERS: [u8; 6] = [0xAE, 0x41, 0x56, 0x52, 0x43, 0x40];

/// The data of published replies to a read of coils, how many they are, and
/// the Boolean from which on the live table has them.
const COILS: [(u16, u16, &[u8]); 2] = [
    (1804, 37, &[0xCD, 0x6B, 0xB2, 0x0E, 0x1B]),
    (1845, 19, &[0xCD, 0x6B, 0x05]),
];

/// A poll and its reply, and the gateway that they go through.
pub struct Exchange {
    pub source: &'static str,
    gateway: Gateway,
    request: &'static str,
    reply: &'static str,
}

/// What the gateway is, but for its unit, which is the request's.
#[derive(Clone, Copy)]
enum Gateway {
    /// Fresh: all files idle.
    Idle,
    /// File 1 of bare stamps, of this n, pointer and requested number.
    Registers([u16; 3]),
}

const fn idle(source: &'static str, request: &'static str, reply: &'static str) -> Exchange {
    Exchange {
        source,
        gateway: Gateway::Idle,
        request,
        reply,
    }
}

const fn registers(
    source: &'static str,
    registers: [u16; 3],
    request: &'static str,
    reply: &'static str,
) -> Exchange {
    Exchange {
        source,
        gateway: Gateway::Registers(registers),
        request,
        reply,
    }
}

/// Functions other than 01, 03 and 06 are exception 01, whatever their length;
/// a 01 or 03 of another length than 8 is 03; addresses 19, 107, 1 and 1185
/// are unknown, and the exception to the last is as published. The last six
/// are reads whose reply, or its data, is the published one.
#[rustfmt::skip]
pub const EXCHANGES: [Exchange; 20] = [
    idle(SERIAL_LINE, "02 07 41 12", "02 87 01 72 30"),
    idle(CATALOGUE, "31 32 33 34 35 36 37 38 39 37 4B", "31 B2 01 95 6F"),
    idle("Simply Modbus, FC01", "11 01 00 13 00 25 0E 84", "11 81 02 C0 54"),
    idle("Simply Modbus, FC01", "11 01 05 CD 6B B2 0E 1B 45 E6", "11 81 03 01 94"),
    idle("Simply Modbus, FC02", "11 02 00 C4 00 16 BA A9", "11 82 01 80 A5"),
    idle("Simply Modbus, FC03", "11 03 00 6B 00 03 76 87", "11 83 02 C1 34"),
    idle("Simply Modbus, FC03", "11 03 06 AE 41 56 52 43 40 49 AD", "11 83 03 00 F4"),
    idle("Simply Modbus, FC04", "11 04 00 08 00 01 B2 98", "11 84 01 83 05"),
    idle("Simply Modbus, FC05", "11 05 00 AC FF 00 4E 8B", "11 85 01 82 95"),
    idle("Simply Modbus, FC06", "11 06 00 01 00 03 9A 9B", "11 86 02 C2 64"),
    idle("Simply Modbus, FC15", "11 0F 00 13 00 0A 02 CD 01 BF 0B", "11 8F 01 84 35"),
    idle("Simply Modbus, FC16", "11 10 00 01 00 02 04 00 0A 01 02 C6 F0", "11 90 01 8C 05"),
    idle("Simply Modbus, Exceptions", "0A 01 04 A1 00 01 AC 63", "0A 81 02 B0 53"),
    idle("Simply Modbus, Exceptions", "0A 81 02 B0 53", "0A 81 01 F0 52"),
    registers("Simply Modbus, FC03: three registers", [0xAE41, 0x5652, 0x4340],
        "11 03 0E 75 00 03 14 69", "11 03 06 AE 41 56 52 43 40 49 AD"),
    registers("Simply Modbus, FC03: a stamp of those bytes", [0xAE41, 0x5652, 0x4340],
        "11 03 02 D1 00 01 D7 1B", "11 03 06 AE 41 56 52 43 40 49 AD"),
    registers(APPLICATION, [0x022B, 0x0000, 0x0064],
        "11 03 0E 75 00 03 14 69", "11 03 06 02 2B 00 00 00 64 C8 BA"),
    idle("Simply Modbus, FC01: 37 Booleans",
        "11 01 07 0C 00 25 3E 36", "11 01 05 CD 6B B2 0E 1B 45 E6"),
    idle(APPLICATION_COILS, "11 01 07 35 00 13 6E 2D", "11 01 03 CD 6B 05 40 12"),
    idle("Simply Modbus, FC03: three 16-bit points",
        "11 03 0B B9 00 03 D4 9A", "11 03 06 AE 41 56 52 43 40 49 AD"),
];

/// The bytes that two hexadecimal digits each stand for.
fn bytes(text: &str) -> Vec<u8> {
    let byte = |digits| u8::from_str_radix(digits, 16).expect("two hexadecimal digits");
    text.split(' ').map(byte).collect()
}

/// The live table that every poll is lent: the published coils among Booleans
/// that are on, and `THREE_REGISTERS` from 3001 on.
pub fn live_table() -> Vec<u8> {
    let mut table = vec![0xFF; TABLE_BYTES];
    for (first, coils, data) in COILS {
        for coil in (0..usize::from(coils)).filter(|i| data[i / 8] >> (i % 8) & 1 == 0) {
            let i = usize::from(first - ROWS[0].first) + coil;
            table[i / 8] &= !(1 << (i % 8));
        }
    }
    let registers = ROWS[1].from_byte;
    table[registers..registers + THREE_REGISTERS.len()].copy_from_slice(&THREE_REGISTERS);
    table
}

impl Exchange {
    pub fn request(&self) -> Vec<u8> {
        bytes(self.request)
    }

    pub fn reply(&self) -> Vec<u8> {
        bytes(self.reply)
    }

    /// The state of a gateway with this firmware, and its archive memory, whose
    /// first bytes are those of `THREE_REGISTERS`.
    pub fn stands(&self, firmware: u16) -> (RawState, Vec<u8>) {
        let bare_stamp = 6;
        let [n, pointer, requested] = match self.gateway {
            Gateway::Idle => [0, 0, 0],
            Gateway::Registers(registers) => registers,
        };
        let length = least_archive(firmware) + bare_stamp * usize::from(n);
        let unit = self.request()[0];
        let (answer, machine) = Machine::fresh(length, false, unit.into(), firmware.into());
        assert!(answer.is_done());
        let mut raw = machine.raw_state();
        (raw.n[0], raw.pointers[0], raw.requested[0]) = (n, pointer, requested);
        let mut memory = vec![0; length];
        memory[..THREE_REGISTERS.len()].copy_from_slice(&THREE_REGISTERS);
        (raw, memory)
    }
}

#[cfg(test)]
mod tests {
    use super::*;
    use crate::card::Answer;
    use crate::crc::checks;
    use crate::layout::FIRMWARES;

    #[test]
    fn polls_are_answered_as_published_whatever_the_firmware() {
        for exchange in &EXCHANGES {
            let (request, wanted) = (exchange.request(), exchange.reply());
            assert!(checks(&request) && checks(&wanted), "{}", exchange.source);
            for (raw, memory) in FIRMWARES.map(|firmware| exchange.stands(firmware)) {
                let mut machine = Machine::standing(&raw, None, &memory);
                let (table, mut reply) = (live_table(), [0xAA; 256]);
                let (answer, length) = machine.poll(memory.len(), &table, &request, &mut reply);
                assert_eq!(answer, Answer::DONE);
                assert_eq!(reply[..length], wanted, "{}", exchange.source);
            }
        }
    }
}
