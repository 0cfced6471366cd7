"""What crates/frames must write, computed apart from it:

    python3 tests/frames/expected.py > crates/frames/stdout

One line a frame: its bytes, the CRC of what is before its last two, whether it checks, and how many of its damaged
copies are refused. The CRC is by the bit rule: it starts at FFFF hex; for each byte, exclusive-or it in, then eight
times shift right and, if the bit lost was 1, exclusive-or A001 hex.
"""

SERIAL_LINE = "MODBUS over Serial Line V1.02, 6.2.2"
CATALOGUE = "CRC catalogue, CRC-16/MODBUS, check 4B37"
SIMPLY = "Simply Modbus, "
BIT_RULE = "document 01's bit rule"

# Frames with a published CRC: bytes, source. Each must check.
PUBLISHED = [
    ("02 07 41 12", SERIAL_LINE),
    ("31 32 33 34 35 36 37 38 39 37 4B", CATALOGUE),
    ("11 01 00 13 00 25 0E 84", SIMPLY + "FC01"),
    ("11 01 05 CD 6B B2 0E 1B 45 E6", SIMPLY + "FC01"),
    ("11 02 00 C4 00 16 BA A9", SIMPLY + "FC02"),
    ("11 03 00 6B 00 03 76 87", SIMPLY + "FC03"),
    ("11 03 06 AE 41 56 52 43 40 49 AD", SIMPLY + "FC03"),
    ("11 04 00 08 00 01 B2 98", SIMPLY + "FC04"),
    ("11 05 00 AC FF 00 4E 8B", SIMPLY + "FC05"),
    ("11 06 00 01 00 03 9A 9B", SIMPLY + "FC06"),
    ("11 0F 00 13 00 0A 02 CD 01 BF 0B", SIMPLY + "FC15"),
    ("11 10 00 01 00 02 04 00 0A 01 02 C6 F0", SIMPLY + "FC16"),
    ("0A 81 02 B0 53", SIMPLY + "Exceptions"),
]

# Lengths 0 to 3: bytes, and whether the frame checks. The CRC of no bytes is FFFF.
SHORT = [("", False), ("FF", False), ("FF FF", True), ("00 00 00", False)]


def crc(data):
    """The CRC starts at FFFF; each byte is exclusive-ored in, then eight shifts right, with A001 where a 1 is lost."""
    value = 0xFFFF
    for byte in data:
        value ^= byte
        for _ in range(8):
            lost = value & 1
            value >>= 1
            if lost == 1:
                value ^= 0xA001
    return value


def checks(frame):
    """Whether a frame ends in the CRC of what is before, low byte first."""
    if len(frame) < 2:
        return False
    value = crc(frame[:-2])
    return frame[-2:] == bytes([value & 0xFF, value >> 8])


def damaged(frame):
    """Each bit flipped in turn, the last byte cut off, the last two bytes swapped; a swap that changes nothing too."""
    copies = []
    for place in range(len(frame)):
        for bit in range(8):
            copy = bytearray(frame)
            copy[place] ^= 1 << bit
            copies.append(bytes(copy))
    if len(frame) >= 1:
        copies.append(frame[:-1])
    if len(frame) >= 2:
        copies.append(frame[:-2] + frame[-1:] + frame[-2:-1])
    return copies


def line(frame, source):
    """The line of one frame."""
    shown = " ".join(f"{byte:02X}" for byte in frame) if frame else "(no bytes)"
    verdict = "checks" if checks(frame) else "does not check"
    copies = damaged(frame)
    refused = sum(1 for copy in copies if not checks(copy))
    return f"{shown} crc {crc(frame[:-2]):04X} {verdict}, {refused} of {len(copies)} damaged copies refused ({source})"


def main():
    """Writes every line; stops where a frame does not check as its source says."""
    assert crc(b"123456789") == 0x4B37
    for text, source in PUBLISHED:
        frame = bytes.fromhex(text)
        assert checks(frame), text
        print(line(frame, source))
    for text, right in SHORT:
        frame = bytes.fromhex(text)
        assert checks(frame) == right, text
        print(line(frame, BIT_RULE))


if __name__ == "__main__":
    main()
