"""Modbus RTU frames, with a CRC of our own."""
import struct

REGISTERS = 3701


def crc(data):
    value = 0xFFFF
    for byte in data:
        value ^= byte
        for _ in range(8):
            value = value >> 1 ^ 0xA001 if value & 1 else value >> 1
    return struct.pack("<H", value)


def frame(data):
    return bytes(data) + crc(data)


def request(unit, function, address, quantity):
    return frame(struct.pack(">BBHH", unit, function, address, quantity))


def reply(unit, data, function=3):
    """To a read."""
    return frame(bytes([unit, function, len(data)]) + bytes(data))


def exception(unit, code, function=3):
    return frame(bytes([unit, function | 0x80, code]))


def register_reply(unit, files):
    """The registers of all 11 files; `files` has n, pointer and requested of those that are not idle. The alarm file's n is 500
    where they say nothing of it."""
    files = {11: (500, 0, 0), **files}
    return reply(unit, b"".join(struct.pack(">HHH", *files.get(file, (0, 0, 0))) for file in range(1, 12)))
