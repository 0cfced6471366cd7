"""Live tables and traces: the table of kinds, written down again."""
import struct

# kind: first point, bytes a point, from byte
INT16, TEXT8, INT32, FLOAT, TEXT16 = (3001, 2, 16), (4001, 8, 144), (5101, 4, 400), (7101, 4, 656), (14001, 16, 1168)
TABLE_BYTES = 1424
RECORD_BYTES = 1430
TEXT_ROW_BYTES = 256  # of both: 32 texts of 8, and 16 of 16

# Clean text: each byte of a text as it is captured, and polled live.
CLEAN = b"\0" + b"?" * 31 + bytes(range(0x20, 0x7F)) + b"?" * 129

# Live polls: the function by which a row is polled, its first and last point, the most points in one poll.
POLLED = [(1, 1801, 1928, 128), (3, 3001, 3064, 64), (3, 4001, 4032, 31), (3, 5101, 5164, 62), (3, 7101, 7228, 62),
          (3, 14001, 14016, 15)]


def polls_of(first, last):
    """The fewest polls that read points of one row: function, first point, quantity."""
    function, most = next((row[0], row[3]) for row in POLLED if row[1] <= first <= last <= row[2])
    return [(function, start, min(most, last + 1 - start)) for start in range(first, last + 1, most)]


ALL_POLLS = [poll for _, first, last, _ in POLLED for poll in polls_of(first, last)]


def clean(text):
    return text.translate(CLEAN)


class Table:
    def __init__(self, content=bytes(TABLE_BYTES)):
        self.bytes = bytearray(content)

    def flag(self, point, on=True):
        byte, bit = (point - 1801) // 8, 1 << (point - 1801) % 8
        self.bytes[byte] = self.bytes[byte] | bit if on else self.bytes[byte] & ~bit
        return self

    def cleaned(self):
        """A copy whose texts are clean."""
        copy = Table(self.bytes)
        for _, _, at in TEXT8, TEXT16:
            copy.bytes[at:at + TEXT_ROW_BYTES] = clean(copy.bytes[at:at + TEXT_ROW_BYTES])
        return copy

    def points(self, first, count):
        """The bytes of points as they stand, but flags are packed from the first one on; of a clean copy, what a poll reads."""
        for (start, size, at), (_, _, last, _) in zip((INT16, TEXT8, INT32, FLOAT, TEXT16), POLLED[1:]):
            if start <= first <= last:
                return bytes(self.bytes[at + (first - start) * size:at + (first - start + count) * size])
        bits = int.from_bytes(self.bytes[:16], "little") >> (first - 1801) & (1 << count) - 1
        return bits.to_bytes((count + 7) // 8, "little")

    def _put(self, row, point, content):
        first, size, at = row
        start = at + (point - first) * size
        self.bytes[start:start + size] = content.ljust(size, b"\0")
        return self

    def int16(self, point, value):
        return self._put(INT16, point, struct.pack(">h", value))

    def int32(self, point, value):
        return self._put(INT32, point, struct.pack(">i", value))

    def float(self, point, value):
        return self._put(FLOAT, point, struct.pack(">f", value))

    def pattern(self, point, bits):
        return self._put(FLOAT, point, struct.pack(">I", bits))

    def text8(self, point, text):
        return self._put(TEXT8, point, text)

    def text16(self, point, text):
        return self._put(TEXT16, point, text)


def record(table, minute, month=5, day=1, year=26, hour=6, second=0):
    """A scan of a trace."""
    return bytes([month, day, year, hour, minute, second]) + bytes(table.bytes)


def pulses(count, fill=None):
    """A trace in which flag 1801 rises `count` times, every other scan; `fill` puts values into the i-th table that is on."""
    scans = []
    for i in range(1, count + 1):
        on = Table().flag(1801).int32(5101, i)
        if fill is not None:
            fill(i, on)
        scans.append(record(Table(), 0, hour=i % 24, day=1 + i // 24))
        scans.append(record(on, 30, hour=i % 24, day=1 + i // 24))
    return b"".join(scans)
