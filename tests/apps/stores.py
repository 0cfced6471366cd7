"""A gateway's state and store as bytes. apps/store.h and include/windrow_gateway.h have the layouts."""
import struct

from frames import crc

STATE_BYTES = 1604
HEAD_BYTES = 24

# Where the state's parts are.
ARCHIVE_LENGTH, UNIT, DAY_FIRST, FIRMWARE = 0, 4, 5, 6
RUNNING, UNLOCKED, PENDING, SCANNED, BOOLEANS = 8, 9, 10, 11, 12
LAYOUT_GROUPS, LAYOUT_LIMITS, POINTERS, REQUESTED = 28, 668, 688, 710
DRAFT_GROUPS, DRAFT_LIMITS, TRIGGERS, SLOTS = 732, 1372, 1392, 1412


class Store:
    """The parts of a store; `of` takes one apart, `bytes` puts it together with a right CRC."""

    def __init__(self, state, archive, scans=0, state_format=2):
        self.state, self.archive, self.scans = bytearray(state), bytearray(archive), scans
        self.mark, self.format = b"WINDROW\0", state_format

    @staticmethod
    def of(content):
        state_format, _, archive_length, scans = struct.unpack(">IIII", content[8:24])
        state, archive = content[HEAD_BYTES:HEAD_BYTES + STATE_BYTES], content[HEAD_BYTES + STATE_BYTES:-2]
        assert len(archive) == archive_length and content[-2:] == crc(content[:-2])
        return Store(state, archive, scans, state_format)

    def as_of_2(self, reserved=0):
        """The same as releases 1 and 2 left it: of format 1, with two reserved bytes where now the firmware stands."""
        old = Store(self.state, self.archive, self.scans, 1)
        old.put16(FIRMWARE, reserved)
        return old

    def put16(self, place, *numbers):
        struct.pack_into("<%dH" % len(numbers), self.state, place, *numbers)

    def get16(self, place):
        return struct.unpack_from("<H", self.state, place)[0]

    def bytes(self):
        head = self.mark + struct.pack(">IIII", self.format, len(self.state), len(self.archive), self.scans)
        content = head + bytes(self.state) + bytes(self.archive)
        return content + crc(content)


def fresh(unit=17, archive_length=11000, day_first=False, firmware=74):
    """A store of a gateway without files, running."""
    state = bytearray(STATE_BYTES)
    struct.pack_into("<I", state, ARCHIVE_LENGTH, archive_length)
    state[UNIT], state[DAY_FIRST], state[RUNNING] = unit, day_first, 1
    store = Store(state, bytes(archive_length))
    store.put16(FIRMWARE, firmware)
    return store


def with_file(limit, *groups, archive_length=11000, unit=17, firmware=74):
    """A store of a gateway whose file 1 has these groups, drafted and laid out."""
    store = fresh(unit, archive_length, firmware=firmware)
    for part in LAYOUT_GROUPS, DRAFT_GROUPS:
        store.put16(part, *[number for group in groups for number in group])
    for part in LAYOUT_LIMITS, DRAFT_LIMITS:
        store.put16(part, limit)
    return store
