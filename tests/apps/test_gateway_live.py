"""windrow-gateway: live points by poll are those of the latest scan."""
import os
import random

import stores
from frames import exception, frame, reply, request
from gateways import GatewayCase
from support import FINE
from traces import ALL_POLLS, RECORD_BYTES, Table, polls_of, pulses, record

SETTINGS = "unit 17\narchive 12000\ngap 5\nfile 1 8 5101:2\ntrigger 1 1801\n"
ZEROS = Table()


def some_table(seed):
    """A table of bytes of which no two are likely to be mistaken for each other."""
    return Table(random.Random(seed).randbytes(1424))


class LiveCase(GatewayCase):
    def setUp(self):
        super().setUp()
        self.write("s", SETTINGS)

    def has(self, line, table, polls):
        """Each poll, a function, a first point and a quantity, is answered with the table's bytes, texts clean."""
        for function, first, count in polls:
            wanted = reply(17, table.cleaned().points(first, count), function)
            self.assertEqual(line.ask(request(17, function, first, count), len(wanted)), wanted, (function, first, count))

    def held(self, *words):
        """A gateway that has made its scans and still answers."""
        gateway = self.start_gateway("s", "--speed", "1e7", "--hold", *words)
        self.assertIn("scanned", gateway.stdout.readline())
        return self.client(gateway)


class OfATrace(LiveCase):
    def test_every_row(self):
        tables = [some_table(seed) for seed in (1, 2, 3)]
        gateway = self.gateway_over(b"".join(record(table, i) for i, table in enumerate(tables)), SETTINGS)
        self.has(self.client(gateway), tables[2], ALL_POLLS)

    def test_runs_within_rows(self):
        """Flags from every place of a byte, alone, across bytes and up to the last; single points and ends of the others."""
        table = some_table(4)
        line = self.client(self.gateway_over(record(table, 0), SETTINGS))
        self.has(line, table, [(1, first, count) for first in range(1801, 1810) for count in (1, 7, 8, 9, 17)])
        self.has(line, table, [(1, first, 1929 - first) for first in (1803, 1920, 1921, 1927, 1928)])
        self.has(line, table, [(3, point, 1) for point in (3001, 3064, 4001, 4032, 5101, 5164, 7101, 7228, 14001, 14016)])
        self.has(line, table, [(3, 3063, 2), (3, 4031, 2), (3, 5162, 3), (3, 7167, 62), (3, 14002, 15)])

    def test_the_latest_of_its_scans(self):
        """Not the trace's last, nor the one that an archive record is of."""
        self.write("trace", pulses(3, lambda i, table: table.int16(3001, 100 + i)))
        for scans, value in ("4", 102), ("5", 0):
            line = self.held("--trace", "trace", "--scans", scans)
            self.has(line, Table().int16(3001, value), polls_of(3001, 3002))

    def test_while_it_scans(self):
        """Each scan has a greater value than those before it; several are read, one after the other."""
        self.write("s", SETTINGS + "scan 1\n")
        self.write("trace", b"".join(record(Table().int16(3001, value), 0) for value in range(1, 1001)))
        line, seen = self.client(self.start_gateway("s", "--trace", "trace", "--speed", "20", "--hold")), []

        def several():
            seen.append(int.from_bytes(line.ask(request(17, 3, 3001, 1), 7)[3:5], "big"))
            return len(set(seen)) >= 5

        self.wait_for("five values", several)
        self.assertEqual(seen, sorted(seen))
        self.assertGreaterEqual(seen[0], 1)

    def test_scan_that_is_refused_for_its_date(self):
        """The probes have read it all the same."""
        table = some_table(5)
        gateway = self.gateway_over(record(some_table(6), 0) + record(table, 0, month=2, day=30), SETTINGS)
        self.has(self.client(gateway), table, ALL_POLLS)


class BeforeTheFirstScan(LiveCase):
    def test_of_a_yard(self):
        self.has(self.held("--scans", "0"), ZEROS, ALL_POLLS)

    def test_of_a_trace(self):
        self.write("trace", record(some_table(7), 0))
        self.has(self.held("--scans", "0", "--trace", "trace"), ZEROS, ALL_POLLS)


class OfAYard(LiveCase):
    def test_is_what_the_latest_scan_recorded(self):
        line = self.held("--scans", "30", "--record", "r")
        table = Table(self.read("r")[-RECORD_BYTES + 6:])
        self.assertEqual(table.points(4001, 2), b"NORTH\0\0\0SOUTH\0\0\0")
        self.has(line, table, ALL_POLLS)


class OfAStore(LiveCase):
    def test_that_has_all_the_scans(self):
        """A gateway that comes back has the table of the latest scan that was stored."""
        tables = [some_table(seed) for seed in (8, 9)]
        self.write("trace", b"".join(record(table, i) for i, table in enumerate(tables)))
        words = "--trace", "trace", "--store", "store"
        self.expect(FINE, "", "gateway", "s", *words, "--speed", "1e7")
        self.has(self.held(*words), tables[1], ALL_POLLS)

    def test_is_not_written_for_a_live_poll(self):
        self.write("trace", record(some_table(10), 0))
        line = self.held("--trace", "trace", "--store", "store")
        before = self.read("store"), os.stat(self.path("store")).st_mtime_ns
        self.has(line, some_table(10), ALL_POLLS)
        self.assertEqual((self.read("store"), os.stat(self.path("store")).st_mtime_ns), before)
        self.assertEqual(line.ask(request(17, 6, 3703, 3), 8), request(17, 6, 3703, 3))
        self.assertEqual(stores.Store.of(self.read("store")).get16(stores.REQUESTED), 3)


class Exceptions(LiveCase):
    """In the order of the checks: function, start address, quantity 0 or data over 250 bytes, past the row."""

    # function, address, quantity, code
    CASES = ((2, 1801, 1, 1), (4, 3001, 1, 1), (5, 1801, 1, 1), (16, 3001, 1, 1),
             (1, 1800, 1, 2), (1, 1929, 1, 2), (1, 3001, 1, 2), (1, 701, 1, 2), (1, 3701, 1, 2), (1, 0, 0, 2), (1, 65535, 65535, 2),
             (3, 1801, 1, 2), (3, 1928, 0, 2), (3, 3000, 1, 2), (3, 3065, 0, 2), (3, 4033, 1, 2), (3, 14017, 1, 2), (3, 7229, 1, 2),
             (6, 3001, 1, 2), (6, 1801, 1, 2),
             (1, 1801, 0, 3), (1, 1928, 2001, 3), (1, 1801, 2001, 3), (1, 1801, 65535, 3), (1, 1801, 129, 2), (1, 1801, 2000, 2),
             (1, 1928, 2, 2), (3, 3001, 0, 3), (3, 3001, 65, 2), (3, 3001, 125, 2), (3, 3001, 126, 3), (3, 3064, 2, 2),
             (3, 4001, 32, 3), (3, 4002, 32, 3), (3, 4003, 31, 2), (3, 5101, 63, 3), (3, 5104, 62, 2), (3, 7101, 63, 3),
             (3, 7228, 62, 2), (3, 7228, 65535, 3), (3, 14001, 16, 3), (3, 14003, 15, 2), (3, 14001, 0, 3))

    def test_each(self):
        line = self.held("--scans", "1")
        for function, address, quantity, code in self.CASES:
            asked = request(17, function, address, quantity)
            self.assertEqual(line.ask(asked, 5), exception(17, code, function), (function, address, quantity))

    def test_length(self):
        """Judged before the address."""
        line = self.held("--scans", "1")
        for data in b"\x11\x01\0\0\0\1\0", b"\x11\x01\x07\x09\0", b"\x11\x01":
            self.assertEqual(line.ask(frame(data), 5), exception(17, 3, 1))
