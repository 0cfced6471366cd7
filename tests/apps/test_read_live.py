"""windrow-read --live: every cell is what the test put into the table; trouble is told, and then nothing is written."""
import csv
import io
import struct

from cells import is_float, text_cell
from frames import exception, frame, reply
from gateways import GatewayCase
from lines import PlaysGateways, live_answers
from support import FINE, MISUSE, TROUBLE
from traces import ALL_POLLS, POLLED, Table, polls_of, record

SETTINGS = "unit 17\n"
OLDER = "gateways before version 2.0 have no live points to read"
KINDS = {1801: "flag", 3001: "16-bit", 4001: "text", 5101: "32-bit", 7101: "float", 14001: "text"}
INT16S = [0, 1, -1, 32767, -32768, -5, 258]
INT32S = [0, -1, 2147483647, -2147483648, 65536, -65537, 16909060]
PATTERNS = [0x00000000, 0x80000000, 0x7FC00000, 0xFF800001, 0x7F800000, 0xFF800000, 0x00000001, 0xC2C80000, 0x3DCCCCCD, 0x7F7FFFFF]
TEXTS = [b"", b"NORTH", b"a,b", b'say "x"', b"\x7f\x80\xff\x01", b"back\\sl", b"12345678"]


def filled():
    """A table with every sort of value."""
    table = Table()
    for i in range(128):
        table.flag(1801 + i, i % 3 == 0 or i % 7 == 2).pattern(7101 + i, PATTERNS[i % 10])
    for i in range(64):
        table.int16(3001 + i, INT16S[i % 7]).int32(5101 + i, INT32S[i % 7])
    for i in range(32):
        table.text8(4001 + i, TEXTS[i % 7])
    for i in range(16):
        table.text16(14001 + i, TEXTS[i % 7] + b"|" + TEXTS[(i + 1) % 7])
    return table


class LiveCase(PlaysGateways, GatewayCase):
    def setUp(self):
        super().setUp()
        self.write("s", SETTINGS)

    def shows(self, gateway, *words):
        """The rows behind the heading."""
        done = self.expect(FINE, "", "read", gateway.device, "s", "--live", *words)
        heading, *rows = csv.reader(io.StringIO(done.stdout))
        self.assertEqual(heading, ["point", "kind", "value"])
        return rows

    def fails(self, answer, told, *words, older=False):
        """It is told and nothing is written; that the gateway may be an older one is told where it answers as those do."""
        gateway = self.play(answer)
        done = self.expect(TROUBLE, told, "read", gateway.device, "s", "--live", *words)
        self.assertEqual((done.stdout, OLDER in done.stderr), ("", older), done.stderr)
        return gateway


class Values(LiveCase):
    def check_row(self, row, point, table):
        first = next(first for _, first, last, _ in POLLED if first <= point <= last)
        data, cell = table.points(point, 1), row[2]
        self.assertEqual(row[:2], [str(point), KINDS[first]])
        if KINDS[first] == "float":
            self.assertTrue(is_float(cell, *struct.unpack(">I", data)), row)
        elif KINDS[first] == "text":
            self.assertEqual(cell, text_cell(data.rstrip(b"\0")))
        else:
            self.assertEqual(cell, str(int.from_bytes(data, "big", signed=KINDS[first] != "flag")))

    def test_every_point(self):
        table = filled()
        gateway = self.play(live_answers(table))
        rows = self.shows(gateway)
        points = [point for _, first, last, _ in POLLED for point in range(first, last + 1)]
        self.assertEqual(len(rows), 432)
        for row, point in zip(rows, points):
            self.check_row(row, point, table)
        self.assertEqual([asked[1:4] for asked in gateway.requests], ALL_POLLS)
        self.assertEqual(len(gateway.requests), 11)

    def test_lines(self):
        table = Table().flag(1802).int16(3001, -5).text8(4001, b'a"b,c').int32(5101, 7).float(7101, 55.5).text16(14001, b"too hot")
        gateway = self.play(live_answers(table))
        done = self.expect(FINE, "", "read", gateway.device, "s", "--live", "1801-1802", "3001", "4001", "5101", "7101", "14001")
        self.assertEqual(done.stdout, 'point,kind,value\n1801,flag,0\n1802,flag,1\n3001,16-bit,-5\n4001,text,"a""b,c"\n'
                                      '5101,32-bit,7\n7101,float,55.5\n14001,text,"too hot"\n')

    def test_some_points(self):
        table = filled()
        for first, last in ((1801, 1801), (1803, 1811), (1928, 1928), (3064, 3064), (4001, 4032), (4002, 4032), (7102, 7228),
                            (14016, 14016)):
            gateway = self.play(live_answers(table))
            rows = self.shows(gateway, "%d-%d" % (first, last))
            self.assertEqual([asked[1:4] for asked in gateway.requests], polls_of(first, last))
            self.assertEqual(len(rows), last - first + 1)
            for row, point in zip(rows, range(first, last + 1)):
                self.check_row(row, point, table)

    def test_in_the_order_given(self):
        gateway = self.play(live_answers(filled()))
        self.assertEqual([row[0] for row in self.shows(gateway, "7102", "3001-3003", "7101", "3002")],
                         ["7102", "3001", "3002", "3003", "7101", "3002"])

    def test_of_a_gateway(self):
        """windrow-gateway's, over a trace, which sends texts clean; only the unit of its settings is needed."""
        table = filled()
        gateway = self.gateway_over(record(Table(), 0) + record(table, 1), "unit 17\ngap 5\nfile 1 4 5101:1\ndates day-first\n")
        self.write("s", SETTINGS)
        rows = self.shows(gateway)
        self.assertEqual(len(rows), 432)
        for row in rows:
            self.check_row(row, int(row[0]), table.cleaned())


class Answers(LiveCase):
    good = staticmethod(live_answers(filled()))

    def reads(self, answer, *words):
        """All is read well in spite of all."""
        rows = self.shows(self.play(answer), *words)
        self.assertEqual(rows, self.shows(self.play(self.good)))

    def test_older_gateway(self):
        """It knows neither 01 nor the addresses."""
        def older(_unit, function, *_):
            return exception(17, 1, 1) if function == 1 else exception(17, 2)

        gateway = self.fails(older, "points 1801-1928: the gateway answers exception 1, illegal function", older=True)
        self.assertEqual(len(gateway.requests), 1)
        self.fails(older, "points 3001-3005: the gateway answers exception 2, illegal data address", "3001-3005", older=True)

    def test_exception_midway(self):
        self.fails(lambda *a: exception(17, 3) if a[2] == 7163 else self.good(*a),
                   "points 7163-7224: the gateway answers exception 3, illegal data value")

    def test_silent(self):
        gateway = self.fails(lambda *_: b"", "points 1801-1928: no answer in time from unit 17", "--wait", "200", "--tries", "2")
        self.assertEqual(len(gateway.requests), 2)
        self.fails(lambda *a: b"" if a[2] == 14016 else self.good(*a), "points 14016-14016: no answer in time", "--wait", "200",
                   "--tries", "1")

    def test_wrong_crc(self):
        self.fails(lambda *a: self.good(*a)[:-1] + bytes([self.good(*a)[-1] ^ 1]), "garbled (its CRC or its function is wrong)")

    def test_wrong_crc_once(self):
        self.reads(lambda *a: self.good(*a)[:-1] + b"\0" if a[4] == 0 else self.good(*a), "--wait", "300")

    def test_other_function(self):
        """The right data, but by 03, or by 02."""
        for function in 3, 2:
            self.fails(lambda *a, f=function: reply(17, filled().points(1801, 128), f), "points 1801-1928: the answer is garbled",
                       "--wait", "200")

    def test_other_unit(self):
        self.fails(lambda *_: reply(18, bytes(16), 1), "points 1801-1928: unit 18 answers, and unit 17 was asked", "--wait", "300")

    def test_other_size(self):
        """Fewer flags, or one register a point where a float has four bytes."""
        self.fails(lambda *_: reply(17, bytes(2), 1), "points 1801-1928: 2 bytes came, and 16 were asked for")
        self.fails(lambda *_: reply(17, bytes(17), 1), "points 1801-1928: 17 bytes came, and 16 were asked for")
        self.fails(lambda *_: reply(17, bytes(10)), "points 7101-7105: 10 bytes came, and 20 were asked for", "7101-7105")
        self.fails(lambda *_: frame(b"\x11\x03\x00"), "points 3001-3001: 0 bytes came, and 2 were asked for", "3001")

    def test_byte_by_byte(self):
        """A reply to 01 ends by its byte count, as one to 03."""
        self.reads(lambda *a: [part for byte in self.good(*a) for part in (bytes([byte]), 0.0005)], "--wait", "10000")

    def test_noise_before_an_answer(self):
        self.reads(lambda *a: (b"\x55\xaa" if a[4] in (0, 3) else b"") + self.good(*a), "--wait", "300")

    def test_late_answer_is_not_taken_for_the_next_points(self):
        """7101-7162 are answered after they were asked for again, and then once more; 7163-7224 have as many bytes."""
        self.reads(lambda *a: [{6: 0.45, 7: 0.15}.get(a[4], 0), self.good(*a)], "--wait", "300")

    def test_unplugged(self):
        self.fails(lambda *a: None if a[4] == 2 else self.good(*a), "is gone")

    def test_interrupted(self):
        gateway = self.play(lambda *_: b"")
        reader = self.start(gateway.device, "s", "--live", "--wait", "600000", name="read")
        self.wait_for("a request", lambda: gateway.requests)
        self.assertEqual(self.stopped(reader), (TROUBLE, "", "windrow-read: interrupted\n"))

    def test_full_output(self):
        gateway = self.play(self.good)
        with open("/dev/full", "w") as full:
            self.expect(TROUBLE, "windrow-read: standard output c", "read", gateway.device, "s", "--live", stdout=full)


class Words(LiveCase):
    """What is misused is told before the device is touched."""

    def misuse(self, told, *words):
        self.expect(MISUSE, told, "read", "nowhere", "s", "--live", *words)

    def test_points(self):
        for word in ("1", "11", "1800", "1929", "3000", "3065", "0", "x", "", "-5", "3001x", "3001-", "3001-x", "3002-3001",
                     "3001-3065", "1801-3064", "7228-14001", "3001-3002-3003", "3001--3002", "1=csv", "3001=csv", "67337",
                     "4294969097", "99999999999999999999", "3001-99999999999999999999"):
            self.misuse("`%s` is no POINT of the live table or FIRST-LAST within a row of it" % word, word)

    def test_files_besides(self):
        self.misuse("`11` is no POINT", "3001", "11")

    def test_too_many(self):
        self.misuse("points can be given 64 times at most", *["3001"] * 65)

    def test_follow(self):
        self.misuse("--follow is for files; --live reads once", "--follow")
        self.misuse("--follow is for files; --live reads once", "3001", "--follow")

    def test_live_points_without_the_option(self):
        self.expect(MISUSE, "`3001` is no FILE or FILE=CSV; files are 1-11", "read", "nowhere", "s", "3001")

    def test_unit_of_no_gateway(self):
        self.write("s", "unit 248\n")
        self.expect(TROUBLE, "s: unit 248 is not 1-247", "read", "nowhere", "s", "--live")
