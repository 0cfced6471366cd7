"""windrow-read against windrow-gateway: every cell is what the test put into the trace, texts clean."""
import csv
import io
import math
import struct

import cleared_first
import stores
from cells import is_float, text_cell
from gateways import GatewayCase
from support import DEADLINE, FINE, TROUBLE
from traces import RECORD_BYTES, Table, clean, pulses, record

KINDS = "unit 17\narchive 32768\ngap 1\n%sfile 1 %d 1801:10 3001:2 4001:1 5101:2 0:0 7101:3 14001:1\ntrigger 1 1801\n"
HEADING = ["record", "stamp", *map(str, range(1801, 1811)), *"3001 3002 4001 5101 5102 7101 7102 7103 14001".split()]

INT16S = [0, 1, -1, 32767, -32768, -5, 258]
INT32S = [0, -1, 2147483647, -2147483648, 65536, -65537, 16909060]
# pattern, and how its cell must read
FLOATS = [(0x00000000, "0"), (0x80000000, "-0"), (0x7FC00000, "nan"), (0xFF800001, "nan"), (0x7F800000, "inf"),
          (0xFF800000, "-inf"), (0x00000001, None), (0xC2C80000, "-100"), (0x3DCCCCCD, None),
          (0x7F7FFFFF, None), (0x42886666, None)]
TEXT8S = [b"", b"NORTH", b"a,b", b'say "x"', b"\x7f\x80\xff\x01", b"back\\sl", b"12345678"]
TEXT16S = [b"too hot", b'"' * 16, b"\xff" * 16, b"line\nbreak", b"zero\0inside", b",,,,,,,,,,,,,,,,", b"   spaces"]


def fill(i, table):
    """The i-th record's values, those of each kind in turn."""
    table.flag(1801 + i % 10).flag(1811).int16(3001, INT16S[i % 7]).int16(3002, INT16S[(i + 3) % 7]).text8(4001, TEXT8S[i % 7])
    table.int32(5101, INT32S[i % 7]).int32(5102, INT32S[(i + 2) % 7]).text16(14001, TEXT16S[i % 7])
    for place in 0, 1, 2:
        table.pattern(7101 + place, FLOATS[(i + 4 * place) % 11][0])


class RecordsCase(GatewayCase):
    def rows(self, *words):
        done = self.expect(FINE, "", "read", "line", "s", *words)
        return list(csv.reader(io.StringIO(done.stdout)))


class Kinds(RecordsCase):
    def check_row(self, row, i, number):
        stamp = "2026-05-%02dT%02d:30:00" % (1 + i // 24, i % 24)
        flags = [str(int(point == 1801 or point == 1801 + i % 10)) for point in range(1801, 1811)]
        self.assertEqual(row[:12], [str(number), stamp, *flags])
        self.assertEqual(row[12:14], [str(INT16S[i % 7]), str(INT16S[(i + 3) % 7])])
        self.assertEqual(row[14], text_cell(clean(TEXT8S[i % 7])))
        self.assertEqual(row[15:17], [str(INT32S[i % 7]), str(INT32S[(i + 2) % 7])])
        for place in 0, 1, 2:
            self.assertTrue(is_float(row[17 + place], *FLOATS[(i + 4 * place) % 11]), row)
        self.assertEqual(row[20], text_cell(clean(TEXT16S[i % 7])))

    def check(self, count, limit, dates=""):
        """`count` records in a file of `limit`: the newest of them, oldest first, each under its number."""
        self.gateway_over(pulses(count, fill), KINDS % (dates, limit))
        heading, *rows = self.rows("1")
        self.assertEqual(heading, HEADING)
        first = max(1, count - limit + 1)
        self.assertEqual(len(rows), count - first + 1)
        for i, row in enumerate(rows, first):
            self.check_row(row, i, (i - 1) % limit + 1)

    def test_ring_that_is_not_full(self):
        self.check(20, 77)

    def test_ring_that_is_just_full(self):
        self.check(20, 20)

    def test_ring_that_has_gone_round(self):
        self.check(77, 20)

    def test_ring_of_one(self):
        self.check(7, 1)

    def test_day_first(self):
        self.check(40, 30, "dates day-first\n")

    def test_nothing_captured_yet(self):
        self.gateway_over(record(Table(), 0), KINDS % ("", 4))
        self.assertEqual(self.rows("1"), [HEADING])


class Files(RecordsCase):
    SETTINGS = "unit 17\narchive 32768\ngap 1\nfile 1 3 5101:1\nfile 10 2\ntrigger 1 1801\ntrigger 10 1801\n"

    def test_several_at_once(self):
        self.gateway_over(pulses(4), self.SETTINGS)
        self.expect(FINE, "", "read", "line", "s", "1=one", "10=ten", "11=alarms")
        self.assertEqual(self.read("one").decode().split("\n"),
                         ["record,stamp,5101", "2,2026-05-01T02:30:00,2", "3,2026-05-01T03:30:00,3",
                          "1,2026-05-01T04:30:00,4", ""])
        self.assertEqual(self.read("ten").decode().split("\n"),
                         ["record,stamp", "1,2026-05-01T03:30:00", "2,2026-05-01T04:30:00", ""])
        self.assertEqual(self.read("alarms"), b"record,stamp,point,type,bit,transducer,passes,litres\n")

    def test_settings_with_other_groups(self):
        self.gateway_over(pulses(4), self.SETTINGS)
        self.write("other", self.SETTINGS.replace("5101:1", "5101:2"))
        self.expect(TROUBLE, ["file 1, record 2: 14 Garbled", "it has 10 bytes"], "read", "line", "other", "1")

    def test_settings_with_groups_against_the_rule(self):
        self.gateway_over(pulses(4), self.SETTINGS)
        self.write("other", self.SETTINGS.replace("5101:1", "7228:2"))
        self.expect(TROUBLE, "file 1, record 2: 7 Group", "read", "line", "other", "1")

    def test_settings_with_another_n(self):
        self.gateway_over(pulses(4), self.SETTINGS)
        self.write("other", self.SETTINGS.replace("file 1 ", "file 1 1"))
        done = self.run_program("read", "line", "other", "1")
        self.assertEqual(done.returncode, FINE)
        self.assertRegex(done.stderr, "file 1 holds [0-9]+ records at most, and the settings say 1[0-9]+: are they this gateway's")

    def test_settings_with_another_unit(self):
        self.gateway_over(pulses(4), self.SETTINGS)
        self.write("other", self.SETTINGS.replace("17", "18"))
        self.expect(TROUBLE, "registers: no answer in time from unit 18", "read", "line", "other", "1", "--wait", "300")

    def test_settings_with_the_other_date_order(self):
        trace = pulses(30)  # to the 2nd of May and back in the year, but the 13th month is none
        late = record(Table().flag(1801), 0, day=13)
        self.gateway_over(trace + record(Table(), 0) + late, self.SETTINGS)
        self.write("other", self.SETTINGS + "dates day-first\n")
        done = self.expect(TROUBLE, ["14 Garbled", "is a date in the other order only: the wrong date order, or damaged?"], "read",
                           "line", "other", "1")
        self.assertEqual(done.stdout, "")


class Alarms(RecordsCase):
    SETTINGS = "unit 17\ngap 1\nalarm 2 1805 0 7101\nalarm 1 1805 3 0\nalarm 7 1802 1 7102\nalarm 32 1928 2 7228\n"

    def test_every_field(self):
        on = Table().flag(1805).flag(1802).flag(1928).pattern(7101, 0xC2480000).float(7102, 0.1)
        on.int32(5101, -7).int32(5102, 123456)
        off = Table().pattern(7101, 0x7FC00001).int32(5101, 8)
        self.gateway_over(record(Table(), 0) + record(on, 1) + record(off, 2), self.SETTINGS)
        heading, *rows = self.rows("11")
        self.assertEqual(heading, "record,stamp,point,type,bit,transducer,passes,litres".split(","))
        first, then = "2026-05-01T06:01:00", "2026-05-01T06:02:00"
        tenth = "%.9g" % struct.unpack(">f", struct.pack(">f", 0.1))
        self.assertEqual(rows, [
            ["1", first, "1802", "1", "1", tenth, "-7", "123456"],
            ["2", first, "1805", "3", "1", "0", "-7", "123456"],
            ["3", first, "1805", "0", "1", "-50", "-7", "123456"],
            ["4", first, "1928", "2", "1", "0", "-7", "123456"],
            ["5", then, "1805", "0", "0", "nan", "8", "0"],
            ["6", then, "1928", "2", "0", "0", "8", "0"],
        ])
        self.assertTrue(math.isnan(float(rows[4][5])))

    def test_alarm_file_that_has_gone_round(self):
        self.gateway_over(pulses(300), "unit 17\ngap 1\nalarm 1 1801 0 0\n")  # 599 changes
        rows = self.rows("11")[1:]
        self.assertEqual([int(row[0]) for row in rows], [*range(100, 501), *range(1, 100)])
        passes = [int(row[6]) for row in rows if row[4] == "1"]
        self.assertEqual(passes, list(range(51, 301)))

    def test_cleared_before_raised(self):
        self.gateway_over(cleared_first.trace(), cleared_first.SETTINGS)
        self.assertEqual(self.rows("11")[1:], cleared_first.rows())

    def test_cleared_before_raised_across_the_end_of_the_file(self):
        """The last fall is record 500, and the rise of the same scan has captured over record 1."""
        self.gateway_over(cleared_first.full_trace(), cleared_first.FULL_SETTINGS)
        self.assertEqual(self.rows("11")[1:], cleared_first.full_rows()[1:])

    def test_newest_alarm_of_a_scan_is_a_raised_one(self):
        """What a site polls that reads only the record under the pointer: after scan 1, and after scan 2."""
        for scans, newest in (2, cleared_first.rows()[4]), (3, cleared_first.rows()[9]):
            gateway = self.gateway_over(cleared_first.trace()[:scans * RECORD_BYTES], cleared_first.SETTINGS)
            self.assertEqual(self.rows()[11], ["11", "500", newest[0], "0"])
            self.assertEqual(self.rows("11")[-1], newest)
            self.assertEqual(newest[4], "1")
            self.stopped(gateway)


class Follow(RecordsCase):
    SETTINGS = "unit 17\narchive 32768\ngap 1\nscan 1\nfile 1 64 5101:1\ntrigger 1 1801\nalarm 1 1801 1 0\n"

    def follow(self, *words):
        return self.start("line", "s", *words, "--follow", "--every", "10", name="read")

    def csv_rows(self, name):
        return list(csv.reader(io.StringIO(self.read(name).decode())))[1:] if name in self.names() else []

    def test_gets_new_records_while_the_gateway_captures(self):
        self.write("s", self.SETTINGS)
        self.write("trace", pulses(60))
        gateway = self.start_gateway("s", "--trace", "trace", "--speed", "100", "--hold")  # a record every 20 ms
        reader = self.follow("1=csv", "11=alarms")
        self.wait_for("the last record", lambda: len(self.csv_rows("csv")) >= 60)
        self.wait_for("the last alarm", lambda: len(self.csv_rows("alarms")) >= 60)
        self.assertEqual(self.stopped(reader), (FINE, "", ""))
        rows = self.csv_rows("csv")
        self.assertEqual([int(row[2]) for row in rows], list(range(1, 61)))
        self.assertEqual([int(row[0]) for row in rows], list(range(1, 61)))
        self.assertEqual([int(row[6]) for row in self.csv_rows("alarms")], list(range(1, 61)))
        self.assertEqual(gateway.poll(), None)

    def test_looks_once_more_when_it_is_ended(self):
        """Between its looks there is an hour."""
        self.write("s", self.SETTINGS)
        self.write("trace", pulses(2))
        self.start_gateway("s", "--trace", "trace", "--speed", "1", "--hold")
        reader = self.start("line", "s", "1=csv", "--follow", "--every", "3600000", name="read")
        self.wait_for("its first look", lambda: "csv" in self.names())
        self.assertLess(len(self.csv_rows("csv")), 2)
        self.wait_for("the last record", lambda: self.rows()[1] == ["1", "64", "2", "0"])
        self.assertEqual(self.stopped(reader), (FINE, "", ""))
        self.assertEqual([row[2] for row in self.csv_rows("csv")], ["1", "2"])

    def test_to_standard_output(self):
        self.write("s", self.SETTINGS)
        self.write("trace", pulses(5))
        self.start_gateway("s", "--trace", "trace", "--speed", "200", "--hold")
        reader = self.follow("1")
        rows = [reader.stdout.readline() for _ in range(6)]
        self.assertEqual(rows[0], "record,stamp,5101\n")
        self.assertEqual([row.split(",")[2] for row in rows[1:]], ["1\n", "2\n", "3\n", "4\n", "5\n"])
        self.assertEqual(self.stopped(reader), (FINE, "", ""))

    def test_gateway_that_is_gone_is_told(self):
        self.write("s", self.SETTINGS)
        gateway = self.start_gateway("s", "--scans", "1", "--hold")
        reader = self.follow("1=csv")
        self.wait_for("its first look", lambda: "csv" in self.names())
        self.stopped(gateway)
        self.assertEqual(reader.wait(DEADLINE), TROUBLE)
        self.assertIn("is gone", reader.stderr.read())


class OldRecords(RecordsCase):
    """A store with a record of 30 February, as gateways before 1.1 filed it: the gateway sends it, and it is told and left out."""
    ROWS = "record,stamp,5101\n1,2026-05-01T01:30:00,1\n3,2026-05-01T03:30:00,3\n4,2026-05-01T04:30:00,4\n"
    TOLD = "file 1, record 2: 14 Garbled: its stamp 02 1E 1A 02 1E 00 is no date and time"

    def setUp(self):
        super().setUp()
        self.write("s", "unit 17\narchive 12000\ngap 1\nfile 1 4 5101:1\ntrigger 1 1801\n")
        self.write("trace", pulses(4))
        words = "gateway s --trace trace --store store --speed 1e7".split()
        self.expect(FINE, "", *words, "--scans", "6")
        store = stores.Store.of(self.read("store"))
        store.archive[10:13] = 2, 30, 26  # the date of record 2
        self.write("store", store.bytes())
        gateway = self.start_gateway(*words[1:], "--hold")
        self.assertIn("scanned", gateway.stdout.readline())

    def test_read(self):
        self.assertEqual(self.expect(TROUBLE, self.TOLD, "read", "line", "s", "1").stdout, self.ROWS)
        self.assertEqual(stores.Store.of(self.read("store")).archive[10:13], bytes([2, 30, 26]))

    def test_follow(self):
        reader = self.start("line", "s", "1=csv", "--follow", "--every", "10", name="read")
        self.wait_for("its first look", lambda: "csv" in self.names())
        status, _, told = self.stopped(reader)
        self.assertEqual((status, self.read("csv").decode()), (TROUBLE, self.ROWS))
        self.assertIn(self.TOLD, told)


class OldOrder(RecordsCase):
    """A store with alarms as gateways before 2.1 filed them, by point: they lie as they were, and new ones, cleared first, behind them."""

    def test_read(self):
        self.write("s", cleared_first.SETTINGS)
        self.write("trace", cleared_first.trace())
        words = "gateway s --trace trace --store store --speed 1e7".split()
        self.expect(FINE, "", *words, "--scans", "2")
        store = stores.Store.of(self.read("store"))
        filed = [store.archive[22 * i:22 * i + 22] for i in range(5)]  # the falls of 1811, 1928 and 1928, two rises of 1803
        store.archive[:110] = b"".join(filed[3:] + filed[:3])
        self.write("store", store.bytes())
        gateway = self.start_gateway(*words[1:], "--hold")
        self.assertIn("scanned", gateway.stdout.readline())
        logged = cleared_first.LOGGED
        self.assertEqual(self.rows("11")[1:], cleared_first.rows(logged[3:5] + logged[:3] + logged[5:]))
