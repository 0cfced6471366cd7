"""Clean text: what is captured and polled live is clean; the trace and what was filed before keep their bytes."""
import random

import stores
from cells import text_cell
from frames import reply, request
from support import FINE, SEASON, TROUBLE
from test_demo_tools import CompareCase
from test_gateway_live import LiveCase
from test_read_records import RecordsCase
from traces import RECORD_BYTES, TEXT8, TEXT16, TEXT_ROW_BYTES, Table, clean, record

# Every text of both kinds is in one of these files, 128 bytes in each.
SETTINGS = ("unit 17\narchive 32768\ngap 1\nfile 1 16 4001:16\nfile 2 16 4017:16\nfile 3 16 14001:8\nfile 4 16 14009:8\n"
            + "".join("trigger %d 1801\n" % file for file in range(1, 5)))
TEXTS = {1: range(4001, 4017), 2: range(4017, 4033), 3: range(14001, 14009), 4: range(14009, 14017)}


def typed(shift):
    """A table with every byte in both rows of texts; with the shifts 0-15 each byte is at every place of a text."""
    table = Table()
    for _, _, at in TEXT8, TEXT16:
        table.bytes[at:at + TEXT_ROW_BYTES] = bytes((i + shift) % 256 for i in range(TEXT_ROW_BYTES))
    return table


def rises():
    """A trace in which 1801 rises 16 times, over each shift in turn."""
    return b"".join(record(typed(shift).flag(1801, on), 30 * on, hour=shift) for shift in range(16) for on in (False, True))


def cells(table, points):
    """The cells of texts, without the zeros at their ends."""
    return [text_cell(table.points(point, 1).rstrip(b"\0")) for point in points]


class Captured(CompareCase):
    def test_every_byte_at_every_place(self):
        self.gateway_over(rises(), SETTINGS)
        for file, points in TEXTS.items():
            rows = self.rows(str(file))[1:]
            self.assertEqual(len(rows), 16)
            for shift, row in enumerate(rows):
                self.assertEqual(row[2:], cells(typed(shift).cleaned(), points))

    def test_compare_agrees(self):
        """By the same scans, so from the first byte of both rows to the last."""
        self.gateway_over(rises(), SETTINGS)
        files = ["%d=%d.csv" % (file, file) for file in TEXTS]
        self.expect(FINE, "", "read", "line", "s", *files)
        self.compare(FINE, "64 records agree, 0 differ", *files)

    def test_what_is_no_text_stays(self):
        """Flags, numbers and floats of any bytes, in records and in an alarm; the archive's bytes are looked at."""
        table = Table(random.Random(11).randbytes(1424)).flag(1801)
        trace = record(Table(table.bytes).flag(1801, False), 0) + record(table, 1)
        settings = ("unit 17\narchive 32768\ngap 1\nfile 1 1 1801:128 3001:32 5101:16 7101:20\nfile 2 1 3033:32 5149:16 7209:20\n"
                    "trigger 1 1801\ntrigger 2 1801\nalarm 1 1801 3 7228\n")
        self.gateway_over(trace, settings, "--store", "store")
        stamp = bytes([5, 1, 26, 6, 1, 0])
        first = [table.points(*run) for run in ((1801, 128), (3001, 32), (5101, 16), (7101, 20))]
        second = [table.points(*run) for run in ((3033, 32), (5149, 16), (7209, 20))]
        alarm = [b"\x07\x09\x03\x01", table.points(7228, 1), table.points(5101, 2)]
        wanted = b"".join([stamp, *first, stamp, *second, stamp, *alarm])
        self.assertEqual(stores.Store.of(self.read("store")).archive[:len(wanted)], wanted)
        self.expect(FINE, "", "read", "line", "s", "1=one", "2=two", "11=alarms")
        self.compare(FINE, "3 records agree, 0 differ", "1=one", "2=two", "11=alarms")


class Live(LiveCase):
    def test_every_byte(self):
        """The rows by two polls each, and every text by itself."""
        for shift in 0, 5, 10, 15:
            line = self.client(self.gateway_over(record(typed(shift), 0), SETTINGS))
            self.has(line, typed(shift), [(3, 4001, 31), (3, 4032, 1), (3, 14001, 15), (3, 14016, 1)])
            self.has(line, typed(shift), [(3, point, 1) for points in TEXTS.values() for point in points])

    def test_read_live(self):
        gateway = self.gateway_over(record(typed(3), 0), SETTINGS)
        done = self.expect(FINE, "", "read", gateway.device, "s", "--live", "4017", "14001", "14009")
        # bytes 83-8A, 03-12 and 83-92 hex, which are all cleaned
        self.assertEqual(done.stdout, 'point,kind,value\n4017,text,"%s"\n14001,text,"%s"\n14009,text,"%s"\n'
                         % ("?" * 8, "?" * 16, "?" * 16))

    def test_recorded_trace_keeps_the_bytes(self):
        trace = rises()
        line = self.client(self.gateway_over(trace, SETTINGS, "--record", "r"))
        self.has(line, typed(15), [(3, 4001, 31), (3, 14001, 15)])
        self.assertEqual(self.read("r"), trace)


class FiledBefore(RecordsCase):
    """A store whose archive a gateway before 2.2 has filled in part: its records are served as they lie, and new ones are clean."""
    SETTINGS = "unit 17\narchive 12000\ngap 1\nfile 1 4 4001:1 14001:1\ntrigger 1 1801\n"
    OLD = b"Gr\x81n\x1f\0\x7f\xff" + b"\0\x99 \x7e\x80\n\0Zo\x89\0\0\0\0\0\0"
    ROWS = [["1", "2026-05-01T00:30:00", "Gr\\x81n\\x1F\\x00\\x7F\\xFF", "\\x00\\x99 ~\\x80\\x0A\\x00Zo\\x89"],
            ["2", "2026-05-01T01:30:00", "Gr?n?\\x00??", "\\x00? ~??\\x00Zo?"]]

    def setUp(self):
        """Record 1 is put back as it was typed; record 2 is captured after that."""
        super().setUp()
        table = Table().text8(4001, self.OLD[:8]).text16(14001, self.OLD[8:])
        trace = b"".join(record(Table(table.bytes).flag(1801, on), 30 * on, hour=hour) for hour in (0, 1) for on in (False, True))
        self.write("s", self.SETTINGS)
        self.write("trace", trace)
        self.words = "s --trace trace --store store --speed 1e7".split()
        self.expect(FINE, "", "gateway", *self.words, "--scans", "2")
        store = stores.Store.of(self.read("store"))
        self.assertEqual(store.archive[6:30], clean(self.OLD))
        store.archive[6:30] = self.OLD
        self.write("store", store.bytes())
        gateway = self.start_gateway(*self.words, "--hold")
        self.assertIn("scanned 4 times", gateway.stdout.readline())
        self.line = self.client(gateway)

    def test_read(self):
        self.assertEqual(self.rows("1")[1:], self.ROWS)

    def test_polled(self):
        stamp = bytes([5, 1, 26, 0, 30, 0])
        self.assertEqual(self.line.ask(request(17, 3, 721, 1), 35), reply(17, stamp + self.OLD))

    def test_dump(self):
        done = self.expect(FINE, "", "dump", "store", "--file", "1")
        self.assertEqual(done.stdout, "record,stamp,4001,14001\n" + "".join('%s,%s,"%s","%s"\n' % tuple(row) for row in self.ROWS))

    def test_compare(self):
        """What was filed before differs from what is captured since."""
        self.expect(FINE, "", "read", "line", "s", "1=csv")
        done = self.expect(TROUBLE, "", "compare", "s", "trace", "1=csv")
        self.assertEqual(done.stdout.splitlines(), [
            'file 1, row 1: in column 4001 expected "Gr?n?\\x00??", there is "Gr\\x81n\\x1F\\x00\\x7F\\xFF"',
            "file 1: 2 captured, 2 read", "1 records agree, 1 differ"])


class Compared(CompareCase):
    """windrow-compare on rows that were not read out of a gateway."""
    SETTINGS = "unit 17\nfile 1 300 4001:1 14001:1\ntrigger 1 1801\n"

    def setUp(self):
        """A record for each byte, which is alone in a text of 8, and behind a 00 and before a letter in a text of 16."""
        super().setUp()
        scans = []
        for byte in range(256):
            table = Table().text8(4001, bytes([byte])).text16(14001, b"a\0%cz" % byte)
            scans += [record(Table(), byte % 60, hour=byte // 60), record(table.flag(1801), byte % 60, hour=byte // 60, second=30)]
        self.write("s", self.SETTINGS)
        self.write("trace", b"".join(scans))

    def compare_texts(self, differ, change):
        """Rows that have `change` of the byte in both texts; so many of them differ."""
        rows = []
        for byte in range(256):
            short, long = text_cell(change(byte).rstrip(b"\0")), text_cell(b"a\0" + change(byte) + b"z")
            short, long = short.replace('"', '""'), long.replace('"', '""')
            rows.append('%d,2026-05-01T%02d:%02d:30,"%s","%s"\n' % (byte + 1, byte // 60, byte % 60, short, long))
        self.write("csv", "record,stamp,4001,14001\n" + "".join(rows))
        return self.compare(TROUBLE if differ else FINE, "%d records agree, %d differ" % (256 - differ, differ), "1=csv")

    def test_clean(self):
        self.compare_texts(0, lambda byte: clean(bytes([byte])))

    def test_as_typed(self):
        """160 of 256 bytes are cleaned."""
        self.assertIn('file 1, row 2: in column 4001 expected "?", there is "\\x01"',
                      self.compare_texts(160, lambda byte: bytes([byte])))

    def test_one_byte_otherwise(self):
        """As typed what is to be cleaned, and ? where the byte is to stay."""
        for other in 0x00, 0x01, 0x1F, 0x20, 0x41, 0x7E, 0x7F, 0x80, 0x81, 0xFF:
            def change(byte, other=other):
                right = clean(bytes([byte]))
                return right if byte != other else bytes([byte]) if right == b"?" else b"?"
            with self.subTest(other):
                self.assertIn("file 1, row %d: " % (other + 1), self.compare_texts(1, change))


class Season(RecordsCase):
    """The demo's yard: who turned is typed on a handheld."""

    def test_driver(self):
        """South is turned first after two weeks, at eight."""
        with open(SEASON) as file:
            self.write("s", file.read())
        gateway = self.start_gateway("s", "--speed", "1e7", "--scans", str(14 * 144 + 18), "--hold", "--record", "r")
        self.assertIn("last at 2026-05-15T09:00:00", gateway.stdout.readline())
        north, south = self.rows("3"), self.rows("4")
        self.assertEqual((north[0][3], south[0][3]), ("14003", "14004"))
        self.assertEqual({row[3] for row in north[1:]}, {"J?rgen"})
        self.assertEqual([row[2:4] for row in south[1:]], [["calendar", "Zo?"]])
        last = Table(self.read("r")[-RECORD_BYTES + 6:])
        self.assertEqual(last.points(14003, 2), b"J\x81rgen".ljust(16, b"\0") + b"Zo\x89".ljust(16, b"\0"))
        self.assertEqual([row[2] for row in self.rows("--live", "14003-14004")[1:]], ["J?rgen", "Zo?"])
