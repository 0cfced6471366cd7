"""windrow-compare and windrow-page: the demo says that records agree only where they do, and draws only what it was given."""
import re

import cleared_first
from support import FINE, MISUSE, SEASON, TROUBLE
from test_read_records import RecordsCase
from traces import Table, pulses, record

SETTINGS = ("unit 17\ngap 1\nfile 1 4 5101:1 7101:1 4001:1 1801:2\ntrigger 1 1801\nalarm 1 1801 0 7101\nalarm 2 1801 1 0\n"
            "at 2026-05-01T09:00:00 alarm 2 0 0 0\n")


class CompareCase(RecordsCase):
    def compare(self, status, last, *files):
        done = self.expect(status, "", "compare", "s", "trace", *files)
        self.assertEqual(done.stdout.splitlines()[-1], last)
        return done.stdout


class Compare(CompareCase):
    def setUp(self):
        """Ten rises, and before a last scan without a change two in which all is off, of dates that are refused."""
        super().setUp()
        trace = pulses(10, lambda i, table: table.float(7101, i / 4).text8(4001, b"pile %d" % i))
        refused = record(Table(), 0, month=13) + record(Table(), 0, month=2, day=30)
        self.gateway_over(trace + refused + record(Table().flag(1801), 0, hour=11), SETTINGS)
        self.expect(FINE, "", "read", "line", "s", "11=alarms.csv")
        self.records = self.expect(FINE, "", "read", "line", "s", "1").stdout.splitlines(True)

    def alarms(self, change):
        self.write("changed.csv", change(self.read("alarms.csv").decode()))

    def test_what_was_read_agrees(self):
        """Slot 1 logs 10 rises and 9 falls, slot 2 the 8 rises before it is set to nothing."""
        self.compare(FINE, "27 records agree, 0 differ", "11=alarms.csv")

    def test_every_cell_is_compared(self):
        heading, *rows = self.read("alarms.csv").decode().splitlines()
        for column in range(len(heading.split(","))):
            cells = rows[3].split(",")
            cells[column] = cells[column][:-1] + ("8" if cells[column][-1] != "8" else "9")
            self.write("changed.csv", "\n".join([heading, *rows[:3], ",".join(cells), *rows[4:]]) + "\n")
            told = self.compare(TROUBLE, "26 records agree, 1 differ", "11=changed.csv")
            self.assertIn("file 11, row 4: in column %s expected " % heading.split(",")[column], told)

    def test_missing_row(self):
        self.alarms(lambda text: "".join(text.splitlines(True)[:-1]))
        self.assertIn("expected record 27", self.compare(TROUBLE, "26 records agree, 1 differ", "11=changed.csv"))

    def test_row_too_many(self):
        self.alarms(lambda text: text + text.splitlines(True)[-1])
        self.compare(TROUBLE, "27 records agree, 1 differ", "11=changed.csv")

    def test_records_that_have_been_captured_over_are_missing(self):
        """Four of ten records are still there, which is not what a reader that follows would have."""
        self.write("file.csv", "".join(self.records))
        told = self.compare(TROUBLE, "0 records agree, 10 differ", "1=file.csv")
        self.assertIn("file 1: 10 captured, 4 read", told)

    def test_bad_files(self):
        self.write("empty", "")
        self.write("odd", bytes(1431))
        self.expect(TROUBLE, "nowhere can't be read", "compare", "s", "trace", "11=nowhere")
        self.expect(TROUBLE, "empty", "compare", "s", "trace", "11=empty")
        self.expect(TROUBLE, "the trace empty is empty", "compare", "s", "empty", "11=alarms.csv")
        self.expect(TROUBLE, "odd is no trace", "compare", "s", "odd", "11=alarms.csv")
        self.expect(TROUBLE, "trace", "compare", "s", "trace", "11=trace")
        self.expect(MISUSE, "", "compare", "s", "trace")
        self.expect(MISUSE, "", "compare", "s", "trace", "12=alarms.csv")


class CompareOrder(CompareCase):
    """Cleared before raised, by alarms that were not read out of a gateway but worked out by hand."""

    def setUp(self):
        super().setUp()
        self.write("s", cleared_first.SETTINGS)
        self.write("trace", cleared_first.trace())

    def compare_rows(self, rows, status, agree, differ):
        self.write("alarms.csv", cleared_first.text([[cleared_first.HEADING], *rows]))
        return self.compare(status, "%d records agree, %d differ" % (agree, differ), "11=alarms.csv")

    def test_cleared_before_raised(self):
        self.compare_rows(cleared_first.rows(), FINE, 12, 0)

    def test_what_was_read_agrees(self):
        self.gateway_over(cleared_first.trace(), cleared_first.SETTINGS)
        self.expect(FINE, "", "read", "line", "s", "11=read.csv")
        self.compare(FINE, "12 records agree, 0 differ", "11=read.csv")

    def test_other_orders(self):
        for name, key in cleared_first.WRONG_ORDERS.items():
            with self.subTest(name):
                rows = cleared_first.rows(cleared_first.ordered(key))
                agree = sum(row == right for row, right in zip(rows, cleared_first.rows()))
                self.assertLess(agree, 12)
                self.compare_rows(rows, TROUBLE, agree, 12 - agree)

    def test_order_of_before(self):
        """By point and slot all five of scan 1 lie elsewhere; in scan 2 the fall is the lowest point's anyway."""
        told = self.compare_rows(cleared_first.rows(cleared_first.ordered(cleared_first.WRONG_ORDERS["by point, then slot"])),
                                 TROUBLE, 7, 5)
        self.assertIn("file 11, row 1: in column point expected 1811, there is 1803", told)

    def test_two_rows_of_one_scan_swapped(self):
        for first in 0, 1, 2, 3, 5, 6, 7, 8:  # the rows of scan 1 are 0-4, those of scan 2 are 5-9
            with self.subTest(first):
                logged = list(cleared_first.LOGGED)
                logged[first], logged[first + 1] = logged[first + 1], logged[first]
                self.compare_rows(cleared_first.rows(logged), TROUBLE, 10, 2)

    def test_across_the_end_of_the_alarm_file(self):
        self.write("s", cleared_first.FULL_SETTINGS)
        self.write("trace", cleared_first.full_trace())
        rows = cleared_first.full_rows()
        self.compare_rows(rows, FINE, 501, 0)
        point, other = rows[499][2:], rows[500][2:]
        rows[499][2:], rows[500][2:] = other, point
        self.compare_rows(rows, TROUBLE, 499, 2)


class Season(RecordsCase):
    def test_fan_clears_one_alarm_and_raises_another(self):
        """South has it first; it is moved three and six days later at 07:10, which is the 7th scan after six in the morning."""
        with open(SEASON) as file:
            self.write("s", file.read())
        gateway = self.start_gateway("s", "--speed", "1e7", "--scans", str(6 * 144 + 7), "--hold")
        self.assertIn("last at 2026-05-07T07:10:00", gateway.stdout.readline())
        self.assertEqual([row[:5] for row in self.rows("11")[1:]], [
            ["1", "2026-05-04T07:10:00", "1811", "0", "0"], ["2", "2026-05-04T07:10:00", "1812", "0", "1"],
            ["3", "2026-05-07T07:10:00", "1812", "0", "0"], ["4", "2026-05-07T07:10:00", "1811", "0", "1"]])


class Page(RecordsCase):
    NORTH = "record,stamp,7101,7102,7105\n1,2026-05-01T06:00:00,20.5,18,12\n2,2026-05-02T06:00:00,71.25,40,13\n"
    SOUTH = NORTH.replace("7101,7102", "7103,7104")
    TURNS = "record,stamp,14001\n1,2026-05-01T08:00:00,\"too hot\"\n"
    ALARMS = ("record,stamp,point,type,bit,transducer,passes,litres\n1,2026-05-01T10:00:00,1805,0,1,70,1,2\n"
              "2,2026-05-01T10:00:00,1805,2,1,70,1,2\n3,2026-05-01T11:30:00,1805,0,0,67,1,2\n"
              "4,2026-05-01T11:30:00,1805,2,0,67,1,2\n")
    NAMES = ("north", "south", "north-turns", "south-turns", "alarms")

    def setUp(self):
        super().setUp()
        for name, text in zip(self.NAMES, (self.NORTH, self.SOUTH, self.TURNS, self.TURNS, self.ALARMS)):
            self.write(name, text)

    def test_season(self):
        self.expect(FINE, "", "page", "out.html", *self.NAMES)
        page = self.read("out.html").decode()
        for text in "<svg", "temperature, °C", "71.2", "1.5 h", "too hot", "short of air":
            self.assertIn(text, page)
        self.assertNotIn("<script", page)

    def table_row(self, heading):
        """The cells of a row of the table, whose heading begins so; None where there is no such row."""
        self.expect(FINE, "", "page", "out.html", *self.NAMES)
        page = self.read("out.html").decode()
        self.tells_bytes = "<p>Where a text has \\xHH in it, a gateway before 2.2 has filed this byte as it was typed" in page
        row = re.search("<tr><th scope=\"row\">%s[^<]*</th><td>(.*)</td><td>(.*)</td></tr>" % heading, page)
        return row and row.groups()

    def test_why_and_by_whom(self):
        """Texts as they were filed, and how often; a row only where one windrow has any."""
        self.assertEqual(self.table_row("Reasons for turning"), ("too hot: 1", "–"))
        self.assertIsNone(self.table_row("Turned by, as filed"))
        turns = "".join("2026-05-01T%02d:00:00,%s\n" % turn for turn in
                        ((8, '"calendar","Zo?"'), (9, '"calendar","<M&M>"'), (10, '"calendar","Zo?"'), (11, '"","Zo\\x89"')))
        self.write("south-turns", "stamp,14002,14004\n" + turns)
        self.assertEqual(self.table_row("Reasons for turning"), ("too hot: 1", "calendar: 3<br><i>none given</i>: 1"))
        self.assertEqual(self.table_row("Turned by, as filed"), ("–", "Zo?: 2<br>&lt;M&amp;M&gt;: 1<br>Zo\\x89: 1"))

    def named(self, *names):
        """The cell of who turned south, where these are filed as they stand."""
        self.write("south-turns", "stamp,14004\n" + "".join('2026-05-01T%02d:00:00,"%s"\n' % turn for turn in enumerate(names)))
        return self.table_row("Turned by, as filed")[1]

    def test_label_of_names_is_true(self):
        """Only what was filed since 2.2 has a ? for a byte, and 00 has none."""
        self.assertEqual(self.named("Zo?"), "Zo?: 1")
        self.assertIn(">Turned by, as filed: since 2.2 with ? for each byte typed that is neither 00 nor 20 to 7E hex</th>",
                      self.read("out.html").decode())

    def test_bytes_in_a_text_are_told(self):
        """Of before 2.2, a backslash or 00: in a name or in a reason. A text without any has no note."""
        for name, told in ("Zo?", False), ("xHH", False), ("Zo\\x89", True), ("a\\x5Cb", True), ("\\x00b", True):
            with self.subTest(name):
                self.assertEqual(self.named("Anna", name), "Anna: 1<br>%s: 1" % name)
                self.assertEqual(self.tells_bytes, told)
        self.write("south-turns", 'stamp,14002\n2026-05-01T08:00:00,"hei\\xE1"\n')
        self.assertEqual(self.table_row("Reasons for turning")[1], "hei\\xE1: 1")
        self.assertTrue(self.tells_bytes)

    def test_texts_past_the_eighth(self):
        """Counted together, each record of them; the first eight go on to be counted one by one."""
        eight = list("abcdefgh")
        ones = "<br>".join("%s: 1" % name for name in eight)
        self.assertEqual(self.named(*eight), ones)
        self.assertEqual(self.named(*eight, "i"), ones + "<br><i>others</i>: 1")
        self.assertEqual(self.named(*eight, "i", "j", "h", "i", ""), ones[:-1] + "2<br><i>others</i>: 4")
        self.assertEqual(self.named("others", "none given", "", ""), "others: 1<br>none given: 1<br><i>none given</i>: 2")

    def order(self, *alarms):
        """The listed alarms of a season that has these: stamp, point, type and whether it was raised; None where none are listed."""
        self.write("alarms", "stamp,point,type,bit\n" + "".join("2026-05-01T%s,%s,%d,%d\n" % alarm for alarm in alarms))
        self.expect(FINE, "", "page", "out.html", *self.NAMES)
        page = self.read("out.html").decode()
        self.tells_other_order = "a cleared alarm stands behind a raised one" in page
        section = re.search('<section class="order">(.*)</section>', page, re.DOTALL)
        return section and re.findall("<tr><td>(.*)</td><td>(.*)</td><td>(.*)</td><td>(?:<b>)?([a-z]+)(?:</b>)?</td></tr>", section[1])

    def test_scans_that_cleared_and_raised(self):
        """Each as it lies in the file, cleared before raised or in another order, with the alarm's name if it has one."""
        self.assertEqual(self.order(("10:00:00", "1812", 0, 0), ("10:00:00", "1811", 0, 1),
                                    ("11:00:00", "1807", 2, 1),
                                    ("12:00:00", "1805", 0, 1), ("12:00:00", "1805", 1, 1), ("12:00:00", "1807", 2, 0),
                                    ("12:30:00", "1806", 0, 0), ("12:30:00", "1808", 2, 0),
                                    ("13:00:00", "1805", 0, 0), ("13:00:00", "1850", 3, 1), ("13:00:00", "<18&50>", 3, 1)), [
            ("1 May 2026, 10:00", "1812 south without the fan", "0", "cleared"),
            ("1 May 2026, 10:00", "1811 north without the fan", "0", "raised"),
            ("1 May 2026, 12:00", "1805 north too hot", "0", "raised"),
            ("1 May 2026, 12:00", "1805 north too hot", "1", "raised"),
            ("1 May 2026, 12:00", "1807 north short of air", "2", "cleared"),
            ("1 May 2026, 13:00", "1805 north too hot", "0", "cleared"),
            ("1 May 2026, 13:00", "1850 ", "3", "raised"),
            ("1 May 2026, 13:00", "&lt;18&amp;50&gt; ", "3", "raised")])
        self.assertTrue(self.tells_other_order)

    def test_other_order_is_told_where_it_is_listed(self):
        """Not for what is cleared by a later scan, nor for a scan that is not among the last five."""
        mixed = [("%02d:00:00" % hour, str(1812 - bit), 0, bit) for hour in range(10, 15) for bit in (0, 1)]
        for alarms, told in (mixed, False), (mixed[1::-1] + mixed[2:], True), (mixed[:-2] + mixed[:-3:-1], True):
            self.order(*alarms)
            self.assertEqual(self.tells_other_order, told)
        self.assertEqual(len(self.order(("09:00:00", "1811", 0, 1), ("09:00:00", "1812", 0, 0), *mixed)), 10)
        self.assertFalse(self.tells_other_order)

    def test_no_scan_that_cleared_and_raised(self):
        """Nor are two scans one: a second apart, or of one time with another between them, as where a clock went back."""
        self.assertIsNone(self.order())
        self.assertIsNone(self.order(("10:00:00", "1805", 0, 1), ("10:00:00", "1806", 0, 1)))
        self.assertIsNone(self.order(("10:00:00", "1805", 0, 0), ("10:00:01", "1806", 0, 1)))
        self.assertIsNone(self.order(("10:00:00", "1805", 0, 0), ("11:00:00", "1805", 0, 1), ("10:00:00", "1806", 0, 1)))

    def test_only_the_last_five_scans_that_cleared_and_raised(self):
        alarms = [("%02d:00:00" % hour, str(1812 - bit), 0, bit) for hour in range(7, 14) for bit in (0, 1)]
        for count, hours in (4, range(7, 11)), (5, range(7, 12)), (6, range(8, 13)), (7, range(9, 14)):
            listed = self.order(*alarms[:2 * count], ("20:00:00", "1805", 0, 1))
            self.assertEqual([row[0] for row in listed], ["1 May 2026, %02d:00" % hour for hour in hours for _ in "12"])

    def test_bad_files(self):
        """The page of before stays."""
        self.write("out.html", "as it was")
        for name in self.NAMES:
            for content in "", "no,heading\n1,2\n", bytes(range(256)):
                whole = self.read(name)
                self.write(name, content)
                done = self.run_program("page", "out.html", *self.NAMES)
                self.assertEqual(done.returncode, TROUBLE, name)
                self.assertIn(name, done.stderr)
                self.write(name, whole)
        self.expect(TROUBLE, "nowhere can't be read", "page", "out.html", "nowhere", *self.NAMES[1:])
        self.expect(TROUBLE, "missing/out.html", "page", "missing/out.html", *self.NAMES)
        self.assertEqual(self.read("out.html"), b"as it was")
        self.assertEqual(self.names(), sorted(["out.html", *self.NAMES]))

    def test_misuse(self):
        self.expect(MISUSE, "", "page", "out.html")
