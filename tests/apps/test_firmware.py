"""Alarm depth by firmware: 150 alarm records with firmware 73, 500 with 74, and 74 where nothing is said."""
import cleared_first
import stores
from frames import exception, reply, request
from support import FINE, MISUSE, TROUBLE
from test_demo_tools import CompareCase
from test_dump import DumpCase, ForeignCase
from test_frame import FrameCase
from test_gateway_settings import SettingsCase
from test_gateway_store import SETTINGS, StoreCase
from test_read_records import RecordsCase
from traces import pulses

NO_FIRMWARE = 0, 72, 75, 73 + 256, 73 + 65536, 4294967295
REFUSED = "firmware %d is refused: it is neither 73 nor 74 (2 Foreign)"
MEMORY = "archive of %d bytes is refused: it is not of %s to 1,048,576, as firmware %d needs it (1 Memory)"


class Settings(SettingsCase):
    def firmware(self, content, *words):
        """Which one a gateway stores that is made with these settings."""
        self.write("s", content)
        store = "store-%d" % len(self.names())
        self.expect(FINE, "", "gateway", "s", "--store", store, "--scans", "0", *words)
        return stores.Store.of(self.read(store)).get16(stores.FIRMWARE)

    def test_either(self):
        for firmware in 73, 74:
            self.assertEqual(self.firmware("unit 17\nfirmware %d\n" % firmware), firmware)
            self.assertEqual(self.firmware("unit 17\n", "--firmware", str(firmware)), firmware)

    def test_nothing_is_said(self):
        self.assertEqual(self.firmware("unit 17\n"), 74)

    def test_option_holds_instead_of_the_line(self):
        self.assertEqual(self.firmware("unit 17\nfirmware 74\n", "--firmware", "73"), 73)
        self.assertEqual(self.firmware("unit 17\nfirmware 73\n", "--firmware", "74"), 74)
        self.assertEqual(self.firmware("firmware 75\nunit 17\n", "--firmware", "74"), 74)

    def test_line_is_read_where_the_option_holds(self):
        self.write("s", "unit 17\nfirmware many\n")
        self.expect(TROUBLE, "s:2: this is no number: many", "gateway", "s", "--firmware", "74")

    def test_any_other(self):
        for firmware in NO_FIRMWARE:
            self.refused("unit 17\nfirmware %d\n" % firmware, "windrow-gateway: s: " + REFUSED % firmware)

    def test_any_other_by_option(self):
        self.write("s", "unit 17\nfirmware 73\n")
        for firmware in NO_FIRMWARE:
            self.expect(TROUBLE, "windrow-gateway: --firmware: " + REFUSED % firmware, "gateway", "s", "--store", "store",
                        "--scans", "0", "--firmware", str(firmware))
        self.assertEqual(self.names(), ["s", "store.lock"])

    def test_firmware_before_memory_before_unit(self):
        self.refused("unit 0\narchive 0\nfirmware 75\n", REFUSED % 75)
        self.refused("unit 0\narchive 1048577\nfirmware 72\n", REFUSED % 72)
        self.refused("unit 0\narchive 0\nfirmware 73\n", MEMORY % (0, "3,300", 73))
        self.refused("unit 0\narchive 3300\nfirmware 73\n", "unit 0 is refused: it is not 1-247 (2 Foreign)")

    def test_memory(self):
        for length in 3299, 1048577:
            self.refused("unit 17\narchive %d\nfirmware 73\n" % length, MEMORY % (length, "3,300", 73))
        self.refused("unit 17\narchive 3300\nfirmware 74\n", MEMORY % (3300, "11,000", 74))
        for length in 3300, 1048576:
            self.assertEqual(self.firmware("unit 17\nfirmware 73\narchive %d\n" % length), 73)

    def test_room(self):
        self.refused("unit 17\nfirmware 73\narchive 3305\nfile 1 1\n",
                     "archive of 3305 bytes: with the alarm file they need 3306 (11 Room)")
        self.assertEqual(self.firmware("unit 17\nfirmware 73\narchive 3306\nfile 1 1\n"), 73)


class StoreOfAnother(StoreCase):
    """A store keeps its firmware: it is refused, and stays as it is, where another is asked for."""

    TOLD = ("the store store is of a gateway with firmware %d, which can't be changed, and %s is for one with %d: go on with"
            " --firmware %d, or name another --store for a new gateway")

    def other(self, own, asked, settings, by, *words):
        before = self.read("store")
        self.write("s", settings)
        for more in (), ("--redefine",):
            self.expect(TROUBLE, self.TOLD % (own, by, asked, own), "gateway", "s", "--store", "store", "--scans", "1", *words, *more)
            self.assertEqual(self.read("store"), before)

    def test_of_74(self):
        for content in stores.fresh(archive_length=12000).bytes(), stores.fresh(archive_length=12000).as_of_2().bytes():
            self.write("store", content)
            self.other(74, 73, SETTINGS + "firmware 73\n", "s")
            self.other(74, 73, SETTINGS, "--firmware", "--firmware", "73")
            self.other(74, 73, SETTINGS + "firmware 74\n", "--firmware", "--firmware", "73")

    def test_of_73(self):
        self.write("store", stores.fresh(archive_length=12000, firmware=73).bytes())
        self.other(73, 74, SETTINGS, "s")
        self.other(73, 74, SETTINGS + "firmware 74\n", "s")
        self.other(73, 74, SETTINGS + "firmware 73\n", "--firmware", "--firmware", "74")
        self.other(73, 75, SETTINGS + "firmware 73\n", "--firmware", "--firmware", "75")


class StoreGoesOn(StoreCase):
    """Scanned in two parts, the store is at last what it is of one: with its firmware, and of format 2."""

    def scanned(self, store, *words):
        self.expect(FINE, "", "gateway", "s", "--store", store, "--trace", "trace", "--speed", "1e7", *words)
        return self.read(store)

    def in_two(self, firmware, between=lambda store: store):
        """`between` makes of the store, after 77 of 200 scans, what the gateway goes on from."""
        self.write("s", SETTINGS + "firmware %d\nalarm 1 1801 0 0\nalarm 2 1801 0 7101\n" % firmware)
        self.write("trace", pulses(100))
        whole, part = self.scanned("whole"), "part-%d" % len(self.names())
        self.write(part, between(stores.Store.of(self.scanned(part, "--scans", "77"))).bytes())
        self.assertEqual(self.scanned(part), whole)
        self.assertEqual(stores.Store.of(whole).format, 2)
        self.assertEqual(stores.Store.of(whole).get16(stores.FIRMWARE), firmware)
        return stores.Store.of(whole)

    def test_of_73(self):
        """398 alarms: the file has gone round twice, and the 98 newest are the first."""
        store = self.in_two(73)
        self.assertEqual(store.get16(stores.POINTERS + 20), 98)
        start = 8 * 14  # file 1 lies before it
        self.assertNotIn(bytes(22), [bytes(store.archive[start + 22 * i:start + 22 * i + 22]) for i in range(150)])
        self.assertEqual(store.archive[start + 3300:], bytes(12000 - start - 3300))

    def test_of_format_1(self):
        """The reserved bytes have no meaning there, though they be a firmware's."""
        for reserved in 0, 73, 74, 75, 65535:
            with self.subTest(reserved):
                store = self.in_two(74, lambda store, reserved=reserved: store.as_of_2(reserved))
                self.assertEqual(store.get16(stores.POINTERS + 20), 398)

    def test_of_format_1_that_is_only_started_again(self):
        """The store becomes one of format 2, and loses nothing."""
        before = self.stored()
        self.write("store", stores.Store.of(before).as_of_2().bytes())
        self.assertEqual(self.scanned("store"), before)

    def test_of_format_1_that_is_foreign(self):
        store = stores.Store.of(self.stored())
        store.put16(stores.POINTERS, 9)
        self.refused(store.as_of_2().bytes(), "2 Foreign", "windrow-dump store says more")


class Dump(DumpCase):
    def test_of_73(self):
        self.stored("unit 17\nfirmware 73\narchive 3306\nfile 1 1\nalarm 1 1801 0 0\n", 80)
        lines = self.dump("store").splitlines()
        self.assertIn("unit 17, month-first dates, archive of 3306 bytes, firmware 73", lines)
        self.assertIn("alarm file (11): n 150, pointer 9, requested 0", lines)
        numbers = [int(line.split(",")[0]) for line in self.dump("store", "--file", "11").splitlines()[1:]]
        self.assertEqual(numbers, [*range(10, 151), *range(1, 10)])

    def test_store_of_format_1(self):
        store = self.stored()
        shown = self.dump("store"), self.dump("store", "--file", "1")
        for reserved in 0, 73, 65535:
            old = store.as_of_2(reserved).bytes()
            self.write("store", old)
            self.assertEqual((self.dump("store"), self.dump("store", "--file", "1")), shown)
            self.assertEqual(self.read("store"), old)
        self.assertIn("archive of 12000 bytes, firmware 74\n", shown[0])

    def test_state_of_format_1(self):
        store = self.stored()
        shown = self.dump("store")
        self.write("archive", store.archive)
        for reserved in 0, 73, 65535:
            self.write("state", store.as_of_2(reserved).state)
            self.assertEqual(self.dump("state", "archive", "--format", "1"), shown)

    def test_state_of_format_1_without_the_option(self):
        """Support is told how it is dumped."""
        store = self.stored().as_of_2()
        self.write("state", store.state)
        self.write("archive", store.archive)
        for words in (), ("--format", "2"):
            done = self.expect(TROUBLE, "2 Foreign", "dump", "state", "archive", *words)
            self.assertEqual(done.stderr.splitlines()[1:], [
                "  firmware 0 is neither 73 nor 74",
                "  (a state that releases 1 and 2 saved has firmware 0: --format 1 takes such a one)"])
            self.assertEqual(done.stdout, "")

    def test_other_foreign_state_is_not_taken_for_one_of_format_1(self):
        for store, clause in ((stores.fresh(firmware=75), "firmware 75 is neither 73 nor 74"),
                              (stores.fresh(unit=250), "unit 250 is not 1-247")):
            self.write("state", store.state)
            self.write("archive", store.archive)
            done = self.expect(TROUBLE, "2 Foreign", "dump", "state", "archive")
            self.assertEqual(done.stderr.splitlines()[1:], ["  " + clause])

    def test_state_of_format_2(self):
        for firmware in 73, 74:
            store = stores.fresh(firmware=firmware)
            self.write("store", store.bytes())
            self.write("state", store.state)
            self.write("archive", store.archive)
            self.assertEqual(self.dump("state", "archive"), self.dump("store"))
            self.assertEqual(self.dump("state", "archive", "--format", "2"), self.dump("store"))
            self.assertIn("firmware %d\n" % firmware, self.dump("store"))

    def test_state_of_format_1_that_is_none(self):
        store = stores.fresh().as_of_2()
        store.state[stores.PENDING] = 2
        self.write("state", store.state)
        self.expect(TROUBLE, "state is no state: a bool in it is neither 0 nor 1", "dump", "state", "state", "--format", "1")

    def test_words(self):
        self.expect(MISUSE, "--format is for a state and an archive; a store names its own", "dump", "store", "--format", "1")
        for value in "0", "3", "x", "1.5":
            self.expect(MISUSE, "--format takes a", "dump", "state", "archive", "--format", value)


class DumpClauses(ForeignCase):
    """What breaks row 2: layout, pointers and requested numbers by the state's own firmware, or, where that is none, by both."""
    EITHER = "firmware %d is neither 73 nor 74"

    def good(self, store):
        self.write("store", store.bytes())
        self.dump("store")

    def with_number(self, place, number, **more):
        store = stores.fresh(**more)
        store.put16(place + 20, number)
        return store

    def test_firmware(self):
        for firmware in 0, 72, 75, 73 + 256, 65535:
            self.foreign(stores.fresh(firmware=firmware), self.EITHER % firmware)

    def test_layout(self):
        self.good(stores.with_file(1, archive_length=3306, firmware=73))
        for store in stores.with_file(1, archive_length=3305, firmware=73), stores.with_file(1, archive_length=3306):
            self.foreign(store, "the laid-out files do not fit the archive of %d bytes" % len(store.archive))
        self.foreign(stores.fresh(archive_length=3299, firmware=73), "the laid-out files do not fit the archive of 3299 bytes")

    def test_pointer_and_requested_number(self):
        for place, what in (stores.POINTERS, "pointer"), (stores.REQUESTED, "requested number"):
            for firmware, last in (73, 150), (74, 500):
                self.good(self.with_number(place, last, firmware=firmware))
                self.foreign(self.with_number(place, last + 1, firmware=firmware),
                             "file 11's %s %d is over its n" % (what, last + 1))

    def test_what_one_firmware_allows_is_not_told_of_none(self):
        self.foreign(self.with_number(stores.POINTERS, 500, firmware=75), self.EITHER % 75)
        self.foreign(self.with_number(stores.REQUESTED, 151, firmware=75), self.EITHER % 75)
        self.foreign(stores.with_file(1, archive_length=3306, firmware=72), self.EITHER % 72)

    def test_what_neither_allows_is_told_besides(self):
        self.foreign(self.with_number(stores.POINTERS, 501, firmware=75), self.EITHER % 75, "file 11's pointer 501 is over its n")
        self.foreign(stores.with_file(1, archive_length=3305, firmware=72), self.EITHER % 72,
                     "the laid-out files do not fit the archive of 3305 bytes")
        store = stores.with_file(4, (5101, 1), archive_length=3400, firmware=65535)
        store.put16(stores.POINTERS, 5)
        self.foreign(store, self.EITHER % 65535, "file 1's pointer 5 is over its n")


class Frame(FrameCase):
    """Polls of the alarm file by number: function, address, and the bytes of an answer. n is their last number."""
    POLLS = (3, 731, 27), (3, 781, 11), (6, 3733, 8)
    VALUE = "exception 3, illegal data value"

    def answered(self, who, last, *words):
        for function, address, length in self.POLLS:
            for number, answer in ((0, self.VALUE), (1, "%d bytes" % length), (last, "%d bytes" % length), (last + 1, self.VALUE)):
                self.told(FINE, request(17, function, address, number), "%s answers it with %s" % (who, answer), words=words)

    def test_of_any_gateway_of_a_firmware(self):
        self.answered("a gateway of firmware 73", 150, "--firmware", "73")
        self.answered("a gateway of firmware 74", 500, "--firmware", "74")

    def test_of_settings(self):
        for line, words, last in (("", (), 500), ("firmware 74\n", (), 500), ("firmware 73\narchive 3300\n", (), 150),
                                  ("archive 3300\n", ("--firmware", "73"), 150), ("firmware 73\n", ("--firmware", "74"), 500)):
            self.write("s", "unit 17\n" + line)
            self.answered("this gateway", last, "--settings", "s", *words)

    def test_without_a_firmware_it_depends(self):
        for function, address, _ in self.POLLS:
            for number in 1, 150, 151, 501:
                self.assertNotIn("a gateway", self.told(FINE, request(17, function, address, number)))

    def test_what_depends_on_more_than_the_firmware(self):
        for function, address in (3, 711), (3, 761), (3, 721), (3, 780), (6, 3730):
            self.assertNotIn("a gateway", self.told(FINE, request(17, function, address, 1), words=("--firmware", "73")))

    def test_what_all_answer_alike(self):
        self.told(FINE, request(17, 3, 3701, 33), "a gateway of firmware 73 answers it with 71 bytes", words=("--firmware", "73"))
        self.told(FINE, request(17, 4, 731, 1), "a gateway of firmware 74 answers it with exception 1, illegal function",
                  words=("--firmware", "74"))

    def test_any_other(self):
        self.write("s", "unit 17\n")
        for firmware in NO_FIRMWARE:
            for words in (), ("--settings", "s"):
                self.expect(TROUBLE, "windrow-frame: --firmware: " + REFUSED % firmware, "frame", "11", *words,
                            "--firmware", str(firmware))

    def test_any_other_in_the_settings(self):
        """Told where a gateway of them is asked."""
        self.write("s", "unit 17\nfirmware 75\n")
        self.expect(TROUBLE, "windrow-frame: s: " + REFUSED % 75, "frame", request(17, 3, 3701, 1).hex(), "--settings", "s")


class Line(RecordsCase):
    """windrow-gateway with firmware 73, polled and read. 300 rises are 599 changes, of which the alarm file keeps the last 150."""
    SETTINGS = "unit 17\ngap 1\narchive 3300\nfirmware 73\nalarm 1 1801 0 0\n"

    def test_read_after_going_round(self):
        self.gateway_over(pulses(300), self.SETTINGS)
        self.assertEqual(self.rows()[11], ["11", "150", "149", "0"])
        for firmware in "firmware 73\n", "firmware 74\n", "firmware 99\n", "":
            self.write("s", self.SETTINGS.replace("firmware 73\n", firmware))  # the gateway itself says how many
            rows = self.rows("11")[1:]
            self.assertEqual([int(row[0]) for row in rows], [150, *range(1, 150)])
            self.assertEqual([int(row[4]) for row in rows], [0, 1] * 75)
            self.assertEqual([int(row[6]) for row in rows if row[4] == "1"], list(range(226, 301)))

    def test_read_before_it_is_full(self):
        self.gateway_over(pulses(75), self.SETTINGS)  # 149 changes
        self.assertEqual([int(row[0]) for row in self.rows("11")[1:]], list(range(1, 150)))

    def test_read_just_full(self):
        self.gateway_over(pulses(75) + pulses(1)[:1430], self.SETTINGS)
        self.assertEqual(self.rows()[11], ["11", "150", "150", "0"])
        self.assertEqual([int(row[0]) for row in self.rows("11")[1:]], list(range(1, 151)))

    def test_follow_round_the_end(self):
        """A change every 20 ms: the file goes round in three seconds, and 199 are logged in all."""
        self.write("s", self.SETTINGS + "scan 1\n")
        self.write("trace", pulses(100))
        self.start_gateway("s", "--trace", "trace", "--speed", "50", "--hold")
        reader = self.start("line", "s", "11=csv", "--follow", "--every", "10", name="read")
        self.wait_for("the last alarm", lambda: "csv" in self.names() and self.read("csv").count(b"\n") > 199)
        self.assertEqual(self.stopped(reader), (FINE, "", ""))
        rows = self.read("csv").decode().splitlines()[1:]
        self.assertEqual([int(row.split(",")[0]) for row in rows], [i % 150 + 1 for i in range(199)])

    def test_option(self):
        self.gateway_over(pulses(300), "unit 17\ngap 1\nalarm 1 1801 0 0\n", "--firmware", "73")
        self.assertEqual(self.rows()[11], ["11", "150", "149", "0"])

    def test_several_of_one_scan(self):
        """501 alarms, 25 or 26 a scan, so that scans 6, 12 and 18 end with record 150."""
        self.gateway_over(cleared_first.full_trace(), cleared_first.FULL_SETTINGS, "--firmware", "73")
        self.assertEqual(self.rows("11")[1:], cleared_first.full_rows(150)[-150:])

    def test_polls_at_the_end(self):
        """Record 150 by all four addresses; 151 can neither be read nor requested. Change 450 is the newest there, a fall."""
        line = self.client(self.gateway_over(pulses(300), self.SETTINGS))
        stamp = bytes([5, 1 + 226 // 24, 26, 226 % 24, 0, 0])
        record = stamp + bytes.fromhex("0709 00 00 00000000 00000000 00000000")
        for address, data in (731, record), (781, stamp):
            self.assertEqual(line.ask(request(17, 3, address, 150), len(data) + 5), reply(17, data))
            self.assertEqual(line.ask(request(17, 3, address, 151), 5), exception(17, 3))
        for number in 151, 500, 0:
            self.assertEqual(line.ask(request(17, 6, 3733, number), 5), exception(17, 3, 6))
        for address in 711, 761:
            self.assertEqual(line.ask(request(17, 3, address, 1), 5), exception(17, 3))
        self.assertEqual(line.ask(request(17, 6, 3733, 150), 8), request(17, 6, 3733, 150))
        for address, data in (711, record), (761, stamp):
            self.assertEqual(line.ask(request(17, 3, address, 1), len(data) + 5), reply(17, data))


class Compare(CompareCase):
    """By alarms that were not read out of a gateway but worked out by hand: 501, which go round after 150 or 500."""

    def setUp(self):
        super().setUp()
        self.write("trace", cleared_first.full_trace())
        self.write("alarms.csv", cleared_first.text([[cleared_first.HEADING], *cleared_first.full_rows(150)]))

    def agree(self, line, *words):
        """Where the firmware is 74, the numbers from the 151st on are others."""
        self.write("s", cleared_first.FULL_SETTINGS + line)
        return self.compare(FINE, "501 records agree, 0 differ", "11=alarms.csv", *words)

    def differ(self, line, *words):
        self.write("s", cleared_first.FULL_SETTINGS + line)
        told = self.compare(TROUBLE, "150 records agree, 351 differ", "11=alarms.csv", *words)
        self.assertIn("file 11, row 151: in column record expected 151, there is 1", told)

    def test_by_line(self):
        self.agree("firmware 73\n")
        self.differ("firmware 74\n")
        self.differ("")

    def test_by_option(self):
        self.agree("", "--firmware", "73")
        self.agree("firmware 74\n", "--firmware", "73")
        self.differ("firmware 73\n", "--firmware", "74")

    def test_of_74_by_73(self):
        self.write("s", cleared_first.FULL_SETTINGS)
        self.write("alarms.csv", cleared_first.text([[cleared_first.HEADING], *cleared_first.full_rows()]))
        self.compare(FINE, "501 records agree, 0 differ", "11=alarms.csv")
        self.compare(TROUBLE, "150 records agree, 351 differ", "11=alarms.csv", "--firmware", "73")

    def test_any_other(self):
        for firmware in NO_FIRMWARE:
            self.write("s", cleared_first.FULL_SETTINGS + "firmware %d\n" % firmware)
            told = "a gateway refuses firmware %d: it is neither 73 nor 74 (2 Foreign)" % firmware
            self.expect(TROUBLE, "s: " + told, "compare", "s", "trace", "11=alarms.csv")
            self.expect(TROUBLE, "--firmware: " + told, "compare", "s", "trace",
                        "11=alarms.csv", "--firmware", str(firmware))
