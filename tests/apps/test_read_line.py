"""windrow-read: troubles of the line, with a gateway that the test plays."""
import os
import struct

from frames import exception, frame, register_reply, reply
from gateways import GatewayCase
from lines import PlaysGateways, answers
from support import FINE, MISUSE, TROUBLE, Case

# File 1 has two records of a 32-bit point.
SETTINGS = "unit 17\nfile 1 4 5101:1\n"
FILES = {1: (4, 2, 0)}
EXCEPTIONS = (1, "illegal function"), (2, "illegal data address"), (3, "illegal data value"), (4, "unknown exception")
OLD = "what was read before\n"


def record(value, minute=0):
    return bytes([5, 1, 26, 6, minute, 0]) + struct.pack(">i", value)


RECORDS = {(1, 1): record(-1, 1), (1, 2): record(2, 2), (1, 3): bytes(10), (1, 4): bytes(10)}
CSV = "record,stamp,5101\n1,2026-05-01T06:01:00,-1\n2,2026-05-01T06:02:00,2\n"
good = answers(FILES, RECORDS)


class ReadCase(PlaysGateways, Case):
    def setUp(self):
        super().setUp()
        self.write("s", SETTINGS)

    def reads(self, answer, *words):
        """File 1 is read well in spite of all."""
        gateway = self.play(answer)
        self.assertEqual(self.expect(FINE, "", "read", gateway.device, "s", "1", *words).stdout, CSV)
        return gateway

    def fails(self, answer, told, *words):
        """File 1 can't be read: that is told, and the CSV of before is as it was, with nothing beside it."""
        self.write("csv", OLD)
        gateway = self.play(answer)
        self.expect(TROUBLE, told, "read", gateway.device, "s", "1=csv", *words)
        self.assertEqual(self.read("csv"), OLD.encode())
        self.assertEqual(self.names(), ["csv", "s"])
        return gateway


class Answers(ReadCase):
    def test_all_well(self):
        self.reads(good)

    def test_silent_from_the_start(self):
        gateway = self.fails(lambda *_: b"", "registers: no answer in time from unit 17", "--wait", "200", "--tries", "2")
        self.assertEqual(len(gateway.requests), 2)

    def test_nothing_is_written_where_nothing_is_read(self):
        gateway = self.play(lambda *a: good(*a) if a[2] == 3701 else b"")
        done = self.expect(TROUBLE, "no answer in time", "read", gateway.device, "s", "1", "--wait", "200", "--tries", "1")
        self.assertEqual(done.stdout, "")

    def test_silent_midway(self):
        self.fails(lambda *a: good(*a) if a[4] < 3 else b"", "file 1, record 1: no answer in time from unit 17", "--wait", "200")

    def test_silent_behind_the_records(self):
        self.fails(lambda *a: good(*a) if a[4] < 5 else b"", "registers: no answer in time", "--wait", "200")

    def test_byte_by_byte(self):
        def slowly(*asked):
            return [part for byte in good(*asked) for part in (bytes([byte]), 0.001)]

        self.reads(slowly, "--wait", "10000")

    def test_noise_before_an_answer(self):
        """The try that it spoils is made good by another."""
        self.reads(lambda *a: (b"\x55\xaa" if a[4] in (0, 2) else b"") + good(*a), "--wait", "300")

    def test_noise_between_answers(self):
        self.reads(lambda *a: good(*a) + b"\x00\xff\x11\x03", "--wait", "300")

    def test_rest_of_a_garbled_answer_is_waited_for(self):
        """It is not taken for the answer to the next try."""
        self.write("s", SETTINGS + "gap 300\n")

        def answer(*asked):
            return [part for byte in b"\x55" + good(*asked) for part in (bytes([byte]), 0.003)] if asked[4] == 1 else good(*asked)

        self.reads(answer, "--wait", "500", "--tries", "2")

    def test_noise_alone(self):
        self.fails(lambda *_: b"\x55" * 40, "registers: the answer is garbled", "--wait", "300")

    def test_half_an_answer(self):
        self.fails(lambda *a: good(*a)[:20], "registers: the answer is garbled", "--wait", "200")

    def test_half_an_answer_once(self):
        self.reads(lambda *a: good(*a)[:6] if a[4] == 1 else good(*a), "--wait", "300")

    def test_wrong_crc(self):
        self.fails(lambda *a: good(*a)[:-1] + bytes([good(*a)[-1] ^ 1]), "garbled (its CRC or its function is wrong)")

    def test_wrong_crc_once(self):
        self.reads(lambda *a: good(*a)[:-1] + b"\0" if a[4] == 2 else good(*a), "--wait", "300")

    def test_other_function(self):
        self.fails(lambda *a: frame(b"\x11\x04\x02\0\0"), "garbled (its CRC or its function is wrong)", "--wait", "200")

    def test_other_unit(self):
        self.fails(lambda *a: register_reply(18, FILES), "registers: unit 18 answers, and unit 17 was asked", "--wait", "300")

    def test_other_unit_once(self):
        self.reads(lambda *a: reply(18, record(9)) if a[4] == 2 else good(*a), "--wait", "300")

    def test_late_answer_is_not_taken_for_the_next_record(self):
        """Record 1 is answered after it was asked for again, and then once more; answers do not say what they are to."""
        def late(*asked):
            pause = {3: 0.45, 4: 0.15}.get(asked[4], 0)
            return [pause, good(*asked)]

        self.reads(late, "--wait", "300")

    def test_exceptions(self):
        for code, word in EXCEPTIONS:
            told = "registers: the gateway answers exception %d, %s" % (code, word)
            gateway = self.fails(lambda *_, code=code: exception(17, code), told)
            self.assertEqual(len(gateway.requests), 1)

    def test_exception_midway(self):
        self.fails(lambda *a: good(*a) if a[2] == 3701 else exception(17, 3), "file 1, record 3: the gateway answers exception 3")

    def test_registers_of_another_size(self):
        self.fails(lambda *a: reply(17, bytes(6)), "registers: 6 bytes came, and 66 were asked for")

    def test_record_of_another_size(self):
        self.fails(lambda *a: good(*a) if a[2] == 3701 else reply(17, bytes(12)),
                   ["file 1, record 3: 14 Garbled", "it has 12 bytes, and a record of this definition has 10"])

    def test_record_with_an_impossible_stamp_is_told_and_the_others_written(self):
        """30 February, which a gateway before 1.1 filed; a common year's 29th; a month that never was."""
        for date in bytes([2, 30, 26]), bytes([2, 29, 26]), bytes([9, 31, 26]), bytes([13, 13, 26]):
            gateway = self.play(answers(FILES, {**RECORDS, (1, 1): date + RECORDS[1, 1][3:]}))
            told = ["file 1, record 1: 14 Garbled", "its stamp %s " % date.hex(" ").upper(), "is no date and time"]
            done = self.expect(TROUBLE, told, "read", gateway.device, "s", "1")
            self.assertEqual(done.stdout, CSV.replace("1,2026-05-01T06:01:00,-1\n", ""))

    def test_emptied_while_it_is_read(self):
        """What was read then is not written as if it were the file's."""
        gateway = self.play(lambda *a: register_reply(17, {1: (4, 0, 0)}) if a[4] > 4 and a[2] == 3701 else good(*a))
        self.assertEqual(self.expect(FINE, "", "read", gateway.device, "s", "1").stdout, "record,stamp,5101\n")

    def test_captured_over_while_it_is_read(self):
        """Record 3 was the oldest, and may be a newer one by now: it is left out."""
        full = {(1, k): record(k, k) for k in (1, 2, 3, 4)}
        gateway = self.play(lambda *a: answers({1: (4, 3 if a[4] > 4 else 2, 0)}, full)(*a))
        done = self.expect(FINE, "", "read", gateway.device, "s", "1")
        self.assertEqual([row.split(",")[0] for row in done.stdout.splitlines()[1:]], ["4", "1", "2"])

    def test_captured_over_while_it_was_undated(self):
        """Record 3 is left out for what stands there now, and not for its date."""
        full = {(1, k): record(k, k) for k in (1, 2, 3, 4)}
        full[1, 3] = bytes([2, 30, 26]) + full[1, 3][3:]
        gateway = self.play(lambda *a: answers({1: (4, 3 if a[4] > 4 else 2, 0)}, full)(*a))
        done = self.expect(FINE, "", "read", gateway.device, "s", "1")
        self.assertEqual([row.split(",")[0] for row in done.stdout.splitlines()[1:]], ["4", "1", "2"])

    def test_date_in_the_other_order(self):
        """Settings of another gateway, perhaps: nothing is written."""
        bad = {**RECORDS, (1, 2): bytes([29, 5]) + RECORDS[1, 2][2:]}
        self.fails(answers(FILES, bad), ["file 1, record 2: 14 Garbled: its stamp 1D 05 1A 06 02 00", "in the other order only"])


class Unplugged(ReadCase):
    def test_before_an_answer(self):
        self.fails(lambda *_: None, "is gone")

    def test_midway(self):
        self.fails(lambda *a: good(*a) if a[4] < 3 else None, "is gone")

    def test_within_an_answer(self):
        self.fails(lambda *a: good(*a) if a[4] < 3 else [good(*a)[:5], 0.02, None], "is gone")


class Interrupted(GatewayCase, ReadCase):
    """Ends at once, however long it would wait, and leaves nothing half."""

    def ended(self, answer, *words):
        self.write("csv", OLD)
        gateway = self.play(answer)
        reader = self.start(gateway.device, "s", "1=csv", "--wait", "600000", *words, name="read")
        self.wait_for("a request", lambda: gateway.requests)
        status, _, told = self.stopped(reader)
        self.assertEqual((status, told), (TROUBLE, "windrow-read: interrupted\n"))
        self.assertEqual((self.names(), self.read("csv")), (["csv", "s"], OLD.encode()))

    def test_silent_from_the_start(self):
        self.ended(lambda *_: b"")
        self.ended(lambda *_: b"", "--follow")

    def test_midway(self):
        self.ended(lambda *a: good(*a) if a[2] == 3701 else b"")


class Follow(GatewayCase, ReadCase):
    def silenced(self):
        """A gateway that answered the first look and no other, and its reader."""
        silent = []
        gateway = self.play(lambda *a: b"" if silent else good(*a))
        reader = self.start(gateway.device, "s", "1=csv", "--follow", "--every", "5", "--wait", "200", name="read")
        self.wait_for("its first look", lambda: "csv" in self.names())
        silent.append(True)
        before = len(gateway.requests)
        self.wait_for("looks in vain", lambda: len(gateway.requests) > before + 7)
        return gateway, reader

    def test_undated_record_after_a_silence_is_told(self):
        gateway, reader = self.silenced()
        records = {**RECORDS, (1, 3): bytes([2, 30, 26]) + record(3, 3)[3:], (1, 4): record(4, 4)}
        gateway.answer = answers({1: (4, 4, 0)}, records)
        self.wait_for("the next record", lambda: b"4,2026-05-01T06:04:00,4\n" in self.read("csv"))
        status, _, told = self.stopped(reader)
        self.assertEqual((status, self.read("csv").decode()), (TROUBLE, CSV + "4,2026-05-01T06:04:00,4\n"))
        self.assertEqual(told.count("file 1, record 3: 14 Garbled: its stamp 02 1E 1A 06 03 00 is no date and time"), 1, told)

    def test_silence_is_told_once_and_outlived(self):
        gateway, reader = self.silenced()
        gateway.answer = answers({1: (4, 3, 0)}, {**RECORDS, (1, 3): record(3, 3)})
        self.wait_for("the next record", lambda: b"3,2026-05-01T06:03:00,3\n" in self.read("csv"))
        status, _, told = self.stopped(reader)
        self.assertEqual(status, FINE)
        self.assertEqual(told.count("no answer in time"), 1, told)
        self.assertEqual(told.count("it goes on trying"), 1, told)
        self.assertEqual(told.count("there are answers again"), 1, told)
        self.assertEqual(self.read("csv").decode(), CSV + "3,2026-05-01T06:03:00,3\n")

    def test_silent_when_it_is_ended(self):
        _, reader = self.silenced()
        status, _, told = self.stopped(reader)
        self.assertEqual(status, TROUBLE)
        self.assertIn("there is still no answer", told)
        self.assertEqual(self.read("csv").decode(), CSV)

    def test_file_that_goes_round_is_written_capture_by_capture(self):
        """The file of four is captured to whenever its registers are read, twelve times in all."""
        captures = 0

        def answer(unit, function, address, quantity, count):
            nonlocal captures
            if address == 3701:
                captures = min(captures + 1, 12)
            ring = {(1, k): bytes(10) for k in (1, 2, 3, 4)}
            ring.update({(1, (i - 1) % 4 + 1): record(i, i) for i in range(1, captures + 1)})
            return answers({1: (4, (captures - 1) % 4 + 1, 0)}, ring)(unit, function, address, quantity, count)

        gateway = self.play(answer)
        reader = self.start(gateway.device, "s", "1=csv", "--follow", "--every", "1", "--wait", "10000", name="read")
        self.wait_for("the last capture", lambda: "csv" in self.names() and b",12\n" in self.read("csv"))
        self.assertEqual(self.stopped(reader), (FINE, "", ""))
        rows = [row.split(",") for row in self.read("csv").decode().splitlines()[1:]]
        self.assertEqual([int(row[2]) for row in rows], list(range(1, 13)))
        self.assertEqual([int(row[0]) for row in rows], [1, 2, 3, 4] * 3)

    def test_file_that_was_empty_and_is_full_at_the_next_look(self):
        empty = {(1, k): bytes(10) for k in (1, 2, 3, 4)}
        gateway = self.play(answers({1: (4, 0, 0)}, empty))
        reader = self.start(gateway.device, "s", "1=csv", "--follow", "--every", "5", name="read")
        self.wait_for("its first look", lambda: "csv" in self.names())
        gateway.answer = answers({1: (4, 4, 0)}, {(1, k): record(k, k) for k in (1, 2, 3, 4)})
        self.wait_for("the records", lambda: self.read("csv").count(b"\n") == 5)
        self.assertEqual(self.stopped(reader), (FINE, "", ""))

    def test_file_of_one_record_is_told(self):
        gateway = self.play(answers({1: (1, 1, 0)}, {(1, 1): record(1, 1)}))
        reader = self.start(gateway.device, "s", "1=csv", "--follow", name="read")
        self.wait_for("its first look", lambda: "csv" in self.names())
        self.assertIn("file 1 holds one record", self.stopped(reader)[2])

    def test_records_that_were_captured_over_are_told(self):
        """At the second look the file has gone on by two, and while it is read by three more: all but one of four are over."""
        full = {(1, k): record(k, k) for k in (1, 2, 3, 4)}
        gateway = self.play(answers({1: (4, 2, 0)}, full))
        reader = self.start(gateway.device, "s", "1=csv", "--follow", "--every", "5", name="read")
        self.wait_for("its first look", lambda: "csv" in self.names())
        since = len(gateway.requests)
        gateway.answer = lambda *a: answers({1: (4, 4 if a[4] < since + 3 else 3, 0)}, full)(*a)
        self.wait_for("what is told", lambda: "1 records were captured over before they were read" in reader.stderr.readline())
        self.stopped(reader)


class Device(ReadCase):
    def test_missing(self):
        self.expect(TROUBLE, "the device nowhere can't be opened: No such file", "read", "nowhere", "s", "1")

    def test_plain_file(self):
        self.expect(TROUBLE, "plain is no serial device", "read", self.write("plain", "x"), "s", "1=csv")
        self.assertEqual(self.read("plain"), b"x")
        self.assertNotIn("csv.new", self.names())

    def test_path_too_long(self):
        self.expect(TROUBLE, "path is too long", "read", "/dev/../" * 20 + "dev/null", "s")


class Registers(ReadCase):
    def test_are_written_without_a_file(self):
        gateway = self.play(answers({1: (4, 2, 3), 10: (65535, 65535, 1)}, {}))
        idle = ["%d,0,0,0" % file for file in range(2, 10)]
        wanted = ["file,n,pointer,requested", "1,4,2,3", *idle, "10,65535,65535,1", "11,500,0,0"]
        self.assertEqual(self.expect(FINE, "", "read", gateway.device, "s").stdout.splitlines(), wanted)

    def test_idle_file(self):
        gateway = self.play(answers({}, {}))
        done = self.expect(FINE, "file 2 is idle: it holds no records", "read", gateway.device, "s", "2")
        self.assertEqual(done.stdout, "record,stamp\n")


class Words(ReadCase):
    """What is misused is told before the device is touched."""

    def test_file_out_of_range(self):
        for word in "0", "12", "x", "1x", "=csv", "1=", "-1", "", "99999999999999999999":
            self.expect(MISUSE, "`%s` is no FILE or FILE=CSV; files are 1-11" % word, "read", "nowhere", "s", word)

    def test_same_file_twice(self):
        self.expect(MISUSE, "`2=b`: a file can be read once", "read", "nowhere", "s", "2=a", "2=b")

    def test_two_to_standard_output(self):
        for words in ("1", "2"), ("1", "2=csv"), ("1=csv", "2"):
            self.expect(MISUSE, "only one alone to standard output", "read", "nowhere", "s", *words)

    def test_two_to_the_same_csv(self):
        self.expect(MISUSE, "`2=csv`: another file is to be written there already", "read", "nowhere", "s", "1=csv", "2=csv")

    def test_follow_without_a_file(self):
        self.expect(MISUSE, "--follow wants a FILE", "read", "nowhere", "s", "--follow")

    def test_no_settings(self):
        self.expect(MISUSE, "a device and a settings file are wanted", "read", "nowhere")

    def test_numbers_of_options(self):
        for option, value in (("--wait", "0"), ("--wait", "soon"), ("--tries", "0"), ("--tries", "1.5"), ("--every", "-1"),
                              ("--every", "nan")):
            self.expect(MISUSE, option + " takes a", "read", "nowhere", "s", "1", option, value)

    def test_unit_of_no_gateway(self):
        for unit in "0", "248":
            self.write("s", "unit %s\n" % unit)
            self.expect(TROUBLE, "s: unit %s is not 1-247" % unit, "read", "nowhere", "s")

    def test_bad_settings(self):
        self.write("s", "unit 17\nfile 1 4 7101\n")
        self.expect(TROUBLE, "s:2: a group is FIRST:COUNT", "read", "nowhere", "s", "1")


class Output(ReadCase):
    def test_missing_folder(self):
        gateway = self.play(good)
        self.expect(TROUBLE, "no/csv can't be written: No such file", "read", gateway.device, "s", "1=no/csv")

    def test_folder_in_place_of_a_file(self):
        gateway = self.play(good)
        self.expect(TROUBLE, ". can't be written: Is a directory", "read", gateway.device, "s", "1=.")
        self.assertEqual(self.names(), ["s"])

    def test_second_can_not_be_written_and_the_first_is_as_it_was(self):
        gateway = self.play(good)
        self.write("csv", OLD)
        self.expect(TROUBLE, "no/csv can't be written", "read", gateway.device, "s", "1=csv", "2=no/csv")
        self.assertEqual((self.read("csv"), self.names()), (OLD.encode(), ["csv", "s"]))

    def test_full_device_is_not_replaced(self):
        gateway = self.play(good)
        os.symlink("/dev/full", self.path("full"))
        self.expect(TROUBLE, "full can't be written: No space left", "read", gateway.device, "s", "1=full")
        self.assertEqual(os.readlink(self.path("full")), "/dev/full")

    def test_disk_that_gets_full(self):
        self.write("csv", OLD)
        many = {(1, k): record(k) for k in range(1, 101)}
        gateway = self.play(answers({1: (100, 100, 0)}, many))
        done = self.run_limited(1, "read", gateway.device, "s", "1=csv")
        self.assertEqual(done.returncode, TROUBLE)
        self.assertIn("csv can't be written: File too large", done.stderr)
        self.assertEqual((self.read("csv"), self.names()), (OLD.encode(), ["csv", "s"]))

    def test_replaces_when_all_is_read(self):
        self.write("csv", OLD)
        gateway = self.play(good)
        self.expect(FINE, "", "read", gateway.device, "s", "1=csv")
        self.assertEqual((self.read("csv"), self.names()), (CSV.encode(), ["csv", "s"]))
