"""windrow-gateway: its device and link, frames of every kind, and that it ends when it is told."""
import os
import pty
import random
import time

import stores
from frames import exception, frame, register_reply, reply, request
from gateways import GatewayCase
from support import DEADLINE, FINE, MISUSE, TROUBLE
from traces import pulses

SETTINGS = "unit 17\narchive 12000\ngap 50\nfile 1 8 5101:2\ntrigger 1 1801\n"
REGISTERS = request(17, 3, 3701, 33)
SECOND = bytes([5, 1, 26, 2, 30, 0, 0, 0, 0, 2, 0, 0, 0, 0])  # the trace's second record


class Device(GatewayCase):
    def setUp(self):
        super().setUp()
        self.write("s", SETTINGS)

    def test_missing(self):
        self.expect(TROUBLE, "the device nowhere can't be opened: No such file", "gateway", "s", "--device", "nowhere")

    def test_plain_file(self):
        self.write("plain", "as it was")
        self.expect(TROUBLE, "plain is no serial device", "gateway", "s", "--device", "plain")
        self.assertEqual(self.read("plain"), b"as it was")

    def test_null_device(self):
        self.expect(TROUBLE, "/dev/null is no serial device", "gateway", "s", "--device", "/dev/null")

    def test_folder(self):
        self.expect(TROUBLE, "the device . can't be opened: Is a directory", "gateway", "s", "--device", ".")

    def test_path_too_long(self):
        self.expect(TROUBLE, "path is too long", "gateway", "s", "--device", "/dev/../" * 20 + "dev/null")

    def test_terminal_is_served_and_told_when_unplugged(self):
        master, slave = pty.openpty()
        gateway = self.start("s", "--device", os.ttyname(slave), "--hold")
        self.assertEqual(gateway.stdout.readline(), "device: %s\n" % os.ttyname(slave))
        os.write(master, REGISTERS)
        wanted = register_reply(17, {1: (8, 0, 0)})
        came = b""
        while len(came) < len(wanted):
            came += os.read(master, 256)
        self.assertEqual(came, wanted)
        os.close(slave)
        os.close(master)
        self.assertEqual(gateway.wait(DEADLINE), TROUBLE)
        self.assertIn("is gone", gateway.stderr.read())


class Untaken(GatewayCase):
    def test_reply_that_nobody_took_is_dropped(self):
        """The next client would take it for the answer to its own request."""
        self.write("s", SETTINGS)
        gateway = self.start_gateway("s", "--scans", "1", "--hold")
        client = self.client(gateway)
        client.send(REGISTERS)
        begun = time.monotonic()
        self.wait_for("its end", lambda: time.monotonic() > begun + 1.5 and client.waiting() == 0)
        self.assertIn("passed over 1 frames", self.stopped(gateway)[1])


class Link(GatewayCase):
    def setUp(self):
        super().setUp()
        self.write("s", SETTINGS)

    def test_stands_while_the_gateway_runs(self):
        gateway = self.start_gateway("s", "--hold")
        self.assertEqual(os.readlink(self.path("line")), gateway.device)
        self.assertEqual(self.stopped(gateway)[0], FINE)
        self.assertEqual(self.names(), ["s"])

    def test_that_a_killed_gateway_left_is_replaced(self):
        os.symlink("/dev/pts/none", self.path("line"))
        gateway = self.start_gateway("s", "--hold")
        self.assertEqual(os.readlink(self.path("line")), gateway.device)

    def test_does_not_replace_a_file(self):
        self.expect(TROUBLE, "the link s can't be made: there is something else of that name", "gateway", "s", "--link", "s")
        self.assertEqual(self.read("s"), SETTINGS.encode())

    def test_in_a_missing_folder(self):
        self.expect(TROUBLE, "the link no/line can't be made: No such file", "gateway", "s", "--link", "no/line")


class Frames(GatewayCase):
    """Polls of a gateway with three records of which it holds scans no more."""

    def setUp(self):
        super().setUp()
        self.write("s", SETTINGS)
        self.write("trace", pulses(3))
        self.gateway = self.start_gateway("s", "--trace", "trace", "--speed", "1e7", "--store", "store", "--hold")
        self.assertIn("scanned 6 times", self.gateway.stdout.readline())
        self.line = self.client(self.gateway)

    def still_answers(self):
        """The first bytes that come are the answer to a poll of record 2."""
        wanted = reply(17, SECOND)

        def answer():
            time.sleep(0.1)  # the silence that ends a frame; where the gateway sees none, it takes both for one
            self.line.send(request(17, 3, 721, 2))
            return self.line.take(len(wanted), 1)

        self.assertEqual(self.wait_for("an answer", answer), wanted)

    def unanswered(self, data):
        """No byte comes back, and the poll behind it is answered well."""
        self.line.send(data)
        self.still_answers()

    def test_record(self):
        wanted = reply(17, SECOND)
        self.assertEqual(self.line.ask(request(17, 3, 721, 2), len(wanted)), wanted)

    def test_exceptions(self):
        for asked, code in ((request(17, 4, 721, 1), 1), (request(17, 3, 699, 1), 2), (request(17, 3, 721, 9), 3),
                            (frame(b"\x11\x03\x02\xd1\x00\x01\x00"), 3), (request(17, 6, 3701, 1), 2)):
            self.assertEqual(self.line.ask(asked, 5), exception(17, code, asked[1]))

    def test_half_a_frame(self):
        self.unanswered(REGISTERS[:4])

    def test_halves_with_silence_between_are_no_frame(self):
        self.line.send(REGISTERS[:4])
        time.sleep(0.7)
        self.unanswered(REGISTERS[4:])

    def test_one_byte(self):
        self.unanswered(b"\x11")

    def test_noise_between_frames(self):
        noise = random.Random(1)
        for length in 2, 8, 40, 255, 256, 257:
            self.unanswered(noise.randbytes(length))

    def test_frame_of_257_bytes(self):
        self.unanswered(frame(bytes([17, 3]) + bytes(253)))

    def test_overlong_frame_that_ends_in_a_good_one(self):
        for length in 257, 514, 600:
            self.unanswered(bytes(length) + REGISTERS)

    def test_frame_behind_noise_without_silence(self):
        self.unanswered(b"\0" + REGISTERS)

    def test_two_frames_without_silence(self):
        self.unanswered(REGISTERS + REGISTERS)

    def test_wrong_crc(self):
        self.unanswered(REGISTERS[:-1] + b"\0")

    def test_other_unit(self):
        self.unanswered(request(18, 3, 3701, 33))
        self.unanswered(request(18, 1, 1801, 1))

    def test_broadcast_reads_are_ignored(self):
        for function, address in (1, 1801), (3, 3001), (3, 3701), (3, 721):
            self.unanswered(request(0, function, address, 1))

    def test_broadcast_06_is_done_without_an_answer(self):
        self.line.send(request(0, 6, 3703, 2))
        self.wait_for("the store", lambda: stores.Store.of(self.read("store")).get16(stores.REQUESTED) == 2)
        self.assertEqual(self.line.take(1, 0.05), b"")

    def test_06_is_echoed_and_stored(self):
        asked = request(17, 6, 3703, 3)
        self.assertEqual(self.line.ask(asked, 8), asked)
        self.assertEqual(stores.Store.of(self.read("store")).get16(stores.REQUESTED), 3)

    def test_client_that_comes_back(self):
        self.line.send(REGISTERS)
        self.line = self.client(self.gateway)
        self.assertEqual(self.line.take(71), register_reply(17, {1: (8, 3, 0)}))
        self.still_answers()


class DeafClient(GatewayCase):
    def test_takes_no_answers_and_then_asks_again(self):
        """More is answered than the line holds; what does not go out is lost, and the gateway goes on."""
        self.write("s", "unit 17\narchive 20000\ngap 1\nfile 1 8 7101:61\n")
        gateway = self.start_gateway("s", "--scans", "0", "--hold")
        line = self.client(gateway)
        for _ in range(320):
            line.send(request(17, 3, 721, 1))
            time.sleep(0.003)
        wanted = register_reply(17, {1: (8, 0, 0)})
        self.wait_for("an answer", lambda: line.ask(REGISTERS, len(wanted)) == wanted)


class AbsentClient(GatewayCase):
    def test_answer_that_nobody_took_is_not_the_next_clients(self):
        self.write("s", SETTINGS)
        gateway = self.start_gateway("s", "--scans", "0", "--hold")
        line = self.client(gateway)
        line.send(REGISTERS)
        self.wait_for("the answer", lambda: line.waiting() == 71)
        self.wait_for("its being dropped", lambda: line.waiting() == 0)


class Babble(GatewayCase):
    """A line on which bytes come all the time."""

    def test_scans_go_on_and_it_can_be_ended(self):
        self.write("s", SETTINGS.replace("gap 50", "gap 500") + "scan 1\n")
        self.write("trace", pulses(100))
        gateway = self.start_gateway("s", "--speed", "20", "--store", "store", "--trace", "trace")
        line = self.client(gateway)
        self.wait_for("scans", lambda: not line.send(bytes(300)) and stores.Store.of(self.read("store")).scans > 8)
        gateway.terminate()
        with self.assertRaises(OSError):  # the line's other end is gone
            self.wait_for("its end", lambda: line.send(bytes(300)))
        self.assertEqual(gateway.wait(DEADLINE), FINE)


class Trace(GatewayCase):
    def setUp(self):
        super().setUp()
        self.write("s", SETTINGS)

    def test_missing(self):
        self.expect(TROUBLE, "the trace nowhere can't be read: No such file", "gateway", "s", "--trace", "nowhere")

    def test_empty(self):
        self.expect(TROUBLE, "the trace t is empty", "gateway", "s", "--trace", self.write("t", b""))

    def test_broken_size(self):
        self.expect(TROUBLE, "t is no trace: its 2859 bytes are not whole records of 1430", "gateway", "s", "--trace",
                    self.write("t", bytes(2859)))

    def test_shorter_than_the_store(self):
        self.write("t", pulses(2))
        self.expect(FINE, "", "gateway", "s", "--trace", "t", "--store", "store", "--speed", "1e7")
        before = self.read("store")
        self.write("t", pulses(1))
        self.expect(TROUBLE, "the trace t is shorter than the scans in the store", "gateway", "s", "--trace", "t",
                    "--store", "store")
        self.assertEqual(self.read("store"), before)

    def test_impossible_dates_are_passed_over_and_told(self):
        """A scan of such a date neither captures nor makes a change that is due later."""
        self.write("s", SETTINGS + "at 2090-01-01T00:00:00 trigger 1 0\n")
        for month, day, year in (13, 1, 26), (0, 1, 26), (5, 32, 26), (2, 30, 26), (2, 29, 26), (11, 31, 26), (5, 1, 100), (5, 1, 255):
            trace = bytearray(pulses(3))
            trace[3 * 1430:3 * 1430 + 3] = month, day, year  # the second rise
            self.write("t", trace)
            date = "%d-%02d-%02dT02:30:00" % (2000 + year, month, day)
            self.expect(FINE, "scan 4 is refused, and passed over: %s is no date and time" % date, "gateway", "s", "--trace", "t",
                        "--store", "store", "--speed", "1e7")
            store = stores.Store.of(self.read("store"))
            self.assertEqual((store.get16(stores.POINTERS), store.get16(stores.TRIGGERS), store.scans), (2, 1801, 6))
            os.remove(self.path("store"))

    def test_recorded_is_what_was_scanned(self):
        self.write("t", pulses(3))
        self.expect(FINE, "", "gateway", "s", "--trace", "t", "--record", "r", "--speed", "1e7")
        self.assertEqual(self.read("r"), self.read("t"))

    def test_recorded_goes_on_behind_the_store(self):
        self.write("t", pulses(3))
        for scans in "3", "6":
            self.expect(FINE, "", "gateway", "s", "--trace", "t", "--record", "r", "--store", "store", "--scans", scans,
                        "--speed", "1e7")
        self.assertEqual(self.read("r"), self.read("t"))

    def test_recorded_lacks_scans_of_the_store(self):
        self.write("t", pulses(3))
        self.expect(FINE, "", "gateway", "s", "--trace", "t", "--store", "store", "--scans", "4", "--speed", "1e7")
        self.write("r", bytes(1430))
        self.expect(TROUBLE, "the trace r lacks scans that the store has", "gateway", "s", "--trace", "t", "--record", "r",
                    "--store", "store")
        self.assertEqual(self.read("r"), bytes(1430))

    def test_is_not_recorded_over_what_it_is_read_from(self):
        self.write("t", pulses(3))
        self.expect(FINE, "", "gateway", "s", "--trace", "t", "--store", "store", "--scans", "4", "--speed", "1e7")
        before = [self.read(name) for name in ("s", "t", "store")]
        for name, what in ("t", "trace"), ("s", "settings"), ("store", "store"):
            self.expect(MISUSE, "--record would write over the %s %s" % (what, name), "gateway", "s", "--trace", "t", "--record",
                        "./" + name, "--store", "store")
        self.assertEqual([self.read(name) for name in ("s", "t", "store")], before)

    def test_recorded_to_a_disk_that_gets_full(self):
        self.write("t", pulses(3))
        done = self.run_limited(8, "gateway", "s", "--trace", "t", "--record", "r", "--speed", "1e7")
        self.assertEqual(done.returncode, TROUBLE)
        self.assertIn("the trace r can't be written: File too large", done.stderr)

    def test_recorded_to_a_missing_folder(self):
        self.expect(TROUBLE, "the trace no/r can't be written: No such file", "gateway", "s", "--record", "no/r")


class End(GatewayCase):
    def test_by_a_signal_while_it_waits(self):
        self.write("s", SETTINGS)
        for words in (), ("--hold", "--scans", "1"):
            gateway = self.start_gateway("s", "--store", "store", *words)
            self.wait_for("the first scan", lambda: stores.Store.of(self.read("store")).scans == 1)
            status, out, told = self.stopped(gateway)
            self.assertEqual((status, told), (FINE, ""))
            self.assertIn("scanned 1 times, last at 2026-05-01T06:10:00", out)
            os.remove(self.path("store"))

    def test_without_any_scan(self):
        self.write("s", SETTINGS)
        done = self.expect(FINE, "", "gateway", "s", "--scans", "0")
        self.assertIn("scanned 0 times\n", done.stdout)
