"""windrow-gateway: kill -9 at any moment loses nothing that was stored or acknowledged."""
import random
import time

import stores
from frames import request
from gateways import GatewayCase, kill
from support import FINE, SEASON

SCANS = "400"
KILLS = 20


class Season(GatewayCase):
    """A season of three days, with a trigger that is moved midway and alarms."""

    def setUp(self):
        super().setUp()
        with open(SEASON) as file:
            settings = file.read()
        # alarms that go on and off often, so that the alarm file has records
        self.write("s", settings.replace("2026-06-07", "2026-05-02") + "alarm 7 1801 0 7101\nalarm 8 1802 1 7103\n")

    def finish(self, store, *words):
        self.expect(FINE, "", "gateway", "s", "--store", store, "--scans", SCANS, "--speed", "1e7", *words)

    def loads(self, store):
        return self.expect(FINE, "", "dump", store).stdout

    def scans(self):
        return stores.Store.of(self.read("killed")).scans if "killed" in self.names() else 0

    def killed_once(self, scans, seconds, *words):
        """Starts the gateway and kills it some seconds after so many scans more are stored."""
        wanted = self.scans() + scans
        gateway = self.start("s", "--store", "killed", "--scans", SCANS, "--speed", "60000", *words)
        self.wait_for("scans", lambda: self.scans() >= wanted or gateway.poll() is not None)
        time.sleep(seconds)
        if gateway.poll() is None:
            kill(gateway)
        else:
            self.assertEqual(gateway.returncode, FINE, gateway.stderr.read())

    def test_killed_at_random_moments(self):
        self.finish("whole", "--record", "whole.trace")
        moment = random.Random(9)
        reached = [0]
        for i in range(KILLS):
            # some while it starts
            self.killed_once(moment.randrange(1, 16) if i % 4 else 0, moment.uniform(0, 0.02), "--record", "killed.trace")
            if "killed" in self.names():
                self.loads("killed")
            reached.append(self.scans())
        self.assertEqual(reached, sorted(reached))
        self.assertGreater(len(set(reached)), 5)
        self.finish("killed", "--record", "killed.trace")
        self.assertEqual(self.loads("killed"), self.loads("whole"))
        self.assertEqual(self.read("killed"), self.read("whole"))
        self.assertEqual(self.read("killed.trace"), self.read("whole.trace"))
        self.assertNotIn("killed.new", self.names())

    def test_started_again_without_a_scan_changes_no_byte(self):
        self.finish("whole")
        before = self.read("whole")
        self.finish("whole")
        self.assertEqual(self.read("whole"), before)


class Acknowledged(GatewayCase):
    def test_06_that_was_answered_is_stored(self):
        self.write("s", "unit 17\narchive 20000\ngap 1\nfile 1 500\n")
        for number in 1, 77, 500:
            gateway = self.start_gateway("s", "--store", "store", "--hold")
            asked = request(17, 6, 3703, number)
            answer = self.client(gateway).ask(asked, 8)
            kill(gateway)
            self.assertEqual(answer, asked)
            done = self.expect(FINE, "", "dump", "store")
            self.assertIn("file 1: n 500, pointer 0, requested %d, trigger 0" % number, done.stdout)

    def test_06_of_the_alarm_file(self):
        self.write("s", "unit 17\n")
        gateway = self.start_gateway("s", "--store", "store", "--hold")
        asked = request(17, 6, 3733, 9)
        self.assertEqual(self.client(gateway).ask(asked, 8), asked)
        kill(gateway)
        self.assertIn("alarm file (11): n 500, pointer 0, requested 9", self.expect(FINE, "", "dump", "store").stdout)
