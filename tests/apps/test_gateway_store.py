"""windrow-gateway: stores that are damaged, foreign or of another gateway, and places where none can be written."""
import os

import stores
from frames import request
from gateways import GatewayCase
from support import DEADLINE, FINE, TROUBLE, Case
from traces import pulses

SETTINGS = "unit 17\narchive 12000\nfile 1 8 5101:2\ntrigger 1 1801\n"


class StoreCase(Case):
    def stored(self):
        """A store with three records, and the settings `s` that it was made with."""
        self.write("s", SETTINGS)
        self.write("trace", pulses(3))
        self.expect(FINE, "", "gateway", "s", "--store", "store", "--trace", "trace", "--speed", "1e7")
        return self.read("store")

    def refused(self, content, *told, words=()):
        """The store is refused by the gateway and by windrow-dump, and is still there, byte for byte."""
        self.write("s", SETTINGS)
        self.write("store", content)
        self.expect(TROUBLE, told, "gateway", "s", "--store", "store", "--scans", "1", *words)
        self.assertEqual(self.read("store"), content)
        self.assertNotIn("store.new", self.names())


class DamagedStore(StoreCase):
    def refused(self, content, *told, words=()):
        super().refused(content, *told, words=words)
        self.expect(TROUBLE, told, "dump", "store")

    def test_empty(self):
        self.refused(b"", "store is empty")

    def test_cut_within_the_head(self):
        self.refused(self.stored()[:20], "store is no gateway's store")

    def test_cut_within_the_archive(self):
        whole = self.stored()
        self.refused(whole[:5000], "store is cut short: it has 5000 bytes and not %d" % len(whole))

    def test_last_byte_missing(self):
        self.refused(self.stored()[:-1], "store is cut short")

    def test_too_long(self):
        self.refused(self.stored() + b"\0", "store is too long")

    def test_longer_than_any(self):
        self.refused(self.stored() + bytes(2000000), "store is too long: it has more than")

    def test_other_mark(self):
        store = stores.Store.of(self.stored())
        store.mark = b"WINDROW1"
        self.refused(store.bytes(), "store is no gateway's store")

    def test_other_format(self):
        store = stores.Store.of(self.stored())
        for store.format in 0, 3, 257:
            self.refused(store.bytes(), "store has a state of format %d and 1604 bytes;"
                         " this program takes format 1 or 2 and 1604 bytes" % store.format)

    def test_other_state_length(self):
        store = stores.Store.of(self.stored())
        store.state += b"\0\0"
        for store.format in 1, 2:
            self.refused(store.bytes(), "store has a state of format %d and 1606 bytes" % store.format)

    def test_a_bit_turned(self):
        whole = self.stored()
        for place in 23, 24 + stores.POINTERS, 3000, len(whole) - 1:  # scans, state, archive, CRC
            content = bytearray(whole)
            content[place] ^= 4
            self.refused(bytes(content), "store is damaged: its CRC is wrong")

    def test_bool_byte_of_2(self):
        whole = self.stored()
        for place in stores.DAY_FIRST, stores.RUNNING, stores.UNLOCKED, stores.PENDING, stores.SCANNED:
            store = stores.Store.of(whole)
            store.state[place] = 2
            for content in store.bytes(), store.as_of_2().bytes():
                self.refused(content, "store has no state: a bool in it is neither 0 nor 1")

    def test_foreign_state_under_a_right_crc(self):
        store = stores.Store.of(self.stored())
        store.put16(stores.POINTERS, 9)
        self.refused(store.bytes(), "2 Foreign")

    def test_archive_length_that_is_not_the_states(self):
        store = stores.Store.of(self.stored())
        store.archive += b"\0"
        self.refused(store.bytes(), "1 Memory")

    def test_refused_store_says_who_knows_more(self):
        store = stores.Store.of(self.stored())
        store.state[stores.UNIT] = 0
        self.write("store", store.bytes())
        self.expect(TROUBLE, "windrow-dump store says more", "gateway", "s", "--store", "store")


class ChangedSettings(StoreCase):
    def test_trigger_and_alarm_that_are_set_no_longer_are_off(self):
        self.stored()
        self.write("s", SETTINGS + "trigger 2 1802\nalarm 5 1801 0 0\n")
        self.expect(FINE, "", "gateway", "s", "--store", "store", "--scans", "0")
        before = stores.Store.of(self.read("store"))
        self.assertEqual((before.get16(stores.TRIGGERS + 2), before.get16(stores.SLOTS + 6 * 4)), (1802, 1801))
        self.write("s", SETTINGS)
        self.expect(FINE, "", "gateway", "s", "--store", "store", "--scans", "0")
        after = stores.Store.of(self.read("store"))
        self.assertEqual((after.get16(stores.TRIGGERS + 2), after.get16(stores.SLOTS + 6 * 4)), (0, 0))
        self.assertEqual((after.archive, after.get16(stores.POINTERS)), (before.archive, before.get16(stores.POINTERS)))


class OthersStore(StoreCase):
    """A whole store that the settings do not go with."""

    def changed(self, settings, *told, words=()):
        before = self.stored()
        self.write("s", settings)
        self.expect(TROUBLE, told, "gateway", "s", "--store", "store", "--scans", "1", *words)
        self.assertEqual(self.read("store"), before)

    def test_other_unit(self):
        for words in (), ("--redefine",):
            self.changed(SETTINGS.replace("unit 17", "unit 18"), "unit 17, month-first dates and 12000 bytes", "can't be changed",
                         words=words)

    def test_other_archive_length(self):
        self.changed(SETTINGS.replace("12000", "12001"), "12000 bytes of archive", "can't be changed", words=["--redefine"])

    def test_other_date_order(self):
        self.changed(SETTINGS + "dates day-first\n", "month-first dates", "can't be changed", words=["--redefine"])

    def test_other_groups(self):
        self.changed(SETTINGS.replace("5101:2", "5101:3"), "s defines file 1 otherwise than the store store has it; --redefine")

    def test_other_most_records(self):
        self.changed(SETTINGS.replace("file 1 8", "file 1 9"), "s defines file 1 otherwise", "empties every file")

    def test_another_file_more(self):
        self.changed(SETTINGS + "file 2 1\n", "s defines file 2 otherwise")

    def test_redefined_files_that_do_not_fit(self):
        self.changed(SETTINGS.replace("file 1 8", "file 1 900"), "11 Room", words=["--redefine"])

    def test_missing_device_leaves_a_store_that_is_to_be_redefined(self):
        self.changed(SETTINGS.replace("file 1 8", "file 1 9"), "can't be opened", words=["--redefine", "--device", "nowhere"])

    def test_redefine_lays_out_anew_and_keeps_the_count_of_scans(self):
        before = stores.Store.of(self.stored())
        self.write("s", SETTINGS.replace("file 1 8", "file 1 9"))
        self.expect(FINE, "", "gateway", "s", "--store", "store", "--redefine", "--trace", "trace")
        after = stores.Store.of(self.read("store"))
        self.assertEqual(after.get16(stores.LAYOUT_LIMITS), 9)
        self.assertEqual(after.get16(stores.POINTERS), 0)
        self.assertEqual(bytes(after.archive), bytes(12000))
        self.assertEqual(after.scans, before.scans)

    def test_redefine_with_the_same_files_empties_nothing(self):
        before = self.stored()
        self.expect(FINE, "", "gateway", "s", "--store", "store", "--redefine", "--trace", "trace")
        self.assertEqual(self.read("store"), before)

    def test_other_trigger_is_set_and_empties_nothing(self):
        before = stores.Store.of(self.stored())
        self.write("s", SETTINGS.replace("trigger 1 1801", "trigger 1 1802"))
        self.expect(FINE, "", "gateway", "s", "--store", "store", "--trace", "trace")
        after = stores.Store.of(self.read("store"))
        self.assertEqual((after.get16(stores.TRIGGERS), after.archive), (1802, before.archive))

    def test_store_that_was_left_unlocked(self):
        store = stores.Store.of(self.stored())
        store.state[stores.RUNNING], store.state[stores.PENDING] = 0, 1
        store.put16(stores.DRAFT_LIMITS, 3)  # what a start would lay out
        self.refused(store.bytes(), "has a start pending, which empties every file", "--redefine")
        self.expect(FINE, "", "gateway", "s", "--store", "store", "--redefine", "--trace", "trace")
        after = stores.Store.of(self.read("store"))
        self.assertEqual(after.get16(stores.LAYOUT_LIMITS), 8)  # the settings', not the draft's


class PlaceOfStore(GatewayCase, StoreCase):
    def test_missing_folder(self):
        self.write("s", SETTINGS)
        self.expect(TROUBLE, "the store no/store can't be written: No such file", "gateway", "s", "--store", "no/store")

    def test_file_in_place_of_a_folder(self):
        self.write("s", SETTINGS)
        self.expect(TROUBLE, "s/store can't be read: Not a directory", "gateway", "s", "--store", "s/store", "--scans", "1")

    def test_store_is_a_folder(self):
        self.write("s", SETTINGS)
        self.expect(TROUBLE, "can't be read: Is a directory", "gateway", "s", "--store", ".", "--scans", "1")

    def test_what_is_written_beside_can_not_be(self):
        before = self.stored()
        os.mkdir(self.path("store.new"))
        self.expect(TROUBLE, ["can't be written: Is a directory", "still there"], "gateway", "s", "--store", "store")
        self.assertEqual(self.read("store"), before)

    def test_left_over_beside_is_not_mistaken(self):
        before = self.stored()
        self.write("store.new", before[:700])
        self.expect(FINE, "", "gateway", "s", "--store", "store", "--trace", "trace")
        self.assertEqual(self.read("store"), before)
        self.assertNotIn("store.new", self.names())

    def test_only_a_left_over_beside_is_a_fresh_start(self):
        self.write("s", SETTINGS)
        self.write("store.new", self.stored())
        os.remove(self.path("store"))
        self.expect(FINE, "", "gateway", "s", "--store", "store", "--scans", "0")
        self.assertEqual(stores.Store.of(self.read("store")).scans, 0)

    def test_full_disk(self):
        before = self.stored()
        os.symlink("/dev/full", self.path("store.new"))
        self.expect(TROUBLE, "the store store can't be written: No space left on device; what was stored before is still there",
                    "gateway", "s", "--store", "store")
        self.assertEqual(self.read("store"), before)

    def test_store_of_a_gateway_that_is_running(self):
        self.write("s", SETTINGS)
        gateway = self.start_gateway("s", "--store", "store", "--scans", "0", "--hold")
        before = self.read("store")
        self.expect(TROUBLE, "the store store is another gateway's that is running", "gateway", "s", "--store", "store")
        self.assertEqual(self.read("store"), before)
        self.expect(FINE, "", "dump", "store")
        self.stopped(gateway)
        self.expect(FINE, "", "gateway", "s", "--store", "store", "--scans", "0")

    def test_disk_that_gets_full(self):
        before = self.stored()
        self.write("s", SETTINGS.replace("trigger 1 1801", "trigger 1 1802"))  # something to be stored
        done = self.run_limited(4, "gateway", "s", "--store", "store")
        self.assertEqual(done.returncode, TROUBLE)
        self.assertIn("the store store can't be written: File too large; what was stored before is still there", done.stderr)
        self.assertEqual(self.read("store"), before)
        self.assertNotIn("store.new", self.names())

    def test_disk_that_gets_full_while_it_runs(self):
        """What can't be stored is not acknowledged; the link is taken away."""
        self.write("s", SETTINGS)
        gateway = self.start_gateway("s", "--store", "store", "--scans", "1", "--hold")
        before = self.wait_for("the first scan", lambda: stores.Store.of(self.read("store")).scans and self.read("store"))
        os.mkdir(self.path("store.new"))
        client = self.client(gateway)
        client.send(request(17, 6, 3703, 2))
        self.assertEqual(gateway.wait(DEADLINE), TROUBLE)
        self.assertIn("the store store can't be written", gateway.stderr.read())
        self.assertEqual(self.read("store"), before)
        self.assertFalse(os.path.lexists(self.path("line")))
