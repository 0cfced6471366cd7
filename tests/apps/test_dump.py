"""windrow-dump: what a store holds, and which clause of the card's row 2 a Foreign state breaks."""
import stores
from support import FINE, MISUSE, TROUBLE, Case
from traces import pulses

SETTINGS = "unit 17\narchive 12000\nfile 1 4 5101:1 4001:1\nfile 3 2\ntrigger 1 1801\ntrigger 3 1801\nalarm 5 1801 1 7101\n"


class DumpCase(Case):
    def stored(self, settings=SETTINGS, rises=6):
        self.write("s", settings)
        self.write("trace", pulses(rises))
        self.expect(FINE, "", "gateway", "s", "--store", "store", "--trace", "trace", "--speed", "1e7")
        return stores.Store.of(self.read("store"))

    def dump(self, *words):
        return self.expect(FINE, "", "dump", *words).stdout


class Whole(DumpCase):
    def test_store(self):
        self.stored()
        lines = self.dump("store").splitlines()
        for line in ("unit 17, month-first dates, archive of 12000 bytes, firmware 74", "running on, unlocked off, pending off",
                     "points on at the latest scan: 1801", "alarm slot 5: point 1801, type 1, transducer 7101",
                     "file 1: n 4, pointer 2, requested 0, trigger 1801", "  laid out: n 4, groups 5101:1 4001:1",
                     "  4 records of 18 bytes, oldest 2026-05-01T03:30:00, newest 2026-05-01T06:30:00", "record,stamp,5101,4001",
                     "file 3: n 2, pointer 2, requested 0, trigger 1801", "  laid out: n 2, groups none",
                     "  2 records of 6 bytes, oldest 2026-05-01T05:30:00, newest 2026-05-01T06:30:00",
                     "alarm file (11): n 500, pointer 6, requested 0"):
            self.assertIn(line, lines)
        self.assertNotIn("file 2", "\n".join(lines))

    def test_state_and_archive_give_the_same(self):
        store = self.stored()
        self.write("state", store.state)
        self.write("archive", store.archive)
        self.assertEqual(self.dump("state", "archive"), self.dump("store"))
        self.assertEqual(self.dump("state", "archive", "--file", "1"), self.dump("--file", "1", "store"))

    def test_file(self):
        self.stored()
        self.assertEqual(self.dump("store", "--file", "1").splitlines(), [
            "record,stamp,5101,4001", '3,2026-05-01T03:30:00,3,""', '4,2026-05-01T04:30:00,4,""', '1,2026-05-01T05:30:00,5,""',
            '2,2026-05-01T06:30:00,6,""'])
        self.assertEqual(self.dump("store", "--file", "3").splitlines(), [
            "record,stamp", "1,2026-05-01T05:30:00", "2,2026-05-01T06:30:00"])
        self.assertEqual(len(self.dump("store", "--file", "11").splitlines()), 7)

    def test_idle_file(self):
        self.stored()
        self.assertEqual(self.dump("store", "--file", "2"), "record,stamp\n")

    def test_fresh_gateway(self):
        self.write("s", "unit 9\ndates day-first\n")
        self.expect(FINE, "", "gateway", "s", "--store", "store", "--scans", "0")
        out = self.dump("store")
        self.assertIn("unit 9, day-first dates, archive of 65536 bytes, firmware 74\n", out)
        self.assertIn("no scan yet\n", out)
        self.assertIn("  0 records of 22 bytes\n", out)

    def test_draft_that_differs_is_told(self):
        store = self.stored()
        store.state[stores.RUNNING], store.state[stores.UNLOCKED], store.state[stores.PENDING] = 0, 1, 1
        store.put16(stores.DRAFT_GROUPS + 2 * 32, 3001, 2)
        store.put16(stores.DRAFT_LIMITS + 2, 7)
        self.write("store", store.bytes())
        out = self.dump("store")
        self.assertIn("running off, unlocked on, pending on", out)
        self.assertIn("file 2: n 0, pointer 0, requested 0, trigger 0\n  laid out: n 0, groups none\n"
                      "  drafted: n 7, groups 3001:2\n", out)

    def test_record_with_an_impossible_stamp_is_told_and_the_others_written(self):
        """30 February, which a gateway before 1.1 filed, and a month that never was."""
        store = self.stored()
        for date, shown in (bytes([2, 30, 26]), "02 1E 1A 05 1E 00"), (bytes([13, 13, 26]), "0D 0D 1A 05 1E 00"):
            store.archive[:3] = date  # of file 1's record 1
            self.write("store", store.bytes())
            done = self.expect(TROUBLE, ["file 1, record 1: 14 Garbled", "its stamp %s is no date and time" % shown], "dump",
                               "store", "--file", "1")
            self.assertEqual([row[:2] for row in done.stdout.splitlines()[1:]], ["3,", "4,", "2,"])


class Refused(DumpCase):
    def test_missing_store(self):
        self.expect(TROUBLE, "there is no store nowhere", "dump", "nowhere")

    def test_missing_state_or_archive(self):
        store = stores.fresh()
        self.write("state", store.state)
        self.expect(TROUBLE, "nowhere can't be read: No such file", "dump", "nowhere", "state")
        self.expect(TROUBLE, "nowhere can't be read: No such file", "dump", "state", "nowhere")

    def test_state_of_a_wrong_length(self):
        for length in 0, 1603, 1605:
            self.write("state", bytes(length))
            self.expect(TROUBLE, "state is no state: it has %d bytes and not 1604" % length, "dump", "state", "state")

    def test_state_with_a_bool_of_2(self):
        store = stores.fresh()
        store.state[stores.SCANNED] = 2
        self.write("state", store.state)
        self.write("archive", store.archive)
        self.expect(TROUBLE, "state is no state: a bool in it is neither 0 nor 1", "dump", "state", "archive")

    def test_archive_of_a_wrong_length(self):
        store = stores.fresh()
        self.write("state", store.state)
        for length in 0, 10999, 11001:
            self.write("archive", bytes(length))
            self.expect(TROUBLE, "the archive has %d bytes, and the state is of one with 11000 (1 Memory)" % length,
                        "dump", "state", "archive")

    def test_archive_longer_than_any(self):
        self.write("state", stores.fresh().state)
        self.write("archive", bytes(1048577))
        self.expect(TROUBLE, "archive is too long: it has more than 1048576 bytes", "dump", "state", "archive")

    def test_words(self):
        self.expect(MISUSE, "a store, or a state and an archive, is wanted", "dump")
        self.expect(MISUSE, "a store, or a state and an archive, is wanted", "dump", "a", "b", "c")
        for value in "0", "12", "x", "1.5":
            self.expect(MISUSE, "--file takes a", "dump", "store", "--file", value)


class ForeignCase(DumpCase):
    def foreign(self, store, *clauses):
        """The state breaks these clauses, and no other is told."""
        self.write("store", store.bytes())
        done = self.expect(TROUBLE, "windrow-dump: the state is refused: 2 Foreign", "dump", "store")
        self.assertEqual(done.stderr.splitlines()[1:], ["  " + clause for clause in clauses])
        self.assertEqual(done.stdout, "")


class Clause(ForeignCase):
    """A state that breaks one clause alone, and that the message names it and no other."""

    def test_good_state_is_not_foreign(self):
        self.write("store", stores.with_file(4, (7101, 1), archive_length=12000).bytes())
        self.dump("store")

    def test_unit(self):
        for unit in 0, 248, 255:
            self.foreign(stores.fresh(unit=unit), "unit %d is not 1-247" % unit)

    def test_running_and_unlocked(self):
        store = stores.fresh()
        store.state[stores.UNLOCKED] = 1
        self.foreign(store, "running and unlocked are both on")

    def test_laid_out_groups(self):
        for groups in ((7228, 2),), ((7101, 0),), ((0, 1),), ((7101, 61), (3001, 1)):
            store = stores.fresh()
            store.put16(stores.LAYOUT_GROUPS + 64 * 4, *[number for group in groups for number in group])
            self.foreign(store, "file 5's laid-out groups are against the rule (a bad group, or a record over 250 bytes)")

    def test_drafted_groups(self):
        store = stores.fresh()
        store.put16(stores.DRAFT_GROUPS + 64 * 9, 1929, 1)
        self.foreign(store, "file 10's drafted groups are against the rule (a bad group, or a record over 250 bytes)")

    def test_trigger(self):
        for trigger in 1, 1800, 1929, 3001:
            store = stores.fresh()
            store.put16(stores.TRIGGERS + 2 * 9, trigger)
            self.foreign(store, "file 10's trigger %d is neither 0 nor a flag" % trigger)

    def test_slot(self):
        for point, transducer, kind in (1800, 0, 0), (1801, 3001, 0), (1801, 0, 4), (0, 7229, 0), (0, 0, 4):
            store = stores.fresh()
            store.put16(stores.SLOTS + 6 * 31, point, transducer, kind)
            self.foreign(store, "slot 32 is against the rule: point %d, type %d, transducer %d" % (point, kind, transducer))

    def test_layout_over_memory(self):
        store = stores.with_file(1, archive_length=11005)
        self.foreign(store, "the laid-out files do not fit the archive of 11005 bytes")

    def test_archive_shorter_than_the_alarm_file(self):
        self.foreign(stores.fresh(archive_length=10999), "the laid-out files do not fit the archive of 10999 bytes")

    def test_pointer(self):
        store = stores.with_file(4, (5101, 1), archive_length=12000)
        store.put16(stores.POINTERS, 5)
        self.foreign(store, "file 1's pointer 5 is over its n")
        store = stores.fresh()
        store.put16(stores.POINTERS + 2 * 10, 501)
        self.foreign(store, "file 11's pointer 501 is over its n")

    def test_requested_number(self):
        store = stores.with_file(4, (5101, 1), archive_length=12000)
        store.put16(stores.REQUESTED, 5)
        self.foreign(store, "file 1's requested number 5 is over its n")
        store = stores.fresh()
        store.put16(stores.REQUESTED + 2, 1)
        self.foreign(store, "file 2's requested number 1 is over its n")

    def test_several_at_once(self):
        store = stores.with_file(4, (5101, 1), archive_length=12000)
        store.state[stores.UNIT], store.state[stores.UNLOCKED] = 250, 1
        store.put16(stores.TRIGGERS, 7)
        store.put16(stores.POINTERS, 9)
        store.put16(stores.REQUESTED, 10)
        self.foreign(store, "unit 250 is not 1-247", "running and unlocked are both on",
                     "file 1's trigger 7 is neither 0 nor a flag", "file 1's pointer 9 is over its n",
                     "file 1's requested number 10 is over its n")

    def test_zeros(self):
        """What a refused fresh leaves, with an archive of its length. It is no state of format 1 either."""
        self.write("state", bytes(1604))
        self.write("archive", b"")
        done = self.expect(TROUBLE, ["unit 0 is not 1-247", "firmware 0 is neither 73 nor 74",
                                     "the laid-out files do not fit the archive of 0 bytes"], "dump", "state", "archive")
        self.assertNotIn("--format", done.stderr)
