"""windrow-gateway: settings that can't be read or taken. Each message names file and line."""
from support import TROUBLE, Case


class SettingsCase(Case):
    def refused(self, content, *told):
        """The settings are refused, and no store is begun."""
        self.write("s", content)
        self.expect(TROUBLE, told, "gateway", "s", "--store", "store", "--scans", "0")
        self.assertLessEqual(set(self.names()), {"s", "store.lock"})


class SettingsFile(SettingsCase):
    def test_missing(self):
        self.expect(TROUBLE, "the settings nowhere can't be read: No such file", "gateway", "nowhere")

    def test_folder(self):
        self.expect(TROUBLE, "the settings . can't be read: Is a directory", "gateway", ".")

    def test_empty(self):
        self.refused("", "s has no line `unit`: is it a settings file?")

    def test_only_comments(self):
        self.refused("# unit 17\n\n", "s has no line `unit`")

    def test_truncated_within_a_group(self):
        self.refused("unit 17\nfile 1 48 7101:2 71", "s:2: a group is FIRST:COUNT: 71")

    def test_truncated_within_a_setting(self):
        self.refused("unit 17\ntrig", "s:2: there is no such setting: trig")

    def test_line_of_any_length(self):
        self.refused("unit 17\n# " + "x" * 5000 + "\n", "s:2: this line is too long")

    def test_endless_zeros(self):
        self.expect(TROUBLE, "/dev/zero:1: this line has bytes that are no text", "gateway", "/dev/zero")

    def test_foreign_binary(self):
        self.refused(b"\x7fELF\x02\x01\x01\0\0\0\n", "s:1: this line has bytes that are no text")

    def test_zero_byte_behind_a_good_setting(self):
        self.refused(b"unit 17\0\n", "s:1: this line has bytes that are no text")

    def test_foreign_text(self):
        self.refused("<html>\n", "s:1: there is no such setting: <html>")

    def test_256_changes_are_taken_and_257_are_not(self):
        self.write("s", "unit 17\n" + "trigger 1 1801\n" * 256)
        self.expect(0, "", "gateway", "s", "--scans", "0")
        self.refused("unit 17\n" + "trigger 1 1801\n" * 257, "s:258: there are too many triggers and alarms")

    def test_windows_line_ends_are_taken(self):
        self.write("s", "unit 17\r\nfile 1 4 7101:1\r\n")
        self.expect(0, "", "gateway", "s", "--scans", "0")


BAD_LINES = {
    "unknown_setting": ("colour red", "there is no such setting: colour"),
    "no_value": ("archive", "too few or too many words for this setting: archive"),
    "two_values": ("archive 11000 11000", "too few or too many words for this setting: archive"),
    "set_twice": ("unit 18", "this is set twice: unit"),
    "no_number": ("archive many", "this is no number: many"),
    "negative_number": ("archive -11000", "this is no number: -11000"),
    "number_with_a_tail": ("archive 11000b", "this is no number: 11000b"),
    "endless_number": ("archive " + "9" * 30, "this is no number: 999"),
    "number_past_32_bits": ("archive 4294967296", "this number is not 0 to 4294967295: 4294967296"),
    "firmware_without_number": ("firmware", "too few or too many words for this setting: firmware"),
    "two_firmwares": ("firmware 73 74", "too few or too many words for this setting: firmware"),
    "firmware_twice": ("firmware 74\nfirmware 74", "this is set twice: firmware"),
    "firmware_with_a_dot": ("firmware .74", "this is no number: .74"),
    "firmware_past_32_bits": ("firmware 4294967369", "this number is not 0 to 4294967295: 4294967369"),
    "date_order": ("dates year-first", "dates are month-first or day-first: year-first"),
    "file_0": ("file 0 4", "this number is not 1 to 10: 0"),
    "file_11": ("file 11 4", "this number is not 1 to 10: 11"),
    "file_without_records": ("file 1", "`file` needs a file and the most records"),
    "file_of_65536_records": ("file 1 65536", "this number is not 0 to 65535: 65536"),
    "file_twice": ("file 1 4\nfile 1 4", "this file is defined twice: 1"),
    "group_without_count": ("file 1 4 7101", "a group is FIRST:COUNT: 7101"),
    "group_past_16_bits": ("file 1 4 7101:65536", "this number is not 0 to 65535: 65536"),
    "group_of_words": ("file 1 4 a:b", "this is no number: a"),
    "seventeen_groups": ("file 1 4" + " 0:0" * 17, "a file has 16 groups at most"),
    "more_than_40_words": ("file 1 4" + " 0:0" * 40, "this line has too many words"),
    "trigger_without_point": ("trigger 1", "too few or too many words for this setting: trigger"),
    "alarm_without_transducer": ("alarm 1 1805 0", "too few or too many words for this setting: alarm"),
    "at_without_change": ("at 2026-06-07T00:00:00", "`at` needs a date and a trigger or an alarm"),
    "at_with_another_setting": ("at 2026-06-07T00:00:00 unit 17", "`at` needs a date and a trigger or an alarm"),
    "at_with_no_date": ("at soon trigger 1 1801", "there is no such date; one is written as 2026-05-01T06:00:00: soon"),
    "at_before_an_earlier_at": ("at 2026-06-07T00:00:00 trigger 1 1801\nat 2026-06-06T23:59:59 trigger 1 0",
                                "this date is before that of an earlier `at`"),
    "begin_on_30_february": ("begin 2028-02-30T00:00:00", "there is no such date"),
    "begin_on_a_day_before_the_first": ("begin 2026-05--1T06:00:00", "there is no such date"),
    "begin_with_a_sign": ("begin 2026-+5-01T06:00:00", "there is no such date"),
    "begin_before_2000": ("begin 1999-12-31T23:59:59", "there is no such date"),
    "begin_at_24_hours": ("begin 2026-05-01T24:00:00", "there is no such date"),
    "scan_of_no_seconds": ("scan 0", "this number is not 1 to 1800: 0"),
    "baud_of_no_line": ("baud 300", "a line can't have this baud: 300"),
    "parity": ("parity mark", "parity is even, odd or none: mark"),
    "gap_of_nothing": ("gap 0", "this number is not 1 to 1000: 0"),
}

REFUSED_BY_THE_LIBRARY = {
    "trigger_of_file_0": ("trigger 0 1801", "this trigger is refused: 5 File"),
    "trigger_of_file_11": ("trigger 11 1801", "this trigger is refused: 5 File"),
    "trigger_is_no_flag": ("trigger 1 3001", "this trigger is refused: 9 Trigger"),
    "trigger_past_the_flags": ("trigger 1 1929", "this trigger is refused: 9 Trigger"),
    "trigger_that_would_be_a_flag_in_16_bits": ("trigger 1 %d" % (65536 + 1801), "this trigger is refused: 9 Trigger"),
    "alarm_slot_33": ("alarm 33 1805 0 7101", "this alarm is refused: 12 Alarm"),
    "alarm_type_4": ("alarm 1 1805 4 7101", "this alarm is refused: 12 Alarm"),
    "alarm_of_no_flag": ("alarm 1 7101 0 7101", "this alarm is refused: 12 Alarm"),
    "alarm_transducer_is_no_float": ("alarm 1 1805 0 3001", "this alarm is refused: 12 Alarm"),
    "group_past_its_row": ("file 1 4 7101:1 0:0 7228:2",
                           "group 3 of file 1 is refused: it is not within one row of the live table (7 Group)"),
    "group_without_points": ("file 1 4 7101:0", "group 1 of file 1 is refused"),
    "group_of_no_row": ("file 1 4 1:1", "group 1 of file 1 is refused"),
    "record_over_250_bytes": ("file 1 4 7101:61 3001:1", "this file is refused: 8 Long"),
    "bad_change_at_a_date_is_told_at_once": ("at 2099-01-01T00:00:00 trigger 1 3001", "this trigger is refused: 9 Trigger"),
}


class SettingsLine(SettingsCase):
    """Each kind of bad line; it is the last one, under a comment and a unit."""


def add(name, content, told):
    def test(self):
        self.refused("# a comment\nunit 17\n" + content + "\n", "s:%d: %s" % (content.count("\n") + 3, told))

    setattr(SettingsLine, "test_" + name, test)


for line, (text, message) in {**BAD_LINES, **REFUSED_BY_THE_LIBRARY}.items():
    add(line, text, message)


class Site(SettingsCase):
    """What the library refuses of the whole."""

    MEMORY = "archive of %d bytes is refused: it is not of 11,000 to 1,048,576, as firmware 74 needs it (1 Memory)"

    def test_unit_0(self):
        self.refused("unit 0\n", "unit 0 is refused: it is not 1-247 (2 Foreign)")

    def test_unit_248(self):
        self.refused("unit 248\n", "unit 248 is refused: it is not 1-247 (2 Foreign)")

    def test_archive_of_10999_bytes(self):
        self.refused("unit 17\narchive 10999\n", self.MEMORY % 10999)

    def test_archive_over_a_mebibyte(self):
        self.refused("unit 17\narchive 1048577\n", self.MEMORY % 1048577)

    def test_no_room(self):
        self.refused("unit 17\narchive 11005\nfile 1 1\n", "archive of 11005 bytes: with the alarm file they need 11006 (11 Room)")

    def test_just_room(self):
        self.write("s", "unit 17\narchive 11006\nfile 1 1\n")
        self.expect(0, "", "gateway", "s", "--scans", "0")
