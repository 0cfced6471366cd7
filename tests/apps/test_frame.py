"""windrow-frame: requests, replies, exceptions and what is none of them."""
from frames import exception, frame, reply, request
from support import FINE, MISUSE, TROUBLE, Case

EXCEPTIONS = (1, "illegal function"), (2, "illegal data address"), (3, "illegal data value"), (4, "unknown exception")
GARBLED = "as a record of file 1: 14 Garbled: "
NO_DATE = "is no date and time: damaged, or filed before version 1.1?"
SETTINGS = "unit 17\nfile 1 4 5101:1 4001:1\n"


class FrameCase(Case):
    def told(self, status, data, *lines, words=()):
        text = data if isinstance(data, str) else data.hex()
        done = self.expect(status, "", "frame", text, *words)
        self.assertEqual(done.stderr, "")
        for line in lines:
            self.assertIn(line, done.stdout.splitlines())
        return done.stdout


class Requests(FrameCase):
    def test_record_by_its_number(self):
        self.told(FINE, "11 03 02D1 0001 D71B", "8 bytes", "unit 17", "CRC right", "function 03, read",
                  "as a request: reads file 1's record 1")

    def test_record_with_the_requested_number(self):
        self.told(FINE, request(17, 3, 711, 9),
                  "as a request: reads file 11's record with the requested number; the quantity, 9, is not looked at")

    def test_stamps(self):
        self.told(FINE, request(17, 3, 753, 1), 
                  "as a request: reads the stamp of file 3's record with the requested number; the quantity, 1, is not looked at")
        self.told(FINE, request(17, 3, 780, 65535), "as a request: reads the stamp of file 10's record 65535")

    def test_registers(self):
        self.told(FINE, request(17, 3, 3701, 33), "as a request: reads 33 registers from 3701 on, which is file 1's n")
        self.told(FINE, request(17, 3, 3705, 1), "as a request: reads 1 registers from 3705 on, which is file 2's pointer")
        self.told(FINE, request(17, 3, 3733, 1),
                  "as a request: reads 1 registers from 3733 on, which is file 11's requested number")

    def test_write(self):
        self.told(FINE, request(17, 6, 3733, 5), "function 06, write one register",
                  "as a request, or as the reply that echoes it: sets file 11's requested number to 5")

    def test_live_points(self):
        for function, address, quantity, kind in ((1, 1801, 128, "flag"), (1, 1928, 1, "flag"), (3, 3001, 64, "16-bit"),
                                                  (3, 4032, 1, "text"), (3, 5101, 2, "32-bit"), (3, 7228, 1, "float"),
                                                  (3, 14001, 15, "text")):
            self.told(FINE, request(17, function, address, quantity),
                      "as a request: reads %d live points from %d on, of kind %s" % (quantity, address, kind))

    def test_flags_by_function_01(self):
        """The request of gateway.c's story, nine flags from 1803 on."""
        self.told(FINE, "11 01 070B 0009 8E2A", "8 bytes", "unit 17", "CRC right", "function 01, read flags",
                  "as a request: reads 9 live points from 1803 on, of kind flag")

    def test_live_points_by_the_other_function(self):
        self.told(FINE, request(17, 3, 1801, 1),
                  "as a request: reads from address 1801, a live point of kind flag, which function 01 reads")
        self.told(FINE, request(17, 1, 3001, 1),
                  "as a request: reads from address 3001, a live point of kind 16-bit, which function 03 reads")

    def test_addresses_of_no_gateway(self):
        for address in 700, 712, 720, 732, 750, 762, 770, 782, 3700, 3734, 1800, 1929, 3000, 3065, 14017, 0, 65535:
            self.told(FINE, request(17, 3, address, 1),
                      "as a request: reads from address %d, which is none of a gateway's" % address)
            self.told(FINE, request(17, 6, address, 1), "as a request: writes 1 to address %d, which can't be written" % address)
        self.told(FINE, request(17, 6, 3001, 1), "as a request: writes 1 to address 3001, which can't be written")

    def test_flags_elsewhere(self):
        for address in 701, 721, 3701, 1800, 1929, 0, 65535:
            self.told(FINE, request(17, 1, address, 1), "as a request: reads flags from address %d on, which is none" % address)

    def test_units(self):
        self.told(FINE, request(0, 6, 3703, 1), "unit 0: to every gateway; none answers",
                  "as a request: sets file 1's requested number to 1")
        self.told(FINE, request(248, 3, 721, 1), "unit 248: not 1-247, so no gateway's")

    def test_other_function(self):
        self.told(FINE, request(17, 4, 721, 1), "function 04", "a gateway answers it with exception 1, illegal function")

    def test_of_another_length(self):
        self.told(TROUBLE, frame(b"\x11\x06\x0e\x77\0\1\0"), "CRC right",
                  "no request and no reply: both have 8 bytes, and this frame 9")


class Answers(FrameCase):
    """What a gateway answers to a request, worked out by hand; without settings only what all gateways answer alike."""

    ANSWERS = ((4, 721, 1, "exception 1, illegal function"), (3, 712, 1, "exception 2, illegal data address"),
               (6, 3701, 1, "exception 2, illegal data address"), (3, 3701, 0, "exception 3, illegal data value"),
               (3, 3701, 34, "exception 3, illegal data value"), (3, 3733, 2, "exception 2, illegal data address"),
               (3, 3701, 33, "71 bytes"), (1, 1801, 128, "21 bytes"), (1, 1802, 9, "7 bytes"), (3, 7101, 62, "253 bytes"),
               (3, 3001, 64, "133 bytes"), (1, 1801, 129, "exception 2, illegal data address"),
               (1, 1801, 2001, "exception 3, illegal data value"), (1, 3001, 1, "exception 2, illegal data address"),
               (1, 701, 1, "exception 2, illegal data address"), (3, 1801, 1, "exception 2, illegal data address"),
               (3, 4001, 32, "exception 3, illegal data value"), (3, 14001, 16, "exception 3, illegal data value"),
               (3, 7101, 0, "exception 3, illegal data value"), (6, 3001, 1, "exception 2, illegal data address"))

    def test_of_any_gateway(self):
        for function, address, quantity, answer in self.ANSWERS:
            self.told(FINE, request(9, function, address, quantity), "a gateway answers it with " + answer)

    def test_records_depend_on_the_files(self):
        for function, address in (3, 721), (3, 701), (3, 771), (3, 751), (6, 3703):
            self.assertNotIn("a gateway answers", self.told(FINE, request(17, function, address, 1)))

    def test_of_settings(self):
        self.write("s", SETTINGS)
        for function, address, quantity, answer in (*self.ANSWERS, (3, 721, 4, "23 bytes"), (3, 771, 4, "11 bytes"),
                                                    (3, 721, 5, "exception 3, illegal data value"), (6, 3703, 4, "8 bytes"),
                                                    (3, 701, 1, "exception 3, illegal data value")):
            self.told(FINE, request(17, function, address, quantity), "this gateway answers it with " + answer,
                      words=("--settings", "s"))

    def test_of_another_unit_than_the_settings(self):
        self.write("s", SETTINGS)
        self.told(FINE, request(18, 3, 3701, 1), "this gateway does not answer it", words=("--settings", "s"))

    def test_of_every_unit(self):
        self.write("s", SETTINGS)
        self.told(FINE, request(0, 6, 3703, 4), "this gateway does not answer it, but does it", words=("--settings", "s"))
        self.told(FINE, request(0, 6, 3703, 5), "this gateway does not answer it", words=("--settings", "s"))
        self.told(FINE, request(0, 1, 1801, 1), "this gateway does not answer it", words=("--settings", "s"))


class Replies(FrameCase):
    def test_registers(self):
        """The published reply of Simply Modbus, function 03."""
        self.told(FINE, "11 03 06 AE41 5652 4340 49AD", "as a reply with registers: 44609 22098 17216")

    def test_read(self):
        self.told(FINE, reply(17, bytes(66)), "71 bytes", "as a reply: byte count 66, and as many bytes of data")

    def test_flags(self):
        """The published reply of Simply Modbus, function 01."""
        out = self.told(FINE, "11 01 05 CD6BB20E1B 45E6", "function 01, read flags",
                        "as a reply: byte count 5, and as many bytes of data",
                        "as a reply with flags, the first one first: 10110011 11010110 01001101 01110000 11011000")
        self.assertNotIn("registers", out)

    def test_damaged_flags_are_not_shown(self):
        self.assertNotIn("with flags", self.told(TROUBLE, "11 01 05 CD6BB20E1A 45E6"))
        self.assertNotIn("with flags", self.told(FINE, reply(17, b"", 1)))

    def test_of_8_bytes_may_be_both(self):
        for function in 3, 1:
            out = self.told(FINE, reply(17, b"\0\0\1", function), "as a reply: byte count 3, and as many bytes of data")
            self.assertIn("as a request: ", out)
        self.assertIn("as a reply with flags, the first one first: 00000000 00000000 10000000\n", out)

    def test_wrong_byte_count(self):
        for function in b"\x03", b"\x01":
            self.told(TROUBLE, frame(b"\x11" + function + b"\x0a\0\0\0\0"), "CRC right",
                      "no request: one has 8 bytes; no reply: byte count 10 wants 15 bytes in all, and there are 9")

    def test_exceptions(self):
        for code, word in EXCEPTIONS:
            self.told(FINE, exception(17, code), "function 83, an exception",
                      "as a reply: exception %d, %s, to function 03" % (code, word))
        self.told(FINE, exception(17, 2, 6), "as a reply: exception 2, illegal data address, to function 06")
        self.told(FINE, exception(17, 1, 1), "as a reply: exception 1, illegal function, to function 01")

    def test_exception_of_another_length(self):
        self.told(TROUBLE, frame(b"\x11\x83\x02\x00"), "no exception: one has 5 bytes, and this frame 6")


class Damaged(FrameCase):
    def test_crc(self):
        self.told(TROUBLE, "11 03 02D1 0001 D71C", "CRC wrong: the bytes before it make D7 1B, and D7 1C is there",
                  "as a request: reads file 1's record 1")

    def test_swapped_crc(self):
        self.told(TROUBLE, "11 03 02D1 0001 1BD7",
                  "CRC wrong: the bytes before it make D7 1B, and 1B D7 is there:"
                  " high byte first, where the low byte comes first")

    def test_too_short(self):
        for text in "", "11", "11 03", "11 03 02":
            self.told(TROUBLE, text, "%d bytes: no frame, since it has under 4 or over 256; a gateway does not answer it"
                      % len(bytes.fromhex(text)))

    def test_of_4_bytes(self):
        self.told(TROUBLE, frame(b"\x11\x03"), "4 bytes", "CRC right")

    def test_too_long(self):
        self.told(TROUBLE, bytes(257), "257 bytes: no frame, since it has under 4 or over 256; a gateway does not answer it")
        self.told(FINE, frame(bytes(254)), "256 bytes", "CRC right")

    def test_far_too_long(self):
        self.expect(MISUSE, "a frame has 256 bytes at most", "frame", bytes(1025).hex())


class Hex(FrameCase):
    def test_any_spacing(self):
        wanted = self.told(FINE, "110302D10001D71B")
        for text in ("11:03:02:D1:00:01:D7:1B", "0x11 0x03 0X02,0xD1,0x00 0x01 0xd7 0x1b", "11,03,02,d1,00,01,d7,1b",
                     " 11\t03 02D1\n0001 D71B "):
            self.assertEqual(self.told(FINE, text), wanted)
        self.assertEqual(self.expect(FINE, "", "frame", *"11 03 02 D1 00 01 D7 1B".split()).stdout, wanted)

    def test_odd_digits(self):
        self.expect(MISUSE, "`1 ` is no byte in hexadecimal, which has two digits", "frame", "11 03 02D1 0001 D71 B")
        self.expect(MISUSE, "`1` is no byte in hexadecimal", "frame", "110302D10001D71B1")

    def test_no_hex(self):
        for text, told in ("hello", "he"), ("-1", "-1"), ("1 1", "1 "):
            self.expect(MISUSE, "`%s` is no byte in hexadecimal" % told, "frame", text)

    def test_no_frame(self):
        self.expect(MISUSE, "a frame in hexadecimal is wanted", "frame")


class Records(FrameCase):
    RECORD = bytes([8, 29, 7, 11, 36, 52]) + b"\xff\xff\xff\xfb" + b'a"b,\x80\0\0\0'

    def setUp(self):
        super().setUp()
        self.write("s", SETTINGS)

    def record(self, status, data, *lines, file="1"):
        return self.told(status, data, *lines, words=("--settings", "s", "--file", file))

    def test_values(self):
        self.record(FINE, reply(17, self.RECORD), "as a record of file 1, 18 bytes:", "stamp,5101,4001",
                    '2007-08-29T11:36:52,-5,"a""b,\\x80"')

    def test_day_first(self):
        self.write("s", SETTINGS + "dates day-first\n")
        self.record(FINE, reply(17, bytes([29, 8]) + self.RECORD[2:]), '2007-08-29T11:36:52,-5,"a""b,\\x80"')

    def test_empty(self):
        self.record(FINE, reply(17, bytes(18)), "as a record of file 1: 15 Empty: nothing has been captured there")

    def test_other_size(self):
        self.record(TROUBLE, reply(17, self.RECORD[:14]), GARBLED + "it has 14 bytes, and a record of this definition has 18")

    def test_stamp_alone(self):
        """A reply to 751 or 771 has no groups."""
        self.record(FINE, reply(17, self.RECORD[:6]), "as a stamp of file 1, 6 bytes:", "stamp", "2007-08-29T11:36:52")
        self.record(FINE, reply(17, self.RECORD[:6]), "as a stamp of file 11, 6 bytes:", "2007-08-29T11:36:52", file="11")
        self.record(FINE, reply(17, bytes(6)), "as a stamp of file 1: 15 Empty: nothing has been captured there")
        self.record(TROUBLE, reply(17, bytes([13]) + self.RECORD[1:6]),
                    "as a stamp of file 1: 14 Garbled: its stamp 0D 1D 07 0B 24 34 " + NO_DATE)
        self.record(FINE, reply(17, self.RECORD[:6]), "as a record of file 2, 6 bytes:", "stamp", "2007-08-29T11:36:52", file="2")

    def test_impossible_stamp(self):
        for stamp in "0D 1D 07 0B 24 34", "02 1E 07 0B 24 34", "02 1D 07 0B 24 34", "04 1F 07 0B 24 34", "08 1D 07 18 24 34":
            self.record(TROUBLE, reply(17, bytes.fromhex(stamp) + self.RECORD[6:]),
                        GARBLED + "its stamp %s " % stamp + NO_DATE)

    def test_stamp_in_the_other_order(self):
        other = "is a date in the other order only: the wrong date order, or damaged?"
        self.record(TROUBLE, reply(17, bytes([29, 8]) + self.RECORD[2:]), GARBLED + "its stamp 1D 08 07 0B 24 34 " + other)
        self.write("s", SETTINGS + "dates day-first\n")
        self.record(TROUBLE, reply(17, self.RECORD), GARBLED + "its stamp 08 1D 07 0B 24 34 " + other)
        self.record(TROUBLE, reply(17, bytes([30, 2]) + self.RECORD[2:]), GARBLED + "its stamp 1E 02 07 0B 24 34 " + NO_DATE)

    def test_29_february(self):
        """Of 2008, and of 2000, whose year is 0."""
        for year in 8, 0:
            self.record(FINE, reply(17, bytes([2, 29, year]) + self.RECORD[3:]), '20%02d-02-29T11:36:52,-5,"a""b,\\x80"' % year)

    def test_unit_of_no_gateway(self):
        self.record(TROUBLE, reply(250, self.RECORD), GARBLED + "its unit 250 is not 1-247")

    def test_alarm(self):
        data = bytes([8, 29, 7, 11, 36, 52, 0x07, 0x0D, 2, 1, 0xC2, 0x48, 0, 0]) + b"\0\0\0\7\xff\xff\xff\xff"
        self.record(FINE, reply(17, data), "as a record of file 11, 22 bytes:", "stamp,point,type,bit,transducer,passes,litres",
                    "2007-08-29T11:36:52,1805,2,1,-50,7,-1", file="11")

    def test_request_is_no_record(self):
        self.record(TROUBLE, request(17, 3, 721, 1), GARBLED + "it is no reply to 03 with a right CRC")

    def test_groups_against_the_rule(self):
        self.write("s", SETTINGS.replace("5101:1", "5101:0"))
        out = self.record(TROUBLE, reply(17, self.RECORD))
        self.assertIn("as a record of file 1: 7 Group", out)

    def test_file_needs_settings(self):
        self.expect(MISUSE, "--file needs --settings", "frame", "11", "--file", "1")

    def test_file_out_of_range(self):
        self.expect(MISUSE, "--file takes a number from 1 to 11, not `12`", "frame", "11", "--settings", "s", "--file", "12")

    def test_bad_settings(self):
        self.expect(TROUBLE, "the settings nowhere can't be read", "frame", "11", "--settings", "nowhere", "--file", "1")


class LivePoints(FrameCase):
    """A reply with live points, from the point on that the user names."""

    NO_REPLY = "as live points from %d on: it is no reply to %s with such points, of kind %s, and a right CRC"

    def live(self, status, data, point, *lines):
        return self.told(status, data, *lines, words=("--live", str(point)))

    def rows(self, data, point):
        """The lines behind the heading."""
        out = self.live(FINE, data, point, "point,kind,value").splitlines()
        return out[out.index("point,kind,value") + 1:]

    def test_flags(self):
        """The published reply of Simply Modbus, function 01: of its 37 flags it tells 40."""
        rows = self.rows("11 01 05 CD6BB20E1B 45E6", 1801)
        self.assertEqual(rows, ["%d,flag,%s" % (1801 + i, bit) for i, bit in enumerate("1011001111010110010011010111000011011000")])
        self.live(FINE, "11 01 05 CD6BB20E1B 45E6", 1801, "as live points from 1801 on, 5 bytes:")

    def test_flags_up_to_the_last(self):
        self.assertEqual(self.rows(reply(17, b"\x05", 1), 1926), ["1926,flag,1", "1927,flag,0", "1928,flag,1"])

    def test_kinds(self):
        self.assertEqual(self.rows(reply(17, b"\xff\xfb\0\x07"), 3001), ["3001,16-bit,-5", "3002,16-bit,7"])
        self.assertEqual(self.rows(reply(17, b"\xff\xff\xff\xfb"), 5164), ["5164,32-bit,-5"])
        self.assertEqual(self.rows(reply(17, b"\x42\x5e\0\0\x7f\xc0\0\1"), 7101), ["7101,float,55.5", "7102,float,nan"])
        self.assertEqual(self.rows(reply(17, b'a"b,\x80\0\0\0'), 4032), ['4032,text,"a""b,\\x80"'])
        self.assertEqual(self.rows(reply(17, b"0123456789abcdef" + b"too hot".ljust(16, b"\0")), 14015),
                         ['14015,text,"0123456789abcdef"', '14016,text,"too hot"'])

    def test_no_such_points(self):
        """Past the row, of another size, by another function, damaged, an exception, a request, nothing."""
        for data, point in ((reply(17, bytes(4)), 3064), (reply(17, bytes(3)), 3001), (reply(17, bytes(6)), 7101),
                            (reply(17, b"\5\1", 1), 1921), (reply(17, bytes(2)), 1801), (reply(17, bytes(2), 1), 3001),
                            (reply(17, b""), 3001), (exception(17, 2, 1), 1801), (request(17, 1, 1801, 8), 1801)):
            words = ("01", "flag") if point < 3000 else ("03", "float" if point > 7000 else "16-bit")
            self.live(TROUBLE, data, point, self.NO_REPLY % (point, *words))

    def test_damaged(self):
        for text in "11 01 05 CD6BB20E1A 45E6", "11":
            self.live(TROUBLE, text, 1801, self.NO_REPLY % (1801, "01", "flag"))

    def test_is_not_answered(self):
        self.assertNotIn("a gateway answers", self.live(TROUBLE, request(17, 3, 3001, 1), 3001))

    def test_no_point(self):
        for text, told in (("1800", "a point of the live table, not `1800`"), ("3065", "a point of the live table, not `3065`"),
                           ("0", "a number from 1 to 65535"), ("x", "a number from 1 to 65535"), ("3001.5", "a whole number")):
            self.expect(MISUSE, "--live takes " + told, "frame", "11", "--live", text)

    def test_record_and_live_points(self):
        self.write("s", SETTINGS)
        self.expect(MISUSE, "a reply has a record or live points, not both", "frame", "11", "--live", "3001", "--settings", "s",
                    "--file", "1")
