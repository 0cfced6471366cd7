"""What holds for the command line of every program."""
import stores
from lines import PlayedGateway, answers
from support import FINE, MISUSE, TROUBLE, Case

PROGRAMS = "gateway", "read", "dump", "frame"
# an option of each with a value
VALUED = {"gateway": "--store", "read": "--wait", "dump": "--file", "frame": "--settings"}


class Options(Case):
    def test_help_goes_to_standard_output(self):
        for name in PROGRAMS:
            for words in ("--help",), ("some", "words", "--help"):
                done = self.expect(FINE, "", "%s" % name, *words)
                self.assertTrue(done.stdout.startswith("windrow-" + name), done.stdout)
                self.assertIn("--help", done.stdout)

    def test_help_names_every_setting(self):
        for name in "gateway", "read", "frame":
            out = self.expect(FINE, "", name, "--help").stdout
            for setting in "unit firmware dates archive file trigger alarm at begin scan baud parity gap".split():
                self.assertIn("\n  %s " % setting, out)

    def test_unknown_option(self):
        for name in PROGRAMS:
            told = ["windrow-%s: there is no option --bogus" % name, "`windrow-%s --help` says how it is used" % name]
            self.expect(MISUSE, told, name, "--bogus")

    def test_missing_value(self):
        for name, option in VALUED.items():
            self.expect(MISUSE, "%s needs a value" % option, name, "word", option)
            self.expect(MISUSE, "%s needs a value" % option, name, option, "--help")

    def test_no_words(self):
        for name in PROGRAMS:
            self.expect(MISUSE, "wanted", name)

    def test_gateway_takes_one_settings_file(self):
        self.expect(MISUSE, "exactly one settings file is wanted", "gateway", "a", "b")

    def test_firmware(self):
        """Any whole number of 32 bits is one to be judged; what is none is told before a file is looked at."""
        for name, *words in "gateway s".split(), "frame 11".split(), "frame 11 --settings s".split(), "compare s t 1=c".split():
            for value in "", "x", "-1", "73.5", "4294967296", "nan":
                self.expect(MISUSE, "--firmware takes a", name, *words, "--firmware", value)
            self.expect(MISUSE, "--firmware needs a value", name, *words, "--firmware")
        for name in "read", "dump":
            self.expect(MISUSE, "there is no option --firmware", name, "s", "--firmware", "73")

    def test_gateway_numbers(self):
        for option, value in (("--speed", "0"), ("--speed", "fast"), ("--speed", "nan"), ("--speed", "inf"), ("--scans", "-1"),
                              ("--scans", "1.5"), ("--scans", "4294967295"), ("--scans", "")):
            self.expect(MISUSE, option + " takes a", "gateway", "s", option, value)


class FullOutput(Case):
    """Standard output that takes nothing."""

    def full(self, name, *words):
        with open("/dev/full", "w") as full:
            self.expect(TROUBLE, "windrow-%s: standard output c" % name, name, *words, stdout=full)

    def test_help(self):
        for name in PROGRAMS:
            self.full(name, "--help")

    def test_gateway(self):
        self.write("s", "unit 17\n")
        self.full("gateway", "s", "--scans", "1")

    def test_read(self):
        self.write("s", "unit 17\nfile 1 4\n")
        gateway = PlayedGateway(answers({1: (4, 1, 0)}, {(1, k): bytes([5, 1, 26, 6, k, 0]) for k in (1, 2, 3, 4)}))
        self.addCleanup(gateway.close)
        self.full("read", gateway.device, "s")
        self.full("read", gateway.device, "s", "1")

    def test_dump(self):
        self.write("store", stores.fresh().bytes())
        self.full("dump", "store")
        self.full("dump", "store", "--file", "11")

    def test_frame(self):
        self.full("frame", "11 03 02D1 0001 D71B")
