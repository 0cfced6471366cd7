"""The gateway polled with mbpoll, one run of it a poll."""

import re
import subprocess

from common import ADDRESS, FUNCTION, VALUE, Checks, all_can, chances, numbers, older_firmware, refusals, requested
from gateway import DEADLINE, UNIT, Gateway, expected

# What mbpoll says, whatever it says around it.
WORDS = [("illegal function", FUNCTION), ("illegal data address", ADDRESS), ("illegal data value", VALUE),
         ("timed? ?-?out", ("no", "time-out")), ("invalid data|invalid number of values", ("no", "refused")),
         ("out of range", ("no", "not sent"))]


class Mbpoll:
    """An adapter. -0 has the number go out as it is; without it, mbpoll takes 1 off. No parity, for a pseudo-terminal."""

    time_out, refused, not_sent = ("no", "time-out"), ("no", "refused"), ("no", "not sent")
    other_functions = ["02", "04", "16"]
    most_coils = 125

    def __init__(self, link):
        self.link = link

    def run(self, options, values=(), unit=UNIT, hasty=False):
        """The answer of a run. mbpoll waits 10 s at most for a reply; hasty is for where none comes."""
        fixed = ["mbpoll", "-m", "rtu", "-1", "-a", str(unit), "-b", "19200", "-P", "none", "-o", "0.5" if hasty else "10"]
        done = subprocess.run(fixed + options + [self.link] + [str(value) for value in values], stdout=subprocess.PIPE,
                              stderr=subprocess.STDOUT, text=True, errors="replace", timeout=DEADLINE, check=False)
        shown = re.findall(r"^\[\d+\]:\s+(?:0x([0-9A-Fa-f]{4})|([01]))\s*$", done.stdout, re.M)
        if done.returncode == 0 and (shown or re.search(r"^Written \d+ reference", done.stdout, re.M)):
            return ("ok", bytes.fromhex("".join(word or "0" + bit for word, bit in shown)))
        for pattern, answer in WORDS:
            if not shown and re.search(rf"(fail|mbpoll:).*({pattern})", done.stdout, re.I):
                return answer
        return ("no", done.stdout)

    def read(self, address, quantity, **how):
        """03."""
        return self.run(["-0", "-t", "4:hex", "-r", str(address), "-c", str(quantity)], **how)

    def coils(self, address, quantity):
        """01."""
        return self.run(["-0", "-t", "0", "-r", str(address), "-c", str(quantity)])

    def write(self, address, value):
        """06."""
        return self.run(["-0", "-t", "4", "-r", str(address)], [value])

    def other(self, function):
        """02 and 04 read, and 16 is what two values are written with."""
        if function == "16":
            return self.run(["-0", "-t", "4", "-r", "3703"], [1, 1])
        kind = {"02": "1", "04": "3:hex"}[function]
        return self.run(["-0", "-t", kind, "-r", "3701"])


def own(checks, client, files):
    """What is mbpoll's own."""
    seen = [client.run(["-t", "4:hex", "-r", "3702"]), client.run(["-t", "4:hex", "-r", "3703"])]
    checks.same("without -0 the reference is one more", seen, [numbers(files[1].limit), numbers(files[1].pointer)])
    seen = [client.read(726, 126), client.read(726, 200), client.read(726, 0), client.coils(1801, 126), client.coils(1801, 0)]
    checks.same("over 125 or 0 registers or coils are not asked for", seen, [client.not_sent] * 5)
    checks.same("a broadcast can't be sent", client.run(["-0", "-r", "3703"], [2], unit=0), client.not_sent)
    seen = [client.write(requested(1), 3), client.run(["-0", "-t", "4:int", "-r", "3703"], [2]), client.read(3703, 1)]
    checks.same("32-bit values go out by 16, which the gateway has not", seen, [("ok", b""), FUNCTION, numbers(3)])
    seen = client.run(["-0", "-t", "4:float", "-B", "-r", "701", "-c", "15"])
    checks.same("-t 4:float counts values and not registers, so that the reply is refused", seen, client.refused)
    seen = [client.run(["-0", "-t", *words, "-B", "-c", "2"]) for words in (["4:float", "-r", "7101"], ["4:int", "-r", "5101"])]
    checks.same("-t 4:float and 4:int ask for two points a value, and refuse the reply", seen, [client.refused] * 2)


def main():
    """All tests of this client."""
    files, checks = expected(), Checks("mbpoll")
    with Gateway() as gateway:
        client = Mbpoll(gateway.link)
        all_can(checks, client, files)
        refusals(checks, client, files)
        chances(checks, client, files)
        own(checks, client, files)
    with Gateway(73) as gateway:
        older_firmware(checks, Mbpoll(gateway.link), expected(73))


main()
