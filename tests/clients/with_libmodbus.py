"""The gateway polled with libmodbus, by the program with_libmodbus that run compiles: its path is the argument."""

import subprocess
import sys

from common import (DONE, FUNCTION, VALUE, Checks, all_can, chances, numbers, older_firmware, refusals, requested, unlike_quantity,
                    unlike_registers)
from gateway import UNIT, Gateway, expected


class Libmodbus:
    """An adapter: a line to with_libmodbus a poll."""

    time_out, refused, not_sent = ("no", "time-out"), ("no", "refused"), ("no", "not sent")
    other_functions = ["02", "04", "16"]
    most_coils = 2000

    def __init__(self, program, link):
        self.process = subprocess.Popen([program, link], stdin=subprocess.PIPE, stdout=subprocess.PIPE, text=True, bufsize=1)

    def poll(self, function, address, quantity, unit=UNIT, hasty=False):
        """10 s for a reply; hasty is for where none comes."""
        self.process.stdin.write(f"{function} {unit} {500 if hasty else 10000} {address} {quantity}\n")
        verdict, _, rest = self.process.stdout.readline().rstrip("\n").partition(" ")
        return ("ok", bytes.fromhex(rest)) if verdict == "ok" else ("no", rest)

    def read(self, address, quantity, **how):
        """03."""
        return self.poll("03", address, quantity, **how)

    def coils(self, address, quantity):
        """01."""
        return self.poll("01", address, quantity)

    def write(self, address, value, **how):
        """06."""
        return self.poll("06", address, value, **how)

    def other(self, function):
        """A function that a gateway has not."""
        return self.poll(function, 3703, 1)

    def close(self):
        """Its input's end is the program's."""
        self.process.stdin.close()
        return self.process.wait(10)


def raw(checks, client, files):
    """With raw requests libmodbus reads all that the gateway has, since it goes by the reply's own byte count."""
    polls = unlike_quantity(files) + [(723, k, files[3].records[k]) for k in (1, 2, 16)]
    polls += [(726, 200, files[6].records[200]), (731, 500, files[11].records[500]), (776, 200, files[6].records[200][:6])]
    seen = [client.poll("raw", address, quantity) for address, quantity, _ in polls]
    wanted = [("ok", record) for *_, record in polls]
    checks.same("raw requests read 720+f and 770+f, odd sizes and numbers over 125 too", seen, wanted)
    seen = [client.write(requested(3), 2), client.poll("raw", 703, 1), client.poll("raw", 726, 201)]
    checks.same("raw requests read an odd size on 700+f, and exceptions", seen, [DONE, ("ok", files[3].records[2]), VALUE])
    seen = [client.poll("raw", address, quantity) for address, quantity, _ in unlike_registers()]
    checks.same("raw requests read live 32-bit points, floats and texts", seen, [("ok", data) for *_, data in unlike_registers()])


def own(checks, client):
    """What is libmodbus's own."""
    checks.same("over 125 registers are not asked for", [client.read(726, 126), client.read(726, 200)], [client.not_sent] * 2)
    checks.same("over 2,000 coils are not asked for", client.coils(1801, 2001), client.not_sent)
    seen = [client.read(726, 0), client.read(3701, 0), client.coils(1801, 0)]
    checks.same("0 registers or coils are an illegal data value", seen, [VALUE] * 3)
    seen = [client.write(requested(1), 4), client.poll("16", requested(1), 1), client.read(requested(1), 1)]
    checks.same("16 of one register is an illegal function, and sets nothing", seen, [DONE, FUNCTION, numbers(4)])
    seen = [client.write(requested(1), 3, unit=0, hasty=True), client.read(requested(1), 1)]
    checks.same("a broadcast 06 is done, though the client waits in vain", seen, [client.time_out, numbers(3)])


def main():
    """All tests of this client."""
    files, checks = expected(), Checks("libmodbus")
    with Gateway() as gateway:
        client = Libmodbus(sys.argv[1], gateway.link)
        all_can(checks, client, files)
        refusals(checks, client, files)
        chances(checks, client, files)
        raw(checks, client, files)
        own(checks, client)
        checks.same("the program ends well", client.close(), 0)
    files = expected(73)
    with Gateway(73) as gateway:
        client = Libmodbus(sys.argv[1], gateway.link)
        older_firmware(checks, client, files)
        seen = [client.poll("raw", *poll) for poll in ((731, 150), (781, 150), (731, 151), (781, 151))]
        checks.same("firmware 73: raw requests read alarm 150 by number, and 151 is an illegal data value", seen,
                    [("ok", files[11].records[150]), ("ok", files[11].records[150][:6]), VALUE, VALUE])
        client.close()


main()
