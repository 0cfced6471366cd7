"""What every client is tested with, over an adapter that has read, coils, write and other.

An adapter's call answers ("ok", bytes), coils a byte each, or ("no", why). These are the whys that a gateway gives, by the names
of the standard; a client's own, such as a reply that it will not take, are the adapter's.
"""

from gateway import UNIT, live_flags, live_points

FUNCTION = ("no", "illegal function")
ADDRESS = ("no", "illegal data address")
VALUE = ("no", "illegal data value")
DONE = ("ok", b"")


def numbers(*values):
    """The answer that is these registers."""
    return ("ok", b"".join(value.to_bytes(2, "big") for value in values))


def requested(file):
    """The register that has a file's requested number."""
    return 3700 + 3 * file


class Checks:
    """Says of each test how it went, on a line that tests/clients/run counts."""

    def __init__(self, client):
        self.client = client

    def same(self, text, seen, wanted):
        """One test: what was seen is what was wanted. Lists are of several polls, and show the first that differs."""
        if seen == wanted:
            print(f"{self.client}, {text}: ok", flush=True)
            return
        print(f"{self.client}, {text}: FAILED", flush=True)
        if isinstance(seen, list) and isinstance(wanted, list) and len(seen) == len(wanted):
            at = next(i for i, pair in enumerate(zip(seen, wanted)) if pair[0] != pair[1])
            seen, wanted, text = seen[at], wanted[at], f"poll {at + 1}"
        print(f"  {text}: {str(seen)[:300]}\n  wanted: {str(wanted)[:300]}", flush=True)


def registers(checks, client, files):
    """3701-3733, before any number is requested."""
    wanted = [value for number in range(1, 12) for value in (files[number].limit, files[number].pointer, 0)]
    checks.same("registers 3701-3733 at once", client.read(3701, 33), numbers(*wanted))
    seen = [client.read(3701 + i, 1) for i in range(33)]
    checks.same("registers 3701-3733 one by one", seen, [numbers(value) for value in wanted])
    seen = [client.read(701 + i, 3) for i in range(11)]
    checks.same("a record before one is requested is an illegal data value", seen, [VALUE] * 11)


def records(checks, client, files):
    """Each file of an even record size: every number is requested in turn, but of the long ones some."""
    for number in (1, 2, 4, 5, 6, 11):
        file = files[number]
        tried = [k for k in file.records if k <= 6 or k == file.limit]
        seen, wanted = [], []
        for k in tried:
            seen += [client.write(requested(number), k), client.read(requested(number), 1)]
            seen += [client.read(700 + number, file.size // 2)]
            wanted += [DONE, numbers(k), ("ok", file.records[k])]
        checks.same(f"file {number}: requested by 06, read back, and its records of {file.size} bytes", seen, wanted)


def stamps(checks, client, files):
    """750+f, which is always 3 registers: the odd-sized file 3 too."""
    seen, wanted = [], []
    for number in (1, 2, 3, 4, 5, 6, 11):
        for k in (1, 2):
            seen += [client.write(requested(number), k), client.read(750 + number, 3)]
            wanted += [DONE, ("ok", files[number].records[k][:6])]
    checks.same("stamps on 750+f", seen, wanted)


def live(checks, client):
    """Live points of the two rows that fit any client: flags by 01 and 16-bit points by 03."""
    most = client.most_coils
    parts = [(first, min(most, 1929 - first)) for first in range(1801, 1929, most)]
    checks.same(f"coils 1801-1928 by {len(parts)} polls", [client.coils(*part) for part in parts],
                [("ok", live_flags(*part)) for part in parts])
    parts = [(1801, 120), (1802, 9), (1803, 1), (1809, 8), (1815, 20), (1921, 8), (1928, 1)]
    checks.same("coils in parts", [client.coils(*part) for part in parts], [("ok", live_flags(*part)) for part in parts])
    checks.same("registers 3001-3064 at once", client.read(3001, 64), ("ok", live_points(3001, 64)))
    parts = [(3001, 1), (3002, 62), (3064, 1)]
    checks.same("registers 3001-3064 in parts", [client.read(*part) for part in parts],
                [("ok", live_points(*part)) for part in parts])


def no_live(checks, client):
    """Live points that are none, or too many."""
    beyond = [(1800, 1), (1929, 1), (1810, 120), (1928, 2), (3001, 1), (3701, 1), (701, 1)]
    beyond += [(1801, count) for count in (129, 2000) if count <= client.most_coils]
    checks.same("coils elsewhere are an illegal data address", [client.coils(*poll) for poll in beyond], [ADDRESS] * len(beyond))
    beyond = [(1801, 1), (3000, 1), (3065, 1), (3001, 65), (3064, 2), (4033, 1), (7228, 2), (14016, 2), (3001, 125)]
    checks.same("03 on a flag, or past a row, is an illegal data address", [client.read(*poll) for poll in beyond],
                [ADDRESS] * len(beyond))
    beyond = [(4001, 32), (5101, 63), (7101, 63), (7228, 125), (14001, 16)]
    checks.same("over 250 bytes of live points are an illegal data value", [client.read(*poll) for poll in beyond],
                [VALUE] * len(beyond))
    seen = [client.write(3001, 1), client.read(3001, 1)]
    checks.same("a live point can't be written", seen, [ADDRESS, ("ok", live_points(3001, 1))])


def exceptions(checks, client, files):
    """By name. Where several could be answered, the order is: function, length, start address, then the row's own checks."""
    functions = client.other_functions
    checks.same(f"another function ({', '.join(functions)}) is an illegal function", [client.other(f) for f in functions],
                [FUNCTION] * len(functions))
    reads = [(100, 1), (700, 3), (712, 3), (720, 1), (732, 1), (750, 3), (762, 3), (770, 3), (782, 3)]
    reads += [(3700, 1), (3734, 1), (3733, 2)]
    checks.same("03 elsewhere is an illegal data address", [client.read(*poll) for poll in reads], [ADDRESS] * len(reads))
    writes = [(3701, 1), (3702, 1), (3704, 1), (3732, 1), (3734, 1), (701, 1)]
    checks.same("06 elsewhere is an illegal data address", [client.write(*poll) for poll in writes], [ADDRESS] * len(writes))
    seen = [client.write(requested(1), k) for k in (2, 0, 5, 65535)] + [client.read(requested(1), 1)]
    checks.same("06 with a number not 1..n is an illegal data value, and sets nothing", seen, [DONE] + [VALUE] * 3 + [numbers(2)])
    beyond = [(720 + f, files[f].limit + 1) for f in (1, 2, 3, 4, 5, 7)] + [(770 + f, files[f].limit + 1) for f in (1, 5, 10)]
    seen = [client.read(*poll) for poll in beyond]
    checks.same("03 on 720+f and 770+f beyond n is an illegal data value", seen, [VALUE] * len(beyond))
    checks.same("over 33 registers is an illegal data value", [client.read(3701, 34), client.read(3701, 125)], [VALUE] * 2)


def wrong_unit(checks, client):
    """Nobody answers: the client's time-out. The right unit answers afterwards."""
    seen = [client.read(3701, 1, unit=UNIT + 1, hasty=True), client.read(3701, 1)]
    checks.same("a wrong unit is a time-out", seen, [client.time_out, numbers(4)])


def all_can(checks, client, files):
    """What a client must be able to do."""
    registers(checks, client, files)
    live(checks, client)
    no_live(checks, client)
    records(checks, client, files)
    stamps(checks, client, files)
    exceptions(checks, client, files)
    wrong_unit(checks, client)


def unlike_quantity(files):
    """Polls whose reply has not twice the quantity in bytes: address, quantity, the bytes. File 3 has records of 11 bytes."""
    polls = [(720 + f, k, files[f].records[k]) for f in (1, 2, 4, 5, 6, 11) for k in (1, 2, 4, 5) if k in files[f].records]
    polls += [(770 + f, k, files[f].records[k][:6]) for f in (1, 3, 5, 11) for k in (1, 2, 4)]
    return [poll for poll in polls if len(poll[2]) != 2 * poll[1]]


def unlike_registers():
    """Polls of live points that have not two bytes, as unlike_quantity has them. A point counts as one, whatever its size."""
    polls = [(4001, 1), (4001, 31), (4032, 1), (5101, 1), (5102, 2), (5103, 62), (7101, 1), (7101, 62), (7227, 2), (14001, 1),
             (14002, 15)]
    return [(*poll, live_points(*poll)) for poll in polls]


def refusals(checks, client, files):
    """Replies that a client which counts on twice the quantity refuses. It takes the next one: nothing is left behind."""
    polls = unlike_quantity(files)
    seen = [client.read(address, quantity) for address, quantity, _ in polls]
    checks.same("720+f and 770+f: replies not of twice the quantity are refused", seen, [client.refused] * len(polls))
    seen = [client.write(requested(3), 2)] + [client.read(703, quantity) for quantity in (5, 6, 11)]
    checks.same("700+f: a record of 11 bytes is refused", seen, [DONE] + [client.refused] * 3)
    seen = [client.write(requested(1), 2)] + [client.read(701, quantity) for quantity in (1, 14, 16, 30)]
    checks.same("700+f: a wrong quantity is refused", seen, [DONE] + [client.refused] * 4)
    seen = [client.read(address, quantity) for address, quantity, _ in unlike_registers()]
    checks.same("live 32-bit points, floats and texts are refused", seen, [client.refused] * len(seen))
    checks.same("after them a record is read", client.read(701, 15), ("ok", files[1].records[2]))


def chances(checks, client, files):
    """The one record and the one stamp of a number that is half their size: these every client reads."""
    seen = [client.read(725, 16), client.read(771, 3), client.read(773, 3), client.read(724, 3)]
    wanted = [files[5].records[16], files[1].records[3][:6], files[3].records[3][:6], files[4].records[3]]
    checks.same("720+f and 770+f: a reply of twice the quantity is read", seen, [("ok", record) for record in wanted])


def older_firmware(checks, client, files):
    """A gateway of firmware 73, on which drivers that were made for it find the end where they expect it."""
    checks.same("firmware 73: 150 alarm records, which have gone round", client.read(3731, 3), numbers(150, 6, 0))
    seen, wanted = [], []
    for k in (1, 6, 7, 149, 150):
        seen += [client.write(requested(11), k), client.read(711, 11), client.read(761, 3)]
        wanted += [DONE, ("ok", files[11].records[k]), ("ok", files[11].records[k][:6])]
    checks.same("firmware 73: alarm records up to 150 are read", seen, wanted)
    seen = [client.write(requested(11), k) for k in (151, 500)] + [client.read(requested(11), 1)]
    checks.same("firmware 73: alarm record 151 is an illegal data value", seen, [VALUE, VALUE, numbers(150)])
