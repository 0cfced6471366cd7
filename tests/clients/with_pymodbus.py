"""The gateway polled with Debian's pymodbus, mostly its synchronous client."""

import asyncio
import inspect
import logging
import termios
import time

import pymodbus
from pymodbus.client import AsyncModbusSerialClient, ModbusSerialClient
from pymodbus.exceptions import ModbusException

from common import (ADDRESS, DONE, FUNCTION, VALUE, Checks, all_can, chances, numbers, older_firmware, requested, unlike_quantity,
                    unlike_registers)
from gateway import DEADLINE, UNIT, Gateway, expected

EXCEPTIONS = {1: FUNCTION, 2: ADDRESS, 3: VALUE}
# Other versions name the unit otherwise, and may take what 3.0 refuses; wrong bytes none may take.
WORDS = inspect.signature(ModbusSerialClient.write_register).parameters
UNIT_WORD = next(word for word in ("slave", "device_id", "unit") if word in WORDS)
STRICT = str(pymodbus.__version__).startswith("3.0")


def answer_of(response):
    """What a response comes to. pymodbus has one error for silence and for a reply that it can't take; 3.0 words them apart."""
    if isinstance(response, ModbusException):
        return Pymodbus.time_out if "(0 received)" in str(response) else Pymodbus.refused
    if response.isError():
        return EXCEPTIONS.get(response.exception_code, ("no", str(response)))
    if hasattr(response, "bits") and response.bits:
        return ("ok", bytes(response.bits))
    return numbers(*getattr(response, "registers", []))


class Pymodbus:
    """An adapter, with a client that waits 10 s for a reply, and one for where none comes: 1 s, as it takes whole seconds."""

    refused = ("no", "ModbusIOException")
    time_out = ("no", "time-out") if STRICT else refused
    other_functions = ["02", "04", "16"]
    most_coils = 2000

    def __init__(self, link):
        self.patient, self.hasty = (ModbusSerialClient(link, baudrate=19200, parity="N", timeout=t) for t in (10, 1))

    def call(self, name, *words, unit=UNIT, hasty=False, **more):
        """A call of the client's, as an answer."""
        try:
            return answer_of(getattr(self.hasty if hasty else self.patient, name)(*words, **more, **{UNIT_WORD: unit}))
        except ModbusException as error:  # later versions raise it
            return answer_of(error)

    def read(self, address, quantity, **how):
        """03."""
        return self.call("read_holding_registers", address, count=quantity, **how)

    def coils(self, address, quantity):
        """01. pymodbus hands on whole bytes of flags."""
        answer = self.call("read_coils", address, count=quantity)
        return ("ok", answer[1][:quantity]) if answer[0] == "ok" else answer

    def late(self, address, quantity):
        """03 that is answered only when the time-out is over. On a machine too busy for a reply within it, once more."""
        for _ in range(5):
            answer = self.read(address, quantity, hasty=True)
            if answer != self.time_out:
                break
        return answer

    def write(self, address, value):
        """06, whose response has no registers that were read."""
        answer = self.call("write_register", address, value)
        return DONE if answer[0] == "ok" else answer

    def other(self, function):
        """A function that a gateway has not."""
        if function == "16":
            return self.call("write_registers", 3703, [1, 1])
        name = {"02": "read_discrete_inputs", "04": "read_input_registers"}[function]
        return self.call(name, 3701, count=1)


def refused_or_right(seen, polls):
    """What is wanted of polls whose reply the client refuses: that, or from another version the right bytes."""
    rights = [("ok", record) for *_, record in polls]
    return [right if not STRICT and answer == right else Pymodbus.refused for answer, right in zip(seen, rights)]


def cannot(checks, client, files):
    """Replies longer than twice the quantity, and of odd sizes, are refused; shorter ones are taken when the time-out is over."""
    polls = [poll for poll in unlike_quantity(files) if len(poll[2]) > 2 * poll[1]]
    seen = [client.read(address, quantity, hasty=not STRICT) for address, quantity, _ in polls]
    checks.same("720+f and 770+f: replies of over twice the quantity are refused", seen, refused_or_right(seen, polls))
    client.write(requested(1), 2)
    polls = [(701, quantity, files[1].records[2]) for quantity in (1, 14)]
    seen = [client.read(701, quantity, hasty=not STRICT) for _, quantity, _ in polls]
    checks.same("700+f: too small a quantity is refused", seen, refused_or_right(seen, polls))
    polls = [(701, 16, files[1].records[2]), (725, 18, files[5].records[18]), (726, 200, files[6].records[200]),
             (771, 4, files[1].records[4][:6])]
    seen = [client.late(address, quantity) for address, quantity, _ in polls]
    checks.same("replies under twice the quantity are read, after the time-out", seen, [("ok", record) for *_, record in polls])
    seen = [client.write(requested(3), 2), client.read(703, 1), client.read(703, 5), client.late(703, 6)]
    checks.same("700+f: a record of 11 bytes is refused", seen, [DONE] + [client.refused] * 3)
    polls = unlike_registers()
    seen = [client.read(address, quantity, hasty=not STRICT) for address, quantity, _ in polls]
    checks.same("live 32-bit points, floats and texts are refused", seen, refused_or_right(seen, polls))
    checks.same("after them a record is read", client.read(701, 15), ("ok", files[1].records[2]))


def numbered(checks, client, files):
    """A request class that names no length for its reply reads any even size by number. Other versions have it elsewhere."""
    if not STRICT:
        return
    from pymodbus.register_read_message import ReadHoldingRegistersRequest  # pylint: disable=import-outside-toplevel

    class Numbered(ReadHoldingRegistersRequest):
        """03 whose reply has a length of its own, and not twice the quantity."""

        def get_response_pdu_size(self):
            """None: by the reply's byte count."""

    polls = unlike_quantity(files) + [(726, 200, files[6].records[200]), (731, 500, files[11].records[500])] + unlike_registers()
    seen = [answer_of(client.patient.execute(Numbered(address, quantity, unit=UNIT))) for address, quantity, _ in polls]
    checks.same("720+f, 770+f and all live points are read with a request class of one's own", seen,
                [("ok", record) for *_, record in polls])


async def in_turn(link, polls):
    """Polls of the asynchronous client."""
    client = AsyncModbusSerialClient(link, baudrate=19200, parity="N")
    await client.connect()
    if STRICT:
        client.protocol.params.timeout = DEADLINE  # its own is 3 s, whatever the client is given
    answers = [answer_of(await client.read_holding_registers(poll[0], count=poll[1], **{UNIT_WORD: UNIT})) for poll in polls]
    closed = client.close()
    if closed is not None:  # awaited in 3.0 only
        await closed
    return answers


def asynchronous(checks, link, files):
    """The asynchronous client goes by the reply's byte count, and so reads even sizes by number."""
    polls = unlike_quantity(files) + [(726, 200, files[6].records[200])] + unlike_registers()
    seen = asyncio.run(in_turn(link, polls))
    checks.same("720+f, 770+f and all live points are read by the asynchronous client", seen,
                [("ok", record) for *_, record in polls])


async def after_odd(link):
    """How the asynchronous client fares with a record of 11 bytes, and with a register after it: whether it times out."""
    client = AsyncModbusSerialClient(link, baudrate=19200, parity="N")
    await client.connect()
    client.protocol.params.timeout = 1
    timed_out = []
    for poll in ((723, 2), (3701, 1)):
        try:
            await client.read_holding_registers(*poll, **{UNIT_WORD: UNIT})
            timed_out.append(False)
        except asyncio.TimeoutError:
            timed_out.append(True)
    await client.close()
    return timed_out


def broadcast(client, link):
    """What is requested after a broadcast of 3. pymodbus does not wait after it, and a frame that follows at once is one with it,
    so here is the standard's turnaround delay. On a machine that is too busy for it, once more."""
    sender = ModbusSerialClient(link, timeout=1, broadcast_enable=True)
    for _ in range(10):
        sender.write_register(requested(1), 3, **{UNIT_WORD: 0})
        time.sleep(0.2)
        seen = client.read(requested(1), 1, hasty=True)
        if seen == numbers(3):
            break
    return seen


def own(checks, client, link):
    """What is pymodbus's own."""
    if STRICT:
        seen = asyncio.run(after_odd(link))
        checks.same("an odd size stops the asynchronous client: all that follows times out", seen, [True, True])
        checks.same("0 or over 125 registers are asked for, and so can be an illegal data value",
                    [client.read(726, 201), client.read(726, 0)], [VALUE] * 2)
        checks.same("0 or over 2,000 coils are asked for, and are an illegal data value",
                    [client.coils(1801, 0), client.coils(1801, 2001)], [VALUE] * 2)
        checks.same("a broadcast 06 is done", broadcast(client, link), numbers(3))
    try:
        parity = ModbusSerialClient(link, parity="E", timeout=1).connect()
    except termios.error:
        parity = False
    checks.same("parity can't be had on a pseudo-terminal", parity, False)


def main():
    """All tests of this client."""
    logging.disable(logging.CRITICAL)
    files, checks = expected(), Checks("pymodbus")
    with Gateway() as gateway:
        client = Pymodbus(gateway.link)
        all_can(checks, client, files)
        chances(checks, client, files)
        cannot(checks, client, files)
        numbered(checks, client, files)
        asynchronous(checks, gateway.link, files)
        own(checks, client, gateway.link)
    with Gateway(73) as gateway:
        client = Pymodbus(gateway.link)
        older_firmware(checks, client, expected(73))
        if STRICT:
            checks.same("firmware 73: alarm 151 by number is an illegal data value", [client.read(731, 151), client.read(781, 151)],
                        [VALUE] * 2)


main()
