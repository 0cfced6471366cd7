"""Both ends of a line: a client on a gateway's device, and a gateway played on a pseudo-terminal."""
import fcntl
import os
import pty
import select
import struct
import termios
import threading
import time
import tty

from frames import REGISTERS, crc, exception, register_reply, reply
from support import DEADLINE
from traces import POLLED


class Client:
    """Polls a gateway on its device."""

    def __init__(self, device):
        self.fd = os.open(device, os.O_RDWR | os.O_NOCTTY)
        tty.setraw(self.fd)
        # A read does not wait: a gateway may drop what nobody took between our seeing it and our reading it.
        mode = termios.tcgetattr(self.fd)
        mode[6][termios.VMIN] = 0
        termios.tcsetattr(self.fd, termios.TCSANOW, mode)

    def close(self):
        os.close(self.fd)

    def forget(self):
        termios.tcflush(self.fd, termios.TCIFLUSH)

    def send(self, data):
        while data:
            data = data[os.write(self.fd, data):]

    def take(self, length, seconds=DEADLINE):
        """`length` bytes, or those that came in time."""
        data, until = b"", time.monotonic() + seconds
        while len(data) < length:
            left = until - time.monotonic()
            if left <= 0 or not select.select([self.fd], [], [], left)[0]:
                break
            data += os.read(self.fd, length - len(data))
        return data

    def ask(self, data, length):
        """The answer; where none comes, it asks again, as a client does."""
        until, answer = time.monotonic() + DEADLINE, b""
        while not answer and time.monotonic() < until:
            self.forget()
            self.send(data)
            answer = self.take(length, 2)
        return answer

    def waiting(self):
        """How many bytes have come and were not taken."""
        return struct.unpack("i", fcntl.ioctl(self.fd, termios.FIONREAD, b"\0\0\0\0"))[0]


class PlayedGateway:
    """
    A gateway on a pseudo-terminal of ours. `answer` is given a request's unit, function, address and quantity, and the number of
    the request, from 0; it answers the bytes to be sent, None to be unplugged, or a list of these and of pauses in seconds.
    """

    def __init__(self, answer):
        self.answer = answer
        self.requests = []
        self.master, slave = pty.openpty()
        tty.setraw(slave)
        self.device = os.ttyname(slave)
        self.slave = slave
        self.ended = False
        self.thread = threading.Thread(target=self._serve, daemon=True)
        self.thread.start()

    def _serve(self):
        pending = b""
        while not self.ended:
            if not select.select([self.master], [], [], 0.05)[0]:
                continue
            try:
                pending += os.read(self.master, 1024)
            except OSError:
                return
            while len(pending) >= 8:
                asked, pending = pending[:8], pending[8:]
                if not self._reply(asked):
                    return

    def _reply(self, asked):
        assert asked[6:] == crc(asked[:6]), asked.hex()
        fields = asked[0], asked[1], asked[2] << 8 | asked[3], asked[4] << 8 | asked[5]
        parts = self.answer(*fields, len(self.requests))
        self.requests.append(fields)
        for part in parts if isinstance(parts, list) else [parts]:
            if part is None:
                self._unplug()
                return False
            if isinstance(part, bytes):
                os.write(self.master, part)
            else:
                time.sleep(part)
        return True

    def _unplug(self):
        os.close(self.slave)
        os.close(self.master)
        self.master = None

    def close(self):
        self.ended = True
        self.thread.join(DEADLINE)
        if self.master is not None:
            self._unplug()


class PlaysGateways:
    """A test in which gateways are played."""

    def play(self, answer):
        gateway = PlayedGateway(answer)
        self.addCleanup(gateway.close)
        return gateway


def answers(files, records, unit=17):
    """A gateway that answers well: `files` as frames.register_reply has them, `records` by file and number."""

    def answer(asked, _function, address, quantity, _count):
        if asked != unit:
            return b""
        if address == REGISTERS:
            return register_reply(unit, files)
        data = records.get((address - 720, quantity))
        return exception(unit, 3) if data is None else reply(unit, data)

    return answer


def live_answers(table, unit=17):
    """A gateway that answers polls of live points well, of the rows that 01 and 03 read; before 2.2, so that no text is cleaned."""

    def answer(asked, function, first, quantity, _count):
        if asked != unit:
            return b""
        known = any(row[0] == function and row[1] <= first and first + quantity - 1 <= row[2] for row in POLLED)
        return reply(unit, table.points(first, quantity), function) if known else exception(unit, 2, function)

    return answer
