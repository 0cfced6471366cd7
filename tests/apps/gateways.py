"""A windrow-gateway that runs."""
import os
import signal
import subprocess

from lines import Client
from support import DEADLINE, Case, program


class GatewayCase(Case):
    """Starts gateways, and ends those that still run when the test is over."""

    def start(self, settings, *words, name="gateway"):
        process = subprocess.Popen([program(name), settings, *words], cwd=self.folder, stdin=subprocess.DEVNULL,
                                   stdout=subprocess.PIPE, stderr=subprocess.PIPE, encoding="utf-8", errors="replace")
        self.addCleanup(end, process)
        return process

    def start_gateway(self, settings, *words):
        """One that is up; its device is the link `line`."""
        process = self.start(settings, "--link", "line", *words)
        process.device = process.stdout.readline().partition("device: ")[2].strip()
        if not process.device:
            self.fail(process.stderr.read())
        return process

    def gateway_over(self, trace, settings, *words):
        """A gateway that has scanned the whole trace and still answers."""
        self.write("s", settings)
        self.write("trace", trace)
        gateway = self.start_gateway("s", "--trace", "trace", "--speed", "1e7", "--hold", *words)
        self.assertIn("scanned", gateway.stdout.readline())
        return gateway

    def client(self, gateway):
        client = Client(gateway.device)
        self.addCleanup(client.close)
        return client

    def stopped(self, process):
        """Ends it as a user does; its status, output and messages."""
        process.send_signal(signal.SIGTERM)
        process.wait(DEADLINE)
        return process.returncode, process.stdout.read(), process.stderr.read()


def kill(process):
    os.kill(process.pid, signal.SIGKILL)
    process.wait()


def end(process):
    if process.poll() is None:
        kill(process)
    for pipe in process.stdout, process.stderr:
        if pipe is not None and not pipe.closed:
            pipe.close()
