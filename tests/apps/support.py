"""Starts the programs, each test in a fresh folder of its own."""
import os
import shutil
import subprocess
import tempfile
import time
import unittest

ROOT = os.path.dirname(os.path.dirname(os.path.dirname(os.path.abspath(__file__))))
BIN = os.path.join(ROOT, os.environ.get("WINDROW_BIN", "target/bin"))
FOLDERS = os.path.join(ROOT, "target/tests/apps")
SEASON = os.path.join(ROOT, "apps/season.settings")

FINE, TROUBLE, MISUSE = 0, 1, 2
DEADLINE = 30  # seconds; machines are busy


def program(name):
    return os.path.join(BIN, "windrow-" + name)


class Case(unittest.TestCase):
    """A test in a folder of its own: programs run there, and names are relative to it."""

    def setUp(self):
        os.makedirs(FOLDERS, exist_ok=True)
        self.folder = tempfile.mkdtemp(dir=FOLDERS)
        self.addCleanup(shutil.rmtree, self.folder, ignore_errors=True)

    def path(self, name):
        return os.path.join(self.folder, name)

    def write(self, name, content):
        with open(self.path(name), "wb") as file:
            file.write(content.encode() if isinstance(content, str) else content)
        return name

    def read(self, name):
        with open(self.path(name), "rb") as file:
            return file.read()

    def names(self):
        return sorted(os.listdir(self.folder))

    def run_limited(self, blocks, name, *words):
        """No file may get longer than so many blocks of 1,024 bytes; past them, writing fails as on a disk that gets full."""
        return subprocess.run(["bash", "-c", "trap '' XFSZ; ulimit -f %d; exec \"$@\"" % blocks, "-", program(name), *words],
                              cwd=self.folder, stdout=subprocess.PIPE, stderr=subprocess.PIPE, stdin=subprocess.DEVNULL,
                              encoding="utf-8", timeout=DEADLINE)

    def run_program(self, name, *words, **more):
        """Its standard output and error are text, as bytes would make tests hard to read."""
        return subprocess.run([program(name), *words], cwd=self.folder, stdout=more.pop("stdout", subprocess.PIPE),
                              stderr=subprocess.PIPE, stdin=subprocess.DEVNULL, encoding="utf-8", errors="replace",
                              timeout=DEADLINE, **more)

    def expect(self, status, told, name, *words, **more):
        """Runs a program that must end with a status and, if any text is given, tell it on standard error."""
        done = self.run_program(name, *words, **more)
        self.assertEqual(done.returncode, status, done.stderr)
        for text in [told] if isinstance(told, str) else told:
            self.assertIn(text, done.stderr)
        if status == FINE and not told:
            self.assertEqual(done.stderr, "")
        return done

    def wait_for(self, what, condition):
        """Until the condition holds; its value is answered."""
        until = time.monotonic() + DEADLINE
        while True:
            value = condition()
            if value:
                return value
            if time.monotonic() > until:
                self.fail("waited in vain for " + what)
            time.sleep(0.005)
