"""Runs a program under the heap of failing_allocator.c, which is built and preloaded."""

import os
import subprocess

from calls import TOP


class Ran:
    """How a run ended, and what its heap counted. `requests` is None where the heap was not there."""

    def __init__(self, done, report):
        self.ending = (done.returncode, done.stdout.decode(), done.stderr.decode())
        self.requests, self.refused, self.lost = None, 0, 0
        self.asked, self.most, self.reads, self.writes = 0, 0, 0, 0
        if report.exists():
            counts = [int(word) for word in report.read_text().split()]
            self.requests, self.refused, self.lost, self.asked, self.most, self.reads, self.writes = counts


class Heap:
    def __init__(self, directory):
        self.library = directory / "failing_allocator.so"
        self.report, self.given = directory / "report", directory / "given"
        options = ["-O1", "-shared", "-fPIC", "-nostdlib", "-ffreestanding", "-fno-stack-protector"]
        source = TOP / "tests/common/failing_allocator.c"
        subprocess.run(["cc", *options, "-o", self.library, source], check=True)

    def run(self, words, given, how, number):
        """Runs the words with request `number` refused (REFUSE_AT), or each from it on (REFUSE_FROM); of any other way
        none is refused."""
        self.report.unlink(missing_ok=True)
        self.given.write_bytes(given)  # a file is read in as many calls each time, a pipe is not
        setting = os.environ | {"LD_PRELOAD": str(self.library), "REFUSED_REPORT": str(self.report), how: str(number)}
        with open(self.given, "rb") as stdin:
            done = subprocess.run(words, stdin=stdin, capture_output=True, env=setting, timeout=60)
        return Ran(done, self.report)
