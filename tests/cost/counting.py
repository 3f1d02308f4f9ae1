"""Counts what calls cost, so that it is the same on each machine: the instructions of the proved code itself, by callgrind, and
the most that the heap has taken for each byte that is read.

What the C library takes is not counted, since it picks its copies and comparisons of bytes by the processor; the requests that it
is asked for are kept by tests/allocation. Environment and arguments are fixed.
"""

import concurrent.futures
import functools
import os
import pathlib
import re
import struct
import subprocess
import tempfile

import table
from calls import TOP
from rows import EXPORTS

LIBRARY = TOP / "out/lib/libmergejoin.so.2"
WORKLOADS = TOP / "crates/workloads/out/workloads"
RUNS = TOP / "crates/replica_runs/out/replica_runs"
# The jobs of the benchmark, each with one of its inputs and this seed.
JOBS, SEED = ("catch-up", "reduce", "receive", "request", "publish", "awkward"), "7"
# What the number of an export is more by if its call is to be within a limit (tests/common/work.c).
LIMITED = 100
# What stays in memory: of each title the job, the bytes of the start, how many patches come before those that are counted, and how
# many these are.
LIVE = {
    "live receive on 8 kB": ("receive", 8_000, 100, 100),
    "live receive on 0.8 MB": ("receive", 800_000, 100, 100),
    "live receive after 1000 patches": ("receive", 8_000, 1_000, 100),
    "live receive after 5000 patches": ("receive", 8_000, 5_000, 100),
    "live log after 1000 patches": ("log", 8_000, 1_000, 100),
    "live add at the 10th patch": ("gather", 0, 10, 10),
    "live add at the 10000th patch": ("gather", 0, 10_000, 100),
}
ENVIRONMENT = {"PATH": "/usr/bin:/bin", "LC_ALL": "C", "LD_BIND_NOW": "1"}
# The heap takes no more from the system than it is asked for, and gives nothing back: what it has at the end is the most.
ONE_HEAP = {"GLIBC_TUNABLES": "glibc.malloc.top_pad=1:glibc.malloc.trim_threshold=1000000000000:glibc.malloc.mmap_threshold=33554432"}


class Ended(Exception):
    """A run that did not end as it should."""


def driver_in(directory, library=LIBRARY):
    """Builds the program that makes one call of the library, and gives its path."""
    program = directory / "work"
    words = ["cc", "-std=gnu11", "-O1", "-Wall", "-Wextra", "-Werror", f"-I{TOP / 'out/include'}", TOP / "tests/common/work.c"]
    subprocess.run([*words, library, f"-Wl,-rpath,{LIBRARY.parent}", "-o", program], check=True)
    return program


def run(words, status, given=b"", setting=None):
    """Runs words, which have to end with a status, and gives both streams."""
    done = subprocess.run(words, input=given, capture_output=True, env=ENVIRONMENT | (setting or {}), timeout=300, check=False)
    if done.returncode != status:
        raise Ended(f"the status is {done.returncode} and should be {status}: {done.stdout[-200:]} {done.stderr[-200:]}")
    return done.stdout, done.stderr


def of_part(report, part):
    """Gives the instructions of one part, a program or a library, or of all for None, from a report of callgrind: what follows
    'calls=' is also what the called took."""
    count, is_inside, is_call = 0, False, False
    for line in report.splitlines():
        if line.startswith("ob="):
            is_inside = part is None or line.endswith(f"/{part}")
        elif line.startswith("calls="):
            is_call = True
        elif found := re.fullmatch(r"\d+ (\d+)", line):
            count += 0 if is_call or not is_inside else int(found[1])
            is_call = False
    return count


def instructions(words, part, status=0, given=b"", setting=None):
    """Runs words under callgrind, and gives the instructions of one part."""
    with tempfile.TemporaryDirectory() as directory:
        report = pathlib.Path(directory, "report")
        callgrind = ["valgrind", "--tool=callgrind", "--compress-strings=no", "--compress-pos=no", f"--callgrind-out-file={report}"]
        run([*callgrind, *words], status, given, setting)
        return of_part(report.read_text("utf-8"), part)


def of_patch(job, size, before, count, whole=False):
    """The instructions that a patch takes of the proved code, or with what the C library takes."""
    part = None if whole else RUNS.name
    first, last = (instructions([RUNS, job, str(size), str(number)], part) for number in (before, before + count))
    return round((last - first) / count)


def of_live(title, _driver):
    if not RUNS.exists():
        raise Ended(f"{RUNS} is not there: rt ci leaves it, and rt run in its crate")
    return of_patch(*LIVE[title])


def input_of(export, texts):
    """What the driver reads: the number of the export, and each text after its length."""
    name, _, within = export.partition(" ")
    number = EXPORTS.index(name) + (LIMITED if within else 0)
    return struct.pack("Q", number) + b"".join(struct.pack("Q", len(text)) + text for text in texts)


def of_workload(job, _driver):
    if not WORKLOADS.exists():
        raise Ended(f"{WORKLOADS} is not there: rt ci leaves it, and rt run in its crate")
    return instructions([WORKLOADS, job, "1", SEED], WORKLOADS.name)


def of_call(export, texts, status, driver, setting=None):
    return instructions([driver], LIBRARY.name, status, input_of(export, texts), setting)


def peak(export, texts, status, driver):
    """The bytes that the heap has taken for each byte of the texts."""
    _, taken = run([driver, "heap"], status, input_of(export, texts), ONE_HEAP)
    return round(int(taken) / sum(map(len, texts)), 2)


def measures():
    """Gives of each title what measures it with the driver."""
    found = {f"workload {job}": functools.partial(of_workload, job) for job in JOBS}
    found |= {title: functools.partial(of_live, title) for title in LIVE}
    found |= {title: functools.partial(of_call, *row) for title, *row in table.rows()}
    return found | {title: functools.partial(peak, *row) for title, *row in table.peaks()}


def measured(titles, directory):
    """Gives the figure of each title, or what was wrong."""
    driver, measure_of = driver_in(directory), measures()

    def measure(title):
        try:
            return measure_of[title](driver)
        except Ended as wrong:
            return wrong

    with concurrent.futures.ThreadPoolExecutor(len(os.sched_getaffinity(0))) as pool:
        return dict(zip(titles, pool.map(measure, titles)))
