#!/usr/bin/env python3
"""Prints the processor's time in ms that each of two commands takes on one input: the least of fifteen runs, in turn.

    bench/least_time.py INPUT STATUS PROGRAM OTHER [WORD..]

Both must end with that status, which is a number. With BENCH_SMALL, which the tests set, each is run once. Unlike instructions it has the pages that are touched for the first time, and it moves by some hundredths.
"""

import os
import subprocess
import sys

RUNS = 1 if os.environ.get("BENCH_SMALL") else 15


def taken(program, words, name, expected):
    """Runs a program once, and gives its time in the processor, the kernel's for it as well."""
    with open(name, "rb") as given:
        process = subprocess.Popen([program, *words], stdin=given, stdout=subprocess.DEVNULL, stderr=subprocess.DEVNULL)
        _, status, used = os.wait4(process.pid, 0)
        process.returncode = os.waitstatus_to_exitcode(status)
    if process.returncode != expected:
        sys.exit(f"{program} ended with {process.returncode}")
    return (used.ru_utime + used.ru_stime) * 1000


def main():
    name, expected, first, second, *words = sys.argv[1:]
    times = [[taken(program, words, name, int(expected)) for program in (first, second)] for _ in range(RUNS)]
    print(*(f"{min(column):.2f}" for column in zip(*times)))


if __name__ == "__main__":
    main()
