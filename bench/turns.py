#!/usr/bin/env python3
"""Times each workload of bench/workloads.txt by turns in two checkouts that are built, and prints of each the median, with the
least and the most in brackets, and the ratio of the medians.

    bench/run OLD NEW [SEED]

In each checkout the proved programs of the workloads have to be there, as `rt run` in their crates leaves them, and none may be
older than a source of its crate or of a crate below; where a source was only touched, `rt run` leaves the program as it is until
it is removed. SEED is a whole number below 2^32, 7396 without it; each gives other inputs of the same kind and size. A workload
runs once in each before it is timed, and then in nine turns. It stops where the two print different things or fail. Nothing else
should run on the machine.
"""

import os
import pathlib
import re
import statistics
import subprocess
import sys
import time

BENCH = pathlib.Path(__file__).resolve().parent
TURNS, SEED = 9, "7396"


def workloads():
    """Gives the name, the crate and the words of each workload."""
    for line in (BENCH / "workloads.txt").read_text("utf-8").splitlines():
        if line and not line.startswith("#"):
            name, crate, *words = line.split()
            yield name, crate, words


def program_of(checkout, crate):
    return checkout / "crates" / crate / "out" / crate


def with_those_below(checkout, crate):
    """Gives a crate, and those of the checkout that it is built of."""
    lines = re.findall(r"^(\w+).*?:(.*)", (checkout / "crates.txt").read_text("utf-8"), re.M)
    below, found, left = {name: names.split() for name, names in lines}, set(), [crate]
    while left:
        name = left.pop()
        if name in below and name not in found:
            found.add(name)
            left += below[name]
    return sorted(found)


def fault_of(checkout, crate):
    """Gives what is wrong with the program of a crate, if it can't be timed."""
    program = program_of(checkout, crate)
    if not os.access(program, os.X_OK):
        return f"{program} is not built: rt run in its crate makes it"
    built = program.stat().st_mtime
    for name in with_those_below(checkout, crate):
        directories = [checkout / "crates" / name / part for part in ("src", "specs", "proofs")]
        for source in sorted(path for directory in directories for path in directory.rglob("*.*")):
            if source.suffix in (".rt", ".antt") and source.stat().st_mtime > built:
                return f"{program} is older than {source}: remove it, and rt run in its crate makes it anew"
    return None


def run(checkout, crate, words):
    """Runs a workload once, and gives the seconds that it took, and what it printed."""
    directory, given = checkout / "bench", subprocess.DEVNULL
    if words and words[-1].startswith("<"):
        given = open(directory / words[-1][1:], "rb")
        words = words[:-1]
    begin = time.perf_counter()
    ran = subprocess.run([program_of(checkout, crate), *words], cwd=directory, stdin=given, capture_output=True)
    seconds = time.perf_counter() - begin
    if ran.returncode or ran.stderr:
        sys.exit(f"bench: {checkout}: {crate} {' '.join(words)} ended with {ran.returncode}: {ran.stderr.decode()}")
    return seconds, ran.stdout


def timed(checkouts, name, crate, words):
    """Gives the seconds of each turn, of each checkout."""
    seconds = [[], []]
    for turn in range(TURNS + 1):
        printed = [None, None]
        for side in (0, 1) if turn % 2 else (1, 0):
            taken, printed[side] = run(checkouts[side], crate, words)
            if turn:
                seconds[side].append(taken)
        if printed[0] != printed[1]:
            sys.exit(f"bench: {name}: the two print different things: {printed[0]} and {printed[1]}")
    return seconds


def shown(seconds):
    return f"{statistics.median(seconds):.3f} ({min(seconds):.3f} to {max(seconds):.3f})"


def main():
    if len(sys.argv) not in (3, 4):
        sys.exit("usage: bench/run OLD NEW [SEED]")
    checkouts = [pathlib.Path(word).resolve() for word in sys.argv[1:3]]
    seed = sys.argv[3] if len(sys.argv) == 4 else SEED
    if not re.fullmatch("[0-9]+", seed) or int(seed) >= 2**32:
        sys.exit(f"bench: the seed has to be a whole number below 2^32, and {seed!r} is none")
    crates = sorted({crate for _, crate, _ in workloads()})
    faults = [fault for checkout in checkouts for crate in crates if (fault := fault_of(checkout, crate))]
    if faults:
        sys.exit(f"bench: {faults[0]}")
    print(f"medians of {TURNS} turns, with the least and the most, seed {seed}\n")
    print("| workload | seconds of OLD | seconds of NEW | OLD over NEW |")
    print("| --- | ---: | ---: | ---: |", flush=True)
    for name, crate, words in workloads():
        old, new = timed(checkouts, name, crate, [seed if word == "SEED" else word for word in words])
        print(f"| {name} | {shown(old)} | {shown(new)} | {statistics.median(old) / statistics.median(new):.2f} |", flush=True)


if __name__ == "__main__":
    main()
