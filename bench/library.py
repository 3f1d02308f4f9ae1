#!/usr/bin/env python3
"""Prints the rows of bench/run library: what a call takes in each of two programs, of which the second is the peer.

    bench/library.py PROGRAM PEER

What a call takes is the difference between two runs, one of which makes more calls. Both programs have to give the same text.
"""

import os
import re
import struct
import subprocess
import sys
import tempfile

SMALL = bool(os.environ.get("BENCH_SMALL"))  # as the tests set it: each call once, with few texts
RUNS = 1 if SMALL else 7


def record(number):
    return f'"name{number:05}":"value {number % 1000}"'


def merge_of(names):
    """A document of so many names, and a patch of as many, of which every second is new."""
    document = ",".join(record(number) for number in range(names))
    patch = ",".join(record(2 * number + 7) for number in range(names))
    return [f"{{{document}}}", f"{{{patch}}}"]


def texts_of_33(count):
    return [f'{{"n{number:07}":{{"a":{10 + number % 90},"b":1234567}}}}' for number in range(count)]


def long_start(size):
    """A document of about so many bytes."""
    members = ",".join(f'"user{number:06}":{{"name":"name {number:06}","visits":{100000 + number}}}' for number in range(size // 52 + 1))
    return f"{{{members}}}"


def patches_of_40(count):
    return [f'{{"user{number:06}":{{"state":"on{number:011}"}}}}' for number in range(count)]


def rows():
    """Gives the title, the job, the texts and how often it is done in the shorter run and more in the longer."""
    for names in (1, 5, 20, 100, 500)[:1 if SMALL else None]:
        yield f"merge of {names} names", "merge", merge_of(names), 10, 10 + 20_000 // (names + 20)
    yield "merge of a patch of 40 bytes into 45 kB", "merge", [long_start(45_000), *patches_of_40(1)], 10, 40
    for count in (2, 10, 100, 1_000, 100_000)[:1 if SMALL else None]:
        yield f"join of {count:,} texts of 33 bytes", "join", texts_of_33(count), 1, 1 + max(1, 2_000 // count)
    for size, words in ((8_000, "8 kB"), (800_000, "0.8 MB"))[:1 if SMALL else None]:
        yield f"receive 40 bytes on {words}", "receive", [long_start(size), *patches_of_40(10_100)], 100, 10_100


def run(words, given):
    process = subprocess.Popen(words, stdin=subprocess.PIPE, stdout=subprocess.PIPE, env={"PATH": "/usr/bin:/bin", "LC_ALL": "C"})
    text = process.communicate(given)[0]
    assert process.returncode == 0, words
    return text


def instructions(words, given):
    with tempfile.TemporaryDirectory() as folder:
        log = os.path.join(folder, "log")
        run(["valgrind", "--tool=callgrind", "--callgrind-out-file=/dev/null", f"--log-file={log}", *words], given)
        with open(log, encoding="utf-8") as lines:
            return int(re.search(r"Collected : (\d+)", lines.read())[1])


def seconds(words, name):
    """The processor's time of a run."""
    with open(name, "rb") as given:
        process = subprocess.Popen(words, stdin=given, stdout=subprocess.DEVNULL)
        _, status, used = os.wait4(process.pid, 0)
        process.returncode = os.waitstatus_to_exitcode(status)
    if status:
        sys.exit(f"{words} ended with {process.returncode}")
    return used.ru_utime + used.ru_stime


def times_of(first, second, job, few, more, name):
    """The least time of the calls by which the longer run is longer, in both programs, by turns."""
    turns = [[seconds([*words, job, str(count)], name) for words in (first, second) for count in (few, more)] for _ in range(RUNS)]
    least = [min(column) for column in zip(*turns)]
    return least[1] - least[0], least[3] - least[2]


def main():
    first, second = [sys.argv[1]], [sys.argv[2], "library"]
    print("| call | reads, bytes | ours, thousands | Rust | ratio | time, ratio |\n|---|---:|---:|---:|---:|---:|")
    for title, job, texts, few, more in rows():
        given = b"".join(struct.pack("<Q", len(text)) + text.encode() for text in texts)
        answers = {run([*words, job, str(few)], given) for words in (first, second)}
        assert len(answers) == 1, title
        ours, rust = ((instructions([*words, job, str(more)], given) - instructions([*words, job, str(few)], given)) / (more - few)
                      for words in (first, second))
        with tempfile.NamedTemporaryFile() as file:
            file.write(given)
            file.flush()
            spent = times_of(first, second, job, few, few + 40 * (more - few) if job != "receive" else more, file.name)
        reads = len(texts[-1]) if job == "receive" else sum(map(len, texts))
        print(f"| {title} | {reads:,} | {ours / 1000:,.1f} | {rust / 1000:,.1f} | {ours / rust:.2f} | {spent[0] / spent[1]:.2f} |", flush=True)


main()
