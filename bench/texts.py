#!/usr/bin/env python3
"""Prints tables of two pages. Of docs/FROM-C.md: what a call of the library takes for each byte that it reads, in time and in memory.
Of docs/FROM-PYTHON.md: what a patch takes in Python, joined in three ways:

    PYTHONPATH=FOLDER /usr/bin/python3 bench/texts.py

FOLDER has the package mergejoin (`pip install --target FOLDER` of its wheel), and bin/library has to have built the library here. A
time is the least of some runs, of the processor. A memory is what the heap takes from the system in a process of its own, as tests/cost
measures it, without the texts and the buffer. Nothing else should run on the machine.
"""

import ctypes
import pathlib
import sys
import tempfile
import time

TOP = pathlib.Path(__file__).resolve().parents[1]
sys.path[:0] = [str(TOP / "tests" / part) for part in ("common", "cost", "library")]
import mergejoin
from calling import SIZE_MAX, Reply, Text
from counting import driver_in, peak
from driving import RESULT, SHARED
from values import printed

LIBRARY = ctypes.CDLL(str(SHARED))
RUNS, LEAST = 5, 0.2  # runs of a measure, and the seconds that each takes at least


def small(number):
    return {f"service{number}": {"limits": {"cpu": number}}}


def alone(number):
    return {f"service{number}": number}


def record(number):
    return {f"user{number}": {"name": f"name {number}", "mail": f"mail-{number}@example.org", "tags": ["a", "b", "c"], "visits": number}}


def shapes():
    """Gives what the texts are in words, the call, and the texts."""
    records = {name: value for number in range(10_000) for name, value in record(number).items()}
    yield "one long text", "get", [printed({"a": "lorem ipsum dolor sit amet " * 40_000})]
    yield "one of records", "get", [printed(records)]
    yield "one of numbers of four digits", "get", [printed([1000 + number % 9000 for number in range(200_000)])]
    yield "one of objects of one short name", "get", [printed([{"": 0}] * 100_000)]
    yield "a document of records and one patch", "merge", [printed(records), printed(record(5))]
    for count in (2, 32, 33, 1_000, 10_000):
        yield f"{count:,} patches of one member", "join", [printed(alone(number)) for number in range(count)]
        yield f"{count:,} patches of nested objects", "join", [printed(small(number)) for number in range(count)]
    yield "1,000 patches of records, on a start", "replay", ["{}", *(printed(record(number)) for number in range(1_000))]


def words_of(call, texts):
    """Gives the parameters of a call that the texts are."""
    def borrowed(some):
        return [(Text * len(some))(*[(text, len(text)) for text in some]), ctypes.c_size_t(len(some))]

    if call == "join":
        return borrowed(texts)
    first = [texts[0], ctypes.c_size_t(len(texts[0]))]
    return first + ([b"", ctypes.c_size_t(0)] if call == "get" else borrowed(texts[1:]))


def called(call, texts, buffer):
    """Makes one call, and wants a result."""
    function = getattr(LIBRARY, f"mergejoin_{call}")
    function.restype = Reply
    reply = function(*words_of(call, texts), buffer, ctypes.c_size_t(len(buffer)), ctypes.c_size_t(SIZE_MAX))
    assert reply.status == RESULT, reply.status


def least(work):
    """Gives the least seconds of some runs of some work, each repeated."""
    begun, count = time.process_time(), 0
    while time.process_time() - begun < LEAST:
        work()
        count += 1
    times = []
    for _ in range(RUNS):
        begun = time.process_time()
        for _ in range(count):
            work()
        times.append((time.process_time() - begun) / count)
    return min(times)


def of_calls(driver):
    print("| texts | call | bytes | nanoseconds for each byte | kB of memory | bytes of memory for each byte |")
    print("|---|---|---:|---:|---:|---:|")
    for what, call, values in shapes():
        texts = [text.encode() for text in values]
        length = sum(map(len, texts))
        buffer = ctypes.create_string_buffer(2 * length + 64)
        seconds = least(lambda: called(call, texts, buffer))
        held = peak(call, texts + [b""] * (call == "get"), RESULT, driver)
        print(f"| {what} | `{call}` | {length:,} | {seconds / length * 1e9:.0f} | {held * length / 1000:,.0f} | {held:.0f} |", flush=True)


def added(texts):
    patches = mergejoin.Patches()
    for text in texts:
        patches.add(text)
    return patches.text()


def one_by_one(texts):
    joined = texts[0]
    for text in texts[1:]:
        joined = mergejoin.join([joined, text])
    return joined


def of_patches():
    print("| patches | bytes of the join | `join` of all | `Patches` | text by text |")
    print("|---:|---:|---:|---:|---:|")
    for count in (100, 1_000, 10_000):
        texts = [f'{{"k{number}":{{"name":"value {number}"}}}}' for number in range(count)]
        joined = mergejoin.join(texts)
        assert added(texts) == joined
        ways = [least(lambda way=way: way(texts)) / count for way in (mergejoin.join, added)]
        if count <= 1_000:
            last = f"{least(lambda: one_by_one(texts)) / count * 1e6:,.0f} us"
        else:
            before = mergejoin.join(texts[:-1])
            last = f"{least(lambda: mergejoin.join([before, texts[-1]])) * 1e6:,.0f} us for the last alone"
        print(f"| {count:,} | {len(joined):,} | {ways[0] * 1e6:.0f} us | {ways[1] * 1e6:.0f} us | {last} |", flush=True)


if __name__ == "__main__":
    with tempfile.TemporaryDirectory() as directory:
        of_calls(driver_in(pathlib.Path(directory)))
    print()
    of_patches()
