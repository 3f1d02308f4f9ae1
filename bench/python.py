#!/usr/bin/env python3
"""Prints the table of docs/FROM-PYTHON.md of the package for Python next to Python alone: the same over json, in fifteen lines.

    PYTHONPATH=FOLDER /usr/bin/python3 bench/python.py

FOLDER has the package mergejoin (`pip install --target FOLDER` of its wheel). A time is the least of some runs, of the processor, taken by
turns. Nothing else should run on the machine.
"""

import json
import pathlib
import sys
import time

sys.path.insert(0, str(pathlib.Path(__file__).resolve().parents[1] / "tests/common"))
import mergejoin
from mergejoin import objects
from model import merged

TURNS, LEAST = 9, 0.05  # turns of each, and the seconds that one takes at least


def written(value):
    return json.dumps(value, ensure_ascii=False, separators=(",", ":"), sort_keys=True)


def united(one, other):
    """The join of two merge patches that are compatible."""
    if not (isinstance(one, dict) and isinstance(other, dict)):
        if one != other:
            raise ValueError("the patches conflict")
        return one
    one = dict(one)
    for name, value in other.items():
        one[name] = united(one[name], value) if name in one else value
    return one


def join(texts):
    joined = json.loads(texts[0])
    for text in texts[1:]:
        joined = united(joined, json.loads(text))
    return written(joined)


def merge(document, texts):
    document = json.loads(document)
    for text in texts:
        document = merged(document, json.loads(text))
    return written(document)


def merge_shared(document, patches):
    for patch in patches:
        document = merged(document, patch)
    return document


def merge_copied(document, patches):
    """The result shares nothing with what is given, as that of mergejoin.objects."""
    return merge_shared(*json.loads(json.dumps([document, patches])))


SMALL = {"title": "Notes", "author": {"name": "Ada", "mail": "ada@example.org"}, "tags": ["a", "b"], "visits": 12}
PATCH = {"author": {"mail": None, "name": "Bob"}, "visits": 13}
RECORDS = {f"user{number}": {"name": f"name {number}", "tags": ["a", "b"], "visits": number} for number in range(100)}


def rows():
    """Gives what is called in words, the call of the package, that of Python alone, and what both are given."""
    yield "`merge` of a small document and a patch", mergejoin.merge, merge, [written(SMALL), [written(PATCH)]]
    for count in (1, 10, 1_000):
        texts = [f'{{"k{number}":{{"name":"value","n":{number}}}}}' for number in range(count)]
        yield f"`join` of {count:,} small patch{'es' if count > 1 else ''}", mergejoin.join, join, [texts]
    yield "`merge` of a document of 100 records and a patch", mergejoin.merge, merge, [written(RECORDS), [written({"user7": None})]]
    small = "`objects.merge` of a small document and a patch", objects.merge, [SMALL, [PATCH]]
    large = ("`objects.merge` of a document of 100 records and 100 patches", objects.merge,
             [RECORDS, [{name: {"visits": number}} for number, name in enumerate(RECORDS)]])
    for what, ours, given in small, large:
        yield what, ours, merge_copied, given
        yield "the same, next to a result that shares parts", ours, merge_shared, given


def seconds(call, given, count):
    begun = time.process_time()
    for _ in range(count):
        call(*given)
    return (time.process_time() - begun) / count


def least(calls, given):
    """Gives the least seconds of each of two calls, which take turns."""
    count = 1
    while seconds(calls[0], given, count) * count < LEAST:
        count *= 2
    return [min(times) for times in zip(*[[seconds(call, given, count) for call in calls] for _ in range(TURNS)])]


def main():
    print("| call | Python alone | `mergejoin` | of it |")
    print("|---|---:|---:|---:|")
    for what, ours, alone, given in rows():
        if ours(*given) != alone(*given):
            sys.exit(f"{what} gives another result")
        with_us, without = least([ours, alone], given)
        print(f"| {what} | {without * 1e6:,.1f} us | {with_us * 1e6:,.1f} us | {with_us / without:.2f} |", flush=True)


if __name__ == "__main__":
    main()
