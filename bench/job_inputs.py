#!/usr/bin/env python3
"""Prints the input of one job of `bench/run`.

    bench/job_inputs.py SHAPE SIZE

The size is in bytes, nearly, for a document and a merge patch of texts, of small
objects (points), of arrays of numbers (rows), 100 levels deep (deep), of objects of one
name, nested (chains), or where the patch touches every name (touched), for two
patches that conflict at every name (conflicts), and for one document alone: a mixed one
(document), small objects (small), and an array of true, null, [] and {} (empties); and for
a document of half of them with a JSON Patch (edits). It is
the number of operations of a JSON Patch: on a document of 300 kB (patch), of moves of
members (moves) and of one large value to and fro (large), and of copies of arrays (arrays)
and of small objects (objects); and of patches for join and replay (join, replay) and for
a join where the last patch conflicts with the fourth (conflict). A number is that number. The
same arguments always give the same bytes.
"""

import sys

from inputs import merge_input
from list_inputs import Lists
from patch_inputs import patch_input
from values import Numbers, members_of, moved_point, point, printed, row, setting, text

LEVELS = 100


def sized(make, limit):
    """What is made of as many names as have about that many bytes."""
    names = 100
    for _ in range(3):
        names = names * limit // len(printed(make(names)).encode())
    return make(names)


def pair(names, *values, touched=60):
    """A document of one large object and a patch of it."""
    numbers = Numbers()
    document, patch = members_of(numbers, names, "name-", *values, touched=touched)
    return [document, numbers.disordered(patch)]


def deep(names):
    """A document that has that many names at each level, and the next level as one more."""
    numbers = Numbers()
    document, patch = members_of(numbers, names, "name-", setting)
    for _ in range(LEVELS - 1):
        inner = document, patch
        document, patch = members_of(numbers, names, "name-", setting)
        document["next"], patch["next"] = inner
        patch = numbers.disordered(patch)
    return [document, patch]


def lists(count):
    """Small patches, so that the most of them are an input with a start."""
    return Lists(count // 2, share=2)


def replay(count):
    drawn = lists(count)
    return [drawn.start(), *drawn.patches(count)]


def conflict(count):
    """Compatible patches, but the last changes otherwise what the fourth changes."""
    patches = lists(count).patches(count)
    patches[-1] = {user: dict.fromkeys(names, "otherwise") for user, names in patches[3].items()}
    return patches


def chain(value, levels=20):
    """Nested objects of one name."""
    for _ in range(levels):
        value = {"in": value}
    return value


def chains(names):
    document = {f"name-{number:06}": chain(number) for number in range(names)}
    patch = {f"name-{number:06}": chain(-number - 1) for number in range(0, names, 2)}
    return [document, patch]


def conflicts(names):
    return [{f"name-{number:06}": word for number in range(names)} for word in ("one", "other")]


def operations_on(document, count, operation):
    return [document, [operation(number) for number in range(count)]]


def moves(count):
    document = {f"name-{number:06}": [number] for number in range(count)}
    return operations_on(document, count, lambda number: {"op": "move", "from": f"/name-{number:06}", "path": f"/moved-{number:06}"})


def large(count):
    places = ["/a", "/b"]
    return operations_on({"a": [0] * 50_000}, count, lambda number: {"op": "move", "from": places[number % 2], "path": places[(number + 1) % 2]})


def copies(count, value):
    return operations_on({"a": value}, count, lambda number: {"op": "copy", "from": "/a", "path": f"/copy-{number:06}"})


SHAPES = {
    "chains": lambda size: sized(chains, size),
    "conflicts": lambda size: sized(conflicts, size),
    "moves": moves,
    "large": large,
    "arrays": lambda count: copies(count, list(range(100))),
    "objects": lambda count: copies(count, [{"x": number, "y": -number} for number in range(50)]),
    "small": lambda size: sized(lambda names: [[{"x": number, "y": -number} for number in range(names)]], size),
    "empties": lambda size: sized(lambda names: [[True, None, [], {}] * names], size),
    "texts": lambda size: sized(lambda names: pair(names, text), size),
    "points": lambda size: sized(lambda names: pair(names, point, moved_point), size),
    "rows": lambda size: sized(lambda names: pair(names, row), size),
    "deep": lambda size: sized(deep, size),
    "touched": lambda size: sized(lambda names: pair(names, setting, touched=100), size),
    "document": lambda size: sized(lambda names: merge_input(names)[:1], size),
    "patch": lambda count: patch_input(count, 300_000),
    "edits": lambda size: patch_input(size // 200, size // 2),
    "join": lambda count: lists(count).patches(count),
    "replay": replay,
    "conflict": conflict,
    "number": lambda number: [number],
}


if __name__ == "__main__":
    print(printed(SHAPES[sys.argv[1]](int(sys.argv[2]))))
