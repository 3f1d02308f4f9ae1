"""The instructions of many moves that lead back, which repeat: a `move` does not walk each time what it moves, nor the document that it
leaves.

They are counted for each call that applies a JSON Patch, and given in walks of a list: what a first move takes, of which no depth
is known. What is counted is what the moves take more where the document is large than where it is small. It may be no more walks
than the shape has in SHAPES, which mp_patch needs to measure the document again. `program` is the call of `apply_within` that
the program makes, and the tests of crates/test_vectors make the calls over a `Doc`.
"""

import concurrent.futures
import functools
import json
import os
import subprocess
import tempfile

import pytest
from calls import PROGRAM, TOP, counted

TESTS = TOP / "crates/test_vectors/out/test_vectors_tests"
DEEP = json.loads("[" * 123 + "]" * 123)


def lists(is_large):
    return [[0] * 100] * 1_000 if is_large else [[0]]


def objects(is_large):
    return {f"k{number}": {f"m{member}": 0 for member in range(100)} for number in range(200)} if is_large else {"k": {"m": 0}}


def small_list(is_large):
    return [0] * (10_000 if is_large else 1)


def deep_rest(is_large):
    return {"b": {}, "c": [0] * (400_000 if is_large else 1), "d": DEEP}


# Of each shape: the value that is moved, the document but for the value, the other place, the moves, and the most walks.
SHAPES = {
    "lists to another name": (lists, lambda _: {}, "/b", 2_000, 5),
    "objects to another name": (objects, lambda _: {}, "/b", 2_000, 5),
    "lists a level down and up again": (lists, lambda _: {"b": {}}, "/b/c", 2_000, 14),
    "a small list in a large and deep document": (small_list, deep_rest, "/b/c", 200, 28),
}
LISTS = "lists to another name"
# The calls, each with the shapes that it is given. They share their loop.
CALLS = {
    "program": [*SHAPES],
    "apply_owned": [*SHAPES],
    "apply": [LISTS, "lists a level down and up again"],
    "apply_within": [LISTS, "lists a level down and up again"],
}


@functools.cache
def instructions(call, shape, moves, is_large):
    """Gives the instructions of so many moves of such a document by a call, which lead back to it."""
    make, rest, other, *_ = SHAPES[shape]
    document = {"a": make(is_large), **rest(is_large)}
    there = {"op": "move", "from": "/a", "path": other}
    back = {"op": "move", "from": other, "path": "/a"}
    text = json.dumps([document, [there, back] * (moves // 2)], separators=(",", ":"))
    if call == "program":
        status, printed, count = counted([PROGRAM, "patch"], text)
        line = json.dumps(document, sort_keys=True, separators=(",", ":"))
        assert (status, printed) == (0, f"{line}\n"), "the moves do not lead back"
        return count
    with tempfile.NamedTemporaryFile("w", suffix=".json") as file:
        file.write(text)
        file.flush()
        status, _, count = counted([TESTS, f"moves::{call}_moves_there_and_back"], setting={"MERGEJOIN_MOVES": file.name})
        assert status == 0, (call, shape)
        return count


def walks(call, shape, moves):
    """Gives how many walks of a list so many moves take. Of two moves of it each is a walk: no depth is known."""
    runs = [(call, *kind, is_large) for kind in ((shape, moves), (shape, 0), (LISTS, 2), (LISTS, 0)) for is_large in (True, False)]
    with concurrent.futures.ThreadPoolExecutor(len(os.sched_getaffinity(0))) as pool:
        counts = list(pool.map(lambda run: instructions(*run), runs))
    taken, first = (large - small - (large_alone - small_alone) for large, small, large_alone, small_alone in (counts[:4], counts[4:]))
    return taken / (first / 2)


@pytest.fixture(name="built", scope="module")
def what_is_built(valgrind, program):
    """The program, and the tests of the crate, which `rt ci` has left, proved and built."""
    if not TESTS.exists():
        subprocess.run(["rt", "test"], cwd=TOP / "crates/test_vectors", stdout=subprocess.DEVNULL, check=True)


@pytest.mark.parametrize("call,shape", [(call, shape) for call, shapes in CALLS.items() for shape in shapes])
def test_moves_take_few_walks(built, call, shape):
    moves, most = SHAPES[shape][3:]
    assert walks(call, shape, moves) <= most
