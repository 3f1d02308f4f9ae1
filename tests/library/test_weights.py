"""No shape of a document takes more memory than its weight, which is what a limit counts exactly; and no handle more than the
header says.
"""

import pytest

import driving
from driving import CONFLICT, RESULT, call, call_of, nested, weight

# While an array grows, or moves to a block of its own size, it takes up to so many times its weight. So does what is read of a text, of
# which a string or a name that is read last is there twice.
READING = 2.4
# What a replica takes besides its document, and a call besides what it reads.
BESIDES = 600


def members(count, value):
    return {f"name{number}": value for number in range(count)}


SHAPES = {
    "null": None,
    "number": 2**64 - 1,
    "empty string": "",
    "string of 7": "x" * 7,
    "string of 8": "x" * 8,
    "string of 23": "x" * 23,
    "string of 24": "x" * 24,
    "string of 25": "x" * 25,
    "long string": "x" * 100_000,
    "empty array": [],
    "empty object": {},
    **{f"array of {count}": [0] * count for count in (1, 2, 3, 4, 5, 7, 8, 9, 16, 17, 1000, 1025, 4097)},
    **{f"object of {count}": members(count, 0) for count in (1, 2, 5, 6, 7, 11, 12, 13, 20, 100, 1000)},
    "object of one empty name": {"": 0},
    "objects of one empty name": [{"": 0}] * 500,
    "objects of 12 names": [members(12, 0)] * 50,
    "objects of 7 names": [members(7, 0)] * 80,
    "empty strings": [""] * 1000,
    "empty arrays": [[]] * 1000,
    "arrays of one": [[0]] * 1000,
    "arrays of five": [[0] * 5] * 400,
    "nested arrays": nested(120, 0, lambda inner: [inner]),
    "nested objects": nested(120, 0, lambda inner: {"": inner}),
    "long names": {("x" * 1000) + str(number): 0 for number in range(40)},
}


@pytest.mark.parametrize("shape", SHAPES)
def test_a_document_takes_at_most_its_weight(driver, shape):
    document = SHAPES[shape]
    (start, _, get), (held, freed, read) = driving.replies([driver], [
        call("start", 0, document), "heap", call("free"), "heap", call_of("get", [document, b"/~0"]), "heap"])
    assert (start.status, get.status, freed.held) == (driving.RESULT, driving.MISSING, 0)
    assert held.held <= weight(document) + BESIDES
    assert read.peak <= READING * weight(document) + BESIDES


@pytest.mark.parametrize("shape", [shape for shape in SHAPES if weight(SHAPES[shape]) < 20_000])
def test_a_limit_counts_the_weight(driver, shape):
    document = SHAPES[shape]
    edits = [{"op": "replace", "path": "", "value": document}]
    most = weight(document)
    within, below = driving.last([driver], [[f"limit {limit}", call_of("patch", [None, edits])] for limit in (most, most - 1)])
    assert (within.status, below.status) == (driving.RESULT, driving.TOO_LARGE)


# What a call takes at most for each byte that it reads: to read it, and where it joins or rewrites.
READ, JOINED = 175, 360
WORST = {
    "deep objects": [nested(122, 0, lambda inner: {"": inner})] * 100,
    "a name for each deep object": {f"{number:x}": nested(122, 0, lambda inner: {"": inner}) for number in range(100)},
    "objects of one empty name": [{"": 0}] * 5_000,
    "zeros": [0] * 40_000,
}
CALLS = [("get", lambda it: [it, b"/~0"], READ), ("merge", lambda it: [it, it], READ), ("patch", lambda it: [it, []], READ),
         ("join", lambda it: [it], JOINED), ("join", lambda it: [it, it], JOINED), ("replay", lambda it: [it, it], JOINED),
         ("rewrite", lambda it: [it, {"": 1}], JOINED), ("rewrite", lambda it: [{}, it], JOINED)]


@pytest.mark.parametrize("title", WORST)
def test_a_call_takes_what_it_reads_says(driver, title):
    for export, given, most in CALLS:
        texts = given(WORST[title])
        _, (heap,) = driving.replies([driver], ["capacity 0", call_of(export, texts), "heap"])
        assert heap.peak <= most * sum(len(driving.bytes_of(text)) for text in texts), export


# What a handle holds at most for each byte of its start and of its patches, what the places weigh that patches hold of their conflict, and
# what a log holds for each two patches that conflict.
FOR_A_BYTE, PLACES, PAIR = 350, 65_536, 80
# Patches that are compatible, and patches of which each two conflict.
COMPATIBLE = {
    "one": [members(1_000, 0)],
    "of a name each": [{f"{number:04}": 0} for number in range(1_000)],
    "of a name each, from the end on": [{f"{number:04}": 0} for number in reversed(range(1_000))],
    "of an object each": [{f"{number:x}": {"": 0}} for number in range(1_000)],
    "of deep objects": [{f"{number:x}": nested(124, 0, lambda inner: {"": inner})} for number in range(30)],
    "a deep object": [nested(126, 0, lambda inner: {"": inner})],
    "of long strings": [{f"{number}": "x" * 10_000} for number in range(30)],
    "of long arrays": [{f"{number}": [0] * 1_025} for number in range(30)],
}
CONFLICTING = {
    "at one place": [{"a": number} for number in range(500)],
    "at the root": list(range(500)),
    "at a deep place": [nested(126, number, lambda inner: {"": inner}) for number in range(30)],
    "at many places": [{f"{place:x}": number for place in range(6_000)} for number in range(2)],
    "at long places": [{"~" * 500: {f"{place:x}": number for place in range(200)}} for number in range(2)],
    "at deep places": [nested(120, {f"{place:x}": number for place in range(200)}, lambda inner: {"~": inner}) for number in range(2)],
}
TAKES = {
    "replica": lambda patches: [call("start", 0, {}), *(call("receive", 0, patch) for patch in patches)],
    "patches": lambda patches: [call("add", 0, patch) for patch in patches],
    "log": lambda patches: [call("log_start", 0, {}, numbers=[0]),
                            *(call("log_receive", 0, patch, numbers=[0, 1, number]) for number, patch in enumerate(patches))],
}


# What else of the process may be in use for a while: the buffers of its streams.
BUFFERS = 64_000


def held_by(driver, handle, patches):
    """The last reply, and what the handle holds of the heap, with the heads of its blocks: as mallinfo2 says."""
    found, (before, heap) = driving.replies([driver], ["capacity 0", "limit 1000", "heap", *TAKES[handle](patches), "heap"])
    held = heap.held + 8 * heap.blocks
    assert abs(heap.in_use - before.in_use - held) <= BUFFERS
    return found[-1], held


def allowed(patches):
    return FOR_A_BYTE * sum(len(driving.bytes_of(patch)) for patch in patches) + BESIDES


@pytest.mark.parametrize("handle", TAKES)
@pytest.mark.parametrize("title", COMPATIBLE)
def test_a_handle_holds_what_its_patches_say(driver, handle, title):
    patches = COMPATIBLE[title]
    reply, held = held_by(driver, handle, patches)
    assert reply.status == RESULT
    assert held <= allowed(patches)


@pytest.mark.parametrize("handle", TAKES)
@pytest.mark.parametrize("title", CONFLICTING)
def test_a_conflict_is_held_within_its_bound(driver, handle, title):
    """A replica has the first patch alone, patches have the first places, and a log has each patch and each pair."""
    patches = CONFLICTING[title]
    pairs = len(patches) * (len(patches) - 1) // 2
    reply, held = held_by(driver, handle, patches)
    assert reply.status == (RESULT if handle == "log" else CONFLICT)
    bound = {"replica": held_by(driver, handle, patches[:1])[1], "patches": PLACES + BESIDES, "log": allowed(patches) + PAIR * pairs}
    assert held <= bound[handle]
