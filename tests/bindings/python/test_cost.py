"""A patch that a Replica refuses costs about what one costs that it receives: the call is made once, since the places fit into the first
buffer."""

import pytest
from counting import instructions
from package import environment

EXTENSION, TIMES = "_library.abi3.so", 50
PROGRAM = f"""
import json, sys, mergejoin
from contextlib import suppress

def patch(value, name="name"):
    return json.dumps({{f"{{name}} {{number}}": value for number in range(40)}})

given = {{"none": [], "refused": [patch(2)], "received": [patch(1, "other")], "repeated": [patch(1)]}}[sys.argv[1]]
for _ in range({TIMES}):
    replica = mergejoin.Replica("{{}}")
    for text in [patch(1), *given]:
        with suppress(mergejoin.Conflict):
            replica.receive(text)
"""


@pytest.fixture(name="cost", scope="module")
def instructions_of_a_patch(wheel, valgrind, tmp_path_factory):
    """What a patch of each kind takes in the extension, in which the library is, after one with as many names."""
    python = environment(tmp_path_factory.mktemp("cost"), wheel)
    kinds = ("none", "refused", "received", "repeated")
    none, *others = (instructions([python, "-I", "-c", PROGRAM, kind], EXTENSION) / TIMES for kind in kinds)
    return {kind: cost - none for kind, cost in zip(kinds[1:], others)}


@pytest.mark.parametrize("kind,times", [("received", 1.15), ("repeated", 1.25)])
def test_a_refused_patch_costs_little_more_than_an_accepted_one(cost, kind, times):
    """A repeat is the cheapest, since it changes nothing: a patch that is refused after two calls takes twice as much."""
    assert cost["refused"] <= times * cost[kind], cost
