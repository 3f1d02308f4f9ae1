"""Each public call that neither the program nor the library makes, under a failing allocator. The program crates/allocation_failures
makes the call that its word names once, and makes no request to the heap of its own.

It prints what it saw of the call: `answer`, the one that is wanted; `out of memory`, with what was borrowed as it was; or `unprepared`,
if memory for what the call is given was refused and nothing was seen. For N = 1, 2, .. to the first request that is not reached,
request N is refused, and then each request from N on. A call that takes memory prints one of the three at each N, `answer` at the N that
is not reached, and `out of memory` at some N. A call that takes none (module without_memory) prints `answer` at the first N at which
its preparation is whole, with no request refused. Each run ends by itself, and gives back as many blocks as it asked for. The numbers of
runs, which show how many requests were made, are kept: a call that asks more often than it did shows.
"""

import pytest
from calls import run
from measuring import CALLS, kept, public_calls, refused_in_turn, watched, WANT

KEPT = kept(CALLS)


def test_each_call_is_listed_and_kept(caller):
    listed = run([caller])[1].split()
    assert listed == list(KEPT)
    assert sorted(public_calls()) == sorted(listed)


@pytest.mark.parametrize("call", [call for call in public_calls() if not call.startswith("seeded::")])
def test_each_request_is_refused_in_turn(heap, caller, call):
    counts, wrong = watched(heap, call)
    assert wrong == []
    assert counts == KEPT[call]


@pytest.mark.parametrize("call", [call for call in public_calls() if call.startswith("seeded::")])
def test_a_mutant_is_noticed(heap, caller, call):
    assert watched(heap, call)[1]


def test_a_heap_that_refuses_nothing_is_noticed(heap, caller):
    assert WANT not in refused_in_turn(heap, "documents::read_docs", "REFUSE_NOTHING")[0]
