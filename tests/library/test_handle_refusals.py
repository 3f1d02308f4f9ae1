"""Each request to the heap of each call of a handle is refused in turn, alone and with all after it, at each stage of a run. What the
handle has then is as the status says, a call that is made again gives what it should, and nothing is left at the end.
"""

import pytest

import driving
from driving import CONFLICT, MORE, NO_MEMORY, PENDING, RESULT, call, each

START = {"k": 0, "m": {"x": [1, "two"]}, "n": {"o": {"p": None}}}
ONE, NEXT = {"a": {"b": 1, "c": {"d": "text"}}, "k": None}, {"a": {"e": [1, {"f": 2}]}, "n": {"o": None}}
OTHER, APART = {"a": {"b": 2, "c": 5}}, {"z": {"y": {"x": "w"}}}
BESIDE = {"y": [{"x": "w"}], "k": None}
# Two that conflict at so many places that the helper's first buffer is too short for them.
LONG = "a long name " * 5
WIDE, WIDER = ({LONG: {f"a member {number:02}": value for number in range(20)}} for value in (1, 2))
MOST, SOME = 400, 40  # more requests than a call makes, and how many are tried in one run of the driver
OF_REPLICA = [call("document"), call("joined"), call("get", 0, b"/a")]
OF_PATCHES = [call("text"), call("kept"), call("text", 1), call("kept", 1)]
STARTED = [call("start", 0, START)]
RECEIVED = [*STARTED, call("receive", 0, ONE)]
ADDED = [call("add", 0, ONE)]
CONFLICTING = [*ADDED, call("add", 0, OTHER)]
BOTH = [*ADDED, call("add", 1, NEXT)]
OF_LOG = [call("log_document"), call("log_conflicts"), call("log_conflicts_of", numbers=[2, 1])]
LOGGED = [call("log_start", 0, START, numbers=[7])]
STORED = [*LOGGED, call("log_receive", 0, ONE, numbers=[7, 1, 1])]
# Two that conflict, and one that conflicts with neither.
THREE_STORED = [*STORED, call("log_receive", 0, OTHER, numbers=[7, 2, 1]), call("log_receive", 0, BESIDE, numbers=[7, 1, 2])]

# Each stage: a title, the calls before, the call whose requests are refused, and the calls that read what it left.
STAGES = {
    "start": ([], call("start", 0, START), OF_REPLICA),
    "start anew": (RECEIVED, call("start", 0, NEXT), OF_REPLICA),
    "start of no document": (RECEIVED, call("start", 0, b'{"a":1.5}'), OF_REPLICA),
    "first receive": (STARTED, call("receive", 0, ONE), OF_REPLICA),
    "next receive": (RECEIVED, call("receive", 0, NEXT), OF_REPLICA),
    "receive again": (RECEIVED, call("receive", 0, ONE), OF_REPLICA),
    "receive of a conflict": (RECEIVED, call("receive", 0, OTHER), OF_REPLICA),
    "receive of a wide conflict": ([*RECEIVED, call("receive", 0, WIDE)], call("receive", 0, WIDER), OF_REPLICA),
    "receive of no document": (RECEIVED, call("receive", 0, b"[1,"), OF_REPLICA),
    "document": (RECEIVED, call("document"), OF_REPLICA),
    "joined": (RECEIVED, call("joined"), OF_REPLICA),
    "get": (RECEIVED, call("get", 0, b"/a/c"), OF_REPLICA),
    "get of nothing": (RECEIVED, call("get", 0, b"/a/c/e"), OF_REPLICA),
    "first add": ([], call("add", 0, ONE), OF_PATCHES),
    "next add": (ADDED, call("add", 0, NEXT), OF_PATCHES),
    "add again": (ADDED, call("add", 0, ONE), OF_PATCHES),
    "add of a conflict": (ADDED, call("add", 0, OTHER), OF_PATCHES),
    "add of a wide conflict": ([*ADDED, call("add", 0, WIDE)], call("add", 0, WIDER), OF_PATCHES),
    "add after a conflict": (CONFLICTING, call("add", 0, APART), OF_PATCHES),
    "add of no document": (ADDED, call("add", 0, b"[1,"), OF_PATCHES),
    "combine": (BOTH, call("combine", 0, b"", 1), OF_PATCHES),
    "combine with none": (ADDED, call("combine", 0, b"", 1), OF_PATCHES),
    "combine of none": ([call("add", 1, ONE)], call("combine", 0, b"", 1), OF_PATCHES),
    "combine with a conflict": ([*ADDED, call("add", 1, OTHER)], call("combine", 0, b"", 1), OF_PATCHES),
    "combine with a wide conflict": ([call("add", 0, WIDE), call("add", 1, WIDER)], call("combine", 0, b"", 1), OF_PATCHES),
    "combine of a conflict": ([*CONFLICTING, call("add", 1, NEXT)], call("combine", 0, b"", 1), OF_PATCHES),
    "combine with one of a conflict": ([*CONFLICTING, call("add", 1, NEXT)], call("combine", 1, b"", 0), OF_PATCHES),
    "text": (BOTH, call("text"), OF_PATCHES),
    "text of a conflict": (CONFLICTING, call("text"), OF_PATCHES),
    "kept": (BOTH, call("kept"), OF_PATCHES),
    "kept of a conflict": (CONFLICTING, call("kept"), OF_PATCHES),
    "from kept": (ADDED, call("from", 0, NEXT), OF_PATCHES),
    "from kept of a conflict": (ADDED, call("from", 0, b'!["/a","/b/c"]'), OF_PATCHES),
    "from kept of none": (ADDED, call("from", 0, b""), OF_PATCHES),
    "from kept of no document": (ADDED, call("from", 0, b"[1,"), OF_PATCHES),
    "start of a log": ([], LOGGED[0], OF_LOG),
    "start of a log anew": (THREE_STORED, call("log_start", 0, NEXT, numbers=[9]), OF_LOG),
    "start of a log of no document": (THREE_STORED, call("log_start", 0, b'{"a":1.5}', numbers=[9]), OF_LOG),
    "first message": (LOGGED, STORED[-1], OF_LOG),
    "next message": (STORED, call("log_receive", 0, NEXT, numbers=[7, 2, 1]), OF_LOG),
    "message of a conflict": (STORED, call("log_receive", 0, OTHER, numbers=[7, 2, 1]), OF_LOG),
    "message of a further conflict": (THREE_STORED, call("log_receive", 0, {"y": 1, "a": 2}, numbers=[7, 0, 1]), OF_LOG),
    "message beside a conflict": (THREE_STORED, call("log_receive", 0, {"w": {"v": [1]}}, numbers=[7, 0, 1]), OF_LOG),
    "message again": (THREE_STORED, STORED[-1], OF_LOG),
    "message of an earlier start": (THREE_STORED, call("log_receive", 0, NEXT, numbers=[6, 3, 1]), OF_LOG),
    "message of a later start": (THREE_STORED, call("log_receive", 0, NEXT, numbers=[8, 3, 1]), OF_LOG),
    "message of no document": (THREE_STORED, call("log_receive", 0, b'{"a":[1.5]}', numbers=[7, 3, 1]), OF_LOG),
    "document of a log": (THREE_STORED, OF_LOG[0], OF_LOG),
    "conflicts of a log": (THREE_STORED, OF_LOG[1], OF_LOG),
    "conflicts of an identity": (THREE_STORED, OF_LOG[2], OF_LOG),
    "decision of a conflict": (THREE_STORED, call("log_decide", numbers=[2, 1, 1, 2, 1, 1]), OF_LOG),
    "decision of a wide conflict": ([*LOGGED, *(call("log_receive", 0, it, numbers=[7, 1, number]) for number, it in enumerate((WIDE, WIDER)))],
                                    call("log_decide", numbers=[1, 1, 1, 0]), OF_LOG),
    "decision": (THREE_STORED, call("log_decide", numbers=[1, 2, 1, 1, 1, 2]), OF_LOG),
    "decision of what is missing": (THREE_STORED, call("log_decide", numbers=[1, 1, 9, 9]), OF_LOG),
}
# What takes a patch, and can leave it pending, by stage, but for those in which nothing is taken or nothing is to be made of it; and
# what may come then.
TAKES = [title for title, (_, line, _) in STAGES.items() if line.split()[0] in ("receive", "add", "combine")]
NEVER_PENDING = {*(title for title in TAKES if "conflict" in title), "receive of no document", "first add", "add again", "add of no document",
                 "combine with none", "combine of none"}
THEN = {
    "receive": ["document", "joined", call("get", 0, b"/a"), call("receive", 0, APART), call("receive", 0, OTHER), call("start", 0, 5), call("free")],
    "add": ["text", "kept", call("add", 0, APART), call("add", 0, OTHER), call("combine", 0, b"", 1), call("combine", 1, b"", 0),
            call("from", 0, NEXT), call("drop")],
}
THEN["combine"] = THEN["add"]


# What finds the places of a conflict. Without memory for them it is a conflict still, and patches hold none of them from then on.
FINDS = {f"{what} {wide}conflict" for what in ("receive of a", "add of a", "combine with a") for wide in ("", "wide ")}
WITHOUT_PLACES = call("from", 0, b"!+[]")


def plain(reply):
    """A reply without what is counted."""
    return reply._replace(refusals=0, stack=0, block=0)


def refused(words, before, line, after):
    """Gives the replies of each script in which a request of a call is refused, from that call on."""
    skipped = sum(not it.startswith("refuse") for it in before)
    for how in (0, 1):
        for first in range(1, MOST, SOME):
            scripts = [[*before, f"refuse {number} {how}", line, *after] for number in range(first, first + SOME)]
            tried = [(number, found) for number, found in enumerate(each(words, scripts), first) if found[skipped].refusals]
            yield from ((number, how, [plain(it) for it in found[skipped:]]) for number, found in tried)
            if len(tried) < SOME:
                break
        else:
            raise AssertionError(f"more than {MOST} requests")


def unrefused(words, *scripts):
    return [[plain(it) for it in found] for found in each(words, scripts)]


def is_answer(reply, wanted):
    """It is what is wanted; or a conflict without memory for the text of its places."""
    return reply == wanted or (wanted.status == CONFLICT and reply == wanted._replace(length=0, places=0, text=""))


def is_without_places(reply, wanted):
    """It is a conflict without memory for its places."""
    return wanted.status == reply.status == CONFLICT and (reply.total, reply.flags) == (0, MORE) and wanted.total and reply.text in ("", "conflict: two patches[]")


def placeless(driver, way, lines):
    """What calls reply on patches that conflict and hold no place."""
    return unrefused([driver, way], [WITHOUT_PLACES, *lines])[0][1:]


@pytest.mark.parametrize("way", ["buffer", "new"])
@pytest.mark.parametrize("title", STAGES)
def test_after_an_allocation_failure_a_handle_has_what_the_status_says(driver, title, way):
    before, line, reads = STAGES[title]
    there, then, twice = unrefused([driver, way], [*before, *reads], [*before, line, *reads], [*before, line, line, *reads])
    wanted, untouched, changed = then[len(before)], there[len(before):], then[len(before) + 1:]
    seen = set()
    for number, how, (reply, *rest) in refused([driver, way], before, line, [*reads, line, *reads]):
        state, again, finally_ = rest[:len(reads)], rest[len(reads)], rest[len(reads) + 1:]
        # The first request of a helper is that of a long buffer, but for patches without a start. A short one serves too.
        assert reply == wanted or (way, number, how) != ("new", 1, 0) or line.split()[0] in ("add", "combine", "from")
        if is_without_places(reply, wanted):
            seen.add("no places")
            after = changed if line.startswith("receive") else placeless(driver, way, reads)
            then = wanted if line.startswith("receive") else placeless(driver, way, [line])[0]
            assert title in FINDS and state == finally_ == after and again == then, (number, how, reply, state, again)
            continue
        seen.add(reply.status)
        if reply.status == NO_MEMORY:
            assert reply[2:8] == (0, 0, 0, 0, 0, 0) and reply.text == "" and state == untouched, (number, how, reply, state)
        elif reply.status == PENDING:
            assert title in TAKES and reply.text == "pending" and state == changed, (number, how, reply, state)
        else:
            assert is_answer(reply, wanted) and state == changed, (number, how, reply, state)
        assert again == (wanted if reply.status == NO_MEMORY else twice[len(before) + 1]), (number, how, again)
        assert finally_ == changed == twice[len(before) + 2:], (number, how, finally_)
    assert ("no places" in seen) == (title in FINDS)
    print(f"{title}: statuses {sorted(map(str, seen))}")


@pytest.mark.parametrize("title", [title for title in TAKES if "wide" not in title])
def test_what_is_pending_is_not_lost(driver, title):
    """A patch that is pending is still there after each call that may come, also if memory runs out in that one. It is pending after
    the first requests, the last, and some between."""
    before, line, reads = STAGES[title]
    pending = [(number, how) for number, how, (reply, *_) in refused([driver], before, line, reads) if reply.status == PENDING]
    assert bool(pending) == (title not in NEVER_PENDING)
    for number, how in [*pending[:2], *pending[2:-2:9], *pending[-2:]]:
        first = [*before, f"refuse {number} {how}", line]
        for then in THEN[line.split()[0]]:
            then = then if " " in then else call(then)
            plainly, after = unrefused([driver], [*before, line, *reads], [*before, line, then, *reads])
            untouched, wanted, changed = plainly[len(before) + 1:], after[len(before) + 1], after[len(before) + 2:]
            for place, refuses, (reply, *state) in refused([driver], first, then, reads):
                trouble = (title, number, how, then, place, refuses, reply, state)
                if reply.status == NO_MEMORY:
                    assert state == untouched, trouble
                elif is_without_places(reply, wanted):
                    assert state == (changed if then.startswith("receive") else placeless(driver, "buffer", reads)), trouble
                else:
                    assert state == changed and (reply.status == PENDING or is_answer(reply, wanted)), trouble


@pytest.mark.parametrize("title", STAGES)
def test_an_allocation_failure_reads_nothing_that_is_not_its_own(driver, valgrind, title):
    """Under valgrind, with each seventh request refused."""
    before, line, reads = STAGES[title]
    scripts = [[*before, f"refuse {number} {how}", line, *reads] for how in (0, 1) for number in range(1, 100, 7)]
    assert each([*driving.MEMCHECK, driver], scripts)


def test_some_conflict_is_wide_and_each_call_that_takes_is_tried():
    """The stages are what they are meant to be."""
    first_buffer = 2 * len(driving.written(WIDE)) + 256 + 64
    assert 2 * len(driving.written([f"/{LONG}/{name}" for name in WIDE[LONG]])) > first_buffer
    assert {STAGES[title][1].split()[0] for title in TAKES} == set(THEN)
    assert (RESULT, CONFLICT) == (0, 1)
