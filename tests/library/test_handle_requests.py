#!/usr/bin/python3
"""How often each call on a handle, and each of the six calls within a limit, asks the heap, of each size from 0 to 20.
handle_requests.txt keeps the numbers, so that a body that makes an answer twice, or a copy, shows; and
`tests/library/test_handle_requests.py --write` makes it anew.
"""

import pathlib
import sys
import tempfile

import pytest

HERE = pathlib.Path(__file__).resolve().parent
sys.path[:0] = [str(HERE.parent / "common"), str(HERE)]
import driving
from calls import has_library
from driving import CONFLICT, RESULT, call, call_of, last

KEPT = HERE / "handle_requests.txt"
HEAD = "# Of each call, how often it asks the heap on sizes from 0 to 20. Made by tests/library/test_handle_requests.py --write.\n"
SIZES = range(21)


def names(size, value, first="n"):
    """An object of so many members."""
    return {f"{first}{number:02}": value for number in range(size)}


def logged(size, sender, value):
    """Messages of one sender for start 0, each of which says something at a place of its own."""
    return [call("log_receive", 0, {f"n{number:02}": value}, 0, (0, sender, number)) for number in range(size)]


def replicas(size):
    started = [call("start", 0, names(size, "old"))]
    received = [*started, call("receive", 0, names(size, ["new"], "m"))]
    yield "start", [], call("start", 0, names(size, "old"))
    yield "receive", started, call("receive", 0, names(size, ["new"], "m"))
    yield "receive again", received, call("receive", 0, names(size, ["new"], "m"))
    yield "receive in conflict", received, call("receive", 0, names(size, ["other"], "m"))
    yield "document", received, call("document")
    yield "joined", received, call("joined")
    yield "get", received, call("get", 0, b"")


def patches(size):
    added = [call("add", 0, names(size, "old"))]
    conflicting = [*added, call("add", 0, names(size, "new"))]
    kept = driving.written(names(size, "old")).encode()
    yield "add", [], call("add", 0, names(size, "old"))
    yield "add in conflict", added, call("add", 0, names(size, "new"))
    yield "combine", [*added, call("add", 1, names(size, ["new"], "m"))], call("combine", 0, b"", 1)
    yield "text", added, call("text")
    yield "text of a conflict", conflicting, call("text")
    yield "kept", added, call("kept")
    yield "kept of a conflict", conflicting, call("kept")
    yield "from", [], call("from", 0, kept)


def logs(size):
    started = [call("log_start", 0, names(size, "old"), 0, (0,))]
    stored = [*started, *logged(size, 1, "new")]
    conflicting = [*stored, *logged(size, 2, "other")]
    identities = [it for number in range(size) for it in (1, number)]
    yield "log_start", [], call("log_start", 0, names(size, "old"), 0, (0,))
    yield "log_receive", stored, call("log_receive", 0, {"m": 1}, 0, (0, 3, 0))
    yield "log_receive again", [*stored, call("log_receive", 0, {"m": 1}, 0, (0, 3, 0))], call("log_receive", 0, {"m": 1}, 0, (0, 3, 0))
    yield "log_document", stored, call("log_document")
    yield "log_document with conflicts", conflicting, call("log_document")
    yield "log_conflicts", conflicting, call("log_conflicts")
    yield "log_conflicts_of", conflicting, call("log_conflicts_of", numbers=[1, 0])
    yield "log_count", conflicting, call("log_count")
    yield "log_decide", conflicting, call("log_decide", 0, b"", 0, identities)
    yield "log_decide in conflict", conflicting, call("log_decide", 0, b"", 0, [*identities, 2, 0])


def limited(size):
    """The six calls, within a limit that is not reached, and that half of the places of a conflict weigh."""
    old, new, other = names(size, "old"), names(size, ["new"]), names(size, ["new"], "m")
    copies = [{"op": "copy", "from": "/l", "path": "/c"}] * size
    within = ["limit 1000000"]
    yield "join within a limit", within, call_of("join", [old, other])
    yield "replay within a limit", within, call_of("replay", [{}, old, other])
    yield "merge within a limit", within, call_of("merge", [old, other])
    yield "rewrite within a limit", within, call_of("rewrite", [old, new])
    yield "patch within a limit", within, call_of("patch", [{"l": [old]}, copies])
    yield "get within a limit", within, call_of("get", [old, b""])
    yield "join in conflict within a limit", [f"limit {size // 2 * 140}"], call_of("join", [old, new])


def calls(size):
    return [*replicas(size), *patches(size), *logs(size), *limited(size)]


TITLES = [title for title, *_ in calls(0)]


def counted(driver):
    """Gives of each call how often it asks, of each size. None is refused."""
    found = {title: [] for title in TITLES}
    for size in SIZES:
        rows = calls(size)
        for (title, *_), reply in zip(rows, last([driver, "asked"], ([*before, line] for _, before, line in rows))):
            assert reply.status in ((RESULT, CONFLICT) if size else range(12)), (title, size, reply)
            found[title].append(reply.refusals)  # (by `asked` all requests)
    return found


@pytest.fixture(name="found", scope="module")
def what_each_call_asks(driver):
    return counted(driver)


@pytest.mark.parametrize("title", TITLES)
def test_a_call_asks_as_often_as_is_kept(found, title):
    kept = dict(line.split(": ") for line in KEPT.read_text("utf-8").splitlines()[1:])
    assert list(kept) == TITLES and found[title] == list(map(int, kept[title].split()))


if __name__ == "__main__":
    if sys.argv[1:] != ["--write"] or not has_library():
        sys.exit(__doc__)
    with tempfile.TemporaryDirectory() as name:
        directory = pathlib.Path(name)
        lines = counted(driving.compiled(directory, HERE / "driver.c", *driving.WRAPPED))
    KEPT.write_text(HEAD + "".join(f"{title}: {' '.join(map(str, numbers))}\n" for title, numbers in lines.items()), "utf-8")
