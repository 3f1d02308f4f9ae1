"""No call gives up at one size alone: each count of patches, operations and places up to MOST, and of elements, members, bytes and
levels up to MOST_PARTS, is answered by the library and by the program with what it has to be.
"""

import concurrent.futures
import json
import os

import pytest
from calls import PROGRAM, has_library, is_proved, run
from counting import driver_in, input_of
from rows import names, reply_of, text_of

MOST, MOST_PARTS = 130, 70
NO_ANSWER = 3  # the status of the program where it is out of memory, too
START = {"a": 0}


def lists(count):
    """Of so many patches. Each row has what it is of, the export, the values, the status and the document of the reply."""
    apart = [{name: number} for number, name in enumerate(names(count, 0))]
    joined = {name: number for patch in apart for name, number in patch.items()}
    yield "patches of a join", "join", apart, *((0, joined) if count else (2, None))
    yield "equal patches of a join", "join", [{"n": [count]}] * count, *((0, {"n": [count]}) if count else (2, None))
    for export in ("replay", "merge"):
        yield f"patches of a {export}", export, [START, *apart], 0, START | joined
    for export, start in (("join", []), ("replay", [START])):
        yield f"patches before a conflict, {export}", export, [*start, {"z": 1}, *apart, {"z": 2}], 1, ["/z"]


def places(count):
    """Of so many operations, conflicts and edits."""
    numbers = list(range(count))
    adds = [{"op": "add", "path": "/-", "value": number} for number in numbers]
    yield "operations", "patch", [[], adds], 0, numbers
    yield "operations before one that is refused", "patch", [[], [*adds, {"op": "remove", "path": f"/{count}"}]], 3, "missing"
    yield "operations before one that is malformed", "patch", [[], [*adds, {"op": "add", "path": "/-"}]], 7, "no value"
    for export, start in (("join", []), ("replay", [START])):
        clash = 1, [f"/{name}" for name in names(count, 0)]
        yield f"conflicts, {export}", export, [*start, names(count, 1), names(count, 2)], *(clash if count else (0, START if start else {}))
    edits = [{"op": op, "path": f"/{name}", "value": value} for op, value in (("test", 1), ("replace", 2)) for name in names(count, 0)]
    yield "edits", "rewrite", [names(count, 1), names(count, 2)], 0, edits


def parts(count):
    """Of a value with so many parts, wherever a call reads, copies, compares and writes it."""
    values = {"elements": ["text"] * count, "numbers": list(range(count)), "members": names(count, "text"), "bytes": "x" * count,
              "bytes of a name": {"x" * count: 1}, "arrays": [[0]] * count, "objects": [{"a": 0}] * count}
    if count > 0:
        values |= {"levels of arrays": json.loads("[" * count + "]" * count), "levels of objects": json.loads('{"a":' * count + "0" + "}" * count)}
    for what, value in values.items():
        yield f"{what}, get", "get", [value], 0, value
        yield f"{what}, merge", "merge", [0, {"a": value}], 0, {"a": value}
        yield f"{what}, join", "join", [{"a": value}, {"b": value}, {"b": value}], 0, {"a": value, "b": value}
        yield f"{what}, replay", "replay", [{"a": value}, {"b": value}, {"b": value}], 0, {"a": value, "b": value}
        yield f"{what}, rewrite", "rewrite", [{}, {"a": value}], 0, [{"op": "add", "path": "/a", "value": value}]
        operations = [{"op": "add", "path": "/b", "value": value}, {"op": "copy", "from": "/b", "path": "/c"}, {"op": "test", "path": "/c", "value": value}]
        yield f"{what}, patch", "patch", [{"a": value}, operations], 0, {"a": value, "b": value, "c": value}


def rows():
    for kind, most in ((lists, MOST), (places, MOST), (parts, MOST_PARTS)):
        for count in range(most + 1):
            for what, *row in kind(count):
                yield count, what, *row


def wanted(status, document):
    """The status and the text of the reply."""
    return status, document if status in (3, 7) else "no patches" if document is None else text_of(document)


def by_library(driver, export, values):
    texts = [text_of(value).encode() for value in values] + ([b""] if export == "get" else [])
    status, text = run([driver], input_of(export, texts))[:2]
    if status == 0:
        return status, text
    line, bracket, array = text.partition("[")  # (which is in no place)
    said = reply_of(line, status)[3]
    return status, said if bracket + array in ("", said) else text


def by_program(program, export, values):
    status, *streams = run([program, export] + ([""] if export == "get" else []), text_of(values))
    line = "".join(streams).removesuffix("\n")
    if status == NO_ANSWER:
        return status, line
    status, _, _, text = reply_of(line, status)
    return status, text


@pytest.fixture(scope="module", params=[by_library, by_program], ids=["library", "program"], name="call")
def what_is_called(request, tmp_path_factory):
    assert has_library() if request.param is by_library else is_proved()
    path = driver_in(tmp_path_factory.mktemp("sizes")) if request.param is by_library else PROGRAM
    return lambda export, values: request.param(path, export, values)


def test_each_size_is_answered(call):
    def fault_of(row):
        count, what, export, values, status, document = row
        seen = call(export, values)
        return None if seen == wanted(status, document) else f"{count} {what}: {seen[0]}, {seen[1][:80]}"

    with concurrent.futures.ThreadPoolExecutor(len(os.sched_getaffinity(0))) as pool:
        faults = [fault for fault in pool.map(fault_of, rows()) if fault]
    assert not faults, "\n".join(faults[:20])
