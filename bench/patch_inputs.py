#!/usr/bin/env python3
"""Prints the input of `patch` for the benchmark: an array of a document and a JSON Patch.

    bench/patch_inputs.py OPERATIONS BYTES

The document has that many bytes, or up to a kilobyte more: accounts under names, a
log that is an array of objects with arrays of arrays, and a few names to escape in a
pointer. The patch has that many operations, of the six kinds in equal parts, at
random places at least two steps deep, in arrays and in objects; each succeeds on what
the ones before it leave. The same arguments always give the same bytes.
"""

import json
import sys

from values import Numbers, account, printed, setting

KINDS = ["add", "remove", "replace", "move", "copy", "test"]


def event(numbers):
    """An event of the log: an object with an array of arrays."""
    rows = [[numbers.below(10**6), numbers.words(2), None] for _ in range(numbers.below(8))]
    return {"at": numbers.below(2**31), "text": numbers.words(8), "rows": rows}


def document_of(numbers, limit):
    document = {"accounts": {}, "log": [], "settings": {}}
    for place in range(50):
        document["settings"][f"group/{place % 5}~{place}"] = setting(numbers)
    size = len(printed(document).encode())
    while size < limit:
        name, value, happened = f"account-{len(document['log']):06}", account(numbers), event(numbers)
        document["accounts"][name] = value
        document["log"].append(happened)
        size += len(printed([{name: value}, happened]).encode()) - 2
    return document


def pointer(path):
    return "".join("/" + str(step).replace("~", "~0").replace("/", "~1") for step in path)


def part(document, path):
    for step in path:
        document = document[step]
    return document


def some_place(numbers, document):
    """The path of a part that is there."""
    path, value = [], document
    while isinstance(value, (dict, list)) and value and (len(path) < 2 or numbers.chance(75)):
        steps = list(value) if isinstance(value, dict) else range(len(value))
        path.append(steps[numbers.below(len(steps))])
        value = value[path[-1]]
    return path if len(path) > 1 else some_place(numbers, document)


def some_path(numbers, document):
    """A path where a value can be added: inside of some part, or else next to it."""
    path = some_place(numbers, document)
    if not isinstance(part(document, path), (dict, list)) or numbers.chance(50):
        path = path[:-1]
    container = part(document, path)
    if isinstance(container, dict):
        return [*path, f"new-{numbers.below(1000):03}"]
    return [*path, "-" if numbers.chance(20) else numbers.below(len(container) + 1)]


def put(document, path, value):
    """Adds the value at the path, or where a name has one replaces that."""
    container, step = part(document, path[:-1]), path[-1]
    if isinstance(container, dict):
        container[step] = value
    else:
        container.insert(len(container) if step == "-" else step, value)


def copied(value):
    return json.loads(json.dumps(value))


def some_value(numbers):
    return event(numbers) if numbers.chance(25) else setting(numbers)


def operation(numbers, kind, document):
    """An operation of that kind that succeeds, and does it."""
    if kind == "add":
        path, value = some_path(numbers, document), some_value(numbers)
        put(document, path, copied(value))
        return {"op": kind, "path": pointer(path), "value": value}
    place = some_place(numbers, document)
    container, step = part(document, place[:-1]), place[-1]
    if kind == "test":
        return {"op": kind, "path": pointer(place), "value": copied(container[step])}
    if kind == "replace":
        container[step] = some_value(numbers)
        return {"op": kind, "path": pointer(place), "value": copied(container[step])}
    if kind == "remove":
        del container[step]
        return {"op": kind, "path": pointer(place)}
    value = copied(container[step])
    if kind == "move":
        del container[step]
    path = some_path(numbers, document)
    # A value can't be moved into itself, so it may not look like that.
    while kind == "move" and path[: len(place)] == place:
        path = some_path(numbers, document)
    put(document, path, value)
    return {"op": kind, "from": pointer(place), "path": pointer(path)}


def patch_input(count, limit):
    """A document and a JSON Patch of it."""
    numbers = Numbers()
    document = document_of(numbers, limit)
    start = copied(document)
    kinds = numbers.shuffled((KINDS * (count // len(KINDS) + 1))[:count])
    return [start, [operation(numbers, kind, document) for kind in kinds]]


if __name__ == "__main__":
    print(printed(patch_input(int(sys.argv[1]), int(sys.argv[2]))))
