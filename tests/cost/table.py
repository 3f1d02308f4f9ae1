"""The calls of the library for C whose cost is kept: a title, the export, with " within" behind it for a call within a limit, the
texts and the status of the reply.

Each way through the library has a row in which it is a large part of the cost: so a second walk, or a copy that is not needed,
makes some count a twentieth larger.
"""

import json

from rows import names, text_of

ANSWERED, CONFLICT, BAD_PATCH = 0, 1, 6  # statuses of a reply
LISTS = ("join", "replay", "merge")
COUNTS = (2, 31, 33, 40, 1000)
START = {"k": 0}
DEEP = json.loads("[" * 120 + "]" * 120)


def small(number):
    return {f"service{number}": {"limits": {"cpu": number}}}


def flat(number):
    return {f"k{number}_{part}": f"value {part} of the text" for part in range(200)}


def long(number):
    return {f"k{number}": "lorem ipsum dolor sit amet " * 300}


def numbers(number):
    return {f"k{number}": [37 * part for part in range(1000)]}


def literals(number):
    return {f"k{number}": [True, None, [], {}] * 400}


LARGE = (flat, long, numbers, literals)
# How the titles begin of the calls that are counted within a limit too.
WEIGHED = ("join of objects that conflict at 1000", "patch of one operation on a", "patch of 1000", "patch of 200", "rewrite of 1000",
           "rewrite into nothing of 1000", "patch that sets a literals", "rewrite that sets a literals")


def with_value(patch, value):
    """A patch with one more name, so that two with different values conflict."""
    return patch | {"z": value}


def given(export, patches):
    """The documents that an export takes, of which a start or a document comes first but for a join."""
    return patches if export == "join" else [START, *patches]


def distinct():
    """Lists of patches that have no name in common."""
    for export in LISTS:
        for count in COUNTS:
            yield f"{export} of {count} small texts", export, given(export, [small(number) for number in range(count)])
        for count in (2, 33):
            for kind in LARGE:
                yield f"{export} of {count} {kind.__name__} texts", export, given(export, [kind(number) for number in range(count)])


def repeated():
    """Lists of one patch again and again."""
    for export in LISTS:
        for count in COUNTS:
            yield f"{export} of {count} equal small texts", export, given(export, [small(0)] * count)
        for kind in LARGE:
            yield f"{export} of 33 equal {kind.__name__} texts", export, given(export, [kind(0)] * 33)


def conflicting():
    """Lists in which the first two, the last two, or the first and the last conflict."""
    for export in ("join", "replay"):
        for kind, count in [(small, count) for count in COUNTS] + [(kind, 33) for kind in LARGE]:
            for which, pair in (("first two", (0, 1)), ("last two", (count - 2, count - 1)), ("first and last", (0, count - 1))):
                patches = [kind(number) for number in range(count)]
                for place in pair:
                    patches[place] = with_value(patches[place], place)
                if count > 2 or which == "first two":
                    yield f"{export} of {count} {kind.__name__} texts, the {which} conflict", export, given(export, patches)
    yield "join of objects that conflict at 33 names", "join", [names(33, 1), names(33, 2)]
    yield "join of objects that conflict at 1000 names", "join", [names(1000, 1), names(1000, 2)]


def single():
    """One document with one patch, a pointer or a JSON Patch, small and large, and with 25 and 33 parts."""
    large = {f"part{number}": flat(number) for number in range(10)}
    for what, document in (("a small document", small(0)), ("a large document", large)):
        yield f"get of {what}", "get", [document], ""
        yield f"merge of a small text into {what}", "merge", [document, small(1)]
        yield f"replay of a small text on {what}", "replay", [document, small(1)]
        yield f"rewrite of a small text against {what}", "rewrite", [document, small(1)]
        yield f"patch of one operation on {what}", "patch", [document, [{"op": "add", "path": "/x", "value": 1}]]
    for kind in LARGE:
        yield f"get of a {kind.__name__} document", "get", [kind(0)], ""
        yield f"rewrite that sets a {kind.__name__} text", "rewrite", [START, kind(0)]
        yield f"patch that sets a {kind.__name__} text", "patch", [START, [{"op": "add", "path": "/a", "value": kind(0)}]]
        yield f"patch that tests a {kind.__name__} text", "patch", [kind(0), [{"op": "test", "path": "", "value": kind(0)}]]
    for count in (25, 33):
        for what, value in (("elements", ["text"] * count), ("members", names(count, "text"))):
            yield f"get of {count} {what}", "get", [value], ""
            yield f"merge of {count} {what}", "merge", [value, {"a": value}]
            yield f"join of {count} {what}", "join", [{"a": value}, {"b": value}]
            yield f"replay of {count} {what}", "replay", [START, {"a": value}, {"b": value}]
            yield f"rewrite that sets {count} {what}", "rewrite", [START, {"a": value}]
            yield f"patch that sets {count} {what}", "patch", [START, [{"op": "add", "path": "/a", "value": value}]]


def edits():
    """So many operations, and so many places of a rewriting."""
    for count in (25, 33, 1000):
        document = names(count, {"old": [1, 2]})
        for op, more in (("add", {"value": [1]}), ("remove", {}), ("replace", {"value": [1]}), ("test", {"value": {"old": [1, 2]}})):
            operations = [{"op": op, "path": f"/{name}" + ("/x" if op == "add" else ""), **more} for name in document]
            yield f"patch of {count} operations, {op}", "patch", [document, operations]
        for op in ("copy", "move"):
            operations = [{"op": op, "from": f"/{name}/old", "path": f"/{name}/new"} for name in document]
            yield f"patch of {count} operations, {op}", "patch", [document, operations]
        yield f"rewrite of {count} places", "rewrite", [document, names(count, {"new": 1, "old": None})]
        yield f"rewrite into nothing of {count} places", "rewrite", [{}, document]
    there, back = {"op": "move", "from": "/a", "path": "/b/c"}, {"op": "move", "from": "/b/c", "path": "/a"}
    document = {"a": [0] * 10, "b": {}, "c": [0] * 5000, "d": DEEP}
    yield "patch of 200 moves in a deep document", "patch", [document, [there, back] * 100]
    yield "patch of 200 moves in a flat document", "patch", [document | {"d": 0}, [there, back] * 100]


def limited():
    """The calls above in which a limit costs most: of them what is made is weighed."""
    for title, export, *given_to in (*conflicting(), *single(), *edits()):
        if title.startswith(WEIGHED):
            yield f"{title}, within a limit", f"{export} within", *given_to


def documents():
    yield from distinct()
    yield from repeated()
    yield from conflicting()
    yield from single()
    yield from edits()
    yield from limited()


def rows():
    """Gives the rows."""
    for title, export, values, *pointer in documents():
        texts = [text_of(value).encode() for value in values] + [word.encode() for word in pointer]
        yield title, export, texts, CONFLICT if "conflict" in title else ANSWERED
    for export in LISTS:
        for kind, count in [(small, count) for count in COUNTS] + [(kind, 33) for kind in LARGE]:
            texts = [text_of(value).encode() for value in given(export, [kind(number) for number in range(count)])]
            yield f"{export} of {count} {kind.__name__} texts, the last is cut short", export, [*texts[:-1], texts[-1][:-1]], BAD_PATCH


def shapes():
    """Gives the names of values whose arrays may hold spare places while they are read, or whose maps are filled name by name."""
    yield "arrays nested 100 deep", [json.loads("[" * 100 + "1" + "]" * 100)] * 50
    yield "arrays of one", [[1]] * 5000
    yield "arrays of two", [[1, 2]] * 5000
    yield "rows of 9", [[1] * 9] * 1000
    yield "rows of 17", [[1] * 17] * 1000
    yield "a wide object", names(5000, 1)


def peaks():
    """Gives the rows of which the most that is held is kept."""
    for what, value in shapes():
        document, other = {"a": value}, {"b": value}
        copies = [{"op": "copy", "from": "/a", "path": "/c"}]
        for title, export, values, *pointer in (
            (f"get of {what}", "get", [document], "/a"),
            (f"merge of {what}", "merge", [document, other]),
            (f"join of {what}", "join", [document, other]),
            (f"join of {what}, three times", "join", [document] * 3),
            (f"replay of {what}", "replay", [START, document, other]),
            (f"rewrite that sets {what}", "rewrite", [START, document]),
            (f"patch that copies {what}", "patch", [document, copies]),
            (f"patch that sets {what}", "patch", [START, [{"op": "add", "path": "/a", "value": value}]]),
        ):
            texts = [text_of(each).encode() for each in values] + [word.encode() for word in pointer]
            yield f"peak of {title}", export, texts, ANSWERED
