"""The inputs whose work is kept: a title, the words of the program or the export of the library, and what they are given.

Some have two sizes. The others have each count from 0 to 20 of patches, operations, members, elements and places, some counts of
more patches, and values whose arrays or objects may hold spare places while they are read.
"""

import json

from rows import many, names, text_of

SIZES, COUNTS, MANY = (40, 160), range(21), (31, 32, 33, 40, 64, 80)


def sized(count):
    """Gives a name, the words and the elements of the input, of each shape that is met in two sizes."""
    parts = names(count, {"text": "a text of some length", "list": [1, "two", None], "more": {"x": True}})
    changes = names(count, {"text": None, "list": [3, "four"], "new": {"y": {"z": "deep"}}})
    yield "get of a part", ["get", f"/n{count // 2:04}/list"], [parts]
    yield "get of the whole", ["get", ""], [parts]
    yield "get of nothing", ["get", "/x"], [parts]
    yield "merge", ["merge"], [parts, changes]
    yield "merge of many patches", ["merge"], [parts] + [{name: change} for name, change in changes.items()]
    yield "merge of texts", ["merge"], [names(count, "old"), names(count, "new")]
    yield "join of two", ["join"], [parts, names(count, {"other": [1]})]
    yield "join of many", ["join"], [{name: part} for name, part in parts.items()] * 2
    yield "join of many, one name", ["join"], [{"a": {name: part}} for name, part in parts.items()]
    yield "join, the last clashes", ["join"], [{name: part} for name, part in parts.items()] + [{"n0003": 5}]
    yield "join, all clash", ["join"], [names(count, 1), names(count, "two")]
    yield "replay", ["replay"], [parts] + [{name: change} for name, change in changes.items()]
    yield "replay, the last clashes", ["replay"], [parts] + [{name: 1} for name in changes] + [{"n0003": 5}]
    yield "rewrite", ["rewrite"], [parts, changes]
    yield "rewrite into nothing", ["rewrite"], [{}, parts]
    operations = [{"op": "test", "path": f"/{name}/list", "value": part["list"]} for name, part in parts.items()]
    yield "patch, tests", ["patch"], [parts, operations]
    operations = [{"op": "add", "path": f"/{name}/new", "value": ["a", {"b": "c"}]} for name in parts]
    yield "patch, adds", ["patch"], [parts, operations]
    operations = [{"op": "replace", "path": f"/{name}/text", "value": {"now": "an object"}} for name in parts]
    yield "patch, replaces", ["patch"], [parts, operations]
    operations = [{"op": "remove", "path": f"/{name}"} for name in parts]
    yield "patch, removes", ["patch"], [parts, operations]
    operations = [{"op": "move", "from": f"/{name}/list", "path": f"/{name}/text"} for name in parts]
    yield "patch, moves over texts", ["patch"], [parts, operations]
    operations = [{"op": "copy", "from": f"/{name}/list", "path": f"/{name}/more"} for name in parts]
    yield "patch, copies over objects", ["patch"], [parts, operations]
    yield "patch, of an array", ["patch"], [["text"] * count, [{"op": "remove", "path": "/0"}] * count]


START_DOC = {"a": {"b": "old"}, "k": 0}
# Operations that run one after another, again and again.
STEPS = [
    {"op": "add", "path": "/x", "value": {"y": 1}},
    {"op": "test", "path": "/x/y", "value": 1},
    {"op": "replace", "path": "/x/y", "value": "text"},
    {"op": "copy", "from": "/x", "path": "/z"},
    {"op": "move", "from": "/z", "path": "/w"},
    {"op": "remove", "path": "/w"},
]


def lists(count):
    """Gives a name, the words and the elements of so many patches, operations and places, as the program and the library take
    them."""
    patches = [{name: "text"} for name in names(count, None)]
    operations = [STEPS[number % len(STEPS)] for number in range(count)]
    clashing = [names(count, 1), names(count, "two")]
    yield f"merge of {count} patches", ["merge"], [START_DOC, *patches]
    yield f"join of {count} patches", ["join"], patches
    yield f"replay of {count} patches", ["replay"], [START_DOC, *patches]
    yield f"patch of {count} operations", ["patch"], [START_DOC, operations]
    yield f"patch, operation {count} is refused", ["patch"], [START_DOC, [*operations, {"op": "remove", "path": "/b"}]]
    yield f"patch, operation {count} is malformed", ["patch"], [START_DOC, [*operations, {"op": "add", "path": "/b"}]]
    yield f"join, {count} places conflict", ["join"], clashing
    yield f"replay, {count} places conflict", ["replay"], [START_DOC, *clashing]
    yield f"rewrite of {count} places", ["rewrite"], [names(count, "old"), names(count, "new")]


def documents(count):
    """Gives the same of documents with so many members, and with so many elements."""
    for what, value, other in (("members", names(count, "old"), names(count, ["new"], "m")),
                               ("elements", ["text"] * count, {"a": ["text"] * count})):
        yield f"get of {count} {what}", ["get", ""], [value]
        yield f"get of {count} {what} of a part", ["get", "/a"], [{"a": value, "b": 1}]
        yield f"merge of {count} {what}", ["merge"], [value, other]
        yield f"join of {count} {what}", ["join"], [{"a": value}, {"b": other}]
        yield f"replay of {count} {what}", ["replay"], [START_DOC, {"a": value}, {"b": other}]
        yield f"rewrite of {count} {what}", ["rewrite"], [{"a": value}, {"a": other}]
        yield f"patch of {count} {what}", ["patch"], [value, [{"op": "replace", "path": "", "value": other}]]


def given(count):
    """Gives the same of so many elements of the input, which are too many or too few for commands that take one or two."""
    for words in (["get", ""], ["patch"], ["rewrite"]):
        yield f"{words[0]} given {count} elements", words, [["text"]] * count


def counted(*kinds):
    for kind in kinds:
        for count in COUNTS:
            yield from kind(count)


def small():
    """Gives such rows of small sizes, each met once, and those where a part is replaced, left out or refused."""
    for count in range(11):
        operation = {"op": "add", "path": "/a", "value": "text", **names(count, {"further": ["member"]}, "z")}
        yield f"{count} further members", ["patch"], [{}, [operation]]
    deep = json.loads("[" * 125 + '"text"' + "]" * 125)
    yield "a document too deep to be put there", ["patch"], [{"a": {"b": "old"}}, [{"op": "add", "path": "/a/b", "value": deep[0]}]]
    yield "a text made an object", ["merge"], ["a text", {"a": {"b": "c"}}]
    yield "an object made a text", ["merge"], [{"a": {"b": "c"}}, {"a": "a text"}]
    yield "a text under a name made nothing", ["merge"], [{"a": "a text"}, {"a": None}]
    yield "no array", ["join"], None
    yield "the last number is not whole", ["merge"], [{"a": ["text"]}, {"b": ["text", 1.5]}]
    yield "an operation is malformed", ["patch"], [{"a": ["text"]}, [{"op": "remove", "path": "/a"}, {"op": "add", "path": "/b"}]]
    yield "an operation is refused", ["patch"], [{"a": ["text"]}, [{"op": "remove", "path": "/a"}, {"op": "remove", "path": "/b"}]]
    yield "a pointer is misspelled", ["get", "/a~2"], [{"a": ["text"]}]


def many_patches():
    """Gives the same of more patches: all apart, each again, and of which two conflict."""
    for count in MANY:
        for title, export, *_, elements in many(count):
            yield title, [export], elements


def shapes():
    """Gives the same of many small arrays, of arrays that are just longer than a power of two, and of a wide object."""
    nested = json.loads("[" * 100 + "1" + "]" * 100)
    for what, value in (("arrays nested 100 deep", [nested] * 20), ("arrays of one", [[1]] * 1000), ("points", [[1, 2]] * 1000),
                        ("rows of 9", [[1] * 9] * 200), ("rows of 17", [[1] * 17] * 200), ("a wide object", names(2000, 1))):
        document, other = {"a": value}, {"b": 1}
        copies = [{"op": "copy", "from": "/a", "path": path} for path in ("/c", "/d")]
        yield f"get of {what}", ["get", "/a"], [document]
        yield f"merge of {what}", ["merge"], [document, other]
        yield f"merge that sets {what}", ["merge"], [other, document]
        yield f"join of {what}", ["join"], [document, other]
        yield f"replay of {what}", ["replay"], [document, other]
        yield f"replay that sets {what}", ["replay"], [other, document]
        yield f"rewrite that sets {what}", ["rewrite"], [other, document]
        yield f"patch that copies {what} twice", ["patch"], [document, copies]
        yield f"patch that sets and copies {what}", ["patch"], [other, [{"op": "add", "path": "/a", "value": value}, *copies]]


def rows():
    """Gives the title of each row, its words and its input."""
    for count in SIZES:
        for name, words, elements in sized(count):
            yield f"{name}, {count}", words, elements
    yield from small()
    yield from counted(lists, documents, given)
    yield from many_patches()
    yield from shapes()


def library_rows():
    """Gives the title of each row of the library, its export and its texts."""
    for title, (export, *pointer), elements in [*counted(lists, documents), *many_patches(), *shapes()]:
        yield title, export, [*(text_of(element).encode() for element in elements), *(word.encode() for word in pointer)]
    for count in COUNTS:
        yield f"join, text {count} is none", "join", [b'{"a":["text"]}'] * count + [b"["]
    for count in MANY:
        for export, before in (("join", 1), ("replay", 2), ("merge", 2)):  # the start and the document come before the patches
            texts = [b'{"a":["text"]}'] * (before + count - 2) + [b"["]
            yield f"{export} of {count} patches, the last is none", export, texts
