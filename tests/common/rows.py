"""Rows for what calls the library: an export, the status and the numbers of its reply, what that says, and the texts that it is
given. They are the test vectors (`vectors.py`), each line of the program as a reply, and those below. What a reply says is here the
result, the words of a cause, with the place after them if there is one, or the array of the places of a conflict: `line_of` and
`whole_of` give its line and its whole text.
"""

import json
import re

from vectors import vectors

EXPORTS = ["join", "replay", "merge", "rewrite", "patch", "get"]

DEEP = b"[" * 127 + b"]" * 127
TOO_DEEP = "too deep at " + "/0" * 126

# Each export on what the program can't be given, since it reads one text: the status, the numbers, what is said, the texts.
ROWS = [
    ("join", 2, 0, 0, "no patches", []),
    ("join", 6, 0, 0, "not JSON", [b""]),
    ("join", 6, 1, 0, "not JSON", [b"1", b"1,2", b"["]),
    ("join", 6, 2, 0, "number not whole at ", [b"1", b"2", b"1.5", b"["]),
    ("join", 6, 1, 0, "number not whole at /a/1", [b"1", b'{"a":[1,2.5],"b":1.5}']),
    ("join", 6, 0, 0, "number not whole at /1/b~1 at ~0", [b'[[1],{"b/ at ~":1e3}]', b"["]),
    ("join", 6, 1, 0, TOO_DEEP, [b"1", DEEP]),
    ("join", 0, 0, 0, '{"a":1,"b":2}', [b'\n {"b" : 2,\t"a" : 1}\r\n', b' {"a":1} ']),
    ("join", 1, 0, 1, r'["/a~1b/\""]', [rb'{"a/b":{"\"":1}}', rb'{"a/b":{"\"":2}}']),
    ("replay", 5, 0, 0, "not JSON", [b"[", b"["]),
    ("replay", 5, 0, 0, TOO_DEEP, [DEEP, b"1"]),
    ("replay", 6, 1, 0, "number not whole at /10", [b"5", b"{}", b"[0,1,2,3,4,5,6,7,8,9,-0.5,1.5]"]),
    ("replay", 6, 1, 0, "not JSON", [b"5", b"{}", b"["]),
    ("replay", 0, 0, 0, "5", [b" 5 "]),
    ("merge", 5, 0, 0, "number not whole at ", [b"18446744073709551616", b"["]),
    ("merge", 5, 0, 0, "number not whole at /z", ['{"z":2.5,"é":1.5}'.encode(), b"1.5"]),
    ("merge", 6, 0, 0, "not JSON", [b"5", b"[\xff]"]),
    ("rewrite", 5, 0, 0, "not JSON", [b"", b"["]),
    ("rewrite", 6, 0, 0, "number not whole at ", [b"5", b"1e0"]),
    ("patch", 5, 0, 0, "not JSON", [b"[", b"["]),
    ("patch", 6, 0, 0, "not JSON", [b"1", b"["]),
    ("patch", 7, 0, 0, "not an array", [b"1", b"{}"]),
    ("get", 5, 0, 0, "not JSON", [b"[", b"foo"]),
    ("get", 5, 0, 0, "number not whole at ", [b"1.5", b"\xff"]),
    ("get", 8, 2, 0, "not UTF-8", [b"5", b"/a\xff"]),
    ("get", 8, 0, 0, "not UTF-8", [b"5", b"\xff"]),
    ("get", 8, 2, 0, "not UTF-8", [b"5", b"a~\xe2\x82"]),
]


def many(count):
    """Gives calls with so many patches: a title, the export, the status and the numbers and the document of the reply, and
    the documents that it is given."""
    names = [f"n{number:02}" for number in range(count)]
    apart = [{name: "text"} for name in names]
    start = {"a": 0}
    for patches, how in ((apart, ""), ((apart[: count // 2] * 3)[:count], ", each again")):
        joined = dict(sorted((name, "text") for patch in patches for name in patch))
        yield f"join of {count} patches{how}", "join", 0, 0, 0, joined, patches
        yield f"replay of {count} patches{how}", "replay", 0, 0, 0, start | joined, [start, *patches]
        yield f"merge of {count} patches{how}", "merge", 0, 0, 0, start | joined, [start, *patches]
    for first, second, which in ((0, 1, "the first two"), (count - 2, count - 1, "the last two"), (0, count - 1, "the first and the last")):
        patches = [*apart[:second], {names[first]: "other"}, *apart[second + 1 :]]
        places = [f"/{names[first]}"]
        yield f"join of {count} patches, {which} conflict", "join", 1, first, second, places, patches
        yield f"replay of {count} patches, {which} conflict", "replay", 1, first, second, places, [start, *patches]


def names(count, value, prefix="n"):
    """An object of so many names, each with that value."""
    return {f"{prefix}{number:04}": value for number in range(count)}


def text_of(document):
    return json.dumps(document, ensure_ascii=False, separators=(",", ":"))


def places_of(status, text):
    """Gives the places that a reply of this status has at its end: of a conflict, or of a text that is no document."""
    if status == 1:
        return json.loads(text)
    _, at, place = text.partition(" at ")
    return [place] if status in (5, 6) and at else []


def total_of(status, text):
    """Gives the number `total` of such a reply."""
    return len(places_of(status, text))


def at_places(places, total, is_more):
    """Gives where a conflict is, as a line has it, of as many places as are shown, and how many there are in all."""
    rest = total - len(places)
    if not places:
        return "" if is_more else f" at {total} place{'s' * (total != 1)}"
    listed = ", ".join(json.dumps(place, ensure_ascii=False) for place in places)
    return f" at {listed}{' and more' if is_more else f' and {rest} more' if rest else ''}"


def elements_of(text):
    """Gives the texts of the elements of a JSON array."""
    found, at = [], text.index("[") + 1
    while (at := re.compile(r"[\s,]*").match(text, at).end()) < len(text) and text[at] != "]":
        _, end = json.JSONDecoder().raw_decode(text, at)
        found.append(text[at:end].encode())
        at = end
    return found


def reply_of(line, status):
    """Gives the status, the numbers and the text of the reply that has what a line of the program says, or nothing if
    that is about the input as a whole."""
    if line.startswith("input: "):
        return None
    if status == 0:
        return 0, 0, 0, line
    if found := re.fullmatch(r"operation (\d+): (.*)", line):
        return 3 if status == 1 else 7, int(found[1]), 0, found[2]
    if found := re.fullmatch(r"conflict: patches (\d+) and (\d+) at (.*)", line):
        return 1, int(found[1]), int(found[2]), text_of(json.loads(f"[{found[3]}]"))
    if found := re.fullmatch(r"pointer: (no slash|bad tilde)(?: at (\d+))?", line):
        return 8, int(found[2] or 0), 0, found[1]
    return {"missing": 4, "no patches": 2}[line], 0, 0, line


def line_of(status, first, second, text, total=None, is_more=False, which=None):
    """Gives the text of a result, or the line of a reply, which is that of the program. `which` are the patches of a conflict, if these are
    not numbered."""
    places = places_of(status, text)
    if status == 1:
        which = which or f"patches {first} and {second}"
        return f"conflict: {which}{at_places(places, len(places) if total is None else total, is_more)}"
    if places:
        text = f"{text.partition(' at ')[0]} at {json.dumps(places[0], ensure_ascii=False)}"
    at = "" if text == "no slash" else f" at {first}"
    if text in ("not an array", "no number is left for a start", "not kept patches"):
        return text
    of_operation = f"operation {first}: {text}"
    return {3: of_operation, 5: f"document: {text}", 6: f"patch {first}: {text}", 7: of_operation,
            8: f"pointer: {text}{at}", 11: "too large"}.get(status, text)


def clipped(line):
    """Gives a line as the message of a database has it: at most 1,000 bytes of it, and no part of a character."""
    data = line.encode()
    return line if len(data) <= 1000 else f"{data[:1000].decode(errors='ignore')}.."


def whole_of(status, first, second, text, *how, **more):
    """Gives the whole text of a reply, and how many bytes of it the array of places has."""
    is_with_places = status == 1 or places_of(status, text)
    array = text_of(places_of(status, text)) if is_with_places else ""
    return line_of(status, first, second, text, *how, **more) + array, len(array.encode())


def vector_rows():
    """Gives the test vectors as rows like those above."""
    for (export, *pointer), text, line, status in vectors():
        if reply := reply_of(line, status):
            yield export, *reply, elements_of(text) + [word.encode() for word in pointer]
