"""What bindings/c/mergejoin.h says in its comments, in parts: docs/manual.py makes the man page mergejoin.3 of them, and bin/site the
page of the calls. A part is a paragraph, the entry of a list, or code.
"""

import pathlib
import re
import typing

HEADER = pathlib.Path(__file__).resolve().parent.parent / "bindings/c/mergejoin.h"
COMMENT = re.compile(r"^/\*\*?(?!<)(.*?)\*/\n", re.M | re.S)
STATUS = re.compile(r"^  /\*\*(.*?)\*/\n  (MERGEJOIN_\w+) = (\d+)", re.M | re.S)
CALL = re.compile(r"(?:static inline\s)?(?:mergejoin_\w+|uint32_t|void|int|size_t) (mergejoin_\w+[^_])\([^;{]*\)(?=;| \{)")
# What a call ends with that has a sibling with a buffer of its own, and what that ends with.
BUFFER, OWN = "uint8_t *out, size_t capacity, size_t limit)", "size_t limit, mergejoin_reply *reply)"
TYPE = re.compile(r"typedef struct (mergejoin_\w+)")
# The words that begin an entry of the list of what a call does, with the column of its text.
ENTRY = re.compile(r"^  (\w+) +(?=\S)")

# The calls by the handle that they are of, and those that are of none.
HANDLES = {"": "Calls that keep nothing", "replica": "Replicas", "patches": "Patches without a start", "patch_log": "Patch logs"}
OTHERS, LAST = ("mergejoin_version", "mergejoin_text_of", "mergejoin_next_place", "mergejoin_grow"), "Other calls"


class Call(typing.NamedTuple):
    name: str
    prototype: str
    words: list  # the parts of its comment


class Part(typing.NamedTuple):
    kind: str  # "text", "entry" or "code"
    head: str  # of an entry
    text: str


def plain(comment):
    """Gives the lines of a comment without what makes it one."""
    lines = [re.sub(r"^ *\* ?", "", line) for line in comment.strip("\n").splitlines()]
    lines[0] = lines[0].strip()
    return "\n".join(line.rstrip() for line in lines).strip("\n")


def parts(comment):
    """Gives the parts of a comment. An entry goes on as long as its lines have the margin of its text."""
    text, margin, found = plain(comment), None, []
    for block in re.split(r"\n{2,}", text):
        lines = block.splitlines()
        if lines[0].startswith("  ") and re.search("[;{}]$", block, re.M):
            found.append(Part("code", "", block))
            continue
        if not ENTRY.match(lines[0]):
            found.append(Part("text", "", " ".join(lines)))
            continue
        for line in lines:
            begins = ENTRY.match(line)
            if begins and (margin is None or begins.end() == margin):
                margin = begins.end()
                found.append(Part("entry", begins[1], line[margin:]))
            else:
                found[-1] = found[-1]._replace(text=f"{found[-1].text} {line.strip()}")
    return together(found)


def together(found):
    """Gives the parts, those of code that follow one another as one."""
    made = []
    for part in found:
        if made and part.kind == made[-1].kind == "code":
            made[-1] = made[-1]._replace(text=f"{made[-1].text}\n\n{part.text}")
        else:
            made.append(part)
    return made


class Header:
    """The comments of the header by what they are about."""

    def __init__(self):
        text = HEADER.read_text("utf-8")
        self.general, self.types, self.calls = [], {}, []
        head, _, body = text.partition("#ifndef MERGEJOIN_H")
        self.overview = parts(COMMENT.search(head)[1])
        self.statuses = [(name, int(number), parts(words)) for words, name, number in STATUS.findall(body)]
        declared, _, inline = body.partition("/*\n * What follows is inline.")
        for found in COMMENT.finditer(declared):
            self.take(found[1], declared[found.end():])
        for found in COMMENT.finditer(inline):
            if CALL.match(inline, found.end()):
                self.take(found[1], inline[found.end():])
        self.helpers = parts(next(found[1] for found in COMMENT.finditer(inline) if "The same calls" in found[1]))
        self.owned = [owned(call) for call in self.calls if call.prototype.endswith(BUFFER)]

    def take(self, comment, below):
        """Takes a comment with what is below it: a call, a type, or nothing of either."""
        if call := CALL.match(below):
            self.calls.append(Call(call[1], prototype(call[0]), parts(comment)))
        elif below.startswith("enum"):
            self.of_statuses = parts(comment)
        elif kind := TYPE.match(below):
            declared = below[:below.find("\n/*")].strip().replace("/**<", "/*")
            self.types[kind[1]] = [*parts(comment), Part("code", "", declared)]
        elif not call and not below.startswith("#"):
            self.general += parts(comment)

    def groups(self):
        """Gives the calls by titles, in the order of the header: those of a handle have its name before their own."""
        found = {title: [] for title in (*HANDLES.values(), LAST)}
        for call in self.calls:
            handle = next((handle for handle in HANDLES if handle and call.name.startswith(f"mergejoin_{handle}_")), "")
            found[LAST if call.name in OTHERS else HANDLES[handle]].append(call)
        return found


def owned(call):
    """Gives the same call with a buffer of its own, which the header makes of a table."""
    name = f"{call.name}_new"
    return Call(name, call.prototype.replace(BUFFER, OWN).replace(f"mergejoin_reply {call.name}(", f"char *{name}("), [])


def prototype(text):
    """Gives a declaration on one line, without what makes it inline."""
    return re.sub(r"\s+", " ", text.removeprefix("static inline").strip())
