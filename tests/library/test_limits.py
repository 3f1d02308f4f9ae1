"""What texts of strangers ask for ends within a limit, in bounded memory and time, by each call that takes one."""

import functools
import json
import re
import resource
import typing

import pytest

import driving
from driving import CONFLICT, DOCUMENT, MORE, PATCH, RESULT, TOO_LARGE, call, call_of, nested, weight

LIMIT, LINE = 64 << 20, 300  # (what a line has beside its places)
MOST, READ = 300_000, 100  # kB of resident memory, and bytes of it for each that is read
FOR_A_BYTE = 175  # bytes for each that is read, of the worst texts that were tried
WITHIN = ["bash", "-c", f'ulimit -v {3 << 20}; exec "$0"']


def attacked(driver, export, *texts, limit=LIMIT):
    """The status, the first number, the total and the length of the reply; never with more memory than is bounded."""
    (reply,), (heap,) = driving.replies([*WITHIN, driver], [f"limit {limit}", driving.call_of(export, texts), "heap"])
    assert heap.resident < MOST + READ * sum(len(driving.bytes_of(text)) for text in texts) // 1_000
    return reply.status, reply.first, reply.total, reply.length


@pytest.mark.parametrize("value", ["0123456789", {"": {"": 0}}, {}, [], None])
def test_a_document_is_copied_into_itself(driver, value):
    copies = [{"op": "copy", "from": "", "path": "/a/-"}] * 60
    status, first, total, length = attacked(driver, "patch", {"a": [value]}, copies)
    assert (status, total, length) == (TOO_LARGE, 0, len("too large"))
    assert 10 < first < 30


def test_patches_conflict_at_many_places(driver):
    patches = [{"~" * 60_000: {str(number): value for number in range(12_000)}} for value in (0, 1)]
    status, first, total, length = attacked(driver, "join", *patches)
    assert (status, first, total) == (CONFLICT, 0, 12_000)
    assert LINE < length <= 2 * LIMIT + LINE


def test_a_rewriting_has_many_edits(driver):
    document, patch = ({"~" * 60_000: {str(number): value for number in range(12_000)}} for value in (0, 1))
    status, first, total, length = attacked(driver, "rewrite", document, patch)
    assert (status, total, length) == (TOO_LARGE, 0, len("too large"))
    assert 100 < first < 24_000


@pytest.mark.parametrize("limit,status", [(0, TOO_LARGE), (1079, TOO_LARGE), (2128, TOO_LARGE), (10_000, RESULT)])
def test_a_result_on_the_way_weighs_too_much(driver, limit, status):
    # {"a":{}} weighs 1,000 + 128 + 1 + 1,000.
    edits = [{"op": "add", "path": "/a", "value": {}}, {"op": "remove", "path": "/a"}]
    assert attacked(driver, "patch", {}, edits, limit=limit)[:2] == (status, 0)


def test_the_limit_is_exact(driver):
    edits = [{"op": "add", "path": "/a", "value": {}}]
    assert attacked(driver, "patch", {}, edits, limit=2129) == (0, 0, 0, len('{"a":{}}'))
    assert attacked(driver, "patch", {}, edits, limit=2128) == (TOO_LARGE, 0, 0, len("too large"))
    text = b'{"a":"0123456789"}'
    assert attacked(driver, "join", text, text, limit=len(text)) == (0, 0, 0, len(text))
    assert attacked(driver, "join", text, text, limit=len(text) - 1) == (TOO_LARGE, 0, 0, len("too large"))


# Two patches of 113 kB, which conflict at so many places of 113 to 120 kB each: 690 to 732 MB in all. And two of 450 kB, whose places are
# written with six bytes for each character: 2.4 GB in all.
PLACES = 6_100
WIDE = [{"~" * 60_000: {str(number): value for number in range(PLACES)}} for value in (0, 1)]
DEEP = [nested(120, {str(number): value for number in range(PLACES)}, lambda inner: {"~" * 470: inner}) for value in (0, 1)]
ESCAPED = [{"\x01" * 66_000: {str(number): value for number in range(PLACES)}} for value in (0, 1)]
# A text of 5.9 MB, of a string of 1 MB: each character is written with six bytes.
LONG = {"a": "\x01" * 990_000}
# 8 kB that double a document 180 times, 6 MB that are too deep at a place of 11 MB, and a place of 90 kB.
COPIES = [{"op": "copy", "from": "", "path": "/a"}, {"op": "copy", "from": "", "path": "/b"}] * 90
SUNK, PLACE = nested(127, 0, lambda inner: {"~" * 45_000: inner}), "/" + "~0" * 45_000
# One that a kept form may have.
KEPT = "/" + "~0" * 30_000


def later(*given, **more):
    """A line of a script that is made when it is needed, since it may be long."""
    return functools.partial(call, *given, **more)


def of_six(*given):
    return functools.partial(call_of, *given)


# So many messages conflict at one place, and have 4,498,500 pairs.
LOG = [later("log_start", 0, b"{}", numbers=[0])]
MANY = [*LOG, *(later("log_receive", 0, {"a": number}, numbers=[0, 1, number]) for number in range(3_000))]
# A call takes so many times its limit at most, as the header says, so many times the weight of what it reads, and little else, as two
# copies of a long place.
FACTOR, READING, BESIDES = 4, 1.3, 300_000
# The calls that make a document in addition: it takes at most what the log holds.
MAKES = {"patch_log_document", "patch_log_decide"}


class Said(typing.NamedTuple):
    """What a reply says if the limit is at least the length of its text. Else that is too large."""

    status: int = RESULT
    total: int = 0
    flags: int = 0
    length: int = 0

    def within(self, limit):
        return self[:3] if limit >= self.length else (TOO_LARGE, 0, 0)


def text_of(document):
    return Said(length=len(driving.bytes_of(document)))


ALL, HELD, LISTED, NEVER = Said(CONFLICT, PLACES), Said(CONFLICT, 0, MORE), Said(flags=MORE, length=len("[]")), Said(TOO_LARGE)
DONE, STORED = Said(), Said(length=len("stored"))


def by_conflicts(one, other):
    """Gives attacks by two patches that conflict: of each the export, the calls before, the call, and what is said."""
    started, gathered = [later("start", 0, b"{}"), later("receive", 0, one)], [later("add", 0, one)]
    logged = [*LOG, *(later("log_receive", 0, text, numbers=[0, 1, number]) for number, text in enumerate((one, other)))]
    yield "join", [], of_six("join", [one, other]), ALL
    yield "replay", [], of_six("replay", [b"{}", one, other]), ALL
    yield "merge", [], of_six("merge", [one, other]), text_of(one)
    yield "rewrite", [], of_six("rewrite", [one, other]), NEVER
    yield "get", [], of_six("get", [one, b""]), text_of(one)
    yield "replica_start", started, later("start", 0, one), DONE
    yield "replica_receive", started, later("receive", 0, other), ALL
    yield "replica_document", started, later("document"), text_of(one)
    yield "replica_joined", started, later("joined"), text_of(one)
    yield "replica_get", started, later("get", 0, b""), text_of(one)
    yield "patches_add", gathered, later("add", 0, other), HELD
    yield "patches_combine", [*gathered, later("add", 1, other)], later("combine", 0, b"", 1), HELD
    yield "patches_text", [*gathered, later("add", 0, other)], later("text"), HELD
    yield "patches_kept", [*gathered, later("add", 0, other)], later("kept"), Said(length=len("!+[]"))
    yield "patch_log_start", logged, later("log_start", 0, one, numbers=[0]), DONE
    yield "patch_log_receive", logged[:2], logged[2], STORED
    yield "patch_log_document", logged[:2], later("log_document"), text_of(one)
    yield "patch_log_conflicts", logged, later("log_conflicts"), LISTED
    yield "patch_log_conflicts_of", logged, later("log_conflicts_of", numbers=[1, 1]), LISTED
    yield "patch_log_decide", logged, later("log_decide", numbers=[1, 0, 1, 1]), ALL


def by_length():
    """Gives attacks by a text that is much longer than what is held of it."""
    started, gathered = [later("start", 0, LONG), later("receive", 0, LONG)], [later("add", 0, LONG)]
    yield "join", [], of_six("join", [LONG, LONG]), text_of(LONG)
    yield "replay", [], of_six("replay", [LONG, LONG]), text_of(LONG)
    yield "merge", [], of_six("merge", [LONG, LONG]), text_of(LONG)
    yield "rewrite", [], of_six("rewrite", [LONG, {"a": None}]), NEVER
    yield "patch", [], of_six("patch", [LONG, b"[]"]), NEVER
    yield "get", [], of_six("get", [LONG, b"/a"]), text_of(LONG["a"])
    yield "replica_document", started, later("document"), text_of(LONG)
    yield "replica_joined", started, later("joined"), text_of(LONG)
    yield "replica_get", started, later("get", 0, b"/a"), text_of(LONG["a"])
    yield "patches_text", gathered, later("text"), text_of(LONG)
    yield "patches_kept", gathered, later("kept"), text_of(LONG)
    yield "patch_log_document", [later("log_start", 0, LONG, numbers=[0])], later("log_document"), text_of(LONG)


def by_place():
    """Gives attacks by long places in what is not a document, or a kept form."""
    yield "join", [], of_six("join", [SUNK]), Said(PATCH, 1)
    yield "replica_start", [], later("start", 0, SUNK), Said(DOCUMENT, 1)
    yield "replica_receive", [later("start", 0, b"{}")], later("receive", 0, SUNK), Said(PATCH, 1)
    yield "patches_from_kept", [], later("from", 0, f'!["{KEPT}"]'.encode()), Said(CONFLICT, 1)


def by_number():
    """Gives attacks by many operations or messages."""
    yield "patch", [], of_six("patch", [b"{}", COPIES]), NEVER
    yield "patch_log_receive", MANY, later("log_receive", 0, {"a": 3_000}, numbers=[0, 2, 0]), STORED
    yield "patch_log_conflicts", MANY, later("log_conflicts"), LISTED
    yield "patch_log_count", MANY, later("log_count"), text_of(3_000)


ATTACKS = {f"{export} by {kind}": rest for kind, rows in [
    ("wide patches", by_conflicts(*WIDE)), ("deep patches", by_conflicts(*DEEP)), ("escaped patches", by_conflicts(*ESCAPED)),
    ("a long text", by_length()), ("a long place", by_place()), ("many", by_number())] for export, *rest in rows}


def read_by(line):
    """What a call takes to read its texts: each is there as it is written, and what is read of it."""
    texts = [bytes.fromhex(word[1:]) for word in line.split() if word[0] == "x"]
    return sum(1.2 * len(text) + READING * weight(json.loads(text) if text[:1] in (b"{", b"[") else text.decode()) for text in texts)


def taken(driver, limit, before, line):
    """What is said within a limit, the most that the call takes beside what is there, and what that is."""
    lines = ["capacity 0", *(it() for it in before), "heap", f"limit {limit}", line(), "heap"]
    found, (held, after) = driving.replies([*WITHIN, driver], lines)
    return found[-1], after.peak - held.held, held.held


@pytest.mark.parametrize("limit", [0, 1, 1_000, 1_000_000])
@pytest.mark.parametrize("title", ATTACKS)
def test_a_call_takes_little_more_than_its_limit(driver, title, limit):
    before, line, said = ATTACKS[title]
    reply, peak, held = taken(driver, limit, before, line)
    assert (reply.status, reply.total, reply.flags) == said.within(limit)
    assert reply.length <= 2 * limit + LINE or reply.status in (DOCUMENT, PATCH)
    export = title.split()[0]
    allowed = FACTOR * max(limit, reply.length) + (held if export in MAKES else 0) + read_by(line()) + BESIDES
    print(f"{title}, {limit}: {peak} of {allowed:.0f}")
    assert peak <= allowed


@pytest.mark.parametrize("title", [f"{export} by a long text" for export, *_ in by_length()])
def test_a_text_that_is_too_long_is_not_made(driver, title):
    before, line, _ = ATTACKS[title]
    whole, most, _ = taken(driver, driving.SIZE_MAX, before, line)
    none, less, _ = taken(driver, whole.length - 1, before, line)
    print(f"{title}: {less} of {most} for {whole.length}")
    assert (whole.status, none.status) == (RESULT, TOO_LARGE)
    assert less < most - whole.length / 5


def test_each_call_that_takes_a_limit_is_attacked():
    """Each export of the header that has a limit, by its words."""
    heads = re.findall(r"^mergejoin_reply mergejoin_(\w+)\(([^)]*)\);", driving.HEADER.read_text("utf-8"), re.M)
    exports = {export for export, given in heads if re.search(r"\bsize_t limit$", given)}
    assert {title.split()[0] for title in ATTACKS} == exports and len(exports) == 23


def test_a_kept_form_of_many_places_takes_what_its_length_says(driver):
    for many, said in ((400, (CONFLICT, 400)), (28_000, (DOCUMENT, 0))):
        kept = b"![" + b",".join(b'"/%05d"' % number for number in range(many)) + b"]"
        (reply,), (heap,) = driving.replies([*WITHIN, driver], ["limit 1000", call("from", 0, kept), "heap"])
        assert (reply.status, reply.total if reply.status == CONFLICT else 0) == said and reply.length <= 2 * 1_000 + LINE
        assert heap.peak <= FOR_A_BYTE * len(kept)


def test_a_kept_form_has_no_place_of_more_weight_than_is_held(driver):
    for length, status in ((65_399, CONFLICT), (65_400, DOCUMENT)):
        (reply,), _ = driving.replies([driver], ["capacity 0", call("from", 0, b'!["/%s"]' % (b"a" * length))])
        assert reply.status == status


# What an operation of a few bytes does to all of a long array, or of an object, which is a part of so many bytes.
ZEROS, MEMBERS = (lambda size: [0] * (size // 2)), (lambda size: {f"{number:x}": 0 for number in range(size // 9)})
WORKS = {
    "copies an array onto the root": (ZEROS, {"op": "copy", "from": "", "path": ""}),
    "copies an object onto the root": (MEMBERS, {"op": "copy", "from": "", "path": ""}),
    "moves from the front": (ZEROS, {"op": "move", "from": "/0", "path": "/-"}),
    "removes at the front": (ZEROS, {"op": "remove", "path": "/0"}),
    "adds at the front": (ZEROS, {"op": "add", "path": "/0", "value": 0}),
}
# Texts of so many bytes in all, and the part of them that is the document. The greatest would weigh too much as a half of them.
SIZES = ((8_000, 0.5), (1_000_000, 0.5), (8_000_000, 0.2))
# The seconds of one processor that a patch takes at most within the limit, also while others have the memory's bandwidth: twice
# what it took on a machine with little other work.
SECONDS = 16


def seconds():
    used = resource.getrusage(resource.RUSAGE_CHILDREN)
    return used.ru_utime + used.ru_stime


@pytest.mark.parametrize("size,part", SIZES)
@pytest.mark.parametrize("title", WORKS)
def test_operations_of_much_work_end_in_time(driver, title, size, part):
    made, edit = WORKS[title]
    document = driving.written(made(int(size * part))).encode()
    edits = driving.written([edit] * ((size - len(document)) // len(driving.written(edit)))).encode()
    before = seconds()
    status, *_, length = attacked(driver, "patch", document, edits)
    is_result = status == RESULT and length > 0
    taken = seconds() - before
    print(f"{title}, {size} bytes: {taken:.2f} s")
    assert (status, is_result) == ((RESULT, True) if size < 1_000_000 else (TOO_LARGE, False)) and taken < SECONDS
