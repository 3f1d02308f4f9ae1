"""Each limit at what is answered, and one below: what results of a JSON Patch weigh and what all its operations work, what the operations
of a rewriting weigh, and how long a text is.
"""

import json

import pytest

from driving import REFUSED, RESULT, TOO_LARGE, call_of, last

# A document, a JSON Patch, what its heaviest result weighs, and the first operation with a result as heavy.
APPLIED = [
    ("{}", '[{"op":"add","path":"/a","value":1}]', 1_169, 0),
    ("[1]", '[{"op":"add","path":"/-","value":"abc"}]', 203, 0),
    ('{"a":1}', '[{"op":"add","path":"/a","value":"x"}]', 1_210, 0),
    # The document weighs more than each result.
    ('{"a":[1,2]}', '[{"op":"remove","path":"/a/0"},{"op":"copy","from":"/a","path":"/bc"}]', 1_499, 1),
    ('{"a":[]}', '[{"op":"remove","path":"/a"},{"op":"add","path":"/b","value":1}]', 1_169, 1),
    ('{"a":1}', '[{"op":"add","path":"","value":"é"}]', 82, 0),
    ("[]", '[{"op":"add","path":"/0","value":"abcdef"},{"op":"remove","path":"/0"}]', 166, 0),
    ('{"a":"x"}', '[{"op":"replace","path":"/a","value":[null]}]', 1_249, 0),
    # A longer name.
    ('{"a":1}', '[{"op":"move","from":"/a","path":"/long"}]', 1_172, 0),
    # What is tested stays.
    ("[true]", '[{"op":"test","path":"/0","value":true}]', 120, 0),
    ("[1]", '[{"op":"test","path":"/0","value":1},{"op":"add","path":"/0","value":2},{"op":"test","path":"/1","value":1}]', 160, 1),
]

# A document, operations, and how often they are repeated; the least limit that allows their work, and the first operation that is too
# large one below.
COPY_OF_ALL = '{"op":"copy","from":"","path":""}'
WORKED = [
    # A copy weighs 120, and its sum is one below 16 times 128, and then 16 times the limit itself.
    ("[1]", COPY_OF_ALL, 17, 128, 16),
    ("[1,2,3]", COPY_OF_ALL, 32, 400, 31),
    # The removal shifts two elements, and the addition three.
    ("[1,2,3,4]", '{"op":"move","from":"/1","path":"/0"}', 800, 250, 796),
    # Four, and four again.
    ("[1,2,3,4]", '{"op":"add","path":"/0","value":0},{"op":"remove","path":"/0"}', 600, 300, 1_196),
    # The copy weighs 40 and shifts four, and the removal shifts four.
    ("[1,2,3,4]", '{"op":"copy","from":"/1","path":"/0"},{"op":"remove","path":"/0"}', 100, 300, 198),
    # No work: the limit is what the heaviest result weighs.
    ("[1]", '{"op":"replace","path":"/0","value":1}', 100, 120, 0),
    ("[1]", '{"op":"test","path":"/0","value":1}', 100, 120, 0),
    ("[1]", '{"op":"add","path":"/-","value":2},{"op":"remove","path":"/1"}', 100, 160, 0),
]

# A document that is copied into itself, and what it weighs: each copy weighs twice what was there before.
COPIED = [('{"a":[]}', 1_209, 9), ('{"a":[{"":{"":0}}]}', 3_505, 8)]
COPY_INTO = '{"op":"copy","from":"","path":"/a/-"}'

# A document, a merge patch, a limit, and how many operations fit, if not all do.
TWO, BOTH = ('{"a":1,"b":{"c":2}}', '{"a":2,"b":{"c":null}}'), ('{"a":1}', '{"a":null,"n":5,"z":null}')
REWRITTEN = [
    ('{"b":{"c":2}}', '{"b":{"c":null}}', 336, None),
    ('{"b":{"c":2}}', '{"b":{"c":null}}', 335, 0),
    ('{"b":{"c":2}}', '{"b":{"c":null}}', 0, 0),
    *((*TWO, *row) for row in ((692, None), (691, 2), (356, 2), (355, 0))),
    # A value that is new is not tested, and a name that is not there does not go away.
    *((*BOTH, *row) for row in ((494, None), (493, 2), (316, 2), (315, 0))),
    ('{"a":1}', '{"n":{}}', 1_138, None),
    ('{"a":1}', '{"n":{}}', 1_137, 0),
    ("5", "6", 336, None),
    ("5", "6", 335, 0),
    ('{"a":1}', "{}", 2, None),
]

# Documents whose texts have each kind of part, and how many bytes they have.
MEASURED = [
    ("null", 4), ("true", 4), ("false", 5), ("0", 1), ("-9223372036854775808", 20), ("18446744073709551615", 20), ('""', 2),
    (r'"a\"\\\b\f\n\r\t/"', 18), (r'"\u0000\u001f\u007f"', 15), (r'"\u00e9\u20ac\ud83d\ude00"', 11), ("[]", 2), ("[[]]", 4),
    ("[1,[],{}]", 9), ("{}", 2), ('{"":0}', 6), (r'{"a\n":[1,2],"b":{"c":null}}', 28),
]

# A document, a JSON Patch, a limit, and what is said: what is refused comes before what is too large, at one operation.
FIRST_ERRORS = [
    ("{}", '[{"op":"add","path":"/a/b","value":"long"}]', 0, [REFUSED, 0, 0, 0, "operation 0: no place"]),
    ("[]", '[{"op":"add","path":"/-","value":1},{"op":"remove","path":"/5"}]', 119, [TOO_LARGE, 0, 0, 0, "too large"]),
    ("[]", '[{"op":"add","path":"/-","value":1},{"op":"remove","path":"/5"}]', 120, [REFUSED, 1, 0, 0, "operation 1: missing"]),
    ("[1]", '[{"op":"test","path":"/0","value":2}]', 0, [REFUSED, 0, 0, 0, "operation 0: test failed"]),
    ("[1]", "[]", 3, [RESULT, 0, 0, 0, "[1]"]),
]

# A text of one string, whose bytes are each written as six: what weighs less than the limit is too large if its text is longer.
ESCAPED = '"' + r"\u0001" * 100 + '"'


def patches():
    """Gives a document, a JSON Patch, the least limit within which it has a result, and the operation that is too large one below."""
    yield from APPLIED
    yield from ((doc, f"[{','.join([edits] * times)}]", limit, op) for doc, edits, times, limit, op in WORKED)
    yield from ((doc, f"[{','.join([COPY_INTO] * 6)}]", 64 * weight, 5) for doc, weight, _ in COPIED)


def said(driver, tried):
    """Gives what the reply says to each export with its texts, within each limit."""
    scripts = ([f"limit {limit}", call_of(export, [text.encode() for text in texts])] for export, texts, limit in tried)
    return [it.said() for it in last([driver, "new"], scripts)]


def within(driver, export, *texts, limits):
    """Gives what is said without a limit, and then within each."""
    return said(driver, [(export, texts, limit) for limit in (2**64 - 1, *limits)])


@pytest.mark.parametrize("doc,edits,limit,op", patches(), ids=lambda it: str(it)[:40])
def test_a_patch_has_its_result_within_the_limit_and_none_below(driver, doc, edits, limit, op):
    wanted, exact, below = within(driver, "patch", doc, edits, limits=(limit, limit - 1))
    assert (wanted[0], exact, below) == (RESULT, wanted, [TOO_LARGE, op, 0, 0, "too large"])


def test_a_document_that_is_copied_into_itself_is_too_large_soon(driver):
    found = said(driver, [("patch", (doc, f"[{','.join([COPY_INTO] * 60)}]"), 1_000_000) for doc, *_ in COPIED])
    assert found == [[TOO_LARGE, op, 0, 0, "too large"] for *_, op in COPIED]


@pytest.mark.parametrize("doc,edits,limit,wanted", FIRST_ERRORS)
def test_the_first_error_is_said(driver, doc, edits, limit, wanted):
    assert said(driver, [("patch", (doc, edits), limit)]) == [wanted]


@pytest.mark.parametrize("doc,patch,limit,fitting", REWRITTEN)
def test_so_many_operations_of_a_rewriting_fit(driver, doc, patch, limit, fitting):
    wanted, found = within(driver, "rewrite", doc, patch, limits=(limit,))
    assert wanted[0] == RESULT and found == (wanted if fitting is None else [TOO_LARGE, fitting, 0, 0, "too large"])


@pytest.mark.parametrize("text,length", MEASURED)
def test_a_text_is_measured(driver, text, length):
    wanted, *found = within(driver, "get", text, "", limits=(length, length + 1, length - 1, 0))
    assert wanted[0] == RESULT and len(wanted[-1].encode()) == length and json.loads(wanted[-1]) == json.loads(text)
    assert found == [wanted, wanted, [TOO_LARGE, 0, 0, 0, "too large"], [TOO_LARGE, 0, 0, 0, "too large"]]


def test_an_escaped_text_is_within_the_limit(driver):
    longer = [TOO_LARGE, 0, 0, 0, "too large"]
    edits = f'[{{"op":"replace","path":"","value":{ESCAPED}}}]'
    wanted, *found = within(driver, "patch", "0", edits, limits=(602, 601, 180, 179))
    assert wanted[-1] == ESCAPED and found == [wanted, longer, longer, longer]
    wanted, *found = within(driver, "rewrite", "0", ESCAPED, limits=(673, 672, 476, 475))
    assert wanted[-1] == f'[{{"op":"test","path":"","value":0}},{edits[1:]}' and found == [wanted, longer, longer, longer]
