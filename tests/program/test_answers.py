"""The program prints the line of each test vector (`tests/common/vectors.py`). And the ways that meet: a merge patch that is rewritten
for a document, the JSON Patch applied to it, and the merge; a rewriting that another document refuses; a replay in two orders, the
merge of the join, and the patch of the join rewritten.
"""

import json

import pytest
from vectors import APPENDIX, REWRITTEN, vectors

VECTORS = list(vectors())
# The statuses with which each subcommand answers.
STATUSES = {"get": {0, 1, 2}, "patch": {0, 1, 2}, "merge": {0, 2}, "join": {0, 1, 2}, "replay": {0, 1, 2}, "rewrite": {0, 2}}
# The rewriting of one document, tried on others: each answer is the document, or names the test that refused.
GUARDED = ['{"a":1,"b":2}', '{"a":null,"b":3,"c":4}']
OTHERS = [
    ('{"a":1,"b":2}', '{"b":3,"c":4}', 0),
    ('{"a":1,"b":9}', "operation 1: test failed", 1),
    ('{"b":2}', "operation 0: missing", 1),
    ('{"a":1,"b":2,"c":0,"z":5}', '{"b":3,"c":4,"z":5}', 0),
]
# A start, compatible patches in two orders, and the document of both.
START = '{"k":0,"a":{"z":1},"s":"old"}'
ORDERS = [
    ['{"a":{"x":1}}', '{"a":{"y":null,"z":null}}', '{"k":null}', '{"s":{"t":[null]}}'],
    ['{"s":{"t":[null]}}', '{"k":null}', '{"a":{"y":null,"z":null}}', '{"k":null}', '{"a":{"x":1}}'],
]
END = '{"a":{"x":1},"s":{"t":[null]}}'


def array(*texts):
    return f"[{','.join(texts)}]"


@pytest.fixture(name="printed")
def what_gives_a_line(program, run):
    """Gives the line that a command prints, given an array of texts."""
    return lambda command, *texts: run([program, command], array(*texts))[1].rstrip("\n")


@pytest.mark.parametrize("words,given,line,status", VECTORS, ids=[f"{' '.join(words)} {given}"[:60] for words, given, *_ in VECTORS])
def test_a_vector_is_answered(answers, words, given, line, status):
    answers(words, given, line, status)


def test_each_subcommand_has_a_vector_of_each_status():
    assert {name: {status for words, *_, status in VECTORS if words[0] == name} for name in STATUSES} == STATUSES


def test_bytes_that_are_not_utf_8_are_refused(answers):
    answers(["merge"], b"[\xff]", "input: not JSON", 2)


@pytest.mark.parametrize("original,patch,result", APPENDIX)
def test_the_rewriting_of_an_example_gives_its_result(answers, printed, original, patch, result):
    answers(["patch"], array(original, printed("rewrite", original, patch)), result)


@pytest.mark.parametrize("given,edits", [row[:2] for row in REWRITTEN if row[2] == 0])
def test_a_rewriting_gives_what_the_merge_gives(answers, printed, given, edits):
    document, patch = map(json.dumps, json.loads(given))
    answers(["patch"], array(document, edits), printed("merge", document, patch))


@pytest.mark.parametrize("document,result,status", OTHERS)
def test_a_rewriting_is_refused_by_another_document(answers, printed, document, result, status):
    answers(["patch"], array(document, printed("rewrite", *GUARDED)), result, status)


@pytest.mark.parametrize("patches", ORDERS, ids=["first order", "second order"])
def test_each_order_and_the_join_give_one_document(answers, printed, patches):
    join = printed("join", *patches)
    answers(["replay"], array(START, *patches), END)
    answers(["merge"], array(START, join), END)
    answers(["patch"], array(START, printed("rewrite", START, join)), END)
