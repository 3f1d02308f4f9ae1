"""Each must-fail edit of the crates was refused, as the log of `rt ci` says, and not for a name alone. One whose edit took away a
step that a proof file names was refused for the name, which says nothing of the contract: then the edit has to leave the names
and change a value.
"""

import re

import pytest
from calls import TOP

LOG = TOP / "out/gate.log"
EDITS = [f"{path.parts[-3]}/{path.stem}" for path in sorted(TOP.glob("crates/*/must-fail/*.edit"))]
TRIED = re.compile(r"^(?:rt: )?must-fail (\w+/[\w.-]+)\.edit: (.*)$", re.M)
# As rt says it; and what it does not see, where the rest is cut off: the name of a goal that is gone, a record without
# a field, an invariant over another iterator.
BY_NAME = re.compile(r"only because a proof file names|proofs/\S+/Invariants.antt|: error: `[^`]*`: (`goal\.|`?record )")
OPEN = "refused, as it should be: src/doc.rt:41:9: error: "
# Lines of a log, and the edits that were refused for a contract as they say.
LINES = {
    f"must-fail mp_tree/copies-few.edit: {OPEN}the clause `same` is open": ["mp_tree/copies-few"],
    f"rt: must-fail mp_c/is-empty.edit: {OPEN}the clause `same` is open": ["mp_c/is-empty"],
    "must-fail mp_tree/copies.edit: refused, but only because a proof file names a step that is gone": [],
    f"must-fail mp_tree/copies.edit: {OPEN}proofs/doc/copy/Invariants.antt does not fit": [],
    f"must-fail mp_tree/copies.edit: {OPEN}`c.push`: `goal.ensures` is gone": [],
    f"must-fail mp_tree/copies.edit: {OPEN}`c.push`: record Passed has no such field": [],
    "must-fail mp_tree/copies.edit: NOT REFUSED": [],
    "mp_tree: 12 functions proved": [],
}


def is_for_a_contract(how):
    return how.startswith("refused") and not BY_NAME.search(how)


@pytest.fixture(name="tried", scope="module")
def what_the_log_says_of_each_edit(needs):
    needs(lacking=None if LOG.is_file() else "there is no out/gate.log, which bin/test all writes")
    return dict(TRIED.findall(LOG.read_text("utf-8", "replace")))


@pytest.mark.parametrize("edit", EDITS)
def test_an_edit_was_refused_for_a_contract(tried, edit):
    assert edit in tried and is_for_a_contract(tried[edit])


@pytest.mark.parametrize("line,edits", LINES.items(), ids=LINES)
def test_a_line_of_a_log_says_how_an_edit_was_refused(line, edits):
    assert [edit for edit, how in TRIED.findall(f"more\n{line}\nmore\n") if is_for_a_contract(how)] == edits
