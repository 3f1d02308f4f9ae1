"""tools/contracts: what is kept of the public clauses is what the sources have, of all that the crates export; a clause that is dropped
or becomes weaker is shown, and so is what changed since a commit.
"""

import re
import shutil

import calls
import pytest
from calls import TOP

TOOL, KEPT = TOP / "tools/contracts", TOP / "tests/contracts"
NAMES = sorted(path.stem for path in KEPT.glob("*.txt"))
# A file, what is changed there, and the lines that show it.
EDITS = {
    "a clause is dropped": ("crates/mp_replica/src/replica.rt", "        ensures joined { result.joined ≡ None }\n", "",
                            ["-        ensures joined { result.joined ≡ None }"]),
    "a clause is weaker": ("crates/mp_merge/src/comparing.rt", "IsTrue result ↔", "IsTrue result →", ["-", "+"]),
    "a premise more": ("crates/mp_tree/src/node.rt", "    fn null() -> Self\n", "    fn null() -> Self\n        requires { ⊥ }\n",
                       ["+            requires { ⊥ }"]),
    "a variant less": ("crates/mp_replica/src/message.rt", "    Late,\n", "", ["-        Late,"]),
    "a law says less": ("crates/mp_replica/specs/Laws.antt", "    → HasTaken r others\n", "    → HasTaken r taken\n",
                        ["-            → HasTaken r others", "+            → HasTaken r taken"]),
    "a bound of a type": ("crates/mp_tree/src/whole.rt", "2 ^ 64 - 1) },", "2 ^ 65 - 1) },", ["+        ghost at_most: { value ≤ℤ pos (2 ^ 65 - 1) },"]),
    "a thread less": ("crates/mp_c/src/patches_handle.rt", "unsafe impl Send for PatchesHandle {}", "", ["-    unsafe impl Send for PatchesHandle"]),
}


@pytest.fixture(name="copy")
def copy_of_the_sources(tmp_path):
    for name in ("crates", "tests/contracts"):
        shutil.copytree(TOP / name, tmp_path / name, ignore=shutil.ignore_patterns("out"))
    return tmp_path


def test_the_kept_clauses_are_those_of_the_sources():
    assert calls.run([TOOL]) == (0, f"{len(NAMES)} crates, of 0 of which other clauses are kept than the sources have\n", "")


@pytest.mark.parametrize("name", NAMES)
def test_all_that_a_crate_exports_is_there(name):
    root = (TOP / f"crates/{name}/src/lib.rt").read_text("utf-8")
    exported = {word for several, one in re.findall(r"^pub use [\w:]+::(?:\{([^}]*)\}|(\w+));", root, re.M) for word in re.findall(r"\w+", several or one)}
    items = re.findall(r"^(\S.*)$", (KEPT / f"{name}.txt").read_text("utf-8"), re.M)
    assert exported <= {item.removeprefix("type ").removeprefix("trait ") for item in items}


@pytest.mark.parametrize("path,old,new,shown", EDITS.values(), ids=EDITS)
def test_a_change_is_shown(copy, path, old, new, shown):
    text = (copy / path).read_text("utf-8")
    assert old in text
    (copy / path).write_text(text.replace(old, new, 1), "utf-8")
    status, out, err = calls.run([TOOL, copy])
    lines = [line for line in out.splitlines() if line[0] in "+-" and not line.startswith(("+++", "---"))]
    assert (status, err) == (1, "") and len(lines) <= 3
    assert all(any(line.startswith(begin) for line in lines) for begin in shown)


def test_a_comment_and_a_body_are_no_clauses(copy):
    path = copy / "crates/mp_replica/src/replica.rt"
    path.write_text(path.read_text("utf-8").replace("        if !self.settle(alloc) {\n", "        // Or else.\n        if !(self.settle(alloc)) {\n", 1), "utf-8")
    assert calls.run([TOOL, copy])[0] == 0


def test_what_changed_since_a_commit(copy, needs):
    needs("git")
    git = ["git", "-C", copy, "-c", "user.name=one", "-c", "user.email=one@example.org"]
    for words in (["init", "-q"], ["add", "."], ["commit", "-q", "-m", "One"]):
        assert calls.run([*git, *words])[0] == 0
    path = copy / "crates/mp_replica/src/message.rt"
    path.write_text(path.read_text("utf-8").replace("    Late,\n", "", 1), "utf-8")
    assert calls.run([TOOL, "--compare", "HEAD", copy]) == (0, "mp_replica: changed: type Arrival\n    -     Late,\n", "")
