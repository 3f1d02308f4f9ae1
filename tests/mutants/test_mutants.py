"""Each mutant of a script, a binding or a page is noticed: in a copy of the repository with its edit, the tests that it names fail, and say
what they have to. An edit has lines, each a word and what it says:

    test: WORDS        what pytest is given
    prints: PATTERN    what it has to print
    file: PATH         what the lines below change
    old: TEXT          stands there once, and becomes the TEXT of the line 'new: TEXT' below it
    line: TEXT         is added at the end
    program: COMMANDS  stand in the place of the proved program, which they find as $real

`pytest tests/mutants -k NAME` tries one. bin/test runs these tests last, since they copy what the others have built; else the tests
that are named are run without an edit too, and have to pass. No copy can begin a proof.
"""

import contextlib
import hashlib
import os
import pathlib
import re
import shlex
import shutil
import subprocess
import sys

import pytest
from calls import PROGRAM, TOP

HERE = pathlib.Path(__file__).resolve().parent
SUM = PROGRAM.with_suffix(".sum")
# What was proved and built. A test whose program of a crate is absent would build it.
BUILT = [str(PROGRAM.relative_to(TOP)), str(SUM.relative_to(TOP)), "out/mergejoin.kit", "out/libmp_c.a", "out/libmp_c.sum", "out/arm64/libmp_c.a", "out/arm64/libmp_c.sum", "out/gate.log",
         *(f"crates/{name}/out/{name}{end}" for name, end in (
             ("allocation_failures", ""), ("replica_runs", ""), ("test_vectors", "_tests"), ("workloads", "")))]
LEFT_OUT = ("out", ".git", "target", "__pycache__")
# The modules each of which has a mutant to notice, which names it or its directory.
NOTICING = ("bindings/*", "packages", "pages", "scripts")


class Edit:
    def __init__(self, path):
        self.name, self.words, self.prints, self.changes = path.stem, [], None, []
        file = None
        for line in path.read_text("utf-8").splitlines():
            word, _, text = line.partition(": ")
            if word == "test":
                self.words = shlex.split(text)
            elif word == "prints":
                self.prints = text
            elif word == "file":
                file = text
            else:
                self.changes.append((file, word, text))
        assert self.words and self.prints, f"{path.name} names no test, or not what it prints"
        self.files = {file or str(PROGRAM.relative_to(TOP)) for file, _, _ in self.changes}

    def make(self, top):
        """Makes the edit in a copy."""
        for file, word, text in self.changes:
            if word == "program":
                replace_program(top, text)
                continue
            path = top / file
            here = path.read_text("utf-8")
            if word == "old":
                assert here.count(text) == 1, f"{file} has {here.count(text)} times: {text}"
                old = text
            else:
                path.write_text(f"{here}{text}\n" if word == "line" else here.replace(old, text), "utf-8")


def replace_program(top, commands):
    """Puts commands in the place of the proved program, with their checksum, as bin/prove does: they are to be run."""
    path, sums, real = top / "out/mergejoin", top / "out/mergejoin.sum", top / "out/real"
    shutil.copy2(path, real)
    path.write_text(f"#!/usr/bin/env bash\nreal={real}\n{commands}\n")
    sources = sums.read_text("utf-8").splitlines()[0]
    sums.write_text(f"{sources}\n{hashlib.sha256(path.read_bytes()).hexdigest()}  mergejoin\n", "utf-8")


class Copy:
    """A copy of the repository, with a toolchain that proves nothing."""

    def __init__(self, directory):
        self.top, self.kit = directory / "top", directory / "kit"
        real = pathlib.Path(shutil.which("rt")).resolve()
        (self.kit / "bin").mkdir(parents=True)
        refusal = 'case $1 in lib | run | test) echo "no proof in a copy" && exit 1 ;; esac'
        (self.kit / "bin/rt").write_text(f'#!/bin/sh\n{refusal}\nexec {real} "$@"\n')
        (self.kit / "bin/rt").chmod(0o755)
        (self.kit / "rattle").symlink_to(real.parent.parent / "rattle")
        self.make()

    def make(self):
        shutil.copytree(TOP, self.top, ignore=shutil.ignore_patterns(*LEFT_OUT), symlinks=True)
        for name in BUILT:
            if (TOP / name).exists():
                (self.top / name).parent.mkdir(parents=True, exist_ok=True)
                shutil.copy2(TOP / name, self.top / name)
        self.stamps = self.stamped()

    def stamped(self):
        """Gives the time and the size of each file, but of what a run makes in out/."""
        return {path: (path.stat().st_mtime_ns, path.stat().st_size) for path in self.top.rglob("*")
                if path.is_file() and (self.top / "out" not in path.parents or path.name == "mergejoin")
                and not {"demo", "__pycache__"} & set(path.parts)}

    @contextlib.contextmanager
    def with_edit(self, edit):
        """Has an edit for as long as it is entered. A copy that does not come back as it was is made anew."""
        try:
            edit.make(self.top)
            yield
        finally:
            for name in edit.files | {str(SUM.relative_to(TOP))}:
                shutil.copy2(TOP / name, self.top / name)
            if self.stamped() != self.stamps:
                shutil.rmtree(self.top)
                self.make()

    def run(self, words):
        """Runs tests, and gives the status and all that is printed."""
        setting = {"MERGEJOIN_HISTORY": str(TOP / ".git"), **os.environ, "PATH": f"{self.kit / 'bin'}:{os.environ['PATH']}"}
        # pytest prints other lines where the last two are set.
        outer = [name for name in setting if name.startswith("PYTEST_") or name in ("CI", "BUILD_NUMBER")]
        words = [sys.executable, "-B", "-m", "pytest", "-q", *words]
        done = subprocess.run(words, cwd=self.top, env={name: text for name, text in setting.items() if name not in outer},
                              stdin=subprocess.DEVNULL, stdout=subprocess.PIPE, stderr=subprocess.STDOUT, timeout=900, check=False)
        return done.returncode, done.stdout.decode("utf-8", "replace")


def missed(copy, edit):
    """Gives what is wrong with how an edit is noticed, or nothing. Tests that are all skipped notice nothing."""
    with copy.with_edit(edit):
        status, printed = copy.run(edit.words)
    if status == 0 and " passed" not in printed.rstrip().rpartition("\n")[2]:
        pytest.skip(f"{' '.join(edit.words)} is skipped")
    if status == 0:
        return f"it is not noticed by {' '.join(edit.words)}"
    return None if re.search(edit.prints, printed, flags=re.M) else f"it is not reported as {edit.prints!r}:\n{printed[-3000:]}"


EDITS = [Edit(path) for path in sorted(HERE.glob("*.edit"))]
FILES = {file for edit in EDITS for file in edit.files}
NAMED = {word for edit in EDITS for word in edit.words}


@pytest.fixture(name="copy", scope="session")
def copy_of_the_repository(program, library, tmp_path_factory):
    return Copy(tmp_path_factory.mktemp("copy"))


@pytest.mark.parametrize("edit", EDITS, ids=lambda edit: edit.name)
def test_a_mutant_is_noticed(copy, edit):
    assert missed(copy, edit) is None


def test_what_changes_nothing_is_not_noticed(copy, tmp_path):
    path = tmp_path / "changes-nothing.edit"
    path.write_text("test: tests/tools -k names\nprints: FAILED\nfile: README.md\nline: \n")
    assert missed(copy, Edit(path)) == "it is not noticed by tests/tools -k names"
    path.write_text("test: tests/tools -k names\nprints: something else\nfile: README.md\nline: `bin/nothing`\n")
    assert missed(copy, Edit(path)).startswith("it is not reported as 'something else':")


@pytest.mark.parametrize("path", [*TOP.glob("bin/*"), *TOP.glob("docs/**/*.py")], ids=lambda path: path.name)
def test_each_script_has_a_mutant(path):
    assert str(path.relative_to(TOP)) in FILES


@pytest.mark.parametrize("path", [path for part in NOTICING for path in sorted(TOP.glob(f"tests/{part}/test_*.py"))],
                         ids=lambda path: f"{path.parent.name}/{path.name}")
def test_each_module_has_a_mutant_to_notice(path):
    name = path.relative_to(TOP)
    assert {str(name), str(name.parent)} & NAMED


if "MERGEJOIN_TESTED" not in os.environ:
    @pytest.mark.parametrize("words", sorted({tuple(edit.words) for edit in EDITS}), ids=" ".join)
    def test_what_notices_passes_without_an_edit(copy, words):
        status, printed = copy.run(words)
        assert status == 0, printed[-3000:]
