"""`bench/run OLD NEW [SEED]` times two checkouts by turns, and refuses what it can't time before it times anything: here the
checkouts are small, and their program of the workloads is a script.
"""

import os
import re

import calls
import pytest

RUN = calls.TOP / "bench/run"
LISTED = (RUN.parent / "workloads.txt").read_text("utf-8").splitlines()
NAMES = [line.split()[0] for line in LISTED if not line.startswith("#")]
PROGRAM = "crates/workloads/out/workloads"
ANSWERS = 'echo "$@" >>"$0.log"; echo "digest of $@"'
TURNS = 10  # the one that is not timed, and nine


def checkout(directory, script=ANSWERS):
    """Makes a checkout whose program is that script, built after its sources were written."""
    for path, text in {
        "crates.txt": "# a comment\nlow: serde\nmiddle staticlib: low\nworkloads: middle\nother: low\n",
        "crates/low/src/deep/one.rt": "// One.\n",
        "crates/low/proofs/One.antt": "-- One.\n",
        "crates/other/src/lib.rt": "//! Another.\n",
        "bench/nothing": "",
        PROGRAM: f"#!/bin/sh\n{script}\n",
    }.items():
        (directory / path).parent.mkdir(parents=True, exist_ok=True)
        (directory / path).write_text(text, "utf-8")
    (directory / PROGRAM).chmod(0o755)
    return directory


@pytest.fixture(name="old")
def old_one(tmp_path):
    return checkout(tmp_path / "old")


@pytest.fixture(name="new")
def new_one(tmp_path):
    return checkout(tmp_path / "new")


def run(*words):
    """Gives the status of a run and its two streams."""
    return calls.run([RUN, *words])


def runs_of(directory):
    """Gives the words of each run of the program of a checkout."""
    log = directory / f"{PROGRAM}.log"
    return log.read_text("utf-8").splitlines() if log.exists() else []


def is_refused(ended, *checkouts):
    """Gives the one line that says why nothing was timed."""
    status, out, err = ended
    assert status != 0 and out == "" and err.count("\n") == 1 and err.startswith("bench: ")
    assert [runs_of(directory) for directory in checkouts] == [[] for _ in checkouts], "a workload was run"
    return err


def test_each_workload_is_a_row_with_the_median_the_least_and_the_most(old, new):
    status, out, err = run(old, new)
    assert (status, err) == (0, "")
    head, _, *rows = out.splitlines()
    assert head == "medians of 9 turns, with the least and the most, seed 7396"
    times = [re.fullmatch(r"\| (\S+) \| " + 2 * r"([\d.]+) \(([\d.]+) to ([\d.]+)\) \| " + r"[\d.]+ \|", row) for row in rows[2:]]
    assert [found[1] for found in times] == NAMES
    for found in times:
        for median, least, most in (found.groups()[1:4], found.groups()[4:7]):
            assert float(least) <= float(median) <= float(most)


def figures_of(out):
    """Gives of each row the median of the old, that of the new, and the ratio."""
    rows = re.findall(r"^\| \S+ \| ([\d.]+) \(.*?\) \| ([\d.]+) \(.*?\) \| ([\d.]+) \|$", out, re.M)
    assert len(rows) == len(NAMES)
    return [tuple(map(float, row)) for row in rows]


def test_one_that_is_slower_has_a_ratio_below_one(tmp_path, old):
    status, out, _ = run(old, checkout(tmp_path / "new", f"sleep 0.05; {ANSWERS}"))
    assert status == 0
    for before, now, ratio in figures_of(out):
        assert before < now > 0.05 and ratio < 0.7


def test_two_that_are_equal_have_a_ratio_near_one(tmp_path):
    sides = [checkout(tmp_path / side, f"sleep 0.05; {ANSWERS}") for side in ("old", "new")]
    status, out, _ = run(*sides)
    assert status == 0
    for before, now, ratio in figures_of(out):
        assert abs(ratio - before / now) < 0.03 and 0.5 < ratio < 2


def test_each_is_run_as_often_with_the_seed_that_was_given(old, new):
    assert run(old, new, "0042")[0] == 0
    for directory in (old, new):
        words = runs_of(directory)
        assert len(words) == TURNS * len(NAMES)
        assert set(words) == {f"{words.split()[2]} {words.split()[3]} 0042" for words in LISTED if not words.startswith("#")}


def test_two_that_print_different_things_are_not_timed(tmp_path, old):
    status, out, err = run(old, checkout(tmp_path / "new", 'echo "another digest"'))
    assert status != 0 and f"| {NAMES[0]} |" not in out
    assert err.startswith(f"bench: {NAMES[0]}: the two print different things: ") and "another digest" in err


@pytest.mark.parametrize("script", ["echo no memory >&2; exit 3", "echo digest; echo a warning >&2"])
def test_one_that_fails_is_not_timed(tmp_path, old, script):
    status, out, err = run(old, checkout(tmp_path / "new", script))
    assert status != 0 and f"| {NAMES[0]} |" not in out
    assert re.match(rf"bench: \S+/new: workloads {NAMES[0]} .* ended with \d: (no memory|a warning)\n", err)


def test_one_that_is_not_built_is_refused(old, new):
    (new / PROGRAM).unlink()
    assert f"{new / PROGRAM} is not built" in is_refused(run(old, new), old)
    assert f"{new / PROGRAM} is not built" in is_refused(run(new, old), old)
    assert "is not built" in is_refused(run(old, old / "nowhere"), old)


@pytest.mark.parametrize("source", ["crates/low/src/deep/one.rt", "crates/low/proofs/One.antt"])
def test_one_that_is_older_than_its_sources_is_refused(old, new, source):
    built = (new / PROGRAM).stat().st_mtime
    os.utime(new / source, (built + 5, built + 5))
    assert f"{new / PROGRAM} is older than {new / source}" in is_refused(run(old, new), old, new)


def test_sources_that_it_is_not_built_of_may_be_newer(old, new):
    built = (new / PROGRAM).stat().st_mtime
    os.utime(new / "crates/other/src/lib.rt", (built + 5, built + 5))
    assert run(old, new)[0] == 0


@pytest.mark.parametrize("seed", ["4294967296", "-1", "1.5", "7e3", "0x10", "seven", ""])
def test_a_seed_that_is_no_whole_number_below_the_limit_is_refused(old, new, seed):
    assert f"below 2^32, and {seed!r} is none" in is_refused(run(old, new, seed), old, new)


def test_the_greatest_seed_is_taken(old, new):
    assert run(old, new, "4294967295")[0] == 0


def test_other_words_are_refused():
    assert run("one", "two", "3", "four") == (1, "", "usage: bench/run OLD NEW [SEED]\n")
