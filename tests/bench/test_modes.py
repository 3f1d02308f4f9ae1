"""Each mode of `bench/run` measures all its jobs, on small sizes, and prints a row of each: also of a job that ends with status 1."""

import pathlib
import re

import calls
import pytest

BENCH = calls.TOP / "bench"
NEEDS = {
    "jobs": ["valgrind", "cargo", "time"],
    "sizes": ["valgrind", "cargo", "jq"],
    "merge": ["valgrind", "cargo", "jq"],
    "patch": ["valgrind", "g++"],
    "lists": ["valgrind"],
    "library": ["valgrind", "cargo", "cc"],
}
LIMIT = 600  # seconds


def jobs():
    """The titles of what `bench/run` without a word measures."""
    return re.findall(r"(?:^|do |^expected=1 )job ['\"]([^'\"]+)['\"]", (BENCH / "jobs.sh").read_text("utf-8"), re.M)


def printed(titles):
    """A pattern for the first cells of rows, of titles that may have a count of patches in them."""
    return [re.compile(r"\| " + re.escape(title).replace(re.escape("$count"), r"\d+") + r" \|( +[\d.]+ \|)+") for title in titles]


@pytest.fixture(name="measures")
def what_runs_a_mode(needs, program, library, tmp_path):
    """Runs a mode on small sizes, in a directory for temporary files of its own, and gives what it prints."""
    def measures(*words):
        mode = words[0] if words else "jobs"
        needs(*NEEDS[mode])
        for peer, header in (("cargo", "/usr/share/cargo/registry"), ("g++", "/usr/include/nlohmann/json.hpp")):
            needs(lacking=peer in NEEDS[mode] and not pathlib.Path(header).exists() and f"not installed: what has {header}" or None)
        setting = {"TMPDIR": str(tmp_path), "BENCH_SMALL": "1"}
        status, out, err = calls.run([BENCH / "run", *words], setting=setting, limit=LIMIT)
        assert status == 0, err
        assert "DIFFERS" not in err
        return out

    return measures


def test_all_jobs_are_measured(measures):
    """Two of them conflict, and end with status 1."""
    wanted = jobs()
    assert len(wanted) > 20 and sum("conflict" in title for title in wanted) == 2
    rows = measures().splitlines()[-len(wanted):]
    assert [row for pattern, row in zip(printed(wanted), rows) if not pattern.fullmatch(row)] == []


def test_sizes_are_printed_of_each_job_and_program(measures):
    kept = (BENCH / "sizes.txt").read_text("utf-8")
    rows = [tuple(line.split(";")[:2]) for line in measures("sizes").splitlines()]
    assert sorted(rows) == sorted({tuple(line.split(";")[:2]) for line in kept.splitlines()})
    assert (BENCH / "sizes.txt").read_text("utf-8") == kept


@pytest.mark.parametrize("mode,rows", [("merge", 4), ("patch", 3), ("lists", 1), ("library", 4)])
def test_a_row_is_printed_of_each(measures, mode, rows):
    assert len(re.findall(r"^\| .* \|( +[\d.,()]+ +[\d.,()]* *\|| [\d.,]+ kB \|)+", measures(mode), re.M)) >= rows
