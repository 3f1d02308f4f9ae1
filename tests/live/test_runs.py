"""What stays in memory shows what a replay of all texts shows, and a patch costs what the patch is long: not what the document is
long, nor how many patches came before. The program is crates/replica_runs.
"""

import subprocess

import pytest
from counting import ENVIRONMENT, RUNS, of_patch

MOST_INSTRUCTIONS = 40_000
# The bytes that are held for each byte of the texts, for patches of so many bytes that nest two objects each, and how many.
MOST_HELD, APART, PATCHES = 60, 33, 100_000


def ran(*words):
    """What the program prints of a job: how many patches were taken."""
    done = subprocess.run([RUNS, *map(str, words)], capture_output=True, text=True, env=ENVIRONMENT, timeout=300, check=True)
    return int(done.stdout)


@pytest.mark.parametrize("count", [0, 1, 2, 100, 10_000])
@pytest.mark.parametrize("size", [0, 8_000, 800_000])
def test_a_replica_shows_what_one_replay_of_all_shows(size, count):
    assert ran("agree", size, count) == count


@pytest.mark.parametrize("count", [0, 1, 2, 3, 100, 10_000])
@pytest.mark.parametrize("size", [0, 8_000])
def test_a_log_shows_what_one_replay_of_all_shows(size, count):
    assert ran("agree-log", size, count) == count


@pytest.mark.parametrize("count", [1, 2, 3, 100, 10_000])
def test_two_halves_that_are_combined_give_the_join_of_all(count):
    assert ran("join", 0, count) == count


def test_no_job_that_is_not_there():
    with pytest.raises(subprocess.CalledProcessError):
        ran("no-job", 0, 1)


def test_many_patches_hold_little(heap):
    """Each is joined and dropped as it comes."""
    seen = heap.run([RUNS, "apart", "0", str(PATCHES)], b"", "REFUSE_NOTHING", 0)
    assert seen.ending == (0, f"{PATCHES}\n", "") and not seen.lost
    assert seen.most <= MOST_HELD * APART * PATCHES


def test_a_patch_of_40_bytes_costs_at_most_so_much_on_a_long_document(valgrind):
    assert of_patch("receive", 800_000, 0, 10_000, whole=True) <= MOST_INSTRUCTIONS


@pytest.mark.parametrize("job", ["receive", "log"])
def test_a_patch_costs_the_same_on_a_long_document(job, valgrind):
    short, long = (of_patch(job, size, 100, 200, whole=True) for size in (8_000, 800_000))
    assert abs(long - short) <= short / 20


def test_a_message_costs_the_same_after_many(valgrind):
    early, late = (of_patch("log", 8_000, before, 100, whole=True) for before in (10, 10_000))
    assert late <= early * 1.1


@pytest.mark.parametrize("job", ["receive", "gather"])
def test_a_patch_costs_about_the_same_after_many(job, valgrind):
    early, late = (of_patch(job, 8_000, before, 100, whole=True) for before in (10, 10_000))
    assert late <= early * 1.3
