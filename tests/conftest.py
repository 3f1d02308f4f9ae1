"""What the tests of several directories share: the proved program and the library, what is done without what a test needs, and a heap.
And which tests are slow.
"""

import functools
import os
import pathlib
import shutil

import pytest

from calls import PROGRAM, has_library, is_proved, run
from failing import Heap

TESTS = pathlib.Path(__file__).resolve().parent
# What takes long, or looks at what only `rt ci` leaves: `bin/test` leaves it out, and `bin/test all` runs it.
SLOW = ("allocation", "bindings/dask", "bindings/postgresql", "bindings/python/test_cost.py", "bindings/sqlite/test_memory.py",
        "bindings/sqlite/test_replica.py", "cost", "live", "packages/test_package.py", "pages/test_site.py", "program/test_growth.py",
        "replicas", "scripts/test_unproved.py", "tools/test_must_fail.py")

# What `rt ci` leaves in crates/, and the tests that run it.
LEFT = {"cost/test_counts.py": "workloads/out/workloads", "live": "replica_runs/out/replica_runs",
        "program/test_growth.py": "test_vectors/out/test_vectors_tests"}


def pytest_runtest_setup(item):
    """A test says so if the program that it runs is not there."""
    for place, program in LEFT.items():
        if item.path.relative_to(TESTS).as_posix().startswith(place) and not (TESTS.parent / "crates" / program).exists():
            pytest.fail(f"there is no crates/{program}, which `rt ci` leaves", pytrace=False)


def pytest_collection_modifyitems(items):
    """Marks what is slow, which begins first: so no processor waits for it at the end."""
    for item in items:
        if item.path.relative_to(TESTS).as_posix().startswith(SLOW):
            item.add_marker("slow")
    items.sort(key=lambda item: item.get_closest_marker("slow") is None)


@pytest.fixture(name="program", scope="session")
def proved_program():
    """The proved program, which bin/prove makes if it must."""
    if not is_proved():
        pytest.fail("there is no proved program: bin/prove failed")
    return PROGRAM


@pytest.fixture(name="library", scope="session")
def library_that_is_built():
    """The library is in out/, where bin/library makes it if it must."""
    if not has_library():
        pytest.fail("there is no library: bin/library failed")


@pytest.fixture(name="run")
def what_runs_words(tmp_path):
    """Runs words as a shell would, in a directory of the test, and gives the status and both streams."""
    return functools.partial(run, cwd=tmp_path)


@pytest.fixture(name="needs", scope="session")
def what_skips_without_a_need():
    """Skips a test that needs commands that are not there, or lacks something else, or fails it where all checks are to run."""
    def needs(*commands, lacking=None):
        missing = [command for command in commands if not shutil.which(command)]
        if reason := lacking or missing and f"not installed: {', '.join(missing)}":
            (pytest.fail if os.environ.get("MERGEJOIN_ALL_CHECKS") else pytest.skip)(reason)

    return needs


@pytest.fixture(name="valgrind", scope="session")
def valgrind_is_there(needs):
    needs("valgrind")


@pytest.fixture(name="heap", scope="session")
def heap_that_refuses_and_counts(needs, tmp_path_factory):
    needs("cc")
    return Heap(tmp_path_factory.mktemp("heap"))
