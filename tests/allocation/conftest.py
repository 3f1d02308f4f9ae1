"""What is built for the tests of allocation."""

import subprocess

import pytest
from counting import driver_in
from measuring import ARCHIVE, CALLER, CRATE


@pytest.fixture(name="driver", scope="session")
def program_that_makes_one_call(needs, library, tmp_path_factory):
    needs("cc")
    return driver_in(tmp_path_factory.mktemp("driver"), ARCHIVE)


@pytest.fixture(name="caller", scope="session")
def program_of_the_crate():
    """The program crates/allocation_failures, as `rt ci` has left it, or else `rt run`."""
    if not CALLER.exists():
        subprocess.run(["rt", "run"], cwd=CRATE, stdout=subprocess.DEVNULL, check=True)
    return CALLER
