"""The programs of these tests, with the library that is in out/, which is built first if it must be."""

import driving
import pytest


@pytest.fixture(name="directory", scope="session")
def session_directory(needs, library, tmp_path_factory):
    """A directory for programs; the library is there."""
    needs("gcc", "g++")
    return tmp_path_factory.mktemp("programs")


@pytest.fixture(name="driver", scope="session")
def driver_program(directory):
    return driving.compiled(directory, driving.HERE / "driver.c", *driving.WRAPPED)
