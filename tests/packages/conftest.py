"""The packages that bin/package makes of this repository, and a copy of it in which that can be run."""

import calls
import pytest
from making import LIMIT, PACKAGE, copy_of_what_was_built


@pytest.fixture(name="packed", scope="session")
def what_bin_package_ends_with(program, library, needs, tmp_path_factory):
    """A directory in which bin/package has made the packages by a narrow mask, and how it ended."""
    needs("dpkg-deb")
    directory = tmp_path_factory.mktemp("packages")
    return directory / "one", calls.run(f"umask 077; {PACKAGE} one", shell=True, cwd=directory, limit=LIMIT)


@pytest.fixture(name="one", scope="session")
def directory_of_the_packages(packed):
    return packed[0]


@pytest.fixture(name="top")
def copy_with_what_was_built(needs, program, library, tmp_path):
    """In a directory with a space."""
    needs("dpkg-deb")
    return copy_of_what_was_built(tmp_path / "a copy")
