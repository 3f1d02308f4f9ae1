"""The wheel of the package for Python, which is made once."""

import pytest
from package import WHEEL, lacks, make_wheel


@pytest.fixture(name="wheel", scope="session")
def wheel_with_the_library(needs, library, tmp_path_factory):
    needs(lacking=lacks())
    directory = tmp_path_factory.mktemp("wheel")
    assert make_wheel(directory) == (0, "", "")
    return directory / "made" / WHEEL
