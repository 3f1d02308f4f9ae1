"""What tests of several pages run."""

import pytest
from calls import TOP

INSTALLED = {"mergejoin": "out/mergejoin", **{f"mergejoin-{name}": f"bin/{name}" for name in ("conflicts", "feed", "locate")}}


@pytest.fixture(name="installed")
def directory_of_what_is_installed(program, tmp_path):
    """The program and the scripts, by their names when they are installed."""
    directory = tmp_path / "installed"
    directory.mkdir()
    for name, path in INSTALLED.items():
        (directory / name).symlink_to(TOP / path)
    return directory
