"""Copies of the scripts, with a toolchain that proves nothing."""

import shutil

import pytest
from calls import TOP
from copies import PROVED, Copy, built


@pytest.fixture(name="copy")
def copy_of_the_scripts(tmp_path):
    """A copy in which nothing is proved. Whatever is run there leaves nothing in the directory for temporary files."""
    copy = Copy(tmp_path)
    yield copy
    assert not list(copy.workspace.iterdir())


@pytest.fixture(name="proved")
def copy_with_a_program(copy):
    """A copy in which bin/prove has built the program, which has been run."""
    assert copy.run(["bin/prove"]) == (0, "", built())
    assert copy.join() == PROVED
    copy.asked()
    return copy


@pytest.fixture(name="installable")
def copy_with_pages(proved):
    """A copy with a program and the pages that are installed with it."""
    shutil.copytree(TOP / "docs", proved.top / "docs")
    for name in ("README.md", "LICENSE"):
        shutil.copy(TOP / name, proved.top)
    return proved
