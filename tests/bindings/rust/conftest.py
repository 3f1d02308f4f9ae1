"""The crate for Rust in a directory of its own, over the library that bin/library has made."""

import os
import shutil
import subprocess

import pytest
from calls import TOP

LIBRARY = TOP / "out/lib"


@pytest.fixture(scope="session", name="crate")
def crate_of_its_own(needs, library, tmp_path_factory):
    needs("cargo")
    place = tmp_path_factory.mktemp("crate") / "rust"
    shutil.copytree(TOP / "bindings/rust", place, ignore=shutil.ignore_patterns("target", "Cargo.lock"))
    return place


@pytest.fixture(scope="session", name="cargo")
def command_in_the_crate(crate):
    def cargo(*words, **setting):
        """Runs cargo offline, and gives what it prints, which has to be without a warning."""
        environment = {"MERGEJOIN_LIB": str(LIBRARY), "CARGO_TARGET_DIR": str(crate.parent / "target"), **setting}
        kept = {name: value for name, value in (os.environ | environment).items() if value}
        words = ["cargo", words[0], "--offline", *words[1:]]
        done = subprocess.run(words, cwd=crate, env=kept, capture_output=True, text=True, timeout=600, check=False)
        assert done.returncode == 0, done.stdout + done.stderr
        assert "warning" not in done.stderr
        return done.stdout

    return cargo
