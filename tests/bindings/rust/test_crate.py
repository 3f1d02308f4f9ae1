"""The crate for Rust: its tests and examples, with the archive and with the shared library; what it holds is given back; and clippy
and rustdoc have nothing to say of it.
"""

import json
import re
import shutil

import pytest
from calls import TOP, run

OUT = TOP / "out"


def test_with_the_archive(cargo):
    assert cargo("test").count("test result: ok.") == 6


@pytest.fixture(name="shared")
def directory_without_an_archive(tmp_path):
    """The library as it is installed where its archive is not."""
    shutil.copytree(OUT / "lib", tmp_path / "lib", ignore=shutil.ignore_patterns("*.a"))
    shutil.copytree(OUT / "include", tmp_path / "include")
    return tmp_path / "lib"


def test_with_the_shared_library_that_pkg_config_knows(cargo, shared):
    setting = {"MERGEJOIN_LIB": "", "PKG_CONFIG_PATH": str(shared / "pkgconfig"), "LD_LIBRARY_PATH": str(shared)}
    assert cargo("test", "--test", "live", "--test", "texts", **setting).count("test result: ok.") == 2
    program = program_of(cargo, "live", **setting)
    assert "libmergejoin.so.2" in run(["readelf", "-dW", program])[1]


def program_of(cargo, name, **setting):
    """Gives the program of the tests of that name."""
    printed = cargo("test", "--no-run", "--test", name, "--message-format=json", **setting)
    made = [json.loads(line) for line in printed.splitlines()]
    return next(it["executable"] for it in made if it.get("executable") and it["target"]["name"] == name)


@pytest.mark.parametrize("name", ["live", "texts"])
def test_nothing_is_lost(cargo, name):
    valgrind = ["valgrind", "-q", "--error-exitcode=9", "--leak-check=full", "--errors-for-leak-kinds=definite,indirect"]
    status, out, err = run([*valgrind, program_of(cargo, name), "--test-threads=1"], limit=600)
    assert status == 0, out + err


def test_the_program_of_the_page_prints_what_it_shows(cargo, crate):
    page = (TOP / "docs/FROM-RUST.md").read_text("utf-8")
    source, shown = re.search(r"^```rs\n(.*?)^```\n\nIt prints:\n\n```text\n(.*?)^```$", page, re.M | re.S).groups()
    (crate / "examples").mkdir()
    (crate / "examples/page.rs").write_text(source, "utf-8")
    assert cargo("run", "--quiet", "--example", "page") == shown
    shutil.rmtree(crate / "examples")


def test_clippy_has_nothing_to_say(cargo):
    cargo("clippy", "--all-targets", "--quiet", "--", "-W", "clippy::pedantic", "-D", "warnings")


def test_each_page_is_written(cargo):
    cargo("doc", "--no-deps", "--quiet", RUSTDOCFLAGS="-D warnings")


def test_it_can_be_packed(cargo):
    listed = cargo("package", "--list", "--allow-dirty").splitlines()
    assert {"Cargo.toml", "README.md", "build.rs", "src/lib.rs", "tests/live.rs"} <= set(listed)
