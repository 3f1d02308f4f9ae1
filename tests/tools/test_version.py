"""tools/version in a copy of the places that it lists: each that differs is reported, and --set writes them all or none. No other file of the
repository has the version, but those that say what stays when the next one comes.
"""

import re
import shutil
import subprocess

import pytest
from calls import TOP, run
from released import PLACES, VERSION

FILES = sorted({file for file, _, _ in PLACES.values()})
# What has the version and keeps it: the changes themselves, a decision about them, and from which library on the crate and the package are served.
KEPT = {"CHANGELOG.md", "docs/DECISIONS.md", "bindings/python/setup.py", "bindings/rust/README.md", "bindings/rust/build.rs"}
NEXT = "1.20.304"


@pytest.fixture(name="top")
def copy_of_the_places(tmp_path):
    """In which the changes have a head of the next version, below one that has no day yet."""
    for file in (*FILES, "tools/version"):
        (tmp_path / file).parent.mkdir(parents=True, exist_ok=True)
        shutil.copy2(TOP / file, tmp_path / file)
    changes = (TOP / "CHANGELOG.md").read_text("utf-8")
    heads = f"## Unreleased\n\n- One.\n\n## {NEXT} (2027-01-31)\n\n- Two.\n\n"
    (tmp_path / "CHANGELOG.md").write_text(re.sub(r"^## ", f"{heads}## ", changes, count=1, flags=re.M), "utf-8")
    return tmp_path


def texts(top):
    return {file: (top / file).read_text("utf-8") for file in FILES}


def test_each_place_with_another_version_is_reported(top):
    status, out, err = run([top / "tools/version"])
    assert (status, err) == (1, "") and out.count(f"and not {NEXT} as CHANGELOG.md") >= 6
    for name, (file, _, wanted) in PLACES.items():
        assert re.search(rf"^{file}: {name} has {re.escape(wanted)}, and not [0-9.]+ as CHANGELOG\.md$", out, re.M), name
    assert out.endswith(f"\n{len(PLACES)} places, {len(PLACES)} of them with another version than {NEXT}\n")


def test_the_version_is_set_in_each_place(top):
    before = texts(top)
    assert run([top / "tools/version", "--set"])[::2] == (0, "")
    assert [file for file in FILES if texts(top)[file] == before[file]] == []
    assert run([top / "tools/version"])[0] == 0
    assert "#define MERGEJOIN_VERSION_PATCH 304\n" in texts(top)["bindings/c/mergejoin.h"]
    assert "    1020304\n" in texts(top)["crates/mp_c/src/version.rt"] and 'rust-version = "1.63"' in texts(top)["bindings/rust/Cargo.toml"]
    (top / "CHANGELOG.md").write_text((TOP / "CHANGELOG.md").read_text("utf-8"), "utf-8")
    assert run([top / "tools/version", "--set"])[::2] == (0, "") and texts(top) == before


def test_if_one_place_is_not_found_none_is_written(top):
    (top / "bin/feed").write_text("no version\n")
    before = texts(top)
    says = "version: bin/feed: bin/feed has no version where one was, so nothing is written\n"
    assert run([top / "tools/version", "--set"]) == (1, "", says) and texts(top) == before
    assert "bin/feed: bin/feed has no version where one was\n" in run([top / "tools/version"])[1]


def test_changes_without_a_version_are_refused(top):
    (top / "CHANGELOG.md").write_text("## Unreleased\n")
    says = "version: CHANGELOG.md has no head with a version and a day, as ## 1.2.3 (2026-01-31)\n"
    assert run([top / "tools/version"]) == (1, "", says)


def test_the_version_and_its_changes_are_printed(top):
    assert run([top / "tools/version", "--print"]) == (0, f"{NEXT}\n", "")
    assert run([top / "tools/version", "--changes"]) == (0, "- Two.\n", "")


@pytest.mark.parametrize("words", [["--get"], ["--set", "1.2.3"]], ids=repr)
def test_wrong_words_are_refused(words):
    assert run([TOP / "tools/version", *words]) == (1, "", "usage: tools/version [--set | --print | --changes]\n")


def tracked():
    """Gives each file that may have the version: what git knows, and else all that is no product."""
    named = subprocess.run(["git", "-C", TOP, "ls-files"], capture_output=True, text=True, check=False).stdout.splitlines()
    if not named:
        made = {"out", "target", "build", "__pycache__", ".git"}
        named = [str(path.relative_to(TOP)) for path in TOP.rglob("*") if not made & set(path.relative_to(TOP).parts)]
    return [name for name in named if (TOP / name).is_file()]


def test_no_other_file_has_the_version(needs):
    """So no place is forgotten when the next one comes. A number of a proof, as z.0.3.0, is none."""
    needs("git")
    numbers = re.compile(rf"(?<![\w.]){re.escape(VERSION)}(?![\w.]*\d)".encode())
    has = {name for name in tracked() if numbers.search((TOP / name).read_bytes())}
    assert has - {*FILES, *KEPT} == set()
