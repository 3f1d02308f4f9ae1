"""Linters have nothing to say of the scripts, the Python and the C of the repository. Of the Rust, tests/bindings/rust asks clippy; of
the Rattle, `rt ci` holds the layout of `rt fmt`.
"""

import pathlib
import sysconfig

import pytest
from calls import TOP, run

DIRECTORIES = (".ci", "bench", "bin", "bindings", "docs", "tests", "tools")
MADE = {"build", "out", "target", "__pycache__"}
# Its head is written by the test that compiles it (tests/library/test_programs.py), with all warnings.
ELSEWHERE = {"threads.c"}
C = ["-std=gnu11", "-Wall", "-Wextra", "-Werror", f"-I{TOP / 'bindings/c'}"]
# It has nothing to say of memcpy and its like, nor of blocks of no bytes, which a text without bytes has in a test.
CLANG = "-clang-analyzer-security.insecureAPI.DeprecatedOrUnsafeBufferHandling,-clang-analyzer-optin.portability.UnixAPI"


def sources():
    """Gives the files that are written by hand, in the order of their names."""
    for directory in DIRECTORIES:
        for path in sorted((TOP / directory).rglob("*")):
            if path.is_file() and not MADE & set(path.relative_to(TOP).parts):
                yield path


def with_head(word):
    """Gives the scripts whose first line names what runs them."""
    for path in sources():
        if not path.suffix and path.stat().st_mode & 0o100:
            with path.open("rb") as file:
                head = file.readline()
            if head.startswith(b"#!") and word in head:
                yield path


def of_kind(*suffixes):
    return [path for path in sources() if path.suffix in suffixes and path.name not in ELSEWHERE]


@pytest.fixture(name="says", scope="session")
def what_runs_a_linter(needs):
    def says(*words):
        """Runs a linter, which has to end well, and gives what it says."""
        needs(words[0])
        status, out, err = run(words, cwd=TOP, limit=600)
        assert status == 0, out + err
        return out

    return says


@pytest.fixture(name="headers", scope="session")
def headers_of_a_server_and_of_python(needs, says):
    """Where the headers of a PostgreSQL server and of Python are. Those of SQLite are where the compiler looks."""
    needs(lacking=None if pathlib.Path("/usr/include/sqlite3ext.h").exists() else "not installed: libsqlite3-dev")
    return ["-isystem", says("pg_config", "--includedir-server").strip(), "-isystem", sysconfig.get_path("include")]


def test_shellcheck(says):
    scripts = [*with_head(b"sh"), *of_kind(".sh", ".bash")]
    # (what one script sets for another that reads it, it takes for a change in a subshell)
    assert says("shellcheck", "--external-sources", "--exclude=SC2031", *scripts) == ""


def test_pyflakes(says):
    assert says("pyflakes3", *with_head(b"python"), *of_kind(".py")) == ""


def together():
    """Gives what is looked at at once: the modules of each directory, and each script, by a name."""
    found = {}
    for path in of_kind(".py"):
        found.setdefault(str(path.parent.relative_to(TOP)), []).append(path)
    return found | {str(path.relative_to(TOP)): [path] for path in with_head(b"python")}


@pytest.fixture(name="types", scope="session")
def directory_of_known_types(tmp_path_factory):
    return tmp_path_factory.mktemp("types")


@pytest.mark.parametrize("name", together())
def test_mypy(says, types, name):
    words = ["--cache-dir", types, "--ignore-missing-imports", "--follow-imports=silent", "--explicit-package-bases"]
    assert says("mypy", *words, *together()[name]).startswith("Success")


@pytest.mark.parametrize("compiler", ["gcc", "clang"])
@pytest.mark.parametrize("path", of_kind(".c"), ids=lambda path: str(path.relative_to(TOP)))
def test_compilers_warn_of_nothing(says, headers, path, compiler):
    assert says(compiler, *C, *headers, f"-I{path.parent}", "-fsyntax-only", path) == ""


@pytest.mark.parametrize("path", of_kind(".c"), ids=lambda path: str(path.relative_to(TOP)))
def test_clang_tidy(says, headers, path):
    assert says("clang-tidy", "--quiet", f"--checks={CLANG}", path, "--", *C, *headers, f"-I{path.parent}") == ""
