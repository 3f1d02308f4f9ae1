"""The statements of docs/SQLITE.md print what it shows, in two sessions of the shell, and so do the commands that run its program, which is
that of bindings/sqlite.
"""

import re
import shutil

import pytest
from calls import TOP, run
from sqlite_page import BLOCKS, PAGE

COMMANDS = re.findall(r"^```console not-run\n(\$ python3 .*?)^```$", PAGE, re.M | re.S)
REPLICA = TOP / "bindings/sqlite/replica.py"
PARTED = "== parted =="


@pytest.fixture(name="printed", scope="module")
def what_the_statements_of_the_page_print(needs, extension, tmp_path_factory):
    """They are run in one database. What is read from a pipe has the line of an error, too. The session that is to end at an error begins
    after those that show errors.
    """
    needs("sqlite3")
    given = "".join(f"{statements}.print {PARTED}\n" for statements, _ in BLOCKS)
    first, bail, second = given.partition(".bail on\n")
    path, directory = str(extension).removesuffix(".so"), tmp_path_factory.mktemp("page")
    printed = [run_in(directory, f"sqlite3 -batch page.db 2>&1 <<'END'\n.load {path}\n{it}END") for it in (first, bail + second)]
    return re.sub(r"^(Runtime error) near line \d+", r"\1", "".join(printed), flags=re.M).split(f"{PARTED}\n")


def run_in(directory, line, **setting):
    """Gives what a line of bash prints in a directory."""
    return run(line, shell=True, cwd=directory, setting=setting)[1]


@pytest.mark.parametrize("number", range(len(BLOCKS)))
def test_the_page_shows_what_its_statements_print(printed, number):
    statements, shown = BLOCKS[number]
    assert printed[number] == shown, statements


def test_the_page_has_the_program(python, tmp_path):
    program = REPLICA.read_text("utf-8")
    assert f"```python\n{program}```\n" in PAGE and program.count("\n") <= 58


@pytest.mark.parametrize("commands", COMMANDS, ids=["program"])
def test_the_program_prints_what_the_page_shows(python, tmp_path, commands):
    shutil.copy(REPLICA, tmp_path)
    steps = re.findall(r"^\$ (.*)\n((?:(?!\$ ).*\n)*)", commands, re.M)
    for line, shown in steps:
        assert run_in(tmp_path, f"{line} 2>&1", PATH=f"{python.parent}:/usr/bin:/bin") == shown, line
