"""bin/conflicts lists each pair of files whose patches conflict, once and in order, and runs the program about as often as there are pairs.
Files, arguments and streams that are wrong are reported.
"""

import itertools
import json
import os
import random
import shutil
import signal
import subprocess

import pytest
from calls import TOP
from copies import UNPROVED
from model import places

CONFLICTS = TOP / "bin/conflicts"
FILES = {
    "red": '{"colour":"red"}\n',
    "blue": ' {"colour":"blue","size":1}',
    "blue too": '{"size":1,\n"colour":"blue"}',
    "big": '{"size":{"x":2},"a/b":{"~":[1,2]}}',
    "bigger": '{"size":{"x":3},"a/b":{"~":[1,2,3]}}',
    "round": '{"shape":"round"}',
    "five": "5",
    "decimal": '{"size":1.5}',
    "deep": "[" * 127 + "]" * 127,
    "two texts": '{"x":1},{"y":2}',
    "empty": "",
    "--help": '{"size":2}',
    "\ttab": '{"size":3}',
    "half": json.dumps({"x": "x" * 600_000}),
    "other half": json.dumps({"y": "y" * 600_000}),
    "exact": json.dumps("x" * (1_048_576 - 3)),
    "one": json.dumps({"n": 1, "x": "x" * 250_000}),
    "two": json.dumps({"n": 1, "y": "y" * 250_000}),
    # The first two fit into half of an input. All three make an array that is as long as an input may be, and one byte longer.
    **{f"fills {more}": json.dumps({"n": 2, "z": "z" * (1_048_576 + more - 3 * len('{"n": 1, "x": ""}') - 500_000 - 4)}) for more in (0, 1)},
    **{f"third {number}": json.dumps({f"{number}": "x" * 400_000, "n": number // 2}) for number in range(3)},
}
LIMIT = "too long"

# The arguments, and the lines, or what is said of them.
CALLS = {
    "one file": (["red"], []),
    "files of which no two conflict": (["red", "round", "big"], []),
    "patches that are the same": (["blue", "blue too", "blue"], []),
    "a pair": (["red", "round", "blue"], ['red\tblue\t"/colour"']),
    "a pair in the order of the arguments": (["blue", "round", "red"], ['blue\tred\t"/colour"']),
    "a file that is named twice": (["red", "blue", "red"], ['red\tblue\t"/colour"', 'blue\tred\t"/colour"']),
    "all places": (["big", "bigger"], ['big\tbigger\t"/a~1b/~0", "/size/x"']),
    "pairs with the root": (["red", "five", "round"], ['red\tfive\t""', 'five\tround\t""']),
    "many pairs": (["red", "bigger", "blue", "big", "round"], ['red\tblue\t"/colour"', 'bigger\tblue\t"/size"',
                                                               'bigger\tbig\t"/a~1b/~0", "/size/x"', 'blue\tbig\t"/size"']),
    "files after --": (["--", "--help", "\ttab"], ['--help\t\\u0009tab\t"/size"']),
    "a name with a control character first": (["--", "\ttab", "--help"], ['\\u0009tab\t--help\t"/size"']),
    "as long as an input": (["one", "two", "fills 0"], ['one\tfills 0\t"/n"', 'two\tfills 0\t"/n"']),
    "longer by one byte": (["one", "two", "fills 1"], ['one\tfills 1\t"/n"', 'two\tfills 1\t"/n"']),
    "a file named by an option among others": (["blue", "--help"], ['blue\t--help\t"/size"']),
    "longer than an input": (["third 0", "third 1", "third 2"], ['third 0\tthird 2\t"/n"', 'third 1\tthird 2\t"/n"']),
    "no file": ([], "usage: conflicts FILE.."),
    "a missing file": (["red", "three"], "three: there is no such file"),
    "a file of two texts": (["red", "two texts"], "two texts: there is more than one JSON text, at line 1, column 8"),
    "an empty file": (["empty", "red"], "empty: it is empty"),
    "a number that is not whole": (["red", "decimal", "blue"], "decimal: number not whole"),
    "a number that is not whole, alone": (["decimal"], "decimal: number not whole"),
    "a patch that is too deep": (["red", "deep", "blue"], "deep: not JSON"),
    "two files that are too long": (["red", "half", "other half"], f"half and other half: {LIMIT}"),
    "a file that is too long": (["red", "exact"], f"exact: {LIMIT}"),
}

# A line of the shell, its status, and what standard output and standard error get.
FAILED = "conflicts: write failed\n"
SHELL = {
    "by sh": (f"sh {CONFLICTS} red round", 0, "", ""),
    "a pipe": (f"{CONFLICTS} red <(sleep 0.2; cat blue) | cut -f 1,3", 0, 'red\t"/colour"\n', ""),
    "standard output that is full": (f"{CONFLICTS} red blue >/dev/full", 2, "", FAILED),
    "standard output that is closed": (f"{CONFLICTS} red blue >&-", 2, "", FAILED),
    "standard error that is closed": (f"{CONFLICTS} three 2>&-", 2, "", ""),
    "no pair, on a full disk": (f"{CONFLICTS} red >/dev/full", 0, "", ""),
}


@pytest.fixture(autouse=True)
def files(tmp_path, program):
    for name, text in FILES.items():
        (tmp_path / name).write_text(text)


@pytest.mark.parametrize("words,said", CALLS.values(), ids=CALLS)
def test_pairs_are_listed_or_it_is_said_what_is_wrong(run, words, said):
    wanted = (2, "", f"conflicts: {said}\n") if isinstance(said, str) else (int(bool(said)), "".join(f"{line}\n" for line in said), "")
    assert run([CONFLICTS, *words]) == wanted


@pytest.mark.parametrize("line,status,out,err", SHELL.values(), ids=SHELL)
def test_a_line_of_the_shell_ends_as_it_should(run, line, status, out, err):
    assert run(line, shell=True) == (status, out, err)


def test_a_module_next_to_the_script_is_not_run(counted):
    (counted.directory / "json.py").write_text("print('mine')")
    assert counted.pairs([{"a": 1}, {"a": 2}]) == ('000\t001\t"/a"\n', 3)


def test_an_interrupt_ends_it_with_no_line(run, tmp_path):
    run(["mkfifo", "pipe"])
    with subprocess.Popen([CONFLICTS, "pipe"], cwd=tmp_path, stdout=subprocess.PIPE, stderr=subprocess.PIPE, start_new_session=True) as conflicts:
        with open(tmp_path / "pipe", "wb"):  # (which waits until it is opened there too)
            os.killpg(conflicts.pid, signal.SIGINT)
            assert (*conflicts.communicate(timeout=20), conflicts.returncode) == (b"", b"", -signal.SIGINT)


@pytest.mark.parametrize("word", ["--help", "-h"])
def test_help(run, word):
    status, out, err = run([CONFLICTS, word])
    assert (status, err) == (0, "") and "Lists each pair" in out and "mergejoin-conflicts patches" in out


class Counted:
    """The script in a directory of its own, with a program that is counted each time it is run."""

    def __init__(self, directory, run):
        self.directory, self.run = directory, run
        for name in ("conflicts", "feed"):
            shutil.copy(TOP / "bin" / name, directory)
        (directory / "mergejoin").write_text(f'#!/bin/sh\necho >>{directory}/runs\nexec {TOP}/out/mergejoin "$@"\n')
        (directory / "mergejoin").chmod(0o755)

    def pairs(self, patches):
        """Gives what is printed of these patches, and how often the program is run."""
        (self.directory / "runs").write_text("")
        names = [f"{number:03}" for number in range(len(patches))]
        for name, patch in zip(names, patches):
            (self.directory / name).write_text(json.dumps(patch))
        status, out, err = self.run([self.directory / "conflicts", *names], cwd=self.directory)
        assert err == "" and status == int(bool(out))
        return out, len((self.directory / "runs").read_text())


@pytest.fixture(name="counted")
def script_with_a_counted_program(tmp_path, run):
    directory = tmp_path / "bin"
    directory.mkdir()
    return Counted(directory, run)


def test_many_files_of_which_no_two_conflict_take_one_run(counted):
    assert counted.pairs([{f"n{number}": 1, "same": {"x": None}} for number in range(400)]) == ("", 1)


def test_each_two_of_files_that_all_conflict_take_two_runs(counted):
    out, runs = counted.pairs([{"n": number} for number in range(9)])
    assert (out.count("\n"), runs) == (36, 1 + 2 * 36)


@pytest.mark.parametrize("seed", range(12))
def test_random_patches_give_the_pairs_that_a_model_gives(counted, seed):
    chance = random.Random(seed)
    patches = [{chance.choice("abcdefghijkl"): chance.choice([None, 1, {}, {"x": chance.randrange(2)}, {"y": [1]}])
                for _ in range(chance.randrange(3))} for _ in range(chance.randrange(2, 16))]
    pairs = [(one, other, places(patches[one], patches[other])) for one, other in itertools.combinations(range(len(patches)), 2)]
    lines = [f"{one:03}\t{other:03}\t{', '.join(map(json.dumps, at))}\n" for one, other, at in pairs if at]
    out, runs = counted.pairs(patches)
    assert out == "".join(lines)
    assert runs <= 1 + 5 * len(lines)


def test_where_nothing_is_proved_each_run_is_counted(copy):
    """And it is said of how many at most: one for each file and four for each two."""
    for name in "abc":
        copy.write(name, json.dumps({name: "x" * 400_000}))
    status, out, err = copy.run(["bin/conflicts", "--", "a", "b", "c"], cwd=copy.top)
    first, rest = err[:len(UNPROVED)], err[len(UNPROVED):]
    assert (status, out, first) == (0, "", UNPROVED)
    lines = [f"conflicts: run {number} of bin/mergejoin, of 15 at most ..\n" for number in range(1, rest.count("\n") + 1)]
    assert rest == "".join(lines) and len(lines) > 2
    assert copy.asked() == ["try in mergejoin"] * len(lines)


def test_that_nothing_is_proved_is_said_before_the_answer(copy):
    """While the first run goes on."""
    copy.write("a", "{}")
    setting = {**os.environ, **copy.setting, "SLOW": str(copy.directory / "slow")}
    with subprocess.Popen([copy.top / "bin/conflicts", copy.top / "a"], env=setting, stderr=subprocess.PIPE, start_new_session=True) as run:
        assert run.stderr.readline().decode() == UNPROVED
        assert run.poll() is None
        os.killpg(run.pid, signal.SIGTERM)
    assert run.returncode == -signal.SIGTERM
