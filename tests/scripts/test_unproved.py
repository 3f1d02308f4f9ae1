"""bin/mergejoin in a copy of the sources of which no program was built: its answers, which rt try gives, are the proved program's, with
one line before them on standard error, and what is longer than rt try takes is refused.
"""

import concurrent.futures
import shutil

import calls
import pytest
from calls import TOP

MEMBERS = ",".join(f'"name {number:06}":[{number}]' for number in range(40_000))
COPY = '{"op":"copy","from":"/a","path":"/a/-"}'
# The words and the input.
ANSWERED = ["get", "/a b/x y *$HOME"], f'[{{"a b":{{"x y *$HOME":{{{MEMBERS}}}}}}}]'
TOO_LONG = ["patch"], f'[{{"a":["{"x" * 1000}"]}},[{",".join([COPY] * 12)}]]'


@pytest.fixture(name="copied", scope="module")
def copy_and_its_answers(program, tmp_path_factory):
    """A copy, and what it answers to both at once, each of which takes one processor."""
    directory = tmp_path_factory.mktemp("unproved")
    top, workspace = directory / "copy", directory / "workspace"
    workspace.mkdir()
    for name in ("bin", "crates"):
        shutil.copytree(TOP / name, top / name, ignore=shutil.ignore_patterns("out"))
    shutil.copy(TOP / "crates.txt", top)

    def answer(run):
        return calls.run([top / "bin/mergejoin", *run[0]], given=run[1], cwd=directory, setting={"TMPDIR": str(workspace)}, limit=600)

    with concurrent.futures.ThreadPoolExecutor(2) as pool:
        answers = list(pool.map(answer, (ANSWERED, TOO_LONG)))
    assert not list(workspace.iterdir())
    return top, answers


def test_an_answer_is_that_of_the_proved_program(copied, program, run):
    status, out, err = copied[1][0]
    first, _, rest = err.partition("\n")
    assert "not from the proved program" in first and "bin/prove" in first
    assert (status, out, rest) == run([program, *ANSWERED[0]], ANSWERED[1])


def test_an_answer_that_is_too_long_is_refused(copied):
    status, out, err = copied[1][1]
    first, _, rest = err.partition("\n")
    assert "not from the proved program" in first and "bin/prove" in first
    assert (status, out) == (125, "") and rest.startswith("mergejoin: the sources gave no answer: rt try ended with")


def test_nothing_is_built(copied):
    assert sorted(path.name for path in copied[0].iterdir()) == ["bin", "crates", "crates.txt"]
    assert not list(copied[0].glob("crates/*/out/*"))
