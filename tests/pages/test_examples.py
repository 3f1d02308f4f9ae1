"""Each example of README.md, docs/ and the pages of the crates prints what it shows, and their lines of the sources stand there.

An example is a block that begins with a line ```console. Its lines that begin with '$ ' are commands, and the lines below a
command are what it prints on standard output and standard error together. A command that ends with a backslash goes on in the
next line, which may begin with '> '. One bash runs the commands of a block, in order and with no standard input, so `$ echo $?`
shows the status of the command before it. And one runs those of a page once more, as someone does who follows the page in one
terminal. They find the scripts and the program, by their names when they are installed too, and have a directory of their own. README is for
a fresh clone, so its commands find none by the name when it is installed.

Not run: the command bin/test, and blocks that are marked otherwise, as ```console not-run.

A block that begins with a line ```rust or ```antt is some lines of one file of crates/, as they stand there: so it is proved. One
that begins with ```crates is lines of crates.txt.
"""

import difflib
import os
import re
import shlex

import pytest
from calls import TOP

PAGES = ["README.md",
         *sorted(str(page.relative_to(TOP)) for where in ("docs/*.md", "crates/*/README.md") for page in TOP.glob(where))]
# A command with the lines that it goes on in, and what stands below it.
STEP = re.compile(r"^\$ ((?:.*\\\n)*.*\n)((?:(?!\$ ).*\n)*)", re.M)
# Shows a command as the page does, and leaves $? as it was.
PRELUDE = 'exec 2>&1\nshow() { local status=$?; printf "%s" "$1"; return $status; }\n'
SOURCES = {"rust": "crates/*/src/**/*.rt", "antt": "crates/*/*/**/*.antt", "crates": "crates.txt"}


def blocks():
    """Gives of each block of the pages the page, what follows its ```, its line and its text."""
    for page in PAGES:
        text = (TOP / page).read_text("utf-8")
        for found in re.finditer(r"^```(.*)\n((?:.*\n)*?)```$", text, re.M):
            yield page, found[1], text.count("\n", 0, found.start()) + 1, found[2]


BLOCKS = list(blocks())
WITH_EXAMPLES = dict.fromkeys(page for page, kind, *_ in BLOCKS if kind == "console")
SHOWN = [pytest.param(kind, text, id=f"{page}:{line} {kind}") for page, kind, line, text in BLOCKS if kind in SOURCES]


@pytest.fixture(name="prints")
def what_runs_an_example(program, installed, run, tmp_path):
    """Runs the commands of an example, and gives what it shows and what they print."""
    for path in [program, *(TOP / "bin").iterdir()]:
        (tmp_path / path.relative_to(TOP)).parent.mkdir(exist_ok=True)
        (tmp_path / path.relative_to(TOP)).symlink_to(path)

    def prints(page, example):
        assert STEP.sub("", example) == "", "the first line of an example is no command"
        steps = [step for step in STEP.finditer(example) if step[1] != "bin/test\n"]
        script = "".join(f"show {shlex.quote('$ ' + step[1])}\n" + step[1].replace("\\\n> ", "\\\n") for step in steps)
        setting = {} if page == "README.md" else {"PATH": f"{installed}:{os.environ['PATH']}"}
        return "".join(step[0] for step in steps), run(PRELUDE + script, shell=True, setting=setting)[1]

    return prints


def test_pages_have_not_lost_their_examples():
    assert {"README.md", "crates/mergejoin/README.md", "docs/COST.md", "docs/REFUSALS.md", "docs/TUTORIAL.md"} <= {*WITH_EXAMPLES}


@pytest.mark.parametrize("page", WITH_EXAMPLES)
@pytest.mark.parametrize("way", ["each by itself", "all in one terminal"])
def test_examples_print_what_they_show(prints, page, way):
    examples = [text for at, kind, _, text in BLOCKS if (at, kind) == (page, "console")]
    runs = [prints(page, example) for example in (examples if way == "each by itself" else ["".join(examples)])]
    shown, printed = ("".join(texts).splitlines() for texts in zip(*runs))
    assert not (diff := "\n".join(difflib.unified_diff(shown, printed, page, "printed", lineterm=""))), diff


@pytest.mark.parametrize("kind,text", SHOWN)
def test_a_block_stands_in_the_sources(kind, text):
    assert any("\n" + text in "\n" + path.read_text("utf-8") for path in TOP.glob(SOURCES[kind])), text
