"""The tools that look for faults of the repository find none: each says what it looks for. Of a directory with a fault they find that.
"""

import shutil

import pytest
from calls import TOP


@pytest.mark.parametrize("tool", ["names", "style", "trusted", "words"])
def test_a_tool_finds_no_fault(run, tool):
    status, out, err = run([TOP / "tools" / tool])
    print(out, err)
    assert status == 0


LONG = "fn long() {\n" + 40 * "    call();\n" + "}\n"
# A file of a crate, its text, and what is wrong with it.
STYLE = {
    "no header": ("src/lib.rt", "mod one;\n", "1: has no header"),
    "a wide line": ("src/lib.rt", "// One.\n" + 101 * "x" + "\n", "2: is wider than 100 columns"),
    "a heading in a docstring": ("src/lib.rt", "// One.\n/// # Errors\n", "2: is a heading for what a sentence says"),
    "a public module": ("src/lib.rt", "// One.\npub mod one;\n", "2: makes the module one public"),
    "a long function": ("src/lib.rt", "// One.\n" + LONG, "2: long has more than 39 lines"),
    "a long file": ("src/lib.rt", 801 * "// One.\n", "1: has more than 799 lines"),
    "definitions without a header": ("specs/One.antt", "one = two\n", "1: has no header"),
    "a proof that reaches into another": ("proofs/One.antt", "-- One.\nuse Rattle.mp_merge.proofs.Two\n",
                                          "2: reaches into a proof of mp_merge: call the law that says it"),
}


@pytest.mark.parametrize("file,text,wrong", STYLE.values(), ids=STYLE)
def test_a_fault_of_style_is_found(run, tmp_path, file, text, wrong):
    path = tmp_path / "crates/mp_cli" / file
    for directory in (path.parent, tmp_path / "tools"):
        directory.mkdir(parents=True)
    path.write_text(text)
    shutil.copy(TOP / "tools/style", tmp_path / "tools")
    lines = f"crates/mp_cli/{file}:{wrong}\n1 files, 1 things against the house style\n"
    assert run([tmp_path / "tools/style"]) == (1, lines, "")


# A page, a line that is added to it, and the name in it that is one of nothing.
NAMES = {
    "a file": ("docs/COST.md", "`tests/cost/test_nothing.py`", "tests/cost/test_nothing.py"),
    "a file of a pattern": ("README.md", "`docs/*.nothing.md`", "docs/*.nothing.md"),
    "a word of the sources": ("CONTRIBUTING.md", "`mp_merge::rewrites_nothing`", "mp_merge::rewrites_nothing"),
    "a word of a crate's page": ("crates/mp_merge/README.md", "`joins_nothing()`", "joins_nothing()"),
}


@pytest.mark.parametrize("page,line,name", NAMES.values(), ids=NAMES)
def test_a_name_of_nothing_is_found(named, page, line, name):
    with open(named.top / page, "a", encoding="utf-8") as file:
        file.write(f"\n{line}\n")
    assert named.found() == (1, [f"{page}: {name}"])


def test_a_line_of_refusal_that_no_example_shows_is_found(named):
    page = named.top / "docs/REFUSALS.md"
    text = page.read_text("utf-8")
    page.write_text(text.replace("no patches", "no patch"), "utf-8")
    assert named.found() == (1, ["docs/REFUSALS.md: no example shows no patches"])


class Named:
    """The pages, and the words that they name, in a directory of their own."""

    def __init__(self, directory, run):
        self.top, self.run = directory, run
        for name in ("bench", "bin", "bindings", "crates", "docs", "tests", "tools"):
            shutil.copytree(TOP / name, directory / name, ignore=shutil.ignore_patterns("out", "target", "__pycache__"))
        for path in (*TOP.glob("*.md"), *TOP.glob("*.txt"), TOP / "LICENSE"):
            shutil.copy(path, directory)

    def found(self):
        """The status, and what is said to name nothing."""
        # (the seeded names stand in this module too)
        (self.top / "tests/tools/test_tools.py").unlink()
        status, out, _ = self.run([self.top / "tools/names"])
        return status, out.splitlines()[:-1]


@pytest.fixture(name="named")
def pages_in_a_directory(run, tmp_path):
    return Named(tmp_path, run)
