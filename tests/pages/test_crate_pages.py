"""Each crate of crates.txt has a short page, README.md in its directory: it names what the crate exports and links to its section of
docs/PROMISES.md, and its examples are those of docstrings and of stored runs. docs/ARCHITECTURE.md is short, and has a row for each
crate. The names and the links of these pages are looked at by tools/names and test_facts.py, and their other examples by
test_examples.py.
"""

import pathlib
import re
import shlex

import pytest

TOP = pathlib.Path(__file__).resolve().parents[2]
DEPENDS = {name: words.split() for name, words in
           re.findall(r"^(\w+)(?: staticlib)?: (.*)$", (TOP / "crates.txt").read_text("utf-8"), re.M)}
ARCHITECTURE = (TOP / "docs/ARCHITECTURE.md").read_text("utf-8")
PROMISES = (TOP / "docs/PROMISES.md").read_text("utf-8")
MOST_LINES, MOST_OF_ARCHITECTURE = 40, 120
PAGES = {name: TOP / "crates" / name / "README.md" for name in DEPENDS}
each_crate = pytest.mark.parametrize("crate", DEPENDS)


def page_of(crate):
    return PAGES[crate].read_text("utf-8") if PAGES[crate].is_file() else ""


def sources(crate):
    return [path.read_text("utf-8") for path in sorted((TOP / "crates" / crate / "src").rglob("*.rt"))]


def exports(crate):
    """Gives what the root of a crate names by `pub use`."""
    root = TOP / "crates" / crate / "src/lib.rt"
    text = root.read_text("utf-8") if root.is_file() else ""
    found = re.findall(r"^pub use [\w:]+::(?:\{([^}]*)\}|(\w+));", text, re.M)
    return [name for several, one in found for name in re.findall(r"\w+", several or one)]


def blocks(page, kind):
    """Gives each block of a page that begins with ``` and the kind."""
    return re.findall(rf"^```{kind}\n(.*?)^```$", page, re.M | re.S)


def quoted(page):
    """Gives the words of the pieces in backquotes of a page, outside of its blocks."""
    text = re.sub(r"^```.*?^```$", "", page, flags=re.M | re.S)
    return {word for piece in re.findall(r"`([^`\n]+)`", text) for word in re.findall(r"\w+", piece)}


def stored_run(crate):
    """Gives how a program's stored run is begun in its directory, and what it prints."""
    args, stdout = ((TOP / "crates" / crate / name).read_text("utf-8") for name in ("args", "stdout"))
    return f"$ rt run -- {shlex.join(args.splitlines())}\n{stdout.rstrip()}\n"


def test_there_are_crates():
    assert len(DEPENDS) >= 14 and sum(len(exports(crate)) for crate in DEPENDS) >= 140


@each_crate
def test_a_crate_has_a_short_page_with_an_example(crate):
    page = page_of(crate)
    assert page.startswith(f"# {crate}\n"), f"{crate} has no page"
    assert len(page.splitlines()) <= MOST_LINES, f"the page of {crate} has {len(page.splitlines())} lines"
    assert blocks(page, r"[a-z -]+"), f"the page of {crate} has no example"


@each_crate
def test_a_page_names_what_its_crate_exports(crate):
    assert [name for name in exports(crate) if name not in quoted(page_of(crate))] == [], "it does not name these"


@each_crate
def test_a_page_links_to_the_promises_of_its_crate(crate):
    has_section = f"\n## {crate}\n" in PROMISES
    assert not has_section or f"](../../docs/PROMISES.md#{crate})" in page_of(crate)


@each_crate
def test_an_example_of_a_docstring_stands_there(crate):
    docstrings = ["\n" + re.sub(r"^ *///? ?", "", text, flags=re.M) for text in sources(crate)]
    for block in blocks(page_of(crate), "text"):
        assert any("\n" + block in text for text in docstrings), f"this stands in no docstring of {crate}:\n{block}"


@each_crate
def test_an_example_that_is_not_run_is_the_stored_run(crate):
    for block in blocks(page_of(crate), "console not-run"):
        assert block == stored_run(crate)


def test_the_architecture_is_short():
    assert len(ARCHITECTURE.splitlines()) <= MOST_OF_ARCHITECTURE, f"it has {len(ARCHITECTURE.splitlines())} lines"


@each_crate
def test_the_architecture_has_a_row_of_each_crate(crate):
    row = re.search(rf"^\| \[`{crate}`\]\(\.\./crates/{crate}/README\.md\) \|.*\| (.*) \|$", ARCHITECTURE, re.M)
    assert row, f"there is no row of {crate}"
    assert re.findall(r"`(\w+)`", row[1]) == DEPENDS[crate], "it depends on other crates"
