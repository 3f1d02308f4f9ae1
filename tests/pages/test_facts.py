"""The pages state facts as the sources that decide them have them, whatever the words around them are: versions, the C library,
commands and statuses. Each link leads to a file and a heading. README.md is short, and its promise is that of docs/PROMISES.md.
Wherever a page says with which status a line of refusal comes, it is that of the examples of docs/REFUSALS.md, which
test_examples.py runs. And each table of times or of memory names above it, in its section, the commit and the command that it was
made with.
"""

import pathlib
import re

import pytest
from released import PLACES

TOP = pathlib.Path(__file__).resolve().parents[2]
PAGES = ["README.md", "CONTRIBUTING.md", "SECURITY.md", "CHANGELOG.md",
         *sorted(str(page.relative_to(TOP)) for where in ("docs/*.md", "crates/*/README.md") for page in TOP.glob(where))]
LINES, COLUMNS = 120, 100  # of README.md
# What a table of times or of memory has in a cell, or in its head; and what has to stand above it.
UNITS, MEASURES = r"\| *[0-9.,]+ (?:us|ms|s|MB|KiB)\b", r"^.*\b(?:MB|kB|KiB|seconds|minutes|nanoseconds|resident|memory)\b"
MADE_WITH = {"commit": r"\bcommit\s[0-9a-f]{7,40}\b", "command": r"`(?:bench|bin|tests|tools)/[^`]+`"}
# Where a page says what comes with a status, which is the first group of the pattern.
REPORTS = {
    "docs/BEHAVIOUR.md": r"^\| ([123]) \| standard error \| ([^\n]*) \|$",
    "docs/REFUSALS.md": r"^## Status ([123]):(.*?)(?=^## |\Z)",
    "docs/mergejoin.1": r"^\.B ([123])\n(.*?)(?=^\.)",
}


def read(name):
    return (TOP / name).read_text("utf-8")


def prose(page):
    """Gives the text of a page, in which each line of a block is empty."""
    return re.sub(r"^```.*?^```$", lambda block: "\n" * block[0].count("\n"), read(page), flags=re.M | re.S)


def found_in(name, pattern):
    """Gives all that a pattern finds in a file, in the order of its texts."""
    return sorted(re.findall(pattern, read(name), re.M))


VARIANTS = re.findall(r"^pub enum Command \{\n(.*?)^\}", read("crates/mp_cli/src/command.rt"), re.M | re.S)[0]
COMMANDS = sorted(name.lower() for name in re.findall(r"^    ([A-Z]\w*)", VARIANTS, re.M))
STATUSES = re.findall(r"^  (MERGEJOIN_\w+) = ([0-9]+),?$", read("bindings/c/mergejoin.h"), re.M)
NEEDS = r"^Depends: libc6 \(>= ([0-9.]+)\)"
# Of each fact the file, a pattern for it, and what it is to be.
FACTS = {
    "glibc of the program": ("README.md", r"glibc\s+([0-9.]*[0-9])", found_in("bin/package", f"{NEEDS}\nRecommends: python3$")),
    "glibc of the program where it is installed": ("docs/INSTALL.md", r"glibc\s+([0-9.]*[0-9])", found_in("bin/package", f"{NEEDS}\nRecommends: python3$")),
    "glibc of the library": ("docs/FROM-C.md", r"glibc\s+([0-9.]*[0-9])", found_in("bin/package", f"{NEEDS}\nSection: libs$")),
    "statuses": ("docs/ERRORS.md", r"^\| ([0-9]+) `(MERGEJOIN_\w+)`", sorted((number, name) for name, number in STATUSES)),
    "commands": ("README.md", r"^`mergejoin (\w+)", COMMANDS),
    "inputs": ("docs/BEHAVIOUR.md", r"^\| `(\w+)[\w ]*` \| `\[", COMMANDS),
}


@pytest.mark.parametrize("name,pattern,wanted", PLACES.values(), ids=PLACES)
def test_a_place_has_the_version(name, pattern, wanted):
    assert set(found_in(name, pattern)) == {wanted}


@pytest.mark.parametrize("name,pattern,wanted", FACTS.values(), ids=FACTS)
def test_a_fact_is_as_the_sources_have_it(name, pattern, wanted):
    assert wanted and found_in(name, pattern) == wanted


def headings(page):
    """Gives the anchors of the headings of a page."""
    return {re.sub(r"[^\w -]", "", title.lower()).replace(" ", "-") for title in re.findall(r"^#+ (.*)$", prose(page), re.M)}


@pytest.mark.parametrize("page", PAGES)
def test_links_lead_to_files_and_headings(page):
    for target in re.findall(r"\]\(([^)]+)\)", prose(page)):
        file, _, anchor = target.partition("#")
        path = (TOP / page).parent / file if file else TOP / page
        assert path.exists() and (not anchor or anchor in headings(path)), f"the link {target} leads to nothing"


def test_the_readme_is_short():
    lines = read("README.md").splitlines()
    assert len(lines) <= LINES
    assert [line for line in lines if len(line) > COLUMNS] == []


def test_the_readme_promises_what_is_promised():
    one, other = (re.search(r"^\*Replicas that .*?\*$", read(page), re.M | re.S)[0] for page in ("README.md", "docs/PROMISES.md"))
    assert one.split() == other.split()


def tables():
    """Gives each table of times or of memory: its page, the line of its head, and what stands above it in its section."""
    for page in (page for page in PAGES if page.startswith("docs/")):
        for found in re.finditer(r"^\|.*\n\|[ :|-]+\|\n(?:\|.*\n?)*", text := prose(page), re.M):
            if re.search(UNITS, found[0]) or re.match(MEASURES, found[0]):
                above = text[: found.start()]
                yield pytest.param(re.split(r"^#+ .*$", above, flags=re.M)[-1], id=f"{page}:{len(above.splitlines()) + 1}")


@pytest.mark.parametrize("above", tables())
def test_a_table_of_times_or_memory_names_what_made_it(above):
    assert [what for what, pattern in MADE_WITH.items() if not re.search(pattern, above)] == [], "these are not named above it"


def refusals():
    """Gives the words that do not differ from run to run of each line that an example of docs/REFUSALS.md shows, and its status."""
    blocks = "\n".join(re.findall(r"^```console\n(.*?)^```$", read("docs/REFUSALS.md"), re.M | re.S))
    for line, status in re.findall(r"^([a-z][^\n]*)\nstatus ([0-9])$", blocks, re.M):
        line = line.split(": ")[-1] if line.startswith(("input", "pointer")) else line
        words = "conflict" if line.startswith("conflict") else re.sub(r"(operation|error|mergejoin-feed).*| [0-9]+$", "", line)
        if words:
            yield words, status


@pytest.mark.parametrize("page", REPORTS)
@pytest.mark.parametrize("words,status", sorted(set(refusals())))
def test_a_page_reports_the_status_of_a_refusal(page, words, status):
    parts = re.findall(REPORTS[page], prose(page), re.M | re.S)
    said = ((there, part if page.endswith(".1") else "\n".join(re.findall(r"`([^`]+)`", part))) for there, part in parts)
    assert {there for there, part in said if re.search(rf"\b{words}\b", part)} == {status}


@pytest.mark.parametrize("page", PAGES)
def test_a_page_names_no_address_that_is_made_up(page):
    assert not re.search(r"\bexample\.(?:org|com|net)\b", prose(page))
