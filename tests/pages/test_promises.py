"""Each row of docs/PROMISES.md that says "proved" names its contract and a mutant of its crate, which tests/tools/test_must_fail.py
looks for among the refused; each row that says "tested" names its test; what is named is there; and each mutant is named.
"""

import pathlib
import re

import pytest

TOP = pathlib.Path(__file__).resolve().parents[2]
PAGE = TOP / "docs/PROMISES.md"
FEWEST = 100  # rows
FEWEST_ERRORS = 27  # of those that the contracts were first written against
NOT_WRITTEN = 5  # rows that may say why no mutant can be written
MUTANTS = sorted(f"{path.parts[-3]}/{path.stem}" for path in TOP.glob("crates/*/must-fail/*.edit"))
QUOTED = re.compile(r"`([^`]+)`")


def tables(head):
    """Gives the cells of each row of the tables with that head, and the head of the section before them."""
    found, inside, section = [], False, None
    for line in PAGE.read_text("utf-8").splitlines():
        section = line.removeprefix("## ") if line.startswith("## ") else section
        inside = line == head or inside and line.startswith("|")
        if inside and line != head and not line.startswith("|---"):
            found.append((*(cell.strip() for cell in line.strip("|").split(" | ")), section))
    return found


def mutants_of(row):
    """Gives the mutants that a row names, each with its crate: that of the section, if the row does not end with another."""
    *_, state, section = row
    crate = re.search(r"` of (\w+)$", state)
    names = QUOTED.findall(state) if state.startswith("proved: ") else []
    return [f"{crate[1] if crate else section}/{name}" for name in names]


def words_of_sources():
    """Gives every word of the sources, definitions and tests, but of pages, and the names of their files."""
    words = set()
    for directory in ("crates", "tests", "tools", "bindings"):
        for path in (TOP / directory).rglob("*"):
            if {"out", "target", "__pycache__"} & set(path.relative_to(TOP).parts):
                continue
            words |= {str(path.relative_to(TOP)), path.name}
            if path.is_file() and path.suffix != ".md":
                words |= set(re.findall(r"[^\W\d]\w*", path.read_text("utf-8", "replace")))
    return words


def clauses_of_functions():
    """Gives of each function of the crates the names of its `ensures`, of all functions of that name together."""
    found = {}
    for path in TOP.glob("crates/*/src/**/*.rt"):
        if "out" not in path.relative_to(TOP).parts:
            _, *parts = re.split(r"\bfn (\w+)", path.read_text("utf-8"))
            for name, rest in zip(parts[::2], parts[1::2]):
                found.setdefault(name, set()).update(re.findall(r"^\s*ensures\*? (\w+) \{", rest, re.M))
    return found


def definitions():
    """Gives what else a contract can be named by: the definitions of specs/, the types and the ghost members of the sources."""
    found = {"=="}
    for path in [*TOP.glob("crates/*/specs/**/*.antt"), *TOP.glob("crates/*/src/**/*.rt")]:
        if "out" not in path.relative_to(TOP).parts:
            text = path.read_text("utf-8")
            found |= set(re.findall(r"\bpub (?:record |data )?(\w+)\b(?: :| \(| \{|$)", text, re.M))
            found |= set(re.findall(r"\b(?:struct|enum|ghost) (\w+)", text))
    return found


ROWS = tables("| promise | contract | state |")
ERRORS = [f"{crate.strip('`')}/{name}" for crate, names, _ in tables("| crate | errors |") for name in QUOTED.findall(names)]
NAMED = {name for row in ROWS for name in mutants_of(row)}
WORDS = words_of_sources()
CLAUSES = clauses_of_functions()
DEFINITIONS = definitions()
PROVED = [row for row in ROWS if row[2].startswith("proved")]
TESTED = [row for row in ROWS if row[2].startswith("tested")]


def last_words(names):
    """Gives of each name in backquotes its last word: `laws::one_join` is a function, `Cause::as_str` a method."""
    return [re.split(r"::|/crates/", name)[-1] for name in names]


def test_each_row_has_three_cells_and_a_state():
    assert len(ROWS) >= FEWEST
    for row in ROWS:
        assert len(row) == 4 and row[2].startswith(("proved: ", "tested: ", "neither: ")), row


@pytest.mark.parametrize("row", PROVED, ids=lambda row: row[0][:50])
def test_a_proved_row_names_its_contract_and_a_mutant(row):
    contracts, mutants = last_words(QUOTED.findall(row[1])), mutants_of(row)
    assert contracts, "it names no contract"
    clauses = set().union(*(CLAUSES.get(name, ()) for name in contracts))
    assert [name for name in contracts if name not in {*CLAUSES, *DEFINITIONS, *clauses}] == [], "a contract that is not there"
    assert mutants, "it names no mutant"
    if not row[2].startswith("proved: no mutant"):
        assert [name for name in mutants if name not in MUTANTS] == [], "a mutant that is not there"


@pytest.mark.parametrize("mutant", MUTANTS)
def test_a_mutant_is_named_by_a_row(mutant):
    assert mutant in NAMED, f"no row names {mutant}"


def test_a_name_of_a_mutant_is_used_once():
    assert sorted({name.split("/")[1] for name in MUTANTS}) == sorted(name.split("/")[1] for name in MUTANTS)


def test_the_errors_that_stay_are_there():
    assert len(ERRORS) >= FEWEST_ERRORS
    assert [name for name in ERRORS if name not in MUTANTS] == [], "an error that is not there"


def test_few_rows_have_no_mutant():
    assert sum(row[2].startswith("proved: no mutant") for row in PROVED) <= NOT_WRITTEN


@pytest.mark.parametrize("row", TESTED, ids=lambda row: row[0][:50])
def test_a_tested_row_names_its_test(row):
    tests = QUOTED.findall(row[2])
    assert tests, "it names no test"
    assert [name for name in last_words(tests) if name not in WORDS] == [], "a test that is not there"
