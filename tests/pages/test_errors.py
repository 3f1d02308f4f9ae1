"""Each interface reports an error as the table of docs/ERRORS.md has it: the status and the name of the header, the variant of Rust, the
class of Python, the SQLSTATE of PostgreSQL and the code of SQLite. And the line of each error is the library's.
"""

import importlib.util
import pathlib
import re
import sys
import types

import pytest

TOP = pathlib.Path(__file__).resolve().parents[2]
HEADS = ["what is wrong", "the line", "the command's status", "C", "Rust: `Error::`", "Python", "PostgreSQL", "SQLite", "HTTP"]
# What PostgreSQL's own headers call these codes.
SQLSTATES = {"INVALID_PARAMETER_VALUE": "22023", "INVALID_JSON_TEXT": "22032", "PROGRAM_LIMIT_EXCEEDED": "54000", "OUT_OF_MEMORY": "53200"}
# Lines of the library, by the status that each has.
LINES = {"CONFLICT": "conflict: two patches", "REFUSED": "operation 0: test failed", "FORM": "operation 0: no path", "POINTER": "pointer: no slash",
         "DOCUMENT": "document: not JSON", "PATCH": "patch 0: not JSON"}


def read(name):
    return (TOP / name).read_text("utf-8")


def rows():
    """Gives the rows of the table, by the number of the status."""
    lines = [[cell.strip() for cell in line.strip()[1:-1].split("|")] for line in read("docs/ERRORS.md").splitlines() if line.startswith("| ")]
    first = next(place for place, line in enumerate(lines) if line == HEADS)
    found = {}
    for line in lines[first + 1:]:
        if len(line) != len(HEADS):
            break
        found[int(line[3].split()[0])] = dict(zip(HEADS, line))
    return found


ROWS = rows()
NAMES = {int(number): name for name, number in re.findall(r"^  MERGEJOIN_([A-Z_]+) = ([0-9]+),?$", read("bindings/c/mergejoin.h"), re.M)}


def asked(head):
    """Gives the status, its name and the cell of each row that has one under a head."""
    return [pytest.param(number, NAMES[number], row[head].strip("`"), id=NAMES[number]) for number, row in ROWS.items()
            if row[head] not in ("", "NULL")]


def codes_of(source):
    """Gives what `code_of` of a C source returns for each status, and what it returns for the others."""
    body = re.search(r"^static int code_of\(.*?^\}", read(source), re.M | re.S)[0]
    found, waiting = {}, []
    for name, code in re.findall(r"case MERGEJOIN_(\w+):|(?:return (\w+);)", body.replace("default:", "case MERGEJOIN_OTHER:")):
        if name:
            waiting.append(name)
        else:
            found |= dict.fromkeys(waiting, code)
            waiting = []
    return found


def test_the_table_has_each_status_but_that_of_a_result():
    assert {number: row["C"].split()[1].strip("`") for number, row in ROWS.items()} == {number: name for number, name in NAMES.items() if number}


@pytest.fixture(name="python", scope="module")
def errors_of_python():
    """Gives the module of the errors, over the statuses of the header and without the library."""
    library = types.ModuleType("errors_only._library")
    library.__dict__.update({name: number for number, name in NAMES.items()})
    package = types.ModuleType("errors_only")
    package._library = library
    package.__path__ = []
    spec = importlib.util.spec_from_file_location("errors_only._errors", TOP / "bindings/python/src/mergejoin/_errors.py")
    module = importlib.util.module_from_spec(spec)
    kept = dict(sys.modules)
    sys.modules.update({"errors_only": package, "errors_only._library": library})
    try:
        spec.loader.exec_module(module)
    finally:
        sys.modules.clear()
        sys.modules.update(kept)
    return module


@pytest.mark.parametrize("number,name,wanted", asked("Python"))
def test_python_raises_the_class_of_the_table(python, number, name, wanted):
    if wanted == "MemoryError":  # the extension raises it, since no text is made then
        assert "PyErr_NoMemory" in read("bindings/python/c/writing.c")
        return
    line = LINES.get(name, "a line")
    error = python.error_of(number, 0, 1, 0, line, "", False)
    assert (type(error).__name__, str(error)) == (wanted, line)


@pytest.mark.parametrize("number,name,wanted", asked("Rust: `Error::`"))
def test_rust_has_the_variant_of_the_table(number, name, wanted):
    arms = re.findall(r"^            (\w+)( if [^=]+==[^=]+)? => (.*?)(?=^            \w|\Z)", read("bindings/rust/src/error.rs"), re.M | re.S)
    made = [re.search(r"Error::(\w+)", made)[1] for key, only_if, made in arms if key in (name, str(number)) and not only_if]
    assert made[:1] == [wanted]


@pytest.mark.parametrize("number,name,wanted", asked("PostgreSQL"))
def test_postgresql_has_the_code_of_the_table(number, name, wanted):
    own = {key: "".join(re.findall(r"'(.)'", parts)) for key, parts in
           re.findall(r"#define ERRCODE_(\w+) MAKE_SQLSTATE\(([^)]*)\)", read("bindings/postgresql/src/calls.h"))}
    if name == "NO_MEMORY":
        source = "".join(path.read_text("utf-8") for path in sorted((TOP / "bindings/postgresql/src").glob("*.c")))
        assert SQLSTATES["OUT_OF_MEMORY"] == wanted and "errcode(ERRCODE_OUT_OF_MEMORY)" in source
        return
    codes = codes_of("bindings/postgresql/src/errors.c")
    assert (SQLSTATES | own)[codes[name].removeprefix("ERRCODE_")] == wanted


@pytest.mark.parametrize("number,name,wanted", asked("SQLite"))
def test_sqlite_has_the_code_of_the_table(number, name, wanted):
    if wanted == "SQLITE_NOMEM":
        assert "sqlite3_result_error_nomem" in read("bindings/sqlite/calls.c")
        return
    codes = codes_of("bindings/sqlite/calls.c")
    assert codes.get(name, codes["OTHER"]) == wanted
