"""The package for Python has the extension for SQLite if its wheel was made with it, and loads it: `mergejoin.sqlite`."""

from package import environment, run
from sqlite_extension import NAME

LOADED = """
import sqlite3, sys
import mergejoin.sqlite
connection = sqlite3.connect(":memory:")
mergejoin.sqlite.load(connection)
print(mergejoin.sqlite.path())
print(*connection.execute("SELECT mergejoin_join('1', 1)").fetchone())
try:
    mergejoin.sqlite.load(object())
except sqlite3.NotSupportedError as error:
    print(error)
try:
    connection.load_extension("another")
except sqlite3.OperationalError as error:
    print(error)
try:
    connection.execute("SELECT mergejoin_join('1', '2')")
except sqlite3.IntegrityError as error:
    print(error, getattr(error, "sqlite_errorname", None), mergejoin.join(["1"]))
"""
ABSENT = """
import sqlite3
import mergejoin.sqlite
try:
    mergejoin.sqlite.load(sqlite3.connect(":memory:"))
except FileNotFoundError as error:
    print(error.filename, "libsqlite3-mod-mergejoin" in error.strerror)
"""

def test_the_package_loads_its_own(python, tmp_path):
    status, out, err = run(tmp_path, python, "-I", "-W", "error", "-c", LOADED)
    assert (status, err) == (0, "")
    path, joined, other, refused, conflict = out.splitlines()
    assert path.startswith(str(python.parents[1])) and path.endswith(f"/mergejoin/lib/{NAME}") and joined == "1"
    assert other == "this Python's sqlite3 loads no extensions" and refused == "not authorized"
    assert conflict == 'conflict: patches 0 and 1 at "" SQLITE_CONSTRAINT_FUNCTION 1'


def test_without_the_extension_the_package_says_where_it_is(wheel, tmp_path):
    """If none is installed."""
    status, out, err = run(tmp_path, environment(tmp_path, wheel), "-I", "-c", ABSENT)
    assert (status, err) == (0, "") and out in (f"{NAME} True\n", "")
