"""The extension for SQLite, made of a copy of its sources with the library that is in out/lib, and connections that have it."""

import pathlib
import shutil
import sqlite3

import calls
from calls import TOP

SOURCES = TOP / "bindings/sqlite"
NAME = "mergejoin_sqlite.so"
SETTING = {"MERGEJOIN_LIB": str(TOP / "out/lib")}


def lacking():
    """Gives what is not there that makes the extension, or loads it; or nothing."""
    if not pathlib.Path("/usr/include/sqlite3ext.h").is_file():
        return "not installed: libsqlite3-dev"
    return None if hasattr(sqlite3.Connection, "enable_load_extension") else "this Python's sqlite3 loads no extension"


def made(directory):
    """Makes the extension in a directory, and gives its path. No compiler has anything to say."""
    shutil.copytree(SOURCES, directory / "source", ignore=shutil.ignore_patterns("*.so", "__pycache__"))
    assert calls.run(["make", "-s", "-C", directory / "source"], setting=SETTING) == (0, "", "")
    return directory / "source" / NAME


def connected(extension, file=":memory:", **how):
    """Opens a database that has the extension."""
    connection = sqlite3.connect(file, **how)
    connection.enable_load_extension(True)
    connection.load_extension(str(extension))
    connection.enable_load_extension(False)
    return connection


def outcome(connection, statement, values=()):
    """Gives the rows of a statement, or the name of its error and what that says."""
    try:
        return connection.execute(statement, values).fetchall()
    except sqlite3.Error as error:
        return error.sqlite_errorname, str(error)  # type: ignore[attr-defined]  # (of 3.11)
