"""The functions of this package in SQL, by the extension for SQLite: mergejoin_join and the other calls, and aggregates that join.

load() gives them to one connection of the module sqlite3:

    connection = sqlite3.connect("replica.db")
    mergejoin.sqlite.load(connection)
    connection.execute("SELECT doc, mergejoin_agg(patch) FROM patches GROUP BY doc")

What goes wrong is an error of sqlite3: IntegrityError if two patches conflict or if an operation of a JSON Patch is refused, DataError if a
text is longer than a value of SQLite may be, MemoryError, and else OperationalError. From Python 3.11 on it has the attribute
sqlite_errorname. The page SQLITE.md of the sources says the rest.
"""

import errno
import os
import sqlite3
import sysconfig

__all__ = ["path", "load"]

_NAME = "mergejoin_sqlite.so"
# In the package, or where Debian's package and others that install it put it.
_DIRECTORIES = (os.path.join(os.path.dirname(os.path.abspath(__file__)), "lib"), "/usr/local/lib",
                os.path.join("/usr/lib", sysconfig.get_config_var("MULTIARCH") or ""), "/usr/lib64", "/usr/lib")


def path() -> str:
    """Return the path of the extension, for a program that loads it by itself.

    If it is neither in the package nor installed, the error is FileNotFoundError.
    """
    for directory in _DIRECTORIES:
        file = os.path.join(directory, _NAME)
        if os.path.isfile(file):
            return file
    raise FileNotFoundError(errno.ENOENT, "the extension for SQLite is not in the package mergejoin, nor in a directory of libraries: it is in "
                            "Debian's package libsqlite3-mod-mergejoin, and in a wheel that bin/package makes with libsqlite3-dev", _NAME)


def load(connection: sqlite3.Connection) -> None:
    """Load the extension into a connection. No other can be loaded afterwards, until its program allows that.

    If Python's sqlite3 was made without extensions, the error is sqlite3.NotSupportedError.
    """
    file = path()
    if not hasattr(connection, "enable_load_extension"):
        raise sqlite3.NotSupportedError("this Python's sqlite3 loads no extensions")
    connection.enable_load_extension(True)
    try:
        connection.load_extension(file)
    finally:
        connection.enable_load_extension(False)
