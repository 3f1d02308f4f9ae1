"""Version 0.2 of the extension, next to the one that is installed: the script that was released, and a library that has the names which it
calls, and answers NULL. Below the root of a server both are taken away again, since the servers of other tests have this version alone.
"""

import contextlib
import pathlib
import re

from server import config

SCRIPT = pathlib.Path(__file__).with_name("mergejoin--0.2.sql")
LIBRARY = "mergejoin.so"


def installed(server):
    """Gives where the extension's library is below the root of a server."""
    return pathlib.Path(f"{server.root}{config('pkglibdir')}/{LIBRARY}")


def built(server):
    """Builds the library, and gives its file."""
    source, file = server.directory / "old.c", server.directory / "old.so"
    names = "".join(f"PG_FUNCTION_INFO_V1({name});\nDatum {name}(PG_FUNCTION_ARGS) {{ PG_RETURN_NULL(); }}\n"
                    for name in sorted(set(re.findall(r"'MODULE_PATHNAME', '(\w+)'", SCRIPT.read_text("utf-8")))))
    source.write_text(f'#include "postgres.h"\n#include "fmgr.h"\nPG_MODULE_MAGIC;\n{names}', "utf-8")
    server.run("cc", "-shared", "-fPIC", f"-I{config('includedir-server')}", "-o", file, source)
    return file


@contextlib.contextmanager
def script_of(server, library):
    """While it runs, a database of the server can have version 0.2, with the functions of that library."""
    placed = pathlib.Path(f"{server.root}{config('sharedir')}/extension/{SCRIPT.name}")
    placed.write_text(SCRIPT.read_text("utf-8").replace("MODULE_PATHNAME", library), "utf-8")
    try:
        yield
    finally:
        placed.unlink()


@contextlib.contextmanager
def packages_of(server):
    """While it runs, the package of version 0.2 is installed, and gives what installs this one in its place, as a package does: each file is
    renamed, so that a session which has the old one keeps it. Afterwards this one is installed."""
    here, kept = installed(server), server.directory / "kept.so"
    with script_of(server, "$libdir/mergejoin"):
        here.rename(kept)
        server.run("cp", built(server), f"{here}.new")
        pathlib.Path(f"{here}.new").rename(here)
        try:
            yield lambda: kept.rename(here)
        finally:
            if kept.exists():
                kept.rename(here)
