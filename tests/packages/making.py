"""What bin/package makes, and a copy of the sources with what was built, in which it is run."""

import re
import shutil

from calls import TOP
from package import WHEEL, lacks
from released import VERSION
from server import config, lacking
from sqlite_extension import lacking as lacking_sqlite

PACKAGE = TOP / "bin/package"
LIMIT = 300  # seconds for all of them, of which the site takes twenty
# Each .deb and what it needs.
NEEDS = {
    "mergejoin": "libc6 (>= 2.34)",
    "libmergejoin2": "libc6 (>= 2.14)",
    "libmergejoin-dev": f"libmergejoin2 (= {VERSION})",
    "mergejoin-doc": "",
}
# The extension, if what makes it is there, and where its scripts are.
EXTENSION = PLACE = SHORT = None
if not lacking("includedir-server"):
    PLACE, SHORT = config("sharedir").removeprefix("/usr/") + "/extension", VERSION.rsplit(".", 1)[0]
    SERVER = "postgresql-" + re.findall(r"^PostgreSQL (\d+)", config("version"))[0]
    EXTENSION = f"{SERVER}-mergejoin"
    NEEDS[EXTENSION] = f"{SERVER}, libc6 (>= 2.14)"
SQLITE = None if lacking_sqlite() else "libsqlite3-mod-mergejoin"
if SQLITE:
    NEEDS[SQLITE] = "libc6 (>= 2.14), libsqlite3-0 (>= 3.31.0)"
DEBS, TAR = {name: f"{name}_{VERSION}_{'amd64' if need else 'all'}.deb" for name, need in NEEDS.items()}, f"mergejoin_{VERSION}_amd64.tar.gz"
PYTHON = [] if lacks() else [WHEEL, f"mergejoin-{VERSION}.tar.gz"]
CRATE = f"mergejoin-{VERSION}.crate" if shutil.which("cargo") else None
# What bin/package makes, in the order in which it is reported.
MADE = [DEBS.get(it, it) for it in (*list(NEEDS)[:3], TAR, "mergejoin-doc", SQLITE, *PYTHON, CRATE, EXTENSION, "SHA256SUMS") if it]


def is_made(ended, directory, *more):
    """What was run has made all packages in a directory, and more. It may wait for another build, and say what it lacks."""
    status, out, err = ended
    reported = "".join(f"made {directory}/{name}\n" for name in (*MADE, *more))
    assert (status, out, re.sub(r"^(mergejoin: waiting for|package: no) .*\n", "", err, flags=re.M)) == (0, reported, "")


def copy_of_what_was_built(top):
    """Copies the sources with the program and the library into a directory."""
    for name in ("bin", "bindings", "docs", "crates", "out/lib", "out/include"):
        shutil.copytree(TOP / name, top / name, ignore=shutil.ignore_patterns("out", "target"))
    for path in (*TOP.glob("*"), *TOP.glob("out/*")):
        if path.is_file() and not path.name.startswith("."):
            shutil.copy2(path, top / path.relative_to(TOP))
    return top
