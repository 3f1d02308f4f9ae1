"""Builds the extension module of the package, with the library for C in it: libmergejoin.a of the directory that MERGEJOIN_LIB names; else of
the one where pkg-config has it installed; else of out/lib in the repository. The extension for SQLite is packed too if it was made: in
bindings/sqlite, or as MERGEJOIN_SQLITE names it. What else there is to say of the package stands in pyproject.toml.
"""

import importlib.util
import os
import pathlib
import subprocess
from sysconfig import get_platform

from setuptools import Extension, setup
from setuptools.command.build_ext import build_ext

# setuptools has it itself from 70 on.
if not any(map(importlib.util.find_spec, ("setuptools.command.bdist_wheel", "wheel"))):
    raise SystemExit("what makes a wheel is not installed: pip install wheel")

HERE = pathlib.Path(__file__).resolve().parent
LIBRARY, HEADER = "libmergejoin.a", "mergejoin.h"


# The least version whose exports are those that are called.
LEAST = "mergejoin >= 0.3.0"


def installed():
    """Gives the directory of the library that pkg-config knows, which is nothing if there is none, or no pkg-config."""
    try:
        words = [os.environ.get("PKG_CONFIG", "pkg-config"), "--variable=libdir", LEAST]
        return subprocess.run(words, capture_output=True, text=True, check=False).stdout.strip()
    except OSError:
        return ""


LIBRARIES = pathlib.Path(os.environ.get("MERGEJOIN_LIB") or installed() or HERE / "../../out/lib").resolve()
SQLITE = pathlib.Path(os.environ.get("MERGEJOIN_SQLITE") or HERE / "../sqlite/mergejoin_sqlite.so").resolve()
# Where the header is next to the library: as bin/library makes it, or as it is installed.
HEADERS = [LIBRARIES.parent / "include", LIBRARIES.parents[1] / "include"]


class WithLibrary(build_ext):
    """Looks first that the library and its header are there. In a directory that is no module is what SQLite loads."""

    def run(self):
        for name, places in ((LIBRARY, [LIBRARIES]), (HEADER, HEADERS)):
            if not any((place / name).is_file() for place in places):
                raise SystemExit(f"there is no {name}: libmergejoin-dev has it, and MERGEJOIN_LIB may name the directory of {LIBRARY}")
        super().run()
        if SQLITE.is_file():
            directory = pathlib.Path(self.get_ext_fullpath(MODULE.name)).parent / "lib"
            self.mkpath(str(directory))
            self.copy_file(str(SQLITE), str(directory / SQLITE.name))


MODULE = Extension(
    "mergejoin._library",
    sources=sorted(str(path.relative_to(HERE)) for path in (HERE / "c").glob("*.c")),
    depends=[str(LIBRARIES / LIBRARY)],
    include_dirs=[str(place) for place in HEADERS],
    extra_objects=[str(LIBRARIES / LIBRARY)],
    py_limited_api=True,
    # No path of the machine is in it, and no name of the library is seen by others.
    extra_compile_args=["-std=gnu11", "-fvisibility=hidden", "-g0"],
    extra_link_args=["-Wl,--exclude-libs,ALL", "-Wl,-s"],
)

setup(
    cmdclass={"build_ext": WithLibrary},
    ext_modules=[MODULE],
    # It needs Python 3.10 and later, and glibc 2.17. For another processor than this machine's _PYTHON_HOST_PLATFORM names it.
    options={"bdist_wheel": {"py_limited_api": "cp310", "plat_name": f"manylinux_2_17_{get_platform().rpartition('-')[2]}"}},
)
