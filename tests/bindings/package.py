"""The package for Python, made with the library that is in out/lib, environments in which it is installed, and its tests there."""

import importlib.util
import pathlib
import re
import shutil
import sysconfig

import calls
from calls import TOP
from released import VERSION

# The distribution's own interpreter, which has what makes a package, and runs pytest.
PYTHON = "/usr/bin/python3"
SOURCES = TOP / "bindings/python"
WHEEL = f"mergejoin-{VERSION}-cp310-abi3-manylinux_2_17_x86_64.whl"
SETTING = {"PATH": "/usr/bin:/bin", "PIP_DISABLE_PIP_VERSION_CHECK": "1", "PIP_ROOT_USER_ACTION": "ignore",
           "MERGEJOIN_LIB": str(TOP / "out/lib")}


def lacks(*more):
    """Gives which packages are not there that a test of the package needs, with those of more modules; or nothing."""
    missing = [f"python3-{name}" for name in ("pip", "venv", "setuptools", "wheel", *more) if not importlib.util.find_spec(name)]
    if not pathlib.Path(sysconfig.get_path("include"), "Python.h").exists():
        missing.append("python3-dev")
    return f"not installed: {', '.join(missing)}" if missing else None


def run(directory, *words, **setting):
    """Runs words in a directory, with no toolchain on the PATH, and gives the status and both streams."""
    return calls.run(words, cwd=directory, setting={**SETTING, **setting}, limit=300)


def copied(directory):
    """Copies the sources into a directory."""
    shutil.copytree(SOURCES, directory / "source", ignore=shutil.ignore_patterns("build", "*.egg-info", "__pycache__"))


def make_wheel(directory, **setting):
    """Makes the wheel of a copy of the sources, in a directory, and gives how that ended."""
    copied(directory)
    how = ["--quiet", "--no-deps", "--no-index", "--no-build-isolation", "--wheel-dir", "made"]
    return run(directory, PYTHON, "-m", "pip", "--isolated", "wheel", *how, "./source", **setting)


def environment(directory, wheel, *options):
    """Installs the wheel in a virtual environment that is made so in a directory, and gives its interpreter."""
    python, how = directory / "env/bin/python", ["--quiet", "--no-index", "--no-deps"]
    made = run(directory, PYTHON, "-m", "venv", "--without-pip", *options, "env")
    installed = run(directory, PYTHON, "-m", "pip", "--isolated", "--python", python, "install", *how, wheel)
    assert made == installed == (0, "", ""), (made, installed)
    return python


def passes(python, path, *flags):
    """Each test of a file passes in an environment, and none is skipped there."""
    words = [python, *flags, "-B", "-m", "unittest", "discover", "-s", path.parent, "-p", path.name]
    status, out, err = run(python.parents[2], *words)
    assert status == 0 and re.search(r"^Ran [1-9].*\n\nOK$", err, re.M), out + err
