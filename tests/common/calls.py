"""Runs commands as a shell would, and gives how each ends: its status, its standard output and its standard error."""

import os
import pathlib
import re
import subprocess

TOP = pathlib.Path(__file__).resolve().parents[2]
PROGRAM = TOP / "out/mergejoin"


def is_proved():
    """Proves and builds the program where it must be, and says whether it is there."""
    if subprocess.run([TOP / "bin/prove"], stdin=subprocess.DEVNULL).returncode == 0:
        return True
    print("nothing was run, since bin/prove failed")
    return False


def has_library():
    """Proves and builds the library where it must be, or waits for a check that does, and says whether it is there."""
    if subprocess.run([TOP / "bin/library"], stdin=subprocess.DEVNULL).returncode == 0:
        return True
    print("nothing was run, since bin/library failed")
    return False


def run(words, given=b"", setting=None, shell=False, limit=60, **how):
    """Runs words, or a line of bash, and gives the status and both streams."""
    done = subprocess.run(["bash", "-c", words] if shell else words, input=given if isinstance(given, bytes) else given.encode(),
                          capture_output=True, env={**os.environ, **(setting or {})}, timeout=limit, check=False, **how)
    return done.returncode, *(text.decode("utf-8", "backslashreplace") for text in (done.stdout, done.stderr))


def counted(words, given=b"", **how):
    """Runs words under callgrind, and gives the status, standard output and how many instructions they take."""
    status, out, err = run(["valgrind", "--tool=callgrind", "--callgrind-out-file=/dev/null", *words], given, **how)
    return status, out, int(re.search(r"Collected : (\d+)", err)[1])
