"""The library for 64-bit ARM, which `bin/library --arm64` makes of the same proved crates: it exports what the header declares, and needs
glibc 2.17 alone. Under qemu it replies to each row as the other does, in a buffer of its own and in buffers of some sizes. And each
program of docs/FROM-C.md, with a handle of each kind, prints what the page shows.
"""

import re
import subprocess

import pytest

import driving
from driving import TOP, run
from test_header import EXAMPLES, declared
from test_six_calls import LINES

MADE = TOP / "out/arm64"
GCC, READS = "aarch64-linux-gnu-gcc", "aarch64-linux-gnu-readelf"
QEMU = ["qemu-aarch64", "-L", "/usr/aarch64-linux-gnu"]


@pytest.fixture(name="arm64", scope="module")
def library_for_arm64(needs, library):
    """The static library, which is made if it must be."""
    needs(GCC, QEMU[0], "rt")
    done = subprocess.run([TOP / "bin/library", "--arm64"], capture_output=True, text=True, check=False)
    assert done.returncode == 0, done.stderr[-2000:]
    return MADE / "lib/libmergejoin.a"


@pytest.fixture(name="made", scope="module")
def what_makes_a_program(arm64, tmp_path_factory):
    """Makes a program for 64-bit ARM, and gives the words that run it."""
    def made(source, *more):
        program = tmp_path_factory.mktemp("arm64") / "program"
        run([GCC, "-std=gnu11", "-O1", *driving.WARNINGS, f"-I{MADE / 'include'}", f"-I{driving.HERE}", source, arm64, *more, "-o", program])
        return [*QEMU, program]

    return made


def test_it_exports_what_the_header_declares(arm64):
    shared = arm64.with_name(driving.SHARED.name)
    assert sorted(re.findall(r"^[0-9a-f]+ \w (\S+)$", run(["nm", "-D", "--defined-only", shared]), re.M)) == declared()
    assert "Machine:                           AArch64" in run([READS, "-h", shared])
    assert set(re.findall(r"\bGLIBC_[0-9.]+", run([READS, "-V", shared]))) == {"GLIBC_2.17"}


@pytest.fixture(name="driver", scope="module")
def driver_for_arm64(made):
    return made(driving.HERE / "driver.c", *driving.WRAPPED)


def test_it_replies_to_each_row(driver):
    driving.compare([*driver, "new"], LINES)


def test_it_replies_in_buffers(driver):
    driving.compare_in_buffers([*driver], LINES, lambda length: {0, 1, max(length - 1, 0), length, length + 1})


@pytest.mark.parametrize("source,shown", EXAMPLES, ids=[shown.split("\n")[0] for _, shown in EXAMPLES])
def test_a_program_of_the_page_prints_what_it_shows(made, tmp_path, source, shown):
    (tmp_path / "page.c").write_text(source, "utf-8")
    assert run(made(tmp_path / "page.c")) == shown
