"""bin/test, alone and with `all` and `quick`, and .ci/run in a copy, with tests that pass, fail, are skipped and break off, with builds
that fail, and with an `rt ci` that passes, fails and breaks off: what fails is counted and reported, and the status is 0 only if nothing
failed. What bin/test skips has failed in .ci/run, which installs the packages that the tests want.
"""

import os
import re
import shutil

import pytest
from calls import TOP
from copies import CRATES

PASSES = "def test_it():\n    pass\n"
FAILS = "def test_it():\n    assert False\n"
SKIPPED = "import pytest\n\ndef test_it():\n    pytest.skip('a tool is not installed')\n"
BROKEN = "import pytest\n\n@pytest.fixture\ndef broken():\n    raise OSError\n\ndef test_it(broken):\n    pass\n"
BEGUN = """\
The whole check: rt ci proves each crate and tries its mutants, then come all tests, and last their mutants.
From nothing it takes more than two hours on four processors, and longer on two.
proving ..
rt ci took N s, and N s of 1 processors
"""
TO_BUILD = """\
First the program and the library are proved and built, then the tests that take little time are run.
From nothing all this takes up to 45 minutes on two processors, and a few minutes the next time.
The whole check, with each mutant, is bin/test all.
== bin/prove
"""
IS_BUILT = """\
The program and the library are proved and built, so the tests begin. They take some minutes.
The whole check, with each mutant, is bin/test all.
== bin/prove
== bin/library
== quick
"""
SLOW = "import pytest\n\n@pytest.mark.slow\n" + FAILS
# In the place of bin/library, in a copy that has none of what it links: as it, it keeps an archive with checksums.
LIBRARY = """\
#!/usr/bin/env bash
. "${0%/*}/program.sh" && cd "$top" && echo library >>"$LOG" || exit
if [ -n "$UNLINKED" ]; then echo 'not linked' && exit 125; fi
echo made >out/libmp_c.a && write_sums "$(sources_sum "$top")" out/libmp_c.a >out/libmp_c.sum
"""
NOT_RUN = "rt ci failed, so no test was run.\n"
# What rt ci says and ends with, the tests and the mutants, and the last line and the status.
CASES = {
    "all pass": ("3 passed, 0 failed", 0, {"tests/test_one.py": PASSES, "tests/test_two.py": PASSES}, "6 passed, 0 failed", 0),
    "two tests fail": ("3 passed, 0 failed", 0, {"tests/test_one.py": FAILS, "tests/test_two.py": FAILS}, "4 passed, 2 failed", 1),
    "a fixture fails": ("3 passed, 0 failed", 0, {"tests/test_one.py": BROKEN, "tests/test_two.py": PASSES}, "5 passed, 1 failed", 1),
    "a module is wrong": ("3 passed, 0 failed", 0, {"tests/test_one.py": "wrong"}, "4 passed, 1 failed", 1),
    "a mutant fails": ("3 passed, 0 failed", 0, {"tests/test_one.py": PASSES, "tests/mutants/test_mutants.py": FAILS},
                       "4 passed, 1 failed", 1),
    "a test is skipped": ("3 passed, 0 failed", 0, {"tests/test_one.py": SKIPPED}, "4 passed, 0 failed, 1 skipped", 0),
    "rt ci fails": ("2 passed, 1 failed", 1, {"tests/test_one.py": PASSES}, NOT_RUN + "2 passed, 1 failed", 1),
    "rt ci fails with status 0": ("2 passed, 1 failed", 0, {"tests/test_one.py": PASSES}, NOT_RUN + "2 passed, 1 failed", 1),
    "rt ci fails by its status": ("3 passed, 0 failed", 1, {"tests/test_one.py": PASSES}, NOT_RUN + "3 passed, 1 failed", 1),
    "rt ci breaks off": ("broken off", 0, {"tests/test_one.py": PASSES}, "broken off\n" + NOT_RUN + "0 passed, 1 failed", 1),
}


@pytest.fixture(name="ran")
def what_runs_the_whole_check(needs, copy):
    """Runs words of the copy, in which these tests stand, and gives the status and what is printed."""
    needs("/usr/bin/python3")
    shutil.copytree(TOP / ".ci", copy.top / ".ci")
    # The packages that the tests want are there, unless a file is named to which goes what is asked for.
    for command, text in [("dpkg", '[ -z "$ABSENT" ]'), ("apt-get", 'echo "$*" >>"$ABSENT"'), ("nproc", "echo 1")]:
        copy.write(copy.kit / command, f"#!/bin/sh\n{text}\n", 0o755)

    def ran(words, tests, **setting):
        for name, text in {"tests/mutants/test_mutants.py": PASSES, **tests}.items():
            copy.write(name, text)
        setting = {"MERGEJOIN_ALL_CHECKS": "", "ABSENT": "", "PYTEST_DEBUG_TEMPROOT": str(copy.directory), **setting}
        status, out, err = copy.run(words, {**{name: "" for name in os.environ if name.startswith("PYTEST_XDIST")}, **setting})
        assert err == ""
        return status, re.sub(r"\bci took \d+ s, and \d+ s", "ci took N s, and N s", out)

    return ran


def tried(out):
    """Gives the titles of what was run."""
    return [line for line in out.splitlines() if line.startswith("== ") and not line.endswith(" ==")]


@pytest.mark.parametrize("says,ends,tests,reported,status", CASES.values(), ids=CASES)
def test_what_passes_and_fails_is_counted(copy, ran, says, ends, tests, reported, status):
    seen, out = ran(["bin/test", "all"], tests, GATE=says, ENDS=str(ends))
    is_run = NOT_RUN not in reported
    assert out.startswith(BEGUN) and out.endswith(f"\n{reported}\n")
    assert (seen, tried(out)) == (status, ["== tests", "== mutants"] if is_run else [])
    assert (copy.top / "out/gate.log").read_text() == f"proving ..\n{says}\n"
    assert (copy.top / "out/mergejoin.sum").exists() == is_run


@pytest.mark.parametrize("name", ["crates/mp_tree/src/lib.rt", "crates/mp_tree/src", "HANDLES"])
def test_sources_that_are_touched_while_rt_ci_runs_have_failed(copy, ran, name):
    """A source that was changed and put back, or a directory of sources that was moved: what was built of it is not kept."""
    copy.write("HANDLES", "Handles allowed: none.\n")
    says = "The sources were touched while rt ci ran, so it counts as failed.\n" + NOT_RUN
    printed = f"{BEGUN}{says}3 passed, 1 failed\n"
    assert ran(["bin/test", "all"], {"tests/test_one.py": PASSES}, TOUCHES=str(copy.top / name)) == (1, printed)
    assert sorted(path.name for path in (copy.top / "out").iterdir()) == ["gate.log", "times.log"]


def test_where_all_checks_are_to_run_what_is_skipped_has_failed(copy, ran):
    absent = copy.directory / "absent"
    status, out = ran([".ci/run"], {"tests/test_one.py": SKIPPED}, ABSENT=str(absent))
    assert status == 1 and out.endswith("\n4 passed, 1 failed\n")
    if os.geteuid() == 0:
        assert [line.split()[:2] for line in absent.read_text().splitlines()] == [["-qq", "update"], ["-qq", "install"]]


def test_a_clone_is_built_and_tested(copy, ran):
    """It says first what it does, proves what is not proved, runs no mutant and no slow test, and counts in its last line."""
    copy.write("bin/library", LIBRARY, 0o755)
    tests = {"tests/test_one.py": PASSES, "tests/test_two.py": SLOW, "tests/mutants/test_mutants.py": FAILS}
    status, out = ran(["bin/test"], tests, UNLINKED="")
    assert out.startswith(TO_BUILD) and out.endswith("\n1 passed, 0 failed\n")
    assert (status, tried(out), copy.asked()) == (0, ["== bin/prove", "== bin/library", "== quick"], [*CRATES, "library"])
    times = (copy.top / "out/times.log").read_text()
    assert re.fullmatch(r"\d+ \d+ bin/prove\n\d+ \d+ bin/library\n\d+ \d+ quick\n", times)
    status, out = ran(["bin/test"], {"tests/test_one.py": FAILS}, UNLINKED="")
    assert status == 1 and out.startswith(IS_BUILT) and out.endswith("\n0 passed, 1 failed\n")
    assert copy.asked() == ["library"]


@pytest.mark.parametrize("setting,said,failed", [
    ({"FAILS": "1"}, "TOP/out/build.log, which ends:\nnot proved\n", "bin/prove"), ({"UNLINKED": "1"}, "not linked\n", "bin/library"),
], ids=["not proved", "not linked"])
def test_no_test_is_run_after_a_build_that_failed(copy, ran, setting, said, failed):
    copy.write("bin/library", LIBRARY, 0o755)
    status, out = ran(["bin/test"], {"tests/test_one.py": PASSES}, **{"UNLINKED": "", **setting})
    assert status == 1
    assert out.replace(str(copy.top), "TOP").endswith(f"{said}{failed} failed, so no test was run.\n0 passed, 1 failed\n")


@pytest.mark.parametrize("words", [["bin/test"], ["bin/test", "all"]], ids=["", "all"])
def test_what_takes_long_says_so(copy, ran, words):
    """A line each half minute, which here is a tenth of a second, and none once the last line is there."""
    copy.write("bin/library", LIBRARY, 0o755)
    copy.write(copy.kit / "sleep", "#!/bin/sh\nexec /usr/bin/sleep 0.1\n", 0o755)
    slow = "import time\n\ndef test_it():\n    time.sleep(1)\n"
    status, out = ran(words, {"tests/test_one.py": slow}, UNLINKED="")
    title = "tests" if words[1:] else "quick"
    assert status == 0 and out.endswith(" passed, 0 failed\n") and re.search(rf"^\.*\.\. {title}: \d s so far$", out, re.M)


def test_no_pytest_is_said_before_anything_is_built(copy):
    at_once = "mergejoin: the tests need Debian's python3-pytest, which is not installed\n"
    copy.write("bin/test", (copy.top / "bin/test").read_text().replace("python=/usr/bin/python3 ", "python=false "), 0o755)
    assert copy.run(["bin/test"]) == (1, at_once, "") and copy.asked() == []


def test_quick_proves_nothing(copy, ran):
    """It runs no mutant and no slow test, and wants the program and the library to be built of the sources as they are."""
    wanted = "mergejoin: the program or the library is not built of the sources as they are: run bin/prove and bin/library first\n"
    assert ran(["bin/test", "quick"], {"tests/test_one.py": PASSES, "tests/test_two.py": SLOW}) == (1, wanted)
    copy.write("bin/library", LIBRARY, 0o755)
    assert [copy.run([f"bin/{name}"])[0] for name in ("prove", "library")] == [0, 0]
    copy.asked()
    status, out = ran(["bin/test", "quick"], {})
    assert (status, tried(out), out.splitlines()[-1], copy.asked()) == (0, ["== quick"], "1 passed, 0 failed", [])


def test_nothing_is_begun_after_an_interrupt(copy, ran):
    """What a terminal sends goes to pytest too, which ends as if all had been run."""
    begun, slow = copy.directory / "begun", "import pathlib, time\n\ndef test_it():\n    pathlib.Path({!r}).touch()\n    time.sleep(60)\n"
    copy.write("tests/test_one.py", slow.format(str(begun)))
    line = f'set -m; "${{0%/*}}/test" all & set +m; until [ -e {begun} ]; do sleep 0.1; done; kill -INT -- -$!; wait $!'
    status, out = ran(line, {})
    assert status == 130 and "== tests" in out and "== mutants" not in out


def test_other_words_are_refused(copy):
    assert copy.run(["bin/test", "slow"]) == (2, "", "mergejoin: usage: bin/test [quick | all]\n")


@pytest.mark.parametrize("words", [["bin/test"], ["bin/test", "all"]], ids=["", "all"])
def test_no_toolchain_is_said_in_one_line(copy, words):
    ended = copy.run(words, {"PATH": "/usr/bin:/bin"})
    assert ended == (1, "mergejoin: the Rattle toolchain's command rt is not on the PATH\n", "")


@pytest.mark.parametrize("word", ["--help", "-h"])
def test_help(copy, word):
    status, out, err = copy.run(["bin/test", word])
    assert (status, err) == (0, "") and out.startswith("The project's tests") and copy.asked() == []
