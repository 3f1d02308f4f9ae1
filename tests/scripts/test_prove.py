"""bin/prove, in a copy with a toolchain that proves nothing: builds that are made, fail and are made twice at once. A program is run
and installed only if it was built there, and of the sources as they are.
"""

import os
import shutil
import subprocess

import pytest
from calls import TOP
from copies import CRATES, NOT_PROVED, PROVED, UNPROVED, built, tried

DIFFERS = "mergejoin: TOP/out/mergejoin is not what was built there, and is not {}: its checksum differs\n"


@pytest.mark.parametrize("words,status,err,how", [
    ([TOP / "bin/prove"], 0, "", {}),
    (["bin/prove"], 0, "", {"cwd": TOP, "setting": {"CDPATH": f".:{TOP}:/"}}),
    ([TOP / "bin/prove", "x"], 2, "mergejoin: usage: bin/prove\n", {}),
], ids=["no word", "CDPATH", "a word"])
def test_where_all_is_proved(program, run, words, status, err, how):
    assert run(words, **how) == (status, "", err)


def test_help(run):
    status, out, err = run([TOP / "bin/prove", "--help"])
    assert (status, err) == (0, "") and out.startswith("Proves and builds the program")


def test_a_place_that_cannot_be_written_to(copy):
    copy.write("out", "")
    says = "mergejoin: the program is to be built in TOP/out, which can't be written to, so make a copy of the repository that is yours\n"
    assert copy.run(["bin/prove"]) == (125, "", says)


def test_a_build_that_fails(copy):
    failed = "mergejoin: the build of mp_patch failed after N s; its log is TOP/out/build.log, which ends:\nnot proved\n"
    assert copy.run(["bin/prove"], {"FAILS": "1"}) == (125, "", f"{built(2)}mergejoin: mp_patch, 3 of 7 ..\n{failed}")
    assert copy.asked() == CRATES[:2]
    assert copy.join() == NOT_PROVED
    assert copy.asked() == ["try in mergejoin"]


def test_two_builds_at_once_are_one(copy):
    two = [subprocess.Popen([copy.top / "bin/prove"], env={**os.environ, **copy.setting}, stdin=subprocess.DEVNULL,
                            stdout=subprocess.DEVNULL, stderr=subprocess.DEVNULL) for _ in range(2)]
    assert [build.wait() for build in two] == [0, 0]
    assert copy.asked() == CRATES
    assert copy.join("a b") == (0, "proved join a b\n", "")
    assert (copy.top / "out/mergejoin.kit").read_text() == "a kit for tests\n"


@pytest.mark.parametrize("handles", [False, True], ids=["", "HANDLES"])
def test_a_build(copy, handles):
    if handles:
        copy.write("HANDLES", "Handles allowed: none.\n")
    assert copy.run(["bin/prove"], {"CDPATH": f".:{copy.top}"}) == (0, "", built())
    assert copy.asked() == CRATES
    assert copy.join() == PROVED


def test_what_rt_keeps_is_lent_to_a_build_and_given_back(copy):
    """Also by one that fails."""
    assert copy.run(["bin/prove"], {"FAILS": "1"})[0] == 125
    assert copy.proofs("mp_tree") == 1
    assert copy.run(["bin/prove"]) == (0, "", built())
    assert [copy.proofs(crate) for crate in CRATES[:3]] == [2, 2, 1]


@pytest.mark.parametrize("name,old,new", [
    ("crates/mp_tree/src/lib.rt", b"One", b"Two"),
    ("crates/mp_tree/src/lib.rt", b"\n", b"\n\n"),
    ("crates/mp_cli/specs/Lib.antt", b"One", b"Two"),
    ("crates/mp_cli/specs/Lib.antt", b"\n", b"\n\n"),
    ("crates.txt", b"mp_tree", b"# more\nmp_tree"),
], ids=lambda part: part if isinstance(part, str) else "")
def test_a_changed_source_has_no_program_until_it_is_put_back(proved, name, old, new):
    """Though the time of its text is as it was."""
    path = proved.top / name
    text, times = path.read_bytes(), path.stat()
    path.write_bytes(text.replace(old, new, 1))
    os.utime(path, ns=(times.st_atime_ns, times.st_mtime_ns))
    assert proved.join() == NOT_PROVED
    path.write_bytes(text)
    assert proved.join() == PROVED


@pytest.mark.parametrize("name", ["crates/mp_tree/src/more.rt", "crates/mp_tree/src/out/more.rt", "crates/mp_tree/proofs/More.antt", "HANDLES"])
def test_a_new_source_has_no_program_until_it_is_removed(proved, name):
    proved.write(name, "//! One.\n")
    assert proved.join() == NOT_PROVED
    (proved.top / name).unlink()
    assert proved.join() == PROVED


def test_what_rt_makes_is_no_source(proved):
    proved.write("crates/mp_tree/out/made.antt", "-- made\n")
    assert proved.join() == PROVED


@pytest.mark.parametrize("name", ["lib.rt", "out/more.rt"])
def test_changed_sources_are_built_again(proved, name):
    proved.write(f"crates/mp_tree/src/{name}", "//! Two.\n")
    assert proved.run(["bin/prove"]) == (0, "", built())
    assert proved.asked() == CRATES
    assert proved.join() == PROVED


def test_an_edit_during_a_build_that_is_put_back_is_not_in_it(copy):
    source = copy.top / "crates/mp_tree/src/lib.rt"
    assert copy.run(["bin/prove"], {"EDITS": str(source)}) == (0, "", built())
    assert copy.join() == (0, "proved join of //! One.\n", "")


def test_an_edit_during_a_build_that_stays_is_not_in_it(copy):
    source = copy.top / "crates/mp_tree/src/lib.rt"
    says = "mergejoin: the sources changed meanwhile, and the program is of what they were: run bin/prove again\n"
    assert copy.run(["bin/prove"], {"EDITS": str(source), "STAYS": "1"}) == (125, "", built() + says)
    assert copy.join() == NOT_PROVED
    source.write_text("//! One.\n")
    assert copy.join() == (0, "proved join of //! One.\n", "")


def linked(program):
    program.unlink()
    program.symlink_to("/bin/true")


NO_PROGRAM = "mergejoin: TOP/out/mergejoin is what was built, and is no program: remove it and run bin/prove\n"


@pytest.mark.parametrize("text,says", [
    ("", NO_PROGRAM),
    ("exit 0\n", NO_PROGRAM),
    ("#!/no/such/interpreter\n", "required file not found"),
    ("\x7fELF and no more", "Exec format error"),
], ids=["empty", "no head", "no interpreter", "no code"])
def test_a_program_that_cannot_be_run_is_no_answer(proved, text, says):
    """Though it is what the toolchain has built."""
    proved.write("out/mergejoin", text, 0o755)
    proved.run('. "${0%/*}/program.sh" && write_sums "$(sources_sum "$top")" "$program" >"$built_from"')
    status, out, err = proved.join()
    assert (status, out) == (125, "") and says in err


@pytest.mark.parametrize("replace,says", [
    (lambda program: shutil.copy("/bin/true", program), DIFFERS.format("used")),
    (lambda program: program.write_bytes(program.read_bytes().replace(b"proved", b"Proved")), DIFFERS.format("used")),
    (linked, ""),
], ids=["another program", "a byte", "a link"])
def test_a_replaced_program_is_neither_run_nor_installed(installable, replace, says):
    program, prefix = installable.top / "out/mergejoin", installable.directory / "prefix"
    was = program.read_bytes()
    replace(program)
    assert installable.join() == (0, tried(["join"]), says + UNPROVED)
    status, _, err = installable.run(["bin/install", prefix])
    assert status == 0 and says in err and (prefix / "bin/mergejoin").read_bytes() == was


def test_a_program_that_rt_has_from_elsewhere_is_built_anew(proved):
    proved.write("crates/mergejoin/out/mergejoin.stamp", "")
    shutil.copy("/bin/true", proved.top / "crates/mergejoin/out/mergejoin")
    (proved.top / "out/mergejoin").unlink()
    assert proved.run(["bin/prove"]) == (0, "", built())
    assert proved.join() == PROVED


def test_a_program_that_is_replaced_after_bin_prove_has_looked_is_not_installed(installable):
    prefix = installable.directory / "prefix"
    installable.write("bin/prove", f"#!/bin/sh\ncp /bin/true '{installable.top}/out/mergejoin'\n", 0o755)
    assert installable.run(["bin/install", prefix]) == (125, "", DIFFERS.format("installed"))
    assert not [path for path in prefix.rglob("*") if path.is_file()]
