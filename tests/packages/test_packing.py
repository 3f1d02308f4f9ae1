"""bin/package where something is in its way: no git, a disk that is full, or a repository of another user. It packs the same, or ends with one
line that says what to do, and leaves nothing. The same of what else runs there as another user.
"""

import os
import pathlib
import shutil
import tempfile

import calls
import pytest
from making import CRATE, LIMIT, MADE, PACKAGE, copy_of_what_was_built, is_made

pytestmark = pytest.mark.slow


@pytest.fixture(name="without")
def what_makes_a_path_without_a_command(tmp_path):
    def without(name):
        """Gives a PATH with all that is on the one of this process but the commands of a name."""
        place = tmp_path / f"without {name}"
        place.mkdir()
        for directory in map(pathlib.Path, os.environ["PATH"].split(":")):
            for path in directory.iterdir() if directory.is_dir() else ():
                if path.name != name and not (place / path.name).is_symlink():
                    (place / path.name).symlink_to(path)
        return str(place)

    return without


def test_without_git_the_same_is_packed_and_no_commit_named(one, top, run, without, tmp_path):
    (top / ".git").mkdir()
    status, out, err = run([top / "bin/package", "packed"], setting={"PATH": without("git")}, limit=LIMIT)
    assert err == "package: SHA256SUMS names no commit, since git is not on the PATH\n"
    is_made((status, out, ""), tmp_path / "packed")
    assert [name for name in MADE[:-1] if (one / name).read_bytes() != (tmp_path / "packed" / name).read_bytes()] == []
    assert (tmp_path / "packed/SHA256SUMS").read_text().startswith("# commit unknown\n")


# Mounts a small disk in $1, which no other process has, runs what follows, and lists each file there.
SIZE = 131_072
ON_A_DISK = 'mount -t tmpfs -o size=%d small "$1" || exit; "${@:2}"; status=$?; find "$1" -mindepth 1; exit $status' % SIZE


@pytest.fixture(name="on_a_small_disk")
def what_runs_words_with_a_small_disk(tmp_path):
    (tmp_path / "disk").mkdir()
    words = ["unshare", "--mount", "bash", "-c", ON_A_DISK, "bash", tmp_path / "disk"]
    if calls.run([*words, "true"])[0] != 0:
        pytest.skip("this user can't mount a disk")
    return lambda *more, **setting: calls.run([*words, *more], setting=setting, cwd=tmp_path, limit=LIMIT)


def test_a_full_disk_for_the_packages_is_reported_and_has_none(program, library, needs, on_a_small_disk, tmp_path):
    needs("dpkg-deb")
    status, out, err = on_a_small_disk(PACKAGE, tmp_path / "disk/packed")
    *_, needed = err.split(" bytes left, and ")
    assert (status, out) == (1, "") and int(needed.removesuffix(" are needed\n")) > SIZE
    assert err == f"package: the disk of {tmp_path}/disk/packed has {SIZE} bytes left, and {needed}"


def test_a_disk_that_becomes_full_is_reported_and_has_no_package(top, on_a_small_disk, tmp_path):
    """After bin/package has looked how much is left."""
    lines = (top / "bin/packing.sh").read_text().replace('  look_for_space "$directory" "$needed"\n', "")
    (top / "bin/packing.sh").write_text(lines)
    status, out, err = on_a_small_disk(top / "bin/package", tmp_path / "disk/packed")
    assert (status, out) == (1, f"{tmp_path}/disk/packed\n") and err.count("\n") == 1
    assert err.startswith(f"cp: error writing '{tmp_path}/disk/packed/.mergejoin.") and err.endswith("': No space left on device\n")


def test_a_full_disk_for_temporary_files_is_reported(program, library, needs, on_a_small_disk, tmp_path):
    needs("dpkg-deb")
    says = f"package: the disk of {tmp_path}/disk has {SIZE} bytes left, and 100000000 are needed, so set TMPDIR to a directory on another\n"
    assert on_a_small_disk(PACKAGE, "packed", TMPDIR=str(tmp_path / "disk")) == (1, "", says)
    assert not (tmp_path / "packed").exists()


class Visitor:
    """Another user, in a repository of root with what was built, which it may read alone. All that it may write to is below `own`."""

    words = ("setpriv", "--reuid", "nobody", "--regid", "nogroup", "--clear-groups", "env", "HOME=/nonexistent", "PATH=/usr/bin:/bin")

    def __init__(self, directory):
        self.top, self.own = copy_of_what_was_built(directory / "sources"), directory / "own"
        self.own.mkdir()
        shutil.chown(self.own, "nobody", "nogroup")
        calls.run(["chmod", "-R", "go+rX", self.top])

    def run(self, *words, given=b""):
        return calls.run([*self.words, f"TMPDIR={self.own}", *words], given, cwd=self.own, limit=LIMIT)


@pytest.fixture(name="visitor", scope="module")
def another_user(needs, program, library):
    """In a directory that all may enter, as those of pytest are not."""
    needs("dpkg-deb")
    if os.geteuid() != 0 or calls.run([*Visitor.words, "true"])[0] != 0:
        pytest.skip("only root can run something as another user")
    with tempfile.TemporaryDirectory() as directory:
        os.chmod(directory, 0o755)
        yield Visitor(pathlib.Path(directory))


def test_another_user_runs_and_installs_what_was_built(visitor):
    ran = visitor.run(visitor.top / "bin/mergejoin", "join", given=b'[{"a":1},{"b":2}]')
    assert ran == (0, '{"a":1,"b":2}\n', "")
    status, out, err = visitor.run(visitor.top / "bin/install", visitor.own / "prefix")
    assert (status, err) == (0, "") and out.startswith(f"installed {visitor.own}/prefix/bin/mergejoin\n")


def test_the_crate_is_packed_by_the_cargo_of_the_distribution(needs, one, tmp_path):
    """Not by one that is in front of it on the PATH, as a user may have: it may make other bytes."""
    needs("/usr/bin/cargo")
    (tmp_path / "cargo").write_text("#!/bin/sh\nexit 9\n")
    (tmp_path / "cargo").chmod(0o755)
    ended = calls.run([PACKAGE, tmp_path / "made"], setting={"PATH": f"{tmp_path}:{os.environ['PATH']}"}, limit=LIMIT)
    is_made(ended, tmp_path / "made")
    assert (tmp_path / "made" / CRATE).read_bytes() == (one / CRATE).read_bytes()


def test_another_user_packs_what_was_built(visitor, one):
    """The same bytes. If the distribution's cargo is not installed, another may be for root alone."""
    status, _, err = visitor.run(visitor.top / "bin/package", visitor.own / "packed")
    assert (status, err) in ((0, ""), (0, "package: no crate for Rust, since cargo is not on the PATH\n"))
    names = [name for name in MADE[:-1] if name != CRATE or not err]
    assert [name for name in names if (one / name).read_bytes() != (visitor.own / "packed" / name).read_bytes()] == []


def test_another_user_packs_into_no_directory_of_the_first(visitor):
    says = f"package: {visitor.top}/out can't be written to, so name another directory\n"
    assert visitor.run(visitor.top / "bin/package") == (2, "", says)


@pytest.mark.parametrize("script,words,what", [("prove", [], "program"), ("install", ["to"], "program"), ("package", ["to"], "program"),
                                               ("library", [], "library")])
def test_what_another_user_cannot_build_is_one_line(visitor, script, words, what):
    """After an edit of the sources, with a toolchain that builds nothing."""
    source, rt = visitor.top / "crates/mp_tree/src/lib.rt", visitor.own / "rt"
    before = source.read_text("utf-8")
    rt.write_text("#!/bin/sh\nexit 1\n")
    rt.chmod(0o755)
    try:
        source.write_text(f"{before}\n", "utf-8")
        ended = visitor.run("env", f"PATH={visitor.own}:/usr/bin:/bin", visitor.top / "bin" / script, *words)
    finally:
        source.write_text(before, "utf-8")
    says = f"the {what} is to be built in {visitor.top}/out, which can't be written to, so make a copy of the repository that is yours"
    assert ended == (125, "", f"mergejoin: {says}\n") and not (visitor.own / "to").exists()
