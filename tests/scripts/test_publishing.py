"""bin/install and bin/prove in a copy with a toolchain that proves nothing: by several at once, with a line that can't be printed, over what
others have put in the way, and in environments that would change what is made. All files are put in place, or none, and nothing else is left.
"""

import os
import pathlib
import re
import subprocess
import time

import pytest
from copies import CRATES, PROVED, built
from installed import INSTALLED


class Prefix:
    """A directory into which a copy installs."""

    def __init__(self, copy):
        self.copy, self.path = copy, copy.directory / "prefix"

    def has_all(self):
        """All files are there as they are in the copy, and no other."""
        seen = {str(path.relative_to(self.path)): path for path in self.path.rglob("*") if not path.is_dir()}
        assert list(seen) == [str(path.relative_to(self.path)) for path in seen.values() if not path.is_symlink()]
        assert {name: path.read_bytes() for name, path in seen.items()} == {
            name: (self.copy.top / source).read_bytes() for name, source in INSTALLED.items()}

    def left(self):
        """What is there with its text, but for directories."""
        return {str(path.relative_to(self.path)): path.read_bytes() for path in self.path.rglob("*") if path.is_file()}


@pytest.fixture(name="prefix")
def directory_to_install_into(installable):
    return Prefix(installable)


def test_six_install_at_once(prefix):
    words, how = [prefix.copy.top / "bin/install", prefix.path], {"stdin": subprocess.DEVNULL, "stdout": subprocess.PIPE}
    six = [subprocess.Popen(words, env={**os.environ, **prefix.copy.setting}, stderr=subprocess.DEVNULL, **how) for _ in range(6)]
    assert [install.communicate()[0].count(b"installed") for install in six] == [len(INSTALLED)] * 6
    assert [install.returncode for install in six] == [0] * 6
    prefix.has_all()


def test_the_second_waits_for_the_first(prefix):
    """So that no file is of the one and another of the other, whatever they install."""
    line = f'mkdir -p {prefix.path}; flock {prefix.path} sleep 2 & sleep 0.5; "${{0%/*}}/install" {prefix.path}'
    status, _, err = prefix.copy.run(line)
    assert (status, err) == (0, f"mergejoin: waiting for another that writes to {prefix.path} ..\n")
    prefix.has_all()


UNSAID = "mergejoin: all is installed, but standard output can't be written to\n"


@pytest.mark.parametrize("end,status,err", [
    (">/dev/full", 1, UNSAID),
    (">&-", 1, UNSAID),
    ("| true; exit ${PIPESTATUS[0]}", 1, UNSAID),
    ("2>&- >/dev/full", 1, ""),
], ids=["full", "closed", "a reader that went away", "both"])
def test_a_line_that_cannot_be_printed_leaves_all_files(prefix, end, status, err):
    """Also over an older program."""
    (prefix.path / "bin").mkdir(parents=True)
    (prefix.path / "bin/mergejoin").write_text("older")
    # (the reader has gone once the program is new)
    line = f'"${{0%/*}}/install" {prefix.path} {end}'
    assert prefix.copy.run(line) == (status, "", err)
    prefix.has_all()


@pytest.mark.parametrize("name", INSTALLED)
def test_what_others_have_put_next_to_a_place_is_left(prefix, name):
    """A link to a file, or a directory, by a name with an end that a script might use."""
    other, place = prefix.copy.directory / "other", prefix.path / name
    other.write_text("other")
    place.parent.mkdir(parents=True)
    place.with_name(f"{place.name}.new").symlink_to(other)
    place.with_name(f"{place.name}.was").mkdir()
    assert prefix.copy.run(["bin/install", prefix.path])[::2] == (0, "")
    place.with_name(f"{place.name}.new").unlink()
    assert other.read_text() == "other" and not list(place.with_name(f"{place.name}.was").iterdir())
    prefix.has_all()


def test_a_link_in_a_place_is_replaced_and_not_followed(prefix):
    other = prefix.copy.directory / "other"
    other.write_text("other")
    (prefix.path / "bin").mkdir(parents=True)
    (prefix.path / "bin/mergejoin").symlink_to(other)
    assert prefix.copy.run(["bin/install", prefix.path])[::2] == (0, "")
    assert other.read_text() == "other"
    prefix.has_all()


@pytest.mark.parametrize("name", ["bin/mergejoin", "share/doc/mergejoin/REPLICAS.md"])
def test_if_one_file_cannot_be_put_in_its_place_none_is(prefix, name):
    """A directory is made there after bin/install has looked."""
    older = {"bin/mergejoin-feed": b"older", "share/doc/mergejoin/README.md": b"older"}
    for file, text in older.items():
        (prefix.path / file).parent.mkdir(parents=True)
        (prefix.path / file).write_bytes(text)
    prefix.copy.write("bin/prove", f"#!/bin/sh\nmkdir -p '{prefix.path}/{name}'\n", 0o755)
    status, out, err = prefix.copy.run(["bin/install", prefix.path])
    assert (status, out, prefix.left()) == (1, "", older) and f"cannot overwrite directory '{prefix.path}/{name}'" in err
    assert not list((prefix.path / name).iterdir())


def tool(prefix, name, text):
    """A command in front of the distribution's: the setting in which it is found."""
    directory = prefix.copy.directory / "tools"
    directory.mkdir()
    (directory / name).write_text(text)
    (directory / name).chmod(0o755)
    return {"PATH": f"{directory}:{prefix.copy.setting['PATH']}"}


@pytest.mark.parametrize("can_be_put", [True, False])
def test_on_a_file_system_without_second_names_all_or_none_are_put(prefix, can_be_put):
    (prefix.path / "bin").mkdir(parents=True)
    (prefix.path / "bin/mergejoin").write_bytes(b"older")
    if not can_be_put:
        prefix.copy.write("bin/prove", f"#!/bin/sh\nmkdir -p '{prefix.path}/share/doc/mergejoin/REPLICAS.md'\n", 0o755)
    status = prefix.copy.run(["bin/install", prefix.path], tool(prefix, "ln", "#!/bin/sh\nexit 1\n"))[0]
    assert (status, can_be_put) in ((0, True), (1, False))
    if can_be_put:
        prefix.has_all()
    else:
        assert prefix.left() == {"bin/mergejoin": b"older"}


def test_if_it_is_ended_while_files_are_put_all_are(prefix):
    """By an mv that takes its time."""
    setting = {**os.environ, **prefix.copy.setting, **tool(prefix, "mv", '#!/bin/sh\n: >"$0.ran"\nsleep 0.1\nexec /bin/mv "$@"\n')}
    words = [prefix.copy.top / "bin/install", prefix.path]
    with subprocess.Popen(words, env=setting, stdout=subprocess.DEVNULL, stderr=subprocess.DEVNULL) as install:
        while install.poll() is None and not (prefix.copy.directory / "tools/mv.ran").exists():
            time.sleep(0.01)
        install.terminate()
    prefix.has_all()


def test_what_cannot_be_put_back_is_kept_and_named(prefix):
    """The disk turns read-only, as it were, once the first file is put."""
    program = prefix.path / "bin/mergejoin"
    program.parent.mkdir(parents=True)
    program.write_text("older")
    setting = tool(prefix, "mv", '#!/bin/sh\n[ ! -e "$0.ran" ] || exit 1\n: >"$0.ran"\nexec /bin/mv "$@"\n')
    status, out, err = prefix.copy.run(["bin/install", prefix.path], setting)
    where = re.fullmatch(f"mergejoin: what was {program} is (.*)\n", err)
    assert (status, out) == (1, "") and pathlib.Path(where[1]).read_text() == "older"
    assert [name for name in prefix.left() if "/.mergejoin." not in name] == ["bin/mergejoin"]


def test_what_is_built_is_installed_without_a_toolchain_and_a_place_to_write_to(prefix):
    out = prefix.copy.top / "out"
    out.chmod(0o555)
    assert prefix.copy.run(["bin/install", prefix.path], {"PATH": "/usr/bin:/bin"})[::2] == (0, "")
    out.chmod(0o755)
    prefix.has_all()


@pytest.fixture(name="strange")
def environment_that_changes_what_is_made(copy):
    """A file that bash reads first, an exported function, and a variable that the toolchain notes."""
    copy.write(copy.directory / "first.sh", "umask 077\nmkdir() { :; }\nset -x\n")
    return {"BASH_ENV": str(copy.directory / "first.sh"), "BASH_FUNC_mv%%": "() { :; }", "STRAY": str(copy.directory / "stray"), "SHELLOPTS": "noglob"}


def test_what_is_built_is_built_without_the_environment(copy, strange):
    status, out, err = copy.run(["bin/prove"], strange)
    assert (status, out) == (0, "") and err.endswith(built())
    assert copy.asked() == CRATES and not (copy.directory / "stray").exists()
    assert copy.join() == PROVED


def test_what_is_installed_is_installed_without_the_environment(prefix, strange):
    """By a narrow mask too: also others can use it."""
    assert prefix.copy.run(f'umask 077; "${{0%/*}}/install" {prefix.path}', strange)[0] == 0
    prefix.has_all()
    assert [path for path in (prefix.path, *prefix.path.rglob("*")) if path.is_dir() and path.stat().st_mode & 0o777 != 0o755] == []


@pytest.mark.parametrize("name", ["workspace", "a b", "nowhere", "file", ""])
def test_a_directory_for_temporary_files_that_does_not_do_is_not_used(copy, name):
    """It is relative, has a space in its path, is not there or is a file."""
    (copy.directory / "a b").mkdir()
    (copy.directory / "file").touch()
    before = sorted(copy.directory.rglob("*"))
    setting = name if name in ("workspace", "") else str(copy.directory / name)
    assert copy.run(["bin/prove"], {"TMPDIR": setting}) == (0, "", built())
    assert copy.asked() == CRATES
    assert copy.join() == PROVED
    assert [path for path in sorted(copy.directory.rglob("*")) if path not in before and copy.top not in path.parents] == []
