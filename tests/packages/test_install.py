"""bin/install into directories: each file there is looked at, and what was installed is run. Each refusal is reported in one line,
before anything is written.
"""

import os
import shutil

import pytest
from calls import TOP
from installed import INSTALLED, copies
from released import VERSION

INSTALL = TOP / "bin/install"
pytestmark = pytest.mark.usefixtures("program")

# A line of the shell that installs, where $0 is bin/install and $1 the directory in which it is run, and the prefix.
WAYS = {
    "a new directory": ('"$0" to', "to"),
    "by sh, two directories down": ('sh "$0" "a b/c"', "a b/c"),
    "over what is there": ('mkdir -p over/bin; echo older >over/bin/mergejoin; "$0" "$1/over"', "over"),
    "with CDPATH": (f'export CDPATH=".:{TOP}:/"; cd -- {TOP} && bin/install "$1/by"', "by"),
    "with a narrow mask": ('umask 077; "$0" narrow', "narrow"),
}


@pytest.mark.parametrize("line,prefix", WAYS.values(), ids=WAYS)
def test_each_file_is_installed(run, tmp_path, line, prefix):
    below = tmp_path / prefix
    assert run(["bash", "-c", line, INSTALL, tmp_path]) == (0, "".join(f"installed {below}/{name}\n" for name in INSTALLED), "")
    files = {str(path.relative_to(below)): path for path in below.rglob("*") if path.is_file()}
    assert {name: path.read_bytes() for name, path in files.items()} == copies(INSTALLED)
    modes = {"bin": 0o755, "share": 0o644}
    assert [name for name, path in files.items() if path.stat().st_mode & 0o777 != modes[name.split("/")[0]]] == []


def test_what_was_installed_runs(run, tmp_path):
    assert run([INSTALL, "to"])[0] == 0
    setting = {"PATH": f"{tmp_path / 'to/bin'}:/usr/bin:/bin"}
    pipe = "mergejoin-feed one two | mergejoin replay 2>refusal; mergejoin-locate replay one two <refusal"
    for name, text in ("one", '{"n":1}'), ("two", '{"n":1.5}'), ("three", '{"n":3}'):
        (tmp_path / name).write_text(text)
    assert run(pipe, shell=True, setting=setting) == (0, 'two: no whole number: 1.5, at "/n"\n', "")
    assert run("mergejoin-conflicts one three", shell=True, setting=setting) == (1, 'one\tthree\t"/n"\n', "")
    assert run(["mergejoin", "merge"], "[5]", setting=setting) == (0, "5\n", "")
    for name in ("feed", "conflicts", "locate"):
        assert run([f"mergejoin-{name}"], setting=setting)[2].startswith(f"mergejoin-{name}: usage: mergejoin-{name} ")
        assert run([f"mergejoin-{name}", "--version"], setting=setting) == (0, f"mergejoin-{name} {VERSION}\n", "")
    assert run(["mergejoin-conflicts", "four"], setting=setting) == (2, "", "mergejoin-conflicts: four: there is no such file\n")


@pytest.fixture(name="place")
def directory_that_stays_as_it_is(tmp_path):
    """A directory in which much is in the way of an install. A test leaves it as it is."""
    place = tmp_path / "refused"
    for name in ("held/bin/mergejoin", "paged/share/man/man1/mergejoin.1", "linked/bin", "piped/bin", "looped", "filed"):
        (place / name).mkdir(parents=True)
    for name in ("file", "filed/share"):
        (place / name).write_text("")
    for name, target in (("linked/bin/mergejoin", place), ("looped/bin", TOP / "bin"), ("gone", place / "nowhere")):
        (place / name).symlink_to(target)
    os.mkfifo(place / "piped/bin/mergejoin")
    before = sorted(place.rglob("*"))
    yield place
    assert sorted(place.rglob("*")) == before


USAGE, ITSELF = "usage: bin/install PREFIX", "/bin has the scripts that are installed from there"


@pytest.mark.parametrize("words,why", [
    ([], USAGE),
    (["a", "b"], USAGE),
    ([""], "PREFIX is empty: for the root directory itself say /"),
    (["--prefix"], "there is no option --prefix; a directory of that name is ./--prefix"),
    (["a\nb"], "PREFIX has a newline"),
    (["--\x1b[2J"], "there is no option --?[2J; a directory of that name is ./--?[2J"),
    (["file"], "{}/file is there, and is not a directory"),
    (["file/below"], "{}/file is there, and is not a directory"),
    (["filed"], "{}/filed/share is there, and is not a directory"),
    (["held"], "{}/held/bin/mergejoin is a directory"),
    (["paged"], "{}/paged/share/man/man1/mergejoin.1 is a directory"),
    (["linked"], "{}/linked/bin/mergejoin is a directory"),
    (["piped"], "{}/piped/bin/mergejoin is there, and is not a file"),
    (["looped"], "{}/looped" + ITSELF),
], ids=repr)
def test_a_prefix_is_refused(run, place, words, why):
    assert run([INSTALL, *words], cwd=place) == (2, "", f"install: {why.format(place)}\n")


@pytest.mark.parametrize("words", [["bin/install", "."], [INSTALL, TOP]], ids=["from within", "by its path"])
def test_the_repository_is_no_prefix(run, words):
    assert run(words, cwd=TOP) == (2, "", f"install: {TOP}{ITSELF}\n")


@pytest.mark.parametrize("word", ["--help", "-h"])
def test_help(run, place, word):
    status, out, err = run([INSTALL, word], cwd=place)
    assert (status, err) == (0, "") and out.startswith("Installs the program") and "PREFIX/share" in out


def test_nothing_is_written_if_nothing_is_proved(run, tmp_path):
    shutil.copytree(TOP / "bin", tmp_path / "copy/bin")
    shutil.copy(TOP / "crates.txt", tmp_path / "copy")
    (tmp_path / "copy/crates/mergejoin").mkdir(parents=True)
    refused = (125, "", "mergejoin: the Rattle toolchain's command rt is not on the PATH\n")
    assert run([tmp_path / "copy/bin/install", "prefix"], setting={"PATH": "/usr/bin:/bin"}) == refused
    assert not (tmp_path / "prefix").exists()


def test_a_write_that_fails_leaves_no_part(run, tmp_path):
    status, out, err = run(f"trap '' XFSZ; ulimit -f 8; {INSTALL} full", shell=True)
    assert (status, out, err.count("\n")) == (1, "", 1) and "File too large" in err
    assert not [path for path in (tmp_path / "full").rglob("*") if path.is_file()]
