"""bin/package-arm64: the packages that it makes for 64-bit ARM are the same bytes twice, and what is installed of each is run under qemu, with
the Python of the distribution for that processor; its help, its words, and what it says without a compiler.
"""

import re
import subprocess
import tarfile
import zipfile

import calls
import pytest
from calls import TOP
from fresh_root import MIRROR, SUITE, lacking
from making import LIMIT
from released import VERSION

PACKAGE, COMPILER = TOP / "bin/package-arm64", "aarch64-linux-gnu-gcc"
TAR, WHEEL = f"libmergejoin_{VERSION}_arm64.tar.gz", f"mergejoin-{VERSION}-cp310-abi3-manylinux_2_17_aarch64.whl"
PYTHON = ["python3.11-minimal", "libpython3.11-stdlib"]
PROGRAM = r"""import platform, sys
sys.path.insert(0, sys.argv[1])
import mergejoin
from mergejoin import objects
replica = mergejoin.Replica('{"title": "Notes"}')
replica.receive('{"author": "Ada"}')
print(platform.machine(), mergejoin.__version__, replica.document(), objects.join([{"a": 1}, {"b": None}]))
try:
    replica.receive('{"author": "Bob"}')
except mergejoin.Conflict as conflict:
    print(conflict.places)
"""
SHOWN = f"aarch64 {VERSION} {{\"author\":\"Ada\",\"title\":\"Notes\"}} {{'a': 1, 'b': None}}\n['/author']\n"


@pytest.fixture(name="made", scope="module")
def what_is_made_twice(library, needs, tmp_path_factory):
    """Two directories in which bin/package-arm64 has made its packages. It may have to prove the library first."""
    needs(COMPILER, "rt")
    directory = tmp_path_factory.mktemp("arm64")
    for name in ("one", "other"):
        reported = "".join(f"made {directory}/{name}/{file}\n" for file in (TAR, WHEEL, "SHA256SUMS"))
        status, out, err = calls.run(f"umask 077; {PACKAGE} {name}", shell=True, cwd=directory, limit=10 * LIMIT)
        assert (status, out) == (0, reported), err
    return directory / "one", directory / "other"


def test_the_same_bytes_are_made_twice_and_have_their_sums(made, run):
    one, other = ({path.name: path.read_bytes() for path in directory.iterdir()} for directory in made)
    assert one == other and {*one} == {TAR, WHEEL, "SHA256SUMS"}
    assert run("sha256sum --strict --quiet -c SHA256SUMS", shell=True, cwd=made[0]) == (0, "", "")


def test_the_archive_has_what_a_program_links(made):
    with tarfile.open(made[0] / TAR) as archive:
        names = {member.name.removeprefix(f"mergejoin-{VERSION}/") for member in archive if member.isfile() or member.issym()}
    assert {"lib/libmergejoin.a", "lib/libmergejoin.so.2", "include/mergejoin.h", "lib/pkgconfig/mergejoin.pc", "share/doc/mergejoin/LICENSE",
            "share/man/man3/mergejoin.3"} <= names


@pytest.fixture(name="python", scope="module")
def python_of_that_processor(needs, tmp_path_factory):
    """The words that run it, of Debian's packages, of which nothing is installed."""
    needs("debootstrap", "dpkg-deb", "qemu-aarch64", lacking=lacking())
    directory, root = tmp_path_factory.mktemp("download"), tmp_path_factory.mktemp("root")
    words = ["debootstrap", "--arch=arm64", "--variant=minbase", "--download-only", f"--include={','.join(PYTHON)}", SUITE, directory, MIRROR]
    done = subprocess.run(words, stdin=subprocess.DEVNULL, capture_output=True, text=True, timeout=600, check=False)
    assert done.returncode == 0, done.stdout[-2000:]
    for package in (directory / "var/cache/apt/archives").glob("*.deb"):
        if re.match(r"lib|python|zlib", package.name):
            subprocess.run(["dpkg-deb", "-x", package, root], check=True)
    return ["qemu-aarch64", "-L", root, root / "usr/bin/python3.11", "-I"]


def test_the_wheel_runs(made, python, tmp_path, run):
    with zipfile.ZipFile(made[0] / WHEEL) as wheel:
        wheel.extractall(tmp_path / "installed")
    assert run([*python, "-c", PROGRAM, tmp_path / "installed"], limit=120) == (0, SHOWN, "")


def test_it_knows_its_words(run):
    assert run([PACKAGE, "--help"])[1].startswith("Makes packages for 64-bit ARM")
    assert run([PACKAGE, "--all"]) == (2, "", "usage: bin/package-arm64 [DIRECTORY]\n")


def test_it_says_what_it_needs(run, tmp_path):
    for name in ("bash", "dirname", "readlink", "env", "grep", "tr", "sed", "cat", "sha256sum", "find", "stat", "sort", "xargs", "id", "head"):
        (tmp_path / name).symlink_to(f"/usr/bin/{name}")
    said = f"package-arm64: the command {COMPILER} is not on the PATH: Debian's gcc-aarch64-linux-gnu has it\n"
    assert run([PACKAGE, "packed"], setting={"PATH": str(tmp_path)}) == (2, "", said)
