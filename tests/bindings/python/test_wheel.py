"""The package for Python is made with the library in its extension module, and installed in a virtual environment outside of the
repository, with no toolchain on the PATH. There the tests of bindings/python/tests pass: the test vectors, errors, examples, statuses
against the header, limits, what stays in memory, groupings of patches, and their growth. And mypy has nothing to say of the package, nor of
a program that uses it.
"""

import re
import zipfile

import pytest
from calls import TOP
from package import PYTHON, SOURCES, WHEEL, copied, environment, lacks, make_wheel, passes, run

EXAMPLE = """
import mergejoin
from mergejoin import Arrival, objects

def shown(start: str, patches: list[bytes]) -> str:
    replica = mergejoin.Replica(start)
    for patch in patches:
        try:
            replica.receive(patch, limit=1_000)
        except mergejoin.Conflict as conflict:
            print(", ".join(conflict.places), conflict.total, "and more" if conflict.more else "")
        except mergejoin.PatchError as error:
            print(error.number + 1, error.cause.upper(), error.place or "")
    part: str | None = replica.get("/author", None)
    return part or replica.document(limit=1_000_000)

def followed(log: mergejoin.PatchLog, chosen: list[tuple[int, int]]) -> int:
    if log.receive(log.epoch, (1, 2), memoryview(b"{}")) is Arrival.STORED:
        log.decide(chosen)
    pairs, more = log.first_conflicts(limit=1_000)
    return log.count() if more else sum(len(pair.places) + pair.first.sender for pair in [*pairs, *log.conflicts(), *log.conflicts_of((1, 2))[0]])

texts: list[str | bytearray] = ["{}", bytearray(b"{}")]
joined: str = mergejoin.join(text for text in texts)
first: tuple[int, int, list[str]] = objects.conflicts([{"a": 1}, {"a": 2}])[0]
number: int = len(mergejoin.__version__) + first[0]
"""


@pytest.fixture(name="python", scope="module")
def interpreter_with_the_package(wheel, tmp_path_factory):
    return environment(tmp_path_factory.mktemp("python"), wheel)


def test_no_wheel_is_made_without_a_library(needs, tmp_path):
    needs(lacking=lacks())
    status, _, err = make_wheel(tmp_path, MERGEJOIN_LIB=str(tmp_path))
    assert status == 1 and "there is no libmergejoin.a: libmergejoin-dev has it" in err


def modules():
    return {f"mergejoin/{it.name}" for it in (SOURCES / "src/mergejoin").iterdir() if it.suffix in (".py", ".pyi", ".typed")}


def test_the_wheel_has_the_modules_and_the_extension(wheel):
    assert list(wheel.parent.iterdir()) == [wheel]
    packed = {name for name in zipfile.ZipFile(wheel).namelist() if ".dist-info/" not in name}
    assert packed == modules() | {"mergejoin/_library.abi3.so"}


def test_the_extension_has_one_name_and_wants_an_old_c_library(wheel, needs, tmp_path):
    needs("nm")
    zipfile.ZipFile(wheel).extract("mergejoin/_library.abi3.so", tmp_path)
    path = tmp_path / "mergejoin/_library.abi3.so"
    assert [line.split()[-1] for line in run(tmp_path, "nm", "-D", "--defined-only", path)[1].splitlines()] == ["PyInit__library"]
    assert max(int(minor) for minor in re.findall(rb"GLIBC_2\.([0-9]+)", path.read_bytes())) <= 17
    assert str(tmp_path.parent).encode() not in path.read_bytes()


def test_the_sources_have_what_makes_the_same_wheel(needs, library, wheel, tmp_path):
    """From sources that were packed by setuptools, elsewhere, with the library that pkg-config knows."""
    needs("pkg-config", lacking=lacks())
    copied(tmp_path)
    words = [PYTHON, "-c", 'from setuptools.build_meta import build_sdist as it; print(it(".."))']
    packed = run(tmp_path / "source", *words)[1].split()[-1]
    how = ["--no-deps", "--no-index", "--no-build-isolation", "--wheel-dir", tmp_path / "made"]
    setting = {"MERGEJOIN_LIB": "", "PKG_CONFIG_PATH": str(TOP / "out/lib/pkgconfig")}
    status, out, err = run(tmp_path, PYTHON, "-m", "pip", "--isolated", "wheel", *how, tmp_path / packed, **setting)
    assert status == 0, out + err
    one, other = (zipfile.ZipFile(path) for path in (wheel, tmp_path / "made" / WHEEL))
    assert {name: one.read(name) for name in modules()} == {name: other.read(name) for name in modules()}


def test_what_is_not_installed_to_make_a_wheel_is_said(needs, tmp_path):
    """Of an environment that has setuptools, and not wheel."""
    needs(lacking=lacks())
    copied(tmp_path)
    assert run(tmp_path, PYTHON, "-m", "venv", "env")[0] == 0
    words = ["-m", "pip", "install", "--no-index", "--no-build-isolation", tmp_path / "source"]
    status, out, err = run(tmp_path, tmp_path / "env/bin/python", *words)
    assert status == 1 and "what makes a wheel is not installed: pip install wheel" in out + err


@pytest.mark.parametrize("path", sorted((SOURCES / "tests").glob("test_*.py")), ids=lambda path: path.stem)
def test_of_the_package(python, path):
    passes(python, path, "-I", "-W", "error")


def test_mypy_has_nothing_to_say(needs, tmp_path):
    needs("mypy")
    status, out, err = run(tmp_path, "mypy", "--config-file", SOURCES / "pyproject.toml", "--cache-dir", "types", SOURCES / "src")
    assert status == 0 and out.startswith("Success") and err == "", out + err


def test_mypy_has_nothing_to_say_of_a_program(needs, python, tmp_path):
    needs("mypy")
    (tmp_path / "example.py").write_text(EXAMPLE)
    status, out, err = run(tmp_path, "mypy", "--strict", "--python-executable", python, "example.py")
    assert status == 0 and out.startswith("Success") and err == "", out + err
