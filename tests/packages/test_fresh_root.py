"""Each console block of docs/INSTALL.md is run word by word in a fresh root of the distribution, by the user for whom it is and with the files that
it names, as bin/package makes and signs them. Each command has to succeed, and to print what the page shows. The page names each file that
bin/package makes, and no other.
"""

import pathlib
import re
import tempfile

import calls
import fresh_root
import pytest
from calls import TOP
from making import LIMIT

PAGE = (TOP / "docs/INSTALL.md").read_text("utf-8")
PARTS = list(fresh_root.blocks(PAGE))
STEPS = [pytest.param(number, step, id=f"{number}-{step} {part.steps[step].command.splitlines()[0]}")
         for number, part in enumerate(PARTS) if isinstance(part, fresh_root.Block) for step in range(len(part.steps))]
pytestmark = pytest.mark.slow
# What prints how it goes on, which differs from machine to machine.
IS_LONG = re.compile(r"(?:apt-get|\w+/bin/pip) ")


@pytest.fixture(name="packages", scope="module")
def directory_of_signed_packages(program, library, needs, tmp_path_factory):
    """With the file of the one who signs, which a user has from elsewhere."""
    needs("dpkg-deb", "ssh-keygen", "cargo")
    directory = tmp_path_factory.mktemp("signed")
    key, made = directory / "key", directory / "made"
    assert calls.run(["ssh-keygen", "-q", "-t", "ed25519", "-N", "", "-f", key]) == (0, "", "")
    status, _, err = calls.run([TOP / "bin/package", "--sign", key, made], limit=LIMIT)
    assert (status, err) == (0, "")
    (made / "signers").write_text(f"mergejoin {key.with_suffix('.pub').read_text()}")
    return made


@pytest.fixture(name="root", scope="session")
def fresh_root_of_the_distribution(needs):
    if reason := fresh_root.lacking():
        pytest.skip(reason)
    needs("debootstrap")
    with tempfile.TemporaryDirectory() as directory:
        root = pathlib.Path(directory) / "root"
        fresh_root.make(root)
        yield root
        assert calls.run(["rm", "-rf", root], limit=300) == (0, "", "")


@pytest.fixture(name="printed", scope="module")
def what_each_step_ended_with(packages, root):
    return fresh_root.run(root, PARTS, packages)


def pattern(shown):
    """Gives a pattern for what a page shows, of which '..' at the end of a line is anything."""
    parts = ((line.removesuffix(".."), ".*" if line.endswith("..") else "") for line in shown.splitlines())
    return "".join(f"{re.escape(text)}{rest}\n" for text, rest in parts)


@pytest.mark.parametrize("number,step", STEPS)
def test_a_step_prints_what_the_page_shows(printed, number, step):
    status, text = printed[number][step]
    assert status == 0, text[-3000:]
    command, shown = PARTS[number].steps[step]
    assert IS_LONG.match(command) or re.fullmatch(pattern(shown), text), text


def test_the_page_names_each_file_that_is_made_and_no_other(packages):
    named = {name for name in re.findall(r"[\w.-]+\.(?:deb|whl|crate|tar\.gz)\b", PAGE) if not re.search("arm64|aarch64", name)}
    assert named == {path.name for path in packages.iterdir()} - {"SHA256SUMS", "SHA256SUMS.sig", "signers"}


@pytest.mark.parametrize("shown,printed,is_shown", [
    ("key ..\n1\n", "key SHA256:a+/\n1\n", True), ("key ..\n", "kez SHA256\n", False), ("a.b\n", "a.b\n", True), ("a.b\n", "aab\n", False),
    ("", "", True), ("", "1\n", False), ("1\n", "1\n2\n", False),
])
def test_what_is_shown_is_what_is_printed_but_for_two_dots(shown, printed, is_shown):
    assert bool(re.fullmatch(pattern(shown), printed)) == is_shown


def test_each_block_of_the_page_is_run():
    kinds = re.findall(r"^```(\S.*)$", PAGE, re.M)
    assert {kind for kind in kinds if kind.startswith("console")} == {"console fresh-root"} and len(PARTS) == len(kinds)
