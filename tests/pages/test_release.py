"""The commands of "To release" of CONTRIBUTING.md are run in turn in a scratch repository with the next version, in which the whole check and
bin/package do nothing but what the procedure depends on. What is signed, pushed and packed is then of one commit, which has the version everywhere.
"""

import re
import shutil

import pytest
from calls import TOP, run
from released import PLACES

PAGE = (TOP / "CONTRIBUTING.md").read_text("utf-8").split("\n## To release\n")[1].split("\n## ")[0]
BLOCKS = [re.sub(r"^   ", "", text, flags=re.M) for text in re.findall(r"^   ```console release\n(.*?)^   ```$", PAGE, re.M | re.S)]
COMMANDS = [line.removeprefix("$ ") for block in BLOCKS for line in block.splitlines()]
SCRIPTS = {word for line in COMMANDS for word in line.split()[:1] if "/" in word}
VERSION, CHANGES = "1.20.304", "- A call is new.\n  # It is `one`.\n- Another is gone."
STUBS = {".ci/run": "echo '1 passed, 0 failed'\n",
         "bin/package": '[ "$1" = --sign ] && [ -f "$2" ] && mkdir -p "$3" && echo "# commit $(git rev-parse HEAD)" >"$3/SHA256SUMS"\n'}


@pytest.fixture(name="released", scope="module")
def repositories_after_the_procedure(needs, tmp_path_factory):
    """The directory of the sources, of their clone and of the keys."""
    needs("git", "ssh-keygen")
    directory = tmp_path_factory.mktemp("released")
    top = directory / "sources"
    for file in {"tools/version", ".gitignore", *(file for file, _, _ in PLACES.values())}:
        (top / file).parent.mkdir(parents=True, exist_ok=True)
        shutil.copy2(TOP / file, top / file)
    for file, text in STUBS.items():
        (top / file).parent.mkdir(exist_ok=True)
        (top / file).write_text(f"#!/bin/sh\n{text}")
        (top / file).chmod(0o755)
    (top / "CHANGELOG.md").write_text("# Changes\n\n## 0.0.1 (2025-01-31)\n\n- All is new.\n")
    by = {f"GIT_{who}_{what}": f"release{what == 'EMAIL' and '@localhost' or ''}" for who in ("AUTHOR", "COMMITTER") for what in ("NAME", "EMAIL")}
    setting = {**by, "HOME": str(directory), "GIT_CONFIG_NOSYSTEM": "1", "KEY": str(directory / "key")}
    made = 'ssh-keygen -q -t ed25519 -N "" -f "$KEY" && echo "mergejoin $(cat "$KEY.pub")" >../signers && git init -q . && git add . && git commit -q -m one'
    assert run(made, shell=True, cwd=top, setting=setting) == (0, "", "")
    (top / "CHANGELOG.md").write_text(f"# Changes\n\n## {VERSION} (2027-01-31)\n\n{CHANGES}\n\n## 0.0.1 (2025-01-31)\n\n- All is new.\n")
    status, out, err = run("set -ex\n" + "\n".join(COMMANDS), shell=True, cwd=top, setting=setting)
    assert status == 0, out + err
    return top, directory / "release", out


def asked(directory, *words):
    status, out, err = run(["git", *words], cwd=directory)
    assert status == 0, err
    return out.strip()


def test_each_command_of_the_procedure_is_there():
    assert SCRIPTS == {"tools/version", ".ci/run", "bin/package"} and len(BLOCKS) >= 5
    assert [name for name in SCRIPTS if not (TOP / name).stat().st_mode & 0o100] == []


def test_the_commit_has_the_version_everywhere(released):
    top, clone, _ = released
    assert asked(clone, "log", "-1", "--format=%s") == f"Version {VERSION}" and run([clone / "tools/version"])[0] == 0
    assert asked(top, "status", "--porcelain") == asked(clone, "status", "--porcelain") == ""


def test_the_tag_is_signed_and_has_the_changes(released):
    top, clone, _ = released
    said = asked(clone, "for-each-ref", "--format=%(contents)", f"refs/tags/v{VERSION}")
    assert said.split("-----BEGIN SSH SIGNATURE-----")[0].strip() == CHANGES
    assert asked(top, "rev-parse", f"v{VERSION}^{{commit}}") == asked(clone, "rev-parse", "HEAD")


def test_what_is_packed_is_of_the_tag(released):
    _, clone, out = released
    assert out.endswith(f"\nv{VERSION}\n") and "1 passed, 0 failed\n" in out
    assert (clone / "out/release/SHA256SUMS").read_text() == f"# commit {asked(clone, 'rev-parse', 'HEAD')}\n"
