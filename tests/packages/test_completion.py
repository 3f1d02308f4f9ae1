"""The completions are those that docs/completing.py prints, and each shell completes by them what the table there says, with the
subcommands of the help.
"""

import re

import pytest
from calls import TOP

SHELLS = ("bash", "zsh", "fish")
# A line of each shell that prints what it would complete a command by, of which the words are, and the last is begun.
LINES = {
    "bash": f'. {TOP}/bin/completion.bash; COMP_WORDS=("$@") COMP_CWORD=$(($# - 1)); '
            '$(complete -p $1 | sed "s/.*-F \\([a-z_]*\\).*/\\1/"); printf "%s\\n" "${COMPREPLY[@]}"',
    "zsh": 'compadd() { print -l -- ${(M)${(P)2}:#$last*} }; _files() { print -l -- ${last}*(N) }; '
           f'complete() {{ local service=$1 CURRENT=$# last=${{@[-1]}}; source {TOP}/bin/completion.zsh }}; complete "$@"',
    "fish": f'source {TOP}/bin/completion.fish; complete -C "$argv" | string replace -r "\t.*" ""; true',
}
# What is completed, and by what: FILES are those of the directory.
CASES = [
    (["mergejoin", ""], "--help SUBCOMMANDS"),
    (["mergejoin", "re"], "replay rewrite"),
    (["mergejoin", "x"], ""),
    (["mergejoin-locate", "me"], "merge"),
    (["mergejoin-locate", "get", ""], "FILES"),
    (["mergejoin-feed", "--"], "--help --lines --version"),
    (["mergejoin-feed", "fi"], "FILES"),
    (["mergejoin-conflicts", "--v"], "--version"),
    (["mergejoin-conflicts", "first", "fi"], "FILES"),
]


@pytest.fixture(name="directory")
def directory_with_a_file(tmp_path):
    (tmp_path / "first").touch()
    return tmp_path


@pytest.mark.parametrize("shell", SHELLS)
def test_a_completion_is_printed_by_the_table(program, run, shell):
    assert run([TOP / "docs/completing.py", shell]) == (0, (TOP / f"bin/completion.{shell}").read_text(), "")


@pytest.mark.parametrize("words,wanted", CASES, ids=repr)
@pytest.mark.parametrize("shell", SHELLS)
def test_a_shell_completes_by_it(needs, program, run, directory, shell, words, wanted):
    needs(shell)
    names = re.findall(r"^  (\w+)", run([program, "--help"])[1].split("Commands:\n")[1].split("\n\n")[0], re.M)
    status, out, err = run({"bash": ["bash", "-c", LINES["bash"], "sh"], "zsh": ["zsh", "-fc", LINES["zsh"], "sh"],
                            "fish": ["fish", "--no-config", "-c", LINES["fish"]]}[shell] + words, cwd=directory, setting={"HOME": str(directory)})
    # (bash itself fills in files, and fish shows an option once one is begun)
    for word, instead in ("SUBCOMMANDS", " ".join(names)), ("FILES", "" if shell == "bash" else "first"):
        wanted = wanted.replace(word, instead)
    if shell == "fish" and not words[-1]:
        wanted = wanted.replace("--help ", "")
    assert (status, sorted(out.split()), err) == (0, sorted(wanted.split()), "")
