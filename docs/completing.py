#!/usr/bin/env python3
"""Prints the completions of bin/, for a shell: of all commands by one table, with the subcommands that the help of the program lists.

    docs/completing.py bash >bin/completion.bash
    docs/completing.py zsh >bin/completion.zsh
    docs/completing.py fish >bin/completion.fish

The program is the proved one, out/mergejoin. tests/packages/test_completion.py prints them again and compares.
"""

import pathlib
import re
import subprocess
import sys
from typing import NamedTuple

TOP = pathlib.Path(__file__).resolve().parent.parent
# What each option does.
OPTIONS = {"--help": "Print help", "--version": "Print the version", "--lines": "Each line of a file has one JSON text"}


class Command(NamedTuple):
    """A command: its options, whether its first argument may be a subcommand, and whether it takes files."""

    name: str
    options: str
    has_subcommands: bool
    has_files: bool

    def first(self, subcommands):
        """The words that the first argument may be."""
        return f"{self.options} {' '.join(subcommands)}" if self.has_subcommands else self.options


COMMANDS = [
    Command("mergejoin", "--help", True, False),
    Command("mergejoin-feed", "--help --version --lines", False, True),
    Command("mergejoin-conflicts", "--help --version", False, True),
    Command("mergejoin-locate", "--help --version", True, True),
]
HEAD = """\
# Completion for {}, which docs/completing.py prints. bin/install puts it where the shell looks for it; else {}.
"""
BASH = """\
# shellcheck shell=bash
{head}_mergejoin() {{
  local word=${{COMP_WORDS[COMP_CWORD]}} words=
  case $COMP_CWORD:${{COMP_WORDS[0]##*/}} in
{cases}  esac
  # (of a command that takes files, an option is wanted where one was begun)
  mapfile -t COMPREPLY < <(compgen -W "$words" -- "$word")
}}

{completes}"""
ZSH = """\
#compdef {names}
{head}_mergejoin() {{
  local -a first
  case $((CURRENT - 1)):$service in
{cases}  esac
  compadd -a first
}}

_mergejoin "$@"
"""


def subcommands():
    """What the help of the program lists: each subcommand, and what it does."""
    said = subprocess.run([TOP / "out/mergejoin", "--help"], capture_output=True, check=True).stdout.decode()
    return dict(re.findall(r"^  (\w+) +(.*)$", said.split("Commands:\n")[1].split("\n\n")[0], re.M))


def bash(words):
    """An empty list is what bash fills with files."""
    cases = []
    for command in COMMANDS:
        needs = "" if command.has_subcommands else "[[ $word != -* ]] || "
        cases.append(f"  1:{command.name}) {needs}words='{command.first(words)}' ;;\n")
    cases.append("  *:mergejoin) words=--help ;;\n")
    completes = "".join(f"complete {'-o default ' if command.has_files else ''}-F _mergejoin {command.name}\n" for command in COMMANDS)
    return BASH.format(head=HEAD.format("bash", "say . bin/completion.bash"), cases="".join(cases), completes=completes)


def zsh(words):
    cases = []
    for command in COMMANDS:
        files = "" if command.has_subcommands else "_files; "
        cases.append(f"  1:{command.name}) {files}first=({command.first(words)}) ;;\n")
    cases += ["  *:mergejoin) first=(--help) ;;\n", "  *) _files ;;\n"]
    return ZSH.format(names=" ".join(command.name for command in COMMANDS), head=HEAD.format("zsh", "it is _mergejoin in a directory of fpath"), cases="".join(cases))


def fish(words):
    lines = [HEAD.format("fish", "say . bin/completion.fish")]
    for name, options, has_subcommands, has_files in COMMANDS:
        first = f"complete -c {name} -n __fish_is_first_token"
        if not has_files:
            lines.append(f"complete -c {name} -f\n")
        lines += [f"{first} -l {option[2:]} -d '{OPTIONS[option]}'\n" for option in options.split()]
        if has_subcommands:
            lines += [f"{first} -f -a {word} -d '{does}'\n" for word, does in words.items()]
    return "".join(lines)


if __name__ == "__main__":
    sys.stdout.write({"bash": bash, "zsh": zsh, "fish": fish}[sys.argv[1]](subcommands()))
