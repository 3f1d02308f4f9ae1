"""The help lists the subcommands. Whatever has a list of its own has all of them, and so has what times them and what tests them by their
words. (README.md and docs/BEHAVIOUR.md: tests/pages.)
"""

import re

import pytest
from calls import TOP, run

# Where the subcommands are, as a pattern whose group has one or several of them.
PLACES = {
    "bench/jobs.sh": r"\bjob ['\"].*?['\"] \w+ \S+ (\w+)",
    "bench/rust/src/main.rs": r'^        \(\["(\w+)"',
    "bench/sizes.sh": r"^job '(\w+)'",
    "bin/completion.bash": r"1:mergejoin\) words='(.*)'",
    "bin/completion.fish": r"^complete -c mergejoin .* -a (\w+)",
    "bin/completion.zsh": r"1:mergejoin\) first=\((.*)\)",
    "bin/locate": r"^SUBCOMMANDS = \((.*)\)$",
    "bin/unproved.sh": r"=~ \^\((.*)\)\$",
    "docs/COST.md": r"^\| `(\w+)`",
    "tests/allocation/inputs_of_work.py": r'\["(\w+)"',
    "tests/common/vectors.py": r'"(\w+)"',
    **{f"tests/program/test_{name}.py": r'\["(\w+)"' for name in ("allocation_failures", "bounds", "hostile", "sizes", "streams")},
    "tests/scripts/test_locate.py": r'\["(\w+)"',
}


@pytest.fixture(name="subcommands", scope="module")
def subcommands_of_the_help(program):
    return re.findall(r"^  (\w+) ", run([program, "--help"])[1].split("Commands:\n")[1].split("\n\n")[0], re.M)


@pytest.mark.parametrize("place,pattern", PLACES.items(), ids=PLACES)
def test_each_subcommand_is_there(subcommands, place, pattern):
    text = (TOP / place).read_text("utf-8")
    there = {word for found in re.findall(pattern, text, re.M) for word in re.findall(r"\w+", found)}
    assert subcommands and not set(subcommands) - there
