"""What each command prints, and has resident, of the worst input of the table "What a small input can ask for" of docs/COST.md: no
more than the table's formulas say, and no less than most of it.
"""

import itertools
import re
import subprocess
import sys

import pytest
from calls import TOP

START = 2_200_000  # bytes that are resident of any run
# How much of a formula its worst input has to reach; a formula that promises more than is needed is no news.
MOST = 0.75
# What a process that is small itself does: it runs words within 2 GiB, and reports how many kB were resident of them.
MEASURE = """\
import resource, subprocess, sys
resource.setrlimit(resource.RLIMIT_AS, (2 << 30, 2 << 30))
subprocess.run(sys.argv[1:], stderr=subprocess.STDOUT)
print(resource.getrusage(resource.RUSAGE_CHILDREN).ru_maxrss, file=sys.stderr)
"""
ALPHABET = [chr(code) for code in range(33, 127) if chr(code) not in '"\\~/']


def nested(size):
    """124 nested objects of one member with the empty name."""
    one = '{"":' * 124 + "0" + "}" * 124
    return "[" + ",".join([one] * ((size - 6) // (len(one) + 1))) + "]"


def conflicting(size):
    """Two objects that differ at many names under one of a quarter of the size in tildes."""
    names = [*ALPHABET, *map("".join, itertools.product(ALPHABET, repeat=2))][: (size // 2 - 20) // 14]
    one = '{"' + "~" * (size // 4) + '":{' + ",".join(f'"{name}":0' for name in names) + "}}"
    return one, one.replace(":0", ":1")


def doubling(size):
    copy = '{"op":"copy","from":"/a","path":"/a/-"}'
    return '{"a":[1]}', "[" + ",".join([copy] * (size // (len(copy) + 1))) + "]"


# A row of the table, the words, the texts of the input, and of how many bytes: what grows by a square, or doubles, is large soon.
LARGE, SQUARE = (300_000, 400_000), (70_000, 100_000)
INPUTS = {
    "`get`": (["get", ""], lambda size: [nested(size)], LARGE),
    "`merge`": (["merge"], lambda size: ["5", nested(size)], LARGE),
    "`join`": (["join"], lambda size: [nested(size)], LARGE),
    "`replay`": (["replay"], lambda size: ["5", nested(size)], LARGE),
    "`join` that conflicts": (["join"], conflicting, SQUARE),
    "`replay` that conflicts": (["replay"], lambda size: ["5", *conflicting(size)], SQUARE),
    "`rewrite`": (["rewrite"], conflicting, SQUARE),
    "`patch`": (["patch"], doubling, (640,)),
}


def formula(text):
    """A formula of n, with the signs of the page, or nothing."""
    if not re.fullmatch(r"[n0-9 ^/+()]+", text):
        return None
    code = re.sub(r"([0-9]) n", r"\1 * n", text).replace("^", "**")
    return lambda size: eval(code, {"n": size})


def table():
    """Gives of each row of the table what is printed and what is resident, as functions of the size, or nothing."""
    part = (TOP / "docs/COST.md").read_text("utf-8").split("## What a small input can ask for")[1].split("\n## ")[0]
    return {name: {"prints": formula(prints), "has resident": formula(resident)}
            for name, prints, resident in re.findall(r"^\| (`.*?) \| (.*?) \| (.*?) \|", part, flags=re.M)}


LIMITS = table()


def test_the_table_has_the_rows_and_the_formulas_that_are_measured():
    assert list(LIMITS) == list(INPUTS)
    assert [(row, what) for row in LIMITS for what, limit in LIMITS[row].items() if not limit] == [("`patch`", "has resident")]


@pytest.mark.parametrize("row,size", [(row, size) for row, (*_, sizes) in INPUTS.items() for size in sizes])
def test_a_worst_input_takes_what_its_formula_says(program, tmp_path, row, size):
    words, texts, _ = INPUTS[row]
    (tmp_path / "in").write_text(f"[{','.join(texts(size))}]", "utf-8")
    with open(tmp_path / "in", "rb") as source, open(tmp_path / "out", "wb") as out:
        run = subprocess.run([sys.executable, "-c", MEASURE, program, *words], stdin=source, stdout=out, stderr=subprocess.PIPE, check=True)
    length = (tmp_path / "in").stat().st_size
    seen = {"prints": (tmp_path / "out").stat().st_size, "has resident": int(run.stderr) * 1024 - START}
    for what, limit in LIMITS[row].items():
        if limit:
            fault = f"{row} {what} {seen[what]:,} bytes for {length:,}, and its formula is {limit(length):,.0f}"
            assert MOST * limit(length) <= seen[what] <= limit(length), fault
