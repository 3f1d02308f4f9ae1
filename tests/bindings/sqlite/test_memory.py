"""A program in C has the extension for SQLite. Each allocation of its statements is refused in turn, by SQLite's allocator or by the library's,
which are one: a statement gives what it gives else, or says that memory ran out, and nothing is left of it. valgrind has nothing to say
of them, also if they are given up on the way.
"""

import re

import pytest
from calls import TOP, run as ran

VALUES = "(VALUES (1, '{\"a\":{\"b\":1}}'), (2, '{\"a\":{\"c\":null}}'), (3, NULL), (4, '{\"d\":[1]}'), (5, '{\"a\":{\"b\":1}}'))"
MORE = "(VALUES ('{\"a\":1}'), ('{\"b\":2}'), ('{\"a\":3}'))"
LONG = "(SELECT json_object('k' || value, hex(zeroblob(200))) AS patch FROM json_each('[1,2,3,4]'))"
FRAME = "(ORDER BY column1 ROWS 1 PRECEDING)"
# Each call, with a result and with errors, and each aggregate: of a group, and of frames that grow and that move.
STATEMENTS = [
    "SELECT mergejoin_join('{\"a\":1}', x'7b7d', '{\"b\":[1,2]}')",
    "SELECT mergejoin_replay('{\"a\":0}', '{\"a\":{\"b\":null}}'), mergejoin_merge('{}', 1, '{\"c\":\"x\"}')",
    "SELECT mergejoin_rewrite('{\"a\":1}', '{\"a\":null,\"b\":2}'), mergejoin_patch('{}', '[{\"op\":\"add\",\"path\":\"/a\",\"value\":1}]')",
    "SELECT mergejoin_get('{\"a\":[7]}', '/a/0'), mergejoin_get('1', '/a'), mergejoin_is_patch('{'), mergejoin_is_patch(4)",
    "SELECT mergejoin_is_patch(zeroblob(40)), mergejoin_join(12345678901)",
    "SELECT mergejoin_join('{\"a\":1}', '{\"a\":2}')",
    "SELECT mergejoin_join('{\"a\\n\":1.5}')",
    "SELECT mergejoin_patch('1', '[{\"op\":\"test\",\"path\":\"\",\"value\":2}]')",
    "SELECT mergejoin_get('1', 'a')",
    f"SELECT mergejoin_agg(column2), mergejoin_try_agg(column2), mergejoin_conflict_agg(column2) FROM {VALUES}",
    f"SELECT mergejoin_try_agg(column1), mergejoin_conflict_agg(column1) FROM {MORE}",
    f"SELECT mergejoin_agg(column1) FROM {MORE}",
    "SELECT mergejoin_agg(column1) FROM (VALUES ('{\"a\":1}'), ('['), ('1'))",
    f"SELECT mergejoin_agg(column2) OVER (ORDER BY column1), mergejoin_conflict_agg(column2) OVER {FRAME} FROM {VALUES}",
    f"SELECT mergejoin_agg(column2) OVER {FRAME}, mergejoin_try_agg(column1) OVER {FRAME} FROM {VALUES}",
    f"SELECT length(mergejoin_agg(patch)) FROM {LONG}",
    f"SELECT length(mergejoin_agg(patch) OVER (ROWS 2 PRECEDING)) FROM {LONG}",
]
OUT_OF_MEMORY = "! 7 out of memory"


@pytest.fixture(name="driver", scope="module")
def program_that_loads_the_extension(extension):
    program = extension.parent / "driver"
    source = TOP / "tests/bindings/sqlite/driver.c"
    assert ran(["cc", "-std=gnu11", "-O1", "-g", "-Wall", "-Wextra", "-o", program, source, "-lsqlite3"]) == (0, "", "")
    return [program, extension]


def given(statements):
    """Gives the lines of statements, before each of which an empty text is printed."""
    return "".join(f"SELECT ''\n{it}\n" for it in statements).encode()


def is_right(printed, wanted):
    """What is wanted is printed, or the beginning of it and that memory ran out. If SQLite has no memory for the words of an error, it still
    has its code."""
    lines, whole = printed.splitlines(), wanted.splitlines()
    code = whole[-1].split()[:2]
    is_error = lines[-1:] == [OUT_OF_MEMORY] or code[0] == "!" and lines[-1].split()[:2] == code
    return lines == whole or is_error and lines[:-1] == whole[: len(lines) - 1]


@pytest.mark.parametrize("statement", STATEMENTS)
def test_each_allocation_is_refused_in_turn(heap, driver, statement):
    text = f"{statement}\n".encode()
    base, whole = (heap.run(driver, it, "REFUSE_NONE", 0) for it in (b"", text))
    assert whole.ending[0] == 0 and whole.ending[2] == "" and whole.requests > base.requests and whole.lost == base.lost
    refused = 0
    for number in range(base.requests + 1, whole.requests + 1):
        one = heap.run(driver, text, "REFUSE_AT", number)
        assert one.ending[0] == 0 and is_right(one.ending[1], whole.ending[1]) and one.lost == base.lost, (number, one.ending)
        refused += OUT_OF_MEMORY in one.ending[1]
    assert refused > 3


@pytest.mark.parametrize("rows", ["", "1", "2"])
def test_valgrind_has_nothing_to_say(valgrind, driver, rows):
    """Nor if each statement is given up after so many rows."""
    words = ["valgrind", "-q", "--error-exitcode=9", "--leak-check=full", "--errors-for-leak-kinds=definite,possible", *driver, *rows.split()]
    status, out, err = ran(words, given(STATEMENTS), limit=300)
    assert (status, err) == (0, "") and len(re.findall("^= $", out, re.M)) == len(STATEMENTS)
