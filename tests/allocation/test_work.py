"""The work of each command, and of each call of the library for C, is what is kept: the requests to the heap, the bytes that were asked
for, the most that was alive at once, and the reads and writes of the program.

These repeat from run to run, and are compared exactly: a change there is to be read, and says why in its commit. A body that keeps each
value and only works more (a second copy of a document, an answer made twice, a large buffer, a read for each byte) shows. A block that is
not given back is reported, and so is an answer of out of memory, since no request is refused here: also if it comes at one count alone.
Of inputs of two sizes the instructions may not grow more than is kept (a walk for each earlier patch, say).
"""

import pytest
from inputs_of_work import library_rows, rows
from measuring import LIBRARY_WORK, WORK, asked_of_command, asked_of_library, growth, growths, kept

OF_COMMANDS, OF_LIBRARY = kept(WORK), kept(LIBRARY_WORK)
COMMANDS, CALLS, GROWTHS = list(rows()), list(library_rows()), list(growths())
# The statuses of an answer: of the program, and of the library, whose next one is out of memory.
ANSWERED, LIBRARY_ANSWERED = range(3), range(9)
# By how much a growth may be more than the one that is kept: the surroundings of a program move its instructions.
MORE = 0.2


def titles(cases):
    return [title for title, *_ in cases]


def ended_with_an_answer(ran, answers):
    assert ran.ending[0] in answers, f"status {ran.ending[0]}, {ran.ending[2].strip() or 'which is no answer'}"
    assert ran.lost == 0, f"{ran.lost} blocks were never given back"


@pytest.mark.parametrize("title,words,elements", COMMANDS, ids=titles(COMMANDS))
def test_a_command_asks_for_what_is_kept(program, heap, title, words, elements):
    asked, ran = asked_of_command(heap, words, elements)
    ended_with_an_answer(ran, ANSWERED)
    assert asked == OF_COMMANDS.get(title)


@pytest.mark.parametrize("title,export,texts", CALLS, ids=titles(CALLS))
def test_a_call_of_the_library_asks_for_what_is_kept(driver, heap, title, export, texts):
    asked, ran = asked_of_library(heap, driver, export, texts)
    ended_with_an_answer(ran, LIBRARY_ANSWERED)
    assert asked == OF_LIBRARY.get(title)


@pytest.mark.parametrize("title,small,large", GROWTHS, ids=titles(GROWTHS))
def test_instructions_grow_no_more_than_is_kept(program, valgrind, title, small, large):
    assert growth(small, large) <= float(OF_COMMANDS[title]) + MORE


def test_what_is_kept_is_looked_at():
    assert list(OF_COMMANDS) == titles(COMMANDS) + titles(GROWTHS)
    assert list(OF_LIBRARY) == titles(CALLS)
