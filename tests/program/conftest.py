"""How runs of the program end."""

import pytest


@pytest.fixture(name="answers")
def what_compares_an_answer(program, run):
    """Runs the program, which has to print a line and nothing else, on the stream of its status."""
    def answers(words, given, line, status=0):
        wanted = (0, f"{line}\n", "") if status == 0 else (status, "", f"{line}\n")
        assert run([program, *words], given) == wanted

    return answers
