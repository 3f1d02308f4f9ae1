"""bin/mergejoin as people call it: by sh, through a link, from another directory, with CDPATH set, with standard error closed, by two
at once. In a copy in which nothing is proved, it gives the answer of rt try, without its two lines, to all of standard input, and a
signal stops it.
"""

import os
import shutil
import signal
import subprocess
import time

import pytest
from calls import TOP
from copies import UNPROVED, tried

GIVEN, ANSWER = '[{"a":1},{"b":2}]', (0, '{"a":1,"b":2}\n', "")
SCRIPT = TOP / "bin/mergejoin"
# The words, the directory if it is not one of the test, and a variable if one is set.
WAYS = {
    "by its path": (["bin/mergejoin", "merge"], TOP, {}),
    "by sh": (["sh", "bin/mergejoin", "merge"], TOP, {}),
    "by bash, in its directory": (["bash", "mergejoin", "merge"], TOP / "bin", {}),
    "through a link": (["PLACE/linked", "merge"], TOP, {}),
    "from elsewhere": ([SCRIPT, "merge"], None, {}),
    "from elsewhere, through a link": (["./linked", "merge"], None, {}),
    "by the PATH": (["mergejoin", "merge"], None, {"PATH": f"{TOP / 'bin'}:{os.environ['PATH']}"}),
    "with CDPATH": (["bin/mergejoin", "merge"], TOP, {"CDPATH": f".:{TOP}:/"}),
    "with standard error closed": (["bash", "-c", f"{SCRIPT} merge 2>&-"], None, {}),
}
NO_TOOLCHAIN = {"PATH": "/usr/bin:/bin"}


@pytest.mark.parametrize("words,directory,setting", WAYS.values(), ids=WAYS)
def test_the_proved_program_answers(program, run, tmp_path, words, directory, setting):
    (tmp_path / "linked").symlink_to(SCRIPT)
    words = [str(word).replace("PLACE", str(tmp_path)) for word in words]
    assert run(words, GIVEN, cwd=directory or tmp_path, setting=setting) == ANSWER


def test_two_calls_at_once_are_answered(program, run):
    both = f"echo '{GIVEN}' | {SCRIPT} merge & echo '{GIVEN}' | {SCRIPT} merge; wait"
    assert run(both, shell=True) == (0, ANSWER[1] * 2, "")


def test_the_proved_program_refuses(program, run):
    assert run([SCRIPT, "join"], "[1,2]") == (1, "", 'conflict: patches 0 and 1 at ""\n')


@pytest.mark.parametrize("words", [["merge"], ["join", "a  b", "*", "--"], ["patch", "\n"], ["replay", "--steps"]], ids=repr)
def test_an_unproved_answer_has_all_words_and_the_input(copy, words):
    assert copy.run(["bin/mergejoin", *words], given=GIVEN) == (0, tried(words, GIVEN.encode()), UNPROVED)
    assert sorted(os.listdir(copy.top)) == ["bin", "crates", "crates.txt"]


def test_an_unproved_refusal(copy):
    refused = (1, tried(["get", ""], b"5"), UNPROVED + "missing\nrun=ended status=0 proved=no\n")
    assert copy.run(["bin/mergejoin", "get", ""], given="5") == refused


@pytest.mark.parametrize("words", [["--help"], ["merge", "--help"], ["join", "-h"], ["frob"]], ids=repr)
def test_words_that_ask_for_no_answer_read_nothing(copy, words):
    assert copy.run(["bin/mergejoin", *words], given=GIVEN) == (0, tried(words), UNPROVED)


@pytest.mark.parametrize("size,read", [(1_048_576, 1_048_576), (3_000_000, 1_048_577)])
def test_a_long_input_is_read_up_to_one_byte_too_many(copy, size, read):
    assert copy.run(["bin/mergejoin", "merge"], given="x" * size) == (0, tried(["merge"], b"x" * read), UNPROVED)


def test_an_unproved_answer_with_cdpath(copy):
    assert copy.run(["bin/mergejoin", "join"], {"CDPATH": f".:{copy.top}"}, cwd=copy.top) == (0, tried(["join"]), UNPROVED)


@pytest.mark.parametrize("name", ["workspace", "nowhere", "a copy"])
def test_an_unproved_answer_with_an_odd_directory_for_temporary_files(copy, name):
    assert copy.run(["bin/mergejoin", "join"], {"TMPDIR": name}) == (0, tried(["join"]), UNPROVED)
    assert sorted(os.listdir(copy.top)) == ["bin", "crates", "crates.txt"]


def test_what_rt_refuses_is_no_answer(copy):
    says = "mergejoin: the sources gave no answer: rt try ended with status 2, and said:\nerror: no such thing\nrun=none proved=no\n"
    assert copy.run(["bin/mergejoin", "join"], {"REFUSES": "no such thing"}) == (125, "", UNPROVED + says)


@pytest.mark.parametrize("words", [["bin/mergejoin", "join"], ["bin/prove"]], ids=" ".join)
def test_no_toolchain(copy, words):
    assert copy.run(words, NO_TOOLCHAIN) == (125, "", "mergejoin: the Rattle toolchain's command rt is not on the PATH\n")


@pytest.mark.parametrize("words,to", [(["bin/mergejoin", "join"], "run"), (["bin/prove"], "prove")])
def test_no_crates(copy, words, to):
    shutil.rmtree(copy.top / "crates")
    assert copy.run(words) == (125, "", f"mergejoin: TOP has no crates to {to}\n")


@pytest.mark.parametrize("line,ended", [
    ("(printf '[1,'; sleep 3; printf '2]') | \"$0\" merge", (0, tried(["merge"], b"[1,2]"), UNPROVED)),
    ('"$0" merge <&-', (3, "", UNPROVED + "read failed\n")),
    ('"$0" merge >/dev/full </dev/null', (3, "", UNPROVED + "write failed\n")),
    ('"$0" merge 2>&- </dev/null', (0, tried(["merge"]), "")),
], ids=["slow standard input", "closed standard input", "full standard output", "closed standard error"])
def test_an_unproved_answer_with_odd_streams(copy, line, ended):
    assert copy.run(line) == ended


def begun(copy, source, **setting):
    """Begins a call, by which no signal is ignored though it may be ignored here."""
    words = ["env", "--default-signal=INT,HUP", copy.top / "bin/mergejoin", "merge"]
    environment = {**os.environ, **copy.setting, **setting}
    return subprocess.Popen(words, env=environment, stdin=source, stdout=subprocess.PIPE, stderr=subprocess.DEVNULL)


@pytest.mark.parametrize("number", [signal.SIGTERM, signal.SIGINT, signal.SIGHUP], ids=lambda number: number.name)
def test_a_signal_stops_the_call_and_what_it_runs(copy, number):
    slow = copy.directory / "slow"
    with begun(copy, subprocess.DEVNULL, SLOW=str(slow)) as run:
        for _ in range(200):
            if slow.exists():
                break
            time.sleep(0.05)
        run.send_signal(number)
        assert (run.wait(timeout=20), run.communicate()[0]) == (-number, b"")
    assert not slow.exists()


def test_a_signal_stops_the_call_before_standard_input_has_ended(copy):
    with begun(copy, subprocess.PIPE) as run:
        time.sleep(0.5)
        run.send_signal(signal.SIGTERM)
        assert run.wait(timeout=20) == -signal.SIGTERM
