"""What commands, and calls of the library, ask of the heap, and how they end if it refuses."""

import pathlib
import re

from calls import PROGRAM, TOP, counted
from counting import input_of
from inputs_of_work import SIZES, library_rows, rows, sized
from rows import text_of

HERE = pathlib.Path(__file__).resolve().parent
CALLS, WORK, LIBRARY_WORK = (HERE / f"{name}.txt" for name in ("calls", "work", "library_work"))
ARCHIVE, CRATE = TOP / "out/lib/libmergejoin.a", TOP / "crates/allocation_failures"
CALLER = CRATE / "out/allocation_failures"
# What the program takes with no input to speak of.
START = 250_000
ANSWER, WANT, UNPREPARED = "answer", "out of memory", "unprepared"


def kept(path):
    """Gives of each title what is kept of it."""
    lines = [line for line in path.read_text("utf-8").splitlines() if not line.startswith("#")]
    return dict(line.rsplit(": ", 1) for line in lines)


def write_kept(path, found):
    """Writes a file anew, with the head that it has."""
    head = [line for line in path.read_text("utf-8").splitlines() if line.startswith("#")]
    path.write_text("".join(f"{line}\n" for line in [*head, *(f"{title}: {counts}" for title, counts in found.items())]), "utf-8")


# ---- work


def asked_of_command(heap, words, elements):
    """Gives what a command asks of the heap and the streams, and how it ended."""
    ran = heap.run([PROGRAM, *words], text_of(elements).encode(), "REFUSE_NOTHING", 0)
    return f"{ran.requests} {ran.asked} {ran.most} {ran.reads} {ran.writes}", ran


def asked_of_library(heap, driver, export, texts):
    """Gives what a call of the library asks of the heap, with its status, and how it ended."""
    ran = heap.run([driver], input_of(export, texts), "REFUSE_NOTHING", 0)
    return f"{ran.requests} {ran.asked} {ran.most} {ran.ending[0]}", ran


def instructions(words, elements):
    return counted([PROGRAM, *words], text_of(elements))[2] - START


def growths():
    """Gives of each shape its title and its two inputs."""
    for (title, *small), (_, *large) in zip(sized(SIZES[0]), sized(SIZES[1])):
        yield f"{title}, growth", small, large


def growth(small, large):
    """Gives how many times the instructions grow from the one input to the other."""
    return instructions(*large) / instructions(*small)


def work_of_commands(heap):
    found = {title: asked_of_command(heap, words, elements)[0] for title, words, elements in rows()}
    return found | {title: f"{growth(small, large):.2f}" for title, small, large in growths()}


def work_of_library(heap, driver):
    return {title: asked_of_library(heap, driver, export, texts)[0] for title, export, texts in library_rows()}


# ---- allocation failures


def public_calls():
    """Gives the names that the modules of the program know."""
    for path in sorted((CRATE / "src").glob("*.rt")):
        if path.stem != "main":
            yield from (f"{path.stem}::{name}" for name in re.findall(r'^        "(\w+)" => ', path.read_text("utf-8"), re.M))


def takes_memory(call):
    return not call.startswith(("without_memory::", "seeded::takes_memory"))


def ways_of(call):
    """Gives the ways in which requests are refused."""
    return ["REFUSE_AT", "REFUSE_FROM"] if takes_memory(call) else ["REFUSE_FROM"]


def faults_of(ran, number):
    """Gives what is wrong in how a run ended."""
    status, reported, _ = ran.ending
    if ran.requests is None:
        return ["the heap was not there"]
    wrong = [f"{ran.lost} blocks were lost at {number}"] if ran.lost else []
    if status != 0 or reported.split("\n")[0] not in (ANSWER, WANT, UNPREPARED):
        wrong.append(f"request {number} was refused, and it ended with {ran.ending}")
    return wrong


def refused_in_turn(heap, call, how):
    """Has a call made for each N in one way, to the first that is not reached. Gives what each run reported, and what is wrong."""
    reported, wrong = [], []
    for number in range(1, 10_000):
        ran = heap.run([CALLER, call], b"", how, number)
        reported.append(ran.ending[1].split("\n")[0])
        wrong += faults_of(ran, number)
        if reported[-2:-1] not in ([], [UNPREPARED]) and reported[-1] == UNPREPARED:
            wrong.append(f"unprepared at {number}, though the call had begun")
        if wrong or not ran.refused:
            break
    else:
        wrong.append("there was no end")
    if reported[-1] != ANSWER:
        wrong.append(f"nothing was refused, and it reported {reported[-1]!r}")
    return reported, wrong


def watched(heap, call):
    """Has a call made in each way. Gives the numbers of runs as they are kept, and what is wrong."""
    counts, wrong = [], []
    for how in ways_of(call):
        reported, found = refused_in_turn(heap, call, how)
        counts.append(len(reported))
        if takes_memory(call) and WANT not in reported:
            found.append("out of memory was never seen")
        if not takes_memory(call) and set(reported[:-1]) - {UNPREPARED}:
            found.append("it takes memory")
        wrong += [f"{how}: {line}" for line in found]
    return f"{' and '.join(map(str, counts))} runs", wrong
