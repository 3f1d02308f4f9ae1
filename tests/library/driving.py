"""Runs driver.c, which makes calls as a script says, gives their replies, and compares them."""

import itertools
import json
import os
import pathlib
import re
import subprocess
import typing

from calls import TOP
from rows import whole_of

HERE = pathlib.Path(__file__).resolve().parent
HEADER, LIBRARIES = TOP / "out/include/mergejoin.h", TOP / "out/lib"
STATIC, SHARED = LIBRARIES / "libmergejoin.a", LIBRARIES / "libmergejoin.so.2"
WARNINGS = ["-Wall", "-Wextra", "-Wpedantic", "-Wconversion", "-Wshadow", "-Werror"]
WRAPPED = ["-Wl,--wrap=malloc,--wrap=realloc,--wrap=free", "-pthread"]
MEMCHECK = ["valgrind", "-q", "--error-exitcode=9", "--leak-check=full", "--show-leak-kinds=all", "--errors-for-leak-kinds=all"]
RESULT, CONFLICT, NO_PATCHES, REFUSED, MISSING, DOCUMENT, PATCH = range(7)
POINTER, NO_MEMORY, PENDING, TOO_LARGE, NOT_STARTED = range(8, 13)
MORE, SIZE_MAX = 1, 2**64 - 1


class Reply(typing.NamedTuple):
    name: str
    status: int
    first: int
    second: int
    total: int
    flags: int
    length: int
    places: int
    refusals: int
    stack: int
    block: int
    intact: str
    text: str

    def said(self):
        """The status, the numbers, after them the flags if they are not 0, and the text."""
        return [self.status, self.first, self.second, self.total, *([self.flags] if self.flags else []), self.text]

    def whole(self):
        """The same, the length of the text, and how many bytes of it are places."""
        return self.said(), self.length, self.places


class Heap(typing.NamedTuple):
    """The blocks and the bytes that were not given back, the most bytes since it was asked before, the most memory in kB, and what is in use
    by mallinfo2.
    """

    blocks: int
    held: int
    peak: int
    resident: int
    in_use: int


def run(words, setting=None, given=""):
    """Runs words, which have to end well, and gives what they print."""
    done = subprocess.run([*map(str, words)], input=given, capture_output=True, encoding="utf-8", errors="surrogateescape",
                          timeout=600, check=False, env={**os.environ, **(setting or {})})
    assert done.returncode == 0, f"status {done.returncode}\n{done.stdout[-2000:]}{done.stderr[-5000:]}"
    return done.stdout


def compiled(directory, source, *more, compiler=("gcc", "-std=gnu11", "-O1")):
    """Builds a program of tests/library with the static library, and gives its path."""
    program = directory / pathlib.Path(source).stem
    words = [*compiler, *WARNINGS, f"-I{HEADER.parent}", f"-I{directory}", source, "-x", "none", STATIC, *more, "-o", program]
    subprocess.run(words, check=True)
    return program


def call(name, number=0, text=b"", other=0, numbers=()):
    """A line of the script. A text is a document, or bytes as they are."""
    return " ".join([name, str(number), str(other), *(f"#{it}" for it in numbers), f"x{bytes_of(text).hex()}"])


def call_of(export, texts):
    """So is this, of one of the six calls that keep nothing."""
    return " ".join([f"{export}_of 0 0", *(f"x{bytes_of(text).hex()}" for text in texts)])


def bytes_of(text):
    return text if isinstance(text, bytes) else written(text).encode()


def written(document):
    """The text of a document as the library writes it."""
    return json.dumps(document, ensure_ascii=False, separators=(",", ":"), sort_keys=True)


def script_of(lines):
    return "".join(f"{line}\n" for line in lines)


def replies(words, lines):
    """Runs the driver by words on the lines of a script. Gives the reply of each call, and the heap at each line that asks."""
    found, heaps = [], []
    for line in run(words, {"LC_ALL": "C"}, script_of(lines)).split("\n")[:-1]:
        if line.startswith("heap "):
            heaps.append(Heap(*map(int, line.split()[1:])))
            continue
        name, *numbers, intact, text = re.fullmatch(r"(\w+)" + r" (\d+)" * 10 + r" (\w+) (.*)", line).groups()
        found.append(Reply(name, *map(int, numbers), intact, text))
    assert all(it.intact == "intact" for it in found), next(it for it in found if it.intact != "intact")
    return found, heaps


def each(words, scripts):
    """Runs scripts one after another, each of which begins with nothing and leaves nothing, and gives the replies of each."""
    scripts = list(scripts)
    found, left = replies(words, [line for script in scripts for line in [*PLAIN, *script, *FREED, "heap"]])
    assert not any(heap.blocks for heap in left), next(script for script, heap in zip(scripts, left) if heap.blocks)
    made, place = [], 0
    for script in scripts:
        size = sum(line.split()[0] not in ("capacity", "limit", "refuse") for line in script)
        made.append(found[place:place + size])
        place += size + len(FREED)
    assert place == len(found)
    return made


def last(words, scripts):
    """The reply of the last call of each script."""
    return [found[-1] for found in each(words, scripts)]


# The calls whose conflicts are those of patches with numbers.
NUMBERED = ("join_of", "replay_of", "log_decide")


def whole(line, wanted):
    """Gives what Reply.whole gives of a call that says what is wanted: the status, the numbers, the flags if they are not 0, and what is said,
    as rows.py has it."""
    *numbers, text = wanted
    status, first, second, total, *flags = numbers
    is_numbered = line.startswith(NUMBERED)
    text, places = whole_of(status, first, second, text, total, bool(flags), None if is_numbered else "two patches")
    return [*numbers, text], len(text.encode()), places


def compare(words, rows):
    """Each row is replied to as it says: the lines before, the call, and what its reply says."""
    rows = list(rows)
    found = last(words, ([*before, line] for before, line, *_ in rows))
    for (_, line, *wanted), reply in zip(rows, found):
        assert reply.whole() == whole(line, wanted), (line, reply)
    return found


def size_of(row):
    """How many bytes the text of a row has."""
    _, line, *wanted = row
    return whole(line, wanted)[1]


def compare_in_buffers(words, rows, sizes=lambda length: range(length + 3)):
    """So it is in buffers of these sizes, of which each has the beginning of the text, as far as it goes."""
    tried = [(capacity, row) for row in rows for capacity in sizes(size_of(row))]
    found = last(words, ([*before, f"capacity {capacity}", line] for capacity, (before, line, *_) in tried))
    for (capacity, (_, line, *wanted)), reply in zip(tried, found):
        (*numbers, text), *sizes_of_it = whole(line, wanted)
        cut = text.encode()[:capacity].decode(errors="surrogateescape")
        assert reply.whole() == ([*numbers, cut], *sizes_of_it), (line, capacity, reply)
    print(f"{len(found)} calls in buffers")


def nested(levels, inner, around):
    """A value with so many levels around it."""
    for _ in range(levels):
        inner = around(inner)
    return inner


def weight(document):
    """What a document weighs, as the header says it."""
    if isinstance(document, str):
        return 80 + len(document.encode())
    if isinstance(document, list):
        return 80 + sum(map(weight, document))
    if isinstance(document, dict):
        return 1000 + sum(128 + len(name.encode()) + weight(value) for name, value in document.items())
    return 40


def weight_of(place):
    """What a place weighs, as the header says it."""
    return 128 + 8 * place.count("/") + len(place.encode())


def within(limit, wanted, weight=lambda place: 0):
    """Gives what is said within a limit, of what is said without one: of a conflict as many of the first places as weigh at most
    the limit together and make no longer an array, or none."""
    status, *numbers, text = wanted
    if status == RESULT and limit < len(text.encode()):
        return [TOO_LARGE, 0, 0, 0, ""]
    if status == CONFLICT:
        places = json.loads(text)
        firsts = (places[:count] for count in range(len(places) + 1))
        arrays = (written(first) for first in firsts if sum(map(weight, first)) <= limit)
        text = max(("[]", *(it for it in arrays if len(it.encode()) <= limit)), key=len)
    return [status, *numbers, text]


def pairs_within(limit, wanted):
    """Gives the same of the pairs of a log that conflict: as many of the first as weigh at most the limit, each 64 and its places, of which
    the last may have the first alone; and of these as many as make no longer a text."""
    *numbers, text = wanted
    left, listed, more = limit, [], False
    for pair in json.loads(text):
        count = count_within(left - PAIR_WEIGHT, map(weight_of, pair["places"]))
        more = count < len(pair["places"])
        if left < PAIR_WEIGHT:
            break
        listed.append(pair | {"places": pair["places"][:count]})
        left -= PAIR_WEIGHT + sum(map(weight_of, pair["places"][:count]))
        if more:
            break
    texts = [json.dumps(listed[:count], ensure_ascii=False, separators=(",", ":")) for count in range(len(listed) + 1)]
    text = max((it for it in texts if len(it.encode()) <= limit), key=len, default=None)
    if text is None:
        return [TOO_LARGE, 0, 0, 0, ""]
    return [*numbers, *([MORE] if more or text != texts[-1] else []), text]


def count_within(limit, weights):
    """How many of the first weights are at most the limit together."""
    return sum(total <= limit for total in itertools.accumulate(weights))


# What a pair weighs beside its places.
PAIR_WEIGHT = 64
# What a script begins with, and what frees each handle that scripts use.
PLAIN = ["capacity 4096", f"limit {SIZE_MAX}"]
FREED = [call(name, number) for name in ("free", "drop", "log_free") for number in range(3)]
