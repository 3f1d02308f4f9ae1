#!/usr/bin/env python3
"""Prints two tables of docs/COST.md, of the proved program: the most that is resident, by the shape and the size of a document; and
the time of many moves.

    bench/memory.py

A memory is the least of five runs, and a time is that of the processor, the least of three. Nothing else should run on the machine.
"""

import json
import pathlib
import subprocess

TOP = pathlib.Path(__file__).resolve().parents[1]
PROGRAM = TOP / "out/mergejoin"
TIME = ["/usr/bin/time", "-q", "-f", "%M %U %S"]  # Debian's package time
SIZES = (10_000, 100_000, 1_000_000)


def filled(size, element, begin="[", end="]"):
    """A text of about so many bytes: elements between two brackets."""
    count = max(1, (size - 4) // (len(element(0)) + 1))
    return begin + ",".join(element(number) for number in range(count)) + end


# What a document is, and its text of about so many bytes.
SHAPES = {
    "one text": lambda size: json.dumps("x" * (size - 6)),
    "an array of numbers of 7 digits": lambda size: filled(size, lambda number: str(1_000_000 + number)),
    "an object of numbers": lambda size: filled(size, lambda number: f'"n{number:06}":{number % 10}', "{", "}"),
    "an array of numbers of 1 digit": lambda size: filled(size, lambda number: str(number % 10)),
    "an array of arrays of one number": lambda size: filled(size, lambda number: f"[{number % 10}]"),
    "an array of objects of one name, nested in pairs": lambda size: filled(size, lambda number: f'{{"a":{{"b":{number % 10}}}}}'),
}
# The other commands, with what stands before the document in their input.
OTHERS = {"merge": "0,", "join": "", "replay": "0,", "rewrite": "0,"}


def used(words, text):
    """Gives the bytes that were resident and the seconds of the processor, of a run that ends well. GNU's time is its parent, which is
    small: a process has what its parent has for a moment when it starts."""
    done = subprocess.run([*TIME, PROGRAM, *words], input=text.encode(), stdout=subprocess.DEVNULL, stderr=subprocess.PIPE, check=True)
    kilobytes, user, system = done.stderr.split()
    return int(kilobytes) * 1024, float(user) + float(system)


def megabytes(words, text):
    return min(used(words, text)[0] for _ in range(5)) / 1e6


def of_memory():
    print("| shape | 10 kB | 100 kB | 1 MB | the most of other commands, 1 MB |")
    print("| --- | ---: | ---: | ---: | ---: |")
    for what, text_of in SHAPES.items():
        texts = [text_of(size) for size in SIZES]
        figures = [megabytes(["get", ""], f"[{text}]") for text in texts]
        figures.append(max(megabytes([word], f"[{before}{texts[-1]}]") for word, before in OTHERS.items()))
        print(f"| {what} | " + " | ".join(f"{figure:.1f}" for figure in figures) + " |", flush=True)


def moves(count, one, other):
    """So many operations that move a part there and back."""
    pair = [{"op": "move", "from": one, "path": other}, {"op": "move", "from": other, "path": one}]
    return pair * (count // 2)


def of_moves():
    deep = json.loads("[" * 125 + "]" * 125)
    long = [0] * 250_000
    rows = {
        "1,000 moves in an array of 200,000, from its end to its front": [[0] * 200_000, [{"op": "move", "from": "/199999", "path": "/0"}] * 1_000],
        "10,000 moves of an array of 250,000 to another name and back": [{"a": long}, moves(10_000, "/a", "/b")],
        "the same a level down and up again": [{"a": long, "b": {}}, moves(10_000, "/a", "/b/c")],
        "the same next to a part that is 126 deep": [{"a": long, "b": {}, "d": deep}, moves(10_000, "/a", "/b/c")],
    }
    print("| moves | kB | seconds |")
    print("| --- | ---: | ---: |")
    for what, values in rows.items():
        text = json.dumps(values, separators=(",", ":"))
        seconds = min(used(["patch"], text)[1] for _ in range(3))
        print(f"| {what} | {len(text) / 1000:,.0f} | {seconds:.2f} |", flush=True)


if __name__ == "__main__":
    of_memory()
    print()
    of_moves()
