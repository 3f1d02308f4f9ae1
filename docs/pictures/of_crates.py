"""The figure of the crates and the bindings: each is above those that it depends on, of which a line leads down to it.

A line is vertical, from a box to one below that spans its place, so no two lines cross. Where a box stands is said here; what it
says and what it depends on is in crates.txt and in the first lines of the crate.
"""

import pathlib
import textwrap

from drawing import HIGH, PATCH, PLAIN, SPACE, TESTED, WIDE, Drawing

TOP = pathlib.Path(__file__).resolve().parent.parent.parent

# Each crate: its row, from the top, and its sides.
PLACES = {
    "test_vectors": (0, 142, 520), "allocation_failures": (1, 170, 450), "library_example": (1, 470, 618), "replica_runs": (1, 628, 752),
    "mp_c": (1, 762, 1120), "mergejoin": (2, 10, 128), "workloads": (2, 192, 420), "mp_replica": (3, 432, 1120), "mp_cli": (3, 10, 304),
    "mp_texts": (4, 10, 1120), "mp_merge": (5, 10, 1120), "mp_patch": (6, 10, 1120), "mp_pointer": (7, 10, 1120), "mp_tree": (8, 10, 1120),
}
# The bindings, which are in the first row, above the crate that each uses.
BINDINGS, BELOW = ("C", "Rust", "Python", "PostgreSQL", "SQLite"), "mp_c"
# Where a line is if it is not in the middle of what the two boxes have in common.
LINES = {("test_vectors", "mp_cli"): 156, ("test_vectors", "library_example"): 495}


def depends_on():
    """Gives each crate of crates.txt with those that it depends on."""
    lines = (TOP / "crates.txt").read_text("utf-8").splitlines()
    parts = (line.split(":") for line in lines if line and not line.startswith("#"))
    return {name.split()[0]: below.split() for name, below in parts}


def first_words(crate):
    """What a crate is: the first sentence of its root file, up to a colon."""
    source = TOP / "crates" / crate / "src"
    root = source / "lib.rt" if (source / "lib.rt").exists() else source / "main.rt"
    head = [line[4:] for line in root.read_text("utf-8").splitlines() if line.startswith("//! ")]
    words = " ".join(head).split(". ")[0].rstrip(".")
    return words.split(": ")[0].replace("`", "")


def boxes_of(below):
    """Gives the lines of each crate's box, and whether it uses libraries of the toolchain."""
    for crate, (row, left, right) in PLACES.items():
        others = [part for part in below[crate] if part not in below]
        width = (right - left - 2 * SPACE) // WIDE
        uses = textwrap.wrap(f"uses {', '.join(others)}", width) if others else []
        yield crate, row, [crate, *textwrap.wrap(first_words(crate), width), *uses], PATCH if others else PLAIN


def tops_of(heights):
    """Gives where each row begins."""
    y, tops = SPACE, []
    for row in sorted(heights):
        tops.append(y)
        y += heights[row] + 3 * SPACE
    return tops


def crates():
    """The crates and the bindings."""
    below = depends_on()
    assert set(below) == set(PLACES), f"these have no place, or are not there: {set(below) ^ set(PLACES)}"
    boxes, heights = list(boxes_of(below)), {}
    for _, row, lines, _ in boxes:
        heights[row] = max(heights.get(row, 0), HIGH * len(lines) + SPACE)
    tops = tops_of(heights)
    drawing = Drawing("The crates and the bindings, each above those that it depends on")
    for crate, row, lines, colour in boxes:
        _, left, right = PLACES[crate]
        drawing.box(left, tops[row], lines, colour, right - left, height=heights[row])
    x = PLACES[BELOW][1]
    for name in BINDINGS:
        width, height = drawing.box(x, tops[0] + heights[0] - HIGH - SPACE, [name], TESTED)
        drawing.down(x + width // 2, tops[0] + heights[0], tops[1])
        x += width + 8
    for crate, parts in below.items():
        # What is reached through another of them needs no line.
        for part in (part for part in parts if part in below and not any(part in below.get(other, ()) for other in parts)):
            (row, left, right), (to, start, end) = PLACES[crate], PLACES[part]
            middle = LINES.get((crate, part), (max(left, start) + min(right, end)) // 2)
            drawing.down(middle, tops[row] + heights[row], tops[to])
    drawing.legend([(PATCH, "uses libraries of the toolchain too"), (PLAIN, "uses the crates below it alone"),
                    (TESTED, "a binding, which is tested")])
    return drawing.svg()
