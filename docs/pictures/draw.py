#!/usr/bin/env python3
"""Draws the figures of the pages from what the proved program prints, from crates.txt and the crates' first lines, and from
the numbers in bench/sizes.txt.

    docs/pictures/draw.py DIRECTORY [FIGURE..]

It writes all figures into the directory, or those that are named, as crates.svg. tests/pages/test_pictures.py draws them again and
compares.
"""

import pathlib
import sys

from of_choices import boundary, which
from of_costs import cost
from of_crates import crates
from of_patches import conflict, new_start, reduce, replicas

FIGURES = {"crates.svg": crates, "replicas.svg": replicas, "clash.svg": conflict, "reduce.svg": reduce, "cost.svg": cost,
           "new-start.svg": new_start, "boundary.svg": boundary, "which.svg": which}


def main():
    directory = pathlib.Path(sys.argv[1])
    for name in sys.argv[2:] or FIGURES:
        (directory / name).write_text(FIGURES[name](), "utf-8")


main()
