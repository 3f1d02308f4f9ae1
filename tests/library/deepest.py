"""The deepest documents, and the stack that they may take."""

import re

import driving

DEEPEST = 126
ARRAYS, OBJECTS = "[" * DEEPEST + "]" * DEEPEST, '{"a":' * DEEPEST + "1" + "}" * DEEPEST
PLACE = "/a" * DEEPEST
# The member that nests comes after many lower names, or after many higher ones.
MEMBERS = ",".join(f'"{number:02}":1' for number in range(70))
WIDE = [f'{{{MEMBERS},"{name}":' * DEEPEST + "1" + "}" * DEEPEST for name in ("z", " ")]


def apart(*names):
    """A deep patch with other names at each level than those of other names."""
    members = ",".join(f'"{name}":1' for name in sorted(names))
    return f'{{{members},"m":' * (DEEPEST - 1) + f"{{{members}}}" + "}" * (DEEPEST - 1)


def stack_of_the_header():
    """The bytes of stack that the header says they take."""
    return int(re.search(r"take up to (\d+) KiB of", driving.HEADER.read_text("utf-8"))[1]) * 1024
