"""What docs/SQLITE.md shows: its statements, each with what it prints, and sessions of the shell that run some of them."""

import re

from calls import TOP, run

PAGE = (TOP / "docs/SQLITE.md").read_text("utf-8")
BLOCKS = re.findall(r"^```sql\n(.*?)^```$(?:\n+^```text\n(.*?)^```$)?", PAGE, re.M | re.S)


def statements_with(words):
    """Gives the statements of the one block that has some words."""
    (found,) = (statements for statements, _ in BLOCKS if words in statements)
    return found


def shell(extension, file, statements, **how):
    """Gives how a session of the shell ends, that has the extension, and what it prints."""
    path = str(extension).removesuffix(".so")
    return run(["sqlite3", "-batch", str(file)], f".load {path}\n{statements}", **how)
