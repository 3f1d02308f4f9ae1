"""The figures that are kept in kept.txt, and what has to hold of them."""

import pathlib
import subprocess
import typing

PATH = pathlib.PurePosixPath("tests/cost/kept.txt")
WRITES = "tests/cost/keep writes the file anew"
HEAD = """# Of each call, the instructions of the proved code itself; of a peak, the bytes that the heap has taken for each byte that is read.
# Made by tests/cost/keep. Behind a bar stands why a row was raised, or is gone, since the last tag or the commit below.
"""
SINCE = "compared with: "
# By how much a figure may be more and less than the one that is kept.
MORE, MORE_OF_MEMORY, LESS = 1 / 20, 1 / 10, 1 / 20
GONE = "gone"


class Row(typing.NamedTuple):
    """A figure, or GONE, and the reason for it, or ''."""

    figure: float | str
    reason: str


def number(word):
    """A figure as it is written."""
    return word if word == GONE else float(word) if "." in word else int(word)


def rows_of(text):
    """Gives the row of each title."""
    found = {}
    for line in text.splitlines():
        if line and not line.startswith(("#", SINCE)):
            title, _, rest = line.partition(": ")
            figure, _, reason = rest.partition(" | ")
            found[title] = Row(number(figure), reason.strip())
    return found


def text_of(commit, rows):
    """Gives the text of the file."""
    lines = (f"{title}: {figure}" + (f" | {reason}" if reason else "") for title, (figure, reason) in rows.items())
    return HEAD + f"{SINCE}{commit}\n" + "".join(f"{line}\n" for line in lines)


def commit_of(text):
    """Gives the commit that the file names."""
    return next(line.removeprefix(SINCE) for line in text.splitlines() if line.startswith(SINCE))


def is_peak(title):
    return title.startswith("peak ")


def fault_of(title, kept, figure):
    """Gives what is wrong with a figure, if it is too far from the one that is kept."""
    if kept is None or kept.figure == GONE:
        return f"{title}: {figure}, and none is kept: {WRITES}"
    ratio = figure / kept.figure
    says = f"{title}: {figure}, and kept is {kept.figure}: {ratio:.3f} of it"
    if ratio > 1 + (MORE_OF_MEMORY if is_peak(title) else MORE):
        return f"{says}, which is too much. If there is a reason, {WRITES}, and the reason goes behind a bar"
    if ratio < 1 - LESS:
        return f"{says}. So that the gain is kept, {WRITES}"
    return None


def renewed(kept, figures):
    """Gives the rows to be kept: those that hold stay as they are, so that small losses don't add up."""
    new = {title: kept[title] if fault_of(title, kept.get(title), figure) is None else Row(figure, "") for title, figure in figures.items()}
    return new | {title: row for title, row in kept.items() if title not in new and row.reason}


def without_reason(now, before):
    """Gives each row that was raised, or is gone, with no reason."""
    for title, old in before.items():
        row = now.get(title)
        if row is None:
            yield f"{title}: it was kept with {old.figure}, and is gone: it needs a row '{title}: {GONE} | ' and the reason"
        elif row.reason or old.figure == GONE:
            continue
        elif row.figure == GONE or row.figure > old.figure:
            yield f"{title}: it was {old.figure} and is {row.figure}, and no reason stands behind a bar"


def before(top, text, history):
    """Gives the file as it was at the last tag, or if there is none at the commit that it names."""
    def git(*words):
        done = subprocess.run(["git", f"--git-dir={history}", *words], cwd=top, capture_output=True, text=True, check=False)
        return done.stdout if done.returncode == 0 else None

    tag = git("describe", "--tags", "--abbrev=0")
    return git("show", f"{(tag or commit_of(text)).strip()}:{PATH}")
