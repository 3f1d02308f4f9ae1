#!/usr/bin/env python3
"""Prints the man pages of docs/: mergejoin.1, whose text on each subcommand and on the limits is the program's help; and
those of the scripts, which are their help; and mergejoin.3, which is what the header of the library says.

    docs/manual.py >docs/mergejoin.1
    docs/manual.py feed >docs/mergejoin-feed.1
    docs/manual.py conflicts >docs/mergejoin-conflicts.1
    docs/manual.py locate >docs/mergejoin-locate.1
    docs/manual.py library >docs/mergejoin.3

The program is the proved one, out/mergejoin. tests/program/test_help.py prints them again and compares, and
tests/pages/test_manual.py the last, which needs no program.
"""

import pathlib
import re
import subprocess
import sys
import textwrap

from header import Header

TOP = pathlib.Path(__file__).resolve().parent.parent

VERSION = re.findall(r"^## ([0-9.]+) ", (TOP / "CHANGELOG.md").read_text("utf-8"), re.M)[0]

HEAD = f"""\
.TH MERGEJOIN 1 "" "mergejoin {VERSION}"
.nh
.ad l
.SH NAME
mergejoin \\- merge, join, replay, patch and rewrite JSON documents
.SH SYNOPSIS
.B mergejoin
.I SUBCOMMAND
.br
.B mergejoin \\-\\-help
.br
.B mergejoin help
.I SUBCOMMAND
.SH DESCRIPTION"""

RESULT = "Prints one JSON text, compact, with names in the order of their UTF\\-8 bytes."

TAIL = """\
.SH EXIT STATUS
.TP
.B 0
A result is on standard output.
.TP
.B 1
There is no result: missing; operation K: CAUSE; conflict: patches I and J at POINTER, ..;
no patches.
.TP
.B 2
The input or an argument is wrong: input: not JSON, number not whole, wrong shape, too long;
pointer: no slash, bad tilde at N; operation K: FORM; or the usage.
.TP
.B 3
read failed, write failed, or out of memory.
.PP
If the status is not 0, standard error says why, in one line unless the arguments are wrong,
and nothing is on standard output. Patches and operations are numbered from 0, the document not counted.
.BR mergejoin\\-locate (1)
shows in which file a refusal arose, and where. REFUSALS.md in share/doc/mergejoin explains each line.
.SH NOTES
At a terminal the program prints nothing and waits for its input, which ends with Ctrl\\-D.
The text about wrong arguments shows an argument as it was given, with its control bytes; no other text has any.
If standard input does not block (O_NONBLOCK) and has nothing yet, the read has failed.
.SH EXAMPLES
Replicas that received the same patches in other orders show one document:
.PP
.nf
printf \\(aq%s\\(aq \\(aq[{"k":0},{"a":{"x":1}},{"k":null}]\\(aq | mergejoin replay
printf \\(aq%s\\(aq \\(aq[{"k":0},{"k":null},{"a":{"x":1}},{"k":null}]\\(aq | mergejoin replay
.fi
.SH SEE ALSO
.BR mergejoin\\-feed (1),
.BR mergejoin\\-conflicts (1),
.BR mergejoin\\-locate (1),
.BR jq (1)"""

LIBRARY_HEAD = """\
.TH MERGEJOIN 3
.nh
.ad l
.SH NAME
mergejoin \\- library that merges, joins, replays, rewrites and applies patches of JSON documents
.SH SYNOPSIS
.nf
.B #include <mergejoin.h>
.PP
.B cc ... $(pkg\\-config \\-\\-cflags \\-\\-libs mergejoin)
.fi
.SH DESCRIPTION"""

LIBRARY_TAIL = """\
.SH SEE ALSO
.BR mergejoin (1)"""

SCRIPT = """\
.TH MERGEJOIN\\-{title} 1 "" "mergejoin {version}"
.nh
.ad l
.SH NAME
mergejoin\\-{name} \\- {about}
.SH SYNOPSIS
{usages}
.SH DESCRIPTION
{text}
.SH SEE ALSO
.BR mergejoin (1)"""

# The arguments that each script takes.
SCRIPTS = {
    "feed": ["[--lines] FILE.."],
    "conflicts": ["FILE.."],
    "locate": ["SUBCOMMAND FILE.. <REFUSAL", "get POINTER FILE <REFUSAL"],
}


def help_of(*words):
    done = subprocess.run([TOP / "out/mergejoin", *words, "--help"], capture_output=True, text=True, check=True)
    return done.stdout


def roff(text):
    """Spells a text so that roff shows it as it is."""
    for plain, spelled in (("\\", "\\e"), ("-", "\\-"), ("'", "\\(aq"), ("^", "\\(ha"), ("~", "\\(ti"), ("`", "\\(ga")):
        text = text.replace(plain, spelled)
    return text


def subcommand(name):
    """Gives the lines of one subcommand: its arguments, what it is for, its input, an example and its statuses."""
    text = help_of(name)
    words = re.search(r"^Usage: mergejoin (.*)$", text, flags=re.M)[1].split()
    yield ".TP"
    yield " ".join([".B", words[0]]) if len(words) == 1 else f'.BI {words[0]} " {words[1].strip("<>")}"'
    yield roff(text.splitlines()[0]) + "."
    for label in ("Input", "Example", "Status"):
        yield ".br"
        yield roff(re.search(f"^{label}: .*$", text, flags=re.M)[0])


def script(name):
    """Gives the page of a script: the first sentence of its help is what it is for, and a part with a margin is code."""
    done = subprocess.run([TOP / "bin" / name, "--help"], capture_output=True, text=True, check=True)
    first, *parts = done.stdout.strip().split("\n\n")
    text = []
    for part in [first, *parts]:
        text += [".nf", roff(part), ".fi"] if part.startswith("    ") else [roff(part)]
        text.append(".PP")
    usages = "\n.br\n".join(f".B mergejoin\\-{name}\n.I {roff(words)}" for words in SCRIPTS[name])
    about = first[0].lower() + first[1:].split(":")[0].rstrip(".").replace("\n", " ")
    return SCRIPT.format(title=name.upper(), version=VERSION, name=name, about=roff(about), usages=usages,
                         text="\n".join(text[:-1]))


def program():
    """Gives the lines of the program's page."""
    text = help_of()
    names = re.findall(r"^  (\w+) +\S", text.split("Commands:\n")[1].split("\n\n")[0], flags=re.M)
    limits = re.search(r"^Limits: .*$", text, flags=re.M)[0]
    yield from (HEAD, roff(text.splitlines()[0]) + ".", RESULT, ".PP", roff(limits), ".SH SUBCOMMANDS")
    for name in names:
        yield from subcommand(name)
    yield TAIL


def shown(parts):
    """Gives the lines of parts of the header's comments."""
    for number, part in enumerate(parts):
        if part.kind == "entry":
            yield from (".TP", f".B {roff(part.head)}", roff(part.text))
            continue
        yield from [".PP"] if number else []
        yield from (".nf", roff(part.text), ".fi") if part.kind == "code" else [roff(part.text.replace("`", ""))]


def call(prototype, words):
    """Gives the lines of a call: its prototype in lines that fit, and what it does."""
    # (no parameter is broken)
    whole = f"{prototype};".replace(" ", "\0").replace(",\0", ", ")
    lines = textwrap.wrap(whole, 76, subsequent_indent="    ", break_long_words=False, break_on_hyphens=False)
    yield from (".nf", *(f'.B "{roff(line)}"'.replace("\0", " ") for line in lines), ".fi")
    if words:
        yield from (".RS 4", *shown(words), ".RE")


def library():
    """Gives the lines of the library's page."""
    header = Header()
    yield from (LIBRARY_HEAD, *shown(header.overview), ".SH TYPES")
    for name, words in header.types.items():
        yield from (f".SS {roff(name)}", *shown(words))
    yield from (".SH STATUSES", *shown(header.of_statuses))
    for name, number, words in header.statuses:
        yield from (".TP", f".B {roff(name)} ({number})", *shown(words))
    yield from (".SH CALLS", *shown(header.general))
    for title, calls in header.groups().items():
        yield f".SS {title}"
        for one in calls:
            yield from [".PP"] if one != calls[0] else []
            yield from call(one.prototype, one.words)
    yield from (".SS Calls with a buffer of their own", *shown(header.helpers))
    for one in header.owned:
        yield from (".PP", *call(one.prototype, one.words))
    yield LIBRARY_TAIL


def main():
    if sys.argv[1:] == ["library"]:
        lines = library()
    else:
        lines = [script(sys.argv[1])] if sys.argv[1:] else program()
    for line in lines:
        print(line)


main()
