"""The program as a shell runs it over streams that are closed, full or gone, and over hostile input.

Each run has one line on one stream, and its status; none ends by a signal. The deepest input goes through each
subcommand with a stack of 512 KiB.
"""

import pytest

STACK = 512  # KiB; 260 are enough

NOT_BLOCKING = ("import os, sys; r, w = os.pipe(); os.set_inheritable(w, True); os.set_blocking(r, False); os.dup2(r, 0); "
                "os.execv(sys.argv[1], sys.argv[1:])")
UNKNOWN = "error: unrecognized subcommand 'WORD'\n\nUsage: mergejoin <COMMAND>\n\nFor more information, try '--help'.\n"

# A command of the shell, where $p is the program, its status, and what standard output and standard error get.
SHELL = [
    # Standard output is closed, full, or a pipe that nobody reads.
    ("echo '[5]' | $p merge >&-", 3, "", "write failed\n"),
    ("echo '[5]' | $p merge >/dev/full", 3, "", "write failed\n"),
    ("(trap '' PIPE; (sleep 0.2; echo '[5]') | $p merge | true; exit ${PIPESTATUS[1]})", 3, "", "write failed\n"),
    # Standard error is: then there is nowhere to report it.
    ("echo '[' | $p merge 2>&-", 3, "", ""),
    ("echo '[' | $p merge 2>/dev/full", 3, "", ""),
    # A text that is not the answer's changes no status where it can't be written.
    ("$p --help >/dev/full", 0, "", ""),
    ("$p frob 2>/dev/full", 2, "", ""),
    # Standard input is closed, empty, or a directory.
    ("$p merge <&-", 3, "", "read failed\n"),
    ("$p merge </dev/null", 2, "", "input: not JSON\n"),
    ("$p merge </", 3, "", "read failed\n"),
    # Standard input does not block, and has nothing yet.
    (f"python3 -c '{NOT_BLOCKING}' $p merge", 3, "", "read failed\n"),
    # A word with control bytes is shown as it is.
    ("$p $'\\e[2J'", 2, "", UNKNOWN.replace("WORD", "\x1b[2J")),
    # 1,048,576 bytes, and one more.
    ("(printf '[5'; head -c 1048573 /dev/zero | tr '\\0' ' '; printf ']') | $p merge", 0, "5\n", ""),
    ("(printf '[5'; head -c 1048574 /dev/zero | tr '\\0' ' '; printf ']') | $p merge", 2, "", "input: too long\n"),
    ("head -c 10000000 /dev/zero | $p merge", 2, "", "input: too long\n"),
    # A word that is not UTF-8.
    ("echo '[5]' | $p get $'\\xff'", 3, "", "read failed\n"),
    # Bytes that are not UTF-8, a lone surrogate, a NUL as it is and escaped, a byte order mark.
    ("printf '[\"\\xff\"]' | $p merge", 2, "", "input: not JSON\n"),
    ("printf '%s' '[\"\\ud800\"]' | $p merge", 2, "", "input: not JSON\n"),
    ("printf '[\"\\0\"]' | $p merge", 2, "", "input: not JSON\n"),
    ("printf '%s' '[\"\\u0000\"]' | $p merge", 0, '"\\u0000"\n', ""),
    ("printf '[5]\\0' | $p merge", 2, "", "input: not JSON\n"),
    ("printf '\\xef\\xbb\\xbf[5]' | $p merge", 2, "", "input: not JSON\n"),
]


def lists(depth, value):
    return "[" * depth + value + "]" * depth


def maps(depth, value):
    return '{"a":' * depth + value + "}" * depth


def deep(nested, more):
    """Each subcommand on the deepest documents that can be read, or on ones that are deeper by `more`: its words, the elements of its
    input, and its result. The value of an operation stands two deeper than a document of the input."""
    doc, other, value = nested(126 + more, "1"), nested(126 + more, "2"), nested(124 + more, "1")
    yield ["get", ""], [doc], doc
    yield ["patch"], [value, '[{"op":"test","path":"","value":' + value + "}]"], value
    yield ["merge"], [doc, other], other
    yield ["join"], [doc, doc], doc
    yield ["replay"], [doc, other, other], other
    yield ["rewrite"], [doc, doc], "[]"


DEEP = [pytest.param(*row, more, id=f"{row[0][0]} of {nested.__name__} {126 + more} deep")
        for nested in (lists, maps) for more in (0, 1) for row in deep(nested, more)]


@pytest.fixture(name="shell")
def what_runs_a_line(program, run):
    """Runs a line of the shell, in which $p is the program, with words and standard input."""
    return lambda line, *words, given="": run(["bash", "-c", line, "sh", *words], given, setting={"p": str(program)})


@pytest.mark.parametrize("line,status,out,err", SHELL, ids=[line[:60] for line, *_ in SHELL])
def test_a_line_of_the_shell_ends_as_it_should(shell, line, status, out, err):
    assert shell(line) == (status, out, err)


@pytest.mark.parametrize("words,elements,result,more", DEEP)
def test_the_deepest_documents_need_little_stack(shell, words, elements, result, more):
    ended = shell(f'ulimit -s {STACK}; exec "$p" "$@"', *words, given=f"[{','.join(elements)}]")
    assert ended == ((2, "", "input: not JSON\n") if more else (0, f"{result}\n", ""))
