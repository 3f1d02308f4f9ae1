"""The program's streams apart: what goes to standard output, what to standard error, and the status. `test_help.py` does so for help."""

import pytest


def usage(fault, line="<COMMAND>"):
    """The text for wrong arguments."""
    return f"error: {fault}\n\nUsage: mergejoin {line}\n\nFor more information, try '--help'.\n"


NO_COMMAND = """\
'mergejoin' requires a subcommand but one was not provided
  [subcommands: get, patch, merge, join, replay, rewrite]"""

NO_POINTER = """\
the following required arguments were not provided:
  <POINTER>"""

DASHED = "unexpected argument '{0}' found\n\n  tip: to pass '{0}' as a value, use '-- {0}'"

LONGEST = "[5" + " " * (1_048_576 - 3) + "]"

# The words after the program's name, the standard input, the status, and all that standard output and standard error get.
CASES = [
    # The arguments are wrong.
    ([], "", 2, "", usage(NO_COMMAND)),
    (["frob"], "", 2, "", usage("unrecognized subcommand 'frob'")),
    (["-x", "merge"], "", 2, "", usage("unexpected argument '-x' found")),
    (["get"], "", 2, "", usage(NO_POINTER, "get <POINTER>")),
    (["merge", "5"], "", 2, "", usage("unexpected argument '5' found", "merge")),
    (["get", "/a", "/b"], "", 2, "", usage("unexpected argument '/b' found", "get <POINTER>")),
    # A word that begins with a dash is taken for an option, but after `--`.
    (["get", "-a"], "", 2, "", usage(DASHED.format("-a"), "get <POINTER>")),
    (["get", "--/a"], "", 2, "", usage(DASHED.format("--/a"), "get <POINTER>")),
    (["get", "--", "-a"], "[1]", 2, "", "pointer: no slash\n"),
    (["get", "-"], "[1]", 2, "", "pointer: no slash\n"),
    # There is a result.
    (["get", "/a"], '[{"a":[1]}]', 0, "[1]\n", ""),
    (["patch"], '[{"a":1},[{"op":"remove","path":"/a"}]]', 0, "{}\n", ""),
    (["merge"], '[{"a":1},{"a":null}]', 0, "{}\n", ""),
    (["join"], '[{"a":1},{"b":2}]', 0, '{"a":1,"b":2}\n', ""),
    (["replay"], '[{"a":1},{"b":2}]', 0, '{"a":1,"b":2}\n', ""),
    (["rewrite"], '[5,5]', 0, "[]\n", ""),
    (["merge"], LONGEST, 0, "5\n", ""),
    # There is none.
    (["get", "/b"], '[{"a":1}]', 1, "", "missing\n"),
    (["patch"], '[1,[{"op":"remove","path":""}]]', 1, "", "operation 0: remove of root\n"),
    (["join"], "[]", 1, "", "no patches\n"),
    (["replay"], "[5,1,2]", 1, "", 'conflict: patches 0 and 1 at ""\n'),
    # The input or the pointer is wrong.
    (["merge"], "[", 2, "", "input: not JSON\n"),
    (["merge"], "[1.5]", 2, "", "input: number not whole\n"),
    (["rewrite"], "[1]", 2, "", "input: wrong shape\n"),
    (["get", "a"], "[1]", 2, "", "pointer: no slash\n"),
    (["get", "/a~2"], "[1]", 2, "", "pointer: bad tilde at 2\n"),
    (["patch"], "[1,[{}]]", 2, "", "operation 0: no op\n"),
    (["merge"], LONGEST + " ", 2, "", "input: too long\n"),
    # The program can't have its words: they are not UTF-8.
    ([b"get", b"\xff"], "[1]", 3, "", "read failed\n"),
]


@pytest.mark.parametrize("words,given,status,out,err", CASES, ids=[f"{words} {given}"[:60] for words, given, *_ in CASES])
def test_each_stream_gets_what_it_should(program, run, words, given, status, out, err):
    assert run([program, *words], given) == (status, out, err)
