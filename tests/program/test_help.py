"""The help of the program and of each subcommand is what it is to be, and the subcommand's example ends with status 0 and the line
given here. The man pages are what docs/manual.py prints from the help of the program and of the scripts.
"""

import os

import pytest
from calls import TOP

HELP_OF_PROGRAM = """\
JSON Merge Patch (RFC 7396), JSON Pointer (RFC 6901) and JSON Patch (RFC 6902) over one JSON array on standard input

Usage: mergejoin <COMMAND>

Commands:
  get      Print the part of a document that a JSON Pointer names
  patch    Apply a JSON Patch to a document
  merge    Apply merge patches to a document, one after another
  join     Make one merge patch with the effect of several compatible ones
  replay   Apply compatible merge patches to a document, in whatever order and with whatever repeats
  rewrite  Make a JSON Patch that does to a document what a merge patch does

Options:
  -h, --help  Print help

Limits: 1,048,576 bytes of input, 127 levels of nesting, whole numbers from -2^63 to 2^64 - 1.
Status: 0 with a result; 1 there is none; 2 the input or an argument is wrong; 3 memory or a stream failed.
Each subcommand's help has its input. mergejoin-feed makes one input of several files.
mergejoin-locate shows in which of them a refusal arose, and where. REFUSALS.md, in
share/doc/mergejoin or in docs of the repository, explains each line of refusal. Version 0.4.0.
"""

HELP = """\
{about}

Usage: mergejoin {words}

{arguments}Options:
  -h, --help  Print help

Input: {input}
Example: {example}
Status: {status}
"""

POINTER = """\
Arguments:
  <POINTER>  A JSON Pointer (RFC 6901), such as /a/0; the empty word names the whole document

"""

# The words of the subcommand, and then what it is for, its input, its example, its statuses, and what the example prints.
SUBCOMMANDS = {
    "get <POINTER>": (
        "Print the part of a document that a JSON Pointer names",
        "[document]",
        """echo '[{"a":[1,2]}]' | mergejoin get /a/0""",
        "0; 1 nothing is there; 2 the input or the pointer is wrong; 3 memory or a stream failed.",
        "1",
    ),
    "patch": (
        "Apply a JSON Patch to a document",
        "[document, JSON Patch]",
        """echo '[{"a":1},[{"op":"remove","path":"/a"}]]' | mergejoin patch""",
        "0; 1 an operation is refused; 2 the input or an operation's form is wrong; 3 memory or a stream failed.",
        "{}",
    ),
    "merge": (
        "Apply merge patches to a document, one after another",
        "[document, merge patch, ..]",
        """echo '[{"a":1},{"a":null,"b":2}]' | mergejoin merge""",
        "0; 2 the input is wrong; 3 memory or a stream failed.",
        '{"b":2}',
    ),
    "join": (
        "Make one merge patch with the effect of several compatible ones",
        "[merge patch, ..]",
        """echo '[{"a":1},{"b":null}]' | mergejoin join""",
        "0; 1 two patches conflict, or there is none; 2 the input is wrong; 3 memory or a stream failed.",
        '{"a":1,"b":null}',
    ),
    "replay": (
        "Apply compatible merge patches to a document, in whatever order and with whatever repeats",
        "[document, merge patch, ..]",
        """echo '[{"k":0},{"a":1},{"k":null},{"a":1}]' | mergejoin replay""",
        "0; 1 two patches conflict; 2 the input is wrong; 3 memory or a stream failed.",
        '{"a":1}',
    ),
    "rewrite": (
        "Make a JSON Patch that does to a document what a merge patch does",
        "[document, merge patch]",
        """echo '[{"a":1},{"a":null}]' | mergejoin rewrite""",
        "0; 2 the input is wrong; 3 memory or a stream failed.",
        '[{"op":"test","path":"/a","value":1},{"op":"remove","path":"/a"}]',
    ),
}

PAGES = {"docs/mergejoin.1": [], "docs/mergejoin-feed.1": ["feed"], "docs/mergejoin-conflicts.1": ["conflicts"],
         "docs/mergejoin-locate.1": ["locate"]}


@pytest.fixture(name="prints")
def what_compares_a_print(run):
    """Runs words with bin/ on the PATH, which have to end well and print a text and nothing else."""
    def prints(words, text):
        assert run(words, setting={"PATH": f"{TOP / 'bin'}:{os.environ['PATH']}"}) == (0, text, "")

    return prints


@pytest.mark.parametrize("word", ["--help", "-h", "help"])
def test_the_help_of_the_program(prints, word):
    prints(["mergejoin", word], HELP_OF_PROGRAM)


def test_the_help_has_one_name(program, run, tmp_path):
    (tmp_path / "another").symlink_to(program)
    assert run([tmp_path / "another", "--help"]) == (0, HELP_OF_PROGRAM, "")


def test_help_of_what_is_no_subcommand_is_an_error(program, run):
    assert run([program, "help", "frob"]) == run([program, "frob"])


@pytest.mark.parametrize("words,texts", SUBCOMMANDS.items(), ids=SUBCOMMANDS)
def test_the_help_of_a_subcommand(prints, words, texts):
    about, given, example, status, _ = texts
    arguments = POINTER if "POINTER" in words else ""
    for asked in ([words.split()[0], "--help"], ["help", words.split()[0]]):
        prints(["mergejoin", *asked],
               HELP.format(about=about, words=words, arguments=arguments, input=given, example=example, status=status))


@pytest.mark.parametrize("example,line", [texts[2::2] for texts in SUBCOMMANDS.values()], ids=SUBCOMMANDS)
def test_the_example_of_a_subcommand(prints, example, line):
    prints(["bash", "-c", example], f"{line}\n")


@pytest.mark.parametrize("page,words", PAGES.items(), ids=PAGES)
def test_a_man_page_is_what_is_printed_from_the_help(prints, page, words):
    prints([TOP / "docs/manual.py", *words], (TOP / page).read_text("utf-8"))
