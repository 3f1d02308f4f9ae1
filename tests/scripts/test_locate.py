"""bin/locate finds the place of each line that the program refuses with, and of lines, files and streams that are wrong themselves. A
refusal is made by the program of the same files, where it can be.
"""

import json
import os
import pathlib
import signal
import subprocess
import time

import calls
import pytest
from calls import TOP
from copies import UNPROVED
from package import VERSION

LOCATE = TOP / "bin/locate"
NONE = "these files show no place for this line"
FILES = {
    "one": '{"a":1}\n',
    "two": '{"b":2}',
    "three": '{"b":{"~":[]},"a":{"c":1}}',
    "four": '{"b":5,"a":{"c":2}}',
    "odd": '{"a/b":{"~":1,"~1":0},"":[]}',
    "odder": '{"a/b":{"~":2,"~1":0},"":{}}',
    "tilde": '{"~1":1}',
    "tilder": '{"~1":2}',
    "same": '{"a/b":{"~":1}}',
    "list": '{"l":[1,[2,3],{"m":null}],"0":{"-":7}}',
    "edits": '[{"op":"add","path":"/x","value":1},{"op":"test","path":"/a","value":2},{"op":"put"}]',
    "tests": '[{"op":"add","path":"/x","value":1},{"op":"test","path":"/a","value":2}]',
    "broken": '{"a":1,\n "b":}',
    "parts": '{"p/q":[1,2.50],"a":1e2}',
    "-": '{"dash":1.5}',
    "bare": "null",
    "empty": "",
    "long": json.dumps({"a": "x" * 500}),
    "longer": json.dumps({"a": "y" * 500}),
    "control": '{"a":"\\u007f\u0085\u202e"}',
    "half a million": json.dumps("x" * 600_000),
    "half a million more": json.dumps("y" * 600_000),
    "too long": json.dumps("x" * 1_048_576),
    "exact": json.dumps("x" * (1_048_576 - 5)),
}
LIST, INNER = FILES["list"], '[1,[2,3],{"m":null}]'


class Located:
    """Runs words in a directory with the files."""

    def __init__(self, directory, program):
        self.directory, self.program = directory, program
        for name, text in FILES.items():
            (directory / name).write_text(text, "utf-8")
        os.mkfifo(directory / "pipe")

    def run(self, words, **how):
        return calls.run(words, cwd=self.directory, **how)

    def refused(self, words, names):
        """Gives the status with which the program refuses files, and its line."""
        given = b"[" + b",".join((self.directory / name).read_bytes() for name in names) + b"]\n"
        return self.run([self.program, *words], given=given)[::2]

    def has_places(self, words, names, line, places, **how):
        """The program refuses these files with a line, and these are its places."""
        status, err = self.refused(words, names)
        assert status > 0 and err == f"{line}\n"
        shown = self.run([LOCATE, *words, *names], given=f"a line of a build\n{err}", **how)
        assert shown == (0, "".join(f"{place}\n" for place in places), "")


@pytest.fixture(name="located", scope="module")
def calls_where_the_files_are(program, tmp_path_factory):
    return Located(tmp_path_factory.mktemp("files"), program)


CLASH = ['three: at "/a/c" it has 1', 'four: at "/a/c" it has 2', 'three: at "/b" it has {"~":[]}', 'four: at "/b" it has 5']
ESCAPED = ['odd: at "/" it has []', 'odder: at "/" it has {}', 'odd: at "/a~1b/~0" it has 1', 'odder: at "/a~1b/~0" it has 2']
PAIR = ["half a million", "half a million more"]

# The words and the files, the line, and the places.
PLACES = {
    "a conflict of replay": (["replay"], ["one", "three", "four"], 'conflict: patches 0 and 1 at "/a/c", "/b"', CLASH),
    "a conflict of join": (["join"], ["three", "four"], 'conflict: patches 0 and 1 at "/a/c", "/b"', CLASH),
    "names with ~ and /": (["join"], ["one", "odd", "same", "odder"], 'conflict: patches 1 and 3 at "/", "/a~1b/~0"', ESCAPED),
    "the name ~1": (["join"], ["tilde", "tilder"], 'conflict: patches 0 and 1 at "/~01"',
                    ['tilde: at "/~01" it has 1', 'tilder: at "/~01" it has 2']),
    "a conflict at the root": (["join"], ["three", "bare"], 'conflict: patches 0 and 1 at ""',
                               [f'three: at "" it has {FILES["three"]}', 'bare: at "" it has null']),
    "the second operation": (["patch"], ["one", "tests"], "operation 1: test failed",
                             ['tests: operation 1 is {"op":"test","path":"/a","value":2}', 'one, before operation 1: at "/a" it has 1']),
    "the third operation, a form": (["patch"], ["one", "edits"], "operation 2: unknown op", ['edits: operation 2 is {"op":"put"}']),
    "too few files": (["rewrite"], ["one"], "input: wrong shape", ["rewrite reads two files, and here are 1"]),
    "too many files": (["get", "/a"], ["one", "two"], "input: wrong shape", ["get reads one file, and here are 2"]),
    "no file": (["merge"], [], "input: wrong shape", ["merge reads at least one file, and here are 0"]),
    "a patch that is no array": (["patch"], ["one", "two"], "input: wrong shape", ['two: is not an array of operations: {"b":2}']),
    "no patches": (["join"], [], "no patches", ["no file was given, and no patches have no join"]),
    "an input that is too long": (["merge"], PAIR, "input: too long",
                                  [*(f"{name}: 600,002 bytes" for name in PAIR),
                                   "with the array around them that is 1,200,008 bytes, of 1,048,576 at most"]),
    "numbers of two files": (["merge"], ["one", "parts", "-"], "input: number not whole",
                             ['parts: no whole number: 2.50, at "/p~1q/1"', 'parts: no whole number: 1e2, at "/a"',
                              '-: no whole number: 1.5, at "/dash"']),
    "a pointer with no slash": (["get", "a/b"], ["one"], "pointer: no slash", ['the pointer "a/b" does not begin with a slash']),
    **{f"the tilde of {pointer}": (["get", pointer], ["one"], f"pointer: bad tilde at {offset}",
                                   [f'the pointer "{pointer}" has after "{before}" a tilde that is neither ~0 nor ~1'])
       for pointer, offset, before in [("/a~b", 2, "/a"), ("/é~", 3, "/é"), ("/~0~1/~2", 6, "/~0~1/")]},
    **{f"the end of {pointer}": (["get", pointer], ["list"], "missing", [f'list: "{pointer}" comes to {there}'])
       for pointer, there in [
           ("/l/3", f'an array with no element "3": {INNER}'),
           ("/l/01", f'an array with no element "01": {INNER}'),
           ("/l/-", f'an array with no element "-": {INNER}'),
           ("/l/1/2", 'an array with no element "2": [2,3]'),
           ("/l/2/n~1~0", 'an object with no name "n/~": {"m":null}'),
           ("/0/-/x", 'a value below which is no "x": 7'),
           ("/l/99999999999", f'an array with no element "99999999999": {INNER}'),
       ]},
}


@pytest.mark.parametrize("words,names,line,places", PLACES.values(), ids=PLACES)
def test_a_place_is_found(located, words, names, line, places):
    located.has_places(words, names, line, places)


# Operations on the file list: each with the cause of its refusal, and what the document has there.
OPERATIONS = [
    ('{"op":"test","path":"/l/0","value":2}', "test failed", ['at "/l/0" it has 1']),
    ('{"op":"test","path":"","value":2}', "test failed", [f'at "" it has {LIST}']),
    ('{"op":"remove","path":"/l/1/2"}', "missing", ['"/l/1/2" comes to an array with no element "2": [2,3]']),
    ('{"op":"copy","from":"/0/x~1y","path":"/z"}', "missing", ['"/0/x~1y" comes to an object with no name "x/y": {"-":7}']),
    ('{"op":"move","from":"/m","path":"/z"}', "missing", [f'"/m" comes to an object with no name "m": {LIST}']),
    ('{"op":"add","path":"/l/0/x","value":1}', "no place", ['"/l/0/x" comes to a value below which is no "x": 1']),
    ('{"op":"add","path":"/l/4","value":1}', "no place", [f'"/l/4" comes to an array with no element "4": {INNER}']),
    ('{"op":"add","path":"/q/r/s","value":1}', "no place", [f'"/q/r/s" comes to an object with no name "q": {LIST}']),
    ('{"op":"remove","path":""}', "remove of root", []),
    ('{"op":"move","from":"/l","path":"/l/0"}', "into itself", []),
]


@pytest.mark.parametrize("operation,cause,says", OPERATIONS, ids=[operation for operation, *_ in OPERATIONS])
def test_a_refused_operation_is_found(located, operation, cause, says):
    (located.directory / "operation").write_text(f"[{operation}]")
    located.has_places(["patch"], ["list", "operation"], f"operation 0: {cause}",
            [f"operation: operation 0 is {operation}", *(f"list: {line}" for line in says)])


LEAST, MOST = -(2**63), 2**64 - 1
NO_JSON, NOT_WHOLE, HALF = "input: not JSON", "input: number not whole", "not JSON: half of a surrogate pair"
# Texts with half of a surrogate pair, and where it begins.
HALVES = {"\\ud800": 0, "\\udbff\\u0041": 0, "\\udc00": 0, "\\ud83d\\ud83d": 0, "\\udfff\\ud800": 0, "\\\\\\ud800": 2}


def cut(spelling):
    return spelling if len(spelling) <= 40 else f"{spelling[:40]} .. and {len(spelling) - 40:,} characters more"


# The bytes of a file, a line, and the place, if the program refuses the file.
TEXTS = [
    (b'{"a":1,\n "b":}', NO_JSON, "2:6: not JSON: Expecting value"),
    (b'["\xff"]', NO_JSON, "1:3: not UTF-8"),
    ('["é",\n"'.encode() + b'\xc3"]', NO_JSON, "2:2: not UTF-8"),
    ('["é", '.encode() + b'\xc3"]', NO_JSON, "1:7: not UTF-8"),
    ('["é", x]'.encode(), NO_JSON, "1:7: not JSON: Expecting value"),
    (b"[" * 126 + b"]" * 127, NO_JSON, "1:253: not JSON: Extra data"),
    (b"[" * 127 + b"]" * 127, NO_JSON, "1:127: more than 126 levels"),
    (b"[" * 126 + b"]" * 126, NO_JSON, None),
    (b"[\n" * 100_000, NO_JSON, "127:1: more than 126 levels"),
    (b'{"a":' * 127 + b"1" + b"}" * 127, NO_JSON, "1:631: more than 126 levels"),
    (b'["[[[[", ' * 126 + b'"{{"' + b"]" * 126 + b"[", NO_JSON, "1:1265: not JSON: Extra data"),
    (b"[NaN]", NO_JSON, " not JSON: NaN is not a value"),
    (b'"\x01"', NO_JSON, "1:2: not JSON: Invalid control character at"),
    (b'"' + b"[" * 200 + b"\n", NO_JSON, "1:202: not JSON: Invalid control character at"),
    *((f'["ok","{text}"]'.encode(), NO_JSON, f"1:{offset + 8}: {HALF}") for text, offset in HALVES.items()),
    *((f'{{"{text}":1}}'.encode(), NO_JSON, f"1:{offset + 3}: {HALF}") for text, offset in HALVES.items()),
    *((f'["{text}"]'.encode(), NO_JSON, None) for text in ("\\ud83d\\ude00", "\\\\ud800", "\\u0041", "\ue000")),
    *((f"[{number}]".encode(), NO_JSON, f" not JSON: a number that is too large: {cut(number)}")
      for number in ("1e400", "9" * 309, "-1" + "0" * 5000)),
    *((f'{{"n":[{number}]}}'.encode(), NOT_WHOLE, f' no whole number: {cut(str(number))}, at "/n/0"')
      for number in (LEAST - 1, MOST + 1, "-0", "1.0", "-0.5", "1e2", "1E-7", "-0.0", "9" * 50, "9" * 309 + "e-9", "1e308")),
    *((f'{{"n":[{number}]}}'.encode(), NOT_WHOLE, None) for number in (0, -1, LEAST, MOST, MOST - 1)),
]


@pytest.mark.parametrize("data,line,place", TEXTS, ids=[f"{data[:29].decode(errors='replace')!r} {place}" for data, _, place in TEXTS])
def test_a_text_has_a_place_if_it_is_refused(located, data, line, place):
    (located.directory / "text").write_bytes(data)
    if place:
        located.has_places(["merge"], ["one", "text"], line, [f"text:{place}"])
    else:
        assert located.refused(["merge"], ["text"]) == (0, "")
        assert located.run([LOCATE, "merge", "text"], given=line) == (1, "", f"locate: {NONE}\n")


CONFLICT, SHAPE = 'conflict: patches 0 and 1 at "/a"', "input: wrong shape"
USAGE = "usage: locate SUBCOMMAND FILE.. <REFUSAL, or get POINTER FILE <REFUSAL"
OF_NO_FILE = "'{}' is of memory or a stream, and of no file"

# A line, the words, the status, and what is in the way of a place: one line on standard error, and nothing on standard output.
NO_PLACE = [
    (CONFLICT, ["replay", "one"], 1, "the line is of patches 0 and 1, and here are 0"),
    (CONFLICT, ["replay", "one", "two"], 1, "the line is of patches 0 and 1, and here are 1"),
    (CONFLICT, ["join", "one"], 1, "the line is of patches 0 and 1, and here are 1"),
    (CONFLICT, ["join", "one", "two"], 1, 'these files have no conflict at "/a": the line is of others'),
    (CONFLICT, ["join", "one", "one"], 1, 'these files have no conflict at "/a": the line is of others'),
    (CONFLICT, ["join", "one", "broken"], 1, "broken:2:6: not JSON: Expecting value, so the line is not of these files"),
    ('conflict: patches 1 and 1 at ""', ["join", "one", "two"], 1, "the line is of patches 1 and 1, and here are 2"),
    (CONFLICT[:-1], ["join", "one", "one"], 2, "the line of the conflict is not whole"),
    (CONFLICT, ["merge", "one", "one"], 2, f"merge has no such line: {CONFLICT}"),
    ("operation 3: missing", ["patch", "one", "edits"], 1, "edits has no operation 3: the line is of other files"),
    ("operation 0: missing", ["patch", "one", "two"], 1, "two has no operation 0: the line is of other files"),
    ("operation 0: missing", ["patch", "one"], 1, "patch reads two files, and here are 1"),
    ("operation 0: missing", ["get", "/a", "one"], 2, "get has no such line: operation 0: missing"),
    ("missing", ["get", "one"], 2, "for that line it wants the pointer too: get POINTER FILE"),
    *((line, ["get", "/a", "one"], 1, NONE) for line in ("missing", "pointer: no slash", "pointer: bad tilde at 0")),
    ("missing", ["get", "/a", "one", "two"], 1, "get reads one file, and here are 2"),
    ("missing", ["merge", "one"], 2, "merge has no such line: missing"),
    ("no patches", ["join", "one"], 1, NONE),
    *((line, ["merge", "one"], 1, NONE) for line in (SHAPE, NOT_WHOLE, "input: too long")),
    (SHAPE, ["patch", "one", "edits"], 1, NONE),
    (NOT_WHOLE, ["merge", "one", "empty"], 1, "empty:1:1: not JSON: Expecting value, so the line is not of these files"),
    (NOT_WHOLE, ["merge", "too long"], 1, "too long has more than 1,048,576 bytes: the line would be 'input: too long'"),
    ("input: too long", ["merge", "exact"], 1, NONE),
    *((line, ["merge", "one"], 1, OF_NO_FILE.format(line)) for line in ("read failed", "write failed", "out of memory")),
    ("error: unrecognized\n\nFor more information, try '--help'.", ["merge", "one"], 1,
     "the arguments after mergejoin were wrong, and no file; the lines above that one say which"),
    ("feed: two: it is empty", ["merge", "two"], 2, "this is not a line of mergejoin: feed: two: it is empty"),
    ("\x1b[2Jmissing", ["get", "/a", "one"], 2, "this is not a line of mergejoin: \\u001b[2Jmissing"),
    (b"\xff", ["join", "one", "control"], 2, "this is not a line of mergejoin: \\xff"),
    ("", ["merge", "one"], 2, "standard input has no line"),
    *((NOT_WHOLE, ["merge", name], 2, f"{shown}: No such file or directory")
      for name, shown in (("nowhere", "nowhere"), ("\x1b[2J", "\\u001b[2J"), ("", ""))),
    *((NOT_WHOLE, ["merge", name], 2, f"{name}: is not a file that can be read twice") for name in (".", "pipe")),
    *((NOT_WHOLE, words, 2, USAGE) for words in (["frob", "one"], [])),
]


@pytest.mark.parametrize("line,words,status,why", NO_PLACE, ids=[f"{line[:40]!r} {words}" for line, words, *_ in NO_PLACE])
def test_what_is_in_the_way_of_a_place_is_reported(located, line, words, status, why):
    assert located.run([LOCATE, *words], given=line) == (status, "", f"locate: {why}\n")


@pytest.mark.parametrize("names,values", [
    (["long", "longer"], [f'"{char * 199} .. and 302 characters more' for char in "xy"]),
    (["one", "control"], ["1", '"\\u007f\\u0085\\u202e"']),
], ids=["long", "control bytes"])
def test_a_value_is_cut_with_a_mark_and_shown_with_no_control_byte(located, names, values):
    places = "".join(f'{name}: at "/a" it has {value}\n' for name, value in zip(names, values))
    assert located.run([LOCATE, "join", *names], given=CONFLICT) == (0, places, "")


@pytest.mark.parametrize("line,status,out,err", [
    (f"{LOCATE} merge parts <&-", 2, "", "locate: standard input can't be read\n"),
    (f"echo '{NOT_WHOLE}' | {LOCATE} merge parts >/dev/full", 2, "", "locate: write failed\n"),
    (f"echo '{NOT_WHOLE}' | {LOCATE} merge parts >&-", 2, "", "locate: write failed\n"),
    (f"echo '{NOT_WHOLE}' | {LOCATE} merge two 2>&-", 1, "", ""),
    (f"echo '{NOT_WHOLE}' | sh {LOCATE} merge ./-", 0, './-: no whole number: 1.5, at "/dash"\n', ""),
], ids=["closed standard input", "full standard output", "closed standard output", "closed standard error", "by sh"])
def test_a_line_of_the_shell_ends_as_it_should(located, line, status, out, err):
    assert located.run(line, shell=True) == (status, out, err)


@pytest.mark.parametrize("word", ["--help", "-h"])
def test_help(located, word):
    status, out, err = located.run([LOCATE, word])
    assert (status, err) == (0, "") and "Shows in which" in out and "mergejoin-locate get POINTER" in out


def test_each_file_of_many_clashes_is_read_once(located):
    """5 s are far more than 1,000 clashes of two files of 220 kB take so."""
    names = [f"n{number:06}" for number in range(1000)]
    for file, value in (("left", "l"), ("right", "r")):
        (located.directory / file).write_text(json.dumps({name: {"x": value * 25, "y": ["z"] * 35} for name in names}))
    line = "conflict: patches 0 and 1 at " + ", ".join(f'"/{name}/x"' for name in names)
    places = [f'{file}: at "/{name}/x" it has "{file[0] * 25}"' for name in names for file in ("left", "right")]
    begin = time.monotonic()
    located.has_places(["join"], ["left", "right"], line, places, limit=10)
    assert time.monotonic() - begin < 5


def test_version(located):
    assert located.run([LOCATE, "--version"]) == (0, f"locate {VERSION}\n", "")


@pytest.mark.parametrize("locale", ["C", "C.UTF-8", "en_US.ISO-8859-1"])
def test_arguments_are_bytes_in_every_locale(located, latin, locale):
    """Of a pointer the offset is one in bytes, and the name of a file is the one that it has."""
    setting = {"LC_ALL": locale, "LOCPATH": latin}
    says = 'the pointer "/é~" has after "/é" a tilde that is neither ~0 nor ~1\n'
    assert located.run([LOCATE, "get", "/é~", "one"], given="pointer: bad tilde at 3", setting=setting) == (0, says, "")
    (located.directory / "né").write_text("1.5")
    assert located.run([LOCATE, "merge", "né"], given=NOT_WHOLE, setting=setting) == (0, 'né: no whole number: 1.5, at ""\n', "")


@pytest.fixture(name="latin", scope="module")
def directory_of_a_latin_locale(needs, tmp_path_factory):
    needs("localedef", lacking=None if pathlib.Path("/usr/share/i18n/charmaps/ISO-8859-1.gz").exists() else "not installed: locales")
    directory = tmp_path_factory.mktemp("locales")
    calls.run(["localedef", "-i", "en_US", "-f", "ISO-8859-1", directory / "en_US.ISO-8859-1"])
    return str(directory)


def test_standard_input_that_does_not_end_is_refused(located):
    line = f"ulimit -v 1000000; timeout 50 {LOCATE} merge one </dev/zero"
    assert located.run(line, shell=True) == (2, "", "locate: standard input has more than 67,108,864 bytes\n")


def test_values_that_differ_in_the_order_of_their_names_do_not_conflict(located):
    for name, text in ("ordered", '{"a":{"x":1,"y":2}}'), ("reversed", '{"a":{"y":2,"x":1}}'):
        (located.directory / name).write_text(text)
    says = 'locate: these files have no conflict at "/a": the line is of others\n'
    assert located.run([LOCATE, "join", "ordered", "reversed"], given=CONFLICT) == (1, "", says)


def test_that_nothing_is_proved_is_said_once(copy):
    """Of the one run that makes what the operation was refused for."""
    for name in ("one", "tests"):
        copy.write(name, FILES[name])
    status, out, err = copy.run(["bin/locate", "patch", "one", "tests"], given="operation 1: test failed\n", cwd=copy.top)
    assert (status, out.count("\n"), err) == (0, 1, f"{UNPROVED}locate: run 1 of bin/mergejoin, of 1 ..\n")
    assert copy.asked() == ["try in mergejoin"]


def test_a_module_next_to_the_script_is_not_run(located):
    (located.directory / "json.py").write_text("print('mine')")
    (located.directory / "locate").write_bytes(LOCATE.read_bytes())
    (located.directory / "locate").chmod(0o755)
    assert located.run(["./locate", "join", "one"], given=CONFLICT)[1:] == located.run([LOCATE, "join", "one"], given=CONFLICT)[1:]


def test_an_interrupt_ends_it_with_no_line(located):
    with subprocess.Popen([LOCATE, "merge", "one"], cwd=located.directory, stdin=subprocess.PIPE, stdout=subprocess.PIPE,
                          stderr=subprocess.PIPE) as locate:
        time.sleep(1)
        locate.send_signal(signal.SIGINT)
        assert (*locate.communicate(timeout=20), locate.returncode) == (b"", b"", -signal.SIGINT)
