"""bin/feed on files that are there, missing, empty, odd and no JSON, on pipes and on streams that are closed or full."""

import signal
import subprocess
import time

import pytest
from calls import TOP
from package import VERSION

FEED = TOP / "bin/feed"
ODD = b' {"b" :1.50,\r\n"a":[1E2,-0,"\\u0041\xc3\xa9"],"b":18446744073709551616}\n'
FILES = {"one": b'{"a":1}\n', "two": b'{"b":2}', "odd": ODD, "-": b'"dash"', "--help": b'"help"', "--": b"3"}

LINES = {"log": b'{"a":\t1}\n\n2 \r\n \t\r\n[]', "blank": b"\n \r\n", "wrong": b"1\n\n[1, ]\n", "bytes": b'1\n"\xff"', "--lines": b"4"}
USAGE = "feed: usage: feed [--lines] FILE..\n"

# Words, and what is printed, which is the bytes of the files, whatever they are; or what is said.
CALLS = {
    "files": ([FEED, "one", "odd", "two"], f'[{{"a":1}}\n,{ODD.decode()},{{"b":2}}]\n'),
    "files, by sh": (["sh", FEED, "one", "two"], '[{"a":1}\n,{"b":2}]\n'),
    "no file": ([FEED], USAGE),
    "no file after --": ([FEED, "--"], USAGE),
    "no file of lines": ([FEED, "--lines"], USAGE),
    "no file of lines after --": ([FEED, "--lines", "--"], USAGE),
    "lines": ([FEED, "--lines", "log", "two"], '[{"a":\t1},2 \r,[],{"b":2}]\n'),
    "lines after --": ([FEED, "--lines", "--", "--lines"], "[4]\n"),
    "a file named --lines": ([FEED, "--", "--lines"], "[4]\n"),
    "lines of which there is none": ([FEED, "--lines", "blank"], "[]\n"),
    "a line that is no text": ([FEED, "--lines", "log", "wrong"], "feed: wrong: line 3: it is not JSON: Expecting value, at column 5\n"),
    "a line with two texts": ([FEED, "--lines", "odd"], "feed: odd: line 1: it is not JSON: Expecting property name enclosed in double quotes,"
                              " at column 14\n"),
    "a line that is not UTF-8": ([FEED, "--lines", "bytes"], "feed: bytes: line 2: it is not UTF-8 at byte 1\n"),
    "a file named -": ([FEED, "-", "two"], '["dash",{"b":2}]\n'),
    "a file named --help": ([FEED, "--", "--help", "--"], '["help",3]\n'),
    "a file named by an option among others": ([FEED, "two", "--help"], '[{"b":2},"help"]\n'),
    "standard input by its name": ([FEED, "/dev/stdin"], "[5]\n"),
    "a missing file": ([FEED, "one", "three"], "feed: three: there is no such file\n"),
    "a directory": ([FEED, "."], "feed: .: it is a directory\n"),
    "a name in a file": ([FEED, "one/x"], "feed: one/x: it can't be read: Not a directory\n"),
    "a name with control bytes": ([FEED, "\x1b[31m\n\x9b"], "feed: \\u001b[31m\\u000a\\u009b: there is no such file\n"),
    "a name that is not UTF-8": ([FEED, b"\xff"], "feed: \\udcff: there is no such file\n"),
}

# A text, and what is said of it.
REFUSED = {
    b"": "it is empty",
    b" \r\n\t": "it is empty",
    b"\x0b": "it is not JSON: Expecting value, at line 1, column 1",
    b'"\x01"': "it is not JSON: Invalid control character at, at line 1, column 2",
    b'{"x":1},{"y":2}': "there is more than one JSON text, at line 1, column 8",
    b"1\n2": "there is more than one JSON text, at line 2, column 1",
    b"[1]]": "there is more than one JSON text, at line 1, column 4",
    b'{"a":1,\n "b":}': "it is not JSON: Expecting value, at line 2, column 6",
    b"{": "it is not JSON: Expecting property name enclosed in double quotes, at line 1, column 2",
    b"[NaN]": "it is not JSON: NaN is not a value",
    b"-Infinity": "it is not JSON: -Infinity is not a value",
    b'\xef\xbb\xbf{"a":1}': "it is not JSON: Unexpected UTF-8 BOM (decode using utf-8-sig), at line 1, column 1",
    b'["\xff"]': "it is not UTF-8 at byte 2",
    b"[" * 100_000: "it nests too many levels",
    b"7" * 1_048_577: "it has more than 1,048,576 bytes, all that mergejoin reads",
}

# A line of the shell, its status, and what standard output and standard error get.
FAILED = "feed: write failed\n"
SHELL = {
    "process substitution": (f"{FEED} <(echo 1) one <(sleep 0.2; echo 3)", 0, '[1\n,{"a":1}\n,3\n]\n', ""),
    "two texts of a process": (f"{FEED} <(echo 1 2)", 2, "", "feed: /dev/fd/63: there is more than one JSON text, at line 1, column 3\n"),
    "a FIFO": (f"mkfifo pipe; (sleep 0.2; echo 7 >pipe) & {FEED} two pipe", 0, '[{"b":2},7\n]\n', ""),
    "a missing file named -": (f"cd /; echo 5 | {FEED} -", 2, "", "feed: -: there is no such file\n"),
    "standard output that is full": (f"{FEED} one >/dev/full", 2, "", FAILED),
    "standard output that is closed": (f"{FEED} one >&-", 2, "", FAILED),
    "a reader that went away": (f"(trap '' PIPE; {FEED} big | true; exit ${{PIPESTATUS[0]}})", 2, "", FAILED),
    "standard error that is closed": (f"{FEED} three 2>&-", 2, "", ""),
    "all of them closed": (f"{FEED} one >&- 2>&- <&-", 2, "", ""),
}


@pytest.fixture(autouse=True)
def files(tmp_path):
    for name, text in {**FILES, **LINES}.items():
        (tmp_path / name).write_bytes(text)


@pytest.mark.parametrize("words,text", CALLS.values(), ids=CALLS)
def test_files_are_printed_as_they_are_or_refused(run, words, text):
    assert run(words, given=b"5") == ((2, "", text) if text.startswith("feed: ") else (0, text, ""))


@pytest.mark.parametrize("text", [b"9" * 400, b"[" * 126 + b"]" * 126, b'"\\ud800"', b"7" * 1_048_576], ids=lambda text: text[:9].decode())
def test_what_is_left_to_the_program_is_printed(run, tmp_path, text):
    (tmp_path / "left").write_bytes(text)
    assert run([FEED, "left"]) == (0, f"[{text.decode()}]\n", "")


@pytest.mark.parametrize("text,why", REFUSED.items(), ids=[repr(text[:20]) for text in REFUSED])
def test_nothing_is_printed_if_one_file_is_wrong(run, tmp_path, text, why):
    (tmp_path / "bad").write_bytes(text)
    assert run([FEED, "one", "bad", "two"]) == (2, "", f"feed: bad: {why}\n")


@pytest.mark.parametrize("line,status,out,err", SHELL.values(), ids=SHELL)
def test_a_line_of_the_shell_ends_as_it_should(run, tmp_path, line, status, out, err):
    (tmp_path / "big").write_bytes(b"[" + b"1," * 500_000 + b"1]")
    assert run(line, shell=True) == (status, out, err)


@pytest.mark.parametrize("word", ["--help", "-h"])
def test_help(run, word):
    status, out, err = run([FEED, word])
    assert (status, err) == (0, "") and "Prints files" in out and "mergejoin-feed start.json" in out


def test_many_files_are_read_by_one_process(run, tmp_path):
    """10 s are far more than 5,000 files take, and less than two processes a file would."""
    names = [f"part{number}" for number in range(5000)]
    for name in names:
        (tmp_path / name).write_text(f'{{"{name}":1}}')
    begin = time.monotonic()
    assert run([FEED, *names]) == (0, "[" + ",".join(f'{{"{name}":1}}' for name in names) + "]\n", "")
    assert time.monotonic() - begin < 10


def test_version(run):
    assert run([FEED, "--version"]) == (0, f"feed {VERSION}\n", "")


def test_what_is_next_to_the_script_or_is_set_is_not_run(run, tmp_path):
    """A module in the directory of the script, in the current one, and in one of the environment; and by a link of another name."""
    (tmp_path / "json.py").write_text("print('mine')")
    (tmp_path / "other").write_bytes(FEED.read_bytes())
    (tmp_path / "other").chmod(0o755)
    setting = {"PYTHONPATH": str(tmp_path), "PYTHONSTARTUP": str(tmp_path / "json.py"), "PYTHONINSPECT": "1"}
    for words in (["./other", "two"], ["sh", "./other", "two"]):
        assert run(words, setting=setting) == (0, '[{"b":2}]\n', "")
    assert run(["./other", "three"]) == (2, "", "other: three: there is no such file\n")


def test_an_interrupt_ends_it_with_no_line(run, tmp_path):
    run(["mkfifo", "pipe"])
    with subprocess.Popen([FEED, "pipe"], cwd=tmp_path, stdout=subprocess.PIPE, stderr=subprocess.PIPE) as feed:
        with open(tmp_path / "pipe", "wb"):  # (which waits until it is opened there too)
            feed.send_signal(signal.SIGINT)
            assert (*feed.communicate(timeout=20), feed.returncode) == (b"", b"", -signal.SIGINT)
