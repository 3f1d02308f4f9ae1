"""What bindings/sqlite/replica.py does with lines of all kinds: what it acknowledges is the line that came, byte for byte, and is stored. What it
refuses is reported with its number, stops no other line, and takes little memory. And what it shows of a document that is not there.
"""

import subprocess

import pytest
from calls import TOP, run
from sqlite_extension import connected

REPLICA = TOP / "bindings/sqlite/replica.py"
LONGEST = 1_000_000
# Lines that are stored, and the patch of each.
STORED = [
    (b'notes\t{"a": 1}\n', '{"a":1}'),
    (b'notes\t{"b": 1}\r\n', '{"b":1}'),
    (b'notes\t{"c":\r 1,\r"d":2}\n', '{"c":1,"d":2}'),
    (b'notes\t\t{"e":\t1}\t\n', '{"e":1}'),
    (b'notes\t{"f\\u2028\xe2\x80\xa8\xc2\x85": "\xc3\xa9"}\n', '{"f\u2028\u2028\x85":"\u00e9"}'),
    (b'notes\t{"g": "%s"}\n' % (b"x" * (LONGEST - 16)), '{"g":"%s"}' % ("x" * (LONGEST - 16))),
    (b"notes\t7\x0b\n".replace(b"\x0b", b" "), "7"),
]
OTHER_DOC = b'\xc3\xa9 \x00\t{"a": 1}\n'
# Lines that are not, and what is said of each.
REFUSED = [
    (b'notes\t{"a": \n', "OperationalError('patch 0: not JSON')"),
    (b"notes\t{\"a\": 1.5, \"b\": 2}\n", "OperationalError('patch 0: number not whole at \"/a\"')"),
    (b"notes\t[\xff]\n", "OperationalError('patch 0: not JSON')"),
    (b'notes\t{"\\u009b\\u001b": 1.5}\n', "OperationalError('patch 0: number not whole at \"/\\x9b\\\\u001b\"')"),
    (b"notes\xff\t{}\n", "UnicodeDecodeError("),
    (b"\n", "ValueError('no tab"),
    (b"\r\n", "ValueError('no tab"),
    (b"notes {}\n", "ValueError('no tab"),
    (b"notes\t\n", "OperationalError('patch 0: not JSON')"),
    (b'notes\t{"g": "%s"}\n' % (b"y" * (LONGEST - 15)), "ValueError('no tab in it, no newline after it, or more than 1000000 bytes')"),
    (b'notes\t{"g": "%s"}\n' % (b"z" * (3 * LONGEST)), "ValueError('no tab"),
]
CUT = b"notes\t12"
OF_LITTLE_MEMORY = """
import resource, runpy, sys
resource.setrlimit(resource.RLIMIT_AS, (100_000_000,) * 2)
sys.argv = sys.argv[1:]
runpy.run_path(sys.argv[0])
"""


def receive(python, file, lines, limit=60):
    return subprocess.run([python, "-I", REPLICA, file, "receive"], input=lines, capture_output=True, check=False, timeout=limit)


def patches(extension, file):
    connection = connected(extension, file)
    found = connection.execute("SELECT doc, patch FROM patches").fetchall()
    connection.close()
    return found


@pytest.mark.parametrize("last", [b"", CUT], ids=["whole", "cut"])
def test_each_line_that_can_be_stored_is_stored_and_acknowledged_as_it_came(python, extension, tmp_path, last):
    """Of those between that can't, each is reported by its number. A last line without its newline may have been cut."""
    lines = [*(it for pair in zip(STORED, REFUSED) for it, _ in pair), *(it for it, _ in REFUSED[len(STORED):]), OTHER_DOC, last]
    done = receive(python, tmp_path / "replica.db", b"".join(lines))
    assert done.stdout == b"".join(it for it, _ in STORED) + OTHER_DOC and done.returncode == 1
    wanted = {lines.index(it) + 1: words for it, words in [*REFUSED, *([(CUT, "ValueError('no tab")] if last else [])]}
    said = [it.split(": ", 1) for it in done.stderr.decode("ascii").splitlines()]
    assert [number for number, _ in said] == [f"line {number}" for number in sorted(wanted)]
    assert all(words.startswith(wanted[number]) for (_, words), number in zip(said, sorted(wanted)))
    stored = {("notes", it) for _, it in STORED} | {("\u00e9 \0", '{"a":1}')}
    assert set(patches(extension, tmp_path / "replica.db")) == stored


def test_if_all_are_stored_the_status_is_0(python, tmp_path):
    done = receive(python, tmp_path / "replica.db", b"".join(it for it, _ in STORED))
    assert (done.returncode, done.stderr) == (0, b"") and receive(python, tmp_path / "replica.db", b"").returncode == 0


def test_a_line_without_end_takes_little_memory(python, tmp_path):
    """Of 300 MB, in a process that may have 100 MB."""
    words = [python, "-I", "-c", OF_LITTLE_MEMORY, REPLICA, tmp_path / "replica.db", "receive"]
    with subprocess.Popen(words, stdin=subprocess.PIPE, stdout=subprocess.PIPE, stderr=subprocess.PIPE) as process:
        for _ in range(300):
            process.stdin.write(b"x" * LONGEST)
        out, err = process.communicate(b"\nnotes\t{}\n")
    assert (out, process.returncode) == (b"notes\t{}\n", 1) and err.startswith(b"line 1: ValueError(") and err.count(b"\n") == 1


def test_a_document_that_is_not_there_is_an_error(python, tmp_path):
    words = [python, "-I", REPLICA, tmp_path / "replica.db"]
    receive(python, tmp_path / "replica.db", b'early\t{"a":1}\n')
    for name in ("notes", "early", "\x1b\u009b"):
        status, out, err = run([*words, "show", name])
        assert (status, out) == (1, "") and err == f"no start: {name!a}\n"
    assert run([*words, "start", "notes", "null"]) == run([*words, "start", "notes", " null"]) == (0, "", "")
    assert run([*words, "show", "notes"]) == (0, "null\n", "")


def test_another_start_of_a_document_is_an_error(python, tmp_path):
    words = [python, "-I", REPLICA, tmp_path / "replica.db"]
    assert run([*words, "start", "notes", "{}"]) == (0, "", "")
    assert run([*words, "start", "notes", "[]"]) == (1, "", "another start: 'notes'\n")
    assert run([*words, "show", "notes"]) == (0, "{}\n", "")
