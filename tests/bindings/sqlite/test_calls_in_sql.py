"""The functions of the extension for SQLite: the rows of `rows.py`, as text and as blobs, in databases of UTF-8 and of UTF-16; values that
are no text; the codes and the words of errors; and limits.
"""

import itertools
import json

import pytest
from rows import ROWS, clipped, line_of, many, text_of, vector_rows
from sqlite_extension import connected, outcome

# The code of each status that is an error, and what Python makes of it.
CODES = {1: "SQLITE_CONSTRAINT_FUNCTION", 2: "SQLITE_ERROR", 3: "SQLITE_CONSTRAINT_CHECK", 5: "SQLITE_ERROR", 6: "SQLITE_ERROR",
         7: "SQLITE_ERROR", 8: "SQLITE_ERROR"}
CASES = [*vector_rows(), *ROWS,
         *((export, status, first, second, text_of(answer), [text_of(it).encode() for it in given])
           for count in (2, 9, 33) for _, export, status, first, second, answer, given in many(count))]
ENCODINGS = ("UTF-8", "UTF-16le", "UTF-16be")
DEEPEST = "[" * 126 + "]" * 126
COPIES = [{"op": "copy", "from": "", "path": f"/{name}"} for name in "abcdefghijklmnopqrstuvwxyz"]


def asked(connection, export, *values):
    return outcome(connection, f"SELECT mergejoin_{export}({', '.join('?' * len(values))})", values)


def wanted_of(status, first, second, text):
    """Gives what is answered where the library answers this."""
    if status not in CODES:
        return [(None if status == 4 else text,)]
    return CODES[status], clipped(line_of(status, first, second, text))


@pytest.fixture(name="connections", scope="module")
def connections_of_each_encoding(extension):
    opened = [connected(extension) for _ in ENCODINGS]
    for connection, encoding in zip(opened, ENCODINGS):
        connection.execute(f"PRAGMA encoding = '{encoding}'")
        assert connection.execute("PRAGMA encoding").fetchone() == (encoding,)
    yield opened
    for connection in opened:
        connection.close()


@pytest.mark.parametrize("number", range(len(CASES)))
def test_a_call_is_answered(connections, number):
    export, *numbers, text, given = CASES[number]
    for connection, encoding in zip(connections, ENCODINGS):
        # of UTF-16 SQLite makes another character of U+FFFF, which is none
        wanted = wanted_of(*numbers, text.replace("\uffff", "\ufffd") if "16" in encoding else text)
        assert asked(connection, export, *given) == wanted
        if (texts := [it.decode("utf-8", "ignore") for it in given]) == [it.decode("utf-8", "replace") for it in given]:
            assert asked(connection, export, *texts) == wanted


@pytest.mark.parametrize("export,count", [("join", 3), ("replay", 3), ("merge", 3), ("rewrite", 2), ("patch", 2), ("get", 2), ("is_patch", 1)])
def test_of_null_a_function_is_null(connection, export, count):
    """Also if another argument is wrong."""
    for place in range(count):
        assert asked(connection, export, *(None if it == place else "[" for it in range(count))) == [(None,)]


@pytest.mark.parametrize("export,counts", [("replay", [0]), ("merge", [0]), ("rewrite", [1, 3]), ("patch", [0, 3]), ("get", [1, 3]),
                                           ("is_patch", [0, 2])])
def test_another_number_of_arguments_is_refused(connection, export, counts):
    for count in counts:
        code, words = asked(connection, export, *("1" for _ in range(count)))
        assert (code, words) == ("SQLITE_ERROR", f"wrong number of arguments to function mergejoin_{export}()")


@pytest.mark.parametrize("value,answer", [
    (1, "1"), (-2**63, "-9223372036854775808"), (b"{}", "{}"), ("\n [1]\t", "[1]"), ('"\\u0000"', '"\\u0000"'), (DEEPEST, DEEPEST),
    ("é", "patch 0: not JSON"), ("1\0", "patch 0: not JSON"), (b"", "patch 0: not JSON"), ("", "patch 0: not JSON"), (b"\0", "patch 0: not JSON"),
    (1.0, 'patch 0: number not whole at ""'), (1e300, 'patch 0: number not whole at ""'), ('{"a\\"\\n":1.5}', 'patch 0: number not whole at "/a\\"\\n"'),
    ('{"\\u0000\\\\":1.5}', 'patch 0: number not whole at "/\\u0000\\\\"'), (f"[{DEEPEST}]", f'patch 0: too deep at "{"/0" * 126}"'),
], ids=repr)
def test_a_value_is_read_as_its_text(connections, value, answer):
    is_read = not answer.startswith("patch")
    for connection in connections:
        assert asked(connection, "join", value) == ([(answer,)] if is_read else ("SQLITE_ERROR", answer))
        assert asked(connection, "is_patch", value) == [(int(is_read),)]


def test_zeros_of_sqlite_are_bytes(connection):
    assert outcome(connection, "SELECT mergejoin_is_patch(zeroblob(1000)), mergejoin_is_patch(zeroblob(0))") == [(0, 0)]


def test_a_result_is_json_to_the_functions_of_sqlite(connection):
    calls = ["mergejoin_join('{}')", "mergejoin_replay('[]')", "mergejoin_merge('1')", "mergejoin_rewrite('1', '1')", "mergejoin_patch('{}', '[]')",
             "mergejoin_get('[[2]]', '/0')", "(SELECT mergejoin_agg('{}'))", "(SELECT mergejoin_try_agg('{}'))",
             "(SELECT mergejoin_conflict_agg(column1) FROM (VALUES (1), (2)))"]
    wanted = '[{},[],1,[],{},[2],{},{},{"first":0,"second":1,"places":[""]}]'
    assert outcome(connection, f"SELECT json_array({', '.join(calls)})") == [(wanted,)]


def test_functions_may_stand_in_a_schema(connection):
    """They depend on their arguments alone. So an index and a check have them, also of a schema that is not trusted, and all of them one that
    is.
    """
    added = '[{"op":"add","path":"/new","value":1}]'
    connection.execute("CREATE VIEW shown AS SELECT mergejoin_agg(patch) FROM log")
    connection.execute(f"CREATE TABLE patched (patch, new CHECK (new <> 2) AS (mergejoin_patch(patch, '{added}')))")
    connection.execute("CREATE INDEX rewritten ON patched (mergejoin_rewrite('{}', patch))")
    connection.execute("CREATE TABLE log (patch, owner AS (mergejoin_get(patch, '/owner')))")
    for schema in "OFF", "ON":
        connection.execute(f"PRAGMA trusted_schema = {schema}")
        connection.execute(f"CREATE TABLE checked_{schema} (patch CHECK (mergejoin_is_patch(patch)))")
        connection.execute(f"CREATE INDEX owners_{schema} ON log (mergejoin_get(patch, '/owner')) WHERE mergejoin_join(patch) <> '{{}}'")
        connection.execute("INSERT INTO log VALUES ('{\"owner\":\"Ada\"}')")
        assert set(outcome(connection, "SELECT owner FROM log")) == {('"Ada"',)}
        assert outcome(connection, f"INSERT INTO checked_{schema} VALUES ('{{')")[0] == "SQLITE_CONSTRAINT_CHECK"
    connection.execute("INSERT INTO patched VALUES ('{\"owner\":\"Ada\"}')")
    assert outcome(connection, "SELECT new FROM patched INDEXED BY rewritten WHERE mergejoin_rewrite('{}', patch) > ''") == \
        [('{"new":1,"owner":"Ada"}',)]
    assert outcome(connection, "SELECT * FROM shown") == [('{"owner":"Ada"}',)]


@pytest.mark.parametrize("end", ["é" * 200, "x" + "é" * 200, "", "\U0001f600"], ids=["odd", "even", "short", "wide"])
def test_the_first_places_of_a_conflict_are_shown(connection, end):
    """As many bytes of the line as a message has, and no part of a character."""
    names = [f"k{number:03}\\\"\n{end}" for number in range(250)]
    texts = [json.dumps({name: value for name in names}) for value in (1, 2)]
    line = line_of(1, 0, 1, text_of([f"/{name}" for name in names]))
    assert 999 <= len(clipped(line).encode()) <= 1002
    assert asked(connection, "join", *texts) == ("SQLITE_CONSTRAINT_FUNCTION", clipped(line))


@pytest.mark.parametrize("count", [1, 9, 50, 80])
def test_a_line_that_fits_is_shown_as_it_is(connection, count):
    """With all its places, and how many more there are if the length that a value may have is less than they weigh."""
    names = [f"k{number:02}" for number in range(count)]
    texts = [json.dumps({name: value for name in names}) for value in (1, 2)]
    places = [f"/{name}" for name in names]
    for limit, shown in ((10**9, count), (140 * 7, min(7, count))):
        limited(connection, limit)
        line = line_of(1, 0, 1, text_of(places[:shown]), count)
        assert len(line) <= 1000 and asked(connection, "join", *texts) == ("SQLITE_CONSTRAINT_FUNCTION", line)


@pytest.mark.parametrize("count", [3, 1])
def test_of_places_that_are_all_too_long_the_number_is_shown(connection, count):
    texts = [json.dumps({f"k{number}": value for number in range(count)}) for value in (1, 2)]
    limited(connection, 100)
    wanted = "SQLITE_CONSTRAINT_FUNCTION", line_of(1, 0, 1, "[]", count)
    assert [asked(connection, export, *start, *texts) for export, start in (("join", []), ("replay", ["{}"]))] == [wanted] * 2


def test_a_line_as_long_as_a_message_may_have_is_whole(connection):
    for length in (1000, 1001):
        name = "x" * (length - len('patch 0: number not whole at "/"'))
        line = f'patch 0: number not whole at "/{name}"'
        assert asked(connection, "join", json.dumps({name: 1.5})) == ("SQLITE_ERROR", line if length == 1000 else line[:1000] + "..")


TOO_BIG, TOO_LARGE = (("SQLITE_TOOBIG", words) for words in ("string or blob too big", "too large"))


def limited(connection, length):
    connection.setlimit(0, length)  # SQLITE_LIMIT_LENGTH
    return connection


@pytest.mark.parametrize("export", ["join", "replay", "merge"])
def test_a_result_as_long_as_a_value_may_be_is_given(connection, export):
    texts = ['{"a":"%s"}' % ("x" * 200), '{"b":"%s"}' % ("y" * 200)]
    start = [] if export == "join" else ["{}"]
    answer = f"{texts[0][:-1]},{texts[1][1:]}"
    assert asked(limited(connection, len(answer)), export, *start, *texts) == [(answer,)]
    assert asked(limited(connection, len(answer) - 1), export, *start, *texts) == TOO_LARGE


def test_a_group_whose_join_is_too_long_is_reported(connection):
    connection.execute("CREATE TABLE log AS SELECT value AS number, json_object('k' || value, value) AS patch FROM json_each('[1,2,3,4,5,6,7,8,9]')")
    limited(connection, 60)
    for call in "mergejoin_agg(patch)", "mergejoin_try_agg(patch)":
        assert outcome(connection, f"SELECT {call} FROM log WHERE number < 7") == [('{"k1":1,"k2":2,"k3":3,"k4":4,"k5":5,"k6":6}',)]
        assert outcome(connection, f"SELECT {call} FROM log") == TOO_LARGE
    assert outcome(connection, "SELECT mergejoin_conflict_agg(patch) FROM log") == [(None,)]


def test_places_that_no_value_has_are_too_many(connection):
    connection.executescript("""CREATE TABLE log (patch); INSERT INTO log SELECT json_group_object('k' || value, 1) FROM json_each(
        '[1,2,3,4,5,6,7,8,9]'); INSERT INTO log SELECT replace(patch, ':1', ':2') FROM log;""")
    places = ",".join(f'"/k{number}"' for number in range(1, 10))
    assert outcome(connection, "SELECT mergejoin_conflict_agg(patch) FROM log") == [(f'{{"first":0,"second":1,"places":[{places}]}}',)]
    assert outcome(limited(connection, 1000), "SELECT mergejoin_conflict_agg(patch) FROM log") == TOO_BIG


@pytest.mark.parametrize("document", ["{}", '{"z":[[[]]]}'])
def test_copies_that_double_a_document_end_soon(connection, document):
    """Also if the result itself would be short."""
    limited(connection, 100_000)
    assert asked(connection, "patch", document, json.dumps(COPIES)) == TOO_LARGE
    replaced = {"op": "replace", "path": "", "value": 1}
    assert asked(connection, "patch", document, json.dumps([*COPIES[:3], replaced])) == [("1",)]
    assert asked(connection, "patch", document, json.dumps([*COPIES[:13], replaced])) == TOO_LARGE


# Two patches of a quarter of a megabyte, whose places have 720 MB together.
ASKED_OF_LITTLE_MEMORY = """
import resource, sqlite3, sys
resource.setrlimit(resource.RLIMIT_AS, (400_000_000,) * 2)
connection = sqlite3.connect(":memory:")
connection.enable_load_extension(True)
connection.load_extension(sys.argv[1])
texts = ['{"%s":{%s}}' % ("~" * 60_000, ",".join(f'"{number}":{value}' for number in range(6_000))) for value in (1, 2)]
for call in "mergejoin_join(?, ?)", "mergejoin_replay('1', ?, ?)":
    try:
        connection.execute(f"SELECT {call}", texts)
    except sqlite3.Error as error:
        print(error.sqlite_errorname, str(error)[:36], len(str(error)), str(error)[-4:])
"""


def test_a_wide_conflict_takes_little_memory(extension, run):
    line = 'SQLITE_CONSTRAINT_FUNCTION conflict: patches 0 and 1 at "/~0~0~ 1002 0~..\n'
    assert run(["/usr/bin/python3", "-I", "-c", ASKED_OF_LITTLE_MEMORY, extension]) == (0, 2 * line, "")


def test_small_objects_are_no_bomb(connection):
    """They weigh much more than their text has bytes, and have to be copied and rewritten within the limit of the text."""
    document = json.dumps([{"": number} for number in range(500)], separators=(",", ":"))
    limited(connection, 2 * len(document) + 50)
    assert asked(connection, "patch", document, '[{"op":"test","path":"","value":[]}]')[0] == "SQLITE_CONSTRAINT_CHECK"
    assert asked(connection, "patch", f'{{"a":{document}}}', '[{"op":"copy","from":"/a","path":"/b"}]') == \
        [(f'{{"a":{document},"b":{document}}}',)]
    rewriting = f'[{{"op":"test","path":"","value":1}},{{"op":"replace","path":"","value":{document}}}]'
    assert asked(limited(connection, len(rewriting)), "rewrite", "1", document) == [(rewriting,)]
    assert asked(limited(connection, len(rewriting) - 1), "rewrite", "1", document) == TOO_BIG


def test_codes_part_what_went_wrong(connection):
    """The codes part a conflict, a refused operation, and what is wrong with a text."""
    said = [asked(connection, export, *texts)[0] for export, texts in (
        ("join", ["1", "2"]), ("patch", ["1", '[{"op":"test","path":"","value":2}]']), ("join", ["["]), ("patch", ["1", "{}"]))]
    assert said == ["SQLITE_CONSTRAINT_FUNCTION", "SQLITE_CONSTRAINT_CHECK", "SQLITE_ERROR", "SQLITE_ERROR"]


def test_an_error_undoes_its_statement_and_no_more(connection):
    connection.isolation_level = None
    connection.executescript("CREATE TABLE log (patch); INSERT INTO log VALUES ('1'), ('{'); BEGIN; INSERT INTO log VALUES ('2')")
    for statement in "UPDATE log SET patch = mergejoin_join(patch)", "INSERT INTO log SELECT mergejoin_join(patch) FROM log":
        assert outcome(connection, statement) == ("SQLITE_ERROR", "patch 0: not JSON")
    assert connection.in_transaction and outcome(connection, "SELECT patch FROM log") == [("1",), ("{",), ("2",)]


# Each statement asks for more memory than is left, in a transaction with two rows: what is left of that.
WITHOUT_MEMORY = """
import resource, sqlite3, sys
extension, *statements = sys.argv[1:]
connections = [sqlite3.connect(":memory:", isolation_level=None) for _ in statements]
for connection in connections:
    connection.enable_load_extension(True)
    connection.load_extension(extension)
    connection.execute("CREATE TABLE log (patch)")
    connection.execute("BEGIN")
    connection.execute("INSERT INTO log VALUES (1), (2)")
text = "[" + ",".join(["[]"] * 500_000) + "]"
now = int(open("/proc/self/statm").read().split()[0]) * resource.getpagesize()
resource.setrlimit(resource.RLIMIT_AS, (now + 20_000_000,) * 2)
for connection, statement in zip(connections, statements):
    try:
        connection.execute(statement, [text])
    except MemoryError:
        print(connection.in_transaction, len(connection.execute("SELECT * FROM log").fetchall()))
"""


def test_without_memory_the_transaction_may_end(extension, run):
    """All of it is undone where SQLite has no journal of the statement, as of one that reads or that writes one row. A program asks whether it is
    still open.
    """
    ends = ["SELECT mergejoin_join(?) FROM log", "SELECT mergejoin_agg(it) FROM (SELECT ? AS it FROM log)", "INSERT INTO log VALUES (mergejoin_join(?))"]
    stays = ["UPDATE log SET patch = mergejoin_join(?)", "INSERT INTO log SELECT mergejoin_join(?) FROM log"]
    words = ["/usr/bin/python3", "-I", "-c", WITHOUT_MEMORY, extension, *ends, *stays]
    assert run(words) == (0, "False 0\n" * len(ends) + "True 2\n" * len(stays), "")


@pytest.mark.parametrize("export,texts", itertools.product(["join", "merge", "replay"], [["[" * n + "]" * n, "{}"] for n in (126, 127)]))
def test_the_deepest_texts_are_taken(connection, export, texts):
    answer = asked(connection, export, texts[0])
    assert answer == [(texts[0],)] if len(texts[0]) == 252 else "too deep" in answer[1]
