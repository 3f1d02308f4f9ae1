"""A database file of a stranger, of a few kB, whose views and triggers call the functions: with a schema that is not trusted no call of them takes
more than the texts that it is given. What can take more is refused there, and goes on in a schema that is trusted.
"""

import json
import sqlite3
import time

import pytest
from sqlite_extension import connected, outcome

# What a view may call that is not trusted, and what it may not.
LINEAR = ["join('{}', '{\"a\":1}')", "replay('{}', '{\"a\":1}')", "merge('{}', '{\"a\":1}')", "get('{\"b\":{\"a\":1}}', '/b')"]
OTHERS = {
    "patch": "mergejoin_patch('{}', '[{\"op\":\"add\",\"path\":\"/a\",\"value\":1}]')",
    "rewrite": "mergejoin_get(mergejoin_rewrite('{}', '{\"a\":{\"a\":1}}'), '/0/value')",
    "agg": "(SELECT mergejoin_agg(column1) FROM (VALUES ('{}'), ('{\"a\":1}')))",
    "try_agg": "(SELECT mergejoin_try_agg(column1) FROM (VALUES ('{}'), ('{\"a\":1}')))",
    "conflict_agg": "(SELECT iif(mergejoin_conflict_agg(column1), '', '{\"a\":1}') FROM (VALUES ('{}'), ('{\"a\":1}')))",
}
COPIES = json.dumps([{"op": "copy", "from": "", "path": f"/{number}"} for number in range(60)])
DOUBLED = f"SELECT mergejoin_patch('{{\"\":1}}', '{COPIES}') AS it"
MOST = 64 << 10


def stranger_s(directory, *statements):
    """Gives a small file, which was made without the extension."""
    directory.mkdir(exist_ok=True)
    file = directory / "stranger.db"
    connection = sqlite3.connect(file, isolation_level=None)
    connection.execute("PRAGMA page_size = 512")
    for statement in statements:
        connection.execute(statement)
    connection.close()
    assert file.stat().st_size < MOST
    return file


def opened(extension, file, is_trusted):
    connection = connected(extension, file, isolation_level=None)
    connection.execute(f"PRAGMA trusted_schema = {is_trusted}")
    return connection


@pytest.mark.parametrize("is_trusted", [0, 1])
def test_linear_functions_are_called_from_any_schema(extension, tmp_path, is_trusted):
    views = [f"CREATE VIEW v{number} AS SELECT mergejoin_{call} AS it" for number, call in enumerate(LINEAR)]
    connection = opened(extension, stranger_s(tmp_path, *views, "CREATE VIEW v4 AS SELECT mergejoin_is_patch('{') AS it"), is_trusted)
    said = [outcome(connection, f"SELECT it FROM v{number}") for number in range(5)]
    assert said == [[('{"a":1}',)]] * 4 + [[(0,)]]


@pytest.mark.parametrize("name", OTHERS)
def test_the_others_are_called_from_a_trusted_schema_alone(extension, tmp_path, name):
    """From a view and from a trigger. Whoever writes the statement calls them in either case."""
    file = stranger_s(tmp_path, f"CREATE VIEW it AS SELECT {OTHERS[name]} AS it", "CREATE TABLE log (patch)",
                      f"CREATE TRIGGER added AFTER INSERT ON log BEGIN UPDATE log SET patch = {OTHERS[name]}; END")
    for is_trusted in 1, 0:
        connection = opened(extension, file, is_trusted)
        refused = "SQLITE_ERROR", f"unsafe use of mergejoin_{name}()"
        assert outcome(connection, "SELECT it FROM it") == ([('{"a":1}',)] if is_trusted else refused)
        assert outcome(connection, "INSERT INTO log VALUES (1)") == ([] if is_trusted else refused)
        assert outcome(connection, f"SELECT {OTHERS[name]}") == [('{"a":1}',)]
        connection.close()


@pytest.mark.parametrize("call", ["is_patch(it)", "join(it)", "replay(it)", "merge('1', it)", "get(it, '/0')"])
def test_a_text_that_a_view_makes_is_as_long_as_a_value_may_be(extension, tmp_path, call):
    """Which bounds the time of a call that can't be given up."""
    view = f"CREATE VIEW it AS SELECT mergejoin_{call} FROM (SELECT '[' || replace(hex(zeroblob(%d)), '00', '[],') || '1]' AS it)"
    begun = time.monotonic()
    for count, is_long in ((330_000, False), (100_000_000, True)):
        connection = opened(extension, stranger_s(tmp_path / str(count), view % count), 0)
        connection.setlimit(0, 1_000_000)  # SQLITE_LIMIT_LENGTH
        said = outcome(connection, "SELECT * FROM it")
        assert (said == ("SQLITE_TOOBIG", "string or blob too big")) is is_long
    assert time.monotonic() < begun + 5


def test_a_view_that_doubles_a_document_is_given_up(extension, tmp_path):
    """Within the time that the progress handler of its reader leaves, or soon after."""
    connection = opened(extension, stranger_s(tmp_path, f"CREATE VIEW it AS {DOUBLED}"), 0)
    begun = time.monotonic()
    connection.set_progress_handler(lambda: time.monotonic() > begun + 0.5, 100)
    assert outcome(connection, "SELECT it FROM it")[0] == "SQLITE_ERROR"
    assert time.monotonic() < begun + 3
