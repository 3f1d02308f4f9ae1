"""The decision of docs/SQLITE.md, as the page prints it, in the shell: with no start, without a patch, with a conflict among the chosen ones, and
where one of these is not stored; by two sessions at once, and killed in the middle. Whatever was received is in the new start, or a row.
"""

import json
import subprocess
import threading

import pytest
from sqlite_extension import connected, outcome
from sqlite_page import PAGE, shell, statements_with

TABLES = statements_with("CREATE TABLE starts").partition("INSERT INTO")[0]
DECISION = statements_with("chosen")
EXCHANGE = statements_with("ATTACH").partition("\n\n")[2].rpartition("SELECT coalesce")[0]
CHOSEN = """('{"author":"Ada"}'), ('{"pages":7}'), ('{"title":null}')"""
ALL = "INSERT INTO chosen SELECT patch FROM patches WHERE doc = 'notes/2'"
START, BOB = '{"title":"Notes"}', '{"author":"Bob"}'
PATCHES = ['{"author":"Ada"}', '{"pages":7}', '{"title":null}']
DECIDED = '{"author":"Ada","pages":7}'


@pytest.fixture(name="machine")
def what_makes_a_database(needs, extension, tmp_path):
    needs("sqlite3")

    def made(name="one", start=START, patches=(*PATCHES, BOB)):
        file = tmp_path / f"{name}.db"
        connection = connected(extension, file, isolation_level=None)
        connection.executescript(TABLES)
        if start:
            connection.execute("INSERT INTO starts VALUES ('notes', ?)", [start])
        connection.executemany("INSERT INTO patches VALUES ('notes', ?)", [[it] for it in patches])
        connection.close()
        return file

    return made


def stored(extension, file):
    """Gives the starts and the patches of a database, which is whole."""
    connection = connected(extension, file)
    assert outcome(connection, "PRAGMA integrity_check") == [("ok",)]
    starts, patches = (outcome(connection, f"SELECT * FROM {it} ORDER BY 1, 2") for it in ("starts", "patches"))
    connection.close()
    return dict(starts), [patch for _, patch in patches]


def of_no_change(extension, file, before, decision, error):
    """A decision ends with an error, and changes nothing."""
    status, _, err = shell(extension, file, decision)
    assert status == 1 and error in err and stored(extension, file) == before


def test_it_makes_a_new_start_and_deletes_what_is_in_it(extension, machine):
    file = machine()
    assert shell(extension, file, DECISION)[::2] == (0, "")
    assert stored(extension, file) == ({"notes": START, "notes/2": DECIDED}, [BOB])


def test_of_no_patch_the_new_start_is_the_old_one(extension, machine):
    file = machine(patches=())
    assert shell(extension, file, DECISION.replace(f"VALUES {CHOSEN}", "SELECT 1 WHERE false"))[::2] == (0, "")
    assert stored(extension, file) == ({"notes": START, "notes/2": START}, [])


@pytest.mark.parametrize("start,patches,chosen,error", [
    (None, PATCHES, CHOSEN, "NOT NULL constraint failed: starts.start"),
    (START, PATCHES[1:], CHOSEN, "NOT NULL constraint failed: starts.start"),
    # another machine put a join in the place of two of them
    (START, ['{"author":"Ada","pages":7}', *PATCHES[1:]], CHOSEN, "NOT NULL constraint failed: starts.start"),
    (START, [*PATCHES, BOB], f"{CHOSEN}, ('{BOB}')", 'conflict: two patches at "/author"'),
], ids=["no start", "a patch is not stored", "a patch was shortened away", "conflict"])
def test_an_error_ends_it_and_nothing_has_changed(extension, machine, start, patches, chosen, error):
    """Nor if a program goes on after it."""
    file = machine(start=start, patches=patches)
    before = stored(extension, file)
    decision = DECISION.replace(CHOSEN, chosen)
    of_no_change(extension, file, before, decision, error)
    shell(extension, file, decision.replace(".bail on\n", ""))
    assert stored(extension, file) == before


def taken(extension, file, other):
    """Gives what a machine prints that takes the rows of another."""
    status, out, err = shell(extension, file, f"ATTACH '{other}' AS other;\n{EXCHANGE}")
    assert (status, err) == (0, "")
    return out


def test_the_other_machine_takes_the_new_start_or_makes_the_same(extension, machine):
    """In whatever order the patches came. It cannot decide until it has each chosen patch, and then it makes the same."""
    one, two, three = machine(), machine("two", patches=[BOB, *PATCHES[:2]]), machine("three", start=None, patches=['{"mine":1}'])
    of_no_change(extension, two, stored(extension, two), DECISION, "NOT NULL constraint failed")
    assert taken(extension, two, one) == "" and shell(extension, two, DECISION)[0] == shell(extension, one, DECISION)[0] == 0
    assert stored(extension, one) == stored(extension, two) == ({"notes": START, "notes/2": DECIDED}, [BOB])
    assert [taken(extension, *pair) for pair in ((three, one), (one, two), (two, three), (two, three))] == [""] * 4
    assert stored(extension, three) == stored(extension, two) == ({"notes": START, "notes/2": DECIDED}, [BOB, '{"mine":1}'])


def test_two_decisions_for_one_name_are_printed(extension, machine):
    one, other = machine(), machine("other")
    assert shell(extension, one, DECISION)[0] == shell(extension, other, DECISION.replace(CHOSEN, f"('{BOB}')"))[0] == 0
    assert taken(extension, one, other) == taken(extension, other, one) == "notes/2\n"
    assert [stored(extension, it)[0]["notes/2"] for it in (one, other)] == [DECIDED, '{"author":"Bob","title":"Notes"}']


def test_all_are_decided_for_as_the_page_shortens(extension, machine):
    file = machine()
    assert f"`{ALL}`" in PAGE
    shortened = DECISION.replace("'notes/2'", "'notes/3'").replace("'notes'", "'notes/2'").replace(f"INSERT INTO chosen VALUES {CHOSEN}", ALL)
    assert shell(extension, file, DECISION)[0] == 0
    connection = connected(extension, file, isolation_level=None)
    connection.executemany("INSERT INTO patches VALUES ('notes/2', ?)", [['{"tags":[]}'], ['{"pages":null}']])
    connection.close()
    assert shell(extension, file, shortened)[::2] == (0, "")
    assert stored(extension, file) == ({"notes": START, "notes/2": DECIDED, "notes/3": '{"author":"Ada","tags":[]}'}, [BOB])


@pytest.mark.parametrize("chosen", [CHOSEN, f"('{BOB}'), ('{PATCHES[1]}')"], ids=["the same", "another"])
def test_of_two_sessions_at_once_one_decides(extension, machine, tmp_path, chosen):
    """Whoever is second has an error, whether it waits or not, and a patch that was not chosen is still there. If neither waits, the
    second may keep the first from its COMMIT while it looks whether it may begin: then both are refused, and one is repeated."""
    for number in range(15):
        file, ended = machine(f"{number}"), []
        decisions = [f".timeout {1000 * (number % 2)}\n{it}" for it in (DECISION, DECISION.replace(CHOSEN, chosen))]
        threads = [threading.Thread(target=lambda it=it: ended.append(shell(extension, file, it))) for it in decisions]
        for thread in threads:
            thread.start()
        for thread in threads:
            thread.join()
        if number % 2 == 0 and all("database is locked" in err for _, _, err in ended):
            assert "notes/2" not in stored(extension, file)[0]
            ended[0] = shell(extension, file, decisions[0])
        assert sorted(status for status, _, _ in ended) == [0, 1], ended
        (err,) = (err for status, _, err in ended if status)
        assert any(it in err for it in ("NOT NULL constraint failed: starts.start", "UNIQUE constraint failed: starts.doc", "database is locked"))
        starts, patches = stored(extension, file)
        shown = json.loads(starts["notes/2"])
        assert all(it in patches or shown.items() >= {name: value for name, value in json.loads(it).items() if value is not None}.items()
                   for it in (*PATCHES, BOB))


@pytest.mark.parametrize("before", range(1, DECISION.count(";")))
def test_a_session_that_is_killed_changes_nothing_and_can_be_repeated(extension, machine, before):
    """It is killed after so many of its statements, while others are on their way."""
    file = machine()
    whole = stored(extension, file)
    statements = DECISION.replace(".bail on\n", "").split(";\n")
    path = str(extension).removesuffix(".so")
    with subprocess.Popen(["sqlite3", "-batch", str(file)], stdin=subprocess.PIPE, stdout=subprocess.PIPE, text=True) as process:
        process.stdin.write(f".load {path}\n.bail on\n" + "".join(f"{it};\n" for it in statements[:before]) + "SELECT 'so far';\n")
        process.stdin.flush()
        while "so far" not in process.stdout.readline():
            pass
        process.kill()
    is_committed = any("COMMIT" in it for it in statements[:before])
    decided = {"notes": START, "notes/2": DECIDED}, [BOB]
    assert stored(extension, file) == (decided if is_committed else whole)
    assert shell(extension, file, DECISION)[0] == int(is_committed)
    assert stored(extension, file) == decided
