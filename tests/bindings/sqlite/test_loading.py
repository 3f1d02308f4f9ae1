"""The extension for SQLite exports its entry point alone, and is loaded by its name: by the shell, by Python and by C, also next to the package
for Python, which contains the library too, and after it was unloaded.
"""

import concurrent.futures
import re
import shutil
import sqlite3

import pytest
from calls import TOP
from sqlite_extension import SOURCES, connected, outcome

VERSION = re.findall(r"^## ([\d.]+) ", (TOP / "CHANGELOG.md").read_text("utf-8"), re.M)[0]
JOINED = "SELECT mergejoin_join('{\"a\":1}', '{\"b\":null}')"


def test_it_exports_the_entry_point_alone(needs, extension, run):
    needs("nm")
    assert run(["nm", "-D", "--defined-only", extension])[1].split()[2:] == ["sqlite3_mergejoinsqlite_init"]


def test_it_wants_an_old_c_library_and_no_other(needs, extension, run):
    needs("readelf")
    assert re.findall(r"\(NEEDED\).*\[(.*)\]", run(["readelf", "-d", extension])[1]) == ["libc.so.6"]
    assert max(int(minor) for minor in re.findall(rb"GLIBC_2\.([0-9]+)", extension.read_bytes())) <= 14


def test_in_the_repository_make_finds_the_library(needs, run):
    needs("make")
    status, out, _ = run(["make", "-nB", "-C", SOURCES], setting={"MERGEJOIN_LIB": ""})
    assert status == 0 and f"{SOURCES}/../../out/lib/libmergejoin.a" in out


@pytest.mark.parametrize("name", ["{}", "{}.so", "./mergejoin_sqlite", "mergejoin_sqlite"])
def test_the_shell_loads_it(needs, extension, run, name):
    """By its path, with the end of its name or without, or from where the linker of the system looks."""
    needs("sqlite3")
    given = f".load {name.format(str(extension).removesuffix('.so'))}\n{JOINED};\n"
    setting = {"LD_LIBRARY_PATH": "" if "/" in name or "{" in name else str(extension.parent)}
    assert run(["sqlite3", "-batch", ":memory:"], given, setting=setting, cwd=extension.parent) == (0, '{"a":1,"b":null}\n', "")


def test_sql_loads_it_where_that_is_allowed(extension):
    """And once more, but not while a statement runs that may call it."""
    connection = sqlite3.connect(":memory:")
    connection.enable_load_extension(True)
    load = "SELECT load_extension(?)", [str(extension)]
    assert outcome(connection, *load) == [(None,)] and outcome(connection, JOINED) == [('{"a":1,"b":null}',)]
    connection.load_extension(str(extension))
    words = "error during initialization: unable to delete/modify user-function due to active statements"
    assert outcome(connection, *load) == ("SQLITE_ERROR", words)


def test_by_another_name_it_has_no_entry_point(needs, extension, run, tmp_path):
    needs("sqlite3")
    shutil.copy(extension, tmp_path / "mergejoin.so")
    status, _, err = run(["sqlite3", "-batch", ":memory:"], f".load ./mergejoin\n{JOINED};\n")
    assert status == 1 and "sqlite3_mergejoin_init" in err and "no such function: mergejoin_join" in err


def test_threads_have_it_at_once(extension):
    """Each with connections of its own, of which each loads it."""
    def joined(number):
        connection = connected(extension)
        query = "SELECT mergejoin_agg(json_object('' || value, ?)) FROM json_each('[1,2,3,4,5,6,7,8,9]')"
        found = {connection.execute(query, [number]).fetchone() for _ in range(100)}
        connection.close()
        return found

    wanted = [{("{%s}" % ",".join(f'"{name}":{number}' for name in range(1, 10)),)} for number in range(16)]
    with concurrent.futures.ThreadPoolExecutor(8) as threads:
        assert list(threads.map(joined, range(16))) == wanted


def test_it_is_loaded_again_after_it_was_unloaded(extension):
    """A connection that is closed unloads it. Two of one process have it at once."""
    for _ in range(20):
        one, other = (connected(extension) for _ in range(2))
        for connection in one, other, one:
            assert connection.execute(JOINED).fetchone() == ('{"a":1,"b":null}',)
        one.close()
        assert other.execute(JOINED).fetchone() == ('{"a":1,"b":null}',)
        other.close()


def test_a_process_goes_on_with_a_file_that_is_replaced(extension, tmp_path):
    """Until it has closed each connection that loaded it. Neither a connection nor a database notices the next one."""
    def said(connection):
        return outcome(connection, "SELECT mergejoin_agg(column1) FROM (VALUES ('1'), ('2'))")[1].partition(":")[2].split()[0]

    file, other = tmp_path / extension.name, tmp_path / "next.so"
    shutil.copy(extension, file)
    words = extension.read_bytes()
    assert words.count(b"conflict: two patches") == 1
    other.write_bytes(words.replace(b"conflict: two patches", b"conflict: TWO patches"))
    one = connected(file, tmp_path / "one.db", isolation_level=None)
    one.execute("CREATE TABLE log (patch UNIQUE, author AS (mergejoin_get(patch, '/author')))")
    one.execute("CREATE INDEX authors ON log (author)")
    other.rename(file)
    two = connected(file, tmp_path / "one.db", isolation_level=None)
    two.execute("INSERT INTO log VALUES ('{\"author\":1}')")
    assert [said(one), said(two)] == ["two"] * 2 and outcome(one, "SELECT author FROM log INDEXED BY authors WHERE author > ''") == [("1",)]
    one.close()
    two.close()
    three = connected(file, tmp_path / "one.db")
    assert said(three) == "TWO" and outcome(three, "PRAGMA integrity_check") == [("ok",)]
    three.close()
