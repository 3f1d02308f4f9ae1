"""The extension for PostgreSQL is built without a word, exports what PostgreSQL looks for alone, and passes its own tests (make
installcheck). An allocation that fails and a database that is not UTF8 are reported. The statements of docs/POSTGRESQL.md print
what it shows.
"""

import re

import pytest
from calls import TOP
from server import SOURCES

SCRIPT = SOURCES / "sql/mergejoin.sql"
PAGE = (TOP / "docs/POSTGRESQL.md").read_text("utf-8")
BLOCKS = re.findall(r"^```sql\n(.*?)^```$(?:\n+^```text\n(.*?)^```$)?", PAGE, re.M | re.S)


def test_the_compiler_has_nothing_to_say(server):
    assert server.said == ""


def test_in_the_repository_make_finds_the_library(needs, run):
    needs("make", "pg_config")
    status, out, _ = run(["make", "-n", "-C", SOURCES], setting={"MERGEJOIN_LIB": ""})
    assert status == 0 and f"{SOURCES}/../../out/lib/libmergejoin.a" in out


def test_it_exports_what_postgresql_looks_for_alone(server):
    """The functions that the script makes, and what says of each how it is called. Each name begins with the extension's."""
    functions = set(re.findall(r"'MODULE_PATHNAME', '(\w+)'", SCRIPT.read_text("utf-8")))
    exported = {line.split()[-1] for line in server.run("nm", "-D", "--defined-only", server.build / "mergejoin.so").splitlines()}
    assert exported == {"Pg_magic_func", "_PG_init", *functions, *(f"pg_finfo_{name}" for name in functions)}
    assert all(name.startswith("mergejoin_") for name in functions)


MEMBERS = """SELECT oid::regprocedure, provolatile, proparallel FROM pg_proc WHERE oid IN (SELECT objid FROM pg_depend
  WHERE classid = 'pg_proc'::regclass AND deptype = 'e' AND refobjid = (SELECT oid FROM pg_extension WHERE extname = 'mergejoin'));
"""


def test_each_function_has_one_answer_and_may_run_in_a_worker(server):
    """So an index may be of it, and a plan may be parallel."""
    members = [line.rsplit("|", 2) for line in server.ask(MEMBERS).splitlines()]
    assert len(members) > 30 and [member for member in members if member[1:] != ["i", "s"]] == []


def test_its_own_tests_pass(server):
    script = 'make -C "$0" installcheck || { cat "$0/regression.diffs"; exit 1; }'
    assert "All 2 tests passed" in server.run("sh", "-c", script, server.build)


def test_an_allocation_that_fails_is_an_error_and_the_session_goes_on(server):
    """The server itself runs what limits the memory of the session: its user may."""
    limit = "prlimit --pid $PPID --as=$(awk '/^VmSize/ {print $2 * 1024 + 40000000}' /proc/$PPID/status)"
    text = "(SELECT json_object_agg('name' || number, number) FROM generate_series(1, 300000) AS number)"
    given = f"CREATE TEMPORARY TABLE large AS SELECT {text} AS patch;\nCOPY (SELECT WHERE false) TO PROGRAM $${limit}$$"
    answers = server.ask_each([given, "SELECT length(mergejoin_join(patch)::text) FROM large", "SELECT mergejoin_join('1'::json)"])
    assert answers == ["", "ERROR:  53200: out of memory\nDETAIL:  A call of mergejoin could not allocate memory.\n", "1\n"]


def test_a_database_that_is_not_utf8_is_reported_at_each_call(server):
    made = "CREATE DATABASE latin ENCODING 'LATIN1' LOCALE 'C' TEMPLATE template0;\n\\c latin\nCREATE EXTENSION mergejoin"
    calls = ["mergejoin_join('1'::json)", "mergejoin_agg('1'::jsonb)", "mergejoin_agg(NULL::json) IS NULL"]
    words = "ERROR:  0A000: mergejoin needs a database whose encoding is UTF8\nDETAIL:  The encoding of this database is LATIN1.\n"
    assert server.ask_each([made, *(f"SELECT {call}" for call in calls)]) == ["", words, words, "t\n"]


@pytest.fixture(name="printed", scope="module")
def what_the_statements_of_the_page_print(server, tmp_path_factory):
    """They are run in one database of their own."""
    directory = tmp_path_factory.mktemp("page")
    (directory / "patches.jsonl").write_text(re.search(r"^```json\n(.*?)^```$", PAGE, re.M | re.S)[1], "utf-8")
    how = ["-P", "format=aligned", "-P", "tuples_only=off", "-P", "footer=off", "-v", "VERBOSITY=default"]
    begin = f"\\cd {directory}\nCREATE DATABASE page;\n\\c page"
    return server.ask_each([begin, *(statements for statements, _ in BLOCKS)], *how)[1:]


def bare(printed):
    """Gives lines without the blanks at their ends, and without empty lines."""
    return [line.rstrip() for line in printed.splitlines() if line.strip()]


@pytest.mark.parametrize("number", range(len(BLOCKS)))
def test_the_page_shows_what_its_statements_print(printed, number):
    statements, shown = BLOCKS[number]
    assert bare(printed[number]) == bare(shown), statements
