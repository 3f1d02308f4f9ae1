"""A database with version 0.2 of the extension (version_0_2.py) is updated: it has then what a new database has, and a view of it still
answers. What fails until then, and afterwards in a session from before, is what docs/POSTGRESQL.md says, and so is what a dump needs.
"""

import re
import subprocess

import pytest
from calls import TOP
from server import config
from version_0_2 import built, packages_of, script_of

# What an extension consists of, with all that is known of each part.
PARTS = """
SELECT part.oid::regprocedure::text, obj_description(part.oid, 'pg_proc'),
  CASE part.prokind WHEN 'f' THEN pg_get_functiondef(part.oid) ELSE pg_aggregate::text END
FROM pg_depend JOIN pg_proc AS part ON classid = 'pg_proc'::regclass AND objid = part.oid LEFT JOIN pg_aggregate ON aggfnoid = part.oid
WHERE deptype = 'e' AND refobjid = (SELECT oid FROM pg_extension WHERE extname = 'mergejoin')
ORDER BY 1"""
MADE = """
CREATE TABLE log AS SELECT * FROM (VALUES (1, 'a', '{"n":1}'::json), (2, 'b', '{"n":1}'), (3, 'b', '{"n":2}')) AS log (number, doc, patch);
CREATE VIEW shown AS
  SELECT doc, mergejoin_try_agg(patch) AS joined, mergejoin_clash_agg(patch ORDER BY number) AS conflict,
    mergejoin_merge('1', VARIADIC array_agg(patch::jsonb ORDER BY number)) AS merged FROM log GROUP BY doc"""
ANSWERED = 'a|{"n":1}||{"n": 1}\nb||{"first":0,"second":1,"places":["/n"]}|{"n": 2}\n'


@pytest.fixture(name="parts", scope="module")
def parts_of_a_new_database(server):
    return server.ask(f"{PARTS};\n")


@pytest.fixture(name="updated", scope="module")
def what_a_database_that_is_updated_answers(server):
    with script_of(server, str(built(server))):
        began = server.ask_each(["CREATE DATABASE old;\n\\c old\nCREATE EXTENSION mergejoin VERSION '0.2'", MADE])
        assert began == ["", ""]
        return server.ask_each(["\\c old\nALTER EXTENSION mergejoin UPDATE", PARTS, "SELECT * FROM shown ORDER BY doc"])


def test_it_is_updated_without_a_word(updated):
    assert updated[0] == ""


def test_it_has_what_a_new_database_has(updated, parts):
    assert updated[1] == parts and "mergejoin_conflict_agg(json)|" in parts


def test_a_view_of_the_old_names_answers(updated):
    assert updated[2] == ANSWERED


def test_each_part_says_what_it_is_for(parts):
    assert re.findall(r"^mergejoin_\w+\([^|\n]*\)\|\|", parts, re.M) == [] and len(re.findall(r"^mergejoin_\w+\(", parts, re.M)) > 40


CALL, FAILS = "SELECT mergejoin_join('{\"n\": 1}'::json)", 'ERROR:  42883: could not find function "{}" in file "'
PAGE = (TOP / "docs/POSTGRESQL.md").read_text("utf-8")


class Waiting:
    """A session that stays, and answers one statement after another."""

    def __init__(self, server, database):
        self.process = server.begin(database)

    def ask(self, statement):
        self.process.stdin.write(f"{statement};\n\\echo == parted ==\n")
        self.process.stdin.flush()
        return "".join(iter(self.process.stdout.readline, "== parted ==\n"))


def test_between_the_package_and_the_update_calls_fail_and_lose_nothing(server):
    """A session from before goes on until the update, and then has to connect again. A row whose constraint can't be asked is refused."""
    with packages_of(server) as install:
        made = "CREATE TABLE kept (patch json CHECK (mergejoin_join(patch) IS NULL))"
        assert server.ask_each(["CREATE DATABASE waiting;\n\\c waiting\nCREATE EXTENSION mergejoin VERSION '0.2'", made]) == ["", ""]
        before = Waiting(server, "waiting")
        assert before.ask(CALL) == "\n"
        install()
        new = server.ask_each([CALL, "INSERT INTO kept VALUES ('1')", "SELECT count(*) FROM kept"], "waiting")
        assert [it.startswith(FAILS.format("sql_join")) for it in new] == [True, True, False] and new[2] == "0\n"
        assert before.ask(CALL) == "\n"
        assert server.ask("ALTER EXTENSION mergejoin UPDATE;\n", "waiting") == ""
        assert server.ask(f"{CALL};\n", "waiting") == '{"n":1}\n'
        assert before.ask(CALL).startswith(FAILS.format("mergejoin_sql_join"))
        before.process.communicate()
    assert "error `could not find function`" in PAGE


def test_a_dump_restores_with_the_new_name(server):
    """As docs/POSTGRESQL.md has the command."""
    command = re.search(r"^\$ (sed .*) \| psql notes$", PAGE, re.M)[1]
    with script_of(server, str(built(server))):
        assert server.ask_each(["CREATE DATABASE dumped;\n\\c dumped\nCREATE EXTENSION mergejoin VERSION '0.2'", MADE]) == ["", ""]
    file = server.directory / "old.sql"
    file.write_text(server.run(f"{config('bindir')}/pg_dump", "dumped"), "utf-8")
    assert server.ask(f"CREATE DATABASE restored;\n\\c restored\n\\o /dev/null\n\\i {file}\n").startswith("psql:")
    renamed = subprocess.run(["sh", "-c", command], cwd=server.directory, capture_output=True, text=True, check=True).stdout
    again = server.ask(f"CREATE DATABASE again;\n\\c again\n\\o /dev/null\n{renamed}\n\\o\nSELECT * FROM public.shown ORDER BY doc;\n")
    assert again == ANSWERED
