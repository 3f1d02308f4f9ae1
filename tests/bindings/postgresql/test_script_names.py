"""What a role puts into the schema of the extension before it is created there, or updated from version 0.2, is not called: functions,
operators and types of each name that the scripts have, for all types that they speak of. Nor is it taken over: if it is in the way, the
extension is not created, and not updated.
"""

import itertools
import re

import pytest
from server import SOURCES, quoted
from version_0_2 import built, script_of

SCRIPTS = "\n".join((SOURCES / "sql" / name).read_text("utf-8") for name in ("mergejoin.sql", "from-0.2.sql"))
TEXT = re.sub(r"--.*$|^\\.*$|'[^']*'", "", SCRIPTS, flags=re.M)
NAMES = sorted(set(re.findall(r"[a-z_][a-z_0-9]*", TEXT.lower())))
OPERATORS = sorted(set(re.findall(r"[-+*/<>=~!@#%^&|`?]+", TEXT)))
KINDS = ["json", "jsonb", "text", "bytea", "bool", "json[]", "jsonb[]", "text[]"]
SIGNATURES = [*((kind,) for kind in KINDS), *itertools.product(KINDS, KINDS), ("anyarray", "anyelement"), ("anycompatiblearray", "anycompatible")]
OWN = """
SELECT proname || '(' || array_to_string(proargtypes::regtype[], ', ') || ')' FROM pg_depend JOIN pg_proc AS part
  ON classid = 'pg_proc'::regclass AND objid = part.oid
WHERE deptype = 'e' AND refobjid = (SELECT oid FROM pg_extension WHERE extname = 'mergejoin');
"""
# What a part of the extension needs of the role.
NEEDED = """
SELECT needing.objid, needing.refobjid FROM pg_depend AS part JOIN pg_depend AS needing USING (classid, objid)
  LEFT JOIN pg_proc ON needing.refclassid = 'pg_proc'::regclass AND needing.refobjid = pg_proc.oid
  LEFT JOIN pg_type ON needing.refclassid = 'pg_type'::regclass AND needing.refobjid = pg_type.oid
WHERE part.deptype = 'e' AND part.refobjid = (SELECT oid FROM pg_extension WHERE extname = 'mergejoin')
  AND 'planter'::regrole IN (proowner, typowner)"""
USED = """
SET search_path = planted, public;
SELECT mergejoin_report_agg(patch ORDER BY patch::text), mergejoin_conflict_agg(patch ORDER BY patch::text), mergejoin_try_agg(patch),
  mergejoin_report_agg(patch::jsonb ORDER BY patch::text), mergejoin_conflict_agg(patch::jsonb ORDER BY patch::text), mergejoin_agg(patch::jsonb)
  FROM (VALUES ('1'::pg_catalog.json), ('1')) AS log (patch)"""
ANSWERED = '{"join":1}||1|{"join": 1}||1\n'
CREATED, UPDATED = "CREATE EXTENSION mergejoin SCHEMA planted", "ALTER EXTENSION mergejoin UPDATE"


def planting(own):
    """Gives statements by which a role puts them there, but for what the extension itself has. Each says so if it is called."""
    yield "SET ROLE planter;\nSET check_function_bodies = off;\nCREATE TABLE planted.called (name pg_catalog.text);\n"
    for name, signature in itertools.product(NAMES, SIGNATURES):
        if f"{name}({', '.join(signature).replace('bool', 'boolean')})" not in own:
            body = f"BEGIN INSERT INTO planted.called VALUES ({quoted(name)}); RETURN $1; END"
            kinds = ", ".join(f"pg_catalog.{kind}" for kind in signature)
            yield f'CREATE FUNCTION planted."{name}"({kinds}) RETURNS pg_catalog.{signature[0]} LANGUAGE plpgsql AS $${body}$$;\n'
    for symbol, kind in itertools.product(OPERATORS, KINDS):
        yield f'CREATE OPERATOR planted.{symbol} (LEFTARG = pg_catalog.{kind}, RIGHTARG = pg_catalog.{kind}, FUNCTION = planted."create");\n'
    for name in NAMES:
        yield f'CREATE DOMAIN planted."{name}" AS pg_catalog.text;\n'
    yield "RESET ROLE;\n"


@pytest.fixture(name="begun", scope="module")
def what_begins_a_database(server):
    assert server.ask("CREATE ROLE planter;\n") == ""
    own = set(server.ask(OWN).splitlines())

    def begin(name, version=None):
        """Makes a database with a schema of the role, and gives what is printed where a role has put all there."""
        before = f"CREATE EXTENSION mergejoin SCHEMA planted VERSION '{version}';\n" if version else ""
        begun = server.ask(f"CREATE DATABASE {name};\n\\c {name}\nCREATE SCHEMA planted AUTHORIZATION planter;\n{before}")
        assert begun == ""
        return server.ask("".join(planting(own)), name)

    yield begin
    dropped = "".join(f"DROP DATABASE IF EXISTS {name};\n" for name in ("created", "updated", "stopped", "kept_back"))
    assert server.ask(f"SET client_min_messages = warning;\n{dropped}DROP ROLE planter;\n") == ""


@pytest.fixture(name="old", scope="module")
def version_0_2(server):
    with script_of(server, str(built(server))):
        yield


def test_the_names_are_those_of_the_scripts():
    assert {"array_append", "json", "mergejoin_agg_take", "internal"} <= set(NAMES) and len(NAMES) > 60 and OPERATORS == ["="]


def test_nothing_that_was_there_is_called_by_a_new_extension(server, begun):
    assert begun("created") == ""
    answers = server.ask_each([CREATED, NEEDED, USED, "SELECT DISTINCT name FROM planted.called"], "created")
    assert answers == ["", "", ANSWERED, ""]


def test_nothing_that_was_there_is_called_after_an_update(server, begun, old):
    assert set(re.findall("ERROR:  (.{5})", begun("updated", "0.2"))) <= {"42723"}
    answers = server.ask_each([UPDATED, NEEDED, USED, "SELECT DISTINCT name FROM planted.called"], "updated")
    assert answers == ["", "", ANSWERED, ""]


@pytest.mark.parametrize(("database", "version", "statement", "code"),
                         [("stopped", None, CREATED, "42723"), ("kept_back", "0.2", UPDATED, "55000")])
def test_what_is_in_the_way_is_not_taken_over(server, begun, old, database, version, statement, code):
    before = f"CREATE EXTENSION mergejoin SCHEMA planted VERSION '{version}';\n" if version else ""
    planted = "SET ROLE planter;\nCREATE FUNCTION planted.mergejoin_is_patch(patch json) RETURNS boolean LANGUAGE sql AS 'SELECT true';\nRESET ROLE;\n"
    made = f"CREATE DATABASE {database};\n\\c {database}\nCREATE SCHEMA planted AUTHORIZATION planter;\n{before}{planted}"
    owner = "SELECT proowner::regrole FROM pg_proc WHERE proname = 'mergejoin_is_patch'"
    has = "SELECT extversion FROM pg_extension WHERE extname = 'mergejoin'"
    answers = server.ask_each([made, statement, owner, has], "-v", "VERBOSITY=sqlstate")
    assert answers == ["", f"ERROR:  {code}\n", "planter\n", f"{version}\n" if version else ""]
