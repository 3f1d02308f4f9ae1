"""What a value can cost a server whose processes may have 6 GB: a short JSON Patch that asks for all memory, and two patches that
conflict at very many places, are refused within mergejoin.call_memory, end soon if they are cancelled or the server is stopped, and
leave the session with little.
"""

import json
import pathlib
import re
import subprocess
import time

import pytest
from server import config, running

# Each copy doubles the document.
DOUBLING = json.dumps([{"op": "copy", "from": "", "path": f"/{number}"} for number in range(40)])
COPIES = f"SELECT length(mergejoin_patch('{{}}'::json, '{DOUBLING}')::text)"
# Two objects of so many names, which conflict at each of them; and the same, below a name of 100 kB, so that the places have 1.2 GB.
OBJECT = "SELECT json_object_agg(number, {}) FROM generate_series(1, {}) AS number"
WIDE = f"CREATE TABLE wide (patch) AS {' UNION ALL '.join(f'({OBJECT.format(value, 20000)})' for value in (1, 2))}"
DEEP = "CREATE TABLE deep AS SELECT json_build_object(repeat('n', 100000), patch) AS patch FROM " \
    f"({' UNION ALL '.join(OBJECT.format(value, 12000) for value in (1, 2))}) AS inner_objects (patch)"
GROUPS = {
    "a join": "SELECT mergejoin_join(VARIADIC array_agg(patch)) FROM deep",
    "an aggregate": "SELECT mergejoin_agg(patch) FROM deep",
    "an aggregate over jsonb": "SELECT mergejoin_agg(patch::jsonb) FROM deep",
}
LIMIT = "SET mergejoin.call_memory = '{}';\n"
TIMEOUT = "SET statement_timeout = '500ms';\n"


@pytest.fixture(name="attacked", scope="module")
def server_with_the_tables(server):
    assert server.ask(f"{DEEP};\n{WIDE};\n") == ""
    return server


def resident_after(server, statements, figure="VmRSS"):
    """Gives what a session prints for statements, the seconds that they took, and the megabytes that it has then, or had at most."""
    session = server.begin("-v", "VERBOSITY=sqlstate")
    session.stdin.write("SELECT mergejoin_join('1'::json);\nSELECT pg_backend_pid();\n")
    session.stdin.flush()
    pid = [session.stdout.readline() for _ in range(2)][1].strip()
    begun = time.monotonic()
    session.stdin.write(f"{statements};\n\\echo end\n")
    session.stdin.flush()
    lines = []
    while (line := session.stdout.readline()) not in ("end\n", ""):
        lines.append(line)
    seconds = time.monotonic() - begun
    status = pathlib.Path(f"/proc/{pid}/status").read_text("ascii")
    session.communicate()
    return "".join(lines), seconds, int(re.search(rf"{figure}:\s+(\d+) kB", status)[1]) / 1024


@pytest.mark.parametrize("attack", [COPIES, *GROUPS.values()], ids=["copies", *GROUPS])
def test_an_attack_ends_soon_after_a_timeout_and_leaves_little(attacked, attack):
    said, seconds, megabytes = resident_after(attacked, TIMEOUT + attack)
    assert said.startswith(("ERROR:  57014", "ERROR:  54000", "ERROR:  MJ001"))
    assert seconds < 2 and megabytes < 64


def test_a_group_takes_what_its_join_takes(server):
    """However many patches it has: 200 MB of them."""
    patch = "json_build_object('a', repeat('x', 2000))"
    query = f"SELECT length(mergejoin_agg(patch)::text) FROM (SELECT {patch} AS patch FROM generate_series(1, 100000)) AS log"
    said, _, megabytes = resident_after(server, query, "VmHWM")
    assert said == "2008\n" and megabytes < 64


def test_copies_are_refused_without_a_timeout_too(attacked):
    assert resident_after(attacked, LIMIT.format("64MB") + COPIES)[0] == "ERROR:  54000\n"


@pytest.mark.parametrize("attack", GROUPS)
def test_a_conflict_at_many_places_is_reported_in_little_memory(attacked, attack):
    """If there is no memory for all of the places, those that are reported are the first."""
    for limit in ("1GB", "200MB"):
        assert resident_after(attacked, LIMIT.format(limit) + GROUPS[attack])[0].startswith("ERROR:  MJ001\n")


def test_a_conflict_at_many_places_stops_no_other_group(attacked):
    query = "SELECT number, mergejoin_try_agg(patch) FROM (SELECT 1 AS number, patch FROM deep UNION ALL VALUES (2, '1'::json)) AS all_rows " \
        "GROUP BY number ORDER BY number"
    for limit in ("1GB", "200MB"):
        assert attacked.ask(f"{LIMIT.format(limit)}{query};\n") == "1|\n2|1\n"


# A patch for which the session's process has no memory, made after two that conflict at more places than a call may take memory for.
UNREADABLE = """CREATE FUNCTION unreadable() RETURNS json LANGUAGE plpgsql AS $function$
BEGIN
  COPY (SELECT WHERE false) TO PROGRAM $$prlimit --pid $PPID --as=$(awk '/^VmSize/ {print $2 * 1024 + 40000000}' /proc/$PPID/status)$$;
  RETURN (SELECT patch FROM large);
END $function$;
CREATE TABLE large AS SELECT json_object_agg('name' || number, number) AS patch FROM generate_series(1, 300000) AS number;
"""
IN_TURN = "SELECT mergejoin_try_agg(CASE number WHEN 3 THEN unreadable() ELSE (SELECT patch FROM deep OFFSET number - 1 LIMIT 1) END) " \
    "FROM (VALUES (1), (2), (3)) AS numbers (number);\n"


def test_memory_that_is_not_there_is_no_conflict_at_many_places(attacked):
    """Also after one: it is reported as what it is."""
    assert attacked.ask(UNREADABLE) == ""
    said = "ERROR:  53200: out of memory\nDETAIL:  A call of mergejoin could not allocate memory.\n"
    assert attacked.ask(LIMIT.format("200MB") + IN_TURN) == said


@pytest.mark.parametrize(("table", "shown", "count"), [("wide", 100, 20000), ("deep", 0, 12000)])
def test_a_conflict_shows_the_first_places(attacked, table, shown, count):
    """No more than a hundred, and no more than 8 kB of them. The message has as many as a thousand bytes of its line do."""
    said = attacked.ask(f"SELECT mergejoin_join(VARIADIC array_agg(patch)) FROM {table};\n")
    assert len(json.loads(re.search("^DETAIL:  (.*)$", said, re.M)[1])) == shown and len(said) < 10_000
    assert re.search(r'^ERROR:  MJ001: conflict: patches 0 and 1 at "/.*\.\.$', said, re.M) and len(said.partition("\n")[0]) == len("ERROR:  MJ001: ..") + 1000
    first = f"These are the first {shown} of {count} places" if shown else f"The first of {count} places is longer than 8192 bytes"
    assert f"HINT:  {first}; mergejoin_conflicts returns all.\n" in said


def test_all_places_are_returned(attacked):
    query = "SELECT json_array_length(mergejoin_conflicts(min(patch::text)::json, max(patch::text)::json)) FROM {};\n"
    assert attacked.ask(query.format("wide")) == "20000\n"
    for_less = LIMIT.format("4MB") + query.format("wide")
    for given in (for_less, query.format("deep")):
        assert attacked.ask(given, "-v", "VERBOSITY=sqlstate").startswith(("ERROR:  53200\n", "ERROR:  54000\n"))


def test_a_report_has_the_first_places_and_tells_how_many_there_are(attacked):
    report = json.loads(attacked.ask("SELECT mergejoin_report_agg(patch) FROM deep;\n"))["conflict"]
    assert (report["first"], report["second"], report["total"]) == (0, 1, 12000) and 0 < len(report["places"]) < 12


@pytest.mark.parametrize("text", ["json_build_array(repeat('x', 2000000))", "('[' || repeat('{\"a\":0},', 5000) || '0]')::json"])
def test_a_call_over_its_memory_says_so(server, text):
    """One request for memory, or many small ones."""
    large = f"SELECT length(mergejoin_join({text})::text) > 1;\n"
    said = "ERROR:  53200: out of memory\nDETAIL:  A call of mergejoin may take no more than mergejoin.call_memory, which is 1024 kB.\n"
    load = "SELECT mergejoin_join('1'::json);\n"
    assert server.ask(load + LIMIT.format("1MB") + large) == f"1\n{said}"
    assert server.ask(load + LIMIT.format("100MB") + large) == "1\nt\n"


def test_only_who_may_changes_the_memory_of_a_call(server):
    given = "CREATE ROLE guest;\nSET ROLE guest;\nSELECT mergejoin_join('1'::json);\nSET mergejoin.call_memory = '2GB';\n" \
        "SHOW mergejoin.call_memory;\nRESET ROLE;\nDROP ROLE guest;\n"
    assert server.ask(given) == "1\nERROR:  42501: permission denied to set parameter \"mergejoin.call_memory\"\n1GB\n"


# A call that takes long, and little memory: it copies the same value to one place again and again.
LONG = """SELECT length(mergejoin_patch(json_build_object('a', (SELECT json_agg(n) FROM generate_series(1, 100000) AS n)),
  (SELECT json_agg(json_build_object('op', 'copy', 'from', '/a', 'path', '/b')) FROM generate_series(1, 10000)))::text)"""

# Calls that take minutes, and hardly any memory: each operation moves all elements of an array.
ARRAY = "json_build_object('a', (SELECT json_agg(n) FROM generate_series(1, 100000) AS n))"
SHIFTS = {
    "moves": "json_build_object('op', 'move', 'from', '/a/1', 'path', '/a/0')",
    "removals": "json_build_object('op', 'remove', 'path', '/a/0')",
    "additions": "json_build_object('op', 'add', 'path', '/a/0', 'value', 0)",
}


def test_a_long_call_ends_soon_after_a_timeout(server):
    said, seconds, _ = resident_after(server, TIMEOUT + LONG)
    assert said == "ERROR:  57014\n" and seconds < 2


@pytest.mark.parametrize("kind", SHIFTS)
def test_a_patch_of_many_shifts_ends_soon_after_a_timeout(server, kind):
    """The operations are made before the timeout counts. Without it the call would take minutes."""
    made = f"CREATE TEMP TABLE given AS SELECT {ARRAY} AS document, json_agg({SHIFTS[kind]}) AS operations FROM generate_series(1, 99000);\n"
    said, seconds, _ = resident_after(server, made + TIMEOUT + "SELECT length(mergejoin_patch(document, operations)::text) FROM given")
    assert said == "ERROR:  57014\n" and seconds < 4


def test_a_server_is_stopped_in_a_long_call(needs, library):
    with running() as server:
        server.install()
        assert server.ask("CREATE EXTENSION mergejoin;\n") == ""
        session = server.begin()
        session.stdin.write(f"{LONG};\n")
        session.stdin.flush()
        end = time.monotonic() + 60
        while server.ask("SELECT count(*) FROM pg_stat_activity WHERE query LIKE '%json_agg%' AND state = 'active';\n") != "2\n":
            assert time.monotonic() < end
        time.sleep(0.5)
        begun = time.monotonic()
        directory = server.ask("SHOW data_directory;\n").strip()
        done = subprocess.run([*as_owner(directory), f"{config('bindir')}/pg_ctl", "-D", directory, "-m", "fast", "-t", "20", "stop"],
                              capture_output=True, check=False)
        assert done.returncode == 0 and time.monotonic() - begun < 3
        assert "terminating connection" in session.communicate()[0]


def as_owner(directory):
    """Gives what runs a command as the owner of a directory."""
    owner = pathlib.Path(directory).owner()
    return ["runuser", "-u", owner, "--"] if pathlib.Path("/").owner() == "root" and owner != "root" else []


# What a call can't read within a memory of 64 MB: many small values, and a jsonb of 80 kB whose text is longer than a value can be.
LITTLE = "LOAD 'mergejoin';\n" + LIMIT.format("64MB")
MANY, DIGITS = "('[' || repeat('0,', 2000000) || '0]')::{}", "('[' || repeat('1e131071,', 9000) || '0]')::{}"
LARGE = {"many values": MANY.format("json"), "many values of a jsonb": MANY.format("jsonb"), "many digits": DIGITS.format("jsonb"),
         "a text": MANY.format("text")}


@pytest.mark.parametrize("kind", LARGE)
def test_a_value_that_a_call_cannot_read_is_no_patch(server, kind):
    assert server.ask(f"{LITTLE}SELECT mergejoin_is_patch({LARGE[kind]}), mergejoin_is_patch('1'::json);\n") == "f|t\n"


def test_with_the_memory_that_a_call_has_at_first_24_megabytes_are_no_patch(server):
    assert server.ask("""SELECT mergejoin_is_patch(('[' || repeat('{"a":0},', 3000000) || '0]')::json);""" "\n") == "f\n"


@pytest.mark.parametrize("kind", ["many values", "many values of a jsonb", "many digits"])
def test_a_report_names_a_patch_that_a_call_cannot_read(server, kind):
    """It stops no other group. If one before it is no patch for another reason, that is named."""
    cast = "::jsonb" if "jsonb" in LARGE[kind] else "::json"
    one, wrong, none, large = f"'1'{cast}", f"'1.5'{cast}", f"'{{}}'{cast}", LARGE[kind]
    groups = [(one, large, wrong), (none,), (one, wrong, large), (large,)]
    values = ", ".join(f"({group}, {number}, {text})" for group, texts in enumerate(groups) for number, text in enumerate(texts))
    query = f"SELECT mergejoin_report_agg(patch ORDER BY number) FROM (VALUES {values}) AS log (doc, number, patch) GROUP BY doc ORDER BY doc;\n"
    reports = [next(iter(json.loads(line).values())) for line in server.ask(LITTLE + query).splitlines()]
    bad = [{"number": 1, "why": "too large"}, {}, {"number": 1, "why": 'patch 1: number not whole at ""'}, {"number": 0, "why": "too large"}]
    assert reports == bad


@pytest.mark.parametrize("kind", ["json", "jsonb"])
def test_a_report_names_a_patch_that_does_not_fit_beside_those_before_it(server, kind):
    made = f"SELECT json_build_object(number, ('[' || repeat('0,', 200000) || '0]')::json)::{kind} AS patch, number " \
        "FROM generate_series(1, 20) AS number"
    query = LITTLE + "SELECT mergejoin_report_agg(patch ORDER BY number) FROM ({} LIMIT {}) AS rows;\n"
    bad = json.loads(server.ask(query.format(made, 20)))["bad"]
    assert bad["why"] == "too large" and 1 < bad["number"] < 19
    assert json.loads(server.ask(query.format(made, bad["number"] + 1))) == {"bad": bad}
    assert "join" in json.loads(server.ask(query.format(made, bad["number"] // 2)))


def test_the_text_of_a_jsonb_counts(server):
    """A text of 28 MB can be read within a memory of 64 MB, but not if it is made first."""
    text = "repeat('x', 28000000)"
    assert server.ask(f"{LITTLE}SELECT mergejoin_is_patch(to_json({text})), mergejoin_is_patch(to_jsonb({text}));\n") == "t|f\n"
    call = f"{LITTLE}SELECT length(mergejoin_join(to_jsonb({text}))::text);\n"
    assert server.ask(call, "-v", "VERBOSITY=sqlstate") == "ERROR:  53200\n"
