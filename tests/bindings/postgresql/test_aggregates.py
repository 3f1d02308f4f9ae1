"""The aggregates of the extension for PostgreSQL give what one join of all texts of a group gives, in each plan: of random groups
with repeats and conflicts, of groups with a text that is not a patch, of nothing, and of large groups. A compaction that is run
twice, or whose process is killed, is that of all patches.
"""

import importlib
import itertools
import json
import os
import random
import re
import signal
import time
import zipfile

import pytest
from calls import TOP
from rows import clipped
from server import quoted

SERIAL: dict = {"workers": 0, "modes": {"Simple"}}
PARALLEL: dict = {"workers": 4, "modes": {"Partial", "Finalize"}}
NO_SORT, LITTLE_MEMORY = "SET enable_sort = off;\n", "SET work_mem = '64kB';\n"
FOUR_WORKERS = "SET max_parallel_workers_per_gather = 4;\nSET parallel_leader_participation = off;\n"
# The settings that lead to a plan, and what has to be seen of it.
PLANS = {
    "hashing": (NO_SORT, {**SERIAL, "strategies": {"Hashed"}}),
    "sorting": ("SET enable_hashagg = off;\n", {**SERIAL, "strategies": {"Sorted"}}),
    "spilling": (NO_SORT + LITTLE_MEMORY, {**SERIAL, "is_spilled": True}),
    "one_worker": ("SET max_parallel_workers_per_gather = 1;\n", {**PARALLEL, "workers": 1}),
    "four_workers": (FOUR_WORKERS, PARALLEL),
    "four_workers_spilling": (FOUR_WORKERS + NO_SORT + LITTLE_MEMORY, {**PARALLEL, "is_spilled": True}),
}
AGGREGATES = [f"{name}(patch{cast})" for name in ("mergejoin_agg", "mergejoin_try_agg") for cast in ("", "::jsonb")]
CONFLICT, REPORT = [f"mergejoin_{name}_agg(patch ORDER BY number)" for name in ("conflict", "report")]
DOCUMENTS = range(400)


def load(server, table, rows):
    """Makes a table of documents and patches, numbered in their order."""
    values = ",\n".join(f"({document}, {quoted(text)})" for document, text in rows)
    assert server.ask(f"CREATE TABLE {table} (number int GENERATED ALWAYS AS IDENTITY, document int, patch json);\n"
                      f"INSERT INTO {table} (document, patch) VALUES {values};\nANALYZE {table};\n") == ""


@pytest.fixture(name="package", scope="module")
def package_for_python(wheel, tmp_path_factory):
    """The package, and what makes the texts of its tests."""
    directory = tmp_path_factory.mktemp("package")
    zipfile.ZipFile(wheel).extractall(directory)
    with pytest.MonkeyPatch.context() as patch:
        patch.syspath_prepend(TOP / "bindings/python/tests")
        patch.syspath_prepend(directory)
        return importlib.import_module("mergejoin"), importlib.import_module("test_patches").texts_of


def outcome_of(mergejoin, texts):
    """Gives what the package answers: the join, or else the first conflict as mergejoin_conflict_agg returns it."""
    try:
        return mergejoin.join(texts), None
    except mergejoin.Conflict as conflict:
        return None, {"first": conflict.first, "second": conflict.second, "places": conflict.places}


@pytest.fixture(name="outcomes", scope="module")
def outcomes_of_random_groups(server, package):
    """The join of each document of the table `log`, or its first conflict. The table `agreed` has those with a join."""
    mergejoin, texts_of = package
    chance = random.Random(15)
    rows = [(document, text) for document in DOCUMENTS for text in texts_of(chance)]
    rows += chance.choices(rows, k=len(rows) // 3) + [(document, None) for document in DOCUMENTS]
    chance.shuffle(rows)
    outcomes = [outcome_of(mergejoin, [text for other, text in rows if other == document and text]) for document in DOCUMENTS]
    assert {join is None for join, _ in outcomes} == {True, False}
    load(server, "log", rows)
    load(server, "agreed", [(document, text) for document, text in rows if text and outcomes[document][0]])
    return outcomes


@pytest.mark.parametrize("aggregate", AGGREGATES)
@pytest.mark.parametrize("plan", PLANS)
def test_each_group_is_one_join(server, outcomes, plan, aggregate):
    settings, wanted = PLANS[plan]
    query = f"SELECT json_build_array(document, {aggregate}) FROM {'log' if 'try' in aggregate else 'agreed'} GROUP BY document;\n"
    said = server.ask(f"{settings}EXPLAIN (ANALYZE, TIMING OFF, FORMAT JSON) {query}")
    seen = {
        "workers": max(map(int, re.findall(r'"Workers Launched": (\d+)', said)), default=0),
        "modes": set(re.findall(r'"Partial Mode": "(\w+)"', said)),
        "strategies": set(re.findall(r'"Strategy": "(\w+)"', said)),
        "is_spilled": any(map(int, re.findall(r'"Disk Usage": (\d+)', said))),
    }
    assert seen == {**seen, **wanted}
    answers = server.ask(settings + query).splitlines()
    joins = [f"[{document}, {join or 'null'}]" for document, (join, _) in enumerate(outcomes) if join or "try" in aggregate]
    read = json.loads if "jsonb" in aggregate else str
    assert sorted(map(read, answers)) == sorted(map(read, joins))


def test_each_group_is_one_join_by_one_call(server, outcomes):
    query = "SELECT mergejoin_join(VARIADIC array_agg(patch)) FROM log WHERE patch IS NOT NULL AND document = {}"
    answers = server.ask_each([query.format(document) for document in DOCUMENTS])
    assert [it.partition(": conflict")[0].strip() for it in answers] == [join or "ERROR:  MJ001" for join, _ in outcomes]


@pytest.mark.parametrize("patch", ["patch", "patch::jsonb"])
def test_the_first_conflict_of_each_group_is_returned(server, outcomes, patch):
    call = CONFLICT.replace("patch", patch)
    answers = server.ask(f"SELECT {call} FROM log GROUP BY document ORDER BY document;\n").splitlines()
    assert [json.loads(line) if line else None for line in answers] == [conflict for _, conflict in outcomes]


@pytest.mark.parametrize("patch", ["patch", "patch::jsonb"])
def test_a_report_is_the_join_of_each_group_or_its_first_conflict(server, outcomes, patch):
    call = REPORT.replace("patch", patch)
    answers = server.ask(f"SELECT {call} FROM log GROUP BY document ORDER BY document;\n").splitlines()
    wanted = [{"join": json.loads(join)} if join else {"conflict": conflict} for join, conflict in outcomes]
    assert list(map(json.loads, answers)) == wanted


@pytest.mark.parametrize("condition", ["false", "patch IS NULL"])
@pytest.mark.parametrize("plan", PLANS)
def test_of_nothing_each_aggregate_is_null(server, outcomes, plan, condition):
    calls = [f"SELECT {call} IS NULL FROM log WHERE {condition};\n" for call in (*AGGREGATES, CONFLICT, REPORT)]
    assert server.ask("".join([PLANS[plan][0], *calls])) == "t\n" * len(calls)


def test_another_extension_changes_no_join(outcomes, is_left_alone):
    """Nor those of workers."""
    calls = f"{CONFLICT} FROM log", f"{', '.join(AGGREGATES)} FROM agreed"
    is_left_alone([FOUR_WORKERS, *(f"SELECT document, {call} GROUP BY document ORDER BY document" for call in calls)])


# Texts that json takes, and that are no patch.
NO_PATCHES = ["1.5", '"\\ud800"', "[" * 127 + "]" * 127]


@pytest.fixture(name="wrong", scope="module")
def groups_with_a_text_that_is_no_patch(server):
    """The documents of the table `wrong`, where it is before, between and after two that conflict, and NULL is last. Texts of 1 kB
    are joined as they come, others at the end."""
    conflicting = [[f'{{"a":{value},"text":"{"x" * length}"}}' for value in (1, 2)] for length in (0, 1100)]
    groups = [order for text, two in itertools.product(NO_PATCHES, conflicting) for order in itertools.permutations([text, *two])]
    load(server, "wrong", [(document, text) for document, order in enumerate(groups) for text in (*order, None)])
    return range(len(groups))


@pytest.mark.parametrize("plan", PLANS)
def test_two_patches_of_a_group_that_conflict_are_reported(server, outcomes, plan):
    conflicting = ", ".join(str(document) for document, (join, _) in enumerate(outcomes) if not join)
    query = "SELECT document, mergejoin_agg({}) FROM log WHERE document IN ({}) GROUP BY document;\n"
    for patch in ("patch", "patch::jsonb"):
        assert server.ask(PLANS[plan][0] + query.format(patch, conflicting), "-v", "VERBOSITY=sqlstate") == "ERROR:  MJ001\n"


@pytest.fixture(name="torn", scope="module")
def groups_that_conflict_at_one_place(server):
    """Each document of the table `torn` says two things of one place, and has patches beside them."""
    rows = [(document, json.dumps({f"k{number}": number} if number else {"x": {"y": value}})) for document in range(300)
            for value in (1, 2) for number in range(4)]
    random.Random(6).shuffle(rows)
    load(server, "torn", rows)


@pytest.mark.parametrize("plan", PLANS)
def test_where_two_patches_of_a_group_conflict_is_shown_in_each_plan(server, torn, plan):
    """Also if a worker has seen it."""
    said = 'ERROR:  MJ001: conflict: two patches at "/x/y"\nDETAIL:  ["/x/y"]\n' \
        "HINT:  mergejoin_conflict_agg(patch ORDER BY ..) returns the first two, and where they conflict.\n"
    for patch in ("patch", "patch::jsonb"):
        assert server.ask(f"{PLANS[plan][0]}SELECT document, mergejoin_agg({patch}) FROM torn GROUP BY document;\n") == said


@pytest.mark.parametrize("aggregate", AGGREGATES)
@pytest.mark.parametrize("plan", PLANS)
def test_a_text_that_is_no_patch_is_reported(server, wrong, plan, aggregate):
    given = "".join(f"SELECT {aggregate} FROM wrong WHERE document = {document};\n" for document in wrong)
    seen = server.ask(PLANS[plan][0] + given, "-v", "VERBOSITY=sqlstate").splitlines()
    # A jsonb takes no half of a pair.
    assert (len(seen), set(seen)) == (len(wrong), {"ERROR:  22032", *(["ERROR:  22P02"] if "jsonb" in aggregate else [])})


def test_a_report_has_the_first_text_that_is_no_patch(server, wrong):
    """By its number among the rows that are not NULL, and by the line of an error."""
    array = "mergejoin_join(VARIADIC array_agg(patch ORDER BY number) FILTER (WHERE patch IS NOT NULL))"
    queries = [f"SELECT {call} FROM wrong WHERE document = {document}" for document in wrong for call in (REPORT, array)]
    answers = server.ask_each(queries)
    for report, error in zip(answers[::2], answers[1::2]):
        why, number = re.fullmatch(r"ERROR:  22032: (patch (\d): .*)\n", error).groups()
        assert json.loads(report) == {"bad": {"number": int(number), "why": why}}


def test_of_a_thousand_rows_one_that_is_no_patch_is_named_and_stops_no_other_group(server):
    rows = [(number % 100, json.dumps({f"k{number}": 9.5 if number == 747 else number})) for number in range(1000)]
    load(server, "priced", rows)
    reports = server.ask("SELECT document, mergejoin_report_agg(patch ORDER BY number) FROM priced GROUP BY document;\n").splitlines()
    reports = {int(document): json.loads(report) for document, report in (line.split("|", 1) for line in reports)}
    assert reports.pop(47) == {"bad": {"number": 7, "why": 'patch 7: number not whole at "/k747"'}}
    assert reports == {document: {"join": {f"k{number}": number for number in range(document, 1000, 100)}}
                       for document in range(100) if document != 47}
    assert server.ask("SELECT number - 1, patch FROM priced WHERE NOT mergejoin_is_patch(patch);\n") == '747|{"k747": 9.5}\n'


@pytest.mark.parametrize("name", ["é" * 300, "x" + "é" * 300, "é" * 500, "x" + "é" * 500], ids=[
    "200 bytes", "199 bytes, and half a character", "half a character of the line", "and of the patch"])
def test_the_beginning_of_a_text_that_is_no_patch_is_shown(server, name):
    text = json.dumps({name: 1.5}, ensure_ascii=False)
    line = f'patch 0: number not whole at "/{name}"'
    said = f"ERROR:  22032: {clipped(line)}\nDETAIL:  The patch is {text[:101]}..\nHINT:  mergejoin_is_patch(patch) is false of such a row.\n"
    assert server.ask(f"SELECT mergejoin_agg(patch) FROM (VALUES ({quoted(text)}::json)) AS log (patch);\n") == said


LARGE = "SELECT length(mergejoin_agg(json_build_object('k' || number, number))::text) " \
    "FROM (SELECT generate_series(1, {}) AS number) AS numbers;\n"


def test_a_large_group_is_joined_in_much_less_time_than_text_by_text(server):
    length = len(json.dumps({f"k{number}": number for number in range(1, 200_001)}, separators=(",", ":")))
    assert server.ask("SET statement_timeout = '20s';\n" + LARGE.format(200_000)) == f"{length}\n"


def test_a_large_group_is_cancelled_on_the_way(server):
    begun = time.monotonic()
    assert server.ask("SET statement_timeout = '200ms';\n" + LARGE.format(10**9), "-v", "VERBOSITY=sqlstate") == "ERROR:  57014\n"
    assert time.monotonic() - begun < 20


COMPACTION = """
INSERT INTO compacted SELECT document, mergejoin_agg(patch) FROM {} GROUP BY document
  ON CONFLICT (document) DO UPDATE SET patch = mergejoin_join(compacted.patch, excluded.patch);
"""
COMPACTED = "SELECT * FROM compacted ORDER BY document;\n"
# Some rows take a minute, after others.
SLOW = "agreed WHERE number % 1000 > 0 OR pg_sleep(60) IS NOT NULL"
KILLED = {
    "client backend": COMPACTION.format(SLOW),
    "parallel worker": FOUR_WORKERS + f"SELECT document, mergejoin_agg(patch) FROM {SLOW} GROUP BY document;\n",
}


@pytest.fixture(name="compacted", scope="module")
def what_is_compacted(server, outcomes):
    """What the table `compacted` has after a compaction of parts that overlap."""
    parts = [COMPACTION.format(f"agreed WHERE number % 3 {which}") for which in ("> 0", "< 2")]
    assert server.ask("CREATE TABLE compacted (document int PRIMARY KEY, patch json);\n" + "".join(parts)) == ""
    return "".join(f"{document}|{join}\n" for document, (join, _) in enumerate(outcomes) if join)


def test_a_compaction_that_is_run_again_changes_nothing(server, compacted):
    assert server.ask(COMPACTED + (COMPACTION.format("agreed") + COMPACTED) * 2) == compacted * 3


def awaited(server, query, pattern):
    """Asks until the answer is what a pattern says, and gives what that finds."""
    end = time.monotonic() + 60
    while not (found := re.match(pattern, server.ask(query))):
        assert time.monotonic() < end, f"it does not answer {query}"
        time.sleep(0.05)
    return found


@pytest.mark.parametrize("kind", KILLED)
def test_a_process_that_is_killed_in_an_aggregate_writes_nothing(server, compacted, kind):
    """The server ends all sessions, and then takes new ones."""
    session = server.begin()
    session.stdin.write(KILLED[kind])
    session.stdin.flush()
    sleeping = awaited(server, "SELECT backend_type, pid FROM pg_stat_activity WHERE wait_event = 'PgSleep';\n", rf"{kind}\|(\d+)")
    os.kill(int(sleeping[1]), signal.SIGKILL)
    said = session.communicate(timeout=60)[0]
    assert "server closed the connection" in said or "terminating connection" in said
    awaited(server, "SELECT 1;\n", "1\n")
    assert server.ask(COMPACTED + COMPACTION.format("agreed") + COMPACTED) == compacted * 2
