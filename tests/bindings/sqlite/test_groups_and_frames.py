"""The aggregates of the extension for SQLite give what one join of all texts of a group gives: of random groups with repeats and conflicts,
of groups with a text that is not a patch, of nothing, and of large groups. As window functions they give that of each frame.
"""

import itertools
import json
import random
import re
import time

import pytest
from rows import at_places, clipped
from sqlite_extension import outcome

AGGREGATES = ["mergejoin_agg", "mergejoin_try_agg", "mergejoin_conflict_agg"]
GROUPS = range(200)
# Texts that are no patch, of which one is not UTF-8, and what is said of them.
WRONG = {"{": "not JSON", b"\xff": "not JSON", 1.5: 'number not whole at ""', "[" * 127 + "]" * 127: f'too deep at "{"/0" * 126}"'}


def texts_of(chance):
    """Gives texts of patches that say parts of one value, of which one says another thing, or none does."""
    whole = {f"n{number}": chance.choice([None, 1, "é", [1], {}, {"a": 1, "b": {"c": None}}]) for number in range(chance.randrange(1, 8))}
    made = [{name: value for name, value in whole.items() if chance.random() < 0.5} for _ in range(chance.randrange(1, 12))]
    if chance.random() < 0.4:
        made += [{chance.choice(list(whole)): "other"}]
    return [json.dumps(it, ensure_ascii=chance.random() < 0.5) for it in chance.choices(made, k=len(made) + 3)]


def joined(connection, texts):
    """Gives what one call answers of texts: the join and nothing, or nothing and the first two that conflict."""
    said = outcome(connection, f"SELECT mergejoin_join({', '.join('?' * len(texts))})", texts) if texts else [(None,)]
    if isinstance(said, list):
        return said[0][0], None
    first, second, places = re.fullmatch(r"conflict: patches (\d+) and (\d+) at (.*)", said[1]).groups()
    return None, f'{{"first":{first},"second":{second},"places":[{places.replace(", ", ",")}]}}'


@pytest.fixture(name="log")
def table_of_random_groups(connection):
    """A table `log`, with rows of NULL too, and the texts of each group in the order of their rows."""
    chance = random.Random(7396)
    rows = [(group, text) for group in GROUPS for text in [*texts_of(chance), None]]
    chance.shuffle(rows)
    connection.execute("CREATE TABLE log (number INTEGER PRIMARY KEY, doc INT, patch)")
    connection.executemany("INSERT INTO log (doc, patch) VALUES (?, ?)", rows)
    return [[text for other, text in rows if other == group and text] for group in GROUPS]


@pytest.mark.parametrize("table", ["log", "(SELECT * FROM log ORDER BY doc, number)", "log INDEXED BY docs"])
def test_each_group_is_one_join(connection, log, table):
    connection.execute("CREATE INDEX docs ON log (doc)")
    wanted = [(group, *joined(connection, texts)) for group, texts in zip(GROUPS, log)]
    assert {join is None for _, join, _ in wanted} == {True, False}
    query = f"SELECT doc, mergejoin_try_agg(patch), mergejoin_conflict_agg(patch) FROM {table} GROUP BY doc ORDER BY doc"
    assert outcome(connection, query) == wanted
    for group, join, _ in wanted:
        said = outcome(connection, f"SELECT mergejoin_agg(patch) FROM {table} WHERE doc = {group}")
        assert said == [(join,)] if join else said[0] == "SQLITE_CONSTRAINT_FUNCTION"


def test_the_places_of_a_group_that_conflicts_are_shown(connection):
    query = "SELECT mergejoin_agg(column1) FROM (VALUES ('{\"a\":{\"b\":1},\"c\":1}'), ('{\"d\":1}'), ('{\"a\":1,\"c\":2}'))"
    assert outcome(connection, query) == ("SQLITE_CONSTRAINT_FUNCTION", 'conflict: two patches at "/a", "/c"')


@pytest.mark.parametrize("over", ["", " OVER ()", " FILTER (WHERE false)"])
@pytest.mark.parametrize("rows", ["(SELECT NULL AS patch WHERE false)", "(SELECT NULL AS patch UNION ALL SELECT NULL)"])
def test_of_nothing_each_aggregate_is_null(connection, rows, over):
    query = ", ".join(f"{it}(patch){over}" for it in AGGREGATES)
    assert set(outcome(connection, f"SELECT {query} FROM {rows}")) <= {(None, None, None)}


@pytest.mark.parametrize("name", AGGREGATES)
@pytest.mark.parametrize("wrong", WRONG, ids=repr)
def test_a_text_that_is_no_patch_is_reported_in_each_order(connection, name, wrong):
    """Before, between and after two that conflict."""
    for order in itertools.permutations([wrong, '{"a":1}', '{"a":2}']):
        for over in "", " OVER ()", " OVER (ORDER BY column1 IS NULL)":
            said = outcome(connection, f"SELECT {name}(column1){over} FROM (VALUES (?), (?), (?))", order)
            assert said == ("SQLITE_ERROR", f"patch 0: {WRONG[wrong]}")


# Frames, and whether rows leave them.
BOUNDS = ["UNBOUNDED PRECEDING", "3 PRECEDING", "1 PRECEDING", "CURRENT ROW", "2 FOLLOWING", "4 FOLLOWING", "UNBOUNDED FOLLOWING"]
FRAMES = [f"{kind} BETWEEN {BOUNDS[one]} AND {BOUNDS[other]}" for kind in ("ROWS", "GROUPS", "RANGE")
          for one in range(6) for other in range(max(one, 1), 7) if one or other]
EXCLUDED = ["", " EXCLUDE CURRENT ROW", " EXCLUDE GROUP", " EXCLUDE TIES"]


@pytest.mark.parametrize("filtered", ["true", "number % 3"])
@pytest.mark.parametrize("frame", FRAMES)
def test_each_frame_is_one_join(connection, log, frame, filtered):
    """SQLite says by a function of its own which rows are in the frame."""
    for excluded in EXCLUDED:
        window = f"(PARTITION BY doc % 40 ORDER BY doc / 40 {frame}{excluded})"
        over = f"FILTER (WHERE {filtered}) OVER it"
        query = f"SELECT json_group_array(patch) FILTER (WHERE patch IS NOT NULL AND {filtered}) OVER it, mergejoin_try_agg(patch) {over}, " \
            f"mergejoin_conflict_agg(patch) {over} FROM log WHERE doc % 40 IN (1, 2) WINDOW it AS {window}"
        rows = outcome(connection, query)
        assert len(rows) > 40 and [(join, conflict) for _, join, conflict in rows] == [joined(connection, json.loads(it)) for it, _, _ in rows]


def test_a_frame_that_conflicts_is_an_error_and_others_are_not(connection):
    connection.execute("CREATE TABLE log AS SELECT value AS number, json_object('a', value / 4) AS patch FROM json_each('[0,1,2,3,4,5,6,7]')")
    query = "SELECT mergejoin_agg(patch) OVER (ORDER BY number ROWS BETWEEN {} PRECEDING AND CURRENT ROW) FROM log WHERE number {}"
    assert outcome(connection, query.format(3, "< 4")) == [('{"a":0}',)] * 4
    assert outcome(connection, query.format(3, "< 8")) == ("SQLITE_CONSTRAINT_FUNCTION", 'conflict: two patches at "/a"')
    assert outcome(connection, query.format(0, "< 8")) == [(f'{{"a":{number // 4}}}',) for number in range(8)]


NUMBERS = "WITH RECURSIVE numbers (number) AS (SELECT 1 UNION ALL SELECT number + 1 FROM numbers WHERE number < {})"


def test_a_large_group_is_joined_in_much_less_time_than_text_by_text(connection):
    wanted = len(json.dumps({f"k{number}": number for number in range(1, 100_001)}, separators=(",", ":")))
    query = f"{NUMBERS.format(100_000)} SELECT length(mergejoin_agg(json_object('k' || number, number))) FROM numbers"
    begun = time.process_time()
    assert outcome(connection, query) == [(wanted,)]
    assert time.process_time() - begun < 20


OF_TEXTS, OF_A_GROUP = "mergejoin_join(?, ?)", "mergejoin_agg(value) FROM (SELECT ? AS value UNION ALL SELECT ?)"


WHICH = {OF_TEXTS: "patches 0 and 1", OF_A_GROUP: "two patches"}


def conflict_said(connection, call, names):
    """What is said of two texts that conflict at a member of each of the names."""
    name, said = outcome(connection, f"SELECT {call}", [json.dumps({it: {"a": value} for it in names}) for value in (1, 2)])
    assert name == "SQLITE_CONSTRAINT_FUNCTION"
    return said


@pytest.mark.parametrize("name,place", [(30_000 * "~", 30_000 * "~0"), (60_000 * "\1", 60_000 * "\1")], ids=["tildes", "controls"])
@pytest.mark.parametrize("call", WHICH)
def test_a_long_place_of_a_conflict_is_shown(connection, call, name, place):
    """Its beginning, and no character is escaped in part."""
    wanted = clipped(f"conflict: {WHICH[call]}{at_places([f'/{place}/a'], 1, False)}")
    assert conflict_said(connection, call, [name]) == wanted and len(wanted) == 1002


def test_a_group_says_if_there_are_more_places_than_it_holds(connection):
    """It holds as many as weigh 64 kB, and none that is longer."""
    long = [f"/{200_000 * '~0'}/a"]
    assert conflict_said(connection, OF_TEXTS, [200_000 * "~"]) == clipped(f"conflict: patches 0 and 1{at_places(long, 1, False)}")
    assert conflict_said(connection, OF_A_GROUP, [200_000 * "~"]) == "conflict: two patches"
    for length, said in ((60_000, clipped(f'conflict: two patches at "/a/a", "/{60_000 * "b"}/a"')), (66_000, 'conflict: two patches at "/a/a" and more')):
        assert conflict_said(connection, OF_A_GROUP, ["a", length * "b"]) == said
    for count in (1, 30, 99, 1_000):
        places = [f"/{number:03}/a" for number in range(count)]
        wanted = f"conflict: two patches{at_places(places, count, False)}"
        assert conflict_said(connection, OF_A_GROUP, [place[1:4] for place in places]) == clipped(wanted)


# Two rows of 888,896 bytes, whose places have 40 GB together, and by how many bytes more than before are resident at the most.
ROWS_OF_A_WIDE_CONFLICT = """
import resource, sqlite3, sys
connection = sqlite3.connect(":memory:")
connection.enable_load_extension(True)
connection.load_extension(sys.argv[1])
connection.execute("CREATE TABLE log (patch)")
for value in 1, 2:
    text = '{"%s":{%s}}' % ("~" * 500_000, ",".join(f'"{number}":{value}' for number in range(40_000)))
    connection.execute("INSERT INTO log VALUES (?)", [text])
before = resource.getrusage(resource.RUSAGE_SELF).ru_maxrss
try:
    connection.execute("SELECT mergejoin_agg(patch) FROM log").fetchall()
except sqlite3.Error as error:
    print(len(text), error.sqlite_errorname, error)
print(connection.execute("SELECT mergejoin_try_agg(patch) FROM log").fetchall())
print(resource.getrusage(resource.RUSAGE_SELF).ru_maxrss - before < 50_000)
"""


def test_a_group_of_a_wide_conflict_takes_little_memory(extension, run):
    words = "888896 SQLITE_CONSTRAINT_FUNCTION conflict: two patches\n[(None,)]\nTrue\n"
    assert run(["/usr/bin/python3", "-I", "-c", ROWS_OF_A_WIDE_CONFLICT, extension]) == (0, words, "")


def test_a_group_is_interrupted_between_its_rows(connection):
    """And whatever is on the way is freed, or so the tests of memory say."""
    calls = 0

    def give_up():
        nonlocal calls
        calls += 1
        return calls > 100

    for call in "mergejoin_agg(number)", "mergejoin_agg(1) OVER (ORDER BY number ROWS 3 PRECEDING)":
        calls = 0
        connection.set_progress_handler(give_up, 1000)
        assert outcome(connection, f"{NUMBERS.format(10**9)} SELECT {call} FROM numbers") == ("SQLITE_INTERRUPT", "interrupted")


@pytest.mark.parametrize("over,is_enough", [("", False), (" OVER (ROWS 9999 PRECEDING)", False), (" OVER (ROWS 9 PRECEDING)", True)])
@pytest.mark.parametrize("name", AGGREGATES)
def test_sqlite_counts_the_texts_of_a_group_and_of_a_frame(needs, extension, run, name, over, is_enough):
    """Of 10 MB that come, 5 MB may be there, in a process of its own. A frame has no text that has left it."""
    needs("sqlite3")
    asks = f"{NUMBERS.format(10_000)} SELECT {name}(json_object('k', '{'x' * 1000}')){over} AS it FROM numbers"
    given = f".load {extension}\nPRAGMA hard_heap_limit = 5000000;\nSELECT count(*), max(length(it)) FROM ({asks});\n"
    _, out, err = run(["sqlite3", "-batch", ":memory:"], given)
    answers = [f"10000|{'' if 'conflict' in name else 1008}"] if is_enough else []
    assert out.split()[1:] == answers and ("out of memory" in err) is not is_enough, err


def test_a_statement_that_is_given_up_leaves_nothing(connection):
    """The next row is that of a statement of its own."""
    query = f"{NUMBERS.format(50)} SELECT mergejoin_agg(json_object('k' || number, number)) OVER (ROWS 9 PRECEDING) FROM numbers"
    for _ in range(50):
        cursor = connection.execute(query)
        assert cursor.fetchone() == ('{"k1":1}',)
        cursor.close()
