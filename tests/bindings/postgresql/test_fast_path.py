"""Whoever may log in can call each function of the extension by a message of the protocol, without a statement (fast_path.py): it answers
what it answers in SQL, or with an error, also to NULL, to bytes that are no value of its types, and to too many or too few of them. The
functions that aggregates are made of can be called in SQL by none but these. No session of the server ends.
"""

import itertools
import struct

import pytest
from fast_path import array_of, libpq, session_of
from server import quoted

FUNCTIONS = """
SELECT part.oid, part.proname, array_to_string(proargtypes::regtype[], ','), array_to_string(proargtypes::oid[], ','),
  array_to_string(proargnames, ','), prorettype::regtype, proisstrict
FROM pg_depend JOIN pg_proc AS part ON classid = 'pg_proc'::regclass AND objid = part.oid
WHERE deptype = 'e' AND prokind = 'f' AND refobjid = (SELECT oid FROM pg_extension WHERE extname = 'mergejoin') ORDER BY 2, 3"""
ELEMENTS = {"json": 114, "jsonb": 3802, "text": 25}
# What each argument may be, by its name, or by its type if it has none: the first of them is one to which the function has an answer.
VALUES = {
    "operations": ['[{"op": "add", "path": "/b", "value": [2]}]', "[]", "{}", '[{"op": "test", "path": "", "value": 0}]'],
    "pointer": ["/a", "", "/b", "a", "/~2"],
    "": ['{"a": 1}', '{"a": 2, "é": "\\u0001\\"\\\\"}', "1.5", "null", '{"a": null}'],
}
ARRAYS = [['{"a": 1}', '{"b": [2]}'], ['{"a": 1}', '{"a": 2}'], ['{"a": 1.5}'], ["1", None], []]
# Bytes that no type takes, or that a function would misread if they were taken.
GARBAGE = [b"", b"\0", b"\xff" * 8, b"\1", b"\2{}", b'\1{"a":', b"{\0}", b"\x7f\xff\xff\xff" * 6,
           struct.pack("!iiIiiii", 1, 0, 23, 1, 1, 4, 1), struct.pack("!iiI", 0, 0, 3802), struct.pack("!iiI", 7, 0, 114),
           struct.pack("!iiIii", 1, 0, 114, 1 << 30, 1)]


class Function:
    def __init__(self, line):
        number, self.name, types, numbers, names, self.result, strict = line.split("|")
        self.number, self.types, self.is_strict = int(number), types.split(","), strict == "t"
        self.numbers, self.names = list(map(int, numbers.split(","))), names.split(",") if names else [""] * len(self.types)

    @property
    def takes_a_state(self):
        return "internal" in self.types

    def values(self):
        """Gives lists of arguments, the first of which have an answer."""
        each = [ARRAYS if kind.endswith("[]") else VALUES.get(name, VALUES[""]) for kind, name in zip(self.types, self.names)]
        return list(itertools.product(*each))

    def statement(self, arguments):
        """Gives the statement that calls it. Arrays are written as arguments one by one."""
        written = [f"ARRAY[{', '.join(map(quoted, it))}]::{kind}" if isinstance(it, list) else f"{quoted(it)}::{kind}"
                   for it, kind in zip(arguments, self.types)]
        written[-1] = "VARIADIC " * (self.names[-1] == "patches") + written[-1]
        return f"SELECT {self.name}({', '.join(written)})::text"

    def sent(self, arguments):
        """Gives arguments as the protocol has them."""
        return [array_of(ELEMENTS[kind[:-2]], [bytes_of(text, kind[:-2]) for text in it]) if isinstance(it, list) else bytes_of(it, kind)
                for it, kind in zip(arguments, self.types)]

    def read(self, answer):
        """Gives an answer as SQL prints it: NULL is nothing."""
        if isinstance(answer, str):
            return answer
        if self.result == "boolean" and answer is not None:
            return "true" if answer == b"\1" else "false"
        return (answer or b"").removeprefix(b"\1" if self.result == "jsonb" else b"").decode()


def bytes_of(text, kind):
    return None if text is None else (b"\1" if kind == "jsonb" else b"") + text.encode()


@pytest.fixture(name="functions", scope="module")
def functions_of_the_extension(needs, server):
    needs(lacking=None if libpq() else "not installed: libpq5")
    functions = [Function(line) for line in server.ask(f"{FUNCTIONS};\n").splitlines()]
    assert len(functions) > 35 and {function.name for function in functions} >= {"mergejoin_join", "mergejoin_report_agg_final"}
    return functions


@pytest.fixture(name="session")
def session_that_another_outlives(server):
    """No session of the server ends meanwhile, as all do if one of them fails."""
    other = server.begin()
    with session_of(server) as session:
        yield session
    assert other.communicate("SELECT 'it lives';\n", timeout=60)[0] == "it lives\n"


def test_each_function_answers_as_in_sql(server, functions, session):
    calls = [(function, values) for function in functions if not function.takes_a_state for values in function.values()]
    answers = server.ask_each([function.statement(values) for function, values in calls], "-v", "VERBOSITY=sqlstate")
    for (function, values), wanted in zip(calls, answers):
        answer = function.read(session.call(function.number, function.sent(values)))
        assert answer == wanted.removeprefix("ERROR:  ").removesuffix("\n"), function.statement(values)
    assert len({it for it in answers if not it.startswith("ERROR")}) > 30


def test_each_function_answers_to_null_with_null(functions, session):
    """Those that take a state of an aggregate answer with an error."""
    for function in functions:
        values = [b"" for _ in function.types] if function.takes_a_state else function.sent(function.values()[0])
        for place in range(len(values)):
            answer = session.call(function.number, [None if number == place else it for number, it in enumerate(values)])
            assert answer == ("42883" if function.takes_a_state else None), function.name


def test_bytes_that_are_no_value_are_errors(functions, session):
    for function in functions:
        right = [b"" for _ in function.types] if function.takes_a_state else function.sent(function.values()[0])
        for place, garbage in itertools.product(range(len(right)), GARBAGE):
            answer = session.call(function.number, [garbage if number == place else it for number, it in enumerate(right)])
            is_an_error = isinstance(answer, str) and len(answer) == 5
            assert is_an_error or function.types[place] in ("text", "jsonb[]"), (function.name, garbage, answer)
        for wrong in ([], right[:-1], [*right, right[-1]], [None] * 9):
            assert session.call(function.number, wrong) in ("08P01", "42883"), function.name


def test_an_aggregate_is_no_function_to_call(server, session):
    found = server.ask("SELECT oid FROM pg_proc WHERE prokind = 'a' AND proname LIKE 'mergejoin%';\n").split()
    assert len(found) == 8
    assert {session.call(int(number), [value]) for number in found for value in (b"1", None, b"\x01{}")} <= {"0A000", "22023"}


def test_what_aggregates_are_made_of_is_called_by_no_statement(server, functions):
    states = [function for function in functions if function.takes_a_state]
    assert len(states) == 9
    for function in states:
        calls = [["NULL" if place in holes else f"'{{}}'::{kind}" for place, kind in enumerate(function.types)] for holes in ((0,), (1,), (0, 1))]
        said = server.ask("".join(f"SELECT {function.name}({', '.join(call)});\n" for call in calls), "-v", "VERBOSITY=sqlstate")
        assert set(said.splitlines()) <= {"ERROR:  42846", "ERROR:  42883"}, function.name


def test_a_function_of_another_declaration_is_an_error(server, session):
    """Who declares a function of C with types that are not read gets an error."""
    declared = {
        "anyelement": "mergejoin_sql_is_patch", "int": "mergejoin_sql_is_patch", "int[]": "mergejoin_sql_join",
        "bytea": "mergejoin_sql_is_patch", "anyarray": "mergejoin_report", "jsonb, jsonb": "mergejoin_report",
    }
    create = "CREATE FUNCTION declared_{}({}) RETURNS {} LANGUAGE C AS '$libdir/mergejoin', '{}';\n"
    made = "".join(create.format(number, kinds, "bool" if "is_patch" in name else "json", name)
                   for number, (kinds, name) in enumerate(declared.items()))
    values = ["1::int", "1::int", "'{1}'::int[]", "'\\x01'::bytea", "'{1}'::int[]", "'1'::jsonb, '1'::jsonb"]
    made += f"CREATE DOMAIN held AS jsonb;\n{create.format(len(declared), 'json[]', 'held', 'mergejoin_sql_join')}"
    calls = [f"SELECT declared_{number}({it});\n" for number, it in enumerate([*values, "'{1}'"])]
    assert server.ask(f"BEGIN;\n{made}ROLLBACK;\n") == ""
    said = [server.ask(f"BEGIN;\n{made}{call}ROLLBACK;\n", "-v", "VERBOSITY=sqlstate") for call in calls]
    assert said == ["ERROR:  42804\n"] * 7
