"""Each function of the extension for PostgreSQL gives what the library does, over json and texts byte for byte, and over jsonb the
same value: the rows of tests/common/rows.py, with the code and the words of each error, and what no row has.
"""

import itertools
import json
import operator

import pytest
from rows import ROWS, clipped, line_of, vector_rows
from server import quoted

# The code of each status that is an error.
CODES = {1: "MJ001", 2: "22023", 3: "MJ002", 5: "22032", 6: "22032", 7: "MJ003", 8: "22023"}
WRONG_TEXTS = (5, 6)
# What an answer begins with that is an error of a type.
code_of = operator.itemgetter(slice(len("ERROR:  22P02")))


def call_of(export, texts, kind):
    """Gives the call of a function over values of json, text or jsonb."""
    first = [] if export == "join" else [f"{quoted(texts[0])}::{kind}"]
    others = ", ".join(map(quoted, texts[len(first):]))
    rest = others if export in ("get", "rewrite", "patch") else f"VARIADIC ARRAY[{others}]::{kind}[]"
    return f"mergejoin_{export}({', '.join([*first, rest])})"


def wanted_of(status, first, second, text):
    """Gives what a session prints where the library answers this."""
    if status not in CODES:
        return "" if status == 4 else text
    detail = f"\nDETAIL:  {text}" if status == 1 else ""
    return f"ERROR:  {CODES[status]}: {clipped(line_of(status, first, second, text))}{detail}"


def refusal_of(kind, texts):
    """Gives what the type itself reports of a text, before there is a call, or nothing if it takes all."""
    if kind == "text":
        return None
    try:
        list(map(json.loads, texts))
    except ValueError:
        return "ERROR:  22P02"
    return "ERROR:  22P05" if kind == "jsonb" and r"\u0000" in "".join(texts) else None


def cases():
    """Gives, of each row that a session of UTF-8 can send, the call, what is wanted, and by what these are compared. What is no
    document is not sent as jsonb, which changes numbers."""
    for (export, *reply, data), kind in itertools.product([*vector_rows(), *ROWS], ("json", "text", "jsonb")):
        texts = [text.decode("utf-8", "replace") for text in data]
        if [text.encode() for text in texts] != data or kind == "jsonb" and reply[0] in WRONG_TEXTS:
            continue
        if refusal := refusal_of(kind, texts[:1] if export == "get" else texts):
            yield call_of(export, texts, kind), refusal, code_of
        else:
            yield call_of(export, texts, kind), wanted_of(*reply), json.loads if kind == "jsonb" and reply[0] == 0 else str


DEEPEST = "[" * 126 + "]" * 126
GROUP = "(SELECT mergejoin_agg(patch{}) FROM (VALUES ('{{\"a\":1}}'::json), ('{{\"a\":2}}')) AS log (patch))"
CONFLICT = 'ERROR:  MJ001: conflict: two patches at "/a"\nDETAIL:  ["/a"]\n' \
    "HINT:  mergejoin_conflict_agg(patch ORDER BY ..) returns the first two, and where they conflict."
# Null elements, what jsonb changes, the deepest documents, and the error of an aggregate.
OTHERS = {
    "mergejoin_join('1'::json, NULL)": "ERROR:  22004: patch 1 is null",
    "mergejoin_replay('1'::jsonb, NULL, '1')": "ERROR:  22004: patch 0 is null",
    "mergejoin_join(VARIADIC NULL::json[])": "",
    "mergejoin_join('{\"b\":1.0}'::jsonb)": 'ERROR:  22032: patch 0: number not whole at "/b"',
    "mergejoin_join('{\"bb\":1e2,\"a\":1,\"a\":-0}'::jsonb)": '{"a": 0, "bb": 100}',
    "mergejoin_join('{\"bb\":100,\"a\":1,\"a\":0}'::json)": '{"a":0,"bb":100}',
    "mergejoin_join('-0'::json)": 'ERROR:  22032: patch 0: number not whole at ""',
    "mergejoin_join('{\"a\\\"\\n\\u0001\\u0000b\":1.5}'::json)": 'ERROR:  22032: patch 0: number not whole at "/a\\"\\n\\u0001\\u0000b"',
    "mergejoin_join('{\"n\":18446744073709551615}'::jsonb)": '{"n": 18446744073709551615}',
    "mergejoin_get('{\"a\":\"\\u0000é\"}'::json, '/a')": '"\\u0000é"',
    "mergejoin_conflicts('{\"a\":1,\"b\":2}'::json, '{\"a\":2,\"b\":3}')": '["/a","/b"]',
    "mergejoin_conflicts('{\"a\":1,\"b\":2}'::jsonb, '{\"a\":2,\"b\":3}')": '["/a", "/b"]',
    "mergejoin_conflicts('{\"a\":1}', '{\"b\":1}')": "[]",
    "mergejoin_conflicts('1'::json, '1.5')": 'ERROR:  22032: patch 1: number not whole at ""',
    # Literals that have no type.
    "mergejoin_join('{\"b\":1}', '{\"a\":1}')": '{"a":1,"b":1}',
    "mergejoin_get('[5]', '/0')": "5",
    "mergejoin_patch('[5]', '[]')": "[5]",
    "mergejoin_is_patch('{')": "f",
    "mergejoin_is_patch(NULL)": "",
    "mergejoin_is_patch('{\"a\":1.5}'::json)": "f",
    "mergejoin_is_patch('{\"a\":1.5}'::jsonb)": "f",
    "mergejoin_is_patch('{\"a\":1}'::jsonb)": "t",
    f"mergejoin_join('{DEEPEST}'::json, '{DEEPEST}')": DEEPEST,
    GROUP.format(""): CONFLICT,
    GROUP.format("::jsonb"): CONFLICT,
}


def texts_decided():
    """Gives texts of the rows, each with whether it is a patch: those of a join, as far as its answer decides it."""
    for export, status, first, _, _, data in [*vector_rows(), *ROWS]:
        texts = [text.decode("utf-8", "replace") for text in data]
        if export == "join" and [text.encode() for text in texts] == data:
            decided = texts[:first + 1] if status == 6 else texts
            yield from ((text, status != 6 or number < first) for number, text in enumerate(decided))


CASES = [*cases(), *((f"mergejoin_is_patch({quoted(text)})", "t" if it else "f", str) for text, it in dict(texts_decided()).items()), *((call, wanted, str) for call, wanted in OTHERS.items())]
CALLS = [f"SELECT {call}" for call, _, _ in CASES]


@pytest.fixture(name="answers", scope="module")
def what_one_session_answers(server):
    return server.ask_each(CALLS)


@pytest.mark.parametrize("number", range(len(CASES)))
def test_a_call_is_answered(answers, number):
    call, wanted, read = CASES[number]
    assert read(answers[number].removesuffix("\n")) == read(wanted), call


def test_another_extension_changes_no_answer(is_left_alone):
    is_left_alone(CALLS)
