"""The program under a failing allocator: each single request in turn, and each from one on.

For each row, N counts up from 1 to the first request that is not reached. A run gives the row's answer whole, or one
honest line: `out of memory`, or `read failed` where the words could not be had, on standard error with status 3 and
nothing on standard output. Nothing else, and no signal. At the N that is not reached it is the row's answer, and both
lines were seen before. Each run gives back as many blocks as it asked for.
"""

import pytest

# The words, the input, the status, and what the stream of that status gets.
ROWS = [
    (["get", "/a~1b/1"], '[{"a/b":[0,{"c":"text"}]}]', 0, '{"c":"text"}\n'),
    (["get", "/x"], '[{"a":1}]', 1, "missing\n"),
    (["patch"], '[{"l":[1,2]},[{"op":"add","path":"/l/-","value":{"a":[3]}},{"op":"move","from":"/l/0","path":"/m"}]]', 0,
     '{"l":[2,{"a":[3]}],"m":1}\n'),
    (["patch"], '[{"a":1},[{"op":"add","path":"/b","value":2},{"op":"test","path":"/a","value":9}]]', 1, "operation 1: test failed\n"),
    (["merge"], '[{"a":"b","c":{"d":1}},{"a":null,"c":{"e":2}}]', 0, '{"c":{"d":1,"e":2}}\n'),
    (["join"], '[{"a":{"x":1}},{"a":{"y":null}},{"k":null}]', 0, '{"a":{"x":1,"y":null},"k":null}\n'),
    (["join"], '[{"a":{"z":1},"b":1,"c":0},{"a":{"z":2},"b":2,"c":{}}]', 1, 'conflict: patches 0 and 1 at "/a/z", "/b", "/c"\n'),
    (["replay"], '[{"k":0},{"k":null},{"a":{"y":null}},{"a":{"x":1}},{"k":null}]', 0, '{"a":{"x":1}}\n'),
    (["rewrite"], '[{"a":1,"b":2},{"a":null,"b":3,"c":{"d":null}}]', 0,
     '[{"op":"test","path":"/a","value":1},{"op":"test","path":"/b","value":2},{"op":"remove","path":"/a"},'
     '{"op":"replace","path":"/b","value":3},{"op":"add","path":"/c","value":{}}]\n'),
    (["merge"], "[1.5]", 2, "input: number not whole\n"),
    (["frob"], "", 2, "error: unrecognized subcommand 'frob'\n\nUsage: mergejoin <COMMAND>\n\nFor more information, try '--help'.\n"),
    (["merge"], "[]", 2, "input: wrong shape\n"),
    (["merge"], '[{"a":"foo"},null]', 0, "null\n"),
    (["merge"], '[{"e":null},{"a":[null,{"b":null}],"z":null}]', 0, '{"a":[null,{"b":null}],"e":null}\n'),
    (["replay"], '[{"a":1},{"a":2},{"a":3}]', 1, 'conflict: patches 0 and 1 at "/a"\n'),
    (["merge"], '[\n  {\n    "a": "b"\n  },\n  {\n    "b": "c"\n  }\n]\n', 0, '{"a":"b","b":"c"}\n'),
    (["get", "foo"], "[5]", 2, "pointer: no slash\n"),
    (["get", "/a~2"], "[5]", 2, "pointer: bad tilde at 2\n"),
    (["join"], "[null,{}]", 1, 'conflict: patches 0 and 1 at ""\n'),
    (["join"], '[{"a":1},{"b":2},{"c":0},{"b":3,"a":1},{"a":2}]', 1, 'conflict: patches 1 and 3 at "/b"\n'),
    (["join"], "[]", 1, "no patches\n"),
    (["patch"], '[[1,2],[{"op":"copy","from":"/0","path":"/1"},{"op":"replace","path":"/2","value":{}}]]', 0, "[1,1,{}]\n"),
    (["patch"], '[{},[{"op":"add","path":"/a"}]]', 2, "operation 0: no value\n"),
    (["rewrite"], '[5,{"a":1}]', 0, '[{"op":"test","path":"","value":5},{"op":"replace","path":"","value":{"a":1}}]\n'),
    (["merge"], "[18446744073709551615]", 0, "18446744073709551615\n"),
    (["merge"], "[" * 127 + "]" * 127, 0, "[" * 126 + "]" * 126 + "\n"),
    (["patch"], "[" + "[" * 126 + "]" * 126 + ',[{"op":"copy","from":"","path":"/-"}]]', 1, "operation 0: too deep\n"),
    (["merge"], "[1][2]", 2, "input: not JSON\n"),
    # As long as an input may be.
    (["merge"], "[5" + " " * 1_048_573 + "]", 0, "5\n"),
]

REFUSALS = [(3, "", "out of memory\n"), (3, "", "read failed\n")]


@pytest.mark.parametrize("how", ["REFUSE_AT", "REFUSE_FROM"])
@pytest.mark.parametrize("words,given,status,text", ROWS, ids=[f"{' '.join(words)} {given}"[:60] for words, given, *_ in ROWS])
def test_each_request_is_refused_in_turn(program, heap, words, given, status, text, how):
    wanted, seen = (status, text, "") if status == 0 else (status, "", text), set()
    for number in range(1, 10_000):
        ran = heap.run([program, *words], given.encode(), how, number)
        assert ran.requests, f"no request was seen at {number}"
        assert not ran.lost, f"{ran.lost} blocks were lost at {number}"
        if not ran.refused:
            break
        assert ran.ending in (wanted, *REFUSALS), f"request {number} was refused"
        seen.add(ran.ending)
    assert not ran.refused and ran.ending == wanted
    assert seen >= set(REFUSALS), f"{set(REFUSALS) - seen} was never seen"
