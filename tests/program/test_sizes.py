"""The program answers inputs of some size, whose answers are known: where a slip in a loop or a growth would show."""

import pytest


def listed(pieces):
    """The texts with a comma between two."""
    return ",".join(pieces)


def nested(depth, inside=""):
    return "[" * depth + inside + "]" * depth


def rows():
    """Gives a name, the words, the input, the line, and the status."""
    numbers = [str(number) for number in range(300)]
    moved = f'[[{listed(numbers)}],[{{"op":"move","from":"/0","path":"/299"}}]]'
    yield "300 elements", ["get", "/299"], f"[[{listed(numbers)}]]", "299", 0
    yield "300 elements", ["patch"], moved, f"[{listed(numbers[1:])},0]", 0
    names = [f"n{number:03}" for number in range(300)]
    old, new, gone = (listed(f'"{name}":{value}' for name in names) for value in ("0", "[1]", "null"))
    tests = listed(f'{{"op":"test","path":"/{name}","value":0}}' for name in names)
    removes = listed(f'{{"op":"remove","path":"/{name}"}}' for name in names)
    yield "300 names", ["merge"], f"[{{{old}}},{{{new}}}]", f"{{{new}}}", 0
    yield "300 names", ["merge"], f"[{{{old}}},{{{gone}}}]", "{}", 0
    yield "300 names", ["rewrite"], f"[{{{old}}},{{{gone}}}]", f"[{tests},{removes}]", 0
    yield "300 names", ["patch"], f"[{{{old}}},[{tests},{removes}]]", "{}", 0

    adds = listed(f'{{"op":"add","path":"/-","value":{number}}}' for number in range(255))
    remove = '{{"op":"remove","path":"/{}"}}'
    yield "256 operations", ["patch"], f"[[],[{adds},{remove.format(0)}]]", f"[{listed(numbers[1:255])}]", 0
    yield "256 operations", ["patch"], f"[[],[{adds},{remove.format(255)}]]", "operation 255: missing", 1
    yield "255 operations", ["patch"], f"[[],[{adds}]]", f"[{listed(numbers[:255])}]", 0

    patches = listed(f'{{"p{number:04}":0}}' for number in range(1100))
    whole = "{" + listed(f'"p{number:04}":0' for number in range(1100)) + "}"
    yield "1,100 patches", ["join"], f"[{patches}]", whole, 0
    yield "1,100 patches", ["replay"], f"[5,{patches},{patches}]", whole, 0
    yield "1,100 patches", ["merge"], f"[5,{patches}]", whole, 0
    yield "1,101 patches", ["join"], f'[{patches},{{"p0003":1}}]', 'conflict: patches 3 and 1100 at "/p0003"', 1

    long, name = "/" + "a~0~1" * 1000, "a~/" * 1000
    replaced = f'[{{"{name}":7}},[{{"op":"replace","path":"{long}","value":8}}]]'
    yield "a pointer of 5,000 bytes", ["get", long], f'[{{"{name}":7}}]', "7", 0
    yield "a pointer of 5,000 bytes", ["patch"], replaced, f'{{"{name}":8}}', 0
    yield "a pointer of 5,000 bytes", ["join"], f'[{{"{name}":7}},{{"{name}":8}}]', f'conflict: patches 0 and 1 at "{long}"', 1
    deep, path = nested(120, "7"), "/0" * 120
    replaced = f'[{deep},[{{"op":"replace","path":"{path}","value":8}}]]'
    yield "a pointer of 120 tokens", ["get", path], f"[{deep}]", "7", 0
    yield "a pointer of 120 tokens", ["patch"], replaced, deep.replace("7", "8"), 0

    yield "an empty name", ["get", "/"], '[{"":{"":1}}]', '{"":1}', 0
    yield "an empty name", ["get", "//"], '[{"":{"":1}}]', "1", 0
    yield "an empty name", ["patch"], '[{"":1},[{"op":"move","from":"/","path":"/a"}]]', '{"a":1}', 0
    yield "an empty name", ["merge"], '[{"":1},{"":{"":null}}]', '{"":{}}', 0
    yield "an empty name", ["join"], '[{"":{"":1}},{"":{"":2}}]', 'conflict: patches 0 and 1 at "//"', 1
    yield "an empty name", ["replay"], '[{},{"":{"":1}},{"":{"a":2}}]', '{"":{"":1,"a":2}}', 0
    yield "an empty name", ["rewrite"], '[{"":1},{"":null}]', '[{"op":"test","path":"/","value":1},{"op":"remove","path":"/"}]', 0

    one, two = ['{"a":' * 126 + digit + "}" * 126 for digit in "12"]
    path = "/a" * 126
    edits = f'[{{"op":"test","path":"{path}","value":1}},{{"op":"replace","path":"{path}","value":2}}]'
    yield "126 levels", ["get", path], f"[{one}]", "1", 0
    yield "126 levels", ["merge"], f"[{one},{two}]", two, 0
    yield "126 levels", ["replay"], f"[{one},{two},{two}]", two, 0
    yield "126 levels", ["join"], f"[{one},{two}]", f'conflict: patches 0 and 1 at "{path}"', 1
    yield "126 levels", ["rewrite"], f"[{one},{two}]", edits, 0
    yield "126 levels", ["patch"], f"[{one},{edits}]", two, 0
    yield "126 levels", ["patch"], f'[{one},[{{"op":"add","path":"{path}/a","value":1}}]]', "operation 0: no place", 1

    yield "126 levels of arrays", ["merge"], f"[{nested(126)}]", nested(126), 0
    yield "127 levels of arrays", ["merge"], f"[{nested(127)}]", "input: not JSON", 2
    for depth in (125, 126):
        yield f"a fraction {depth} deep", ["merge"], f"[{nested(depth, '1.5')}]", "input: number not whole", 2
    copy = '[{"op":"copy","from":"","path":"/-"}]'
    yield "125 levels into themselves", ["patch"], f"[{nested(125)},{copy}]", f"[{nested(124)},{nested(125)}]", 0
    yield "126 levels into themselves", ["patch"], f"[{nested(126)},{copy}]", "operation 0: too deep", 1
    # A value of a rewriting stands three levels down in an input of `patch`: in its operation, in the JSON Patch, in the input.
    for depth, line, status in [(124, f'{{"a":{nested(124)}}}', 0), (125, "input: not JSON", 2)]:
        edits = f'[{{"op":"add","path":"/a","value":{nested(depth)}}}]'
        yield f"a value {depth} deep", ["rewrite"], f'[{{}},{{"a":{nested(depth)}}}]', edits, 0
        yield f"a rewriting {depth} deep", ["patch"], f"[{{}},{edits}]", line, status

    nine = ['{"a":{"b":{"c":{"d":{"e":{"f":{"g":{"h":{"i":' + digit + ',"j":0}}}}}}}}}' for digit in "12"]
    yield "a conflict nine names deep", ["join"], f"[{nine[0]},{nine[1]}]", 'conflict: patches 0 and 1 at "/a/b/c/d/e/f/g/h/i"', 1


@pytest.mark.parametrize("words,given,line,status", [pytest.param(*row, id=f"{name}, {row[0][0]}") for name, *row in rows()])
def test_an_input_of_some_size_is_answered(answers, words, given, line, status):
    answers(words, given, line, status)
