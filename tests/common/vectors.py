"""The test vectors, as the program answers them: `tests/program` runs each, and what calls the library is held to those
that are no fault of the program's input as a whole (`rows.py`).
"""

# The document of RFC 6901, section 5, as the one element of an array.
EXAMPLE = r'[{"":0," ":7,"a/b":1,"c%d":2,"e^f":3,"foo":["bar","baz"],"g|h":4,"i\\j":5,"k\"l":6,"m~n":8}]'

# The string pointers of RFC 6901, section 5, and what they name in the example.
EXAMPLES = [
    ("", EXAMPLE[1:-1]),
    ("/foo", '["bar","baz"]'),
    ("/foo/0", '"bar"'),
    ("/", "0"),
    ("/a~1b", "1"),
    ("/c%d", "2"),
    ("/e^f", "3"),
    ("/g|h", "4"),
    (r'/i\j', "5"),
    ('/k"l', "6"),
    ("/ ", "7"),
    ("/m~0n", "8"),
]

# Arrays and objects within one another, with names that are empty or need escapes.
NESTED = '{"a/b":{"":[1,{"~":2}]}}'

# Of `get`: a pointer, an input, the line, and the status.
PARTS = [
    # What is there and what is not.
    ("/~01", '[{"~1":3}]', "3", 0),
    ("", "[5]", "5", 0),
    ("/", '[{"":1}]', "1", 0),
    ("/a", "[5]", "missing", 1),
    ("/foo/1", '[{"foo":["bar","baz"]}]', '"baz"', 0),
    ("/foo/2", '[{"foo":["bar","baz"]}]', "missing", 1),
    ("/foo/01", '[{"foo":["bar","baz"]}]', "missing", 1),
    ("/foo/-", '[{"foo":["bar","baz"]}]', "missing", 1),
    ("", f"[{NESTED}]", NESTED, 0),
    ("/a~1b", f"[{NESTED}]", '{"":[1,{"~":2}]}', 0),
    ("/a~1b/", f"[{NESTED}]", '[1,{"~":2}]', 0),
    ("/a~1b//0", f"[{NESTED}]", "1", 0),
    ("/a~1b//1/~0", f"[{NESTED}]", "2", 0),
    ("/a~1b//0/x", f"[{NESTED}]", "missing", 1),
    ("/a~1b//1/~1", f"[{NESTED}]", "missing", 1),
    ("/a~1b//2", f"[{NESTED}]", "missing", 1),
    ("/a~1b//01", f"[{NESTED}]", "missing", 1),
    ("/a~1b//-", f"[{NESTED}]", "missing", 1),
    ("/a/b", f"[{NESTED}]", "missing", 1),
    # Texts that are no pointer, and the checks that come before.
    ("foo", "[5]", "pointer: no slash", 2),
    ("foo~", "[5]", "pointer: no slash", 2),
    ("/a~2", "[5]", "pointer: bad tilde at 2", 2),
    ("/~", "[5]", "pointer: bad tilde at 1", 2),
    ("/~0/é~/~2", "[5]", "pointer: bad tilde at 6", 2),
    ("foo", "[", "input: not JSON", 2),
    ("foo", "[1.5]", "input: number not whole", 2),
    ("foo", "[1,2]", "input: wrong shape", 2),
    ("foo", "[]", "input: wrong shape", 2),
]

# Of the others: an input, the line, and the status.
PATCHED = [
    # One operation of RFC 6902 on an object with an array.
    ('[{"l":[1,2]},[{"op":"add","path":"/l/2","value":3}]]', '{"l":[1,2,3]}', 0),
    ('[{"l":[1,2]},[{"op":"add","path":"/l/-","value":3}]]', '{"l":[1,2,3]}', 0),
    ('[{"l":[1,2]},[{"op":"add","path":"/l/3","value":3}]]', "operation 0: no place", 1),
    ('[{"l":[1,2]},[{"op":"add","path":"/l/0","value":0}]]', '{"l":[0,1,2]}', 0),
    ('[{"l":[1,2]},[{"op":"add","path":"/l/01","value":0}]]', "operation 0: no place", 1),
    ('[{"l":[1,2]},[{"op":"add","path":"/x/y","value":0}]]', "operation 0: no place", 1),
    ('[{"l":[1,2]},[{"op":"add","path":"/l/0/x","value":0}]]', "operation 0: no place", 1),
    ('[{"l":[1,2]},[{"op":"add","path":"","value":7}]]', "7", 0),
    ('[{"l":[1,2]},[{"op":"add","path":"/l","value":null}]]', '{"l":null}', 0),
    ('[{"l":[1,2]},[{"op":"remove","path":""}]]', "operation 0: remove of root", 1),
    ('[{"l":[1,2]},[{"op":"remove","path":"/l/0"}]]', '{"l":[2]}', 0),
    ('[{"l":[1,2]},[{"op":"remove","path":"/l/-"}]]', "operation 0: missing", 1),
    ('[{"l":[1,2]},[{"op":"replace","path":"/l/1","value":9}]]', '{"l":[1,9]}', 0),
    ('[{"l":[1,2]},[{"op":"replace","path":"/l/2","value":9}]]', "operation 0: missing", 1),
    ('[{"l":[1,2]},[{"op":"replace","path":"","value":[]}]]', "[]", 0),
    ('[{"l":[1,2]},[{"op":"move","from":"/l","path":"/l/0"}]]', "operation 0: into itself", 1),
    ('[{"l":[1,2]},[{"op":"move","from":"/z","path":"/z/a"}]]', "operation 0: into itself", 1),
    ('[{"l":[1,2]},[{"op":"move","from":"/z","path":"/z"}]]', "operation 0: missing", 1),
    ('[{"l":[1,2]},[{"op":"move","from":"/l/0","path":"/l/1"}]]', '{"l":[2,1]}', 0),
    ('[{"l":[1,2]},[{"op":"move","from":"/l/0","path":"/l/2"}]]', "operation 0: no place", 1),
    ('[{"l":[1,2]},[{"op":"move","from":"/l/0","path":"/l/0"}]]', '{"l":[1,2]}', 0),
    ('[{"l":[1,2]},[{"op":"move","from":"","path":""}]]', '{"l":[1,2]}', 0),
    ('[{"l":[1,2]},[{"op":"move","from":"/l/1","path":""}]]', "2", 0),
    ('[{"l":[1,2]},[{"op":"move","from":"/l/1","path":"/l"}]]', '{"l":2}', 0),
    ('[{"l":[1,2]},[{"op":"copy","from":"","path":"/l/0"}]]', '{"l":[{"l":[1,2]},1,2]}', 0),
    ('[{"l":[1,2]},[{"op":"copy","from":"/l/0","path":"/l/0"}]]', '{"l":[1,1,2]}', 0),
    ('[{"l":[1,2]},[{"op":"copy","from":"/z","path":"/x/y"}]]', "operation 0: missing", 1),
    ('[{"l":[1,2]},[{"op":"test","path":"/l","value":[1,2]}]]', '{"l":[1,2]}', 0),
    ('[{"l":[1,2]},[{"op":"test","path":"/l","value":[2,1]}]]', "operation 0: test failed", 1),
    ('[{"l":[1,2]},[{"op":"test","path":"/q","value":null}]]', "operation 0: missing", 1),
    ('[{"l":[1,2]},[]]', '{"l":[1,2]}', 0),
    # Patches of the kinds that its appendix A shows, and one that is refused at its second operation.
    ('[{"foo":"bar"},[{"op":"add","path":"/baz","value":"qux"}]]', '{"baz":"qux","foo":"bar"}', 0),
    ('[{"foo":["bar","baz"]},[{"op":"add","path":"/foo/1","value":"qux"}]]', '{"foo":["bar","qux","baz"]}', 0),
    ('[{"baz":"qux","foo":"bar"},[{"op":"remove","path":"/baz"}]]', '{"foo":"bar"}', 0),
    ('[{"foo":{"bar":"baz","waldo":"fred"},"qux":{"corge":"grault"}},[{"op":"move","from":"/foo/waldo","path":"/qux/thud"}]]',
     '{"foo":{"bar":"baz"},"qux":{"corge":"grault","thud":"fred"}}', 0),
    ('[{"foo":["all","grass","cows","eat"]},[{"op":"move","from":"/foo/1","path":"/foo/3"}]]',
     '{"foo":["all","cows","eat","grass"]}', 0),
    ('[{"foo":"bar"},[{"op":"add","path":"/child","value":{"grandchild":{}}}]]',
     '{"child":{"grandchild":{}},"foo":"bar"}', 0),
    ('[{"foo":"bar"},[{"op":"add","path":"/baz","value":"qux","xyz":123}]]', '{"baz":"qux","foo":"bar"}', 0),
    ('[{"foo":"bar"},[{"op":"add","path":"/baz/bat","value":"qux"}]]', "operation 0: no place", 1),
    ('[{"/":9,"~1":10},[{"op":"test","path":"/~01","value":10}]]', '{"/":9,"~1":10}', 0),
    ('[{"/":9,"~1":10},[{"op":"test","path":"/~01","value":"10"}]]', "operation 0: test failed", 1),
    ('[{"foo":["bar"]},[{"op":"add","path":"/foo/-","value":["abc","def"]}]]', '{"foo":["bar",["abc","def"]]}', 0),
    ('[{"a":{"x":1,"y":2}},[{"op":"test","path":"/a","value":{"y":2,"x":1}}]]', '{"a":{"x":1,"y":2}}', 0),
    ('[{"a":1},[{"op":"add","path":"/b","value":2},{"op":"test","path":"/a","value":9}]]',
     "operation 1: test failed", 1),
    # Several operations, values of each kind, and moves within an array and over another.
    ('[{"a":[1,2]},[{"op":"add","path":"/a/-","value":3},{"op":"add","path":"/b","value":{}}]]', '{"a":[1,2,3],"b":{}}', 0),
    ('[{"a":{"b":1,"c":2},"d":[3]},[{"op":"replace","path":"/a/b","value":null}]]', '{"a":{"b":null,"c":2},"d":[3]}', 0),
    ('[{"a":1,"b":2},[{"op":"test","path":"","value":{"b":2,"a":1}}]]', '{"a":1,"b":2}', 0),
    ('[{"a":{"x":[1]},"b":{}},[{"op":"copy","from":"/a/x","path":"/b/y"}]]', '{"a":{"x":[1]},"b":{"y":[1]}}', 0),
    ('[{"a":{"x":1}},[{"op":"copy","from":"/a","path":"/a/y"}]]', '{"a":{"x":1,"y":{"x":1}}}', 0),
    ('[[1,2,3],[{"op":"move","from":"/0","path":"/2"}]]', "[2,3,1]", 0),
    ('[[1,2,3],[{"op":"move","from":"/2","path":"/0"}]]', "[3,1,2]", 0),
    ('[{"a":[1],"b":2},[{"op":"move","from":"/b","path":"/a"}]]', '{"a":2}', 0),
    ('[{"a":1},[{"from":"/a","op":"move","path":"/b"}]]', '{"b":1}', 0),
    ('[{"a":true},[{"op":"test","path":"/a","value":1}]]', "operation 0: test failed", 1),
    ('[{"a":0},[{"op":"test","path":"/a","value":false}]]', "operation 0: test failed", 1),
    ('[{"a":1},[{"op":"remove","path":"/a"},{"op":"remove","path":"/a"}]]', "operation 1: missing", 1),
    ('[{"a":{}},[{"op":"move","from":"/a","path":"/a/b"}]]', "operation 0: into itself", 1),
    # The form of all operations is checked before any is applied.
    ("[1,{}]", "input: wrong shape", 2),
    ('[1,[{"op":"remove","path":""},[]]]', "operation 1: not an object", 2),
    ("[1,2]", "input: wrong shape", 2),
    ("[1,[2]]", "operation 0: not an object", 2),
    ("[1,[{}]]", "operation 0: no op", 2),
    ('[1,[{"op":5,"path":""}]]', "operation 0: no op", 2),
    ('[1,[{"op":"put"}]]', "operation 0: unknown op", 2),
    ('[1,[{"op":"add"}]]', "operation 0: no path", 2),
    ('[1,[{"op":"move","path":"x"}]]', "operation 0: no from", 2),
    ('[1,[{"op":"add","path":"x"}]]', "operation 0: bad pointer", 2),
    ('[1,[{"op":"add","path":""}]]', "operation 0: no value", 2),
    ('[1,[{"op":"remove","path":"","from":5}]]', "operation 0: remove of root", 1),
    ('[1,[{"op":"remove","path":""},{"op":"put"}]]', "operation 1: unknown op", 2),
    ('[1,[{"op":"copy","from":"~","path":""}]]', "operation 0: bad pointer", 2),
    ("[1]", "input: wrong shape", 2),
    ("[1,[],2]", "input: wrong shape", 2),
]

MERGED = [
    # Applications in turn, with no check of compatibility.
    ('[{"a":"b","c":{"d":1}},{"a":null,"c":{"e":2}}]', '{"c":{"d":1,"e":2}}', 0),
    ("[5]", "5", 0),
    ("[5,{}]", "{}", 0),
    ('[{"e":null},{"a":[null,{"b":null}],"z":null}]', '{"a":[null,{"b":null}],"e":null}', 0),
    ('[{"a":1},{"a":2},{"a":3}]', '{"a":3}', 0),
    ('[{"a":{"x":[1],"y":2},"k":0},{"a":{"x":null}}]', '{"a":{"y":2},"k":0}', 0),
    ('[{"a":5,"k":0},{"a":{"b":1,"c":null},"z":{"y":2}}]', '{"a":{"b":1},"k":0,"z":{"y":2}}', 0),
    ('[\n  {\n    "a": "b"\n  },\n  {\n    "b": "c"\n  }\n]\n', '{"a":"b","b":"c"}', 0),
    # Names go by their UTF-8 bytes: neither by UTF-16 units nor after a normalisation. Texts are written as short as may be.
    ('[{"b":1,"a":null}]', '{"a":null,"b":1}', 0),
    ('[[ true , { "k" : "v" } ,\n{} , [] , false ] ]', '[true,{"k":"v"},{},[],false]', 0),
    (r'[{"\u00e9":1,"e\u0301":2}]', '{"e\u0301":2,"\u00e9":1}', 0),
    (r'[{"\ud83d\ude00":1,"\uffff":2}]', '{"\uffff":2,"\U0001f600":1}', 0),
    (r'[{"b\u0001":1,"a\n":2,"a\u001f":3,"\"":4}]', r'{"\"":4,"a\n":2,"a\u001f":3,"b\u0001":1}', 0),
    (r'["\u0000\u0008\t\n\u000c\r\u007f\u2028\/\\"]', '"\\u0000\\b\\t\\n\\f\\r\u007f\u2028/\\\\"', 0),
    # The number rule at its ends.
    ("[18446744073709551615]", "18446744073709551615", 0),
    ("[-9223372036854775808]", "-9223372036854775808", 0),
    ("[18446744073709551616]", "input: number not whole", 2),
    ("[-9223372036854775809]", "input: number not whole", 2),
    ("[1.5]", "input: number not whole", 2),
    ("1.5", "input: number not whole", 2),
    ('[{"a":[1.0]}]', "input: number not whole", 2),
    ("[1.5", "input: not JSON", 2),
    # Inputs that are no JSON array with an element.
    ("[]", "input: wrong shape", 2),
    ("5", "input: wrong shape", 2),
    ("", "input: not JSON", 2),
    ("[", "input: not JSON", 2),
    ("[1][2]", "input: not JSON", 2),
]

JOINED = [
    ('[{"a":{}},{"a":{"b":null}}]', '{"a":{"b":null}}', 0),
    ("[7]", "7", 0),
    ("[[1],[1]]", "[1]", 0),
    ('[{"a":{}},{"a":null}]', 'conflict: patches 0 and 1 at "/a"', 1),
    ("[null,{}]", 'conflict: patches 0 and 1 at ""', 1),
    ('[{"b":1,"a":{"z":1}},{"a":{"z":2},"b":2}]', 'conflict: patches 0 and 1 at "/a/z", "/b"', 1),
    ('[{"a":{"z":1},"a!":1},{"a":{"z":2},"a!":2}]', 'conflict: patches 0 and 1 at "/a/z", "/a!"', 1),
    ('[{"a":{"x":1,"y":[1]},"b":{},"c":0},{"a":{"x":2,"y":[1]},"b":null,"c":{"d":1}}]',
     'conflict: patches 0 and 1 at "/a/x", "/b", "/c"', 1),
    # Names that are prefixes of one another, and names that need escapes, at several depths.
    ('[{"a":{"b":{"c":1,"cc":2},"b/":3},"a~":{"":4},"aa":5,"z":0},{"a":{"b":{"c":9,"cc":9},"b/":9},"a~":{"":9},"aa":{},"z":0}]',
     'conflict: patches 0 and 1 at "/a/b/c", "/a/b/cc", "/a/b~1", "/aa", "/a~0/"', 1),
    ('[{"a":1},{"b":2},{"c":0},{"b":3,"a":1},{"a":2}]', 'conflict: patches 1 and 3 at "/b"', 1),
    ("[]", "no patches", 1),
    (r'[{"a/b":{"\"":1}},{"a/b":{"\"":2}}]', r'conflict: patches 0 and 1 at "/a~1b/\""', 1),
    ('[{"a":{"x":1}},{"a":{"y":null}},{"k":null}]', '{"a":{"x":1,"y":null},"k":null}', 0),
    ('[{"a":1},{"a":1}]', '{"a":1}', 0),
    ('[{"a":[null]},{"b":null}]', '{"a":[null],"b":null}', 0),
    ("5", "input: wrong shape", 2),
]

# Two patches, and where they clash, whichever comes first.
CLASHES = [
    ('{"a":1}', '{"a":2}', '"/a"'),
    ('{"x":1,"y":1}', '{"x":2,"y":1}', '"/x"'),
    ('{"x":1,"y":1}', '{"x":2,"y":2}', '"/x", "/y"'),
    # A name that is a prefix of another comes first.
    ('{"ab":1,"a":1}', '{"a":2,"ab":2}', '"/a", "/ab"'),
    # By their UTF-8 bytes, and not by their UTF-16 units.
    ('{"😀":1,"～":1}', '{"😀":2,"～":2}', '"/～", "/😀"'),
    # At several depths, next to what is equal and what one patch carries alone.
    ('{"a":{"b":{"c":1,"d":[1]},"e":null},"f":{},"g":1}', '{"a":{"b":{"c":2,"d":[2]},"e":null},"f":0,"h":1}',
     '"/a/b/c", "/a/b/d", "/f"'),
]

# Two documents, the second as it is written, and whether they are equal, as `test` compares them.
COMPARED = [
    ('{"b":1,"a":null}', '{"a":null,"b":1}', True),
    ("1", '"1"', False),
    ("[1,2]", "[2,1]", False),
    ("[1,2]", "[1]", False),
    ("{}", "[]", False),
    ('{"a":null}', "{}", False),
    ('{"a":1}', '{"b":1}', False),
    ('{"a":1}', '{"a":2}', False),
    ("true", "false", False),
    (r'{"\u00e9":1}', r'{"e\u0301":1}', False),
]

REPLAYED = [
    ('[{"a":1},{"a":2},{"a":3}]', 'conflict: patches 0 and 1 at "/a"', 1),
    ('[5,{"a":1,"b":{"c":2}},{"d":0},{"a":2,"b":{"c":2}},{"b":null,"a":1}]', 'conflict: patches 0 and 2 at "/a"', 1),
    ('[{"k":0},{"a":{"x":1}},{"a":{"y":null}},{"k":null}]', '{"a":{"x":1}}', 0),
    ('[{"k":0},{"k":null},{"a":{"y":null}},{"a":{"x":1}},{"a":{"y":null}},{"k":null}]', '{"a":{"x":1}}', 0),
    ("[5]", "5", 0),
    ("[5,{}]", "{}", 0),
    ("[]", "input: wrong shape", 2),
]

REWRITTEN = [
    ('[{"a":1,"b":{"c":2}},{"a":1,"b":{"c":null,"d":{"e":null}},"x":null}]',
     '[{"op":"test","path":"/b/c","value":2},{"op":"remove","path":"/b/c"},{"op":"add","path":"/b/d","value":{}}]',
     0),
    ('[{"a":1,"b":{"d":{}}},{"a":1,"b":{"c":null,"d":{"e":null}},"x":null}]', "[]", 0),
    ('[5,{"a":1}]', '[{"op":"test","path":"","value":5},{"op":"replace","path":"","value":{"a":1}}]', 0),
    ('[{"a":1},null]', '[{"op":"test","path":"","value":{"a":1}},{"op":"replace","path":"","value":null}]', 0),
    ("[null,null]", "[]", 0),
    ("[5,5]", "[]", 0),
    ('[{"a":null},{"a":{"b":null}}]',
     '[{"op":"test","path":"/a","value":null},{"op":"replace","path":"/a","value":{}}]', 0),
    ('[{"a":[1]},{"a":[1,null]}]',
     '[{"op":"test","path":"/a","value":[1]},{"op":"replace","path":"/a","value":[1,null]}]', 0),
    ('[{"a":1},{"a":null,"b":null}]', '[{"op":"test","path":"/a","value":1},{"op":"remove","path":"/a"}]', 0),
    # All tests stand first, each group in the order of paths, and a place that is added has none.
    ('[{"a":1,"b":2},{"a":null,"b":3,"c":4}]',
     '[{"op":"test","path":"/a","value":1},{"op":"test","path":"/b","value":2},{"op":"remove","path":"/a"},'
     '{"op":"replace","path":"/b","value":3},{"op":"add","path":"/c","value":4}]', 0),
    # They go by the names, not by their spellings.
    ('[{"ab":[],"a/b":{"~":1}},{"ab":[2],"a/b":{"~":null},"c":{"d":null}}]',
     '[{"op":"test","path":"/a~1b/~0","value":1},{"op":"test","path":"/ab","value":[]},'
     '{"op":"remove","path":"/a~1b/~0"},{"op":"replace","path":"/ab","value":[2]},{"op":"add","path":"/c","value":{}}]', 0),
    # Inputs that are not two.
    ("[5]", "input: wrong shape", 2),
    ("[1,2,3]", "input: wrong shape", 2),
]

# The examples of RFC 7396, appendix A: the original, the patch and the result.
APPENDIX = [
    ('{"a":"b"}', '{"a":"c"}', '{"a":"c"}'),
    ('{"a":"b"}', '{"b":"c"}', '{"a":"b","b":"c"}'),
    ('{"a":"b"}', '{"a":null}', "{}"),
    ('{"a":"b","b":"c"}', '{"a":null}', '{"b":"c"}'),
    ('{"a":["b"]}', '{"a":"c"}', '{"a":"c"}'),
    ('{"a":"c"}', '{"a":["b"]}', '{"a":["b"]}'),
    ('{"a":{"b":"c"}}', '{"a":{"b":"d","c":null}}', '{"a":{"b":"d"}}'),
    ('{"a":[{"b":"c"}]}', '{"a":[1]}', '{"a":[1]}'),
    ('["a","b"]', '["c","d"]', '["c","d"]'),
    ('{"a":"b"}', '["c"]', '["c"]'),
    ('{"a":"foo"}', "null", "null"),
    ('{"a":"foo"}', '"bar"', '"bar"'),
    ('{"e":null}', '{"a":1}', '{"a":1,"e":null}'),
    ("[1,2]", '{"a":"b","c":null}', '{"a":"b"}'),
    ("{}", '{"a":{"bb":{"ccc":null}}}', '{"a":{"bb":{}}}'),
]


def vectors():
    """Gives the program's words, its input, its line without the newline, and its status."""
    for pointer, line in EXAMPLES:
        yield ["get", pointer], EXAMPLE, line, 0
    for pointer, *row in PARTS:
        yield ["get", pointer], *row
    tables = {"patch": PATCHED, "merge": MERGED, "join": JOINED, "replay": REPLAYED, "rewrite": REWRITTEN}
    for command, table in tables.items():
        for row in table:
            yield [command], *row
    for original, patch, result in APPENDIX:
        yield ["merge"], f"[{original},{patch}]", result, 0
    for patch, other, places in CLASHES:
        for pair in ((patch, other), (other, patch)):
            yield ["join"], f"[{','.join(pair)}]", f"conflict: patches 0 and 1 at {places}", 1
    for one, other, are_equal in COMPARED:
        line, status = (other, 0) if are_equal else ("operation 0: test failed", 1)
        for doc, value in ((one, other), (other, one)):
            yield ["patch"], f'[{doc},[{{"op":"test","path":"","value":{value}}}]]', line, status
