"""Each status of each call of a handle, with its numbers and its text, in a buffer of the caller's and by the header's helper; each
limit; and buffers of each size. What a call leaves is read by the calls after it.
"""

import itertools
import json

import pytest

import driving
from driving import CONFLICT, DOCUMENT, MISSING, MORE, NO_PATCHES, NOT_STARTED, PATCH, POINTER, REFUSED, RESULT, TOO_LARGE, call, compare
from driving import compare_in_buffers, each, last, pairs_within, weight_of, whole, within

START, ONE, TWO = {"k": 0, "m": {"x": [1]}}, {"a": {"b": 1}}, {"a": {"b": 2, "c": 3}, "d": None}
STARTED = [call("start", 0, START)]
RECEIVED = [*STARTED, call("receive", 0, ONE)]
REPELLED = [*RECEIVED, call("receive", 0, TWO)]
ADDED = [call("add", 0, ONE)]
CONFLICTING = [*ADDED, call("add", 0, TWO)]
SHOWN, JOINED = '{"a":{"b":1},"k":0,"m":{"x":[1]}}', '{"a":{"b":1}}'
PLACES = '["/a/b"]'
# Two that conflict at so many places that the helpers' first buffer is too short for them, and the places.
LONG = "a long name " * 5
WIDE, WIDER = ({LONG: {f"a member {number:02}": value for number in range(20)}} for value in (1, 2))
WIDE_PLACES = driving.written([f"/{LONG}/{name}" for name in WIDE[LONG]])
DEEP = b"[" * 127 + b"]" * 127
# What is no document, the words for it, and where it has the value for which it is none.
UNREAD = [(b"", "not JSON", None), (b"[", "not JSON", None), (b"1,2", "not JSON", None), (b"[\xff]", "not JSON", None),
          (b"1.5", "number not whole", ""), (b"18446744073709551616", "number not whole", ""), (DEEP, "too deep", "/0" * 126),
          (b'{"b":1.5,"a/~":[1,{" at ":2.5}]}', "number not whole", "/a~1~0/1/ at "), ('{"z":[0],"é":[[],1e3]}'.encode(), "number not whole", "/é/1")]
# Pointers that are none: the words and the offset.
UNPOINTED = [(b"foo", "no slash", 0), (b"/a~2", "bad tilde", 2), (b"/a~", "bad tilde", 2), (b"/a\xff", "not UTF-8", 2), (b"\xff", "not UTF-8", 0)]
# Of a kept form the words alone are said.
UNKEPT = [(b"!", "not JSON"), (b"![1.5]", "number not whole"), (b"!" + DEEP, "too deep"), *((text, words) for text, words, _ in UNREAD[1:])]
UNKEPT += [(b"!+", "not JSON"), (b'! +["/a"]', "not JSON"), (b'!++["/a"]', "not JSON"), (b"!+[1.5]", "number not whole"), (b"!+" + DEEP, "too deep")]
UNKEPT += [(text, "not kept patches") for text in (b"![]", b"!5", b'!"/a"', b'!["a"]', b'!["/a",5]', b'!{"/a":1}', b'!["/~2"]', b"!+5", b'!+["/a",5]')]
# Places that no conflict has: out of order, one of them twice, one within another, beside the whole document.
UNKEPT += [(text, "not kept patches") for text in (b'!["/b","/a"]', b'!["/a","/a"]', b'!["/a","/a/b"]', b'!["/a/b","/a"]', b'!["","/a"]', b'!+[""]',
                                                  b'!["/a~0","/a/b"]')]


def rows():
    """Gives the calls before, the call, and what its reply says: the status, the numbers, the flags if they are not 0, and the text."""
    yield [], call("receive", 0, b"["), NOT_STARTED, 0, 0, 0, "not started"
    yield [], call("document"), NOT_STARTED, 0, 0, 0, "not started"
    yield [], call("joined"), NOT_STARTED, 0, 0, 0, "not started"
    yield [], call("get", 0, b"foo"), NOT_STARTED, 0, 0, 0, "not started"
    yield [*RECEIVED, call("free")], call("document"), NOT_STARTED, 0, 0, 0, "not started"
    yield [], call("start", 0, START), RESULT, 0, 0, 0, ""
    for text, words, place in UNREAD:
        total, said = (0, words) if place is None else (1, f"{words} at {place}")
        yield [], call("start", 0, text), DOCUMENT, 0, 0, total, said
        yield [call("start", 0, text)], call("document"), NOT_STARTED, 0, 0, 0, "not started"
        yield [*RECEIVED, call("start", 0, text)], call("document"), RESULT, 0, 0, 0, SHOWN
        yield RECEIVED, call("receive", 0, text), PATCH, 0, 0, total, said
        yield [*RECEIVED, call("receive", 0, text)], call("joined"), RESULT, 0, 0, 0, JOINED
        yield ADDED, call("add", 0, text), PATCH, 0, 0, total, said
        yield CONFLICTING, call("add", 0, text), PATCH, 0, 0, total, said
        yield [*ADDED, call("add", 0, text)], call("text"), RESULT, 0, 0, 0, JOINED
    yield RECEIVED, call("start", 0, 5), RESULT, 0, 0, 0, ""
    yield [*RECEIVED, call("start", 0, 5)], call("document"), RESULT, 0, 0, 0, "5"
    yield [*RECEIVED, call("start", 0, 5)], call("joined"), NO_PATCHES, 0, 0, 0, "no patches"
    yield from receives()
    yield from reads()
    yield from gathers()
    yield from combines()
    yield from keeps()
    yield from stores()
    yield from decides()


def receives():
    yield STARTED, call("receive", 0, ONE), RESULT, 0, 0, 0, ""
    yield RECEIVED, call("receive", 0, ONE), RESULT, 0, 0, 0, ""
    yield RECEIVED, call("receive", 0, TWO), CONFLICT, 0, 0, 1, PLACES
    yield REPELLED, call("receive", 0, TWO), CONFLICT, 0, 0, 1, PLACES
    yield REPELLED, call("document"), RESULT, 0, 0, 0, SHOWN
    yield REPELLED, call("joined"), RESULT, 0, 0, 0, JOINED
    yield [*REPELLED, call("receive", 0, {"a": {"c": 4}})], call("document"), RESULT, 0, 0, 0, SHOWN.replace('"b":1', '"b":1,"c":4')
    many = {f"{name}/": {"~": 1, '"': 2} for name in "dbca"}
    other = {name: {"~": 3, '"': 4} for name in many}
    places = [f"/{name}~1/{part}" for name in "abcd" for part in ('"', "~0")]
    yield [*STARTED, call("receive", 0, many)], call("receive", 0, other), CONFLICT, 0, 0, 8, driving.written(places)
    yield [*STARTED, call("receive", 0, WIDE)], call("receive", 0, WIDER), CONFLICT, 0, 0, 20, WIDE_PLACES
    yield [*STARTED, call("receive", 0, 5)], call("receive", 0, {}), CONFLICT, 0, 0, 1, '[""]'
    yield [*STARTED, call("receive", 0, {"k": None})], call("document"), RESULT, 0, 0, 0, '{"m":{"x":[1]}}'


def reads():
    yield STARTED, call("document"), RESULT, 0, 0, 0, '{"k":0,"m":{"x":[1]}}'
    yield RECEIVED, call("document"), RESULT, 0, 0, 0, SHOWN
    yield STARTED, call("joined"), NO_PATCHES, 0, 0, 0, "no patches"
    yield RECEIVED, call("joined"), RESULT, 0, 0, 0, JOINED
    yield RECEIVED, call("get", 0, b"/m/x/0"), RESULT, 0, 0, 0, "1"
    yield RECEIVED, call("get", 0, b""), RESULT, 0, 0, 0, SHOWN
    yield RECEIVED, call("get", 0, b"/a/b"), RESULT, 0, 0, 0, "1"
    yield RECEIVED, call("get", 0, b"/m/x/1"), MISSING, 0, 0, 0, "missing"
    for text, words, offset in UNPOINTED:
        yield RECEIVED, call("get", 0, text), POINTER, offset, 0, 0, words


def gathers():
    yield [], call("text"), NO_PATCHES, 0, 0, 0, "no patches"
    yield [], call("add", 0, ONE), RESULT, 0, 0, 0, ""
    yield ADDED, call("add", 0, ONE), RESULT, 0, 0, 0, ""
    yield [*ADDED, call("add", 0, {"e": None})], call("text"), RESULT, 0, 0, 0, '{"a":{"b":1},"e":null}'
    yield ADDED, call("add", 0, TWO), CONFLICT, 0, 0, 1, PLACES
    yield [call("add", 0, WIDE)], call("add", 0, WIDER), CONFLICT, 0, 0, 20, WIDE_PLACES
    yield [call("add", 0, WIDE), call("add", 0, WIDER)], call("text"), CONFLICT, 0, 0, 20, WIDE_PLACES
    yield CONFLICTING, call("add", 0, {"z": 1}), CONFLICT, 0, 0, 1, PLACES
    yield CONFLICTING, call("add", 0, {"a": 7}), CONFLICT, 0, 0, 1, PLACES
    yield CONFLICTING, call("text"), CONFLICT, 0, 0, 1, PLACES
    yield [*CONFLICTING, call("drop")], call("text"), NO_PATCHES, 0, 0, 0, "no patches"


def combines():
    both = [*ADDED, call("add", 1, {"e": 5}), call("combine", 0, b"", 1)]
    yield both[:-1], both[-1], RESULT, 0, 0, 0, ""
    yield both, call("text"), RESULT, 0, 0, 0, '{"a":{"b":1},"e":5}'
    yield both, call("text", 1), NO_PATCHES, 0, 0, 0, "no patches"
    yield [*both, call("add", 1, {"f": 1})], call("text", 1), RESULT, 0, 0, 0, '{"f":1}'
    for one, other in ((0, 1), (1, 0), (1, 2)):
        yield ADDED, call("combine", one, b"", other), RESULT, 0, 0, 0, ""
    yield [*ADDED, call("combine", 0, b"", 1)], call("text"), RESULT, 0, 0, 0, JOINED
    yield [*ADDED, call("combine", 1, b"", 0)], call("text", 1), RESULT, 0, 0, 0, JOINED
    yield [call("combine", 0, b"", 1)], call("text"), NO_PATCHES, 0, 0, 0, "no patches"
    apart = [*ADDED, call("add", 1, TWO)]
    yield apart, call("combine", 0, b"", 1), CONFLICT, 0, 0, 1, PLACES
    yield [call("add", 0, WIDE), call("add", 1, WIDER)], call("combine", 0, b"", 1), CONFLICT, 0, 0, 20, WIDE_PLACES
    yield [*apart, call("combine", 0, b"", 1)], call("combine", 0, b"", 1), CONFLICT, 0, 0, 1, PLACES
    yield [*apart, call("combine", 0, b"", 1)], call("text", 1), NO_PATCHES, 0, 0, 0, "no patches"
    yield CONFLICTING, call("combine", 1, b"", 0), CONFLICT, 0, 0, 1, PLACES
    yield [*CONFLICTING, call("combine", 1, b"", 0)], call("add", 1, {"z": 1}), CONFLICT, 0, 0, 1, PLACES
    yield [*CONFLICTING, call("combine", 1, b"", 0)], call("text", 0), NO_PATCHES, 0, 0, 0, "no patches"


def keeps():
    yield [], call("kept"), RESULT, 0, 0, 0, ""
    yield ADDED, call("kept"), RESULT, 0, 0, 0, JOINED
    yield CONFLICTING, call("kept"), RESULT, 0, 0, 0, "!" + PLACES
    yield ADDED, call("from", 0, b"!" + WIDE_PLACES.encode()), CONFLICT, 0, 0, 20, WIDE_PLACES
    yield ADDED, call("from", 0, b""), RESULT, 0, 0, 0, ""
    yield [*ADDED, call("from", 0, b"")], call("text"), NO_PATCHES, 0, 0, 0, "no patches"
    yield ADDED, call("from", 0, b' {"e" : 5} '), RESULT, 0, 0, 0, ""
    yield [*ADDED, call("from", 0, b' {"e" : 5} ')], call("kept"), RESULT, 0, 0, 0, '{"e":5}'
    yield ADDED, call("from", 0, b'! ["/a" , "/b"]'), CONFLICT, 0, 0, 2, '["/a","/b"]'
    yield [*ADDED, call("from", 0, b'!["/a"]')], call("kept"), RESULT, 0, 0, 0, '!["/a"]'
    yield [*ADDED, call("from", 0, b'!["/a"]')], call("add", 0, {"z": 1}), CONFLICT, 0, 0, 1, '["/a"]'
    yield [call("from", 0, b'!["/a"]')], call("text"), CONFLICT, 0, 0, 1, '["/a"]'
    for places in ([""], ["/", "/a"], ["/a/b", "/a/c", "/a~0"]):
        yield ADDED, call("from", 0, b"!" + driving.written(places).encode()), CONFLICT, 0, 0, len(places), driving.written(places)
    for text, total, array in ((b'!+["/a"]', 1, '["/a"]'), (b'!+ ["/a" , "/b"]', 2, '["/a","/b"]'), (b"!+[]", 0, "[]")):
        yield ADDED, call("from", 0, text), CONFLICT, 0, 0, total, MORE, array
        held = [*ADDED, call("from", 0, text)]
        yield held, call("kept"), RESULT, 0, 0, 0, "!+" + array
        yield held, call("text"), CONFLICT, 0, 0, total, MORE, array
        yield held, call("add", 0, TWO), CONFLICT, 0, 0, total, MORE, array
        yield [*held, *[call("add", 1, {"z": 1})]], call("combine", 1, b"", 0), CONFLICT, 0, 0, total, MORE, array
    for text, words in UNKEPT:
        yield ADDED, call("from", 0, text), DOCUMENT, 0, 0, 0, words
        yield [*ADDED, call("from", 0, text)], call("text"), RESULT, 0, 0, 0, JOINED
        yield [*CONFLICTING, call("from", 0, text)], call("text"), CONFLICT, 0, 0, 1, PLACES


# The greatest number, and a log of the start of number 7 with the patches of 1:1 and 2:1, which conflict, and of 1:2, which does not.
MOST = 2**64 - 1
LOGGED = [call("log_start", 0, START, numbers=[7])]


def message(patch, *numbers):
    """A message of the start of number 7, or of one whose number is before those of its identity."""
    return call("log_receive", 0, patch, numbers=[*[7][:3 - len(numbers)], *numbers])


def decision(*identities):
    return call("log_decide", numbers=sum(identities, ()))


def conflicts_of(*identity):
    return call("log_conflicts_of", numbers=identity)


STORED = [*LOGGED, message(ONE, 1, 1), message(TWO, 2, 1), message({"z": 1}, 1, 2)]
APART = '{"k":0,"m":{"x":[1]},"z":1}'
PAIR = '[{"first":[1,1],"second":[2,1],"places":["/a/b"]}]'


def stores():
    for line in (message(b"[", 1, 1), call("log_document"), call("log_conflicts"), conflicts_of(1, 1), call("log_count"), decision()):
        yield [], line, NOT_STARTED, 0, 0, 0, "not started"
        yield [*STORED, call("log_free")], line, NOT_STARTED, 0, 0, 0, "not started"
    for text, words, place in UNREAD:
        total, said = (0, words) if place is None else (1, f"{words} at {place}")
        yield STORED, call("log_start", 0, text, numbers=[7]), DOCUMENT, 0, 0, total, said
        yield [*STORED, call("log_start", 0, text, numbers=[7])], call("log_document"), RESULT, 0, 0, 0, APART
        for numbers in ((1, 1), (3, 1), (6, 1, 1), (8, 1, 1)):  # of what would be a repeat, stored, late and early
            yield STORED, message(text, *numbers), PATCH, 0, 0, total, said
        yield [*STORED, message(text, 3, 1)], call("log_conflicts"), RESULT, 0, 0, 0, PAIR
    for numbers, word in (((3, 1), "stored"), ((1, 1), "repeat"), ((6, 3, 1), "late"), ((8, 3, 1), "early"), ((0, 3, 1), "late"),
                          ((MOST, 3, 1), "early"), ((0, 0), "stored"), ((MOST, MOST), "stored")):
        yield STORED, message(5, *numbers), RESULT, 0, 0, 0, word
        if word != "stored":
            yield [*STORED, message(5, *numbers)], call("log_document"), RESULT, 0, 0, 0, APART
            yield [*STORED, message(5, *numbers)], call("log_conflicts"), RESULT, 0, 0, 0, PAIR
        yield [*STORED, message(5, *numbers)], call("log_count"), RESULT, 0, 0, 0, "4" if word == "stored" else "3"
    for number in (0, MOST):
        started = [call("log_start", 0, START, numbers=[number])]
        yield started, message(ONE, number, 1, 1), RESULT, 0, 0, 0, "stored"
        yield started, message(ONE, MOST - number, 1, 1), RESULT, 0, 0, 0, "late" if number else "early"
    yield [], LOGGED[0], RESULT, 0, 0, 0, ""
    yield STORED, LOGGED[0], RESULT, 0, 0, 0, ""
    for started in (LOGGED, [*STORED, *LOGGED]):
        yield started, call("log_document"), RESULT, 0, 0, 0, '{"k":0,"m":{"x":[1]}}'
        yield started, call("log_conflicts"), RESULT, 0, 0, 0, "[]"
        yield started, conflicts_of(1, 1), RESULT, 0, 0, 0, "[]"
        yield started, call("log_count"), RESULT, 0, 0, 0, "0"
    yield STORED, call("log_document"), RESULT, 0, 0, 0, APART
    yield STORED, call("log_conflicts"), RESULT, 0, 0, 0, PAIR
    # Of either of the two, of one that conflicts with none, and of those that are not stored.
    for identity, listed in (((1, 1), PAIR), ((2, 1), PAIR), ((1, 2), "[]"), ((2, 2), "[]"), ((0, 1), "[]"), ((MOST, MOST), "[]")):
        yield STORED, conflicts_of(*identity), RESULT, 0, 0, 0, listed
    last_one = [*STORED, message({"a": 5, "z": 2}, MOST, MOST)]
    pairs = [PAIR[:-1]] + [f'{{"first":[{sender},{number}],"second":[{MOST},{MOST}],"places":["{place}"]}}'
                           for sender, number, place in ((1, 1, "/a"), (1, 2, "/z"), (2, 1, "/a"))]
    in_order = [pairs[0], pairs[1], pairs[2], pairs[3] + "]"]
    yield last_one, call("log_conflicts"), RESULT, 0, 0, 0, ",".join(in_order)
    for identity, numbers in (((1, 1), (0, 1)), ((1, 2), (2,)), ((2, 1), (0, 3)), ((MOST, MOST), (1, 2, 3))):
        listed = ",".join(pairs[number].removeprefix("[") for number in numbers)
        yield last_one, conflicts_of(*identity), RESULT, 0, 0, 0, f"[{listed}]"
    yield last_one, call("log_document"), RESULT, 0, 0, 0, '{"k":0,"m":{"x":[1]}}'
    # Identities so long that a pair with a place or none has more bytes than it weighs.
    most = [*LOGGED, message({"a": 1, "b": 1}, MOST, MOST - 1), message({"a": 2, "b": 2}, MOST, MOST)]
    for line in (call("log_conflicts"), conflicts_of(MOST, MOST - 1)):
        yield most, line, RESULT, 0, 0, 0, f'[{{"first":[{MOST},{MOST - 1}],"second":[{MOST},{MOST}],"places":["/a","/b"]}}]'
    long = [*LOGGED, message(WIDE, 1, 1), message(WIDER, 2, 1)]
    for line in (call("log_conflicts"), conflicts_of(2, 1)):
        yield long, line, RESULT, 0, 0, 0, f'[{{"first":[1,1],"second":[2,1],"places":{WIDE_PLACES}}}]'


def decides():
    one, two, apart, none = (1, 1), (2, 1), (1, 2), (9, 9)
    for chosen in ([one, apart], [apart, one], [one, apart, one, one]):
        yield STORED, decision(*chosen), RESULT, 0, 0, 0, ""
        decided = [*STORED, decision(*chosen)]
        yield decided, call("log_document"), RESULT, 0, 0, 0, SHOWN[:-1] + ',"z":1}'
        yield decided, call("log_conflicts"), RESULT, 0, 0, 0, "[]"
        yield decided, conflicts_of(1, 1), RESULT, 0, 0, 0, "[]"
        yield decided, call("log_count"), RESULT, 0, 0, 0, "0"
        yield decided, message(TWO, 2, 1), RESULT, 0, 0, 0, "late"
        yield decided, message(TWO, 8, 1, 1), RESULT, 0, 0, 0, "stored"
        yield decided, decision(one), MISSING, 0, 0, 0, "missing"
    yield [*STORED, decision()], call("log_document"), RESULT, 0, 0, 0, '{"k":0,"m":{"x":[1]}}'
    yield [*STORED, decision()], message(ONE, 9, 1, 1), RESULT, 0, 0, 0, "early"
    for chosen, number in (([none], 0), ([one, two, none, none], 2), ([one, (1, 3), none], 1), ([(9, 1), none, (9, 1)], 0)):
        yield STORED, decision(*chosen), MISSING, number, 0, 0, "missing"
    for chosen, *numbers in (([one, two], 0, 1), ([two, one], 1, 0), ([apart, two, apart, two, one, one], 4, 1)):
        yield STORED, decision(*chosen), CONFLICT, *numbers, 1, PLACES
        for line, shown in ((call("log_document"), APART), (call("log_conflicts"), PAIR), (call("log_count"), "3")):
            yield [*STORED, decision(*chosen)], line, RESULT, 0, 0, 0, shown
    # Of several pairs the first in the order of identities.
    yield [*STORED, message({"z": 3, "a": 1}, 0, 5)], decision(two, apart, one, (0, 5)), CONFLICT, 3, 2, 1, '["/a"]'
    yield [*LOGGED, message(WIDE, 1, 1), message(WIDER, 2, 1)], decision(two, one), CONFLICT, 1, 0, 20, WIDE_PLACES
    full = [call("log_start", 0, START, numbers=[MOST]), message(ONE, MOST, 1, 1)]
    for chosen in ([], [one], [none]):
        yield full, decision(*chosen), REFUSED, 0, 0, 0, "no number is left for a start"
    yield [*full, decision(one)], call("log_document"), RESULT, 0, 0, 0, SHOWN
    last_start = [call("log_start", 0, START, numbers=[MOST - 1]), decision()]
    yield last_start, message(ONE, MOST, 1, 1), RESULT, 0, 0, 0, "stored"
    yield last_start, decision(), REFUSED, 0, 0, 0, "no number is left for a start"


ROWS = list(rows())


@pytest.mark.parametrize("way", ["buffer", "new"])
def test_each_row(driver, way):
    compare([driver, way], ROWS)


def test_each_status_of_each_call_is_in_a_row():
    seen = {(line.split()[0], status) for _, line, status, *_ in ROWS}
    logs = {f"log_{name}" for name in ("start", "receive", "document", "conflicts", "conflicts_of", "count", "decide")}
    assert seen >= {(name, NOT_STARTED) for name in ("receive", "document", "joined", "get", *(logs - {"log_start"}))}
    assert {name for name, status in seen if status == RESULT} == {
        "start", "receive", "document", "joined", "get", "add", "combine", "text", "kept", "from", *logs}
    assert {name for name, status in seen if status == CONFLICT} == {"receive", "add", "combine", "text", "from", "log_decide"}
    assert {status for name, status in seen if name == "log_decide"} == {RESULT, CONFLICT, REFUSED, MISSING, NOT_STARTED}


def test_a_message_is_stored_whatever_the_limit_of_its_reply(driver):
    """Only the word is left out, and the message that comes again is a repeat."""
    script = [*LOGGED, "limit 5", message(ONE, 1, 1), "limit 6", message(ONE, 1, 1)]
    assert [it.said() for it in each([driver], [script])[0][1:]] == [[TOO_LARGE, 0, 0, 0, "too large"], [RESULT, 0, 0, 0, "repeat"]]


# The calls that find the places of a conflict within the limit. Patches hold those that they have found.
FINDING = ("receive", "log_decide")


def wanted_within(limit, line, wanted):
    """What a call says within a limit, of what it says without one."""
    name = line.split()[0]
    if name in ("log_conflicts", "log_conflicts_of") and wanted[0] == RESULT:
        return pairs_within(limit, wanted)
    return within(limit, wanted, *([weight_of] if name in FINDING else []))


def compare_within_limits(words, tried):
    """Each limit and row: the reply is what is said within the limit."""
    found = last(words, ([*before, f"limit {limit}", line] for limit, (before, line, *_) in tried))
    for (limit, (_, line, *wanted)), reply in zip(tried, found):
        assert reply.whole() == whole(line, wanted_within(limit, line, wanted)), (line, limit, reply)
    return found


@pytest.mark.parametrize("way", ["buffer", "new"])
def test_a_limit_bounds_results_and_places_and_nothing_else(driver, way):
    """As long as the text it changes nothing, where nothing is weighed; a byte less is too large, or leaves out a place; and errors are
    not bounded."""
    sizes = [(len(row[-1].encode()), row) for row in ROWS]
    tried = [(limit, row) for size, row in sizes for limit in {0, 1, 2, size // 2, max(size - 1, 0), size}]
    compare_within_limits([driver, way], tried)


@pytest.mark.parametrize("way", ["buffer", "new"])
def test_a_limit_is_on_both_sides_of_each_place(driver, way):
    """An array of the first places ends where the next would make it longer, or heavier, than the limit."""
    wide = [row for row in ROWS if row[2] == CONFLICT and row[-1] == WIDE_PLACES]
    firsts = [json.loads(WIDE_PLACES)[:count] for count in range(21)]
    sizes = [size for places in firsts for size in (len(driving.written(places)), sum(map(weight_of, places)))]
    compare_within_limits([driver, way], [(limit, row) for row in wide for size in sizes for limit in (size - 1, size) if limit >= 0])
    assert len(wide) >= 6


@pytest.mark.parametrize("way", ["buffer", "new"])
def test_a_limit_is_on_both_sides_of_each_pair_and_each_of_its_places(driver, way):
    """Of several pairs, of one with many places, and of pairs that have more bytes than they weigh."""
    listing = [row for row in ROWS if row[1].startswith("log_conflicts") and row[2] == RESULT and len(row[-1]) > 2]
    flags = set()
    for row in listing:
        weights = [weight for pair in json.loads(row[-1]) for weight in (driving.PAIR_WEIGHT, *map(weight_of, pair["places"]))]
        sizes = {0, 1, 2, *range(40, 300), *itertools.accumulate(weights), len(row[-1].encode())}
        flags |= {it.flags for it in compare_within_limits([driver, way], [(limit, row) for it in sizes for limit in {it, max(it - 1, 0)}])}
    assert len(listing) >= 12 and flags == {0, MORE}


def test_patches_hold_the_first_places_of_their_conflict(driver):
    """Those that weigh at most 65,536 together; how many these are, and whether there are more."""
    for names, held in ((256, 256), (257, 256), (1000, 256)):
        # Each place weighs 128, 8 for its token, and 120 bytes: 256 in all.
        one, other = ({f"{number:0119}": value for number in range(names)} for value in (1, 2))
        places = driving.written([f"/{name}" for name in one][:held])
        more = [MORE] if held < names else []
        conflict = [CONFLICT, 0, 0, held, *more, places]
        added, apart = [call("add", 0, one), call("add", 0, other)], [call("add", 0, one), call("add", 1, other)]
        kept = "!" + "+" * len(more) + places
        rows = [(added[:1], added[1], *conflict), (apart, call("combine", 0, b"", 1), *conflict), (added, call("text"), *conflict),
                (added, call("kept"), RESULT, 0, 0, 0, kept), ([], call("from", 0, kept.encode()), *conflict)]
        compare([driver], [(["capacity 100000", *before], *row) for before, *row in rows])
        compare([driver, "new"], rows)
    # A byte more of one place leaves it out, and all after it.
    one, other = ({f"{number:0119}" + "x" * (number == 200): value for number in range(256)} for value in (1, 2))
    assert last([driver], [[call("add", 0, one), call("add", 0, other)]])[0].said()[:5] == [CONFLICT, 0, 0, 255, MORE]


def test_a_buffer_of_each_size_has_the_beginning_of_the_text(driver):
    compare_in_buffers([driver], ROWS)


def test_the_helpers_give_a_long_text_as_a_whole(driver):
    """A text that is longer than their first buffer."""
    long = {f"name {number:05}": "x" * 20 for number in range(3000)}
    text, part = driving.written(long), driving.written(long | {"more": 1})
    replica, patches = [call("start", 0, START), call("receive", 0, {"long": long})], [call("add", 0, long), call("add", 0, {"more": 1})]
    log = [*LOGGED, message({"long": long}, 1, 1)]
    shown = driving.written(START | {"long": long})
    scripts = [[*replica, call("document")], [*replica, call("joined")], [*replica, call("get", 0, b"/long")], [*patches, call("text")],
               [*patches, call("kept")], [*log, call("log_document")]]
    seen = [(it.status, it.length, it.text) for it in last([driver, "new"], scripts)]
    assert seen == [(RESULT, len(it), it) for it in (shown, f'{{"long":{text}}}', text, part, part, shown)] and len(text) > 100_000


def test_three_hundred_names_are_set(driver):
    old, new = ({str(number): value for number in range(300)} for value in (0, [1]))
    reply, = last([driver, "new"], [[call("start", 0, old), call("receive", 0, new), call("document")]])
    assert reply.said() == [RESULT, 0, 0, 0, driving.written(new)]


@pytest.mark.parametrize("way", ["buffer", "new"])
def test_all_rows_in_one_run_under_valgrind(driver, valgrind, way):
    assert each([*driving.MEMCHECK, driver, way], ([*before, line] for before, line, *_ in ROWS))


def test_a_handle_that_is_not_there_is_freed_twice(driver):
    assert each([driver], [driving.FREED, [call("start", 0, 5), call("add", 0, 5), *LOGGED, *driving.FREED, *driving.FREED]])
