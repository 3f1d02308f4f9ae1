"""What mergejoin_next_place gives of the end of a text: the places that the library has put there, decoded; of each as much as
the buffer has; and of a text that was cut, or has something else there, those before that. It reads nothing behind the text.
"""

import itertools
import json
import random
import re

import pytest

import driving
from driving import CONFLICT, HERE, MEMCHECK, call_of, run

# Names with each character that a JSON string escapes, and with what it does not.
NAMES = ["", "a", "~", "/", "a/b~c", '"', "\\", "\b\f\n\r\t", "é", "\ue000", "😀", "\x7f", " at ", '",["', "\\u0041", "x" * 300, *map(chr, range(32))]
# Ends of texts that are no array of places, or not from some place on; and how many places there are before that.
OTHERS = [(b"", 0), (b"[", 0), (b"]", 0), (b"[]", 0), (b'["', 0), (b'[""', 1), (b'["/a"]', 1), (b'["/a",', 1), (b'["/a","', 1), (b'["/a","/b', 1),
          (b'["/a" ,"/b"]', 1), (b'["/a", "/b"]', 1), (b'[ "/a"]', 0), (b'["/a"5,"/b"]', 1), (b"[5]", 0), (b'[["/a"]]', 0), (b'{"/a":"/b"}', 0),
          (b'["/a"]]', 1), (b'["/a"],"/b"]', 1), (b'"/a"]', 0), (b'["\\', 0), (b'["\\"', 0), (b'["\\x"]', 0), (b'["\\/"]', 0), (b'["\\u', 0),
          (b'["\\u000', 0), (b'["\\u0041"]', 1), (b'["\\u001F"]', 0), (b'["\\u0g00"]', 0), (b'["\\u000g"]', 0), (b'["\\u1000"]', 0),
          (b'["\\u00 1"]', 0), (b'["a\nb"]', 0), (b'["a\0b"]', 0), (b'["\xff\xfe"]', 1)]


@pytest.fixture(name="program", scope="module")
def what_takes_texts_apart(directory):
    return driving.compiled(directory, HERE / "places.c")


def taken(words, texts):
    """Gives of each text, and of the bytes at its end that are the array, each place: its length, where it ends, and its bytes."""
    given = driving.script_of(f"{places} {text.hex()}" for text, places in texts)
    *found, rest = re.sub(r"^\.\n", "\f", run(words, given=given), flags=re.M).split("\f")
    assert rest == "" and len(found) == len(texts)
    return [[(int(length), int(end), bytes.fromhex(digits)) for length, end, digits in (line.split(" ") for line in it.splitlines())] for it in found]


def of_array(places):
    """Gives the line and the array of places as the library writes them."""
    array = driving.written(places).encode()
    return b"conflict: two patches" + array, len(array)


def test_the_places_of_the_library_are_read_back(driver, program):
    """Those of conflicts, each with other names, at one level and at several."""
    for names in [NAMES, NAMES[:1], NAMES[3:9]]:
        one, other = ({name: {inner: value for inner in names[:9]} for name in names} for value in (1, 2))
        reply, = driving.last([driver], [["capacity 1000000", call_of("join", [one, other])]])
        text = reply.text.encode()
        found, = taken([program], [(text, reply.places)])
        wanted = json.loads(text[-reply.places:])
        assert (reply.status, reply.total) == (CONFLICT, len(wanted)) and len(wanted) == len(names) * len(names[:9])
        assert [place.decode() for _, _, place in found] == wanted and [length for length, *_ in found] == [len(it.encode()) for it in wanted]
        ends = [text.index(b"[", len(text) - reply.places), *(end for _, end, _ in found)]
        assert [json.loads(text[begin + 1:end]) for begin, end in itertools.pairwise(ends)] == wanted


@pytest.mark.parametrize("capacity", [0, 1, 3, 7, 1000])
def test_a_place_is_written_as_far_as_it_fits(program, capacity):
    places = [f"/{name}" for name in NAMES]
    found, = taken([program, capacity], [of_array(places)])
    assert [(length, part) for length, _, part in found] == [(len(it.encode()), it.encode()[:capacity]) for it in places]


def test_what_is_no_array_ends_it(program, valgrind):
    texts = [(line + array, len(array)) for line in (b"", b"conflict: ") for array, _ in OTHERS]
    assert [len(it) for it in taken([*MEMCHECK, program], texts)] == 2 * [count for _, count in OTHERS]
    # More places than there is text, and none.
    assert taken([*MEMCHECK, program], [(b'["/a"]', 7), (b'["/a"]', 2**64 - 1), (b'["/a"]', 0), (b'["/a"]', 5), (b"", 1)]) == [[]] * 5


def test_a_text_that_was_cut_or_changed_is_read_to_its_end(program, valgrind):
    """At each byte, and by chance: what is before that is as it was, and nothing behind the text is read."""
    text, places = of_array([f"/{name}" for name in NAMES[:14]])
    whole, = taken([program], [(text, places)])
    cut = [(text[:length], max(length - len(text) + places, 0)) for length in range(len(text) - places, len(text))]
    for (it, _), found in zip(cut, taken([*MEMCHECK, program], cut)):
        assert found == [place for place in whole if place[1] <= len(it)]
    some = random.Random(4)
    changed = []
    for _ in range(500):
        at = some.randrange(len(text) - places, len(text))
        changed.append((at, (text[:at] + bytes([some.choice([0, 9, 34, 44, 91, 92, 93, 117, 48, 255])]) + text[at + 1:], places)))
    for (at, _), found in zip(changed, taken([*MEMCHECK, program], [it for _, it in changed])):
        before = [place for place in whole if place[1] <= at]
        assert found[:len(before)] == before
