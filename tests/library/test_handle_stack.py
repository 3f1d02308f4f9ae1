"""The stack that each call of a handle takes at the deepest documents is at most what the header says."""

import driving
from deepest import ARRAYS, OBJECTS, PLACE, WIDE, apart, stack_of_the_header
from driving import call, each


def scripts():
    texts = [text.encode() for text in (ARRAYS, OBJECTS, *WIDE, *map(apart, ("k0", "k1", "k2")))]
    reads = [call("document"), call("joined"), call("get", 0, PLACE.encode()), call("get", 0, b"/m" * 125)]
    gathered = [call("text"), call("kept")]
    for start in texts:
        for patch in texts:
            yield [call("start", 0, start), call("receive", 0, patch), call("receive", 0, patch), *reads, call("start", 0, start), call("free")]
            yield [call("add", 0, start), call("add", 0, patch), *gathered, call("add", 1, patch), call("combine", 0, b"", 1), *gathered, call("drop")]
            stored = [call("log_receive", 0, it, numbers=[0, 1, number]) for number, it in enumerate((patch, start, patch))]
            read = [call("log_document"), call("log_conflicts"), call("log_conflicts_of", numbers=[1, 1]), call("log_count"), call("log_decide", numbers=[1, 0, 1, 1])]
            yield [call("log_start", 0, start, numbers=[0]), *stored, *read, call("log_decide", numbers=[1, 0]), *read, call("log_free")]
    deep = [call("receive", 0, apart(f"k{number}").encode()) for number in range(40)]
    yield [call("start", 0, OBJECTS.encode()), *deep, *reads, call("free")]
    logged = [call("log_receive", 0, apart(f"k{number}").encode(), numbers=[0, 1, number]) for number in range(40)]
    yield [call("log_start", 0, OBJECTS.encode(), numbers=[0]), *logged, call("log_document"), call("log_decide", numbers=[1, 0, 1, 39]), call("log_free")]
    other = OBJECTS.replace("1", "2").encode()
    yield [call("start", 0, b"5"), call("receive", 0, OBJECTS.encode()), call("receive", 0, other), *reads, call("free")]
    yield [call("from", 0, OBJECTS.encode()), call("add", 0, other), *gathered, call("from", 1, f'!["{PLACE}"]'.encode()), call("combine", 0, b"", 1)]


def test_the_stack_is_at_most_what_the_header_says(driver):
    found = [it for replies in each([driver, "stack"], (["capacity 65536", *script] for script in scripts())) for it in replies]
    most = {}
    for it in found:
        most[it.name] = max(most.get(it.name, 0), it.stack)
    print(most)
    assert max(most.values()) <= stack_of_the_header()
    assert {it.status for it in found} >= {driving.RESULT, driving.CONFLICT}
