"""The six calls that keep nothing. They answer each row of tests/common/rows.py, and rows of 33 and of 40 patches, in buffers from
none to more than the text, within limits, by the header's helpers, with each request to the heap refused in turn, within limits too, in
four threads, and under valgrind in blocks of their own; and the deepest documents, on a stack that is measured.
"""

import concurrent.futures

import pytest

import driving
from calling import SIZE_MAX, Six
from deepest import ARRAYS, DEEPEST, OBJECTS, PLACE, WIDE, apart, stack_of_the_header
from driving import CONFLICT, MEMCHECK, NO_MEMORY, REFUSED, RESULT, TOO_LARGE, call_of, compare, compare_in_buffers, last, size_of, weight_of
from driving import whole, within
from rows import ROWS, many, text_of, total_of, vector_rows, whole_of


def growing_rows():
    """Gives calls whose text is about as long as the buffer that a helper begins with, and longer."""
    for length in range(90, 110):
        text = "x" * length
        copy = b'[{"op":"copy","from":"/a","path":"/b"}]'
        yield "patch", 0, 0, 0, f'{{"a":"{text}","b":"{text}"}}', [f'{{"a":"{text}"}}'.encode(), copy]


def many_rows():
    """Gives calls with many patches, and with a text after them that is none, which is reported before any conflict."""
    for count in (33, 40):
        for _, export, status, first, second, document, given in many(count):
            texts = [text_of(each).encode() for each in given]
            yield export, status, first, second, text_of(document), texts
            if status == 1:
                yield export, 6, count, 0, "not JSON", [*texts, b"["]


def wide_rows():
    """Gives calls that copy an object of more names than are inserted one by one."""
    wide = {f"n{number}": {"a": ["text"]} for number in range(9)}
    text, beside = text_of(wide), text_of({"n8": wide["n8"]}).encode()
    yield "join", 0, 0, 0, text, [text.encode(), beside]
    yield "rewrite", 0, 0, 0, f'[{{"op":"add","path":"/w","value":{text}}}]', [b"{}", f'{{"w":{text}}}'.encode()]
    yield "patch", 0, 0, 0, f'{{"a":{text},"b":{text}}}', [f'{{"a":{text}}}'.encode(), b'[{"op":"copy","from":"/a","path":"/b"}]']


# Texts with a number that is not whole, and the place of the first: elements go by their indices, names by their bytes.
NOT_WHOLE = [
    ("[18446744073709551615,18446744073709551616]", "/1"),
    ('{"a":-9223372036854775808,"b":-9223372036854775809}', "/b"),
    ('{"":1.5}', "/"),
    ('{"a~/b":[{"c":0.5}]}', "/a~0~1b/0/c"),
    ("[0,1,0.5,3,4,5,6,7,8,9,1.5]", "/2"),
    ("[[0,[1.5]],2.5]", "/0/1/0"),
    ('{"b":1.5,"a":2.5}', "/a"),
    ('{"a":1.5,"B":2.5}', "/B"),
    ('{"10":1.5,"2":2.5}', "/10"),
    (r'{"\ud83d\ude00":1.5,"\ue000":2.5}', "/\ue000"),
    ('{"b":1.5,"a":{"z":2.5}}', "/a/z"),
    *(("[" * levels + "1.5" + "]" * levels, "/0" * levels) for levels in (126, 127)),
]


def wrong_rows():
    """Gives calls on texts that are no documents, and where the first value is for which they are none."""
    for text, place in NOT_WHOLE:
        yield "join", 6, 0, 0, f"number not whole at {place}", [text.encode()]
    for text, said in (("[" * 128 + "]" * 128, "not JSON"), ("[" * 127 + "1" + "]" * 127, "too deep at " + "/0" * 126),
                       ('{"a":' * 126 + "{}" + "}" * 126, "too deep at " + "/a" * 126)):
        yield "join", 6, 0, 0, said, [text.encode()]


def deep_rows():
    """Gives calls on the deepest documents: as each export meets them on its deepest way."""
    objects, other = OBJECTS.encode(), OBJECTS.replace("1", "2")
    for text in (ARRAYS, OBJECTS):
        for export in ("join", "replay", "merge"):
            yield export, 0, 0, 0, text, [text.encode()] * 2
        yield "get", 0, 0, 0, text, [text.encode(), b""]
        yield "rewrite", 0, 0, 0, "[]", [text.encode()] * 2
    yield "merge", 0, 0, 0, OBJECTS, [b"5", objects]
    yield "join", 1, 0, 1, f'["{PLACE}"]', [objects, other.encode()]
    yield "replay", 1, 0, 1, f'["{PLACE}"]', [b"5", objects, other.encode()]
    edits = f'[{{"op":"test","path":"{PLACE}","value":1}},{{"op":"replace","path":"{PLACE}","value":2}}]'
    yield "rewrite", 0, 0, 0, edits, [objects, other.encode()]
    yield "patch", 0, 0, 0, other, [objects, edits.encode()]
    yield "get", 0, 0, 0, "1", [objects, PLACE.encode()]
    for name, wide in zip(("z", " "), WIDE):
        yield "get", 0, 0, 0, "1", [wide.encode(), f"/{name}".encode() * DEEPEST]
    inner = '{"a":' * 124 + "1" + "}" * 124
    wanted = '{"a":{"a":' + inner + "}}"
    moves = f'[{{"op":"add","path":"/a","value":{inner}}},{{"op":"copy","from":"/a","path":"/b"}},' \
        '{"op":"remove","path":"/a"},{"op":"add","path":"/a","value":{}},{"op":"move","from":"/b","path":"/a/a"}]'
    yield "patch", 0, 0, 0, wanted, [b"{}", moves.encode()]


def deep_lists():
    """Gives calls with so many of the deepest patches, each with another name at each level."""
    for export, start, counts in (("join", [], (2, 33, 40)), ("replay", ["a"], (2, 33, 40)), ("merge", ["a"], (2, 33))):
        for count in counts:
            names = start + [f"k{number}" for number in range(count)]
            yield export, 0, 0, 0, apart(*names), [apart(name).encode() for name in names]


def lines_of(rows):
    """Gives rows as driving.py has them."""
    return [([], call_of(export, texts), status, first, second, total_of(status, text), text)
            for export, status, first, second, text, texts in rows]


TABLES = [list(vector_rows()), ROWS, list(growing_rows()), list(many_rows()), list(wide_rows()), list(wrong_rows())]
GIVEN = [row for table in TABLES for row in table]
LINES = lines_of(GIVEN)


def test_each_table_has_rows_and_each_status_a_row():
    assert all(TABLES)
    assert {status for _, status, *_ in GIVEN} == set(range(9))


def test_each_row_in_buffers_of_each_size(driver):
    compare_in_buffers([driver], LINES)


def test_each_row_in_a_buffer_of_its_own(driver):
    compare([driver, "new"], LINES)


def test_each_row_within_limits(driver):
    """A limit bounds the text of a result: as long as the text it changes nothing unless a result on the way weighs more, and one
    byte less is too large. It bounds the places of a conflict, and no other line of an error. The helpers reply the same."""
    sizes = [(size_of(row) + len(" 100 places"), len(row[-1].encode()), row) for row in LINES]
    tried = [(size, limit, row) for size, said, row in sizes for limit in (0, max(said - 1, 0), said, 1000)]
    scripts = [[f"capacity {size}", f"limit {limit}", line] for size, limit, (_, line, *_) in tried]
    found, made = (last([driver, way], scripts) for way in ("buffer", "new"))
    for (_, limit, (_, line, *wanted)), reply, other in zip(tried, found, made):
        # Of a rewriting and of a JSON Patch results on the way are bounded too: there any number may be too large.
        is_on_the_way = line.startswith(("rewrite_of", "patch_of")) and wanted[0] in (RESULT, REFUSED)
        too_large = [TOO_LARGE, reply.first, 0, 0, ""] if is_on_the_way else None
        allowed = [whole(line, it) for it in (within(limit, wanted, weight_of), too_large) if it]
        assert reply.whole() in allowed and other.whole() == reply.whole(), (line, limit, reply, other)


def runs_of(found):
    """Gives the replies of each call that was made until nothing was refused."""
    made = []
    for reply in found:
        made.append(reply)
        if not reply.refusals:
            yield made
            made = []


# A limit that no row reaches: then what is made is weighed.
FAR = 1_000_000


@pytest.mark.parametrize("way", ["buffer", "new"])
def test_each_request_is_refused_in_turn(driver, way):
    """Alone, and with all after it; with no limit, with one that is not reached, and with half of the text: the call is out of memory, with
    the buffer as it was, or it answers, of a conflict by the helper perhaps without a text; and it gives back all."""
    sizes = [(size_of(row), row) for row in LINES]
    tried = [(how, size, limit, row) for how in (0, 1) for size, row in sizes for limit in (SIZE_MAX, FAR, size // 2)]
    found, heaps = driving.replies([driver, way], [
        line for how, size, limit, row in tried for line in (f"capacity {size}", f"limit {limit}", f"each {how}", row[1], "heap")])
    runs, refusal = list(runs_of(found)), [NO_MEMORY, 0, 0, 0, ""]
    for (how, _, limit, (_, line, *wanted)), run, heap in zip(tried, runs, heaps, strict=True):
        answer = run[-1].whole()
        allowed = [answer, (refusal, 0, 0)]
        if way == "new" and wanted[0] == CONFLICT:
            allowed.append(([*answer[0][:-1], ""], 0, 0))
        assert (answer == whole(line, wanted) or limit < FAR) and all(it.whole() in allowed for it in run), (line, how, limit)
        assert not heap.blocks, (line, how, limit, heap)
    reported = sum(it.status == NO_MEMORY for it in found)
    print(f"{len(found) - len(runs)} calls with requests refused, {reported} of them reported")
    assert reported >= 3 * len(LINES)


def bytes_of(text_and_places):
    text, places = text_and_places
    return text.encode(), places


def test_each_row_in_four_threads(library):
    def wrong(_):
        six = Six()
        return [row for _ in range(20) for row, (*_, total, _) in zip(GIVEN, LINES)
                if six.of_texts(row[0], row[5]) != (*row[1:4], total, *bytes_of(whole_of(*row[1:5])))]

    with concurrent.futures.ThreadPoolExecutor(4) as pool:
        assert list(pool.map(wrong, range(4))) == [[]] * 4


def test_each_row_in_blocks_of_its_own_under_valgrind(driver, valgrind):
    """The texts and the buffer end where their blocks do."""
    compare_in_buffers([*MEMCHECK, driver, "exact"], LINES, lambda length: (0, length // 2, length))


def test_each_row_in_a_buffer_of_its_own_under_valgrind(driver, valgrind):
    compare([*MEMCHECK, driver, "new"], LINES)


def test_the_deepest_documents_in_buffers(driver):
    compare_in_buffers([driver], lines_of(deep_rows()))


def test_the_stack_is_at_most_what_the_header_says_and_not_much_less(driver):
    found = compare([driver, "stack"], [(["capacity 65536"], *row) for _, *row in lines_of([*deep_lists(), *deep_rows()])])
    most, says = max(it.stack for it in found), stack_of_the_header()
    assert says * 3 // 4 < most <= says, f"the header says {says} bytes of stack, and {most} are taken"
