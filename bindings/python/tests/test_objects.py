"""What is no document is refused before the call, with its place."""

import enum
import json
import unittest

import mergejoin
from mergejoin import DocumentError, PatchError, objects


class Colour(enum.IntEnum):
    RED = 7


def nested(levels, inner=1):
    return inner if levels == 0 else {"a": nested(levels - 1, inner)}


HIMSELF: list = []
HIMSELF.append(HIMSELF)
REFUSED = [
    (1.5, "number not whole", ""),
    (2.0, "number not whole", ""),
    (float("nan"), "number not whole", ""),
    (2**64, "number not whole", ""),
    ([0, -(2**63) - 1], "number not whole", "/1"),
    ({"a/b": {"c~d": [1, {"": 1e3}]}}, "number not whole", "/a~1b/c~0d/1/"),
    ({"a": {1: 2}}, "name not text", "/a"),
    ({None: 2}, "name not text", ""),
    ({"a": [b"bytes"]}, "not JSON", "/a/0"),
    ({"a": {1, 2}}, "not JSON", "/a"),
    ({"a": ["\ud800"]}, "not JSON", "/a/0"),
    ({"a": {"\ud800": 1}}, "not JSON", "/a"),
    (nested(127), "too deep", "/a" * 126),
    (HIMSELF, "too deep", "/0" * 126),
]
TAKEN = [None, True, 0, -(2**63), 2**64 - 1, "", "é\U0001f600\n\x00", [], {}, [[], {}], {"": {"b": [1]}}, nested(126)]


class Objects(unittest.TestCase):
    def test_refused(self):
        for value, cause, place in REFUSED:
            of_document = DocumentError(cause, place)
            for call, words, wanted in (
                (objects.join, [[{}, {}, value, 1.5]], PatchError(2, cause, place)), (objects.replay, [value, [1.5]], of_document),
                (objects.replay, [{}, [value]], PatchError(0, cause, place)), (objects.merge, [{}, iter([1, value])], PatchError(1, cause, place)),
                (objects.rewrite, [{}, value], PatchError(0, cause, place)), (objects.patch, [value, 1.5], of_document),
                (objects.patch, [{}, value], PatchError(0, cause, place)), (objects.get, [value, "?"], of_document),
            ):
                with self.subTest(place=place, cause=cause, call=call.__name__), self.assertRaises(type(wanted)) as raised:
                    call(*words)
                self.assertEqual(raised.exception.args, wanted.args)

    def test_an_error_of_the_caller_s_class_is_raised(self):
        """None of them says that the value is not a document. The class raises once."""
        class Lazy(dict):
            def __init__(self, error):
                super().__init__()
                self.errors = [error]

            def items(self):
                for error in self.errors[:1]:
                    self.errors.clear()
                    raise error
                return super().items()

        for error in KeyboardInterrupt(), RecursionError(), ValueError(), OverflowError(), UnicodeEncodeError("utf-8", "", 0, 1, ""):
            with self.subTest(error=error), self.assertRaises(type(error)):
                objects.join([{"a": Lazy(error)}])

    def test_one_text_is_no_list_of_patches(self):
        for one in ('{"a":1}', b"{}", bytearray(b"{}"), {"a": 1}):
            self.assertRaises(TypeError, objects.join, one)

    def test_taken(self):
        for value in TAKEN:
            self.assertEqual(objects.get(value, ""), value)

    def test_taken_as_json_does(self):
        self.assertEqual(objects.get({"a": (Colour.RED, True)}, b"/a"), [7, True])

    def test_numbers_and_names_are_kept(self):
        value = [{"é": 2**64 - 1}, -(2**63), True]
        self.assertEqual(objects.join([value]), value)
        self.assertIs(type(objects.join([value])[2]), bool)

    def test_depth_is_the_library_s(self):
        self.assertEqual(json.loads(mergejoin.get(json.dumps(nested(126)), "")), nested(126))
        with self.assertRaises(DocumentError) as raised:
            mergejoin.get(json.dumps(nested(127)), "")
        self.assertEqual((raised.exception.cause, raised.exception.place), ("too deep", "/a" * 126))
        edits = [{"op": "add", "path": "/a", "value": nested(124)}]
        self.assertEqual(objects.patch({}, edits), nested(125))
