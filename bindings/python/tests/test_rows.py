"""Each function gives the text, or raises the error, of the rows that the library is held to from C too."""

import json
import pathlib
import sys
import unittest

import mergejoin
from mergejoin import objects

sys.path.insert(0, str(pathlib.Path(__file__).resolve().parents[3] / "tests/common"))
from rows import ROWS, line_of, vector_rows


def given(export, texts):
    """Gives the parameters of a function that the texts of a row are."""
    if export == "join":
        return [texts]
    return [texts[0], texts[1:]] if export in ("replay", "merge") else texts


# The errors by their statuses.
KINDS = [None, mergejoin.Conflict, mergejoin.NoPatches, mergejoin.Refused, mergejoin.Missing, mergejoin.DocumentError, mergejoin.PatchError,
         mergejoin.FormError, mergejoin.PointerError]


def seen(call, *words):
    """Gives what a call answers: the status of the library, the numbers, the text or the line, and the words and places."""
    try:
        return 0, 0, 0, call(*words), None
    except mergejoin.MergejoinError as it:
        first = next((getattr(it, name) for name in ("first", "operation", "number", "offset") if hasattr(it, name)), 0)
        carried = it.places if isinstance(it, mergejoin.Conflict) else [getattr(it, "cause", None), getattr(it, "place", None)]
        return KINDS.index(type(it)), first, getattr(it, "second", 0), str(it), carried


def wanted_of(status, first, second, text):
    """Gives the same of the reply of a row."""
    words, _, place = text.partition(" at ")
    carried = {0: None, 1: status == 1 and json.loads(text), 2: [None, None], 4: [None, None]}.get(status, [words, place if " at " in text else None])
    return status, first, second, line_of(status, first, second, text), carried


def decoded(texts):
    """Gives texts as str, or nothing where one is none."""
    try:
        return [text.decode("utf-8") for text in texts]
    except UnicodeDecodeError:
        return None


class Rows(unittest.TestCase):
    def setUp(self):
        self.rows = [*vector_rows(), *ROWS]

    def test_texts(self):
        for export, status, first, second, text, texts in self.rows:
            call, wanted = getattr(mergejoin, export), wanted_of(status, first, second, text)
            with self.subTest(export=export, texts=texts):
                self.assertEqual(seen(call, *given(export, texts)), wanted)
                for form in (bytearray, memoryview):
                    self.assertEqual(seen(call, *given(export, [form(it) for it in texts])), wanted)
                if decoded(texts) is not None:
                    self.assertEqual(seen(call, *given(export, decoded(texts))), wanted)
        self.assertGreaterEqual(len(self.rows), 220)
        self.assertEqual({row[1] for row in self.rows}, set(range(9)))

    def test_objects(self):
        count = 0
        for export, status, first, second, text, texts in self.rows:
            try:
                parts = [json.loads(it) for it in (texts[:-1] if export == "get" else texts)]
            except ValueError:
                continue
            count += 1
            words = [*parts, texts[-1]] if export == "get" else given(export, parts)
            call, wanted = getattr(objects, export), wanted_of(status, first, second, text)
            with self.subTest(export=export, texts=texts):
                self.assertEqual(seen(call, *words), (0, 0, 0, json.loads(text), None) if status == 0 else wanted)
        self.assertGreaterEqual(count, 110)

    def test_what_is_long_is_asked_for_again(self):
        document, copy = {"a": "x" * 5000}, '[{"op":"copy","from":"/a","path":"/b"}]'
        self.assertEqual(len(mergejoin.patch(json.dumps(document), copy)), 10_015)
        names = json.dumps({"é" * 900 + str(number): 0 for number in range(9)}, ensure_ascii=False)
        with self.assertRaises(mergejoin.Conflict) as raised:
            mergejoin.join([names, names.replace(": 0", ": 1")])
        self.assertEqual(len(raised.exception.places), 9)
