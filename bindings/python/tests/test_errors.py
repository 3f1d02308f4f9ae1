"""What the errors are, carry and say; and what is no text at all."""

import collections
import copy
import json
import pickle
import subprocess
import sys
import threading
import time
import types
import unittest

import mergejoin
from mergejoin import (Conflict, DocumentError, FormError, InputError, MergejoinError, Missing, NoPatches, PatchError, Patches, PatchLog,
                       Pending, PointerError, Refused, Replica, TooLarge, _errors, _library)

# Errors that a program makes, and what such a one can say.
MADE = [
    (Conflict(0, 2, ["/a", "/é"]), "conflict: patches 0 and 2"),
    (Conflict(None, None, ["/a"], 5, True), "conflict: two patches"),
    (_errors.error_of(_library.CONFLICT, 0, 0, 0, "", "", True), "conflict: two patches"),
    (NoPatches(), "no patches"),
    (Refused(3, "test failed"), "test failed"),
    (Refused(None, "no number is left for a start"), "no number is left for a start"),
    (FormError(0, "not an array"), "not an array"),
    (FormError(2, "no path"), "no path"),
    (Missing(), "missing"),
    (Missing(3), "missing"),
    (TooLarge(4), "too large"),
    (Pending(), "pending"),
    (DocumentError("not JSON"), "document: not JSON"),
    (PatchError(5, "number not whole", "/a"), "patch 5: number not whole"),
    (PointerError(5, "bad tilde"), "pointer: bad tilde"),
    (MergejoinError("mine", 5), "('mine', 5)"),
]
EDIT = '[{"op": "test", "path": "", "value": %s}, %s]'


def received(*texts):
    replica = Replica("{}")
    for text in texts:
        replica.receive(text)


def gathered(*texts):
    patches = Patches()
    for text in texts:
        patches.add(text)
    patches.text()


def decided(*texts):
    """One that is not there, of none."""
    log = PatchLog(1, "{}")
    for number, text in enumerate(texts):
        log.receive(1, (1, number), text)
    log.decide([(1, number) for number in range(len(texts) or 1)])


# What is raised: the line, the class, and what it carries.
RAISED = [
    (lambda: mergejoin.join(['{"a": 1, "é": 1}', "{}", '{"a": 2, "é": 2}']), 'conflict: patches 0 and 2 at "/a", "/é"',
     Conflict, 0, 2, ["/a", "/é"], 2, False),
    (lambda: mergejoin.join(["1", "2"], limit=0), "conflict: patches 0 and 1 at 1 place", Conflict, 0, 1, [], 1, False),
    (lambda: decided('{"a": 1}', '{"a": 2}'), 'conflict: patches 0 and 1 at "/a"', Conflict, 0, 1, ["/a"], 1, False),
    (lambda: received('{"\\"": 1}', '{"\\"": 2}'), 'conflict: two patches at "/\\""', Conflict, None, None, ['/"'], 1, False),
    (lambda: gathered('{"\\n": 1}', '{"\\n": 2}'), 'conflict: two patches at "/\\n"', Conflict, None, None, ["/\n"], 1, False),
    (lambda: mergejoin.join([]), "no patches", NoPatches),
    (lambda: mergejoin.patch("1", EDIT % (1, '{"op": "remove", "path": "/a"}')), "operation 1: missing", Refused, 1, "missing"),
    (lambda: PatchLog(2**64 - 1, "{}").decide([]), "no number is left for a start", Refused, None, "no number is left for a start"),
    (lambda: mergejoin.patch("1", "{}"), "not an array", FormError, 0, "not an array"),
    (lambda: mergejoin.patch("1", EDIT % (1, '{"op": "add"}')), "operation 1: no path", FormError, 1, "no path"),
    (lambda: mergejoin.get("1", "/a"), "missing", Missing, 0),
    (decided, "missing", Missing, 0),
    (lambda: mergejoin.get("[1]", "", limit=1), "too large", TooLarge, 0),
    (lambda: mergejoin.merge("[", []), "document: not JSON", DocumentError, "not JSON", None),
    (lambda: Replica('{"a: b at c": 1.5}'), 'document: number not whole at "/a: b at c"', DocumentError, "number not whole", "/a: b at c"),
    (lambda: mergejoin.join(["1", "[" * 127 + "]" * 127]), f'patch 1: too deep at "{"/0" * 126}"', PatchError, 1, "too deep", "/0" * 126),
    (lambda: Patches().add("[1.5]"), 'patch 0: number not whole at "/0"', PatchError, 0, "number not whole", "/0"),
    (lambda: mergejoin.conflicts(["1", '{"\\"": 1.5}']), 'patch 1: number not whole at "/\\""', PatchError, 1, "number not whole", '/"'),
    (lambda: mergejoin.objects.join([1, {"a": 2.5}]), 'patch 1: number not whole at "/a"', PatchError, 1, "number not whole", "/a"),
    (lambda: mergejoin.objects.merge({"\n": {1: 2}}, []), 'document: name not text at "/\\n"', DocumentError, "name not text", "/\n"),
    (lambda: mergejoin.get("1", "/~2"), "pointer: bad tilde at 1", PointerError, 1, "bad tilde"),
    (lambda: mergejoin.get("1", "a"), "pointer: no slash", PointerError, 0, "no slash"),
    (lambda: mergejoin.get("1", b"/\xff"), "pointer: not UTF-8 at 1", PointerError, 1, "not UTF-8"),
]
SHORT_OF_MEMORY = """
import resource, mergejoin
text = "[" + ",".join(["[]"] * 500_000) + "]"
now = int(open("/proc/self/statm").read().split()[0]) * resource.getpagesize()
resource.setrlimit(resource.RLIMIT_AS, (now + 20_000_000,) * 2)
try:
    mergejoin.join([text])
except MemoryError:
    print("MemoryError")
"""


def gives_up_the_lock(text):
    """Whether another thread is never kept waiting for half of the time that a call on the text takes."""
    took = []

    def work():
        begun = time.monotonic()
        mergejoin.merge(text, [text])
        took.append(time.monotonic() - begun)

    thread, gaps = threading.Thread(target=work), []
    before = time.monotonic()  # where the call keeps the lock, the start may wait for its end
    thread.start()
    while thread.is_alive():
        time.sleep(0.001)
        now = time.monotonic()
        gaps.append(now - before)
        before = now
    return max(gaps, default=took[0]) < took[0] / 2


class Errors(unittest.TestCase):
    def looked_at(self, error, line):
        """It says the line, and so do its copies, which carry the same."""
        self.assertIsInstance(error, MergejoinError)
        self.assertEqual((str(error), type(error).__module__), (line, "mergejoin"))
        for again in (pickle.loads(pickle.dumps(error)), copy.copy(error), copy.deepcopy(error)):
            self.assertEqual((type(again), again.args, str(again), vars(again)), (type(error), error.args, line, vars(error)))

    def test_each_that_a_program_makes_says_what_it_can(self):
        for error, line in MADE:
            self.looked_at(error, line)

    def test_each_that_is_raised_says_the_line_of_the_library(self):
        for call, line, kind, *carried in RAISED:
            with self.subTest(line=line), self.assertRaises(kind) as raised:
                call()
            self.assertEqual((type(raised.exception), raised.exception.args), (kind, tuple(carried)))
            self.looked_at(raised.exception, line)
        self.assertEqual({row[2] for row in RAISED}, {type(error) for error, _ in MADE} - {MergejoinError, Pending})

    def test_they_are_python_s_own_too(self):
        self.assertTrue(issubclass(Missing, LookupError))
        self.assertTrue(issubclass(InputError, ValueError))
        self.assertFalse(issubclass(MergejoinError, (ValueError, LookupError)))
        self.assertEqual({DocumentError, PatchError, FormError, PointerError}, set(InputError.__subclasses__()))

    def test_a_refused_request_to_the_heap(self):
        done = subprocess.run([sys.executable, "-I", "-c", SHORT_OF_MEMORY], capture_output=True, text=True, check=False)
        self.assertEqual((done.returncode, done.stdout, done.stderr), (0, "MemoryError\n", ""))

    def test_half_of_a_surrogate_pair(self):
        for call, words, wanted in (
            (mergejoin.join, [['{}', '"\ud800"']], PatchError(1, "not JSON")),
            (mergejoin.merge, ["[", ['"\udfff"']], DocumentError("not JSON")),
            (mergejoin.get, ["{}", "/a\ud800"], PointerError(2, "not UTF-8")),
        ):
            with self.assertRaises(type(wanted)) as raised:
                call(*words)
            self.assertEqual(raised.exception.args, wanted.args)

    def test_what_is_no_text(self):
        for call, words in ((mergejoin.join, ["{}"]), (mergejoin.join, [b"{}"]), (mergejoin.join, [[{}]]),
                            (mergejoin.join, [None]), (mergejoin.get, ["{}", None]), (mergejoin.merge, [{}, []]),
                            (mergejoin.replay, ["{}", "{}"]), (mergejoin.patch, ["{}", []]),
                            (mergejoin.conflicts, ["{}"]), (mergejoin.Patches().add, [{}]),
                            (mergejoin.objects.join, [{"a": 1}]), (mergejoin.objects.merge, [{}, "text"])):
            self.assertRaises(TypeError, call, *words)

    def test_what_has_no_order_is_no_list(self):
        """Nor is one text, of which some have nothing to go over."""
        wrong = [{"5": "{}"}, {}, collections.UserDict(), types.MappingProxyType({"1": 2}), collections.Counter(), set(), {"{}"}, frozenset(["{}"]),
                 {}.keys(), "", b"", bytearray(), memoryview(b"")]
        calls = [mergejoin.join, mergejoin.conflicts, lambda it: mergejoin.replay("{}", it), lambda it: mergejoin.merge("{}", it),
                 PatchLog(1, "{}").decide, mergejoin.objects.join, mergejoin.objects.conflicts,
                 lambda it: mergejoin.objects.replay({}, it), lambda it: mergejoin.objects.merge({}, it)]
        for given in wrong:
            for call in calls:
                with self.assertRaises(TypeError) as raised:
                    call(given)
                self.assertIn(f"one by one, as in a list, and not as {type(given).__name__}", str(raised.exception))

    def test_what_has_an_order_is_one(self):
        for given in ([], (), iter([]), collections.deque(), collections.UserList(), {}.values(), (it for it in ())):
            self.assertEqual(mergejoin.merge("7", given), "7")
        for given in (["1", "2"], ("1", "2"), iter(["1", "2"]), collections.deque("12"), collections.UserList("12"), {1: "1", 2: "2"}.values()):
            self.assertEqual(mergejoin.merge("7", given), "2")

    def test_another_patches_is_wanted(self):
        for other in ({}, [], "{}", None, Replica("{}")):
            self.assertRaises(TypeError, Patches().add_all, other)

    def test_a_conflict_whose_places_do_not_fit_has_their_number(self):
        for count, words in ((7, "7 places"), (1, "1 place")):
            texts = [json.dumps({f"n{number}": value for number in range(count)}) for value in (1, 2)]
            for limit in (0, 2, 100):
                with self.assertRaises(Conflict) as raised:
                    mergejoin.join(texts, limit=limit)
                self.assertEqual(str(raised.exception), f"conflict: patches 0 and 1 at {words}")

    def test_a_place_is_as_it_is_in_the_text_and_the_words_escape_it(self):
        """As docs/FROM-PYTHON.md says what may go to a terminal."""
        with self.assertRaises(PatchError) as raised:
            mergejoin.join(['{"\\u0000\\u001b\\u007f\\u009b": 1.5}'])
        error = raised.exception
        self.assertEqual((error.place, ascii(error.place)), ("/\0\x1b\x7f\x9b", "'/\\x00\\x1b\\x7f\\x9b'"))
        self.assertEqual(str(error), 'patch 0: number not whole at "/\\u0000\\u001b\x7f\x9b"')

    def test_texts_may_come_from_a_generator(self):
        self.assertEqual(mergejoin.join(text for text in ("{}", b"{}", bytearray(b"{}"), memoryview(b" {} ")[1:])), "{}")

    def test_an_error_of_a_generator_is_its_own(self):
        def texts():
            yield "{}"
            raise KeyError("mine")

        self.assertRaises(KeyError, mergejoin.join, texts())
        self.assertRaises(KeyError, mergejoin.conflicts, texts())

    def test_a_long_call_gives_up_the_lock(self):
        """In one of ten calls: a busy machine may keep both threads waiting as long."""
        text = "[" + ",".join(["{}"] * 300_000) + "]"
        self.assertTrue(any(gives_up_the_lock(text) for _ in range(10)))

    def test_many_threads(self):
        names, seen = [f'{{"{number}":{number}}}' for number in range(300)], []
        wanted = mergejoin.join(names)
        threads = [threading.Thread(target=lambda: seen.append({mergejoin.join(names[::-1]) for _ in range(20)}))
                   for _ in range(4)]
        for it in threads:
            it.start()
        for it in threads:
            it.join()
        self.assertEqual(seen, [{wanted}] * 4)
