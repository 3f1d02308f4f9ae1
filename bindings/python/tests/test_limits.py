"""A limit bounds what a call makes: a JSON Patch that doubles a document, a rewriting, the places of a conflict, and a long result."""

import json
import pickle
import subprocess
import sys
import time
import unittest

import mergejoin
from mergejoin import Conflict, Patches, PatchLog, Replica, TooLarge, objects

DOUBLED = json.dumps([{"op": "copy", "from": "", "path": f"/{number}"} for number in range(60)])
WIDE = [json.dumps({f"n{number:05}": value for number in range(20_000)}) for value in (1, 2)]
ATTACK = """
import resource, mergejoin
resource.setrlimit(resource.RLIMIT_AS, (300_000_000,) * 2)
for start in ('{"a":"text"}', '{"":{"":0}}'):
    try:
        mergejoin.patch(start, %r, limit=64_000_000)
    except mergejoin.TooLarge as error:
        print(error, error.number > 5)
"""


class Limits(unittest.TestCase):
    def test_a_result_on_the_way(self):
        done = subprocess.run([sys.executable, "-I", "-c", ATTACK % DOUBLED], capture_output=True, text=True, check=False)
        self.assertEqual((done.returncode, done.stdout, done.stderr), (0, "too large True\n" * 2, ""))

    def test_the_number_is_of_the_operation(self):
        adds = json.dumps([{"op": "add", "path": f"/{number}", "value": number} for number in range(10)])
        for limit, number in ((1_000, 0), (1_500, 2), (2_600, 9)):
            with self.assertRaises(TooLarge) as raised:
                mergejoin.patch("{}", adds, limit=limit)
            self.assertEqual(raised.exception.number, number)
        self.assertEqual(len(json.loads(mergejoin.patch("{}", adds, limit=2_690))), 10)

    def test_a_rewriting_and_long_texts(self):
        text = json.dumps({"text": "x" * 1_000})
        for call, words in ((mergejoin.join, [[text]]), (mergejoin.replay, [text, []]), (mergejoin.merge, [text, ["{}"]]),
                            (mergejoin.rewrite, ["{}", text]), (mergejoin.patch, [text, "[]"]), (mergejoin.get, [text, ""]),
                            (Replica(text).document, []), (Replica(text).get, [""]), (PatchLog(0, text).document, [])):
            with self.subTest(call=call):
                self.assertRaises(TooLarge, call, *words, limit=1_000)
                self.assertEqual(call(*words, limit=10_000), call(*words))
        with self.assertRaises(TooLarge):
            objects.merge({"text": "x" * 1_000}, [], limit=1_000)

    def test_places_of_a_conflict(self):
        with self.assertRaises(Conflict) as raised:
            mergejoin.join(WIDE, limit=10_000)
        error = raised.exception
        self.assertEqual((error.first, error.second, error.total), (0, 1, 20_000))
        self.assertEqual(error.places, [f"/n{number:05}" for number in range(len(error.places))])
        self.assertTrue(50 < len(error.places) < 100)
        self.assertTrue(str(error).endswith(f'" and {20_000 - len(error.places)} more'))

    def test_places_of_what_stays_in_memory(self):
        replica, log = Replica("{}"), PatchLog(0, "{}")
        replica.receive(WIDE[0])
        for number, text in enumerate(WIDE):
            log.receive(0, (0, number), text)
        for call, words in ((replica.receive, [WIDE[1]]), (log.decide, [[(0, 0), (0, 1)]])):
            with self.assertRaises(Conflict) as raised:
                call(*words, limit=1_300)
            self.assertEqual((raised.exception.total, len(raised.exception.places)), (20_000, 9))  # of a weight of 143 each
        self.assertRaises(TooLarge, log.conflicts, limit=1_000)
        self.assertEqual(len(log.conflicts()[0].places), 20_000)
        pairs, more = log.first_conflicts(limit=1_000)
        self.assertEqual(([len(pair.places) for pair in pairs], more), ([6], True))  # of a pair 64 and 143 for each place
        self.assertEqual(log.first_conflicts(limit=64 + 20_000 * 143), (log.conflicts(), False))

    def test_patches_report_few_places_of_a_conflict(self):
        patches = Patches()
        for text in WIDE:
            patches.add(text)
        with self.assertRaises(Conflict) as raised:
            patches.text(limit=100)
        held = 65_536 // 143
        self.assertEqual((raised.exception.total, raised.exception.more, len(raised.exception.places)), (held, True, 9))
        self.assertTrue(str(raised.exception).endswith('"/n00008" and more'))
        self.assertEqual(pickle.loads(pickle.dumps(patches)), patches)

    def test_pairs_that_conflict(self):
        """Of few texts, and of so many that their list is measured on the way."""
        for texts in WIDE, [*WIDE, *["{}"] * 30]:
            for call, given in ((mergejoin.conflicts, texts), (objects.conflicts, [json.loads(text) for text in texts])):
                self.assertRaises(TooLarge, call, given, limit=1_000)
                self.assertRaises(TooLarge, call, given, limit=63 + 20_000 * 143)
                self.assertEqual([len(places) for _, _, places in call(given, limit=64 + 20_000 * 143)], [20_000])

    def test_a_conflict_makes_no_later_patch_dearer(self):
        """No place of it is written when a patch is added."""
        plain, conflicting, times = Patches(), Patches(), []
        plain.add(WIDE[0])
        for text in WIDE:
            conflicting.add(text)
        for patches in (plain, conflicting):
            begun = time.process_time()
            for _ in range(500):
                patches.add('{"a":1}')
            times.append(time.process_time() - begun)
        self.assertLess(times[1], 10 * times[0])

    def test_what_is_no_limit(self):
        for limit, error in ((-1, OverflowError), (2**64, OverflowError), ("1", TypeError), (1.0, TypeError)):
            self.assertRaises(error, mergejoin.join, ["{}"], limit=limit)
        self.assertEqual(mergejoin.join(["{}"], limit=2**64 - 1), "{}")
