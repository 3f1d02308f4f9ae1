"""Patches that are grouped, repeated, pickled and joined in a tree give one join; and the pairs that conflict."""

import copy
import itertools
import json
import pickle
import random
import time
import unittest

import mergejoin
from mergejoin import Conflict, DocumentError, NoPatches, PatchError, Patches, conflicts

NO_PATCHES = ["", "[", "1.5", "1,2", '{"a":1}}', "\ud800", b"\xff", "[" * 127 + "]" * 127]


def tree(chance, depth):
    """Gives a value of which patches may each say a part."""
    if depth == 0 or chance.random() < 0.3:
        return chance.choice([None, 0, -7, "é", True, [1, {"b": None}], {}, "x" * 300])
    return {f"{chance.choice('abc')}{number}": tree(chance, depth - 1) for number in range(chance.randrange(1, 5))}


def part(chance, value):
    """Gives a patch that says a part of what a value does."""
    if not isinstance(value, dict):
        return value
    return {name: part(chance, value[name]) for name in value if chance.random() < 0.6}


def texts_of(chance):
    """Gives texts of patches, of which some repeat, or conflict where one says another thing at some place."""
    value = {f"n{number}": tree(chance, 3) for number in range(chance.randrange(1, 9))}
    made = [part(chance, value) for _ in range(chance.randrange(1, 30))]
    if chance.random() < 0.4:
        made.append({chance.choice(list(value)): chance.choice([[], 12, "other"])})
    chance.shuffle(made)
    return [json.dumps(it, ensure_ascii=chance.random() < 0.5, indent=chance.choice([None, 2])) for it in made]


def outcome(call, *words):
    try:
        return call(*words)
    except (Conflict, NoPatches) as error:
        return type(error)


def grouped(chance, texts):
    """Gives one Patches of texts, each given to at least one of several, in any order and some of them repeatedly."""
    parts = [Patches() for _ in range(chance.randrange(1, 6))]
    for text in chance.sample(texts, len(texts)) + chance.choices(texts, k=len(texts) // 2):
        chance.choice(parts).add(text if chance.random() < 0.5 else text.encode())
    while len(parts) > 1:
        one, other = (parts.pop(chance.randrange(len(parts))) for _ in range(2))
        if chance.random() < 0.5:
            other = pickle.loads(pickle.dumps(other, chance.randrange(pickle.HIGHEST_PROTOCOL + 1)))
        one.add_all(other)
        if chance.random() < 0.3:
            one.add_all(chance.choice([one, other, Patches()]))
        parts.append(copy.deepcopy(one) if chance.random() < 0.2 else one)
    return parts[0]


class Groups(unittest.TestCase):
    def test_any_grouping_has_one_join(self):
        chance, outcomes = random.Random(36), set()
        for trial in range(150):
            texts = texts_of(chance)
            wanted = outcome(mergejoin.join, texts)
            outcomes.add(wanted if isinstance(wanted, type) else str)
            for _ in range(3):
                self.assertEqual(outcome(grouped(chance, texts).text), wanted, trial)
        self.assertEqual(outcomes, {str, Conflict})

    def test_what_is_not_a_patch_is_reported_in_every_order(self):
        orders = itertools.permutations(['{"a":1}', '{"a":2}', "wrong"])
        for wrong, order, is_looked_at in itertools.product(NO_PATCHES, list(orders), (False, True)):
            patches, raised = Patches(), 0
            for text in order:
                try:
                    patches.add(wrong if text == "wrong" else text)
                except PatchError as error:
                    self.assertEqual(error.number, 0)
                    raised += 1
                if is_looked_at:
                    outcome(patches.text)
            self.assertEqual((raised, outcome(patches.text)), (1, Conflict))

    def test_what_is_refused_changes_nothing(self):
        patches = Patches()
        self.assertRaises(PatchError, patches.add, "[")
        self.assertRaises(NoPatches, patches.text)
        patches.add('{"a": 1}')
        self.assertRaises(PatchError, patches.add, "[")
        self.assertEqual([patches.text(), patches.text()], ['{"a":1}'] * 2)

    def test_a_conflict_has_places_and_no_numbers(self):
        one, other = Patches(), Patches()
        one.add('{"a":{"b":1}}')
        other.add('{"a":{"b":2}}')
        one.add_all(other)
        for patches in (one, pickle.loads(pickle.dumps(one)), copy.copy(one)):
            with self.assertRaises(Conflict) as raised:
                patches.text()
            error = raised.exception
            self.assertEqual((error.first, error.second, error.places), (None, None, ["/a/b"]))
        self.assertEqual(other.text(), '{"a":{"b":2}}')

    def test_it_pickles_as_one_text(self):
        patches = Patches()
        self.assertEqual(patches.__reduce__()[1][1], "")
        self.assertRaises(NoPatches, pickle.loads(pickle.dumps(patches)).text)
        for number in range(500):
            patches.add(f'{{"n{number}": [{number}]}}')
        self.assertEqual(patches.__reduce__()[1][1], patches.text())
        self.assertLess(len(pickle.dumps(patches)), len(patches.text()) + 100)
        again = pickle.loads(pickle.dumps(patches))
        self.assertEqual((again.text(), again), (patches.text(), patches))
        self.assertNotEqual(again, Patches())
        self.assertEqual((repr(again)[:28], repr(Patches())), ('<mergejoin.Patches {"n0":[0]', "<mergejoin.Patches of no patches>"))
        self.assertRaises(DocumentError, again.__setstate__, "[")

    def test_pairs_that_conflict(self):
        chance, found = random.Random(7), 0
        for _ in range(60):
            texts = [text for _ in range(chance.randrange(3)) for text in texts_of(chance)]
            wanted = []
            for first, second in itertools.combinations(range(len(texts)), 2):
                try:
                    mergejoin.join([texts[first], texts[second]])
                except Conflict as conflict:
                    wanted.append((first, second, conflict.places))
            self.assertEqual(conflicts(texts), wanted)
            found += len(wanted)
        self.assertGreater(found, 1000)
        with self.assertRaises(PatchError) as raised:
            conflicts(["1", "2", "["])
        self.assertEqual(raised.exception.number, 2)


class Growth(unittest.TestCase):
    """Of 100, 1,000 and 10,000 patches each costs the same."""

    sizes = (100, 1_000, 10_000)

    def test_time(self):
        """The least time of 10,000 patches by each size, of rounds until the least are within a factor of two."""
        least = dict.fromkeys(self.sizes, 1e9)
        for _ in range(12):
            for size in self.sizes:
                least[size] = min(least[size], sum(self.time(size) for _ in range(10_000 // size)))
            if max(least.values()) <= 2 * min(least.values()):
                break
        print(", ".join(f"{size:,} patches: {least[size] * 100:.1f} us each" for size in self.sizes))
        self.assertLessEqual(max(least.values()), 2 * min(least.values()))

    @staticmethod
    def time(size):
        texts, patches = [f'{{"k{number}":{{"name":"value","n":{number}}}}}' for number in range(size)], Patches()
        begun = time.process_time()
        for text in texts:
            patches.add(text)
        patches.text()
        return time.process_time() - begun
