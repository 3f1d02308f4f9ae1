"""What stays in memory shows what the six calls make of all texts, pickles, compares, and serves threads one after the other."""

import copy
import json
import pickle
import random
import subprocess
import sys
import threading
import tracemalloc
import unittest
import weakref

import mergejoin
from mergejoin import (Arrival, Conflict, DocumentError, Missing, NoPatches, PatchError, Patches, PatchLog, PointerError, Refused, Replica,
                       TooLarge)

START = '{"title": "Notes", "tags": ["a"]}'
ADA, BOB, UNTITLED = '{"author": "Ada"}', '{"author": "Bob"}', '{"title": null}'
MOST = 2**64 - 1


class Index:
    def __init__(self, number):
        self.number = number

    def __index__(self):
        return self.number


class OpenPatches(Patches):
    def __init__(self, notes):
        super().__init__()
        self.notes = notes


class OpenReplica(Replica):
    def __init__(self, start, notes):
        super().__init__(start)
        self.notes = notes


class ClosedReplica(Replica):
    __slots__ = ("notes", "__unset")

    def __init__(self, start, notes):
        super().__init__(start)
        self.notes = notes


def text(chance):
    values = [None, 1, "é", [1], {}, {"x": chance.randrange(3)}, {"y": None}]
    return json.dumps({chance.choice("abcdef"): chance.choice(values) for _ in range(chance.randrange(3))})


class Replicas(unittest.TestCase):
    def test_random_patches_are_shown(self):
        chance, conflicts = random.Random(81), 0
        for _ in range(60):
            start, received = text(chance), []
            replica = Replica(start)
            for _ in range(12):
                patch = text(chance)
                try:
                    replica.receive(patch if chance.random() < 0.5 else bytearray(patch.encode()))
                    received.append(patch)
                except Conflict as error:
                    conflicts += 1
                    with self.assertRaises(Conflict) as raised:
                        mergejoin.join([mergejoin.join(received), patch])
                    self.assertEqual((error.first, error.second, error.places), (None, None, raised.exception.places))
                self.assertEqual(replica.document(), mergejoin.replay(start, received))
                if received:
                    self.assertEqual(replica.joined(), mergejoin.join(received))
        self.assertGreater(conflicts, 50)

    def test_a_replica_pickles(self):
        replica = Replica(START)
        for patch in (None, ADA, UNTITLED):
            if patch:
                replica.receive(patch)
            for again in (pickle.loads(pickle.dumps(replica)), copy.copy(replica), copy.deepcopy(replica)):
                self.assertEqual((again.document(), again), (replica.document(), replica))
                if patch:
                    self.assertEqual(again.joined(), replica.joined())
                    self.assertRaises(Conflict, again.receive, BOB)
                else:
                    self.assertRaises(NoPatches, again.joined)
        self.assertEqual(repr(replica), '<mergejoin.Replica {"author":"Ada","tags":["a"]}>')

    def test_a_log_is_not_copied(self):
        log = PatchLog(1, START)
        for call in (copy.copy, copy.deepcopy, pickle.dumps):
            with self.assertRaises(TypeError) as raised:
                call(log)
            self.assertEqual(str(raised.exception), "a PatchLog is neither pickled nor copied: give its messages to a new one")
        self.assertEqual(repr(log), '<mergejoin.PatchLog 1 {"tags":["a"],"title":"Notes"}>')

    def test_what_a_subclass_adds_is_kept(self):
        """Whatever it wants when it begins, and whether it has slots or attributes."""
        patches, open_replica, closed_replica = OpenPatches(["a"]), OpenReplica(START, ["a"]), ClosedReplica(START, ["a"])
        patches.add(ADA)
        open_replica.receive(ADA)
        for it in (patches, open_replica, closed_replica):
            copies = [pickle.loads(pickle.dumps(it, protocol)) for protocol in range(pickle.HIGHEST_PROTOCOL + 1)]
            for again in (*copies, copy.deepcopy(it), copy.copy(it)):
                self.assertEqual((type(again), again, again.notes), (type(it), it, ["a"]))
            self.assertIs(copy.copy(it).notes, it.notes)
            self.assertIsNot(copy.deepcopy(it).notes, it.notes)

    def test_what_0_3_pickled(self):
        """The class, its arguments, and one text as the state."""
        for kind, arguments, state in ((Replica, ('{"author":"Ada"}',), ADA), (Replica, (START,), None), (Patches, (), ADA), (Patches, (), "")):
            again, wanted = kind(*arguments), kind(*arguments)
            if state is not None:
                again.__setstate__(state)
            if state:
                (wanted.receive if kind is Replica else wanted.add)(state)
            self.assertEqual(again, wanted)

    def test_each_may_be_referred_to_weakly(self):
        for it in (Replica(START), Patches(), PatchLog(0, START)):
            self.assertIs(weakref.ref(it)(), it)

    def test_a_number_is_what_has_an_index(self):
        log = PatchLog(Index(7), START)
        self.assertIs(log.receive(Index(7), (Index(1), Index(2)), ADA), Arrival.STORED)
        self.assertEqual((log.epoch, log.conflicts_of((Index(1), Index(2)), limit=Index(2))), (7, ([], False)))
        self.assertRaises(TooLarge, log.document, limit=Index(5))
        log.decide([(Index(1), Index(2))])
        self.assertEqual(log.epoch, 8)
        for wrong in (1.0, "1", None):
            self.assertRaises(TypeError, PatchLog, wrong, START)

    def test_replicas_compare(self):
        one, other = Replica(START), Replica(START)
        one.receive(ADA)
        self.assertNotEqual(one, other)
        other.receive(ADA)
        self.assertEqual(one, other)
        self.assertNotEqual(Replica('{"author":"Ada"}'), Replica("{}"))
        received = Replica("{}")
        received.receive(ADA)
        self.assertEqual(received.document(), Replica(ADA).document())
        self.assertNotEqual(received, Replica(ADA))
        self.assertNotEqual(one, START)
        self.assertRaises(TypeError, hash, one)

    def test_parts(self):
        replica = Replica(START)
        self.assertEqual((replica.get("/tags/0"), replica.get(b"/tags", "none")), ('"a"', '["a"]'))
        self.assertEqual((replica.get("/x", None), replica.get("/x", default=7)), (None, 7))
        self.assertRaises(Missing, replica.get, "/x")
        self.assertRaises(PointerError, replica.get, "x", None)

    def test_what_is_wrong_changes_nothing(self):
        self.assertRaises(DocumentError, Replica, "[")
        self.assertRaises(TypeError, Replica, {})
        replica = Replica(START)
        replica.receive(ADA)
        for wrong, *carried in (("[", 0, "not JSON", None), ('{"a":1.5}', 0, "number not whole", "/a")):
            with self.assertRaises(PatchError) as raised:
                replica.receive(wrong)
            self.assertEqual([raised.exception.number, raised.exception.cause, raised.exception.place], carried)
        self.assertRaises(Conflict, replica.receive, BOB)
        self.assertEqual(replica.joined(), '{"author":"Ada"}')

    def test_long_texts(self):
        replica, long = Replica("{}"), json.dumps({"a": "x" * 300_000})
        replica.receive(long)
        self.assertEqual(json.loads(replica.document()), json.loads(long))
        self.assertEqual(len(repr(replica)), len('<mergejoin.Replica .. of 300,008 characters>') + 60)


class Logs(unittest.TestCase):
    def log(self):
        log = PatchLog(7, START)
        for identity, patch in (((1, 1), ADA), ((2, 1), BOB), ((1, 2), UNTITLED)):
            self.assertIs(log.receive(7, identity, patch), Arrival.STORED)
        return log

    def test_conflicts_and_a_decision(self):
        log = self.log()
        self.assertEqual(log.document(), mergejoin.replay(START, [UNTITLED]))
        self.assertEqual(log.conflicts(), [((1, 1), (2, 1), ["/author"])])
        self.assertEqual([log.receive(epoch, (1, 1), BOB) for epoch in (6, 7, 8)], [Arrival.LATE, Arrival.REPEAT, Arrival.EARLY])
        self.assertEqual(log.count(), 3)
        log.decide([(1, 2), (2, 1), (1, 2)])
        self.assertEqual(log.count(), 0)
        self.assertEqual((log.epoch, log.document(), log.conflicts()), (8, mergejoin.replay(START, [UNTITLED, BOB]), []))

    def test_the_first_conflicts(self):
        """A pair counts 64, and its place 143."""
        log, whole, without = self.log(), [((1, 1), (2, 1), ["/author"])], [((1, 1), (2, 1), [])]
        for limit, pairs in ((None, whole), (207, whole), (206, without), (64, without), (63, []), (2, [])):
            self.assertEqual(log.first_conflicts(limit=limit), (pairs, pairs != whole))
            if pairs == whole:
                self.assertEqual(log.conflicts(limit=limit), whole)
            else:
                self.assertRaises(TooLarge, log.conflicts, limit=limit)
        self.assertRaises(TooLarge, log.first_conflicts, limit=1)
        self.assertEqual(PatchLog(0, "{}").first_conflicts(limit=2), ([], False))

    def test_the_conflicts_of_one_identity(self):
        log = self.log()
        log.receive(7, (0, 9), '{"author": null, "title": 5}')
        with_one, with_two, both = (((0, 9), (1, 1), ["/author"]), ((0, 9), (2, 1), ["/author"]), ((1, 1), (2, 1), ["/author"]))
        self.assertEqual(log.conflicts_of((1, 1)), ([with_one, both], False))
        self.assertEqual(log.conflicts_of(log.conflicts()[-1].second), ([with_two, both], False))
        self.assertEqual(log.conflicts_of((9, 9)), ([], False))
        for limit, pairs in ((414, [with_one, both]), (413, [with_one, (*both[:2], [])]), (270, [with_one]), (63, []), (2, [])):
            self.assertEqual(log.conflicts_of((1, 1), limit=limit), (pairs, limit < 414))
        self.assertRaises(TooLarge, log.conflicts_of, (1, 1), limit=1)
        self.assertRaises(OverflowError, log.conflicts_of, (1, -1))
        self.assertRaises(TypeError, log.conflicts_of, (1,))

    def test_a_decision_that_is_refused(self):
        log = self.log()
        with self.assertRaises(Missing) as missing:
            log.decide([(1, 1), (2, 1), (9, 9)])
        with self.assertRaises(Conflict) as conflict:
            log.decide([(1, 2), (2, 1), (1, 1)])
        error = conflict.exception
        self.assertEqual((missing.exception.number, error.first, error.second, error.places), (2, 2, 1, ["/author"]))
        self.assertEqual((log.epoch, len(log.conflicts())), (7, 1))
        last = PatchLog(MOST, START)
        self.assertRaises(Refused, last.decide, [])
        self.assertEqual(last.epoch, MOST)

    def test_what_is_no_message(self):
        log = PatchLog(7, START)
        for words, error in (((-1, (1, 1), ADA), OverflowError), ((7, (MOST + 1, 1), ADA), OverflowError), ((7, (1,), ADA), TypeError),
                             ((7, (1, "2"), ADA), TypeError), ((7, (1, 1), {}), TypeError), ((8, (1, 1), "["), PatchError)):
            self.assertRaises(error, log.receive, *words)
        for chosen in ([1], [(1,)], 5, [(1, None)]):
            self.assertRaises(TypeError, log.decide, chosen)
        self.assertRaises(DocumentError, PatchLog, 1, "[")


class Threads(unittest.TestCase):
    def together(self, *jobs):
        threads = [threading.Thread(target=job) for job in jobs]
        for it in threads:
            it.start()
        for it in threads:
            it.join()

    def test_one_object_serves_many_threads(self):
        replica, patches, log = Replica("{}"), Patches(), PatchLog(0, "{}")

        def work(first):
            for number in range(first, first + 300):
                text = json.dumps({f"n{number}": {"x": number}})
                replica.receive(text)
                patches.add(text)
                log.receive(0, (first, number), text)
                if number % 50 == 0:
                    self.assertLessEqual(len(replica.document()), len(log.document()) + 100_000)
                    patches.text()

        self.together(*(lambda first=first: work(first) for first in (0, 1_000, 2_000, 3_000)))
        wanted = json.dumps({f"n{number}": {"x": number} for first in (0, 1_000, 2_000, 3_000) for number in range(first, first + 300)},
                            sort_keys=True, separators=(",", ":"))
        self.assertEqual((replica.document(), patches.text(), log.document()), (wanted,) * 3)

    def test_each_takes_all_of_the_other(self):
        one, other = Patches(), Patches()
        one.add(ADA)
        other.add(UNTITLED)
        self.together(*[lambda: [one.add_all(other) for _ in range(200)], lambda: [other.add_all(one) for _ in range(200)]])
        self.assertEqual(one, other)
        one.add_all(one)
        self.assertEqual((one.text(), one), (mergejoin.join([ADA, UNTITLED]), other))


REPEATED = """
import mergejoin

def most():
    # How many kB of addresses the process had at once.
    return int(open("/proc/self/status").read().split("VmPeak:")[1].split()[0])

text, replica, patches = '{"a":"' + "x" * 100_000 + '"}', mergejoin.Replica("{}"), mergejoin.Patches()
for _ in range(4_000):
    replica.receive(text)
    patches.add(text)
before = most()
print({len(text), len(replica.document()), len(replica.joined()), len(patches.text())}, most() - before < 10_000)
"""


def resident():
    with open("/proc/self/statm", encoding="ascii") as file:
        return int(file.read().split()[1]) * 4096


class Memory(unittest.TestCase):
    def test_repeats_take_no_buffer(self):
        """Of 400 MB of the same patch the text is as long as that of one."""
        done = subprocess.run([sys.executable, "-I", "-c", REPEATED], capture_output=True, text=True, check=False)
        self.assertEqual((done.returncode, done.stdout, done.stderr), (0, "{100008} True\n", ""))

    def test_what_is_dropped_is_freed(self):
        long, before = json.dumps({f"n{number}": number for number in range(5_000)}), 0
        for number in range(120):
            replica, patches, log = Replica(long), Patches(), PatchLog(0, long)
            replica.receive(long)
            patches.add(long)
            log.receive(0, (0, 0), long)
            self.assertRaises(PatchError, patches.add, "[")
            before = before or (number == 40 and resident())
        self.assertLess(resident() - before, 4_000_000)

    def test_long_texts_are_freed(self):
        """Of results, and of an error with many places."""
        long, wide = json.dumps({"a": "x" * 200_000}), [json.dumps({f"n{it}": value for it in range(9_000)}) for value in (1, 2)]
        replica = Replica(long)
        calls = (lambda: mergejoin.join([long]), lambda: mergejoin.get(long, "/a"), replica.document,
                 lambda: self.assertRaises(Conflict, mergejoin.join, wide))
        for call in calls:
            before = 0
            for number in range(80):
                call()
                before = before or (number == 20 and resident())
            self.assertLess(resident() - before, 4_000_000)

    def test_locks_and_types_are_given_back(self):
        for make in (lambda: Replica("{}"), Patches, lambda: PatchLog(0, "{}")):
            kind, counts, sizes = type(make()._held), [], []
            tracemalloc.start()
            for _ in range(3):
                for _ in range(1_000):
                    make()
                counts.append(sys.getrefcount(kind))
                sizes.append(tracemalloc.get_traced_memory()[0])
            tracemalloc.stop()
            self.assertEqual(counts[0], counts[2])
            self.assertLess(sizes[2] - sizes[0], 20_000)

    def test_references_are_given_back(self):
        texts, blob = [f'{{"é{number}": 1}}' for number in range(50)], bytearray(b'{"a":1}')
        calls = [lambda: mergejoin.join(texts), lambda: mergejoin.merge(blob, [memoryview(blob)]), lambda: Patches().add(texts[0]),
                 lambda: Replica(texts[0]).receive(blob), lambda: mergejoin.objects.merge({"a": texts}, [{"b": {"c": texts}}])]
        for call in calls:
            counts = []
            for _ in range(3):
                for _ in range(100):
                    call()
                counts.append(([sys.getrefcount(it) for it in texts], sys.getrefcount(blob)))
            self.assertEqual(counts[0], counts[2])
