"""Joins and conflicts by key of random logs, on schedulers of one process or host, are those of all texts of the key at once."""

import itertools
import json
import random
import unittest
from decimal import Decimal
from unittest import mock

import dask.bag

import mergejoin
from mergejoin.dask import conflicts_by_key, join_by_key
from logs import ALIKE, Name, log_of, log_of_kinds, pairs_of, wanted_of

MOST_SPLITS = 50_000


def texts_of_bytes(name, count):
    """Gives patches of one key, each with a member of its own, of so many bytes in all."""
    return [(name, f'{{"{number:038}":"{name:>20.20}"}}') for number in range(count // 65)]


class Results(unittest.TestCase):
    def same(self, bag, wanted, *more, **how):
        """The items of a bag are those that are wanted, each key once."""
        seen = bag.compute(**how)
        self.assertEqual((len(seen), dict(seen)), (len(wanted), wanted), more)


class Joins(Results):
    def test_any_partitions_have_one_result(self):
        chance = random.Random(16)
        for trial in range(12):
            log = log_of(chance, 120)
            wanted = wanted_of(log)
            self.assertEqual({type(text) for text in wanted.values()}, {str, type(None)}, trial)
            for scheduler in ("synchronous", "threads"):
                given = chance.sample(log, len(log)) + chance.choices(log, k=chance.randrange(60))
                bag = dask.bag.from_sequence(given, npartitions=chance.randrange(1, 20))
                shares, every = chance.choice([None, 1, 2, 7, 40]), chance.choice([None, False, 1, 2, 3, 50])
                joins = join_by_key(bag, shares, every)
                self.assertEqual(joins.npartitions, shares or bag.npartitions)
                self.same(joins, wanted, trial, shares, every, scheduler=scheduler)
                self.same(conflicts_by_key(bag, shares), pairs_of(log), trial, shares, scheduler=scheduler)

    def test_processes_have_one_result(self):
        log = log_of_kinds(random.Random(4), 300)
        bag = dask.bag.from_sequence(log, npartitions=5)
        for every in (None, 2):
            self.same(join_by_key(bag, 6, every), wanted_of(log), every, scheduler="processes", num_workers=2)
        self.same(conflicts_by_key(bag), pairs_of(log), scheduler="processes", num_workers=2)

    def test_keys_of_all_kinds(self):
        chance = random.Random(8)
        for trial in range(8):
            log = log_of_kinds(chance, 400)
            self.assertEqual(len(wanted_of(log)), len(ALIKE))
            bag = dask.bag.from_sequence(log, npartitions=chance.randrange(1, 9))
            shares = chance.randrange(1, 30)
            self.same(join_by_key(bag, shares), wanted_of(log), trial, scheduler="synchronous")
            self.same(conflicts_by_key(bag, shares), pairs_of(log), trial, scheduler="synchronous")

    def test_each_nan_is_a_key_of_its_own(self):
        bag = dask.bag.from_sequence([(kind("nan"), "{}") for kind in (float, Decimal, float)], npartitions=3)
        self.assertEqual([text for _, text in join_by_key(bag, 7).compute(scheduler="synchronous")], ["{}"] * 3)

    def test_keys_that_are_all_str_of_any_characters(self):
        keys = ["", "\0", "\1", "a\0b", "a\1b", "\1\1", "\ud800", "caf\u00e9", "\U0001f600", "doc", "a", "b"]
        chance = random.Random(12)
        for names in (keys, [key for key in keys if "\1" not in key], [""], ["\1"]):
            log = [(names[int(key[len("doc"):]) % len(names)], text) for key, text in log_of(chance, 200)]
            bag = dask.bag.from_sequence(log, npartitions=4)
            for shares in (1, 3, 30):
                self.same(join_by_key(bag, shares), wanted_of(log), names, shares, scheduler="synchronous")
                self.same(conflicts_by_key(bag, shares), pairs_of(log), names, shares, scheduler="synchronous")

    def test_a_key_keeps_its_type(self):
        for keys in ([Name("doc")], [Name(), Name("a"), Name("b")], [True], [1.0], [b"a", b"b"]):
            log = [(key, f'{{"{number}":1}}') for key in keys for number in range(2)]
            for count in (1, 2):
                seen = join_by_key(dask.bag.from_sequence(log, npartitions=count), 2).compute(scheduler="synchronous")
                self.assertEqual({(type(key), key) for key, _ in seen}, {(type(key), key) for key in keys})

    def test_a_partition_may_be_a_generator(self):
        log = log_of(random.Random(13), 200)
        bag = dask.bag.from_sequence(log, npartitions=3).map_partitions(lambda items: ([key, text] for key, text in items))
        self.same(join_by_key(bag), wanted_of(log), scheduler="synchronous")

    def test_many_keys_of_few_texts(self):
        log = [(f"doc{number % 700}", f'{{"n{number // 350}":{number % 700}}}') for number in range(1500)]
        random.Random(14).shuffle(log)
        log += [("doc5", '{"n0":6}'), ("doc5", "[5]")]
        for count in (1, 2, 9):
            bag = dask.bag.from_sequence(log, npartitions=count)
            self.same(join_by_key(bag, 4), wanted_of(log), count, scheduler="synchronous")
            self.same(conflicts_by_key(bag, 4), pairs_of(log), count, scheduler="synchronous")

    def test_shares_are_about_as_large_as_one_another(self):
        for keys in ([f"doc{number}" for number in range(2000)], range(2000), range(0, 32_000, 16), [it / 16 for it in range(2000)]):
            joins = join_by_key(dask.bag.from_sequence([(key, "{}") for key in keys], npartitions=2), 16)
            counts = joins.map_partitions(lambda share: [len(list(share))]).compute(scheduler="synchronous")
            self.assertEqual((len(counts), sum(counts)), (16, 2000))
            self.assertTrue(80 < min(counts) and max(counts) < 170, counts)

    def test_partitions_that_are_there_twice_change_nothing(self):
        log = log_of(random.Random(7), 200)
        bag = dask.bag.from_sequence(log, npartitions=6)
        twice = dask.bag.concat([bag, bag])
        self.same(join_by_key(twice, 4, 3), wanted_of(log), scheduler="threads")
        self.same(conflicts_by_key(twice, 4), pairs_of(log), scheduler="threads")

    def test_what_one_join_has_made_is_not_changed(self):
        parts = [dask.bag.from_sequence([("a", f'{{"n{number}":{number}}}')], npartitions=1) for number in range(3)]
        one = join_by_key(parts[0]).persist(scheduler="synchronous")
        both = join_by_key(dask.bag.concat([one, parts[1]])).compute(scheduler="synchronous")
        self.assertEqual(both, [("a", '{"n0":0,"n1":1}')])
        self.assertEqual(join_by_key(dask.bag.concat([one, parts[2]])).compute(scheduler="synchronous"), [("a", '{"n0":0,"n2":2}')])

    def test_of_nothing_there_is_no_key(self):
        bag = dask.bag.from_sequence([("a", "1"), ("b", "2")], npartitions=2)
        for given in (bag.filter(lambda item: False), dask.bag.from_sequence([])):
            for shares, every in itertools.product((None, 1, 5), (None, 2)):
                self.same(join_by_key(given, shares, every), {}, scheduler="synchronous")
                self.same(conflicts_by_key(given, shares), {}, scheduler="synchronous")
        self.same(join_by_key(bag.filter(lambda item: item[0] == "b"), 3), {"b": "2"}, scheduler="synchronous")


class Tasks(unittest.TestCase):
    def test_shares_are_as_many_as_partitions_up_to_32(self):
        bags = [dask.bag.from_sequence(range(count), npartitions=count) for count in (1, 16, 32, 400)]
        self.assertEqual([join_by_key(bag).npartitions for bag in bags], [1, 16, 32, 32])
        self.assertEqual([conflicts_by_key(bag).npartitions for bag in bags], [1, 16, 32, 32])

    def test_two_levels_keep_tasks_few(self):
        bag = dask.bag.from_sequence(range(1000), npartitions=1000)
        before = len(dict(bag.dask))
        one, other = (len(dict(join_by_key(bag, shares).dask)) - before for shares in (50, 60))
        self.assertEqual(one, MOST_SPLITS + 2 * 1000 + 50)
        self.assertLess(other, MOST_SPLITS / 2)
        self.assertGreater(len(dict(join_by_key(bag, 60, False).dask)), MOST_SPLITS)

    def test_numbers_that_make_no_shares_are_refused(self):
        bag = dask.bag.from_sequence([("a", "1")])
        for shares, every in ((0, None), (-1, None), (2, -1)):
            self.assertRaises(ValueError, join_by_key, bag, shares, every)
        self.assertRaises(ValueError, conflicts_by_key, bag, 0)


class Errors(unittest.TestCase):
    def raised(self, made, bag, **how):
        with self.assertRaises(mergejoin.PatchError) as raised:
            made(bag).compute(**how)
        return raised.exception

    def test_a_text_that_is_not_a_document_is_reported_with_its_key(self):
        chance = random.Random(3)
        for scheduler, made in itertools.product(("synchronous", "threads", "processes"), (join_by_key, conflicts_by_key)):
            log = [("a", "1"), (("b", 2), "2"), ("a", "3"), (("b", 2), "[1.5]")]
            chance.shuffle(log)
            error = self.raised(made, dask.bag.from_sequence(log, npartitions=2), scheduler=scheduler)
            self.assertEqual((error.key, error.number, error.cause), (("b", 2), 0, "number not whole"))
            self.assertEqual((str(error), error.place), ("patch of ('b', 2): number not whole at \"/0\"", "/0"))

    def test_it_is_reported_in_every_order_also_if_patches_conflict(self):
        log = [("a", '{"x":1}'), ("a", '{"x":2}'), ("a", b"\xff"), ("b", "1")]
        large = [("a", json.dumps({"x": number, "y": "z" * 40_000})) for number in (1, 2)]
        for given in (log, [*large, *log[2:]]):
            for order, count, made in itertools.product(itertools.permutations(given), (1, 2, 4), (join_by_key, conflicts_by_key)):
                error = self.raised(made, dask.bag.from_sequence(order, npartitions=count), scheduler="synchronous")
                self.assertEqual((error.key, error.number, error.cause), ("a", 0, "not JSON"))

    def test_a_text_that_is_several_documents_is_reported(self):
        """Texts move in one piece, with separators, which may be in a text that is no document."""
        for mark, encoding, made in itertools.product("\0\1\2\n", (None, "utf-8"), (join_by_key, conflicts_by_key)):
            for text in (f'{{"x":1}}{mark}{{"y":2}}', f"{mark}1", f"1{mark}{mark}", "" + mark):
                log = [("b", "1"), ("a", text if encoding is None else text.encode(encoding)), ("c", "3"), ("c", "3")]
                if text.strip() == "1":
                    continue
                for shares, more in itertools.product((1, 2), ([], [("a", '{"x":1}')], [("a", "4"), ("a", "5")])):
                    bag = dask.bag.from_sequence(log + more, npartitions=1)
                    error = self.raised(lambda bag: made(bag, shares), bag, scheduler="synchronous")
                    self.assertEqual((error.key, error.number, error.cause), ("a", 0, "not JSON"))

    def test_an_empty_text_is_reported(self):
        for key, more, made in itertools.product(("", "a", 1), ([], [("b", "1")]), (join_by_key, conflicts_by_key)):
            error = self.raised(made, dask.bag.from_sequence([(key, ""), *more], npartitions=1), scheduler="synchronous")
            self.assertEqual((error.key, error.number, error.cause), (key, 0, "not JSON"))

    def test_what_is_no_text_raises_a_type_error(self):
        for made, text in itertools.product((join_by_key, conflicts_by_key), (1, None, ["{}"])):
            bag = dask.bag.from_sequence([("a", "{}"), ("a", text)], npartitions=1)
            self.assertRaises(TypeError, made(bag).compute, scheduler="synchronous")


class Early(Results):
    def joined(self, parts, **wanted):
        """Gives for each key how many texts each join had, in order. Each part is a partition."""
        counts = {}

        def join(texts):
            text = texts[0] if isinstance(texts[0], str) else texts[0].decode("utf-8")
            counts.setdefault(next(name for name in wanted if name in text), []).append(len(texts))
            return mergejoin.join(texts)

        bag = dask.bag.concat([dask.bag.from_sequence(part, npartitions=1) for part in parts])
        log = [item for part in parts for item in part]
        with mock.patch("mergejoin.dask.join", join):
            self.same(join_by_key(bag, 1), wanted_of(log), scheduler="synchronous")
        self.assertEqual({name: sorted(found) for name, found in counts.items()}, wanted)

    def test_large_keys_alone_are_joined_before_they_move(self):
        first, small, large = (texts_of_bytes(*it) for it in (("first", 33_000), ("small", 63_000), ("large", 65_000)))
        count = {name: len(texts) for name, texts in (("first", first), ("small", small), ("large", large))}
        self.joined([first + small + large], first=[count["first"]], small=[count["small"]], large=[count["large"]])
        both = [first + small + large, [("large", '{"large":1}'), ("small", '{"small":1}')]]
        self.joined(both, first=[count["first"]], small=[count["small"] + 1], large=[2, count["large"]])

    def test_a_key_is_as_large_as_its_bytes(self):
        first = texts_of_bytes("first", 33_000)
        wide = {name: [(name, f'{{"{name}{number}":"{1000 * sign}"}}') for number in range(33)] for name, sign in
                (("wide", "\u00e9"), ("narrow", "e"))}
        self.joined([first + wide["wide"] + wide["narrow"], [("wide", "{}"), ("narrow", '{"narrow":1}')]],
                    first=[len(first)], wide=[2, 33], narrow=[34])

    def test_all_are_joined_before_they_move_if_joins_shrink(self):
        first = texts_of_bytes("first", 650) * 60
        small = texts_of_bytes("small", 650)
        self.joined([first + small, small], first=[len(first)], small=[2, len(small), len(small)])

    def test_conflicts_of_large_keys_are_found_in_any_partition(self):
        large = texts_of_bytes("large", 80_000)
        here, there = [*large, ("large", f'{{"{1:038}":0}}')], [("large", '{"x":1}'), ("large", '{"x":2}')]
        for parts in ([here], [large, here], [here, large], [large, there], [here, here], [large[:900], large[900:] + there]):
            bag = dask.bag.concat([dask.bag.from_sequence(part, npartitions=1) for part in parts])
            self.same(join_by_key(bag, 2), {"large": None}, scheduler="synchronous")
            log = [item for part in parts for item in part]
            self.same(conflicts_by_key(bag, 2), pairs_of(log), scheduler="synchronous")

    def test_a_key_with_large_texts_is_joined_as_at_once(self):
        chance = random.Random(11)
        log = [(f"doc{number}", json.dumps({chance.choice("abc"): {f"k{it}": "\u4e2d" * 3000}}))
               for it in range(60) for number in (0, 1)]
        log += [("doc1", '{"a":{"k0":1},"b":{"k0":1},"c":{"k0":1}}')]
        for count in (1, 2, 5):
            bag = dask.bag.from_sequence(log, npartitions=count)
            self.same(join_by_key(bag, 3), wanted_of(log), count, scheduler="synchronous")
