"""A document of which very many patches conflict ends conflicts_by_key in a clear error, and takes little memory."""

import subprocess
import sys
import unittest

import dask.bag

import mergejoin
from mergejoin.dask import conflicts_by_key, join_by_key
from logs import pairs_of

MANY = """
import resource, sys, dask.bag, mergejoin
from mergejoin.dask import conflicts_by_key
resource.setrlimit(resource.RLIMIT_AS, (300_000_000,) * 2)
count, name = int(sys.argv[1]), "n" * int(sys.argv[2])
log = [("hot", f'{{"{number % 7}{name}":{number}}}') for number in range(count)] + [("cold", "1"), ("cold", "2")]
bag = dask.bag.from_sequence(log, npartitions=3)
try:
    print(conflicts_by_key(bag).compute(scheduler="synchronous"))
except mergejoin.TooLarge as error:
    print(error, error.key, error.args)
"""


class Bounds(unittest.TestCase):
    def test_3000_patches_of_one_document_end_in_an_error(self):
        """And 12,000, and 300 whose places are long. The process may have 300 MB."""
        for count, length in ((3_000, 1), (12_000, 1), (300, 100_000)):
            words = [sys.executable, "-c", MANY, str(count), str(length)]
            done = subprocess.run(words, capture_output=True, text=True, check=False, timeout=200)
            self.assertEqual((done.stdout, done.stderr), ("conflicts of 'hot': too large hot (0,)\n", ""))

    def test_a_limit_is_that_of_each_key(self):
        log = [(key, f'{{"x":{number}}}') for key in "abc" for number in range(40)]
        bag = dask.bag.from_sequence(log, npartitions=4)
        wanted = pairs_of(log)
        size = 780 * (64 + 128 + 8 + len("/x"))  # of each pair, and of its place
        for limit in (None, 4_000_000, size):
            self.assertEqual(dict(conflicts_by_key(bag, limit=limit).compute(scheduler="synchronous")), wanted)
        for limit in (1_000, size - 1):
            with self.assertRaises(mergejoin.TooLarge) as raised:
                conflicts_by_key(bag, limit=limit).compute(scheduler="synchronous")
            self.assertIn(raised.exception.key, "abc")

    def test_many_pairs_are_in_order(self):
        """Of more texts than those that are looked at first."""
        log = [("a", f'{{"n{number % 400}":{number // 400}}}') for number in range(1_000)]
        seen = conflicts_by_key(dask.bag.from_sequence(log, npartitions=3)).compute(scheduler="synchronous")
        self.assertEqual(dict(seen), pairs_of(log))

    def test_a_text_that_is_not_a_document_is_reported_first(self):
        """Wherever it is among those that conflict in very many pairs."""
        for wrong in ('{"n', '{"n0":[', "{", "~"):
            log = [("a", f'{{"n0":{number}}}') for number in range(1_500)] + [("a", wrong)]
            for made in (conflicts_by_key, join_by_key):
                with self.assertRaises(mergejoin.PatchError) as raised:
                    made(dask.bag.from_sequence(log, npartitions=2)).compute(scheduler="synchronous")
                error = raised.exception
                self.assertEqual((error.key, error.number, error.args, str(error)), ("a", 0, (0, "not JSON", None), "patch of 'a': not JSON"))
