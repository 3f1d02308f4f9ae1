"""Several results of a bag whose partitions can be read once: each has all of them, or there is an error."""

import itertools
import random
import unittest

import dask
import dask.bag

from mergejoin.dask import conflicts_by_key, join_by_key
from logs import log_of, pairs_of, wanted_of

# Ways to give a partition that can be read once.
ONCE = [lambda items: (it for it in items), lambda items: iter(list(items)), lambda items: map(tuple, items)]


def heads(task):
    """Gives what a task calls, and what the tasks in it do."""
    if isinstance(task, (tuple, list)):
        if task and callable(task[0]):
            yield task[0]
        for part in task:
            yield from heads(part)


class Readings(unittest.TestCase):
    def test_results_that_are_computed_together_are_those_of_each(self):
        log = log_of(random.Random(21), 300)
        joins, pairs = wanted_of(log), pairs_of(log)
        self.assertTrue(pairs)
        for once, scheduler in itertools.product(ONCE, ("synchronous", "threads", "processes")):
            bag = dask.bag.from_sequence(log, npartitions=4).map_partitions(once)
            made = join_by_key(bag), conflicts_by_key(bag), join_by_key(bag, 3, 2)
            one, two, three = dask.compute(*made, scheduler=scheduler, num_workers=2)
            self.assertEqual((dict(one), dict(two), dict(three)), (joins, pairs, joins))

    def test_a_generator_that_dask_has_read_is_an_error(self):
        """Not a result that lacks its texts. If it is not read before, the result is whole."""
        log = log_of(random.Random(22), 100)
        bag = dask.bag.from_sequence(log, npartitions=3).map_partitions(ONCE[0])
        for others in ([bag.count()], [bag.frequencies(), bag.take(1, compute=False)]):
            try:
                *_, joined = dask.compute(*others, join_by_key(bag), scheduler="synchronous")
            except ValueError as error:
                self.assertIn("a generator that was read before", str(error))
            else:
                self.assertEqual(dict(joined), wanted_of(log))

    def test_one_result_makes_no_list(self):
        bag = dask.bag.from_sequence([("a", "1")], npartitions=1).map_partitions(ONCE[0])
        alone, together = join_by_key(bag), conflicts_by_key(bag)
        self.assertNotIn(list, heads(list(dask.optimize(alone)[0].dask.values())))
        self.assertIn(list, heads(list(dask.optimize(alone, together)[0].dask.values())))
