"""Clusters of processes give what one process gives: if their hash seeds differ, and if one worker is killed in the middle."""

import os
import pathlib
import random
import signal
import tempfile
import time
import unittest

import dask.bag

from mergejoin.dask import conflicts_by_key, join_by_key
from clusters import cluster_of_seeds
from logs import log_of, log_of_kinds, pairs_of, wanted_of

PARTS = 24


def marked(item, directory):
    """Tells that a worker has come so far, and takes some time."""
    pathlib.Path(directory, str(os.getpid())).touch()
    time.sleep(0.005)
    return item


class Cluster(unittest.TestCase):
    def same(self, seen, wanted):
        self.assertEqual((len(seen), dict(seen)), (len(wanted), wanted))

    def test_a_worker_that_is_killed_changes_nothing(self):
        log = log_of(random.Random(9), 960)
        for made, wanted in ((lambda bag: join_by_key(bag, 6, 4), wanted_of(log)), (conflicts_by_key, pairs_of(log))):
            with tempfile.TemporaryDirectory() as directory, cluster_of_seeds(3) as client:
                bag = dask.bag.from_sequence(log, npartitions=PARTS).map(marked, directory)
                future = client.compute(made(bag))
                while not os.listdir(directory):
                    time.sleep(0.01)
                time.sleep(0.3)
                victim = int(sorted(os.listdir(directory))[0])
                self.assertFalse(future.done())
                os.kill(victim, signal.SIGKILL)
                seen = future.result(timeout=100)
                self.assertGreater(len(os.listdir(directory)), 1)
            self.same(seen, wanted)

    def test_workers_of_any_hash_seeds_give_each_key_once(self):
        class Local(str):
            """A key whose class no worker can import."""

        log = log_of_kinds(random.Random(2), 600) + [(Local(key), text) for key, text in log_of(random.Random(3), 600, 40)]
        joins, pairs = wanted_of(log), pairs_of(log)
        self.assertGreater(len(pairs), 20)
        with cluster_of_seeds(4) as client:
            self.assertGreater(len(set(client.run(hash, "doc").values())), 1)
            bag = dask.bag.from_sequence(log, npartitions=12)
            for shares, every in ((None, None), (5, 2), (30, 4)):
                self.same(join_by_key(bag, shares, every).compute(), joins)
            self.same(conflicts_by_key(bag, 7).compute(), pairs)
