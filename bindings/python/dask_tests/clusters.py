"""A cluster of processes of this host."""

import contextlib
import os
from unittest import mock

from dask.distributed import Client, LocalCluster


@contextlib.contextmanager
def cluster_of_seeds(count):
    """Run a cluster whose processes have hash seeds that differ. A bag that names no scheduler is computed there."""
    with mock.patch.dict(os.environ):
        os.environ.pop("PYTHONHASHSEED", None)  # which dask.multiprocessing sets
        with LocalCluster(n_workers=count, threads_per_worker=1, processes=True, dashboard_address=None) as cluster, \
                Client(cluster) as client:
            yield client
