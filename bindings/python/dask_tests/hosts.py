"""Joins a log in files on a cluster of several hosts, each file given to each host, and compares with one process:

    hosts.py ADDRESS FOLDER HOST..

The workers are those at the address; each host has to have read some of the files.
"""

import collections
import json
import pathlib
import random
import sys

import dask.bag
from dask.distributed import Client, get_worker

from mergejoin.dask import conflicts_by_key, join_by_key
from logs import log_of, pairs_of, wanted_of

FILES = 8


def written(directory, log):
    """Writes the log into files of JSON lines, and gives their paths."""
    directory.mkdir()
    for number in range(FILES):
        lines = [json.dumps({"doc": key, "patch": json.loads(text)}) for key, text in log[number::FILES]]
        (directory / f"log-{number}.jsonl").write_text("\n".join(lines) + "\n", "utf-8")
    return sorted(map(str, directory.glob("log-*.jsonl")))


def read(path):
    """Gives the patches of a file, each with its document, and by which host it was read."""
    with open(path, encoding="utf-8") as lines:
        entries = [json.loads(line) for line in lines]
    return [(it["doc"], json.dumps(it["patch"])) for it in entries], get_worker().address.split(":")[1].strip("/")


def main(address, directory, *hosts):
    log = log_of(random.Random(5), 2000)
    paths = written(pathlib.Path(directory), log)
    with Client(address, timeout=60) as client:
        client.wait_for_workers(len(hosts), timeout=60)
        workers = {it.split(":")[1].strip("/"): it for it in client.scheduler_info()["workers"]}
        parts = [client.submit(read, path, workers=workers[host], pure=False) for path in paths for host in hosts]
        readers = collections.Counter(client.gather([client.submit(lambda part: part[1], part) for part in parts]))
        bag = dask.bag.from_delayed([client.submit(lambda part: part[0], part) for part in parts])
        made = [join_by_key(bag), join_by_key(bag, 5, 2), conflicts_by_key(bag, 4)]
        seen = [sorted(future.result(timeout=100)) for future in client.compute(made)]
    joins, pairs = sorted(wanted_of(log).items()), sorted(pairs_of(log).items())
    is_same = seen == [joins, joins, pairs]
    print(f"{len(log)} patches of {len(joins)} documents, each read on {len(readers)} hosts: {'one result' if is_same else 'another'}")
    return 0 if is_same and readers == {host: FILES for host in hosts} else 1


if __name__ == "__main__":
    sys.exit(main(*sys.argv[1:]))
