#!/usr/bin/env python3
"""Prints the table of docs/MANY-MACHINES.md: what join_by_key of mergejoin.dask takes on clusters of 1, 2 and 4 processes, next
to a plain loop that joins the texts of each document in one process:

    PYTHONPATH=FOLDER /usr/bin/python3 bench/machines.py [PATCHES [FILES [LOG..]]]

FOLDER has the package mergejoin (`pip install --target FOLDER` of its wheel). The logs that are named, or all four, have so many
patches, of 30 to 40 bytes each, in so many files; 2,000,000 and 16 without it:

    spread  1,000 documents, each with patches in all files
    keys    a document for each 2 patches, in any files
    hot     as spread, but one document has half of the patches
    same    1,000 documents, each with all patches in one file

A figure is the least of five runs. It has the reading of the files, and ends when the joins are there, in the workers or in the
loop. The time of the processor is that of all workers and of the scheduler, but not of their start. The ideal is that time, shared
among the workers, but for the joining of the largest document. No two workers can share that, and it begins when all texts are read.
Memory is the most that was resident in a worker in all of its runs. Each result is compared with that of the loop. Below the table
are what a worker has before, and how long a task takes that moves nothing. Nothing else should run on the machine.
"""

import contextlib
import pathlib
import random
import sys
import tempfile
import time

import dask.bag
from dask.distributed import Client, LocalCluster, wait

import mergejoin
from mergejoin.dask import join_by_key

LOGS = ("spread", "keys", "hot", "same")
DOCUMENTS, RUNS, WORKERS = 1_000, 5, (1, 2, 4)
PATCHES, FILES = 2_000_000, 16
EMPTY = 100  # partitions and shares without texts


def documents_of(kind, count, chance):
    """Gives the number of the document of each patch of a log."""
    if kind == "keys":
        numbers = [number // 2 for number in range(count)]
        chance.shuffle(numbers)
        return numbers
    return [0 if kind == "hot" and number % 2 else chance.randrange(DOCUMENTS) for number in range(count)]


def written(directory, kind, count, file_count):
    """Writes a log, a key and a patch a line, and gives its files."""
    chance, files = random.Random(1), [[] for _ in range(file_count)]
    for number, document in enumerate(documents_of(kind, count, chance)):
        file = document % file_count if kind == "same" else chance.randrange(file_count)
        files[file].append(f'doc{document}\t{{"k{number}":{{"name":"value","n":{number}}}}}\n')
    directory.mkdir()
    for number, lines in enumerate(files):
        (directory / f"log-{number}").write_text("".join(lines), "utf-8")
    return sorted(map(str, directory.iterdir()))


def keyed(line):
    key, _, text = line.rstrip("\n").partition("\t")
    return key, text


def entries(paths):
    """Gives the key and the patch of each line of files."""
    for path in paths:
        with open(path, encoding="utf-8") as lines:
            yield from map(keyed, lines)


def nothing(items):
    return []


def plain(paths):
    """Gives the joins, and the most seconds that one of them took."""
    texts, joins, longest = {}, {}, 0.0
    for path in paths:
        with open(path, encoding="utf-8") as lines:
            for key, text in map(keyed, lines):
                texts.setdefault(key, []).append(text)
    for key, given in texts.items():
        begun = time.perf_counter()
        joins[key] = mergejoin.join(given)
        longest = max(longest, time.perf_counter() - begun)
    return joins, longest


def of_loop(paths):
    """Gives the least seconds of the plain loop: of the processor, of the clock, and of its longest join; and the joins."""
    runs = []
    for _ in range(RUNS):
        begun, clock = time.process_time(), time.perf_counter()
        joins, longest = plain(paths)
        runs.append((time.process_time() - begun, time.perf_counter() - clock, longest))
    return [min(them) for them in zip(*runs)], joins


def resident():
    """Gives the most bytes that were resident in this process."""
    status = pathlib.Path("/proc/self/status").read_text("utf-8")
    return 1024 * int(status.split("VmHWM:")[1].split()[0])


@contextlib.contextmanager
def cluster_of(workers):
    with LocalCluster(n_workers=workers, threads_per_worker=1, processes=True, dashboard_address=None) as cluster, \
            Client(cluster) as client:
        yield client


def of_cluster(paths, workers, joins):
    """Gives the least seconds of a cluster, of the processor and of the clock, and the most bytes of a worker."""
    times = []
    with cluster_of(workers) as client:
        for _ in range(RUNS):
            before = time.process_time() + sum(client.run(time.process_time).values())
            clock = time.perf_counter()
            kept = join_by_key(dask.bag.from_sequence(paths, npartitions=len(paths)).map_partitions(entries)).persist()
            wait(kept)
            clock = time.perf_counter() - clock
            times.append((time.process_time() + sum(client.run(time.process_time).values()) - before, clock))
            most = max(client.run(resident).values())
            seen = kept.compute()
            if len(seen) != len(joins) or dict(seen) != joins:
                sys.exit("join_by_key gives another result")
            del kept, seen
    return [min(them) for them in zip(*times)], most


def of_nothing():
    """Gives the most bytes of a worker that has joined one text, and the seconds of the clock of a task that moves nothing."""
    with cluster_of(max(WORKERS)) as client:
        join_by_key(dask.bag.from_sequence([("a", "{}")])).compute()
        most = max(client.run(resident).values())
        bag = join_by_key(dask.bag.from_sequence([()] * EMPTY, npartitions=EMPTY).map_partitions(nothing), EMPTY)
        clock = time.perf_counter()
        wait(bag.persist())
        return most, (time.perf_counter() - clock) / len(dict(bag.dask))


def main(count, file_count, kinds):
    print("| log | workers | us of the processor for a patch | over the loop | seconds | over the ideal | MB of a worker |")
    print("|---|---:|---:|---:|---:|---:|---:|")
    with tempfile.TemporaryDirectory() as name:
        for kind in kinds:
            paths = written(pathlib.Path(name) / kind, kind, count, file_count)
            (loop, clock, longest), joins = of_loop(paths)
            print(f"| {kind} | the loop | {loop / count * 1e6:.1f} | | {clock:.1f} | | |", flush=True)
            for workers in WORKERS:
                (used, seconds), most = of_cluster(paths, workers, joins)
                over = [used / loop, seconds / ((used - longest) / workers + longest)]
                print(f"| {kind} | {workers} | {used / count * 1e6:.1f} | {over[0]:.2f} | {seconds:.1f} | {over[1]:.2f} "
                      f"| {most / 1e6:.0f} |", flush=True)
    most, seconds = of_nothing()
    print(f"\nA worker has {most / 1e6:.0f} MB before. A task that moves nothing takes {seconds * 1e3:.2f} ms, "
          f"with {max(WORKERS)} workers.")


if __name__ == "__main__":
    numbers = [int(word) for word in sys.argv[1:3]] + [PATCHES, FILES][len(sys.argv[1:3]):]
    named = sys.argv[3:] or LOGS
    if not set(named) <= set(LOGS):
        sys.exit(f"a log is one of {', '.join(LOGS)}")
    main(numbers[0], numbers[1], named)
