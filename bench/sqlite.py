#!/usr/bin/env python3
"""Prints the tables of docs/SQLITE.md: the processor's time for each patch, of the aggregates next to the package for Python over sqlite3,
to Python alone and to json_patch; of a moving frame; and of ways to receive a patch:

    PYTHONPATH=FOLDER /usr/bin/python3 bench/sqlite.py [PATCHES]

FOLDER has the package mergejoin with the extension for SQLite, as bin/package packs it (`pip install --target FOLDER` of its wheel). There are
1,000,000 patches of 42 bytes if no number is given, of a thousand documents, and then of one. The database is in memory. Each line has a
process of its own, whose memory at the peak is that beyond the database.
"""

import itertools
import multiprocessing
import pathlib
import re
import sqlite3
import sys
import time

sys.path.insert(0, str(pathlib.Path(__file__).resolve().parents[1] / "bench"))
import mergejoin
import mergejoin.sqlite
import python as alone

DOCUMENTS = 1_000
IN_ORDER = "SELECT doc, patch FROM patches ORDER BY doc"


def patches(count, documents):
    """Gives rows of patches, each of which says something of its own, the documents by turns."""
    return ((number * 7919 % documents, f'{{"k{number:07}":{{"name":"value","n":{1_000_000 + number}}}}}') for number in range(count))


def database(count, documents):
    connection = sqlite3.connect(":memory:", isolation_level=None)
    mergejoin.sqlite.load(connection)
    connection.execute("CREATE TABLE patches (doc, patch, PRIMARY KEY (doc, patch)) WITHOUT ROWID")
    connection.execute("BEGIN")
    connection.executemany("INSERT INTO patches VALUES (?, ?)", patches(count, documents))
    connection.execute("COMMIT")
    return connection


def by_sql(aggregate):
    """Gives what asks for an answer of each document."""
    return lambda connection: connection.execute(f"SELECT sum(length(it)) FROM (SELECT {aggregate} AS it FROM patches GROUP BY doc)").fetchone()[0]


def by_python(join):
    """Gives what joins the texts of each document outside of SQLite."""
    def joined(connection):
        groups = itertools.groupby(connection.execute(IN_ORDER), key=lambda row: row[0])
        return sum(len(join([patch for _, patch in rows])) for _, rows in groups)
    return joined


def by_patch(connection):
    """Applies each patch to the text of its document, by SQLite's own function."""
    connection.execute("CREATE TEMPORARY TABLE shown (doc PRIMARY KEY, text) WITHOUT ROWID")
    connection.execute("INSERT INTO shown SELECT doc, patch FROM patches WHERE true ON CONFLICT DO UPDATE SET text = json_patch(text, excluded.text)")
    return connection.execute("SELECT sum(length(text)) FROM shown").fetchone()[0]


AGGREGATES = {
    "`count(patch)`, for comparison": (by_sql("count(patch)"), 1),
    "`group_concat(patch)`, for comparison": (by_sql("group_concat(patch)"), 1),
    "`mergejoin_agg(patch)`": (by_sql("mergejoin_agg(patch)"), 1),
    "`mergejoin_conflict_agg(patch)`": (by_sql("mergejoin_conflict_agg(patch)"), 1),
    "`mergejoin.join` in Python of the rows of each document": (by_python(mergejoin.join), 1),
    "Python alone of the same rows": (by_python(alone.join), 1),
    "`json_patch` on each patch, of a tenth of the documents": (by_patch, 10),
}

# What is asked of one document with all patches, too.
ONE = [name for name in AGGREGATES if "mergejoin" in name]
# Ways to receive a patch.
RECEIVED = ["UPDATE joined SET patch = mergejoin_join(patch, ?)", "INSERT OR IGNORE INTO patches VALUES (1, mergejoin_join(?))"]


def frame(length):
    """Gives what joins a moving frame of so many rows."""
    window = f"(ORDER BY patch ROWS {length - 1} PRECEDING)"
    return lambda connection: connection.execute(f"SELECT sum(length(it)) FROM (SELECT mergejoin_agg(patch) OVER {window} AS it FROM patches)").fetchone()[0]


def memory_of(word):
    """Gives how many kB of memory this process has, or has had at the most."""
    return int(re.search(rf"^{word}:\s+(\d+) kB", pathlib.Path("/proc/self/status").read_text("ascii"), re.M)[1])


def taken(work, count, documents):
    """Gives the seconds of the processor, and the kB of memory that are added, of some work on a database of its own; run in a process."""
    connection = database(count, documents)
    pathlib.Path("/proc/self/clear_refs").write_text("5", "ascii")  # the most is what there is now
    before, begun = memory_of("VmRSS"), time.process_time()
    work(connection)
    return time.process_time() - begun, memory_of("VmHWM") - before


def alone_in_a_process(*given):
    """Forks, so that work may be a function of any kind, and gives what that takes."""
    here, there = multiprocessing.Pipe()
    process = multiprocessing.get_context("fork").Process(target=lambda: there.send(taken(*given)))
    process.start()
    answer = here.recv()
    process.join()
    return answer


def one_by_one(statement, count):
    """Gives the seconds that each of so many patches takes by a statement that receives it."""
    connection = database(0, 1)
    connection.execute("CREATE TABLE joined (patch)")
    connection.execute("INSERT INTO joined VALUES ('{}')")
    for _, patch in patches(count, 1):
        begun = time.process_time()
        connection.execute(statement, (patch,))
        yield time.process_time() - begun


def print_aggregates(title, works, count, documents):
    print(f"| {title} | a patch | in all | memory |\n|---|---:|---:|---:|")
    for what, (work, part) in works.items():
        seconds, memory = alone_in_a_process(work, count // part, documents // part)
        print(f"| {what} | {seconds / count * part * 1e6:.1f} us | {seconds:.1f} s | {memory / 1024:.1f} MB |", flush=True)


def main(count):
    print_aggregates(f"of each of {DOCUMENTS:,} documents", AGGREGATES, count, DOCUMENTS)
    print()
    print_aggregates("of one document", {name: AGGREGATES[name] for name in ONE}, count, 1)
    print("\n| rows of a moving frame | a row |\n|---:|---:|")
    for length in (1, 10, 100, 1_000):
        rows = max(2 * length, 50_000 // length)  # in addition to those until the frame moves
        growing, moving = (alone_in_a_process(frame(length), number, 1)[0] for number in (length, length + rows))
        print(f"| {length:,} | {(moving - growing) / rows * 1e6:,.0f} us |", flush=True)
    print("\n| patches so far | joined with the join so far | inserted |\n|---:|---:|---:|")
    times = [list(one_by_one(statement, 4_000)) for statement in RECEIVED]
    for number in (100, 1_000, 2_000, 4_000):
        print(f"| {number:,} |", *(f"{sum(each[number - 50 : number]) / 50 * 1e6:,.0f} us |" for each in times), flush=True)


if __name__ == "__main__":
    main(int(sys.argv[1]) if sys.argv[1:] else 1_000_000)
