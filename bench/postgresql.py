#!/usr/bin/env python3
"""Prints the tables of docs/POSTGRESQL.md, in a server of its own: the processor's time of one process for each patch, by each
aggregate, for each row of a sliding frame, and for a call on a document, beside what PostgreSQL has; the seconds by the clock with
workers; and the memory of groups:

    bench/postgresql.py [PATCHES]

The library has to be there (bin/library), and the headers and the programs of a PostgreSQL server. There are 1,000,000 patches of
42 bytes if no number is given, of ten thousand documents, grouped by hashing. Nothing else should run on the machine.
"""

import os
import pathlib
import re
import sys
import time

TOP = pathlib.Path(__file__).resolve().parents[1]
sys.path[:0] = [str(TOP / "tests" / part) for part in ("common", "bindings/postgresql")]
from server import lacking, running

DOCUMENTS = 10_000
AGGREGATES = {
    "`count(patch)`, for comparison": "count(patch)",
    "`string_agg(patch::text, ',')`, for comparison": "string_agg(patch::text, ',')",
    "`mergejoin_join(VARIADIC array_agg(patch))`, `json`": "mergejoin_join(VARIADIC array_agg(patch))",
    "`mergejoin_agg(patch)`, `json`": "mergejoin_agg(patch)",
    "`mergejoin_agg(patch)`, `jsonb`": "mergejoin_agg(binary_patch)",
    "an aggregate over the function of `||`, `jsonb`": "concat_agg(binary_patch)",
}
MADE = """
CREATE EXTENSION mergejoin;
CREATE AGGREGATE concat_agg(jsonb) (SFUNC = jsonb_concat, STYPE = jsonb, INITCOND = '{{}}');
CREATE TABLE patches AS SELECT doc, text::json AS patch, text::jsonb AS binary_patch FROM (
  SELECT (n::bigint * 7919) % {documents} AS doc, format('{{"k%s":{{"name":"value","n":%s}}}}', lpad(n::text, 7, '0'), 1000000 + n) AS text
  FROM generate_series(0, {count} - 1) AS n) AS texts;
ANALYZE patches;
"""
# Each says of a document of 100 members, of some 4 kB, as json or jsonb, what one call gives.
CALLS = {
    "`json #> '{k50,name}'`": "patch #> '{k50,name}'",
    "`mergejoin_get`, `json`": "mergejoin_get(patch, '/k50/name')",
    "`jsonb #> '{k50,name}'`": "binary_patch #> '{k50,name}'",
    "`mergejoin_get`, `jsonb`": "mergejoin_get(binary_patch, '/k50/name')",
    "`mergejoin_merge`, `json`": "mergejoin_merge(patch, '{\"k50\": {\"n\": 1}}')",
    "`jsonb || '{\"k50\": {\"n\": 1}}'`": "binary_patch || '{\"k50\": {\"n\": 1}}'",
    "`mergejoin_merge`, `jsonb`": "mergejoin_merge(binary_patch, '{\"k50\": {\"n\": 1}}')",
}
TIMES = 20_000
DOCUMENT = """
CREATE TABLE document AS SELECT patch, patch::jsonb AS binary_patch FROM (
  SELECT json_object_agg('k' || n, json_build_object('name', 'value', 'n', n)) AS patch FROM generate_series(1, 100) AS n) AS made;
"""
# How groups are made: as the planner has it if nothing is set, and with all of them in memory.
WAYS = {"by sorting": "SET enable_hashagg = off;", "by hashing": "RESET enable_hashagg; SET enable_sort = off; SET work_mem = '3GB';"}
CALLED = "SELECT count({}) FROM document, generate_series(1, {});"
# A frame of 501 rows, which slides over 3,000.
SLIDING = "SELECT count(answer) FROM (SELECT {}(patch) OVER (ORDER BY doc ROWS 500 PRECEDING) AS answer FROM patches LIMIT 3000) AS answers;"
ROWS = 3000
MEMORY = "EXPLAIN (ANALYZE, TIMING OFF, FORMAT JSON) SELECT mergejoin_agg(patch) FROM (SELECT doc, patch FROM patches LIMIT {}) AS first_rows GROUP BY {};"
GROUPED = "SELECT count(answer), sum(length(answer::text)) FROM (SELECT {} AS answer FROM patches GROUP BY doc OFFSET 0) AS answers;"


class Session:
    """A session of psql that answers one statement after another."""

    def __init__(self, server):
        self.process = server.begin()
        self.pid = self.ask("SELECT pg_backend_pid();")[-1]

    def ask(self, statements):
        """Gives the lines that are printed for statements."""
        self.process.stdin.write(f"{statements}\n\\echo end of it\n")
        self.process.stdin.flush()
        lines = []
        while (line := self.process.stdout.readline()) != "end of it\n":
            if not line or "ERROR" in line:
                sys.exit(f"postgresql: {line or lines}")
            lines.append(line.rstrip("\n"))
        return lines

    def used(self):
        """The time that the processor gave the process of the server for this connection."""
        words = pathlib.Path(f"/proc/{self.pid}/stat").read_text("ascii").rpartition(")")[2].split()
        return (int(words[11]) + int(words[12])) / os.sysconf("SC_CLK_TCK")

    def used_by(self, statement):
        """Gives the seconds of the processor that a statement takes."""
        begun = self.used()
        self.ask(statement)
        return self.used() - begun


def tell(session, title, statement, calls, count):
    """Prints a table of calls: the time of each on each of so many rows."""
    print(f"\n| {title} | each | in all |\n|---|---:|---:|")
    for what, call in calls.items():
        seconds = session.used_by(statement.format(call, count))
        print(f"| {what} | {seconds / count * 1e6:.1f} us | {seconds:.1f} s |", flush=True)


def tell_memory(session):
    """Prints what the groups of patches take while they are grouped, of one patch each and of a hundred."""
    print("\n| patches of a group | kB of a group |\n|---:|---:|")
    for size, key in ((1, "patch::text"), (100, "doc")):
        groups = 10_000 if size == 1 else DOCUMENTS
        said = "".join(session.ask(MEMORY.format(groups * size, key)))
        most = max(map(int, re.findall(r'Peak Memory Usage": (\d+)', said)))
        print(f"| {size} | {most / groups:.2f} |", flush=True)


def main(count):
    with running() as server:
        server.install()
        session = Session(server)
        session.ask(MADE.format(documents=DOCUMENTS, count=count) + DOCUMENT)
        for way, setting in WAYS.items():
            session.ask(setting)
            tell(session, f"aggregate over groups, {way}", GROUPED, AGGREGATES, count)
        tell(session, "aggregate over a sliding frame", SLIDING, {f"`{name}`": name for name in ("json_agg", "mergejoin_agg")}, ROWS)
        tell(session, "call on a document", CALLED, CALLS, TIMES)
        tell_memory(session)
        print("\n| workers | seconds by the clock |\n|---:|---:|")
        for workers in (0, 1, 2):
            session.ask(f"SET max_parallel_workers_per_gather = {workers};")
            begun = time.perf_counter()
            session.ask(GROUPED.format("mergejoin_agg(patch)"))
            print(f"| {workers} | {time.perf_counter() - begun:.1f} |", flush=True)
        session.process.stdin.close()
        session.process.wait()


if __name__ == "__main__":
    if reason := lacking():
        sys.exit(f"postgresql: {reason}")
    main(int(sys.argv[1]) if sys.argv[1:] else 1_000_000)
