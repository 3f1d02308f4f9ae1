#!/usr/bin/env python3
"""A replica of documents in a file of SQLite:

    replica.py FILE start DOC TEXT    the document that all replicas of DOC begin with
    replica.py FILE receive           stores patches, each a line with DOC, a tab and the patch, and acknowledges it by that line
    replica.py FILE show DOC

What is not stored is reported on standard error, and the status is 1 at the end.
"""
import sqlite3
import sys

import mergejoin.sqlite

LONGEST = 1_000_000  # bytes of a line
TABLES = """PRAGMA journal_mode = WAL; PRAGMA synchronous = FULL;
CREATE TABLE IF NOT EXISTS starts (doc TEXT PRIMARY KEY, start TEXT NOT NULL) WITHOUT ROWID;
CREATE TABLE IF NOT EXISTS patches (doc TEXT, patch TEXT, PRIMARY KEY (doc, patch)) WITHOUT ROWID;"""
SHOWN = """SELECT coalesce(mergejoin_replay(start, mergejoin_agg(patch)), start)
FROM starts LEFT JOIN patches USING (doc) WHERE doc = ? GROUP BY doc"""


def store(db, line):
    doc, tab, patch = line.partition(b"\t")
    if not tab or not line.endswith(b"\n"):
        raise ValueError(f"no tab in it, no newline after it, or more than {LONGEST} bytes")
    db.execute("INSERT OR IGNORE INTO patches VALUES (?, mergejoin_join(?))", (doc.decode(), patch))


def receive(db):
    number, status, is_first = 0, 0, True  # is_first: the piece begins a line
    for piece in iter(lambda: sys.stdin.buffer.readline(LONGEST), b""):
        number += is_first
        try:
            if is_first:
                store(db, piece)
                sys.stdout.buffer.write(piece)  # it is committed, and on disk
                sys.stdout.buffer.flush()
        except (sqlite3.Error, ValueError, MemoryError) as error:
            print(f"line {number}: {error!a}", file=sys.stderr)
            status = 1
        is_first = piece.endswith(b"\n")
    return status


file, command, *rest = sys.argv[1:]
db = sqlite3.connect(file, timeout=60, isolation_level=None)
mergejoin.sqlite.load(db)
db.executescript(TABLES)
if command == "start":
    db.execute("INSERT OR IGNORE INTO starts VALUES (?, mergejoin_merge(?))", rest)
    if not db.execute("SELECT start = mergejoin_merge(?2) FROM starts WHERE doc = ?1", rest).fetchone()[0]:
        sys.exit(f"another start: {rest[0]!a}")
elif command == "receive":
    sys.exit(receive(db))
else:
    shown = db.execute(SHOWN, rest).fetchone()
    print(shown[0] if shown else sys.exit(f"no start: {rest[0]!a}"))
