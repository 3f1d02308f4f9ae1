"""The recipes of docs/POSTGRESQL.md, as the page prints them. Beside senders and several compactions at once, some of which are ended in the
middle, no patch that was acknowledged is lost: it is in the log, or in what is compacted. A document whose patches conflict or are none,
or whose start is none, changes nothing for the others: neither in a compaction nor in the view.
"""

import contextlib
import itertools
import json
import re
import threading
import time

import pytest
from calls import TOP
from server import quoted

PAGE = (TOP / "docs/POSTGRESQL.md").read_text("utf-8")
SECONDS, SENDERS, COMPACTORS = 5, 4, 3
ENDED = "SELECT pg_terminate_backend(pid) FROM pg_stat_activity WHERE query = 'CALL compact();' AND state = 'active' ORDER BY random() LIMIT 1"


def block(words):
    """Gives the statements of the page that have some words, but not what is asked and called at their end."""
    statements = next(it for it in re.findall(r"^```sql\n(.*?)^```$", PAGE, re.M | re.S) if words in it)
    return re.sub(r"(?:^(?:SELECT|CALL)[^;]*;\n)+\Z", "", statements, flags=re.M)


def begun(server, database):
    """Makes a database with the tables and the procedure of the page."""
    made = f"CREATE DATABASE {database};\n\\c {database}\nCREATE EXTENSION mergejoin;\n{block('CREATE TABLE log')}{block('PROCEDURE compact')}"
    assert server.ask(made) == ""


def rows_of(server, database, query):
    """Gives the rows of a query, each of which is one JSON text."""
    return list(map(json.loads, server.ask(f"{query};\n", database).splitlines()))


class Session:
    """A session that answers statements one after another, until it is ended."""

    def __init__(self, server, database):
        self.process = server.begin("-v", "VERBOSITY=sqlstate", database)

    def ask(self, statement):
        """Gives what is printed, or None if the session has ended."""
        try:
            self.process.stdin.write(f"{statement};\n\\echo == parted ==\n")
            self.process.stdin.flush()
        except BrokenPipeError:
            return None
        lines = []
        while (line := self.process.stdout.readline()) not in ("== parted ==\n", ""):
            lines.append(line)
        return "".join(lines) if line and "connection" not in "".join(lines) else None

    def end(self):
        with contextlib.suppress(BrokenPipeError):
            self.process.communicate(timeout=60)


class Work:
    """Senders and compactors, each with sessions of its own, until the time is over."""

    def __init__(self, server, database):
        self.server, self.database, self.end = server, database, time.monotonic() + SECONDS
        self.sent, self.said, self.ended = [], [], 0

    def is_on(self):
        return time.monotonic() < self.end

    def send(self, sender):
        """Each patch has a member of its own. Some documents are new, so that each begins under several compactions, and others stay. No sender
        is so fast that compactions are behind: what is lost then comes between two of them."""
        session = Session(self.server, self.database)
        for number in itertools.takewhile(lambda _: self.is_on(), itertools.count()):
            document, name = f"new {number // 40}" if number % 2 else f"old {number % 6}", f"{sender} {number}"
            patch = quoted(json.dumps({name: number}))
            if session.ask(f"INSERT INTO log (doc, patch) VALUES ('{document}', {patch})") == "":
                self.sent.append((document, name))
            time.sleep(0.005)
        session.end()

    def compact(self):
        """A session that was ended is followed by another one."""
        session = Session(self.server, self.database)
        while self.is_on():
            said = session.ask("CALL compact()")
            self.said += re.findall("^(?:ERROR|FATAL): .*", said or "", re.M)
            if said is None:
                session.end()
                session = Session(self.server, self.database)
        session.end()

    def end_some(self):
        session = Session(self.server, self.database)
        while self.is_on():
            self.ended += session.ask(ENDED) == "t\n"
            time.sleep(0.05)
        session.end()

    def run(self):
        threads = [threading.Thread(target=self.send, args=(sender,)) for sender in range(SENDERS)]
        threads += [threading.Thread(target=it) for it in [self.compact] * COMPACTORS + [self.end_some]]
        for thread in threads:
            thread.start()
        for thread in threads:
            thread.join()


STUCK = [("torn", {"v": 1}), ("torn", {"v": 2}), ("bad", {"price": 9}), ("bad", {"price": 9.5}), ("late", {"v": 1})]


@pytest.fixture(name="work", scope="module")
def what_was_sent_while_it_was_compacted(server):
    """The oldest rows of all conflict, or are no patches. A later one conflicts with what is compacted."""
    begun(server, "worked")
    rows = ", ".join(f"('{document}', {quoted(json.dumps(patch))})" for document, patch in STUCK)
    assert server.ask(f"INSERT INTO compacted VALUES ('late', '{{\"v\":2}}');\nINSERT INTO log (doc, patch) VALUES {rows};\n", "worked") == ""
    work = Work(server, "worked")
    work.run()
    work.left = rows_of(server, "worked", "SELECT json_build_array(doc, patch) FROM log ORDER BY number")
    work.compacted = dict(rows_of(server, "worked", "SELECT json_build_array(doc, patch) FROM compacted"))
    work.last = server.ask("CALL compact();\n", "-v", "VERBOSITY=default", "worked")
    yield work
    assert server.ask("DROP DATABASE worked;\n") == ""


def test_no_patch_that_was_acknowledged_is_lost(work):
    there = {(document, name) for document, patch in work.left for name in patch}
    there |= {(document, name) for document, patch in work.compacted.items() for name in patch}
    assert len(work.sent) > 200 and work.ended > 3 and len(work.compacted) > 4
    assert [it for it in work.sent if it not in there] == []


def test_no_compaction_fails_but_those_that_are_ended(work):
    assert set(work.said) <= {"FATAL:  57P01"}


def test_documents_that_conflict_or_have_no_patch_stay_and_stop_no_other(server, work):
    assert work.last == 'NOTICE:  "bad" stays: patch 0: number not whole at "/price"\n' \
        'NOTICE:  "late" stays: conflict: patches 0 and 1 at "/v"\nNOTICE:  "torn" stays: conflict: two patches at "/v"\n'
    assert sorted(rows_of(server, "worked", "SELECT json_build_array(doc, patch) FROM log"), key=str) == sorted(map(list, STUCK), key=str)
    compacted = dict(rows_of(server, "worked", "SELECT json_build_array(doc, patch) FROM compacted"))
    assert compacted.pop("late") == {"v": 2} and set(compacted) == {document for document, _ in work.sent}


def test_a_session_waits_for_no_document_that_another_compacts(server):
    begun(server, "waited")
    assert server.ask("INSERT INTO log (doc, patch) VALUES ('a', '1'), ('b', '1');\n", "waited") == ""
    other = Session(server, "waited")
    other.ask("BEGIN")
    assert other.ask("SELECT pg_try_advisory_xact_lock('compacted'::regclass::int, hashtext('a'))") == "t\n"
    assert server.ask("SET lock_timeout = '1s';\nCALL compact();\nSELECT doc FROM log;\nSELECT doc FROM compacted;\n", "waited") == "a\nb\n"
    other.end()
    assert server.ask("CALL compact();\nSELECT count(*) FROM log;\nSELECT count(*) FROM compacted;\nDROP TABLE log;\n", "waited") == "0\n2\n"


DEEPEST = "[" * 126 + "]" * 126
STARTS = {"plain": '{"n": 1}', "torn": "{}", "bad": "{}", "deep": "{}", "strange": "{}", "alone": '{"n": 2}', "wrong": "1.5"}
PATCHES = [("plain", '{"n": null, "m": 1}'), ("torn", '{"v": 1}'), ("torn", '{"v": 2}'), ("bad", "9.5"), ("deep", DEEPEST),
           ("strange", '{"a": "\\u0000"}')]
SHOWN = {"plain": ('{"m":1}', ""), "torn": ("", 'conflict: patches 0 and 1 at "/v"'), "bad": ("", 'patch 0: number not whole at ""'), "deep": (DEEPEST, ""),
         "strange": ('{"a":"\\u0000"}', ""), "alone": ('{"n":2}', ""), "wrong": ("", 'document: number not whole at ""')}


def test_the_view_shows_each_document_or_its_error(server):
    begun(server, "viewed")
    made = re.sub(r"^INSERT .*\n", "", block("CREATE VIEW shown"), flags=re.M)
    rows = "".join(f"INSERT INTO start VALUES ('{document}', {quoted(text)});\n" for document, text in STARTS.items())
    rows += "".join(f"INSERT INTO log (doc, patch) VALUES ('{document}', {quoted(text)});\n" for document, text in PATCHES)
    assert server.ask(made + rows, "viewed") == ""
    wanted = "".join(f"{document}|{shown}|{error}\n" for document, (shown, error) in sorted(SHOWN.items()))
    for before in ("", "CALL compact();\n"):
        assert server.ask(f"SET client_min_messages = warning;\n{before}SELECT * FROM shown ORDER BY doc;\n", "viewed") == wanted
