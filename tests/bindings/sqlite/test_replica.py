"""The replica that docs/SQLITE.md shows is a process, which is killed at random points, as is another one that receives at the same time. What
they acknowledged is there, the database is whole, and in the end it shows what one replay of all patches gives.
"""

import json
import random
import signal
import subprocess
import time

import pytest
from calls import TOP
from sqlite_extension import connected

REPLICA = TOP / "bindings/sqlite/replica.py"
DATABASES, KILLS = 20, 3


class Replica:
    """A database in a file, with two processes that receive, each of which is killed now and then."""

    def __init__(self, python, extension, directory, seed):
        self.python, self.extension, self.file, self.chance = python, extension, directory / "replica.db", random.Random(seed)
        self.acknowledged = set()
        self.run("start", "notes", '{"n0":"start","kept":[1]}')

    def words(self, *words):
        return [self.python, "-I", REPLICA, self.file, *words]

    def run(self, *words):
        done = subprocess.run(self.words(*words), capture_output=True, text=True, check=True)
        return done.stdout

    def patches(self):
        """Gives lines of patches that say parts of one value, some of which remove what the start has."""
        whole = {f"n{number}": self.chance.choice([None, number, "é\\", {"a": number, "b": {"c": None}}]) for number in range(30)}
        parts = ({name: whole[name] for name in self.chance.sample(sorted(whole), 3)} for _ in range(120))
        return [f"notes\t{json.dumps(it, ensure_ascii=False)}\n" for it in parts]

    def receive(self, lines, killed_after):
        """Gives lines to a process, reads what it acknowledges, and kills it after so many, or waits for its end."""
        with open(self.file.with_name("lines"), "w+", encoding="utf-8") as given:
            given.writelines(lines)
            given.seek(0)
            with subprocess.Popen(self.words("receive"), stdin=given, stdout=subprocess.PIPE, text=True, encoding="utf-8") as process:
                for number, line in enumerate(process.stdout):
                    self.acknowledged.add(line)
                    if number == killed_after:
                        time.sleep(self.chance.random() * 0.002)
                        process.kill()
                return process.wait()

    def other(self, lines):
        """Begins another process that receives lines, and waits for its first acknowledgement."""
        process = subprocess.Popen(self.words("receive"), stdin=subprocess.PIPE, stdout=subprocess.PIPE, text=True, encoding="utf-8")
        process.stdin.writelines(lines)
        process.stdin.flush()
        self.acknowledged.add(process.stdout.readline())
        return process

    def kill(self, process):
        """Kills the other process. A line that it had not written to its end is not acknowledged."""
        time.sleep(self.chance.random() * 0.004)
        with process:
            process.kill()
            self.acknowledged.update(it for it in process.stdout if it.endswith("\n"))
        assert process.returncode == -signal.SIGKILL

    def has_all(self):
        """The database is whole, and what was acknowledged is part of its join."""
        connection = connected(self.extension, self.file)
        assert connection.execute("PRAGMA integrity_check").fetchall() == [("ok",)]
        (joined,) = connection.execute("SELECT mergejoin_agg(patch) FROM patches").fetchone()
        for line in self.acknowledged:
            assert connection.execute("SELECT mergejoin_join(?, ?)", (joined, line.partition("\t")[2])).fetchone() == (joined,)
        connection.close()


@pytest.mark.parametrize("seed", range(DATABASES))
def test_a_replica_that_is_killed_has_what_it_acknowledged(python, extension, tmp_path, seed):
    replica = Replica(python, extension, tmp_path, seed)
    lines = replica.patches()
    for _ in range(KILLS):
        other = replica.other(replica.chance.sample(lines, len(lines)))
        some = replica.chance.choices(lines, k=60)
        assert replica.receive(some, replica.chance.randrange(40)) in (0, -signal.SIGKILL)
        replica.kill(other)
        replica.has_all()
    again = replica.chance.sample(lines, len(lines)) + replica.chance.choices(lines, k=30)
    assert replica.receive(again, None) == 0 and replica.acknowledged == set(lines)
    replica.has_all()
    given = json.dumps([it.partition("\t")[2] for it in lines])
    replayed = "import json, sys, mergejoin; print(mergejoin.replay('{\"n0\":\"start\",\"kept\":[1]}', json.loads(sys.argv[1])))"
    wanted = subprocess.run([python, "-I", "-c", replayed, given], capture_output=True, text=True, check=True).stdout
    assert replica.run("show", "notes") == wanted
