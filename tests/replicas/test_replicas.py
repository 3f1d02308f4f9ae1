"""Replicas run as processes (replica.py), each with a box of mail and a patch log of the library: messages come late, twice and in
other orders, patches conflict, new starts are decided while patches are under way, and processes are killed and started again from
what they wrote down. At the end of each start all show the same document, which is what RFC 7396 makes of the old one and the
patches that it ends with, computed here. At each step a replica shows what that makes of the patches that conflict with no other, and
reports exactly those that do, computed here too; so wherever two have the same patches they show the same.
"""

import itertools
import json
import os
import pathlib
import random
import shutil
import subprocess
import sys
import time
import typing

import pytest
from model import merged, places

NAMES, EPOCHS, SECONDS = ["r0", "r1", "r2", "r3"], 12, 240
TIMES, LINES = 3, 25  # how often each process is killed, and after how many more lines of its log
each_epoch = pytest.mark.parametrize("epoch", range(EPOCHS))


class Post:
    """Brings each message to all, its sender too: at once or late, and some twice."""

    def __init__(self, workspace):
        self.workspace, self.chance, self.seen, self.under_way, self.count = workspace, random.Random(7), set(), [], 0

    def collect(self):
        """Takes what is new in the boxes, and decides how often it comes to each, and when."""
        sent = {path for name in NAMES for path in (self.workspace / name / "out").iterdir() if path.suffix != ".new"}
        for path, to in itertools.product(sorted(sent - self.seen), NAMES):
            late = (self.chance.choice([0, 0.01, 0.05, 0.2, 0.6]) for _ in range(self.chance.choice([1, 1, 1, 2, 3])))
            self.under_way += [(time.monotonic() + seconds, path, to) for seconds in late]
        self.seen = sent

    def bring(self):
        """Puts what is due into the boxes, by names that say in which order it comes, and nothing of when it was sent."""
        due = [message for message in self.under_way if message[0] <= time.monotonic()]
        self.under_way = [message for message in self.under_way if message not in due]
        self.chance.shuffle(due)
        for _, path, to in due:
            self.count += 1
            place = self.workspace / to / "in" / f"{self.count:06}"
            shutil.copy(path, place.with_suffix(".new"))
            place.with_suffix(".new").rename(place)


class Processes:
    """The replicas, each of which is killed and started again as often as it has gone on."""

    def __init__(self, workspace):
        self.workspace, self.running, self.before = workspace, {}, {name: [] for name in NAMES}
        for name in NAMES:
            self.start(name)

    def start(self, name):
        words = [sys.executable, pathlib.Path(__file__).with_name("replica.py"), name, self.workspace / name, str(EPOCHS)]
        self.running[name] = subprocess.Popen(words, env={**os.environ, "PYTHONPATH": os.pathsep.join(sys.path)})

    def are_running(self):
        """Whether some run, and none has failed."""
        statuses = {it.poll() for it in self.running.values()}
        return None in statuses and statuses <= {None, 0}

    def kill_some(self):
        """Kills those that have gone on far enough, and starts them again. What each had logged is kept."""
        for name in NAMES:
            wanted = LINES * (len(self.before[name]) + 1)
            if len(self.before[name]) < TIMES and self.logged(name).count("\n") >= wanted and self.running[name].poll() is None:
                self.running[name].kill()
                self.running[name].wait()
                self.before[name].append(self.logged(name))
                self.start(name)

    def logged(self, name):
        path = self.workspace / name / "log"
        return path.read_text() if path.exists() else ""

    def end(self):
        for it in self.running.values():
            it.kill()
        return [it.wait() for it in self.running.values()]


class Run(typing.NamedTuple):
    """The status of each, the lines that each logged, and what each had logged whenever it was killed; how many messages came, and the
    patches that were sent."""

    statuses: list
    logged: dict
    before: dict
    messages: int
    patches: dict


@pytest.fixture(name="ran", scope="module")
def replicas_that_ran_to_their_end(library, tmp_path_factory):
    workspace = tmp_path_factory.mktemp("replicas")
    for name, box in itertools.product(NAMES, ("in", "out")):
        (workspace / name / box).mkdir(parents=True)
    processes, post, end = Processes(workspace), Post(workspace), time.monotonic() + SECONDS
    while time.monotonic() < end and processes.are_running():
        post.collect()
        post.bring()
        processes.kill_some()
        time.sleep(0.005)
    statuses, logged = processes.end(), {name: processes.logged(name) for name in NAMES}
    sent = [json.loads(path.read_text()) for path in workspace.glob("*/out/?????")]
    patches = [((it["epoch"], *it["identity"]), it["patch"]) for it in sent if it["kind"] == "patch"]
    assert len({*patches}) == len(dict(patches)), "an identity has one patch"
    return Run(statuses, logged, processes.before, post.count, dict(patches))


@pytest.fixture(name="logs")
def what_each_replica_logged(ran):
    return [[json.loads(line) for line in text.splitlines()] for text in ran.logged.values()]


def same(logs, kind, epoch):
    """Gives what each replica logged of a kind in an epoch, which is the same of all."""
    first, *others = [line[2:] for log in logs for line in log if line[:2] == [kind, epoch]]
    assert others == [first] * (len(NAMES) - 1)
    return first


@each_epoch
def test_all_end_a_start_with_the_same_patches_and_show_what_they_make_of_it(logs, epoch):
    (start,), (_, patches, status), (after,) = same(logs, "start", epoch), same(logs, "ends", epoch), same(logs, "start", epoch + 1)
    document = json.loads(start)
    for text in random.Random(epoch).sample(patches, len(patches)):
        document = merged(document, json.loads(text))
    assert (status, json.loads(after)) == (0, document)


def expected(start, patches):
    """What a replica shows and reports of the patches under identities."""
    patches = {identity: json.loads(text) for identity, text in patches.items()}
    pairs = [{"first": list(one), "second": list(other), "places": places(patches[one], patches[other])}
             for one, other in itertools.combinations(sorted(patches), 2)]
    pairs = [pair for pair in pairs if pair["places"]]
    conflicting = [tuple(pair[which]) for pair in pairs for which in ("first", "second")]
    for identity, patch in patches.items():
        start = start if identity in conflicting else merged(start, patch)
    return start, pairs


@each_epoch
def test_each_shows_what_conflicts_with_no_other_and_reports_the_rest(ran, logs, epoch):
    (start,) = same(logs, "start", epoch)
    lines = {json.dumps(line[2:]) for log in logs for line in log if line[:2] == ["shown", epoch]}
    for identities, shown, pairs in map(json.loads, lines):
        patches = {tuple(it): ran.patches[(epoch, *it)] for it in identities}
        assert (json.loads(shown), json.loads(pairs)) == expected(json.loads(start), patches), identities


@each_epoch
def test_those_with_the_same_patches_show_the_same(logs, epoch):
    seen = {}
    for _, _, patches, *said in (line for log in logs for line in log if line[:2] == ["shown", epoch]):
        assert said == seen.setdefault(json.dumps(patches), said), patches


def test_patches_conflicted_and_were_left_out(logs):
    most = [max(len(patches) for kind, at, patches, *_ in logs[0] if (kind, at) == ("shown", epoch)) for epoch in range(EPOCHS)]
    assert sum(most) - sum(len(same(logs, "ends", epoch)[0]) for epoch in range(EPOCHS)) > EPOCHS
    assert any(json.loads(line[4]) for line in logs[0] if line[0] == "shown")


@pytest.mark.parametrize("name", NAMES)
def test_one_that_was_killed_does_again_what_it_did(ran, name):
    """What it had logged is the beginning of what it logs from what it wrote down, but for a line that was not whole."""
    assert len(ran.before[name]) == TIMES
    for before in ran.before[name]:
        assert ran.logged[name].startswith(before[:before.rfind("\n") + 1])


def test_each_ended_well_and_messages_came_twice(ran):
    assert ran.statuses == [0] * len(NAMES) and ran.messages > 500
