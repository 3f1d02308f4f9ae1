"""Random runs of calls of handles reply what a model replies that has all texts, and makes the six calls over them anew each time."""

import itertools
import json
import random

import pytest

import driving
from calling import Six
from driving import CONFLICT, MISSING, NO_PATCHES, RESULT, call, each

RUNS, CALLS = 150, 30


class Replica:
    """What a replica replies: the status, the total and the text."""

    def __init__(self, six, start):
        self.six, self.given, self.received = six, start, []

    def receive(self, patch):
        status, total, places = self.six("join", [self.joined()[2], patch] if self.received else [patch])
        if status == CONFLICT:
            return status, total, places
        self.received.append(patch)
        return RESULT, 0, b""

    def document(self):
        return self.six("replay", self.given, self.received)

    def joined(self):
        return self.six("join", self.received)

    def get(self, pointer):
        return self.six("get", self.document()[2], pointer)


class Patches:
    """What patches reply: they have the texts that they took, or the places of the first conflict."""

    def __init__(self, six):
        self.six, self.taken, self.places = six, [], None

    def add(self, patch):
        return self.take([patch], None)

    def combine(self, other):
        taken, places = other.taken, other.places
        other.taken, other.places = [], None
        return self.take(taken, places)

    def take(self, taken, places):
        joined = [text for texts in (self.taken, taken) if texts for text in [self.six("join", texts)[2]]]
        self.taken, self.places = self.taken + taken, self.places or places
        if self.places is None and self.taken:
            status, _, text = self.six("join", joined)
            self.places = text if status == CONFLICT else None
        return self.said() or (RESULT, 0, b"")

    def said(self):
        return self.places and (CONFLICT, len(json.loads(self.places)), self.places)

    def text(self):
        return self.said() or self.six("join", self.taken)

    def kept(self):
        if self.places:
            return RESULT, 0, b"!" + self.places
        status, total, text = self.text()
        return (RESULT, 0, b"") if status == NO_PATCHES else (status, total, text)

    def from_kept(self, kept):
        is_conflict = kept.startswith(b"!")
        self.taken, self.places = ([], kept[1:]) if is_conflict else ([kept] if kept else [], None)
        return self.said() or (RESULT, 0, b"")


class Log:
    """What a patch log replies: it has the start, its number, and the text of each patch under its identity."""

    def __init__(self, six, epoch, start):
        self.six, self.epoch, self.given, self.stored = six, epoch, start, {}

    def receive(self, patch, epoch, *identity):
        word = "late" if epoch < self.epoch else "early" if epoch > self.epoch else "repeat" if identity in self.stored else "stored"
        if word == "stored":
            self.stored[identity] = patch
        return RESULT, 0, word.encode()

    def pairs(self):
        """Gives each two that conflict in order, and the reply that says where."""
        for pair in itertools.combinations(sorted(self.stored), 2):
            status, total, places = self.six("join", [self.stored[it] for it in pair])
            if status == CONFLICT:
                yield pair, total, places

    def count(self):
        return RESULT, 0, str(len(self.stored)).encode()

    def document(self):
        conflicting = {it for pair, *_ in self.pairs() for it in pair}
        return self.six("replay", self.given, [patch for it, patch in self.stored.items() if it not in conflicting])

    def conflicts(self, *identity):
        """Of each two that conflict, or of those with one identity."""
        found = ((pair, places) for pair, _, places in self.pairs() if not identity or identity in pair)
        pairs = (f'{{"first":{list(one)},"second":{list(other)},"places":{places.decode()}}}' for (one, other), places in found)
        return RESULT, 0, f"[{','.join(pairs)}]".replace(" ", "").encode()

    def decide(self, *chosen):
        for number, identity in enumerate(chosen):
            if identity not in self.stored:
                return MISSING, 0, b"missing", number, 0
        for pair, total, places in self.pairs():
            if set(pair) <= set(chosen):
                return CONFLICT, total, places, *map(chosen.index, pair)
        status, _, self.given = self.six("replay", self.given, [self.stored[it] for it in chosen])
        self.epoch, self.stored = self.epoch + 1, {}
        return status, 0, b"", 0, 0


def document(some, depth=3):
    kind = some.random()
    if depth and kind < 0.7:
        return {some.choice("abcd/~"): document(some, depth - 1) for _ in range(some.randrange(4))}
    return some.choice([None, None, 0, 1, "text", [0, {"a": None}], {}, True])


def text(some):
    return driving.written(document(some)).encode()


def replica_run(six, some):
    """Gives lines of the script, and what the model replies to each."""
    start = text(some)
    model = Replica(six, start)
    yield call("start", 0, start), (RESULT, 0, b"")
    for _ in range(CALLS):
        what = some.choice(["receive"] * 4 + ["document", "joined", "get"])
        given = {"receive": text(some), "get": some.choice([b"", b"/a", b"/a/b", b"/c", b"/~1", b"x"])}.get(what)
        yield call(what, 0, given or b""), getattr(model, what)(*[] if given is None else [given])


def patches_run(six, some):
    models = [Patches(six) for _ in range(3)]
    for _ in range(CALLS):
        one, other = some.sample(range(3), 2)
        what = some.choice(["add"] * 5 + ["combine", "text", "kept", "from"])
        if what == "from":
            kept = models[other].kept()[2]
            yield call(what, one, kept), models[one].from_kept(kept)
        elif what == "combine":
            yield call(what, one, b"", other), models[one].combine(models[other])
        elif what == "add":
            patch = driving.written({some.choice("abcdefghijkl"): document(some, 1)}).encode()
            yield call(what, one, patch), models[one].add(patch)
        else:
            yield call(what, one), getattr(models[one], what)()


def log_run(six, some):
    start = text(some)
    model = Log(six, 5, start)
    yield call("log_start", 0, start, numbers=[5]), (RESULT, 0, b"")
    for _ in range(CALLS):
        what = some.choice(["receive"] * 5 + ["document", "conflicts", "conflicts_of", "count", "decide"])
        identity = some.randrange(3), some.randrange(4)
        if what == "receive":
            patch, epoch = text(some), model.epoch + some.choice([0, 0, 0, 0, -1, 1])
            yield call("log_receive", 0, patch, numbers=[epoch, *identity]), model.receive(patch, epoch, *identity)
        elif what == "decide":
            chosen = [some.choice(sorted(model.stored) or [identity]) for _ in range(some.randrange(4))] + [identity] * (some.random() < 0.1)
            yield call("log_decide", numbers=sum(chosen, ())), model.decide(*chosen)
        elif what == "conflicts_of":
            yield call("log_conflicts_of", numbers=identity), model.conflicts(*identity)
        else:
            yield call(f"log_{what}"), getattr(model, what)()


def with_line(line, status, total, text, first=0, second=0):
    """Gives what is wanted with the whole text of a conflict, of which the models have the places alone."""
    if status == CONFLICT:
        text = driving.whole(line, [status, first, second, total, text.decode()])[0][-1].encode()
    return status, total, text, first, second


@pytest.mark.parametrize("way", ["buffer", "new"])
@pytest.mark.parametrize("run", [replica_run, patches_run, log_run])
def test_a_run_replies_what_the_texts_do(driver, run, way):
    seen, six = set(), Six()
    for seed in range(RUNS):
        made = list(run(six, random.Random(seed)))
        found, = each([driver, way], [[line for line, _ in made]])
        for number, (reply, (line, wanted)) in enumerate(zip(found, made)):
            said = reply.status, reply.total, reply.text.encode(), reply.first, reply.second
            assert said[:len(wanted)] == with_line(line, *wanted)[:len(wanted)], (seed, number, line, reply, wanted)
            seen.add((reply.name, reply.status))
    assert len(seen) >= 6 and {status for _, status in seen} >= {RESULT, CONFLICT, MISSING if run == log_run else NO_PATCHES}
