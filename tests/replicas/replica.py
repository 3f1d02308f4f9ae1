"""A replica that follows docs/NEW-START.md, as a process of its own: it keeps the patches of its start in a patch log of the library, and
shows the start with those that conflict with no other. The first one decides what a start ends with.

    replica.py NAME FOLDER EPOCHS

Mail is a file of JSON: what comes stands in FOLDER/in, what goes out to all is put into FOLDER/out. The file of a message appears by
its last name only when it is whole. FOLDER/received has a line for each message, which is written before the message is followed: so
a replica that was killed is started again, goes through what it received, and sends nothing meanwhile. FOLDER/log has a line for each
thing that the replica does, from its first start on.
"""

import json
import pathlib
import random
import sys
import time

from driving import MISSING, RESULT
from patch_log import PatchLog

DECIDER = "r0"


class Replica:
    def __init__(self, name, directory):
        self.name, self.sender, self.directory = name, int(name[1:]), directory
        self.epoch, self.texts, self.waiting, self.decision, self.read = 0, {}, [], None, set()
        self.patches = PatchLog(0, "{}")
        self.is_again = True
        self.go_on_from_what_was_sent()
        (directory / "log").write_text("")
        self.log("start", self.patches.document())
        for place, message in self.written():
            self.read.add(place)
            self.receive(message)
        self.is_again = False
        self.ask_for_what_is_missing()

    def go_on_from_what_was_sent(self):
        """No identity is given to two patches, and no start is decided twice."""
        sent = [json.loads(path.read_text()) for path in (self.directory / "out").iterdir() if path.suffix != ".new"]
        own = [it for it in sent if it["kind"] == "patch" and it["identity"][0] == self.sender]
        self.messages, self.number = len(sent), max((it["identity"][1] for it in own), default=0)
        self.changed = sum(it["is_new"] for it in own)
        self.decided = max((it["epoch"] for it in sent if it["kind"] == "decide"), default=-1)
        self.chance = random.Random(f"{self.name} {self.messages}")

    def written(self):
        """Gives each message that was received before. What a line has that was not written as a whole is dropped."""
        path = self.directory / "received"
        text = path.read_text() if path.exists() else ""
        path.write_text(text[:text.rfind("\n") + 1])
        return [json.loads(line) for line in text.split("\n")[:-1]]

    def append(self, name, line):
        with open(self.directory / name, "a", encoding="utf-8") as file:
            file.write(json.dumps(line) + "\n")

    def log(self, what, *more):
        self.append("log", [what, self.epoch, *more])

    def send(self, **message):
        if self.is_again:
            return
        self.messages += 1
        path = self.directory / "out" / f"{self.messages:05}"
        path.with_suffix(".new").write_text(json.dumps(message))
        path.with_suffix(".new").rename(path)

    def send_patch(self, identity, text, is_new=False):
        self.send(kind="patch", epoch=self.epoch, identity=identity, patch=text, is_new=is_new)

    def change(self):
        """Makes a patch for this start, and sends it to all, itself too."""
        place, value = self.chance.choice("abcdef"), self.chance.choice([None, 1, 2, {"x": 3}, {"y": None}, {"x": 4}, [5]])
        more = {f"{self.name} {self.number}": self.number} if self.chance.random() < 0.5 else {}
        self.number += 1
        self.send_patch([self.sender, self.number], json.dumps({place: value, **more}), is_new=True)

    def receive(self, message):
        """What is of an earlier start is dropped, and what is of a later one waits."""
        if message["kind"] == "patch":
            arrival = self.patch(message)
        else:
            arrival = "early" if message["epoch"] > self.epoch else "late" if message["epoch"] < self.epoch else "now"
            if arrival == "now":
                getattr(self, message["kind"])(message)
        if arrival == "early":
            self.waiting.append(message)

    def patch(self, message):
        identity = tuple(message["identity"])
        arrival = self.patches.receive(message["epoch"], identity, message["patch"])
        if arrival == "stored":
            self.texts[identity] = message["patch"]
            assert self.patches.count() == len(self.texts)
            self.log("shown", sorted(self.texts), self.patches.document(), self.patches.conflicts())
            self.follow()
        return arrival

    def ask(self, message):
        identity = tuple(message["identity"])
        if identity in self.texts:
            self.send_patch(identity, self.texts[identity])

    def decide(self, message):
        if self.decision is None:
            self.decision = [tuple(it) for it in message["ends"]]
            self.ask_for_what_is_missing()
        self.follow()

    def ask_for_what_is_missing(self):
        for identity in set(self.decision or []) - set(self.texts):
            self.send(kind="ask", epoch=self.epoch, identity=identity)

    def follow(self):
        """Begins with the new start, once all that the old one ends with is here.

        Its own patches that were left out are made anew, if they still are wanted.
        """
        if self.decision is None:
            return
        status, number = self.patches.decide(self.decision)
        if status == MISSING and self.decision[number] not in self.texts:
            return
        self.log("ends", sorted(self.decision), [self.texts[it] for it in self.decision], status)
        if status != RESULT:
            raise SystemExit(f"status {status} of a decision")
        left_out = [text for it, text in self.texts.items() if it[0] == self.sender and it not in self.decision]
        self.epoch, self.texts, self.decision = self.epoch + 1, {}, None
        self.log("start", self.patches.document())
        for text in left_out:
            if not self.is_again and self.chance.random() < 0.5:
                self.number += 1
                self.send_patch([self.sender, self.number], text)
        waiting, self.waiting = self.waiting, []
        for message in waiting:
            self.receive(message)

    def end_start(self):
        """Decides: of those that conflict the one counts that the others were not chosen over."""
        pairs = [{tuple(pair["first"]), tuple(pair["second"])} for pair in json.loads(self.patches.conflicts())]
        chosen = []
        for identity in self.chance.sample(sorted(self.texts), len(self.texts)):
            if not any({identity, other} in pairs for other in chosen):
                chosen.append(identity)
        self.send(kind="decide", epoch=self.epoch, ends=chosen)

    def run(self, epochs):
        while self.epoch < epochs:
            for path in sorted((self.directory / "in").iterdir()):
                if path.suffix != ".new" and path.name not in self.read:
                    message = json.loads(path.read_text())
                    self.append("received", [path.name, message])
                    self.read.add(path.name)
                    self.receive(message)
            if self.changed <= 3 * self.epoch + 2 and self.chance.random() < 0.3:
                self.changed += 1
                self.change()
            if self.name == DECIDER and self.decided < self.epoch and len(self.texts) >= 7:
                self.decided = self.epoch
                self.end_start()
            time.sleep(0.005)


Replica(sys.argv[1], pathlib.Path(sys.argv[2])).run(int(sys.argv[3]))
