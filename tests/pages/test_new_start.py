"""The commands of NEW-START on a directory of patches, as the page prints them: with twelve patches of each sender and two starts no
patch is forgotten or taken along, two at once make one new start, and one that is killed leaves a whole one or none.
"""

import json
import os
import re
import signal
import subprocess
import threading
import time

import pytest
from calls import TOP

PAGE = (TOP / "docs/NEW-START.md").read_text("utf-8")
BLOCKS = re.findall(r"^```console\n((?:.*\n)*?)```$", PAGE, re.M)
SENDERS = ("ann", "bob", "cleo")
FIRST = {"colour": "red", "size": 1}


def commands(begin, end):
    """The commands of the page from the one that begins so to the one that begins so, as lines."""
    lines = [line[2:] for block in BLOCKS for line in block.splitlines() if line.startswith("$ ")]
    first = next(number for number, line in enumerate(lines) if line.startswith(begin))
    last = next(number for number, line in enumerate(lines) if number >= first and line.startswith(end))
    return "box=demo/box\n" + "".join(f"{line}\n" for line in lines[first:last + 1])


SHOW = commands("mergejoin-conflicts", "mergejoin-feed $box/1/start $alone")
BEGIN = commands("mkdir -p $box/2", "cat $box/2/start")


def of_next(script):
    """The same commands for the start after that."""
    return script.replace("$box/2", "$box/3").replace("$box/1", "$box/2")


class Box:
    def __init__(self, directory, installed):
        self.directory, self.box = directory, directory / "demo/box"
        self.setting = {**os.environ, "PATH": f"{installed}:{os.environ['PATH']}"}
        (self.box / "1").mkdir(parents=True)
        self.write("1/start", FIRST)

    def write(self, name, value):
        (self.box / name).write_text(json.dumps(value))

    def read(self, name):
        return json.loads((self.box / name).read_text())

    def begun(self, script):
        return subprocess.Popen(["bash", "-c", script], cwd=self.directory, env=self.setting, stdin=subprocess.DEVNULL,
                                stdout=subprocess.PIPE, stderr=subprocess.STDOUT, text=True, start_new_session=True)

    def run(self, script):
        with self.begun(script) as run:
            return run.communicate(timeout=60)[0]

    def receive(self, start, numbers):
        """Patches of each sender by these numbers, of which Ann's and Bob's tenth conflict."""
        for sender in SENDERS:
            for number in numbers:
                self.write(f"{start}/{sender}.{number}", {f"{sender}{number}": number})
        self.write(f"{start}/ann.{numbers[9]}", {"colour": "blue"})
        self.write(f"{start}/bob.{numbers[9]}", {"colour": "green"})
        return {f"{sender}{number}": number for sender in SENDERS for number in numbers
                if sender == "cleo" or number != numbers[9]}

    def decide(self, start, left_out):
        names = sorted(path.name for path in (self.box / start).glob("*.*") if path.name != left_out)
        (self.box / start / "decision").write_text("".join(f"{name}\n" for name in names))


@pytest.fixture(name="box")
def directory_of_a_start(installed, tmp_path):
    return Box(tmp_path, installed)


def test_twelve_patches_of_each_sender_over_two_starts(box):
    members = box.receive("1", range(1, 13))
    shown = box.run(SHOW).splitlines()
    assert shown[:2] == ["status 1", '"/colour"'] and json.loads(shown[-1]) == FIRST | members
    assert sorted(shown[2].split()) == sorted(f"demo/box/1/{sender}.{number}" for sender in SENDERS for number in range(1, 13)
                                              if sender == "cleo" or number != 10)
    box.decide("1", "bob.10")
    second = FIRST | members | {"colour": "blue"}
    assert json.loads(box.run(BEGIN)) == second

    more = box.receive("2", range(13, 25))
    shown = box.run(of_next(SHOW)).splitlines()
    assert json.loads(shown[-1]) == second | more
    box.decide("2", "ann.22")
    assert json.loads(box.run(of_next(BEGIN))) == second | more | {"colour": "green"}


def test_a_decision_that_cannot_be_followed_begins_nothing(box):
    box.receive("1", range(1, 13))
    box.decide("1", None)
    assert "conflict: patches" in box.run(BEGIN)
    assert not (box.box / "2/start").exists()
    assert len(list((box.box / "1").glob("*.*"))) == 36


def test_two_at_once_begin_one_start(box):
    wanted = FIRST | box.receive("1", range(1, 13)) | {"colour": "blue"}
    box.decide("1", "bob.10")
    for _ in range(5):
        (box.box / "2/start").unlink(missing_ok=True)
        with box.begun(BEGIN) as one, box.begun(BEGIN) as other:
            printed = [run.communicate(timeout=60)[0] for run in (one, other)]
        assert [json.loads(text) for text in printed] == [wanted, wanted]
        assert box.read("2/start") == wanted


def test_one_that_is_killed_leaves_a_whole_start_or_none(box):
    """And the commands can be run again."""
    wanted = FIRST | box.receive("1", range(1, 13)) | {"colour": "blue"}
    box.decide("1", "bob.10")
    for turn in range(20):
        (box.box / "2/start").unlink(missing_ok=True)
        with box.begun(BEGIN) as run:
            reader = threading.Thread(target=run.stdout.read)
            reader.start()
            time.sleep(0.012 * turn)
            os.killpg(run.pid, signal.SIGKILL)
            reader.join()
        if (box.box / "2/start").exists():
            assert box.read("2/start") == wanted
        assert len(list((box.box / "1").glob("*.*"))) == 36
    assert json.loads(box.run(BEGIN)) == wanted
