"""After a fork a child uses each object as it was. If another thread was in one of them, each use of that is an error there, and none waits for
a thread that the child does not have.
"""

import subprocess
import sys
import unittest

FORKED = """
import gc, os, pickle, signal, sys, threading, time
from mergejoin import Patches, PatchLog, Replica

LONG = '{"a":[' + ",".join('{"b":1}' for _ in range(20_000)) + "]}"
LOST, WHOLE = 7, 3
FORKS, SECONDS = 6, 20
replica, patches, log = Replica("{}"), Patches(), PatchLog(1, "{}")
for it in (replica, patches):
    (it.receive if it is replica else it.add)(LONG)
log.receive(1, (1, 1), LONG)
CALLS = {
    "Replica": (lambda: replica.receive(LONG), [replica.document, replica.joined, lambda: replica.get("/a/0"), lambda: replica == Replica("{}"),
                lambda: repr(replica), lambda: pickle.dumps(replica), lambda: replica.receive("{}"), lambda: replica._held.__init__("{}")]),
    "Patches": (lambda: patches.add(LONG), [patches.text, lambda: patches.add("{}"), lambda: Patches().add_all(patches),
                lambda: patches.add_all(Patches()), lambda: pickle.dumps(patches), lambda: patches == Patches()]),
    "PatchLog": (lambda: log.receive(1, (1, 1), LONG), [log.document, log.conflicts, lambda: log.receive(1, (1, 2), "{}"),
                 lambda: log.decide([(1, 1)]), lambda: log.epoch]),
}
shown, texts = replica.document, {"Replica": replica.document, "Patches": patches.text, "PatchLog": log.document}


def is_lost(call):
    try:
        call()
    except RuntimeError as error:
        return str(error) == "another thread was in this object when the process forked"
    return False


def child(name):
    # Gives what became of the object, and uses others.
    calls, own = CALLS[name][1], Replica('{"own":1}')
    own.receive('{"more":2}')
    others = all(texts[other]() == LONG for other in texts if other != name) and own.document() == '{"more":2,"own":1}'
    if is_lost(calls[0]):
        # also in a child of the child
        pid = os.fork()
        if pid == 0:
            os._exit(LOST if all(map(is_lost, calls)) else 1)
        return LOST if others and all(map(is_lost, calls)) and os.waitstatus_to_exitcode(os.waitpid(pid, 0)[1]) == LOST else 1
    return WHOLE if others and texts[name]() == LONG else 2


def status_of(pid):
    until = time.monotonic() + SECONDS
    while time.monotonic() < until:
        ended, status = os.waitpid(pid, os.WNOHANG)
        if ended:
            return os.waitstatus_to_exitcode(status)
        time.sleep(0.001)
    os.kill(pid, signal.SIGKILL)
    return "it waits"


def statuses(name):
    # Gives how the children end that are forked while a thread is in an object again and again.
    ended = threading.Event()

    def work():
        while not ended.is_set():
            CALLS[name][0]()

    thread = threading.Thread(target=work)
    thread.start()
    found = set()
    for number in range(FORKS):
        time.sleep(0.003)
        pid = os.fork()
        if pid == 0:
            status = child(name)
            CALLS.clear(), texts.clear()
            globals().update(replica=None, patches=None, log=None, shown=None)
            gc.collect()
            os._exit(status)
        found.add(status_of(pid))
        if "it waits" in found:
            break
    ended.set()
    thread.join()
    assert texts[name]() == LONG
    return found


for name in CALLS:
    found = statuses(name)
    print(name, LOST in found, found <= {LOST, WHOLE} or found)
"""


class Forks(unittest.TestCase):
    def test_an_object_that_another_thread_was_in_is_an_error_in_the_child(self):
        done = subprocess.run([sys.executable, "-I", "-c", FORKED], capture_output=True, text=True, check=False, timeout=300)
        wanted = "".join(f"{name} True True\n" for name in ("Replica", "Patches", "PatchLog"))
        self.assertEqual((done.stdout, done.stderr, done.returncode), (wanted, "", 0))
