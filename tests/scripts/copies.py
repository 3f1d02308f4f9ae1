"""A copy of the scripts with a toolchain that proves nothing (kit.sh), and what they say there."""

import hashlib
import os
import pathlib
import re
import shlex
import shutil

from calls import TOP, run

CRATES = ["mp_tree", "mp_pointer", "mp_patch", "mp_merge", "mp_texts", "mp_cli", "mergejoin"]
UNPROVED = """\
mergejoin: this answer comes from the sources as they are, not from the proved program, and takes a minute or two, each time until \
bin/prove has run once: that proves and builds the program in some 15 minutes, and a call takes 12 ms then
"""


def built(count=7):
    """What bin/prove reports when it has built so many crates."""
    each = [f"mergejoin: {crate}, {number} of 7 ..\nmergejoin: {crate} took N s, N s in all\n" for number, crate in enumerate(CRATES, 1)]
    return "mergejoin: proving and building 7 crates, which takes some minutes on first use ..\n" + "".join(each[:count])


def tried(words, given=b""):
    """What the toolchain prints of a try with words and an input."""
    return "".join(f"<{word}>" for word in words) + f" {len(given)} {hashlib.md5(given).hexdigest()[:8]}\n"


class Copy:
    def __init__(self, directory):
        self.directory, self.top, self.workspace = directory, directory / "a copy", directory / "workspace"
        self.log, self.kit = directory / "log", directory / "kit"
        self.setting = {"PATH": f"{self.kit}:{os.environ['PATH']}", "LOG": str(self.log), "TMPDIR": str(self.workspace)}
        for made in (self.top, self.workspace, self.kit):
            made.mkdir()
        shutil.copy(pathlib.Path(__file__).with_name("kit.sh"), self.kit / "rt")
        shutil.copytree(TOP / "bin", self.top / "bin")
        shutil.copy(TOP / "crates.txt", self.top)
        self.hand_on({})
        for crate in CRATES:
            for file, text in (("src/lib.rt", "//! One.\n"), ("specs/Lib.antt", "-- One.\n"), ("args", "merge\n")):
                self.write(f"crates/{crate}/{file}", text)

    def write(self, name, text, mode=0o644):
        path = self.top / name
        path.parent.mkdir(parents=True, exist_ok=True)
        path.write_text(text)
        path.chmod(mode)

    def hand_on(self, more):
        """Hands on to the toolchain what bin/prove takes away."""
        names = {"LOG": str(self.log), **{name: more[name] for name in ("FAILS", "EDITS", "STAYS") if name in more}}
        (self.kit / "setting").write_text("".join(f"{name}={shlex.quote(text)}\n" for name, text in names.items()))

    def run(self, words, more=None, **how):
        """Runs a script of the copy, or a line of the shell in which it is $0, and gives the status and both streams: seconds are
        reported as N s, and the directory of the copy as TOP.
        """
        self.hand_on(more or {})
        words = [self.top / words[0], *words[1:]] if isinstance(words, list) else ["bash", "-c", words, self.top / "bin/mergejoin"]
        status, out, err = run(words, setting={**self.setting, **(more or {})}, **{"cwd": self.directory, **how})
        return status, out, re.sub(r"\b[0-9]+ s\b", "N s", err).replace(str(self.top), "TOP")

    def join(self, *words):
        return self.run(["bin/mergejoin", "join", *words])

    def proofs(self, crate):
        """How often the toolchain has proved a crate, as what it keeps there says."""
        return (self.top / "crates" / crate / "out/incremental/lines").read_text().count("\n")

    def asked(self):
        """What the toolchain was asked for since this was last asked."""
        lines = self.log.read_text().splitlines() if self.log.exists() else []
        self.log.unlink(missing_ok=True)
        return lines


# How `bin/mergejoin join` ends in a copy.
PROVED, NOT_PROVED = (0, "proved join\n", ""), (0, tried(["join"]), UNPROVED)
