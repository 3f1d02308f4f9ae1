"""The statuses and the limits of the package are those of mergejoin.h."""

import pathlib
import re
import unittest

import mergejoin
from mergejoin import _library

TOP = pathlib.Path(__file__).resolve().parents[3]
HEADER = (TOP / "bindings/c/mergejoin.h").read_text("utf-8")
# Of these C makes no error of the package.
OWN = {"RESULT", "NO_MEMORY", "NOT_STARTED"}


class Header(unittest.TestCase):
    def test_statuses(self):
        body = re.search(r"enum mergejoin_status \{(.*?)\n\};", HEADER, re.S)[1]
        found = {name: int(value) for name, value in re.findall(r"^  MERGEJOIN_(\w+) = (\d+)", body, re.M)}
        self.assertEqual(len(found), 13)
        self.assertEqual({name: getattr(_library, name) for name in found if name not in OWN},
                         {name: value for name, value in found.items() if name not in OWN})

    def test_version(self):
        self.assertEqual(mergejoin.__version__, re.search(r'#define MERGEJOIN_VERSION_STRING "(.*)"', HEADER)[1])

    def test_depth(self):
        levels = int(re.search(r"document has at most (\d+) levels", HEADER)[1])
        self.assertEqual(mergejoin.objects._DEEPEST, levels)
        source = (TOP / "bindings/python/c/writing.c").read_text("utf-8")
        self.assertEqual(int(re.search(r"DEEPEST = (\d+)", source)[1]), levels)
