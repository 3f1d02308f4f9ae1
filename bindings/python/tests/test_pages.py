"""The examples of docstrings and pages print what they show, and help() tells each public name."""

import doctest
import importlib
import pathlib
import pkgutil
import pydoc
import re
import unittest

import mergejoin

TOP = pathlib.Path(__file__).resolve().parents[3]


class Pages(unittest.TestCase):
    def test_docstrings(self):
        count = 0
        modules = [it.name for it in pkgutil.iter_modules(mergejoin.__path__) if it.name != "dask"]  # its examples want Dask
        for name in ["mergejoin", *(f"mergejoin.{name}" for name in modules)]:
            result = doctest.testmod(importlib.import_module(name))
            self.assertEqual(result.failed, 0, name)
            count += result.attempted
        self.assertGreaterEqual(count, 30)

    def test_pages(self):
        for page, least in (("docs/FROM-PYTHON.md", 10), ("docs/FIND-BAD-INPUT.md", 2), ("README.md", 3), ("bindings/python/README.md", 3)):
            blocks = re.findall(r"^```python\n(.*?)^```$", (TOP / page).read_text("utf-8"), re.M | re.S)
            example = doctest.DocTestParser().get_doctest("\n".join(blocks), {}, page, page, 0)
            result = doctest.DocTestRunner().run(example)
            self.assertEqual(result.failed, 0, page)
            self.assertGreaterEqual(result.attempted, least)

    def test_help_shows_each_name(self):
        text = pydoc.plain(pydoc.render_doc(mergejoin))
        for name in mergejoin.__all__:
            it = getattr(mergejoin, name)
            self.assertTrue(it.__doc__ and it.__doc__[0].isupper() and not it.__doc__.startswith(name + "("), name)
            self.assertIn(name, text)
        for line in ("join(texts: Iterable[Union[str, bytes, bytearray, memoryview]], *, limit: Optional[int] = None) -> str", "class Patches(builtins.object)",
                     "class Missing(MergejoinError, builtins.LookupError)", "class InputError(MergejoinError, builtins.ValueError)",
                     "class PatchError(InputError)"):
            self.assertIn(line, text)
