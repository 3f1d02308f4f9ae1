"""The examples of mergejoin.dask and of docs/MANY-MACHINES.md print what they show, also on a cluster whose processes hash
a key each in its own way.
"""

import doctest
import pathlib
import re
import unittest

import mergejoin.dask
from clusters import cluster_of_seeds

PAGE = "docs/MANY-MACHINES.md"
TOP = pathlib.Path(__file__).resolve().parents[3]
WORKERS, LEAST_EXAMPLES = 4, 26
# What the page says for a scheduler of one host, which alone shows a bar.
OF_ONE_HOST = re.compile(r'^\[\.\.\.#+\] .*\n|scheduler="\w+"', re.M)


def examples():
    """Return the page's examples."""
    return "\n".join(re.findall(r"^```python\n(.*?)^```$", (TOP / PAGE).read_text("utf-8"), re.M | re.S))


class Pages(unittest.TestCase):
    def run_examples(self, text):
        # What an example defines goes to other processes as what a program itself defines.
        example = doctest.DocTestParser().get_doctest(text, {"__name__": "__main__"}, PAGE, PAGE, 0)
        result = doctest.DocTestRunner().run(example)
        self.assertEqual(result.failed, 0)
        self.assertGreaterEqual(result.attempted, LEAST_EXAMPLES)

    def test_docstrings(self):
        result = doctest.testmod(mergejoin.dask)
        self.assertEqual((result.failed, result.attempted), (0, 6))

    def test_page(self):
        self.run_examples(examples())

    def test_page_on_a_cluster_of_hash_seeds(self):
        with cluster_of_seeds(WORKERS) as client:
            self.assertGreater(len(set(client.run(hash, "ada").values())), 1)
            self.run_examples(OF_ONE_HOST.sub("", examples()))
