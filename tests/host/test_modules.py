"""The host's modules use each other without circles: what a module calls stands in a header that it includes."""
import re
import unittest
from graphlib import CycleError, TopologicalSorter

from program import ROOT


def used_modules():
    """By module, the stems of the headers that its two files include."""
    used = {}
    for path in sorted((ROOT / "host").glob("*.[ch]")):
        headers = re.findall(r'^#include "(\w+)\.h"$', path.read_text(), re.M)
        used.setdefault(path.stem, set()).update(set(headers) - {path.stem})
    return used


class Modules(unittest.TestCase):
    def test_no_circles(self):
        used = used_modules()
        self.assertGreater(sum(map(len, used.values())), 10)
        TopologicalSorter(used).prepare()

    def test_a_circle_is_noticed(self):
        used = used_modules()
        used["fail"].add("progress")
        self.assertIn("fail", used["progress"])
        self.assertRaises(CycleError, TopologicalSorter(used).prepare)
