"""The gallery: that nothing in it is stale, and that each program has all that it should."""

import os
import re
import unittest

import support
from companions import gallery

# The first programs have no words at the head of what they say.
HEADED = ("auction", "bank", "booking", "bounded_queue", "clock", "double_server", "login",
          "mergesort", "multipop", "pipeline", "transfer", "tree_walk", "two_buyers",
          "two_phase_commit")


class Parts(unittest.TestCase):
    """What each program has."""

    def test_each_program_is_in_one_group(self):
        self.assertEqual(sorted(f"{name}.rast" for name in gallery.NAMES), support.examples())

    def test_heads(self):
        for name in HEADED:
            with self.subTest(name):
                words = re.findall(r"^% (\w+): ", gallery.read(f"{name}.rast"), re.M)
                self.assertEqual(words, ["Idea", "Source", "Bound"])

    def test_mistakes(self):
        for name in gallery.NAMES:
            with self.subTest(name):
                mistake = gallery.mistake_of(name)
                self.assertEqual(gallery.read(f"{name}.rast").count(mistake.old), 1)
                self.assertNotEqual(mistake.old, mistake.new)

    def test_no_file_too_many(self):
        for folder, ending in (("charts", ".svg"), ("mistakes", ".edit")):
            with self.subTest(folder):
                names = os.listdir(os.path.join(support.EXAMPLES, folder))
                self.assertEqual(sorted(names), sorted(name + ending for name in gallery.NAMES))


class Made(support.WithFolder):
    """What is made by one command is as it stands there."""

    def test_nothing_is_stale(self):
        texts = gallery.made(support.rast(), self.folder)
        self.assertEqual(gallery.stale(texts), [])

    def test_each_mistake_is_refused(self):
        rast = support.rast()
        for name in gallery.NAMES:
            with self.subTest(name):
                line = gallery.refusal(rast, name, self.folder)
                self.assertRegex(line, r"^refused: ")

    def test_stale_is_seen(self):
        texts = {"README.md": gallery.read("README.md") + "more", "charts/none.svg": "",
                 "two.rast": gallery.read("two.rast")}
        self.assertEqual(gallery.stale(texts), ["README.md", "charts/none.svg"])
