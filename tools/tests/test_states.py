"""The state diagram of a type."""

import os
import unittest
import xml.etree.ElementTree as tree

import support
from companions.dot import dot
from companions.state_chart import StateDrawing
from companions.states import States
from companions.types import definitions, shown
from companions.words import Wrong

LOGIN = """explicit
% A login with at most n retries.
type pin = +{good : 1, bad : 1}
type login{n} = pin -o answer{n}
type answer{n} = +{ok : session, wrong : ?{n > 0}. |{2}> () login{n - 1}, locked : ?{n = 0}. 1}
type session = &{read : !k. ({3}) session, logout : 1}
"""


def arrows(text, name):
    """The arrows of a type: its states' texts and its actions."""
    states = States(definitions(text), name)
    return [(states.states[a.source].text, states.states[a.target].text,
             [f"{who[0]} {said}" for who, said in a.actions]) for a in states.arrows]


def all_types():
    """Each type of the examples: the file's name, its definitions and its name."""
    for name in support.examples():
        found = definitions(support.read("examples", name))
        for type_ in found:
            yield name, found, type_


class Reading(unittest.TestCase):
    """Types are read as they are written."""

    def test_types(self):
        for text in ("1", "nat", "+{z : 1, s : nat}", "nat * nat -o 1", "(nat -o nat) * 1",
                     "?n. ?{n > 0 /\\ n <> 3}. list{n - 1}{2 * n}", "!n. !{n = 0}. 1",
                     "|{2 * n}> <{1}| () ({t + 1}) nat", "&{a : !{[n = 0] \\/ 3 | n}. 1}"):
            with self.subTest(text):
                self.assertEqual(shown(definitions(f"type t = {text}")["t"].type), text)

    def test_faults(self):
        for text, place in (("type t = +{", 11), ("type t = ", 9), ("type = 1", 5),
                            ("type t = 1 1", 11), ("type t = ^", 9), ("type close = 1", 5)):
            with self.subTest(text), self.assertRaises(Wrong) as caught:
                definitions(text)
            self.assertEqual(caught.exception.place, place)


class Diagram(unittest.TestCase):
    """The states and arrows of a type."""

    def test_login(self):
        self.assertEqual(arrows(LOGIN, "login"), [
            ("session", "session", ["c read", "c {k}", "n +3 ticks"]),
            ("session", "end", ["c logout"]),
            ("answer{n}", "session", ["p ok"]),
            ("answer{n}", "login{n}", ["p wrong", "p [n > 0]", "p pays 2", "n +1 tick",
                                       "n n := n - 1"]),
            ("answer{n}", "end", ["p locked", "p [n = 0]"]),
            ("login{n}", "answer{n}", ["c (pin)"])])

    def test_svg(self):
        svg = StateDrawing(States(definitions(LOGIN), "login")).svg()
        texts = ["".join(t.itertext()) for t in tree.fromstring(svg).iter(
            "{http://www.w3.org/2000/svg}text")]
        for said in ("type login{n}", "answer{n}", "[n > 0]", "pays 2", "n := n - 1", "end"):
            self.assertIn(said, texts)

    def test_every_type_of_examples(self):
        for name, found, type_ in all_types():
            with self.subTest(name, type=type_):
                tree.fromstring(StateDrawing(States(found, type_)).svg())

    def test_graphviz(self):
        graphviz = support.installed("dot")
        for name, found, type_ in all_types():
            with self.subTest(name, type=type_):
                states = States(found, type_)
                out, said, status = support.called([graphviz, "-Tsvg"], dot(states))
                self.assertEqual((said, status), ("", 0))
                groups = [g.get("class") for g in tree.fromstring(out.encode()).iter(
                    "{http://www.w3.org/2000/svg}g")]
                self.assertEqual(groups.count("node"), len(states.states))
                self.assertEqual(groups.count("edge"), len(states.arrows))


class Words(support.WithFolder):
    """The command line of the diagram."""

    def test_forms(self):
        path = self.write("login.rast", LOGIN)
        svg, _, status = support.tool("rast-states", path, "login")
        self.assertEqual((svg[:4], status), ("<svg", 0))
        graph, _, status = support.tool("rast-states", "--format", "dot", path, "login")
        self.assertEqual((graph.splitlines()[0], status), ("digraph {", 0))

    def test_no_type(self):
        path = self.write("login.rast", LOGIN)
        _, said, status = support.tool("rast-states", path, "logout")
        self.assertEqual(status, 1)
        self.assertEqual(said, "no type logout; there are: pin login answer session\n")

    def test_no_file(self):
        path = os.path.join(self.folder, "none.rast")
        _, said, status = support.tool("rast-states", path, "login")
        self.assertEqual((status, said),
                         (3, f"rast-states: {path}: No such file or directory\n"))

    def test_wrong_type(self):
        path = self.write("wrong.rast", "type t = +{close : 1}")
        _, said, status = support.tool("rast-states", path, "t")
        self.assertEqual((status, said), (1, f"{path}: no type definition at byte 11\n"))
