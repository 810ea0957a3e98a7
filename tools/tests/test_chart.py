"""The sequence chart: its arrows, its choices, and what it says where there is none."""

import re
import unittest
import xml.etree.ElementTree as tree

import support
from companions.chart import chart
from companions.layout import ALL, CLIENT, MOST, TAKEN, WAITS, Choice, Layout
from companions.mermaid import mermaid
from companions.trace import Trace

SVG = "{http://www.w3.org/2000/svg}"
FOLDED = ALL._replace(fold=True)


def counted(text):
    """Each message of a trace, counted from its lines alone: the number of the event that put
    it on its way, and that of the event that took it, or an empty text."""
    puts, takes = {}, {}
    for line in text.splitlines():
        words = line.split(" ")
        if len(words) < 4 or not words[0].isdigit():
            continue
        if words[2] == "send":
            puts[words[3]] = words[0]
        elif words[2] == "take":
            takes[words[3]] = words[0]
        elif words[2] == "move":
            takes[words[3]] = words[0]
            puts[words[4]] = words[0]
    return sorted((number, takes.get(place, "")) for place, number in puts.items())


def drawn(svg):
    """The messages that a drawing has."""
    groups = tree.fromstring(svg).iter(SVG + "g")
    return sorted((group.get("data-put"), group.get("data-taken")) for group in groups
                  if group.get("class") == "message")


def long_trace(count):
    """A trace of so many events in which nothing is taken."""
    lines = [f"{n + 1} p0 send p0:{n} s @0" for n in range(count)]
    return "\n".join([*lines, "out of budget", f"steps {count}", "work 0", "held 0", "time 0",
                      "result ...", ""])


class Arrows(unittest.TestCase):
    """Each message has one arrow, with its two ends."""

    def test_stored_traces(self):
        for name, text in support.stored_traces().items():
            with self.subTest(name):
                self.assertEqual(drawn(chart(Layout(Trace(text)), name)), counted(text))
                self.assertEqual(drawn(chart(Layout(Trace(text), FOLDED), name)), counted(text))

    def test_examples(self):
        support.rast()
        for name in support.examples():
            with self.subTest(name):
                text = support.trace_of(name)
                self.assertGreater(len(counted(text)), 0)
                self.assertEqual(drawn(chart(Layout(Trace(text)), name)), counted(text))

    def test_ends(self):
        trace = Trace(support.stored_traces()["worker.txt"])
        ends = [(a.message.put.number, a.end) for a in Layout(trace).arrows]
        self.assertEqual(ends, [(3, TAKEN), (4, TAKEN), (10, TAKEN), (12, TAKEN), (13, CLIENT),
                                (14, CLIENT)])

    def test_never_taken(self):
        text = "1 p0 spawn p1 f @0\n2 p1 send p1:0 s @0\nout of budget\n"
        arrow, = Layout(Trace(text)).arrows
        self.assertEqual(arrow.end, WAITS)
        self.assertIn("never taken", chart(Layout(Trace(text)), "f"))

    def test_sent_channel_is_for_client(self):
        text = "1 p0 spawn p1 f @0\n2 p1 send p1:0 s @0\n3 p0 send p0:0 (p1:0) @0\nfinished\n"
        self.assertEqual({a.end for a in Layout(Trace(text)).arrows}, {CLIENT})


class Places(unittest.TestCase):
    """Events stand below what they wait for, and lifelines beside each other."""

    def test_rows(self):
        for name, text in support.all_traces().items():
            for choice in (ALL, FOLDED):
                with self.subTest(name, fold=choice.fold):
                    self.check_rows(Layout(Trace(text), choice))

    def check_rows(self, layout):
        """Each message is taken below its sending, and no two events of a lifeline share a
        row."""
        for arrow in layout.arrows:
            if arrow.end == TAKEN:
                put, taken = arrow.message.put.number, arrow.message.taken.number
                self.assertLess(layout.row[put], layout.row[taken])
        places = [(layout.key(e.process), layout.row[e.number]) for e in layout.events]
        self.assertEqual(len(places), len(set(places)))

    def test_moments(self):
        layout = Layout(Trace(support.stored_traces()["worker.txt"]))
        self.assertEqual([moment for moment, _ in layout.bands], [0, 1])
        for event in layout.events:
            band = max(moment for moment, row in layout.bands if row <= layout.row[event.number])
            self.assertEqual(band, event.moment)

    def test_columns(self):
        for name, text in support.all_traces().items():
            with self.subTest(name):
                layout = Layout(Trace(text))
                for one in layout.lifelines:
                    for other in layout.lifelines:
                        if one.key < other.key and \
                                layout.column[one.key] == layout.column[other.key]:
                            self.assertTrue(one.last < other.first or other.last < one.first)


class Choices(unittest.TestCase):
    """What is chosen of a run."""

    def setUp(self):
        self.trace = Trace(support.stored_traces()["worker.txt"])

    def numbers(self, **choice):
        """The numbers of the chosen events."""
        return [e.number for e in Layout(self.trace, ALL._replace(**choice)).events]

    def test_events(self):
        self.assertEqual(self.numbers(events=(5, 8)), [5, 6, 7, 8])
        svg = chart(Layout(self.trace, ALL._replace(events=(5, 8))), "worker")
        self.assertIn("3: strike", svg)
        self.assertIn("4 of them here", svg)

    def test_moments(self):
        self.assertEqual(self.numbers(moments=(1, None)), [8, 9, 10, 11, 12, 13, 14])

    def test_process(self):
        self.assertEqual(self.numbers(names=("clock",)), [1, 3, 4, 5, 6, 8, 10, 11])
        self.assertEqual(self.numbers(names=("p1",)), self.numbers(names=("clock",)))

    def test_fold(self):
        text = ("1 p0 spawn p1 f @0\n2 p0 spawn p2 f @0\n3 p1 send p1:0 s @0\n"
                "4 p2 take p1:0 s @0\n")
        layout = Layout(Trace(text), FOLDED)
        self.assertEqual([line.key for line in layout.lifelines], ["main", "f"])
        self.assertIn("2 x", chart(layout, "f"))


class Forms(support.WithFolder):
    """The command line of the chart."""

    def test_svg(self):
        text = support.stored_traces()["worker.txt"]
        out, _, status = support.tool("rast-chart", "-", text=text)
        self.assertEqual(status, 0)
        self.assertEqual(drawn(out), counted(text))
        for said in ("work 2 of 2", "the client gets {3} . end", "@1", "strike",
                     "event 3: p1 send p1:0 strike @0"):
            self.assertIn(said, out)

    def test_mermaid(self):
        out, _, _ = support.tool("rast-chart", "-", "--format", "mermaid",
                                 text=support.stored_traces()["worker.txt"])
        for line in ("participant p1 as p1 clock", "p1->>p2: strike", "Note over p2: work 2",
                     "p0--)client: {3}"):
            self.assertIn("    " + line + "\n", out)

    def test_mermaid_has_each_message(self):
        for name, text in support.all_traces().items():
            with self.subTest(name):
                lines = mermaid(Layout(Trace(text)), name).splitlines()
                arrows = [x for x in lines if re.match(r"    \w+--?(>>|\)|x)\w+: ", x)]
                self.assertEqual(len(arrows), len(counted(text)))

    def test_no_trace(self):
        _, said, status = support.tool("rast-chart", "-", text="refused: no exec\n")
        self.assertEqual((said, status), ("rast-chart: no trace of rast run --trace\n", 2))

    def test_output(self):
        path = self.folder + "/chart.svg"
        text = support.stored_traces()["worker.txt"]
        out, _, status = support.tool("rast-chart", "-", "-o", path, text=text)
        self.assertEqual((out, status), ("", 0))
        with open(path, encoding="utf-8") as file:
            self.assertEqual(drawn(file.read()), counted(text))

    def test_too_many_events(self):
        _, said, status = support.tool("rast-chart", "-", text=long_trace(MOST + 1))
        self.assertEqual(status, 2)
        self.assertIn(f"{MOST + 1} events are more than the {MOST} of a chart", said)
        out, _, status = support.tool("rast-chart", "-", "--events", "-5000",
                                      text=long_trace(MOST + 1))
        self.assertEqual((status, len(drawn(out))), (0, MOST))

    def test_none_chosen(self):
        text = support.stored_traces()["worker.txt"]
        _, said, status = support.tool("rast-chart", "-", "--process", "none", text=text)
        self.assertEqual((said, status),
                         ("rast-chart: none of the 14 events is chosen\n", 2))

    def test_refusal_is_passed_on(self):
        fake = support.fake_rast(self.folder)
        path = self.write("wrong.rast", "refused: unknown main\n1\n")
        out, said, status = support.tool("rast-chart", "--rast", fake, path)
        self.assertEqual((out, said, status), ("", "refused: unknown main\n", 1))

    def test_refusal_of_rast(self):
        path = self.write("wrong.rast", "explicit exec main")
        _, said, status = support.tool("rast-chart", "--rast", support.rast(), path)
        self.assertEqual((said, status), ("refused: unknown main\n", 1))

    def test_budget(self):
        path = f"{support.EXAMPLES}/join.rast"
        out, _, status = support.tool("rast-chart", "--rast", support.rast(), "--budget", "10",
                                      path)
        self.assertEqual(status, 0)
        self.assertIn("out of budget, 10 events", out)

    def test_no_program(self):
        _, said, status = support.tool("rast-chart", "--rast", self.folder + "/none", "x.rast")
        self.assertEqual(status, 2)
        self.assertIn("no program at", said)


class Reading(unittest.TestCase):
    """What a trace's lines say."""

    def test_bodies(self):
        lines = ["1 p0 send p0:0 (p1:0) @0", "2 p0 send p0:1 |{2} @3", "3 p1 move p2:0 p1:4 ? @3",
                 "4 p1 spawn p12 worker @3", "5 p1 call worker @3", "index limit at p1 value 9"]
        trace = Trace("\n".join(lines))
        bodies = [(e.link, e.target, e.child, e.name, e.body, e.moment) for e in trace.events]
        self.assertEqual(bodies, [
            ("p0:0", None, None, None, "(p1:0)", 0), ("p0:1", None, None, None, "|{2}", 3),
            ("p2:0", "p1:4", None, None, "?", 3), (None, None, 12, "worker", "", 3),
            (None, None, None, "worker", "", 3)])
        self.assertEqual(trace.outcome, "index limit at p1 value 9")

    def test_choice_of_all(self):
        self.assertEqual(ALL, Choice((1, None), (0, None), (), False))
