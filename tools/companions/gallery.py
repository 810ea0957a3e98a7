"""The gallery: an index of the programs of `examples/`, with their reports, charts and mistakes."""

import os
import re
from collections import namedtuple

from companions import program
from companions.chart import chart
from companions.layout import Layout
from companions.trace import Trace

FOLDER = os.path.join(os.path.dirname(program.HERE), "examples")
INDEX = "README.md"

# The programs by what they show, in the order of the index.
GROUPS = (
    ("Data", ("two", "counter", "join", "queue", "append", "head", "double", "equal",
              "bounded_queue")),
    ("Protocols", ("relay", "double_server", "login", "transfer", "auction", "two_buyers",
                   "booking", "two_phase_commit", "bank")),
    ("Cost", ("increments", "two_lists", "multipop", "tree_walk", "mergesort")),
    ("Time", ("copies", "rate", "pipeline", "clock")),
)
NAMES = tuple(name for _, names in GROUPS for name in names)

HEAD = """\
# The gallery

Each program has a report, which `rast run FILE` prints, the chart of its run, and one mistake with
the line that `rast check` prints for it. This page and the charts are made by `tools/gallery`, and
`tools/test` says where one is stale. What a chart shows is said in tools/README.md, and what a line
means in docs/language.md.
"""

# A mistake: a text of the program, what stands there instead, and why that is wrong.
Mistake = namedtuple("Mistake", "old new why")


def read(*parts):
    """The text of a file of the gallery."""
    with open(os.path.join(FOLDER, *parts), encoding="ascii") as file:
        return file.read()


def mistake_of(name):
    """The mistake of a program."""
    rows = dict(line.split(": ", 1) for line in read("mistakes", f"{name}.edit").splitlines())
    return Mistake(rows["old"], rows["new"], rows["why"])


def told(text):
    """What the comment at the head of a program says, as a list of its parts."""
    lines = []
    for line in text.splitlines():
        if not line.startswith("%"):
            break
        lines.append(line[1:].strip())
    paragraph = " ".join(lines)
    return re.sub(r"(?:^| )(Idea|Source|Bound): ", r"\n- **\1:** ", paragraph).strip()


def code(text):
    """A text as it is, between two blank lines."""
    return f"\n```\n{text.rstrip()}\n```\n"


def refusal(rast, name, folder):
    """What `rast check` prints of a program with its mistake."""
    mistake, path = mistake_of(name), os.path.join(folder, f"{name}.rast")
    with open(path, "w", encoding="ascii") as file:
        file.write(read(f"{name}.rast").replace(mistake.old, mistake.new))
    return program.call(rast, ["check", "--", path])[0]


def entry(rast, name, folder):
    """A program's part of the index, and its chart."""
    path = os.path.join(FOLDER, f"{name}.rast")
    text = program.trace_of(rast, [], path)
    trace, mistake = Trace(text), mistake_of(name)
    report = "\n".join(text.splitlines()[len(trace.events):])
    said = [text for text in [told(read(f"{name}.rast"))] if text]
    lines = [f"\n### [{name}](./{name}.rast)", *("\n" + text for text in said), code(report),
             f"![The run of {name}](charts/{name}.svg)\n",
             f"A mistake: `{mistake.new}` for `{mistake.old}`. {mistake.why}",
             code(refusal(rast, name, folder))]
    return "\n".join(lines), chart(Layout(trace), f"{name}.rast")


def made(rast, folder):
    """The texts of the index and of the charts, by their names in `examples/`. Programs with a
    mistake are written into a folder."""
    texts, index = {}, [HEAD]
    for title, names in GROUPS:
        index.append(f"\n## {title}\n")
        for name in names:
            part, drawing = entry(rast, name, folder)
            index.append(part)
            texts[os.path.join("charts", f"{name}.svg")] = drawing
    texts[INDEX] = "".join(index)
    return texts


def stale(texts):
    """The names of those texts that the gallery doesn't have so."""
    names = []
    for name, text in texts.items():
        try:
            with open(os.path.join(FOLDER, name), encoding="utf-8") as file:
                same = file.read() == text
        except OSError:
            same = False
        if not same:
            names.append(name)
    return sorted(names)
