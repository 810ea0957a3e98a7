"""The states of a type as a graph for graphviz."""

import html

from companions.states import COLOURS, FILLS, NOBODY


def quoted(text):
    """A text in quotes."""
    return '"' + text.replace("\\", "\\\\").replace('"', '\\"') + '"'


def label(actions):
    """The label of an arrow: a line for each action, in the colour of who acts."""
    lines = [f'<font color="{COLOURS[who]}">{html.escape(text)}</font>' for who, text in actions]
    return "<" + "<br/>".join(lines) + ">" if lines else '""'


def colour(actions):
    """The colour of an arrow: that of who acts first."""
    return COLOURS[next((who for who, _ in actions if who != NOBODY), NOBODY)]


def dot(states):
    """The graph."""
    lines = ["digraph {", f"  label={quoted(states.title())}; labelloc=t;",
             '  node [shape=box, style="rounded,filled", fontname="DejaVu Sans"];',
             '  edge [fontname="DejaVu Sans", fontsize=11];']
    for number, state in enumerate(states.states):
        wide = ", penwidth=2.5" if number == 0 else ""
        lines.append(f"  s{number} [label={quoted(state.text)}, color={quoted(COLOURS[state.who])}"
                     f", fillcolor={quoted(FILLS[state.who])}{wide}];")
    for arrow in states.arrows:
        lines.append(f"  s{arrow.source} -> s{arrow.target} [label={label(arrow.actions)}, "
                     f"color={quoted(colour(arrow.actions))}];")
    return "\n".join([*lines, "}", ""])
