"""The states of a type as an SVG drawing: in layers, by the number of arrows from the first."""

import html

from companions.states import COLOURS, FILLS, NOBODY, PROVIDES, USES

HIGH, LINE, TOP, BETWEEN, WIDE = 26, 13, 66, 118, 210


def text_width(text):
    """About the width of a text."""
    return 6.6 * len(text)


def label_width(arrow):
    """The width of an arrow's label."""
    return max([text_width(text) for _, text in arrow.actions], default=0) + 14


def colour_of(arrow):
    """The colour of an arrow, and the name of its head: those of who acts first."""
    who = next((who for who, _ in arrow.actions if who != NOBODY), NOBODY)
    return COLOURS[who], who


class StateDrawing:
    """The drawing of the states of a type."""

    def __init__(self, states):
        self.states, self.arrows = states.states, states.arrows
        self.title = states.title()
        self.depth = self._depths(states.number.get("end of session"))
        self.loops = [[a for a in self.arrows if a.source == a.target == s]
                      for s in range(len(self.states))]
        self.back = [a for a in self.arrows if self.depth[a.target] < self.depth[a.source]]
        self.far = [a for a in self.arrows if self.depth[a.target] > self.depth[a.source] + 1]
        lines = max([len(arrow.actions) for arrow in self.arrows], default=0)
        looped = max((len(a.actions) for loop in self.loops for a in loop), default=0)
        self.gap = max(BETWEEN, LINE * (lines + looped / 2) + 66)
        self.top = TOP + LINE * max((len(a.actions) for a in self.loops[0]), default=0) / 2
        self.place, self.left, self.right = self._places()

    def _depths(self, end):
        """The layer of each state; the end stands below all others."""
        depth, waiting = {0: 0}, [0]
        for state in waiting:
            for arrow in self.arrows:
                if arrow.source == state and arrow.target not in depth:
                    depth[arrow.target] = depth[state] + 1
                    waiting.append(arrow.target)
        others = [depth[state] for state in depth if state != end]
        if end is not None and others:
            depth[end] = max(others) + 1
        return depth

    def state_width(self, state):
        """The width of a state's box."""
        return max(34, 7.6 * len(self.states[state].text) + 22)

    def _cell(self, state):
        """The width that a state asks for in its layer: with its loops at its right, and with
        room for the labels of the arrows that come from above."""
        above = [a for a in self.arrows if a.target == state
                 and self.depth[a.source] == self.depth[state] - 1]
        labels = sum(label_width(arrow) for arrow in above)
        return max(WIDE, self.state_width(state) + 40, labels + 40), self._loops_width(state)

    def _loops_width(self, state):
        return sum(label_width(arrow) + 44 for arrow in self.loops[state])

    def _places(self):
        """The middle of each state, and the edges between which all of them stand."""
        layers = {}
        for state in sorted(self.depth):
            layers.setdefault(self.depth[state], []).append(state)
        width = {d: sum(sum(self._cell(s)) for s in layer) for d, layer in layers.items()}
        left = 24 + sum(label_width(arrow) + 16 for arrow in self.back)
        place = {}
        for depth, layer in layers.items():
            x = left + (max(width.values()) - width[depth]) / 2
            for state in layer:
                own, loops = self._cell(state)
                place[state] = (x + own / 2, self.top + self.gap * depth)
                x += own + loops
        return place, left, left + max(width.values())

    def label(self, x, y, actions):
        """The actions of an arrow, one below the other, around a height."""
        first = y - LINE * (len(actions) - 1) / 2 + 4
        return [f'<text x="{x:g}" y="{first + LINE * row:g}" fill="{COLOURS[who]}" '
                f'paint-order="stroke" stroke="#fff" stroke-width="3">{html.escape(text)}</text>'
                for row, (who, text) in enumerate(actions)]

    @staticmethod
    def path(arrow, way):
        """The line of an arrow."""
        colour, who = colour_of(arrow)
        return f'<path d="{way}" fill="none" stroke="{colour}" marker-end="url(#{who})"/>'

    def loop_arrow(self, arrow, x, y):
        """An arrow from a state to itself, at its right."""
        index = self.loops[arrow.source].index(arrow)
        before = sum(label_width(a) + 44 for a in self.loops[arrow.source][:index])
        lines = max((len(a.actions) for a in self.loops[arrow.source][:index]), default=0)
        edge = x + self.state_width(arrow.source) / 2 - 3
        reach, high = edge + (before + 42) / .75, 30 + 28 * lines
        way = f"M{edge:g} {y - 5}C{reach:g} {y - high} {reach:g} {y + high} {edge:g} {y + 6}"
        return [self.path(arrow, way),
                *self.label(edge + .75 * (reach - edge) + 4, y, arrow.actions)]

    def side_arrow(self, arrow, lane, side):
        """An arrow that goes round the states, through a lane at the left or right. Where a
        state has loops at its right it begins below them."""
        (x, y), (to_x, to_y) = self.place[arrow.source], self.place[arrow.target]
        to_x += side * (self.state_width(arrow.target) / 2 + 2)
        bend = y
        if side > 0 and self.loops[arrow.source]:
            x, y, bend = x + 12, y + HIGH / 2, y + self.gap * .8
        else:
            x += side * self.state_width(arrow.source) / 2
        reach = (lane - (x + to_x) / 8) / .75
        way = f"M{x:g} {y:g}C{reach:g} {bend:g} {reach:g} {to_y:g} {to_x:g} {to_y:g}"
        middle = (y + to_y) / 8 + (bend + to_y) * 3 / 8
        return [self.path(arrow, way), *self.label(lane + 4, middle, arrow.actions)]

    def level_arrow(self, arrow):
        """An arrow to another state of the same layer, above both."""
        (x, y), (to_x, to_y) = self.place[arrow.source], self.place[arrow.target]
        top, high = y - HIGH / 2, y - HIGH / 2 - 44
        way = f"M{x:g} {top}C{x:g} {high} {to_x:g} {high} {to_x:g} {to_y - HIGH / 2 - 2}"
        return [self.path(arrow, way), *self.label((x + to_x) / 2, high + 4, arrow.actions)]

    def down_arrow(self, arrow):
        """An arrow to the next layer; several between two states stand beside each other."""
        (x, y), (to_x, to_y) = self.place[arrow.source], self.place[arrow.target]
        same = [a for a in self.arrows if a[:2] == arrow[:2]]
        wide = max(label_width(a) for a in same) + 20
        off = (same.index(arrow) - (len(same) - 1) / 2) * wide
        start, end = x + off / 6, to_x + off / 6
        middle = (x + to_x) / 2 + off * 1.7
        way = (f"M{start:g} {y + HIGH / 2}Q{middle:g} {(y + to_y) / 2} {end:g} "
               f"{to_y - HIGH / 2 - 2}")
        at = (start + end) / 4 + middle / 2
        return [self.path(arrow, way), *self.label(at + 5, (y + to_y) / 2, arrow.actions)]

    def all_arrows(self):
        """All arrows, each drawn as its layers ask for."""
        out, left, right = [], self.left, self.right + 16
        for arrow in self.arrows:
            down = self.depth[arrow.target] - self.depth[arrow.source]
            if arrow.source == arrow.target:
                out += self.loop_arrow(arrow, *self.place[arrow.source])
            elif down < 0:
                left -= label_width(arrow) + 16
                out += self.side_arrow(arrow, left, -1)
            elif down > 1:
                out += self.side_arrow(arrow, right, 1)
                right += label_width(arrow) + 16
            else:
                out += self.level_arrow(arrow) if down == 0 else self.down_arrow(arrow)
        return out, right

    def state(self, number):
        """A state's box."""
        state, (x, y), width = self.states[number], self.place[number], self.state_width(number)
        return (f'<rect x="{x - width / 2:g}" y="{y - HIGH / 2:g}" width="{width:g}" '
                f'height="{HIGH}" rx="13" fill="{FILLS[state.who]}" '
                f'stroke="{COLOURS[state.who]}" stroke-width="{2.5 if number == 0 else 1.3}"/>'
                f'<text x="{x:g}" y="{y + 4}" text-anchor="middle" font-weight="bold">'
                f'{html.escape(state.text)}</text>')

    def key(self, y):
        """What the colours mean."""
        rows = ((PROVIDES, "the provider acts"), (USES, "the client acts"),
                (NOBODY, "time, and new values"))
        return [f'<text x="{12 + 130 * row}" y="{y:g}" fill="{COLOURS[who]}">{text}</text>'
                for row, (who, text) in enumerate(rows)]

    def svg(self):
        """The whole drawing."""
        arrows, right = self.all_arrows()
        height = self.top + self.gap * max(self.depth.values()) + 66
        width = max(right + 20, 420)
        heads = "".join(
            f'<marker id="{who}" viewBox="0 0 8 8" refX="7" refY="4" markerWidth="8" '
            f'markerHeight="8" orient="auto"><path d="M0 0L8 4L0 8z" fill="{colour}"/></marker>'
            for who, colour in COLOURS.items())
        return "\n".join([
            f'<svg xmlns="http://www.w3.org/2000/svg" width="{width:g}" height="{height:g}" '
            f'viewBox="0 0 {width:g} {height:g}" font-family="DejaVu Sans, sans-serif" '
            f'font-size="11"><defs>{heads}</defs>',
            '<rect width="100%" height="100%" fill="#fff"/>',
            f'<text x="12" y="22" font-size="14" font-weight="bold">{html.escape(self.title)}'
            '</text>', *arrows, *(self.state(number) for number in range(len(self.states))),
            *self.key(height - 14), "</svg>", ""])
