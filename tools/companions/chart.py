"""The sequence chart of a run as SVG."""

import html

from companions.layout import CLIENT, OTHERS, TAKEN
from companions.trace import session_of

COLUMN, ROW, TOP, LEFT, FOOT = 92, 22, 70, 84, 96
COLOURS = ("#2563eb", "#b45309", "#047857", "#7c3aed", "#be123c", "#0e7490", "#4d7c0f", "#a21caf")
GREY, DARK, LIGHT = "#64748b", "#334155", "#94a3b8"
HALO = 'paint-order="stroke" stroke="#fff" stroke-width="2.5"'
# A lifeline's name is repeated after so many rows.
AGAIN = 40


def short(text, most):
    """A text, cut where it is long."""
    return text if len(text) <= most else text[:most - 2] + ".."


def said(event):
    """What an event's line says, as a tooltip."""
    parts = (event.link, event.target, f"p{event.child}" if event.child is not None else None,
             event.name, event.body)
    words = " ".join(p for p in parts if p)
    return f"event {event.number}: p{event.process} {event.kind} {words} @{event.moment}"


def tooltip(text):
    """A text that is seen where the pointer rests."""
    return f"<title>{html.escape(text)}</title>"


def text_at(x, y, text, more=""):
    """A text at a place."""
    return f'<text x="{x:g}" y="{y:g}" {more}>{html.escape(text)}</text>'


class Drawing:
    """The drawing of a layout."""

    def __init__(self, layout):
        self.layout = layout
        self.centre, self.width = self._centres()
        self.foot = self.y(layout.height) + 10

    def _centres(self):
        """The middle of each column, which is as wide as its widest name asks for, and the
        width of the whole."""
        wide = [COLUMN] * self.layout.columns
        for line in self.layout.lifelines:
            at = self.layout.column[line.key]
            wide[at] = max(wide[at], self.box_width(line) + 12)
        centres, edge = [], LEFT + 30
        for width in wide:
            centres.append(edge + width / 2)
            edge += width
        return centres, max(edge + 60, 420)

    def title(self, line):
        """The two parts of a lifeline's name."""
        if line.key == OTHERS:
            return "", OTHERS
        name = short(self.layout.names[line.processes[0]], 26)
        if self.layout.choice.fold:
            return (f"{len(line.processes)} x", name) if len(line.processes) > 1 else ("", name)
        return line.key, name

    def box_width(self, line):
        """The width of the box with a lifeline's name."""
        first, name = self.title(line)
        return 6.2 * (len(first) + len(name)) + 22

    def x(self, process):
        """The place of a process across."""
        return self.centre[self.layout.column[self.layout.key(process)]]

    def y(self, row):
        """The place of a row down."""
        return TOP + ROW * (row + 1)

    def bands(self):
        """A band for each moment."""
        out, bands = [], self.layout.bands
        ends = [row for _, row in bands[1:]] + [self.layout.height]
        for index, ((moment, row), end) in enumerate(zip(bands, ends)):
            if index % 2 == 0:
                out.append(f'<rect x="0" y="{self.y(row) - ROW / 2:g}" width="{self.width:g}" '
                           f'height="{ROW * (end - row)}" fill="#f1f5f9"/>')
            out.append(text_at(8, self.y(row) + 4, f"@{moment}", 'fill="#475569"'))
        return out

    def client_line(self):
        """The lifeline of main's client, where a message is for it."""
        if all(arrow.end != CLIENT for arrow in self.layout.arrows):
            return []
        return [f'<line x1="{LEFT}" y1="{TOP - 8}" x2="{LEFT}" y2="{self.y(self.layout.height)}" '
                f'stroke="{LIGHT}" stroke-dasharray="2 4"/>',
                text_at(LEFT, TOP - 16, "client", f'text-anchor="middle" fill="{GREY}"')]

    def lifeline(self, line):
        """A lifeline with its name, which is repeated along it."""
        x = self.centre[self.layout.column[line.key]]
        top, end = self.y(line.first), self.y(line.last)
        if line.first == 0:
            top = TOP - 8
        first, name = self.title(line)
        dash = ' stroke-dasharray="1 3"' if line.key == OTHERS else ""
        out = [f'<g class="lifeline">{tooltip((first + " " + name).strip())}'
               f'<line x1="{x:g}" y1="{top}" x2="{x:g}" y2="{end}" stroke="{LIGHT}" '
               f'stroke-width="1.5"{dash}/>']
        out.extend(text_at(x + 4, self.y(row) + 14, f"{first} {name}".strip(),
                           f'fill="{LIGHT}" font-size="8" {HALO}')
                   for row in range(line.first + AGAIN, line.last - 5, AGAIN))
        if line.ended:
            out.append(f'<path d="M{x - 4:g} {end + 6}h8" stroke="#475569" stroke-width="2"/>')
        return out + ["</g>"]

    def name_box(self, line):
        """The box at the head of a lifeline."""
        x, width = self.centre[self.layout.column[line.key]], self.box_width(line)
        top = TOP - 8 if line.first == 0 else self.y(line.first)
        first, name = self.title(line)
        return [f'<rect x="{x - width / 2:g}" y="{top - 9}" width="{width:g}" height="17" rx="4" '
                f'fill="#e2e8f0" stroke="{GREY}"/>'
                f'<text x="{x:g}" y="{top + 3}" text-anchor="middle"><tspan fill="{GREY}">'
                f'{html.escape(first)}</tspan> {html.escape(name)}</text>']

    def arrow(self, arrow):
        """A message from its sending to its taking, or with an open end."""
        put, taken = arrow.message.put, arrow.message.taken
        session = session_of(arrow.message.place) % len(COLOURS)
        data = f'data-put="{put.number}" data-taken="{taken.number if taken else ""}"'
        tip = said(put) + (f"\n{said(taken)}" if taken else
                           "\nfor main's client" if arrow.end == CLIENT else "\nnever taken")
        row = self.layout.row
        if arrow.end != TAKEN or put.number not in row or taken.number not in row:
            body = self.open_arrow(arrow, COLOURS[session])
        else:
            body = self.whole_arrow(arrow.message, session)
        return [f'<g class="message" {data}>{tooltip(tip)}', *body, "</g>"]

    def whole_arrow(self, message, session):
        """An arrow whose two ends are seen."""
        put, taken, colour = message.put, message.taken, COLOURS[session]
        x, y = self.x(put.process), self.y(self.layout.row[put.number])
        to_x, to_y = self.x(taken.process), self.y(self.layout.row[taken.number])
        dash = ' stroke-dasharray="5 3"' if put.kind == "move" else ""
        look = (f'stroke="{colour}" stroke-width="1.4"{dash} fill="none" '
                f'marker-end="url(#head{session})"')
        if x == to_x:
            line = (f'<path d="M{x:g} {y}C{x + 40:g} {y} {x + 40:g} {to_y} {x + 3:g} {to_y}" '
                    f'{look}/>')
            middle, up = x + 34, (y + to_y) / 2
        else:
            side = 1 if to_x > x else -1
            line = f'<line x1="{x:g}" y1="{y}" x2="{to_x:g}" y2="{to_y}" {look}/>'
            middle, up = x + 32 * side, y + (to_y - y) * 32 / max(32, abs(to_x - x)) - 3
        return [line, text_at(middle, up, short(message.body, 24),
                              f'text-anchor="middle" fill="{colour}" {HALO}')]

    def open_arrow(self, arrow, colour):
        """A message that nobody took, that is for main's client, or of which one end isn't
        seen: then its number stands there."""
        put, taken = arrow.message.put, arrow.message.taken
        body = short(arrow.message.body, 24)
        if put.number not in self.layout.row:
            x, y = self.x(taken.process), self.y(self.layout.row[taken.number])
            return [f'<line x1="{x - 34:g}" y1="{y}" x2="{x:g}" y2="{y}" stroke="{colour}" '
                    f'stroke-dasharray="1 3" marker-end="url(#head-open)"/>',
                    text_at(x - 36, y - 3, f"{put.number}: {body}", f'fill="{colour}" {HALO}')]
        x, y = self.x(put.process), self.y(self.layout.row[put.number])
        to_x = LEFT + 2 if arrow.end == CLIENT else x - 36
        dash = ' stroke-dasharray="1 3"' if taken else ""
        label = f"{body} :{taken.number}" if taken else body
        anchor = "start" if arrow.end == CLIENT else "middle"
        return [f'<line x1="{x:g}" y1="{y}" x2="{to_x:g}" y2="{y}" stroke="{GREY}"{dash} '
                f'marker-end="url(#head-open)"/>',
                text_at(to_x + 12, y - 3, label, f'text-anchor="{anchor}" fill="{DARK}" {HALO}')]

    def event(self, event):
        """What stands at an event on its lifeline."""
        x, y = self.x(event.process), self.y(self.layout.row[event.number])
        if event.kind == "work":
            return [f'<g class="event" data-event="{event.number}">{tooltip(said(event))}'
                    f'<circle cx="{x:g}" cy="{y}" r="7" fill="#fde68a" stroke="#b45309"/>',
                    text_at(x, y + 3.5, event.body, 'text-anchor="middle" font-size="9"'), "</g>"]
        colour = COLOURS[session_of(event.link) % len(COLOURS)] if event.link else "#475569"
        out = [f'<g class="event" data-event="{event.number}">{tooltip(said(event))}'
               f'<circle cx="{x:g}" cy="{y}" r="2.4" fill="{colour}"/>']
        note = {"call": f"= {event.name}", "delay": f"+{event.body}"}.get(event.kind)
        if note:
            out.append(text_at(x + 6, y + 3.5, note, f'fill="{GREY}" font-style="italic" {HALO}'))
        if event.kind == "spawn":
            out.append(self.birth(event, x, y))
        return out + ["</g>"]

    def birth(self, event, x, y):
        """The line from a process to one that it spawns."""
        to_x = self.x(event.child)
        return (f'<path d="M{x:g} {y}H{to_x:g}" stroke="{LIGHT}" fill="none" '
                'stroke-dasharray="2 2"/>')

    def potential(self):
        """A bar of the work that was done, in all the potential."""
        work = self.layout.trace.number("work")
        total = work + self.layout.trace.number("held")
        if total == 0:
            return []
        wide, at = self.width - 190, self.foot
        return [text_at(12, at + 10, "potential"),
                f'<rect x="80" y="{at}" width="{wide:g}" height="12" fill="#e2e8f0" '
                f'stroke="{GREY}"/>'
                f'<rect x="80" y="{at}" width="{wide * work / total:g}" height="12" '
                f'fill="#fde68a" stroke="#b45309"/>',
                text_at(86 + wide, at + 10, f"work {work} of {total}")]

    def report(self):
        """How the run ended and what the client gets."""
        trace, at = self.layout.trace, self.foot + 34
        shown = len(self.layout.events)
        part = "" if shown == len(trace.events) else f", {shown} of them here"
        line = f"{trace.outcome}, {len(trace.events)} events{part}, time {trace.number('time')}"
        result = trace.report.get("result", "")
        mono = 'font-family="DejaVu Sans Mono, monospace"'
        return [text_at(12, at, line.lstrip(", ")),
                f'<g>{tooltip(result)}',
                text_at(12, at + 18, "the client gets " + short(result, int(self.width / 6.4) - 18),
                        mono), "</g>"]

    def heads(self):
        """The heads of the arrows."""
        head = ('<marker id="{}" viewBox="0 0 8 8" refX="7" refY="4" markerWidth="7" '
                'markerHeight="7" orient="auto"><path d="M0 0L8 4L0 8{}" fill="{}"{}/></marker>')
        whole = [head.format(f"head{i}", "z", c, "") for i, c in enumerate(COLOURS)]
        open_end = head.format("head-open", "", "none", f' stroke="{GREY}"')
        return ["<defs>", *whole, open_end, "</defs>"]

    def svg(self, title):
        """The whole drawing."""
        lines, layout = [], self.layout
        for line in layout.lifelines:
            lines += self.lifeline(line)
        for event in layout.events:
            lines += self.event(event)
        for line in layout.lifelines:
            lines += self.name_box(line)
        for arrow in layout.arrows:
            lines += self.arrow(arrow)
        height = self.foot + FOOT - 30
        return "\n".join([
            f'<svg xmlns="http://www.w3.org/2000/svg" width="{self.width:g}" height="{height}" '
            f'viewBox="0 0 {self.width:g} {height}" font-family="DejaVu Sans, sans-serif" '
            f'font-size="10">', *self.heads(),
            '<rect width="100%" height="100%" fill="#fff"/>',
            text_at(12, 22, title, 'font-size="14" font-weight="bold"'),
            *self.bands(), *self.client_line(), *lines, *self.potential(), *self.report(),
            "</svg>", ""])


def chart(layout, title):
    """The chart of what is chosen of a run."""
    return Drawing(layout).svg(title)
