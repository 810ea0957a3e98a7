"""Where the parts of a chart stand: lifelines in columns, events in rows, moments in bands.

`chart.html` has the same rules in its script, and the tests compare the two.
"""

from collections import namedtuple

# The most events of one chart.
MOST = 5000
OTHERS = "others"

# What is to be seen of a run: events by number, moments, processes (by `pK` or name; all where
# the list is empty), and whether processes of one name share a lifeline.
Choice = namedtuple("Choice", "events moments names fold")
ALL = Choice((1, None), (0, None), (), False)

# How a message ends: it was taken, it is for main's client, or it waits for another process.
TAKEN, CLIENT, WAITS = "taken", "client", "waits"

# A message as it is drawn, and how it ends.
Arrow = namedtuple("Arrow", "message end")

# A lifeline: its key, its processes, its first and last row, and whether its processes ended.
Lifeline = namedtuple("Lifeline", "key processes first last ended")


class TooMany(Exception):
    """More events are chosen than a chart may have."""

    def __init__(self, count):
        super().__init__(f"{count} events")
        self.count = count


def within(value, bounds):
    """Whether a number is in a range, whose upper end may be open."""
    return bounds[0] <= value and (bounds[1] is None or value <= bounds[1])


class Layout:
    """The places of all that is seen of a trace."""

    def __init__(self, trace, choice=ALL):
        self.trace, self.choice = trace, choice
        self.names = trace.names()
        self.arrows = self._arrows()
        self.events = self._events()
        if len(self.events) > MOST:
            raise TooMany(len(self.events))
        self.row, self.bands, self.height = self._rows()
        self.lifelines = self._lifelines()
        self.column, self.columns = self._columns()

    def is_chosen(self, process):
        """Whether a process has a lifeline of its own choice."""
        chosen = self.choice.names
        return not chosen or f"p{process}" in chosen or self.names[process] in chosen

    def key(self, process):
        """The lifeline of a process: itself, its name, or that of all others."""
        if not self.is_chosen(process):
            return OTHERS
        return self.names[process] if self.choice.fold else f"p{process}"

    def in_range(self, event):
        """Whether an event is in the chosen range of numbers and moments."""
        numbers, moments = self.choice.events, self.choice.moments
        return within(event.number, numbers) and within(event.moment, moments)

    def _arrows(self):
        """The messages that are seen: with an end in range and an end that is chosen."""
        client = self.trace.for_client()
        return [Arrow(m, self._end(m, client)) for m in self.trace.messages() if self._is_seen(m)]

    def _is_seen(self, message):
        ends = [e for e in (message.put, message.taken) if e is not None]
        near = any(self.in_range(e) for e in ends)
        return near and any(self.is_chosen(e.process) for e in ends)

    @staticmethod
    def _end(message, client):
        if message.taken is not None:
            return TAKEN
        return CLIENT if message.place in client else WAITS

    def _events(self):
        """The events that are seen, by moment and then by number."""
        ends = {e.number for a in self.arrows for e in (a.message.put, a.message.taken) if e}
        seen = [e for e in self.trace.events if self.in_range(e)]
        seen = [e for e in seen if self.is_chosen(e.process) or e.number in ends
                or self._is_birth(e)]
        return sorted(seen, key=lambda e: (e.moment, e.number))

    def _is_birth(self, event):
        return event.kind == "spawn" and self.is_chosen(event.child)

    def _rows(self):
        """The row of each event: below what came before it on its lifeline, its message's
        sending, its process's birth, all earlier moments and, for a message to the client, the
        one before it. And the first row of each moment, and the number of rows."""
        row, last, bands, top = {}, {}, [], 0
        sent = {a.message.taken.number: a.message.put.number for a in self.arrows
                if a.message.taken}
        to_client = {a.message.put.number for a in self.arrows if a.end == CLIENT}
        for event in self.events:
            if not bands or event.moment > bands[-1][0]:
                bands.append((event.moment, top))
            keys = [self.key(event.process)]
            if event.number in to_client:
                keys.append(CLIENT)
            above = [last.get(key, -1) for key in keys]
            above += [bands[-1][1] - 1, row.get(sent.get(event.number), -1)]
            row[event.number] = here = max(above) + 1
            if event.kind == "spawn":
                keys.append(self.key(event.child))
            last.update({key: max(last.get(key, -1), here) for key in keys})
            top = max(top, here + 1)
        return row, bands, top

    def _lifelines(self):
        """The lifelines by their first rows."""
        first, last, processes, gone = {}, {}, {}, set()
        for event in self.events:
            here = self.row[event.number]
            seen = [event.process] + ([event.child] if event.kind == "spawn" else [])
            for process in seen:
                key = self.key(process)
                processes.setdefault(key, set()).add(process)
                first[key] = min(first.get(key, here), here)
                last[key] = max(last.get(key, here), here)
            if event.kind == "move" or (event.kind == "send" and event.body == "end"):
                gone.add(event.process)
        lines = []
        for key, members in processes.items():
            ended = key != OTHERS and members <= gone
            lines.append(Lifeline(key, sorted(members), first[key],
                                  last[key] if ended else self.height, ended))
        return sorted(lines, key=lambda line: (line.first, line.processes[0]))

    def _until(self):
        """For each lifeline the last row in which a message of it is taken."""
        until = {}
        for message, end in self.arrows:
            if end == TAKEN and message.put.number in self.row:
                key = self.key(message.put.process)
                until[key] = max(until.get(key, 0), self.row.get(message.taken.number, 0))
        return until

    def _columns(self):
        """The column of each lifeline. One is used again three rows below its last event and
        the taking of its last message."""
        column, free, until = {}, [], self._until()
        for line in self.lifelines:
            place = next((c for c, row in enumerate(free) if row + 3 < line.first), len(free))
            if place == len(free):
                free.append(0)
            free[place] = max(line.last, until.get(line.key, 0))
            column[line.key] = place
        return column, len(free)
