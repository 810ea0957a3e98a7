"""The events of a run, read from what `rast run --trace` prints."""

import re
from collections import namedtuple

EVENT = re.compile(r"(\d+) p(\d+) (send|take|move|spawn|call|work|delay) (.+) @(\d+)$")
REPORT = re.compile(r"(steps|work|held|time|result) (.*)$")
OUTCOME = re.compile(r"finished$|out of budget$|index limit .*$")

# An event: its number, process, kind and moment; the place (`link`) where it puts or takes; for
# a move the place to which (`target`); for a spawn the new process; the name of a process that
# is spawned or called; and the text of its message, work or delay.
Event = namedtuple("Event", "number process kind moment link target child name body")

# A message: the event that put it on its way, the place where it waits, its text, and the event
# that took it from there (none for a message that was never taken).
Message = namedtuple("Message", "put place body taken")


class Trace:
    """The events and the report of a run."""

    def __init__(self, text):
        self.events, self.report, self.outcome = [], {}, ""
        for line in text.splitlines():
            self._read(line)

    def _read(self, line):
        """Keeps what one line says; a line of another kind says nothing."""
        event, report = EVENT.match(line), REPORT.match(line)
        if event:
            self.events.append(event_of(*event.groups()))
        elif report:
            self.report[report[1]] = report[2]
        elif OUTCOME.match(line):
            self.outcome = line

    def number(self, key):
        """A number of the report, 0 where it isn't there."""
        text = self.report.get(key, "0")
        return int(text) if text.isdigit() else 0

    def messages(self):
        """The messages in the order in which they were put on their way."""
        takers = {e.link: e for e in self.events if e.kind in ("take", "move")}
        puts = [(e, place_put(e)) for e in self.events if e.kind in ("send", "move")]
        return [Message(e, place, e.body, takers.get(place)) for e, place in puts]

    def names(self):
        """The name under which each process was spawned, main's first."""
        names = {0: "main"}
        for event in self.events:
            if event.kind == "spawn":
                names[event.child] = event.name
            names.setdefault(event.process, "")
        return names

    def for_client(self):
        """The places whose messages are for main's client, through forwards and sent channels."""
        put = {place_put(e): e for e in self.events if e.kind in ("send", "move")}
        found, waiting = set(), ["p0:0"]
        while waiting:
            place = waiting.pop()
            event = put.get(place)
            if event is None or place in found:
                continue
            found.add(place)
            waiting.append(next_place(event.link))
            if event.body.startswith("("):
                waiting.append(event.body[1:-1])
        return found


def event_of(number, process, kind, rest, moment):
    """The event that the parts of a line say."""
    link = target = child = name = None
    body = ""
    if kind in ("send", "take"):
        link, body = rest.split(" ", 1)
    elif kind == "move":
        link, target, body = rest.split(" ", 2)
    elif kind == "spawn":
        child, name = rest.split(" ", 1)
        child = int(child[1:])
    elif kind == "call":
        name = rest
    else:
        body = rest
    return Event(int(number), int(process), kind, int(moment), link, target, child, name, body)


def place_put(event):
    """The place where the message of a send or move waits."""
    return event.target if event.kind == "move" else event.link


def next_place(place):
    """The place behind a place of a session."""
    session, _, index = place.rpartition(":")
    return f"{session}:{int(index) + 1}"


def session_of(place):
    """The number of the session of a place."""
    return int(place[1:].split(":")[0])
