"""The sequence chart of a run as the text of a mermaid diagram."""

from companions.layout import CLIENT, OTHERS, TAKEN


def safe(text):
    """A text in which no character means something to mermaid."""
    return text.replace("#", "#35;").replace(";", "#59;")


def arrow_line(layout, arrow):
    """The line of a message: dashed behind a forward, with a cross where nobody took it."""
    put, taken = arrow.message.put, arrow.message.taken
    sender, body = layout.key(put.process), safe(arrow.message.body)
    line = "--" if put.kind == "move" else "-"
    if arrow.end == TAKEN:
        return f"    {sender}{line}>>{layout.key(taken.process)}: {body}"
    if arrow.end == CLIENT:
        return f"    {sender}{line})client: {body}"
    return f"    {sender}{line}x{sender}: {body} (never taken)"


def event_line(layout, event):
    """The note of an event that is no message, or none."""
    where = layout.key(event.process)
    says = {"spawn": f"spawns p{event.child} {event.name}", "call": f"goes on as {event.name}",
            "work": f"work {event.body}", "delay": f"delay {event.body}"}.get(event.kind)
    return f"    Note over {where}: {says}" if says else None


def participants(layout):
    """The lines that name who takes part."""
    lines = []
    if any(arrow.end == CLIENT for arrow in layout.arrows):
        lines.append("    participant client")
    for line in layout.lifelines:
        name = layout.names[line.processes[0]]
        own = f"{line.key} {name}" if not layout.choice.fold and line.key != OTHERS else line.key
        lines.append(f"    participant {line.key} as {own}")
    return lines


def mermaid(layout, title):
    """The diagram of what is chosen of a run. Time goes by the sending of each message."""
    arrows = {arrow.message.put.number: arrow for arrow in layout.arrows}
    lines, moment = ["---", f"title: {title}", "---", "sequenceDiagram"], None
    lines += participants(layout)
    seen = {layout.key(line.processes[0]) for line in layout.lifelines}
    ends = [line.key for line in (layout.lifelines[:1] + layout.lifelines[-1:])]
    for event in layout.events:
        if event.moment != moment:
            moment = event.moment
            lines.append(f"    Note over {','.join(dict.fromkeys(ends))}: moment {moment}")
        arrow = arrows.get(event.number)
        if arrow and (arrow.end != TAKEN or layout.key(arrow.message.taken.process) in seen):
            lines.append(arrow_line(layout, arrow))
        elif note := event_line(layout, event):
            lines.append(note)
    return "\n".join(lines) + "\n"
