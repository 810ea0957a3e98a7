"""The page that shows a run: `chart.html` with a trace put into it."""

import html
import json
import os

from companions import program

PAGE = os.path.join(program.HERE, "chart.html")
EMPTY = '<script id="trace" type="application/json">null</script>'
HEAD = "<title>A run of rast</title>"


def data_of(text, title, choice):
    """What the page is told, as JSON that no tag can end."""
    told = {"title": title, "trace": text, "events": choice.events, "moments": choice.moments,
            "names": choice.names, "fold": choice.fold}
    return json.dumps(told).replace("<", "\\u003c")


def page(text, title, choice):
    """The page of a trace."""
    with open(PAGE, encoding="utf-8") as file:
        empty = file.read()
    data = EMPTY.replace("null", data_of(text, title, choice))
    return empty.replace(EMPTY, data).replace(HEAD, f"<title>{html.escape(title)}</title>")
