"""The page in a browser: that it places everything as the Python does, and what it does."""

import html
import json
import os
import re

import support
from companions import page
from companions.chart import Drawing
from companions.layout import ALL, MOST, Choice, Layout
from companions.trace import Trace

# Puts what the page's script makes of each trace and choice into the page, as JSON.
LAYOUTS = """
<script>
const made = JSON.parse(document.getElementById("asked").textContent).map(([text, choice]) => {
  const names = choice.names.length ? new Set(choice.names) : null;
  const layout = new Layout(readTrace(text), { ...choice, names });
  return {
    arrows: layout.arrows.map((a) => [a.put.number, a.taken ? a.taken.number : null, a.end]),
    rows: layout.events.map((e) => [e.number, layout.row.get(e.number)]), bands: layout.bands,
    lines: layout.lifelines.map((l) => [l.key, l.processes, l.first, l.last, l.ended,
      layout.column.get(l.key)]),
    width: new Drawing(layout).width };
});
document.getElementById("view").textContent = JSON.stringify(made);
</script>
"""

# Drops a trace onto the page, and then does what the text says.
DROPPED = """
<script>
const data = new DataTransfer();
data.items.add(new File([JSON.parse(document.getElementById("asked").textContent)], "dropped"));
document.dispatchEvent(new DragEvent("drop", { dataTransfer: data }));
setTimeout(() => { %s }, 200);
</script>
"""

CHOICES = (ALL, ALL._replace(fold=True), Choice((3, 9), (0, None), (), False),
           Choice((1, None), (0, None), ("main",), False))


def told(layout):
    """What a layout in Python says, in the form of the script above."""
    return {
        "arrows": [[a.message.put.number, a.message.taken.number if a.message.taken else None,
                    a.end] for a in layout.arrows],
        "rows": [[e.number, layout.row[e.number]] for e in layout.events],
        "bands": [list(band) for band in layout.bands],
        "lines": [[x.key, x.processes, x.first, x.last, x.ended, layout.column[x.key]]
                  for x in layout.lifelines],
        "width": round(Drawing(layout).width, 6)}


def drawn(out, kind):
    """How many messages, events or lifelines a page has drawn."""
    return len(re.findall(rf'<g class="{kind}" data-\w+="\w', out))


class Page(support.WithFolder):
    """The page, in Chromium where it is installed."""

    def shown(self, text, more="", asked=None):
        """The page with a trace and with what else is put into it, after its script ran."""
        chromium = support.installed("chromium", "chromium-browser", "google-chrome")
        data = json.dumps(asked).replace("<", "\\u003c")
        made = page.page(text, "a run", ALL) if text else support.read("tools", "chart.html")
        made = made.replace("</body>", f'<script id="asked" type="application/json">{data}'
                            f"</script>{more}</body>")
        path = self.write("page.html", made)
        out, said, status = support.called(
            [chromium, "--headless", "--no-sandbox", "--disable-gpu", "--dump-dom",
             "--virtual-time-budget=4000", f"--user-data-dir={self.folder}/profile",
             f"file://{path}"])
        self.assertEqual(status, 0, said)
        return out

    def test_same_layout(self):
        pairs = [(name, text, choice) for name, text in support.all_traces().items()
                 for choice in CHOICES]
        asked = [[text, choice._asdict()] for _, text, choice in pairs]
        out = self.shown(None, LAYOUTS, asked)
        made = json.loads(html.unescape(re.search(r'<div id="view">(.*?)</div>', out, re.S)[1]))
        self.assertEqual(len(made), len(pairs))
        for (name, text, choice), one in zip(pairs, made):
            with self.subTest(name, choice=choice):
                one["width"] = round(one["width"], 6)
                self.assertEqual(one, told(Layout(Trace(text), choice)))

    def test_drawn(self):
        text = support.stored_traces()["worker.txt"]
        out = self.shown(text)
        self.assertEqual(drawn(out, "message"), len(Trace(text).messages()))
        for said in ("p2 worker", "work 2 of 2", "the client gets {3} . end",
                     "14 of 14 events, 6 messages"):
            self.assertIn(said, out)

    def test_dropped(self):
        text = support.stored_traces()["worker.txt"]
        out = self.shown(None, DROPPED % "", text)
        self.assertEqual(drawn(out, "message"), len(Trace(text).messages()))
        self.assertIn('<h1 id="title">dropped</h1>', out)

    def test_no_trace_dropped(self):
        out = self.shown(None, DROPPED % "", "no trace")
        self.assertIn("dropped is no trace of rast run --trace.", out)

    def test_too_many_events(self):
        text = "\n".join(f"{n + 1} p0 send p0:{n} s @0" for n in range(MOST + 1000))
        out = self.shown(None, DROPPED % "", text)
        self.assertIn(f"{MOST + 1000} events are chosen, and a chart has at most {MOST}", out)
        self.assertEqual(drawn(out, "message"), MOST)

    def test_hover(self):
        over = ('document.querySelector(".message text").dispatchEvent('
                'new MouseEvent("mouseover", { bubbles: true }));')
        out = self.shown(None, DROPPED % over, support.stored_traces()["worker.txt"])
        self.assertIn("event 3: p1 send p1:0 strike @0\nevent 5: p2 take p1:0 strike @0</footer>",
                      out)

    def test_choice_and_zoom(self):
        act = ('document.querySelector("#names input[value=p2]").click();'
               'document.getElementById("larger").click();')
        out = self.shown(None, DROPPED % act, support.stored_traces()["worker.txt"])
        lines = [x.key for x in Layout(
            Trace(support.stored_traces()["worker.txt"]),
            ALL._replace(names=("p0", "p1"))).lifelines]
        self.assertEqual(drawn(out, "lifeline"), len(lines))
        svg = re.search(r'<svg [^>]*width="([\d.]+)"[^>]*viewBox="0 0 ([\d.]+)', out)
        self.assertAlmostEqual(float(svg[1]), 1.25 * float(svg[2]))

    def test_needs_no_network(self):
        made = page.page(support.stored_traces()["worker.txt"], "a run", ALL)
        self.assertEqual(set(re.findall(r"https?://[^\"' ]*", made)),
                         {"http://www.w3.org/2000/svg"})
        self.assertIsNone(re.search(r"\b(src|href)=", made))

    def test_no_tag_ends_the_data(self):
        made = page.page("1 p0 call </script> @0\n", "</title>", ALL)
        self.assertNotIn("</script> @0", made)
        self.assertIn("<title>&lt;/title&gt;</title>", made)

    def test_file(self):
        path = os.path.join(self.folder, "chart.html")
        _, _, status = support.tool("rast-chart", "-", "--format", "html", "-o", path,
                                    text=support.stored_traces()["worker.txt"])
        self.assertEqual(status, 0)
        with open(path, encoding="utf-8") as file:
            self.assertIn("p1 send p1:0 strike @0", file.read())
