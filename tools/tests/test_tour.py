"""The tour: that each step prints what it says, before and after it is mended."""

import re

import support

STEP = re.compile(r"^## Step (\d): .*?\n```\n(.*?)```\n\n`rast check step.rast` prints\n\n"
                  r"```\n(.*?)\n```\n", re.M | re.S)
SOLUTION = re.compile(r"^Step (\d): `([^\n]*)` for `([^\n]*)`\. Then `rast run step.rast` prints\n"
                      r"\n```\n(.*?)```\n", re.M | re.S)


class Tour(support.WithFolder):
    """The six steps of docs/tour.md."""

    def setUp(self):
        super().setUp()
        text = support.read("docs", "tour.md")
        self.steps = {number: rest for number, *rest in STEP.findall(text)}
        self.solutions = {number: rest for number, *rest in SOLUTION.findall(text)}

    def test_steps(self):
        self.assertEqual(list(self.steps), list("123456"))
        self.assertEqual(list(self.solutions), list("123456"))
        for number, (_, old, _) in self.solutions.items():
            self.assertEqual(self.steps[number][0].count(old), 1)

    def test_refusals(self):
        rast = support.rast()
        for number, (text, line) in self.steps.items():
            with self.subTest(number):
                path = self.write("step.rast", text)
                self.assertEqual(support.called([rast, "check", path])[0], line + "\n")

    def test_solutions(self):
        rast = support.rast()
        for number, (new, old, report) in self.solutions.items():
            with self.subTest(number):
                path = self.write("step.rast", self.steps[number][0].replace(old, new))
                self.assertEqual(support.called([rast, "run", path])[0], report)
