"""The words of the language and of the command lines, wherever they are written down."""

import json
import os
import re
import unittest

import support
from companions import program
from companions.words import ALL_KEYWORDS

EDITORS = ("tools", "editors")
COMPANIONS = ("rast-chart", "rast-states", "rast-many")


def vim_keywords():
    """The keywords of the Vim file."""
    lines = re.findall(r"^syn keyword \w+ (.*)$",
                       support.read(*EDITORS, "vim", "syntax", "rast.vim"), re.M)
    return {word for line in lines for word in line.split()}


def vscode_keywords():
    """The keywords of the VS Code grammar."""
    grammar = json.loads(support.read(*EDITORS, "vscode", "syntaxes", "rast.tmLanguage.json"))
    rows = [row for row in grammar["patterns"] if row.get("name", "").startswith("keyword.")]
    words = [re.fullmatch(r"\\b\((.*)\)\\b", row["match"]) for row in rows]
    return {word for match in words if match for word in match[1].split("|")}


def emacs_keywords():
    """The keywords of the Emacs mode."""
    lists = re.findall(r"\(defconst rast-\w+-words\s+'\(([^)]*)\)",
                       support.read(*EDITORS, "emacs", "rast-mode.el"))
    return {word for row in lists for word in re.findall(r'"(\w+)"', row)}


def manual(name):
    """The text of a page of the manual, without its marks."""
    text = support.read("tools", "man", name + ".1")
    return re.sub(r"\\f.", "", text.replace("\\-", "-"))


def options_in(text):
    """The long options that a text names."""
    return set(re.findall(r"(?<![\w-])--[a-z][a-z-]*", text))


class Keywords(unittest.TestCase):
    """The keywords of each editor are those of the lexer."""

    def test_lexer_has_keywords(self):
        self.assertEqual(len(support.lexer_keywords()), 27)

    def test_companions(self):
        self.assertEqual(set(ALL_KEYWORDS), support.lexer_keywords())

    def test_vim(self):
        self.assertEqual(vim_keywords(), support.lexer_keywords())

    def test_vscode(self):
        self.assertEqual(vscode_keywords(), support.lexer_keywords())

    def test_emacs(self):
        self.assertEqual(emacs_keywords(), support.lexer_keywords())


class Commands(unittest.TestCase):
    """The commands and options of `rast` are those of its crate of words."""

    def setUp(self):
        self.commands, self.options = support.rast_words()

    def test_crate_has_words(self):
        self.assertIn("run", self.commands)
        self.assertIn("--trace", self.options)

    def test_manual(self):
        text = manual("rast")
        synopsis = text.split(".SH DESCRIPTION")[0]
        self.assertEqual(re.findall(r"^\.B rast (\w+)$", synopsis, re.M), self.commands)
        self.assertEqual(options_in(text), set(self.options))

    def test_manual_statuses(self):
        told = re.findall(r"^\.B (\d)$", manual("rast").split(".SH EXIT STATUS")[1], re.M)
        rows = support.read("docs", "language.md").split("| exit status |")[1].split("\n\n")[0]
        numbers = [n for row in rows.splitlines()[2:]
                   for n in re.findall(r"\d", row.split("|")[1])]
        self.assertEqual(told, numbers)

    def test_bash(self):
        text = support.read("tools", "completions", "rast.bash").split("_rast_chart()")[0]
        words = re.findall(r'compgen -W "([^"$]*)"', text)
        self.assertEqual(words, [" ".join(self.commands), " ".join(self.options)])

    def test_zsh(self):
        text = support.read("tools", "completions", "_rast").split("case $service in")[0]
        self.assertEqual(re.findall(r"^    '(\w+):", text, re.M), self.commands)
        self.assertEqual(options_in(text), set(self.options))

    def test_fish(self):
        lines = re.findall(r"^complete -c rast (.*)$",
                           support.read("tools", "completions", "rast.fish"), re.M)
        commands = [m[1] for m in (re.search(r"use_subcommand -a (\w+)", x) for x in lines) if m]
        options = {"--" + m[1] for m in (re.search(r" -l (\w+)", x) for x in lines) if m}
        self.assertEqual((commands, options), (self.commands, set(self.options)))

    def test_options_handed_on(self):
        handed = {option for option, _, _ in program.RUN_OPTIONS}
        self.assertEqual(handed | {"--trace"}, set(self.options))


class CompanionOptions(unittest.TestCase):
    """The options of each companion are in its help, its page and each completion."""

    def options(self, name):
        """The options that a companion's help names."""
        text, _, status = support.tool(name, "--help")
        self.assertEqual(status, 0)
        return set(re.findall(r"^  (?:-\w, )?(--[a-z-]+)", text, re.M))

    def test_manual(self):
        for name in COMPANIONS:
            with self.subTest(name):
                own = manual(name).split(".SH OPTIONS")[1].split(".SH EXIT")[0]
                self.assertEqual(options_in(own), self.options(name))

    def test_bash(self):
        text = support.read("tools", "completions", "rast.bash")
        for name in COMPANIONS:
            with self.subTest(name):
                own = text.split(f"_{name.replace('-', '_')}()")[1].split("\n}\n")[0]
                own = re.sub(r"--[a-z]+\)|--events.*\) COMPREPLY|\| --rast\)", "", own)
                self.assertEqual(options_in(own), self.options(name))

    def test_zsh(self):
        text = support.read("tools", "completions", "_rast").split("case $service in")[1]
        for name in COMPANIONS:
            with self.subTest(name):
                own = text.split(f"  {name})")[1].split(";;")[0]
                self.assertEqual(options_in(own), self.options(name))

    def test_fish(self):
        text = support.read("tools", "completions", "rast.fish")
        for name in COMPANIONS:
            with self.subTest(name):
                own = set(re.findall(rf"^complete -c {name} -l (\w+)", text, re.M))
                self.assertEqual({"--" + option for option in own}, self.options(name))


class Text(unittest.TestCase):
    """The companions' own text."""

    def test_lines_are_short(self):
        for folder, _, names in os.walk(support.TOOLS):
            for name in names:
                if name.endswith((".pyc", ".md")):
                    continue
                with open(os.path.join(folder, name), encoding="utf-8") as file:
                    long = [n for n, line in enumerate(file, 1) if len(line.rstrip("\n")) > 100]
                self.assertEqual(long, [], f"{folder}/{name}")
