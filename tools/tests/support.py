"""What the tests share."""

import functools
import os
import re
import shutil
import subprocess
import sys
import tempfile
import unittest

TOOLS = os.path.dirname(os.path.dirname(os.path.realpath(__file__)))
TOP = os.path.dirname(TOOLS)
EXAMPLES = os.path.join(TOP, "examples")
TRACES = os.path.join(TOOLS, "tests", "traces")
BUILT = os.path.join(TOP, "crates", "rast", "out", "rast")


def read(*parts):
    """The text of a file of the repository."""
    with open(os.path.join(TOP, *parts), encoding="utf-8") as file:
        return file.read()


def rast():
    """The path of the program; without one the test is skipped."""
    named = os.environ.get("RAST")
    for path in (named, BUILT, shutil.which("rast")):
        if path and os.access(path, os.X_OK):
            return path
    raise unittest.SkipTest("no built rast")


def installed(*names):
    """The path of the first of these programs; without one the test is skipped."""
    for name in names:
        path = shutil.which(name)
        if path:
            return path
    raise unittest.SkipTest(f"{' or '.join(names)} isn't installed")


def called(words, text="", **more):
    """What a program with these words prints, what it says on standard error, and its status."""
    done = subprocess.run(words, input=text, stdout=subprocess.PIPE, stderr=subprocess.PIPE,
                          encoding="utf-8", timeout=300, check=False, **more)
    return done.stdout, done.stderr, done.returncode


def tool(name, *words, text=""):
    """As `called`, of a companion."""
    return called([sys.executable, os.path.join(TOOLS, name), *words], text)


def examples():
    """The names of the programs of examples/, in order."""
    return sorted(name for name in os.listdir(EXAMPLES) if name.endswith(".rast"))


@functools.lru_cache(None)
def trace_of(name):
    """The text of the trace of a program of examples/."""
    path = os.path.join(EXAMPLES, name)
    return called([rast(), "run", "--trace", "--budget", "3000", path])[0]


def stored_traces():
    """The texts of the stored traces by name."""
    found = {}
    for name in sorted(os.listdir(TRACES)):
        with open(os.path.join(TRACES, name), encoding="ascii") as file:
            found[name] = file.read()
    return found


def all_traces():
    """The texts of the stored traces, and of those of the examples where `rast` is there."""
    found = stored_traces()
    try:
        rast()
    except unittest.SkipTest:
        return found
    return {**found, **{name: trace_of(name) for name in examples()}}


def fake_rast(folder):
    """A program in a folder that stands for `rast`: a file's first line is what it prints, and
    the second its exit status."""
    path = os.path.join(folder, "rast")
    with open(path, "w", encoding="utf-8") as file:
        file.write("#!/bin/sh\nfor file; do :; done\nhead -n 1 \"$file\"\n"
                   "exit \"$(sed -n 2p \"$file\")\"\n")
    os.chmod(path, 0o755)
    return path


class WithFolder(unittest.TestCase):
    """A test with a folder of its own."""

    def setUp(self):
        holder = tempfile.TemporaryDirectory()
        self.addCleanup(holder.cleanup)
        self.folder = holder.name

    def write(self, name, text):
        """Writes a file into the folder; the result is its path."""
        path = os.path.join(self.folder, name)
        os.makedirs(os.path.dirname(path), exist_ok=True)
        with open(path, "w", encoding="utf-8") as file:
            file.write(text)
        return path


def lexer_keywords():
    """The keywords of the lexer's table, as a file has them."""
    table = re.search(r"const KEYWORDS.*?\];", read("crates", "rast_lex", "src", "word.rt"), re.S)
    kinds = re.findall(r"Kind::([A-Za-z]+),", table[0])
    texts = dict(re.findall(r"Kind::(\w+) => b\"(.*?)\"",
                            read("crates", "rast_ast", "src", "kind.rt")))
    return {texts[kind] for kind in kinds}


def rast_words():
    """The commands of `rast`, and the options of each, as the crate of its words has them."""
    text = read("crates", "rast_words", "src", "command_line.rt")
    commands = re.findall(r"Command::new\(alloc, \"(\w+)\"\)", text)
    commands += re.findall(r"command_of_one\(alloc, \"(\w+)\"", text)
    options = re.findall(r"\.long\(\"([\w-]+)\"\)", text)
    return [name for name in commands if name != "rast"], ["--" + option for option in options]
