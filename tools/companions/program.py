"""How the companions find and call the program `rast`."""

import os
import shutil
import subprocess
import sys

HERE = os.path.dirname(os.path.dirname(os.path.realpath(__file__)))
BUILT = os.path.join(os.path.dirname(HERE), "crates", "rast", "out", "rast")

# The options of `rast run` that a companion hands on: the option, its value's name (none for a
# flag), and what it says. A trace is always asked for, so `--trace` isn't among them.
RUN_OPTIONS = (
    ("--budget", "N", "the most events of the run, from 1 to 1,000,000 (100,000 if not given)"),
)

# The exit statuses of `rast run` with which a run is reported: finished, out of budget, and at
# the index limit.
REPORTED = (0, 6, 7)
USAGE, READ_FAULT, WRITE_FAULT = 2, 3, 4


class Stop(Exception):
    """A companion ends here, with a line for the reader and an exit status."""

    def __init__(self, line, status):
        super().__init__(line)
        self.line, self.status = line, status


def find(named):
    """The path of `rast`: the named one, else that on the PATH, else the built one beside."""
    if named:
        path = shutil.which(named)
        if path is None:
            raise Stop(f"no program at {named}", USAGE)
        return path
    path = shutil.which("rast")
    if path is None and os.access(BUILT, os.X_OK):
        path = BUILT
    if path is None:
        raise Stop("rast isn't on the PATH, and isn't built in crates/rast (the README says how); "
                   "name it by --rast PATH", USAGE)
    return path


def add_rast_option(parser):
    """The option that names the program."""
    parser.add_argument("--rast", metavar="PATH", help="the program rast, if not the one on the "
                        "PATH or in crates/rast/out beside the tools")


def add_run_options(parser):
    """The options of `rast run` that are handed on."""
    for option, value, text in RUN_OPTIONS:
        if value is None:
            parser.add_argument(option, action="store_true", help=text)
        else:
            parser.add_argument(option, metavar=value, help=text)


def run_words(arguments):
    """The words of these arguments for `rast run`."""
    words = []
    for option, value, _ in RUN_OPTIONS:
        given = getattr(arguments, option[2:].replace("-", "_"))
        if value is None and given:
            words.append(option)
        elif value is not None and given is not None:
            words.append(f"{option}={given}")
    return words


def call(rast, words):
    """The text and the exit status that `rast` gives with these words."""
    try:
        done = subprocess.run([rast, *words], stdin=subprocess.DEVNULL, stdout=subprocess.PIPE)
    except OSError as error:
        raise Stop(f"{rast} doesn't start: {error.strerror}", USAGE) from error
    return done.stdout.decode("ascii", "replace"), done.returncode


def trace_of(rast, words, file):
    """The trace and the report of the run of a file, or the line and status of its refusal."""
    text, status = call(rast, ["run", "--trace", *words, "--", file])
    if status not in REPORTED:
        raise Stop(text.rstrip("\n"), status)
    return text


def write(text, place):
    """Writes a text to a file, or to standard output where no file is named."""
    try:
        if place is None:
            sys.stdout.write(text)
            sys.stdout.flush()
        else:
            with open(place, "w", encoding="utf-8") as file:
                file.write(text)
    except OSError as error:
        raise Stop(f"can't write: {error.strerror}", WRITE_FAULT) from error


def ended(name, work):
    """The exit status of a companion's work, whose stop is told on standard error."""
    try:
        return work()
    except Stop as stop:
        lead = "" if stop.status not in (USAGE, READ_FAULT, WRITE_FAULT) else f"{name}: "
        print(lead + stop.line, file=sys.stderr)
        return stop.status
