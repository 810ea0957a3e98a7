"""Checks many files, several at once."""

import os
import sys
from concurrent.futures import ThreadPoolExecutor

from companions import program

# What becomes of a file, by the exit status of `rast check`; any other status is a failure.
FATES = {0: "accepted", 1: "refused", 5: "undecided"}
FAILED = "failed"
ORDER = ("accepted", "refused", "undecided", FAILED)

# The exit status of the whole: that of the first fate in this order that some file has.
STATUSES = (("refused", 1), ("undecided", 5), (FAILED, 3))


def files_below(places):
    """The files of rast in these folders, and the files that are named themselves."""
    found = []
    for place in places:
        if not os.path.isdir(place):
            found.append(place)
            continue
        for folder, folders, names in os.walk(place):
            folders.sort()
            found += [os.path.join(folder, name) for name in sorted(names)
                      if name.endswith(".rast")]
    return list(dict.fromkeys(found))


def check(rast, file):
    """What becomes of a file, and the line that says so."""
    text, status = program.call(rast, ["check", "--", file])
    line = text.strip() or f"ended with status {status}"
    return FATES.get(status, FAILED), line


class Progress:
    """A line on a terminal that says how far the work is."""

    def __init__(self, total, is_seen):
        self.total, self.is_seen = total, is_seen
        self.counts = dict.fromkeys(ORDER, 0)

    def add(self, fate):
        """Counts a file."""
        self.counts[fate] += 1
        if self.is_seen:
            done = sum(self.counts.values())
            bad = done - self.counts["accepted"]
            sys.stderr.write(f"\r\033[K{done} of {self.total} checked, {bad} not accepted")
            sys.stderr.flush()

    def clear(self):
        """Takes the line away."""
        if self.is_seen:
            sys.stderr.write("\r\033[K")
            sys.stderr.flush()

    def summary(self):
        """How many files have each fate."""
        return ", ".join(f"{self.counts[fate]} {fate}" for fate in ORDER)

    def status(self):
        """The exit status of the whole."""
        return next((status for fate, status in STATUSES if self.counts[fate]), 0)


def check_all(rast, files, jobs, is_seen):
    """Checks the files, prints a line for each that isn't accepted, in their order, and then
    the summary. The result is the exit status."""
    progress = Progress(len(files), is_seen)
    with ThreadPoolExecutor(jobs) as pool:
        try:
            for file, (fate, line) in zip(files, pool.map(lambda f: check(rast, f), files)):
                if fate != "accepted":
                    progress.clear()
                    print(f"{file}: {line}", flush=True)
                progress.add(fate)
        except BaseException:
            pool.shutdown(wait=False, cancel_futures=True)
            raise
        finally:
            progress.clear()
    print(progress.summary(), flush=True)
    return progress.status()
