"""Many files at once."""

import os
import signal
import subprocess
import sys
import time

import support


class Many(support.WithFolder):
    """The summary, the lines and the exit status."""

    def many(self, *words):
        """What rast-many says with the program that stands for `rast`."""
        fake = support.fake_rast(self.folder)
        return support.tool("rast-many", "--rast", fake, *words)

    def put(self, **fates):
        """Files with what is printed for each, and its status."""
        for name, fate in fates.items():
            line, status = fate
            self.write(f"tree/{name[0]}/{name}.rast", f"{line}\n{status}\n")
        return os.path.join(self.folder, "tree")

    def test_accepted(self):
        place = self.put(a=("accepted", 0), b=("accepted", 0))
        self.assertEqual(self.many(place),
                         ("2 accepted, 0 refused, 0 undecided, 0 failed\n", "", 0))

    def test_others(self):
        place = self.put(a=("accepted", 0), b=("refused: no", 1), c=("bound: search", 5),
                         d=("read fault", 3), e=("accepted", 0))
        out, said, status = self.many("--jobs", "3", place)
        self.assertEqual(out.splitlines(), [
            f"{place}/b/b.rast: refused: no", f"{place}/c/c.rast: bound: search",
            f"{place}/d/d.rast: read fault", "2 accepted, 1 refused, 1 undecided, 1 failed"])
        self.assertEqual((said, status), ("", 1))

    def test_statuses(self):
        self.assertEqual(self.many(self.put(a=("bound: limit", 5)))[2], 5)
        os.remove(os.path.join(self.folder, "tree", "a", "a.rast"))
        self.assertEqual(self.many(self.put(b=("read fault", 3)))[2], 3)

    def test_one_file_and_none(self):
        place = self.put(a=("accepted", 0))
        self.write("tree/a/notes.txt", "no program")
        out, _, status = self.many(place, f"{place}/a/a.rast")
        self.assertEqual((out, status), ("1 accepted, 0 refused, 0 undecided, 0 failed\n", 0))
        os.makedirs(os.path.join(self.folder, "empty"))
        out, said, status = self.many(os.path.join(self.folder, "empty"))
        self.assertEqual((out, status), ("", 2))
        self.assertIn("no file", said)

    def test_jobs(self):
        self.assertEqual(self.many("--jobs", "0", self.folder)[2], 2)

    def slow(self, count):
        """A program that says `accepted` once as many of it as given have begun."""
        begun = os.path.join(self.folder, "begun")
        os.makedirs(begun)
        path = self.write("slow", f"""#!/bin/sh
touch {begun}/$$
for turn in $(seq 600); do
    [ $(ls {begun} | wc -l) -ge {count} ] && echo accepted && exit 0
    sleep 0.1
done
exit 1
""")
        os.chmod(path, 0o755)
        return path, begun

    def test_at_once(self):
        path, _ = self.slow(6)
        place = self.put(**{f"f{n}": ("accepted", 0) for n in range(6)})
        out, _, status = support.tool("rast-many", "--jobs", "6", "--rast", path, place)
        self.assertEqual((out[:10], status), ("6 accepted", 0))

    def test_interrupt(self):
        path, begun = self.slow(2)
        place = self.put(**{f"f{n}": ("accepted", 0) for n in range(40)})
        words = [sys.executable, os.path.join(support.TOOLS, "rast-many"), "--jobs", "1",
                 "--rast", path, place]
        # (a shell that runs the tests behind itself has them ignore the signal)
        heeds = {"preexec_fn": lambda: signal.signal(signal.SIGINT, signal.SIG_DFL)}
        with subprocess.Popen(words, stdout=subprocess.PIPE, stderr=subprocess.PIPE,
                              **heeds) as running:
            while not os.listdir(begun) and running.poll() is None:
                time.sleep(0.1)
            running.send_signal(signal.SIGINT)
            out, _ = running.communicate(timeout=200)
        self.assertEqual((out, running.returncode), (b"", 130))

    def test_examples(self):
        out, said, status = support.tool("rast-many", "--rast", support.rast(), support.EXAMPLES)
        count = len(support.examples())
        self.assertEqual((out, said, status),
                         (f"{count} accepted, 0 refused, 0 undecided, 0 failed\n", "", 0))
