"""The Makefile, and the manual."""

import os
import shutil

import support


class Install(support.WithFolder):
    """`make install` and `make uninstall`, in an empty prefix."""

    def make(self, *words):
        """What make says with these words, at the top of the repository."""
        return support.called([support.installed("make"), "-C", support.TOP, *words])

    def files(self):
        """The files that are in place, without the folder before them."""
        place = os.path.join(self.folder, "stage", "pre", "fix")
        return {os.path.relpath(os.path.join(folder, name), place)
                for folder, _, names in os.walk(place) for name in names}

    def words(self):
        """The words that say where things go, with a program that stands for `rast`."""
        built = support.fake_rast(self.folder)
        return [f"BUILT={built}", "PREFIX=/pre/fix", f"DESTDIR={self.folder}/stage"]

    def test_in_place_and_away(self):
        _, said, status = self.make("install", *self.words())
        self.assertEqual(status, 0, said)
        for name in ("bin/rast", "bin/rast-chart", "bin/rast-many", "bin/rast-states",
                     "share/man/man1/rast.1", "share/man/man1/rast-chart.1",
                     "share/bash-completion/completions/rast-chart",
                     "share/fish/vendor_completions.d/rast.fish",
                     "share/zsh/site-functions/_rast", "share/vim/vimfiles/syntax/rast.vim",
                     "share/emacs/site-lisp/rast-mode.el", "lib/ligvusto/chart.html"):
            self.assertIn(name, self.files())
        _, said, status = self.make("uninstall", *self.words())
        self.assertEqual((status, self.files()), (0, set()), said)

    def test_installed_companions_work(self):
        _, said, status = self.make("install", *self.words())
        self.assertEqual(status, 0, said)
        place = os.path.join(self.folder, "stage", "pre", "fix", "bin")
        text = support.stored_traces()["worker.txt"]
        out, said, status = support.called(
            [os.path.join(place, "rast-chart"), "-", "--format", "html"], text)
        self.assertEqual((status, said), (0, ""))
        self.assertIn("p1 send p1:0 strike @0", out)
        path = self.write("a.rast", "accepted\n0\n")
        out, _, status = support.called(
            [os.path.join(place, "rast-many"), path],
            env={**os.environ, "PATH": f"{place}:{os.environ['PATH']}"})
        self.assertEqual((out[:10], status), ("1 accepted", 0))

    def test_not_built(self):
        _, said, status = self.make("install", f"BUILT={self.folder}/none",
                                    f"DESTDIR={self.folder}/stage")
        self.assertEqual(status, 2)
        self.assertIn("The program isn't built. Run this first", said)
        self.assertIn("(cd crates/rast && rt run -- check", said)
        self.assertEqual(self.files(), set())


class Manual(support.WithFolder):
    """The pages of the manual are in order."""

    def pages(self):
        """The paths of the pages."""
        folder = os.path.join(support.TOOLS, "man")
        return [os.path.join(folder, name) for name in sorted(os.listdir(folder))]

    def test_mandoc(self):
        mandoc = support.installed("mandoc")
        for path in self.pages():
            with self.subTest(os.path.basename(path)):
                out, said, _ = support.called([mandoc, "-T", "lint", "-W", "warning", path])
                self.assertEqual((out, said), ("", ""))

    def test_man(self):
        man = support.installed("man")
        if not shutil.which("groff"):
            self.skipTest("groff isn't installed")
        for path in self.pages():
            with self.subTest(os.path.basename(path)):
                out, said, status = support.called(
                    [man, "--warnings", "-l", path],
                    env={**os.environ, "MANPAGER": "cat", "MANWIDTH": "80", "LC_ALL": "C.UTF-8"})
                self.assertEqual((said, status), ("", 0))
                self.assertIn("SYNOPSIS", out)
