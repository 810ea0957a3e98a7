"""The editor files and completions, each in its program where that is installed."""

import json
import os
import re

import support

EDITORS = os.path.join(support.TOOLS, "editors")
COMPLETIONS = os.path.join(support.TOOLS, "completions")

PROGRAM = """explicit
% a comment
type nat = +{z : 1, s : nat}
decl copy{n} : (y : nat) |{2 * n}- (x : nat)
proc x <- copy{n} y = case y (
    z => x.z ; wait y ; work {1} ; close x
  | s => x.s ; x <- copy{n} y )
exec copy
"""

# What stands at places of the program: the line, the word, and its group in Vim and its face in
# Emacs.
COLOURS = (
    (1, "explicit", "rastItem", "font-lock-keyword-face"),
    (2, "comment", "rastComment", "font-lock-comment-face"),
    (3, "nat", "rastDefined", "font-lock-function-name-face"),
    (3, "z", "rastField", "font-lock-constant-face"),
    (4, "{2", "rastPotential", None),
    (5, "copy", "rastDefined", "font-lock-function-name-face"),
    (5, "case", "rastStep", "font-lock-keyword-face"),
    (6, "z =>", "rastBranch", "font-lock-constant-face"),
    (6, "z ;", "rastLabelSend", "font-lock-constant-face"),
    (6, "work", "rastCost", "font-lock-builtin-face"),
)


def column(line, word):
    """The column of a word in a line of the program, from 1."""
    return PROGRAM.splitlines()[line - 1].index(word) + 1


class Vim(support.WithFolder):
    """The Vim files, in Vim."""

    def run_vim(self, script):
        """What a script writes into the file `said`, in a Vim that has opened the program."""
        vim = support.installed("vim")
        if "+syntax" not in support.called([vim, "--version"])[0]:
            self.skipTest("this vim has no colours")
        path = self.write("program.rast", PROGRAM)
        said = os.path.join(self.folder, "said")
        lines = [f"set runtimepath^={EDITORS}/vim", "filetype plugin indent on", "syntax on",
                 f"edit {path}", *script, f"call writefile(g:said, '{said}')", "qa!"]
        source = self.write("script.vim", "let g:said = []\n" + "\n".join(lines) + "\n")
        support.called([vim, "-N", "-u", "NONE", "-i", "NONE", "-es", "-S", source])
        with open(said, encoding="utf-8") as file:
            return file.read().splitlines()

    def test_colours(self):
        script = [f"call add(g:said, synIDattr(synID({line}, {column(line, word)}, 1), 'name'))"
                  for line, word, _, _ in COLOURS]
        self.assertEqual(self.run_vim(script), [group for _, _, group, _ in COLOURS])

    def test_kind_and_comment(self):
        self.assertEqual(self.run_vim(["call add(g:said, &filetype . &commentstring)"]),
                         ["rast% %s"])

    def test_indent(self):
        script = ["%left", "normal! gg=G", "let g:said = getline(1, '$')"]
        self.assertEqual(self.run_vim(script), PROGRAM.splitlines())

    def test_indent_of_examples(self):
        support.installed("vim")
        for name in ("append.rast", "queue.rast", "rate.rast"):
            with self.subTest(name):
                path = os.path.join(support.EXAMPLES, name)
                script = [f"edit {path}", "normal! gg=G", "let g:said = getline(1, '$')"]
                self.assertEqual(self.run_vim(script),
                                 support.read("examples", name).splitlines())


class VsCode(support.WithFolder):
    """The VS Code files, as data: they weren't tried in the editor."""

    def data(self, *parts):
        """A file's JSON."""
        return json.loads(support.read("tools", "editors", "vscode", *parts))

    def test_files_are_there(self):
        gives = self.data("package.json")["contributes"]
        places = [row["configuration"] for row in gives["languages"]]
        places += [row["path"] for row in gives["grammars"]]
        for place in places:
            self.data(place)
        grammar = self.data(gives["grammars"][0]["path"])
        self.assertEqual(grammar["scopeName"], gives["grammars"][0]["scopeName"])

    def rows(self):
        """The expressions of the grammar with their names."""
        grammar = self.data("syntaxes", "rast.tmLanguage.json")
        rows = grammar["patterns"] + list(grammar["repository"].values())
        return [row for row in rows if "match" in row]

    def test_expressions(self):
        matched = set()
        for row in self.rows():
            expression = re.compile(row["match"], re.M)
            for capture in row.get("captures", {}):
                self.assertLessEqual(int(capture), expression.groups)
            if expression.search(PROGRAM):
                matched.add(row.get("name", row["match"]))
        self.assertIn("comment.line.percentage.rast", matched)
        self.assertGreaterEqual(len(matched), 10)

    def test_indent_rules(self):
        rules = self.data("language-configuration.json")["indentationRules"]
        self.assertTrue(re.search(rules["increaseIndentPattern"], "proc x <- f y = case y ("))
        self.assertFalse(re.search(rules["increaseIndentPattern"], "  | s => x.s ; close x"))
        self.assertTrue(re.search(rules["decreaseIndentPattern"], "  decl f"))


class Emacs(support.WithFolder):
    """The Emacs mode, in Emacs."""

    def test_colours(self):
        emacs = support.installed("emacs")
        path = self.write("program.rast", PROGRAM)
        places = [(line, column(line, word), face) for line, word, _, face in COLOURS if face]
        faces = " ".join(f"(at {line} {at})" for line, at, _ in places)
        script = self.write("script.el", f"""
(load "{EDITORS}/emacs/rast-mode.el" nil t)
(find-file "{path}")
(font-lock-ensure)
(defun at (line column)
  (goto-char (point-min)) (forward-line (1- line)) (forward-char (1- column))
  (let ((face (get-text-property (point) 'face)))
    (princ (format "%s\\n" (if (consp face) (car face) face)))))
(princ (format "%s\\n" major-mode))
(list {faces})
""")
        out, said, status = support.called([emacs, "--batch", "-Q", "-l", script])
        self.assertEqual(status, 0, said)
        self.assertEqual(out.splitlines(), ["rast-mode"] + [face for _, _, face in places])


class Shells(support.WithFolder):
    """The completions, in their shells."""

    def setUp(self):
        super().setUp()
        self.write("one.rast", "type nat = 1\ntype list{n} = nat\n")
        self.write("notes.txt", "")
        self.bin = os.path.join(self.folder, "bin")
        for name in ("rast", "rast-chart", "rast-states", "rast-many"):
            os.chmod(self.write(f"bin/{name}", "#!/bin/sh\n"), 0o755)

    CASES = (("rast ", {"run", "check", "show", "decide"}), ("rast ru", {"run"}),
             ("rast run --", {"--budget", "--trace"}), ("rast check o", {"one.rast"}),
             ("rast-chart --fo", {"--format", "--fold"}),
             ("rast-chart --format ", {"svg", "html", "mermaid"}))

    def check(self, answers):
        """That each line of words is completed as it should be."""
        self.assertEqual(len(answers), len(self.CASES))
        for (line, wanted), found in zip(self.CASES, answers):
            with self.subTest(line):
                self.assertEqual({word.rstrip("/ =") for word in found}, wanted)

    def test_bash(self):
        bash = support.installed("bash")
        answers = []
        for line, _ in (*self.CASES, ("rast-states one.rast ", None)):
            name = line.split(" ")[0].replace("-", "_")
            script = (f'source {COMPLETIONS}/rast.bash; COMP_WORDS=({line} ""); '
                      f'[[ "{line}" == *" " ]] || COMP_WORDS=({line}); '
                      f'COMP_CWORD=$(( ${{#COMP_WORDS[@]}} - 1 )); _{name}; '
                      'printf "%s\\n" "${COMPREPLY[@]}"')
            out, said, _ = support.called([bash, "-c", script], cwd=self.folder)
            self.assertEqual(re.sub(r".*compopt.*\n", "", said), "")
            answers.append(out.split())
        self.assertEqual(answers.pop(), ["nat", "list"])
        self.check(answers)

    def test_fish(self):
        fish = support.installed("fish")
        answers = []
        for line, _ in self.CASES:
            script = f'source {COMPLETIONS}/rast.fish; complete -C "{line}"'
            out, said, _ = support.called(
                [fish, "--no-config", "-c", script], cwd=self.folder,
                env={**os.environ, "PATH": f"{self.bin}:{os.environ['PATH']}",
                     "HOME": self.folder, "XDG_CONFIG_HOME": self.folder})
            self.assertEqual(said, "")
            answers.append([row.split("\t")[0] for row in out.splitlines() if row[:3] != "bin"])
        self.check(answers)

    def test_zsh(self):
        zsh = support.installed("zsh")
        script = self.write("try.zsh", ZSH.format(place=COMPLETIONS))
        answers = []
        for line, _ in self.CASES:
            out, _, _ = support.called(
                [zsh, "-f", script, line], cwd=self.folder,
                env={**os.environ, "PATH": f"{self.bin}:{os.environ['PATH']}",
                     "HOME": self.folder, "TERM": "xterm"})
            found = re.search(r"<<(.*?)>>", out, re.S)
            answers.append(found[1].split() if found else [])
        self.check(answers)


# Completes a line in a zsh of its own, and prints the matches that the shell has collected.
ZSH = """
rm -f $HOME/got
zmodload zsh/zpty
zpty inner zsh -f -i
zpty -w inner "fpath=({place} \\$fpath); autoload -Uz compinit; compinit -u -d $HOME/dump"
zpty -w inner "PS1=; unsetopt zle_bracketed_paste; zstyle ':completion:*' list-colors ''"
zpty -w inner 'collect() {{ compstate[list]=; local -a all; _main_complete; }}'
zpty -w inner 'compadd() {{ local -a got; builtin compadd -O got "$@"'
zpty -w inner 'print -rn -- "${{got[*]}} " >> $HOME/got; builtin compadd "$@"; }}'
zpty -w inner 'zle -C collect complete-word collect; bindkey "^T" collect'
sleep 1
zpty -w -n inner "$1"$'\\C-t'
repeat 50; do sleep 0.1; [[ -s $HOME/got ]] && break; done
sleep 0.3
print "<<$(cat $HOME/got 2>/dev/null)>>"
zpty -d inner
"""
