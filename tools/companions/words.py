"""The tokens of a file, as far as the companions need them: `rast` alone says what is a file."""

import re

# The keywords, by what an editor shows of them. `tools/test` compares them with the lexer's.
KEYWORDS = {
    "item": ("type", "decl", "proc", "eq", "exec", "explicit"),
    "step": ("case", "close", "wait", "send", "recv", "impossible", "by", "refl", "if", "when",
             "now"),
    "logic": ("assert", "assume", "all", "ex", "true", "false"),
    "cost": ("work", "pay", "get", "delay"),
}
ALL_KEYWORDS = frozenset(word for words in KEYWORDS.values() for word in words)

TOKEN = re.compile(
    r"(?P<blank>[ \t\r\n]+|%[^\n]*)|(?P<word>[A-Za-z][A-Za-z0-9_]*)|(?P<number>[0-9]+)|"
    r"(?P<symbol><->|<-|<=|<>|=>|>=|/\\|\\/|-o(?![A-Za-z0-9_])|[-<>=+&*?!.,:;|~{}()\[\]])")


class Wrong(Exception):
    """The text isn't as it should be at a place."""

    def __init__(self, place):
        super().__init__(f"at byte {place}")
        self.place = place


class Token:
    """A token: its kind (its text, `name` or `number`), its text and its place."""

    def __init__(self, kind, text, place):
        self.kind, self.text, self.place = kind, text, place


def tokens(text):
    """The tokens of a text, whose characters stand for bytes."""
    found, place = [], 0
    while place < len(text):
        match = TOKEN.match(text, place)
        if match is None:
            raise Wrong(place)
        if match.lastgroup != "blank":
            found.append(Token(kind_of(match), match.group(), place))
        place = match.end()
    return found


def kind_of(match):
    """The kind of a matched token."""
    text = match.group()
    if match.lastgroup == "word":
        return text if text in ALL_KEYWORDS else "name"
    return "number" if match.lastgroup == "number" else text
