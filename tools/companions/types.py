"""The type definitions of a file, read for a picture of them."""

from collections import namedtuple

from companions.words import Wrong, tokens

ITEMS = ("type", "decl", "proc", "eq", "exec")

# A definition: its name, its parameters and its type.
Definition = namedtuple("Definition", "name parameters type")

# A type: its kind, a text (a variable, a formula, a number or a name), its parts (pairs of a
# label and a type), and, for a name, the texts of its arguments.
Type = namedtuple("Type", "kind text parts arguments", defaults=("", (), ()))

# The kinds whose first message the provider sends, and those whose client does.
PROVIDER = frozenset(("plus", "tensor", "one", "some", "assert", "pays"))
CLIENT = frozenset(("with", "lolli", "each", "assume", "gets"))
CHOICES = frozenset(("plus", "with"))


class Reader:
    """Reads the type definitions among the items of a file, and passes the other items over."""

    def __init__(self, text):
        self.tokens, self.at, self.end = tokens(text), 0, len(text)

    def peek(self, ahead=0):
        """The kind of a token that comes, none behind the last."""
        at = self.at + ahead
        return self.tokens[at].kind if at < len(self.tokens) else None

    def place(self):
        """The place of the next token."""
        return self.tokens[self.at].place if self.at < len(self.tokens) else self.end

    def take(self, kind):
        """The text of the next token, which is of this kind."""
        if self.peek() != kind:
            raise Wrong(self.place())
        self.at += 1
        return self.tokens[self.at - 1].text

    def takes(self, kind):
        """Whether the next token is of this kind; then it is taken."""
        if self.peek() == kind:
            self.at += 1
            return True
        return False

    def definitions(self):
        """The definitions by name, of which the first of a name counts."""
        found = {}
        while self.at < len(self.tokens):
            if self.takes("type"):
                definition = self.definition()
                found.setdefault(definition.name, definition)
            else:
                self.at += 1
        return found

    def definition(self):
        """A definition behind its `type`."""
        name, parameters = self.take("name"), []
        while self.takes("{"):
            parameters.append(self.take("name"))
            self.take("}")
        self.take("=")
        made = Definition(name, tuple(parameters), self.type())
        if self.peek() is not None and self.peek() not in ITEMS:
            raise Wrong(self.place())
        return made

    def braced(self):
        """The text between two braces, with its blanks put in order."""
        self.take("{")
        words = []
        while self.peek() not in ("}", None):
            words.append(self.tokens[self.at].text)
            self.at += 1
        self.take("}")
        return joined(words)

    def type(self):
        """A type."""
        for sign, kinds in (("?", ("some", "assert")), ("!", ("each", "assume"))):
            if self.takes(sign):
                return self.quantified(*kinds)
        if self.takes("|"):
            return self.under("pays", ">")
        if self.takes("<"):
            return self.under("gets", "|")
        if self.peek() == "(" and self.peek(1) in (")", "{"):
            return self.later()
        return self.joined_types()

    def quantified(self, number, formula):
        """What follows a `?` or `!`."""
        is_number = self.peek() == "name"
        kind = number if is_number else formula
        text = self.take("name") if is_number else self.braced()
        self.take(".")
        return Type(kind, text, (("", self.type()),))

    def under(self, kind, close):
        """A potential and what follows it."""
        text = self.braced()
        self.take(close)
        return Type(kind, text, (("", self.type()),))

    def later(self):
        """Ticks and what follows them."""
        self.take("(")
        text = self.braced() if self.peek() == "{" else "1"
        self.take(")")
        return Type("next", text, (("", self.type()),))

    def joined_types(self):
        """An atom, and behind it what goes on after a sent channel."""
        first = self.atom()
        for sign, kind in (("*", "tensor"), ("-o", "lolli")):
            if self.takes(sign):
                return Type(kind, "", (("", first), ("", self.type())))
        return first

    def atom(self):
        """The end, a choice, a name, or a type in parentheses."""
        for sign, kind in (("+", "plus"), ("&", "with")):
            if self.takes(sign):
                return self.choice(kind)
        if self.peek() == "number" and self.tokens[self.at].text == "1":
            self.at += 1
            return Type("one")
        if self.takes("("):
            inner = self.type()
            self.take(")")
            return inner
        name, arguments = self.take("name"), []
        while self.peek() == "{":
            arguments.append(self.braced())
        return Type("named", name, (), tuple(arguments))

    def choice(self, kind):
        """The labels of a choice and what follows each."""
        parts = []
        self.take("{")
        while not parts or self.takes(","):
            label = self.take("name")
            self.take(":")
            parts.append((label, self.type()))
        self.take("}")
        return Type(kind, "", tuple(parts))


def joined(words):
    """Words with one blank between, but none inside of parentheses and brackets."""
    text = " ".join(words)
    for sign in ("(", "["):
        text = text.replace(sign + " ", sign)
    for sign in (")", "]"):
        text = text.replace(" " + sign, sign)
    return text


def definitions(text):
    """The type definitions of a file's text."""
    return Reader(text).definitions()


def shown(type_, atom=False):
    """The text of a type."""
    kind, parts = type_.kind, type_.parts
    if kind == "one":
        return "1"
    if kind == "named":
        return type_.text + "".join("{" + argument + "}" for argument in type_.arguments)
    if kind in CHOICES:
        inner = ", ".join(f"{label} : {shown(part)}" for label, part in parts)
        return ("+" if kind == "plus" else "&") + "{" + inner + "}"
    if kind in ("tensor", "lolli"):
        sign = "*" if kind == "tensor" else "-o"
        text = f"{shown(parts[0][1], True)} {sign} {shown(parts[1][1])}"
    else:
        text = lead(type_) + " " + shown(parts[0][1])
    return f"({text})" if atom else text


def lead(type_):
    """What stands before the rest of a type with one part."""
    kind, text = type_.kind, type_.text
    if kind == "next":
        return "()" if text == "1" else "({" + text + "})"
    return {"some": f"?{text}.", "each": f"!{text}.", "assert": "?{" + text + "}.",
            "assume": "!{" + text + "}.", "pays": "|{" + text + "}>",
            "gets": "<{" + text + "}|"}[kind]
