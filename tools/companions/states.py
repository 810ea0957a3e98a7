"""A type as states and the arrows between them: what each side may do, and when."""

from collections import namedtuple

from companions.types import CHOICES, CLIENT, PROVIDER, shown

PROVIDES, USES, NOBODY = "provider", "client", "nobody"
COLOURS = {PROVIDES: "#1d4ed8", USES: "#c2410c", NOBODY: "#475569"}
FILLS = {PROVIDES: "#eff6ff", USES: "#fff7ed", NOBODY: "#e2e8f0"}

# A state: its text, and who acts in it.
State = namedtuple("State", "text who")

# An arrow: the numbers of its states, and its actions, which are pairs of who acts and a text.
Arrow = namedtuple("Arrow", "source target actions")

# The most characters of the type of a sent channel on an arrow.
MOST = 24


class Unknown(Exception):
    """There is no type of this name."""


def who_of(type_):
    """Who acts first in a type."""
    if type_.kind in PROVIDER and type_.kind != "one":
        return PROVIDES
    return USES if type_.kind in CLIENT else NOBODY


def action_of(type_):
    """What happens at the beginning of a type that has one next."""
    kind, text = type_.kind, type_.text
    if kind in ("tensor", "lolli"):
        sent = shown(type_.parts[0][1])
        text = "(" + (sent if len(sent) <= MOST else sent[:MOST - 2] + "..") + ")"
    elif kind in ("some", "each"):
        text = "{" + text + "}"
    elif kind in ("assert", "assume"):
        text = "[" + text + "]"
    elif kind in ("pays", "gets"):
        text = "pays " + text
    else:
        text = f"+{text} tick" + ("" if text == "1" else "s")
    return who_of(type_), text


class States:
    """The states of a type and the arrows between them. The first state is the type's own."""

    def __init__(self, definitions, name):
        self.definitions = definitions
        self.states, self.arrows, self.number = [], [], {}
        self.named(name)

    def new(self, key, text, who):
        """A new state."""
        self.number[key] = len(self.states)
        self.states.append(State(text, who))
        return self.number[key]

    def named(self, name):
        """The state of a defined name."""
        if name in self.number:
            return self.number[name]
        if name not in self.definitions:
            raise Unknown(name)
        definition = self.definitions[name]
        text = name + "".join("{" + parameter + "}" for parameter in definition.parameters)
        state = self.new(name, text, who_of(definition.type))
        self.leave(state, definition.type, name)
        return state

    def leave(self, state, type_, key):
        """The arrows from a state, at which a type begins."""
        if type_.kind in CHOICES:
            for label, part in type_.parts:
                self.follow(state, [(who_of(type_), label)], part, f"{key}.{label}")
        else:
            self.follow(state, [], type_, key + ".")

    def follow(self, state, actions, type_, key):
        """The arrow from a state by some actions, which goes on to the next choice or name."""
        while type_.kind not in CHOICES and type_.kind not in ("one", "named"):
            actions = [*actions, action_of(type_)]
            type_ = type_.parts[-1][1]
        if type_.kind == "named":
            target = self.named(type_.text)
            actions = [*actions, *self.changes(type_)]
        elif type_.kind == "one":
            target = self.number.get("end of session")
            if target is None:
                target = self.new("end of session", "end", NOBODY)
        else:
            target = self.new(key, "+" if type_.kind == "plus" else "&", who_of(type_))
            self.leave(target, type_, key)
        self.arrows.append(Arrow(state, target, tuple(actions)))

    def changes(self, type_):
        """The parameters of a name that get other values, in one text."""
        parameters = self.definitions[type_.text].parameters
        pairs = zip(parameters, type_.arguments)
        changed = [f"{name} := {value}" for name, value in pairs if name != value]
        return [(NOBODY, ", ".join(changed))] if changed else []

    def title(self):
        """The name of the type."""
        return "type " + self.states[0].text
