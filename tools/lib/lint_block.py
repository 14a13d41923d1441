"""What `lint` knows of one main block: its flat system, its trees of modes and the cuts that were asked for. Not proved."""
from collections import namedtuple

import model
import texts
from command import Refused

Finding = namedtuple("Finding", "line column rule text")
Asked = namedtuple("Asked", "main observers")
"""A main block (None: the last one) and the observers that are asked for in it."""
OUTSIDE = 4
"""The program's status for a model that is outside of the static fragment."""


class Block:
    """A main block with what was found in it."""

    def __init__(self, file, asked, value, drop):
        self.source, self.observers = model.Source(file, asked.main), asked.observers
        self.value, self.drop = value or "true", [event for event in (drop or "").split(",") if event]
        self.left = left = [] if drop is None else ["--drop=" + drop]
        wanted = left if value is None else left + ["--value=" + value]
        self.flat, self.tree, self.found = self.source.flat, self.source.tree, []
        self.domains = {p: texts.values_of(v.domain) for p, v in self.flat.variables.items()}
        self.cuts = {o: texts.cuts(self.source.ask("cuts", ["--observer=" + o, *wanted])) for o in self.observers}
        self.nodes = {node.path: node for node in self.tree.nodes}
        self.trees = self.fragment(left)

    def fragment(self, left):
        """The trees of modes, or None of a model that has none."""
        try:
            return texts.fragment(self.source.ask("fragment", left))
        except Refused as refused:
            if refused.status != OUTSIDE:
                raise
            return None

    @property
    def name(self):
        return self.tree.bodies.main.name.text

    @property
    def without(self):
        return " without the dropped events" if self.drop else ""

    def live_events(self):
        """The events that can be fired without the dropped ones."""
        return {texts.event_of(e.label) for t in self.trees or () for e in t.edges}

    def used_events(self):
        """The events that are in a cut of one of the observers."""
        return {texts.event_of(label) for cuts in self.cuts.values() for line in cuts for label in line}

    def events_of(self, observer):
        """The events that are in a cut of another observer, none where the program refuses the list."""
        try:
            return {texts.event_of(label) for cut in texts.cuts(self.source.ask("cuts", ["--observer=" + observer, *self.left])) for label in cut}
        except Refused:
            return set()

    def place(self, path):
        """The line and the column of the declaration of a thing."""
        name = self.tree.places[path][1]
        return name.line, name.column

    def say(self, rule, path, what):
        kind, variable = self.tree.places[path][0], self.flat.variables.get(path)
        kind = kind if variable is None else "state" if variable.state else "flow"
        self.found.append(Finding(*self.place(path), rule, "%s %s %s" % (kind, path, what)))

    def say_unit(self, rule, path, what):
        """The same of a unit, at its declaration in the unit above."""
        above, _, last = path.rpartition(".")
        name = next(name for name, kind, _ in self.tree.bodies.names(self.nodes[above].scope.unit) if kind == "unit" and name.text == last)
        self.found.append(Finding(name.line, name.column, rule, "unit %s %s" % (path, what)))

    def is_written_in(self, unit, one):
        """Whether an assignment is written in the body of this unit."""
        if unit not in self.nodes:
            return False
        members = self.tree.bodies.members(self.nodes[unit].scope.unit)
        return any(it.kind == "assertion" and (it.first.line, it.first.column) <= (one.line, one.column) <= (
            it.last.line, it.last.column) for it in members)


def place_of(one):
    return "%d:%d" % (one.line, one.column)


def places_of(ones):
    return " and at ".join(map(place_of, ones))


def shortened(words):
    """A list of words, of which the middle is left out where there are many."""
    return words if len(words) < 9 else words[:4] + ["%d more" % (len(words) - 5), words[-1]]
