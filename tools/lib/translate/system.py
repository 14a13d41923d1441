"""What a model is: variables, ways, assignments of flows and observers, with paths from the main block. Not proved."""
from dataclasses import dataclass, field
from typing import Any

from translate import expressions


class Fault(Exception):
    """A step or the flows of a state go wrong."""


@dataclass(frozen=True)
class Domain:
    """Of a variable: its name in the text, and its values in order."""
    name: str
    values: tuple

    def has(self, it):
        return any(type(one) is type(it) and one == it for one in self.values)


@dataclass
class Variable:
    path: str
    is_state: bool
    domain: Domain
    value: Any
    unit: str
    member: Any
    token: Any


@dataclass
class Set:
    """An assignment under conditions, each with the truth value that it must have."""
    target: str
    value: tuple
    conditions: list = field(default_factory=list)


@dataclass
class Way:
    """A local way has a guard and sets; a synchronised one has parts: (mark, event, number of the way)."""
    event: str
    number: int
    hidden: bool
    unit: str
    member: Any
    guard: Any = None
    sets: list = field(default_factory=list)
    parts: Any = None

    @property
    def place(self):
        return self.member.name


@dataclass
class Event:
    path: str
    unit: str
    member: Any
    at_once: bool


class System:
    """A model. `events` are those of the text in order, `fired` those with a way; `parts_of` has for each event that is
    synchronised (mark, event, place in the text) of its parts."""

    def __init__(self, variables, events, ways, assignments, observers, parts_of=None):
        self.variables = {v.path: v for v in variables}
        self.events = {e.path: e for e in events}
        self.ways, self.assignments, self.observers = ways, assignments, observers
        self.way = {(w.event, w.number): w for w in ways}
        self.parts_of, self._ways_of = parts_of or {}, {}
        for way in ways:
            self._ways_of.setdefault(way.event, []).append(way)
        self.fired = list(dict.fromkeys(w.event for w in ways))
        self.states = [p for p, v in self.variables.items() if v.is_state]
        self.defined = {}
        for one in assignments:
            self.defined.setdefault(one.target, []).append(one)

    def ways_of(self, event):
        return self._ways_of.get(event, [])

    def start(self):
        return {p: self.variables[p].value for p in self.states}

    def flows(self, states):
        """The values of all variables at values of the states; Fault where the flows contradict each other."""
        known = dict(states)
        self._follow(known)
        for path, variable in self.variables.items():
            if path in known and not variable.domain.has(known[path]):
                raise Fault("%s is outside its domain" % path)
            known.setdefault(path, variable.value)
        for one in self.assignments:
            if self._applies(one, known) and expressions.value(one.value, known) != known[one.target]:
                raise Fault("an assignment of %s does not hold" % one.target)
        return known

    @staticmethod
    def _applies(one, known):
        return all(expressions.value(test, known) == wanted for test, wanted in one.conditions)

    def _follow(self, known):
        """Adds what follows from the values that are known, until nothing more does."""
        again = True
        while again:
            again = False
            for one in self.assignments:
                it = expressions.value(one.value, known) if self._applies(one, known) else None
                if it is not None and one.target not in known:
                    known[one.target] = it
                    again = True
                elif it is not None and known[one.target] != it:
                    raise Fault("%s has two values" % one.target)

    def effect(self, way, known):
        """What a way sets where `known` has the values that it names, or None where it cannot happen."""
        if way.parts is None:
            return self._local(way, known)
        found, some = {}, False
        for mark, event, number in way.parts:
            one = self.effect(self.way[event, number], known)
            if one is None:
                if mark == "!":
                    return None
                continue
            some = True
            for target, it in one.items():
                if found.get(target, it) != it:
                    raise Fault("it gives %s two values" % target)
                found[target] = it
        return found if some else None

    def _local(self, way, known):
        if not expressions.value(way.guard, known):
            return None
        found = {}
        for one in way.sets:
            if all(expressions.value(test, known) == wanted for test, wanted in one.conditions):
                it = expressions.value(one.value, known)
                if found.get(one.target, it) != it:
                    raise Fault("it gives %s two values" % one.target)
                if not self.variables[one.target].domain.has(it):
                    raise Fault("it gives %s a value outside its domain" % one.target)
                found[one.target] = it
        return found
