"""Which ways a list is about: those that are visible and not dropped, with their parts; what is constant besides them;
and their guards with constants and plain flows put in place. Not proved."""
from dataclasses import dataclass, field, replace

from translate import expressions
from translate.refused import Refused
from translate.system import Set


@dataclass
class Asked:
    """What is asked: events that are dropped, events that happen at once, whether a synchronised event is one event for
    all its choices of ways (`broadcast`), and whether an order has each event once (in tests)."""
    drop: frozenset = frozenset()
    at_once: frozenset = frozenset()
    broadcast: bool = False
    once: bool = False


@dataclass
class Live:
    """A way that may happen by itself, with the local ways that it consists of, each with its mark."""
    order: int
    event: str
    number: int
    is_local: bool
    parts: list
    also: tuple = ()
    groups: list = field(default_factory=list)

    @property
    def place(self):
        return self.source.place

    source: object = None


class Ways:
    """The live ways of a system."""

    def __init__(self, system, asked):
        self.system, self.asked, self.notes = system, asked, []
        self._plain, self._flow = {}, {}
        unknown = [event for event in asked.drop if event not in system.fired]
        if unknown:
            raise Refused("--drop names no event with a transition: %s" % ", ".join(sorted(unknown)))
        self.live = [Live(order, way.event, way.number, way.parts is None, self._parts(way), source=way)
                     for order, way in enumerate(system.ways) if not way.hidden and way.event not in asked.drop]
        if asked.broadcast:
            self._broadcast()
        self._note_parts()
        self._constants()

    def note(self, text, place=None):
        if (text, place) not in self.notes:
            self.notes.append((text, place))

    def _parts(self, way):
        """The local ways of a way, each with its mark; a synchronised part is taken apart."""
        if way.parts is None:
            return [("!", way)]
        found = []
        for mark, event, number in way.parts:
            inner = self.system.way[event, number]
            deep = self._parts(inner)
            if inner.parts is None:
                found.append((mark, inner))
            elif len(deep) == 1:
                found.append((mark, deep[0][1]))
            elif mark == "!" and any(m == "!" for m, _ in deep):
                found += deep
            else:
                raise Refused("%s: its part %s is itself a synchronisation, and is optional or has optional parts alone"
                              % (way.event, event), way.place)
        return found

    def _note_parts(self):
        """Says where optional parts mean something else than in AltaRica 3.0."""
        for event in self.system.events.values():
            parts = self.system.parts_of.get(event.path)
            if not parts or event.path in self.asked.drop:
                continue
            several = "several transitions: the event may take one that cannot move it; --broadcast takes the one that can"
            for mark, part, place in parts:
                count = len(self.system.ways_of(part))
                if not count:
                    self.note("%s: its part %s has no transition, so the whole event never happens" % (event.path, part), place)
                elif count > 1 and mark == "?" and not self.asked.broadcast:
                    self.note("%s: its part %s has %s" % (event.path, part, several), place)

    def _broadcast(self):
        """One way for all choices of ways of a synchronised event: each part takes the way that it can."""
        whole, kept = {}, []
        for one in self.live:
            shape = one.event, tuple((mark, way.event) for mark, way in one.parts)
            first = whole.setdefault(shape, one)
            if one.is_local or first is one:
                kept.append(one)
                continue
            first.parts += [part for part in one.parts if not any(part[1] is other for _, other in first.parts)]
        self.live = kept

    def _constants(self):
        """Finds the states that nothing moves; a way whose guard is then false moves nothing, and so on."""
        used = {(way.event, way.number): way for one in self.live for _, way in one.parts}
        while True:
            moved = {one.target for way in used.values() for one in way.sets}
            self.constants = {path: ("value", self.system.variables[path].value)
                              for path in self.system.states if path not in moved}
            self._flow = {}
            dead = [key for key, way in used.items()
                    if expressions.value(expressions.replaced(way.guard, self.constants), {}) is False
                    or expressions.value(self._with_flows(way.guard), {}) is False]
            if not dead:
                break
            for key in dead:
                del used[key]
        self.alive = used
        self.moved = [path for path in self.system.states if path in moved]

    def is_alive(self, way):
        return (way.event, way.number) in self.alive

    def _with_flows(self, tree, seen=()):
        """The tree with constants put in place, and with each flow that one assignment without conditions defines."""
        tree = expressions.replaced(tree, self.constants)
        found = {}
        for path in expressions.names(tree):
            defined = self.system.defined.get(path, [])
            if self.system.variables[path].is_state or path in seen or len(defined) != 1 or defined[0].conditions:
                continue
            if path not in self._flow:
                self._flow[path] = self._with_flows(defined[0].value, (*seen, path))
            found[path] = self._flow[path]
        return expressions.replaced(tree, found)

    def plain(self, way):
        """The way over states alone, and the states that it names; Refused where it reads a flow without one plain
        definition."""
        key = way.event, way.number
        if key not in self._plain:
            sets = [Set(one.target, self._with_flows(one.value), [(self._with_flows(c), w) for c, w in one.conditions])
                    for one in way.sets]
            found = replace(way, guard=self._with_flows(way.guard), sets=sets)
            named = expressions.names(found.guard).union(
                *({one.target} | expressions.names(one.value) | set().union(*(expressions.names(c) for c, _ in one.conditions))
                  for one in sets))
            self._only_states(way, named)
            self._plain[key] = found, named
        return self._plain[key]

    def _only_states(self, way, named):
        for path in sorted(named):
            if not self.system.variables[path].is_state:
                raise Refused("%s: its guard or its action reads the flow %s, %s" % (way.event, path, self._why(path)), way.place)
        for path in sorted(expressions.names(way.guard)):
            if not self.system.variables[path].is_state:
                self.note("%s: the flow %s in its guard is read as its definition" % (way.event, path), way.place)

    def _why(self, path):
        count = len(self.system.defined.get(path, []))
        if not count:
            return "which nothing sets"
        if count > 1 or self.system.defined[path][0].conditions:
            return "which has no single definition without conditions"
        return "which depends on itself"
