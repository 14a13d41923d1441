"""Groups: the state variables that some way reads or sets together; and what ways do to the values of a group. Not
proved."""
from dataclasses import dataclass, field
from typing import Any

from translate import expressions
from translate.refused import Refused
from translate.system import Fault

MOST_VALUATIONS = 4096


class Joined:
    """Things that are joined with each other, in the order in which they came."""

    def __init__(self, things):
        self.top = {thing: thing for thing in things}

    def of(self, thing):
        while self.top[thing] != thing:
            self.top[thing] = self.top[self.top[thing]]
            thing = self.top[thing]
        return thing

    def join(self, things):
        things = [self.of(thing) for thing in things if thing in self.top]
        for thing in things[1:]:
            self.top[self.of(thing)] = self.of(things[0])

    def classes(self):
        found = {}
        for thing in self.top:
            found.setdefault(self.of(thing), []).append(thing)
        return list(found.values())


@dataclass(eq=False)
class Node:
    """A mode of a new state variable: values of the group, and a least set of events that leads to them."""
    component: Any
    values: tuple
    number: int
    events: frozenset
    moves: list = field(default_factory=list)
    name: str = ""


@dataclass(eq=False)
class Component:
    """A tree of modes. `parent` is the node from which the ways `by` of shocks lead to it, `used` the shocks so far, `keys`
    the lists of ways that can have led here."""
    group: Any
    number: int
    used: tuple
    parent: Any
    by: list
    keys: list = field(default_factory=list)
    nodes: list = field(default_factory=list)
    inner: list = field(default_factory=list)
    variable: str = ""


@dataclass(eq=False)
class Group:
    """State variables, the live ways that move them alone, and the shocks that move others too."""
    number: int
    variables: list
    own: list = field(default_factory=list)
    shocks: list = field(default_factory=list)
    components: list = field(default_factory=list)
    least: dict = field(default_factory=dict)
    cluster: Any = None

    def add(self, used, parent, by):
        found = Component(self, len(self.components), used, parent, by)
        self.components.append(found)
        if parent:
            parent.component.inner.append(found)
        return found


class Groups:
    """The groups of a system, and what its live ways do to their values."""

    def __init__(self, ways):
        self.ways, self.system, self.asked = ways, ways.system, ways.asked
        self.effects = {}
        joined = Joined(ways.moved)
        for way in ways.alive.values():
            joined.join(ways.plain(way)[1])
        if self.asked.once:
            self._join_events(joined)
        self.groups = [Group(number, paths) for number, paths in enumerate(joined.classes())]
        self.group_of = {path: group for group in self.groups for path in group.variables}
        self.shocks = []
        for one in ways.live:
            self._place(one)
        self._leave_out_impossible()

    def _leave_out_impossible(self):
        """Leaves out shocks of which a required part is never possible, as the end of a repair whose start is dropped."""
        again = True
        while again:
            dead = [one for one in self.shocks if any(self._never(one, group) for group in one.groups)]
            again = bool(dead)
            for one in dead:
                self.ways.note("%s can never happen" % one.event, one.place)
                self.shocks.remove(one)
                for group in one.groups:
                    group.shocks.remove(one)

    def _never(self, one, group):
        """Whether a shock is possible at no values of a group that own ways and shocks may lead to."""
        try:
            values = self.reached(group, self.start(group), group.shocks)
            return all(self.effect(one, group, at) is None for at in values)
        except Refused:
            return False

    def _join_events(self, joined):
        targets = {}
        for way in self.ways.alive.values():
            targets.setdefault(way.event, set()).update(one.target for one in way.sets)
        for one in self.ways.live:
            if one.is_local:
                joined.join(targets.get(one.event, ()))

    def _possible(self, one):
        """Whether no required part of a way has died."""
        alive = {way.event for _, way in one.parts if self.ways.is_alive(way)}
        return all(mark != "!" or way.event in alive for mark, way in one.parts)

    def _place(self, one):
        """Gives a live way to the groups that it reads or moves."""
        if not self._possible(one):
            return
        for _, way in one.parts:
            if self.ways.is_alive(way):
                for path in sorted(self.ways.plain(way)[1]):
                    group = self.group_of[path]
                    if group not in one.groups:
                        one.groups.append(group)
        if len(one.groups) == 1:
            one.groups[0].own.append(one)
        elif one.groups:
            if one.event in self.asked.at_once:
                raise Refused("%s happens at once and moves several units" % one.event, one.place)
            self.shocks.append(one)
            for group in one.groups:
                group.shocks.append(one)

    def show(self, group, values):
        return ", ".join("%s = %s" % (path, expressions.word(it)) for path, it in zip(group.variables, values))

    # -- what a way does ------------------------------------------------------------------------------------------
    def effect(self, one, group, values):
        """None where the way is not possible as far as the group is asked; else whether a part moves the group, and the
        values after it."""
        key = one.order, group.number, values
        if key not in self.effects:
            self.effects[key] = self._effect(one, group, values)
        return self.effects[key]

    def _effect(self, one, group, values):
        found, need, can = {}, set(), {}
        optional = False
        for mark, way in one.parts:
            plain = self.ways.plain(way) if self.ways.is_alive(way) else None
            if plain is None or not any(self.group_of[path] is group for path in plain[1]):
                continue
            optional = optional or mark == "?"
            if mark == "!":
                need.add(way.event)
            sets = self._sets(one, plain[0], group, values)
            if sets is None:
                continue
            if can.setdefault(way.event, sets) != sets:
                raise Refused("%s: its part %s can happen in two ways where %s"
                              % (one.event, way.event, self.show(group, values)), one.place)
            for target, it in sets.items():
                if found.setdefault(target, it) != it:
                    raise Refused("%s where %s: it gives %s two values" % (one.event, self.show(group, values), target),
                                  one.place)
        if need - set(can):
            return None
        if not can and not optional:
            return None if one.is_local else (False, values)
        new = tuple(found.get(path, it) for path, it in zip(group.variables, values))
        if self.asked.at_once and len(one.groups) > 1 and new != values:
            new = self.only_end(group, new, one.event, one.place)
        return bool(can), new

    def _sets(self, one, way, group, values):
        try:
            return self.system.effect(way, dict(zip(group.variables, values)))
        except Fault as fault:
            raise Refused("%s where %s: %s" % (one.event, self.show(group, values), fault), one.place) from fault

    def single(self, group, values):
        """The own ways that change these values, one for each event and end."""
        seen = set()
        for one in group.own:
            found = self.effect(one, group, values)
            if found and found[0] and found[1] != values and (one.event, found[1]) not in seen:
                seen.add((one.event, found[1]))
                yield one, found[1]

    def moves(self, group, values):
        """The own ways that change these values, each with the events that happen at once behind it, and the end."""
        for one, after in self.single(group, values):
            if one.event not in self.asked.at_once:
                for events, end in self.settled(group, after):
                    if end != values:
                        yield one, events, end

    def settled(self, group, values, seen=()):
        """The values at which nothing more happens at once, each with the events up to it."""
        if not self.asked.at_once:
            return [((), values)]
        following = [(one, after) for one, after in self.single(group, values) if one.event in self.asked.at_once]
        if not following:
            return [((), values)]
        if values in seen:
            one = following[0][0]
            raise Refused("%s: events that happen at once go on without end where %s" % (one.event, self.show(group, values)),
                          one.place)
        found = {}
        for one, after in following:
            for events, end in self.settled(group, after, (*seen, values)):
                found[frozenset({one.event, *events}), end] = (one.event, *events), end
        return list(found.values())

    def only_end(self, group, values, what, place=None):
        ends = {end for _, end in self.settled(group, values)}
        if len(ends) > 1:
            raise Refused("%s: what happens at once behind it has several ends (%s)" % (what, self.show(group, values)), place)
        return ends.pop()

    def start(self, group):
        values = tuple(self.system.variables[path].value for path in group.variables)
        return self.only_end(group, values, "the start", self.system.variables[group.variables[0]].token)

    def reached(self, group, values, shocks=()):
        """The values that own ways and these shocks lead to."""
        seen, todo = {values}, [values]
        while todo:
            at = todo.pop()
            after = [end for _, _, end in self.moves(group, at)]
            after += [found[1] for one in shocks if (found := self.effect(one, group, at)) and found[0]]
            for one in after:
                if one not in seen:
                    seen.add(one)
                    todo.append(one)
            if len(seen) > MOST_VALUATIONS:
                raise Refused("%s have more than %d values together" % (", ".join(group.variables), MOST_VALUATIONS))
        return seen
