"""The members of the new model, unit by unit: states for the trees of modes, events for their edges, and the old
states as flows. Not proved."""
from collections import Counter
from dataclasses import dataclass, field
from functools import cached_property

from translate import expressions
from translate.elaborate import joined, name_of, unit_of
from translate.expressions import FALSE, TRUE
from translate.refused import Refused


@dataclass
class Transition:
    """A new transition: its event, its text, and the member of the text in whose place it comes, or None; then it comes
    at the end of the body that has `anchor`."""
    event: str
    text: str
    instead_of: object = None
    anchor: object = None


@dataclass
class UnitPlan:
    """What changes in a unit: its transitions that are kept (by identity), its variables that become flows, and what is
    new, each thing with a member of the text behind it in whose body it comes, or None for the body of the unit."""
    kept: set = field(default_factory=set)
    flows: set = field(default_factory=set)
    variables: list = field(default_factory=list)
    events: list = field(default_factory=list)
    transitions: list = field(default_factory=list)
    assertions: list = field(default_factory=list)

    @cached_property
    def instead(self):
        """The texts of new transitions that come in the place of a member, by its identity."""
        found = {}
        for one in self.transitions:
            found.setdefault(id(one.instead_of), []).append(one.text)
        return found


def common(units):
    """The lowest unit that is above all of some units, or one of them."""
    found = []
    for words in zip(*[unit.split(".") if unit else [] for unit in units]):
        if len(set(words)) > 1:
            break
        found.append(words[0])
    return ".".join(found)


def within(unit, path):
    """A path as it is written in a unit above what it names."""
    return path[len(unit) + 1:] if unit else path


def _merged(cases):
    """The cases with neighbours of one value as one."""
    found = []
    for test, then in cases:
        if found and found[-1][1] == then:
            found[-1] = expressions.any_of([found[-1][0], test]), then
        else:
            found.append((test, then))
    return found


def _is_truth(tree):
    return tree[0] == "value" and isinstance(tree[1], bool)


def _choice(cases, last):
    """The value of the first case that holds, else the last; of truth values as short as it can be."""
    found, cases = last, _merged(cases)
    while cases and cases[-1][1] == last:
        cases.pop()
    for test, then in reversed(cases):
        if _is_truth(then) and _is_truth(found):
            found = then if then == found else test if then[1] else expressions.no(test)
        elif _is_truth(then):
            found = expressions.any_of([test, found]) if then[1] else expressions.all_of([expressions.no(test), found])
        elif found[0] == "switch":
            found = ("switch", ((test, then), *found[1]), found[2])
        else:
            found = ("switch", ((test, then),), found)
    return found


def flattened(path):
    return path.replace(".", "__")


class Plan:
    """The plan of a translation. `map` says of each new event which old ones it stands for."""

    def __init__(self, elaboration, groups, names):
        self.elaboration, self.system, self.groups, self.names = elaboration, groups.system, groups, names
        self.units = {unit: UnitPlan() for unit in elaboration.units}
        self.map, self.copies = {}, Counter()
        self.order = {event: number for number, event in enumerate(self.system.fired)}
        for group in groups.groups:
            self._unit(group)
        for group in groups.groups:
            self._states(group)
        for group in groups.groups:
            self._events(group)
        for group in groups.groups:
            if not group.keeps and len(group.components) == 1:
                self.project(group, group.unit, lambda component: TRUE)

    # -- trees of modes ---------------------------------------------------------------------------------------------
    def _unit(self, group):
        moves = [(one, node) for component in group.components for node in component.nodes for one, _, _ in node.moves]
        first = group.components[0]
        home = unit_of(group.variables[0])
        values = self.system.variables[group.variables[0]].domain.values
        group.unit = common([unit_of(path) for path in [*group.variables, *[one.event for one, _ in moves]]])
        group.keeps = (len(group.variables) == 1 and len(group.components) == 1
                       and len({one.event for one, _ in moves}) == len(moves)
                       and len({node.values for node in first.nodes}) == len(first.nodes)
                       and all(unit_of(one.event) == home and one.is_local for one, _ in moves)
                       and not any(it in self.names.members for it in values)
                       and not any(also for node in first.nodes for _, also, _ in node.moves)
                       and first.nodes[0].values == (self.system.variables[group.variables[0]].value,))

    def _states(self, group):
        """The state variables of the trees of a group."""
        if group.keeps:
            group.components[0].variable = group.variables[0]
            return
        for path in group.variables:
            self.units[unit_of(path)].flows.add(name_of(path))
        wish = "__".join(flattened(within(group.unit, path)) for path in group.variables)
        for component in group.components:
            if len(component.nodes) == 1:
                continue
            suffix = "__way" if component.number == 0 else "__after%d" % component.number
            name = self.names.member(group.unit, wish + suffix)
            component.variable = joined(group.unit, name)
            taken = set()
            for node in component.nodes:
                node.name = self.names.mode(self._mode_wish(group, node), taken)
                taken.add(node.name)
            domain = self.names.domain(node.name for node in component.nodes)
            self.add_variable(group.unit, self._anchor(group), "%s %s (init = %s);" % (domain, name, component.nodes[0].name))

    def _mode_wish(self, group, node):
        def word(path, it):
            if isinstance(it, str):
                return it
            return "%s_%s" % (name_of(path), expressions.word(it).replace("-", "minus"))
        return "__".join(word(path, it) for path, it in zip(group.variables, node.values))

    def _anchor(self, group):
        """The declaration behind which the states of a group come, where it is in the unit of the group."""
        first = self.system.variables[group.variables[0]]
        return first.member if first.unit == group.unit else None

    def add_variable(self, unit, anchor, text):
        self.units[unit].variables.append((anchor, text))

    # -- events -------------------------------------------------------------------------------------------------------
    def _events(self, group):
        kept = self._as_they_are(group)
        moves = [(component, node, *move) for component in group.components for node in component.nodes for move in node.moves]
        for component, node, one, also, after in sorted(moves, key=lambda move: self.order[move[2].event]):
            name = self.event_name(group.unit, one.event, anchor=self._anchor(group))
            self.map[joined(group.unit, name)] = dict(event=one.event, way=one.number, also=list(also))
            if one.event in kept:
                continue
            variable = name_of(component.variable)
            guard = self.text(self.at(component, [node]), group.unit)
            text = "%s: %s -> %s := %s;" % (name, guard, variable, self.mode_text(component, after))
            place = self._place_of(group, one.event)
            self.units[group.unit].transitions.append(Transition(name, text, place, self._anchor(group)))

    def event_name(self, unit, event, wish=None, anchor=None):
        """The name of the next event that stands for an old one; the first keeps the name where it is in its unit."""
        self.copies[event] += 1
        if self.copies[event] == 1 and unit_of(event) == unit:
            return name_of(event)
        name = self.names.member(unit, wish or flattened(within(unit, event)))
        self.units[unit].events.append((anchor, self.order[event], name))
        return name

    def _place_of(self, group, event):
        """The first transition of the event, where it is in the unit of the group."""
        if unit_of(event) != group.unit:
            return None
        return self.elaboration.split[event][0][1]

    def _as_they_are(self, group):
        """The events of a group that keeps its state whose transitions stay as they are in the text."""
        if not group.keeps:
            return set()
        path, found = group.variables[0], set()
        nodes = group.components[0].nodes
        for event in {one.event for one in group.own}:
            ways = [one for one in group.own if one.event == event]
            members = self.elaboration.split[event]
            if len(members) != len(ways) or not all(one.is_local and self._names_only(one.source, path) for one in ways):
                continue
            edges = {(node.values, after.values) for node in nodes for one, _, after in node.moves if one.event == event}
            done = [(node.values, self.groups.effect(one, group, node.values)) for node in nodes for one in ways]
            if len(edges) <= 1 and sorted(edges, key=str) == sorted(((at, end[1]) for at, end in done if end), key=str):
                found.add(event)
                self.units[group.unit].kept.update(id(member) for _, member in members)
        return found

    def _names_only(self, way, path):
        named = expressions.names(way.guard).union(*(
            {one.target} | expressions.names(one.value) | set().union(*(expressions.names(c) for c, _ in one.conditions))
            for one in way.sets))
        return named == {path}

    # -- what modes mean ------------------------------------------------------------------------------------------------
    def mode_text(self, component, node):
        if component.group.keeps:
            return expressions.bare(expressions.text(("value", node.values[0])))
        return node.name

    def at(self, component, nodes):
        """That the variable of a component is at one of some nodes."""
        if not component.variable or len(nodes) == len(component.nodes):
            return ("value", bool(nodes))
        variable = ("variable", component.variable)
        if component.group.keeps:
            if isinstance(nodes[0].values[0], bool):
                return variable if nodes[0].values[0] else ("not", variable)
            return expressions.any_of(("==", variable, ("value", node.values[0])) for node in nodes)
        return expressions.any_of(("==", variable, ("value", node.name)) for node in nodes)

    def text(self, tree, unit):
        """The text of a tree in a unit above all that it names."""
        return expressions.bare(expressions.text(tree, lambda path: within(unit, path)))

    def project(self, group, unit, entered):
        """The assignments that give the old variables of a group their values, in a unit; `entered` says of a component
        that the last shock led there."""
        def depth(component):
            return 0 if component.parent is None else 1 + depth(component.parent.component)
        components = sorted(group.components, key=depth, reverse=True)
        for number, path in enumerate(group.variables):
            cases = [(entered(one), self._values(one, number)) for one in components if entered(one) != FALSE]
            tree = _choice(cases[:-1], cases[-1][1])
            self.assign(unit, path, tree, self.system.variables[path])

    def _values(self, component, number):
        """The value of a variable at each mode of a component."""
        nodes = {}
        for node in component.nodes:
            nodes.setdefault(node.values[number], []).append(node)
        items = sorted(nodes.items(), key=lambda item: len(item[1]))
        return _choice([(self.at(component, some), ("value", it)) for it, some in items[:-1]], ("value", items[-1][0]))

    def assign(self, unit, path, tree, variable):
        """An assertion in the lowest unit, from this one upward, where no member hides a symbol of it."""
        symbols = {it for it in variable.domain.values if isinstance(it, str)}
        while any(self._is_member(unit, symbol) for symbol in symbols):
            if not unit:
                raise Refused("the symbols of %s are names of members of all units above it: rename one of them" % path,
                              variable.token)
            unit = unit_of(unit)
        anchor = variable.member if variable.unit == unit else None
        self.units[unit].assertions.append((anchor, "%s := %s;" % (within(unit, path), self.text(tree, unit))))

    def _is_member(self, unit, name):
        return self.elaboration.bodies.find(self.elaboration.units[unit].scope, name) is not None
