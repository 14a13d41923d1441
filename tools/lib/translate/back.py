"""A listing of a translated model in the names of the first one. Not proved."""
import re
from collections import ChainMap

import lists
from command import shown
from translate import expressions
from translate.elaborate import elaborate
from translate.places import place_in
from translate.refused import Refused
from translate.source import Source
from translate.system import Fault

MOST_STATES = 4096
FAULT = re.compile(r"fault: \{(.*)\}: (.*)")
MODULES = re.compile(rb"module |lines [0-9]+$")
ASSIGNMENT = re.compile(r"assignment ([0-9]+) at ([0-9]+):([0-9]+)")


def least(sets):
    """The sets that have none of the others in them, fewest events first."""
    found = []
    by_event = {}
    for one in sorted(set(sets), key=len):
        if not one:
            return [one]
        if any(other <= one for event in one for other in by_event.get(event, ())):
            continue
        found.append(one)
        by_event.setdefault(min(one), []).append(one)
    return found


def old_events(events, label):
    """The old events that a new one stands for."""
    found = events.get(label.split("#")[0])
    return [label] if found is None else [found["event"], *found["also"]]


def steps_of(events, label):
    """The same, each with its way, or None where any will do."""
    found = events.get(label.split("#")[0])
    if found is None:
        return [(label, None)]
    return [(found["event"], found["way"]), *[(event, None) for event in found["also"]]]


class Orders:
    """Orders in which events of the first model fire."""

    def __init__(self, system, goal=None):
        self.system, self.goal, self.start, self.by_event = system, goal, system.start(), {}
        for way in system.ways:
            self.by_event.setdefault(way.event, []).append(way)

    def _ends(self, state):
        """Whether the observer has its value at a state."""
        if self.goal is None:
            return True
        observer, value = self.goal
        try:
            return expressions.value(self.system.observers[observer], self.system.flows({**self.start, **state})) == value
        except Fault:
            return False

    def _after(self, way, state):
        """The values that differ from the start after a way, or None where it cannot fire; `state` has those before it."""
        try:
            sets = self.system.effect(way, ChainMap(state, self.start))
        except Fault:
            return None
        return None if sets is None else {path: it for path, it in {**state, **sets}.items() if it != self.start[path]}

    def as_written(self, steps):
        """The labels of steps in their order, if they fire in it."""
        state, labels = {}, []
        for event, number in steps:
            for way in self.by_event.get(event, ()):
                after = self._after(way, state) if number in (None, way.number) else None
                if after is not None:
                    break
            else:
                return None
            state = after
            labels.append((event, way.number))
        return labels if self._ends(state) else None

    def some(self, wanted):
        """The labels of some order of a set of events, each once, or None where there is none or too many are to be
        tried."""
        todo, seen = [({}, frozenset(), ())], {(frozenset(), frozenset())}
        while todo and len(seen) < MOST_STATES:
            state, used, labels = todo.pop()
            if used == wanted and self._ends(state):
                return list(labels)
            for event in sorted(wanted - used):
                for way in self.by_event.get(event, ()):
                    after = self._after(way, state)
                    key = after is not None and (frozenset(after.items()), used | {event})
                    if key and key not in seen:
                        seen.add(key)
                        todo.append((after, used | {event}, (*labels, (event, way.number))))
        return None


class Listing:
    """The lines of a listing of the new model, which has a name, with the map of its events."""

    def __init__(self, name, lines, found):
        self.name, self.lines, self.map, self.notes = name, lines, found, []
        self.elaboration, self.system = elaborate(Source(found["text"], found["main"]))
        self.number = {event: number for number, event in enumerate(self.system.fired)}

    def values_of(self, observer):
        """The values that an observer may have, or None of one that is a whole number."""
        tree = self.elaboration.tree
        kind = tree.places[observer][2].parts[0]
        domain = tree.bodies.domains.get(kind.text)
        if kind.kind == "Boolean":
            return True, False
        return None if domain is None or domain.symbols is None else [symbol.text for symbol in domain.symbols]

    def written(self, leave_out=(), goal=None):
        """The listing in the old names; `goal` is an observer and the value with which the order of each line ends."""
        cuts = self._cuts()
        if isinstance(cuts, str):
            return self._fault(cuts)
        lines = {}
        for labels in cuts:
            steps = [step for label in labels for step in steps_of(self.map["events"], label)]
            key = frozenset(event for event, _ in steps if event not in leave_out)
            lines.setdefault(key, [step for step in steps if step[0] not in leave_out])
        unknown = sorted({event for key in lines for event in key if event not in self.number})
        if unknown:
            raise Refused("%s is no event of the model of this map: is the listing of another model?" % unknown[0])
        sets = sorted(least(lines), key=lambda one: sorted(self.number[event] for event in one))
        if len(sets) < len(lines):
            left_out = len(cuts) - len(sets)
            said = "1 line is" if left_out == 1 else "%d lines are" % left_out
            self.notes.append("%s left out: in the names of the first model %s the same as others, or with others in them"
                              % (said, "it is" if left_out == 1 else "they are"))
        orders = Orders(self.system, goal)
        written = ["{%s}" % ", ".join(self._labels(orders, one, lines[one])) for one in sets]
        return "\n".join([*written, "count %d" % len(sets)]) + "\n"

    def _cuts(self):
        """The labels of each cut; the line of a fault in place of them."""
        lines = [line.strip(lists.BLANKS) for line in self.lines]
        last = next((line for line in reversed(lines) if line), b"")
        if last.startswith(b"fault: "):
            return last.decode("latin-1")
        if any(MODULES.match(line) for line in lines):
            raise Refused("this is a listing of modules: the modules of the new model are not those of the first; write "
                          "`cuts` back")
        if lists.order_of(self.lines) is not None:
            raise Refused("this is a listing up to an order: an event of the new model may be several of the first, so which "
                          "sets are small differs; write the listing of all cuts back")
        if not lists.COUNT.fullmatch(last):
            raise Refused("this is no listing of `cuts`: its last line is not `count N`")
        return [[label.decode("latin-1") for label in labels] for labels in lists.cuts_of(self.name, self.lines)]

    def _labels(self, orders, one, steps):
        found = orders.as_written(steps)
        if found is None or len(found) != len(one):
            found = orders.some(one)
        if found is None:
            unfired = "of some lines no order fires in the first model, each event once: an event happens more than once"
            if unfired not in self.notes:
                self.notes.append(unfired)
            found = [(event, 1) for event in sorted(one, key=self.number.get)]
        several = {event for event in one if len(orders.by_event[event]) > 1}
        return ["%s#%d" % step if step[0] in several else step[0] for step in found]

    def _fault(self, line):
        """The line of a fault, with old events and the place in the first text."""
        if not FAULT.fullmatch(line):
            raise Refused("this is no listing of `cuts`: its last line is no fault of a set of events")
        labels, what = FAULT.fullmatch(line).groups()
        events = dict.fromkeys(event for label in labels.split(", ") if label for event in old_events(self.map["events"], label))
        self.notes.append("after these events the flows contradict each other, or one is outside its domain (a wider --range may help); "
                          "this set need not be the first or a least one")
        return "fault: {%s}: %s\n" % (", ".join(events), ASSIGNMENT.sub(self._assignment, what))

    def _assignment(self, found):
        file, line, column = place_in(self.map["places"], self.map["files"], int(found[2]), int(found[3]))
        return "an assignment at %s:%d:%d" % (shown(file), line, column)
