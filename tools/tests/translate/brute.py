"""The least sets of events by which some firing order ends with an observer at a value: all orders are tried, over the
system of the model as it is written. Nothing here knows of trees, groups or shocks."""
from translate import expressions
from translate.system import Fault


class TooMany(Exception):
    """There are too many states to try."""


def least(sets):
    """The sets that have none of the others in them."""
    found = []
    for one in sorted(set(map(frozenset, sets)), key=len):
        if not any(other <= one for other in found):
            found.append(one)
    return set(found)


class Orders:
    """The firing orders of a system: `states` reached, each with a set of events, where the flows hold."""

    def __init__(self, system, asked, most=200000):
        self.system, self.asked, self.most = system, asked, most
        self.ways = [way for way in system.ways if not way.hidden and way.event not in asked.drop]
        self.states, self.conflicts, self._flows = [], [], {}
        self._walk()

    def _all_at(self, values):
        if values not in self._flows:
            try:
                self._flows[values] = self.system.flows(dict(zip(self.system.states, values)))
            except Fault:
                self._flows[values] = None
        return self._flows[values]

    def _walk(self):
        todo = [(tuple(self.system.start().values()), frozenset())]
        seen = set(todo)
        while todo:
            values, used = todo.pop()
            known = self._all_at(values)
            if known is None:
                self.conflicts.append(used)
                continue
            now = [way for way in self.ways if way.event in self.asked.at_once and self._changes(way, known)]
            if not now:
                self.states.append((known, used))
            for way in now or self._possible(known):
                if self.asked.once and way.event in used:
                    continue
                try:
                    sets = self.system.effect(way, known)
                except Fault:
                    continue
                if sets is None:
                    continue
                after = tuple(sets.get(path, it) for path, it in zip(self.system.states, values)), used | {way.event}
                if after not in seen:
                    seen.add(after)
                    todo.append(after)
            if len(seen) > self.most:
                raise TooMany()

    def _changes(self, way, known):
        sets = self.system.effect(way, known)
        return bool(sets) and any(known[path] != it for path, it in sets.items())

    def _possible(self, known):
        """The ways to try; with `broadcast`, of the ways of a synchronised event those by which most parts take place."""
        if not self.asked.broadcast:
            return self.ways
        found, best = [], {}
        for way in self.ways:
            if way.parts is None:
                found.append(way)
                continue
            took = sum(self.system.effect(self.system.way[event, number], known) is not None for _, event, number in way.parts)
            best.setdefault(way.event, []).append((took, way))
        for ways in best.values():
            most = max(took for took, _ in ways)
            found += [way for took, way in ways if took == most]
        return found

    def sets(self, observer, value=True):
        """The least sets of an observer at a value."""
        tree = self.system.observers[observer]
        return least(used for known, used in self.states if expressions.value(tree, known) == value)
