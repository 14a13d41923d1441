"""Unfolds each group into trees of modes: a mode for each least set of events by which values of the group are reached;
a further tree behind each shock. Not proved."""
import heapq

from translate import shocks
from translate.groups import Node
from translate.refused import Refused

MOST_MODES = 64
MOST_AFTER_SHOCKS = 2000


class Unfolding:
    """The trees of one group."""

    def __init__(self, groups, group):
        self.groups, self.group, self.total = groups, group, 0
        self._component(groups.start(group), (), None, [], frozenset())
        if not groups.asked.once and group.cluster and len(group.cluster.events) == 1:
            self._once_is_enough()

    def _component(self, values, used, parent, by, events):
        """The tree from some values: fewest events first, so that a set of events is least where none before is in it."""
        found = self.group.add(used, parent, by)
        found.keys = [(*key, one) for key in parent.component.keys for one in by] if parent else [()]
        queue, count = [(len(events), 0, values, events, None, None)], 0
        while queue:
            _, _, at, so_far, above, move = heapq.heappop(queue)
            least = self._is_least(found, at, so_far)
            if not least and above:
                continue
            node = self._node(found, at, so_far, above, move)
            # A root that is not least stays for its shocks; what follows from it is reached by fewer events elsewhere.
            for one, also, after in self.groups.moves(self.group, at) if least else ():
                more = so_far | {one.event, *also}
                if self.groups.asked.once and (one.event in so_far or so_far & set(also)):
                    continue
                count += 1
                heapq.heappush(queue, (len(more), count, after, more, node, (one, also)))
        if self.group.cluster:
            for node in list(found.nodes):
                self._struck(found, node)
        return found

    def _is_least(self, component, values, events):
        """Whether these values are not reached by fewer events already, by the same ways of shocks; then this is kept. What
        comes by other ways of a shock does not count: those ways do other things to other groups."""
        found = False
        for key in component.keys:
            known = self.group.least.setdefault((key, values), [])
            if not any(other <= events for other in known):
                known.append(events)
                found = True
        return found

    def _node(self, component, values, events, above, move):
        node = Node(component, values, len(component.nodes), events)
        component.nodes.append(node)
        self.total += 1
        names = ", ".join(self.group.variables)
        place = move[0].place if move else None
        if len(component.nodes) > MOST_MODES:
            raise Refused("%s: more than %d least sets of events lead to modes, and each would be a mode" % (names, MOST_MODES),
                          place)
        if self.total > MOST_AFTER_SHOCKS:
            raise Refused("%s: more than %d modes after shocks" % (names, MOST_AFTER_SHOCKS), place)
        if above:
            above.moves.append((*move, node))
            if move[0].event in above.events:
                self.groups.ways.note("%s happens more than once before %s: a set counts it once"
                                      % (move[0].event, self.groups.show(self.group, values)), place)
        return node

    def _struck(self, component, node):
        if self.group.cluster.simple:
            self._struck_simply(component, node)
            return
        alike = {}
        for one in self.group.shocks:
            found = None if one.event in component.used else self.groups.effect(one, self.group, node.values)
            if found is None:
                continue
            if found[1] == node.values and not shocks.moves_later(self.groups, self.group, node.values, one):
                continue
            if not self.groups.asked.once and len(self.group.cluster.events) > 1 and found[1] != node.values:
                shocks.refuse_second(self.groups, self.group, found[1], one)
            alike.setdefault((one.event, found[1]), []).append((one.event, one.number))
        for (event, values), by in alike.items():
            self._component(values, (*component.used, event), node, by, node.events | {event})

    def _struck_simply(self, component, node):
        """One further mode, whichever of the shocks comes."""
        if component.used:
            return
        ends = [(one, end) for one in self.group.shocks if (end := shocks.changes(self.groups, one, self.group, node.values))]
        if ends:
            by = [(one.event, one.number) for one, _ in ends]
            self._component(ends[0][1], tuple(self.group.cluster.events), node, by, node.events)

    def _once_is_enough(self):
        """A shock may come again; it need not, if each mode where it would move the group again is also reached without
        it, by events among those of the way to that mode."""
        plain = self.group.components[0].nodes
        for component in self.group.components[1:]:
            for node in component.nodes:
                for one in self.group.shocks:
                    if shocks.changes(self.groups, one, self.group, node.values) and not any(
                            other.values == node.values and other.events <= node.events for other in plain):
                        raise Refused("%s may move %s again after it has moved it (where %s), and that mode is not reached "
                                      "without it: drop what leads there"
                                      % (one.event, ", ".join(self.group.variables), self.groups.show(self.group, node.values)),
                                      one.place)


def unfold(groups):
    """The trees of all groups, and the clusters of their shocks."""
    clusters = shocks.find_clusters(groups)
    for group in groups.groups:
        Unfolding(groups, group)
    return clusters
