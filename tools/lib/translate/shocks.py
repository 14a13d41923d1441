"""Shocks, the events that move several groups: which of them meet, and when their order matters. Not proved."""
from dataclasses import dataclass

from translate.groups import Joined
from translate.refused import Refused

MOST_ORDERED = 3


@dataclass(eq=False)
class Cluster:
    """Shocks that move a group together, or that are ways of one event. `stages` is the number of places in the order
    for which each event has its own, 1 where the order does not matter."""
    ways: list
    events: list
    groups: list
    simple: bool
    stages: int

    def meets(self, group):
        return [one for one in self.ways if group in one.groups]


def find_clusters(groups):
    """The clusters of the shocks of some groups, each given to its groups too."""
    by_order = {one.order: one for one in groups.shocks}
    joined = Joined(by_order)
    shared = {}
    for one in groups.shocks:
        for thing in (one.event, *[group.number for group in one.groups]):
            shared.setdefault(thing, []).append(one.order)
    for orders in shared.values():
        joined.join(orders)
    return [_cluster(groups, [by_order[order] for order in sorted(orders)]) for orders in joined.classes()]


def _cluster(groups, ways):
    events = list(dict.fromkeys(one.event for one in ways))
    numbers = sorted({group.number for one in ways for group in one.groups})
    found = Cluster(ways, events, [groups.groups[number] for number in numbers], False, 1)
    found.simple = (len(events) > 1 and all(mark == "?" for one in ways for mark, _ in one.parts)
                    and all(_is_simple(groups, group, found) for group in found.groups))
    found.stages = 1 if found.simple else len(events)
    if found.stages > MOST_ORDERED:
        raise Refused("the order of %s matters, and they are more than %d" % (", ".join(events), MOST_ORDERED), ways[0].place)
    if found.stages > 1:
        groups.ways.note("the order of %s matters: each has an event for each place in the order" % ", ".join(events),
                         ways[0].place)
    for group in found.groups:
        group.cluster = found
    return found


def changes(groups, one, group, values):
    """The values after a shock where it changes them, or None."""
    found = groups.effect(one, group, values)
    return found[1] if found and found[0] and found[1] != values else None


def _is_simple(groups, group, cluster):
    """Whether the order of the shocks does not matter for a group: each leads to one and the same end from each mode,
    nothing follows, and no shock that passes the group first could hit it later."""
    ways = cluster.meets(group)
    for values in groups.reached(group, groups.start(group)):
        ends = {end for one in ways if (end := changes(groups, one, group, values))}
        if len(ends) > 1:
            return False
        for end in ends:
            if any(True for _ in groups.moves(group, end)) or any(changes(groups, one, group, end) for one in ways):
                return False
        for _, _, after in groups.moves(group, values):
            if any(changes(groups, one, group, after) and not changes(groups, one, group, values) for one in ways):
                return False
    return True


def moves_later(groups, group, values, shock):
    """Whether a shock that does not move the group here may move it later, so that it matters when it came."""
    others = [one for one in group.shocks if one.event != shock.event]
    for later in groups.reached(group, values, others):
        for one in group.shocks:
            if one.event == shock.event:
                found = groups.effect(one, group, later)
                if later != values and (found is None or found[1] != later):
                    return True
                if later == values and one is not shock and found and found[1] != later:
                    return True
    return False


def refuse_second(groups, group, values, shock):
    """Refuses a shock that may move the group once more after these values."""
    for later in groups.reached(group, values, group.shocks):
        for one in group.shocks:
            if one.event == shock.event and changes(groups, one, group, later):
                raise Refused("%s may move %s again after it has moved it (where %s): drop what leads back there"
                              % (one.event, ", ".join(group.variables), groups.show(group, later)), one.place)
