"""Like units of a model, those of one class, and whether they can be exchanged in a set of cut sets. Not proved.

Two units can be exchanged where the cut sets stay the same when each event of the one is written for that of the other. This
holds in both directions, and of three units of which two pairs can be exchanged the third can be too: so the units of a class
fall into groups.
"""
from collections import namedtuple

import texts

Twinless = namedtuple("Twinless", "first second lost cut concerned")
"""Two units that cannot be exchanged: how many cut sets have no twin, the first of these, and how many have an event of them."""


def class_of(node, nodes):
    """The class of a unit; that of a clone is the one of what it copies, or the path of that."""
    seen = set()
    while node.kind == "clone" and node.path not in seen:
        seen.add(node.path)
        above, _, _ = node.path.rpartition(".")
        target = node.of.split(".")
        if target[0] == "main":
            above, target = "", target[1:]
        elif target[0] == "owner":
            above, target = above.rpartition(".")[0], target[1:]
        path = ".".join([above, *target] if above else target)
        if path not in nodes:
            return path
        node = nodes[path]
    return node.of if node.kind == "part" else node.path


def classes(tree):
    """The units of each class of which there are several."""
    nodes, found = {node.path: node for node in tree.nodes}, {}
    for node in tree.nodes[1:]:
        found.setdefault(class_of(node, nodes), []).append(node.path)
    return {name: paths for name, paths in found.items() if len(paths) > 1}


def is_below(label, path):
    event = texts.event_of(label)
    return event.startswith(path + ".")


class Cuts:
    """A set of cut sets, and which of them have an event of a unit."""

    def __init__(self, cuts):
        self.cuts = list(dict.fromkeys(frozenset(cut) for cut in cuts))
        self.all, self.with_unit = set(self.cuts), {}
        for number, cut in enumerate(self.cuts):
            for label in cut:
                words = texts.event_of(label).split(".")[:-1]
                for count in range(1, len(words) + 1):
                    self.with_unit.setdefault(".".join(words[:count]), set()).add(number)

    def of(self, path):
        return self.with_unit.get(path, set())

    def twinless(self, pairs):
        """The cut sets without a twin where the units of each pair are exchanged, those with few events first; and how many
        have an event of one of the units."""
        names = {**dict(pairs), **{second: first for first, second in pairs}}
        concerned = set().union(*(self.of(path) for path in names))
        found = [self.cuts[number] for number in sorted(concerned) if exchanged(self.cuts[number], names) not in self.all]
        return sorted(found, key=len), len(concerned)


def exchanged(cut, names):
    """A cut set with the events of the units in place of each other."""
    return frozenset(renamed(label, names) for label in cut)


def renamed(label, names):
    words = label.split(".")
    for count in range(len(words) - 1, 0, -1):
        path = ".".join(words[:count])
        if path in names:
            return ".".join([names[path], *words[count:]])
    return label


def groups(cuts, paths):
    """The units of a class in groups of those that can be exchanged. A unit inside another one is left to itself."""
    found = []
    for path in paths:
        group = next((group for group in found if not is_nested(group[0], path) and not cuts.twinless([(group[0], path)])[0]), None)
        if group is None:
            found.append([path])
        else:
            group.append(path)
    return found


def odd_one(cuts, paths):
    """The one unit of a class that cannot be exchanged with the others, where all others can be with each other and most cut
    sets have a twin all the same; with one of the others, as `Twinless`. None where there is no such unit."""
    found = []
    for path in paths:
        group = next((group for group in found if not is_nested(group[0], path) and not cuts.twinless([(group[0], path)])[0]), None)
        if group is None:
            found.append([])
        (found[-1] if group is None else group).append(path)
        if len(found) > 2:
            return None
    if len(found) != 2 or min(map(len, found)) > 1 or len(paths) < 3:
        return None
    (odd,), others = sorted(found, key=len)
    if is_nested(odd, others[0]):
        return None
    lost, concerned = cuts.twinless([(odd, others[0])])
    return Twinless(odd, others[0], len(lost), lost[0], concerned) if 2 * len(lost) < concerned else None


def is_nested(first, second):
    return first.startswith(second + ".") or second.startswith(first + ".")


def different(cuts, paths):
    """For each two groups of a class what tells their first units apart, the least difference first."""
    found, heads = [], [group[0] for group in groups(cuts, paths)]
    for number, first in enumerate(heads):
        for second in heads[number + 1:]:
            lost, concerned = cuts.twinless([(first, second)]) if not is_nested(first, second) else ([], 0)
            if lost:
                found.append(Twinless(first, second, len(lost), lost[0], concerned))
    return sorted(found, key=lambda one: (one.lost / one.concerned, one.lost, one.first, one.second))
